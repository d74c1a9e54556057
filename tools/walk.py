#!/usr/bin/env python3
"""Counts what `retime IN OUT --cert F` can pass through: the functions that are reached from `main` by a call graph made from the
names in the sources, their files and their crates, and how many calls it is to the reading. ASCII files, lines, no map, no
merging, the greatest sets. A method is each of that name whose type or trait is seen, so the figures are good to a few in a hundred;
two trees are compared by the same count.

    tools/walk.py [TREE] [--names]"""
import argparse
import collections
import pathlib
import re

TOP = pathlib.Path(__file__).resolve().parent.parent
# What such a run never calls: other commands, binary files, objects of JSON, maps, merging, the smallest sets.
OTHER_CRATES = set("""binary_file json_reports map_circuits retiming_maps map_checks map_commands moving_commands latch_merging batch_pool lane_sim
    witnesses pictures certificate_audits simulation_commands map_miters backward_sets backward_rows
    backward_moves backward_circuits backward_retiming class_circuits class_drafts class_retiming witness_circuits""".split())
# The same of files of a crate that it calls: waves, lists of files, pages of faults.
OTHER_FILES = {
    'reports': set('waves dump moment names probes room times values'.split()),
    'circuit_files': set("""entry read circuit_pages hints line message name_hints named_fault near_faults near_names other_pages page
        pages reasons returns showing smallest_file spelling""".split()),
}
OTHER_FUNCTIONS = set("""retime_list print_statistics convert print_simulation print_comparison print_verification write_picture
    print_witness_back print_moves write_lifted write_miter retime_spelt_mapped print_check explain print_object mapped_between mapped_answer map_written
    merge_latches chosen_smallest
    smallest_cut smallest_certified report_usage report_unreadable_arguments bytes_at stimulus_at certificates_at
    witness_at""".split())
# Names of methods of the standard library: a call of one is ours only where the file names its type.
OF_STD = set("""len push pop get new iter next clone as_slice as_mut_slice is_empty with_capacity from into take replace swap insert
    remove contains min max map unwrap_or ok err is_ok is_err is_some is_none copied write read flush fmt eq drop to_vec extend
    reverse last first fill truncate clear reserve position any all sum count rev zip enumerate filter find entry as_ref as_mut
    as_str as_bytes lines split trim parse join load store write_str run""".split())
# The library's calls that read a circuit.
READING = ('read_and_write', 'circuit_at')

TURBOFISH = r'(?:::<[^()]*?>)?'
PATH = re.compile(rf'(?:(\w+){TURBOFISH}::)?\b([a-z_]\w*){TURBOFISH}\s*(?=\()')
METHOD = re.compile(rf'\.\s*([a-z_]\w*){TURBOFISH}\s*\(')
BY_NAME = re.compile(r'[(,]\s*(?:(\w+)::)?([a-z_]\w*)\s*(?=[,)])')
USE = re.compile(r'\buse ([\w:]+?)::(?:\{([^}]*)\}|(\w+));')

# A function: its owner is the type or trait of its block, where it has one.
Function = collections.namedtuple('Function', 'crate path owner name')
Block = collections.namedtuple('Block', 'start end owner trait')


def code_of(text):
    """The code alone: no comments, texts, attributes or ghost lines."""
    for pattern, plain in ((r'//[^\n]*', ''), (r'b?"(?:[^"\\]|\\.)*"', '""'), (r"b?'(?:[^'\\\n]|\\.[^'\n]*)'", "' '"),
                           (r'\bghost use [^;]*;', ''), (r'#!?\[[^\]]*\]', '')):
        text = re.sub(pattern, plain, text)
    return text


def closing(text, start):
    """The place after the brace that closes the one here."""
    depth = 0
    for place in range(start, len(text)):
        depth += {'{': 1, '}': -1}.get(text[place], 0)
        if depth == 0:
            return place + 1
    return len(text)


def signature_and_body(text, start):
    """Those of the function whose name ends here, without clauses; no body where a trait only names it."""
    place, signature = start, ''
    clause = re.compile(r'\s*(?:requires|ensures)\*?\s*\w*\s*(?=\{)')
    while place < len(text):
        found = clause.match(text, place)
        if found:
            place = closing(text, found.end())
        elif text[place] == '{':
            return signature, text[place:closing(text, place)]
        elif text[place] == ';' and signature.count('[') == signature.count(']'):
            break
        else:
            signature += text[place]
            place += 1
    return signature, None


def blocks_of(text):
    """The blocks of impls and traits."""
    for head in re.finditer(r'\b(impl|trait)\b([^{;]*)\{', text):
        plain = re.sub(r'<(?:[^<>]|<[^<>]*>)*>', '', head[2]).replace('&mut', '').replace('&', '')
        trait, _, owner = plain.rpartition(' for ')
        names = re.findall(r'\w+', re.split(r' where |:', owner)[0])
        if names:
            of_trait = re.findall(r'\w+', trait)[-1:] or ([names[0]] if head[1] == 'trait' else [None])
            yield Block(head.start(), closing(text, head.end() - 1), names[0] if head[1] == 'trait' else names[-1], of_trait[0])


class Tree:
    """The functions of a tree, and what its files import and hand on."""

    def __init__(self, top):
        listed = re.findall(r'^(\w+)[^:#\n]*:', (top / 'crates.txt').read_text(), re.M)
        self.crates = [crate for crate in listed if not crate.endswith('_tests')]
        self.texts, self.imported, self.bodies, self.named = {}, {}, {}, collections.defaultdict(list)
        self.traits, self.handed_on, self.sees = collections.defaultdict(set), collections.defaultdict(dict), collections.defaultdict(set)
        for crate in self.crates:
            for path in sorted((top / 'crates' / crate / 'src').rglob('*.rt')):
                if not path.stem.endswith('tests') and 'tests' not in path.parts:
                    self.add_file(crate, path)

    def add_file(self, crate, path):
        text = self.texts[path] = code_of(path.read_text())
        self.sees[crate] |= set(re.findall(r'\b(\w+)::', text)) & set(self.crates)
        uses = [(found[1].split('::')[0], name) for found in USE.finditer(text) for name in re.findall(r'\w+', found[2] or found[3])]
        self.imported[path] = {name: home for home, name in uses}
        if path.stem == 'lib':
            self.handed_on[crate] = {name: home for home, name in uses if home in self.crates}
        blocks = list(blocks_of(text))
        for found in re.finditer(r'\bfn (\w+)', text):
            inside = [block for block in blocks if block.start < found.start() < block.end]
            if inside and inside[-1].trait:
                self.traits[found[1]].add(inside[-1].trait)
            signature, body = signature_and_body(text, found.end())
            if body is not None:
                function = Function(crate, path, inside[-1].owner if inside else None, found[1])
                self.bodies[function] = (signature, body)
                self.named[found[1]].append(function)

    def home(self, function, name):
        """The crate of what a name means in the file of a function: its own, or the one that it is imported from."""
        crate, seen = self.imported[function.path].get(name, function.crate), set()
        crate = crate if crate in self.crates else function.crate
        while crate not in seen and name in self.handed_on[crate]:
            seen.add(crate)
            crate = self.handed_on[crate][name]
        return crate

    def by_path(self, function, qualifier, name):
        """The functions that a path means: one of this file or one that it imports, a method of a type, or one of a module."""
        owner = function.owner if qualifier == 'Self' else qualifier
        imported = self.imported[function.path]
        for found in self.named.get(name, ()):
            if not owner:
                well = not found.owner and (found.path == function.path or (name in imported and found.crate == self.home(function, name)))
            elif found.owner == owner:
                well = found.crate == self.home(function, owner)
            elif not found.owner:
                well = found.crate == owner or (found.crate == function.crate and found.path.stem == owner)
            else:
                well = owner in self.traits.get(name, ())
            if well:
                yield found

    def is_seen(self, function, found):
        """Whether a method may be meant: one of a type that the file names, of a trait, or of a crate that this one names."""
        owner, text = found.owner, self.texts[function.path]
        if owner in self.imported[function.path] or re.search(rf'\b(?:struct|enum|trait|impl\b[^{{]*?)\s+{owner}\b', text):
            return found.crate in (function.crate, self.home(function, owner))
        if found.name in OF_STD:
            return False
        return found.name in self.traits or found.crate == function.crate or found.crate in self.sees[function.crate]

    def calls(self, function):
        """The functions that this one may call, or hand on by their names."""
        signature, body = self.bodies[function]
        for qualifier, name in PATH.findall(METHOD.sub('.(', body)):
            yield from self.by_path(function, qualifier, name)
        for qualifier, name in BY_NAME.findall(body):
            if name not in signature:
                yield from self.by_path(function, qualifier, name)
        for name in METHOD.findall(body):
            yield from (found for found in self.named.get(name, ()) if found.owner and self.is_seen(function, found))

    def walk(self):
        """For each function that is reached from `main` how many calls it is there, and the function before it."""
        start = next(function for function in self.named['main'] if function.crate == 'fretime')
        steps, queue = {start: (0, None)}, collections.deque([start])
        while queue:
            function = queue.popleft()
            for called in self.calls(function):
                if called not in steps and not is_other(called):
                    steps[called] = (steps[function][0] + 1, function)
                    queue.append(called)
        return steps


def is_other(function):
    """Whether such a run never calls the function."""
    in_other_file = function.path.stem in OTHER_FILES.get(function.crate, ())
    return in_other_file or function.crate in OTHER_CRATES or function.name in OTHER_FUNCTIONS


def way_to_reading(steps):
    """The functions from `main` to the first one that reads."""
    function = min((each for each in steps if each.name in READING), key=lambda each: steps[each][0])
    way = []
    while function:
        way.insert(0, function.name)
        function = steps[function][1]
    return way


def main():
    parser = argparse.ArgumentParser(description='Counts what a retiming with certificates can pass through.')
    parser.add_argument('tree', nargs='?', default=TOP, type=pathlib.Path, help='the top of a repository, else of this one')
    parser.add_argument('--names', action='store_true', help='prints each function that is reached')
    options = parser.parse_args()
    steps = Tree(options.tree).walk()
    if options.names:
        print(*sorted(f'{it.crate} {it.path.name} {it.owner or "-"} {it.name}' for it in steps), sep='\n')
    way = way_to_reading(steps)
    print(f'{len(steps)} functions, {len({it.path for it in steps})} files, {len({it.crate for it in steps})} crates')
    print(f'{len(way) - 1} calls to the reading: {" > ".join(way)}')


if __name__ == '__main__':
    main()
