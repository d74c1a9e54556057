"""What makes sources long to read, counted: functions of many parameters, long heads and clauses, statements of lemmas that stand in two
crates, words of definitions that two crates have, long lines and sentences, and comments that name no verb, no number or nothing of
their own."""
import collections
import re

import tree

# The most characters of a head or a clause that isn't long.
LONGEST = 200
# The most columns of a line.
COLUMNS = 100
# The most parameters of a function.
MOST_PARAMETERS = 7
# The most words of a sentence of a comment.
MOST_WORDS = 25
# Files of proofs/ that have answers and no lemmas.
NO_LEMMAS = re.compile(r'Answers|Invariants|Lib|Proof|\w*Examples')
# How a line of a proof begins that states no lemma.
NO_LEMMA = re.compile(r'(use|mod|record|data|abbrev|unfoldable|where|let|syntax|pub (use|mod|record|data|abbrev|unfoldable)) ')
COMMENT = re.compile(r' *//[/!]? ?')
COMMENT_OF_LAW = re.compile(r' *--(?: |$)')
WORD = re.compile(r"[\w`'-]*\w[\w`'-]*")
# The end of a sentence, and that of a part of a comment whose sentences go on in no other part.
END = re.compile(r'(?<=[.?!])\s+|(?<=:)\s+(?=[A-Z`\[(])')
END_OF_PART = re.compile(r'\n\s*\n|\n(?=[-*] |# )')
# How a comment begins that names no verb.
NO_VERB = re.compile(r'/// (?:What|Whether|How|Which|Where|Why|The|An?|Th[eo]se|Each|All|Both|Of|For|By)\b')
# Imports, and those of words of definitions.
IMPORT = re.compile(r'(?m)^ *(?:pub(?:\([a-z]+\))? )?(?:ghost )?use [^;]+;')
GHOST_IMPORT = re.compile(r'(?m)^ *ghost use ([^;]+);')
FUNCTION = re.compile(r'(?m)^ *(?:pub(?:\([a-z]+\))? )?(?:const )?fn (\w+)')


def texts():
    """The text of each source that isn't of tests."""
    paths = (path for crate in tree.crates() if not crate.endswith('_tests') for path in tree.sources(crate))
    return [path.read_text() for path in paths if not tree.is_of_tests(path)]


def lines_of_comments(text, mark):
    """The lines of each comment of a source, in which comments begin with this mark."""
    lines = []
    for line in [*text.splitlines(), '']:
        if mark.match(line):
            lines.append(line[mark.match(line).end():])
        elif lines:
            yield lines
            lines = []


def comments(text):
    """Each comment of a source, in one line."""
    return (' '.join(lines) for lines in lines_of_comments(text, COMMENT))


def sentences(lines):
    """The sentences of a comment; lines that are set off are a picture or code."""
    text = '\n'.join('' if line.startswith('    ') else line for line in lines)
    return (sentence for part in END_OF_PART.split(text) for sentence in END.split(' '.join(part.split())))


def long_sentences(text, mark):
    """How many sentences of a source's comments have too many words."""
    return sum(len(WORD.findall(sentence)) > MOST_WORDS for lines in lines_of_comments(text, mark) for sentence in sentences(lines))


def is_law(lines):
    """Whether the function that these lines begin with has no body: then its comment is the law."""
    return next((line for line in lines if line.rstrip().endswith(('{', '{}'))), '').strip() == '{}'


def without_verb(text):
    """How many functions of a source have a comment that begins with no verb, laws aside."""
    count, first, lines = 0, '', text.splitlines()
    for number, line in enumerate(lines):
        if line.lstrip().startswith('///'):
            first = first or line.lstrip()
        elif not line.lstrip().startswith('#['):
            count += bool(NO_VERB.match(first) and FUNCTION.match(line) and not is_law(lines[number:]))
            first = ''
    return count


def long_lines(texts):
    """How many lines of comments are too long, and how many lines of code, imports aside."""
    long = [line for text in texts for line in text.splitlines() if len(line) > COLUMNS]
    of_comments = sum(bool(COMMENT.match(line)) for line in long)
    return of_comments, len(long) - of_comments - sum(bool(re.match(r' *(pub )?(ghost )?use ', line)) for line in long)


def is_named(name, text):
    """Whether a text has a word of definitions; of an operator it has what stands between the places."""
    parts = [part for part in name.split('◌') if part]
    return all(part in text for part in parts) if '◌' in name else bool(re.search(rf"(?<![\w']){re.escape(name)}(?![\w'])", text))


def unused_imports(text):
    """The words of definitions that a source imports and doesn't name, comments aside."""
    code = re.sub(r'//.*', '', text)
    rest = IMPORT.sub('', code)
    for path in GHOST_IMPORT.findall(code):
        listed = re.sub(r'(?s).*\.\{|\}$', '', path).split(',') if path.endswith('}') else [re.sub(r'.*\.', '', path)]
        names = [re.sub(r'.* as ', '', each).strip() for each in listed]
        yield from (name for name in names if not is_named(name, rest))


def heads(text):
    """The head of each function of a source in one line: from `fn` to its clauses or its body."""
    for match in FUNCTION.finditer(text):
        begin = text.index('fn ', match.start())
        yield ' '.join(re.split(r'\n *(?:requires|ensures)\b|;\n| ?\{\n|\n *\{', text[begin:], maxsplit=1)[0].split())


def parts_at_top(text):
    """The parts of a text between commas that no bracket holds, up to the bracket that closes it, and what follows that."""
    depth, parts = 0, ['']
    for at, letter in enumerate(text):
        before = text[at - 1] if at else ''
        depth += (letter in '([<{') - (letter in ')]}' or letter == '>' and before != '-')
        if depth < 0:
            return [part for part in parts if part.strip()], text[at + 1:]
        if letter == ',' and depth == 0:
            parts.append('')
        else:
            parts[-1] += letter
    return parts, ''


def parameters(head):
    """How many parameters a head has, `self` among them."""
    rest = re.sub(r'^fn \w+', '', head)
    if rest.startswith('<'):
        rest = parts_at_top(rest[1:])[1]
    return len(parts_at_top(rest[1:])[0])


def clauses(text):
    """Each clause of a source in one line."""
    lines = text.splitlines()
    for number, line in enumerate(lines):
        if FUNCTION.match(line):
            indent = re.match(' *', line)[0]
            yield from (clause.text for clause in tree.clauses_after(lines, number, indent, {}))


def statements(crate):
    """What each lemma of a crate states, without its name, in one line."""
    for path in (path for path in tree.sources(crate, '.antt', ('proofs',)) if not NO_LEMMAS.fullmatch(path.stem)):
        lines = [re.sub(r' *-- .*', '', line) for line in path.read_text().splitlines()]
        for number, line in enumerate(lines):
            head = re.match(r'(?:pub )?\S+ : (.*)', line)
            if head and not NO_LEMMA.match(line):
                others = range(number + 1, len(lines))
                end = next((at for at in others if not lines[at].startswith(' ')), len(lines))
                yield ' '.join([head[1], *(more.strip() for more in lines[number + 1:end])])


def words(crate):
    """The words that a crate's specs define."""
    for path in tree.sources(crate, '.antt', ('specs',)):
        yield from re.findall(r'(?m)^(?:abbrev |unfoldable )?pub (?:abbrev |record |data )?(?!mod\b)(\S+)', path.read_text())


def in_two_crates(each):
    """How many of the things that crates have stand in two or more of them."""
    crates_of = collections.defaultdict(set)
    for crate in tree.crates():
        for thing in each(crate):
            crates_of[thing].add(crate)
    return sum(len(crates) > 1 for crates in crates_of.values())


def counts():
    """Each count by its name; those of lines and of comments are of all sources, tests among them, or of all definitions and laws."""
    all_texts = texts()
    every_text = [path.read_text() for crate in tree.crates() for path in tree.sources(crate)]
    every_law = [path.read_text() for crate in tree.crates() for path in tree.sources(crate, '.antt', ('specs', 'proofs'))]
    all_comments = [comment.lower() for text in every_text for comment in comments(text)]
    long_comments, long_code = long_lines(every_text)
    all_heads = [head for text in all_texts for head in heads(text)]
    all_clauses = [clause for text in all_texts for clause in clauses(text)]
    return {
        'functions of more parameters than seven': sum(parameters(head) > MOST_PARAMETERS for head in all_heads),
        'functions of six parameters or seven': sum(parameters(head) in (6, 7) for head in all_heads),
        f'heads of over {LONGEST} characters': sum(len(head) > LONGEST for head in all_heads),
        f'clauses of over {LONGEST} characters': sum(len(clause) > LONGEST for clause in all_clauses),
        'statements of lemmas that stand in two crates': in_two_crates(statements),
        'words of definitions that two crates have': in_two_crates(words),
        'words of definitions that a source imports and does not name': sum(len(list(unused_imports(text))) for text in every_text),
        f'lines of comments over {COLUMNS} columns': long_comments,
        f'lines of code over {COLUMNS} columns': long_code,
        f'lines of comments of laws over {COLUMNS} columns': sum(
            len(line) > COLUMNS and bool(COMMENT_OF_LAW.match(line)) for text in every_law for line in text.splitlines()
        ),
        f'sentences of comments of over {MOST_WORDS} words': sum(long_sentences(text, COMMENT) for text in every_text),
        f'sentences of comments of laws of over {MOST_WORDS} words': sum(long_sentences(text, COMMENT_OF_LAW) for text in every_law),
        'comments of functions that begin with no verb': sum(without_verb(text) for text in every_text),
        "times 'so many' in comments": sum(len(re.findall(r'\bso many\b', comment)) for comment in all_comments),
        "comments that begin with 'the same'": sum(bool(re.match(r'the same\b', comment)) for comment in all_comments),
    }


if __name__ == '__main__':
    for name, count in counts().items():
        print(f'{count:6} {name}')
