"""The table of docs/FORMAT.md about objects of JSON, from docs/reports.schema.json, and the faults of that schema, from the sources."""
import json
import re
import textwrap

from manual import table
from marks import TOP, NotMade

SCHEMA = 'docs/reports.schema.json'
KINDS = {'null': '`null`', 'string': 'a text', 'boolean': '`true` or `false`', 'integer': 'a number', 'object': 'an object'}
# The crates whose files of faults have those of commands with --json, and those faults of json_reports that other commands alone have.
WITH_FAULTS = ('file_words', 'lane_sim', 'circuit_files', 'certificate_files', 'json_reports')
OF_OTHERS = {'TooManyNodes': ['dot'], 'NotAMap': ['check', 'miter', 'product', 'lift'], 'NoSuchLiteral': ['lift']}


def fault_names():
    """The names of faults that can stand in an object, by the sources, in their order."""
    texts = [(TOP / 'crates' / crate / 'src' / 'fault.rt').read_text(encoding='utf-8') for crate in WITH_FAULTS]
    names = dict.fromkeys(name for text in texts for name in re.findall(r'\w+::\w+(?:\(_\)| \{ \.\. \})? => "([A-Z]\w+)",', text))
    return [name for name in names if name not in OF_OTHERS]


def with_faults(text):
    """The schema with the names of faults made anew."""
    names = textwrap.wrap(', '.join(f'"{name}"' for name in fault_names()), 115)
    listed = '\n'.join(f'            {line}' for line in names)
    found = re.compile(r'(?s)("fault": \{.*?"enum": \[\n)[^\]]*?(\n *\])')
    if not found.search(text):
        raise NotMade(f'{SCHEMA}: no list of the names of faults')
    return found.sub(lambda it: it[1] + listed + it[2], text, count=1)


class Objects:
    """The rows of the table, from the definitions of a schema."""

    def __init__(self, schema):
        self.defs = schema['$defs']

    def kind(self, value):
        """What a value is, in words."""
        if '$ref' in value:
            name = value['$ref'].removeprefix('#/$defs/')
            return self.defs[name].get('title', 'a number')
        if 'oneOf' in value:
            return ' or '.join(dict.fromkeys(self.kind(it) for it in reversed(value['oneOf'])))
        if 'const' in value or 'enum' in value:
            texts = value.get('enum', [value.get('const')])
            return ', '.join(f'`{json.dumps(it)}`' for it in texts)
        if value['type'] == 'array':
            return 'array: each is ' + self.kind(value['items'])
        return KINDS[value['type']]

    def rows(self, title, definition, before=''):
        """A row for each member, and for those of an object that stands in it."""
        for name, value in definition['properties'].items():
            if 'description' not in value:
                raise NotMade(f'{SCHEMA}: the member {before}{name} of {title} has no description')
            yield [title, f'`{before}{name}`', self.kind(value), value['description']]
            for inner in (value, *value.get('oneOf', ())):
                if inner.get('type') == 'object':
                    yield from self.rows(title, inner, f'{name}.')


def members(text):
    """The table of all members."""
    schema = json.loads(text)
    objects = Objects(schema)
    of_commands = [it['$ref'].removeprefix('#/$defs/') for it in schema['oneOf']]
    names = of_commands + [name for name in objects.defs if name not in of_commands and 'properties' in objects.defs[name]]
    for name in names:
        if 'title' not in objects.defs[name]:
            raise NotMade(f'{SCHEMA}: {name} has no title')
    parts = [list(objects.rows(objects.defs[name]['title'], objects.defs[name])) for name in names]
    rows = [[row[0] if number == 0 else '', *row[1:]] for part in parts for number, row in enumerate(part)]
    return '\n'.join(table(['Object', 'Member', 'Value', 'What it is'], rows)) + '\n'
