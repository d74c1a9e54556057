"""Compares a value of JSON with a schema, for the words that docs/reports.schema.json has."""

TYPES = {
    'object': lambda value: isinstance(value, dict),
    'array': lambda value: isinstance(value, list),
    'string': lambda value: isinstance(value, str),
    'integer': lambda value: isinstance(value, int) and not isinstance(value, bool),
    'boolean': lambda value: isinstance(value, bool),
    'null': lambda value: value is None,
}
WORDS = {'$schema', '$defs', '$ref', 'title', 'description', 'type', 'const', 'enum', 'oneOf', 'minimum', 'items', 'properties', 'required',
         'additionalProperties'}


def same(one, other):
    """Whether two values of JSON are the same; True isn't 1."""
    return type(one) is type(other) and one == other


def faults(schema, value, whole=None, place='$'):
    """The places at which the value isn't as the schema says, each with a reason."""
    whole = schema if whole is None else whole
    assert set(schema) <= WORDS, sorted(set(schema) - WORDS)
    if '$ref' in schema:
        yield from faults(whole['$defs'][schema['$ref'].removeprefix('#/$defs/')], value, whole, place)
        return
    if 'oneOf' in schema:
        fits = sum(not list(faults(choice, value, whole, place)) for choice in schema['oneOf'])
        if fits != 1:
            yield f'{place}: fits {fits} of {len(schema["oneOf"])}'
        return
    if 'type' in schema and not TYPES[schema['type']](value):
        yield f'{place}: no {schema["type"]}'
        return
    if 'const' in schema and not same(schema['const'], value):
        yield f'{place}: not {schema["const"]!r}'
    if 'enum' in schema and not any(same(choice, value) for choice in schema['enum']):
        yield f'{place}: none of {schema["enum"]!r}'
    if 'minimum' in schema and value < schema['minimum']:
        yield f'{place}: below {schema["minimum"]}'
    for number, item in enumerate(value if 'items' in schema else ()):
        yield from faults(schema['items'], item, whole, f'{place}[{number}]')
    if 'properties' in schema:
        for name in schema['required']:
            if name not in value:
                yield f'{place}: lacks {name}'
        for name, member in value.items():
            if name in schema['properties']:
                yield from faults(schema['properties'][name], member, whole, f'{place}.{name}')
            elif schema.get('additionalProperties') is False:
                yield f'{place}: has {name}'
