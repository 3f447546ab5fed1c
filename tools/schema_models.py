"""Models of one shape to describe, to measure `sm_tool schema` with: at half of what a graph or a file may hold, and at the whole. In the IDL
without traits where that says it, since a model file has 4 MiB at most. The shape is `a#Root`."""


def idl(*shapes):
    return '$version: "2.0"\nnamespace a\n' + ''.join(shapes)


def structure(name, members, kind='structure'):
    return f'{kind} {name} {{\n' + ''.join(f'{member}: {target}\n' for member, target in members) + '}\n'


def held(kind, names):
    """A structure of these structures or unions, a thousand members each at most."""
    return structure('Root', [(f'r{number}', name) for number, name in enumerate(names)])


def thousands(n, target, kind='structure', before=''):
    """n members of structures or unions with a thousand each."""
    names = [f'S{number}' for number in range(n // 1000)]
    return [structure(name, [(f'm{k}', target) for k in range(1000)], kind) for name in names] + [held(kind, names)]


def wide(n):
    """n structures, each with two of the others."""
    below = lambda x: [('l', f'S{2 * x + 1}'), ('r', f'S{2 * x + 2}')] if 2 * x + 2 < n else []
    return idl(*(structure(f'S{x}' if x else 'Root', [*below(x), ('a', 'String')]) for x in range(n)))


def members(n):
    return idl(*thousands(n, 'String'))


def enum_members(n):
    """n members whose target is one enum of a thousand values."""
    return idl('enum E {\n' + ''.join(f'VALUE{v}\n' for v in range(1000)) + '}\n', *thousands(n, 'E'))


def choices(n):
    return idl(*thousands(n, 'Long', 'union'))


def patterns(n):
    """n members, each with a pattern of its own."""
    names = [f'S{number}' for number in range(n // 1000)]
    shapes = (f'structure {name} {{\n' + ''.join(f'@pattern("^a{at}_{k}")\nm{k}: String\n' for k in range(1000)) + '}\n'
              for at, name in enumerate(names))
    return idl(*shapes, held('structure', names))


def lists(n):
    """A chain of n lists."""
    return idl(*(f'list {f"L{x}" if x else "Root"} {{\nmember: {f"L{x + 1}" if x + 1 < n else "String"}\n}}\n' for x in range(n)))


# Each with what makes it, its half and its whole size.
SCHEMAS = {
    'schema_wide': (wide, 9_999, 19_999),
    'schema_members': (members, 99_000, 198_000),
    'schema_enum_members': (enum_members, 98_000, 196_000),
    'schema_choices': (choices, 99_000, 198_000),
    'schema_patterns': (patterns, 10_000, 20_000),
    'schema_lists': (lists, 9_999, 19_999),
}
