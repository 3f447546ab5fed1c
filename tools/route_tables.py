"""Tables of routes, methods with patterns, of so many operations: the model that has them, and requests for them.

`contested` is the worst that a service can do to its clients: at each level of its paths a literal and a label both take what a request has
there, so a request meets all operations before the one that it is for.
"""
LEVELS = 15
SPREAD = 20_021


def resources(count):
    """Five operations for each resource, three of them with a label."""
    for number in range(count // 5):
        for method, end in (('GET', ''), ('POST', ''), ('GET', '/{l0}'), ('PUT', '/{l0}'), ('DELETE', '/{l0}')):
            yield method, f'/r{number:05}{end}'


def own_paths(count):
    """An own path for each operation, and a label behind it."""
    for number in range(count):
        yield 'PUT', f'/p{number:05}/{{l0}}'


def contested(count):
    """Paths of `a` or a label at each of 15 levels and `z` behind them, each another one; and one of labels alone."""
    for number in range(count - 1):
        ways = number * SPREAD % (1 << LEVELS)
        labels = 0
        segments = []
        for level in range(LEVELS):
            label = ways >> level & 1
            segments.append(f'{{l{labels}}}' if label else 'a')
            labels += label
        yield 'PUT', ''.join(f'/{segment}' for segment in segments) + '/z'
    yield 'PUT', ''.join(f'/{{l{level}}}' for level in range(LEVELS + 1))


# ---- requests

def last_contested():
    """A target that all patterns of `contested` take but for their last segment, and the one of labels alone as a whole."""
    return '/a' * LEVELS + '/y'


def requests_of(table, count):
    """So many requests, spread over the operations of a table: each label is `b`."""
    rows = list(table)
    for number in range(count):
        method, pattern = rows[number * 7919 % len(rows)]
        yield method, '/'.join('b' if segment.startswith('{') else segment for segment in pattern.split('/'))


def text_of(table, requests):
    """What `speeds route` reads."""
    return ''.join(f'{method} {pattern}\n' for method, pattern in table) + '\n' \
        + ''.join(f'{method} {target}\n' for method, target in requests)


# ---- models

def input_of(labels):
    members = ' '.join(f'@required @httpLabel l{label}: String' for label in range(labels))
    return f'structure In{labels} {{ {members} }}'


def model_of(table):
    """A model of a service with these operations; those with as many labels have one input together."""
    rows = list(table)
    counts = [pattern.count('{') for _, pattern in rows]
    names = ' '.join(f'Op{number:05}' for number in range(len(rows)))
    operations = [f'@http(method: "{method}", uri: "{pattern}") operation Op{number:05} {{ input: In{labels} }}'
                  for number, ((method, pattern), labels) in enumerate(zip(rows, counts))]
    head = f'$version: "2.0" namespace shop service Shop {{ version: "1" operations: [{names}] }}'
    return '\n'.join([head, *operations, *map(input_of, sorted(set(counts))), ''])
