"""Models of one service, to measure `speeds service` with: at half of what a graph may hold, and at the whole."""
from model_parts import API, S, big, member_of, operation_of, service, structure_of


def over(shapes, errors=()):
    """The model of the operations among these shapes."""
    shapes['V'] = service([k for k, it in shapes.items() if it['type'] == 'operation'], errors=errors)
    return {'shapes': shapes}


def chained(n, end):
    """A chain of n structures to this end."""
    target = lambda x: 'Link%05d' % (x + 1) if x + 1 < n else end
    return {'Link%05d' % x: structure_of({'a': member_of(target(x))}) for x in range(n)}


def operations(n, target):
    """n operations of one input."""
    return {'O%05d' % o: operation_of(target) for o in range(n)}


def own_inputs(n, members):
    """n operations, each with an input of its own."""
    sh = {}
    for o in range(n):
        sh['In%05d' % o] = structure_of({name: member_of(target) for name, target in members.items()})
        sh['O%05d' % o] = operation_of('In%05d' % o)
    return sh


def core(n):
    """The structure Big, which reaches so many shapes, itself among them."""
    sh = {}
    big(n - 101, sh)
    return sh


def wide(n):
    """An operation whose input reaches n structures of ten members."""
    sh = {}
    for x in range(n):
        ms = {'m%d' % k: member_of('Wide%05d' % (2 * x + 1 + k) if 2 * x + 1 + k < n else S) for k in range(2)}
        ms.update({'m%d' % k: member_of(S, mediaType='text/plain') for k in range(2, 10)})
        sh['Wide%05d' % x] = structure_of(ms)
    return over({**sh, **operations(1, 'Wide00000')})


def errors(n):
    """n operations, and as many errors of their service."""
    sh = {'E%05d' % x: structure_of({'a': member_of(S)}, error='client', httpError=400) for x in range(n)}
    return over({**sh, **operations(n, None)}, errors=list(sh))


def chain(n):
    """A chain of n structures below one input of nine operations for each ten of them, none of which is served."""
    return over({**chained(n, API + 'Double'), **operations(n // 10 * 9, 'Link00000')})


def served_chain(n):
    """The same, and all are served."""
    return over({**chained(n, S), **operations(n // 10 * 9, 'Link00000')})


def own_chain(n):
    """A chain of n structures below half as many operations, each with an input of its own, none of which is served."""
    return over({**chained(n, API + 'Double'), **own_inputs(n // 2, {'a': 'Link00000'})})


def served_core(n):
    """n operations of one input, which reaches as many structures, all served."""
    return over({**core(n), **operations(n, 'Big')})


def unserved_core(n):
    """Half as many operations with inputs of their own: each has that structure and, behind it, a member that isn't served."""
    return over({**core(n), **own_inputs(n // 2, {'big': 'Big', 'bad': API + 'Double'})})


# Each with what makes it, its half and its whole size.
SERVICES = {
    'service_wide': (wide, 10_000, 19_990),
    'service_own_errors': (errors, 5_000, 9_990),
    'service_chain': (chain, 5_000, 10_000),
    'service_served_chain': (served_chain, 5_000, 10_000),
    'service_own_chain': (own_chain, 5_000, 9_990),
    'service_core': (served_core, 5_000, 9_990),
    'service_unserved_core': (unserved_core, 5_000, 9_990),
}
