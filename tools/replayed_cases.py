"""The cases of the protocol tests for `replayed`: read out of a model in the JSON AST, as the program prints it."""
from replayed_messages import request_of, response_of
from replayed_values import API, UNIT, Shapes

PROTOCOLS = ('awsJson1_0', 'awsJson1_1', 'restJson1', 'rpcv2Cbor')
REQUESTS, RESPONSES = 'smithy.test#httpRequestTests', 'smithy.test#httpResponseTests'


class Operation:
    """An operation: its name, its input and output, and whether it has a place in HTTP bindings."""

    def __init__(self, name, shape, more_errors):
        self.name = name.partition('#')[2]
        self.input = shape.get('input', {}).get('target', UNIT)
        self.output = shape.get('output', {}).get('target', UNIT)
        self.errors = [error['target'] for error in shape.get('errors', []) + more_errors]
        self.is_bound = API + 'http' in shape.get('traits', {})


class Case:
    """An entry: the operation for which it is played, the shape of its value, and its message."""

    def __init__(self, entry, operation, target, is_request, is_error=False):
        self.entry, self.operation, self.target, self.is_error = entry, operation, target, is_error
        self.id, self.params = entry['id'], entry.get('params', {})
        self.protocol = entry['protocol'].partition('#')[2]
        self.message = request_of(entry) if is_request else response_of(entry)


class Model:
    """A model file with its one service, and its cases."""

    def __init__(self, file, tree):
        shapes = tree['shapes']
        self.file, self.shapes = file, Shapes(shapes)
        self.service, = (name for name, shape in shapes.items() if shape['type'] == 'service')
        errors = shapes[self.service].get('errors', [])
        self.operations = [Operation(name, shape, errors) for name, shape in shapes.items() if shape['type'] == 'operation']
        self.operations.sort(key=lambda operation: operation.name)
        self.requests, self.responses = [], []
        for operation in self.operations:
            traits = shapes[f'{self.service.partition("#")[0]}#{operation.name}']['traits']
            self.requests += [Case(entry, operation, operation.input, True) for entry in traits.get(REQUESTS, [])]
            self.responses += [Case(entry, operation, operation.output, False) for entry in traits.get(RESPONSES, [])]
        for name, shape in shapes.items():
            if shape['type'] == 'structure' and RESPONSES in shape.get('traits', {}):
                self.responses += self.errors_of(name, shape['traits'][RESPONSES])

    def errors_of(self, name, entries):
        """The cases of an error: each is played for the first operation that has it."""
        operation = next(operation for operation in self.operations if name in operation.errors)
        return [Case(entry, operation, name, False, is_error=True) for entry in entries]
