"""How `replayed` plays cases on the command `cross`: sessions of the program, and the ways of a message to other protocols and back."""
import collections
import itertools
import os
import subprocess

from replayed_cases import PROTOCOLS
from replayed_messages import differs, messages
from replayed_values import near_request, near_response, not_carried, some_value

NEARS = ('awsJson1_1', 'rpcv2Cbor')
NO_REQUEST = 'no request of its operation from the front to the back'
PLAIN = b'HTTP/1.1 500 Internal Server Error\r\ncontent-length: 0\r\n\r\n'


class Turn:
    """What a request and the back's answer to it came to: the front's answer, and the request to the back; None where there is none."""

    def __init__(self, answer, request, why=''):
        self.answer, self.request, self.why = answer, request, why

    def response(self):
        """The front's answer, where it isn't a refusal."""
        return None if self.answer is None or self.answer.refusal() is not None else self.answer

    def line(self):
        """The line of a refusal, whichever side refused."""
        return self.answer and (self.answer.refusal() or '').removeprefix('back ')

    def said(self):
        """What stands in place of a message that didn't come."""
        return self.why or f'{self.answer.start!r} {self.answer.body!r}'


class Program:
    """The built program, and a folder for its files."""

    def __init__(self, program, folder):
        self.program, self.folder = program, folder
        self.numbers = itertools.count()

    def convert(self, file):
        """The model of a file in the JSON AST, as text."""
        done = subprocess.run([self.program, 'convert', file, 'ast'], capture_output=True, check=False, timeout=60)
        if done.returncode:
            raise RuntimeError(f'convert {file} ast: status {done.returncode}, {done.stdout.decode()!r}')
        return done.stdout

    def cross(self, model, front, back, asked, answers):
        """A session of a gateway: its status, and the bytes that it put to the front and to the back."""
        number = next(self.numbers)
        behind, out = (os.path.join(self.folder, f'{name}{number}') for name in ('back', 'out'))
        with open(behind, 'wb') as file:
            file.write(answers)
        words = [self.program, 'cross', model.file, model.service, front, back, 'back.example', behind, out]
        done = subprocess.run(words, input=asked, capture_output=True, check=False, timeout=60)
        if not os.path.exists(out):
            return done.returncode, done.stdout, b''
        with open(out, 'rb') as file:
            return done.returncode, done.stdout, file.read()

    def turns(self, model, front, back, pairs):
        """The turns of requests and the back's answers to them: of one session, or of one each where that doesn't come out even."""
        if not pairs:
            return []
        came = self.cross(model, front, back, *(b''.join(side) for side in zip(*pairs)))
        found = even_turns(len(pairs), *came)
        if found is not None:
            return found
        if len(pairs) > 1:
            return [turn for pair in pairs for turn in self.turns(model, front, back, [pair])]
        return [Turn(None, None, 'status {}, {!r} to the front, {!r} to the back'.format(*came))]


def even_turns(number, status, answered, asked):
    """So many turns of a session that was closed; None where it didn't put so many answers, or a request for each that isn't a refusal."""
    try:
        answers, requests = messages(answered), messages(asked)
    except ValueError:
        return None
    there = [not is_refused(answer) for answer in answers]
    if (status, len(answers), len(requests)) != (0, number, sum(there)):
        return None
    left = iter(requests)
    return [Turn(answer, next(left) if crossed else None) for answer, crossed in zip(answers, there)]


def is_refused(answer):
    """Whether a request was answered without the back."""
    line = answer.refusal()
    return line is not None and answer.status() != 502


class Asked:
    """Valid requests of a model's operations, in each protocol that serves them and carries them."""

    def __init__(self, program, model):
        self.program, self.model, self.known = program, model, {}
        for operation in model.operations:
            values = [case.params for case in model.requests if case.operation is operation]
            values.append(some_value(model.shapes, operation.input))
            self.known[operation.name] = [self.in_each(operation, value) for value in values]

    def in_each(self, operation, value):
        near = next(near for near in NEARS if not_carried(self.model.shapes, near, operation.input, value) is None)
        pair = near_request(self.model, operation, value, near), PLAIN
        turns = {back: self.program.turns(self.model, near, back, [pair])[0] for back in PROTOCOLS}
        return {back: turn.request.bytes for back, turn in turns.items() if turn.request}

    def request(self, operation, *protocols):
        """A request that each of these protocols has, in the first one."""
        known = self.known[operation.name]
        return next((asked[protocols[0]] for asked in known if all(protocol in asked for protocol in protocols)), None)


class Cases:
    """The cases of one model in one protocol, played: what differs, and the counts of ways by pair and cause."""

    def __init__(self, program, model, protocol, cases):
        self.program, self.model, self.protocol = program, model, protocol
        self.cases = [case for case in cases if case.protocol == protocol]
        self.wrong, self.counts = [], collections.Counter()

    def play(self):
        own = self.near_to_far(self.protocol, [(case, case.message) for case in self.cases])
        kept = [(case, self.heed(case, *come)) for case, come in zip(self.cases, own)]
        kept = [(case, wanted) for case, wanted in kept if wanted is not None]
        self.params(kept)
        for far in PROTOCOLS:
            if far != self.protocol:
                self.there_and_back(far, kept)

    def params(self, kept):
        """The messages of the params come from each protocol in which they are written here as the case's message does."""
        for near in NEARS:
            said = [(case, wanted) for case, wanted in kept if self.lost(case, near) is None]
            given = [(case, self.written(case, near)) for case, _ in said]
            for (case, wanted), come in zip(said, self.far_to_near(near, given)):
                self.same(case, f'its params in {near}', wanted, *come)
        for case, _ in kept:
            if all(self.lost(case, near) is not None for near in NEARS):
                self.tell(case, 'its params', f'none of {NEARS} carries them')

    def there_and_back(self, far, kept):
        gone = []
        for (case, wanted), come in zip(kept, self.near_to_far(far, [(case, case.message) for case, _ in kept])):
            message = self.goes(case, far, *come)
            if message is not None:
                gone.append((case, wanted, message))
        back = self.far_to_near(far, [(case, message) for case, _, message in gone])
        for (case, wanted, _), come in zip(gone, back):
            self.same(case, f'to {far} and back', wanted, *come)

    # ---- what is expected, and what is told

    def lost(self, case, far):
        """The path of a case's first timestamp that AWS JSON or RPC v2 CBOR doesn't carry, or None."""
        return not_carried(self.model.shapes, far, case.target, case.params)

    def expected(self, case, far):
        """The line of the refusal that the far protocol has for a case, or None."""
        if far == 'restJson1':
            return None if case.operation.is_bound else 'Unserved http'
        path = self.lost(case, far)
        return None if path is None else f'Fault {path} NotCarried'

    def tell(self, case, way, said):
        self.wrong.append(f'{os.path.basename(self.model.file)} {case.id}, {way}: {said}')

    def heed(self, case, message, turn):
        """Tells what a message says otherwise than its case, or that there is none; gives its bytes."""
        if message is None:
            self.tell(case, 'its message', f'wanted a message, came {turn.said()}')
            return None
        for said in differs(case.entry, message):
            self.tell(case, 'its message', said)
        return message.bytes

    def same(self, case, way, wanted, message, turn):
        """Tells where a message isn't, byte for byte, the one that was there."""
        if message is None:
            self.tell(case, way, f'wanted {wanted!r}, came {turn.said()}')
        elif message.bytes != wanted:
            self.tell(case, way, f'wanted {wanted!r}, came {message.bytes!r}')

    def goes(self, case, far, message, turn):
        """The bytes of a case in another protocol; None where it is rightly refused, or where that is told."""
        wanted = self.expected(case, far)
        if message is not None and wanted is None:
            self.counts[self.protocol, far, ''] += 1
            return message.bytes
        if message is None and wanted is not None and turn.line() == wanted:
            self.counts[self.protocol, far, 'Unserved' if wanted.startswith('Unserved') else 'NotCarried'] += 1
        else:
            came = turn.said() if message is None else repr(message.bytes)
            self.tell(case, f'to {far}', f'wanted {wanted or "a message"}, came {came}')
        return None


class Requests(Cases):
    """The request cases: a message that goes to another protocol is its front's."""

    def written(self, case, near):
        return near_request(self.model, case.operation, case.params, near)

    def near_to_far(self, far, given):
        return self.cross(self.protocol, far, given)

    def far_to_near(self, far, given):
        return self.cross(far, self.protocol, given)

    def cross(self, front, back, given):
        """The request to the back for each message, with its turn."""
        turns = self.program.turns(self.model, front, back, [(message, PLAIN) for _, message in given])
        return [(turn.request, turn) for turn in turns]


class Responses(Cases):
    """The response and error cases: a message that goes to another protocol is the back's, as the answer to a request of its operation."""

    def __init__(self, program, model, protocol, cases, asked):
        super().__init__(program, model, protocol, cases)
        self.asked = asked

    def written(self, case, near):
        return near_response(self.model, case, near)

    def near_to_far(self, far, given):
        """Where the far protocol doesn't serve the operation, it has no request either: then that of the near one is refused."""
        crossed = zip(given, self.cross(far, self.protocol, given))
        return [self.unserved(case, far) if come[1].why == NO_REQUEST else come for (case, _), come in crossed]

    def far_to_near(self, far, given):
        return self.cross(self.protocol, far, given)

    def unserved(self, case, far):
        request = self.asked.request(case.operation, self.protocol)
        return None, self.program.turns(self.model, self.protocol, far, [(request, PLAIN)])[0] if request else Turn(None, None, NO_REQUEST)

    def cross(self, front, back, given):
        """The front's answer for each message of the back, with its turn."""
        asked = [self.asked.request(case.operation, front, back) for case, _ in given]
        pairs = [(request, message) for request, (_, message) in zip(asked, given) if request is not None]
        turns = iter(self.program.turns(self.model, front, back, pairs))
        found = [Turn(None, None, NO_REQUEST) if request is None else next(turns) for request in asked]
        return [(turn.response(), turn) for turn in found]
