"""The built program as a server before a back by hand, and what a check asks of it over a bare socket."""
import contextlib
import json
import re
import signal
import socket
import subprocess
import threading

from served_backs import TYPES, Back, Reader, cbor, of_cbor

MODEL = '''$version: "2.0"
namespace shop

service Shop { version: "2026-01-01" operations: [PutItem] }

@http(method: "PUT", uri: "/items/{id}")
operation PutItem { input: PutItemInput output: PutItemOutput errors: [Full] }

structure PutItemInput { @required @httpLabel id: String note: String }

structure PutItemOutput { count: Integer }

@error("client")
structure Full { message: String }
'''
MOST = 1_000_000
CHECKS = []


def check(function):
    CHECKS.append(function)
    return function



class Wrong(Exception):
    """A check that failed: what was seen."""


def same(seen, wanted, what='answer'):
    if seen != wanted:
        raise Wrong(f'{what}: {seen!r}, not {wanted!r}')


def heeds_signals():
    # a shell has what it runs in the background ignore SIGINT, and whoever is begun there too
    signal.signal(signal.SIGINT, signal.SIG_DFL)


class Server:
    """The program, listening on a port that the system chose, or on one that is named, for which nobody waits."""

    program = model = None

    def __init__(self, front, back, connect, count=MOST, listen='127.0.0.1:0', hosts=('127.0.0.1', '[::1]')):
        self.front = front
        self.process = subprocess.Popen(
            [self.program, 'serve', self.model, 'shop#Shop', front, back, 'back.example', listen, connect, str(count)],
            stdin=subprocess.DEVNULL, stdout=subprocess.PIPE, stderr=subprocess.PIPE, text=True, preexec_fn=heeds_signals)
        self.told = []
        self.host, self.port = listen.rsplit(':', 1)[0].strip('[]'), int(listen.rsplit(':', 1)[1])
        if self.port == 0:
            self.hear_port(hosts)
        threading.Thread(target=self.hear, daemon=True).start()

    def hear_port(self, hosts):
        """Where it listens, on a port that the system chose: its first line."""
        line = self.process.stderr.readline()
        found = re.fullmatch(r'listening on (.*):(\d+)\n', line)
        if not found or found[1] not in hosts:
            self.stop()
            raise Wrong(f'says {line!r} and not where it listens')
        self.host, self.port = found[1].strip('[]'), int(found[2])

    def hear(self):
        for line in self.process.stderr:
            self.told.append(line.rstrip('\n'))

    def __enter__(self):
        return self

    def __exit__(self, *_):
        self.stop()

    def stop(self):
        self.process.kill()
        self.process.wait()

    @property
    def url(self):
        return f'http://{self.host}:{self.port}/'

    def connect(self, seconds=20):
        return socket.create_connection((self.host, self.port), seconds)

    def memory(self):
        """Resident memory, in KiB."""
        with open(f'/proc/{self.process.pid}/status') as file:
            return int(re.search(r'VmRSS:\s+(\d+) kB', file.read())[1])


@contextlib.contextmanager
def served(front='awsJson1_1', back='awsJson1_0', way='serves', **named):
    """A back and the program before it."""
    behind = Back(back, way)
    try:
        with Server(front, back, f'127.0.0.1:{behind.port}', **named) as server:
            yield server, behind
    finally:
        behind.close()


def request(protocol='awsJson1_1', value=None, closes=False):
    value = {'id': 'a', 'note': 'abc'} if value is None else value
    lines, said = ['POST / HTTP/1.1', 'x-amz-target: Shop.PutItem'], value
    if protocol == 'rpcv2Cbor':
        lines = ['POST /service/Shop/operation/PutItem HTTP/1.1', 'smithy-protocol: rpc-v2-cbor', 'accept: application/cbor']
    elif protocol == 'restJson1':
        lines, said = [f'PUT /items/{value["id"]} HTTP/1.1'], {name: value[name] for name in value if name != 'id'}
    body = cbor(said) if protocol == 'rpcv2Cbor' else json.dumps(said).encode()
    lines += ['host: shop.example', f'content-type: {TYPES[protocol]}']
    if closes:
        lines.append('connection: close')
    return '\r\n'.join(lines + [f'content-length: {len(body)}', '', '']).encode() + body


def ask(stream, reader, protocol='awsJson1_1', value=None, count=3):
    """One turn over a bare socket, answered with 200 and this count."""
    stream.sendall(request(protocol, value))
    start, _, body = reader.message()
    same(start, 'HTTP/1.1 200 OK', 'start line')
    same(of_cbor(body)[0] if protocol == 'rpcv2Cbor' else json.loads(body), {'count': count})


def turn(server, **named):
    """A link of its own with one turn: the server serves."""
    with server.connect() as stream:
        ask(stream, Reader(stream), server.front, **named)


def to_the_end(stream):
    """All bytes that come until the other side ends."""
    seen = b''
    while True:
        piece = stream.recv(65536)
        if not piece:
            return seen
        seen += piece
