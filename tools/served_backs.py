"""Backs by hand for `served`: a small service over sockets, in each protocol that the program speaks, which also misbehaves as it is asked."""
import json
import socket
import struct
import threading
import time

TYPES = {'awsJson1_0': 'application/x-amz-json-1.0', 'awsJson1_1': 'application/x-amz-json-1.1', 'restJson1': 'application/json',
         'rpcv2Cbor': 'application/cbor'}


def cbor_head(kind, number):
    for size, code in ((1, 24), (2, 25), (4, 26), (8, 27)):
        if number < 24:
            return bytes([kind << 5 | number])
        if number < 1 << 8 * size:
            return bytes([kind << 5 | code]) + number.to_bytes(size, 'big')
    raise ValueError(number)


def cbor(value):
    """The CBOR of a value of null, booleans, whole numbers, bytes, texts, lists, objects, and of a tag with its content."""
    if value is None:
        return b'\xf6'
    if isinstance(value, bool):
        return b'\xf5' if value else b'\xf4'
    if isinstance(value, int):
        return cbor_head(0, value) if value >= 0 else cbor_head(1, -1 - value)
    if isinstance(value, bytes):
        return cbor_head(2, len(value)) + value
    if isinstance(value, tuple):
        return cbor_head(6, value[0]) + cbor(value[1])
    if isinstance(value, str):
        text = value.encode()
        return cbor_head(3, len(text)) + text
    if isinstance(value, list):
        return cbor_head(4, len(value)) + b''.join(cbor(entry) for entry in value)
    return cbor_head(5, len(value)) + b''.join(cbor(key) + cbor(entry) for key, entry in value.items())


def of_cbor(text, at=0):
    """A value in CBOR that begins here, and where it ends: definite lengths alone, as the gateway writes them; a tag with its content."""
    kind, short = text[at] >> 5, text[at] & 31
    at += 1
    if kind == 7:
        return {20: False, 21: True, 22: None}[short], at
    number = short
    if short > 23:
        size = 1 << short - 24
        number = int.from_bytes(text[at:at + size], 'big')
        at += size
    if kind == 0:
        return number, at
    if kind == 1:
        return -1 - number, at
    if kind == 2:
        return text[at:at + number], at + number
    if kind == 3:
        return text[at:at + number].decode(), at + number
    if kind == 4:
        entries = []
        for _ in range(number):
            entry, at = of_cbor(text, at)
            entries.append(entry)
        return entries, at
    if kind == 6:
        content, at = of_cbor(text, at)
        return (number, content), at
    pairs = {}
    for _ in range(number):
        key, at = of_cbor(text, at)
        if key in pairs:
            raise ValueError(f'{key} stands twice')
        pairs[key], at = of_cbor(text, at)
    return pairs, at


class Gone(Exception):
    """The other side ended its connection."""


class Reader:
    """Messages with a `content-length`, from a socket."""

    def __init__(self, stream):
        self.stream, self.held = stream, b''

    def more(self):
        piece = self.stream.recv(65536)
        if not piece:
            raise Gone
        self.held += piece

    def head(self):
        while b'\r\n\r\n' not in self.held:
            self.more()
        head, self.held = self.held.split(b'\r\n\r\n', 1)
        lines = head.decode().split('\r\n')
        fields = {}
        for line in lines[1:]:
            name, value = line.split(':', 1)
            fields[name.lower()] = value.strip()
        return lines[0], fields

    def body(self, length):
        while len(self.held) < length:
            self.more()
        body, self.held = self.held[:length], self.held[length:]
        return body

    def message(self):
        start, fields = self.head()
        return start, fields, self.body(int(fields.get('content-length', '0')))


def answer(protocol, value, status='200 OK', closes=False):
    """An answer of the service."""
    body = cbor(value) if protocol == 'rpcv2Cbor' else json.dumps(value).encode()
    lines = [f'HTTP/1.1 {status}', f'content-type: {TYPES[protocol]}']
    if protocol == 'rpcv2Cbor':
        lines.append('smithy-protocol: rpc-v2-cbor')
    if closes:
        lines.append('connection: close')
    lines += [f'content-length: {len(body)}', '', '']
    return '\r\n'.join(lines).encode() + body


def value_of(protocol, body):
    return of_cbor(body)[0] if protocol == 'rpcv2Cbor' else json.loads(body)


def reset(stream):
    """Ends a connection by a reset."""
    stream.setsockopt(socket.SOL_SOCKET, socket.SO_LINGER, struct.pack('ii', 1, 0))
    stream.close()


class Back:
    """A service behind a port of its own. `way` says how each connection is treated:

    serves   each request is answered with the length of its note
    hangs    requests are read, and never answered
    idle     the connection is closed behind the first answer, which doesn't say so
    early    answers stand there before the request's body is read
    closes   each answer says `connection: close`, and is the last
    cuts     the connection is closed inside the first answer
    resets   the connection is reset inside the first answer
    fails    each request is answered with the error `Full`
    strays   each answer has a count that is no number
    twice    each answer is sent twice
    """

    def __init__(self, protocol, way='serves', family=socket.AF_INET):
        self.protocol, self.way = protocol, way
        self.requests = 0
        self.links = 0
        self.listener = socket.socket(family, socket.SOCK_STREAM)
        self.listener.setsockopt(socket.SOL_SOCKET, socket.SO_REUSEADDR, 1)
        self.listener.bind(('::1' if family == socket.AF_INET6 else '127.0.0.1', 0))
        self.listener.listen(256)
        self.port = self.listener.getsockname()[1]
        threading.Thread(target=self.accept, daemon=True).start()

    def accept(self):
        while True:
            try:
                stream, _ = self.listener.accept()
            except OSError:
                return
            self.links += 1
            stream.setsockopt(socket.IPPROTO_TCP, socket.TCP_NODELAY, 1)
            threading.Thread(target=self.link, args=(stream,), daemon=True).start()

    def link(self, stream):
        try:
            with stream:
                self.talk(stream, Reader(stream))
        except (Gone, OSError):
            pass

    def talk(self, stream, reader):
        while True:
            if self.way == 'early':
                _, fields = reader.head()
                stream.sendall(answer(self.protocol, {'count': 0}))
                reader.body(int(fields.get('content-length', '0')))
                self.requests += 1
                continue
            _, _, body = reader.message()
            self.requests += 1
            if self.way == 'hangs':
                continue
            if self.way in ('cuts', 'resets'):
                stream.sendall(self.answer(body)[:-1])
                if self.way == 'resets':
                    time.sleep(0.2)
                    reset(stream)
                return
            stream.sendall(self.answer(body) * (2 if self.way == 'twice' else 1))
            if self.way in ('idle', 'closes'):
                return

    def answer(self, body):
        if self.way == 'fails':
            return answer(self.protocol, {'__type': 'shop#Full', 'message': 'no room'}, '400 Bad Request')
        note = value_of(self.protocol, body).get('note') or ''
        return answer(self.protocol, {'count': 'many' if self.way == 'strays' else len(note)}, closes=self.way == 'closes')

    def close(self):
        try:
            self.listener.shutdown(socket.SHUT_RDWR)
        except OSError:
            pass
        self.listener.close()
