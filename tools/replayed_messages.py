"""HTTP messages for `replayed`: the message that a case says, those that the program put, and what differs between them."""
import base64
import http
import json

from served_backs import of_cbor


class Message:
    """A message that was put: its first line, fields and body, and all of its bytes."""

    def __init__(self, head, body):
        lines = head.decode('latin-1').split('\r\n')
        self.start = lines[0]
        pairs = [line.split(':', 1) for line in lines[1:]]
        self.fields = [(name.lower(), value.strip()) for name, value in pairs]
        self.body = body
        self.bytes = head + b'\r\n\r\n' + body

    def values(self, name):
        return [value for other, value in self.fields if other == name.lower()]

    def status(self):
        return int(self.start.split(' ')[1])

    def refusal(self):
        """The line of a refusal, where the message is one."""
        if self.values('content-type') != ['text/plain'] or self.status() not in (400, 404, 415, 501, 502):
            return None
        return self.body.decode().removesuffix('\n')


def messages(put):
    """The messages that stand one after the other in these bytes, each with its length, or without a body where it has none. ValueError
    where they are no messages."""
    found = []
    while put:
        head, end, rest = put.partition(b'\r\n\r\n')
        length = int((Message(head, b'').values('content-length') or ['0'])[0])
        if not end or length > len(rest):
            raise ValueError('a message is cut short')
        found.append(Message(head, rest[:length]))
        put = rest[length:]
    return found


# ---- the message of a case

def body_of(entry):
    if entry.get('bodyMediaType') == 'application/cbor':
        return base64.b64decode(entry['body'])
    return entry['body'].encode()


def with_fields(start, entry, length=True):
    """A message with the fields of the case, and the length of its body where the case doesn't name it."""
    body = body_of(entry)
    fields = dict(entry.get('headers', {}))
    if length and 'content-length' not in [name.lower() for name in fields]:
        fields['content-length'] = len(body)
    return '\r\n'.join([start, *(f'{name}: {value}' for name, value in fields.items()), '', '']).encode('latin-1') + body


def request_of(entry):
    """The request that a case says."""
    query = '&'.join(entry.get('queryParams', []))
    target = entry['uri'] + ('?' + query if query else '')
    return with_fields(f'{entry["method"]} {target} HTTP/1.1\r\nhost: front.example', entry)


def response_of(entry):
    """The response that a case says; one of status 204 has no length."""
    code = entry['code']
    phrase = http.HTTPStatus(code).phrase if code in list(http.HTTPStatus) else ''
    return with_fields(f'HTTP/1.1 {code} {phrase}', entry, length=code != 204)


# ---- what differs

def shown(tree):
    """A tree as data that compares as trees do: truth values aren't numbers, and pairs have no order."""
    if isinstance(tree, dict):
        return 'pairs', sorted((key, shown(value)) for key, value in tree.items())
    if isinstance(tree, list):
        return 'list', [shown(value) for value in tree]
    return type(tree).__name__, repr(tree)


def one_of_each(pairs):
    if len(dict(pairs)) != len(pairs):
        raise ValueError('a name stands twice')
    return dict(pairs)


def tree_of(media, body):
    """The tree of a body of JSON or CBOR; of any other the bytes."""
    if media == 'application/cbor':
        tree, end = of_cbor(body)
        if end != len(body):
            raise ValueError('bytes behind the item')
        return shown(tree)
    if media == 'application/json' or media.startswith('application/x-amz-json'):
        return shown(json.loads(body, object_pairs_hook=one_of_each))
    return body


def same_body(entry, body):
    """Whether a body is that of the case; one that isn't of its media type is equal to none."""
    wanted = body_of(entry)
    try:
        media = entry.get('bodyMediaType', '')
        return tree_of(media, wanted) == tree_of(media, body)
    except (ValueError, KeyError, IndexError):
        return False


def start_differs(entry, message):
    """What the first line of the message says otherwise than the case."""
    if 'code' in entry:
        if message.status() != entry['code']:
            yield f'code: wanted {entry["code"]}, came {message.start!r}'
        return
    method, target, _ = message.start.split(' ')
    path, _, query = target.partition('?')
    pairs = query.split('&') if query else []
    for word, came in (('method', method), ('uri', path)):
        if came != entry[word]:
            yield f'{word}: wanted {entry[word]!r}, came {came!r}'
    for pair in entry.get('queryParams', []):
        if pair not in pairs:
            yield f'queryParams: wanted {pair!r}, came {query!r}'
    keys = [pair.partition('=')[0] for pair in pairs]
    for word, there in (('forbidQueryParams', False), ('requireQueryParams', True)):
        for key in entry.get(word, []):
            if (key in keys) != there:
                yield f'{word}: {key!r}, came {query!r}'


def differs(entry, message):
    """What the message says otherwise than the case, as texts."""
    yield from start_differs(entry, message)
    for name, value in entry.get('headers', {}).items():
        if message.values(name) != [value]:
            yield f'headers: wanted {name}: {value}, came {message.values(name)}'
    for word, there in (('forbidHeaders', False), ('requireHeaders', True)):
        for name in entry.get(word, []):
            if bool(message.values(name)) != there:
                yield f'{word}: {name}, came {message.values(name)}'
    if not same_body(entry, message.body):
        yield f'body: wanted {body_of(entry)!r}, came {message.body!r}'
