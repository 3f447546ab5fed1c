"""Values for `replayed`: the `params` of a case as messages of AWS JSON and RPC v2 CBOR, and which of its timestamps they can't carry."""
import base64
import datetime
import email.utils
import json

from served_backs import TYPES, cbor

API = 'smithy.api#'
EPOCH = datetime.datetime(1970, 1, 1, tzinfo=datetime.timezone.utc)
CYCLE = 400, datetime.timedelta(days=146097)  # the calendar's years come again with the same days; Python has no year 0000
UNIT = API + 'Unit'


class Shapes:
    """The shapes of a model, with those of the prelude."""

    def __init__(self, shapes):
        self.shapes = shapes

    def kind(self, target):
        if target == UNIT:
            return 'structure'
        if target.startswith(API):
            return target[len(API):].removeprefix('Primitive').lower()
        return self.shapes[target]['type']

    def traits(self, target):
        return self.shapes.get(target, {}).get('traits', {})

    def members(self, target):
        return self.shapes.get(target, {}).get('members', {})

    def parts(self, target, value):
        """What a value holds, in model order: the key, the member that says what it is, and the value."""
        kind, shape = self.kind(target), self.shapes.get(target, {})
        if kind in ('structure', 'union'):
            return [(name, member, value[name]) for name, member in self.members(target).items() if name in value]
        if kind == 'list':
            return [(str(number), shape['member'], entry) for number, entry in enumerate(value)]
        if kind == 'map':
            return [(key, shape['value'], value[key]) for key in sorted(value, key=str.encode)]
        return []

    def stamp_format(self, member, default='epoch-seconds'):
        for traits in (member.get('traits', {}), self.traits(member['target'])):
            if API + 'timestampFormat' in traits:
                return traits[API + 'timestampFormat']
        return default


# ---- as a message

def stamp(seconds, form):
    """A timestamp in JSON."""
    if form == 'epoch-seconds':
        return seconds
    since = datetime.timedelta(milliseconds=round(seconds * 1000))
    if form == 'http-date':
        return email.utils.format_datetime(EPOCH + since, usegmt=True)
    years, days = CYCLE if seconds < 0 else (0, datetime.timedelta())
    moment = EPOCH + days + since
    text = moment.isoformat(timespec='milliseconds' if moment.microsecond else 'seconds')
    return f'{moment.year - years:04}{text[4:]}'.replace('+00:00', 'Z')


def leaf(shapes, protocol, member, value):
    """A value without parts: in `params` a blob is a text, and a timestamp a number of seconds."""
    kind = shapes.kind(member['target'])
    if kind == 'blob':
        return value.encode() if protocol == 'rpcv2Cbor' else base64.b64encode(value.encode()).decode()
    if kind == 'timestamp':
        return (1, value) if protocol == 'rpcv2Cbor' else stamp(value, shapes.stamp_format(member))
    return value


def tree(shapes, protocol, member, value):
    """The tree of a value, under the names of its members."""
    kind = shapes.kind(member['target'])
    if value is None or kind not in ('structure', 'union', 'list', 'map'):
        return value if value is None else leaf(shapes, protocol, member, value)
    parts = [(key, tree(shapes, protocol, part, held)) for key, part, held in shapes.parts(member['target'], value)]
    return [held for _, held in parts] if kind == 'list' else dict(parts)


def message(start, protocol, fields, pairs):
    """A message of AWS JSON or RPC v2 CBOR."""
    body = cbor(pairs) if protocol == 'rpcv2Cbor' else json.dumps(pairs).encode()
    fields = {'content-type': TYPES[protocol], 'content-length': len(body), **fields}
    if protocol == 'rpcv2Cbor':
        fields['smithy-protocol'] = 'rpc-v2-cbor'
    return '\r\n'.join([start, *(f'{name}: {value}' for name, value in fields.items()), '', '']).encode() + body


def near_request(model, operation, value, protocol):
    """The request for a value of the operation's input, as `params` say it."""
    pairs = tree(model.shapes, protocol, {'target': operation.input}, value)
    service = model.service.partition('#')[2]
    if protocol == 'rpcv2Cbor':
        return message(f'POST /service/{service}/operation/{operation.name} HTTP/1.1', protocol, {}, pairs)
    return message('POST / HTTP/1.1', protocol, {'x-amz-target': f'{service}.{operation.name}'}, pairs)


def near_response(model, case, protocol):
    """The response for the value of a case; an error is told by its name."""
    pairs = tree(model.shapes, protocol, {'target': case.target}, case.params)
    if case.is_error:
        pairs = {'__type': case.target.partition('#')[2], **pairs}
    return message('HTTP/1.1 400 Bad Request' if case.is_error else 'HTTP/1.1 200 OK', protocol, {}, pairs)


# ---- what isn't carried

def is_carried(protocol, form, seconds):
    """RPC v2 CBOR has whole seconds, whatever the format; http-date has whole seconds from 1970 on."""
    if protocol == 'rpcv2Cbor':
        return seconds == int(seconds)
    return form != 'http-date' or (seconds == int(seconds) and seconds >= 0)


def escaped(key):
    return key.replace('~', '~0').replace('/', '~1')


def not_carried(shapes, protocol, target, value):
    """The path of the first timestamp in a value, in model order, that AWS JSON or RPC v2 CBOR doesn't carry; None where each is."""
    for key, part, held in shapes.parts(target, value):
        if held is None:
            continue
        if shapes.kind(part['target']) == 'timestamp':
            below = None if is_carried(protocol, shapes.stamp_format(part), held) else ''
        else:
            below = not_carried(shapes, protocol, part['target'], held)
        if below is not None:
            return f'/{escaped(key)}{below}'
    return None


# ---- a value of a shape

def some_leaf(shapes, target):
    """A short value of a shape without parts, as its type says it."""
    kind, traits = shapes.kind(target), shapes.traits(target)
    least = traits.get(API + 'length', {}).get('min', 1)
    if kind in ('enum', 'intEnum'):
        return next(iter(shapes.members(target).values()))['traits'][API + 'enumValue']
    if kind in ('string', 'blob'):
        return 'a' * max(1, least)
    return False if kind == 'boolean' else traits.get(API + 'range', {}).get('min', 0)


def some_value(shapes, target):
    """A small value of a shape, as `params` say one: required members alone, and the first of a union."""
    kind = shapes.kind(target)
    if kind == 'list':
        return [some_value(shapes, shapes.shapes[target]['member']['target'])]
    if kind == 'map':
        return {'a': some_value(shapes, shapes.shapes[target]['value']['target'])}
    members = shapes.members(target)
    if kind == 'union':
        return {name: some_value(shapes, member['target']) for name, member in list(members.items())[:1]}
    if kind == 'structure':
        needed = {name: member for name, member in members.items() if API + 'required' in member.get('traits', {})}
        return {name: some_value(shapes, member['target']) for name, member in needed.items()}
    return some_leaf(shapes, target)
