"""Requests for an item of the shop, and their answers, in each protocol."""
import json

from served_backs import cbor
from session_room import head
from shop_bodies import MODEL

PROTOCOLS = ('awsJson1_0', 'awsJson1_1', 'restJson1', 'rpcv2Cbor')
BODIES = {
    '45 bytes': {'extra': [1, {}], 'note': 'x', 'id': 'b'},
    '73 bytes': {'id': 'a1', 'tags': ['red', 'big'], 'note': 'two parts', 'parent': {'name': 'p'}},
}
AS_TEXT = {'45 bytes': b'{ "extra": [1, {}], "note": "x" , "id": "b" }'}
HTTP_MODEL = MODEL.replace('operation PutItem', '@http(method: "PUT", uri: "/items/{id}") operation PutItem') \
    .replace('@required id: ItemId tags: Tags', '@required @httpLabel id: ItemId @httpQuery("tag") tags: Tags')


def text_of(value):
    return json.dumps(value, separators=(',', ':')).encode()


def request(protocol, value, text, more):
    """A request for PutItem in a protocol, with some fields more."""
    fields = ['host: shop.example', *more]
    if protocol == 'rpcv2Cbor':
        fields += ['content-type: application/cbor', 'smithy-protocol: rpc-v2-cbor', 'accept: application/cbor']
        return head('POST /service/Shop/operation/PutItem HTTP/1.1', fields, cbor(value))
    if protocol == 'restJson1':
        query = '&'.join(f'tag={tag}' for tag in value.get('tags', []))
        target = f'/items/{value["id"]}{"?" if query else ""}{query}'
        return head(f'PUT {target} HTTP/1.1', [*fields, 'content-type: application/json'], text)
    version = protocol[-3:].replace('_', '.')
    fields += [f'content-type: application/x-amz-json-{version}', 'x-amz-target: Shop.PutItem']
    return head('POST / HTTP/1.1', fields, text)


def answer(protocol):
    if protocol == 'rpcv2Cbor':
        return head('HTTP/1.1 200 OK', ['content-type: application/cbor', 'smithy-protocol: rpc-v2-cbor'], cbor({'count': 3}))
    return head('HTTP/1.1 200 OK', [], b'{"count":3}')
