"""Checks of the program with real clients: curl, Python's http.client, botocore."""
import http.client
import json
import os
import shutil
import subprocess
import tempfile

from served_backs import TYPES, cbor, of_cbor
from served_server import Wrong, check, same, served

JSON = ['-H', 'content-type: application/x-amz-json-1.1', '-H', 'x-amz-target: Shop.PutItem']


def curl(*words, text=None):
    done = subprocess.run(['curl', '-s', '-S', '-m', '20', *words], input=text, capture_output=True)
    if done.returncode:
        raise Wrong(f'curl ends with {done.returncode}: {done.stderr.decode()}')
    return done.stdout.decode()


@check
def curl_keeps_a_connection():
    with served() as (server, back):
        out = curl(*JSON, '-d', '{"id":"a","note":"ab"}', '-w', ' %{http_code} %{num_connects}\n', server.url, server.url, server.url)
        same(out, '{"count":2} 200 1\n{"count":2} 200 0\n{"count":2} 200 0\n')
        same(back.links, 1, 'connections to the back')


@check
def curl_sends_chunks():
    with served(back='rpcv2Cbor') as (server, _):
        long = json.dumps({'id': 'a', 'note': 'x' * 300_000}).encode()
        out = curl(*JSON, '-H', 'transfer-encoding: chunked', '--data-binary', '@-', '-w', ' %{http_code}', server.url, text=long)
        same(out, '{"count":300000} 200')


@check
def curl_puts_in_rest():
    with served('restJson1', 'rpcv2Cbor') as (server, back):
        out = curl('-X', 'PUT', '-H', 'content-type: application/json', '-d', '{"note":"ab"}', '-w', ' %{http_code} %{num_connects}\n',
                   server.url + 'items/a%20b', server.url + 'items/c', server.url + 'items')
        same(out, '{"count":2} 200 1\n{"count":2} 200 0\nUnknownOperation\n 404 0\n')
        same((back.links, back.requests), (1, 2), 'connections and requests to the back')


@check
def curl_asks_for_a_head():
    with served() as (server, back):
        out = curl('-I', server.url)
        same(out.split('\r\n')[0], 'HTTP/1.1 404 Not Found')
        same('content-length: 17\r\n' in out, True, 'the length of UnknownOperation and a line feed is told')
        same(back.requests, 0, 'requests to the back')


@check
def curl_expects_to_go_on():
    with served() as (server, _):
        same(curl(*JSON, '-H', 'expect: 100-continue', '-d', '{"id":"a","note":"abcd"}', server.url), '{"count":4}')


@check
def curl_is_refused_and_goes_on():
    with served() as (server, back):
        out = curl(*JSON, '-d', '{}', '-w', ' %{http_code} %{num_connects}\n', server.url, server.url)
        same(out, 'Fault /id Missing\n 400 1\nFault /id Missing\n 400 0\n')
        same(back.requests, 0, 'requests to the back')


@check
def python_keeps_a_connection():
    for front, back in (('awsJson1_0', 'awsJson1_1'), ('awsJson1_1', 'rpcv2Cbor'), ('rpcv2Cbor', 'restJson1'), ('restJson1', 'awsJson1_0')):
        with served(front, back) as (server, behind):
            client = http.client.HTTPConnection(server.host, server.port, timeout=20)
            for length in (0, 1, 70_000):
                value = {'id': 'a', 'note': 'n' * length}
                fields = {'content-type': TYPES[front]}
                method, path = 'POST', '/'
                if front == 'rpcv2Cbor':
                    path = '/service/Shop/operation/PutItem'
                    fields['smithy-protocol'] = 'rpc-v2-cbor'
                elif front == 'restJson1':
                    method, path = 'PUT', '/items/' + value.pop('id')
                else:
                    fields['x-amz-target'] = 'Shop.PutItem'
                body = cbor(value) if front == 'rpcv2Cbor' else json.dumps(value).encode()
                client.request(method, path, body, fields)
                response = client.getresponse()
                text = response.read()
                same(response.status, 200, 'status')
                same(of_cbor(text)[0] if front == 'rpcv2Cbor' else json.loads(text), {'count': length})
            same(behind.links, 1, 'connections to the back')


def botocore_client(folder, front, url):
    """A client of the shop in this protocol, made as those of AWS are: from a description of the service."""
    import botocore.config
    import botocore.session
    spoken = {'rpcv2Cbor': 'smithy-rpc-v2-cbor', 'restJson1': 'rest-json'}.get(front, 'json')
    protocol = {'protocol': spoken, 'protocols': [spoken]}
    if spoken == 'json':
        protocol |= {'jsonVersion': front[-3:].replace('_', '.'), 'targetPrefix': 'Shop'}
    asked = {'method': 'PUT', 'requestUri': '/items/{id}'} if front == 'restJson1' else {'method': 'POST', 'requestUri': '/'}
    bound = {'location': 'uri', 'locationName': 'id'} if front == 'restJson1' else {}
    text, number = {'type': 'string'}, {'type': 'integer'}
    model = {
        'version': '2.0',
        'metadata': {'apiVersion': '2026-01-01', 'endpointPrefix': 'shop', 'serviceId': 'Shop', 'serviceFullName': 'Shop',
                     'signatureVersion': 'v4', 'uid': 'shop-2026-01-01', **protocol},
        'operations': {'PutItem': {'name': 'PutItem', 'http': asked, 'input': {'shape': 'PutItemInput'},
                                   'output': {'shape': 'PutItemOutput'}, 'errors': [{'shape': 'Full'}]}},
        'shapes': {'PutItemInput': {'type': 'structure', 'required': ['id'],
                                    'members': {'id': {'shape': 'Text', **bound}, 'note': {'shape': 'Text'}}},
                   'PutItemOutput': {'type': 'structure', 'members': {'count': {'shape': 'Count'}}},
                   'Full': {'type': 'structure', 'members': {'message': {'shape': 'Text'}}, 'exception': True},
                   'Text': text, 'Count': number}}
    if front == 'rpcv2Cbor':
        model['metadata']['targetPrefix'] = 'Shop'
    place = os.path.join(folder, front, 'shop', '2026-01-01')
    os.makedirs(place, exist_ok=True)
    with open(os.path.join(place, 'service-2.json'), 'w') as file:
        json.dump(model, file)
    session = botocore.session.Session()
    session.get_component('data_loader').search_paths.append(os.path.join(folder, front))
    return session.create_client(
        'shop', region_name='eu-north-1', endpoint_url=url, aws_access_key_id='a', aws_secret_access_key='b',
        config=botocore.config.Config(retries={'total_max_attempts': 1}))


def ask_with_botocore(front, backs):
    for back in backs:
        with served(front, back) as (server, behind), tempfile.TemporaryDirectory() as folder:
            client = botocore_client(folder, front, server.url)
            for note in ('', 'abc', 'é' * 1000):
                same(client.put_item(id='a', note=note)['count'], len(note))
            same(behind.links, 1, 'connections to the back')
            meet_an_error(client, behind)


def meet_an_error(client, behind):
    """An error of the model comes out as such, with its message; the connection goes on."""
    behind.way = 'fails'
    try:
        client.put_item(id='a', note='abc')
    except client.exceptions.Full as full:
        same((full.response['Error']['Code'], full.response['Error']['Message']), ('Full', 'no room'))
        same(full.response['ResponseMetadata']['HTTPStatusCode'], 400, 'status')
    else:
        raise Wrong('an error of the back comes out as an output')
    behind.way = 'serves'
    same(client.put_item(id='a', note='abc')['count'], 3)
    same(behind.links, 1, 'connections to the back')


@check
def botocore_asks_in_json():
    ask_with_botocore('awsJson1_0', ('rpcv2Cbor', 'awsJson1_1'))
    ask_with_botocore('awsJson1_1', ('awsJson1_0', 'restJson1', 'rpcv2Cbor'))


@check
def botocore_asks_in_cbor():
    ask_with_botocore('rpcv2Cbor', ('awsJson1_1', 'awsJson1_0', 'restJson1'))


@check
def botocore_asks_in_rest():
    ask_with_botocore('restJson1', ('awsJson1_1', 'rpcv2Cbor', 'restJson1'))


def lacks_curl(_):
    return None if shutil.which('curl') else 'curl'


def lacks_botocore(name):
    try:
        from botocore.serialize import SERIALIZERS
    except ImportError:
        return 'botocore'
    return 'botocore that speaks Smithy RPC v2 CBOR' if name.endswith('cbor') and 'smithy-rpc-v2-cbor' not in SERIALIZERS else None
