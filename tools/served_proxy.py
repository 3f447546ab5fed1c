"""HAProxy as `deploy/haproxy.cfg` has it, on other ports and before other servers; and checks of the program behind it."""
import contextlib
import json
import os
import re
import shutil
import socket
import subprocess
import tempfile
import threading
import time

from served_backs import Back, Reader
from served_clients import botocore_client, lacks_botocore
from served_server import Server, check, request, same

TOP = os.path.dirname(os.path.dirname(os.path.abspath(__file__)))


def free_port():
    with socket.socket() as stream:
        stream.bind(('127.0.0.1', 0))
        return stream.getsockname()[1]


class Proxy:
    """The proxy before servers on these ports of the loopback."""

    def __init__(self, ports):
        with open(os.path.join(TOP, 'deploy/haproxy.cfg'), encoding='utf-8') as file:
            lines = [line for line in file.read().split('\n') if not re.match(r'\s+server ', line)]
        self.port = free_port()
        self.folder = tempfile.TemporaryDirectory()
        self.socket = os.path.join(self.folder.name, 'admin.sock')
        lines = [line.replace('127.0.0.1:8080', f'127.0.0.1:{self.port}').replace('/run/haproxy/admin.sock', self.socket) for line in lines]
        servers = [f'    server gateway{number} 127.0.0.1:{port}' for number, port in enumerate(ports, 1)]
        name = os.path.join(self.folder.name, 'haproxy.cfg')
        with open(name, 'w', encoding='utf-8') as file:
            file.write('\n'.join(lines + servers + ['']))
        self.process = subprocess.Popen(['haproxy', '-db', '-f', name], stdin=subprocess.DEVNULL, stderr=subprocess.PIPE, text=True)
        self.told = []
        threading.Thread(target=self.hear, daemon=True).start()
        self.wait()

    def hear(self):
        for line in self.process.stderr:
            self.told.append(line.rstrip('\n'))

    def wait(self):
        for _ in range(600):
            try:
                socket.create_connection(('127.0.0.1', self.port), 1).close()
                return
            except OSError:
                time.sleep(0.05)
        raise OSError(f'the proxy does not listen: {self.told}')

    def say(self, words):
        """A line to the proxy's socket, and its answer."""
        with socket.socket(socket.AF_UNIX) as stream:
            stream.connect(self.socket)
            stream.sendall(f'{words}\n'.encode())
            return stream.makefile().read()

    def state(self, server):
        """What it says of a server, by name."""
        lines = self.say('show stat').split('\n')
        names = lines[0].lstrip('# ').split(',')
        return next(dict(zip(names, line.split(','))) for line in lines if line.startswith(f'gateways,{server},'))

    @property
    def url(self):
        return f'http://127.0.0.1:{self.port}/'

    def connect(self, seconds=20):
        return socket.create_connection(('127.0.0.1', self.port), seconds)

    def __enter__(self):
        return self

    def __exit__(self, *_):
        self.process.kill()
        self.process.wait()
        self.folder.cleanup()


# ---- checks

@contextlib.contextmanager
def behind_proxy(count, **named):
    """So many processes of the program, of one back, behind the proxy."""
    with contextlib.ExitStack() as stack:
        behind = Back('rpcv2Cbor')
        stack.callback(behind.close)
        servers = [stack.enter_context(Server('awsJson1_1', 'rpcv2Cbor', f'127.0.0.1:{behind.port}', **named)) for _ in range(count)]
        yield stack.enter_context(Proxy([server.port for server in servers])), servers, behind


def asked_often(proxy, times, seen):
    with proxy.connect() as stream:
        reader = Reader(stream)
        for _ in range(times):
            stream.sendall(request())
            start, _, body = reader.message()
            seen.append((start, json.loads(body) if start.endswith('200 OK') else body))


def at_once(proxy, clients, times):
    """What so many clients are answered, each so often."""
    seen = []
    threads = [threading.Thread(target=asked_often, args=(proxy, times, seen)) for _ in range(clients)]
    for thread in threads:
        thread.start()
    for thread in threads:
        thread.join()
    return seen


@check
def haproxy_shares_processes():
    """Forty clients at once; each process has one connection for all, and one more where the proxy has tried it."""
    with behind_proxy(4) as (proxy, servers, back):
        seen = at_once(proxy, 40, 25)
        same((len(seen), set(map(str, seen))), (1_000, {str(('HTTP/1.1 200 OK', {'count': 3}))}), 'answers')
        same(back.links <= 8, True, f'{back.links} connections to the back')
        same([server.told for server in servers], [[]] * 4, 'told')


@check
def haproxy_keeps_slow_clients():
    """One that takes seven seconds for a request holds no process."""
    with behind_proxy(1) as (proxy, _, _):
        with proxy.connect() as slow:
            asked = request(value={'id': 'a', 'note': 'x' * 4_000})
            step = len(asked) // 7 + 1
            for at in range(0, len(asked), step):
                slow.sendall(asked[at:at + step])
                begun = time.monotonic()
                same(at_once(proxy, 1, 1), [('HTTP/1.1 200 OK', {'count': 3})], 'answer to another')
                same(time.monotonic() - begun < 1, True, 'it is served meanwhile')
                time.sleep(1)
            same(Reader(slow).message()[2], b'{"count":4000}', 'answer to the slow one')


@check
def haproxy_passes_long_bodies_on_as_they_come():
    """Behind what its buffer holds, a slow client holds a process; who comes meanwhile waits in the proxy."""
    with behind_proxy(1) as (proxy, _, _):
        with proxy.connect() as slow:
            asked = request(value={'id': 'a', 'note': 'x' * 100_000})
            slow.sendall(asked[:50_000])
            time.sleep(0.5)
            begun = time.monotonic()
            ends = threading.Timer(3, slow.sendall, (asked[50_000:],))
            ends.start()
            same(at_once(proxy, 1, 1), [('HTTP/1.1 200 OK', {'count': 3})], 'answer to another')
            same(time.monotonic() - begun > 2, True, 'it waited')
            same(Reader(slow).message()[2], b'{"count":100000}', 'answer to the slow one')


@check
def haproxy_answers_for_a_back_that_refuses():
    """The process closes without an answer, and isn't left out for it."""
    with behind_proxy(1) as (proxy, _, back):
        back.close()
        same({start for start, _ in at_once(proxy, 1, 1) + at_once(proxy, 1, 1)}, {'HTTP/1.1 502 Bad Gateway'}, 'answers')
        same(proxy.state('gateway1')['status'], 'UP', 'the server')


@check
def long_haproxy_answers_for_a_back_that_hangs():
    with behind_proxy(1) as (proxy, _, back):
        back.way = 'hangs'
        with proxy.connect(90) as stream:
            stream.sendall(request())
            begun = time.monotonic()
            same(Reader(stream).message()[0], 'HTTP/1.1 502 Bad Gateway')
            same(55 < time.monotonic() - begun < 69, True, 'after a minute')


@check
def haproxy_passes_over_a_process_that_ended():
    """It is left out at once, and taken in again when it is back."""
    with behind_proxy(2) as (proxy, servers, back):
        for server in servers:
            same(at_once(proxy, 2, 5), [('HTTP/1.1 200 OK', {'count': 3})] * 10, 'answers')
            if server is servers[0]:
                server.stop()
        with Server('awsJson1_1', 'rpcv2Cbor', f'127.0.0.1:{back.port}', listen=f'127.0.0.1:{servers[0].port}'):
            time.sleep(3)
            servers[1].stop()
            same(at_once(proxy, 2, 5), [('HTTP/1.1 200 OK', {'count': 3})] * 10, 'answers')


@check
def haproxy_drains_a_process():
    """`disable server`: the others take its clients, and nothing is lost when it is ended."""
    with behind_proxy(2) as (proxy, servers, _):
        same(len(at_once(proxy, 4, 10)), 40, 'answers')
        proxy.say('disable server gateways/gateway1')
        same(at_once(proxy, 4, 10), [('HTTP/1.1 200 OK', {'count': 3})] * 40, 'answers')
        state = proxy.state('gateway1')
        same((state['status'], state['scur']), ('MAINT', '0'), 'the server')
        servers[0].process.terminate()
        same(at_once(proxy, 4, 10), [('HTTP/1.1 200 OK', {'count': 3})] * 40, 'answers')


@check
def long_haproxy_keeps_idle_connections():
    """Requests that come just when a connection would be given up, or behind that, are answered."""
    with behind_proxy(1) as (proxy, _, _):
        seen = []
        for idle in (3.9, 4.0, 4.1, 4.9, 4.95, 5.0, 5.05, 5.1, 6.0):
            seen += at_once(proxy, 1, 1)
            time.sleep(idle)
        same(seen, [('HTTP/1.1 200 OK', {'count': 3})] * 9, 'answers')


@check
def haproxy_serves_botocore():
    with behind_proxy(2) as (proxy, _, _), tempfile.TemporaryDirectory() as folder:
        client = botocore_client(folder, 'awsJson1_1', proxy.url)
        for note in ('', 'abc', 'x' * 100_000):
            same(client.put_item(id='a', note=note)['count'], len(note))


def lacks_haproxy(name):
    if not shutil.which('haproxy'):
        return 'haproxy'
    return lacks_botocore(name) if name.endswith('botocore') else None
