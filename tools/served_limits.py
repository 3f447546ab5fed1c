"""Checks of the program's limits: sizes, counts, times, memory."""
import contextlib
import re
import resource
import socket
import subprocess
import threading
import time

from served_backs import Reader
from served_server import Server, ask, check, request, same, served, to_the_end, turn

NOT_FOUND = b'HTTP/1.1 404 Not Found\r\ncontent-type: text/plain\r\ncontent-length: 17\r\n\r\nUnknownOperation\n'
MOST_HEAD, MOST_FIELDS, MOST_BODY, MOST_REQUESTS = 16_384, 64, 8_388_608, 1_000_000


# ---- sizes

def first_line(server, asked):
    with server.connect() as stream:
        stream.sendall(asked)
        stream.shutdown(socket.SHUT_WR)
        return to_the_end(stream).split(b'\r\n')[0]


@check
def heads_have_a_limit():
    start, end = b'GET / HTTP/1.1\r\nx: ', b'\r\n\r\n'
    with served() as (server, _):
        for length, said in ((MOST_HEAD, b'404 Not Found'), (MOST_HEAD + 1, b'431 Request Header Fields Too Large')):
            same(first_line(server, start + b'x' * (length - len(start) - len(end)) + end), b'HTTP/1.1 ' + said, f'head of {length} bytes')
        for count, said in ((MOST_FIELDS, b'404 Not Found'), (MOST_FIELDS + 1, b'431 Request Header Fields Too Large')):
            same(first_line(server, b'GET / HTTP/1.1\r\n' + b'x: y\r\n' * count + b'\r\n'), b'HTTP/1.1 ' + said, f'head of {count} fields')


@check
def bodies_have_a_limit():
    """8 MiB cross, of a length that is told and in chunks; a byte more doesn't."""
    room = MOST_BODY - len(b'{"id": "a", "note": ""}')
    with served() as (server, back):
        ends = (b'0\r\n\r\n', b'1\r\n \r\n0\r\n\r\n')
        longest = request(value={'id': 'a', 'note': 'x' * room})
        with server.connect() as stream:
            ask(stream, Reader(stream), value={'id': 'a', 'note': 'x' * room}, count=room)
        head, body = longest.split(b'\r\n\r\n', 1)
        same(len(body), MOST_BODY, 'bytes of the body')
        head = re.sub(rb'content-length: \d+', b'transfer-encoding: chunked', head)
        for end, said in zip(ends, (b'200 OK', b'413 Payload Too Large')):
            same(first_line(server, head + b'\r\n\r\n%x\r\n' % len(body) + body + b'\r\n' + end), b'HTTP/1.1 ' + said)
        same(back.requests, 2, 'requests to the back')


@check
def long_requests_of_a_connection():
    """The last of a million requests is told that the connection is closed; a request behind it isn't answered."""
    with served() as (server, _):
        with server.connect(60) as stream:
            asked = b'GET / HTTP/1.1\r\n\r\n' * 1_000

            def send():
                with contextlib.suppress(OSError):
                    for _ in range(MOST_REQUESTS // 1_000 + 1):
                        stream.sendall(asked)
            threading.Thread(target=send, daemon=True).start()
            seen, last = 0, b''
            while True:
                piece = stream.recv(1 << 20)
                if not piece:
                    break
                seen, last = seen + len(piece), (last + piece)[-200:]
        closing = NOT_FOUND.replace(b'content-length', b'connection: close\r\ncontent-length')
        same(seen, len(NOT_FOUND) * (MOST_REQUESTS - 1) + len(closing), 'bytes of answers')
        same(last.endswith(NOT_FOUND + closing), True, 'the last one says so')
        turn(server)


@check
def waiting_connections_have_a_limit():
    """While a link is served so many wait as the system's queue holds, and one more isn't let in; then each is served."""
    with served() as (server, _):
        with contextlib.ExitStack() as waiting:
            with server.connect() as stream:
                ask(stream, Reader(stream))
                held = []
                with contextlib.suppress(OSError):
                    for _ in range(200):
                        held.append(waiting.enter_context(server.connect(0.3)))
                same(128 <= len(held) <= 130, True, f'{len(held)} wait')
            for one in held:
                one.settimeout(20)
                one.sendall(request(closes=True))
                same(to_the_end(one)[:15], b'HTTP/1.1 200 OK', 'answer')
                one.close()


# ---- times

@check
def front_that_falls_silent_within_a_request():
    with served() as (server, back):
        for part in (request()[:20], request()[:-5]):
            with server.connect() as stream:
                stream.sendall(part)
                begun = time.monotonic()
                same(to_the_end(stream), b'', 'bytes')
                same(4 < time.monotonic() - begun < 10, True, 'after five seconds')
        turn(server)


@check
def front_that_drips_is_answered():
    """It holds the process meanwhile: who comes behind it waits."""
    with served() as (server, _):
        with server.connect() as stream, server.connect() as other:
            other.sendall(request())
            begun = time.monotonic()
            for at in range(0, 3):
                stream.sendall(request()[at:at + 1])
                time.sleep(2.5)
            stream.sendall(request()[3:])
            reader = Reader(stream)
            same(reader.message()[0], 'HTTP/1.1 200 OK')
            stream.close()
            same(Reader(other).message()[0], 'HTTP/1.1 200 OK')
            same(time.monotonic() - begun > 7, True, 'it waited')


@check
def front_that_sends_behind_its_last_answer():
    """It is read on for two seconds, and no longer."""
    with served() as (server, _):
        with server.connect() as stream:
            stream.sendall(request(closes=True))
            begun = time.monotonic()

            def send():
                with contextlib.suppress(OSError):
                    while True:
                        stream.sendall(b'x')
                        time.sleep(0.1)
            threading.Thread(target=send, daemon=True).start()
            turn(server)
            same(1.5 < time.monotonic() - begun < 8, True, 'after two seconds')


def full_listener(stack):
    """A port of which no connection is taken, since its queue is full."""
    listener = stack.enter_context(socket.create_server(('127.0.0.1', 0), backlog=0))
    with contextlib.suppress(OSError):
        for _ in range(10):
            stack.enter_context(socket.create_connection(listener.getsockname(), 0.3))
    return listener.getsockname()[1]


@check
def back_that_does_not_take_a_connection():
    with contextlib.ExitStack() as stack:
        with Server('awsJson1_1', 'awsJson1_0', f'127.0.0.1:{full_listener(stack)}') as server:
            with server.connect() as stream:
                begun = time.monotonic()
                stream.sendall(b'GET / HTTP/1.1\r\n\r\n' + request())
                same(to_the_end(stream), NOT_FOUND, 'what needs no back is answered')
                same(4 < time.monotonic() - begun < 10, True, 'after five seconds')
            time.sleep(0.2)
            same(server.told, ['link 1: back connect: timed out'], 'told')


# ---- memory

def limit_memory(server, more):
    """From now on the process may have so many bytes more than it has."""
    with open(f'/proc/{server.process.pid}/statm', encoding='ascii') as file:
        limit = int(file.read().split()[0]) * resource.getpagesize() + more
    resource.prlimit(server.process.pid, resource.RLIMIT_AS, (limit, limit))


@check
def bodies_are_read_as_they_come():
    """Of one of megabytes, nearly all of which is passed over, no more is held before its end than of a small one."""
    for front in ('awsJson1_1', 'restJson1', 'rpcv2Cbor'):
        with served(front) as (server, _), server.connect() as stream:
            reader = Reader(stream)
            ask(stream, reader, front)
            before, whole = server.memory(), request(front, {'id': 'a', 'extra': ['abcde'] * 850_000, 'note': 'abc'})
            stream.sendall(whole[:-1])
            time.sleep(0.5)
            held = server.memory() - before
            stream.sendall(whole[-1:])
            same(reader.message()[0], 'HTTP/1.1 200 OK', 'start line')
            same(held < 1024, True, f'{held} KiB more are held of a body of {len(whole) // 1024} in {front}')


@check
def memory_that_runs_out_costs_a_link():
    """The others are served, and the status says it behind the last."""
    with served(count=3) as (server, _):
        turn(server)
        limit_memory(server, 1 << 20)
        with server.connect() as stream:
            with contextlib.suppress(OSError):
                stream.sendall(request(value={'id': 'a', 'note': 'x' * 6_000_000}))
                same(to_the_end(stream), b'', 'bytes')
        turn(server)
        same(server.process.wait(10), 5, 'status')


@check
def memory_that_runs_out_before_it_listens():
    with open(Server.model, encoding='utf-8') as file:
        model = file.read()
    name = Server.model.replace('shop.smithy', 'long.smithy')
    with open(name, 'w', encoding='utf-8') as file:
        file.write(model + ''.join(f'structure S{number} {{ text: String number: Integer }}\n' for number in range(15_000)))
    words = [Server.program, 'serve', name, 'shop#Shop', 'awsJson1_1', 'rpcv2Cbor', 'h', '127.0.0.1:0', '127.0.0.1:1', '1']
    limit = 24 << 20
    done = subprocess.run(words, capture_output=True, text=True, timeout=60, check=False,
                          preexec_fn=lambda: resource.setrlimit(resource.RLIMIT_AS, (limit, limit)))
    same((done.returncode, done.stdout, done.stderr), (5, '', 'no memory\n'), 'status')
