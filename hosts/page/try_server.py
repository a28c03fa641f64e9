"""The forum's server, tried: what it answers, its limits, and a bounded load on loopback.

    try_server.py PROGRAM [REQUESTS]

PROGRAM is the server, built with the sanitizers. It must end well when it is told to end.
"""

import concurrent.futures
import http.client
import select
import socket
import subprocess
import sys
import time

PAGE = 'target/page/index.html'
THREADS = 16


def file(name):
    with open(name, 'rb') as opened:
        return opened.read()


def expect(found, wanted, what):
    if found != wanted:
        raise AssertionError(f'{what}: {str(found)[:200]}, not {str(wanted)[:200]}')


def ask(line, method, path, body=None, headers=None):
    line.request(method, path, body, headers or {})
    answer = line.getresponse()
    return answer.status, answer.read()


def raw(port, pieces):
    """What comes back for bytes as they are, until the server closes the line."""
    with socket.create_connection(('127.0.0.1', port), timeout=30) as line:
        try:
            for piece in pieces:
                line.sendall(piece)
        except OSError:
            pass
        got = b''
        try:
            while more := line.recv(65536):
                got += more
        except OSError:
            pass
    return got


POSTS = ('winter', 'summer', 'full')
CASES = [
    *[('POST', '/check', file(f'examples/{name}.post'), (200, b'1\n')) for name in POSTS],
    *[('POST', '/export', file(f'examples/{name}.post'), (200, file(f'examples/{name}.frames'))) for name in POSTS],
    ('POST', '/check', file('examples/crafted.post'), (200, b'20 49\n')),
    ('POST', '/export', file('examples/crafted.post'), (422, b'20 49\n')),
    ('POST', '/check', b'', (200, b'20 0\n')),
    ('POST', '/export', b'', (422, b'20 0\n')),
    ('POST', '/check', file('examples/winter.post') + b'\0', (200, b'20 435\n')),
    ('POST', '/check', bytes(range(256)) * 255, (200, b'20 0\n')),
    ('POST', '/check?edition=1', file('examples/full.post'), (200, b'1\n')),
    ('POST', '/check?edition=2', file('examples/saturday.post'), (200, b'1\n')),
    ('POST', '/export?edition=2', file('examples/saturday.post'), (200, file('examples/saturday.frames'))),
    ('POST', '/check', file('examples/saturday.post'), (200, b'20 79\n')),
    ('POST', '/check?edition=7', file('examples/full.post'), (400, b'16\n')),
    ('POST', '/export?edition=', file('examples/full.post'), (400, b'16\n')),
    ('GET', '/', None, (200, file(PAGE))),
]


def answers(port):
    line = http.client.HTTPConnection('127.0.0.1', port, timeout=30)
    for method, path, body, wanted in CASES:
        expect(ask(line, method, path, body), wanted, f'{method} {path}')
    # Refusals end the connection; each has its own.
    for method, path, body, wanted in (
        ('GET', '/check', None, (405, b'not with this method\n')),
        ('POST', '/', b'x', (405, b'not with this method\n')),
        ('DELETE', '/export', None, (405, b'not with this method\n')),
        ('GET', '/nowhere', None, (404, b'there is nothing here\n')),
        ('GET', '/../../etc/passwd', None, (404, b'there is nothing here\n')),
        ('POST', '/check', b'1' * 65537, (413, b'the text is too long\n')),
    ):
        line = http.client.HTTPConnection('127.0.0.1', port, timeout=30)
        expect(ask(line, method, path, body), wanted, f'{method} {path}')
    line = http.client.HTTPConnection('127.0.0.1', port, timeout=30)
    line.request('GET', '/')
    page = line.getresponse()
    expect(page.getheader('Content-Type'), 'text/html; charset=utf-8', 'the type of the page')
    expect(page.getheader('X-Content-Type-Options'), 'nosniff', 'a header of the page')
    expect(page.getheader('Content-Security-Policy'), "frame-ancestors 'none'", 'a header of the page')


def limits(port):
    head = b'POST /check HTTP/1.1\r\nHost: x\r\n'
    winter = file('examples/winter.post')
    chunks = [b'%x\r\n%b\r\n' % (len(winter[at:at + 7]), winter[at:at + 7]) for at in range(0, len(winter), 7)]
    got = raw(port, [head + b'Connection: close\r\nTransfer-Encoding: chunked\r\n\r\n', *chunks, b'0\r\n\r\n'])
    expect(got.endswith(b'\r\n\r\n1\n'), True, 'a body in pieces')
    # A body that says no length and is too long is cut off, without an answer.
    chunk = b'2000\r\n' + b'1' * 8192 + b'\r\n'
    expect(raw(port, [head + b'Transfer-Encoding: chunked\r\n\r\n'] + [chunk] * 40), b'', 'a body without end')
    expect(raw(port, [head + b'Content-Length: 99999999999999999999\r\n\r\n'])[:12], b'HTTP/1.1 413', 'a length beyond all')


def garbage(port):
    """What is no request gets an error or nothing, and no longer than the server's ten seconds."""
    expect(raw(port, [b'\0\1\2 garbage\r\n\r\n'])[:10] in (b'', b'HTTP/1.0 4', b'HTTP/1.1 4'), True, 'garbage')


def endless_name(port):
    got = raw(port, [b'GET /' + b'a' * 100000 + b' HTTP/1.1\r\n\r\n'])
    expect(got[:12] in (b'', b'HTTP/1.1 414', b'HTTP/1.1 431'), True, f'a name without end {got[:20]}')


def slow_body(port):
    """A body that comes byte by byte is waited for no longer than the server's ten seconds."""
    began = time.monotonic()
    with socket.create_connection(('127.0.0.1', port), timeout=30) as line:
        line.sendall(b'POST /check HTTP/1.1\r\nHost: x\r\nContent-Length: 100\r\n\r\n')
        while not select.select([line], [], [], 0.5)[0]:
            line.sendall(b'1')
        expect(line.recv(1), b'', 'a slow body')
    expect(9 < time.monotonic() - began < 15, True, 'the end of a slow body')


def load(port, requests, which):
    """Many requests over one connection after the other, each answer compared."""
    line = http.client.HTTPConnection('127.0.0.1', port, timeout=30)
    for at in range(requests):
        if at % 50 == 49:
            line.close()  # and connected anew by the next request
        method, path, body, wanted = CASES[(at * 7 + which) % len(CASES)]
        expect(ask(line, method, path, body), wanted, f'under load, {method} {path}')


def main():
    program, requests = sys.argv[1], int(sys.argv[2]) if len(sys.argv) > 2 else 16000
    server = subprocess.Popen([program, '-p', '0', PAGE], stdout=subprocess.PIPE, text=True)
    try:
        port = int(server.stdout.readline().split(':')[3].strip('/\n'))
        answers(port)
        with concurrent.futures.ThreadPoolExecutor(THREADS + 4) as pool:
            works = [pool.submit(load, port, requests // THREADS, which) for which in range(THREADS)]
            works += [pool.submit(one, port) for one in (limits, slow_body, garbage, endless_name)]
            for work in works:
                work.result()
        answers(port)
    finally:
        server.terminate()
        status = server.wait(30)
    expect(status, 0, 'its end')
    print(f'server: {len(CASES)} kinds of request, its limits, and {requests} requests over {THREADS} connections at once, all answered as they should be')


main()
