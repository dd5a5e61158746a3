"""Requests to `zxtt-view` that are refused, broken or never end, and clients that go away, say nothing or do not read. Each trial
is given the program with a history, which has to stand behind it: a channel, an event and the branch `other` at moment 3."""
import socket
import struct

from trials import Trouble, expect
from viewing import Answers, request

LARGEST_BODY = 16 << 20
SILENT = 20  # clients that connect and send nothing
CALL = b'1025 event_create\n'


def refused(view, text, what, end=None):
    """Raises where bytes are answered by a status under 400, unless the connection was closed instead."""
    answer = Answers(end or view.send(text)).next()
    if answer and answer.status < 400:
        raise Trouble(f'{what}: answered {answer.status} {answer.body[:60]!r}')
    if answer and (b'zxtt 2' in answer.body or b'ok' in answer.body):
        raise Trouble(f'{what}: told {answer.body[:60]!r}')


def refused_whatever_is_asked(view, host, headers, what):
    """Raises where a page, a look, lines or the end are got at with this host and these headers."""
    for method, path, body in (
        ('GET', '/tree', None), ('GET', '/', None), ('GET', '/change/1', None), ('POST', '/lines', CALL), ('POST', '/end', b''),
    ):
        refused(view, request(method, path, host, headers, body), f'{method} {path} {what}')


def other_hosts(view):
    place, port = view.place, view.port
    hosts = [
        [], [place, place], [place, 'example.org'], ['example.org', place], '', '127.0.0.1', 'localhost',
        f'127.0.0.1:{port + 1}', f'localhost:{port - 1}', '127.0.0.1:', f'127.0.0.1:0{port}', f'127.0.0.1:{port}0',
        f'127.0.0.1:+{port}', 'example.org', f'example.org:{port}', f'127.0.0.1.example.org:{port}',
        f'localhost.example.org:{port}', f'xlocalhost:{port}', f'127.0.0.2:{port}', f'127.1:{port}', f'2130706433:{port}',
        f'[::1]:{port}', f'0.0.0.0:{port}', f'localhost.:{port}', f'user@127.0.0.1:{port}', f'{place}@example.org',
        f'{place},example.org', f'{place} example.org', f'{place}/', f'http://{place}', f'{place}#', f'{place}%00',
        f'127.0.0.1%3a{port}', f'127.0.0.1:{port}:{port}', 'x' * 5000,
    ]
    for host in hosts:
        refused_whatever_is_asked(view, host, [], f'of host {str(host)[:60]!r}')
    refused(view, b'GET /tree HTTP/1.0\r\n\r\n', 'HTTP/1.0 without a host')
    for host in (f'localhost:{port}', f'LocalHost:{port}', place, f' {place} '):
        answer = Answers(view.send(request('GET', '/branches', host))).next()
        expect(f'own host {host!r}', 200, answer and answer.status)


def other_origins(view):
    place, port = view.place, view.port
    origins = [
        'null', '', 'http://example.org', f'http://example.org:{port}', f'https://{place}', f'http://127.0.0.1:{port + 1}',
        'http://127.0.0.1', 'http://localhost', f'http://{place}.example.org', f'http://{place}/',
        f'http://{place}@example.org', f'http://127.0.0.1:{port}0', f'http://[::1]:{port}', place, 'file://',
        'chrome-extension://abcdefghijklmnop', f'HTTP:{place}', f'http://{place} http://example.org',
        f'http://{place}, http://example.org',
    ]
    for origin in origins:
        refused_whatever_is_asked(view, place, [f'Origin: {origin}'], f'of origin {origin!r}')
    own = f'http://{place}'
    for two in ([own, 'http://example.org'], ['http://example.org', own], ['null', own]):
        refused_whatever_is_asked(view, place, [f'Origin: {origin}' for origin in two], f'of origins {two}')
    for origin in (f'http://127.0.0.1:{port}', f'http://localhost:{port}'):
        answer = Answers(view.send(request('POST', '/lines', place, [f'Origin: {origin}'], b'back 0\n'))).next()
        expect(f'own origin {origin!r}', 200, answer and answer.status)


def other_sites(view):
    """A request that a browser makes for a page of another site, as for its pictures, is refused, and one of a person is answered."""
    place = view.place
    for site in ('cross-site', 'same-site', '', 'same-origin, none', 'SAME-ORIGIN', 'none ;', 'same-origin-x', 'null'):
        refused_whatever_is_asked(view, place, [f'Sec-Fetch-Site: {site}'], f'of site {site!r}')
    for two in (['same-origin', 'cross-site'], ['cross-site', 'same-origin'], ['none', 'none']):
        refused_whatever_is_asked(view, place, [f'Sec-Fetch-Site: {site}' for site in two], f'of sites {two}')
    for site in ('same-origin', 'none'):
        answer = Answers(view.send(request('GET', '/branches', place, [f'Sec-Fetch-Site: {site}']))).next()
        expect(f'own site {site!r}', 200, answer and answer.status)


GUARDS = {
    'cache-control': 'no-store', 'content-security-policy': "default-src 'self'; frame-ancestors 'none'",
    'x-content-type-options': 'nosniff', 'cross-origin-resource-policy': 'same-origin',
}


def every_answer_is_guarded(view):
    """Answers and refusals have the headers that keep other sites from reading or framing them."""
    asked = [request('GET', path, view.place) for path in ('/', '/style.css', '/script.js', '/tree', '/branches', '/change/1')]
    asked += [request('GET', path, view.place) for path in ('/nothing', '/change/99', '/events/99', '/path/99/0', '/lines')]
    asked += [request('POST', '/lines', view.place, body=b'back 0\n'), request('GET', '/tree', 'example.org')]
    asked += [request('GET', '/tree', view.place, ['Origin: null']), request('GET', '/tree', view.place, ['Sec-Fetch-Site: cross-site'])]
    for one in asked:
        answer = Answers(view.send(one)).next()
        for name, value in GUARDS.items():
            expect(f'{name} of {one[:40]!r}', value, answer.headers.get(name))


def targets_of_another_host(view):
    """Where the target has a host, it is the host that is asked for, whatever stands in the header."""
    for target in ('http://example.org/tree', f'http://example.org:{view.port}/tree', f'http://127.0.0.1:{view.port + 1}/tree',
                   f'https://{view.place}/tree', f'ftp://{view.place}/tree', f'//{view.place}/tree', f'//example.org/tree'):
        refused(view, request('GET', target, view.place), f'GET {target}')
    refused(view, request('GET', f'http://{view.place}/tree', 'example.org'), 'a target of its own, of another host')


def other_methods(view):
    for method in ('PUT', 'DELETE', 'PATCH', 'OPTIONS', 'TRACE', 'CONNECT', 'PROPFIND', 'get', 'post', 'X'):
        for path in ('/', '/tree', '/lines', '/end', '/change/1', '/branches', '*'):
            refused(view, request(method, path, view.place, body=CALL), f'{method} {path}')
    for path in ('/', '/style.css', '/tree', '/change/1', '/calls/3/1/3', '/events/3/0/3', '/path/3/0', '/object/1026/3',
                 '/handle/1025/7/3', '/lineage/1026/3', '/trace', '/noted', '/branches'):
        refused(view, request('POST', path, view.place, body=CALL), f'POST {path}')
    for path in ('/lines', '/end'):
        refused(view, request('GET', path, view.place), f'GET {path}')
        refused(view, request('GET', path, view.place, body=CALL), f'GET {path} with a body')
    for path in ('/lines', '/end', '/nothing'):
        line = request('HEAD', path, view.place)
        if view.send(line).recv(13)[9:10] not in (b'4', b'5'):
            raise Trouble(f'HEAD {path} was answered')


def other_paths(view):
    """Paths beside those that there are, and numbers in another form than there is."""
    for path in (
        '/nothing', '/index.html', '/favicon.ico', '/../etc/passwd', '/..%2f..%2fetc%2fpasswd', '/%2e%2e/etc/passwd', '//',
        '/.', '/./', '/style.css/', '/STYLE.CSS', '/script.js/../tree', '/tree/', '//tree', '/Tree', '/%74ree', '/tree%00',
        '/tree;x', '/branches/', '/change', '/change/', '/change//1', '/change/1/', '/change/x', '/change/-1', '/change/+1',
        '/change/01', '/change/1.0', '/change/0x1', '/change/1e0', '/change/%31', '/change/4294967296',
        '/change/18446744073709551616', '/change/' + '9' * 400, '/change/1048577', '/change/4', '/changes/1', '/calls',
        '/calls/3', '/calls/3/1', '/calls/3/1/3/', '/calls/3/1/3/4', '/calls/03/1/3', '/calls/4/1/3', '/calls/3/1/x',
        '/events', '/events/', '/events/x', '/events/3', '/events/3/3', '/events/4/0/3', '/events/3/0/3/', '/path', '/path/3',
        '/path/3/', '/path/4/0', '/path/3/0/3', '/path/x/0', '/trace/', '/trace/1', '/noted/', '/noted/1', '/object', '/object/1026', '/object/x/3',
        '/object/1026/x', '/object/1026/4', '/object/1026/3/', '/object/99/3', '/object/18446744073709551616/3', '/lines',
        '/handle', '/handle/1025', '/handle/1025/7', '/handle/1025/7/', '/handle/1025/7/x', '/handle/1025/x/3', '/handle/x/7/3',
        '/handle/1025/7/4', '/handle/1025/7/3/', '/handle/1025/7/3/3', '/handle/1025/99/3', '/handle/1025/4294967296/3',
        '/handle/18446744073709551616/7/3', '/lineage', '/lineage/1026', '/lineage/x/3', '/lineage/1026/x', '/lineage/1026/4',
        '/lineage/1026/3/', '/lineage/99/3', '/lineage/18446744073709551616/3',
        '/end', '/view/index.html', '/crates.txt', '/tree/../tree', 'tree', 'x:y', '*',
    ):
        refused(view, request('GET', path, view.place), f'GET {path[:60]}')
    for path in ('/lines/', '/Lines', '/lines/1', '//lines', '/%6cines', '/lines%20', '/end/', '/ends', '/', '/tree'):
        refused(view, request('POST', path, view.place, body=CALL), f'POST {path}')


def bodies_that_are_too_long(view):
    for length in (LARGEST_BODY + 1, 1 << 31, 1 << 32, 1 << 63, 1 << 64, 10 ** 40):
        head = request('POST', '/lines', view.place, [f'Content-Length: {length}'])
        refused(view, head + CALL, f'a body of {length} bytes that is announced')
    head = request('POST', '/lines', view.place, [f'Content-Length: {LARGEST_BODY + 1}'])
    refused(view, head + CALL + b'#' * (LARGEST_BODY + 1 - len(CALL)), 'a body of a byte too much')
    head = request('POST', '/lines', view.place, ['Transfer-Encoding: chunked'])
    chunk = b'10000\r\n' + b'#' * 65536 + b'\r\n'
    refused(view, head + b'12\r\n' + CALL + b'\r\n' + chunk * 257 + b'0\r\n\r\n', 'a body of too many chunks')


def requests_that_are_none(view):
    place = f'Host: {view.place}\r\n'.encode()
    post = b'POST /lines HTTP/1.1\r\n' + place
    for text in (
        b'\x16\x03\x01\x02\x00\x01\x00\x01\xfc\x03\x03' + bytes(200) + b'\r\n\r\n', b'PRI * HTTP/2.0\r\n\r\nSM\r\n\r\n',
        bytes(range(256)) * 80, b'\x00' * 100000, b'A' * 100000, b'GET /tree\r\n\r\n', b'GET\r\n\r\n',
        b' GET /tree HTTP/1.1\r\n' + place + b'\r\n', b'GET /tree HTTP/1.1 x\r\n' + place + b'\r\n',
        b'GET  /tree HTTP/1.1\r\n' + place + b'\r\n', b'GET /tree HTTP/9.9\r\n' + place + b'\r\n',
        b'GET /tree HTTPS/1.1\r\n' + place + b'\r\n', b'GET /tr ee HTTP/1.1\r\n' + place + b'\r\n',
        b'GET /tr\x00ee HTTP/1.1\r\n' + place + b'\r\n', b'GET \xff HTTP/1.1\r\n' + place + b'\r\n',
        b'1025 event_create\n1025 event_create\n\n', b'zxtt 1\n\r\n', post + b'Content-Length: -1\r\n\r\n' + CALL,
        post + b'Content-Length: x\r\n\r\n' + CALL, post + b'Content-Length: 18 \x01\r\n\r\n' + CALL,
        post + b'Content-Length: 18\r\nContent-Length: 17\r\n\r\n' + CALL, post + b'Transfer-Encoding: gzip\r\n\r\n' + CALL,
        post + b'Transfer-Encoding: gzip, chunked\r\n\r\n12\r\n' + CALL + b'\r\n0\r\n\r\n',
        post + b'Transfer-Encoding: chunked\r\n\r\nxyz\r\n' + CALL + b'\r\n0\r\n\r\n',
        post + b'Transfer-Encoding: chunked\r\n\r\n-12\r\n' + CALL + b'\r\n0\r\n\r\n',
        post + b'Transfer-Encoding: chunked\r\n\r\nfffffffffffffffff\r\n' + CALL,
        post + b'Transfer-Encoding: chunked\r\n\r\n12\r\n' + CALL + b'xx0\r\n\r\n', post + b'No colon\r\n\r\n' + CALL,
        post + b'Na me: x\r\n\r\n', post + b'Name : x\r\n\r\n', post + b': x\r\n\r\n', post + b'Name: \x00\r\n\r\n',
        b'GET /tree HTTP/1.1\r\n Host: folded\r\n' + place + b'\r\n',
    ):
        end = view.send(text)
        end.shutdown(socket.SHUT_WR)
        refused(view, text, f'{text[:60]!r}', end)


def headers_that_are_too_long(view):
    for headers in (
        ['X: ' + 'x' * (1 << 20)], ['X' * 100000 + ': x'], [f'X-{n}: x' for n in range(20000)], ['Cookie: ' + 'a=b; ' * 50000],
    ):
        for method, path, body in (('GET', '/tree', None), ('POST', '/lines', CALL)):
            refused(view, request(method, path, view.place, headers, body), f'{method} with a header {headers[0][:20]!r}')
    refused(view, request('GET', '/' + 'x' * (1 << 20), view.place), 'a path of a million bytes')
    refused(view, b'GET /' + b'x' * (1 << 20), 'a request line without an end', None)


def leave_abruptly(end):
    end.setsockopt(socket.SOL_SOCKET, socket.SO_LINGER, struct.pack('ii', 1, 0))
    end.close()


def clients_that_go_away(view):
    """A part of a request is no request, however its client goes away."""
    whole = request('POST', '/lines', view.place, body=CALL * 50)
    chunked = request('POST', '/lines', view.place, ['Transfer-Encoding: chunked']) + b'12\r\n' + CALL + b'\r\n'
    for text in (b'', b'P', whole[:20], whole[:40], whole[:-1], whole[:-len(CALL)], chunked, chunked[:-1], chunked + b'0\r\n'):
        for go in (socket.socket.close, leave_abruptly):
            go(view.send(text))
        end = view.send(text)
        end.shutdown(socket.SHUT_WR)
        refused(view, text, f'{text[-30:]!r}', end)
    for _ in range(200):
        view.connect().close()


def another_is_served(view, times):
    for _ in range(times):
        expect('another', b'at 1\nfollow other 3\n', view.lines(b'goto 1\nfollow other\n'))


def clients_that_say_nothing(view):
    """Others are served while many are connected and send nothing, or no whole request."""
    whole = request('POST', '/lines', view.place, body=CALL * 50)
    for _ in range(SILENT):
        view.connect()
        view.send(whole[:30])
        view.send(whole[:-1])
    another_is_served(view, 20)


def more_clients_than_there_is_room_for(view):
    """Where more are connected than are kept, one who asks is still answered."""
    for _ in range(400):
        view.connect()
    another_is_served(view, 5)


def clients_that_do_not_read(view):
    """Others are served while some do not read long answers, and go away in the end."""
    ends = []
    for _ in range(3):
        end = socket.socket()
        end.setsockopt(socket.SOL_SOCKET, socket.SO_RCVBUF, 4096)
        end.settimeout(1)
        end.connect(('127.0.0.1', view.port))
        view.ends.append(end)
        ends.append(end)
        try:
            for _ in range(8):
                end.sendall(request('POST', '/lines', view.place, body=b'show\n' * 1000))
        except OSError:
            pass  # no more is taken before the answers are read
    another_is_served(view, 10)
    for end in ends[:2]:
        leave_abruptly(end)
    another_is_served(view, 5)


def upgrades_that_are_asked_for(view):
    key = 'Sec-WebSocket-Key: dGhlIHNhbXBsZSBub25jZQ=='
    for headers in (
        ['Connection: Upgrade', 'Upgrade: websocket', key, 'Sec-WebSocket-Version: 13'],
        ['Connection: Upgrade, HTTP2-Settings', 'Upgrade: h2c', 'HTTP2-Settings: AAMAAABkAARAAAAAAAIAAAAA'],
    ):
        answer = Answers(view.send(request('GET', '/branches', view.place, headers))).next()
        expect('an upgrade', True, answer is None or answer.status != 101)


HOSTILE = [
    other_hosts, other_origins, other_sites, every_answer_is_guarded, targets_of_another_host, other_methods, other_paths, bodies_that_are_too_long,
    requests_that_are_none, headers_that_are_too_long, clients_that_go_away, clients_that_say_nothing,
    more_clients_than_there_is_room_for, clients_that_do_not_read, upgrades_that_are_asked_for,
]
