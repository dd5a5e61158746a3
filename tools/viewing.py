"""What the tools that try `zxtt-view` have in common: the program on a port of its own, and how it is asked over HTTP, by whole
requests or by bytes that are no request. Everything has a time limit, as in trials.py."""
import http.client
import os
import re
import socket
import subprocess
import sys
import threading
import time

from trials import LIMIT, MOST, TOP, Trouble, expect

SAYS = re.compile(rb'zxtt-view: http://127\.0\.0\.1:(\d+)/\n')
PATIENCE = 20  # seconds for one answer of the program


class Programs:
    """The program to try and, beside it, the `zxtt` with which it is compared."""

    def __init__(self, view):
        self.view = view
        self.zxtt = f'{os.path.dirname(view)}/zxtt'


def programs_asked():
    """The program that is named, or bin/zxtt-view, with the `zxtt` of the same folder."""
    words = [word for word in sys.argv[1:] if not word.startswith('-')]
    if len(words) > 1:
        sys.exit(f'usage: tools/{os.path.basename(sys.argv[0])} [PROGRAM]')
    programs = Programs(os.path.abspath(words[0]) if words else f'{TOP}/bin/zxtt-view')
    for path in (programs.view, programs.zxtt):
        if not os.path.isfile(path):
            sys.exit(f'{path} is not there: run make first')
    return programs


class Answer:
    """A status, the headers by their names in small letters, and a body."""

    def __init__(self, status, headers, body):
        self.status = status
        self.headers = {name.lower(): value for name, value in headers}
        self.body = body


class NotListening(Trouble):
    """The program ended ahead of listening: with this status, and what it printed and said."""

    def __init__(self, status, printed, said):
        super().__init__(f'ended with status {status}, printed {printed[:200]!r} and said {said[:200]!r}')
        self.status, self.printed, self.said = status, printed, said


class View:
    """The program, once it listens on a port of its own. It is ended at the end of `with`."""

    def __init__(self, program, words=(), limit=LIMIT, settings=None):
        self.deadline = time.monotonic() + limit
        self.process = subprocess.Popen(
            [program, *map(str, words)], stdin=subprocess.DEVNULL, stdout=subprocess.PIPE, stderr=subprocess.PIPE, cwd=TOP,
            env=os.environ | (settings or {}),
        )
        self.clock = threading.Timer(limit, self.process.kill)
        self.clock.start()
        self.ends = []
        self.first_line = self.process.stdout.readline()
        said = SAYS.fullmatch(self.first_line)
        if not said:
            status, printed, told = self.ended()
            self.close()
            raise NotListening(status, self.first_line + printed, told)
        self.port = int(said[1])
        self.place = f'127.0.0.1:{self.port}'

    def __enter__(self):
        return self

    def __exit__(self, *_):
        self.close()

    def close(self):
        for end in self.ends:
            end.close()
        self.clock.cancel()
        self.process.kill()
        self.process.wait()
        self.process.stdout.close()
        self.process.stderr.close()

    def ended(self):
        """The exit status, what was printed behind the first line, and what was said, once it has ended by itself."""
        printed, said = self.process.communicate(timeout=max(0.1, self.deadline - time.monotonic()))
        return self.process.returncode, printed, said

    def is_there(self):
        """Whether it goes on, a moment after it may have ended."""
        time.sleep(0.2)
        return self.process.poll() is None

    def connect(self):
        """A connection of its own."""
        end = socket.create_connection(('127.0.0.1', self.port), timeout=PATIENCE)
        end.setsockopt(socket.IPPROTO_TCP, socket.TCP_NODELAY, 1)
        self.ends.append(end)
        return end

    def ask(self, method, path, body=None, headers=None, chunked=False):
        """The answer to a whole request over a connection of its own."""
        browser = Browser(self)
        try:
            return browser.ask(method, path, body, headers, chunked)
        finally:
            browser.leave()

    def ask_if_it_answers(self, method, path, body=None):
        """The answer to a whole request, or None where the connection is closed without one."""
        return Answers(self.send(request(method, path, self.place, body=body))).next()

    def get(self, path):
        """The body of a page that is there."""
        answer = self.ask('GET', path)
        expect(f'status of GET {path}', 200, answer.status)
        return answer.body

    def lines(self, lines):
        """What is answered to lines."""
        answer = self.ask('POST', '/lines', lines)
        expect('status of POST /lines', 200, answer.status)
        return answer.body

    def send(self, text):
        """A connection of its own over which these bytes were sent; whether they all were, the answer tells."""
        end = self.connect()
        try:
            end.sendall(text)
        except OSError:
            pass
        return end

    def end_it(self):
        """Ends the program as its page does: its exit status, what it printed behind its first line, and what it said."""
        expect('status of POST /end', 200, self.ask('POST', '/end', b'').status)
        return self.ended()


class Browser:
    """A connection that is kept from one request to the next."""

    def __init__(self, view):
        self.connection = http.client.HTTPConnection('127.0.0.1', view.port, timeout=PATIENCE)

    def ask(self, method, path, body=None, headers=None, chunked=False):
        self.connection.request(method, path, body, headers or {}, encode_chunked=chunked)
        response = self.connection.getresponse()
        return Answer(response.status, response.getheaders(), response.read(MOST))

    def lines(self, lines):
        answer = self.ask('POST', '/lines', lines)
        expect('status of POST /lines', 200, answer.status)
        return answer.body

    def leave(self):
        self.connection.close()


class Answers:
    """The answers that come over a connection, one by one. Each but those of the hundreds has to say how long it is."""

    def __init__(self, end):
        self.file = end.makefile('rb')

    def next(self):
        """The next answer, or None where the connection was closed ahead of it or within it."""
        try:
            line = self.file.readline(1 << 16)
            if not line.endswith(b'\n'):
                return None
            headers = http.client.parse_headers(self.file)
            status = int(line.split(b' ')[1])
            length = 0 if status < 200 else int(headers['Content-Length'])
            body = self.file.read(length)
        except ConnectionError:
            return None
        return Answer(status, headers.items(), body) if len(body) == length else None

    def rest(self):
        """What comes to the end of the connection."""
        try:
            return self.file.read(MOST)
        except ConnectionError:
            return b''


def request(method, path, host, headers=(), body=None):
    """The bytes of a request, with these headers behind its hosts, of which there may be any number."""
    hosts = [host] if isinstance(host, str) else host
    lines = [f'{method} {path} HTTP/1.1', *(f'Host: {one}' for one in hosts), *headers]
    if body is not None:
        lines.append(f'Content-Length: {len(body)}')
    return ''.join(f'{line}\r\n' for line in [*lines, '']).encode('latin-1') + (body or b'')
