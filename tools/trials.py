"""What the tools that try the built program have in common: which program is tried, a server of its own port, and how trials
are told and counted. Everything has a time limit, so that a program that hangs is told and ended."""
import os
import re
import signal
import socket
import subprocess
import sys
import threading
import time

TOP = os.path.dirname(os.path.dirname(os.path.abspath(__file__)))
LIMIT = 60  # seconds for what takes less than one
MOST = 1 << 28  # bytes that are read of a program; the longest answers have some million
END = time.monotonic() + 600  # what has not begun by then is not tried

# Who begins a tool behind '&' ignores interrupts, and so would the programs that it tries, which are to end by one.
signal.signal(signal.SIGINT, signal.default_int_handler)


class Trouble(Exception):
    """What went otherwise than told."""


def program_asked(name='zxtt'):
    """The program to try: the one that is named, or that of bin/."""
    if len(sys.argv) > 2 or sys.argv[1:] and sys.argv[1].startswith('-'):
        sys.exit(f'usage: tools/{os.path.basename(sys.argv[0])} [PROGRAM]')
    program = os.path.abspath(sys.argv[1]) if len(sys.argv) == 2 else f'{TOP}/bin/{name}'
    if not os.path.isfile(program):
        sys.exit(f'{sys.argv[1]} is not there' if len(sys.argv) == 2 else f'bin/{name} is not there: run make first')
    return program


def first_difference(told, came):
    """The first line that came otherwise than told, or None if the two texts are one."""
    if told == came:
        return None
    told, came = told.split(b'\n'), came.split(b'\n')
    at = next((n for n, pair in enumerate(zip(told, came)) if pair[0] != pair[1]), min(len(told), len(came)))
    return f'line {at + 1}: told {shown(told, at)}, came {shown(came, at)}'


def shown(lines, at):
    """A line of a text, as far as it can be read at a glance, or that the text has ended."""
    if at >= len(lines) or at == len(lines) - 1 and not lines[at]:
        return 'the end'
    return repr(lines[at][:120].decode('latin-1'))


def expect(what, told, came):
    """Raises where something is otherwise than told."""
    if told == came:
        return
    if isinstance(told, bytes) and isinstance(came, bytes):
        raise Trouble(f'{what}: {first_difference(told, came)}')
    raise Trouble(f'{what}: told {told!r}, came {came!r}')


def difference_in(trial, *arguments):
    """What a trial found to be otherwise than told, or None. Whatever it raises is a difference."""
    if time.monotonic() > END:
        return 'not tried: no time was left'
    try:
        return trial(*arguments)
    except Trouble as trouble:
        return str(trouble)
    except Exception as error:  # an answer of another form may break a trial anywhere, and the other trials are to go on
        return f'{type(error).__name__}: {error}'


def counted(passed, failed):
    """Prints the last line, and gives the exit status."""
    print(f'{passed} passed, {failed} failed', flush=True)
    return 1 if failed or not passed else 0


# what the program says on standard error of who listens, is waited for, comes and goes
NOTICE = re.compile(r'zxtt: (?:listening on|waiting for \d+ clients?|client \d+ (?:connected from|disconnected)).*')


def lines_of(text):
    return text.decode().split('\n')[:-1]


def parted(lines):
    """The lines that are no such notices, and the notices, without their ports."""
    notices = [re.sub(r':\d+$', '', line) for line in lines if NOTICE.fullmatch(line)]
    return [line for line in lines if not NOTICE.fullmatch(line)], notices


def run(program, words, lines=b'', limit=LIMIT):
    """What the program with these words did over the lines of its standard input."""
    running = subprocess.Popen(
        [program, *words], stdin=subprocess.PIPE, stdout=subprocess.PIPE, stderr=subprocess.PIPE, cwd=TOP
    )
    begun = time.monotonic()
    clock = threading.Timer(limit, running.kill)
    said = []
    threads = [
        clock,
        threading.Thread(target=feed, args=(running.stdin, lines), daemon=True),
        threading.Thread(target=lambda: said.append(running.stderr.read(MOST)), daemon=True),
    ]
    for thread in threads:
        thread.start()
    try:
        wrote = running.stdout.read(MOST)
        if len(wrote) == MOST:
            raise Trouble('wrote without an end')
        running.wait(limit)
    finally:
        clock.cancel()
        running.kill()
        running.wait()
        for thread in threads:
            thread.join()
        running.stdout.close()
        running.stderr.close()
    if time.monotonic() - begun >= limit:
        raise Trouble(f'did not end within {limit} seconds')
    return subprocess.CompletedProcess(running.args, running.returncode, wrote, said[0])


def feed(pipe, lines):
    """Writes the lines and ends the input. A program that ended before is judged by what it wrote."""
    try:
        with pipe:
            pipe.write(lines)
    except OSError:
        pass


def run_well(program, words, lines=b'', limit=LIMIT):
    """What the program with these words wrote, where it ended well."""
    done = run(program, words, lines, limit)
    expect('exit status', 0, done.returncode)
    expect('standard error', b'', done.stderr)
    return done.stdout


handed_out = set()
handing_out = threading.Lock()


def free_port():
    """A port that was free a moment ago, and that is given out once in this process."""
    with handing_out:
        while len(handed_out) < 20000:
            with socket.socket() as found:
                found.bind(('127.0.0.1', 0))
                port = found.getsockname()[1]
            if port not in handed_out:
                handed_out.add(port)
                return port
    raise Trouble('no free port')


class Server:
    """The program that serves so many clients on a port of its own. It is ended at the end of `with`."""

    def __init__(self, program, clients=1, words=(), stdout=subprocess.PIPE, limit=LIMIT, settings=None):
        self.program, self.clients, self.words, self.stdout = program, clients, words, stdout
        self.environment = os.environ | (settings or {})
        self.deadline = time.monotonic() + limit
        self.limit = limit
        self.ends = []
        self.start()

    def start(self):
        self.port = free_port()
        words = ['serve', str(self.port), '--clients', str(self.clients), *self.words]
        self.process = subprocess.Popen(
            [self.program, *words], stdin=subprocess.DEVNULL, stdout=self.stdout, stderr=subprocess.PIPE, cwd=TOP,
            env=self.environment,
        )

    def __enter__(self):
        return self

    def __exit__(self, *_):
        for end in self.ends:
            end.close()
        self.process.kill()
        self.process.wait()
        for pipe in (self.process.stdout, self.process.stderr):
            if pipe:
                pipe.close()

    def connect(self):
        """The connection of the next client, as soon as the program listens."""
        while time.monotonic() < self.deadline:
            try:
                end = socket.create_connection(('127.0.0.1', self.port), timeout=self.limit)
            except ConnectionRefusedError:
                self.look_after()
                time.sleep(0.01)
                continue
            if end.getsockname() != end.getpeername():  # else it is connected to itself
                self.ends.append(end)
                return end
            end.close()
        raise Trouble('the program does not listen')

    def look_after(self):
        """Where the program has ended: takes another port if this one was taken, and else says why it ended."""
        if self.process.poll() is None:
            return
        said = self.process.communicate()[1]
        if self.ends or self.process.returncode != 3 or b'in use' not in said:
            raise Trouble(f'ended with status {self.process.returncode}, and said {said[:200]!r}')
        self.start()

    def ended(self):
        """The exit status, once all clients have gone, and what was printed and said."""
        printed, said = self.process.communicate(timeout=max(0.1, self.deadline - time.monotonic()))
        return self.process.returncode, printed, said

    def closed(self, rows):
        """Raises where the program does not end well, or does not print so many rows of the log."""
        status, printed, said = self.ended()
        expect('printed', b'closed %d\n' % rows, printed)
        expect('standard error', [], parted(lines_of(said))[0])
        expect('exit status', 0, status)


class Client:
    """A client of a server, who can wait for each answer."""

    def __init__(self, server):
        self.end = server.connect()
        self.end.setsockopt(socket.IPPROTO_TCP, socket.TCP_NODELAY, 1)
        self.answers = self.end.makefile('rb')

    def type(self, line):
        self.end.sendall(line.encode() + b'\n')

    def answer(self):
        """The next answer: one line, and the rows that it announces."""
        first = self.answers.readline()
        rows = re.fullmatch(rb'(?:rows|holders|leaks) \d+ (\d{1,7})\n', first)
        return (first + b''.join(self.answers.readline() for _ in range(int(rows[1]) if rows else 0))).decode('latin-1')

    def ask(self, line):
        self.type(line)
        return self.answer()

    def leave(self):
        """Ends the input."""
        self.end.shutdown(socket.SHUT_WR)


def leave_all(clients):
    """Ends the input of all clients, to whom nothing more may come."""
    for client in clients:
        client.leave()
    for client in clients:
        expect('behind the last answer', b'', client.answers.read())


def talk(server, lines):
    """All that the next client is told, who sends all lines and then waits for the end."""
    end = server.connect()
    sender = threading.Thread(target=send, args=(end, lines), daemon=True)
    sender.start()
    came = bytearray()
    while True:
        if time.monotonic() > server.deadline:
            raise Trouble('the answers do not end')
        more = end.recv(1 << 16)
        if not more:
            sender.join(server.limit)
            return bytes(came)
        came += more
        if len(came) > MOST:
            raise Trouble('the answers do not end')


def send(end, lines):
    """Sends the lines and ends the input. Where the other side has gone, what it answered tells."""
    try:
        end.sendall(lines)
        end.shutdown(socket.SHUT_WR)
    except OSError:
        pass
