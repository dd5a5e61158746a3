"""What the trials of zxtt-import have in common: what it did with a log, and whether a trace has the calls of the log that it was
made of."""
import json
import os
import re

from random_log import Answered
from trials import LIMIT, Trouble, expect, lines_of, run, run_well

LAST = re.compile(
    r'zxtt-import: (\d+) calls of (\d+) lines, (\d+) skipped, (\d+) adopted, (\d+) pairs by their messages, (\d+) moved; '
    r'(\d+) differences, (\d+) of them by the schedule'
)
NOTHING = 4294967292  # the handle of a trace by which nothing is named


def zxtt_of(program):
    return os.path.join(os.path.dirname(program), 'zxtt')


class Import:
    """What the program did with a log: how it ended, the trace that it wrote, and what it said."""

    def __init__(self, program, log, *words, limit=LIMIT):
        done = run(program, ['-', *words], log, limit)
        self.status, self.trace, self.said = done.returncode, done.stdout, done.stderr.decode('utf-8', 'replace').split('\n')[:-1]

    def told(self):
        """The differences that it told: the lines ahead of the last, but for that of what was skipped."""
        return [line for line in self.said if line.startswith('line ')]

    def skipped(self):
        """What it said was skipped: each name with how many lines have it, and what stands behind it."""
        lines = [line.removeprefix('skipped: ') for line in self.said if line.startswith('skipped: ')]
        return lines[0].split(', ') if lines else []

    def differences(self):
        """Those of them that tell differences."""
        return [line for line in self.told() if re.match(r'line \d+: (no )?moment', line)]

    def counts(self):
        """What the last line counts but for pairs and moved calls: calls, lines, skipped, adopted, differences, and those by the
        schedule."""
        return self.all_counts()[:4] + self.all_counts()[6:]

    def pairs(self):
        """How many pairs of ends were joined by their messages."""
        return self.all_counts()[4]

    def moved(self):
        """How many calls were moved ahead of others."""
        return self.all_counts()[5]

    def all_counts(self):
        last = LAST.fullmatch(self.said[-1]) if self.said else None
        if not last:
            raise Trouble(f'the last line said is {self.said[-1:]}')
        return tuple(map(int, last.groups()))

    def expect_well(self, differences=0):
        expect('exit status', 0, self.status)
        expect('differences told', differences, len(self.told()))
        expect('differences counted', differences, self.counts()[4])


def entry(process, call, status='ok', out=None, **args):
    return {'process': process, 'call': call, 'args': args, 'status': status} | ({'out': out} if out else {})


def text_of(entries):
    """The text of a log, of entries or of lines as they are."""
    return ''.join((it if isinstance(it, str) else json.dumps(it)) + '\n' for it in entries).encode()


def write(path, content):
    with open(path, 'wb') as file:
        file.write(content)


def replies(program, trace, room):
    """The calls of a trace with their replies, and the trace loads."""
    path = f'{room}/replies.trace'
    write(path, trace)
    lines = lines_of(run_well(zxtt_of(program), ['look', path, 'calls'], limit=10 * LIMIT))
    return [Answered(*line.split(' ', 1)[1].split(' => ')) for line in lines]


def told_of(program, room, log, differences, adopted, calls=None):
    """Raises where a log does not give these differences, so many calls that it does not have, and behind them these."""
    done = Import(program, text_of(log))
    expect('differences', differences, done.told())
    done.expect_well(len(differences))
    came = [f"{it.line} => {' '.join([it.status, *it.values])}" for it in replies(program, done.trace, room)]
    expect('calls adopted', adopted, done.counts()[3])
    if calls is not None:
        expect('calls of the log', calls, came[adopted:])
    return done


def is_refused(program, room, text, said, status=6):
    """Raises where a log is not refused so, or anything is written of it: a new file, or in the place of one."""
    done = Import(program, text)
    expect('said', [f'zxtt-import: {said}'], done.said)
    expect('exit status, and what is written', (status, b''), (done.status, done.trace))
    write(f'{room}/kept', b'as it was')
    for place in ('kept', 'new'):
        done = Import(program, text, '--to', f'{room}/{place}')
        expect('exit status with --to', status, done.status)
    with open(f'{room}/kept', 'rb') as file:
        expect('the file that stood there', b'as it was', file.read())
    expect('a new file', False, os.path.exists(f'{room}/new'))


def calls_alone(trace):
    return b'\n'.join(line for line in trace.split(b'\n') if not line.startswith(b'#'))


def moments_of(trace):
    """The moments of the calls of a trace that are of the log, by their lines. A comment ahead of each call says which it is."""
    found, moment = {}, 1
    for line in lines_of(trace)[1:]:
        told = re.match(r'# line (\d+): ', line)
        if told:
            found[int(told[1])] = moment
        elif not line.startswith('#'):
            moment += 1
    return found


class Back:
    """Compares the calls of a part of a log with those of the trace that came of it, whose numbers are others. What a number
    stands for is learned where it comes first."""

    def __init__(self):
        self.processes, self.handles, self.came_from = {}, {}, {}

    def process(self, told, came):
        expect('the process', self.processes.setdefault(told, came), came)
        expect('the process of the log', self.came_from.setdefault(came, told), told)

    def handle(self, process, told, came):
        """Compares a handle. One that never was there is named by what names nothing."""
        expect('0', told == 0, came == 0)
        if came != NOTHING:
            expect('the handle', self.handles.setdefault((process, told), came), came)
            expect('the handle of the log', self.came_from.setdefault((process, came), told), told)

    def call(self, told, came):
        """Compares a call with its reply."""
        self.process(told.process, came.process)
        for what in ('call', 'status'):
            expect(what, getattr(told, what), getattr(came, what))
        for handles_of in (Answered.handles_named, Answered.handles_given):
            expect('the number of handles', len(handles_of(told)), len(handles_of(came)))
            for one, other in zip(handles_of(told), handles_of(came)):
                self.handle(told.process, one, other)
        others = [[(name, word) for name, what, word in it.arguments() if what not in ('handle', 'list')] for it in (told, came)]
        expect('the other arguments', *others)
        expect('the other values', *(rest_of_reply(it) for it in (told, came)))
        if told.child():
            self.process(told.child(), came.child())


def rest_of_reply(it):
    """What a reply has that is neither a handle nor a process."""
    if it.status == 'ok' and it.call == 'channel_read':
        return it.values[:1]
    return it.values if it.status != 'ok' or it.call == 'port_wait' else []


def compare_calls(log, done, came):
    """Raises where the calls of a trace are not those of its log, up to numbers. A comment ahead of each names its line."""
    moments = moments_of(done.trace)
    expect('lines named', [number for number, line in enumerate(log, 1) if line.answered], list(moments))
    backs = {}
    for number, moment in moments.items():
        line, it = log[number - 1], came[moment - 1]
        try:
            backs.setdefault(line.part, Back()).call(line.answered, it)
        except Trouble as trouble:
            raise Trouble(f'line {number}, {line.answered.line!r}, came as {it.line!r}: {trouble}') from trouble
