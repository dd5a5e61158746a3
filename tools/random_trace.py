"""Random traces for tools/look: the program itself is asked call by call, and from its rows it is known what stands, so that
most calls succeed and many others fail, each with a status of its own. Those in which handles are passed on are made without the
program. A number gives the same trace each time."""
import random
import subprocess
import threading

from trials import LIMIT, TOP, Trouble

ROOT = 1025
SAME_RIGHTS = 1 << 31
READ, WRITE, DESTROY, SIGNAL, SIGNAL_PEER, WAIT = 1 << 2, 1 << 3, 1 << 9, 1 << 12, 1 << 13, 1 << 14
DUPLICATE, TRANSFER, MANAGE_JOB, MANAGE_PROCESS = 1, 2, 1 << 16, 1 << 17
RIGHTS = [READ, WRITE, DESTROY, SIGNAL, SIGNAL_PEER, WAIT, DUPLICATE, TRANSFER, 1 << 15, MANAGE_JOB, MANAGE_PROCESS]
MANY = 90  # entries from which on more is closed than made


def mask(bits):
    return f'0x{bits:08x}'


class Talk:
    """A run of the program whose answers are read one by one. It is ended at the end of `with`."""

    def __init__(self, program, words=()):
        self.process = subprocess.Popen(
            [program, 'run', '-', *words], stdin=subprocess.PIPE, stdout=subprocess.PIPE, stderr=subprocess.DEVNULL, cwd=TOP,
            text=True,
        )
        self.clock = threading.Timer(LIMIT, self.process.kill)
        self.clock.start()

    def __enter__(self):
        return self

    def __exit__(self, *_):
        self.clock.cancel()
        self.process.kill()
        self.process.wait()
        self.process.stdin.close()
        self.process.stdout.close()

    def ask(self, line):
        """The answer to a line: its first line, and the rows behind it."""
        self.process.stdin.write(line + '\n')
        self.process.stdin.flush()
        first = self.process.stdout.readline()
        if not first:
            raise Trouble(f'the program ended at {line!r}')
        fields = first.split()
        count = int(fields[2]) if fields[0] in ('rows', 'holders', 'leaks') else 0
        return first.rstrip('\n'), [self.process.stdout.readline().rstrip('\n') for _ in range(count)]

    def leave(self):
        """Ends the input, and waits for the program to end."""
        self.process.stdin.close()
        expected = self.process.wait(LIMIT)
        if expected != 0:
            raise Trouble(f'a run ended with status {expected}')


class Object:
    def __init__(self, fields):
        self.koid, self.kind, self.signals, self.link = int(fields[1]), fields[2], int(fields[3], 16), int(fields[4])
        self.live, self.critical = fields[5] == 'live', fields[7][len('critical:'):] if len(fields) > 7 else None


class Standing:
    """What stands, by the rows that `show` gives."""

    def __init__(self, rows):
        self.objects, self.entries, self.queues, self.packets, self.waits = {}, {}, {}, {}, []
        for row in rows:
            fields = row.split(' ')
            if fields[0] == 'object':
                self.objects[int(fields[1])] = Object(fields)
            elif fields[0] == 'entry':
                self.entries.setdefault(int(fields[1]), {})[int(fields[2])] = int(fields[3]), int(fields[4], 16)
            elif fields[0] == 'msg':
                self.queues.setdefault(int(fields[1]), []).append(fields)
            elif fields[0] == 'packet':
                self.packets.setdefault(int(fields[1]), []).append(fields)
            elif fields[0] == 'wait':
                self.waits.append(fields)

    def processes(self):
        return [koid for koid, it in self.objects.items() if it.kind == 'process' and it.live]

    def of(self, process):
        return self.entries.get(process, {})

    def handles(self, process, right=0, kinds=None):
        """The handles of a process that have a right, to objects of these kinds."""
        return [
            handle for handle, (koid, rights) in self.of(process).items()
            if rights & right == right and (kinds is None or self.objects[koid].kind in kinds)
        ]

    def named(self, process, handle):
        return self.objects[self.of(process)[handle][0]]

    def ends_with(self, koid):
        """What ends where this job or process does."""
        ending, more = set(), [koid]
        while more:
            one = more.pop()
            if one in ending or not self.objects[one].live:
                continue
            ending.add(one)
            more += [it.koid for it in self.objects.values() if it.link == one and it.kind in ('job', 'process') and it.live]
            more += [int(self.objects[one].critical)] if self.objects[one].critical else []
        return ending


class Unfit(Exception):
    """The process has nothing for the call."""


class Chooser:
    """Which call comes next. What is wanted mostly stands; now and then it is anything."""

    def __init__(self, seed):
        self.any = random.Random(seed)
        self.wild = 0.14
        self.kept = {(ROOT, 3)}  # handles that stay where they are, each with its process, which stays alive

    def pick(self, choices):
        return self.any.choice(choices) if choices else None

    def handle(self, now, process, right=0, kinds=None):
        """A handle that serves; or now and then one without the right, whichever, or one that is none."""
        fitting = now.handles(process, right, kinds)
        if self.any.random() > self.wild:
            if fitting:
                return self.pick(fitting)
            if self.any.random() < 0.8:
                raise Unfit
        lacking = [handle for handle in now.handles(process, 0, kinds) if handle not in fitting]
        if lacking and self.any.random() < 0.5:
            return self.pick(lacking)
        others = list(now.of(process))
        if others and self.any.random() < 0.8:
            return self.pick(others)
        return self.pick([0, 4, 7, 11, 3 + 4 * self.any.randrange(200), 4294967295])

    def rights(self, now, process, handle):
        """Rights to ask for: those of the handle, some of them, or now and then others."""
        held = now.of(process).get(handle, (0, 0))[1]
        chance = self.any.random()
        if chance < 0.4:
            return SAME_RIGHTS
        if chance < 0.85:
            return sum(right for right in RIGHTS if held & right and self.any.random() < 0.75)
        return self.pick([held | self.pick(RIGHTS), SAME_RIGHTS | 1, 1 << 20, self.any.getrandbits(32)])

    def signals(self, kind):
        """Signals that calls may set on the kind, or now and then others."""
        may = [1 << bit for bit in range(24, 32)] + ([8, 8, 8] if kind in ('event', 'eventpair') else [])
        chosen = 0
        for _ in range(self.any.randrange(3)):
            chosen |= self.pick(may)
        return chosen | (self.pick([1, 2, 4, 8, 16, 32, 1 << 10]) if self.any.random() < 0.06 else 0)

    def call(self, now, process):
        """A call of the process, without the process; None where nothing comes of it."""
        crowded = sum(map(len, now.entries.values())) > MANY
        weights = {
            self.event: 4, self.eventpair: 4, self.channel: 9, self.port: 3, self.close: 20 if crowded else 6,
            self.duplicate: 1 if crowded else 6, self.replace: 3, self.signal: 6, self.signal_peer: 5, self.wait: 9,
            self.write: 17, self.read: 15, self.queue: 4, self.take: 7, self.cancel: 4, self.job: 3,
            self.spawn: 3 if crowded else 6, self.critical: 4, self.kill: 4 if crowded else 2, self.exit: 2,
        }
        try:
            return self.any.choices(list(weights), list(weights.values()))[0](now, process)
        except Unfit:
            return None

    def event(self, *_):
        return 'event_create'

    def eventpair(self, *_):
        return 'eventpair_create'

    def channel(self, *_):
        return 'channel_create'

    def port(self, *_):
        return 'port_create'

    def close(self, now, process):
        handle = self.handle(now, process)
        return None if (process, handle) in self.kept else f'handle_close {handle}'

    def duplicate(self, now, process):
        handle = self.handle(now, process, DUPLICATE)
        return f'handle_duplicate {handle} {mask(self.rights(now, process, handle))}'

    def replace(self, now, process):
        handle = self.handle(now, process)
        if (process, handle) in self.kept:
            return None
        return f'handle_replace {handle} {mask(self.rights(now, process, handle))}'

    def kind(self, now, process, handle):
        return now.named(process, handle).kind if handle in now.of(process) else None

    def signal(self, now, process):
        handle = self.handle(now, process, SIGNAL)
        kind = self.kind(now, process, handle)
        return f'object_signal {handle} {mask(self.signals(kind))} {mask(self.signals(kind))}'

    def signal_peer(self, now, process):
        handle = self.handle(now, process, SIGNAL_PEER, ('channel', 'eventpair'))
        kind = self.kind(now, process, handle)
        return f'object_signal_peer {handle} {mask(self.signals(kind))} {mask(self.signals(kind))}'

    def key(self):
        return self.pick([0, 1, 1, 2, 3, 18446744073709551615])

    def wait(self, now, process):
        handle = self.handle(now, process, WAIT)
        port = self.handle(now, process, WRITE, ('port',))
        wanted = self.pick([1, 2, 4, 8, 8, 12, 16, 32, 1 << 24, 1 << 31, 0xff000000, 5, 0])
        return f"object_wait_async {handle} {port} {self.key()} {mask(wanted)}{self.pick(['', '', ' edge'])}"

    def bytes(self):
        return self.any.randbytes(self.pick([0, 1, 2, 3, 4, 8, 20])).hex() or '-'

    def write(self, now, process):
        """A message over a channel whose peer is mostly there; it may take handles along, of which the peer's may be one."""
        open_ended = [h for h in now.handles(process, WRITE, ('channel',)) if now.named(process, h).link]
        over = self.pick(open_ended) if self.any.random() < 0.7 else None
        over = over or self.handle(now, process, WRITE, ('channel',))
        sent = []
        for _ in range(self.pick([0, 0, 1, 1, 1, 2, 3])):
            sent.append(self.handle(now, process, TRANSFER))
        peer = [h for h in now.handles(process, TRANSFER) if self.kind(now, process, over) == 'channel'
                and now.of(process)[h][0] == now.named(process, over).link]
        if peer and self.any.random() < 0.2:
            sent.append(peer[0])
        channels = now.handles(process, TRANSFER, ('channel',))
        if channels and self.any.random() < 0.25:
            sent.append(self.pick(channels))
        if self.any.random() > 0.15:
            sent = [h for h in dict.fromkeys(sent) if h != over]
        sent = [h for h in sent if (process, h) not in self.kept]
        return f"channel_write {over} {self.bytes()} {','.join(map(str, sent)) or '-'}"

    def read(self, now, process):
        """A read of a channel that mostly has a message, with room for it in most cases."""
        full = [h for h in now.handles(process, READ, ('channel',)) if now.of(process)[h][0] in now.queues]
        if not full and self.any.random() < 0.8:
            return None
        handle = self.pick(full) if full and self.any.random() < 0.85 else self.handle(now, process, READ, ('channel',))
        room = self.pick([(64, 8), (64, 8), (64, 64), (1, 8), (64, 0), (0, 0)])
        return f"channel_read {handle} {room[0]} {room[1]}{self.pick(['', ' discard'])}"

    def queue(self, now, process):
        return f"port_queue {self.handle(now, process, WRITE, ('port',))} {self.key()} {self.any.randbytes(32).hex()}"

    def take(self, now, process):
        full = [h for h in now.handles(process, READ, ('port',)) if now.of(process)[h][0] in now.packets]
        if not full and self.any.random() < 0.6:
            return None
        handle = self.pick(full) if full and self.any.random() < 0.8 else self.handle(now, process, READ, ('port',))
        return f'port_wait {handle}'

    def cancel(self, now, process):
        own = [wait for wait in now.waits if int(wait[2]) == process]
        ports = now.handles(process, WRITE, ('port',))
        if own and ports and self.any.random() < 0.7:
            wait = self.pick(own)
            port = [h for h in ports if now.of(process)[h][0] == int(wait[4])]
            return f'port_cancel {self.pick(port or ports)} {wait[3]} {wait[5]}'
        return f"port_cancel {self.handle(now, process, WRITE, ('port',))} {self.handle(now, process, WAIT)} {self.key()}"

    def job(self, now, process):
        return f"job_create {self.handle(now, process, MANAGE_JOB, ('job',))}"

    def spawn(self, now, process):
        channels = now.handles(process, TRANSFER, ('channel',))
        argument = 0 if self.any.random() < 0.2 else self.handle(now, process, TRANSFER)
        if channels and self.any.random() < 0.4:
            argument = self.pick(channels)
        if (process, argument) in self.kept:
            return None
        return f"spawn {self.handle(now, process, MANAGE_PROCESS, ('job',))} {argument}"

    def critical(self, now, process):
        """A process becomes critical to a job that is mostly above it."""
        child = self.handle(now, process, WAIT, ('process',))
        above = self.handle(now, process, DESTROY, ('job',))
        if self.kind(now, process, child) == 'process':
            jobs = now.handles(process, DESTROY, ('job',))
            own = [h for h in jobs if now.of(process)[h][0] == now.named(process, child).link]
            above = self.pick(own) if own and self.any.random() < 0.8 else above
        return f'job_set_critical {above} {child}'

    def ends_one_kept(self, now, koid):
        """Whether a process that stays alive would end where this job or process does."""
        return not now.ends_with(koid).isdisjoint(process for process, _ in self.kept)

    def kill(self, now, process):
        handle = self.handle(now, process, DESTROY, ('job', 'process'))
        if self.kind(now, process, handle) in ('job', 'process') and self.ends_one_kept(now, now.named(process, handle).koid):
            return None
        return f'task_kill {handle}'

    def exit(self, now, process):
        if self.ends_one_kept(now, process):
            return None
        return f"process_exit {self.pick([0, 0, 1, -1, 7, -9223372036854775808, 9223372036854775807])}"


class Maker:
    """A trace that is made call by call."""

    def __init__(self, program, seed, path):
        self.chooser = Chooser(seed)
        self.any = self.chooser.any
        self.talk = Talk(program, ['--save-tree', path])
        self.moments, self.branches = 0, ['main']
        self.left_alone = set()  # processes that make no random calls
        self.calls = []
        self.now = Standing(self.talk.ask('show')[1])

    def make(self, call):
        """Makes a call, and looks at what stands then: the answer."""
        self.calls.append(call)
        answer = self.talk.ask(call)[0]
        self.moments += 1
        if not answer.startswith(f'{self.moments} '):
            raise Trouble(f'{call!r} was answered {answer!r}')
        self.now = Standing(self.talk.ask('show')[1])
        return answer

    def go(self, line):
        """Goes elsewhere by a command, which is not refused."""
        answer = self.talk.ask(line)[0]
        if answer.startswith('refused'):
            raise Trouble(f'{line!r} was answered {answer!r}')
        self.now = Standing(self.talk.ask('show')[1])

    def caller(self):
        """Who makes the next call."""
        processes = [p for p in self.now.processes() if p != ROOT and p not in self.left_alone]
        return self.any.choice(processes) if processes and self.any.random() < 0.5 else ROOT

    def one_more(self):
        """Makes a call that the chooser chooses."""
        while True:
            process = self.caller()
            if process != ROOT and not self.now.of(process) and self.any.random() < 0.7:
                continue
            call = self.chooser.call(self.now, process)
            if call:
                return self.make(f'{process} {call}')

    def go_on_to(self, moments):
        """Makes random calls until there are so many moments."""
        while self.moments < moments:
            self.one_more()

    def branch_off(self):
        """A branch at some moment, or another one that is followed."""
        if len(self.branches) > 1 and self.any.random() < 0.3:
            return self.go(f"follow {self.any.choice([*self.branches, 'main', 'main'])}")
        if self.any.random() < 0.85:  # mostly a moment of late, so that paths grow long
            first = 0 if self.any.random() < 0.2 else max(0, self.moments - 40)
            self.go(f'goto {self.any.randrange(first, self.moments + 1)}')
        name = f'b{len(self.branches)}'
        self.branches.append(name)
        self.go(f'branch {name}')
        if ROOT not in self.now.processes():
            self.go('follow main')

    def deep_jobs(self):
        """Jobs one under the other until one would be too deep."""
        handle = 3
        while True:
            answer = self.make(f'{ROOT} job_create {handle}').split()
            if answer[1] != 'ok':
                return
            handle = int(answer[2])


def make_trace(program, seed, length, path):
    """Writes a trace of so many calls, by this seed: every third as a text of calls in a row, the others as trees with
    branches. Some begin with deep jobs, and some end with the end of all processes."""
    is_text = seed % 3 == 0
    maker = Maker(program, seed, path)
    with maker.talk:
        if seed % 4 == 1:
            maker.deep_jobs()
        while maker.moments < length - 1:
            if not is_text and maker.moments and maker.any.random() < 0.01 + 6 / length:
                maker.branch_off()
            else:
                maker.one_more()
        if seed % 5 == 2:
            maker.make(f'{ROOT} task_kill 3')
        else:
            maker.one_more()
        if not is_text and maker.any.random() < 0.5:
            maker.go(f'goto {maker.any.randrange(maker.moments + 1)}')
        maker.talk.leave()
    if is_text:
        write_text(path, maker.calls)


def write_text(path, calls):
    """Writes a session text of calls in a row."""
    with open(path, 'w', encoding='ascii') as file:
        file.write('zxtt 1\n# A random trace.\n\n' + ''.join(f'{call}\n' for call in calls))


class Passer:
    """A process that passes handles on through three channels of its own. What it holds is known without the program: each handle
    with whether it may be duplicated. Of each end is known what its next messages have."""

    def __init__(self, seed):
        self.any, self.calls, self.next, self.held = random.Random(seed), [], 7, []
        self.call('channel_create')
        self.held += [self.given(False), self.given(False)]  # a channel that is passed on itself
        self.ends, self.queues = [], []
        for _ in range(3):
            self.call('channel_create')
            self.ends += [self.given(False)[0], self.given(False)[0]]
            self.queues += [[], []]

    def call(self, words):
        self.calls.append(f'{ROOT} {words}')

    def given(self, may_be_duplicated):
        self.next += 4
        return self.next - 4, may_be_duplicated

    def some(self, count=1):
        return self.any.sample(self.held, min(len(self.held), count))

    def event(self):
        self.call('event_create')
        self.held.append(self.given(True))

    def duplicate(self):
        for handle, may in self.some():
            self.call(f'handle_duplicate {handle} {mask(SAME_RIGHTS)}')
            self.held += [self.given(True)] if may else []

    def replace(self):
        for handle, may in self.some():
            self.call(f'handle_replace {handle} {mask(SAME_RIGHTS)}')
            self.held.remove((handle, may))
            self.held.append(self.given(may))

    def write(self):
        """Sends some handles, now and then over no channel, so that they are closed."""
        end, sent = self.any.randrange(len(self.ends)), self.some(self.any.choice([1, 1, 2, 3]))
        fails = self.any.random() < 0.05
        self.call(f"channel_write {4 if fails else self.ends[end]} - {','.join(str(handle) for handle, _ in sent) or '-'}")
        self.held = [it for it in self.held if it not in sent]
        self.queues[end ^ 1] += [] if fails else [sent]

    def read(self):
        """Takes a message, if there is one, or now and then discards it, if it has handles."""
        full = [end for end, queue in enumerate(self.queues) if queue]
        if full:
            end = self.any.choice(full)
            sent = self.queues[end].pop(0)
            drops = bool(sent) and self.any.random() < 0.08
            self.call(f"channel_read {self.ends[end]} {'0 0 discard' if drops else '64 64'}")
            self.held += [] if drops else [self.given(may) for _, may in sent]

    def close(self):
        for one in self.some():
            self.call(f'handle_close {one[0]}')
            self.held.remove(one)

    def one_more(self):
        few = len(self.held) < 10
        weights = {
            self.event: 3 if few else 0, self.duplicate: 20 if few else 0, self.replace: 10, self.write: 30, self.read: 35,
            self.close: 2,
        }
        self.any.choices(list(weights), list(weights.values()))[0]()


def make_passing_trace(seed, length, path):
    """Writes a trace of so many calls or a few more, in which handles are passed on again and again. At the end two channels go."""
    passer = Passer(seed)
    while len(passer.calls) < length:
        passer.one_more()
    for end in (0, 3):
        passer.call(f'handle_close {passer.ends[end]}')
    write_text(path, passer.calls)


class Known:
    """What is known of the trace of the planted leak by how it was made."""


def planted_leak(program, path):
    """Writes a trace of 571 calls, in which a process of its own does what is asked about while others make random calls: a
    message crosses a channel, a job is killed, a call fails, and an event lies in a queue that nobody can read any more."""
    maker = Maker(program, 571, path)
    known = Known()
    with maker.talk:
        maker.go_on_to(40)
        copy = maker.make(f'{ROOT} handle_duplicate 3 {mask(SAME_RIGHTS)}').split()[2]
        handle, koid = maker.make(f'{ROOT} spawn 3 {copy}').split()[2:]
        maker.make(f'{ROOT} handle_close {handle}')
        known.process = int(koid)
        maker.left_alone = {known.process}
        maker.go_on_to(90)
        maker.make(f'{koid} job_create 3')
        maker.make(f'{koid} spawn 7 0')
        job = maker.now.of(known.process)[7][0]
        maker.go_on_to(150)
        near, far = maker.make(f'{koid} channel_create').split()[2:]
        known.reader = maker.now.of(known.process)[int(far)][0]
        maker.go_on_to(180)
        maker.make(f'{koid} channel_write {near} 63726f73736564 -')
        maker.go_on_to(220)
        read = maker.make(f'{koid} channel_read {far} 64 4').split()[0]
        maker.go_on_to(260)
        killed = maker.make(f'{koid} task_kill 7').split()[0]
        maker.go_on_to(300)
        failed = maker.make(f'{koid} job_create 7').split()
        maker.go_on_to(340)
        event = maker.make(f'{koid} event_create').split()[2]
        known.event = maker.now.of(known.process)[int(event)][0]
        into, out = maker.make(f'{koid} channel_create').split()[2:]
        maker.make(f'{koid} channel_write {into} 74616b65 {event}')
        maker.go_on_to(400)
        leak = maker.make(f'{koid} channel_write {into} 6c6f7374 {out}').split()[0]
        known.leak = int(leak)
        maker.go_on_to(571)
        maker.talk.leave()
    write_text(path, maker.calls)
    known.lines = [
        f'{failed[0]} {koid} job_create 7 => {failed[1]}', f'{killed} ended {job} job {koid} task_kill 7',
        f"- entry {koid} {out} {known.event + 2} 0x0000f00e", f'{out} {known.event + 2} channel 0x0000f00e',
        f'0 read {read} {koid} channel_read {far} 64 4', f'leaked {leak} {koid} channel_write {into} 6c6f7374 {out}',
    ]
    return known
