"""Random logs for tools/import-trials: the program itself is asked call by call, as for random traces, and what it answered is
written down as the log of a system with process numbers and handle values of its own. The log begins behind the calls that made
its first processes and what they hold, so that these have to be adopted. A number gives the same log each time."""
import json

from random_trace import ROOT, Maker, mask
from trials import Trouble

SIGNALED = 8
# The arguments of each call in the order of its line: their fields in the log, and what each is. That is a handle, a list of
# handles, a mask, a number, bytes, a code, or a word that may be left out.
FORMS = {
    'event_create': '', 'eventpair_create': '', 'channel_create': '', 'port_create': '', 'handle_close': 'handle:handle',
    'handle_duplicate': 'handle:handle rights:mask', 'handle_replace': 'handle:handle rights:mask',
    'object_signal': 'handle:handle clear:mask set:mask', 'object_signal_peer': 'handle:handle clear:mask set:mask',
    'object_wait_async': 'handle:handle port:handle key:number signals:mask edge:word',
    'channel_write': 'handle:handle bytes:bytes handles:list',
    'channel_read': 'handle:handle bytes:number handles:number discard:word',
    'port_queue': 'port:handle key:number packet:bytes', 'port_wait': 'port:handle',
    'port_cancel': 'port:handle source:handle key:number', 'job_create': 'job:handle', 'spawn': 'job:handle argument:handle',
    'job_set_critical': 'job:handle handle:handle', 'task_kill': 'handle:handle', 'process_exit': 'code:code',
}
FORMS = {call: [tuple(field.split(':')) for field in fields.split()] for call, fields in FORMS.items()}
SECOND_NAMES = {  # the names that the system's reference has for fields
    'clear': 'clear_mask', 'set': 'set_mask', ('channel_read', 'bytes'): 'num_bytes', ('channel_read', 'handles'): 'num_handles',
    ('port_queue', 'port'): 'handle', ('port_wait', 'port'): 'handle', ('port_cancel', 'port'): 'handle',
    ('job_create', 'job'): 'parent_job', ('job_set_critical', 'handle'): 'process', ('task_kill', 'handle'): 'task',
    ('process_exit', 'code'): 'retcode',
}
NOT_THERE = ['options', 'discard', 'edge', 'more']  # fields that may be null
# The options of calls: the field that says the same, and how they are written with it and without.
OPTIONS = {
    'object_wait_async': ('edge', [2, '0x3', 'ZX_WAIT_ASYNC_EDGE', 'ZX_WAIT_ASYNC_EDGE|ZX_WAIT_ASYNC_TIMESTAMP'],
                          [0, 1, 'ZX_WAIT_ASYNC_BOOT_TIMESTAMP']),
    'channel_read': ('discard', [1, '1', 'ZX_CHANNEL_READ_MAY_DISCARD'], [0, '0x0']),
}
RIGHT_NAMES = {
    0: 'DUPLICATE', 1: 'TRANSFER', 2: 'READ', 3: 'WRITE', 9: 'DESTROY', 12: 'SIGNAL', 13: 'SIGNAL_PEER', 14: 'WAIT', 15: 'INSPECT',
    16: 'MANAGE_JOB', 17: 'MANAGE_PROCESS', 31: 'SAME_RIGHTS',
}
RIGHT_NAMES = {bit: f'ZX_RIGHT_{name}' for bit, name in RIGHT_NAMES.items()}
SIGNAL_NAMES = {0: 'CHANNEL_READABLE', 1: 'CHANNEL_WRITABLE', 2: 'EVENTPAIR_PEER_CLOSED', 3: 'TASK_TERMINATED', 4: 'JOB_NO_JOBS'}
SIGNAL_NAMES |= {5: 'JOB_NO_PROCESSES'} | {24 + number: f'USER_SIGNAL_{number}' for number in range(8)}
SIGNAL_NAMES = {bit: f'ZX_{name}' for bit, name in SIGNAL_NAMES.items()}
OTHERS = ['vmo_write', 'zx_vmar_map', 'zx_thread_start', 'EVENT_CREATE', '']
CHANGE_NOTHING = ['zx_clock_get_monotonic', 'zx_nanosleep', 'object_get_info', 'zx_object_wait_one']


class Answered:
    """A call with its answer, as the program takes and prints them: the line of the call, and what stands behind the moment."""

    def __init__(self, line, answer):
        self.line = line
        process, self.call, *self.words = line.split(' ')
        self.process = int(process)
        self.status, *self.values = answer.split(' ')

    def arguments(self):
        """The fields of the arguments, each with what it is and its word. What is left out is not among them."""
        return [(name, what, word) for (name, what), word in zip(FORMS[self.call], self.words)]

    def handles_named(self, *whats):
        """The handles of the arguments, in their order."""
        whats = whats or ('handle', 'list')
        return [handle for _, what, word in self.arguments() if what in whats for handle in listed(word)]

    def handles_given(self):
        """The handles that the caller got, in their order."""
        if self.status != 'ok' or self.call == 'port_wait':
            return []
        if self.call == 'channel_read':
            return listed(self.values[1])
        return [int(value) for value in self.values[:1 if self.call == 'spawn' else 2]]

    def handles_gone(self):
        """The handles that left the caller's table, as far as they were there."""
        if self.call == 'handle_replace' or self.call == 'handle_close' and self.status == 'ok':
            return self.handles_named()
        if self.call == 'spawn' and self.status == 'ok':
            return self.handles_named()[1:]
        return self.handles_named('list')

    def with_other_bytes(self, number):
        """The same call and answer with each byte of its message changed by a number below 256."""
        it = Answered(self.line, ' '.join([self.status, *self.values]))
        if self.call == 'channel_write':
            it.words[1] = other_bytes(self.words[1], number)
        elif self.call == 'channel_read' and self.status == 'ok':
            it.values[0] = other_bytes(self.values[0], number)
        it.line = ' '.join([str(it.process), it.call, *it.words])
        return it

    def child(self):
        """The koid of the process that the call made, if it made one."""
        return int(self.values[1]) if self.call == 'spawn' and self.status == 'ok' else None


def listed(word):
    return [] if word == '-' else [int(handle) for handle in word.split(',')]


def other_bytes(word, number):
    return word if word == '-' else bytes(byte ^ number for byte in bytes.fromhex(word)).hex()


# Calls that the program answers.

ASKS = {  # the fields of a call that are of one kind
    ('object_wait_async', 'port'): ('port',), ('port_queue', 'port'): ('port',), ('port_wait', 'port'): ('port',),
    ('port_cancel', 'port'): ('port',), ('channel_write', 'handle'): ('channel',), ('channel_read', 'handle'): ('channel',),
    ('job_create', 'job'): ('job',), ('spawn', 'job'): ('job',), ('job_set_critical', 'job'): ('job',),
    ('job_set_critical', 'handle'): ('process',), ('task_kill', 'handle'): ('job', 'process'),
    ('object_signal_peer', 'handle'): ('channel', 'eventpair'),
}
OTHER_KINDS = {'channel': 0, 'job': 0x03, 'eventpair': 0x33, 'event': 0x37}  # signals by which a wait tells another kind


class LogMaker(Maker):
    """Calls of processes other than the root process, with their answers. The root process makes the first of these, and what
    they hold, and now and then sends them a message; that is no part of the log."""

    def __init__(self, program, seed, path):
        super().__init__(program, seed, path)
        self.answered = []
        self.adopted = set()  # objects that come from nowhere in the log
        self.held = {}  # by what handles of which processes, with their kinds
        self.outside = {}  # ends of channels whose peers no process of the log has, with the root process's handles to these

    def make(self, call):
        """Makes a call: its answer. A call of the root process is no part of the log."""
        answer = super().make(call)
        answered = Answered(call, answer.split(' ', 1)[1])
        if answered.process != ROOT:
            self.answered.append(answered)
        if answered.child() and answered.handles_named()[1]:
            # (the child's first use of what it got is to tell that it has it)
            self.make(f'{answered.child()} object_signal 3 {mask(0)} {mask(0)}')
        return answer

    def given(self, call):
        """Makes a call that has to be ok: the values of its answer."""
        _, status, *values = self.make(call).split(' ')
        if status != 'ok':
            raise Trouble(f'{call!r} was answered {status}')
        return values

    def caller(self):
        return self.any.choice([process for process in self.now.processes() if process != ROOT])

    def one_more(self):
        """A call that the chooser chooses, or a message of the root process that is read at once."""
        if self.any.random() < 0.02:
            return self.send_from_outside(*self.any.choice(list(self.outside)))
        return super().one_more()

    def is_fit(self, call):
        """Whether a call would not tell another kind of an adopted object than it has."""
        called = Answered(call, 'ok')
        for name, what, word in called.arguments():
            kind = self.kind_if_adopted(called.process, int(word)) if what == 'handle' else None
            if kind and (called.call, name) in ASKS and kind not in ASKS[called.call, name]:
                return False
            if kind and called.call == 'object_wait_async' and name == 'handle':
                if kind == 'port' or int(called.words[3], 16) & OTHER_KINDS[kind]:
                    return False
        return True

    def kind_if_adopted(self, process, handle):
        koid, _ = self.now.of(process).get(handle, (None, None))
        return self.now.objects[koid].kind if koid in self.adopted else None

    def adopt(self, process, handle):
        self.adopted.add(self.now.of(process)[handle][0])

    def send_from_outside(self, process, end):
        """The root process sends a message with an event over the peer of an end that a process has, which it reads."""
        if end in self.now.of(process) and not self.now.queues.get(self.now.of(process)[end][0]):
            near = self.outside[process, end]
            event = self.given(f'{ROOT} event_create')[0]
            self.given(f"{ROOT} channel_write {near} {self.any.randbytes(9).hex()} {self.any.choice(['-', event])}")
            for handle in listed(self.given(f'{process} channel_read {end} 64 4')[1]):
                self.adopt(process, handle)

    def begin(self):
        """Two processes that each have a job, events, a port, an end of an event pair, both ends of a channel, an end of a
        channel between them, and one of a channel whose other end the root process has."""
        held = [self.make_process(), self.make_process()]
        shared = self.given(f'{ROOT} channel_create')
        for (process, near), end in zip(held, shared):
            self.give(process, near, end)
        self.answered.clear()
        for process, _ in held:
            self.show_kinds(process)
        for process, _ in held:
            shared = self.handles_of(process, 'channel')[0]
            self.given(f'{process} channel_read {shared} 16 0')

    def make_process(self):
        """A process under the root job: its koid, and the root process's end of the channel to it."""
        near, far = self.given(f'{ROOT} channel_create')
        return int(self.given(f'{ROOT} spawn 3 {far}')[1]), near

    def give(self, process, near, shared):
        """Gives a process what it holds, and lets it close the channel by which it came."""
        made = [(kind, handle) for kind, call in (
            ('job', 'job_create 3'), ('event', 'event_create'), ('event', 'event_create'), ('port', 'port_create'),
            ('channel', 'channel_create'),
        ) for handle in self.given(f'{ROOT} {call}')]
        pair, _ = self.given(f'{ROOT} eventpair_create')
        end, outside = self.given(f'{ROOT} channel_create')
        made = [('channel', shared), *made, ('eventpair', pair), ('channel', end)]
        self.given(f"{ROOT} channel_write {near} - {','.join(handle for _, handle in made)}")
        came = listed(self.given(f'{process} channel_read 3 0 64')[1])
        self.given(f'{process} handle_close 3')
        self.held |= {(process, handle): kind for handle, (kind, _) in zip(came, made)}
        for handle in came:
            self.adopt(process, handle)
        self.outside[process, came[-1]] = outside
        self.chooser.kept |= {(process, handle) for handle, (kind, _) in zip(came, made) if kind == 'job'}

    def handles_of(self, process, kind):
        return [handle for (who, handle), what in self.held.items() if (who, what) == (process, kind)]

    def show_kinds(self, process):
        """Uses that tell of what kind each handle is, and which are the ends of one channel."""
        shared, near, far, end = self.handles_of(process, 'channel')
        self.given(f"{process} job_create {self.handles_of(process, 'job')[0]}")
        self.given(f"{process} object_signal {self.handles_of(process, 'event')[0]} {mask(0)} {mask(SIGNALED)}")
        self.given(f"{process} port_queue {self.handles_of(process, 'port')[0]} 1 {self.any.randbytes(32).hex()}")
        self.given(f"{process} object_signal_peer {self.handles_of(process, 'eventpair')[0]} {mask(0)} {mask(SIGNALED)}")
        self.given(f'{process} channel_write {near} {self.any.randbytes(12).hex()} -')
        self.given(f'{process} channel_read {far} 12 0')
        self.given(f'{process} channel_write {shared} {self.any.randbytes(16).hex()} -')
        self.given(f'{process} channel_write {end} {self.any.randbytes(10).hex()} -')
        self.send_from_outside(process, end)


def fit_for(maker, chosen):
    """The chooser's choice, but none that tells another kind of an adopted object than it has."""

    def call(now, process):
        line = chosen(now, process)
        return line if line and maker.is_fit(f'{process} {line}') else None

    return call


class Part:
    """Calls with their answers, and the handles that come from nowhere, each with its process."""

    def __init__(self, answered, held):
        self.answered, self.held = answered, held

    def again(self, number):
        """The same with other bytes in its messages, so that those of one part are not taken for those of another."""
        return Part([it.with_other_bytes(number) for it in self.answered], self.held)


def random_part(program, seed, length, path):
    """So many random calls whose first processes and handles come from nowhere."""
    maker = LogMaker(program, seed, path)
    maker.chooser.call = fit_for(maker, maker.chooser.call)
    with maker.talk:
        maker.begin()
        while len(maker.answered) < length:
            maker.one_more()
        maker.talk.leave()
    return Part(maker.answered, list(maker.held))


# The log of another system.


class Numbers:
    """The process numbers and handle values of another system. Each process has its own values; that of a handle which is
    gone may come again."""

    def __init__(self, any, taken):
        self.any, self.taken = any, taken  # process numbers are taken over all parts of a log
        self.processes, self.tables, self.had, self.last = {}, {}, {}, {}
        self.strays = {}  # the values of handles that are not there

    def process(self, koid):
        """The number of a process, which is as odd as any, or its name."""
        while koid not in self.processes:
            number = self.any.choice([
                self.any.randrange(1 << 16), self.any.getrandbits(32), self.any.getrandbits(64),
                self.any.choice([0, 1024, 1025, 1026, 1028, (1 << 64) - 1]),
                self.any.choice(['manager', 'm\u00e4nager', '0x', 'a b']) + f'-{self.any.randrange(99)}',
            ])
            if number not in self.taken:
                self.taken.add(number)
                self.processes[koid] = number
        return self.processes[koid]

    def unused(self, koid):
        """A value that no handle of the process has or had."""
        had = self.had.setdefault(koid, set())
        while True:
            value = self.any.choice([self.any.getrandbits(32) | 3, self.any.randrange(1, 9999), 4294967295])
            if value not in had:
                had.add(value)
                return value

    def give(self, koid, handle):
        """A process has got a handle: its value there, which may be that of one that is gone."""
        table = self.tables.setdefault(koid, {})
        gone = sorted(self.had.get(koid, set()) - set(table.values())) if self.any.random() < 0.3 else []
        table[handle] = self.any.choice(gone) if gone else self.unused(koid)
        self.last[koid, table[handle]] = handle
        return table[handle]

    def take(self, koid, handle):
        """A handle has left the table of a process, if it was there."""
        if handle in self.tables.get(koid, {}):
            self.strays[koid, handle] = self.tables[koid].pop(handle)

    def value(self, koid, handle):
        """The value by which a call names a handle that is there, or one that is not. That of one that is gone is its last,
        unless that has come again."""
        table = self.tables.setdefault(koid, {})
        if handle in table or handle == 0:
            return table.get(handle, 0)
        stray = self.strays.get((koid, handle))
        if stray is None or self.last[koid, stray] != handle:
            stray = self.strays[koid, handle] = self.unused(koid)
            self.last[koid, stray] = handle
        return stray


class Writer:
    """Writes calls down as another system would have logged them."""

    def __init__(self, any, held, taken):
        self.any = any
        self.numbers = Numbers(any, taken)
        for process, handle in held:
            self.numbers.give(process, handle)

    def number(self, value):
        """A number of the log, or its text."""
        if isinstance(value, str) or self.any.random() < 0.6:
            return value
        return self.any.choice([f'0x{value:x}', f'0x{value:08X}', f'0x{value:016x}', str(value), f'00{value}'])

    def bits(self, value, names):
        """A mask, or the names of its bits where all have one."""
        bits = [bit for bit in range(32) if value >> bit & 1]
        if bits and all(bit in names for bit in bits) and self.any.random() < 0.4:
            return self.any.choice(['|', ' | ']).join(names[bit] for bit in bits)
        return self.number(value)

    def field(self, process, name, what, word):
        if what == 'handle':
            return self.number(self.numbers.value(process, int(word)))
        if what == 'list':
            return [self.number(self.numbers.value(process, handle)) for handle in listed(word)]
        if what == 'bytes':
            return '' if word == '-' else self.any.choice([word, word.upper()])
        if what == 'word':
            return True
        if what == 'mask':
            return self.bits(int(word, 16), RIGHT_NAMES if name == 'rights' else SIGNAL_NAMES)
        if what == 'code':
            return self.any.choice([int(word), word])
        return self.number(int(word))

    def arguments(self, it):
        fields = {name: self.field(it.process, name, what, word) for name, what, word in it.arguments()}
        may_go = [name for name in fields if fields[name] in ('', [])]
        if it.call == 'spawn' and it.words[1] == '0':
            may_go.append('argument')
        for name in may_go:
            if self.any.random() < 0.4:
                del fields[name]
            elif self.any.random() < 0.3:
                fields[name] = None
        return self.with_nulls(self.with_second_names(it.call, self.with_options(it.call, fields)))

    def with_options(self, call, fields):
        """The same with options, which may stand for a field."""
        field, asked, others = OPTIONS.get(call, ('', [], [0]))
        if self.any.random() < 0.6:
            return fields
        options = self.any.choice(asked if field in fields else others)
        return {name: value for name, value in fields.items() if name != field} | {'options': options}

    def with_second_names(self, call, fields):
        def name_of(name):
            second = SECOND_NAMES.get((call, name), SECOND_NAMES.get(name))
            return second if second and self.any.random() < 0.4 else name

        return {name_of(name): value for name, value in fields.items()}

    def with_nulls(self, fields):
        """The same with fields that are null."""
        return {name: None for name in NOT_THERE if self.any.random() < 0.1} | fields

    def status(self, word):
        return self.any.choice([word, f'ZX_ERR_{word.upper()}' if word != 'ok' else 'ZX_OK'])

    def packet(self, values):
        kind, key, *more = values
        packet = {'key': self.number(int(key))}
        if kind == 'user':
            return packet | {'type': self.any.choice(['user', 'ZX_PKT_TYPE_USER']), self.any.choice(['bytes', 'user']): more[0]}
        signals = dict(zip(('trigger', 'observed'), (self.bits(int(word, 16), SIGNAL_NAMES) for word in more)))
        packet['type'] = self.any.choice(['signal', 'ZX_PKT_TYPE_SIGNAL_ONE'])
        return packet | self.any.choice([signals, {'signal': signals}])

    def out(self, it):
        """What a call gave, once its handles have their values."""
        fields = {}
        if it.handles_given() or self.any.random() < 0.1:
            fields |= self.given(it, [self.number(self.numbers.give(it.process, handle)) for handle in it.handles_given()])
        if it.child():
            fields['process'] = self.number(self.numbers.process(it.child()))
            if it.handles_named()[1]:
                self.numbers.give(it.child(), 3)
        if it.call == 'channel_read' and it.status == 'ok':
            fields['bytes'] = '' if it.values[0] == '-' else it.values[0]
        if it.call == 'port_wait' and it.status == 'ok':
            fields['packet'] = self.packet(it.values)
        return fields

    def given(self, it, handles):
        """Handles that a call gave, as a list or each by its own name."""
        names = {1: ['out'], 2: ['out0', 'out1']}.get(len(handles))
        if names and it.call not in ('channel_read', 'spawn') and self.any.random() < 0.4:
            return dict(zip(names, handles))
        return {'handles': handles}

    def put_form(self, it, entry):
        """Another call that is this one alone."""
        if it.call == 'handle_close':
            entry['call'] += '_many'
            entry['args']['handles'] = [entry['args'].pop('handle')]
        elif it.call == 'channel_write':
            entry['call'] += '_etc'
            if entry['args'].get('handles'):
                entry['args']['handles'] = [self.moved(handle) for handle in entry['args']['handles']]
        elif it.call == 'channel_read':
            entry['call'] += '_etc'
            if entry['out'].get('handles'):
                entry['out']['handles'] = [self.any.choice([handle, {'handle': handle, 'rights': 2}]) for handle in entry['out']['handles']]

    def moved(self, handle):
        """A handle that `channel_write_etc` moves as it is."""
        same = self.any.choice([{'rights': 0x80000000}, {'rights': 'ZX_RIGHT_SAME_RIGHTS'}, {'rights': None}, {}])
        return {'operation': self.any.choice([0, '0x0', 'ZX_HANDLE_OP_MOVE']), 'handle': handle, 'type': 0, 'result': 0} | same

    def entry(self, it):
        """The entry of a call."""
        entry = {
            'process': self.number(self.numbers.process(it.process)), 'call': self.any.choice(['', 'zx_']) + it.call,
            'args': self.arguments(it), 'status': self.status(it.status),
        }
        for handle in it.handles_gone():
            self.numbers.take(it.process, handle)
        entry['out'] = self.out(it)
        if self.any.random() < 0.15:
            self.put_form(it, entry)
        for name in ('args', 'out'):
            if not entry[name] and self.any.random() < 0.5:
                del entry[name]
        if self.any.random() < 0.2:
            entry |= {'time': self.any.random(), 'thread': {'name': 'main', 'koids': [1, None, True]}}
        names = list(entry)
        self.any.shuffle(names)
        return {name: entry[name] for name in names}


class Logged:
    """A line of a log, with the call that it was made of; None where it has no call of the profile."""

    def __init__(self, part, answered, entry):
        self.part, self.answered, self.entry = part, answered, entry

    def line(self):
        return json.dumps(self.entry)


def other_call(any, names):
    """An entry of a call that the profile has not."""
    return {'process': any.randrange(99), 'call': any.choice(names), 'args': {'handle': 'none'}, 'status': 'ok', 'out': 7}


def written(any, parts):
    """The lines of a log of several parts, whose calls come in turns, with other calls between."""
    taken = set()
    writers = [Writer(any, part.held, taken) for part in parts]
    left = [list(reversed(part.answered)) for part in parts]
    lines = []
    while more := [part for part, calls in enumerate(left) if calls]:
        part = any.choice(more)
        for _ in range(min(len(left[part]), any.randrange(1, 9))):
            answered = left[part].pop()
            lines.append(Logged(part, answered, writers[part].entry(answered)))
        if any.random() < 0.1:
            lines.append(Logged(part, None, other_call(any, OTHERS)))
            lines.append(Logged(part, None, other_call(any, CHANGE_NOTHING)))
    return lines
