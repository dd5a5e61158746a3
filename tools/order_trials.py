"""Trials of zxtt-import: logs in which calls return in another order than that in which they did their work."""
import random
import re

from importing import Back, Import, entry, moments_of, replies, text_of, zxtt_of
from planted_log import planted
from random_log import random_part, written
from trials import Trouble, expect, lines_of

OWN = entry(7, 'zx_nanosleep')  # a line that changes nothing


def late(it, **fields):
    return it | fields


def other(times=1):
    """Lines of a process that has nothing to do with the others."""
    return times * [entry(99, 'event_create', out={'handles': [3]})]


def moved_told(trace):
    """The lines that were moved, each with that ahead of which it is."""
    found = [re.match(r'# line (\d+): .*; moved ahead of line (\d+)(?:; |$)', line) for line in lines_of(trace)]
    return [(int(it[1]), int(it[2])) for it in found if it]


def is_moved(program, log, moved, differences=()):
    """Raises where these lines are not moved, or these differences are not told."""
    done = Import(program, text_of(log))
    expect('differences', list(differences), done.told())
    expect('moved', moved, moved_told(done.trace))
    expect('status, moved and differences', (0, len(moved), len(differences)), (done.status, done.moved(), done.counts()[4]))
    expect('calls', sum(it != OWN for it in log), done.counts()[0])
    return done


def spawned(parent, child, handle, **args):
    return entry(parent, 'spawn', job=99, out={'handles': [handle], 'process': child}, **args)


def a_child_may_return_before_its_spawn(program, room):
    """It is not adopted: the spawn is made ahead of its first call, and so that of its parent."""
    child = entry(8, 'event_create', out={'handles': [3]})
    done = is_moved(program, [child, spawned(7, 8, 15)], [(2, 1)])
    expect('adopted', ['7', '7', '7'], re.findall(r'# adopted: process (\d+)', done.trace.decode())[:3])
    expect('no other is', {'7'}, set(re.findall(r'# adopted: process (\d+)', done.trace.decode())))
    grandchild = entry(9, 'event_create', out={'handles': [3]})
    parent = entry(8, 'spawn', job=3, out={'handles': [15], 'process': 9})
    is_moved(program, [grandchild, parent, spawned(7, 8, 15, argument=98)], [(3, 1), (2, 1)])
    is_moved(program, [child, *other(511), spawned(7, 8, 15)], [(513, 1)])
    for log in (
        [child, *other(512), spawned(7, 8, 15)],
        [child, OWN, late(spawned(7, 8, 15), began=2)],
    ):
        done = Import(program, text_of(log))
        said = f'zxtt-import: line {len(log)}: process 8 is spawned, but already exists'
        expect('said', (6, [said]), (done.status, done.said))
    is_moved(program, [child, OWN, late(spawned(7, 8, 15), began=1)], [(3, 1)])
    own = entry(7, 'event_create', out={'handles': [3]})
    is_moved(program, [child, own, spawned(7, 8, 15)], [(2, 1), (3, 1)])
    told = 'zxtt-import: line 3: process 8 is spawned, but already exists'
    expect('said', [told], Import(program, text_of([child, late(own, began=2), spawned(7, 8, 15)])).said)


def a_spawn_began_when_its_start_did(program, room):
    """Where a process is made by one line and started by another, the times of the second count."""
    made = entry(7, 'process_create', job=99, name='child', out={'proc_handle': 15, 'vmar_handle': 19, 'process': 8})
    child = entry(8, 'event_create', out={'handles': [3]})
    log = [late(made, began=9, time=10), late(child, time=12), late(entry(7, 'process_start', handle=15), time=20)]
    is_moved(program, [*log[:2], late(log[2], began=11)], [(3, 2)])
    done = Import(program, text_of([*log[:2], late(log[2], began=14)]))
    expect('said', (6, ['zxtt-import: line 3: process 8 is spawned, but already exists']), (done.status, done.said))


def channel(*ends):
    """A process with both ends of a channel, and a child that has the second."""
    return [entry(7, 'channel_create', out={'handles': [3, 7]}), spawned(7, 8, 15, argument=7)]


def read(bytes, status='ok', process=8):
    out = {'bytes': bytes} if status == 'ok' else None
    return entry(process, 'channel_read', status, out, handle=3, bytes=9, handles=0)


def wrote(bytes, status='ok', process=7, **args):
    return entry(process, 'channel_write', status, handle=3, bytes=bytes, **args)


def closed(process=7):
    return entry(process, 'handle_close', handle=3)


def a_message_may_be_read_before_its_write_returns(program, room):
    is_moved(program, [*channel(), read('70'), wrote('70')], [(4, 3)])
    is_moved(program, [*channel(), read('70'), read('71'), wrote('70')], [(5, 3)],
             ['line 4: moment 10: recorded ok handles=0 bytes=71, by the semantics should_wait handles=0'])
    is_moved(program, [*channel(), read('70'), *other(510), OWN, wrote('70')], [(515, 3)])
    is_moved(program, [*channel(), read('70'), *other(511), OWN, wrote('70')], [],
             ['line 3: moment 10: recorded ok handles=0 bytes=70, by the semantics should_wait handles=0'])
    is_moved(program, [*channel(), read('70'), wrote('71')], [],
             ['line 3: moment 8: recorded ok handles=0 bytes=70, by the semantics should_wait handles=0'])


def what_returned_late_may_have_been_before(program, room):
    """A call that did its work before others, and returned behind them, is moved itself."""
    is_moved(program, [*channel(), wrote('70'), read('', 'should_wait'), read('70')], [(4, 3)])
    is_moved(program, [*channel(), closed(), wrote('70', process=8)], [(4, 3)])
    is_moved(program, [*channel(), entry(7, 'task_kill', handle=15), entry(8, 'event_create', out={'handles': [9]})], [(4, 3)])


def a_closed_peer_may_be_seen_before_its_close_returns(program, room):
    is_moved(program, [*channel(), read('', 'peer_closed'), closed()], [(4, 3)])
    is_moved(program, [*channel(), wrote('70', 'peer_closed', process=8), closed()], [(4, 3)])
    is_moved(program, [*channel(), read('', 'peer_closed'), entry(7, 'process_exit', code=0)], [(4, 3)])


def ports():
    """Two processes with a port each of which the other has a duplicate: one port."""
    return [*channel(), entry(7, 'port_create', out={'handles': [19]}),
            entry(7, 'handle_duplicate', handle=19, rights='ZX_RIGHT_SAME_RIGHTS', out={'handles': [23]}),
            wrote('', handles=[23]), entry(8, 'channel_read', handle=3, bytes=0, handles=1, out={'bytes': '', 'handles': [5]})]


def a_packet_may_be_taken_before_its_cause_returns(program, room):
    got = {'packet': {'type': 'user', 'key': 1, 'bytes': '00' * 32}}
    log = [*ports(), entry(8, 'port_wait', port=5, out=got), entry(7, 'port_queue', port=19, key=1, packet='00' * 32)]
    is_moved(program, log, [(8, 7)])
    signal = {'packet': {'type': 'signal', 'key': 1, 'trigger': 8, 'observed': 8}}
    event = [entry(7, 'event_create', out={'handles': [27]}), entry(7, 'object_wait_async', handle=27, port=19, key=1, signals=8)]
    log = [*ports(), *event, entry(8, 'port_wait', port=5, out=signal), entry(7, 'object_signal', handle=27, clear=0, set=8)]
    is_moved(program, log, [(10, 9)])
    log = [*ports(), entry(7, 'port_queue', port=19, key=1, packet='00' * 32), entry(8, 'port_wait', 'timed_out', port=5)]
    is_moved(program, log, [(8, 7)])


def a_call_is_moved_no_further_than_it_began(program, room):
    """By the times of both lines, of any form, and by lines where its own has no time."""
    told = ['line 3: moment 8: recorded ok handles=0 bytes=70, by the semantics should_wait handles=0']
    for began, is_late in ((1, True), (3, True), ('3', True), ('0x3', True), (4, False), (None, True)):
        log = [*channel(), read('70'), late(wrote('70'), began=began)]
        is_moved(program, log, [(4, 3)] if is_late else [], () if is_late else told)
    for ended, began, is_late in ((30, 30, True), (30, 31, False), (30.5, 30.25, True), (30.25, 30.5, False), ('30.5', '30.50', True),
                                  ('30.5', 30.75, False), (10 ** 19, 10 ** 19 - 1, True), (10 ** 19, 10 ** 19 + 1, False)):
        for name in ('time', 'timestamp', 'ts'):
            log = [*channel(), late(read('70'), **{name: ended}), late(wrote('70'), began=began, time=10 ** 19 + 9)]
            is_moved(program, log, [(4, 3)] if is_late else [], () if is_late else told)


def calls_of_a_process_keep_their_order(program, room):
    """A write behind another call of its process is not moved past that."""
    own = entry(7, 'event_create', out={'handles': [31]})
    is_moved(program, [*channel(), read('70'), own, wrote('70')], [],
             ['line 3: moment 8: recorded ok handles=0 bytes=70, by the semantics should_wait handles=0'])


def joined_ends_may_be_read_first(program, room):
    """Ends that come from nowhere are joined by a message that was read before its write returned."""
    log = [entry(2, 'channel_read', handle=5, bytes=9, handles=0, out={'bytes': '70'}), entry(1, 'channel_write', handle=3, bytes='70'),
           entry(2, 'channel_read', 'peer_closed', handle=5, bytes=9, handles=0), entry(1, 'handle_close', handle=3)]
    done = is_moved(program, log, [(2, 1), (4, 3)])
    expect('pairs', 1, done.pairs())


# Random logs whose calls return in another order.


def returned(any, log, most=400):
    """The same lines in the order in which they return: each behind its place, and ahead of the next of its process. Each has when it
    began and returned, by a clock."""
    last, began = {}, {}
    keys = {}
    for place in reversed(range(len(log))):
        line = log[place]
        process = line.answered.process if line.answered else None
        name = (id(line.part), process)
        following = last.get(name, place + most) if line.answered else place + 1
        keys[place] = place + any.random() * min(following - place, most) if any.random() < 0.5 else place + 0.001
        if line.answered:
            last[name] = place
    ends = {}
    for place, line in enumerate(log):
        name = (id(line.part), line.answered.process if line.answered else None)
        began[place] = any.uniform(ends.get(name, max(0, place - 9)), place)
        if line.answered:
            ends[name] = keys[place]
    order = sorted(range(len(log)), key=lambda place: keys[place])
    for place in order:
        log[place].entry.pop('time', None)
        if any.random() < 0.9:
            log[place].entry |= {'time': round(keys[place], 6), 'began': round(began[place] - 0.000001, 6) if began[place] > 1 else 0}
    return [log[place] for place in order]


class BackLate(Back):
    """The same of a log whose calls returned late. How long a message was that a call had too little room for no line tells, and
    the one that is read there may be another one."""

    def call(self, told, came):
        if told.status != 'buffer_too_small':
            return super().call(told, came)
        self.process(told.process, came.process)
        expect('call and status', (told.call, told.status), (came.call, came.status))


def expect_calls_back(program, room, log):
    """Imports a log whose calls come back, each with its reply, up to numbers. A wait at a port may have got another packet, which is
    told as by the schedule."""
    done = Import(program, text_of(line.entry for line in log))
    expect('exit status', 0, done.status)
    others = set()
    for difference in done.told():
        number = int(re.match(r'line (\d+)', difference)[1])
        if ': by the schedule: ' not in difference:
            raise Trouble(f'{difference!r}, of {log[number - 1].line()}; {done.said[-1]}')
        others.add(number)
    came = replies(program, done.trace, room)
    moments = moments_of(done.trace)
    expect('lines named', [number for number, line in enumerate(log, 1) if line.answered], sorted(moments))
    backs = {}
    for number, moment in moments.items():
        line, it = log[number - 1], came[moment - 1]
        if number in others:
            continue
        try:
            backs.setdefault(line.part, BackLate()).call(line.answered, it)
        except Trouble as trouble:
            raise Trouble(f'line {number}, {line.answered.line!r}, came as {it.line!r}: {trouble}') from trouble
    return done


def random_calls_that_returned_late_come_back(program, room):
    moved = 0
    for seed in range(61, 65):
        any = random.Random(seed)
        parts = [random_part(zxtt_of(program), seed * 10 + number, 250, f'{room}/part') for number in range(3)]
        moved += expect_calls_back(program, room, returned(any, written(any, parts))).moved()
    expect('some are moved', True, moved > 4)


def planted_differences_are_told(program, room, lines=10000):
    """A log of a generator of its own, whose calls return late: the replies that are changed are told, and no other."""
    for seed in (1, 2):
        entries, places = planted(seed, lines, 10)
        done = Import(program, text_of(entries))
        expect('status', 0, done.status)
        told = {int(re.match(r'line (\d+)', it)[1]): it for it in done.differences()}
        expect('lines told', places, {line: places.get(line, told[line]) for line in sorted(told)})
        by_schedule = [line for line, it in told.items() if ': by the schedule: ' in it]
        expect('by the schedule', [], by_schedule)
        expect('some are moved', True, done.moved() > lines // 200)
        entries, _ = planted(seed, lines, 0)
        done = Import(program, text_of(entries))
        expect('nothing is told', (0, []), (done.status, done.differences()))


ORDER_TRIALS = [
    a_child_may_return_before_its_spawn, a_spawn_began_when_its_start_did, a_message_may_be_read_before_its_write_returns,
    what_returned_late_may_have_been_before, a_closed_peer_may_be_seen_before_its_close_returns,
    a_packet_may_be_taken_before_its_cause_returns, a_call_is_moved_no_further_than_it_began, calls_of_a_process_keep_their_order,
    joined_ends_may_be_read_first, random_calls_that_returned_late_come_back, planted_differences_are_told,
]
