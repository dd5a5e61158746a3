#!/usr/bin/env python3
"""Writes a log of a system that serves requests, with some replies changed, and says which lines these are.

usage: tools/planted_log.py SEED LINES CHANGES > LOG

It knows nothing of zxtt: what each call answers follows from the story alone. Managers spawn servers, ask them by messages with an
event, wait for that event at a port, and read the answer; then they close the channel, and the server exits. What the groups do comes in
turns, and each call returns late, but ahead of the next one of its process: so a line stands where its call returned. Lines have the forms
that tracers write: numbers and texts, both spellings of fields, `null`, times, names of processes, koids. The changed lines go to standard
error, one number each.
"""
import json
import random
import sys

LATE = 300  # the most calls behind which one returns
SIGNALED = 8


class Process:
    """A process of the log, with the handles that it has."""

    def __init__(self, any, name, group):
        self.any, self.name, self.group, self.values = any, name, group, set()

    def handle(self):
        """A handle value that the process never had."""
        while True:
            value = self.any.getrandbits(32) | 3
            if value not in self.values:
                self.values.add(value)
                return value


class Teller:
    """How lines are written."""

    def __init__(self, any):
        self.any = any

    def number(self, value):
        return self.any.choice([value, value, str(value), f'0x{value:x}', f'0x{value:08X}'])

    def name(self, first, second):
        return self.any.choice([first, second])

    def entry(self, process, call, args, status='ok', out=None):
        args = {name: value for name, value in args.items() if value is not None}
        for name in ('options', 'more'):
            if self.any.random() < 0.1:
                args[name] = None
        status = self.any.choice([status, 'ZX_OK' if status == 'ok' else f'ZX_ERR_{status.upper()}'])
        it = {'process': process.name, 'call': self.any.choice(['', 'zx_']) + call, 'args': args, 'status': status}
        if out or self.any.random() < 0.2:
            it['out'] = out or self.any.choice([{}, None])
        return it


class Group:
    """A manager and its server: their calls one by one, in the order in which they are done."""

    def __init__(self, any, number, rounds):
        self.any, self.number, self.rounds, self.tell = any, number, rounds, Teller(any)
        self.manager = Process(any, any.choice([number * 4 + 1000, f'manager-{number}.cm', str(number * 4 + 1000)]), number)
        self.server = Process(any, any.choice([number * 4 + 1002, f'server-{number}.cm']), number)

    def two(self, call, process):
        one, other = process.handle(), process.handle()
        out = self.any.choice([{'handles': [one, other]}, {'out0': self.tell.number(one), 'out1': other}])
        return (one, other), self.tell.entry(process, call, {}, out=out)

    def one(self, call, process, **args):
        value = process.handle()
        out = self.any.choice([{'handles': [self.tell.number(value)]}, {'out': value}])
        return value, self.tell.entry(process, call, args, out=out)

    def wrote(self, process, end, bytes, handles=()):
        return self.tell.entry(process, 'channel_write', {
            'handle': self.tell.number(end), 'bytes': bytes, 'handles': [self.tell.number(it) for it in handles] or None,
        })

    def read(self, process, end, status='ok', bytes='', handles=()):
        args = {'handle': self.tell.number(end), self.tell.name('bytes', 'num_bytes'): 64, self.tell.name('handles', 'num_handles'): 4}
        out = {'bytes': bytes, 'handles': [self.tell.number(it) for it in handles]} if status == 'ok' else None
        return self.tell.entry(process, 'channel_read', args, status, out)

    def waited(self, port, key=None):
        args = {self.tell.name('port', 'handle'): port}
        if key is None:
            return self.tell.entry(self.manager, 'port_wait', args, 'timed_out')
        seen = {'trigger': SIGNALED, 'observed': self.any.choice([SIGNALED, 'ZX_EVENT_SIGNALED'])}
        packet = {'key': self.tell.number(key), 'type': self.any.choice(['signal', 'ZX_PKT_TYPE_SIGNAL_ONE'])}
        packet |= self.any.choice([seen, {'signal': seen}])
        return self.tell.entry(self.manager, 'port_wait', args, out={'packet': packet})

    def closed(self, process, handle):
        return self.tell.entry(process, 'handle_close', {'handle': self.tell.number(handle)})

    def calls(self):
        """The calls, each with how it may be changed, if it may."""
        manager, server = self.manager, self.server
        (near, far), it = self.two('channel_create', manager)
        yield manager, it, None
        port, it = self.one('port_create', manager)
        yield manager, it, 'handles'
        yield from self.spawned(far)
        end = server.handle()
        for number in range(self.rounds):
            way = self.any.choice([self.asked, self.asked, self.called])
            yield from way(near, port, end, number)
        yield manager, self.closed(manager, near), None
        yield server, self.read(server, end, 'peer_closed'), None
        yield server, self.tell.entry(server, 'process_exit', {self.tell.name('code', 'retcode'): self.any.choice([0, -1, '-3'])}), 'status'

    def spawned(self, argument):
        """The server is spawned with a handle, by one line or by two."""
        job, child = self.manager.handle(), self.manager.handle()
        if self.any.random() < 0.5:
            yield self.manager, self.tell.entry(self.manager, 'spawn', {'job': job, 'argument': argument},
                                                out={'handles': [child], 'process': self.server.name}), None
            return
        yield self.manager, self.tell.entry(self.manager, 'process_create', {'job': job, 'name': 'server'},
                                            out={'proc_handle': child, 'vmar_handle': self.manager.handle()}), None
        yield self.manager, self.tell.entry(self.manager, 'process_start', {
            self.tell.name('handle', 'process'): child, 'thread': 0, 'entry': 0, 'stack': 0, 'arg1': argument, 'arg2': 0,
        }, out={'process': self.server.name}), None

    def request(self, near, event, bytes):
        """What writes a request with a duplicate of its event, which a line of its own makes or the same one."""
        if self.any.random() < 0.5:
            copy, it = self.one('handle_duplicate', self.manager, handle=event, rights='ZX_RIGHT_SAME_RIGHTS')
            yield self.manager, it, None
            return self.wrote(self.manager, near, bytes, [copy])
        return self.tell.entry(self.manager, 'channel_write_etc', {'handle': near, 'bytes': bytes, 'handles': [{
            'operation': self.any.choice(['ZX_HANDLE_OP_DUPLICATE', 1]), 'handle': event, 'type': 0, 'rights': 'ZX_RIGHT_SAME_RIGHTS',
        }]})

    def called(self, near, port, end, number):
        """One request by a call that returns with its answer. It has a VMO, which the server closes."""
        manager, server = self.manager, self.server
        request, answer = (f'{self.number:04x}{number:04x}{self.any.getrandbits(32):08x}{which}' for which in ('02', '03'))
        memory, got = manager.handle(), server.handle()
        yield manager, self.tell.entry(manager, 'vmo_create', {'size': 4096}, out={'out': memory}), None
        read = self.read(server, end, bytes=request, handles=[got])
        if self.any.random() < 0.5:
            read['call'] += '_etc'
            read['out']['handles'] = [{'handle': got, 'type': 3, 'rights': 'ZX_RIGHT_TRANSFER'}]
        yield server, read, None
        yield server, self.tell.entry(server, 'handle_close_many', {'handles': [self.tell.number(got)]}), None
        yield server, self.wrote(server, end, answer), None
        yield manager, self.tell.entry(manager, 'channel_call', {
            'handle': near, 'deadline': 'ZX_TIME_INFINITE', 'wr_bytes': request, 'wr_handles': [memory], 'rd_num_bytes': 64,
            'rd_num_handles': 4,
        }, out={self.tell.name('rd_bytes', 'bytes'): answer}), None

    def asked(self, near, port, end, number):
        """One request: it is written with an event, read, and the event signaled; then the answer comes."""
        manager, server = self.manager, self.server
        request, answer = (f'{self.number:04x}{number:04x}{self.any.getrandbits(32):08x}{which}' for which in ('00', '01'))
        event, it = self.one('event_create', manager)
        yield manager, it, 'handles'
        yield manager, self.tell.entry(manager, 'object_wait_async', {
            'handle': event, 'port': port, 'key': number, 'signals': self.any.choice([SIGNALED, 'ZX_EVENT_SIGNALED']),
        }), None
        write = yield from self.request(near, event, request)
        waits = self.any.random() < 0.1
        if waits:
            yield server, self.read(server, end, 'should_wait'), None
        if self.any.random() < 0.1:
            yield manager, self.waited(port), None
        yield manager, write, None
        got = server.handle()
        yield server, self.read(server, end, bytes=request, handles=[got]), None if waits else 'bytes'
        yield server, self.tell.entry(server, 'object_signal', {
            'handle': got, self.tell.name('clear', 'clear_mask'): 0, self.tell.name('set', 'set_mask'): SIGNALED,
        }), 'status'
        yield manager, self.waited(port, number), 'observed'
        yield server, self.closed(server, got), 'status'
        yield server, self.wrote(server, end, answer), None
        yield manager, self.read(manager, near, bytes=answer), 'missed'
        yield manager, self.closed(manager, event), 'status'


def changed(entry, how):
    """The entry with a reply that the system could not have given."""
    out = dict(entry.get('out') or {})
    if how == 'status':
        return entry | {'status': 'access_denied'}
    if how == 'missed':
        return entry | {'status': 'should_wait', 'out': None} | begun_last(entry)
    if how == 'bytes':
        return entry | {'out': out | {'bytes': out['bytes'][:-2] + '7f'}}
    if how == 'handles':
        first = out['out'] if 'out' in out else out['handles'][0]
        return entry | {'out': {'handles': [first, 4294967291]}}
    packet = dict(out['packet'])
    where = packet['signal'] = dict(packet['signal']) if 'signal' in packet else None
    (where if where is not None else packet)['observed'] = 9
    if where is None:
        del packet['signal']
    return entry | {'out': {'packet': packet}}


def begun_last(entry):
    """That a call began when it returned, where its line has a time: it cannot have been made before what returned ahead of it."""
    times = [value for name, value in entry.items() if name in ('time', 'timestamp', 'ts')]
    return {'began': times[0]} if times else {}


def done_in_turns(any, lines):
    """The calls of groups in the order in which they are done, a few groups at a time."""
    calls, number = [], 0
    running = []
    while len(calls) < lines or running:
        while len(running) < 12 and len(calls) < lines:
            running.append(Group(any, number, any.randrange(3, 30)).calls())
            number += 1
        group = any.choice(running)
        it = next(group, None)
        if it:
            calls.append(it)
        else:
            running.remove(group)
    return calls


def returned(any, calls):
    """The same in the order in which they return: each behind its place, and ahead of the next of its process. Lines have when they
    began and returned, unless one is left out."""
    following, keys = {}, {}
    for place in reversed(range(len(calls))):
        name = calls[place][0].name
        room = min(following.get(name, place + LATE) - place, LATE)
        keys[place] = place + (any.random() * room if any.random() < 0.4 else 0.001)
        following[name] = place
    ended = {}
    for place, (process, entry, _) in enumerate(calls):
        until = place if 'channel_call' not in entry['call'] else ended.get(process.name, 0)
        began = any.uniform(ended.get(process.name, max(0, place - 3)), until)
        ended[process.name] = keys[place]
        if any.random() < 0.9:
            entry |= {any.choice(['time', 'timestamp', 'ts']): round(keys[place], 6), 'began': max(0, round(began - 0.00001, 6))}
    return [calls[place] for place in sorted(keys, key=lambda place: keys[place])]


def behind_all(done, calls):
    """Whether each call returned behind all that its group did before. What another one does to it shows in no other line then."""
    places = {id(entry): place for place, (_, entry, _) in enumerate(calls)}
    behind, last = [False] * len(calls), {}
    for process, entry, _ in done:
        place = places[id(entry)]
        behind[place] = place > last.get(process.group, -1)
        last[process.group] = max(place, last.get(process.group, -1))
    return behind


def planted(seed, lines, changes):
    """The entries of a log, and the lines whose replies are changed, each with how."""
    any = random.Random(seed)
    done = done_in_turns(any, lines)
    calls = returned(any, done)
    behind = behind_all(done, calls)
    kinds = ['status', 'bytes', 'handles', 'observed', 'missed']
    places, groups = {}, set()
    for number in range(changes):
        how = kinds[number % len(kinds)]
        may = [place for place, (process, entry, may) in enumerate(calls)
               if may == how and LATE < place < len(calls) - LATE and behind[place] and process.group not in groups
               and (how != 'missed' or begun_last(entry))]
        place = any.choice(may)
        places[place] = how
        groups.add(calls[place][0].group)
    entries = [changed(entry, places[place]) if place in places else entry for place, (_, entry, _) in enumerate(calls)]
    return entries, {place + 1: how for place, how in sorted(places.items())}


def main():
    seed, lines, changes = map(int, sys.argv[1:])
    entries, places = planted(seed, lines, changes)
    for entry in entries:
        print(json.dumps(entry))
    for line in places:
        print(line, file=sys.stderr)


if __name__ == '__main__':
    main()
