"""Logs that are none, for tools/import-trials: lines that cannot be taken, with what is said of them, and logs that are changed
at random."""
import json

from importing import entry, text_of

GOOD = entry(7, 'event_create', out={'handles': [35]})
SPAWNED = entry(7, 'spawn', job=3, out={'handles': [39], 'process': 8})
TO_32 = 'expected a number up to 4294967295'
TO_64 = 'expected a number up to 18446744073709551615'
PROCESS = 'expected a number up to 18446744073709551615 or a name of 1 to 64 bytes'
MASK = 'expected a number up to 4294967295 or known names separated by |'
SIGNED = 'expected a signed 64-bit number'
FAULTS = [  # a line, and what is said of it
    (GOOD | {'process': -1}, f'process: {PROCESS}'),
    (GOOD | {'process': 7.5}, f'process: {PROCESS}'),
    (GOOD | {'process': ''}, f'process: {PROCESS}'),
    (GOOD | {'process': 65 * 'x'}, f'process: {PROCESS}'),
    (GOOD | {'process': 33 * '\u00e4'}, f'process: {PROCESS}'),
    (GOOD | {'process': 1 << 64}, f'process: {PROCESS}'),
    (GOOD | {'process': True}, f'process: {PROCESS}'),
    (GOOD | {'process': None}, 'process: missing'),
    ({'call': 'event_create', 'status': 'ok'}, 'process: missing'),
    (GOOD | {'call': 7}, 'call: expected a string'),
    ({'process': 7, 'status': 'ok'}, 'call: missing'),
    ({}, 'call: missing'),
    (GOOD | {'status': 0}, 'status: expected a string'),
    ({'process': 7, 'call': 'event_create'}, 'status: missing'),
    (GOOD | {'status': None}, 'status: missing'),
    (GOOD | {'args': []}, 'args: expected an object'),
    (GOOD | {'out': []}, 'out: expected an object'),
    (GOOD | {'out': {'handles': 7}}, 'out.handles: expected an array'),
    (GOOD | {'out': {'handles': [7, -7]}}, f'out.handles[1]: {TO_32}'),
    (GOOD | {'out': {'handles': list(range(65))}}, 'out.handles: expected at most 64'),
    (SPAWNED | {'out': {'handles': [39], 'process': 0.5}}, f'out.process: {PROCESS}'),
    (entry(7, 'handle_close'), 'args.handle: missing'),
    (entry(7, 'handle_close', handle=None), 'args.handle: missing'),
    (entry(7, 'handle_close') | {'args': None}, 'args.handle: missing'),
    (entry(7, 'handle_close', handle='-3'), f'args.handle: {TO_32}'),
    (entry(7, 'handle_close', handle='+3'), f'args.handle: {TO_32}'),
    (entry(7, 'handle_close', handle='3 '), f'args.handle: {TO_32}'),
    (entry(7, 'handle_close', handle='4294967296'), f'args.handle: {TO_32}'),
    (entry(7, 'handle_close', handle=1 << 32), f'args.handle: {TO_32}'),
    (entry(7, 'handle_close', handle='0x100000000'), f'args.handle: {TO_32}'),
    (entry(7, 'handle_close', handle=[3]), f'args.handle: {TO_32}'),
    (entry(7, 'handle_duplicate', handle=3), 'args.rights: missing'),
    (entry(7, 'handle_duplicate', handle=3, rights='ZX_RIGHT_READ|ZX_RIGHT_RIDE'), f'args.rights: {MASK}'),
    (entry(7, 'handle_duplicate', handle=3, rights='ZX_RIGHT_READ|'), f'args.rights: {MASK}'),
    (entry(7, 'handle_duplicate', handle=3, rights=''), f'args.rights: {MASK}'),
    (entry(7, 'object_signal', handle=3, clear=0, set=-1), f'args.set: {MASK}'),
    (entry(7, 'object_signal', handle=3, clear=0, set_mask=-1), f'args.set_mask: {MASK}'),
    (entry(7, 'object_signal', handle=3, clear_mask='ZX_RIGHT_READ', set=0), f'args.clear_mask: {MASK}'),
    (entry(7, 'object_signal', handle=3, set=0), 'args.clear or clear_mask: missing'),
    (entry(7, 'job_create', options=0), 'args.job or parent_job: missing'),
    (entry(7, 'job_set_critical', job=3), 'args.handle or process: missing'),
    (entry(7, 'task_kill'), 'args.handle or task: missing'),
    (entry(7, 'process_exit'), 'args.code or retcode: missing'),
    (entry(7, 'port_wait'), 'args.port or handle: missing'),
    (entry(7, 'object_wait_async', handle=3, key=1, signals=1), 'args.port: missing'),
    (entry(7, 'channel_create', out={'out1': 3}), 'out.out0: missing'),
    (entry(7, 'channel_create', out={'out0': 3, 'out1': 'x'}), f'out.out1: {TO_32}'),
    (entry(7, 'object_wait_async', handle=3, port=7, key=1 << 64, signals=1), f'args.key: {TO_64}'),
    (entry(7, 'object_wait_async', handle=3, port=7, key=1, signals=1, edge=1), 'args.edge: expected true or false'),
    (entry(7, 'event_create', options=[1]), 'args.options: expected a number or names separated by |'),
    (entry(7, 'event_create', options=1.5), 'args.options: expected a number or names separated by |'),
    (entry(7, 'channel_write', handle=3, bytes='0g'), 'args.bytes: expected an even number of hexadecimal digits'),
    (entry(7, 'channel_write', handle=3, bytes='000'), 'args.bytes: expected an even number of hexadecimal digits'),
    (entry(7, 'channel_write', handle=3, bytes=[1]), 'args.bytes: expected an even number of hexadecimal digits'),
    (entry(7, 'channel_write', handle=3, bytes='00' * 65537), 'args.bytes: expected at most 65536'),
    (entry(7, 'channel_write', handle=3, handles={}), 'args.handles: expected an array'),
    (entry(7, 'channel_write', handle=3, handles=[3, 'x']), f'args.handles[1]: {TO_32}'),
    (entry(7, 'channel_write', handle=3, handles=65 * [3]), 'args.handles: expected at most 64'),
    (entry(7, 'channel_read', handle=3, bytes='-64', handles=4), f'args.bytes: {TO_32}'),
    (entry(7, 'channel_read', handle=3, num_bytes='x', handles=4), f'args.num_bytes: {TO_32}'),
    (entry(7, 'channel_read', handle=3, bytes=64), 'args.handles or num_handles: missing'),
    (entry(7, 'channel_read', handle=3, bytes=64, handles=4, discard=0), 'args.discard: expected true or false'),
    (entry(7, 'channel_read', out={'bytes': 7}, handle=3, bytes=64, handles=4),
     'out.bytes: expected an even number of hexadecimal digits'),
    (entry(7, 'port_queue', port=3, key=0, packet='00' * 31), 'args.packet: expected 64 hexadecimal digits'),
    (entry(7, 'port_queue', port=3, key=0, packet={'key': 1}), 'args.packet.bytes or user: missing'),
    (entry(7, 'port_queue', port=3, key=0, packet={'user': '00' * 32}), 'args.packet.key: missing'),
    (entry(7, 'port_queue', port=3, packet={'key': 1, 'type': 'ZX_PKT_TYPE_SIGNAL_ONE', 'user': '00' * 32}),
     'args.packet.type: expected user'),
    (entry(7, 'port_wait', out={'packet': 3}, port=3), 'out.packet: expected an object'),
    (entry(7, 'port_wait', out={'packet': {'type': 'guest', 'key': 1}}, port=3), 'out.packet.type: expected user or signal'),
    (entry(7, 'port_wait', out={'packet': {'type': 'user', 'key': 1}}, port=3), 'out.packet.bytes or user: missing'),
    (entry(7, 'port_wait', out={'packet': {'type': 'user', 'key': 1, 'user': '00'}}, port=3),
     'out.packet.user: expected 64 hexadecimal digits'),
    (entry(7, 'port_wait', out={'packet': {'type': 'signal', 'key': 1, 'trigger': 1}}, port=3), 'out.packet.observed: missing'),
    (entry(7, 'port_wait', out={'packet': {'type': 'signal', 'key': 1, 'signal': {'trigger': 1.5}}}, port=3),
     f'out.packet.signal.trigger: {MASK}'),
    (entry(7, 'port_wait', out={'packet': {'type': 'signal', 'key': 1, 'signal': 7}}, port=3),
     'out.packet.signal: expected an object'),
    (entry(7, 'process_exit', code=1 << 63), f'args.code: {SIGNED}'),
    (entry(7, 'process_exit', code='9223372036854775808'), f'args.code: {SIGNED}'),
    (entry(7, 'process_exit', retcode='--1'), f'args.retcode: {SIGNED}'),
]


class Mangler:
    """Changes a log at random: lines, fields and bytes."""

    def __init__(self, any, entries):
        self.any, self.entries = any, [json.loads(json.dumps(it)) for it in entries]
        given = [it['out'].get('handles', []) for it in entries if isinstance(it.get('out'), dict)]
        self.values = [handle for handles in given for handle in handles]

    def lines(self):
        """Some lines go, come twice or change their places."""
        at, other = (self.any.randrange(len(self.entries)) for _ in range(2))
        chance = self.any.random()
        if chance < 0.4:
            del self.entries[at]
        elif chance < 0.7:
            self.entries.insert(other, json.loads(json.dumps(self.entries[at])))
        else:
            self.entries[at], self.entries[other] = self.entries[other], self.entries[at]

    def field(self):
        """A field is another: a status, a handle, a process, or what an argument or a list of handles is."""
        it, other = (self.any.choice(self.entries) for _ in range(2))
        name = self.any.choice(['status', 'process', 'call', 'out', 'args', 'args', 'handles'])
        if name == 'handles' and isinstance(it.get('out'), dict):
            it['out']['handles'] = self.any.sample(self.values, self.any.randrange(4))
        elif name == 'args' and isinstance(it.get('args'), dict) and it['args'] and self.any.random() < 0.8:
            it['args'][self.any.choice(list(it['args']))] = self.any.choice([*self.values[:9], 0, 1, 64, 4294967295])
        elif name in other:
            it[name] = json.loads(json.dumps(other[name]))

    def text(self):
        """The text of the log, once it was changed."""
        for _ in range(self.any.choice([1, 5, 40])):
            self.any.choice([self.lines, self.field, self.field])()
        text = bytearray(text_of(self.entries))
        for _ in range(self.any.choice([0, 0, 0, 1, 3])):
            text[self.any.randrange(len(text))] = self.any.randrange(256)
        return bytes(text)
