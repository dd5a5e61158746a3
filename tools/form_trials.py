"""Trials of zxtt-import: the forms in which real logs have the same calls."""
import json

from importing import Import, calls_alone, entry, is_refused, replies, text_of, told_of, write, zxtt_of
from trials import expect, run_well

PLAIN = [
    entry(7, 'channel_create', out={'handles': [35, 39]}),
    entry(7, 'port_create', out={'handles': [43]}),
    entry(7, 'event_create', out={'handles': [47]}),
    entry(7, 'eventpair_create', out={'handles': [51, 55]}),
    entry(7, 'handle_duplicate', handle=47, rights=0x80000000, out={'handles': [59]}),
    entry(7, 'handle_replace', handle=59, rights=0xd003, out={'handles': [63]}),
    entry(7, 'object_signal', handle=63, clear=0x01000000, set=0x06000008),
    entry(7, 'object_signal_peer', handle=51, clear=0, set=8),
    entry(7, 'object_wait_async', handle=47, port=43, key=5, signals=8),
    entry(7, 'port_wait', port=43, out={'packet': {'type': 'signal', 'key': 5, 'trigger': 8, 'observed': 0x06000008}}),
    entry(7, 'port_queue', port=43, key=9, packet='07' * 32),
    entry(7, 'port_wait', port=43, out={'packet': {'type': 'user', 'key': 9, 'bytes': '07' * 32}}),
    entry(7, 'port_cancel', 'not_found', port=43, source=47, key=5),
    entry(7, 'channel_write', handle=35, bytes='6869', handles=[63]),
    entry(7, 'channel_read', handle=39, bytes=64, handles=4, out={'bytes': '6869', 'handles': [67]}),
    entry(7, 'job_create', job=3, out={'handles': [71]}),
    entry(7, 'spawn', job=71, argument=0, out={'handles': [75], 'process': 8}),
    entry(7, 'job_set_critical', job=71, handle=75),
    entry(7, 'task_kill', handle=75),
    entry(7, 'process_exit', code=-3),
]
SPELLED = [  # the same calls, with the names of the system's reference
    entry(7, 'zx_channel_create', options=0, out={'out0': 35, 'out1': 39}),
    entry(7, 'zx_port_create', options=0, out={'out': 43}),
    entry(7, 'zx_event_create', options=0, out={'out': 47}),
    entry(7, 'zx_eventpair_create', options=0, out={'out0': 51, 'out1': 55}),
    entry(7, 'zx_handle_duplicate', handle=47, rights='ZX_RIGHT_SAME_RIGHTS', out={'out': 59}),
    entry(7, 'zx_handle_replace', handle=59, rights='ZX_RIGHTS_BASIC | ZX_RIGHT_SIGNAL', out={'out': 63}),
    entry(7, 'zx_object_signal', handle=63, clear_mask='ZX_USER_SIGNAL_0',
          set_mask='ZX_EVENT_SIGNALED|ZX_USER_SIGNAL_1|ZX_USER_SIGNAL_2'),
    entry(7, 'zx_object_signal_peer', handle=51, clear_mask='ZX_SIGNAL_NONE', set_mask='ZX_EVENTPAIR_SIGNALED'),
    entry(7, 'zx_object_wait_async', handle=47, port=43, key=5, signals='ZX_EVENT_SIGNALED', options=0),
    entry(7, 'zx_port_wait', handle=43, deadline='ZX_TIME_INFINITE', out={'packet': {
        'key': 5, 'type': 'ZX_PKT_TYPE_SIGNAL_ONE', 'status': 0,
        'signal': {'trigger': 'ZX_EVENT_SIGNALED', 'observed': 0x06000008, 'count': 1, 'timestamp': 0},
    }}),
    entry(7, 'zx_port_queue', handle=43, packet={'key': 9, 'type': 'ZX_PKT_TYPE_USER', 'status': 0, 'user': '07' * 32}),
    entry(7, 'zx_port_wait', handle=43, out={'packet': {'key': 9, 'type': 'ZX_PKT_TYPE_USER', 'user': '07' * 32}}),
    entry(7, 'zx_port_cancel', 'ZX_ERR_NOT_FOUND', handle=43, source=47, key=5),
    entry(7, 'zx_channel_write', handle=35, options=0, bytes='6869', handles=[63]),
    entry(7, 'zx_channel_read', handle=39, options=0, num_bytes=64, num_handles=4,
          out={'bytes': '6869', 'handles': [67], 'actual_bytes': 2, 'actual_handles': 1}),
    entry(7, 'zx_job_create', parent_job=3, options=0, out={'out': 71}),
    entry(7, 'spawn', job=71, argument=0, out={'handles': [75], 'process': 8}),
    entry(7, 'zx_job_set_critical') | {'args': {'job': 71, 'options': 0, 'process': 75}},
    entry(7, 'zx_task_kill', task=75),
    entry(7, 'zx_process_exit', retcode=-3),
]


def trace_of(program, log):
    done = Import(program, text_of(log))
    done.expect_well()
    return calls_alone(done.trace)


def names_of_the_reference_are_taken(program, room):
    """The same trace, with each name in the place of the other, alone and together."""
    plain = trace_of(program, PLAIN)
    expect('all names', plain, trace_of(program, SPELLED))
    for place, spelled in enumerate(SPELLED):
        expect(f'{spelled}', plain, trace_of(program, [*PLAIN[:place], spelled, *PLAIN[place + 1:]]))


def with_nulls(it):
    """The same entry with a null for each field that another call has, and for each that may be left out."""
    given = dict(it['args'])
    if it['call'] in ('spawn', 'zx_spawn') and not given['argument']:
        given['argument'] = None
    for name in ('options', 'edge', 'discard', 'clear_mask', 'num_bytes', 'more'):
        given.setdefault(name, None)
    if it['call'].endswith('channel_write'):
        given = {name: value or None for name, value in given.items()}
    out = {'out': None, 'out0': None, 'bytes': None, 'packet': None, 'process': None} | it.get('out', {})
    return it | {'args': given, 'out': out, 'thread': None}


def null_is_a_field_that_is_left_out(program, room):
    log = [with_nulls(it) for it in PLAIN]
    expect('trace', trace_of(program, PLAIN), trace_of(program, log))
    bare = [entry(7, 'channel_create', out={'handles': [35, 39]}), entry(7, 'channel_write', handle=35),
            entry(7, 'channel_read', handle=39, bytes=0, handles=0)]
    null = [bare[0] | {'args': None}, bare[1] | {'args': {'handle': 35, 'bytes': None, 'handles': None}, 'out': None},
            bare[2] | {'out': {'bytes': None, 'handles': None}}]
    expect('trace of nulls alone', trace_of(program, bare), trace_of(program, null))


def decimal(value):
    """The same with a text of decimals for each number."""
    if isinstance(value, dict):
        return {name: decimal(it) for name, it in value.items()}
    if isinstance(value, list):
        return [decimal(it) for it in value]
    return str(value) if isinstance(value, int) and not isinstance(value, bool) else value


def numbers_may_be_texts_of_decimals(program, room):
    expect('trace', trace_of(program, PLAIN), trace_of(program, [decimal(it) for it in PLAIN]))
    log = [entry('007', 'process_exit', code='-9223372036854775808'), entry('18446744073709551615', 'process_exit', code='0x1'),
           entry(8, 'process_exit', code='0xffffffffffffffff')]
    codes = [line.split()[2] for line in trace_of(program, log).decode().split('\n') if 'process_exit' in line]
    expect('codes', ['-9223372036854775808', '1', '-1'], codes)


NAMES = ['lease-mgr.cm', 'a b', '0x', '18446744073709551616', 'x' * 64, '-7', '7.5']


def processes_may_have_names(program, room):
    """A name stands for one process, by which it is called and shown; no number of the log is taken for it."""
    log = []
    for process in [*NAMES, 18446744073709551615, '18446744073709551614', 'l\u00e4\n', 'l\u00f6\n']:
        log += [entry(process, 'event_create', out={'handles': [35]}), entry(process, 'handle_close', handle=35)]
    log += [entry(7, 'spawn', job=3, out={'handles': [11], 'process': 'child'}),
            entry('child', 'process_exit', code=0), entry('7', 'handle_close', handle=11)]
    done = told_of(program, room, log, [], 2 * 12 + 3)
    shown = [*NAMES, '18446744073709551615', '18446744073709551614', 'l???', 'l???', '7', 'child', '7']
    lines = [line.split(': process ')[1] for line in done.trace.decode().split('\n') if line.startswith('# line ')]
    told = [name for name in shown[:11] for _ in range(2)] + shown[11:]
    expect('shown', told, [line.split(', handle')[0].split('; gives')[0] for line in lines])
    expect('adopted', True, b'# adopted: process lease-mgr.cm\n' in done.trace)
    came = {line.split()[0] for line in calls_alone(done.trace).decode().split('\n')[1:] if line}
    expect('processes', 1 + 12 + 1, len(came))
    said = 'process child is spawned, but already exists'
    is_refused(program, room, text_of([*log[-3:], log[-3]]), f'line 4: {said}')


def log_may_begin_with_a_mark(program, room):
    """The mark of UTF-8 at the beginning is passed by, and so are carriage returns."""
    log = text_of(PLAIN)
    plain = Import(program, log).trace
    for text in (b'\xef\xbb\xbf' + log, b'\xef\xbb\xbf' + log.replace(b'\n', b'\r\n'), log.replace(b'\n', b' \r\n')):
        done = Import(program, text)
        done.expect_well()
        expect('trace', plain, done.trace)
    expect('a mark alone', b'zxtt 1\n', Import(program, b'\xef\xbb\xbf').trace)
    is_refused(program, room, b'\xef\xbb\xbf\xef\xbb\xbf' + log, 'line 1: not a JSON object')


def last_line_may_be_cut_off(program, room):
    """What stands before it is imported, and it is told; with --strict the log is refused."""
    log = text_of(PLAIN[:3])
    last = json.dumps(PLAIN[3] | {'more': '\u00e4"', 'yes': True, 'no': None}, ensure_ascii=False).encode()
    whole = Import(program, log)
    for end in range(1, len(last)):
        said = 'line 4: cut off, so it is left out'
        done = Import(program, log + last[:end])
        expect(f'{last[:end]}: status, what is said and the trace', (0, [said], whole.trace), (done.status, done.told(), done.trace))
        expect('counts', (3, 4, 0), done.counts()[:3])
    done = Import(program, log + last[:end], '--strict')
    expect('with --strict', (6, [f'zxtt-import: {said}'], b''), (done.status, done.said, done.trace))
    is_refused(program, room, log + last[:end] + b'\n', 'line 4: not a JSON object')
    is_refused(program, room, log + b'[7', 'line 4: not a JSON object')
    expect('a line alone', b'zxtt 1\n', Import(program, b'{').trace)
    replies(program, whole.trace, room)


def options_of(number, what):
    """What is said of options of a line that are left out."""
    return f'line {number}: args.options: {what}'


def options_of_waits_and_reads_count(program, room):
    """They are read as numbers and as names; those that ask for a timestamp alone say nothing."""
    wait = {'handle': 47, 'port': 43, 'key': 5, 'signals': 8}
    for options, is_edge in (
        (0, False), (1, False), (4, False), (5, False), ('0x1', False), ('', False), ('ZX_WAIT_ASYNC_ONCE', False),
        ('ZX_WAIT_ASYNC_TIMESTAMP', False), ('ZX_WAIT_ASYNC_BOOT_TIMESTAMP', False), (None, False), ('0', False),
        (2, True), ('2', True), ('0x00000002', True), (7, True), ('ZX_WAIT_ASYNC_EDGE', True),
        ('ZX_WAIT_ASYNC_TIMESTAMP|ZX_WAIT_ASYNC_EDGE', True), (' ZX_WAIT_ASYNC_EDGE | 4 ', True),
    ):
        plain = [*PLAIN[:3], entry(7, 'object_wait_async', edge=is_edge, **wait)]
        asked = [*PLAIN[:3], entry(7, 'object_wait_async', options=options, **wait)]
        expect(f'{options}', trace_of(program, plain), trace_of(program, asked))
        done = Import(program, text_of(asked), '--strict')
        expect(f'{options} with --strict', (0, []), (done.status, done.told()))
    sent = [PLAIN[0], entry(7, 'channel_write', handle=35, bytes='6869')]
    for options, discards in ((0, False), (1, True), ('ZX_CHANNEL_READ_MAY_DISCARD', True), ('0x1', True), (None, False)):
        read = {'handle': 39, 'bytes': 1, 'handles': 0}
        plain = [*sent, entry(7, 'channel_read', 'buffer_too_small', discard=discards, **read)]
        asked = [*sent, entry(7, 'channel_read', 'buffer_too_small', options=options, **read)]
        expect(f'{options}', trace_of(program, plain), trace_of(program, asked))
        expect(f'{options} and discard', trace_of(program, [*sent, entry(7, 'channel_read', 'buffer_too_small', discard=True, **read)]),
               trace_of(program, [*sent, asked[2] | {'args': asked[2]['args'] | {'discard': True}}]))


def wait_on_an_edge_is_no_other(program, room):
    """A log whose replies are those of a wait on an edge comes back without a difference."""
    log = [
        *PLAIN[1:3], entry(7, 'object_signal', handle=47, clear=0, set=8),
        entry(7, 'object_wait_async', handle=47, port=43, key=5, signals=8, options=2), entry(7, 'port_wait', 'timed_out', port=43),
        entry(7, 'object_signal', handle=47, clear=8, set=0), entry(7, 'object_signal', handle=47, clear=0, set=8),
        entry(7, 'port_wait', port=43, out={'packet': {'type': 'signal', 'key': 5, 'trigger': 8, 'observed': 8}}),
    ]
    told_of(program, room, log, [], 2)


def options_that_are_left_out_are_told(program, room):
    """By name, or by their bits where they have none; the call is taken without them, and refused with --strict."""
    wait = {'handle': 47, 'port': 43, 'key': 5, 'signals': 8}
    for number, it, options, said in (
        (2, PLAIN[1], 1, ['ZX_PORT_BIND_TO_INTERRUPT is left out']),
        (2, PLAIN[1], 'ZX_PORT_BIND_TO_INTERRUPT', ['ZX_PORT_BIND_TO_INTERRUPT is left out']),
        (2, PLAIN[1], 9, ['ZX_PORT_BIND_TO_INTERRUPT is left out', 'unknown option 0x8 is left out']),
        (14, PLAIN[13], 'ZX_CHANNEL_WRITE_USE_IOVEC', ['ZX_CHANNEL_WRITE_USE_IOVEC is left out']),
        (14, PLAIN[13], 2, ['ZX_CHANNEL_WRITE_USE_IOVEC is left out']),
        (15, PLAIN[14], 'ZX_WAIT_ASYNC_EDGE', ['unknown option ZX_WAIT_ASYNC_EDGE is left out']),
        (15, PLAIN[14], '0x100000000', ['unknown option 0x100000000 is left out']),
        (18, PLAIN[17], 1, ['ZX_JOB_CRITICAL_PROCESS_RETCODE_NONZERO is left out']),
        (3, PLAIN[2], 'A|0x10|B\u00e4', ['unknown option A is left out', 'unknown option B?? is left out', 'unknown option 0x10 is left out']),
        (16, PLAIN[15], 70 * 'N', ['unknown option ' + 64 * 'N' + '.. is left out']),
        (9, entry(7, 'object_wait_async', **wait), 'ZX_WAIT_ASYNC_REPEATING', ['unknown option ZX_WAIT_ASYNC_REPEATING is left out']),
    ):
        log = [*PLAIN[:number - 1], it | {'args': it['args'] | {'options': options}}, *PLAIN[number:]]
        done = Import(program, text_of(log))
        expect('said', [options_of(number, what) for what in said], done.told())
        expect('status and differences', (0, 0), (done.status, done.counts()[4]))
        expect('trace', trace_of(program, PLAIN), calls_alone(done.trace))
        done = Import(program, text_of(log), '--strict')
        strict = (6, [f'zxtt-import: {options_of(number, said[0])}'], b'')
        expect('with --strict', strict, (done.status, done.said, done.trace))
    log = [entry(7, 'event_create', options=8, out={'handles': [4 * n + 3]}) for n in range(130)]
    done = Import(program, text_of(log))
    expect('notes', [options_of(n + 1, 'unknown option 0x8 is left out') for n in range(100)], done.told())
    expect('behind them', 'and 30 more left out', done.said[100])


CHANGE_NOTHING = [
    'object_wait_one', 'object_wait_many', 'object_get_info', 'object_get_property', 'object_set_property', 'handle_check_valid',
    'nanosleep', 'clock_get_monotonic', 'clock_get_boot', 'ticks_get', 'futex_wait', 'futex_wake',
]


def calls_that_change_nothing_are_not_skipped(program, room):
    log = [entry(7, zx + call, handle=35) for call in CHANGE_NOTHING for zx in ('', 'zx_')]
    done = Import(program, text_of([*PLAIN[:1], *log, entry(7, 'zx_vmar_map'), entry(7, 'zx_zx_nanosleep'), *PLAIN[1:]]))
    done.expect_well()
    expect('counts', (len(PLAIN), len(PLAIN) + len(log) + 2, 2), done.counts()[:3])


def closes_of(log, *handles):
    return [*log, *(entry(7, 'handle_close', handle=handle) for handle in handles)]


def forms_in(trace):
    """What the comments of a trace say of the calls that lines have here."""
    return [line.split('; by ')[1] for line in trace.decode().split('\n') if line.startswith('# line ') and '; by ' in line]


def close_many_is_a_close_of_each(program, room):
    made = [PLAIN[0], PLAIN[2]]
    log = [*made, entry(7, 'zx_handle_close_many', handles=[35, '0x2f', 39])]
    done = told_of(program, room, log, [], 2)
    expect('trace', trace_of(program, closes_of(made, 35, 47, 39)), calls_alone(done.trace))
    expect('comments', [f'handle_close_many, {n} of 3' for n in (1, 2, 3)], forms_in(done.trace))
    expect('counts', (3, 3, 0), done.counts()[:3])
    for handles in ([], None, [0]):
        log = [*made, entry(7, 'zx_handle_close_many', handles=handles), entry(7, 'handle_close', handle=35)]
        expect(f'{handles}', trace_of(program, closes_of(made, 0, 35)), trace_of(program, log))
    many = [entry(7, 'event_create', out={'handles': [4 * n + 3]}) for n in range(70)]
    log = [*many, entry(7, 'handle_close_many', handles=[4 * n + 3 for n in range(70)])]
    expect('counts of many', (71, 71, 0, 2), told_of(program, room, log, [], 2).counts()[:4])


def close_many_has_one_reply(program, room):
    """It is bad_handle where one of them is, and the others are closed all the same."""
    made = [PLAIN[0], PLAIN[2]]
    for handles in ([99, 35], [35, 99], [35, 35]):
        log = [*made, entry(7, 'handle_close_many', 'ZX_ERR_BAD_HANDLE', handles=handles), entry(7, 'handle_close', 'bad_handle', handle=35)]
        told_of(program, room, log, [], 2)
    log[2]['status'] = 'ok'
    told_of(program, room, log, ['line 3: moment 6: recorded ok handles=0, by the semantics bad_handle handles=0'], 2)
    log = [*made, entry(7, 'handle_close_many', 'ZX_ERR_BAD_HANDLE', handles=[47, 35])]
    told_of(program, room, log, ['line 3: moment 6: recorded bad_handle handles=0, by the semantics ok handles=0'], 2)
    said = 'line 1: args.handles[1]: expected a number up to 4294967295'
    is_refused(program, room, text_of([entry(7, 'handle_close_many', handles=[35, 'x'])]), said)
    log = [entry('a', 'event_create', out={'out': 35}), entry('a', 'handle_close_many', handles=[35, 35, 35], status='bad_handle'),
           entry(7, 'event_create', out={'out': 35})]
    told_of(program, room, log, [], 4)


def read_etc_is_a_read(program, room):
    sent = [PLAIN[0], *PLAIN[2:6], PLAIN[13]]
    read = entry(7, 'zx_channel_read_etc', handle=39, num_bytes=64, num_handles=4, options='ZX_CHANNEL_READ_MAY_DISCARD', out={
        'bytes': '6869', 'handles': [{'handle': 67, 'type': 'ZX_OBJ_TYPE_EVENT', 'rights': 'ZX_RIGHTS_BASIC', 'unused': 0}],
    })
    plain = [*sent, entry(7, 'channel_read', handle=39, bytes=64, handles=4, discard=True, out={'bytes': '6869', 'handles': [67]})]
    use = entry(7, 'object_signal', handle=67, clear=0, set=8)
    done = told_of(program, room, [*sent, read, use], [], 2)
    expect('trace', trace_of(program, [*plain, use]), calls_alone(done.trace))
    expect('comments', ['channel_read_etc'], forms_in(done.trace))
    expect('handles alone', trace_of(program, [*plain, use]), trace_of(program, [*sent, read | {'out': {'bytes': '6869', 'handles': [67]}}, use]))
    read['out']['handles'].append({'handle': 71})
    told_of(program, room, [*sent, read], ['line 7: moment 9: recorded ok handles=2 bytes=6869, by the semantics ok handles=1 bytes=6869'], 2)


def sent(operation, handle, rights=None):
    return {'operation': operation, 'handle': handle, 'type': 'ZX_OBJ_TYPE_NONE', 'rights': rights, 'result': 'ZX_OK'}


def write_etc_makes_what_it_sends(program, room):
    """A duplicate is sent with its rights, and one that is moved with fewer is replaced first."""
    made = [PLAIN[0], PLAIN[2], PLAIN[3], PLAIN[1]]
    given = [sent('ZX_HANDLE_OP_MOVE', 51, 'ZX_RIGHT_SAME_RIGHTS'), sent('ZX_HANDLE_OP_DUPLICATE', 47, 0x80000000), sent(0, 55, 'ZX_RIGHTS_BASIC'),
             sent('1', '0x2f', 'ZX_RIGHT_TRANSFER'), sent('0', 43)]
    write = entry(7, 'zx_channel_write_etc', handle=35, options=0, bytes='6869', handles=given)
    read = entry(7, 'channel_read', handle=39, bytes=2, handles=5, out={'bytes': '6869', 'handles': [67, 71, 75, 79, 83]})
    after = [read, entry(7, 'object_signal', handle=47, clear=0, set=8), entry(7, 'object_signal', handle=71, clear=0, set=8),
             entry(7, 'object_signal_peer', 'access_denied', handle=75, clear=0, set=8),
             entry(7, 'object_signal', 'access_denied', handle=79, clear=0, set=8), entry(7, 'handle_close', 'bad_handle', handle=51)]
    plain = [*made, entry(7, 'handle_duplicate', handle=47, rights=0x80000000, out={'handles': [103]}),
             entry(7, 'handle_replace', handle=55, rights=0xc003, out={'handles': [107]}),
             entry(7, 'handle_duplicate', handle=47, rights=2, out={'handles': [111]}),
             entry(7, 'channel_write', handle=35, bytes='6869', handles=[51, 103, 107, 111, 43]), *after]
    done = told_of(program, room, [*made, write, *after], [], 2)
    expect('trace', trace_of(program, plain), calls_alone(done.trace))
    expect('comments', [f'channel_write_etc, {n} of 4' for n in (1, 2, 3, 4)], forms_in(done.trace))
    expect('counts', (11, 11, 0), done.counts()[:3])
    for handles in ([], None):
        log = [*made, entry(7, 'channel_write_etc', handle=35, bytes='68', handles=handles)]
        expect(f'{handles}', trace_of(program, [*made, entry(7, 'channel_write', handle=35, bytes='68')]), trace_of(program, log))


def write_etc_has_one_reply(program, room):
    made = [PLAIN[0], PLAIN[2], PLAIN[3]]
    for given, status in (
        ([sent(1, 99, 2), sent(0, 51)], 'bad_handle'), ([sent(0, 51), sent(1, 99)], 'bad_handle'), ([sent(0, 99, 2), sent(0, 51)], 'bad_handle'),
        ([sent(1, 35), sent(0, 51)], 'access_denied'), ([sent(1, 47, 'ZX_RIGHT_SIGNAL_PEER'), sent(0, 51)], 'invalid_args'),
    ):
        write = entry(7, 'channel_write_etc', status, handle=35, handles=given)
        after = [entry(7, 'handle_close', 'bad_handle', handle=51), entry(7, 'channel_read', 'should_wait', handle=39, bytes=9, handles=9)]
        told_of(program, room, [*made, write, *after], [], 2)
        if status != 'bad_handle':
            done = Import(program, text_of([*made, write | {'status': 'ok'}, *after]))
            expect('told', [f'recorded ok handles=0, by the semantics {status} handles=0'], [line.split(': ', 2)[2] for line in done.told()])
    closed = [*made, entry(7, 'handle_close', handle=39), entry(7, 'channel_write_etc', 'peer_closed', handle=35, handles=[sent(1, 47), sent(0, 51)]),
              entry(7, 'handle_close', handle=47), entry(7, 'handle_close', 'bad_handle', handle=51)]
    told_of(program, room, closed, [], 2)
    adopted = [PLAIN[0], entry(7, 'channel_write_etc', handle=35, handles=[sent(1, 203), sent(0, 207)]),
               entry(7, 'channel_read', handle=39, bytes=0, handles=2, out={'handles': [211, 215]}),
               entry(7, 'port_queue', port=211, key=5, packet='00' * 32), entry(7, 'port_wait', port=203, out={'packet': {
                   'key': 5, 'type': 'user', 'bytes': '00' * 32}})]
    told_of(program, room, adopted, [], 6)


def write_etc_of_other_forms_is_refused(program, room):
    for given, said in (
        ([7], 'handles[0]: expected an object'), ([sent(0, 7), sent('MOVE', 7)], 'handles[1].operation: expected ZX_HANDLE_OP_MOVE or ZX_HANDLE_OP_DUPLICATE'),
        ([sent(2, 7)], 'handles[0].operation: expected ZX_HANDLE_OP_MOVE or ZX_HANDLE_OP_DUPLICATE'), ([sent(None, 7)], 'handles[0].operation: missing'),
        ([sent(0, None)], 'handles[0].handle: missing'), ([sent(0, -1)], 'handles[0].handle: expected a number up to 4294967295'),
        ([sent(0, 7, 'X')], 'handles[0].rights: expected a number up to 4294967295 or known names separated by |'),
        ([sent(0, 7)] * 65, 'handles: expected at most 64'), (7, 'handles: expected an array'),
    ):
        is_refused(program, room, text_of([entry(7, 'channel_write_etc', handle=35, handles=given)]), f'line 1: args.{said}')


ONE_HANDLE = [
    'vmo_create', 'vmo_create_child', 'vmo_create_contiguous', 'vmo_create_physical', 'pager_create_vmo', 'pager_create', 'stream_create',
    'resource_create', 'iommu_create', 'bti_create', 'interrupt_create', 'debuglog_create', 'profile_create', 'timer_create', 'clock_create',
    'counter_create', 'thread_create', 'object_get_child',
]


def stood_for(trace):
    """For what the calls of a trace stand in."""
    return [line.split('; stands in for ')[1] for line in trace.decode().split('\n') if '; stands in for ' in line]


def other_objects_have_stand_ins(program, room):
    """An event for one with one handle, a pair of events for one with two ends; none where no handle is given."""
    made = [entry(7, 'zx_' + call, size=4096, out={'out': 4 * n + 35}) for n, call in enumerate(ONE_HANDLE)]
    made += [entry(7, 'socket_create', out={'out0': 203, 'out1': 207}), entry(7, 'zx_fifo_create', out={'handles': [211, 215]})]
    closed = [entry(7, 'handle_close', handle=it) for it in [*range(35, 35 + 4 * len(ONE_HANDLE), 4), 203, 207, 211, 215]]
    refused = [entry(7, 'vmo_create', 'ZX_ERR_NO_MEMORY', size=1), entry(7, 'socket_create', 'invalid_args'), entry(7, 'vmo_create')]
    done = told_of(program, room, [*made, *refused, *closed], [], 2)
    plain = [entry(7, 'event_create', out={'handles': [it['out']['out']]}) for it in made[:-2]]
    plain += [entry(7, 'eventpair_create', out={'handles': [203, 207]}), entry(7, 'eventpair_create', out={'handles': [211, 215]})]
    expect('trace', trace_of(program, [*plain, *closed]), calls_alone(done.trace))
    expect('counts', (len(made) + len(closed), len(made) + 3 + len(closed), 0), done.counts()[:3])
    words = ['a vmo'] * 5 + ['a pager', 'a stream', 'a resource', 'an iommu', 'a bti', 'an interrupt', 'a debuglog', 'a profile', 'a timer',
                             'a clock', 'a counter', 'a thread', 'a child', 'a socket', 'a fifo']
    expect('comments', words, stood_for(done.trace))
    for it in (*made, *refused):
        expect(f'{it}', 0, Import(program, text_of([it]), '--strict').status)


def stand_ins_are_followed(program, room):
    """Through messages and processes, so that what is left of one is found."""
    log = [PLAIN[0], entry(7, 'zx_vmo_create', size=1, out={'out': 47}), entry(7, 'handle_duplicate', handle=47, rights='ZX_RIGHT_TRANSFER|ZX_RIGHT_MAP',
           out={'out': 51}), entry(7, 'channel_write', handle=35, bytes='61', handles=[51]), entry(7, 'handle_close', handle=47),
           entry(7, 'spawn', job=3, argument=39, out={'handles': [55], 'process': 8}),
           entry(8, 'channel_read', handle=99, bytes=9, handles=9, out={'bytes': '61', 'handles': [103]}),
           entry(8, 'handle_replace', 'invalid_args', handle=103, rights='ZX_RIGHT_READ|ZX_RIGHT_DUPLICATE')]
    done = told_of(program, room, log, [], 5)
    asked = [it.line for it in replies(program, done.trace, room) if it.line.split()[1] in ('handle_duplicate', 'handle_replace')]
    expect('rights', ['0x00000002', '0x00000001'], [line.split()[-1] for line in asked])
    expect('counts', (8, 8, 0, 5, 0, 0), done.counts())
    leaked = [PLAIN[0], log[1], *(entry(7, 'channel_write', handle=35, handles=[it]) for it in (47, 39)), entry(7, 'handle_close', handle=35)]
    done = told_of(program, room, leaked, [], 2)
    write(f'{room}/leaked.trace', done.trace)
    said = run_well(zxtt_of(program), ['run', '--from', f'{room}/leaked.trace'], b'leaks\n')
    expect('what is leaked', b'leaks 7 2\n1030 channel\n1031 event\n', said)


def calls_on_stand_ins_are_told(program, room):
    """Waits and signals on them are in no trace, nor are the packets of such waits."""
    timer = entry(7, 'zx_timer_create', out={'out': 47})
    wait = entry(7, 'zx_object_wait_async', handle=47, port=43, key=5, signals='ZX_TIMER_SIGNALED')
    packet = entry(7, 'zx_port_wait', handle=43, out={'packet': {'key': 5, 'type': 'signal', 'trigger': 8, 'observed': 8}})
    empty = entry(7, 'zx_port_wait', 'timed_out', handle=43)
    log = [PLAIN[1], timer, wait | {'args': wait['args'] | {'signals': 8}}, entry(7, 'zx_timer_set', handle=47, deadline=5), packet, empty]
    done = told_of(program, room, log, [], 2)
    said = 'on stand-ins: 1 zx_object_wait_async, 1 zx_port_wait'
    expect('said', [said, 'skipped: 1 zx_timer_set (with handles of the log)'], done.said[:-1])
    expect('counts', (3, 6, 1), done.counts()[:3])
    log = [PLAIN[1], timer, wait | {'args': wait['args'] | {'signals': 8}}, packet, packet, entry(7, 'object_signal', handle=47, clear=0, set='ZX_USER_SIGNAL_0'),
           entry(7, 'port_cancel', 'not_found', port=43, source=47, key=5), entry(7, 'task_kill', 'wrong_type', handle=47),
           entry(7, 'object_signal', 'bad_handle', handle=51, clear=0, set=8)]
    done = told_of(program, room, log, ['line 5: moment 5: recorded ok handles=0 packet=signal 5 0x00000008 0x00000008, by the semantics '
                                        'timed_out handles=0'], 2)
    said = 'on stand-ins: 1 zx_object_wait_async, 1 zx_port_wait, 1 zx_object_signal, 1 zx_port_cancel, 1 zx_task_kill'
    expect('said', said, done.said[1])


def create(**out):
    return entry(7, 'zx_process_create', job=3, name='child', options=0, out={'proc_handle': 55, 'vmar_handle': 59} | out)


def start(**given):
    return entry(7, 'zx_process_start', **({'handle': 55, 'thread': 63, 'entry': 4096, 'stack': 8192, 'arg1': 39, 'arg2': 0} | given))


THREAD = entry(7, 'zx_thread_create', out={'out': 63}) | {'args': {'process': 55, 'name': 'main'}}
SPACE = entry(7, 'event_create', out={'handles': [59]})
READ = entry(8, 'channel_read', 'should_wait', handle=99, bytes=9, handles=9)


def spawned(argument=39):
    return entry(7, 'spawn', job=3, argument=argument, out={'handles': [55], 'process': 8})


def create_and_start_are_one_spawn(program, room):
    """At the place of the start, wherever the process is told, with what stands in for the address space and the thread."""
    plain = trace_of(program, [PLAIN[0], SPACE, entry(7, 'event_create', out={'handles': [63]}), spawned(), READ])
    for log in ([create(process=8), THREAD, start()], [create(), THREAD, start() | {'out': {'process': 8}}],
                [create(process=None), THREAD, start() | {'args': start()['args'] | {'handle': None, 'process': 55}, 'out': {'process': 8}}]):
        done = told_of(program, room, [PLAIN[0], *log, READ], [], 5)
        expect('trace', plain, calls_alone(done.trace))
        expect('comments', (['process_create'], ['a vmar', 'a thread']), (forms_in(done.trace), stood_for(done.trace)))
    alone = told_of(program, room, [PLAIN[0], create(process=8)], [], 5)
    expect('not started', trace_of(program, [PLAIN[0], SPACE, spawned(0)]), calls_alone(alone.trace))
    log = [entry(7, 'process_create', 'bad_handle', job=99), start(), entry(7, 'process_create', 'wrong_type', job=35)]
    done = Import(program, text_of([PLAIN[0], *log]))
    expect('told', ['line 3: left out, because no line created its process'], done.told())
    expect('with --strict', 6, Import(program, text_of([PLAIN[0], *log]), '--strict').status)
    names = [PLAIN[0], create(process='child'), start(), entry('child', 'channel_read', 'should_wait', handle=99, bytes=9, handles=9)]
    told_of(program, room, names, [], 5)
    without = [PLAIN[0], create(process=8) | {'out': {'proc_handle': 55, 'process': 8}}, start(arg1=0), entry(7, 'task_kill', handle=55)]
    expect('without a handle of the address space', trace_of(program, [PLAIN[0], spawned(0), without[3]]), trace_of(program, without))


def process_that_is_used_before_its_start_is_made_there(program, room):
    use = entry(7, 'job_set_critical', job=3, handle=55)
    other = entry(7, 'object_signal', handle=35, clear=0, set=0)
    log = [PLAIN[0], create(process=8), other, use, other, start(), READ]
    done = told_of(program, room, log, [], 5)
    expect('trace', trace_of(program, [PLAIN[0], SPACE, other, spawned(), use, other, READ]), calls_alone(done.trace))
    late = entry(7, 'object_signal', handle=39, clear=0, set=0)
    log = [PLAIN[0], create(process=8), use, late, start(), entry(8, 'event_create', out={'out': 3})]
    done = Import(program, text_of(log))
    expect('told', ['line 5: args.arg1: left out, because its process was used before, and arg1 after'], done.told())
    expect('trace', trace_of(program, [PLAIN[0], SPACE, spawned(0), use, late, log[5]]), calls_alone(done.trace))
    expect('with --strict', 6, Import(program, text_of(log), '--strict').status)


def called(status='ok', **given):
    out = {'rd_bytes': '72', 'rd_handles': [], 'actual_bytes': 1} if status == 'ok' else None
    return entry(7, 'zx_channel_call', status, out, **({'handle': 35, 'options': 0, 'deadline': 'ZX_TIME_INFINITE', 'wr_bytes': '7071', 'wr_handles': [47],
                                                       'rd_num_bytes': 64, 'rd_num_handles': 4} | given))


CALLED = [PLAIN[0], PLAIN[2], entry(7, 'spawn', job=3, argument=39, out={'handles': [55], 'process': 8})]
SERVED = entry(8, 'channel_read', handle=99, bytes=64, handles=4, out={'bytes': '7071', 'handles': [103]})
ANSWER = entry(8, 'channel_write', handle=99, bytes='72')
REQUEST = entry(7, 'channel_write', handle=35, bytes='7071', handles=[47])
ANSWERED = entry(7, 'channel_read', handle=35, bytes=64, handles=4, discard=True, out={'bytes': '72'})


def channel_call_writes_and_reads(program, room):
    """It writes right before the first read of its message by another process, and reads where it returned."""
    done = told_of(program, room, [*CALLED, SERVED, ANSWER, called()], [], 5)
    expect('trace', trace_of(program, [*CALLED, REQUEST, SERVED, ANSWER, ANSWERED]), calls_alone(done.trace))
    expect('comments', ['channel_call', 'channel_call'], forms_in(done.trace))
    expect('counts', (6, 6, 0), done.counts()[:3])
    event = entry(8, 'event_create', out={'out': 107})
    answer = entry(8, 'channel_write', handle=99, bytes='72', handles=[107])
    etc = called(wr_handles=[sent(0, 47, 2)]) | {'call': 'channel_call_etc', 'out': {'bytes': '72', 'handles': [{'handle': 75, 'rights': 'ZX_RIGHTS_BASIC'}]}}
    use = entry(7, 'object_signal', handle=75, clear=0, set=8)
    replaced = entry(7, 'handle_replace', handle=47, rights=2, out={'handles': [51]})
    plain = [*CALLED, replaced, REQUEST | {'args': REQUEST['args'] | {'handles': [51]}}, SERVED, event, answer,
             ANSWERED | {'out': {'bytes': '72', 'handles': [75]}}, use]
    done = told_of(program, room, [*CALLED, SERVED, event, answer, etc, use], [], 5)
    expect('trace of the other', trace_of(program, plain), calls_alone(done.trace))
    several = [*CALLED[:1], *CALLED[2:]]
    for number in range(3):
        several += [entry(8, 'channel_read', handle=99, bytes=64, handles=4, out={'bytes': '7071'}),
                    entry(8, 'channel_write', handle=99, bytes=f'0{number}'), called(wr_handles=None) | {'out': {'rd_bytes': f'0{number}'}}]
    told_of(program, room, several, [], 5)


def channel_call_without_an_answer(program, room):
    for status in ('timed_out', 'bad_handle', 'access_denied', 'peer_closed'):
        made, handle = [PLAIN[0], PLAIN[2]], 99 if status == 'bad_handle' else 35
        before = {'access_denied': [entry(7, 'handle_replace', handle=35, rights=2, out={'out': 35})],
                  'peer_closed': [entry(7, 'handle_close', handle=39)]}.get(status, [])
        log = [*made, *before, called(status, handle=handle), entry(7, 'handle_close', 'bad_handle', handle=47)]
        done = told_of(program, room, log, [], 2)
        expect(status, 2 if status == 'peer_closed' else 1, len(forms_in(done.trace)))
    log = [*CALLED, SERVED, entry(8, 'process_exit', code=0), called('peer_closed')]
    told_of(program, room, log, [], 5)
    log = [*CALLED, SERVED, called('timed_out'), ANSWER, ANSWERED]
    told_of(program, room, log, [], 5)
    log = [*CALLED, SERVED, ANSWER, called('buffer_too_small', rd_num_bytes=0), entry(7, 'channel_read', 'should_wait', handle=35, bytes=9, handles=9)]
    told_of(program, room, log, [], 5)
    for name in ('handle', 'rd_num_bytes', 'rd_num_handles'):
        is_refused(program, room, text_of([called(**{name: None})]), f'line 1: args.{name}: missing')


FORM_TRIALS = [
    names_of_the_reference_are_taken, null_is_a_field_that_is_left_out, numbers_may_be_texts_of_decimals,
    processes_may_have_names, log_may_begin_with_a_mark, last_line_may_be_cut_off, options_of_waits_and_reads_count,
    wait_on_an_edge_is_no_other, options_that_are_left_out_are_told, calls_that_change_nothing_are_not_skipped,
    close_many_is_a_close_of_each, close_many_has_one_reply, read_etc_is_a_read, write_etc_makes_what_it_sends, write_etc_has_one_reply,
    write_etc_of_other_forms_is_refused, other_objects_have_stand_ins, stand_ins_are_followed, calls_on_stand_ins_are_told,
    create_and_start_are_one_spawn, process_that_is_used_before_its_start_is_made_there, channel_call_writes_and_reads,
    channel_call_without_an_answer,
]
