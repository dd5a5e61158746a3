"""Trials of zxtt-import: the names and notes that it writes for a log, and what it tells as JSON."""
import json

from importing import Import, calls_alone, entry, replies, text_of, write, zxtt_of
from trials import TOP, expect, lines_of, run_well


def name_lines(trace):
    """The name lines of a trace, which stand in one block behind its first line."""
    lines = lines_of(trace)
    found = [line.removeprefix('# ') for line in lines if line.startswith(('# name ', '# handle '))]
    expect('the block of names', [f'# {line}' for line in found], lines[1:1 + len(found)])
    return found


def notes_of(trace):
    """The lines of the note of each moment, without their marks."""
    notes, ahead = {}, []
    for line in lines_of(trace)[1 + len(name_lines(trace)):]:
        if line.startswith('#'):
            ahead.append(line[1:])
        else:
            notes[len(notes) + 1], ahead = ahead, []
    return notes


def imported(program, room, log, *words):
    """The trace of a log that comes well. Its calls are those that it has without further words."""
    done, plain = Import(program, text_of(log), *words), Import(program, text_of(log))
    expect('status', (0, 0), (done.status, plain.status))
    expect('said', plain.said, done.said)
    expect('calls', calls_alone(plain.trace), calls_alone(done.trace))
    replies(program, done.trace, room)
    return done.trace


def looked(program, room, trace, *words):
    write(f'{room}/looked', trace)
    return lines_of(run_well(zxtt_of(program), ['look', f'{room}/looked', *words]))


def named(line, **members):
    return {**line, **members}


def made(process, handle, **members):
    return named(entry(process, 'event_create', out={'handles': [handle]}), **members)


# Names.


def processes_and_handles_have_their_names(program, room):
    """Those of adopted processes and of spawned ones, and all handles that a log ever has: one that is adopted, the argument of a
    spawned process, those of a message, and both of a value that is given twice."""
    log = [
        entry(7, 'channel_create', out={'handles': ['0x13', '0x17']}),
        entry(7, 'spawn', job='0x1f', argument='0x17', out={'handles': ['0x1b'], 'process': 'child.cm'}),
        made(7, '0x23'), entry(7, 'handle_close', handle='0x23'), made(7, '0x23'),
        entry(7, 'channel_write', handle='0x13', bytes='', handles=['0x23']),
        entry('child.cm', 'channel_read', handle='0x2a50f4c3', bytes=0, handles=1, out={'handles': ['0xffffffff']}),
    ]
    trace = imported(program, room, log)
    expect('names', [
        'name 1028 7', 'name 1032 child.cm', 'handle 1028 7 0x0000001f', 'handle 1028 11 0x00000013', 'handle 1028 15 0x00000017',
        'handle 1028 19 0x0000001b', 'handle 1032 3 0x2a50f4c3', 'handle 1028 23 0x00000023', 'handle 1028 27 0x00000023',
        'handle 1032 7 0xffffffff',
    ], name_lines(trace))
    found = looked(program, room, trace, 'find', '0x2a50f4c3')
    expect('found by a handle value', ['channel_read'], [line.split(' ')[2] for line in found])
    noted = looked(program, room, trace, '--notes', 'calls', found[0].split(' ')[0], found[0].split(' ')[0])
    expect('with names', True, '1032 (child.cm) channel_read 3 (0x2a50f4c3)' in noted[-1])


def last_name_of_a_process_counts(program, room):
    """That of any line of the process, as `name` or as `process_name`; what is no text or is empty tells none."""
    log = [
        made(7, 35, name='first'), made(7, 39, process_name='second'), made(7, 43, name=''), made(7, 47, name=5), made(7, 51, name=None),
        made(8, 35), entry(8, 'zx_vmar_map') | {'name': 'eight'}, entry('nine', 'zx_nanosleep') | {'process_name': 'ten'},
        made('nine', 35, name='eleven', process_name='twelve'), made(9, 35), made('nine.cm', 35), made(10, 35, name=7, process_name='x'),
    ]
    trace = imported(program, room, log)
    names = [line.split(' ', 2)[2] for line in name_lines(trace) if line.startswith('name ')]
    expect('names', ['second', 'eight', '9', 'x', 'nine.cm', 'eleven'], sorted(names, key=['second', 'eight', '9', 'x', 'nine.cm',
                                                                                           'eleven'].index))


def names_are_cut_after_64_bytes(program, room):
    """At the end of a character; control characters become question marks, so that each line is one that names."""
    for name, shown in (
        (64 * 'x', 64 * 'x'), (65 * 'x', 64 * 'x'), (63 * 'x' + '\u00e9', 63 * 'x'), (62 * 'x' + '\u00e9', 62 * 'x' + '\u00e9'),
        (40 * '\u20ac', 21 * '\u20ac'), ('a\nname 1028 b', 'a?name 1028 b'), ('\x00\t\x7f\x85x', '????x'), (' two words ', ' two words '),
    ):
        trace = imported(program, room, [made(7, 35, name=name)])
        expect(repr(name), [f'name 1028 {shown}', 'handle 1028 7 0x00000023'], name_lines(trace))
        line = looked(program, room, trace, '--json', 'calls', '3', '3')[0]
        expect(f'{name!r} is read', shown, json.loads(line)['process_name'])


# Notes.


def times_and_threads_end_the_comment(program, room):
    """As the log writes them, and behind what the comment had before."""
    plain = ' line 1: process 7; gives 0x00000023'
    for members, end in (
        ({'time': 41.209}, '; time 41.209'), ({'timestamp': '41.209'}, '; time 41.209'), ({'ts': 12345678901234567890}, '; time '
         '12345678901234567890'), ({'time': 1, 'timestamp': 2, 'ts': 3}, '; time 1'), ({'timestamp': 2, 'ts': 3}, '; time 2'),
        ({'time': {'s': 1}, 'ts': 3}, '; time 3'), ({'time': None}, ''), ({'time': ''}, ''), ({'time': True}, ''),
        ({'thread': 4711}, '; thread 4711'), ({'tid': 'main'}, '; thread main'), ({'tid': 1, 'thread': 2}, '; thread 2'),
        ({'tid': 5, 'time': 0}, '; time 0; thread 5'), ({'thread': 'a\nb\x01'}, '; thread a?b?'),
        ({'thread': 64 * 'x' + 'y'}, f'; thread {64 * "x"}'), ({'thread': 63 * 'x' + '\u00e9'}, f'; thread {63 * "x"}'),
    ):
        trace = imported(program, room, [made(7, 35, **members)])
        expect(f'{members}', [plain + end], notes_of(trace)[3])
    text = b'{"process": 7, "call": "event_create", "time": 1.50, "status": "ok", "out": {"handles": [35]}}\n'
    expect('as the log writes it', [plain + '; time 1.50'], notes_of(Import(program, text).trace)[3])


BACKTRACE = '#0 main\n#1 start\r\n#2 end\n'


def fields_are_written_as_comments(program, room):
    """Those that are asked for, in that order, ahead of the call and behind its first comment; each line of a text and each item of a
    list on a line of its own."""
    log = [
        made(7, 35, backtrace=BACKTRACE, source='a.cc:5', more=[1, 2]), made(7, 39, source=['a', 'b\nc', 5, None, {'x': [1.50, '\u00e9']}]),
        made(7, 43), made(7, 47, source=None, backtrace=''), made(7, 51, source=True), made(7, 55, source=12.50, args={'source': 1}),
        made(7, 59, source={'file': 'a.cc', 'line': 5}), made(7, 63, source=[]), made(7, 67, source=[[1, [2]], []]),
    ]
    notes = notes_of(imported(program, room, log, '--note', 'source', '--note', 'backtrace'))
    told = [
        [' source: a.cc:5', ' backtrace: #0 main', '   #1 start?', '   #2 end'],
        [' source: a', '   b', '   c', '   5', '   null', '   {"x":[1.5,"\u00e9"]}'],
        [], [' backtrace: '], [' source: true'], [' source: 12.5'], [' source: {"file":"a.cc","line":5}'], [' source: '],
        [' source: [1,[2]]', '   []'],
    ]
    for place, lines in enumerate(told):
        expect(f'line {place + 1}', [f' line {place + 1}: process 7; gives 0x{35 + 4 * place:08x}', *lines], notes[place + 3])
    none = notes_of(imported(program, room, log))
    expect('without --note', [f' line 5: process 7; gives 0x{51:08x}'], none[7])
    trace = imported(program, room, log, '--note', 'source', '--note', 'backtrace')
    expect('note', [f'#{line}' for line in notes[4]], looked(program, room, trace, 'note', '4'))
    expect('find', ['3 1028 event_create => ok 7'], looked(program, room, trace, 'find', '#1 start'))
    twice = named(made(7, 35), source='last')
    text = json.dumps(twice)[:-1].encode() + b', "source": "first", "source": "last"}\n'
    done = Import(program, text, '--note', 'source')
    expect('the last of two', ' source: last', notes_of(done.trace)[3][1])


def long_fields_are_cut(program, room):
    """After 4,096 bytes, at the end of a character; a list as a whole."""
    for field, length in ((4096 * 'x', 4096), (5000 * 'x', 4096), (4095 * 'x' + '\u00e9', 4095), (1 << 19, 6), (80000 * '\u00e9', 4096)):
        trace = imported(program, room, [made(7, 35, source=field)], '--note', 'source')
        expect('a line', length, len(notes_of(trace)[3][1].removeprefix(' source: ').encode()))
    trace = imported(program, room, [made(7, 35, source=[5 * 'x', 5000 * 'y', 'z'])], '--note', 'source')
    lines = [' source: xxxxx', f'   {4090 * "y"}']
    expect('a list', lines, notes_of(trace)[3][1:])
    trace = imported(program, room, [made(7, 35, source=10000 * '\n')], '--note', 'source')
    expect('a field of line feeds', [' source: ', *4096 * ['   ']], notes_of(trace)[3][1:])


def no_field_forges_a_name(program, room):
    """Nor a call: what a field has is behind its name, or behind spaces, and the name of a field has no space."""
    forged = 'name 1028 forged'
    values = [forged, f'x\n{forged}\nhandle 1028 7 forged\n1025 event_create', [forged, f'# {forged}'], {forged: 1}]
    for value in values:
        for field in ('name', 'handle', forged, 'handle 1028 7', 'source'):
            trace = imported(program, room, [named(made(7, 35), **{field: value})], '--note', field)
            name = value if field == 'name' and isinstance(value, str) else '7'
            names = [f'name 1028 {name[:64]}'.replace('\n', '?'), 'handle 1028 7 0x00000023']
            expect(f'{field}: {value!r}', names, name_lines(trace))
            line = json.loads(looked(program, room, trace, '--json', 'calls', '3', '3')[0])
            expect('the name is read', name[:64].replace('\n', '?'), line['process_name'])
            shown = field.replace(' ', '_')
            expect('the comment', True, line['note'][1].startswith(f'# {shown}: '))


def each_call_of_a_line_has_its_notes(program, room):
    """A line that is several calls gives them all its time and its fields; the calls of other lines have none of them."""
    log = [
        made(7, 35), made(7, 39, source='made'), made(7, 43),
        entry(7, 'handle_close_many', handles=[35, 39, 43]) | {'source': 'closed', 'time': 5, 'tid': 6}, made(7, 47),
    ]
    notes = notes_of(imported(program, room, log, '--note', 'source'))
    expect('fields', [[], [' source: made'], [], *3 * [[' source: closed']], []], [notes[moment][1:] for moment in range(3, 10)])
    for place, handle in enumerate((35, 39, 43)):
        expect('the comment', f' line 4: process 7, handle 0x{handle:08x}; by handle_close_many, {place + 1} of 3; time 5; thread 6',
               notes[place + 6][0])


def skipped_and_moved_lines_keep_notes_apart(program, room):
    """Where lines are left out, are empty, or their calls are moved, each call has the note of its own line."""
    log = [
        entry(8, 'channel_read', handle=3, bytes=8, handles=0, out={'bytes': '70'}) | {'source': 'read'}, '',
        entry(8, 'zx_vmar_map') | {'source': 'mapped', 'time': 1}, entry(8, 'zx_nanosleep') | {'source': 'slept'},
        entry(7, 'channel_write', handle=3, bytes='70') | {'source': 'written', 'began': 1}, made(7, 35, source='made'),
    ]
    notes = notes_of(imported(program, room, log, '--note', 'source'))
    found = {lines[0].split(':')[0]: lines[1:] for lines in notes.values() if lines[0].startswith(' line ')}
    expect('notes', {' line 1': [' source: read'], ' line 5': [' source: written'], ' line 6': [' source: made']}, found)
    expect('the comment of the one that is moved', [' line 5: process 7, handle 0x00000003; moved ahead of line 1'],
           [lines[0] for lines in notes.values() if lines[1:] == [' source: written']])


# What is told as JSON.


def word_of(reply):
    """A reply of a difference as its line has it."""
    words = [reply['status'], f"handles={reply['handles']}"]
    if 'bytes' in reply:
        shown = reply['bytes'] if len(reply['bytes']) <= 64 else f"{reply['bytes'][:64]}.."
        words.append(f"bytes={shown or '-'}")
    if 'packet' in reply:
        packet = reply['packet']
        last = [packet['bytes']] if packet['packet'] == 'user' else [packet['trigger'], packet['observed']]
        words.append(f"packet={packet['packet']} {packet['key']} {' '.join(last)}")
    return ' '.join(words)


def line_of(told):
    """The line in whose place an object is told."""
    if 'moment' in told:
        at = 'no moment' if told['moment'] is None else f"moment {told['moment']}"
        way = 'by the schedule: ' if told['by_schedule'] else ''
        return f"line {told['line']}: {at}: {way}recorded {word_of(told['recorded'])}, by the semantics {word_of(told['semantics'])}"
    if isinstance(told.get('skipped'), list):
        marks = {True: ' (with handles of the log)', False: ''}
        return 'skipped: ' + ', '.join(f"{it['count']} {it['call']}{marks[it['with_handles']]}" for it in told['skipped'])
    if 'on_stand_ins' in told:
        return 'on stand-ins: ' + ', '.join(f"{it['count']} {it['call']}" for it in told['on_stand_ins'])
    if 'left_out' in told:
        return f"line {told['line']}: {told['left_out']}"
    if 'more_left_out' in told:
        return f"and {told['more_left_out']} more left out"
    return (
        'zxtt-import: {calls} calls of {lines} lines, {skipped} skipped, {adopted} adopted, {pairs} pairs by their messages, '
        '{moved} moved; {differences} differences, {by_schedule} of them by the schedule'.format(**told)
    )


def logs_that_tell():
    """Logs of which something is told: differences of each form, skipped calls, stand-ins, and what is left out."""
    with open(f'{TOP}/examples/import/fake-keeps-a-handle.log', 'rb') as file:
        yield file.read()
    signal = {'packet': {'type': 'signal', 'key': 5, 'trigger': 8, 'observed': 8}}
    user = {'packet': {'type': 'user', 'key': 1 << 63, 'bytes': 'ab' * 32}}
    yield text_of([
        made(7, 3), entry(7, 'port_create', out={'handles': [11]}), entry(7, 'port_wait', port=11, out=signal),
        entry(7, 'object_wait_async', handle=3, port=11, key=5, signals=8), entry(7, 'object_signal', handle=3, clear=0, set=8),
        entry(7, 'port_wait', 'timed_out', port=11), entry(7, 'port_wait', port=11, out=user), entry(7, 'port_wait', port=11, out=signal),
    ])
    yield text_of([
        entry(7, 'channel_create', out={'handles': [3, 7]}), entry(7, 'channel_write', handle=3, bytes='ab' * 33),
        entry(7, 'channel_write', handle=3, bytes=''), entry(7, 'channel_read', handle=7, bytes=99, handles=0, out={'bytes': '00'}),
        entry(7, 'channel_read', handle=7, bytes=99, handles=0, out={'bytes': 'cd' * 32}), entry(7, 'event_create', 'ZX_ERR_INTERNAL'),
        entry(7, 'process_exit', code=0), made(7, 11), entry(7, 'zx_vmar_map'), entry(7, 'zx_bti_pin', handle=3), entry(8, 'zx_bti_pin'),
    ])
    yield text_of([
        entry(7, 'zx_vmo_create', out={'out': 3}), entry(7, 'port_create', out={'handles': [11]}),
        entry(7, 'object_wait_async', handle=3, port=11, key=5, signals=8), entry(7, 'object_signal', handle=3, clear=0, set=8),
        *(entry(7, 'port_create', options=2 + 4 * n, out={'handles': [15 + 4 * n]}) for n in range(120)),
        entry(7, 'port_create', options='ZX_PORT_BIND_TO_INTERRUPT|"x', out={'handles': [999]}),
    ])
    yield text_of([made(7, 3)]) + b'{"process": 7, "call'


def what_is_told_as_json_is_what_is_told(program, room):
    """Each line has its object; the trace and the exit status are the same, with --strict too."""
    kinds = set()
    for log in logs_that_tell():
        for words in ([], ['--strict']):
            plain, objects = Import(program, log, *words), Import(program, log, '--json', *words)
            expect('exit status and trace', (plain.status, plain.trace), (objects.status, objects.trace))
            lines = [line_of(json.loads(line)) if line.startswith('{') else line for line in objects.said]
            expect('told', plain.said, lines)
            kinds |= {key for line in objects.said if line.startswith('{') for key in json.loads(line)}
            faults = [line for line in objects.said if not line.startswith('{')]
            expect('faults', [line for line in plain.said if line.startswith('zxtt-import: ')][:1] if faults else [], faults)
    expect('kinds', True, kinds >= {'moment', 'skipped', 'on_stand_ins', 'left_out', 'more_left_out', 'calls'})


def whole_messages_are_told_as_json(program, room):
    """All bytes, where a line has the first 32 of them."""
    log = [
        entry(7, 'channel_create', out={'handles': [3, 7]}), entry(7, 'channel_write', handle=3, bytes='ab' * 500),
        entry(7, 'channel_read', handle=7, bytes=999, handles=0, out={'bytes': 'AC' * 500}),
    ]
    told = json.loads(Import(program, text_of(log), '--json').said[0])
    replies_told = [{'status': 'ok', 'handles': 0, 'bytes': word * 500} for word in ('ac', 'ab')]
    expect('the difference', {
        'line': 3, 'moment': 5, 'by_schedule': False, 'recorded': replies_told[0], 'semantics': replies_told[1],
    }, told)


NOTE_TRIALS = [
    processes_and_handles_have_their_names, last_name_of_a_process_counts, names_are_cut_after_64_bytes,
    times_and_threads_end_the_comment, fields_are_written_as_comments, long_fields_are_cut, no_field_forges_a_name,
    each_call_of_a_line_has_its_notes, skipped_and_moved_lines_keep_notes_apart, what_is_told_as_json_is_what_is_told,
    whole_messages_are_told_as_json,
]
