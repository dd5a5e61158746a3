"""What `zxtt look` has to say of a trace, found by a slow way: the program is asked for all rows and all leaks at each moment, by
`goto`, `show` and `leaks`, and the answers are worked out from these, by docs/SEMANTICS.md and docs/FORMATS.md alone."""
import re

from trials import Trouble, run_well

ANSWERED = 3996  # the commands of one run, a multiple of those that belong together; a client is answered 4,096
ROOT_JOB = 1024
STATUSES = (
    'ok bad_handle wrong_type access_denied invalid_args not_supported peer_closed should_wait buffer_too_small timed_out '
    'bad_state out_of_range not_found already_bound'
).split()
HAPPENINGS = ['made', 'ended', 'peer_closed', 'leaked']
KEY_LENGTHS = {'counters': 0, 'object': 1, 'entry': 2, 'msg': 2, 'packet': 2, 'wait': 1}  # in the order of `show`
RIGHTS = {
    0: 'DUPLICATE', 1: 'TRANSFER', 2: 'READ', 3: 'WRITE', 9: 'DESTROY', 12: 'SIGNAL', 13: 'SIGNAL_PEER', 14: 'WAIT',
    15: 'INSPECT', 16: 'MANAGE_JOB', 17: 'MANAGE_PROCESS', 31: 'SAME_RIGHTS',
}
SIGNALS = {
    0: 'READABLE', 1: 'WRITABLE', 2: 'PEER_CLOSED', 3: 'SIGNALED', 4: 'NO_JOBS', 5: 'NO_PROCESSES',
    **{bit: f'USER_{bit - 24}' for bit in range(24, 32)},
}
SIGNALS_OF_TASKS = SIGNALS | {3: 'TERMINATED'}


# Names in place of masks.


def named(mask, names):
    """The names of the bits of a mask, and behind them what has none."""
    bits = int(mask, 16)
    found = [name for bit, name in sorted(names.items()) if bits >> bit & 1]
    rest = bits & ~sum(1 << bit for bit in names)
    return '|'.join(found + ([f'0x{rest:08x}'] if rest else [])) or 'NONE'


def with_names(line, places):
    """The line with names in these places."""
    fields = line.split(' ')
    for place, names in places.items():
        fields[place] = named(fields[place], names)
    return ' '.join(fields)


def named_held(held):
    """The handles of a message with the names of their rights."""
    return re.sub('0x[0-9a-f]{8}', lambda found: named(found[0], RIGHTS), held)


def signals_of(kind):
    """The names of the signals of an object of a kind; where that is not known, the bit has none whose name depends on it."""
    if kind is None:
        return {bit: name for bit, name in SIGNALS.items() if bit != 3}
    return SIGNALS_OF_TASKS if kind in ('job', 'process') else SIGNALS


def named_row(row, kind=None):
    """The row with names; the kind is that of the object whose signals a wait or a packet has."""
    fields = row.split(' ')
    if fields[0] == 'object':
        return with_names(row, {3: signals_of(fields[2])})
    if fields[0] == 'msg':
        return ' '.join([*fields[:4], named_held(fields[4])])
    if fields[0] == 'packet' and fields[3] == 'signal':
        return with_names(row, {5: signals_of(kind), 6: signals_of(kind)})
    return with_names(row, {'entry': {4: RIGHTS}, 'wait': {6: signals_of(kind)}}.get(fields[0], {}))


def named_call(call, kind=None):
    """The line of a call with its process; the kind is that of the object whose signals it has."""
    signals = signals_of(kind)
    places = {
        'handle_duplicate': {3: RIGHTS}, 'handle_replace': {3: RIGHTS}, 'object_signal': {3: signals, 4: signals},
        'object_signal_peer': {3: signals, 4: signals}, 'object_wait_async': {5: signals},
    }
    return with_names(call, places.get(call.split(' ')[1], {}))


def named_reply(reply, kind):
    return with_names(reply, {3: signals_of(kind), 4: signals_of(kind)} if reply.startswith('ok signal ') else {})


# A trace and what stands at its moments.


class State:
    """The rows at a moment, each under its key, and the objects that are leaked there."""

    def __init__(self, rows, leaks):
        self.rows = {key_of(row): row for row in rows}
        self.objects = {}
        self.handles = {}
        for row in rows:
            fields = row.split(' ')
            if fields[0] == 'object':
                self.objects[int(fields[1])] = fields
            elif fields[0] == 'entry':
                self.handles[fields[1], fields[2]] = int(fields[3])
        self.next_koid = int(rows[0].split(' ')[1])
        self.leaked = {int(line.split(' ')[0]) for line in leaks}

    def kind_named(self, process, handle):
        """The kind of the object that a handle names, or None."""
        fields = self.objects.get(self.handles.get((process, handle)))
        return fields and fields[2]

    def kind_of_row(self, row):
        """The kind of the object whose signals a wait or a packet has, or None."""
        fields = row.split(' ') if row else ['']
        if fields[0] == 'wait':
            return self.kind_named(*fields[2:4])
        return self.kind_named(*fields[7:9]) if fields[0] == 'packet' and fields[3] == 'signal' else None

    def is_there(self, koid):
        return koid in self.objects

    def lives(self, koid):
        """It is there, and has not ended."""
        return koid in self.objects and self.objects[koid][5] == 'live'

    def lacks_peer(self, koid):
        """It is an endpoint on which the signal stands that its peer is closed."""
        fields = self.objects.get(koid)
        return fields is not None and fields[2] in ('channel', 'eventpair') and int(fields[3], 16) & 4 != 0

    def is_known(self, koid):
        """Some object up to here has or had this koid."""
        return ROOT_JOB <= koid < self.next_koid


def key_of(row):
    """The key of a row; keys are ordered as `show` prints them."""
    fields = row.split(' ')
    return list(KEY_LENGTHS).index(fields[0]), *map(int, fields[1:1 + KEY_LENGTHS[fields[0]]])


def changes(before, after):
    """Each key at which the rows of two states differ, in order, with the row before and the row after."""
    keys = sorted(before.rows.keys() | after.rows.keys())
    rows = [(key, before.rows.get(key), after.rows.get(key)) for key in keys]
    return [row for row in rows if row[1] != row[2]]


def happened(what, koid, before, after):
    """Whether it happens to the object between one state and the next."""
    if what == 'made':
        return not before.is_there(koid) and after.is_there(koid)
    if what == 'ended':
        return before.lives(koid) and not after.lives(koid)
    if what == 'peer_closed':
        return not before.lacks_peer(koid) and after.lacks_peer(koid)
    return koid not in before.leaked and koid in after.leaked


def happenings(before, after):
    """What happens between two states: each koid with its kind and what happened, by rising koid."""
    found = []
    for koid in sorted(before.objects.keys() | after.objects.keys()):
        kind = (after.objects.get(koid) or before.objects[koid])[2]
        found += [(koid, kind, what) for what in HAPPENINGS if happened(what, koid, before, after)]
    return found


def answers(program, path, lines):
    """Each answer to the lines over a trace: its first line, and the rows behind it."""
    found = []
    for at in range(0, len(lines), ANSWERED):
        words = ['run', '-', *(['--from', path] if path else [])]
        told = run_well(program, words, ''.join(f'{line}\n' for line in lines[at:at + ANSWERED]).encode()).decode('latin-1')
        told = iter(told.split('\n')[:-1])
        for first in told:
            fields = first.split(' ')
            count = int(fields[2]) if fields[0] in ('rows', 'holders', 'leaks') else 0
            found.append((first, [next(told) for _ in range(count)]))
    if len(found) != len(lines):
        raise Trouble(f'{len(lines)} lines, and {len(found)} answers')
    return found


class Trace:
    """A session text: of each moment the one at which it was made, its call and its reply, and what stands there."""

    def __init__(self, program, path):
        self.program, self.path = program, path
        self.parents, self.calls, self.branches = [None], [None], []
        with open(path, encoding='utf-8', errors='surrogateescape', newline='\n') as file:
            self.take([line.rstrip('\n') for line in file])
        self.last = len(self.calls) - 1
        self.replies = self.replies_of_all()
        self.states = self.states_of_all()
        steps = [(self.before(moment), self.states[moment]) for moment in range(1, self.last + 1)]
        self.changes = [[], *(changes(*step) for step in steps)]
        self.happenings = [[], *(happenings(*step) for step in steps)]

    def take(self, lines):
        for line in lines[1:]:
            fields = line.split(' ')
            if not line or line.startswith('#') or fields[0] == 'cursor':
                continue
            if fields[0] == 'branch':
                self.branches.append((fields[1], int(fields[2])))
            else:
                is_tree = fields[0] == 'call'
                self.parents.append(int(fields[1]) if is_tree else len(self.calls) - 1)
                self.calls.append(' '.join(fields[2:]) if is_tree else line)
        if lines[0] == 'zxtt 1':
            self.branches.append(('main', len(self.calls) - 1))

    def replies_of_all(self):
        """What each call was answered: they are made again, as lines."""
        lines, at = [], 0
        for moment in range(1, self.last + 1):
            if self.parents[moment] != at:
                lines += [f'goto {self.parents[moment]}', f'branch r{moment}']
            lines.append(self.calls[moment])
            at = moment
        found = [None]
        for line, (first, _) in zip(lines, answers(self.program, None, lines)):
            if line[0].isdigit():
                moment, reply = first.split(' ', 1)
                if moment != str(len(found)):
                    raise Trouble(f'{line!r} was answered {first!r}')
                found.append(reply)
        return found

    def states_of_all(self):
        lines = [line for moment in range(self.last + 1) for line in (f'goto {moment}', 'show', 'leaks')]
        told = answers(self.program, self.path, lines)
        return [State(told[at + 1][1], told[at + 2][1]) for at in range(0, len(told), 3)]

    def way(self, moment):
        """The moments on the path to a moment, without the opening."""
        found = []
        while moment:
            found.append(moment)
            moment = self.parents[moment]
        return found[::-1]

    def head(self, name='main'):
        return dict(self.branches)[name]

    def before(self, moment):
        """The state before the call of a moment."""
        return self.states[self.parents[moment]]

    def call(self, moment, names=False):
        process, _, *asked = self.calls[moment].split(' ')
        kind = self.states[moment].kind_named(process, asked[0]) if names and asked else None
        return named_call(self.calls[moment], kind) if names else self.calls[moment]

    def reply(self, moment, names=False):
        taken = [before for key, before, after in self.changes[moment] if key[0] == list(KEY_LENGTHS).index('packet') and not after]
        kind = self.states[moment].kind_of_row(taken[0]) if names and taken else None
        return named_reply(self.replies[moment], kind) if names else self.replies[moment]


# The answers. Each is a list of lines, for the path to the moment `at`.


def changed(trace, moment, names=False):
    return change_lines(trace.changes[moment], trace.before(moment) if moment else trace.states[0], trace.states[moment], names)


def changed_between(trace, first, second, names=False):
    before, after = trace.states[first], trace.states[second]
    return change_lines(changes(before, after), before, after, names)


def change_lines(rows, before, after, names):
    """The lines of rows that differ between two states."""
    lines = []
    for _, one, other in rows:
        kind = after.kind_of_row(other) or before.kind_of_row(one)
        shown = (lambda row: named_row(row, kind)) if names else str
        lines += [f'- {shown(one)}'] if one else []
        lines += [f'+ {shown(other)}'] if other else []
    return lines


def names_it(row, koid):
    """The row is that of a handle that names the object, or of a message with one."""
    fields = row.split(' ') if row else ['']
    if fields[0] == 'entry':
        return fields[3] == str(koid)
    return fields[0] == 'msg' and any(held.split(':')[0] == str(koid) for held in fields[4].split(','))


def touches(trace, moment, koid):
    """The call changed the row of the object or of what it owns, or that of a handle that names it."""
    owned = {list(KEY_LENGTHS).index(kind) for kind in ('object', 'entry', 'msg', 'packet')}
    return any(
        key[0] in owned and key[1] == koid or names_it(before, koid) or names_it(after, koid)
        for key, before, after in trace.changes[moment]
    )


def calls(trace, at, first=0, last=None, failed=False, process=None, koid=None, names=False):
    found = []
    for moment in trace.way(at):
        if moment < first or last is not None and moment > last:
            continue
        if failed and trace.replies[moment].split(' ')[0] == 'ok':
            continue
        if process is not None and trace.calls[moment].split(' ')[0] != str(process):
            continue
        if koid is None or touches(trace, moment, koid):
            found.append(f'{moment} {trace.call(moment, names)} => {trace.reply(moment, names)}')
    return found


def events(trace, at, asked=(), names=False):
    return [
        f'{moment} {what} {koid} {kind} {trace.call(moment, names)}'
        for moment in trace.way(at) for koid, kind, what in trace.happenings[moment] if what in (asked or HAPPENINGS)
    ]


def holders_of(trace, at, koids):
    """Of each koid how many supports it has, as the talk counts them."""
    told = answers(trace.program, trace.path, [line for koid in koids for line in (f'goto {at}', f'holders {koid}')])
    return {koid: int(first.split(' ')[2]) for koid, (first, _) in zip(koids, told[1::2])}


def alive(trace, at, since=0, names=False):
    state = trace.states[at]
    made = {koid: moment for moment in trace.way(at) for koid, _, what in trace.happenings[moment] if what == 'made'}
    koids = [koid for koid in made if made[koid] > since and state.lives(koid)]
    counts = holders_of(trace, at, koids)
    return [f'{koid} {state.objects[koid][2]} {counts[koid]} {made[koid]} {trace.call(made[koid], names)}' for koid in koids]


# The lives of handles: they are followed from the opening on, call by call, from one place to the next.


class Life:
    """The steps of a handle, each with its moment, its word, its place and the rights there; and its end."""

    def __init__(self, steps=()):
        self.steps, self.end = list(steps), None


def places(state):
    """The handles of a state: for each place, the words for it, the koid and the mask of rights."""
    found = {}
    for row in state.rows.values():
        fields = row.split(' ')
        if fields[0] == 'entry':
            found['entry', int(fields[1]), int(fields[2])] = int(fields[3]), fields[4]
        elif fields[0] == 'msg' and fields[4] != '-':
            for index, held in enumerate(fields[4].split(',')):
                koid, rights = held.split(':')
                found['message', int(fields[1]), int(fields[2]), index] = int(koid), rights
    return found


def listed(word):
    return [] if word == '-' else [int(value) for value in word.split(',')]


def came_from(trace, moment, gone, new):
    """Of each new place the word for how its handle came, and from which place; the rows before and after the call tell."""
    process, name, *asked = trace.calls[moment].split(' ')
    if name in ('handle_duplicate', 'handle_replace'):
        word = {'handle_duplicate': 'duplicated', 'handle_replace': 'replaced'}[name]
        return {place: (word, ('entry', int(process), int(asked[0]))) for place in new}
    if name == 'channel_write':
        sent = [('entry', int(process), value) for value in listed(asked[2])]
        return {place: ('sent', sent[place[3]]) for place in new}
    if name == 'channel_read':
        taken = zip(sorted(new), sorted(gone))  # the values of a process rise in the order in which it gets them
        return {place: ('taken', source) for place, source in taken}
    if name == 'spawn':
        given = ('entry', int(process), int(asked[1]))
        return {place: ('made', None) if place[1] == int(process) else ('given', given) for place in new}
    return {place: ('made', None) for place in new}


def how_ended(trace, moment, place):
    """The word for how a handle ended at a place by the call, which brought it to no other place."""
    process, name, *asked = trace.calls[moment].split(' ')
    before, after = trace.before(moment), trace.states[moment]
    if place[0] == 'message':
        reads = name == 'channel_read' and before.handles.get((process, asked[0])) == place[1]
        return 'discarded' if reads and after.is_there(place[1]) else 'queue_gone'
    if not after.lives(place[1]):
        return 'process_ended'
    return 'closed' if name == 'handle_close' else 'failed'


def crossings(trace, moment):
    """The places that a call empties; and of each that gets a handle, what it holds, the word for how, and from which place."""
    before, after = places(trace.before(moment)), places(trace.states[moment])
    gone, new = [place for place in before if place not in after], [place for place in after if place not in before]
    sources = came_from(trace, moment, gone, new)
    for place, (_, source) in sources.items():
        if source and (before[source][0] != after[place][0] or int(after[place][1], 16) & ~int(before[source][1], 16)):
            raise Trouble(f'moment {moment}: {place} holds {after[place]}, and {source} held {before[source]}')
    return gone, {place: (after[place], *sources[place]) for place in new}


def follow(trace, moment, lives, ever):
    """Carries the lives of the handles at their places over a call. `ever` is the last life of each place."""
    gone, new = crossings(trace, moment)
    leaving = {place: lives[place] for place in gone}
    for place, (held, word, source) in new.items():
        steps = lives[source].steps if source else []
        life = leaving.pop(source) if source in leaving else Life(steps)
        life.steps.append((moment, word, place, held[1]))
        ever[place] = lives[place] = life
    for place, life in leaving.items():
        life.end = moment, how_ended(trace, moment, place)
    for place in gone:
        del lives[place]


def all_lives(trace, at):
    """The life of each handle value that a process ever had on the path to a moment, as it is there."""
    lives = {place: Life([(0, 'opening', place, held[1])]) for place, held in places(trace.states[0]).items()}
    ever = dict(lives)
    for moment in trace.way(at):
        follow(trace, moment, lives, ever)
    return {place[1:]: life for place, life in ever.items() if place[0] == 'entry'}


def life_lines(trace, life, names=False):
    def shown(place, rights):
        return f"{' '.join(map(str, place))} {named(rights, RIGHTS) if names else rights}"

    lines, last = [], None
    for moment, word, place, rights in life.steps:
        source = '' if word in ('opening', 'made') else f' from {last}'
        last = shown(place, rights)
        lines.append(f'{moment} {word} {last}{source}' + (f' {trace.call(moment, names)}' if moment else ''))
    if life.end:
        moment, word = life.end
        return [*lines, f'{moment} {word} {last} {trace.call(moment, names)}', 'gone']
    return [*lines, f'held {last}']


# The handles to an object: each is noted at each of its places, from the opening on.


class Stay:
    """A handle at a place: when and how it came, its koid and rights there, from which stay, and when and how it left."""

    def __init__(self, moment, word, place, held, source=None):
        self.moment, self.word, self.place, self.source, self.left = moment, word, place, source, None
        self.koid, self.rights = held


def stays_on(trace, at):
    """Every stay of a handle on the path to a moment, in the order in which they began."""
    found = [Stay(0, 'opening', place, held) for place, held in places(trace.states[0]).items()]
    here = {stay.place: stay for stay in found}
    for moment in trace.way(at):
        gone, new = crossings(trace, moment)
        for place, (held, word, source) in new.items():
            here[place] = Stay(moment, word, place, held, here[source] if source else None)
            found.append(here[place])
            if source in gone:
                here[source].left = moment, word
        for place in gone:
            stay = here.pop(place)
            stay.left = stay.left or (moment, how_ended(trace, moment, place))
    return found


def stay_line(stay, depth, names):
    rights = named(stay.rights, RIGHTS) if names else stay.rights
    words = [stay.moment, stay.word, *stay.place, rights, *(['from', *stay.source.place] if stay.source else [])]
    left = [stay.left[1], stay.left[0]] if stay.left else ['held']
    return '  ' * depth + ' '.join(map(str, [*words, *left]))


def lineage(stays, koid, names=False):
    """The stays of the handles to an object, each behind the one that it came from, and one deeper if it is a copy."""
    below = {}
    for stay in stays:
        if stay.koid == koid:
            below.setdefault(stay.source, []).append(stay)
    lines, waiting = [], [(0, stay) for stay in reversed(below.get(None, []))]
    while waiting:
        depth, stay = waiting.pop()
        lines.append(stay_line(stay, depth, names))
        waiting += [(depth + (each.word == 'duplicated'), each) for each in reversed(below.get(stay, []))]
    if len(lines) != sum(map(len, below.values())):
        raise Trouble(f'{koid}: a handle came from none of those that name the object')
    return lines


def rows_of(trace, at, koid):
    """The rows of the messages in its queue, of the packets in it, and of the waits for it, or on it."""
    state = trace.states[at]
    kinds = {number: kind for number, kind in enumerate(KEY_LENGTHS)}
    found = [row for key, row in state.rows.items() if kinds[key[0]] in ('msg', 'packet') and key[1] == koid]
    for key, row in state.rows.items():
        fields = row.split(' ')
        if fields[0] == 'wait' and koid in (int(fields[4]), state.handles[fields[2], fields[3]]):
            found.append(row)
    return found


def told_of(trace, at, koids):
    """Of each koid the lines of `holders`, and when each of the four happened, as the talk has them."""
    lines = [[f'goto {at}', f'holders {koid}', *(f'when {what} {koid}' for what in HAPPENINGS)] for koid in koids]
    told = answers(trace.program, trace.path, [line for each in lines for line in each])
    found = {}
    for place, koid in enumerate(koids):
        _, holders, *times = told[6 * place:6 * place + 6]
        found[koid] = [holders[0], *holders[1]], [first for first, _ in times]
    return found


def object_lines(trace, at, koid, told, names=False):
    """The lines of an object; `told` is what `told_of` gave of it."""
    holders, times = told
    state = trace.states[at]
    shown = (lambda row: named_row(row, state.kind_of_row(row))) if names else str
    lines = [f'object {koid} gone']
    if state.is_there(koid):
        lines = [shown(' '.join(state.objects[koid])), *holders, *map(shown, rows_of(trace, at, koid))]
    for what, time in zip(HAPPENINGS, times):
        moment, _, call = time.partition(' ')
        lines.append(f'{what} {time}' if time == 'never' else f'{what} {moment} {named_call(call) if names else call}')
    return lines


def handles(trace, at, process, names=False):
    lines = []
    for row in trace.states[at].rows.values():
        fields = row.split(' ')
        if fields[0] == 'entry' and fields[1] == str(process):
            _, _, value, koid, rights = fields
            kind = trace.states[at].objects[int(koid)][2]
            lines.append(f'{value} {koid} {kind} {named(rights, RIGHTS) if names else rights}')
    return lines


def end_of_message(trace, moment, koid):
    """What became of a message of the endpoint that is there no more: it was read or discarded by a read of this endpoint; or
    it was lost with it."""
    fields = trace.calls[moment].split(' ')
    if fields[1] == 'channel_read' and trace.before(moment).handles.get((fields[0], fields[2])) == koid:
        return 'read' if trace.replies[moment].startswith('ok ') else 'discarded'
    return 'lost'


def messages(trace, at, koid, names=False):
    found = {}
    for moment in trace.way(at):
        for key, before, after in trace.changes[moment]:
            if key[0] != list(KEY_LENGTHS).index('msg') or key[1] != koid:
                continue
            _, _, number, sent, held = (after or before).split(' ')
            if after and not before:
                held = named_held(held) if names else held
                found[int(number)] = [
                    f'{number} message {sent} {held}', f'{number} written {moment} {trace.call(moment, names)}', f'{number} waits'
                ]
            elif before and not after:
                end = end_of_message(trace, moment, koid)
                found[int(number)][2] = f'{number} {end} {moment} {trace.call(moment, names)}'
    return [line for number in sorted(found) for line in found[number]]


def branches(trace):
    """Each branch with its head, and behind all but the first the earlier branch that it leaves last, and where."""
    lines = []
    for place, (name, head) in enumerate(trace.branches):
        own = [0, *trace.way(head)]
        best = None
        for earlier, other in trace.branches[:place]:
            shared = max(set(own) & {0, *trace.way(other)})
            if best is None or shared > best[1]:
                best = earlier, shared
        lines.append(f'branch {name} {head}' + (f' leaves {best[0]} {best[1]}' if best else ''))
    return lines


def summary(trace, at):
    counts = {}
    for moment in trace.way(at):
        who = int(trace.calls[moment].split(' ')[0]), STATUSES.index(trace.replies[moment].split(' ')[0])
        counts[who] = counts.get(who, 0) + 1
    lines = [f'calls {process} {STATUSES[status]} {counts[process, status]}' for process, status in sorted(counts)]
    times, kinds = {}, {1024: 'job', 1025: 'process'}
    for moment in trace.way(at):
        for koid, kind, what in trace.happenings[moment]:
            times[koid, what], kinds[koid] = moment, kind
    state = trace.states[at]
    for koid in range(ROOT_JOB, state.next_koid):
        if koid in state.leaked:
            lines.append(f"leaked {koid} {kinds[koid]} {times[koid, 'leaked']}")
        elif state.lives(koid):
            lines.append(f"alive {koid} {kinds[koid]} {times.get((koid, 'made'), 0)}")
        else:
            lines.append(f"dead {koid} {kinds[koid]} {times[koid, 'ended']}")
    return lines
