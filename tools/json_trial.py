"""Turns the JSON objects of `zxtt look .. --json` back into the lines of the answer, and compares them.

`difference(program, trace, words)` asks a question, asks it again with `--names` and with `--json`, and calls
`compare(question, lines, named, text)`. Each JSON line has to be one object that becomes both lines again, byte by byte. An object
has no member that the lines do not have, except the names of objects and handles and the note of a moment.

As a program it does this for one question: tools/json_trial.py PROGRAM TRACE QUESTION..
"""
import json
import subprocess
import sys

ARGUMENTS = {
    'event_create': '',
    'eventpair_create': '',
    'channel_create': '',
    'port_create': '',
    'handle_close': 'handle',
    'handle_duplicate': 'handle rights',
    'handle_replace': 'handle rights',
    'object_signal': 'handle clear set',
    'object_signal_peer': 'handle clear set',
    'object_wait_async': 'handle port key signals edge',
    'channel_write': 'handle bytes handles',
    'channel_read': 'handle bytes_room handles_room discard',
    'port_queue': 'port key packet',
    'port_wait': 'port',
    'port_cancel': 'port source key',
    'job_create': 'job',
    'spawn': 'job argument',
    'job_set_critical': 'job handle',
    'task_kill': 'handle',
    'process_exit': 'code',
}
VALUES = {
    'eventpair_create': 'handle peer',
    'channel_create': 'handle peer',
    'spawn': 'handle process',
    'channel_read': 'bytes handles',
    'port_wait': 'packet key bytes trigger observed',
}  # of the calls that give more than a handle
ROWS = {
    'counters': ('next_koid', 'next_wait'),
    'object': ('koid', 'kind', 'signals', 'link', 'life', 'next', 'critical:'),
    'entry': ('process', 'handle', 'koid', 'rights'),
    'msg': ('endpoint', 'number', 'bytes', 'handles:held'),
    'packet': ('port', 'number', 'packet', 'key', 'bytes', 'trigger', 'observed', 'process', 'handle'),
    'wait': ('number', 'process', 'handle', 'port', 'key', 'signals', 'edge'),
}
ADDED = ('_name', 'handles_names', 'note')  # the ends of the keys of members that the notes and names of a trace add
VALUED = ('--at', '--branch', '--process', '--object', '--since')  # the options behind which a value stands


class Wrong(Exception):
    """An object that is not the JSON of a line."""


class Members:
    """The members of an object, taken one by one. Each is to be taken in the end."""

    def __init__(self, members, named):
        self.left, self.named = dict(members), named
        if len(self.left) != len(members):
            raise Wrong('a member comes twice')

    def has(self, key):
        return key in self.left

    def take(self, key):
        if key not in self.left:
            raise Wrong(f'no member {key}')
        return self.left.pop(key)

    def word(self, key):
        value = self.take(key)
        if not isinstance(value, str):
            raise Wrong(f'{key} is no text')
        return value

    def number(self, key):
        value = self.take(key)
        if type(value) is not int:
            raise Wrong(f'{key} is no number')
        return str(value)

    def mask(self, key):
        return self.mask_of(self.word(key), self.take(f'{key}_names'), key)

    def mask_of(self, mask, names, key):
        if len(mask) != 10 or mask[:2] != '0x' or not isinstance(names, list):
            raise Wrong(f'{key} is no mask')
        return ('|'.join(names) or 'NONE') if self.named else mask

    def bytes(self, key):
        return self.word(key) or '-'

    def handles(self, key):
        return ','.join(str(handle) for handle in self.take(key)) or '-'

    def held(self, key):
        held = [Members(list(each.items()), self.named) for each in self.take(key)]
        texts = [f'{each.number("koid")}:{each.mask("rights")}' for each in held]
        for each in held:
            each.end()
        return ','.join(texts) or '-'

    def within(self, key):
        return Members(list(self.take(key).items()), self.named)

    def flag(self, key):
        if self.take(key) is not True:
            raise Wrong(f'{key} is not true')
        return key

    def end(self):
        left = [key for key in self.left if not key.endswith(ADDED)]
        if left:
            raise Wrong(f'members {left} are in no line')


def field(members, key, held=False):
    """The field that a member was made from."""
    if key in ('bytes', 'packet'):
        return members.bytes(key)
    if key in ('clear', 'set', 'signals', 'rights', 'trigger', 'observed'):
        return members.mask(key)
    if key == 'handles':
        return members.held(key) if held else members.handles(key)
    if key in ('edge', 'discard'):
        return members.flag(key)
    if key in ('kind', 'life', 'status', 'event'):
        return members.word(key)
    return members.number(key)


def fields(members, keys, held=False):
    """The fields of those of these members that are there, in the order of the keys."""
    return [field(members, key, held) for key in keys if members.has(key)]


def all_fields(members, key, keys):
    """The fields of an object within, by these keys in their order; it has no others."""
    within = members.within(key)
    parts = fields(within, keys.split())
    within.end()
    return parts


def call(members):
    process, name = members.number('process'), members.word('call')
    return [process, name, *all_fields(members, 'args', ARGUMENTS[name])]


def call_and_reply(members):
    name = members.left['call']
    parts = [*call(members), '=>', members.word('status')]
    if members.has('reply'):
        small = parts[-1] == 'buffer_too_small'
        parts += all_fields(members, 'reply', 'bytes_needed handles_needed' if small else VALUES.get(name, 'handle'))
    return parts


def row(members):
    name = members.word('row')
    if name == 'object' and not members.has('kind'):
        return [name, members.number('koid'), members.word('life')]
    parts = [name]
    for key in ROWS[name]:
        if key == 'critical:':
            parts += [f'critical:{members.number("critical")}'] if members.has('critical') else []
        elif key == 'handles:held':
            parts.append(members.held('handles'))
        elif key == 'packet' or members.has(key):
            parts.append(field(members, key))
    return parts


def place(members, key):
    at = members.within(key)
    parts = [at.word('place'), *fields(at, ('process', 'handle', 'endpoint', 'number', 'index'))]
    at.end()
    return parts


# What each question's line is, by its members.


def calls_line(members):
    return [members.number('moment'), *call_and_reply(members)]


def changed_line(members):
    return [members.word('change'), *row(members)]


def events_line(members):
    return [members.number('moment'), members.word('event'), members.number('koid'), members.word('kind'), *call(members)]


def object_line(members):
    if members.has('holders'):
        return ['holders', members.number('holders'), members.number('count')]
    if members.has('support'):
        return [members.word('support'), *fields(members, ('process', 'handle', 'endpoint', 'number', 'index', 'koid'))]
    if members.has('when'):
        what = members.word('when')
        if members.left.get('moment', 0) is None:
            members.take('moment')
            return [what, 'never']
        return [what, members.number('moment'), *call(members)]
    return row(members)


def handles_line(members):
    return fields(members, ('handle', 'koid', 'kind', 'rights'))


def messages_line(members):
    number, step = members.number('number'), members.word('step')
    if step == 'message':
        return [number, step, members.bytes('bytes'), members.held('handles')]
    return [number, step] + ([members.number('moment'), *call(members)] if members.has('moment') else [])


def branches_line(members):
    parts = ['branch', members.word('branch'), members.number('head')]
    return parts + (['leaves', members.word('leaves'), members.number('moment')] if members.has('leaves') else [])


def summary_line(members):
    return [members.word('summary'), *fields(members, ('process', 'status', 'count', 'koid', 'kind', 'moment'))]


def alive_line(members):
    return [*fields(members, ('koid', 'kind', 'holders', 'moment')), *call(members)]


def handle_line(members):
    parts = [members.number('moment')] if members.has('moment') else []
    parts.append(members.word('step'))
    if members.has('at'):
        parts += [*place(members, 'at'), members.mask('rights')]
    if members.has('from'):
        parts += ['from', *place(members, 'from'), members.mask('from_rights')]
    return parts + (call(members) if members.has('call') else [])


def lineage_line(members):
    depth = int(members.number('depth'))
    parts = [members.number('moment'), members.word('step'), *place(members, 'at'), members.mask('rights')]
    if members.has('from'):
        parts += ['from', *place(members, 'from')]
    parts.append(members.word('end'))
    parts += fields(members, ('end_moment',))
    return ['  ' * depth + parts[0], *parts[1:]]


LINES = {
    'calls': calls_line,
    'changed': changed_line,
    'events': events_line,
    'object': object_line,
    'handles': handles_line,
    'messages': messages_line,
    'branches': branches_line,
    'summary': summary_line,
    'alive': alive_line,
    'handle': handle_line,
    'lineage': lineage_line,
}


def line_of(question, text, named):
    """The line whose JSON this is, without or with names of bits."""
    pairs = json.loads(text, object_pairs_hook=kept)
    if not isinstance(pairs, dict):
        raise Wrong('no object')
    members = Members(list(pairs.items()), named)
    line = ' '.join(LINES[question](members))
    members.end()
    return line


def kept(pairs):
    if len({key for key, _ in pairs}) != len(pairs):
        raise Wrong('a member comes twice')
    return dict(pairs)


def compare(question, lines, named, text):
    """Says how the JSON of an answer differs from its lines; None where it does not."""
    objects = text.split('\n')
    if objects.pop() != '':
        return 'the JSON does not end with a line feed'
    if len(objects) != len(lines) or len(lines) != len(named):
        return f'{len(lines)} lines, {len(named)} with names, {len(objects)} objects'
    for line, name, each in zip(lines, named, objects):
        try:
            told = (line_of(question, each, False), line_of(question, each, True))
        except (Wrong, KeyError, ValueError) as wrong:
            return f'{wrong} in {each}'
        if told != (line, name):
            return f'{each} tells {told} in place of {(line, name)}'
    return None


def asked(program, words):
    return subprocess.run([program, 'look', *words], stdout=subprocess.PIPE, check=False).stdout.decode()


def question_in(words):
    """The question among the words behind `look TRACE`."""
    behind = ''
    for word in words:
        if behind not in VALUED and word in LINES:
            return word
        behind = word
    raise Wrong('no question')


def difference(program, trace, words):
    """Asks a question in all three forms, and says how they differ; None where they do not."""
    words = [word for word in words if word != '--names']
    lines, named, text = (asked(program, [trace, *option, *words]) for option in ([], ['--names'], ['--json']))
    return compare(question_in(words), lines.splitlines(), named.splitlines(), text)


def main():
    program, trace, *words = sys.argv[1:]
    told = difference(program, trace, words)
    print(told or 'the JSON tells the lines')
    return 1 if told else 0


if __name__ == '__main__':
    sys.exit(main())
