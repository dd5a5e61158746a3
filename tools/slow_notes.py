"""What `zxtt look --notes` has to say, found by a slow way: the comments of a session text are read line by line, and are put into the
lines that slow_look.py gives, by docs/FORMATS.md alone. Text that is not UTF-8 is kept byte by byte."""
import random
import re

from trials import TOP, Trouble

COUNT = r'(0|[1-9]\d*)'
KOIDS = 1 << 64
HANDLES = 1 << 32
MOST_NAME = 64  # bytes of a name
HAPPENINGS = ('made', 'ended', 'peer_closed', 'leaked')
HANDLE_FIELDS = ('handle', 'port', 'channel', 'source', 'job', 'argument', 'process', 'task', 'handles')


def decoded(content):
    return content.decode('utf-8', 'surrogateescape')


def encoded(text):
    return text.encode('utf-8', 'surrogateescape')


def call_fields():
    """Of each call the fields behind its name, and those of its answer."""
    found = {}
    with open(f'{TOP}/crates/zt_text/calls.txt', encoding='ascii') as file:
        for line in file:
            if line.strip() and not line.startswith('#'):
                name, *fields = line.strip().replace('[', '').replace(']', '').split(' ')
                at = fields.index('->') if '->' in fields else len(fields)
                found[name] = fields[:at], fields[at + 1:]
    return found


FIELDS = call_fields()


def is_name(text):
    """Whether the rest of a name line is a name: 1 to 64 bytes of UTF-8 without control characters."""
    try:
        size = len(text.encode())
    except UnicodeEncodeError:  # bytes that are no UTF-8
        return False
    return 1 <= size <= MOST_NAME and not any(ord(each) < 32 or 127 <= ord(each) < 160 for each in text)


class Notes:
    """The notes and names of a session text."""

    def __init__(self, content):
        self.notes, self.rest, self.name_lines, self.koids, self.handles = [[]], [], [], {}, {}
        ahead = []
        for line in decoded(content).split('\n')[1:]:
            if line.startswith('#'):
                if self.takes_name(line):
                    self.name_lines.append(line)
                else:
                    ahead.append(line)
            elif re.match('branch |cursor ', line):
                self.rest += ahead
                ahead = []
            elif line:
                self.notes.append(ahead)
                ahead = []
        self.rest += ahead

    def takes_name(self, line):
        """Takes a name from its line; whether the line is one."""
        koid = re.fullmatch(f'# name {COUNT} (.*)', line, re.DOTALL)
        if koid and int(koid[1]) < KOIDS and is_name(koid[2]):
            self.koids[int(koid[1])] = koid[2]
            return True
        handle = re.fullmatch(f'# handle {COUNT} {COUNT} (.*)', line, re.DOTALL)
        if handle and int(handle[1]) < KOIDS and int(handle[2]) < HANDLES and is_name(handle[3]):
            self.handles[int(handle[1]), int(handle[2])] = handle[3]
            return True
        return False

    def note(self, moment):
        return self.notes[moment] if moment < len(self.notes) else []

    # The fields of a line.

    def koid(self, word):
        return self.with_name(word, self.koids.get(int(word)))

    def handle(self, process, word):
        return self.with_name(word, self.handles.get((int(process), int(word))))

    def handle_list(self, process, word):
        return word if word == '-' else ','.join(self.handle(process, each) for each in word.split(','))

    def with_name(self, word, name):
        return word if name is None else f'{word} ({name})'

    def held(self, word):
        """The handles of a message, each with its rights."""
        if word == '-':
            return word
        pairs = [each.split(':') for each in word.split(',')]
        return ','.join(self.with_name(f'{koid}:{rights}', self.koids.get(int(koid))) for koid, rights in pairs)

    def values(self, process, fields, words):
        """Words that are these fields of a call of the process, or of its answer."""
        found = []
        for at, word in enumerate(words):
            field = fields[at] if at < len(fields) else ''
            if field == 'koid':
                word = self.koid(word)
            elif field in HANDLE_FIELDS:
                word = self.handle_list(process, word)
            found.append(word)
        return found

    def call(self, words):
        """A call with its process."""
        process, name, *asked = words
        return ' '.join([self.koid(process), name, *self.values(process, FIELDS[name][0], asked)])

    def reply(self, process, name, words):
        if words[0] != 'ok':
            return ' '.join(words)
        return ' '.join(['ok', *self.values(process, FIELDS[name][1], words[1:])])

    def place(self, words):
        """The words of a place, and those behind it."""
        if words[0] == 'entry':
            return ['entry', self.koid(words[1]), self.handle(words[1], words[2])], words[3:]
        return ['message', self.koid(words[1]), *words[2:4]], words[4:]

    def row(self, line):
        kind, *words = line.split(' ')
        if kind == 'object':
            words[0] = self.koid(words[0])
            if len(words) > 3:
                words[3] = self.koid(words[3])
            if words[-1].startswith('critical:'):
                words[-1] = f"critical:{self.koid(words[-1].split(':')[1])}"
        elif kind == 'entry':
            words[1], words[0], words[2] = self.handle(words[0], words[1]), self.koid(words[0]), self.koid(words[2])
        elif kind == 'msg':
            words[0], words[3] = self.koid(words[0]), self.held(words[3])
        elif kind == 'packet':
            words[0] = self.koid(words[0])
            if words[2] == 'signal':
                words[7], words[6] = self.handle(words[6], words[7]), self.koid(words[6])
        elif kind == 'wait':
            words[2], words[1], words[3] = self.handle(words[1], words[2]), self.koid(words[1]), self.koid(words[3])
        return ' '.join([kind, *words])

    # The lines of the answers: each gives the line with names, and the moment whose call it shows, or None.

    def line_of_calls(self, line):
        shown, _, reply = line.partition(' => ')
        moment, *call = shown.split(' ')
        return f'{moment} {self.call(call)} => {self.reply(call[0], call[1], reply.split(" "))}', moment

    def line_of_changed(self, line):
        return f'{line[:2]}{self.row(line[2:])}', None

    def line_of_events(self, line):
        moment, what, koid, kind, *call = line.split(' ')
        return f'{moment} {what} {self.koid(koid)} {kind} {self.call(call)}', moment

    def line_of_object(self, line):
        words = line.split(' ')
        if words[0] in HAPPENINGS:
            return (line, None) if words[1] == 'never' else (f'{words[0]} {words[1]} {self.call(words[2:])}', words[1])
        if words[0] in ('holders', 'child'):
            return ' '.join([words[0], self.koid(words[1]), *words[2:]]), None
        if words[0] == 'message' or words[0] == 'entry' and len(words) == 3:
            return ' '.join(self.place(words)[0]), None
        return (line if line == 'self' else self.row(line)), None

    def line_of_handles(self, line):
        value, koid, *words = line.split(' ')
        return ' '.join([self.handle(self.process, value), self.koid(koid), *words]), None

    def line_of_messages(self, line):
        number, what, *words = line.split(' ')
        if what == 'message':
            return f'{number} {what} {words[0]} {self.held(words[1])}', None
        return (f'{number} {what} {words[0]} {self.call(words[1:])}', words[0]) if words else (line, None)

    def line_of_branches(self, line):
        return line, None

    def line_of_summary(self, line):
        what, koid, *words = line.split(' ')
        return ' '.join([what, self.koid(koid), *words]), None

    def line_of_alive(self, line):
        koid, kind, count, moment, *call = line.split(' ')
        return f'{self.koid(koid)} {kind} {count} {moment} {self.call(call)}', moment

    def line_of_handle(self, line):
        if line == 'gone':
            return line, None
        moment, *words = line.split(' ')
        start = [moment] if moment == 'held' else [moment, words.pop(0)]
        place, words = self.place(words)
        shown = [*start, *place, words.pop(0)]
        if words[:1] == ['from']:
            place, words = self.place(words[1:])
            shown += ['from', *place, words.pop(0)]
        return ' '.join([*shown, self.call(words)] if words else shown), moment if words else None

    def line_of_lineage(self, line):
        words = line.lstrip(' ').split(' ')
        ahead = len(line) - len(line.lstrip(' '))
        place, rest = self.place(words[2:])
        shown = [*words[:2], *place, rest.pop(0)]
        if rest[0] == 'from':
            place, rest = self.place(rest[1:])
            shown += ['from', *place]
        return ' ' * ahead + ' '.join([*shown, *rest]), None

    def shown(self, question, lines, process=None):
        """The lines of an answer with notes and names; the process is that of the question `handles`."""
        self.process = process
        found = []
        for line in lines:
            told, moment = getattr(self, f'line_of_{question}')(line)
            if moment is not None:
                found += self.note(int(moment))
            found.append(told)
        return found

    def has(self, line, text, noted):
        """Whether a line of `calls` has the text, or its note, or, if notes are shown, the line with names."""
        moment = int(line.split(' ')[0])
        ahead = ''.join(f'{each}\n' for each in self.note(moment))
        shown = ''.join(f'{each}\n' for each in self.shown('calls', [line])) if noted else ''
        return any(text in each for each in (f'{line}\n', ahead, shown))


def asked_with(notes, words, lines):
    """The lines of a question, told by its words, with notes and names."""
    at = next(at for at, word in enumerate(words) if word in {name[8:] for name in dir(Notes) if name.startswith('line_of_')}
              and words[at - 1:at] != ['--branch'])
    return notes.shown(words[at], lines, words[at + 1] if words[at] == 'handles' else None)


def without_names(lines):
    """The lines without notes, and without the names of `put_notes`."""
    return [re.sub(r' \([^()]*\)', '', line) for line in lines if not line.startswith('#')]


# Notes and names for a random trace.

SOME = ['echo_server', '0x7c3e91a3', 'a b', 'größer', '名前', '#', 'line 7: process 31822', 'x' * MOST_NAME, '7', 'ok', '-']
MALFORMED = [
    '#name 1025 a', '# name 01025 a', '# name 1025', '# name 1025 ', '# name +1 a', '# name 18446744073709551616 a', '# name x a',
    f"# name 1025 {'x' * (MOST_NAME + 1)}", '# name 1025 a\tb', '# name 1025 a\x7f', '# name 1025 a\x85', '# name 1025 a\udcff',
    '# name 1025 a\r', '# name  1025 a', '# names 1025 a', '# handle 1025 a', '# handle 1025 07 a', '# handle 1025 4294967296 a',
    '# handle 1025 7 ', '# handle 1025 7', '#', '# ', '# call 0 1025 event_create', '#zxtt 2', '# branch main 4',
]


def put_notes(path, seed):
    """Puts comments, name lines and empty lines between the lines of a trace."""
    any_ = random.Random(f'notes {seed}')
    with open(path, 'rb') as file:
        first, *lines = decoded(file.read()).split('\n')[:-1]
    found = [first]
    for line in [*lines, None]:
        found += [comment(any_, len(lines)) for _ in range(any_.choice([0, 0, 0, 1, 1, 2, 5]))]
        found += [line] if line is not None else []
    with open(path, 'wb') as file:
        file.write(encoded('\n'.join(found)) + (b'\n' if any_.random() < 0.8 or found[-1] == '' else b''))


def comment(any_, length):
    """A comment, a name line, a malformed name line, or an empty line."""
    chance, text = any_.random(), any_.choice(SOME)
    if chance < 0.35:
        return f"# {text}{any_.choice(['', '', ' of moment'])}{any_.choice(['', any_.randrange(length + 1)])}"
    if chance < 0.55:
        return f'# name {any_.choice([1024, 1025, any_.randrange(1026, 1030 + length), KOIDS - 1])} {text}'
    if chance < 0.8:
        process = any_.choice([1025, 1025, any_.randrange(1026, 1030 + length)])
        return f'# handle {process} {any_.choice([4 * any_.randrange(1 + length) + 3, HANDLES - 1])} {text}'
    return any_.choice([*MALFORMED, '', ''])
