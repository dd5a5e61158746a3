"""The table of the calls, crates/zt_text/calls.txt, for the tools that need their fields."""
import re
import typing

from trials import TOP


class Form(typing.NamedTuple):
    """The fields behind the name of a call, which of them may be left out, and what is answered behind `ok`."""

    fields: tuple
    spared: frozenset
    answers: tuple


def form_of(fields, answers):
    """The form of a call whose fields and answers the table writes so."""
    words = fields.split()
    spared = frozenset(word[1:-1] for word in words if word.startswith('['))
    return Form(tuple(word.strip('[]') for word in words), spared, tuple(answers.split()))


def read_forms():
    """The form of each call, in the order of the table."""
    found = {}
    with open(f'{TOP}/crates/zt_text/calls.txt', encoding='utf-8') as table:
        for line in table:
            told = re.fullmatch(r'([a-z_]+)((?: \[?[a-z_]+\]?)*)(?: -> (.*))?\n', line)
            if told:
                found[told[1]] = form_of(told[2], told[3] or '')
            elif not line.startswith('#'):
                raise ValueError(f'crates/zt_text/calls.txt: {line!r} is no call')
    return found


FORMS = read_forms()
