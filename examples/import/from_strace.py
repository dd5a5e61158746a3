#!/usr/bin/env python3
"""Turns a log as strace writes one, a file or standard input, into one for zxtt-import: a JSON object for each line of the form

    TIME PROCESS CALL(ARGUMENT, ..) = STATUS VALUE ..

Arguments and values are numbers, "texts", and lists of handles in brackets. Of the values a list is the handles that the caller
got, a text the bytes that it read, and a number the process that it made. Lines of another form are left out."""
import fileinput
import json
import re

LINE = re.compile(r'(\S+) +(\d+) +(\w+)\((.*)\) = (\w+) ?(.*)')
WORD = re.compile(r'"[^"]*"|\[[^]]*\]|[^\s,]+')
FIELDS = {  # the arguments of each call, in the order in which they stand in the log
    'handle_close': 'handle', 'handle_duplicate': 'handle rights', 'handle_replace': 'handle rights',
    'object_signal': 'handle clear set', 'object_signal_peer': 'handle clear set',
    'object_wait_async': 'handle port key signals', 'channel_write': 'handle bytes handles',
    'channel_read': 'handle bytes handles', 'port_wait': 'port', 'port_cancel': 'port source key', 'job_create': 'job',
    'spawn': 'job argument', 'job_set_critical': 'job handle', 'task_kill': 'handle', 'process_exit': 'code',
}


def value(word):
    if word.startswith('['):
        return [value(handle) for handle in WORD.findall(word[1:-1])]
    return word[1:-1].encode().hex() if word.startswith('"') else int(word, 0)


for time, process, call, arguments, status, values in (found.groups() for found in map(LINE.match, fileinput.input()) if found):
    fields = FIELDS.get(call.removeprefix('zx_'), '').split()
    names = {list: 'handles', str: 'bytes', int: 'process'}
    out = {names[type(it)]: it for it in map(value, WORD.findall(values))}
    args = dict(zip(fields, map(value, WORD.findall(arguments))))
    print(json.dumps({'time': time, 'process': int(process), 'call': call, 'args': args, 'status': status, 'out': out}))
