#!/usr/bin/env python3
"""Ends with one line on standard error where the Rattle kit, whose command is `rt`, is not on the PATH.

usage: tools/kit.py
"""
import shutil
import sys

MISSING = "rt, the command of the Rattle kit, is not on the PATH: see 'The kit' in README.md"


def need():
    """Exits with status 1 and one line where rt is missing."""
    if shutil.which('rt') is None:
        sys.exit(MISSING)


if __name__ == '__main__':
    need()
