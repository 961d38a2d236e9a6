"""The program under test, run in a folder of its own, and how what it leaves is compared."""

import os
import resource
import subprocess
from collections import namedtuple
from pathlib import Path

from harness import TESTS, call
from tables import head, item, table

DATA = TESTS / 'data'

# two members, three ticks
TWO_MEMBERS = head(3, seed=7) + table('link', delay=1) + item('group', name='n', count=2)

# a case: what it is called, the function that makes it, and what that takes beside the program
Case = namedtuple('Case', 'name check arguments')


class Wrong(Exception):
    """A case that failed, and in what."""


class Program:
    """The built program, and the folder in which a case runs it."""

    def __init__(self, path, folder):
        self.path, self.folder = path, Path(folder)

    def call(self, words, out=subprocess.PIPE, room=None):
        """Calls the program with these words, and gives its `Ran`. `out` is where its standard output goes;
        with `room` no file that it writes grows past so many bytes, and such a write is an error."""
        words = [self.path, *map(os.fsencode, words)]
        if room is None:
            return call(words, cwd=self.folder, stdout=out)
        return call_with_room(words, room, cwd=self.folder, stdout=out)

    def keep(self, name, text):
        """Makes a file of the folder that holds this text, or these bytes."""
        (self.folder / name).write_bytes(text if isinstance(text, bytes) else text.encode())

    def held(self, name):
        """The bytes of a file of the folder, or None where it isn't there."""
        path = self.folder / name
        return path.read_bytes() if path.exists() else None


def call_with_room(words, room, **how):
    """Calls a program as `call` does. No file that it writes grows past so many bytes, and such a write is an error."""
    resource.setrlimit(resource.RLIMIT_FSIZE, (room, resource.RLIM_INFINITY))
    try:
        # Python ignores the signal of a file that grew too large, and so then does the program
        return call(words, restore_signals=False, **how)
    finally:
        resource.setrlimit(resource.RLIMIT_FSIZE, (resource.RLIM_INFINITY, resource.RLIM_INFINITY))


def expect(what, seen, wanted):
    """Raises `Wrong` where the one isn't the other, with the first line in which they differ."""
    if seen == wanted:
        return
    if not isinstance(seen, bytes) or not isinstance(wanted, bytes):
        raise Wrong(f'{what}: {seen!r} in the place of {wanted!r}')
    lines, wanted_lines = seen.split(b'\n'), wanted.split(b'\n')
    number = next(n for n in range(len(lines) + 1) if lines[n:n + 1] != wanted_lines[n:n + 1])
    raise Wrong(f'{what}, line {number + 1}: {line_at(lines, number)} '
                f'in the place of {line_at(wanted_lines, number)}')


def line_at(lines, number):
    """How a line is told, or that there is none."""
    return repr(lines[number].decode(errors='backslashreplace')) if number < len(lines) else 'nothing'


def expect_ran(ran, status, out, err, what=''):
    """Raises `Wrong` where a call didn't end with this status, this on standard output, and this on standard
    error."""
    expect(f'{what}standard error', ran.err, err)
    expect(f'{what}standard output', ran.out, out)
    expect(f'{what}status', ran.status, status)
