#!/usr/bin/env python3
"""Asks the program to explain texts that it refuses, and compares what it prints with what is wanted.

    tests/programs/explain_refused.py [--program FILE] [--large]

The program is the one that ./swimsim has built, or FILE; nothing of it is built here. Each NAME.toml in
tests/data/explain/refused has one text, and NAME.txt what `explain NAME.toml` prints of it, word for word. Then
come 2,000 texts that are broken at random (explain_places.py): what is told of each has its place in the text,
on what the message names, and its least rule is that of `check`. Then come texts that nobody should write: each
has to be answered in words, in time and without a crash. With --large they are 100 MB. The last line is
`N passed, M failed`.
"""

import difflib
import json
import tempfile
import threading
import time
import zlib
from pathlib import Path

import paths  # noqa: F401 (puts the folders of what follows on the path)
import explain_places
from harness import TESTS, call, judge_cases, parser_of, program_at

REFUSED = TESTS / 'data' / 'explain' / 'refused'
HEAD = b'version = 1\nseed = 7\nend = 5000\nswim = { period = 1000, timeout = 300 }\nlink = { delay = 10 }\n'
GROUP = b'[[group]]\nname = "n"\ncount = 2\n'


class Explained:
    """What the program printed of a text."""

    def __init__(self, program, folder, *words):
        began = time.monotonic()
        self.status, self.output, self.error = call([program, *words], cwd=folder)
        self.seconds = time.monotonic() - began

    def document(self):
        """What was printed, as JSON."""
        return json.loads(self.output)


def ended_wrong(told):
    """What is wrong with how the explanation of a refused text ended; empty where nothing is."""
    rules = [int(line[11:line.index(b']')]) for line in told.output.splitlines() if line.startswith(b'error[rule ')]
    if told.status == 3 and rules and told.error == b'swimsim: scenario rule %d\n' % min(rules):
        return ''
    return f'status {told.status} with {told.error!r}'


def golden(program):
    """For each text with a file of what is wanted: its name, and how what is printed differs from that."""
    for wanted in sorted(REFUSED.glob('*.txt')):
        told = Explained(program, REFUSED, 'explain', wanted.with_suffix('.toml').name)
        lines = wanted.read_bytes().decode().splitlines()
        seen = told.output.decode(errors='replace').splitlines()
        differs = '\n'.join(difflib.unified_diff(lines, seen, 'wanted', 'printed', lineterm=''))
        yield wanted.stem, differs or ended_wrong(told)


def documents(program):
    """For each text: its name, and what is wrong with its explanation as JSON."""
    for text in sorted(REFUSED.glob('*.toml')):
        told = Explained(program, REFUSED, 'explain', text.name, '--json')
        wanted = text.with_suffix('.txt').read_bytes().decode()
        heads = [line for line in wanted.splitlines() if line.startswith('error[rule ')]
        try:
            document = told.document()
            seen = [f'error[rule {it["rule"]}]: {it["message"]}' for it in document['mistakes']]
            is_well = seen == heads and document['accepted'] is False and document['file'] == text.name
            yield f'{text.stem} as JSON', '' if is_well else f'{seen} in place of {heads}'
        except (ValueError, KeyError) as fault:
            yield f'{text.stem} as JSON', repr(fault)


def hostile(size):
    """Texts that nobody should write: name, bytes, a piece of what is told, and the most seconds."""
    crashes = b''.join(b'[[crash]]\nmember = "n-%d"\nat = 0\n' % i for i in range(10000))
    large = HEAD.replace(b'version = 1', b'version = 2') + b'[[group]]\nname = "n"\ncount = 4096\n'
    yield 'nested lists', b'a = ' + b'[' * 100000, b'error[rule 1]', 20
    yield 'nested tables', b'a = ' + b'{a = ' * 100000, b'error[rule 1]', 20
    yield 'a dotted key', b'a' + b'.a' * 100000 + b' = 1\n', b'error[rule 1]', 20
    million = b'y' * 1000000
    yield 'a long value', HEAD + b'x = "' + million + b'"\n' + GROUP, b'unknown key `x`', 20
    yield 'a long key', HEAD + million + b' = 1\n' + GROUP, b'unknown key `yyyy', 20
    escaped = b'"\\u001b[31m\\n" = 1\n'
    yield 'control characters', HEAD + escaped + GROUP, b'unknown key `\\u{1b}[31m\\n`', 20
    unseen = b'"\\u202eab\\u200b\xef\xbb\xbf" = 1\n'
    yield 'unseen characters', HEAD + unseen + GROUP, b'unknown key `\\u{202e}ab\\u{200b}\\u{feff}`', 20
    length = b'end = "' + b'9' * 100000 + b'h"\n'
    yield 'a great length of time', HEAD.replace(b'end = 5000\n', length) + GROUP, b'a whole number of ticks', 20
    share = b'[[path]]\nfrom = "n"\nto = "n"\nloss = 0.' + b'0' * 100000 + b'1\n'
    yield 'a small share', HEAD + GROUP + share, b'lost messages in a million: 5 %', 20
    lengths = b'end = "' + b'1s' * 100000 + b'"\n'
    yield 'many parts of a length', HEAD.replace(b'end = 5000\n', lengths) + GROUP, b'a whole number of ticks', 20
    yield 'YAML', b'seed: 1\n' * 100000, b'the text is YAML', 20
    yield 'JSON', b' \n' * 100000 + b'[ {"seed": 1}]', b'the text is JSON', 20
    yield 'no UTF-8 at all', b'\xff\xfe\x00a', b'the byte 0xff', 20
    yield 'a byte 0', b'a = "\x00"\n', b'error[rule 1]', 20
    yield 'an empty text', b'', b'1 error\n', 20
    yield 'no last line feed', b'version', b'error[rule 1]', 20
    yield '10,000 entries of 4,096 members', large + crashes, b'10000 errors, 9950 of them not shown', 10
    keys = b''.join(b'k%d = 1\n' % i for i in range(100000))
    yield '100,000 unknown keys', HEAD + keys + GROUP, b'100000 errors', 20
    yield 'a great comment', b'#' + b'x' * size + b'\n', b'1 error\n', 300
    yield 'great nonsense', b'\x7f' * size, b'error[rule 1]', 300
    yield 'a great list', HEAD + b'x = [' + b'1,' * (size // 2) + b']\n' + GROUP, b'unknown list `x`', 300


def fault_of(program, folder, text, piece, most):
    """What is wrong with the explanation of a text; empty where nothing is."""
    (folder / 't.toml').write_bytes(text)
    told = Explained(program, folder, 'explain', 't.toml')
    if ended_wrong(told):
        return ended_wrong(told)
    if piece not in told.output:
        return f'no {piece!r} in {told.output[-300:]!r}'
    if max(map(len, told.output.splitlines())) > 2000:
        return 'a line too long to read'
    if any(byte < 32 and byte != 10 or byte == 127 for byte in told.output):
        return 'a control character'
    return f'{told.seconds:.1f} seconds' if told.seconds > most else ''


def caller(program, folder):
    """What runs the program with words on a text, which stands in a file of its own."""
    def call(content, *words):
        name = f'{zlib.crc32(content)}-{threading.get_ident()}.toml'
        (folder / name).write_bytes(content)
        return Explained(program, folder, *words, name)
    return call


def cases(program, folder, size):
    """All cases: their names, and what is wrong."""
    yield from golden(program)
    yield from documents(program)
    yield from explain_places.cases(caller(program, folder), 2000)
    for name, text, piece, most in hostile(size):
        yield name, fault_of(program, folder, text, piece, most)


def main():
    parser = parser_of(__doc__)
    parser.add_argument('--large', action='store_true', help='great texts have 100 MB')
    options = parser.parse_args()
    size = 100_000_000 if options.large else 1_000_000
    with tempfile.TemporaryDirectory() as room:
        judge_cases(cases(program_at(options.program), Path(room), size))


if __name__ == '__main__':
    main()
