#!/usr/bin/env python3
"""Sees that `swimsim explain` tells of accepted scenarios what was worked out for them apart from it.

    tests/programs/explain_accepted.py [--program FILE]

For each NAME.txt of tests/data/explain/accepted/ the scenario is NAME.toml beside it, or that of examples/. The lines must be those
of NAME.txt and the JSON value that of NAME.json, both with status 0 and nothing on standard error. Then comes a text of
4,096 members and 10,000 entries, which must be told of in time; and quiet runs, whose trace must have as many rows as
was told, or about as many where chance decides when periods begin. The last line is `N passed, M failed`, and the status
is 1 where one failed. tests/data/explain_expected.py writes these files.
"""

import json
import os
import random
import tempfile
import time
from pathlib import Path

import paths  # noqa: F401 (puts the folders of what follows on the path)
from harness import TESTS, TOP, call, judge_cases, parser_of, program_at

ROOM = TESTS / 'data' / 'explain' / 'accepted'
LINES = ('explain',)
JSON = ('explain', '--json')
SECONDS = 10  # it takes less than one on a machine that does nothing else


def scenario_of(name):
    """The file of a scenario by its name: the one that is made for this test, else an example."""
    own = ROOM / f'{name}.toml'
    return own if own.exists() else TOP / 'examples' / f'{name}.toml'


def told(program, words, scenario):
    """What the program writes of a scenario, called within its folder; None where it refuses or complains."""
    ran = call([program, *words, scenario.name], cwd=scenario.parent, text=True)
    return ran.out if ran.status == 0 and not ran.err else None


def value_of(text):
    """The JSON value of a text, None where it is none."""
    try:
        return json.loads(text or '')
    except ValueError:
        return None


def failures(program, name):
    """What isn't told of a scenario as it was worked out: `lines`, `JSON`, both or nothing."""
    scenario = scenario_of(name)
    if told(program, LINES, scenario) != (ROOM / f'{name}.txt').read_text():
        yield 'lines'
    if value_of(told(program, JSON, scenario)) != json.loads((ROOM / f'{name}.json').read_text()):
        yield 'JSON'


def entries(count, text):
    """So many items of a list, each by its number."""
    return ''.join(text(number) for number in range(count))


def large():
    """A text of 64 groups of 64 members each and of 10,000 entries, a few thousand of each kind."""
    return (
        'version = 2\nseed = 7\nend = 5000\nswim = { period = 1000, timeout = 300 }\nlink = { delay = 10 }\n'
        + entries(64, lambda i: f'[[group]]\nname = "g{i}"\ncount = 64\n')
        + entries(3000, lambda i: f'[[path]]\nfrom = "g{i % 64}"\nto = "g{i // 64 % 64}"\ndelay = {10 + i % 7}\n')
        + entries(3000, lambda i: f'[[slow]]\nmember = "g{i % 64}-{i % 64}"\nfrom = {i // 64 * 100}\n'
                                  f'until = {i // 64 * 100 + 100}\nextra = 1000\n')
        + entries(2000, lambda i: f'[[crash]]\nmember = "g{i // 64}-{i % 64}"\nat = {i + 4000}\n')
        + entries(1000, lambda i: f'[[leave]]\nmember = "g{(i + 2000) // 64}-{(i + 2000) % 64}"\nat = {i + 4500}\n')
        + entries(1000, lambda i: f'[[cut]]\nfrom = "g{i % 64}"\nto = "g{i // 64 % 64}"\n'
                                  f'at = {i}\nuntil = {i + 10000}\n')
    )


def delay(program):
    """What is wrong with how a large text is told of; empty where nothing is."""
    with tempfile.TemporaryDirectory() as room:
        scenario = Path(room) / 'large.toml'
        scenario.write_text(large())
        began = time.monotonic()
        lines = (told(program, LINES, scenario) or '').splitlines()
        seconds = time.monotonic() - began
    if not lines or not lines[-1].startswith('warnings '):
        return 'nothing is told'
    return f'{seconds:.1f} seconds' if seconds > SECONDS else ''


def quiet(draw, spread, push):
    """A text in which nothing happens: of one group or two, and of a third that starts after the end."""
    period = draw.choice((100, 1000))
    end = draw.randrange(1, 40 * period)
    return (
        f'version = {3 if push else draw.choice((1, 2, 3))}\nseed = {draw.randrange(1000)}\nend = {end}\n'
        f'swim = {{ period = {period}, timeout = {period // 3}, spread = {spread} }}\n'
        f'link = {{ delay = {draw.randrange(1, period // 7)} }}\n'
        + (f'gossip = {{ interval = {period // 5}, push = {push} }}\n' if push else '')
        + f'[[group]]\nname = "a"\ncount = {draw.choice((2, 5, 40))}\n'
        + draw.choice(('', '[[group]]\nname = "b"\ncount = 3\n'))
        + draw.choice(('', f'[[group]]\nname = "c"\ncount = 3\nstart = {end + 1}\ncontact = "a-0"\n'))
    )


def rows_differ(program, text, times):
    """What is wrong with the rows that are told of a quiet text, which may differ by so many times its members; empty
    where nothing is."""
    with tempfile.TemporaryDirectory() as room:
        scenario, report = Path(room) / 'quiet.toml', Path(room) / 'report'
        scenario.write_text(text)
        figures = value_of(told(program, JSON, scenario))['figures']
        call([program, 'run', scenario.name, '--trace', os.devnull, '--report', report.name], cwd=room)
        rows = next(int(line.split()[1]) for line in report.read_text().splitlines() if line.startswith('rows '))
    wanted, members = figures['quiet']['rows'], figures['cluster']['members']
    return f'{wanted} rows are told, {rows} made: {text!r}' if abs(rows - wanted) > times * members else ''


def quiet_runs(program):
    """For quiet runs their names, and what is wrong with the rows that are told of them."""
    draw = random.Random(1)
    for number in range(20):
        yield f'quiet run {number}', rows_differ(program, quiet(draw, 1, 0), 0)
    for number in range(20):
        text = quiet(draw, draw.choice((2, 50, 100)), draw.choice((0, 300, 2000)))
        # each member may ping and push once more or once less, which is answered
        yield f'quiet run {number} by chance', rows_differ(program, text, 4)


def cases(program):
    """All cases: their names, and what is wrong."""
    for name in sorted(file.stem for file in ROOM.glob('*.txt')):
        wrong = list(failures(program, name))
        yield name, f'{" and ".join(wrong)} differ' if wrong else ''
    yield 'large', delay(program)
    yield from quiet_runs(program)


def main():
    judge_cases(cases(program_at(parser_of(__doc__).parse_args().program)))


if __name__ == '__main__':
    main()
