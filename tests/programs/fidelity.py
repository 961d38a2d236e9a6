#!/usr/bin/env python3
"""Compares runs of version 4 with what was measured of memberlist and Serf, and prints a table.

    tests/programs/fidelity.py [--program FILE] [--seeds N] [--only WORD] [TEXT..]

tests/data/fidelity/NAME.toml are the texts; its first line has the moment from which on rows are counted. Of each case
tests/data/fidelity/measured.json has what was measured of the real programs (their mean, its standard error, `of` what) and
what a second program with version 4's rules had. A line of the table has the mean of this program's runs with its standard
error, both others, and `within` or `not within`. A figure is within where it differs from the real one by at most 10 %, or
by at most three standard errors of the difference; or, where the real one is known to differ (`why`), in the same way from the second program's.
The last line is `N passed, M failed`; a figure that isn't within has failed. Seeds are fixed, so the same program prints the
same table. --seeds takes so many seeds in the place of those of a case; with TEXT those cases alone are run. It takes
a minute or two of four processors.
"""

import json
import os
import re
import statistics
import tempfile
from concurrent.futures import ProcessPoolExecutor
from pathlib import Path

import paths  # noqa: F401 (puts the folders of what follows on the path)
from harness import TESTS, call, end, parser_of, program_at

ROOM = TESTS / 'data' / 'fidelity'
# how far means may be apart: as a share of the real one, and in standard errors of the difference
SHARE, ERRORS = 0.10, 3
# what a row is of a trace
MOMENT, MEMBER, WHAT, ABOUT = 0, 1, 4, 5
# the rows that figures count, and those of one that alone needs them, since there are many
COUNTED = ('fail', 'suspect', 'refute', 'confirm', 'health', 'forget', 'reconnect', 'exit')
BESIDES = {'back after, s': ('alive',)}
# from a restart of a rolling restart to the next leave, in ticks
UNTIL_NEXT = 5000


class Run:
    """One run: its text as written, its rows since the moment from which on they count, and its report."""

    def __init__(self, text, trace, report, words):
        self.text, self.report = text, report
        self.since = int(re.search(r'what is counted begins at (\d+)', text)[1])
        self.end = int(re.search(r'^end = (\d+)', text, re.M)[1])
        self.members = int(re.search(r'^members (\d+)', report, re.M)[1])
        self.healths, self.rows = [], []
        for line in re.findall(rf'^.*,(?:{"|".join(words)}),.*$', trace, re.M):
            row = line.split(',')
            row[MOMENT] = int(row[MOMENT])
            if row[WHAT] == 'health':
                self.healths.append(row)
            if row[MOMENT] >= self.since:
                self.rows.append(row)

    def moments_in_text(self, section, key):
        """The values of a key in all items of a list of the text."""
        items = re.findall(rf'^\[\[{section}\]\]\n((?:\w+ = .*\n?)+)', self.text, re.M)
        return [int(re.search(rf'^{key} = (\d+)', item, re.M)[1]) for item in items]

    def members_in_text(self, section):
        """The members that the items of a list of the text are about, one each."""
        return re.findall(rf'^\[\[{section}\]\]\nmember = "(.*)"', self.text, re.M)

    def named(self, section):
        """Which members a list of the text names."""
        return set(re.findall(r'"(n-\d+)"', '\n'.join(re.findall(rf'^\[\[{section}\]\]\n((?:\w+ = .*\n?)+)', self.text, re.M))))

    def count(self, what):
        return sum(row[WHAT] == what for row in self.rows)


def reported(run, pattern):
    """The numbers that lines of the report have, as many as the pattern has groups; None for a `-`."""
    found = (match.groups() for match in re.finditer(pattern, run.report, re.M))
    return [[None if it == '-' else int(it) for it in groups] for groups in found]


def mean_health(run):
    """The mean over members and ticks since the moment from which on rows count."""
    total, last = 0, {}
    for moment, member, *_, value, _ in run.healths:
        before, value_before = last.get(member, (0, 0))
        total += value_before * (moment - max(before, run.since)) if moment > run.since else 0
        last[member] = moment, int(value)
    total += sum(value * (run.end - max(moment, run.since)) for moment, value in last.values())
    return total / run.members / (run.end - run.since)


def deaths(run, blocked):
    """How many deaths are of members that block, or that never do."""
    named = run.named('block')
    return sum(row[WHAT] == 'confirm' and (row[ABOUT] in named) == blocked for row in run.rows)


def whole_after(run):
    """How many seconds after the last cut or restart the cluster was whole; None where it wasn't at the end."""
    (whole,), = reported(run, r'^whole (\S+)$')
    healed = max(run.moments_in_text('cut', 'until') + run.moments_in_text('restart', 'at'))
    return None if whole is None else max(0, whole - healed) / 1000


def since_crash(run, place):
    """How many seconds after the crashes the first, or the last, death was, over all crashes that were detected."""
    found = [line for line in reported(run, r'^crash \S+ (\d+) suspect \S+ confirm (\S+) last (\S+)') if line[1] is not None]
    moments = [line[place] - line[0] for line in found]
    return None if not moments else (min if place == 1 else max)(moments) / 1000


def back_after(run):
    """The median of how many seconds after a restart the last other one declared the member alive; what comes more than
    UNTIL_NEXT later is news of it to others that started again."""
    found = []
    for at, member in zip(run.moments_in_text('restart', 'at'), run.members_in_text('restart')):
        known = [row[MOMENT] for row in run.rows if row[WHAT] == 'alive' and row[ABOUT] == member and at <= row[MOMENT] < at + UNTIL_NEXT]
        found += [known[-1] - at] if known else []
    return statistics.median(found) / 1000 if found else None


def leave_known(run):
    (at, last), = reported(run, r'^leave \S+ (\d+) confirm \S+ last (\S+)')
    return None if last is None else (last - at) / 1000


def leave_ends(run):
    left, = run.moments_in_text('leave', 'at')
    return next(((row[MOMENT] - left) / 1000 for row in run.rows if row[WHAT] == 'exit'), None)


def some_healthy_death_held_by_all(run):
    """1 where all others held one healthy member dead in this run, at some time or other."""
    (_, deaths_of_run, *_), = reported(run, r'^alarms (\d+) deaths (\d+) members (\d+) well (\d+)')
    holders = {}
    for row in run.rows:
        if row[WHAT] == 'confirm':
            holders.setdefault(row[ABOUT], set()).add(row[MEMBER])
    return 100 * int(any(len(by) >= run.members - 1 for by in holders.values())) if deaths_of_run else 0


FIGURES = {
    'failed probes': lambda run: run.count('fail'),
    'suspicions': lambda run: run.count('suspect'),
    'refutations': lambda run: run.count('refute'),
    'deaths': lambda run: run.count('confirm'),
    'deaths of the blocked': lambda run: deaths(run, True),
    'false deaths': lambda run: deaths(run, False),
    'runs with a death that all held, %': some_healthy_death_held_by_all,
    'mean health': mean_health,
    'first death, s': lambda run: since_crash(run, 1),
    'last death, s': lambda run: since_crash(run, 2),
    'whole again after, s': whole_after,
    'back after, s': back_after,
    'forgotten': lambda run: run.count('forget'),
    'reconnects tried': lambda run: run.count('reconnect'),
    'last knows, s': leave_known,
    'process ends, s': leave_ends,
}


def figures_of(program, case, seed):
    """The figures of one run."""
    text = (ROOM / f'{case["text"]}.toml').read_text()
    changed = re.sub(r'^seed = .*', f'seed = {seed}', text, flags=re.M)
    for old, new in case.get('change', []):
        changed = changed.replace(old, new)
    with tempfile.TemporaryDirectory() as folder:
        room = Path(folder)
        (room / 's.toml').write_text(changed)
        ran = call([program, 'run', 's.toml', '--trace', 't.csv', '--report', 'r.txt'], cwd=room)
        if ran.status:
            raise RuntimeError(f'{case["text"]}, seed {seed}: {ran}')
        names = [figure['name'] for figure in case['figures']]
        words = [*COUNTED, *(word for name in names for word in BESIDES.get(name, ()))]
        run = Run(changed, (room / 't.csv').read_text(), (room / 'r.txt').read_text(), words)
    return [FIGURES[name](run) for name in names]


def mean_of(values):
    """The mean of the values that are there and its standard error."""
    there = [value for value in values if value is not None]
    if not there:
        return None, None
    return statistics.mean(there), statistics.stdev(there) / len(there) ** 0.5 if len(there) > 1 else 0


def is_close(mean, error, other):
    """Whether a mean is within the share, or within the errors, of another mean and its error."""
    away = abs(mean - other[0])
    return away <= SHARE * abs(other[0]) or away <= ERRORS * (error ** 2 + other[1] ** 2) ** 0.5


def shown(mean, error):
    return f'{mean:,.4g} ±{error:.2g}' if mean is not None else '-'


def lines_of(case, runs):
    """A line for each figure of a case, and whether it is within."""
    for figure, values in zip(case['figures'], zip(*runs)):
        mean, error = mean_of(values)
        real, second = figure['real'], figure.get('second', figure['real'])
        against = second if 'why' in figure else real
        is_within = mean is not None and is_close(mean, error, against)
        verdict = ('within' if is_within else 'NOT WITHIN') + (f' ({figure["why"]})' if 'why' in figure else '')
        name = case.get('name', case['text'])
        yield is_within, f'{name:22} {figure["name"]:36} {shown(mean, error):>16} {shown(*real):>16} {shown(*second):>16}  {verdict}'


def main():
    parser = parser_of(__doc__)
    parser.add_argument('--seeds', type=int, metavar='N', help='so many seeds of each case')
    parser.add_argument('texts', nargs='*', metavar='TEXT', help='default: all')
    options = parser.parse_args()
    program = program_at(options.program)
    cases = [case for case in json.loads((ROOM / 'measured.json').read_text()) if not options.texts or case['text'] in options.texts]
    passed = failed = 0
    print(f'{"case":22} {"figure":36} {"this program":>16} {"real":>16} {"second program":>16}')
    with ProcessPoolExecutor(os.cpu_count()) as pool:
        runs = [[pool.submit(figures_of, program, case, seed) for seed in range(1, 1 + (options.seeds or case['seeds']))] for case in cases]
        for case, asked in zip(cases, runs):
            for is_within, line in lines_of(case, [run.result() for run in asked]):
                print(line, flush=True)
                passed, failed = passed + is_within, failed + (not is_within)
    end(passed, failed)


if __name__ == '__main__':
    main()
