#!/usr/bin/env python3
"""Measures sweeps: what a run of a sweep costs beside the same run made alone, and what more workers gain.

    bench/sweeps.py [--program FILE] [--beside PROGRAM] [--seeds N] [--rounds N] [SCENARIO..]

The program is the one that ./swimsim has built, or FILE; PROGRAM is one that takes `run SCENARIO --trace T --report R` as
this one does, and is this one without the option. Of each scenario (three of examples/ without them) N seeds are run (32),
by rounds (5), of which the least time counts: once by a sweep with one worker, once one by one by PROGRAM with the trace
into /dev/null, both in seconds of processors, and by sweeps with one and with four workers by the clock. A line for each
scenario; the status is 1 where a sweep's run costs more than PROGRAM's, or four workers take more than 0.30 of the time of
one. Other work on the machine spoils it.
"""

import argparse
import os
import re
import subprocess
import sys
import tempfile
import time
from pathlib import Path

from run import BUILT, TOP

EXAMPLES = ('crash.toml', 'slow-member.toml', 'lossy-lan.toml')
WORKERS = 4
LEAST_GAIN = 0.30


def seconds(command):
    """How long a command takes: of processors, and by the clock."""
    before, start = os.times(), time.monotonic()
    subprocess.run(command, check=True, stdout=subprocess.DEVNULL)
    after = os.times()
    used = after.children_user + after.children_system - before.children_user - before.children_system
    return used, time.monotonic() - start


def sweep(program, scenario, seeds, workers, table):
    return [program, 'sweep', scenario, '--table', table, '--seeds', f'1..{seeds}', '--workers', str(workers)]


def one_by_one(program, texts):
    """Runs each of these scenarios, and answers the seconds of processors that all take."""
    return sum(seconds([program, 'run', text, '--trace', '/dev/null', '--report', '/dev/null'])[0] for text in texts)


def with_seeds(scenario, seeds, folder):
    """The scenario's text with each of the seeds, in files of their own."""
    text = Path(scenario).read_text()
    for seed in range(1, seeds + 1):
        path = folder / f'{seed}.toml'
        path.write_text(re.sub(r'^seed = \d+', f'seed = {seed}', text, count=1, flags=re.M))
        yield str(path)


def measured(asked, scenario, folder):
    """The least seconds of a sweep and of single runs, and of one worker and of several by the clock."""
    texts, table = list(with_seeds(scenario, asked.seeds, folder)), str(folder / 'table.csv')
    rounds = []
    for _ in range(asked.rounds):
        used, alone = seconds(sweep(asked.program, scenario, asked.seeds, 1, table))
        _, together = seconds(sweep(asked.program, scenario, asked.seeds, WORKERS, table))
        rounds.append((used, one_by_one(asked.beside, texts), alone, together))
    return [min(column) for column in zip(*rounds)]


def main():
    parser = argparse.ArgumentParser(description=__doc__, formatter_class=argparse.RawDescriptionHelpFormatter)
    parser.add_argument('--program', default=str(BUILT))
    parser.add_argument('--beside')
    parser.add_argument('--seeds', type=int, default=32)
    parser.add_argument('--rounds', type=int, default=5)
    parser.add_argument('scenarios', nargs='*', metavar='SCENARIO')
    asked = parser.parse_args()
    asked.beside = asked.beside or asked.program
    is_met = True
    print(f'scenario, {asked.seeds} seeds | sweep | run by run | share | 1 worker | {WORKERS} workers | share')
    for scenario in asked.scenarios or [str(TOP / 'examples' / name) for name in EXAMPLES]:
        with tempfile.TemporaryDirectory() as folder:
            swept, single, alone, together = measured(asked, scenario, Path(folder))
        cost, gain = swept / max(single, 0.001), together / alone
        is_met = is_met and cost <= 1 and gain <= LEAST_GAIN
        print(f'{Path(scenario).name} | {swept:.3f} | {single:.3f} | {cost:.2f} | {alone:.3f} | {together:.3f} | {gain:.2f}')
    sys.exit(0 if is_met else 1)


if __name__ == '__main__':
    main()
