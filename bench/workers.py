#!/usr/bin/env python3
"""Measures what workers gain in one run, against bars.

    bench/workers.py [--program FILE] [--workers 2,3,4] [--runs 5] [NAME ...]
    bench/workers.py [--beside N] [--quota SHARE] [--one-processor] [--program FILE] [--runs 5] [NAME ...]

The program is the one that ./swimsim has built, or FILE; nothing is built here. Each line is a scenario, or those of
NAME alone: the least seconds by the clock of so many runs with one worker, with each other number the same and by how
much faster that is, and whether the best of them reaches the scenario's bar. No number of workers may take more than
1.1 times the time of one and 5 ms. All runs of a scenario must leave the same trace and report. The status is 1 where
something is missed. The processors must have nothing else to do.

The second form measures what several workers cost where processors are scarce. Each line is a scenario, of four without
NAME: the least seconds of so many runs with one worker and with four, by turns, and the ratio. It may be 1.2 at most, and
5 ms more. --beside N runs N loops beside them, on whatever processors the kernel gives those. --quota SHARE runs both in a
control group that gets this share of all processors, 0 to 1, as 0.5; where no such group can be made the script
says so and ends with status 0. --one-processor runs both on one processor, with 64 workers for four, beside four loops
unless N says otherwise.
"""

import argparse
import filecmp
import shutil
import sys
import tempfile
from contextlib import nullcontext
from pathlib import Path

from run import BUILT, TOP, busy_cluster, cluster, item, measure, quiet_cluster, table
from surroundings import NoGroup, busy_loops, on_one_processor, quota

EXAMPLES = TOP / 'examples'
SLOWER, MORE = 1.1, 0.005
# the ratio that several workers may have where processors are scarce, and the scenarios of which it is measured
SLOWER_AMONG_OTHERS = 1.2
AMONG_OTHERS = ('quiet-4096', 'quiet-1000', 'busy-1000', 'sites-1000')
LOOPS_BESIDE_ONE_PROCESSOR = 4


def sites(members, end):
    """Four sites: a message takes a tick inside, a hundred from site to site."""
    text = cluster(members // 4, end, version=2) + table('link', delay=100, jitter=1)
    for name in 'xyz':
        text += item('group', name=name, count=members // 4)
    for place, name in enumerate('nxyz'):
        text += item('path', from_=name, to=name, delay=1)
        text += item('crash', member=f'{name}-{place + 1}', at=end // 8 * (place + 1))
    return text


def large(text):
    return text.replace('version = 1', 'version = 2')


def window_a_tick(end):
    """64 members, of whom one pings in each tick."""
    return cluster(64, end, period=64, timeout=16) + table('link', delay=1)


def dealt(members, parts):
    """The division in which as many members follow each other in each part."""
    return ['--division', ','.join(str(member * parts // members) for member in range(members))]


# name: text, words of the division, by how much several workers must be faster
SCENARIOS = {
    'quiet-1000': (quiet_cluster(1000, 300_000), [], 1.3),
    'busy-1000': (busy_cluster(1000, 60_000), [], 1.4),
    'sites-1000': (sites(1000, 300_000), [], 1.5),
    'sites-1000 by site': (sites(1000, 300_000), dealt(1000, 4), 1.5),
    'sites-4096': (sites(4096, 120_000), [], 2.0),
    'sites-4096 by site': (sites(4096, 120_000), dealt(4096, 4), 2.0),
    'quiet-4096': (large(quiet_cluster(4096, 100_000)), [], 1.6),
    'a window a tick': (window_a_tick(20_000), [], 0.0),
    'a window a tick by 64': (window_a_tick(20_000), ['--parts', '64'], 0.0),
}


class Runs:
    """Runs of one scenario, whose trace and report are always the same."""

    def __init__(self, program, scenario, words, folder, enter=None):
        self.enter = enter
        self.command = [program, 'run', scenario, *words, '--trace', folder / 't.new', '--report', folder / 'r.new']
        self.made = folder / 't.new', folder / 'r.new'

    def least(self, workers, runs):
        """The least seconds of so many runs."""
        return min(self.one(workers) for _ in range(runs))

    def one(self, workers):
        # no run frees the space of the files of the one before it
        for path in self.made:
            path.unlink(missing_ok=True)
        seconds = measure([*self.command, '--workers', str(workers)], self.enter)[1]
        for path in self.made:
            kept = path.with_suffix('.kept')
            if not kept.exists():
                path.rename(kept)
            elif not filecmp.cmp(path, kept, shallow=False):
                sys.exit(f'bench: {workers} workers leave other bytes of {self.command[2]}')
        return seconds


def reaches(name, bar, runs, options):
    """Prints the scenario's line; whether all that is asked of it holds."""
    alone = runs.least(1, options.runs)
    several = {workers: runs.least(workers, options.runs) for workers in map(int, options.workers.split(','))}
    best = alone / min(several.values())
    slow = [workers for workers, seconds in several.items() if seconds > alone * SLOWER + MORE]
    line = f'{name:<28} {alone:7.3f}' + ''.join(f'  {w}: {s:6.3f} x{alone / s:4.2f}' for w, s in several.items())
    missed = [f'x{best:.2f} is below the bar of x{bar}'] if best < bar else []
    missed += [f'slower by {workers}' for workers in slow]
    print(line, '; '.join(missed) or 'ok', sep='  ', flush=True)
    return not missed


def is_cheap(name, _, runs, options):
    """Prints the scenario's line where processors are scarce; whether several workers take no longer than they may."""
    several = 64 if options.one_processor else 4
    rounds = [(runs.one(1), runs.one(several)) for _ in range(options.runs)]
    alone, together = map(min, zip(*rounds))
    is_met = together <= alone * SLOWER_AMONG_OTHERS + MORE
    told = 'ok' if is_met else f'above the bar of x{SLOWER_AMONG_OTHERS}'
    print(f'{name:<28} {alone:7.3f}  {several}: {together:6.3f} x{together / alone:4.2f}  {told}', flush=True)
    return is_met


def all_hold(holds, names, texts, program, options, enter=None):
    """Whether of each scenario of these names that holds which is asked of its runs."""
    all_do = True
    for name in names:
        text, words, bar = texts[name]
        with tempfile.TemporaryDirectory() as folder:
            scenario = Path(folder) / 'scenario.toml'
            scenario.write_text(text)
            all_do &= holds(name, bar, Runs(program, scenario, words, Path(folder), enter), options)
    return all_do


def are_cheap(texts, program, options):
    """Whether several workers take no longer than they may beside what the options say, or can't be tried so."""
    loops = options.beside
    if loops is None:
        loops = LOOPS_BESIDE_ONE_PROCESSOR if options.one_processor else 0
    group = nullcontext() if options.quota is None else quota(options.quota)
    try:
        with group as enter_group, busy_loops(loops):
            steps = [enter_group] * bool(enter_group) + [on_one_processor] * options.one_processor
            return all_hold(is_cheap, options.names or AMONG_OTHERS, texts, program, options, lambda: [step() for step in steps])
    except NoGroup as why:
        print(f'skipped: {why}')
        return True


def parsed():
    """The words of the command."""
    parser = argparse.ArgumentParser(description=__doc__, formatter_class=argparse.RawDescriptionHelpFormatter)
    parser.add_argument('--program', type=Path, default=BUILT)
    parser.add_argument('--workers', default='2,3,4')
    parser.add_argument('--runs', type=int, default=5)
    parser.add_argument('--beside', type=int, metavar='N')
    parser.add_argument('--quota', type=float, metavar='SHARE')
    parser.add_argument('--one-processor', action='store_true')
    parser.add_argument('names', nargs='*')
    options = parser.parse_args()
    if options.quota is not None and not 0 < options.quota <= 1:
        parser.error('SHARE is above 0, and 1 at most')
    return options


def main():
    options = parsed()
    program = shutil.which(options.program)
    if program is None:
        sys.exit(f'bench: {options.program} is not there; ./swimsim --help builds it')
    texts = dict(SCENARIOS)
    for example in sorted(EXAMPLES.glob('*.toml')):
        texts[example.name] = example.read_text(), [], 0.0
    texts['cluster.toml by 64 parts'] = (EXAMPLES / 'cluster.toml').read_text(), ['--parts', '64'], 0.0
    if options.beside is None and options.quota is None and not options.one_processor:
        sys.exit(not all_hold(reaches, options.names or texts, texts, program, options))
    sys.exit(not are_cheap(texts, program, options))


if __name__ == '__main__':
    main()
