#!/usr/bin/env python3
"""Counts the threads that the program starts, and sees what runs and sweeps by several of them take and leave.

    tests/programs/threads.py [--program FILE]

The program is the one that ./swimsim has built, or FILE. It sees a machine of as many processors as a case says,
whatever else this one does (stand_in.py), so that a run by several workers starts several threads. The cases:

- one worker starts no thread, neither for a run nor for a sweep;
- a run of four sites by four workers starts more than two threads, of which each simulates, and a sweep too;
- all threads simulate where a round is likely to have 400 messages; where it isn't, all but the one that writes;
- a run of members that are near each other starts one thread beside the one that writes, a small run none;
- each of four long runs of a sweep is made by a thread of its own;
- no more threads start than there are processors, or of two both and the one that writes; none where at most half are free;
- all rows of a long run never wait in memory at once, by one worker and by several;
- where a file takes no more, a run by several threads ends with status 5, however many rows are still to come, and the
  trace is a beginning;
- a sweep with `--until` makes not many more runs than it shows.

Its last line is `N passed, M failed`, with `, K skipped` where some were. It needs a C compiler; where there is none all cases are skipped.
"""

import os
import subprocess

import paths  # noqa: F401 (puts the folders of what follows on the path)
from harness import NOT_WRITTEN, TESTS, Skipped, parser_of, program_at, run_cases
from hasty import far, hasty
from program import call_with_room
from stand_in import NO_COMPILER, StandIn
from sweeps import LONG, UNEVEN

# a run of 1.3 million rows, whose text has 54 MB. A row takes at least 40 bytes of memory: they are 53 MB where all of
# them wait there.
MANY_ROWS = far(4, 64, 2_600_000, 100, period=1000, timeout=300)
LEAST_ROWS, MOST_MEMORY = 1_300_000, 40_000_000

# of a trace that is cut off: more rows come behind it than may be on the way
CUT = far(4, 64, 20_000)
LIMITS = (0, 1, 4096, 200_000, 1_500_000)

# members so near that a round of any parts has few messages
NEAR = hasty(3000, ('n', 64))

# so many seeds, of which `--until 100` wants one
SEEDS = '1..600'


class Bench:
    """The program, and a folder with what it reads and writes."""

    def __init__(self, program, folder):
        self.program, self.folder, self.stand_in = program, folder, StandIn(folder)
        self.trace, self.table = folder / 't.csv', folder / 'table.csv'

    def run(self, text, workers):
        """The words of a run of this text."""
        (self.folder / 's.toml').write_text(text)
        return [self.program, 'run', self.folder / 's.toml', '--trace', self.trace, '--workers', str(workers)]

    def sweep(self, text, workers, *words):
        """The words of a sweep of this text."""
        (self.folder / 's.toml').write_text(text)
        return [self.program, 'sweep', self.folder / 's.toml', '--table', self.table, '--workers', str(workers), *words]

    def threads(self, words, processors, busy=0):
        """How many threads a call starts that finds so many processors, of which other programs keep some busy."""
        ran, threads = self.stand_in.counted(words, **self.stand_in.processors(processors, busy))
        assert ran.status == 0, ran
        return threads


def small_sweep(end=2000):
    """A sweep's text: three members, of which one crashes."""
    return (TESTS / 'data' / 'sweeps' / 'three-members.toml').read_text().replace('end = 2000', f'end = {end}')


def one_worker(bench):
    """One worker starts no thread."""
    assert bench.threads(bench.run(far(4, 64, 3000), 1), 4) == 0
    assert bench.threads(bench.sweep(small_sweep(), 1, '--seeds', '1..8'), 4) == 0


def several_workers(bench):
    """Four workers start more than two threads, and write what one does."""
    bench.threads(bench.run(far(4, 64, 3000), 1), 4)
    whole = bench.trace.read_bytes()
    threads = bench.threads(bench.run(far(4, 64, 3000), 4), 4)
    assert threads > 2, threads
    assert bench.trace.read_bytes() == whole


def long_rounds(bench):
    """All threads simulate where a round of four sites is likely to have 400 messages; where it isn't, all but one."""
    for delay, simulate in ((78, 3), (79, 4)):
        threads = bench.threads(bench.run(far(4, 64, 3000, delay=delay), 4), 4)
        assert threads == simulate, (delay, threads)


def near_members(bench):
    """Members so near each other that no rounds are worth it are simulated by one thread, while another one writes."""
    threads = bench.threads([*bench.run(NEAR, 4), '--parts', '8'], 4)
    assert threads == 1, threads


def small_run(bench):
    """A small run starts no thread, unless another division is asked for; the bytes are the same."""
    small = far(4, 3, 5000)
    assert bench.threads([*bench.run(small, 4), '--division', '0,0,0,1,1,1,2,2,2,3,3,3'], 4) > 2
    whole = bench.trace.read_bytes()
    assert bench.threads(bench.run(small, 4), 4) == 0
    assert bench.trace.read_bytes() == whole


def sweep_by_several(bench):
    """A sweep gives runs to more than two threads, with a width too."""
    for words in ([], ['--until', '1']):
        threads = bench.threads(bench.sweep(small_sweep(), 4, '--seeds', '1..8', *words), 4)
        assert threads > 2, (words, threads)


def sweep_of_long_runs(bench):
    """Of four runs of more than a second each of four workers makes one, with a width too."""
    text = UNEVEN.replace('end = 60000', 'end = 30000').replace('count = 2', f'count = {LONG}')
    for words in ([], ['--until', '1']):
        threads = bench.threads(bench.sweep(text, 4, '--seeds', '1..4', *words), 4)
        assert threads > 2, (words, threads)


def few_processors(bench):
    """No more threads start than there are processors."""
    for processors in (1, 2, 3):
        threads = bench.threads(bench.run(far(4, 64, 3000), 64), processors)
        assert threads <= processors, (processors, threads)


def busy_processors(bench):
    """A run starts no thread where other programs keep half of the processors busy, or more; the bytes are the same."""
    assert bench.threads(bench.run(far(4, 64, 3000), 4), 4) >= 2
    whole = bench.trace.read_bytes()
    for processors, busy in ((4, 2), (4, 4), (8, 8), (3, 20), (2, 1)):
        threads = bench.threads(bench.run(far(4, 64, 3000), 4), processors, busy)
        assert threads == 0, (processors, busy, threads)
        assert bench.trace.read_bytes() == whole, (processors, busy)


def most_memory(bench, workers):
    """How many threads a long run by so many workers starts, and the most memory that it takes, in bytes."""
    started = bench.folder / 'started'
    started.unlink(missing_ok=True)
    environment = bench.stand_in.environment(STARTED=started, **bench.stand_in.processors(4))
    with subprocess.Popen(bench.run(MANY_ROWS, workers), env=environment, stdout=subprocess.PIPE) as running:
        rows = int(running.stdout.read().split()[1])
        _, status, used = os.wait4(running.pid, 0)
        running.returncode = os.waitstatus_to_exitcode(status)
    assert rows >= LEAST_ROWS, rows
    threads = started.stat().st_size if started.exists() else 0
    print(f'{rows} rows by {threads} threads, {used.ru_maxrss} kB')
    return threads, used.ru_maxrss * 1024


def memory(bench):
    """The rows of a long run don't all wait in memory, by one worker and by several: the most memory that it takes is
    less."""
    bench.trace = '/dev/null'
    _, alone = most_memory(bench, 1)
    assert alone <= MOST_MEMORY, alone
    threads, together = most_memory(bench, 4)
    if threads < 3:
        raise Skipped(f'{threads} threads were started')
    assert together <= MOST_MEMORY, together


def cut_off(bench):
    """A run by several threads whose trace takes no more comes to its end, and leaves a beginning of it."""
    for workers in (3, 5):
        words = bench.run(CUT, workers)
        threads = bench.threads(words, 5)
        if threads < 2:
            raise Skipped(f'{threads} threads were started')
        whole = bench.trace.read_bytes()
        for limit in LIMITS:
            bench.trace.write_bytes(b'')
            environment = bench.stand_in.environment(**bench.stand_in.processors(5))
            ran = call_with_room(words, limit, env=environment)
            assert ran == NOT_WRITTEN, (workers, limit, ran)
            assert bench.trace.read_bytes() == whole[:limit], (workers, limit)


def width(bench):
    """With a width few runs are made beyond those that are shown: they take few of the allocations of all."""
    all_words = bench.sweep(small_sweep(40_000), 1, '--seeds', SEEDS)
    _, of_all = bench.stand_in.counted(all_words, 'ALLOCATED')
    ran, made = bench.stand_in.counted([*all_words, '--until', '100'], 'ALLOCATED')
    assert ran.status == 0 and bench.table.read_bytes().count(b'\n') == 2, ran
    assert 3 * made < of_all, (made, of_all)


CASES = (one_worker, several_workers, long_rounds, near_members, small_run, sweep_by_several, sweep_of_long_runs, few_processors, busy_processors,
         memory, cut_off, width)


def main():
    program = program_at(parser_of(__doc__).parse_args().program)

    def bench_in(folder):
        bench = Bench(program, folder)
        if not bench.stand_in.is_there:
            raise Skipped(NO_COMPILER)
        return bench

    run_cases(CASES, bench_in)


if __name__ == '__main__':
    main()
