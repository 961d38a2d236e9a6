#!/usr/bin/env python3
"""Measures the program on quiet and busy clusters of growing size.

    bench/run.py [--program FILE] [--seconds S] [--sizes 64,256,512,1024] [--counts | --entries N [--version V]] [-- WORDS]

The program is the one that ./swimsim has built, or FILE; nothing is built here. Each scenario simulates S seconds
(10 without it), a tick being a millisecond. WORDS, such as --workers 4, are handed on to the program.
With --entries each line is a cluster of 300 members with memberlist's LAN defaults, of whose messages two of a hundred are
lost, and N entries of one kind: pauses, slow times, or cuts, with --version 4 also blocks and restarts of members that run. They
lie past the end, or each is met. A pause of 24,000 entries that touch follows; then 100 groups of
three members with a path for each of 9,900 pairs, 4,096 members that crash or leave past the end, and 4,096 groups of one
member up to moment 0. Each is compared with the same cluster without the entries, by the least processor time of nine runs, by
turns; also per row, where the entries change what happens.

A new process begins as a copy of this script, so peak memory below the script's own isn't seen, and is printed as <14 or so.

With --counts each line has the instructions and the writes to memory per event, and how many of the writes miss a first
cache of 32 KB. Other work on the machine doesn't change them. Valgrind's cachegrind counts them, in some fifty times the time
of a run; those of the same run up to moment 0 are subtracted, and printed in thousands. The second simulator
(tests/model/model.py) counts the events.
"""

import argparse
import math
import os
import resource
import shutil
import subprocess
import sys
import tempfile
import time
from pathlib import Path

TESTS = Path(__file__).resolve().parent.parent / 'tests'
sys.path += [str(TESTS / folder) for folder in ('model', 'harness')]

import model  # noqa: E402
from harness import BUILT, TOP  # noqa: E402
from scenarios import NEWEST, document_of, judge  # noqa: E402
from tables import head, item, table  # noqa: E402

QUIET_LINK = table('link', delay=1, jitter=4)
# two of a hundred messages are lost, and they take up to 40 ms
BUSY_LINK = table('link', delay=10, jitter=30, loss=20000)


def cluster(members, end, version=1, period=1000, timeout=300):
    """One group, in which every member pings one other each period."""
    return head(end, version, period=period, timeout=timeout, spread=period) + item('group', name='n', count=members)


def quiet_cluster(members, end):
    """Nothing goes wrong, so no update rides on any message."""
    return cluster(members, end) + QUIET_LINK


def busy_cluster(members, end):
    """One member of 32 joins later, one of 32 crashes, and one of 16 is slow for a third of the time."""
    joining = members // 32
    text = cluster(members - joining, end) + BUSY_LINK
    text += item('group', name='j', count=joining, start=end // 5, contact='n-0')
    for index in range(1, members - joining, 32):
        text += item('crash', member=f'n-{index}', at=end // 4)
    for index in range(2, members - joining, 16):
        text += item('slow', member=f'n-{index}', from_=end // 3, until=2 * end // 3, extra=400)
    return text


def lan_cluster(groups, members, end, version):
    """So many groups of so many members with memberlist's LAN defaults; two of a hundred messages are lost."""
    text = head(end, version, timeout=500, helpers=3, fallback=True, carry=20, lambda_=4, spread=1000)
    text += table('suspicion', alpha=4, beta=6) + table('gossip', interval=200, nodes=3, dead=30_000, push=30_000)
    text += table('lifeguard', probe=True, suspicion=True, buddy=True, ceiling=7, confirmations=2, nack_percent=100)
    text += table('stream', connect=1000, again=200) + table('link', delay=1, jitter=1, loss=20_000)
    return text + ''.join(item('group', name=f'n{number}', count=members) for number in range(groups))


# what a text may name many times: of each member in turn, for a tick
ENTRIES = {
    'pause': '[[pause]]\nmember = "n0-{member}"\nfrom = {at}\nuntil = {over}\n',
    'slow': '[[slow]]\nmember = "n0-{member}"\nfrom = {at}\nuntil = {over}\nextra = 1\n',
    'cut': '[[cut]]\nfrom = "n0"\nto = "n0"\nat = {at}\nuntil = {over}\n',
    'block': '[[block]]\nmember = "n0-{member}"\nfrom = {at}\nuntil = {over}\n',
    'restart': '[[restart]]\nmember = "n0-{member}"\nat = {at}\n',
}
# those that versions 1 to 3 have
EARLIER = 'pause', 'slow', 'cut'


def with_entries(kind, entries, first, step, plain):
    """A cluster with so many entries of a kind, the first at a moment, and each so many ticks after the last."""
    moments = (first + number * step for number in range(entries))
    return plain + ''.join(ENTRIES[kind].format(member=number % 300, at=at, over=at + 1) for number, at in enumerate(moments))


def touching_pauses(entries, plain):
    """The same with one pause, in so many entries of which each begins when the one before is over."""
    return plain + ''.join(ENTRIES['pause'].format(member=0, at=at, over=at + 1) for at in range(1, entries + 1))


def with_paths(groups, plain):
    """The same, with a path like the link for each two groups."""
    names = [f'n{number}' for number in range(groups)]
    paths = (item('path', from_=one, to=other, delay=1, jitter=1, loss=20_000) for one in names for other in names if one != other)
    return plain + ''.join(paths)


def with_ends(kind, members, end, plain):
    """One group in which each member crashes or leaves past the end."""
    return plain + ''.join(item(kind, member=f'n0-{number}', at=end + 1) for number in range(members))


# what cachegrind simulates: else it takes the sizes of this machine's caches
CACHES = ('--I1=32768,8,64', '--D1=32768,8,64', '--LL=8388608,16,64')

CLUSTERS = {'quiet': quiet_cluster, 'busy': busy_cluster}


def measure(command, enter=None):
    """The standard output, seconds and peak memory in megabytes of one run of the command; its process calls `enter` first."""
    begin = time.monotonic()
    process = subprocess.Popen(command, stdout=subprocess.PIPE, text=True, preexec_fn=enter)
    output = process.stdout.read()
    _, status, usage = os.wait4(process.pid, 0)
    seconds = time.monotonic() - begin
    process.returncode = os.waitstatus_to_exitcode(status)
    if process.returncode != 0:
        sys.exit(f'bench: status {process.returncode} from {" ".join(map(str, command))}')
    return output, seconds, usage.ru_maxrss / 1024


def run_of(program, words, text, folder):
    """The command that runs the scenario."""
    scenario = folder / 'scenario.toml'
    scenario.write_text(text)
    return [program, 'run', scenario, '--trace', folder / 't.csv', '--report', folder / 'r.csv', *words]


def measure_run(program, words, text, folder):
    """Rows, seconds and megabytes of a run of the scenario."""
    output, seconds, megabytes = measure(run_of(program, words, text, folder))
    kind, rows = output.split()
    assert kind == 'rows', output
    return int(rows), seconds, megabytes


def print_table(name, program, words, sizes, end, folder):
    least = measure(['true'])[2]
    print(f'{name} cluster, {end // 1000} s simulated')
    print(f'{"members":>8}{"rows":>11}{"seconds":>10}{"rows/s":>11}{"MB":>8}   from the size before')
    before = None
    for size in sizes:
        rows, seconds, megabytes = measure_run(program, words, CLUSTERS[name](size, end), folder)
        memory = f'{megabytes:.0f}' if megabytes > least + 1 else f'<{least:.0f}'
        line = f'{size:>8}{rows:>11}{seconds:>10.2f}{rows / seconds:>11.0f}{memory:>8}'
        if before is not None:
            line += (f'   members x{size / before[0]:.1f}, rows x{rows / before[1]:.1f}, '
                     f'seconds x{seconds / before[2]:.1f}')
        print(line, flush=True)
        before = (size, rows, seconds)
    print()


class Counted(model.Run):
    """A run of the second simulator that counts the events which it was given."""

    pended = 0

    def pend(self, event):
        self.pended += 1
        super().pend(event)


def events_of(text):
    """How many events a run of the scenario handles."""
    rule, scenario = judge(document_of(text.encode()), NEWEST)
    assert rule == 0, rule
    run = Counted(scenario)
    run.go()
    return run.pended - len(run.pending)


def count_run(program, words, text, folder):
    """The instructions, the writes to memory, and those of them that miss the first cache, of a run of the scenario."""
    counts = folder / 'counts'
    valgrind = ['valgrind', '--tool=cachegrind', '--cache-sim=yes', *CACHES, f'--cachegrind-out-file={counts}',
                f'--log-file={folder / "log"}']
    measure([*valgrind, *run_of(program, words, text, folder)])
    lines = dict(line.split(': ', 1) for line in counts.read_text().splitlines() if line.startswith(('events: ', 'summary: ')))
    counted = dict(zip(lines['events'].split(), map(int, lines['summary'].split())))
    return counted['Ir'], counted['Dw'], counted['D1mw']


def print_counts(name, program, words, sizes, end, folder):
    print(f'{name} cluster, {end // 1000} s simulated')
    print(f'{"members":>8}{"events":>11}{"instructions/event":>20}{"writes/event":>14}{"missing":>9}   up to moment 0, thousands')
    for size in sizes:
        text = CLUSTERS[name](size, end)
        opening = text.replace(f'end = {end}', 'end = 0')
        events = events_of(text) - events_of(opening)
        begun, whole = (count_run(program, words, it, folder) for it in (opening, text))
        instructions, writes, missing = ((after - before) / events for before, after in zip(begun, whole))
        print(f'{size:>8}{events:>11}{instructions:>20.1f}{writes:>14.1f}{missing:>9.2f}   '
              f'{begun[0] // 1000} instructions, {begun[1] // 1000} writes', flush=True)
    print()


def processor_time(program, words, text, folder):
    """The rows of a run of the scenario, and its processor seconds."""
    before = resource.getrusage(resource.RUSAGE_CHILDREN)
    rows, _, _ = measure_run(program, words, text, folder)
    after = resource.getrusage(resource.RUSAGE_CHILDREN)
    return rows, after.ru_utime + after.ru_stime - before.ru_utime - before.ru_stime


def least_times(program, words, texts, folder):
    """The rows of each text's run, and the least of its processor seconds in nine rounds in which each text runs once."""
    found = [(0, math.inf) for _ in texts]
    for _ in range(9):
        for number, text in enumerate(texts):
            rows, seconds = processor_time(program, words, text, folder)
            found[number] = (rows, min(seconds, found[number][1]))
    return found


def timed_entries(entries, end, plain, version):
    """The cluster with entries of each kind that the version has, past the end and met."""
    for kind in ENTRIES if version == 4 else EARLIER:
        yield f'{kind}, late', entries, with_entries(kind, entries, end + 1, 2, plain)
        yield f'{kind}, met', entries, with_entries(kind, entries, 1, max(2, end // max(1, entries)), plain)
    yield 'touching pauses', 24000, touching_pauses(24000, plain)


def entries_of(entries, end, version):
    """Each cluster without entries, and what it has with them: a name, how many entries, and the text."""
    sites, large = lan_cluster(100, 3, end, version), lan_cluster(1, 4096, end // 10, version)
    plain = lan_cluster(1, 300, end, version)
    yield 'none, 300', plain, list(timed_entries(entries, end, plain, version))
    yield 'none, 100 groups', sites, [('paths', 9900, with_paths(100, sites))]
    ends = [(f'{kind}, late', 4096, with_ends(kind, 4096, end // 10, large)) for kind in ('crash', 'leave')]
    yield 'none, 4096', large, ends
    yield 'none, moment 0', lan_cluster(1, 4096, 0, version), [('groups', 4096, lan_cluster(4096, 1, 0, version))]


def print_entries(program, words, options, folder):
    end = options.seconds * 1000
    print(f'clusters with losses, {end // 1000} s simulated (a tenth of it with 4096 members)')
    print(f'{"entries":>16}{"number":>8}{"rows":>11}{"seconds":>10}   of those with none')
    for plain_name, plain, entered in entries_of(options.entries, end, options.version):
        lines = [(plain_name, 0, plain), *entered]
        found = least_times(program, words, [text for _, _, text in lines], folder)
        none_rows, none = found[0]
        for (name, number, _), (rows, seconds) in zip(lines, found):
            told = f'   x{seconds / none:.2f}' if number else ''
            if rows != none_rows:
                told += f', x{seconds * none_rows / none / rows:.2f} per row'
            print(f'{name:>16}{number:>8}{rows:>11}{seconds:>10.2f}{told}', flush=True)


def main():
    own, words = sys.argv[1:], []
    if '--' in own:
        place = own.index('--')
        own, words = own[:place], own[place + 1:]
    parser = argparse.ArgumentParser(description=__doc__, formatter_class=argparse.RawDescriptionHelpFormatter)
    parser.add_argument('--program', type=Path, default=BUILT)
    parser.add_argument('--seconds', type=int, default=10)
    parser.add_argument('--sizes', default='64,256,512,1024')
    parser.add_argument('--counts', action='store_true')
    parser.add_argument('--entries', type=int)
    parser.add_argument('--version', type=int, choices=(3, 4), default=3)
    options = parser.parse_args(own)
    program = shutil.which(options.program)
    if program is None:
        sys.exit(f'bench: {options.program} is not there; ./swimsim --help builds it')
    if options.counts and shutil.which('valgrind') is None:
        sys.exit('bench: --counts needs valgrind, and there is none on the path')
    show = print_counts if options.counts else print_table
    sizes = [int(size) for size in options.sizes.split(',')]
    with tempfile.TemporaryDirectory() as folder:
        if options.entries is not None:
            print_entries(program, words, options, Path(folder))
            return
        for name in CLUSTERS:
            show(name, program, words, sizes, options.seconds * 1000, Path(folder))


if __name__ == '__main__':
    main()
