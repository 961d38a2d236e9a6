#!/usr/bin/env python3
"""Runs `rt ci`, which is nearly all of what `./test` takes, and tells what each crate cost of it.

    bench/gate.py [--keep] [NAME..]

With names it runs `rt ci` over these crates and those below them. Its output is passed on as it comes, and its status is
this command's. At the end stand the processor minutes of each crate: its proof; its tests, with the second proof of the
crate that they take; and its must-fail edits, how many there are and what one cost on average, the first check of the
crate over nothing included. Then come the edits that took longest, in seconds of a processor (a crate's first edit by
name has the check of the crate over nothing in its figure), and the longest chain of crates up to the program, by the
minutes of their proofs. With --keep the proofs that were made in this run go into tools/minutes.txt, by which a build
knows that chain. Linux only.

Each command that the gate starts is looked at several times a second. What it used since the last look is known once it
has ended, by what the gate's own process then has of ended children, so nothing is lost: of commands that end between
the same two looks the rest is dealt out in equal parts, and what is too short for a look goes to the next that ends.
`other` is the gate itself.
"""

import os
import re
import subprocess
import sys
import time
from collections import Counter
from pathlib import Path

TOP = Path(__file__).resolve().parent.parent
sys.path.append(str(TOP / 'tools'))

from schedule import crates_in, longest_chain, minutes_in  # noqa: E402

MINUTES = TOP / 'tools' / 'minutes.txt'
PROGRAM = 'swimsim'
SECONDS_BETWEEN_LOOKS = 0.2
TICKS_A_MINUTE = 60 * os.sysconf('SC_CLK_TCK')
SLOWEST_EDITS = 20
OTHER = ('other', 'proof')
# What takes less was not proved anew, in minutes.
LEAST_PROOF = 0.05


def times_of(process):
    """The processor time of a process, and that of its children that have ended, in clock ticks."""
    fields = Path(f'/proc/{process}/stat').read_text().rpartition(')')[2].split()
    user, system, ended_user, ended_system = map(int, fields[11:15])
    return user + system, ended_user + ended_system


def children_of(process):
    """The children that have not ended, of all threads of a process."""
    found = set()
    for thread in Path(f'/proc/{process}/task').iterdir():
        try:
            found.update((thread / 'children').read_text().split())
        except OSError:
            pass
    return found


def purpose_of(process):
    """The crate for which a command of the gate was started, and whether for its proof, its tests or its edits."""
    words = Path(f'/proc/{process}/cmdline').read_text().split('\0')
    folder = os.readlink(f'/proc/{process}/cwd')
    line = ' '.join(words)
    crate = (re.search(r'--crate-name (\w+)', line) or re.search(r'/crates/(\w+)', f'{line} {folder}')
             or re.search(r'/rt-run-\w+/bin/(\w+?)(?:_tests)?(?: |$)', line))
    if '/rt-edit-' in folder:
        kind = 'edits'
    elif '--test' in words or any(word.endswith('_tests') for word in words):
        kind = 'tests'
    else:
        kind = 'proof'
    return (crate[1], kind) if crate else OTHER


def edits_of(crate):
    """The must-fail edits of a crate, in the order in which the gate tries them."""
    return sorted((TOP / 'crates' / crate / 'must-fail').glob('*.edit'))


class Account:
    """What the commands of the gate have used so far, by crate and purpose, in clock ticks."""

    def __init__(self, gate):
        self.gate = gate
        self.used = Counter()
        # of each command that runs: its purpose and its time at the last look
        self.running = {}
        self.dealt = 0
        # what the must-fail edits took that have ended, by name, those that run, and how many each crate has begun
        self.edits = Counter()
        self.edit_of = {}
        self.begun = Counter()

    def look(self):
        """Sees which commands run, and books those that have ended."""
        present = children_of(self.gate)
        # read after the children, so that it has the time of each that is missing there
        ended = times_of(self.gate)[1]
        gone = [it for it in self.running if it not in present]
        rest = ended - self.dealt - sum(self.running[it][1] for it in gone)
        for process in gone:
            purpose, seen = self.running.pop(process)
            self.used[purpose] += seen + rest / len(gone)
            if process in self.edit_of:
                self.edits[self.edit_of.pop(process)] += seen + rest / len(gone)
        if gone:
            self.dealt = ended
        for process in present:
            try:
                purpose = self.known(process) or purpose_of(process)
                if process not in self.edit_of and purpose[1] == 'edits':
                    self.edit_of[process] = self.next_edit(purpose[0])
                self.running[process] = purpose, sum(times_of(process))
            except OSError:
                pass

    def known(self, process):
        """What a command was started for, once that was seen: of one that has just ended it can't be read any more."""
        purpose, _ = self.running.get(process, (OTHER, 0))
        return purpose if purpose != OTHER else None

    def next_edit(self, crate):
        """The edit for which the gate starts a crate's next check: by name, then the crate itself over what they left."""
        names = [it.stem for it in edits_of(crate)] + ['(none)']
        self.begun[crate] += 1
        return f'{crate}/{names[self.begun[crate] - 1] if self.begun[crate] <= len(names) else "(again)"}'

    def close(self, usage):
        """Books what is left of all that the gate has used."""
        self.used[OTHER] += (usage.ru_utime + usage.ru_stime) * TICKS_A_MINUTE / 60 - sum(self.used.values())


def run_gate(names):
    """Runs `rt ci` to its end, over some crates or all, and returns its status and its account."""
    gate = subprocess.Popen(['rt', 'ci', *names], cwd=TOP, env={'RT_JOBS': str(min(4, os.cpu_count())), **os.environ})
    account = Account(gate.pid)
    while True:
        process, status, usage = os.wait4(gate.pid, os.WNOHANG)
        if process:
            account.close(usage)
            return os.waitstatus_to_exitcode(status), account
        try:
            account.look()
        except OSError:
            pass
        time.sleep(SECONDS_BETWEEN_LOOKS)


def print_table(used, seconds):
    """Prints the minutes of each crate, those of the costliest first, and the sums."""
    kinds = ('proof', 'tests', 'edits')
    print(f'\n{"processor minutes":<20}{"proof":>8}{"tests":>8}{"edits":>8}{"sum":>8}   edits')
    crates = {crate for crate, _ in used}
    sums = {crate: sum(used[crate, kind] for kind in kinds) for crate in crates}
    for crate in sorted(crates, key=lambda it: (it == OTHER[0], -sums[it])):
        line = ''.join(f'{used[crate, kind] / TICKS_A_MINUTE:>8.1f}' for kind in kinds)
        edits = len(edits_of(crate))
        each = f'   {edits:>3}, {60 * used[crate, "edits"] / TICKS_A_MINUTE / edits:.0f} s each' if edits else ''
        print(f'{crate:<20}{line}{sums[crate] / TICKS_A_MINUTE:>8.1f}{each}')
    whole = [sum(used[crate, kind] for crate in crates) for kind in kinds]
    line = ''.join(f'{it / TICKS_A_MINUTE:>8.1f}' for it in [*whole, sum(whole)])
    edits = len(list(TOP.glob('crates/*/must-fail/*.edit')))
    print(f'{"all":<20}{line}   {edits:>3}')
    print(f'{seconds / 60:.1f} minutes by the clock, with {os.cpu_count()} processors')


def print_slowest(edits):
    """Prints the must-fail edits that took longest, and their seconds."""
    print(f'\n{"seconds":>8}  edit')
    for name, ticks in edits.most_common(SLOWEST_EDITS):
        print(f'{60 * ticks / TICKS_A_MINUTE:>8.0f}  {name}')


def proof_minutes(used):
    """The minutes of each proof, those that were made in this run as they took, the others as they were kept."""
    minutes = minutes_in(MINUTES.read_text()) if MINUTES.exists() else {}
    for (crate, kind), ticks in used.items():
        if kind == 'proof' and crate != OTHER[0] and ticks / TICKS_A_MINUTE >= LEAST_PROOF:
            minutes[crate] = round(ticks / TICKS_A_MINUTE, 1)
    return minutes


def print_chain(crates, minutes):
    """Prints the longest chain up to the program."""
    chain = longest_chain(crates, minutes, PROGRAM)
    print(f'\nthe longest chain, {sum(minutes.get(it, 0.0) for it in chain):.1f} minutes: ', end='')
    print(', '.join(f'{it} {minutes.get(it, 0.0)}' for it in chain))


def keep(crates, minutes):
    lines = [f'{crate} {minutes[crate]}\n' for crate in sorted(crates) if crate in minutes]
    MINUTES.write_text('# The processor minutes of each proof, by `bench/gate.py --keep`.\n' + ''.join(lines))


def main():
    begin, words = time.monotonic(), sys.argv[1:]
    status, account = run_gate([it for it in words if it != '--keep'])
    print_table(account.used, time.monotonic() - begin)
    print_slowest(account.edits)
    crates, minutes = crates_in((TOP / 'crates.txt').read_text()), proof_minutes(account.used)
    print_chain(crates, minutes)
    if '--keep' in words:
        keep(crates, minutes)
    sys.exit(status)


if __name__ == '__main__':
    main()
