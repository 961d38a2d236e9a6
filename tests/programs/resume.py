#!/usr/bin/env python3
"""Ends sweeps that go on by --resume at random moments, and sees that no line of a finished run is lost.

    tests/programs/resume.py [--program FILE] [--rounds N] [--seed S]

A round takes the table of a sweep, cuts it off anywhere, goes on with it, and ends that: by a kill, by a limit on the size of
files, or on a small file system that something else fills. Then the table must begin with every whole line that stood in it,
and be a beginning of the table that one go makes, with --until and without. Every tenth round goes on to the end. N is 40
where it isn't said; releases take 200. The small file system needs the right to mount one, else its rounds
are told as skipped. The last line is `N passed, M failed, K skipped`. Linux only; 40 rounds take some ten seconds.
"""

import random
import subprocess
import sys
import tempfile
import threading
import time
from itertools import accumulate
from pathlib import Path

import paths  # noqa: F401 (puts the folders of what follows on the path)
from harness import call, end, parser_of, program_at
from program import TWO_MEMBERS, call_with_room

LONG = ('--seeds', '1..20000')
WIDE = ('--until', '1', '--set', 'swim.timeout=100,200,300,400', '--seeds', '1..4000')
# how many bytes the small file system has: the long table has some fewer
SMALL = 1_310_720


class Sweep:
    """A sweep, the table that one go makes of it, and where what stays of that may end."""

    def __init__(self, program, folder, options):
        self.program, self.folder = program, folder
        self.words = ['sweep', 's.toml', '--shard', '1/1', *options, '--resume', '--table']
        (folder / 's.toml').write_text(TWO_MEMBERS)
        (folder / 'whole.csv').unlink(missing_ok=True)
        started = time.monotonic()
        ran = call([program, *self.words, 'whole.csv'], cwd=folder)
        if ran.status != 0:
            sys.exit(f'resume: {ran} of a plain sweep')
        self.seconds = time.monotonic() - started
        self.whole = (folder / 'whole.csv').read_bytes()
        self.ends = list(accumulate(len(line) for line in self.whole.splitlines(keepends=True)))

    def cut(self, chance):
        """A beginning of the table, and what must stay of it."""
        place = chance.randrange(len(self.whole) + 1)
        stays = max((end for end in self.ends if end <= place), default=0)
        return self.whole[:place], self.whole[:stays]

    def judge(self, table, stays):
        """What is wrong with a table of which so much had to stay, if anything is."""
        held = table.read_bytes()
        if not held.startswith(stays):
            return f'{len(held)} bytes are left, and {len(stays)} had to stay'
        return None if self.whole.startswith(held) else f'{len(held)} bytes that are no beginning of the table'

    def finish(self, table):
        """Goes on to the end."""
        ran = call([self.program, *self.words, table], cwd=self.folder)
        return None if ran.status == 0 and table.read_bytes() == self.whole else f'to the end: {ran}'


def killed(sweep, chance, room):
    """Goes on, and is killed at some moment: half of the rounds while T is looked at, the others later."""
    table = room / 't.csv'
    held, stays = sweep.cut(chance)
    table.write_bytes(held)
    left = sweep.seconds * (1 - len(stays) / len(sweep.whole))
    seconds = chance.uniform(0, 0.012 if chance.random() < 0.5 else 0.012 + left)
    started = subprocess.Popen([sweep.program, *sweep.words, table], cwd=sweep.folder, stderr=subprocess.DEVNULL)
    time.sleep(seconds)
    started.kill()
    started.wait()
    return sweep.judge(table, stays)


def limited(sweep, chance, room):
    """Goes on, where no file may grow past some size, maybe a smaller one than the table has."""
    table = room / 't.csv'
    held, stays = sweep.cut(chance)
    table.write_bytes(held)
    ran = call_with_room([sweep.program, *sweep.words, table], chance.randrange(len(sweep.whole)), cwd=sweep.folder)
    return sweep.judge(table, stays) or (None if ran.status == 5 else f'{ran}')


def filled(sweep, chance, room):
    """Goes on, on a file system that something else fills wherever it has room."""
    table, others = room / 't.csv', room / 'others'
    others.unlink(missing_ok=True)
    held, stays = sweep.cut(chance)
    table.write_bytes(held)
    ends = threading.Event()

    def fill():
        with open(others, 'ab', buffering=0) as out:
            while not ends.is_set():
                try:
                    out.write(bytes(4096))
                except OSError:
                    time.sleep(0.0001)

    filling = threading.Thread(target=fill)
    filling.start()
    ran = call([sweep.program, *sweep.words, table], cwd=sweep.folder)
    ends.set()
    filling.join()
    others.unlink()
    return sweep.judge(table, stays) or (None if ran.status in (0, 5) else f'{ran}')


def mounted(room):
    """Why no small file system can be mounted there; None, once one is."""
    words = ['mount', '-t', 'tmpfs', '-o', f'size={SMALL}', 'none', str(room)]
    try:
        ran = call(words, text=True)
    except OSError as error:
        return str(error)
    return None if ran.status == 0 else ran.err.strip()


def ways(rounds):
    """How each round ends: most by a kill, a fifth each by a limit and by others that fill the file system."""
    return [(killed, killed, killed, limited, filled)[number % 5] for number in range(rounds)]


def play(sweeps, rounds, chance, folder, small, why):
    """Plays all rounds; gives how many went well, how many didn't, and how many were skipped."""
    passed = failed = skipped = 0
    for number, way in enumerate(ways(rounds)):
        if way is filled and why:
            skipped += 1
            continue
        sweep, room = chance.choice(sweeps), small if way is filled else folder
        wrong = way(sweep, chance, room) or (sweep.finish(room / 't.csv') if number % 10 == 0 else None)
        if wrong:
            print(f'FAILED round {number + 1}, {way.__name__}: {" ".join(sweep.words[2:])}: {wrong}')
        passed, failed = passed + (not wrong), failed + bool(wrong)
    if skipped:
        print(f'skipped {skipped} rounds on a small file system: {why}')
    return passed, failed, skipped


def main():
    parser = parser_of(__doc__)
    parser.add_argument('--rounds', type=int, default=40, metavar='N', help='default: 40')
    parser.add_argument('--seed', type=int, metavar='S', help='of the cuts and moments; default: another each time')
    given = parser.parse_args()
    program = program_at(given.program)
    seed = random.randrange(1_000_000) if given.seed is None else given.seed
    print(f'seed {seed}')
    with tempfile.TemporaryDirectory() as name:
        folder, small = Path(name), Path(name) / 'small'
        small.mkdir()
        sweeps = [Sweep(program, folder, LONG), Sweep(program, folder, WIDE)]
        why = mounted(small)
        try:
            counts = play(sweeps, given.rounds, random.Random(seed), folder, small, why)
        finally:
            if not why:
                call(['umount', str(small)])
    end(*counts)


if __name__ == '__main__':
    main()
