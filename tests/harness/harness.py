"""What the scripts of tests/ share: where things are, how programs are called, how cases are counted, and the last line
that ./test adds up."""

import argparse
import shutil
import subprocess
import sys
import tempfile
import traceback
from collections import namedtuple
from pathlib import Path

TESTS = Path(__file__).resolve().parent.parent
TOP = TESTS.parent
# the program that a build leaves, or the run of the proofs
BUILT = TOP / 'crates' / 'swimsim' / 'out' / 'swimsim'
# no call takes as long as this
SECONDS = 300

# how a run ends whose write was refused: its status, standard output and standard error
NOT_WRITTEN = (5, b'', b'swimsim: run F3\n')

# what a call answered: its status, what it left on standard output and on standard error
Ran = namedtuple('Ran', 'status out err')


def call(words, seconds=SECONDS, **how):
    """Calls a program with these words, and gives its `Ran`, of bytes unless `text` is asked for. Its standard input is
    empty. One that doesn't end in so many seconds is stopped, and that is its status."""
    how = {'stdin': subprocess.DEVNULL, 'stdout': subprocess.PIPE, 'stderr': subprocess.PIPE, **how}
    nothing = '' if how.get('text') else b''
    try:
        ran = subprocess.run(words, timeout=seconds, check=False, **how)
    except subprocess.TimeoutExpired:
        return Ran(f'no end in {seconds} s', nothing, nothing)
    return Ran(ran.returncode, ran.stdout or nothing, ran.stderr or nothing)


def first_line(told):
    """What standard error has of a failure, without the lines below, which tell why."""
    return told[:told.find(b'\n') + 1]


def parser_of(about, default=BUILT):
    """A parser of a script's words that knows --program; `about` is what --help prints."""
    parser = argparse.ArgumentParser(description=about, formatter_class=argparse.RawDescriptionHelpFormatter)
    parser.add_argument('--program', type=Path, default=default, metavar='FILE', help=f'default: {default.relative_to(TOP)}')
    return parser


def program_at(program):
    """The whole path of a program; ends the script where it isn't there."""
    path = shutil.which(program)
    if path is None:
        sys.exit(f'{Path(sys.argv[0]).stem}: {program} is not there; ./swimsim --help builds it')
    return Path(path).resolve()


def end(passed, failed, skipped=None):
    """Prints the last line of a script, and ends it with status 1 where something failed."""
    print(f'{passed} passed, {failed} failed' + ('' if skipped is None else f', {skipped} skipped'))
    sys.exit(1 if failed else 0)


class Skipped(Exception):
    """A case that this machine or this program can't show, and why."""


def run_cases(cases, made_in=lambda room: room):
    """Runs cases that are functions which assert, each with what is made in a new folder; prints those that fail and those
    that are skipped, and ends the script."""
    failed = skipped = 0
    for case in cases:
        with tempfile.TemporaryDirectory() as room:
            try:
                case(made_in(Path(room)))
            except Skipped as why:
                skipped += 1
                print(f'skipped {case.__name__}: {why}')
            except Exception:  # a case that can't be run has failed, and the others go on
                failed += 1
                print(f'FAILED {case.__name__}\n{traceback.format_exc()}')
    end(len(cases) - failed - skipped, failed, skipped or None)


def judge_cases(cases):
    """Prints cases, which are names with what is wrong, empty where nothing is, as they come, and ends the script."""
    passed = failed = 0
    for name, fault in cases:
        print(f'{"WRONG" if fault else "well "} {name}{": " + fault if fault else ""}')
        passed, failed = passed + (not fault), failed + bool(fault)
    end(passed, failed)
