#!/usr/bin/env python3
"""Runs the built program over the data of tests/, and compares what it prints and leaves, byte for byte.

    tests/programs/cases.py [--program FILE] [--only WORD]

Each case that fails is told with the first line that differs. The last line is `N passed, M failed`, and the
status is 1 where M is over 0. tests/README.md tells what the data is. The program sees eight processors, whatever
else the machine does, so that a run by several workers starts several threads. That needs a C compiler; where there is
none the first line says so, and the program starts as many threads as it would anyhow.
"""

import os
import shutil
import tempfile
from concurrent.futures import ProcessPoolExecutor
from pathlib import Path

import paths  # noqa: F401 (puts the folders of what follows on the path)
import commands
import draws
import drives
import expand
import large_pages
import long_runs
import presets
import run_pages
import shards
import sweeps
import test_model_drive
import test_model_four
import test_model_parts
import test_model_rows
import test_model_steps
import texts
import worked
import writes
from harness import end, parser_of, program_at
from program import Program, Wrong
from stand_in import StandIn

KINDS = (worked, test_model_steps, test_model_parts, test_model_rows, test_model_four, test_model_drive, drives, draws, texts, expand, commands,
         presets, sweeps, shards, run_pages, large_pages, long_runs, writes)


def failure_of(path, room, case):
    """Runs a case in a new folder of the room; gives what is wrong, or None."""
    folder = tempfile.mkdtemp(dir=room)
    try:
        case.check(Program(path, folder), *case.arguments)
    except Wrong as wrong:
        return f'{case.name}: {wrong}'
    except Exception as error:  # a case that can't be run has failed, and the others go on
        return f'{case.name}: {type(error).__name__}: {error}'
    finally:
        shutil.rmtree(folder)
    return None


def failures_of(path, room, cases):
    """Runs the cases side by side; gives what is wrong with each, None where nothing is."""
    count = len(cases)
    with ProcessPoolExecutor(os.cpu_count()) as pool:
        yield from pool.map(failure_of, [path] * count, [room] * count, cases, chunksize=4)


def main():
    parser = parser_of(__doc__)
    parser.add_argument('--only', default='', help='run only the cases whose name has this word')
    options = parser.parse_args()
    path = program_at(options.program)
    cases = [case for kind in KINDS for case in kind.cases() if options.only in case.name]
    with tempfile.TemporaryDirectory() as room:
        StandIn(Path(room)).free_processors()
        failed = 0
        for failure in failures_of(path, room, cases):
            if failure:
                failed += 1
                print(failure, flush=True)
    end(len(cases) - failed, failed)


if __name__ == '__main__':
    main()
