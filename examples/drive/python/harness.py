#!/usr/bin/env python3
"""Drives the members of the second simulator (tests/model) in the world of a scenario.

    examples/drive/python/harness.py FILE swimsim drive FILE --trace T

It starts the words behind FILE as a child, and answers its events. In versions 1 to 3 of the format T is byte for byte
what `swimsim run FILE --trace T` writes. In version 4 it lacks the rows of dials, for which there is no action.
"""

import subprocess
import sys
from pathlib import Path

TOP = Path(__file__).resolve().parents[3]
sys.path.insert(0, str(TOP / 'tests' / 'model'))

from model_harness import Harness   # noqa: E402 (the folder is put on the path first)
from scenarios import NEWEST, document_of, judge   # noqa: E402


def main():
    file, *words = sys.argv[1:]
    rule, scenario = judge(document_of(Path(file).read_bytes()), NEWEST)
    if rule:
        sys.exit(f'scenario rule {rule}')
    harness = Harness(scenario)
    with subprocess.Popen(words, stdin=subprocess.PIPE, stdout=subprocess.PIPE) as world:
        for line in world.stdout:
            harness.tell(line.decode())
            for answer in harness.lines:
                world.stdin.write(answer)
            harness.lines.clear()
            world.stdin.flush()
    sys.exit(world.returncode)


if __name__ == '__main__':
    main()
