#!/usr/bin/env python3
"""Sees that the program in dist/ is the one that these sources give, and that it runs on a bare machine.

    tests/programs/shipped_program.py

The program that the proofs' run has just built, crates/swimsim/out/swimsim, is compared with the shipped one byte for
byte. Its last line is `N passed, M failed`; `tools/dist` mends what fails here after a change of the program.
"""

import hashlib
import os
import re
import shutil
import subprocess

import paths  # noqa: F401 (puts the folders of what follows on the path)
from harness import BUILT, TOP, call, run_cases
from sources import sourced

SHIPPED = TOP / 'dist' / 'swimsim-x86_64-linux-gnu'
PLAIN_TOOLS = ('awk', 'bash', 'cut', 'dirname', 'find', 'grep', 'install', 'readlink', 'sed', 'sha256sum', 'sort', 'tr',
               'xargs')
CRASH = ('run', 'examples/crash.toml', '--trace', 't.csv', '--report', 'r.txt')


def provenance():
    lines = (TOP / 'dist' / 'PROVENANCE').read_text().splitlines()
    return dict(line.split(' ', 1) for line in lines)


def clone(room):
    """A copy of what the repository holds, and the few plain commands that a machine without a kit has."""
    listed = subprocess.run(['git', 'ls-files', '-z'], cwd=TOP, check=True, stdout=subprocess.PIPE, text=True).stdout
    for name in listed.split('\0')[:-1]:
        (room / 'clone' / name).parent.mkdir(parents=True, exist_ok=True)
        shutil.copy(TOP / name, room / 'clone' / name)
    (room / 'plain').mkdir()
    for name in PLAIN_TOOLS:
        (room / 'plain' / name).symlink_to(shutil.which(name))
    return room / 'clone'


def run_bare(copy, *words):
    """A command of a copy, called where there is neither a kit nor Python."""
    environment = {'PATH': str(copy.parent / 'plain')}
    return call([copy / words[0], *words[1:]], cwd=copy, env=environment, text=True)


def the_record_is_that_of_these_sources(_):
    sum_of = hashlib.sha256(SHIPPED.read_bytes()).hexdigest()
    assert provenance() == {'kit': sourced('rt', 'version'), 'sources': sourced('sources_digest'), 'program': sum_of}


def the_program_tells_its_digest_and_kit(_):
    assert sourced('release_value', 'SOURCES') == sourced('sources_digest'), 'tools/ready writes it'
    assert sourced('release_value', 'KIT') == sourced('rt', 'version'), 'tools/ready writes it'
    told = call([SHIPPED, '--version'], text=True).out
    record = provenance()
    assert told == f'swimsim {sourced("release_value", "VERSION")} (sources {record["sources"]}, {record["kit"]})\n', told


def what_was_built_is_what_is_shipped(room):
    sourced('strip_program', BUILT, room / 'stripped')
    assert (room / 'stripped').read_bytes() == SHIPPED.read_bytes()


def a_bare_machine_answers_its_first_question(room):
    copy, readme = clone(room), (TOP / 'README.md').read_text()
    words, answer = re.search(r'^```sh\n(.*?)^```\n\n```\n(.*?)^```$', readme, re.M | re.S).groups()
    (room / 'plain' / 'column').symlink_to(shutil.which('column'))
    ran = run_bare(copy, copy.parent / 'plain' / 'bash', '-c', words)
    assert (ran.status, ran.err, ran.out) == (0, '', answer), ran


def a_changed_byte_is_not_run(room):
    copy = clone(room)
    program = copy / 'dist' / SHIPPED.name
    changed = bytearray(program.read_bytes())
    changed[-1] ^= 1
    program.write_bytes(changed)
    assert run_bare(copy, 'swimsim', *CRASH).status != 0 and not (copy / 't.csv').exists()


def changed_sources_are_not_run(room):
    copy = clone(room)
    with open(copy / 'crates' / 'base' / 'src' / 'lib.rt', 'a') as source:
        source.write('// a change\n')
    assert run_bare(copy, 'swimsim', *CRASH).status != 0 and not (copy / 't.csv').exists()


def the_manual_page_is_that_of_the_program(_):
    page = subprocess.run([TOP / 'tools' / 'man', SHIPPED], check=True, capture_output=True, text=True).stdout
    assert page == (TOP / 'man' / 'swimsim.1').read_text(), 'tools/dist writes it'


def it_is_installed_where_people_look(room):
    copy, prefix = clone(room), room / 'prefix'
    for named in (prefix, 'below the current folder'):
        ran = run_bare(copy, 'tools/install', named)
        assert ran.status == 0, ran
    assert (copy / 'below the current folder' / 'bin' / 'swimsim').is_file()
    installed = prefix / 'bin' / 'swimsim'
    assert installed.read_bytes() == SHIPPED.read_bytes() and os.access(installed, os.X_OK)
    assert (prefix / 'share/man/man1/swimsim.1').is_file()
    examples = sorted(it.name for it in (prefix / 'share/doc/swimsim/examples').iterdir())
    assert examples == sorted(it.name for it in (TOP / 'examples').iterdir())


CASES = (
    the_record_is_that_of_these_sources, the_program_tells_its_digest_and_kit, what_was_built_is_what_is_shipped,
    a_bare_machine_answers_its_first_question, a_changed_byte_is_not_run, changed_sources_are_not_run,
    the_manual_page_is_that_of_the_program, it_is_installed_where_people_look,
)


if __name__ == '__main__':
    run_cases(CASES)
