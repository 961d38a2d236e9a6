#!/usr/bin/env python3
"""Sees that `./swimsim` takes the program that fits, that a build goes on and tells a failure, and its order.

    tests/programs/launcher.py

Each case has a small repository of its own, whose `rt` is a script that says what it was asked for. Its last line is
`N passed, M failed`.
"""

import hashlib
import os
import shutil
import signal
import subprocess
import sys
import time

import paths  # noqa: F401 (puts the folders of what follows on the path)
from harness import TOP, call, run_cases
from schedule import Schedule, chains, crates_in, longest_chain, minutes_in
from sources import sourced

PLAIN_TOOLS = ('awk', 'bash', 'cat', 'cut', 'dirname', 'find', 'grep', 'readlink', 'sed', 'sha256sum', 'sort', 'tr', 'xargs')
CRATES = '# the program stands on two crates, beside one of tests\nlow:\nhigh: low toml\nswimsim: high\ntests: high\n'
RELEASE = 'pub const VERSION: &str = "9.9.9";\npub const SOURCES: &str = "";\npub const KIT: &str = "";\n'
# stands in for the kit: a library is proved by a line in asked.log, the program is a script
KIT = '''#!/usr/bin/env bash
case $1 in
    version) echo "${KIT_NAME-kit-1}" ;;
    lib)
        name=$(basename "$PWD")
        echo "$name" >>"$ASKED"
        [[ $name != "${REFUSES-}" ]] || { echo "$name is refused"; exit 1; }
        [[ $name != "${HANGS-}" ]] || { mkdir -p out/incremental; exec sleep 60; }
        mkdir -p out/rlib && echo made >out/rlib/made ;;
    run)
        echo swimsim >>"$ASKED"
        mkdir -p out && printf '#!/bin/sh\\n# debug\\necho built "$@"\\n' >out/swimsim && chmod +x out/swimsim ;;
esac
'''
# stands in for the kit's tool that strips: called as `--strip-all -o STRIPPED PROGRAM`
STRIP = '#!/bin/sh\ngrep -v "^# debug" "$4" >"$3"\n'
# the name of a folder whose every character would be the work of a shell that reads it
ODD = 'it\'s "a" house; touch lost; $(touch lost) & `touch lost` *\\'
# what editors and systems leave, and what no build reads
STRAYS = ('.lib.rt.swp', 'lib.rt~', '#lib.rt#', '.DS_Store', 'lib.rt.orig', '4913', 'out/rlib/made', 'out/lib.rt', 'out/Lib.antt')


class House:
    """A small repository with the launcher, a stand-in for the kit, and what its runs were asked for."""

    def __init__(self, room, name='house'):
        self.room, self.top, self.asked = room, room / name, room / 'asked.log'
        for crate in ('low', 'high', 'swimsim', 'tests'):
            (self.top / 'crates' / crate / 'src').mkdir(parents=True)
            (self.top / 'crates' / crate / 'src' / 'lib.rt').write_text(f'// {crate}\n')
        (self.top / 'crates' / 'swimsim' / 'src' / 'release.rt').write_text(RELEASE)
        (self.top / 'crates.txt').write_text(CRATES)
        shutil.copytree(TOP / 'tools', self.top / 'tools')
        for name in ('swimsim', 'test'):
            shutil.copy(TOP / name, self.top)
        (self.top / 'man').mkdir()
        (self.top / 'tools' / 'minutes.txt').write_text('low 1.0\nhigh 2.0\n')
        self.kit, self.plain = room / 'kit', room / 'plain'
        for path, text in ((self.kit / 'rt', KIT), (room / 'toolchain' / 'bin' / 'clang', STRIP)):
            path.parent.mkdir(parents=True)
            path.write_text(text)
            path.chmod(0o755)
        self.plain.mkdir()
        for name in PLAIN_TOOLS:
            (self.plain / name).symlink_to(shutil.which(name))

    def call(self, script, *words, with_kit=True, **environment):
        """What a script of the repository answers, and in asked.log the crates that were proved for it."""
        path = f'{self.kit}:{os.environ["PATH"]}' if with_kit else str(self.plain)
        self.asked.write_text('')
        return call([self.top / script, *words], cwd=self.room, text=True,
                    env={'PATH': path, 'ASKED': str(self.asked), **environment})

    def run(self, *words, **how):
        """Standard output of the launcher, its status, and the crates that were proved for it."""
        ran = self.call('swimsim', *words, **how)
        return ran.out, ran.status, self.asked.read_text().split()

    def change(self):
        """Changes a source of the program."""
        (self.top / 'crates' / 'low' / 'src' / 'lib.rt').write_text('// changed\n')

    def digest(self):
        return sourced('sources_digest', top=self.top)

    def ship(self, does='echo shipped "$@"'):
        """Puts a program into dist/ that says that it is the shipped one, or does something else."""
        program = self.top / 'dist' / 'swimsim-x86_64-linux-gnu'
        program.parent.mkdir()
        program.write_text(f'#!/bin/sh\n{does}\n')
        program.chmod(0o755)
        sum_of = hashlib.sha256(program.read_bytes()).hexdigest()
        (program.parent / 'PROVENANCE').write_text(f'kit kit-1\nsources {self.digest()}\nprogram {sum_of}\n')
        return program


def the_shipped_program_runs_without_a_kit(house):
    house.ship()
    assert house.run('a', 'b', with_kit=False) == ('shipped a b\n', 0, [])
    assert house.run('--which', with_kit=False)[0].endswith('/dist/swimsim-x86_64-linux-gnu\n')


def a_file_that_is_full_by_a_limit_is_no_signal(house):
    house.ship('while read -r key mask; do [ "$key" = SigIgn: ] && echo "$mask"; done </proc/self/status')
    ignored = int(house.run(with_kit=False)[0], 16)
    assert ignored >> (signal.SIGXFSZ - 1) & 1


def a_changed_byte_of_it_is_not_run(house):
    program = house.ship()
    program.write_text(program.read_text().replace('shipped', 'shopped'))
    assert house.run('a') == ('built a\n', 0, ['low', 'high', 'swimsim'])


def changed_sources_are_built(house):
    house.ship()
    house.change()
    assert house.run('a') == ('built a\n', 0, ['low', 'high', 'swimsim'])
    assert house.run('a') == ('built a\n', 0, []), 'what was built fits'


def a_changed_test_is_no_reason(house):
    house.ship()
    (house.top / 'crates' / 'tests' / 'src' / 'lib.rt').write_text('// changed\n')
    with open(house.top / 'crates.txt', 'a') as crates:
        crates.write('more_tests: tests\n')
    assert house.run('a', with_kit=False) == ('shipped a\n', 0, [])


def what_no_build_reads_is_no_reason(house):
    house.ship()
    for folder in ('src', 'specs', 'proofs'):
        for stray in STRAYS:
            path = house.top / 'crates' / 'low' / folder / stray
            path.parent.mkdir(parents=True, exist_ok=True)
            path.write_text('stray\n')
        (house.top / 'crates' / 'low' / folder / '.#lib.rt').symlink_to('somebody@somewhere.1')
    assert house.run('a', with_kit=False) == ('shipped a\n', 0, [])


def what_a_build_reads_counts(house):
    house.ship()
    digests = {house.digest()}
    names = ('src/more.rt', 'src/deep/er.rt', 'specs/More.antt', 'proofs/deep/More.antt', 'src/two\nlines.rt')
    for number, name in enumerate(names):
        path = house.top / 'crates' / 'low' / name
        path.parent.mkdir(parents=True, exist_ok=True)
        path.write_text('// more\n')
        digests.add(house.digest())
        assert len(digests) == number + 2, name
    assert house.run('a') == ('built a\n', 0, ['low', 'high', 'swimsim'])


def any_path_will_do(plain):
    house = House(plain.room / 'odd', ODD)
    assert house.digest() == plain.digest()
    assert house.run('a') == ('built a\n', 0, ['low', 'high', 'swimsim'])
    assert house.run('--which')[0] == f'{house.top}/crates/swimsim/out/swimsim\n'
    assert house.call('tools/dist').status == 0 and house.call('tools/dist', '--compare').status == 0
    assert house.run('a', with_kit=False) == ('built a\n', 0, [])
    assert not list(plain.room.rglob('*lost')), 'nothing of the path was run'


def from_source_takes_its_own(house):
    house.ship()
    assert house.run('--from-source', 'a') == ('built a\n', 0, ['low', 'high', 'swimsim'])
    assert house.run('--from-source', 'a') == ('built a\n', 0, [])
    assert house.run('a') == ('built a\n', 0, []), 'the one that was built here goes first'


def a_new_kit_builds_anew(house):
    house.run('a')
    assert house.run('a', KIT_NAME='kit-2') == ('built a\n', 0, ['low', 'high', 'swimsim'])


def a_build_tells_its_digest_and_kit(house):
    house.run('a')
    told = (house.top / 'crates' / 'swimsim' / 'src' / 'release.rt').read_text()
    assert f'SOURCES: &str = "{house.digest()}";' in told and 'KIT: &str = "kit-1";' in told, told
    assert 'VERSION: &str = "9.9.9";' in told


def a_refused_crate_is_told(house):
    out, status, proved = house.run('a', REFUSES='high')
    assert (out, status, proved) == ('', 1, ['low', 'high'])
    assert 'high is refused' in (house.top / 'crates' / 'swimsim' / 'out' / 'build.log').read_text()
    assert house.run('a')[0] == 'built a\n', 'and the next build is well'


def is_told_in_a_sentence(ran, status, *words):
    """Whether a script ended with this status, and with one line on standard error alone that has these words."""
    return (ran.status, ran.out, ran.err.count('\n')) == (status, '', 1) and all(word in ran.err for word in words)


def without_a_kit_a_build_fails(house):
    python = house.plain / 'python3'
    calls = [('swimsim', 'a'), ('swimsim', '--from-source', 'a'), ('tools/dist',), ('tools/dist', '--compare')]
    for is_python_there in (False, True):
        if is_python_there:
            python.symlink_to(sys.executable)
            calls.append(('tools/build',))
        for words in calls:
            ran = house.call(*words, with_kit=False)
            assert is_told_in_a_sentence(ran, 127, 'swimsim: ', 'no rt on the path'), (words, ran)
    python.unlink()
    (house.plain / 'rt').symlink_to(house.kit / 'rt')
    assert is_told_in_a_sentence(house.call('swimsim', 'a', with_kit=False), 127, 'no python3 on the path')


def another_shell_is_told_what_is_wanted(house):
    others = [[name] for name in ('dash', 'zsh', 'ksh') if shutil.which(name)]
    shells = [['bash', '-c', 'unset BASH_VERSION; source "$0"'], *others]
    for shell in shells:
        for script in ('swimsim', 'test', 'tools/dist', 'tools/install'):
            ran = call([*shell, house.top / script, 'a'], cwd=house.room, text=True)
            assert is_told_in_a_sentence(ran, 127, 'needs bash'), (shell, ran)


def nothing_is_installed_without_a_place(house):
    assert is_told_in_a_sentence(house.call('tools/install', ''), 2, 'PREFIX is empty')
    for words in ([], ['a', 'b'], ['--help']):
        assert is_told_in_a_sentence(house.call('tools/install', *words), 2, 'usage: tools/install PREFIX')


def ones_own_build_is_compared(house):
    assert house.call('tools/dist').status == 0
    program = house.top / 'dist' / 'swimsim-x86_64-linux-gnu'
    assert '# debug' not in program.read_text(), 'what is shipped is stripped'
    shutil.rmtree(house.top / 'crates' / 'swimsim' / 'out')
    ran = house.call('tools/dist', '--compare')
    wanted = hashlib.sha256(program.read_bytes()).hexdigest()
    assert (ran.status, ran.out) == (0, f'the same program: SHA-256 {wanted}\n'), ran
    assert 'swimsim' in house.asked.read_text(), 'it was built for that'
    program.write_text('another program\n')
    assert is_told_in_a_sentence(house.call('tools/dist', '--compare'), 1, 'the program in dist/ is another')
    assert program.read_text() == 'another program\n', 'nothing is changed'


def only_what_is_made_alike_is_compared(house):
    assert house.call('tools/dist').status == 0
    assert is_told_in_a_sentence(house.call('tools/dist', '--compare', KIT_NAME='kit-2'), 1, 'kit-1', 'kit-2')
    house.change()
    assert is_told_in_a_sentence(house.call('tools/dist', '--compare'), 1, 'from other sources')
    assert house.asked.read_text() == '', 'nothing is built for that'


def a_build_that_is_ended_stops_what_it_began(house):
    path = f'{house.kit}:{os.environ["PATH"]}'
    build = subprocess.Popen([house.top / 'tools' / 'build'], stderr=subprocess.DEVNULL,
                             env={'PATH': path, 'ASKED': str(house.asked), 'HANGS': 'low'})
    while not list(house.top.glob('crates/swimsim/out/trees/low/crates/low/out/incremental')):
        time.sleep(0.01)
    build.terminate()
    assert build.wait() == 1
    assert (house.top / 'crates' / 'low' / 'out' / 'incremental').is_dir(), 'what was done of it is kept'
    assert not list((house.top / 'crates' / 'swimsim' / 'out' / 'trees').iterdir())
    assert house.run('a') == ('built a\n', 0, ['low', 'high', 'swimsim'])


def what_a_killed_build_left_is_put_back(house):
    tree = house.top / 'crates' / 'swimsim' / 'out' / 'trees' / 'low'
    (tree / 'crates' / 'low' / 'out' / 'incremental').mkdir(parents=True)
    assert house.run('a')[0] == 'built a\n'
    assert (house.top / 'crates' / 'low' / 'out' / 'incremental').is_dir() and not tree.exists()


def the_longest_chain_goes_first(_):
    crates = crates_in('a:\nb: a\nc: a\nd: b c toml # a comment\ne:\nother: d\n# x: y\n')
    minutes = minutes_in('# a comment\na 1\nb 1\nc 5\nd 1\ne 6\n')
    assert chains(crates, minutes, 'd') == {'a': 7.0, 'b': 2.0, 'c': 6.0, 'd': 1.0}
    assert longest_chain(crates, minutes, 'd') == ['a', 'c', 'd']
    schedule = Schedule(crates, chains(crates, minutes, 'd'))
    assert schedule.ready() == ['a']
    schedule.begin('a')
    assert schedule.ready() == []
    schedule.end('a')
    assert schedule.ready() == ['c', 'b']


CASES = (
    the_shipped_program_runs_without_a_kit, a_file_that_is_full_by_a_limit_is_no_signal, a_changed_byte_of_it_is_not_run, changed_sources_are_built,
    a_changed_test_is_no_reason, what_no_build_reads_is_no_reason, what_a_build_reads_counts, any_path_will_do,
    from_source_takes_its_own, a_new_kit_builds_anew, a_build_tells_its_digest_and_kit, a_refused_crate_is_told,
    without_a_kit_a_build_fails, another_shell_is_told_what_is_wanted, nothing_is_installed_without_a_place, ones_own_build_is_compared,
    only_what_is_made_alike_is_compared, a_build_that_is_ended_stops_what_it_began, what_a_killed_build_left_is_put_back,
    the_longest_chain_goes_first,
)


if __name__ == '__main__':
    run_cases(CASES, House)
