#!/usr/bin/env python3
"""Runs the commands that README.md and docs/GUIDE.md, FORMAT.md, SWEEPS.md and MEMBERLIST.md show, and compares the outputs shown with them.

    tests/programs/documents.py [--program FILE] [DOCUMENT..]

The program is the one that ./swimsim has built, or FILE. The documents' blocks of commands run from the first to the last, each
to status 0, all in one folder with the examples: so no document is in another one's way. A block without a language is lines, in their
order, of what was last printed or written: by the command in the text right before it, else by the run of the example that
the section's heading names, else by the block of commands above. One that begins with `error[` is all that `explain` tells
of the text of tests/data/explain/refused that it names. The picture is one that tools/picture makes now. Blocks of other commands, as ./test, are left out; those that want a
command which isn't there are skipped, and told. The last line is `N passed, M failed`, and the status is 1 where M is over
0. With DOCUMENT, as docs/GUIDE.md, these alone are read, without the picture. All take some two minutes of one processor.
"""

import os
import re
import shutil
import sys
import tempfile
from collections import namedtuple
from pathlib import Path

import paths  # noqa: F401 (puts the folders of what follows on the path)
from harness import TOP, call, end, parser_of, program_at

DOCUMENTS = ('README.md', 'docs/GUIDE.md', 'docs/FORMAT.md', 'docs/SWEEPS.md', 'docs/MEMBERLIST.md')
REFUSED = TOP / 'tests' / 'data' / 'explain' / 'refused'
# commands that build, test or install are no business of this script
OTHERS = re.compile(r'^\s*(?:\./test|tools/|\./swimsim --from-source)', re.M)

# a block of a document: the line at which it begins, its language, its text, the lines right before it, and the example
# that the heading of its section names, if it does
Block = namedtuple('Block', 'line language text before example')


class Wrong(Exception):
    """What is wrong with a block."""


class Skipped(Exception):
    """Why a block can't be run here."""


def blocks_of(document):
    """The fenced blocks of a document, in their order."""
    lines = document.read_text().splitlines()
    fences = [number for number, line in enumerate(lines) if line.startswith('```')]
    for begin, end in zip(fences[::2], fences[1::2]):
        before = ' '.join(lines[max(0, begin - 4):begin])
        headings = [line for line in lines[:begin] if line.startswith('##')]
        example = re.search(r'`(examples/[\w-]+\.toml)`', headings[-1]) if headings else None
        yield Block(begin + 1, lines[begin][3:], '\n'.join(lines[begin + 1:end]) + '\n', before, example and example[1])


def make_folder(program, folder):
    """Puts the examples and the program into a folder."""
    shutil.copytree(TOP / 'examples', folder / 'examples')
    (folder / 'swimsim').symlink_to(program)


class Reader:
    """Somebody who runs a document's blocks, one after the other, in a folder, where other documents were read before."""

    def __init__(self, program, folder):
        self.folder = folder
        # what is shown must be told anew
        for path in folder.glob('*.txt'):
            path.unlink()
        self.commands = call([program, '--help'], text=True).out
        # what the last command printed, and each text that is there; of which example the run in t.csv and r.txt is
        self.told, self.example = [''], None

    def run(self, words):
        """Runs a text of commands, and keeps what they print and leave."""
        self.told = ['']
        for command in re.findall(r'swimsim (\w+)', words):
            if not re.search(rf'^  {command} ', self.commands, re.M):
                raise Skipped(f'the program has no command {command}')
        for tool in ('sqlite3',):
            if re.search(rf'^{tool} ', words, re.M) and not shutil.which(tool):
                raise Skipped(f'no {tool} here')
        environment = os.environ | {'PATH': f'{self.folder}:{os.environ["PATH"]}'}
        ran = call(['bash', '-ec', words], cwd=self.folder, env=environment, text=True)
        if ran.status != 0:
            raise Wrong(f'ends with status {ran.status}: {ran.err.strip()}')
        reports = [path.read_text() for path in sorted(self.folder.glob('*.txt'))]
        self.told = [ran.out, *reports]

    def explain(self, text):
        """What is told of a refused text of tests/."""
        name = re.search(r'--> ([\w./-]+):\d', text)[1]
        shutil.copy(REFUSED / name, self.folder)
        ran = call(['./swimsim', 'explain', name], cwd=self.folder, text=True)
        if ran.out != text:
            raise Wrong(f'`explain {name}` tells\n{ran.out}')

    def compare(self, block):
        """Whether what is shown is what was told."""
        if command := re.search(r'`(\./swimsim [^`]+)`[^`]*$', block.before):
            self.run(command[1])
        strangers = [stranger_in(block.text, told) for told in self.told]
        if None not in strangers:
            raise Wrong(f'not told, or not there: {max(strangers, key=block.text.index)}')

    def read(self, block):
        """Runs a block of commands, or compares one of an output."""
        if block.example not in (None, self.example):
            self.run(f'./swimsim run {block.example} --trace t.csv --report r.txt')
            self.example = block.example
        if block.language == 'sh':
            self.run(block.text)
        elif block.text.startswith('error['):
            self.explain(block.text)
        else:
            self.compare(block)


def stranger_in(shown, told):
    """The first line that is shown and doesn't stand in what was told, behind the one before it; None without one."""
    lines = iter(told.splitlines())
    return next((line for line in shown.splitlines() if line not in lines), None)


def read_document(name, program, folder):
    """How many blocks of a document are right in a folder, what is wrong, and what was skipped."""
    passed, failures, skipped = 0, [], []
    reader = Reader(program, folder)
    for block in blocks_of(TOP / name):
        if OTHERS.search(block.text):
            continue
        try:
            reader.read(block)
            passed += 1
        except Wrong as wrong:
            failures.append(f'{name}:{block.line}: {wrong}')
        except Skipped as why:
            skipped.append(f'{name}:{block.line}: skipped: {why}')
    return passed, failures, skipped


def check_picture(program):
    """Compares README.md's picture with what the program's page of that run shows, as `read_document` answers."""
    ran = call([sys.executable, TOP / 'tools' / 'picture', '--check', '--program', program], text=True)
    return (1, [], []) if ran.status == 0 else (0, [ran.err.strip()], [])


def main():
    """Reads the documents, and tells what is wrong in them."""
    parser = parser_of(__doc__)
    parser.add_argument('documents', nargs='*', metavar='DOCUMENT', help='default: all, and the picture')
    asked = parser.parse_args()
    program = program_at(asked.program)
    with tempfile.TemporaryDirectory() as room:
        make_folder(program, Path(room))
        results = [read_document(name, program, Path(room)) for name in asked.documents or DOCUMENTS]
    if not asked.documents:
        results.append(check_picture(program))
    failures = [line for _, lines, _ in results for line in lines]
    skipped = [line for _, _, lines in results for line in lines]
    print(*failures, *skipped, sep='\n', end='\n' if failures or skipped else '')
    end(sum(passed for passed, _, _ in results), len(failures), len(skipped) or None)


if __name__ == '__main__':
    main()
