#!/usr/bin/env python3
"""Drives HashiCorp's memberlist in the world of examples/beside-memberlist.toml, and compares it with `run` of the same text.

    tests/programs/drive_memberlist.py [--program FILE] [--seeds N]

It builds the harness of examples/drive/memberlist. Over seeds 1 to 20 failed probes, suspicions and refutations of both may
differ by 10 %. By chance alone each sum differs by 5 % (one standard error), but the same seeds make nearly the same sums.
Then it changes the text, and looks whether memberlist takes each setting; and it makes the page that shows both. Where Go
or Debian's package of memberlist is missing all is skipped, and the script says so. It takes a minute of four processors at
most. The last line is `N passed, M failed`, with `, K skipped` where some were, and the status is 1 where M is over 0.
"""

import os
import re
import shutil
import tempfile
from collections import Counter
from concurrent.futures import ThreadPoolExecutor
from itertools import chain
from pathlib import Path

import paths  # noqa: F401 (puts the folders of what follows on the path)
from harness import TOP, call, end, judge_cases, parser_of, program_at

EXAMPLE = TOP / 'examples' / 'beside-memberlist.toml'
BUILD = TOP / 'examples' / 'drive' / 'memberlist' / 'build'
SOURCES = Path('/usr/share/gocode/src/github.com/hashicorp/memberlist')
COMPARED = ('fail', 'false suspect', 'refute')
PERCENT = 10
CRASH = '[[crash]]\nmember = "node-5"\nat = 10000\n'
GOSSIP = '[gossip]\ninterval = 40\nnodes = 3\ndead = 6000\n'

# what stands for what in the example's text, to which a crash is added, and what then holds of the report
SETTINGS = (
    ({}, lambda counts: 1204 < counts['latency least'] < 2408),
    ({'alpha = 4': 'alpha = 8'}, lambda counts: 2408 < counts['latency least']),
    ({'beta = 6': 'beta = 1', 'loss = 100000': 'loss = 400000'}, lambda counts: counts['false confirm'] > 60),
    ({'period = 200': 'period = 1000'}, lambda counts: 900 < counts['sent ping'] < 2000),
    ({'timeout = 60': 'timeout = 1'}, lambda counts: counts['sent ping-req'] > 10000),
    ({'helpers = 3': 'helpers = 0'}, lambda counts: counts['sent ping-req'] == 0),
    ({'spread = 200': 'fallback = true'}, lambda counts: counts['sent call'] > 500 and counts['fail'] < 25),
    ({'lambda = 4': 'lambda = 1'}, lambda counts: 0 < counts['sent gossip'] < 6000),
    ({GOSSIP: ''}, lambda counts: counts['sent gossip'] == 0),
    ({'nodes = 3': 'nodes = 1'}, lambda counts: 0 < counts['sent gossip'] < 8000),
    ({'dead = 6000': 'dead = 6000\npush = 1000'}, lambda counts: counts['sent push'] > 500),
    ({'ceiling = 7': 'ceiling = 0'}, lambda counts: counts['health'] == 0),
)
# what memberlist has no settings for, and what the harness says of it
UNLIKE = {'confirmations = 2': 'confirmations = 1\nsuspicion = false', 'nack_percent = 100\n': '', 'end = 30000': 'end = 9'}
TOLD = ['lifeguard.confirmations = 1', 'lifeguard.nack_percent = 80', 'lifeguard.suspicion = 0', 'swim.carry = 15']


class Both:
    """The program, and the harness, which is built in a folder."""

    def __init__(self, program, room):
        self.program, self.room = program, room
        ran = call([BUILD, room])
        if ran.status != 0:
            raise RuntimeError(ran.err.decode())

    def ended(self, name, text, harness=()):
        """How a run of a text ends, or with the harness's words a drive."""
        (self.room / f'{name}.toml').write_text(text)
        words = [self.program, 'drive' if harness else 'run', f'{name}.toml', '--trace', os.devnull, '--report', f'{name}.txt']
        ran = call([*harness, *words], cwd=self.room)
        if ran.status != 0:
            raise RuntimeError(f'{name}: status {ran.status}, {ran.err.decode()}')
        return ran

    def counts(self, name, text, *harness):
        """The figures of the report of a run or a drive, each by the words before it."""
        self.ended(name, text, harness)
        lines = re.findall(r'^([a-z -]+?) (\d+)', (self.room / f'{name}.txt').read_text(), re.M)
        return Counter({words: int(figure) for words, figure in lines})

    def driven(self, name, text):
        return self.counts(f'driven-{name}', text, self.room / 'memberlist-driven')

    def run(self, name, text):
        return self.counts(f'run-{name}', text)


def compared(both, pool, seeds):
    """Both over the seeds."""
    texts = [changed({'seed = 1\n': f'seed = {seed}\n'}) for seed in range(1, seeds + 1)]
    sums = []
    for counts_of in both.driven, both.run:
        sums.append(sum(pool.map(counts_of, range(seeds), texts), Counter()))
    for what in COMPARED:
        driven, run = (it[what] for it in sums)
        fault = '' if run and 100 * abs(driven - run) <= PERCENT * run else f'they differ by more than {PERCENT} %'
        yield f'{what}, {seeds} seeds: memberlist {driven}, run {run}', fault


def changed(changes):
    """The example's text with some changes."""
    text = EXAMPLE.read_text()
    for old, new in changes.items():
        assert old in text, old
        text = text.replace(old, new)
    return text


def taken(both, pool):
    """Whether memberlist takes each setting."""
    texts = [changed(changes) + CRASH for changes, _ in SETTINGS]
    for (changes, holds), counts in zip(SETTINGS, pool.map(both.driven, map(str, range(len(texts))), texts)):
        name = ', '.join(new.replace('\n', ', ') or f'no {old.splitlines()[0]}' for old, new in changes.items())
        yield f'settings of memberlist: {name or "none changed"}', '' if holds(counts) else str(counts)


def named(both):
    """What memberlist has no settings for is named."""
    told = both.ended('named', changed(UNLIKE), [both.room / 'memberlist-driven']).err.decode()
    yield 'what memberlist has no settings for', '' if re.findall(r"can't do (.*)", told) == TOLD else told


def shown_together(both):
    """The page that shows both, of a text in which a member crashes: memberlist forgets it."""
    (both.room / 'crash.toml').write_text(changed({}) + CRASH)
    out = both.room / 'together'
    ran = call([BUILD.parent / 'compare', out, both.room / 'crash.toml'], env={**os.environ, 'SWIMSIM': str(both.program)})
    page = (out / 'compare.html').read_text() if ran.status == 0 else ''
    lines = dict(re.findall(r'<tr><td>([^<\n]*)<td>([^<\n]*<td>[^<\n]*)', page))
    asked = {
        'status': ran.status == 0,
        'pages': all(f'src="{name}.html"' in page and (out / f'{name}.html').exists() for name in 'mr'),
        'figures': re.fullmatch(r'[0-9]+ lost [0-9]+<td>[0-9]+ lost [0-9]+', lines.get('sent ping', '')),
        'forget': ',forget,node-5,' in (out / 'm.csv').read_text(),
    }
    missing = [name for name, holds in asked.items() if not holds]
    yield 'the page that shows both', f'not so: {missing} {ran.err.decode()}' if missing else ''


def main():
    parser = parser_of(__doc__)
    parser.add_argument('--seeds', type=int, default=20, metavar='N', help='default: 20')
    asked = parser.parse_args()
    program = program_at(asked.program)
    if not shutil.which('go') or not SOURCES.exists():
        print('skipped: no Go or no memberlist here (Debian: golang-go, golang-github-hashicorp-memberlist-dev)')
        end(0, 0, len(COMPARED) + len(SETTINGS) + 2)
    with tempfile.TemporaryDirectory() as room, ThreadPoolExecutor(os.cpu_count()) as pool:
        both = Both(program, Path(room))
        judge_cases(chain(compared(both, pool, asked.seeds), taken(both, pool), named(both), shown_together(both)))


if __name__ == '__main__':
    main()
