#!/usr/bin/env python3
"""Uses the program as nobody should, and sees that no use loses data or answers a wrong status.

    tests/programs/misuse.py [--program FILE]

The program is the one that ./swimsim has built, or FILE; nothing of it is built here. Each use has a folder of its
own, with a scenario that takes, prints what it tried, and is wrong where it ends by a signal, answers another status than
is wanted, or leaves other bytes. Its last line is `N passed, M failed`. Linux only; it takes seconds.
"""

import hashlib
import os
import shutil
import subprocess
import sys
import tempfile
import threading
import time
from pathlib import Path

import paths  # noqa: F401 (puts the folders of what follows on the path)
from harness import call, end, first_line, parser_of, program_at
from program import TWO_MEMBERS
from tables import head, item, table

RUN = ('run', 's.toml', '--trace')
OLD = b'an older result\n'


class Uses:
    """Runs the uses, and counts them."""

    def __init__(self, program):
        self.program, self.well, self.wrong = program, 0, 0

    def call(self, folder, words, **how):
        """Status, standard output and error of the program, which has to end within 20 seconds."""
        return call([self.program, *words], 20, cwd=folder, **how)

    def judge(self, what, is_well, seen=''):
        """Prints what was tried, and whether it went well."""
        print(f'{"well " if is_well else "WRONG"} {what}{"" if is_well else f": {seen}"}')
        self.well += is_well
        self.wrong += not is_well


def folder_of(room, name):
    """A folder with the scenario."""
    folder = room / name
    folder.mkdir()
    (folder / 's.toml').write_text(TWO_MEMBERS)
    return folder


def names(uses, room, whole):
    """One file under two names: nothing is made, and nothing is lost."""
    ways = {'the same name': lambda f: 'x', './x': lambda f: './x', 'a link': lambda f: os.symlink('x', f / 'l') or 'l',
            'a hard link': lambda f: os.link(f / 'x', f / 'h') or 'h'}
    for number, (way, name_in) in enumerate(ways.items()):
        folder = folder_of(room, f'names-{number}')
        (folder / 'x').write_bytes(OLD)
        left = uses.call(folder, [*RUN, 'x', '--report', name_in(folder)])
        uses.judge(f'trace and report by {way}', left[0] == 1 and (folder / 'x').read_bytes() == OLD, left)
        (folder / 'x').write_text(TWO_MEMBERS)
        for option in (['--trace', name_in_again(folder, way)], ['--trace', 't', '--report', name_in_again(folder, way)]):
            left = uses.call(folder, ['run', 'x', *option])
            is_well = left[0] == 1 and (folder / 'x').read_text() == TWO_MEMBERS and not (folder / 't').exists()
            uses.judge(f'the scenario as {option[-2][2:]} by {way}', is_well, left)
    folder = folder_of(room, 'output')
    with open(folder / 'out', 'wb') as out:
        left = uses.call(folder, [*RUN, 'out'], stdout=out, stderr=subprocess.PIPE)
    uses.judge('the trace as standard output', left[0] == 1 and left[2] == b'swimsim: file out\n', left)
    left = uses.call(folder, [*RUN, '/dev/null', '--report', '/dev/null'])
    uses.judge('/dev/null twice', left[0] == 0 and left[1] == b'rows 6\n', left)


def name_in_again(folder, way):
    """The second name of x in the folder, once it is there."""
    return {'the same name': 'x', './x': './x', 'a link': 'l', 'a hard link': 'h'}[way]


def texts(uses, room, whole):
    """Texts that no scenario is: deep, long, or no text."""
    folder = folder_of(room, 'texts')
    path = b'.'.join([b'a'] * 80) + b' = '
    deepest = path + (b'{' + path) * 80 + b'1' + b'}' * 80 + b'\n'
    for what, text in (('100,000 lists within each other', b'a = ' + b'[' * 100_000), ('100 MB', b'#' + b'x' * 100_000_000),
                       ('6,480 tables within each other', deepest),
                       ('bytes that are no text', bytes(range(256))), ('nothing', b'')):
        (folder / 'f').write_bytes(text)
        left = uses.call(folder, ['check', 'f'])
        uses.judge(what, left[0] in (3, 5) and left[1] == b'', left)
    for what, name in (('a folder', '.'), ('no file', 'absent'), ('a file below a file', 's.toml/x')):
        left = uses.call(folder, ['check', name])
        uses.judge(f'{what} as the scenario', left[0] == 1, left)


def stacks(uses, room, whole):
    """Texts of some 25 KB of tables and lists within each other, read with a stack of 2 MB, and of 1 MB."""
    folder = folder_of(room, 'stacks')
    path = b'.'.join([b'a'] * 80) + b' = '
    deep = {'tables by dotted keys': path + (b'{' + path) * 150 + b'1' + b'}' * 150 + b'\n',
            'tables': b'a = ' + b'{a = ' * 5_000 + b'1' + b'}' * 5_000 + b'\n',
            'lists': b'a = ' + b'[' * 12_500 + b']' * 12_500 + b'\n',
            'one header': b'[' + b'.'.join([b'a'] * 12_500) + b']\nb = 1\n',
            'one list header': b'[[' + b'.'.join([b'a'] * 12_500) + b']]\nb = 1\n',
            'one key': b'.'.join([b'a'] * 12_500) + b' = 1\n'}
    for what, text in deep.items():
        (folder / 'f').write_bytes(text)
        for command in ('check', 'explain'):
            for size in (2048, 1024):
                line = f'ulimit -s {size}; exec "$0" {command} f'
                left = call(['bash', '-c', line, uses.program], 20, cwd=folder)
                uses.judge(f'{command} of {what}, {size} KB of stack', left[0] in (3, 5), left)


def outputs(uses, room, whole):
    """Files and outputs that take nothing."""
    folder = folder_of(room, 'outputs')
    (folder / 't').write_bytes(OLD)
    left = uses.call(folder, [*RUN, '/dev/full'])
    uses.judge('a full disk for the trace', left[0] == 5 and left[1] == b'', left)
    left = uses.call(folder, [*RUN, 'u', '--report', '/dev/full'])
    uses.judge('a full disk for the report', left[0] == 5 and (folder / 'u').read_bytes() == whole, left)
    for report in ('no/folder', '.'):
        left = uses.call(folder, [*RUN, 't', '--report', report])
        uses.judge(f'{report} for the report', left[0] == 1 and (folder / 't').read_bytes() == OLD, left)
    with open('/dev/full', 'wb') as full:
        left = uses.call(folder, [*RUN, 'u'], stdout=full, stderr=subprocess.PIPE)
        uses.judge('standard output that is full', left[0] == 1, left)
        left = uses.call(folder, ['check', 'absent'], stderr=full)
        uses.judge('standard error that is full', left[0] == 1, left)
    for closed in ('>&-', '2>&-', '>&- 2>&-', '<&-'):
        ran = call(['sh', '-c', f'"$0" run s.toml --trace u {closed}', uses.program], cwd=folder)
        wanted = 1 if closed.startswith('>') else 0
        uses.judge(f'outputs closed by {closed}', ran.status == wanted and (folder / 'u').read_bytes() == whole, ran)


def pipes(uses, room, whole):
    """Pipes with names, for what is read and what is written."""
    folder = folder_of(room, 'pipes')
    for name in ('in', 'out'):
        os.mkfifo(folder / name)
    taken = []
    threads = [threading.Thread(target=lambda: (folder / 'in').write_text(TWO_MEMBERS), daemon=True),
               threading.Thread(target=lambda: taken.append((folder / 'out').read_bytes()), daemon=True)]
    for thread in threads:
        thread.start()
    left = uses.call(folder, ['run', 'in', '--trace', 'out'])
    for thread in threads:
        thread.join(10)
    uses.judge('pipes as scenario and trace', left[0] == 0 and taken == [whole], left)


def read_once(uses, room, whole):
    """Scenarios and tables that are refused, from pipes: the program waits for nobody to write them again, and says only what it knows."""
    folder = folder_of(room, 'read_once')
    os.mkfifo(folder / 'pipe')
    bad = TWO_MEMBERS.replace('version = 1', 'version = 9')
    values = 'write these values into a copy of the scenario, and swimsim explain prints what is wrong'
    for text, swept, told in ((TWO_MEMBERS, ['--set', 'swim.timeout=2000'], f'9 with swim.timeout=2000\n{values}'),
                              (bad, ['--set', 'swim.timeout=2000'], f'5 with swim.timeout=2000\n{values}'),
                              (bad, [], '5\nwrite the scenario to a file, and swimsim explain prints all errors and how to fix them')):
        for name in ('pipe', '/dev/stdin'):
            left = call_fed(uses, folder, ['sweep', name, '--table', 't', *swept], {'pipe': text} if name == 'pipe' else {}, text)
            uses.judge(f'{name}: {told[:30]!r}', left == (3, b'', f'swimsim: scenario rule {told}\n'.encode()), left)
    left = call_fed(uses, folder, ['sweep', 'pipe', '--table', 't', '--set', 'group.k.count=2'], {'pipe': TWO_MEMBERS})
    uses.judge('an item that a scenario from a pipe has not', left == (2, b'', b'swimsim: usage: no item of group.k.count\n'), left)
    uses.call(folder, ['sweep', 's.toml', '--table', 'whole.csv', '--seeds', '1..3'])
    os.mkfifo(folder / 'other')
    table = (folder / 'whole.csv').read_text()
    left = call_fed(uses, folder, ['join', 'pipe', 'other', '--table', 'u'], {'pipe': table, 'other': table})
    told = b'swimsim: piece other twice\nother has the same runs as another file; leave one of them out\n'
    uses.judge('one table from two pipes', left == (3, b'', told) and not (folder / 'u').exists(), left)


def call_fed(uses, folder, words, pipes, text=''):
    """Calls the program while others write these texts into pipes once, and this one into its standard input."""
    threads = [threading.Thread(target=(folder / name).write_text, args=(held,), daemon=True) for name, held in pipes.items()]
    for thread in threads:
        thread.start()
    out, into = os.pipe()
    os.write(into, text.encode())
    os.close(into)
    left = uses.call(folder, words, stdin=out)
    os.close(out)
    return left


def ends(uses, room, whole):
    """Runs that are killed, short of memory, or two at once."""
    folder = folder_of(room, 'ends')
    long_run = TWO_MEMBERS.replace('end = 3', 'end = 400000').replace('count = 2', 'count = 500')
    (folder / 'long.toml').write_text(long_run)
    started = subprocess.Popen([uses.program, 'run', 'long.toml', '--trace', 'k'], cwd=folder, stdout=subprocess.PIPE)
    time.sleep(0.3)
    started.kill()
    out = started.communicate()[0]
    uses.judge('a run that is killed', started.returncode in (-9, 0) and (out == b'') == (started.returncode == -9), started)
    for kilobytes in (4_000, 8_000, 16_000, 32_000, 64_000, 256_000):
        (folder / 'm').unlink(missing_ok=True)
        line = f'ulimit -v {kilobytes}; exec "$0" run s.toml --trace m --workers 2 --parts 3'
        ran = call(['sh', '-c', line, uses.program], cwd=folder)
        left = (folder / 'm').read_bytes() if (folder / 'm').exists() else b''
        # below some size the system itself can't start a program
        is_well = (left == whole) if ran.status == 0 else whole.startswith(left) and (ran.status in (5, 127, 126) or not left)
        uses.judge(f'{kilobytes} kB of memory (status {ran.status})', is_well, ran)
    both = [subprocess.Popen([uses.program, *RUN, 'b'], cwd=folder, stdout=subprocess.PIPE) for _ in range(2)]
    statuses = [it.wait(20) for it in both]
    uses.judge('two runs on one file', statuses == [0, 0] and (folder / 'b').read_bytes() == whole, statuses)


def words(uses, room, whole):
    """Words that are no text, and the program under a name that is none."""
    folder = folder_of(room, 'words')
    left = uses.call(folder, [b'check', b'\xff.toml'])
    uses.judge('a word that is no text', left[0] == 2, left)
    odd = os.fsencode(folder) + b'/\xff'
    shutil.copy(uses.program, odd)
    ran = call([odd, b'check', b's.toml'], cwd=folder)
    uses.judge('the program under a name that is no text', ran.status == 0, ran)
    left = uses.call(folder, ['check', 'a\nb'])
    uses.judge('a name of two lines is told in one', left[0] == 1 and left[2].count(b'\n') == 1, left)


def sizes(uses, room, whole):
    """More than there may be in a version of the format, and long lists."""
    folder = folder_of(room, 'sizes')
    second = TWO_MEMBERS.replace('version = 1', 'version = 2')
    fourth = TWO_MEMBERS.replace('version = 1', 'version = 4')
    cut = '[[cut]]\nfrom = "n"\nto = "n"\nat = 1\nuntil = 2\n'
    # every one of them lasts a tick, and the next begins two ticks after it began: 50,000 a member in 100,000 ticks
    often = '[[pause]]\ngroup = "n"\nfrom = 1\nuntil = {}\nevery = 1\nlasts = 1\n'
    for what, text, status, line in (('4,097 members', second.replace('count = 2', 'count = 4097'), 3, b'swimsim: scenario rule 5\n'),
                                     ('twice 2,049', second.replace('count = 2', 'count = 2049').replace('[[group]]', '[[group]]\nname = "m"\ncount = 2049\n[[group]]'),
                                      3, b'swimsim: scenario rule 10\n'),
                                     ('a cut in version 1', TWO_MEMBERS + cut, 3, b'swimsim: scenario rule 3\n'),
                                     ('version 5', TWO_MEMBERS.replace('version = 1', 'version = 5'), 3, b'swimsim: scenario rule 5\n'),
                                     ('16,384 members in version 4', fourth.replace('count = 2', 'count = 16384'), 0, b''),
                                     ('16,385 members', fourth.replace('count = 2', 'count = 16385'), 3, b'swimsim: scenario rule 5\n'),
                                     ('50,000 restarts', fourth + '[[restart]]\nmember = "n-1"\nat = 3\n' * 50_000, 0, b''),
                                     ('100,000 pauses by chance', fourth + often.format(100_000), 0, b''),
                                     ('two more', fourth + often.format(100_002), 3, b'swimsim: scenario rule 10\n'),
                                     ('10^12 pauses by chance', fourth + often.format(2**40), 3, b'swimsim: scenario rule 10\n'),
                                     ('50,000 cuts', second + cut * 50_000, 0, b'')):
        (folder / 'f').write_text(text)
        left = uses.call(folder, ['check', 'f'])
        uses.judge(what, (left[0], left[2]) == (status, line), left)
    for what, division in (('a list of 60,000 parts', ','.join(['0'] * 60_000)), ('a list of commas', ',' * 100_000), ('an empty list', '')):
        left = uses.call(folder, [*RUN, 't', '--division', division])
        uses.judge(what, left[0] == 4 and not (folder / 't').exists(), left)
    (folder / 'old').write_bytes(OLD)
    left = uses.call(folder, [*RUN, 'old', '--report', 's.toml'])
    uses.judge('an older trace beside the scenario as report', left[0] == 1 and (folder / 'old').read_bytes() == OLD, left)


def removals(uses, room, whole):
    """Runs that fail while others use their files: nothing is removed that isn't theirs."""
    folder = folder_of(room, 'removals')
    (folder / 'victim').write_bytes(OLD)
    (folder / 'gone').mkdir()
    os.mkfifo(folder / 'pipe')
    started = subprocess.Popen([uses.program, *RUN, 't', '--report', 'pipe', '--page', 'gone/p'], cwd=folder,
                               stdout=subprocess.PIPE, stderr=subprocess.PIPE)
    time.sleep(1)
    (folder / 't').unlink(missing_ok=True)
    (folder / 't').symlink_to('victim')
    (folder / 'gone').rmdir()
    (folder / 'pipe').read_bytes()
    out, err = started.communicate(timeout=20)
    is_well = started.returncode == 1 and (folder / 'victim').read_bytes() == OLD and (folder / 't').is_symlink()
    uses.judge('a trace that became a link while the report waited', is_well, (started.returncode, out, err))
    wrong = []
    for _ in range(30):
        (folder / 'u').unlink(missing_ok=True)
        fails = subprocess.Popen([uses.program, *RUN, 'u', '--report', 'no/folder'], cwd=folder, stderr=subprocess.PIPE)
        left = uses.call(folder, [*RUN, 'u'])
        fails.communicate(timeout=20)
        if (fails.returncode, left[0]) != (1, 0) or not (folder / 'u').exists() or (folder / 'u').read_bytes() != whole:
            wrong.append((fails.returncode, left))
    uses.judge('a run that fails beside one on the same trace', not wrong, wrong)
    left = uses.call(folder, [*RUN, 'new', '--report', 'no/folder'])
    uses.judge('a failed run makes nothing', left[0] == 1 and not (folder / 'new').exists(), left)


def replaced(uses, room, whole):
    """What reports and pages replace: an old one never stands beside a new trace, and a new one is whole."""
    folder = folder_of(room, 'replaced')
    long_run = TWO_MEMBERS.replace('end = 3', 'end = 400000').replace('count = 2', 'count = 500')
    (folder / 'long.toml').write_text(long_run)
    for name in ('t', 'r', 'p'):
        (folder / name).write_bytes(OLD)
    outputs = ['--report', 'r', '--page', 'p']
    started = subprocess.Popen([uses.program, 'run', 'long.toml', '--trace', 't', *outputs], cwd=folder, stdout=subprocess.PIPE)
    for _ in range(200):
        time.sleep(0.05)
        if (folder / 't').stat().st_size not in (0, len(OLD)):
            break
    started.kill()
    started.communicate()
    held = [(folder / name).read_bytes() for name in ('r', 'p')]
    uses.judge('a killed run beside an older report', started.returncode == -9 and held == [b'', b''], held)
    (folder / 'h').hardlink_to(folder / 'p')
    (folder / 'l').symlink_to('r')
    (folder / 'r').chmod(0o600)
    (folder / 'first').write_bytes(b'')
    left = uses.call(folder, [*RUN, 'first', '--report', 'first-r', '--page', 'first-p'])
    report, page = ((folder / f'first-{name}').read_bytes() for name in ('r', 'p'))
    left = uses.call(folder, [*RUN, 't', '--report', 'l', '--page', 'p'])
    is_well = left[0] == 0 and (folder / 'l').is_symlink() and (folder / 'r').read_bytes() == report
    uses.judge('a report through a link', is_well, left)
    uses.judge('a report keeps its permissions', (folder / 'r').stat().st_mode & 0o777 == 0o600, (folder / 'r').stat())
    uses.judge('a page that has two names', (folder / 'p').read_bytes() == (folder / 'h').read_bytes() == page, left)
    wanted = ['first', 'first-p', 'first-r', 'h', 'l', 'long.toml', 'p', 'r', 's.toml', 't']
    uses.judge('nothing else is left', sorted(os.listdir(folder)) == wanted, os.listdir(folder))


def error_stream(uses, room, whole):
    """Standard error as a file of the run, which would get the run's line in its midst."""
    folder = folder_of(room, 'error')
    os.link(folder / 's.toml', folder / 'scenario')
    for option, words in (('trace', [*RUN, 'e']), ('report', [*RUN, 't', '--report', './e']),
                          ('page', [*RUN, 't', '--page', 'e']), ('table', ['sweep', 's.toml', '--table', 'e', '--progress'])):
        with open(folder / 'e', 'wb') as err:
            left = uses.call(folder, words, stdout=subprocess.PIPE, stderr=err)
        is_well = left[0] == 1 and (folder / 'e').read_bytes().startswith(b'swimsim: file ') and not (folder / 't').exists()
        uses.judge(f'the {option} as standard error', is_well, left)
    left = uses.call(folder, [*RUN, '/dev/stderr'])
    uses.judge('the trace as standard error, by its own name', left[0] == 1 and left[2] == b'swimsim: file /dev/stderr\n', left)
    with open('/dev/null', 'wb') as nothing:
        left = uses.call(folder, [*RUN, '/dev/stderr'], stdout=subprocess.PIPE, stderr=nothing)
    uses.judge('the trace as standard error that is /dev/null', left[0] == 0, left)
    ran = subprocess.run(['sh', '-c', '"$0" run s.toml --trace t >out 2>&1', uses.program], cwd=folder)
    uses.judge('both streams in one file', ran.returncode == 0 and (folder / 'out').read_bytes() == b'rows 6\n', ran)


def pieces(uses, room, whole):
    """Pieces that are joined into one of themselves, or without room: each is left as it was."""
    folder = folder_of(room, 'pieces')
    for number in (1, 2):
        uses.call(folder, ['sweep', 's.toml', '--table', f'{number}.csv', '--seeds', '1..4', '--shard', f'{number}/2'])
    held = [(folder / f'{number}.csv').read_bytes() for number in (1, 2)]
    joining = ['1.csv', '2.csv']
    for words in (['join', *joining, '--table', '2.csv'], ['join', *joining, '--table', './1.csv'],
                  ['join', *joining, '--table', 't', '--page', '2.csv'], ['page', *joining, '--out', '2.csv']):
        left = uses.call(folder, words)
        is_well = left[0] == 1 and [(folder / name).read_bytes() for name in joining] == held and not (folder / 't').exists()
        uses.judge(f'{" ".join(words)}', is_well, left)
    names = sorted(os.listdir(folder))
    for words in (['join', *joining, '--table', 'old'], ['page', *joining, '--out', 'old']):
        (folder / 'old').write_bytes(OLD)
        line = 'trap "" XFSZ; ulimit -f 0; exec "$0" "$@"'
        ran = subprocess.run(['sh', '-c', line, uses.program, *words], cwd=folder, capture_output=True)
        is_well = ran.returncode == 5 and (folder / 'old').read_bytes() == OLD and sorted(os.listdir(folder)) == sorted([*names, 'old'])
        uses.judge(f'{words[0]} without room over an older file', is_well, ran)
        (folder / 'old').unlink()


def going_on(uses, room, whole):
    """Tables that go on by --resume: through a link, and where they can't be cut off, as pipes and devices."""
    folder = folder_of(room, 'going_on')
    words = ['sweep', 's.toml', '--shard', '1/1', '--seeds', '1..9', '--resume', '--table']
    uses.call(folder, [*words, 'whole'])
    table = (folder / 'whole').read_bytes()
    (folder / 't').write_bytes(table[:-20])
    (folder / 'link').symlink_to('t')
    left = uses.call(folder, [*words, 'link'])
    is_well = left[0] == 0 and (folder / 'link').is_symlink() and (folder / 't').read_bytes() == table
    uses.judge('a table that goes on through a link', is_well, left)
    left = uses.call(folder, [*words, '/dev/null'])
    uses.judge('a table that goes on in /dev/null', left == (0, b'', b''), left)
    os.mkfifo(folder / 'pipe')
    for held, wanted, told in ((table[:-20], 1, b''), (b'', 0, table)):
        started = subprocess.Popen([uses.program, *words, 'pipe'], cwd=folder, stdout=subprocess.PIPE, stderr=subprocess.PIPE)
        (folder / 'pipe').write_bytes(held)
        got = (folder / 'pipe').read_bytes() if wanted == 0 else b''
        err = started.communicate(timeout=20)[1]
        is_well = started.returncode == wanted and got == told and first_line(err) == (b'' if wanted == 0 else b'swimsim: file pipe\n')
        uses.judge(f'a table that goes on in a pipe that held {len(held)} bytes', is_well, (started.returncode, err, got))


def damaged(uses, room, whole):
    """Tables with damaged lines: `join` and `page` refuse each, and `--resume` makes it again, with a width and without."""
    for name, until in (('damaged', []), ('damaged_cases', ['--until', '30'])):
        folder = folder_of(room, name)
        (folder / 'other.toml').write_text(TWO_MEMBERS + '# another text\n')
        asked = ['--set', 'swim.period=1000,1100', '--seeds', '1..12', *until, '--table']
        for shard in ('1/1', '1/2', '2/2'):
            uses.call(folder, ['sweep', 's.toml', '--shard', shard, *asked, f'{shard[0]}-{shard[2]}.csv'])
        uses.call(folder, ['sweep', 'other.toml', *asked, 'other.csv'])
        whole_words = ['sweep', 's.toml', '--resume', '--shard', '1/1', *asked]
        whole_table = (folder / '1-1.csv').read_bytes()
        shard_words = ['sweep', 's.toml', '--resume', '--shard', '2/2', *asked]
        shard_table = (folder / '2-2.csv').read_bytes()
        others = [(folder / table).read_bytes().splitlines(keepends=True) for table in ('2-2.csv', 'other.csv')]
        for told, damages in damages_of(whole_table, *others).items():
            judge_damages(uses, folder, f'{told}{" and a width" if until else ""}', damages, [], whole_words, whole_table)
        digits = list(changed_digits(shard_table))
        judge_damages(uses, folder, f'with a digit changed{" and a width" if until else ""}', digits, ['1-2.csv'], shard_words, shard_table)


def damages_of(table, shard, other):
    """The table with lines that are damaged or stand at another place, by what is told of them."""
    header, *lines = table.splitlines(keepends=True)
    tables = {}
    for place in range(0, len(lines) - 1, 5):
        before, here, behind = lines[:place], lines[place], lines[place + 1:]
        for told, instead in (('with a line twice', [here, here]), ('with two lines swapped', [behind[0], here]), ('without a line', []),
                              ('with junk as a line', [b'junk\n']), ('with a hole', [bytes(len(here))]),
                              ('with a hole up to a line feed', [bytes(len(here) - 1) + b'\n']),
                              ('with a line of another place', [shard[1]]), ('with a line of another sweep', [other[place + 1]])):
            left = behind[1:] if told == 'with two lines swapped' else behind
            tables.setdefault(told, []).append(b''.join([header, *before, *instead, *left]))
    return tables


def changed_digits(table):
    """The table with each digit behind its first line changed, one by one."""
    for place in range(table.index(b'\n'), len(table)):
        if table[place:place + 1].isdigit():
            digit = b'%d' % ((table[place] - ord('0') + 1) % 10)
            yield table[:place] + digit + table[place + 1:]


def disagreeing(uses, room, whole):
    """Tables with a line that has the right checksum, but isn't what a sweep writes there: its metadata isn't that of its other columns, its seed is
    another one, or a number isn't written as a sweep writes it."""
    folder = folder_of(room, 'disagreeing')
    (folder / 's.toml').write_text(head(60000, seed=7) + table('link', delay=1) + item('group', name='n', count=8) + item('crash', member='n-3', at=2000))
    asked = ['--set', 'swim.period=1000,1100', '--seeds', '7..10', '--table']
    words = ['sweep', 's.toml', '--resume', '--shard', '1/1', *asked]
    uses.call(folder, [*words, 'whole'])
    text = (folder / 'whole').read_bytes()
    header, *lines = text.splitlines(keepends=True)
    for place in (0, len(lines) - 1):
        for told, line in changed_cells(lines[place]).items():
            lines_then = [*lines[:place], summed(header, line), *lines[place + 1:]]
            judge_damages(uses, folder, f'with another {told} in line {place + 1}', [b''.join([header, *lines_then])], [], words, text)
    same = b''.join([header, *(summed(header, line.split(b' ', 1)[1]) for line in lines)])
    uses.judge('the checksums of this test are those of the table', same == text, same)
    own_seeds(uses, folder)


def own_seeds(uses, folder):
    """Tables made without `--seeds` of which a line has the right checksum, but another seed than the other lines; with a width, and without."""
    for until, told in (([], ''), (['--until', '30'], ' and a width')):
        asked = ['--set', 'swim.period=1000,1100', *until, '--table']
        for shard in ('1/1', '1/2', '2/2'):
            uses.call(folder, ['sweep', 's.toml', '--shard', shard, *asked, f'{shard[0]}-{shard[2]}.csv'])
        for name, others in (('1-1', []), ('2-2', ['1-2.csv'])):
            words = ['sweep', 's.toml', '--resume', '--shard', name.replace('-', '/'), *asked]
            text = (folder / f'{name}.csv').read_bytes()
            judge_damages(uses, folder, f'{name} with another seed{told}', with_other_seeds(text)[0], others, words, text)
        same = with_other_seeds((folder / '1-1.csv').read_bytes())[1]
        (folder / 't').write_bytes(same)
        left = uses.call(folder, ['join', 't', '--table', 'joined'])
        uses.judge(f'a table of one seed, whichever it is{told}', left[0] == 0 and (folder / 'joined').read_bytes() == same, left)


def with_other_seeds(table):
    """The table with another seed in each of its lines, one by one, and with that seed in all of them."""
    header, *lines = table.splitlines(keepends=True)
    changed = [summed(header, line.split(b' ', 1)[1].replace(b',7,', b',8,', 1)) for line in lines]
    return [b''.join([header, *lines[:place], line, *lines[place + 1:]]) for place, line in enumerate(changed)], b''.join([header, *changed])


def changed_cells(line):
    """The line without its checksum, by what of it is changed: a number of its metadata that its columns say too, its seed, or a figure."""
    metadata, *cells = line.split(b' ', 1)[1].split(b',')
    numbers = metadata.split(b' ')
    changed = {}
    for place, told in ((0, 'count of false suspicions'), (1, 'count of members with a false death'), (3, 'count of messages'), (5, 'time of a suspicion'),
                        (6, 'time of a detection'), (7, 'time of a last confirmation')):
        instead = b'9' if numbers[place] == b'-' else b'%d' % (int(numbers[place]) + 1)
        changed[f'{told} in the metadata'] = b','.join([b' '.join([*numbers[:place], instead, *numbers[place + 1:]]), *cells])
    changed['crash in the metadata'] = b','.join([metadata + b' 1 2 3', *cells])
    changed['seed'] = b','.join([metadata, cells[0], b'%d' % (int(cells[1]) + 1), *cells[2:]])
    changed['figure, with a leading zero,'] = b','.join([metadata, *cells[:2], b'0' + cells[2], *cells[3:]])
    changed['figure, which is missing,'] = b','.join([metadata, *cells[:2], b'', *cells[3:]])
    changed['number of columns'] = b','.join([metadata, *cells[:-1], b'0', cells[-1]])
    return changed


def summed(header, line):
    """The line with its checksum, as a line of the table with this header."""
    name = header[1:header.index(b'"', 1)].split(b' ', 1)[1]
    return hashlib.sha256(hashlib.sha256(name).digest() + line).hexdigest()[:8].encode() + b' ' + line


def judge_damages(uses, folder, told, damages, others, words, table):
    """Judges whether each damaged table is refused, and made again."""
    seen = [refused(uses, folder, held, others, words, table) for held in damages]
    first = next((it for is_well, it in seen if not is_well), '')
    uses.judge(f'{len(damages)} tables {told}', damages and all(is_well for is_well, _ in seen), first)


def refused(uses, folder, held, others, words, table):
    """Whether a table is refused by `join` and `page`, beside others, and made again by `--resume`; and what was seen."""
    (folder / 't').write_bytes(held)
    joined = uses.call(folder, ['join', *others, 't', '--table', 'u'])
    paged = uses.call(folder, ['page', *others, 't', '--out', 'p'])
    went = uses.call(folder, [*words, 't'])
    again = (folder / 't').read_bytes()
    told = [(status, out, first_line(err)) for status, out, err in (joined, paged)]
    is_well = told == [(3, b'', b'swimsim: piece t torn\n')] * 2 and went == (0, b'', b'') and again == table
    return is_well and not (folder / 'u').exists() and not (folder / 'p').exists(), (joined, paged, went)


def main():
    uses = Uses(program_at(parser_of(__doc__).parse_args().program))
    with tempfile.TemporaryDirectory() as name:
        room = Path(name)
        folder = folder_of(room, 'whole')
        status = uses.call(folder, [*RUN, 't'])[0]
        if status != 0:
            sys.exit(f'misuse: status {status} of a plain run')
        whole = (folder / 't').read_bytes()
        for group in (names, texts, stacks, outputs, pipes, read_once, ends, words, sizes, removals, replaced, error_stream, pieces, going_on, damaged,
                      disagreeing):
            group(uses, room, whole)
    end(uses.well, uses.wrong)


if __name__ == '__main__':
    main()
