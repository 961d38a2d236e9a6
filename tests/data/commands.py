"""Commands of tests/data/commands: words over some files, and what they answer and leave."""

import json
import os
import pty

from harness import call, first_line
from program import Case, DATA, expect, expect_ran
from worked import FOLDER as WORKED, text_of

FOLDER = DATA / 'commands'
# the commands of which more is told than the line of a failure
TELLING = {'init', 'explain', 'sweep', 'join', 'page'}
# of others on a terminal: words, the status, and what is told
ON_TERMINAL = [
    ('check absent', 1, ['swimsim: file absent\n', 'absent: there is no such file\n']),
    ('check bad.toml', 3, ['swimsim: scenario rule 4\n', 'error[rule 4]: ', 'swimsim explain bad.toml\n']),
    ('run two.toml --trace t --wokers 2', 2, ['swimsim: usage\n', "a similar argument exists: '--workers'"]),
    ('run two.toml --trace t --workers 65', 4, ['swimsim: workers\n', '--workers 65: write a whole number from 1 to 64\n']),
    ('run two.toml --trace t --parts 1 --division 0,0', 2, ['--parts and --division exclude each other\n']),
    ('run two.toml --trace t --division 0,64', 4, ['--division 0,64: write whole numbers from 0 to 63 with commas between them\n']),
    ('run two.toml --trace t --division 0', 4, ['--division 0: write the number of a part for each member of the scenario\n']),
    ('run two.toml --trace t --tick 2s', 2, ['--tick 2s: write a whole number and us, ms or s, from 1us to 1s, as 1ms\n']),
    ('run two.toml --trace -', 2, ["--trace -: - isn't standard output here; write the name of a file, or ./- for one with the name -\n"]),
    ('check -', 1, ['-: there is no such file; /dev/stdin is standard input\n']),
    ('run two.toml --trace two.toml', 1, ['one file is named twice: FILE two.toml and --trace two.toml\n']),
    ('swep two.toml', 2, ['swimsim: usage\n', "unrecognized subcommand 'swep'"]),
]


def bytes_of(content):
    """The bytes of a file by its content: a text; `@NAME`, a worked run's file; [that, old, new], in which
    the new text stands for the old; or an object with a text that is there so many times, between others."""
    if isinstance(content, list):
        whole, old, new = bytes_of(content[0]).decode(), *content[1:]
        if old not in whole:
            raise ValueError(f'no {old!r} in {content[0]}')
        return whole.replace(old, new, 1).encode()
    if isinstance(content, dict):
        line, times = content['times']
        before, after = (bytes_of(content.get(key, '')) for key in ('before', 'after'))
        return before + line.encode() * times + after
    if content.startswith('@'):
        path = WORKED / content[1:]
        return text_of(path).encode() if path.suffix == '.toml' else path.read_bytes()
    return content.encode()


def make(folder, name, content):
    """Makes a file, or what else stands under the name: a folder, a link, a second name of a file."""
    if isinstance(content, dict) and 'folder' in content:
        (folder / name).mkdir()
    elif isinstance(content, dict) and 'link' in content:
        os.symlink(content['link'], folder / name)
    elif isinstance(content, dict) and 'hard' in content:
        os.link(folder / content['hard'], folder / name)
    else:
        (folder / name).write_bytes(bytes_of(content))


def seen_in(folder):
    """What a folder holds, by its names: the bytes of each file, the way of each link, True for a folder."""
    found = {}
    for path in sorted(folder.rglob('*')):
        name = str(path.relative_to(folder))
        found[name] = os.readlink(path) if path.is_symlink() else True if path.is_dir() else path.read_bytes()
    return found


def left_of(before, changes, folder):
    """What a folder is to hold: what it held before but for the changes, in each of the names that a file
    has."""
    wanted = dict(before)
    for name, content in changes.items():
        told = bytes_of(content)
        same = [other for other in before if (folder / other).is_file() and not (folder / other).is_symlink()
                and (folder / name).exists() and os.path.samefile(folder / other, folder / name)]
        wanted.update({other: told for other in same or [name]})
    return wanted


def called(program, words, output):
    """Calls the program, with its standard output where that is said."""
    if output is None:
        return program.call(words)
    with open(program.folder / output, 'wb') as out:
        return program.call(words, out=out)


def expect_why(ran, words, case):
    """Sees that what is told below the first line has what the case says, and that only some commands tell more; gives
    the call back with its first line alone."""
    told = first_line(ran.err)
    below = ran.err[len(told):]
    for why in case.get('why', []):
        expect(f'whether it is told why: {below.decode()!r} has {why!r}', why.encode() in below, True)
    if words and words[0] not in TELLING:
        expect('what is told below the line', below, b'')
    return ran._replace(err=told)


def check(program, files, words, case):
    """Calls the program with these words over these files, and compares what it answers and leaves."""
    for name, content in files.items():
        make(program.folder, name, content)
    before = seen_in(program.folder)
    ran = called(program, words, case.get('output'))
    if ran.status:
        ran = expect_why(ran, words, case)
    if 'out_has' in case:
        expect('whether standard output has it', case['out_has'].encode() in ran.out, True)
        ran = ran._replace(out=b'')
    expect_ran(ran, case['status'], case.get('out', '').encode(), case.get('err', '').encode())
    seen = seen_in(program.folder)
    if 'made' in case:
        expect('whether the file is made', isinstance(seen.pop(case['made'], None), bytes), True)
    wanted = left_of(before, case.get('after', {}), program.folder)
    expect('names that are left', sorted(seen), sorted(wanted))
    for name, content in wanted.items():
        expect(f'what {name} holds', seen[name], content)


def check_own_name(program):
    """Calls the program under a name that is no text, which is none of its words."""
    make(program.folder, 'two.toml', '@two-members.toml')
    ran = call([b'\xff', b'check', b'two.toml'], executable=program.path, cwd=program.folder)
    expect_ran(ran, 0, b'members 2\n', b'')


def read_terminal(terminal):
    """What was written to a terminal whose other end is closed, which is closed then."""
    told = b''
    try:
        while part := os.read(terminal, 10_000):
            told += part
    except OSError:
        pass
    os.close(terminal)
    return told.replace(b'\r\n', b'\n')


def check_terminal(program):
    """Calls `check` and `run` with a terminal as standard error: more is told there."""
    make(program.folder, 'two.toml', '@two-members.toml')
    make(program.folder, 'bad.toml', ['@two-members.toml', 'period = 1000', 'period = "1s"'])
    for words, status, wanted in ON_TERMINAL:
        terminal, err = pty.openpty()
        ran = call([program.path, *words.split()], cwd=program.folder, stderr=err)
        os.close(err)
        told = read_terminal(terminal)
        expect('status', ran.status, status)
        for line in wanted:
            expect(f'whether {told.decode()!r} has {line!r}', line.encode() in told, True)


def cases():
    """Each line of words of each group, and the program under another name."""
    yield Case('command: a name of the program that is no text', check_own_name, ())
    yield Case('command: standard error that is a terminal', check_terminal, ())
    for path in sorted(FOLDER.glob('*.json')):
        for group in json.loads(path.read_text()):
            for case in group['cases']:
                for line in case['lines']:
                    words = line.split() if isinstance(line, str) else line
                    yield Case(f'command {path.stem}: {words!r}', check, (group['files'], words, case))
