"""Texts of tests/data/texts that are accepted, with how many members they have, or refused, with their rule; and
texts that say what another one does, or something else.

Of a text of a version that the program doesn't take yet (tests/model/scenarios.py) it is seen how it is refused.
"""

import json

from program import Case, DATA, Wrong, expect, expect_ran
from scenarios import NEWEST, NEWEST_TAKEN, document_of, judge, version_of

FOLDER = DATA / 'texts'

# texts of which each byte in turn is replaced by 255
WHOLE = ('plain.toml', 'every-key.toml', 'every-table.toml', 'version-2.toml', 'version-3.toml')


def ended(answer):
    """Status, standard output and standard error of a check with this answer, `members N` or `rule N`."""
    if answer.startswith('members '):
        return 0, f'{answer}\n'.encode(), b''
    return 3, b'', f'swimsim: scenario {answer}\n'.encode()


def rule_until_taken(text):
    """The rule by which a text of a version that the program doesn't take yet is refused; else None."""
    document = document_of(text.encode())
    if document is None or version_of(document, NEWEST) <= NEWEST_TAKEN:
        return None
    return judge(document)[0]


def check(program, text, answer):
    """Checks a text, and compares the answer."""
    program.keep('s.toml', text)
    expect_ran(program.call(['check', 's.toml']), *ended(answer))


def run_of(program, text):
    """The trace and the report of a text."""
    program.keep('s.toml', text)
    ran = program.call(['run', 's.toml', '--trace', 't.csv', '--report', 'r.txt'])
    expect('status', (ran.status, ran.err), (0, b''))
    return program.held('t.csv'), program.held('r.txt')


def check_run(program, base, text, answer):
    """Runs a text and the one that it is made of: `same run` or `another run`."""
    is_same = run_of(program, text) == run_of(program, (FOLDER / base).read_text())
    expect('run', 'same run' if is_same else 'another run', answer)


def check_255(program, base):
    """Checks a text with each of its bytes in turn replaced by 255: none is a document."""
    text = (FOLDER / base).read_bytes()
    for place in range(len(text)):
        program.keep('s.toml', text[:place] + b'\xff' + text[place + 1:])
        expect_ran(program.call(['check', 's.toml']), *ended('rule 1'), what=f'byte {place} ')


def check_beginnings(program, base):
    """Checks each beginning of a text that stands whole only with all its lines: rule 1 or 2 until then."""
    text = (FOLDER / base).read_bytes()
    for end in range(len(text) - 1):
        program.keep('s.toml', text[:end])
        ran = program.call(['check', 's.toml'])
        if (ran.status, ran.out, ran.err) not in (ended('rule 1'), ended('rule 2')):
            raise Wrong(f'the first {end} bytes: {ran}')
    program.keep('s.toml', text[:-1])
    expect('without its last line feed, status', program.call(['check', 's.toml']).status, 0)


def made(group, old, new):
    """The text of a case: the group's base and what is appended to it, with new for old, or behind it where
    old is empty, between what goes around it."""
    text = (FOLDER / group['base']).read_text() + group.get('append', '')
    if not old:
        before, after = group.get('around', ('', ''))
        return text + before + new + after
    if old not in text:
        raise ValueError(f'{group["base"]} has no {old!r}')
    return text.replace(old, new, 1)


def cases():
    """Each text of each group, and the texts whose bytes and beginnings are judged."""
    for path in sorted(FOLDER.glob('*.json')):
        for group in json.loads(path.read_text()):
            for old, new, answer in group['cases']:
                name = f'text {path.stem}, {group["base"]}, {new!r} for {old!r}'
                text = made(group, old, new)
                rule = rule_until_taken(text)
                if rule:
                    yield Case(f'{name}, not taken yet', check, (text, f'rule {rule}'))
                elif answer.endswith(' run'):
                    yield Case(name, check_run, (group['base'], text, answer))
                else:
                    yield Case(name, check, (text, answer))
    for base in WHOLE:
        yield Case(f'text {base} with each byte 255', check_255, (base,))
    for base in ('plain.toml', 'version-2.toml'):
        yield Case(f'each beginning of text {base}', check_beginnings, (base,))
