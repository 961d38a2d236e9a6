"""What `expand` prints: of texts of version 4 (tests/data/expand/NAME.toml) their plain text (NAME.plain), or by which rule
they are refused (judged.json); of texts of versions 1 to 3 the same as `check`, and their entries as they are.

The second simulator is asked the same. What `check` answers of a text of version 4 agrees with it, and the run of a text is that of
its plain text.
"""

import json
import random
import tomllib

import texts
from generate import text_case
from generate_written import written_text
from model_expand import Refused, parts_per_million_of, plain_text, tick_of, ticks_of
from model_written import rule_of
from program import Case, DATA, Wrong, expect, expect_ran
from scenarios import NEWEST_TAKEN, document_of

FOLDER = DATA / 'expand'
# so many named entries of one list
NAMED = 3000
# so many random texts of version 4, and of versions 1 to 3
RANDOM = 300
EARLIER = 300


def expand(program, text):
    """What `expand` prints of a text, with its status."""
    program.keep('s.toml', text)
    return program.call(['expand', 's.toml'])


def check_text(program, name):
    """Compares the plain text, which stands for itself, with the one worked out, and the run of the one with that of the other."""
    text, plain = (FOLDER / f'{name}.toml').read_bytes(), (FOLDER / f'{name}.plain').read_bytes()
    for held in (text, plain):
        expect('rule', rule_of(document_of(held)), 0)
        expect('plain text', plain_text(tomllib.loads(held.decode())).encode(), plain)
        expect_ran(expand(program, held), 0, plain, b'')
    for what, seen, wanted in zip(('trace', 'report'), *(texts.run_of(program, held.decode()) for held in (text, plain))):
        expect(what, seen, wanted)


def said_by(row):
    """What a word says, or which rule it breaks."""
    try:
        if 'tick' in row:
            return {'ticks': ticks_of(row['word'], tick_of(row['tick']))}
        return {'share': parts_per_million_of(row['word'])}
    except Refused as refused:
        return {'rule': refused.args[0]}


def text_with(row):
    """A text of version 4 with a word: as its end, or as a loss."""
    tick = f'tick = "{row["tick"]}"\n' if 'tick' in row else ''
    end = f'"{row["word"]}"' if 'tick' in row else '1'
    loss = f'loss = "{row["word"]}"\n' if 'tick' not in row else ''
    return (f'version = 4\nseed = 1\n{tick}end = {end}\n[swim]\nperiod = 2\ntimeout = 1\n[link]\ndelay = 1\n{loss}'
            '[[group]]\nname = "n"\ncount = 2\n')


def check_words(program):
    """Compares what words say with what they should."""
    for row in json.loads((FOLDER / 'words.json').read_text()):
        said = said_by(row)
        if row != {**{key: row[key] for key in ('tick', 'word') if key in row}, **said}:
            raise Wrong(f'{row} says {said}')
        if row['word'].isprintable() and '"' not in row['word'] and '\\' not in row['word']:
            check_answer(program, text_with(row))


def check_answer(program, text):
    """Compares the answer to a text of version 4, and that of `check`, with the second simulator's; of one of another version
    with that of `check`."""
    document = document_of(text.encode())
    if document is not None and document.get('version') != 4:
        check_earlier(program, text.encode())
        return
    rule = rule_of(document)
    ran, checked = expand(program, text), program.call(['check', 's.toml'])
    if rule:
        for seen in (ran, checked):
            expect_ran(seen, 3, b'', f'swimsim: scenario rule {rule}\n'.encode())
    else:
        expect_ran(ran, 0, plain_text(document).encode(), b'')
        expect_ran(checked, 0, f'members {sum(group["count"] for group in document["group"])}\n'.encode(), b'')


def check_rule(program, base, old, new, rule):
    """Compares the least rule that a text breaks with the one that it should."""
    text = (FOLDER / base).read_text()
    if old not in text:
        raise Wrong(f'{base} has no {old!r}')
    text = text.replace(old, new, 1) if old else text + new
    expect('rule', rule_of(document_of(text.encode())), rule)
    check_answer(program, text)


def named_text(last):
    """A text with many named pauses, of which the last one has the name `last`, and with a crash of the first pause's name."""
    names = [f'p-{number}' for number in range(NAMED - 1)] + [last]
    lines = ['version = 4\nseed = 1\nend = 100000\n[swim]\nperiod = 2\ntimeout = 1\n[link]\ndelay = 1\n'
             '[[group]]\nname = "n"\ncount = 100\n']
    for number, name in enumerate(names):
        lines.append(f'[[pause]]\nname = "{name}"\nmember = "n-{number % 100}"\nfrom = {number}\nuntil = {number + 1}\n')
    return ''.join(lines) + '[[crash]]\nname = "p-0"\nmember = "n-0"\nat = 5000\n'


def check_named(program, last, rule):
    """Compares the answer to a text with many named pauses with the second simulator's."""
    text = named_text(last)
    expect('rule', rule_of(document_of(text.encode())), rule)
    check_answer(program, text)


def check_random(program, number):
    """Compares the plain text of a random text of version 4, and that of one whose lines are mixed up."""
    lines = written_text(7, number).splitlines(keepends=True)
    check_answer(program, ''.join(lines))
    chance = random.Random(f'expand {number}')
    place, other = chance.randrange(len(lines)), chance.randrange(len(lines))
    lines[place], lines[other] = lines[other], lines[place]
    check_answer(program, ''.join(lines))


def check_earlier(program, text):
    """A text of version 1 to 3: refused as by `check`, else laid out, and its layout says the same."""
    document = document_of(text)
    ran = expand(program, text)
    checked = program.call(['check', 's.toml'])
    if checked.status:
        expect_ran(ran, checked.status, checked.out, checked.err)
        return
    plain = plain_text(document).encode()
    expect_ran(ran, 0, plain, b'')
    expect_ran(expand(program, plain), 0, plain, b'')
    expect_ran(program.call(['check', 's.toml']), 0, checked.out, b'')


def earlier_texts():
    """Texts of versions 1 to 3 that are judged elsewhere, and random ones."""
    for path in sorted(texts.FOLDER.glob('*.json')):
        for group in json.loads(path.read_text()):
            for old, new, _ in group['cases']:
                yield texts.made(group, old, new).encode()
    for number in range(EARLIER):
        yield text_case(7, number, NEWEST_TAKEN)


def cases():
    """The texts, the words, the texts that are judged, and those of earlier versions."""
    for path in sorted(FOLDER.glob('*.toml')):
        yield Case(f'expand: {path.stem}', check_text, (path.stem,))
    yield Case('expand: words', check_words, ())
    for group in json.loads((FOLDER / 'judged.json').read_text()):
        for place, case in enumerate(group['cases']):
            yield Case(f'expand: {group["about"]} {place}', check_rule, (group['base'], *case))
    for last, rule in ((f'p-{NAMED}', 0), ('p-0', 6), (f'p-{NAMED - 2}', 6), ('P-0', 0)):
        yield Case(f'expand: many named entries, the last {last}', check_named, (last, rule))
    for number in range(RANDOM):
        yield Case(f'expand: random text {number}', check_random, (number,))
    for number, text in enumerate(earlier_texts()):
        document = document_of(text)
        if document is None or document.get('version') != 4:
            yield Case(f'expand: text of an earlier version {number}', check_earlier, (text,))
