"""Texts that are broken at random, and what `explain` tells of their places, for tests/programs/explain_refused.py."""

import random
import re
import tomllib
from concurrent.futures import ThreadPoolExecutor

from harness import TOP
from program import DATA

KEYS = ('version seed end swim suspicion lifeguard link group path slow crash cut leave period timeout helpers carry '
        'lambda spread alpha beta probe buddy ceiling confirmations nack_percent delay jitter loss name count start '
        'contact from to at until member extra pause gossip stream fallback interval nodes dead push connect again').split()
VALUES = ('0', '1', '-1', '3', '10.5', '1e3', 'true', '"x"', "'n-1'", '"n-99"', '[]', '[1, {}]', '{}', '{ a = 1 }',
          '1979-05-27', '07:32:00', '9223372036854775807', '99999999999999999999', '"""a\nb"""', '0x10', '1_000',
          '"10ms"', '"1h30m"', '"0.5 us"', '"2%"', '0.02', '\u5b57', 'nan')
PIECES = ('[', ']', '{', '}', '=', '"', "'", '#', ',', '.', '\n', '\t', '\x01', '\u5b57', '\u2028', '\u202e', '\ufeff', '\\', ' ', '[[', ']]')
UNSEEN = (range(0x200b, 0x2010), range(0x2028, 0x202f), range(0x2066, 0x206a), (0xfeff,), range(0xe0000, 0xe0080))
TABLES = ('[[crash]]\nmember = "n-0"\nat = 10\n', '[[slow]]\nmember = "a-1"\nfrom = 5\nuntil = 2\nextra = 1\n',
          '[[path]]\nfrom = "n"\nto = "north"\n', '[[group]]\nname = "n"\ncount = 2000\n', '[[leave]]\nmember = "n-1"\nat = 0\n',
          '[[cut]]\nfrom = "n-0"\nto = "n"\nat = 9\nuntil = 9\n', '[[group]]\nname = "late"\ncount = 1\nstart = 5\n',
          '[[pause]]\nmember = "n-1"\nfrom = 5\nuntil = 5\n', '[[pause]]\nmember = "n-0"\nfrom = 1\nuntil = 3000\n',
          '[gossip]\nnodes = 17\n', '[stream]\nagain = 0\n', '[swim]\nperiod = 5\ntimeout = 7\n', '[other]\na = 1\n', '[[group]]\nname = "Ab"\ncount = 1\ncontact = "n-0"\n')


# ---- texts

def bases():
    """Texts that are accepted, by their bytes."""
    paths = [*sorted((DATA / 'worked').glob('*.toml')), *sorted((TOP / 'examples').glob('*.toml'))]
    return [text for path in paths if len(text := path.read_text()) < 3000]


def with_line(text, draw, change):
    """The text with one of its lines changed; what the change gives are its lines."""
    lines = text.split('\n')
    place = draw.randrange(len(lines))
    lines[place:place + 1] = change(lines[place])
    return '\n'.join(lines)


def misspelt(text, draw):
    """The text with one letter of a key changed, added or taken away."""
    words = list(re.finditer(r'\b(' + '|'.join(KEYS) + r')\b', text))
    word = draw.choice(words) if words else None
    if word is None:
        return text
    place, letter = draw.randrange(word.start(), word.end()), draw.choice('aeinx_-')
    return text[:place] + draw.choice((letter, '', letter + text[place])) + text[place + 1:]


def with_value(text, draw):
    """The text with another value of some key."""
    places = list(re.finditer(r'= *([^\n#]+)', text))
    if not places:
        return text
    place = draw.choice(places)
    return text[:place.start(1)] + draw.choice(VALUES) + text[place.end(1):]


def with_piece(text, draw):
    """The text with a piece more somewhere."""
    place = draw.randrange(len(text) + 1)
    return text[:place] + draw.choice(PIECES) + text[place:]


CHANGES = (
    misspelt, misspelt, with_value, with_value, with_value, with_piece,
    lambda text, draw: with_line(text, draw, lambda line: []),
    lambda text, draw: with_line(text, draw, lambda line: [line, line]),
    lambda text, draw: with_line(text, draw, lambda line: [f'{draw.choice(KEYS)} = {draw.choice(VALUES)}', line]),
    lambda text, draw: with_line(text, draw, lambda line: [line, '', draw.choice(TABLES)]),
    lambda text, draw: text + '\n' + draw.choice(TABLES),
    lambda text, draw: text[:draw.randrange(len(text) + 1)],
    lambda text, draw: text.replace('version = 1', draw.choice(('version = 2', 'version = 3', '"version" = 1'))),
    lambda text, draw: text.replace('\n', '\r\n'),
    lambda text, draw: re.sub(r'"(\w+)-(\d+)"', r'"\1-9\2"', text, count=1),
)


def texts(count, seed):
    """So many broken texts, as bytes."""
    draw = random.Random(seed)
    all_bases = bases()
    for number in range(count):
        text = draw.choice(all_bases)
        for _ in range(draw.choice((1, 1, 1, 2, 3))):
            text = draw.choice(CHANGES)(text, draw) or text
        content = text.encode()
        if number % 50 == 0:
            place = draw.randrange(len(content) + 1)
            content = content[:place] + draw.choice((b'\xff', b'\xc3', b'\x00')) + content[place:]
        yield content


# ---- what stands at a place

def shown(name):
    """A name as a line shows it."""
    def one(c):
        if c in '\t\n\r\\':
            return {'\t': '\\t', '\n': '\\n', '\r': '\\r', '\\': '\\\\'}[c]
        number = ord(c)
        is_escaped = number < 32 or 127 <= number < 160 or any(number in span for span in UNSEEN)
        return f'\\u{{{number:x}}}' if is_escaped else c
    return ''.join(map(one, name[:60])) + ('...' if len(name) > 60 else '')


def key_of(piece):
    """The key that is written so, None where it is none."""
    try:
        keys = list(tomllib.loads(piece + ' = 1'))
        return keys[0] if len(keys) == 1 else None
    except (tomllib.TOMLDecodeError, IndexError):
        return None


def value_of(piece):
    """The value that is written so, in a list; an empty one where it is none."""
    try:
        return [tomllib.loads('v = ' + piece)['v']]
    except (tomllib.TOMLDecodeError, ValueError):
        return []


def is_value_of(before, piece, key):
    """Whether the piece stands as the value of this key, or is the header of its table, or a key that makes it."""
    written = re.escape(key)
    if re.search(rf'(^|[\s.{{,\[])({written}|"{written}"|\'{written}\')\s*=\s*$', before):
        return True
    return piece.startswith('[') and key in piece or key_of(piece) == key or key in (key_path(piece) or [])


def key_path(piece):
    """The parts of a dotted key."""
    try:
        value, path = tomllib.loads(piece + ' = 1'), []
        while isinstance(value, dict):
            (part, value), = value.items()
            path.append(part)
        return path
    except (tomllib.TOMLDecodeError, ValueError):
        return None


# what a message names, and whether what stands at the place is that: with the text before it
NAMED = (
    (r'unknown (?:key|table|list) `(.*)`(?: in .*)?', lambda before, piece, name: shown(key_of(piece) or '') == name),
    (r'`(.*)` is a key of version [23]', lambda before, piece, name: shown(key_of(piece) or '') == name),
    (r'`(\w+)` is .*, not .*', is_value_of),
    (r'`(\w+)` is -?\d+, outside its range', is_value_of),
    (r'the list `(\w+)` is empty', is_value_of),
    (r'no (?:member|group) has the name `(.*)`', lambda before, piece, name: is_string(piece, name)),
    (r'`(.*)` can\'t be the name of a group', lambda before, piece, name: is_string(piece, name)),
    (r'two groups have the name `(.*)`', lambda before, piece, name: is_string(piece, name)),
    (r'`(.*)` (?:leaves|crashes) (?:twice|and .*)', lambda before, piece, name: is_string(piece, name)),
    (r'two (?:slow times|pauses) of `(.*)` overlap', lambda before, piece, name: is_string(piece, name)),
    (r'the contact `(.*)` starts at \d+ itself', lambda before, piece, name: is_string(piece, name)),
    (r'`timeout` (\d+) isn\'t below .*', lambda before, piece, name: value_of(piece) == [int(name)]),
    (r'`until` (\d+) isn\'t after .*', lambda before, piece, name: value_of(piece) == [int(name)]),
    (r'a (?:crash|leave) at (\d+), where .*', lambda before, piece, name: value_of(piece) == [int(name)]),
    (r'missing key `\w+` in \[+(\w+)\]+', lambda before, piece, name: piece[:1] in ('[', '{') or name in piece),
    (r'an item of `(\w+)` is .*, not a table', lambda before, piece, name: len(value_of(piece)) == 1),
)


def is_string(piece, name):
    """Whether the piece is a string that is shown so."""
    return [shown(value) for value in value_of(piece) if isinstance(value, str)] == [name]


def misplaced(content, mistake):
    """What is wrong with the place of a mistake; empty where nothing is."""
    text = content.decode(errors='replace')
    lines = text.split('\n')
    line, column, length = mistake['line'], mistake['column'], mistake['length']
    if not 1 <= line <= len(lines) or not 1 <= column <= len(lines[line - 1]) + 1:
        return 'outside the text'
    start = sum(len(it) + 1 for it in lines[:line - 1]) + column - 1
    if start + length > len(text):
        return 'ends outside the text'
    before, piece = text[:start], text[start:start + length]
    for pattern, is_there in NAMED:
        found = re.fullmatch(pattern, mistake['message'], re.DOTALL)
        if found:
            return '' if is_there(before, piece, found.group(1)) else f'at {piece!r}'
    return ''


# ---- cases

def fault_of(call, content):
    """What is wrong with the explanation of a text, by `call`, which runs the program with words on a text."""
    checked = call(content, 'check')
    told = call(content, 'explain', '--json')
    if (told.status, told.error) != (checked.status, checked.error):
        return f'status {told.status} where check has {checked.status}'
    if checked.status == 0:
        return ''
    document = told.document()
    rules = [mistake['rule'] for mistake in document['mistakes']]
    if f'swimsim: scenario rule {min(rules)}\n'.encode() != checked.error:
        return f'rules {rules} where check tells {checked.error}'
    faults = [(misplaced(content, mistake), mistake) for mistake in document['mistakes']]
    return '; '.join(f'{fault}: {mistake}' for fault, mistake in faults if fault)


def cases(call, count, seed=1):
    """For each text: its name, and what is wrong."""
    with ThreadPoolExecutor(4) as pool:
        contents = list(texts(count, seed))
        for number, fault in enumerate(pool.map(lambda content: fault_of(call, content), contents)):
            yield f'broken text {number}', fault and f'{fault}\n{contents[number]!r}'
