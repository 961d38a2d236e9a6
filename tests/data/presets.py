"""What `init PRESET` prints: the text of tests/data/presets/PRESET.toml, whose comments were read beside docs/FORMAT.md. It is a
scenario that is accepted as it stands and with all that its comments hold, names each key of its version, and sets what
memberlist 0.2.2's and 0.5.0's config.go, Serf 0.9.4's or docs/FORMAT.md has."""

import re
import tomllib

from harness import first_line
from program import Case, DATA, expect, expect_ran
from scenarios import NEWEST_TAKEN, judge, keys_of

NAMES = ('local', 'lan', 'wan', 'swim', 'serf', 'serf-wan', 'consul', 'consul-wan')

# the key, and its value in each preset in the order of the names; None where the preset doesn't set it
VALUES = {
    'version': (4, 4, 4, 2, 4, 4, 4, 4),
    'swim.period': (1000, 1000, 5000, 1000, 1000, 5000, 1000, 5000),
    'swim.timeout': (200, 500, 3000, 300, 500, 3000, 500, 3000),
    'swim.helpers': (1, 3, 3, 3, 3, 3, 3, 3),
    'swim.fallback': (True, True, True, None, True, True, True, True),
    'swim.carry': (20, 20, 20, 6, 20, 20, 20, 20),
    'swim.lambda': (2, 4, 4, 3, 4, 4, 4, 4),
    'swim.spread': (1000, 1000, 5000, 1, 1000, 5000, 1000, 5000),
    'suspicion.alpha': (3, 4, 6, 5, 4, 6, 4, 6),
    'suspicion.beta': (6, 6, 6, 6, 6, 6, 6, 6),
    'lifeguard.probe': (True, True, True, True, True, True, True, True),
    'lifeguard.suspicion': (True, True, True, True, True, True, True, True),
    'lifeguard.buddy': (True, True, True, True, True, True, True, True),
    'lifeguard.ceiling': (7, 7, 7, 8, 7, 7, 7, 7),
    'lifeguard.confirmations': (1, 2, 4, 3, 2, 4, 2, 4),
    'lifeguard.nack_percent': (100, 100, 100, 80, 100, 100, 100, 100),
    'gossip.interval': (100, 200, 500, None, 200, 500, 200, 500),
    'gossip.nodes': (3, 3, 4, None, 3, 4, 3, 4),
    'gossip.dead': (15000, 30000, 60000, None, 30000, 60000, 30000, 60000),
    'gossip.push': (15000, 30000, 60000, None, 30000, 60000, 30000, 60000),
    'stream.connect': (1000, 1000, 1000, None, 1000, 1000, 1000, 1000),
    'stream.again': (200, 200, 200, None, 200, 200, 200, 200),
    'gossip.queue': (True, True, True, None, True, True, True, True),
    'gossip.packet': (1400, 1400, 1400, None, 1400, 1400, 1400, 1400),
    'gossip.meta': (0, 0, 0, None, 2, 2, 125, 241),
    'stream.limit': (1000, 10000, 30000, None, 10000, 30000, 10000, 30000),
    'stream.retry': (30000, 30000, 30000, None, 30000, 30000, 30000, 30000),
    'serf.reconnect': (None, None, None, None, 30000, 30000, 30000, 30000),
    'serf.reap': (None, None, None, None, 86400000, 86400000, 259200000, 259200000),
    'serf.linger': (None, None, None, None, 1000, 1000, 3000, 3000),
}

# a comment that holds a part of a scenario
PART = re.compile(r'# (\[\[?\w+\]\]?|\w+ = ("[\w-]+"|\d+))( +#.*)?$')


def value_at(document, name):
    table, _, key = name.rpartition('.')
    return (document.get(table, {}) if table else document).get(key)


def uncommented(text):
    """The text with all that its comments hold; a contact, which a group that starts at 0 has not, goes to
    one that joins."""
    lines = [line[2:] if PART.match(line) else line for line in text.split('\n')]
    at = next(place for place, line in enumerate(lines) if line.startswith('contact'))
    joining = ['[[group]]', 'name = "late"', 'count = 2', 'start = 5', lines.pop(at)]
    return '\n'.join(lines + joining) + '\n'


def keys_in(document, keys):
    """The names of the keys of a document's tables, and of those that the format names and it lacks."""
    lacking = []
    for name, key in keys.items():
        held = document.get(name)
        if held is None:
            lacking.append(name)
        elif key.kind == 'table':
            lacking += [f'{name}.{inner}' for inner in keys_in(held, key.keys)]
        elif key.kind == 'list':
            lacking += [f'{name}.{inner}' for inner in key.keys if all(inner not in item for item in held)]
    return lacking


def accepted(version, members):
    """What `check` answers of a text of this version with so many members."""
    if version > NEWEST_TAKEN:
        return 3, b'', b'swimsim: scenario rule 3\n'
    return 0, f'members {members}\n'.encode(), b''


def check(program, place):
    ran = program.call(['init', NAMES[place]])
    expect_ran(ran, 0, (DATA / 'presets' / f'{NAMES[place]}.toml').read_bytes(), b'')
    text = ran.out.decode()
    document = tomllib.loads(text)
    version = document['version']
    for name, values in VALUES.items():
        expect(name, value_at(document, name), values[place])
    whole = tomllib.loads(uncommented(text))
    expect('rules broken', (judge(document)[0], judge(whole)[0]), (0, 0))
    expect('keys that the text lacks', keys_in(whole, keys_of(version)), [])
    for line in text.split('\n'):
        expect(f'a comment on {line!r}', '=' not in line or '#' in line, True)
    program.keep('s.toml', text)
    program.keep('w.toml', uncommented(text))
    expect_ran(program.call(['check', 's.toml']), *accepted(version, 32))
    expect_ran(program.call(['check', 'w.toml']), *accepted(version, 34))


def check_unknown(program, word):
    expect_ran(program.call(['init', word]), 2, b'', b'swimsim: usage: the presets are local, lan, wan, serf, serf-wan, consul, consul-wan and swim\n')


def check_usage(program, words):
    ran = program.call(['init', *words])
    expect_ran(ran._replace(err=first_line(ran.err)), 2, b'', b'swimsim: usage\n')


def cases():
    for place, name in enumerate(NAMES):
        yield Case(f'preset {name}', check, (place,))
    for word in ('', 'LAN', 'lan ', 'consul-lan', 'nomad', 'swi'):
        yield Case(f'no preset {word!r}', check_unknown, (word,))
    for words in ([], ['lan', 'wan'], ['lan', '--json'], ['--lan']):
        yield Case(f'no command: init {" ".join(words)}', check_usage, (words,))
