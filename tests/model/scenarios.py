"""The scenario text, for tests/model/model.py: which rule it breaks, or the scenario that it says.

Written from docs/FORMAT.md ("The scenario text", "Refusals") alone. It needs Python 3.11, whose library reads
TOML. What a text of version 4 breaks is in model_written.py; its scenario is that of the plain text that it stands for.
"""

import collections
import importlib
import math
import re
import tomllib

# the newest version of the format, and the newest that the program takes. Whatever compares the program with
# these models goes by the second: runs, texts and sweeps of later versions are held against no program.
NEWEST = 4
NEWEST_TAKEN = 4

REQUIRED = object()

# kind: number, switch, name, table or list; span: the ends of a number's range; keys: those of a table, or of
# each item of a list
Key = collections.namedtuple('Key', 'kind default span keys')


def number(least, greatest, default=REQUIRED):
    return Key('number', default, (least, greatest), None)


def table(default, keys):
    return Key('table', default, None, keys)


def tables(default, keys):
    return Key('list', default, None, keys)


SWITCH = Key('switch', True, None, None)
NAME = Key('name', REQUIRED, None, None)
MOMENT = number(0, 2**40)

SWIM = {
    'period': number(2, 2**24), 'timeout': number(1, 2**24), 'helpers': number(0, 16, 3),
    'carry': number(1, 64, 6), 'lambda': number(1, 100, 3), 'spread': number(1, 2**24, 1),
}
SUSPICION = {'alpha': number(1, 100, 5), 'beta': number(1, 100, 6)}
LIFEGUARD = {
    'probe': SWITCH, 'suspicion': SWITCH, 'buddy': SWITCH,
    'ceiling': number(0, 16, 8), 'confirmations': number(0, 9, 3), 'nack_percent': number(1, 100, 80),
}
LINK = {'delay': number(1, 2**20), 'jitter': number(0, 2**20, 0), 'loss': number(0, 1000000, 0)}
# what a path doesn't say is [link]'s, here None
PATH = {'from': NAME, 'to': NAME, **{name: key._replace(default=None) for name, key in LINK.items()}}
SLOW = {'member': NAME, 'from': MOMENT, 'until': MOMENT, 'extra': number(1, 2**24)}
PAUSE = {'member': NAME, 'from': MOMENT, 'until': MOMENT}
DOWN = {'member': NAME, 'at': MOMENT}
CUT = {'from': NAME, 'to': NAME, 'at': MOMENT, 'until': MOMENT}
GOSSIP = {
    'interval': number(1, 2**24), 'nodes': number(1, 16, 3), 'dead': number(0, 2**40, 0),
    'push': number(0, 2**24, 0),
}
STREAM = {'connect': number(1, 2**24, 1000), 'again': number(1, 2**24, 200)}
MOST_MEMBERS = {1: 1024, 2: 4096, 3: 4096, 4: 16384}


def version_of(document, newest=NEWEST_TAKEN):
    """The version by which a document is judged where this one is the newest."""
    version = document.get('version')
    return version if type(version) is int and 1 <= version <= newest else 1


def keys_of(version, newest=NEWEST_TAKEN):
    """The keys that the format names at the top of a text that is judged by this version."""
    group = {
        'name': NAME, 'count': number(1, MOST_MEMBERS[version]), 'start': number(0, 2**40, 0),
        'contact': NAME._replace(default=None),
    }
    keys = {
        'version': number(1, newest), 'seed': number(0, 2**63 - 1), 'end': MOMENT,
        'swim': table(REQUIRED, SWIM), 'suspicion': table({}, SUSPICION), 'lifeguard': table({}, LIFEGUARD),
        'link': table(REQUIRED, LINK), 'group': tables(REQUIRED, group), 'path': tables([], PATH),
        'slow': tables([], SLOW), 'crash': tables([], DOWN),
    }
    if version >= 2:
        keys.update({'cut': tables([], CUT), 'leave': tables([], DOWN)})
    if version >= 3:
        swim = {**SWIM, 'fallback': SWITCH._replace(default=False)}
        keys.update({'swim': table(REQUIRED, swim), 'gossip': table(None, GOSSIP), 'stream': table({}, STREAM),
                     'pause': tables([], PAUSE)})
    return keys


# ---- Refusals (docs/FORMAT.md, "Refusals") ----

def floating(text):
    """A floating number, refused past its range."""
    value = float(text)
    if math.isinf(value) and 'inf' not in text:
        raise ValueError('past its range')
    return value


def is_within(value, depth):
    """Whether the value's whole numbers have 64 bits, and tables and lists are nested no deeper than that."""
    if isinstance(value, (dict, list)):
        items = value.values() if isinstance(value, dict) else value
        return depth >= 0 and all(is_within(item, depth - 1) for item in items)
    return not isinstance(value, int) or -2**63 <= value < 2**63


def document_of(text):
    """The document that the bytes are, or None (rule 1).

    tomllib reads TOML 1.0, the format is 1.1. A byte order mark is handled here. What else 1.1 has more,
    tomllib refuses: in inline tables line feeds, comments and a comma at the end; the escapes \\e and \\x;
    times without seconds. It also refuses second 60 and year 0. A document doesn't tell how its tables were
    written, so depth is counted here over all of them. Texts that are compared keep clear of these, and of a
    depth between 40 and 120.
    """
    try:
        document = tomllib.loads(text.decode().removeprefix('\ufeff'), parse_float=floating)
    except (ValueError, RecursionError):
        return None
    return document if is_within(document, 80) else None


def is_of_kind(value, key):
    return type(value) is {'number': int, 'switch': bool, 'name': str, 'table': dict, 'list': list}[key.kind]


def tables_there(held, keys):
    """The table that is held and each table and item below it that the format names, each with its keys."""
    found = [(held, keys)]
    for name, key in keys.items():
        inner = held.get(name)
        if key.kind == 'table' and isinstance(inner, dict):
            found += tables_there(inner, key.keys)
        if key.kind == 'list' and isinstance(inner, list):
            for item in inner:
                found += tables_there(item, key.keys) if isinstance(item, dict) else []
    return found


def values_there(document, keys):
    """Each value that the format names, with its key; items of a list are values of their own."""
    found = []
    for held, names in tables_there(document, keys):
        for name in names:
            if name in held:
                found.append((held[name], names[name]))
                if names[name].kind == 'list' and isinstance(held[name], list):
                    found += [(item, names[name]._replace(kind='table')) for item in held[name]]
    return found


def is_late(group):
    """Whether a group has a start over 0; one of another kind isn't."""
    return type(group.get('start')) is int and group['start'] > 0


def lacks_something(document, keys):
    there = tables_there(document, keys)
    groups = [held for held, names in there if names is keys['group'].keys]
    return (any(key.default is REQUIRED and name not in held
                for held, names in there for name, key in names.items())
            or document['group'] == []
            or any(is_late(group) and 'contact' not in group for group in groups))


def has_other_key(document, keys):
    return any(name not in names for held, names in tables_there(document, keys) for name in held)


def has_other_kind(document, keys):
    return any(not is_of_kind(value, key) for value, key in values_there(document, keys))


def is_past_range(document, keys):
    return any(key.kind == 'number' and is_of_kind(value, key) and not key.span[0] <= value <= key.span[1]
               for value, key in values_there(document, keys))


def has_bad_name(scenario):
    names = [group['name'] for group in scenario['group']]
    return (len(set(names)) < len(names)
            or any(not re.fullmatch('[a-z][a-z0-9]{0,15}', name) for name in names))


def downs(scenario):
    return scenario['crash'] + scenario['leave']


def script_of(scenario, name):
    """What happens to a member of this name after its start, each with its entry: by moments, at one moment crashes before
    leaves before restarts, and of one list in the text's order."""
    script = [(what, entry) for what in ('crash', 'leave', 'restart') for entry in scenario[what] if entry['member'] == name]
    return sorted(script, key=lambda event: event[1]['at'])


def names_nobody(scenario):
    groups = {group['name'] for group in scenario['group']}
    members = {member['name'] for member in scenario['members']} | {None}
    named = [entry['member'] for entry in downs(scenario) + scenario['slow'] + scenario['pause']]
    named += [group['contact'] for group in scenario['group']]
    ends = [entry[end] for entry in scenario['path'] + scenario['cut'] for end in ('from', 'to')]
    return not members.issuperset(named) or not groups.issuperset(ends)


def overlaps(entries):
    return any(
        one['member'] == other['member'] and one['from'] < other['until'] and other['from'] < one['until']
        for place, one in enumerate(entries) for other in entries[:place])


def collides(scenario):
    down = [entry['member'] for entry in downs(scenario)]
    return len(set(down)) < len(down) or overlaps(scenario['slow']) or overlaps(scenario['pause'])


def is_out_of_order(scenario):
    start = {member['name']: member['start'] for member in scenario['members']}
    contacts = [group['contact'] for group in scenario['group'] if group['contact'] is not None]
    return (scenario['swim']['timeout'] >= scenario['swim']['period']
            or any(group['contact'] is not None and group['start'] == 0 for group in scenario['group'])
            or any(start[contact] > 0 for contact in contacts)
            or any(entry['at'] <= start[entry['member']] for entry in downs(scenario))
            or any(entry['until'] <= entry['from'] for entry in scenario['slow'] + scenario['pause'])
            or any(entry['until'] <= entry['at'] for entry in scenario['cut']))


def has_too_many(scenario):
    return len(scenario['members']) > MOST_MEMBERS[scenario['version']]


# the least rule that is broken counts, so each is asked only where those before it hold
RULES_OF_THE_DOCUMENT = [
    (2, lacks_something),
    (3, has_other_key),
    (4, has_other_kind),
    (5, is_past_range),
]
RULES_OF_THE_SCENARIO = [
    (6, has_bad_name),
    (7, names_nobody),
    (8, collides),
    (9, is_out_of_order),
    (10, has_too_many),
]


def filled(value, key):
    """The value with each default in its place; None stands where there is neither."""
    if value is None:
        return None
    if key.kind == 'list':
        return [filled(item, key._replace(kind='table')) for item in value]
    if key.kind == 'table':
        return {name: filled(value.get(name, inner.default), inner) for name, inner in key.keys.items()}
    return value


def scenario_of(document, keys):
    """The scenario: the document with its defaults, and its members in order."""
    scenario = {'cut': [], 'leave': [], 'restart': [], 'pause': [], 'block': [], 'gossip': None, 'serf': None,
                **filled(document, table(REQUIRED, keys))}
    for path in scenario['path']:
        path.update({name: scenario['link'][name] for name in LINK if path[name] is None})
    scenario['members'] = [
        {'name': f'{group["name"]}-{index}', 'group': group['name'], 'start': group['start'],
         'contact': group['contact']}
        for group in scenario['group'] for index in range(group['count'])]
    return scenario


def judge(document, newest=NEWEST_TAKEN):
    """The least rule that a document, or None for no document, breaks where this version is the newest, and
    None; or 0 and its scenario."""
    if document is None:
        return 1, None
    if version_of(document, newest) >= 4:
        return importlib.import_module('model_written').judge(document)
    keys = keys_of(version_of(document, newest), newest)
    for rule, is_broken in RULES_OF_THE_DOCUMENT:
        if is_broken(document, keys):
            return rule, None
    scenario = scenario_of(document, keys)
    for rule, is_broken in RULES_OF_THE_SCENARIO:
        if is_broken(scenario):
            return rule, None
    return 0, scenario
