"""Which rule a text of version 4 breaks, as it is written, or the scenario that it says, for the second simulator.

Written from docs/VERSION-4.md ("The text", "Refusals") alone. Whatever a plain
text of version 3 keeps is asked here, too, but of rules that version 4 hasn't (rule 8).
"""

import re

import scenarios
from model_expand import LENGTHS, SCRIPT, Expansion, Refused, expand, parts_per_million_of, plain_value, tick_of, ticks_of
from scenarios import MOMENT, NAME, SWITCH, Key, lacks_something, has_other_key, number, table, tables, tables_there

MOST_MEMBERS = 16_384
MOST_TURNS = 2**28
LAST_MOMENT = 2**40
REPEATED = number(1, 2**31, None)
MAYBE = NAME._replace(default=None)
OFF = SWITCH._replace(default=False)

# whom an entry is about
WHO = {
    'member': MAYBE, 'members': Key('names', None, None, None), 'group': MAYBE,
    'count': number(1, MOST_MEMBERS, None), 'name': MAYBE,
}
AT = MOMENT._replace(default=None)
SPELL = {**WHO, 'from': MOMENT, 'until': MOMENT, 'every': REPEATED, 'lasts': REPEATED, 'lasts_most': REPEATED}
GONE = {
    **WHO, 'at': AT, 'each': number(0, 2**40, None), 'back': number(1, 2**40, None), 'contact': MAYBE,
    'from': AT, 'until': AT, 'every': REPEATED,
}
RESTART = {**WHO, 'at': MOMENT, 'each': number(0, 2**40, None), 'contact': MAYBE}
GOSSIP = {**scenarios.GOSSIP, 'queue': OFF, 'packet': number(0, 65_507, 0), 'meta': number(0, 512, 0)}
STREAM = {**scenarios.STREAM, 'limit': number(1, 2**24, 10_000), 'retry': number(1, 2**24, 30_000)}
SERF = {'reconnect': number(1, 2**24, 30_000), 'reap': number(0, 2**40, 86_400_000), 'linger': number(1, 2**24, 1000)}


def with_units(keys, section=''):
    """The keys, those that count ticks of the kind `ticks`, and `loss` of the kind `share`."""
    made = {}
    for name, key in keys.items():
        if key.kind in ('table', 'list'):
            key = key._replace(keys=with_units(key.keys, name))
        elif name in LENGTHS.get(section, ()):
            key = key._replace(kind='ticks')
        elif name == 'loss':
            key = key._replace(kind='share')
        made[name] = key
    return made


def written_keys():
    """The keys of a text of version 4."""
    keys = scenarios.keys_of(3, 4)
    group = {**keys['group'].keys, 'count': number(1, MOST_MEMBERS)}
    keys.update({
        'tick': Key('tick', '1ms', None, None), 'group': keys['group']._replace(keys=group),
        'path': tables([], {**scenarios.PATH, 'both': OFF}), 'cut': tables([], {**scenarios.CUT, 'both': OFF}),
        'crash': tables([], GONE), 'leave': tables([], GONE), 'restart': tables([], RESTART),
        'slow': tables([], {**SPELL, 'extra': number(1, 2**24)}), 'pause': tables([], SPELL), 'block': tables([], SPELL),
        'gossip': table(None, GOSSIP), 'stream': table({}, STREAM), 'serf': table(None, SERF),
    })
    return with_units(keys)


# ---- Rules 2 to 5: the shape ----

def entries_of(document, *sections):
    """The entries of these lists; one that is no list, which breaks rule 4, has none."""
    lists = [document.get(section) for section in sections]
    return [entry for held in lists if isinstance(held, list) for entry in held if isinstance(entry, dict)]


def lacks_who_or_when(document):
    """Whether an entry has nobody, or no time (rule 2)."""
    for entry in entries_of(document, *SCRIPT):
        if not {'member', 'members', 'group'} & entry.keys():
            return True
    for entry in entries_of(document, 'slow', 'pause', 'block'):
        if 'every' in entry and 'lasts' not in entry:
            return True
    return any(not {'from', 'until', 'back'} <= entry.keys() if 'every' in entry else 'at' not in entry
               for entry in entries_of(document, 'crash', 'leave'))


def is_late(group, tick):
    """Whether a group's start is a length over 0; of whole numbers `scenarios` asks that."""
    try:
        return isinstance(group.get('start'), str) and 1 <= ticks_of(group['start'], tick) < 2**63
    except Refused:
        return False


def tick_or_default(document):
    """How long a tick of a document is; a millisecond where it breaks a rule."""
    tick = document.get('tick', '1ms')
    return tick_of(tick) if isinstance(tick, str) and not breaks(4, tick_of, tick) and not breaks(5, tick_of, tick) else 1000


def lacks_contact(document):
    """Whether a group that starts later has nobody to ask (rule 2)."""
    tick = tick_or_default(document)
    return any(is_late(group, tick) and 'contact' not in group for group in entries_of(document, 'group'))


def breaks(rule, read, value):
    """Whether a value that is read breaks this rule."""
    try:
        read(value)
    except Refused as refused:
        return refused.args[0] == rule
    return False


def is_of_kind(value, key):
    """Whether a value is of its key's kind (rule 4)."""
    if key.kind in ('ticks', 'share', 'tick') and isinstance(value, str):
        read = parts_per_million_of if key.kind == 'share' else lambda word: ticks_of(word, 1)
        return not breaks(4, read, value)
    if key.kind == 'tick':
        return False
    if key.kind == 'names':
        return isinstance(value, list) and all(isinstance(item, str) for item in value)
    kind = 'number' if key.kind in ('ticks', 'share') else key.kind
    return scenarios.is_of_kind(value, key._replace(kind=kind))


def is_past_range(value, key, tick):
    """Whether a value of its kind is out of its range (rule 5)."""
    if key.kind == 'names':
        return value == []
    if key.kind == 'tick':
        return breaks(5, tick_of, value)
    if key.kind not in ('number', 'ticks', 'share'):
        return False
    if isinstance(value, str):
        if key.kind == 'ticks' and breaks(5, lambda word: ticks_of(word, tick), value):
            return True
        value = ticks_of(value, tick) if key.kind == 'ticks' else parts_per_million_of(value)
    return not key.span[0] <= value <= key.span[1]


def rule_of_shape(document, keys):
    """The least rule from 2 to 5 that the document breaks, or 0."""
    there = scenarios.values_there(document, keys)
    if lacks_something(document, keys) or lacks_who_or_when(document) or lacks_contact(document):
        return 2
    if has_other_key(document, keys):
        return 3
    if any(not is_of_kind(value, key) for value, key in there):
        return 4
    tick = tick_or_default(document)
    return 5 if any(is_past_range(value, key, tick) for value, key in there) else 0


# ---- Rules 6 to 10: what the text says ----

def in_ticks(document, keys, tick):
    """The document, its lengths and shares as numbers."""
    found = {}
    for section, held in document.items():
        if isinstance(held, dict):
            found[section] = {name: plain_value(section, name, value, tick) for name, value in held.items()}
        elif isinstance(held, list):
            found[section] = [{name: plain_value(section, name, value, tick) for name, value in item.items()} for item in held]
        else:
            found[section] = plain_value('', section, held, tick)
    return {section: [] for section, key in keys.items() if key.kind == 'list'} | found


def is_name(name):
    """Whether it is a group name of version 4."""
    return re.fullmatch('[a-zA-Z]([a-zA-Z0-9_-]{0,30}[a-zA-Z0-9_])?', name) is not None


def has_bad_name(text):
    names = [group['name'] for group in text['group']]
    lists = [names] + [[entry['name'] for entry in text[section] if 'name' in entry] for section in SCRIPT]
    return any(len(set(these)) < len(these) or not all(map(is_name, these)) for these in lists)


class Roster:
    """The groups and members of a text."""

    def __init__(self, text):
        self.starts, self.groups = {}, {}
        for group in text['group']:
            self.groups[group['name']] = [f'{group["name"]}-{place}' for place in range(group['count'])]
            self.starts.update((name, group.get('start', 0)) for name in self.groups[group['name']])

    def named(self, entry):
        """All whom an entry names: of a group each, whom chance may choose."""
        if 'group' in entry and 'member' not in entry and 'members' not in entry:
            return self.groups[entry['group']]
        return [entry['member']] if 'member' in entry else entry['members']


def names_nobody(text, roster):
    members = [entry[key] for section in SCRIPT for entry in text[section] for key in ('member', 'contact') if key in entry]
    members += [name for section in SCRIPT for entry in text[section] for name in entry.get('members', [])]
    members += [group['contact'] for group in text['group'] if 'contact' in group]
    groups = [entry[end] for section in ('path', 'cut') for entry in text[section] for end in ('from', 'to')]
    groups += [entry['group'] for section in SCRIPT for entry in text[section] if 'group' in entry]
    return not roster.starts.keys() >= set(members) or not roster.groups.keys() >= set(groups)


def has_two_ways(entry, roster):
    """Whether an entry says one thing in two ways, or so many of too few."""
    if len({'member', 'members', 'group'} & entry.keys()) > 1:
        return True
    members = entry.get('members', [])
    if len(set(members)) < len(members):
        return True
    return 'count' in entry and ('group' not in entry or entry['count'] > len(roster.groups[entry['group']]))


def is_never(entry, roster):
    """Whether a crash, leave or restart is at no moment, or at two."""
    if 'each' in entry and ('every' in entry or 'member' in entry):
        return True
    if 'at' in entry and {'every', 'from', 'until'} & entry.keys():
        return True
    if 'every' in entry:
        return entry['until'] <= entry['from']
    if {'from', 'until'} & entry.keys():
        return True
    return any(entry['at'] + place * entry.get('each', 0) <= roster.starts[name]
               for place, name in enumerate(roster.named(entry)))


def is_endless(entry):
    """Whether a slow entry, pause or block has no end, or lasts without coming again."""
    if entry['until'] <= entry['from']:
        return True
    if 'every' not in entry:
        return bool({'lasts', 'lasts_most'} & entry.keys())
    return entry.get('lasts_most', entry['lasts']) < entry['lasts']


def asks_itself(entry, roster):
    """Whether one that is back, or restarts, has nobody to ask but itself."""
    if 'contact' in entry:
        return entry['contact'] in roster.named(entry)
    return 'back' in entry and len(roster.starts) == 1


def has_keys_that_exclude(text):
    """Whether an entry has keys that exclude each other."""
    gone = text['crash'] + text['leave']
    return (any(len({'member', 'members', 'group'} & entry.keys()) > 1 for section in SCRIPT for entry in text[section])
            or any('count' in entry and 'group' not in entry for section in SCRIPT for entry in text[section])
            or any('contact' in entry and 'back' not in entry for entry in gone)
            or any('each' in entry and 'member' in entry for entry in gone + text['restart'])
            or any('each' in entry and 'every' in entry for entry in gone)
            or any({'from', 'until'} & entry.keys() if 'every' not in entry else 'at' in entry for entry in gone)
            or any('every' not in entry and {'lasts', 'lasts_most'} & entry.keys()
                   for entry in text['slow'] + text['pause'] + text['block']))


def is_out_of_order_at_all(text, roster):
    """Whether rule 9 is broken, whatever entries say of their members and moments."""
    contacts = [group['contact'] for group in text['group'] if 'contact' in group]
    return (text['swim']['timeout'] >= text['swim']['period']
            or any('contact' in group and group.get('start', 0) == 0 for group in text['group'])
            or any(roster.starts[contact] > 0 for contact in contacts)
            or any(entry['until'] <= entry['at'] for entry in text['cut'])
            or has_keys_that_exclude(text))


def is_out_of_order(text, roster):
    gone = text['crash'] + text['leave']
    script = [entry for section in SCRIPT for entry in text[section]]
    return (is_out_of_order_at_all(text, roster)
            or any(has_two_ways(entry, roster) for entry in script)
            or any(is_never(entry, roster) for entry in gone + text['restart'])
            or any(is_endless(entry) for entry in text['slow'] + text['pause'] + text['block'])
            or any(asks_itself(entry, roster) for entry in gone + text['restart']))


def comes_too_often(text, roster):
    """Whether crashes and leaves come more than 2^28 times before the starts of their members, on the mean."""
    turns = 0
    for entry in text['crash'] + text['leave']:
        if 'every' in entry:
            waits = [min(roster.starts[name], entry['until']) - entry['from'] for name in roster.named(entry)]
            turns += sum(max(wait, 0) // (entry['back'] + entry['every']) for wait in waits)
    return turns > MOST_TURNS


def rule_of_plain(document, tick):
    """The rule that the plain text breaks: 10 where `every` makes too many, 5 where a moment is past the last one."""
    try:
        lists = Expansion(document, tick).lists()
    except Refused as refused:
        return refused.args[0]
    moments = [entry['at'] for section in ('crash', 'leave', 'restart') for entry in lists[section]]
    return 5 if any(moment > LAST_MOMENT for moment in moments) else 0


def rule_of(document):
    """The least rule that a document of version 4 breaks as it is written, or 0. None stands for no document."""
    if document is None:
        return 1
    keys = written_keys()
    rule = rule_of_shape(document, keys)
    if rule:
        return rule
    tick = tick_of(document.get('tick', '1ms'))
    text = in_ticks(document, keys, tick)
    if has_bad_name(text):
        return 6
    roster = Roster(text)
    if names_nobody(text, roster):
        return 7
    if len(roster.starts) > MOST_MEMBERS:
        return 9 if is_out_of_order_at_all(text, roster) else 10
    if is_out_of_order(text, roster):
        return 9
    if comes_too_often(text, roster):
        return 10
    return rule_of_plain(document, tick)


def judge(document):
    """The least rule that a document of version 4 breaks, and None; or 0 and the scenario of its plain text, with how many
    microseconds a tick lasts."""
    rule = rule_of(document)
    if rule:
        return rule, None
    scenario = scenarios.scenario_of(expand(document), written_keys())
    scenario['tick'] = tick_of(document.get('tick', '1ms'))
    return 0, scenario
