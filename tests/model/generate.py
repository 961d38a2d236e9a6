#!/usr/bin/env python3
"""Random cases for tests/programs/random_cases.py.

    tests/model/generate.py SEED KIND NUMBER [NEWEST]

prints the text of a case again: KIND is run, text or sweep, and NEWEST the newest version of the format that
its texts have (the newest that the program takes). A run's scenario is accepted, and small enough that its
trace has some thousands of rows; a text may break any rule, and most break one at its border.
"""

import copy
import datetime
import random
import re
import sys

import model_written
from generate_four import NAMES, add_four
from generating import chance, some, spans
from scenarios import MOST_MEMBERS, NEWEST, NEWEST_TAKEN, keys_of, tables_there, version_of

LETTERS = 'abcdfghiklm'


# ---- Scenarios that are accepted ----

def scenario(rng, newest, messages=3000):
    """The document of a scenario with some of the mechanisms, and with about so many messages at most."""
    version = rng.randint(1, newest)
    period = rng.choice([rng.randint(2, 6), rng.randint(20, 200), rng.randint(20, 200), 1000, 2**24])
    groups = groups_of(rng, version)
    members = sum(group['count'] for group in groups)
    helpers = rng.choice([0, 1, 2, 3, 3, 16])
    periods = max(2, min(60, messages // (members * (2 + helpers))))
    end = rng.choice([0, 1, period, rng.randint(1, periods) * period + rng.randrange(period)])
    end = end if chance(rng, 5) else rng.randint(periods // 2, periods) * period + rng.randrange(period)
    document = {'version': version, 'seed': rng.choice([0, 1, 2**63 - 1, rng.getrandbits(62)]), 'end': end}
    document['swim'] = swim_of(rng, period, helpers)
    if chance(rng, 80):
        document['suspicion'] = some(rng, {'alpha': rng.randint(1, 4), 'beta': rng.randint(1, 6)})
    if chance(rng, 80):
        document['lifeguard'] = lifeguard_of(rng)
    document['link'] = link_of(rng, period)
    document['group'] = groups
    if period == 2**24 and chance(rng, 10):
        document['end'] = go_far(rng, groups, end)
    else:
        add_starts(rng, groups, end)
    if version >= 3:
        add_streams(rng, document, period, max(1, members * document['end'] // messages))
    add_troubles(rng, document, period)
    if version >= 4:
        add_four(rng, document, period, max(1, members * document['end'] // messages))
    return document


def swim_of(rng, period, helpers):
    timeout = rng.choice([1, (period + 2) // 3, period - 1, rng.randint(1, period - 1)])
    keys = {'period': period, 'timeout': timeout}
    # 3 is the default
    if helpers != 3 or chance(rng, 50):
        keys['helpers'] = helpers
    keys.update(some(rng, {
        'carry': rng.choice([1, 2, 3, 6, 64]), 'lambda': rng.choice([1, 1, 2, 3, 4, 100]),
        'spread': rng.choice([1, 2, period, min(2**24, 2 * period)])}))
    return keys


def lifeguard_of(rng):
    switches = {name: chance(rng, 60) for name in ('probe', 'suspicion', 'buddy')}
    return some(rng, {
        **switches, 'ceiling': rng.choice([0, 1, 2, 8, 16]), 'confirmations': rng.choice([0, 1, 2, 3, 5, 9]),
        'nack_percent': rng.choice([1, 50, 80, 100])})


def link_of(rng, period):
    delay = rng.choice([1, 1, rng.randint(1, max(1, period // 8)), rng.randint(1, period)])
    jitter = rng.choice([0, 0, 1, rng.randint(0, max(1, period // 4)), rng.randint(0, 2 * period)])
    loss = rng.choice([0, 0, 0, 1, 1000, 50000, 200000, 500000, 999999, 1000000])
    return {'delay': min(delay, 2**20), **some(rng, {'jitter': min(jitter, 2**20), 'loss': loss})}


def add_streams(rng, document, period, least):
    """Adds gossip, whole tables, calls, and how streams send again, some of each. What all members do after each
    so many ticks at least makes a run no longer than it may be."""
    end = document['end']
    if chance(rng, 60):
        document['swim']['fallback'] = chance(rng, 90)
    if chance(rng, 70):
        interval = rng.choice([1, period, 2 * period, rng.randint(1, period), max(1, period // 5)])
        # news that is told a hundred times has no end, nor has that of one whom nobody can hear
        interval = max(interval, end // 1000 if document['swim'].get('lambda', 3) <= 4 else least)
        push = rng.choice([0, least, rng.randint(least, 5 * max(least, period))])
        document['gossip'] = {'interval': min(interval, 2**24), **some(rng, {
            'nodes': rng.choice([1, 1, 2, 3, 4, 16]), 'dead': rng.choice([0, 1, period, 5 * period, end]),
            'push': min(push, 2**24)})}
    if chance(rng, 30):
        document['stream'] = some(rng, {
            'connect': rng.choice([1, 1000, rng.randint(1, period)]), 'again': rng.choice([1, 200, period])})


def groups_of(rng, version):
    """One to four groups, most with some members each."""
    most = rng.choice([1, 2, 3, 8, 8, 16, 24, 24, 24]) if chance(rng, 96) else 128
    # members' names of 15 bytes and fewer are copied in one piece, longer ones aren't
    short = [letter + end for letter in LETTERS for end in ('', '7', 'zz', '0123456789ab', '0123456789abcdf')]
    names = rng.sample(short if version < 4 else NAMES, 4)
    groups, left = [], most
    for name in names[:rng.randint(1, 4)]:
        if left > 0:
            groups.append({'name': name, 'count': rng.randint(1, left)})
            left -= groups[-1]['count']
    return groups


def add_starts(rng, groups, end):
    """Lets some groups start later; at least one starts at 0."""
    first = rng.choice(groups)
    contacts = [first]
    for group in groups:
        if group is not first and chance(rng, 40):
            contact = rng.choice(contacts)
            group['start'] = rng.randint(1, max(1, rng.choice([end, end + 2, end // 2, 3])))
            group['contact'] = f'{contact["name"]}-{rng.randrange(contact["count"])}'
        elif chance(rng, 20):
            group['start'] = 0


def go_far(rng, groups, end):
    """Lets all but one member start shortly before the greatest moment; that one probes nobody until then."""
    groups[0]['count'] = 1
    for group in groups[1:]:
        group.update({'start': 2**40 - rng.randint(1, end + 1), 'contact': f'{groups[0]["name"]}-0'})
    return 2**40


def members_of(document):
    """Each member's name and start; of a count past its range as many members as a cluster may have."""
    most = MOST_MEMBERS[2]
    return [(f'{group["name"]}-{index}', group.get('start', 0))
            for group in document['group'] for index in range(min(group['count'], most))]


def add_troubles(rng, document, period):
    """Adds crashes, leaves, slow members, paths and cuts, some of each."""
    end, members = document['end'], members_of(document)
    going = rng.sample(members, rng.choice([0, 1, 1, 2, 3, len(members)]) % (len(members) + 1))
    for name, start in going:
        what = 'leave' if document['version'] >= 2 and chance(rng, 60) else 'crash'
        at = rng.randint(start + 1, max(start + 1, rng.choice([end, end // 2, end + 5, start + period])))
        document.setdefault(what, []).append({'member': name, 'at': min(at, 2**40)})
    for name, _ in rng.sample(members, rng.choice([0, 0, 1, 2]) % (len(members) + 1)):
        document.setdefault('slow', []).extend(slow_entries(rng, name, end, period))
    if document['version'] >= 3:
        for name, _ in rng.sample(members, rng.choice([0, 1, 1, 2, 3]) % (len(members) + 1)):
            document.setdefault('pause', []).extend(pauses(rng, name, end, period))
    ends = [group['name'] for group in document['group']]
    for _ in range(rng.choice([0, 0, 0, 1, 2, 4])):
        path = {'from': rng.choice(ends), 'to': rng.choice(ends), **some(rng, link_of(rng, period))}
        document.setdefault('path', []).append(path)
    for _ in range(rng.choice([0, 0, 1, 2]) if document['version'] >= 2 else 0):
        at = min(rng.randint(0, end), 2**40 - 1)
        until = min(rng.randint(at + 1, at + 1 + max(1, end // 2)), 2**40)
        document.setdefault('cut', []).append(
            {'from': rng.choice(ends), 'to': rng.choice(ends), 'at': at, 'until': until})


def slow_entries(rng, name, end, period):
    extras = [1, rng.randint(1, period), min(2**24, rng.randint(1, 4 * period))]
    return [{**entry, 'extra': rng.choice(extras)} for entry in spans(rng, name, end, 2**40)]


def pauses(rng, name, end, period):
    """Pauses of parts of a period, of some periods, and of any length."""
    return spans(rng, name, end, rng.choice([period, 5 * period, 15 * period, 2**40]))


# ---- Changes of a document, each of which may break a rule ----

def places(document):
    """Each table and item that the format names, with its keys."""
    version = version_of(document, NEWEST)
    return tables_there(document, model_written.written_keys() if version >= 4 else keys_of(version))


def some_key(rng, document):
    """A table or an item that is there, and the name of a key that it has."""
    held = rng.choice([held for held, _ in places(document) if held])
    return held, rng.choice(list(held))


def drop_key(rng, document):
    held, name = some_key(rng, document)
    del held[name]


def add_key(rng, document):
    held, _ = rng.choice(places(document))
    known = [name for _, keys in places(document) for name in keys]
    name = rng.choice(['x', 'Seed', 'a-b', 'é', '', 'cut', 'leave', 'pause', 'gossip', 'stream', 'fallback',
                       'push', 'contact', rng.choice(known)])
    held.setdefault(name, rng.choice([0, 1, 'a', [], {}]))


class Raw(str):
    """A value that is written as it stands."""


# no time is among them: cut short, it may be one of TOML 1.1 alone (scenarios.document_of)
OTHERS = [0, 1, -1, 2.5, 1.0, True, False, '', 'a', '1', datetime.date(2026, 11, 26), [], [1], [[]], [{}], {},
          {'a': 1}, Raw('inf'), Raw('-nan'), Raw('1e3')]


def change_kind(rng, document):
    held, name = some_key(rng, document)
    held[name] = copy.deepcopy(rng.choice(OTHERS))


def change_item(rng, document):
    """Puts something else among the items of a list, or empties it."""
    lists = [name for name, value in document.items() if isinstance(value, list)]
    name = rng.choice(lists or ['crash'])
    if chance(rng, 25):
        document[name] = []
    else:
        items = document.setdefault(name, [])
        items.insert(rng.randint(0, len(items)), copy.deepcopy(rng.choice(OTHERS)))


def border(rng, document):
    """Sets a number to an end of its range, to one past it, or far beyond."""
    held, keys = rng.choice(places(document))
    numbers = [name for name, key in keys.items() if key.kind in ('number', 'ticks', 'share')]
    if numbers:
        name = rng.choice(numbers)
        least, greatest = keys[name].span
        near = [least, greatest, least - 1, greatest + 1, least, greatest, least + 1, greatest - 1]
        far = [0, -1, 2**62, 2**63 - 1, -2**63, Raw('-0'), Raw('0x10'), Raw('+7'), Raw('1_0')]
        held[name] = rng.choice(near + far)


def switch(rng, document):
    name = rng.choice(['probe', 'suspicion', 'buddy', 'fallback'])
    held = document.setdefault('swim' if name == 'fallback' else 'lifeguard', {})
    held[name] = rng.choice([True, False, 0, 1, 'true'])


def change_version(rng, document):
    document['version'] = rng.choice([0, 1, 2, 3, 3, 4, -1, 2, 1, 2.0, 3.0, '2', True, [2]])


def change_group_name(rng, document):
    others = [group['name'] for group in document['group']]
    rng.choice(document['group'])['name'] = rng.choice(
        ['', 'A', 'aB', 'a' * 16, 'a' * 17, '9a', 'a9', 'a-b', 'a_b', 'á', 'z', ' a', 'a\n', 'a b', *others])


def change_reference(rng, document):
    """Lets a `contact`, `member`, `from` or `to` name something else."""
    held = [(table, name) for table, _ in places(document) for name in ('contact', 'member', 'from', 'to')
            if isinstance(table.get(name), str)]
    table, name = rng.choice(held)
    group = rng.choice(document['group'])
    first, count = group['name'], group['count']
    table[name] = rng.choice([
        f'{first}-0', f'{first}-{count}', f'{first}-{count - 1}', f'{first}-00', f'{first}-01', f'{first}-+0',
        f'{first}--1', f'{first}-', f'{first}', '-0', '', 'zz-0', f'{first}-0 ', f'{first}-{10**23}',
        f'{first.upper()}-0', f'{first}-0-0', f'{first}-\u0660'])


def change_contact(rng, document):
    group, other = rng.choice(document['group']), rng.choice(document['group'])
    group['contact'] = f'{other["name"]}-0'
    if chance(rng, 60):
        group['start'] = rng.choice([0, 1, 2**40, 2**40 + 1, -1, True])


def add_down(rng, document):
    """One more crash or leave, often of a member that has one."""
    whats = ['crash', 'leave'] if document.get('version') != 1 or chance(rng, 10) else ['crash']
    named = [entry['member'] for what in whats for entry in document.get(what, [])]
    member, start = rng.choice(members_of(document))
    member = rng.choice(named) if named and chance(rng, 60) else member
    entry = {'member': member, 'at': rng.choice([0, 1, start, start, start + 1, 2**40])}
    insert(rng, document, rng.choice(whats), entry)


def insert(rng, document, name, entry):
    items = document.setdefault(name, [])
    items.insert(rng.randint(0, len(items)), entry)


def add_span(rng, document):
    """One more slow entry or pause, which often touches or overlaps one that is there."""
    name = 'pause' if document.get('version') == 3 and chance(rng, 60) else 'slow'
    there = document.get(name, [])
    member, _ = rng.choice(members_of(document))
    begin, stop = sorted([rng.randint(0, 50), rng.randint(0, 50)])
    if there and chance(rng, 80):
        old = rng.choice(there)
        member = old['member']
        begin = rng.choice([old['from'], old['until'], old['until'] - 1, 0, old['from'] - 1])
        stop = rng.choice([old['from'], old['from'] + 1, old['until'], old['until'] + 1, begin, begin + 1])
    entry = {'member': member, 'from': max(0, begin), 'until': max(0, stop)}
    insert(rng, document, name, {**entry, 'extra': 1} if name == 'slow' else entry)


def change_time(rng, document):
    """Lets two times that stand in an order meet or pass each other."""
    orders = [(table, *names) for table, _ in places(document)
              for names in (('timeout', 'period'), ('from', 'until'), ('at', 'until'))
              if all(name in table for name in names)]
    table, first, second = rng.choice(orders)
    if chance(rng, 50):
        table[first] = table[second] + rng.choice([-1, 0, 0, 1])
    else:
        table[second] = table[first] + rng.choice([-1, 0, 0, 1])


def fill_cluster(rng, document):
    """Brings the number of members to the most or to one more, by groups of sizes that are allowed."""
    most = rng.choice([1024, 4096, MOST_MEMBERS[document['version']]])
    left = most + rng.choice([0, 1]) - sum(group['count'] for group in document['group'])
    for place in range(32):
        count = min(left, rng.choice([1024, 1023, rng.randint(1, most)]), MOST_MEMBERS[document['version']])
        if count > 0:
            document['group'].append({'name': f'fill{place}', 'count': count})
            left -= count


def append_copy(rng, document):
    """One more entry like one that is there: a group, a path, a crash and so on."""
    name = rng.choice([name for name, value in document.items() if isinstance(value, list)])
    document[name].append(copy.deepcopy(rng.choice(document[name])))


CHANGES = [
    drop_key, drop_key, add_key, change_kind, change_kind, change_item, border, border, border, border,
    switch, change_version, change_group_name, change_reference, change_reference, change_contact, add_down,
    add_down, add_span, add_span, add_span, change_time, change_time, fill_cluster, fill_cluster, append_copy,
]


def change(rng, document):
    """Makes one change. Where an earlier one left what it can't do with, it may come to nothing."""
    try:
        rng.choice(CHANGES)(rng, document)
    except (AttributeError, IndexError, KeyError, TypeError, ValueError):
        pass


# ---- The text of a document ----

def plain_key(name):
    return name if re.fullmatch('[A-Za-z0-9_-]+', name) else f'"{name}"'


def value_text(rng, value):
    """A value on one line."""
    if isinstance(value, Raw):
        return value
    if isinstance(value, bool):
        return str(value).lower()
    if isinstance(value, int):
        return number_text(rng, value)
    if isinstance(value, str):
        quote = '"' if '\n' in value or chance(rng, 80) else "'"
        return quote + value.replace('\n', '\\n') + quote
    if isinstance(value, list):
        return '[' + ', '.join(value_text(rng, item) for item in value) + ']'
    if isinstance(value, dict):
        inner = [f'{plain_key(name)} = {value_text(rng, item)}' for name, item in value.items()]
        return '{' + ', '.join(inner) + '}'
    return str(value)


def number_text(rng, value):
    if value >= 0 and chance(rng, 10):
        return rng.choice([hex(value), oct(value), bin(value), f'+{value}', f'{value:_}'])
    return str(value)


def text_of(rng, document):
    """A text of the document, in one of the many ways in which TOML may write it."""
    top, sections = [], []
    for name, value in document.items():
        tables = value if isinstance(value, list) and value else [value]
        if all(isinstance(item, dict) for item in tables) and chance(rng, 85):
            head = f'[[{plain_key(name)}]]' if isinstance(value, list) else f'[{plain_key(name)}]'
            sections.append([line for item in tables for line in [head, *pairs(rng, item)]])
        elif isinstance(value, dict) and value and chance(rng, 50):
            top += [f'{plain_key(name)}.{pair}' for pair in pairs(rng, value)]
        else:
            top.append(f'{plain_key(name)} = {value_text(rng, value)}')
    rng.shuffle(top)
    rng.shuffle(sections)
    lines = top + [line for section in sections for line in section]
    if chance(rng, 20):
        lines.insert(rng.randint(0, len(lines)), '# a comment')
    line_end = '\r\n' if chance(rng, 10) else '\n'
    return ''.join(line + line_end for line in lines).encode()


def pairs(rng, held):
    lines = [f'{plain_key(name)} = {value_text(rng, value)}' for name, value in held.items()]
    rng.shuffle(lines)
    return lines


# ---- Changes of the bytes ----

def cut_off(rng, text):
    return text[:rng.randint(0, len(text))]


def replace_byte(rng, text):
    """Another byte in one place; none that makes of TOML 1.0 what only 1.1 takes (scenarios.document_of)."""
    avoided = b'\\\n,' if b'{' in text else b'\\'
    byte = rng.choice([rng.randrange(256), rng.randrange(32, 127), *b'0="[]#.-_ '])
    while byte in avoided:
        byte = rng.randrange(256)
    place = rng.randrange(len(text) or 1)
    return text[:place] + bytes([byte]) + text[place + 1:]


def repeat_line(rng, text):
    """A line twice: a key, or the head of a table."""
    lines = text.splitlines(keepends=True)
    if lines:
        lines.insert(rng.randint(0, len(lines)), rng.choice(lines))
    return b''.join(lines)


def drop_line(rng, text):
    lines = text.splitlines(keepends=True)
    if lines:
        del lines[rng.randrange(len(lines))]
    return b''.join(lines)


def add_line(rng, text):
    """A beginning, which with most lines breaks rule 1, or else rule 3."""
    deep = rng.choice([20, 40, 120, 2000])
    nested = [f'x = {"[" * deep}{"]" * deep}', f'x = {"{a = " * deep}1{"}" * deep}',
              f'{".".join("a" * deep)} = 1']
    return rng.choice([
        rng.choice(BEGINNINGS), rng.choice(LINES) + b'\n', rng.choice(nested).encode() + b'\n']) + text


BEGINNINGS = [b'\xef\xbb\xbf', b'\xff\n', b'\x00\n', b'\r\n', b'\r', b'\xed\xa0\x80\n', b'\x0c\n', b' \t\n']
LINES = [
    b'# \xc3\xa9', b'# \xc3', b'# \x07', b'x', b'x =', b'= 1', b'x = 1 y = 2', b'x = tru', b'x = a',
    b'"x = 1', b'x = 9223372036854775807', b'x = 9223372036854775808', b'x = -9223372036854775808',
    b'x = -9223372036854775809', b'x = 0x7fffffffffffffff', b'x = 0x8000000000000000',
    b'x = ' + b'9' * 5000, b'x = 01', b'x = 1__0', b'x = -0x1', b'x = 1e300', b'x = 1e400', b'x = -1.5e999',
    b'x = .5', b'x = 5.', b'x = +inf', b'x = 1e-400', b'x = 1_0.0_1', b'x = 2026-02-28', b'x = 2026-02-30',
    b'x = 2026-11-26 07:00:11', b'x = 07:00:61', b'x = 24:00:00', b'x = """a\nb"""', b"x = '''a'''",
    b"x = 'a\nb'", b'"\\u0078" = 1', b'"\\q" = 1', b'x = "\\ud800"', b'[x]\n[x]', b'x.y = 1\nx.y = 2',
    b'x = {}\nx.y = 1', b'[[x]]\n[x]', b'[x]\n[[x]]', b'[x.y]\n[x]', b'x = 1\nx.y = 2',
    b'[x]\ny.z = 1\n[x.y]', b'x = []\n[[x]]', b'x = [1,]', b'x = [,]', b'x = [1 2]', b'x = {a = 1 b = 2}',
    b'[]', b'[x',
]
BYTES = [cut_off, cut_off, replace_byte, replace_byte, replace_byte, replace_byte, repeat_line, drop_line,
         add_line]


# ---- Cases ----

def run_case(seed, number, newest):
    """The text of an accepted scenario, and its document."""
    rng = random.Random(f'{seed} run {number}')
    document = scenario(rng, newest)
    return text_of(rng, document), document, rng


def far_case(seed, number, newest):
    """The same of sites so far apart that several workers run them as parts: a window has hundreds of events."""
    rng = random.Random(f'{seed} far {number}')
    sites = 'abcd'[:rng.randint(2, 4)]
    document = {
        'version': rng.randint(1, newest), 'seed': rng.randrange(2**63), 'end': 2500,
        'swim': {'period': rng.choice([20, 30]), 'timeout': 8, 'spread': 20},
        'link': {'delay': rng.choice([600, 1000]), 'jitter': rng.choice([0, 5])},
        'group': [{'name': site, 'count': rng.randint(10, 12)} for site in sites],
        'path': [{'from': site, 'to': site, 'delay': rng.randint(1, 3), 'loss': rng.choice([0, 50_000])} for site in sites],
        'crash': [{'member': f'{site}-{rng.randrange(10)}', 'at': rng.randint(100, 2000)} for site in sites],
    }
    return text_of(rng, document), document, rng


def text_case(seed, number, newest):
    """A text that may break any rule."""
    rng = random.Random(f'{seed} text {number}')
    document = scenario(rng, newest)
    for _ in range(rng.choice([0, 1, 1, 1, 1, 1, 2, 2, 3])):
        change(rng, document)
    text = text_of(rng, document)
    for _ in range(rng.choice([0, 0, 0, 0, 0, 1, 1])):
        text = rng.choice(BYTES)(rng, text)
    return text


SETTINGS = {
    'end': [0, 1, 100, 500], 'swim.helpers': [0, 1, 2, 3], 'swim.carry': [1, 2, 6],
    'swim.lambda': [1, 2, 3], 'swim.spread': [1, 10], 'swim.timeout': [1, 2, 10],
    'suspicion.alpha': [1, 2, 5], 'suspicion.beta': [1, 2, 6], 'lifeguard.probe': [True, False],
    'lifeguard.suspicion': [True, False], 'lifeguard.buddy': [True, False], 'lifeguard.ceiling': [0, 1, 8],
    'lifeguard.confirmations': [0, 1, 3], 'lifeguard.nack_percent': [1, 80, 100], 'link.delay': [1, 5, 0],
    'link.jitter': [0, 10], 'link.loss': [0, 100000, 1000000],
}
# no interval is so short that gossip for ever makes a run long
SETTINGS_OF_3 = {
    'swim.fallback': [True, False], 'gossip.interval': [2**20, 2**24, 0], 'gossip.nodes': [1, 2, 3],
    'gossip.dead': [0, 10, 1000], 'gossip.push': [0, 2**23, 2**24], 'stream.connect': [1, 1000],
    'stream.again': [1, 200],
}
SETTINGS_OF_4 = {
    'gossip.queue': [True, False], 'gossip.packet': [0, 100, 1400], 'gossip.meta': [0, 32, 512],
    'stream.limit': [1, 10000, 0], 'stream.retry': [2**22, 2**24], 'serf.reconnect': [2**22, 2**24], 'serf.reap': [0, 1000],
    'serf.linger': [1, 1000, 0],
}


def sweep_case(seed, number, newest):
    """A text, its document, keys with their values, and the seeds, of which there may be none."""
    rng = random.Random(f'{seed} sweep {number}')
    document = scenario(rng, newest, 800)
    settings = []
    choices = {'version': list(range(1, newest + 1)), **SETTINGS}
    for first_newest, more in ((3, SETTINGS_OF_3), (4, SETTINGS_OF_4)):
        choices.update(more if newest >= first_newest else {})
    for key in rng.sample(list(choices), rng.choice([0, 1, 1, 2, 3])):
        settings.append((key, rng.sample(choices[key], rng.randint(1, 2))))
    first = rng.choice([0, 1, 99, 2**63 - 4])
    return text_of(rng, document), document, settings, list(range(first, first + rng.choice([0, 1, 2, 4])))


# a run's and a sweep's text come with what else they are made of
TEXTS = {
    'run': lambda *case: run_case(*case)[0], 'far': lambda *case: far_case(*case)[0], 'text': text_case, 'sweep': lambda *case: sweep_case(*case)[0],
}


def main():
    if len(sys.argv) not in (4, 5) or sys.argv[2] not in TEXTS:
        sys.exit(__doc__)
    seed, kind, number, *newest = sys.argv[1:]
    sys.stdout.buffer.write(TEXTS[kind](seed, int(number), *map(int, newest or [NEWEST_TAKEN])))


if __name__ == '__main__':
    main()
