#!/usr/bin/env python3
"""Works out from the rules of docs/EXPLAIN.md and docs/PROTOCOL.md what `swimsim explain` tells of accepted scenarios.

    tests/data/explain_expected.py

It writes tests/data/explain/accepted/NAME.txt and NAME.json for each scenario of examples/ and of tests/data/explain/accepted/. It knows nothing
of the program: pairs of members are gone through one by one, lists are searched from their ends; what a text of version 4 stands for
is what the second simulator makes of it. It needs Python 3.11,
for the reading of TOML; tests/programs/explain_accepted.py, which compares the program with these files, doesn't.
"""

import json
import sys
import tomllib
from pathlib import Path

sys.path.append(str(Path(__file__).resolve().parents[1] / 'model'))
from model_expand import entries, expand, origins  # noqa: E402

ROOM = Path(__file__).resolve().parent / 'explain' / 'accepted'
TOP = Path(__file__).resolve().parents[2]
THOUSANDTHS = (0, 301, 477, 602, 699, 778, 845, 903, 954, 1000)
GOSSIP = ('interval', 'nodes', 'dead', 'push')
DEFAULTS = {
    'swim': {'helpers': 3, 'carry': 6, 'lambda': 3, 'spread': 1, 'fallback': False},
    'suspicion': {'alpha': 5, 'beta': 6},
    'lifeguard': {'probe': True, 'suspicion': True, 'buddy': True, 'ceiling': 8, 'confirmations': 3, 'nack_percent': 80},
    'link': {'jitter': 0, 'loss': 0},
    'gossip': {'nodes': 3, 'dead': 0, 'push': 0, 'queue': False, 'packet': 0, 'meta': 0},
    'stream': {'connect': 1000, 'again': 200, 'limit': 10000, 'retry': 30000},
    'serf': {'reconnect': 30000, 'reap': 86400000, 'linger': 1000},
}
SAID = {
    'late-answer': ('an answer can come after the timeout though nobody is slow',
                    'raise swim.timeout to the greatest round trip, or shorten the links'),
    'late-relay': ('an answer by way of a helper can come after the period',
                   'raise swim.period to the timeout and two round trips'),
    'early-end': ('the run ends before a first suspicion can run out',
                  'raise end, or lower swim.period or suspicion.alpha'),
    'few-accusers': ('the cluster has fewer members that can accuse than are wanted',
                     'lower lifeguard.confirmations, or add members'),
    'many-helpers': ('the cluster has fewer members that can help than are asked',
                     'lower swim.helpers, or add members'),
    'lost-on-link': ('every message is lost on each link that no path names',
                     'lower link.loss, or use a cut that ends'),
    'part-of-lifeguard': ('a part of Lifeguard is on and a part is off',
                          'set probe, suspicion and buddy alike, unless you compare them'),
    'long-spread': ('some members may begin their first period after the end',
                    'lower swim.spread to the period, or raise end'),
    'no-gossip': ("by memberlist's rules news spreads by [gossip], which is not there", 'add [gossip], as `init lan` prints it'),
    'odd-confirmations': ('no memberlist has this lifeguard.confirmations with this suspicion.alpha',
                          'set lifeguard.confirmations to suspicion.alpha less 2'),
    'quiet-run': ('nothing happens: no loss, no crash, nobody slow, paused, cut off or late',
                  'nothing, if you ask what a quiet cluster costs; else add what is to happen, as a [[crash]]'),
    'hidden-path': ('a later path names the same two groups and hides this one', 'remove this path or the later one'),
    'lonely-path': ('the group has one member, so it has no link to itself',
                    'remove the path, or add members to the group'),
    'lost-on-path': ('every message is lost on this path', 'lower its loss, or use a cut that ends'),
    'slow-past-end': ('the slow time begins after the end', 'move it before the end, or raise end'),
    'slow-while-down': ('the member is down as its slow time begins',
                        'move it before the crash or leave, or remove it'),
    'slow-answer': ('an answer can come after the timeout while the member is slow',
                    'nothing, if that is what you try; else lower extra or raise swim.timeout'),
    'crash-past-end': ('the crash is after the end', 'move it before the end, or raise end'),
    'crash-unconfirmed': ('no suspicion that the crash causes can run out in time',
                          'raise end, or let the member crash earlier'),
    'leave-past-end': ('the leave is after the end', 'move it before the end, or raise end'),
    'cut-past-end': ('the cut begins after the end', 'move it before the end, or raise end'),
    'pause-past-end': ('the pause begins after the end', 'move it before the end, or raise end'),
    'pause-while-down': ('the member is down as its pause begins',
                         'move it before the crash or leave, or remove it'),
    'long-pause': ('the pause is longer than the shortest suspicion, so others may declare the member dead',
                   'nothing, if that is what you try; else shorten it or raise suspicion.alpha'),
}


def fine_logarithm(number):
    """Version 3's L: by the two leading digits, of which the exact logarithm is taken and rounded down."""
    leading = int((str(number) + '0')[:2])
    fraction = max(k for k in range(1000) if 10 ** (1000 + k) <= leading ** 1000)
    return 1000 * (len(str(number)) - 1) + fraction


def finest_logarithm(number):
    """Version 4's L: from three digits on the third one goes between the logarithms of the first two and of the next."""
    digits = str(number)
    if len(digits) < 3:
        return fine_logarithm(number)
    low, high = fine_logarithm(int(digits[:2])), fine_logarithm(int(digits[:2]) + 1)
    return 1000 * (len(digits) - 2) + low + (high - low) * int(digits[2]) // 10


def coarse_logarithm(number):
    """L of versions 1 and 2: by the leading digit."""
    digits = str(number)
    return 1000 * (len(digits) - 1) + THOUSANDTHS[int(digits[0]) - 1]


class Cluster:
    """A scenario as its text says it, with the defaults."""

    def __init__(self, text):
        document = tomllib.loads(text)
        self.is_fourth = document['version'] == 4
        said = expand(document) if self.is_fourth else document
        self.origins = origins(document) if self.is_fourth else {}
        self.entries = entries(document) if self.is_fourth else {}
        self.text = text.splitlines()
        self.end = said['end']
        self.is_third = said['version'] >= 3
        self.logarithm = finest_logarithm if self.is_fourth else fine_logarithm if self.is_third else coarse_logarithm
        self.gossip, self.serf = ({**DEFAULTS[table], **said[table]} if table in said else None for table in ('gossip', 'serf'))
        self.swim, self.suspicion, self.lifeguard, self.link, self.stream = (
            {**DEFAULTS[table], **said.get(table, {})} for table in ('swim', 'suspicion', 'lifeguard', 'link', 'stream'))
        self.groups = said['group']
        self.paths = [{**self.link, **path} for path in said.get('path', [])]
        self.slows, self.crashes, self.leaves, self.restarts, self.cuts, self.pauses, self.blocks = (
            said.get(table, []) for table in ('slow', 'crash', 'leave', 'restart', 'cut', 'pause', 'block'))
        self.members = [(f'{group["name"]}-{index}', group) for group in self.groups for index in range(group['count'])]

    def header(self, name, number=None):
        """The number of the line of a table's header, from 0, of a list of tables that of an item; None where it isn't there."""
        wanted = f'[{name}]' if number is None else f'[[{name}]]'
        lines = [place for place, line in enumerate(self.text) if line.startswith(wanted)]
        return lines[number or 0] if lines else None

    def key(self, name, begins):
        """The place of a key of the table whose header stands on a line, else that of the header."""
        for place in range(begins + 1, len(self.text)):
            if self.text[place].startswith('['):
                break
            if self.text[place].split('=')[0].strip() == name:
                return place + 1, 1, len(name)
        return begins + 1, 1, len(self.text[begins].split('#')[0].rstrip())

    def place(self, about):
        """Line and column, from 1, and length of what a warning is about."""
        match about:
            case (table, None, key):
                begins = -1 if table is None else self.header(table)
                if begins is None:
                    return len(self.text) + 1, 1, 0
                return self.key(key, begins)
            case (table, number, key):
                item = self.origins[table][number] if table in self.origins else number
                return self.key(key, self.header(table, item))

    def is_down(self, member, moment):
        """Whether a member has gone by a moment and not started again."""
        turns = ((self.crashes, True), (self.leaves, True), (self.restarts, False))
        events = sorted((it['at'], order, goes) for order, (items, goes) in enumerate(turns)
                        for it in items if it['member'] == member and it['at'] <= moment)
        return bool(events) and events[-1][2]

    def between(self, sender, receiver):
        """The link from the members of one group to those of another: the last path that names the two, else [link]."""
        for path in reversed(self.paths):
            if (path['from'], path['to']) == (sender, receiver):
                return path
        return self.link

    def trip(self):
        """The greatest round trip of two members: of two groups, or of one with two members."""
        def one_way(sender, receiver):
            link = self.between(sender, receiver)
            return link['delay'] + link['jitter']
        return max((one_way(a['name'], b['name']) + one_way(b['name'], a['name'])
                    for a in self.groups for b in self.groups if a is not b or a['count'] > 1), default=0)

    def window(self):
        """The least delay of a link from a member to another one."""
        return min((self.between(a['name'], b['name'])['delay']
                    for a in self.groups for b in self.groups if a is not b or a['count'] > 1), default=None)

    def further(self):
        wanted, others = self.lifeguard['confirmations'], max(0, len(self.members) - 2)
        if self.is_third:
            return wanted if others >= wanted else 0
        return min(wanted, others)

    def least(self):
        logarithm = self.logarithm(len(self.members))
        return max(1, self.suspicion['alpha'] * max(1000, logarithm) * self.swim['period'] // 1000)

    def lasts(self, accusers):
        """How long a suspicion lasts with so many further accusers."""
        least, most = self.least(), self.suspicion['beta'] * self.least()
        if accusers >= self.further() or not self.lifeguard['suspicion']:
            return least
        return most - (most - least) * self.logarithm(accusers + 1) // self.logarithm(self.further() + 1)

    def paces(self):
        worst = self.lifeguard['ceiling'] if self.lifeguard['probe'] else 0
        return [(self.swim['period'] * times, self.swim['timeout'] * (1 if self.is_third else times))
                for times in range(1, worst + 2)]

    def nack(self):
        return max(1, self.lifeguard['nack_percent'] * self.swim['timeout'] // 100)

    def limit(self):
        return self.swim['lambda'] * len(str(len(self.members)))

    def queue(self):
        """How packets are filled from a queue; None where they aren't."""
        return {key: self.gossip[key] for key in ('packet', 'meta')} if self.gossip and self.gossip['queue'] else None

    def room(self):
        """What a packet holds: so many bytes, or so many updates."""
        queue = self.queue()
        return ('packet', queue['packet']) if queue and queue['packet'] else ('carry', self.swim['carry'])

    def push_wait(self):
        """From one push of a member to its next; 0 where nobody pushes."""
        doublings = 0
        while 32 * 2 ** doublings < len(self.members):
            doublings += 1
        return self.gossip['push'] * (1 + doublings) if self.gossip else 0

    def pushes(self, ticks):
        """How many pushes begin in so many ticks."""
        return ticks // self.push_wait() if self.push_wait() else 0

    def moments(self, first, wait):
        """How many moments there are up to the end, from a first one on, each so long after the one before."""
        return len(range(first, self.end + 1, wait))

    def sent(self, start):
        """How many messages a member sends, and others in answer, that starts at a moment, if nothing happens."""
        first = start + (self.swim['spread'] + 1) // 2
        pings = self.moments(first, self.swim['period'])
        acks = self.moments(first + self.link['delay'], self.swim['period'])
        if not self.push_wait():
            return pings + acks
        return pings + acks + 2 * self.moments(first + self.gossip['push'] // 2 + self.push_wait(), self.push_wait())

    def quiet(self):
        """Messages a period, in a thousand ticks and up to the end, rows and bytes of a run in which nothing happens."""
        count, period = len(self.members), self.swim['period']
        each = 2 if count > 1 else 0  # a ping and an ack, or a push and a pull
        starts = [group.get('start', 0) for _, group in self.members]
        there = sum(start <= self.end for start in starts)
        messages = sum(map(self.sent, starts)) if there > 1 else 0
        rows = there + messages
        average = sum(len(name) for name, _ in self.members) // count
        return (each * count + each * self.pushes(count * period),
                each * count * 1000 // period + each * self.pushes(count * 1000),
                messages, rows, rows * (24 + 3 * average))

    def is_quiet(self):
        """Whether nothing happens in the run."""
        happens = self.slows + self.crashes + self.leaves + self.restarts + self.cuts + self.pauses + self.blocks
        late = any(group.get('start', 0) for group in self.groups)
        lost = any(link['loss'] for link in [self.link, *self.paths])
        return not (happens or late or lost) and self.trip() <= self.swim['timeout']

    def loses_all(self, link):
        """Whether every message is lost on a link: what is pushed isn't."""
        return link['loss'] == 1000000 and not (self.gossip and self.gossip['push'])

    def deciding(self):
        """The paths that decide, with their numbers from 1."""
        seen, kept = set(), []
        for number, path in reversed(list(enumerate(self.paths, 1))):
            if (path['from'], path['to']) not in seen:
                seen.add((path['from'], path['to']))
                kept.insert(0, (number, path))
        return kept


def told_of_settings(c):
    swim, trip, count = c.swim, c.trip(), len(c.members)
    relay = swim['timeout'] + 2 * trip
    first = 1 + swim['period'] + c.least()
    switches = {c.lifeguard[name] for name in ('probe', 'suspicion', 'buddy')}
    yield trip > swim['timeout'], 'late-answer', ('swim', None, 'timeout'), (trip, swim['timeout'])
    yield swim['helpers'] > 0 and relay > swim['period'], 'late-relay', ('swim', None, 'period'), (relay, swim['period'])
    several = count > 1
    yield several and c.end < first, 'early-end', (None, None, 'end'), (first, c.end)
    wanted = c.lifeguard['confirmations']
    yield (several and c.lifeguard['suspicion'] and c.further() < wanted, 'few-accusers', ('lifeguard', None, 'confirmations'),
           (max(0, count - 2), wanted))
    others = max(0, count - 2)
    yield several and swim['helpers'] > count - 2, 'many-helpers', ('swim', None, 'helpers'), (swim['helpers'], others)
    yield c.loses_all(c.link), 'lost-on-link', ('link', None, 'loss'), None
    yield len(switches) == 2, 'part-of-lifeguard', ('lifeguard', None, None), None
    yield swim['spread'] > c.end, 'long-spread', ('swim', None, 'spread'), (swim['spread'], c.end)
    alike = max(0, c.suspicion['alpha'] - 2)
    yield c.is_third and several and c.gossip is None, 'no-gossip', ('gossip', None, None), None
    yield (c.is_third and several and c.lifeguard['suspicion'] and wanted != alike, 'odd-confirmations',
           ('lifeguard', None, 'confirmations'), (wanted, alike))
    yield c.is_quiet(), 'quiet-run', (None, None, 'end'), None


def told_of_items(c):
    counts = {group['name']: group['count'] for group in c.groups}
    for place, path in enumerate(c.paths):
        about = ('path', place, None)
        hidden = any((it['from'], it['to']) == (path['from'], path['to']) for it in c.paths[place + 1:])
        yield hidden, 'hidden-path', about, None
        yield path['from'] == path['to'] and counts[path['from']] == 1, 'lonely-path', about, None
        yield c.loses_all(path) and not hidden, 'lost-on-path', ('path', place, 'loss'), None
    for place, slow in enumerate(c.slows):
        about, late = ('slow', place, None), c.trip() + 2 * slow['extra']
        yield slow['from'] > c.end, 'slow-past-end', about, (slow['from'], c.end)
        yield c.is_down(slow['member'], slow['from']), 'slow-while-down', about, None
        yield len(c.members) > 1 and late > c.swim['timeout'], 'slow-answer', ('slow', place, 'extra'), (late, c.swim['timeout'])
    # of several crashes of a member the text's first one counts
    crashed = {it['member']: (it['at'], place) for place, it in reversed(list(enumerate(c.crashes)))}
    for name, _ in c.members:
        if name in crashed:
            at, place = crashed[name]
            about = ('crash', place, None)
            yield at > c.end, 'crash-past-end', about, (at, c.end)
            yield len(c.members) > 1 and at <= c.end < at + c.least(), 'crash-unconfirmed', about, (at + c.least(), c.end)
    for table, items in (('leave', c.leaves), ('cut', c.cuts)):
        for place, item in enumerate(items):
            yield item['at'] > c.end, f'{table}-past-end', (table, place, None), (item['at'], c.end)
    for place, pause in enumerate(c.pauses):
        about, begins = ('pause', place, None), pause['from']
        yield begins > c.end, 'pause-past-end', about, (begins, c.end)
        yield c.is_down(pause['member'], begins), 'pause-while-down', about, None
        lasts = pause['until'] - begins
        yield len(c.members) > 1 and lasts > c.least(), 'long-pause', about, (lasts, c.least())


def warnings(c):
    for told in (told_of_settings, told_of_items):
        for holds, kind, about, numbers in told(c):
            if holds:
                reason, remedy = SAID[kind]
                message = reason + (f' ({numbers[0]} against {numbers[1]})' if numbers else '')
                line, column, length = c.place(about)
                yield {'kind': kind, 'message': message, 'remedy': remedy, 'line': line, 'column': column, 'length': length}


def link_text(link):
    return f'delay {link["delay"]} jitter {link["jitter"]} loss {link["loss"]}'


def within(c, items, key):
    return [item for item in items if item[key] <= c.end]


def crashes(c):
    """The crashes up to the end, by the members' numbers, each member's in the order of moments."""
    order = {name: number for number, (name, _) in enumerate(c.members)}
    return sorted(within(c, c.crashes, 'at'), key=lambda it: (order[it['member']], it['at']))


def begins(plain):
    """When a plain entry is, or begins."""
    return plain['from'] if 'from' in plain else plain['at']


def begun(c, table):
    """Of each entry of a list of version 4 that begins by the end its name and its plain entries."""
    return [(name, plain) for name, plain in c.entries[table] if plain and min(map(begins, plain)) <= c.end]


def ends(plain):
    """The first and the last of these plain entries, by their moments; at one moment the order of the plain text counts."""
    order = sorted(plain, key=begins)
    return order[0], order[-1]


def said(plain):
    """What a line says of a plain entry."""
    when = f'from {plain["from"]} until {plain["until"]}' if 'from' in plain else str(plain['at'])
    return ' '.join([plain['member'], when, *(f'{key} {plain[key]}' for key in ('extra', 'contact') if key in plain)])


def entry_lines(c, table):
    """The lines of a list of version 4: one for each entry of the text."""
    for name, plain in begun(c, table):
        first, last = ends(plain)
        if len(plain) == 1:
            yield f'{table.split()[0]} {said(first)}'
        else:
            called = f' {name}' if name else ''
            yield f'{table}{called} entries {len(plain)} first {said(first)} last {said(last)}'


def has_several(c, table):
    """Whether an entry of a list of version 4 stands for several plain ones."""
    return any(len(plain) > 1 for _, plain in c.entries[table])


def entry_values(c, table, *keys):
    """The same as JSON, with these keys of a plain entry."""
    for name, plain in begun(c, table):
        first, last = ({key: it.get(key) for key in keys} for it in ends(plain))
        if len(plain) == 1:
            yield first
        else:
            of = {'of': table.split()[2]} if ' of ' in table else {}
            yield {'name': name, 'entries': len(plain), 'first': first, 'last': last, **of}


RESTARTS = ('restart', 'restart of crash', 'restart of leave')


def cut_lines(c):
    for cut in within(c, c.cuts, 'at'):
        yield f'cut {cut["from"]} {cut["to"]} from {cut["at"]} until {cut["until"]}'


def script(c):
    if c.is_fourth:
        yield from entry_lines(c, 'crash') if has_several(c, 'crash') else (f'crash {said(crash)}' for crash in crashes(c))
        for table in ('leave', *RESTARTS, 'slow'):
            yield from entry_lines(c, table)
        yield from cut_lines(c)
        for table in ('pause', 'block'):
            yield from entry_lines(c, table)
        return
    for crash in crashes(c):
        yield f'crash {said(crash)}'
    for table, items in (('leave', within(c, c.leaves, 'at')), ('slow', within(c, c.slows, 'from'))):
        for item in items:
            yield f'{table} {said(item)}'
    yield from cut_lines(c)
    for pause in within(c, c.pauses, 'from'):
        yield f'pause {said(pause)}'


def script_value(c):
    def some(items, *keys):
        return [{key: item[key] for key in keys} for item in items]
    cuts = some(within(c, c.cuts, 'at'), 'from', 'to', 'at', 'until')
    if c.is_fourth:
        return {
            'crashes': list(entry_values(c, 'crash', 'member', 'at')) if has_several(c, 'crash') else some(crashes(c), 'member', 'at'),
            'leaves': list(entry_values(c, 'leave', 'member', 'at')),
            'restarts': [value for table in RESTARTS for value in entry_values(c, table, 'member', 'at', 'contact')],
            'slows': list(entry_values(c, 'slow', 'member', 'from', 'until', 'extra')),
            'cuts': cuts,
            'pauses': list(entry_values(c, 'pause', 'member', 'from', 'until')),
            'blocks': list(entry_values(c, 'block', 'member', 'from', 'until')),
        }
    return {
        'crashes': some(crashes(c), 'member', 'at'),
        'leaves': some(within(c, c.leaves, 'at'), 'member', 'at'),
        'slows': some(within(c, c.slows, 'from'), 'member', 'from', 'until', 'extra'),
        'cuts': cuts,
        **({'pauses': some(within(c, c.pauses, 'from'), 'member', 'from', 'until')} if c.is_third else {}),
    }


def lines(c, file):
    yield f'members {len(c.members)}'
    for group in c.groups:
        contact = f' contact {group["contact"]}' if 'contact' in group else ''
        yield f'group {group["name"]} members {group["count"]} start {group.get("start", 0)}{contact}'
    yield f'link {link_text(c.link)}'
    for number, path in c.deciding():
        yield f'path {number} {path["from"]} {path["to"]} {link_text(path)}'
    if c.window() is not None:
        yield f'window {c.window()}'
        yield f'round-trip {c.trip()}'
    yield f'suspicion least {c.least()} greatest {c.lasts(0)}'
    for accusers in range(c.further() + 1):
        yield f'accusers {accusers} ticks {c.lasts(accusers)}'
    for health, (period, timeout) in enumerate(c.paces()):
        yield f'health {health} period {period} timeout {timeout}'
    yield f'nack {c.nack()}'
    limit = c.limit()
    yield f'news messages {limit} all {limit * len(c.members)} {" ".join(map(str, c.room()))}'
    for table, item in (('gossip', c.gossip and {key: c.gossip[key] for key in GOSSIP}), ('queue', c.queue())):
        if item:
            yield ' '.join([table, *(f'{key} {value}' for key, value in item.items())])
    if c.is_third:
        yield f'fallback {"on" if c.swim["fallback"] else "off"}'
        yield f'stream connect {c.stream["connect"]} again {c.stream["again"]}'
    if c.is_fourth:
        yield f'dial limit {c.stream["limit"]} retry {c.stream["retry"]}'
        if c.serf:
            yield f'serf reconnect {c.serf["reconnect"]} reap {c.serf["reap"]} linger {c.serf["linger"]}'
    yield from script(c)
    period, second, messages, rows, size = c.quiet()
    yield f'quiet period {period} second {second}'
    yield f'quiet messages {messages} rows {rows} bytes {size}'
    told = list(warnings(c))
    for warning in told:
        yield f'warning[{warning["kind"]}]: {warning["message"]}'
        yield f'  --> {file}:{warning["line"]}:{warning["column"]}'
        yield f'   = {warning["remedy"]}'
    yield f'warnings {len(told)}'


def figures(c):
    def some(item, *keys):
        return {key: item[key] for key in keys}

    def three(link):
        return some(link, 'delay', 'jitter', 'loss')
    period, second, messages, rows, size = c.quiet()
    return {
        'cluster': {
            'members': len(c.members),
            'groups': [{'name': it['name'], 'members': it['count'], 'start': it.get('start', 0), 'contact': it.get('contact')}
                       for it in c.groups],
            'link': three(c.link),
            'paths': [{'number': number, 'from': it['from'], 'to': it['to'], 'link': three(it)} for number, it in c.deciding()],
            'window': c.window(),
            'round_trip': c.trip(),
        },
        'times': {
            'least_suspicion': c.least(),
            'suspicions': [c.lasts(accusers) for accusers in range(c.further() + 1)],
            'health': [{'period': period, 'timeout': timeout} for period, timeout in c.paces()],
            'nack_delay': c.nack(),
            **({'fallback': c.swim['fallback'], 'stream': some(c.stream, 'connect', 'again')} if c.is_third else {}),
            **({'dial': some(c.stream, 'limit', 'retry'), 'serf': c.serf} if c.is_fourth else {}),
        },
        'news': {'limit': c.limit(), **dict([c.room()]), **({'gossip': some(c.gossip, *GOSSIP)} if c.gossip else {}),
                 **({'queue': c.queue()} if c.queue() else {})},
        'script': script_value(c),
        'quiet': {'messages_a_period': period, 'messages_a_second': second, 'messages': messages, 'rows': rows, 'bytes': size},
    }


def main():
    for file in sorted([*(TOP / 'examples').glob('*.toml'), *ROOM.glob('*.toml')]):
        cluster = Cluster(file.read_text())
        text = ''.join(f'{line}\n' for line in lines(cluster, file.name))
        (ROOM / f'{file.stem}.txt').write_text(text)
        value = {'file': file.name, 'accepted': True, 'figures': figures(cluster), 'warnings': list(warnings(cluster))}
        (ROOM / f'{file.stem}.json').write_text(json.dumps(value, indent=1, sort_keys=True) + '\n')


if __name__ == '__main__':
    main()
