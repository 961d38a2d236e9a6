#!/usr/bin/env python3
"""Random texts of version 4 as operators write them, for the second simulator: lengths with units, both directions,
members by list, by group and by chance, times that come again.

    tests/model/generate_written.py SEED NUMBER          prints the text of a case
    tests/model/generate_written.py SEED NUMBER run      one whose run is short, with more of what members do

Each text is accepted: what a text breaks is asked in tests/data/expand/judged.json.
"""

import random
import sys

# how many ticks the texts last, and those whose runs are short
ENDS, SHORT = (60_000, 600_000, 3_600_000), (20_000, 60_000)
UNITS = (('d', 86_400_000), ('h', 3_600_000), ('m', 60_000), ('s', 1_000), ('ms', 1))


def said(chance, ticks):
    """So many ticks of a millisecond, as a number or in one of the ways to say the length."""
    way = chance.randrange(4)
    if way == 0:
        return str(ticks)
    if way == 1:
        return f'"{ticks}ms"'
    if way == 2:
        return f'"{ticks / 1000:.3f}s"'
    parts, rest = '', ticks
    for unit, size in UNITS:
        if rest >= size:
            parts += f'{rest // size}{unit}'
            rest %= size
    return f'"{parts or "0ms"}"'


def quoted(names):
    """A list of names."""
    return '[' + ', '.join(f'"{name}"' for name in names) + ']'


class Text:
    """A text while its lines are made."""

    def __init__(self, chance, ends):
        self.chance = chance
        self.lines = []
        self.groups = {f'{name}': chance.randint(1, 6) for name in chance.sample(['dc-1', 'Dc_2', 'b', 'rack-7-a'], chance.randint(1, 3))}
        if sum(self.groups.values()) == 1:
            self.groups[next(iter(self.groups))] = 2
        self.late = {name: chance.choice((0, 0, 5000)) for name in list(self.groups)[1:]}
        self.members = [f'{name}-{place}' for name, count in self.groups.items() for place in range(count)]
        self.end = chance.choice(ends)

    def put(self, key, value):
        self.lines.append(f'{key} = {value}')

    def length(self, key, ticks):
        self.put(key, said(self.chance, ticks))

    def moment(self, least=0):
        return self.chance.randint(least, self.end)

    def head(self):
        chance = self.chance
        self.put('version', 4)
        self.put('seed', chance.randrange(2**32))
        if chance.random() < 0.5:
            self.put('tick', '"1ms"')
        self.length('end', self.end)
        self.lines.append('[swim]')
        self.length('period', chance.choice((200, 1000, 1500)))
        self.length('timeout', chance.choice((50, 150)))
        self.lines.append('[link]')
        self.length('delay', chance.randint(1, 30))
        if chance.random() < 0.5:
            self.put('loss', chance.choice(('"2%"', '"0.25%"', 10_000, '"0.0001%"')))
        for name, count in self.groups.items():
            self.lines.append('[[group]]')
            self.put('name', f'"{name}"')
            self.put('count', count)
            if self.late.get(name):
                self.length('start', self.late[name])
                self.put('contact', f'"{next(iter(self.groups))}-0"')

    def links(self):
        chance, names = self.chance, list(self.groups)
        for section in chance.choices(('path', 'cut'), k=chance.randint(0, 3)):
            self.lines.append(f'[[{section}]]')
            self.put('from', f'"{chance.choice(names)}"')
            self.put('to', f'"{chance.choice(names)}"')
            if chance.random() < 0.6:
                self.put('both', chance.choice(('true', 'false')))
            if section == 'path':
                self.length('delay', chance.randint(1, 90))
            else:
                at = self.moment()
                self.length('at', at)
                self.length('until', at + chance.randint(1, 60_000))

    def who(self):
        """Whom an entry is about: the members that it names, and whether it names just one."""
        chance = self.chance
        way = chance.randrange(3)
        if way == 0:
            names = [chance.choice(self.members)]
            self.put('member', f'"{names[0]}"')
        elif way == 1:
            names = chance.sample(self.members, chance.randint(1, min(4, len(self.members))))
            self.put('members', quoted(names))
        else:
            group = chance.choice(list(self.groups))
            names = [f'{group}-{place}' for place in range(self.groups[group])]
            self.put('group', f'"{group}"')
            if chance.random() < 0.6:
                self.put('count', chance.randint(1, len(names)))
        return names, way == 0

    def contact(self, names, share):
        """Maybe whom those ask that are back."""
        others = [name for name in self.members if name not in names]
        if others and self.chance.random() < share:
            self.put('contact', f'"{self.chance.choice(others)}"')

    def gone(self):
        """A crash or a leave."""
        chance = self.chance
        names, is_one = self.who()
        if chance.random() < 0.4:
            start = self.moment()
            self.length('from', start)
            self.length('until', start + chance.randint(1, self.end))
            self.length('every', chance.choice((1000, 30_000, 600_000)))
            self.length('back', chance.choice((1, 500, 20_000)))
            self.contact(names, 0.5)
            return
        self.length('at', self.moment(5001))
        if not is_one and chance.random() < 0.6:
            self.length('each', chance.choice((0, 1, 2500)))
        if chance.random() < 0.6:
            self.length('back', chance.choice((1, 500, 20_000)))
            self.contact(names, 0.5)

    def restart(self):
        names, is_one = self.who()
        self.length('at', self.moment(5001))
        if not is_one and self.chance.random() < 0.6:
            self.length('each', self.chance.choice((0, 1, 2500)))
        self.contact(names, 0.6)

    def spell(self):
        """A slow time, a pause or a block."""
        chance = self.chance
        self.who()
        start = self.moment()
        self.length('from', start)
        self.length('until', start + chance.randint(1, self.end))
        if chance.random() < 0.5:
            self.length('every', chance.choice((1000, 30_000, 600_000)))
            lasts = chance.choice((1, 900, 7000))
            self.length('lasts', lasts)
            if chance.random() < 0.5:
                self.length('lasts_most', lasts + chance.choice((0, 1, 5000)))

    def script(self):
        chance = self.chance
        sections = ('crash', 'leave', 'restart', 'slow', 'pause', 'block')
        for number, section in enumerate(chance.choices(sections, k=chance.randint(0, 7))):
            self.lines.append(f'[[{section}]]')
            if chance.random() < 0.3:
                self.put('name', f'"n-{number}"')
            if section in ('crash', 'leave'):
                self.gone()
            elif section == 'restart':
                self.restart()
            else:
                self.spell()
            if section == 'slow':
                self.length('extra', chance.randint(1, 2000))


    def settings(self):
        """Some tables that say what members do."""
        chance = self.chance
        if chance.random() < 0.7:
            self.lines.append('[gossip]')
            self.length('interval', chance.choice((100, 200, 700)))
            self.length('dead', chance.choice((0, 3000, 30_000)))
            self.length('push', chance.choice((0, 3000, 30_000)))
            self.put('queue', chance.choice(('true', 'false')))
            self.put('packet', chance.choice((0, 120, 1400)))
            self.put('meta', chance.choice((0, 40)))
        if chance.random() < 0.5:
            self.lines.append('[serf]')
            self.length('reconnect', chance.choice((1000, 30_000)))
            self.length('reap', chance.choice((0, 20_000, 86_400_000)))
            self.length('linger', chance.choice((1, 1000)))
        self.lines.append('[stream]')
        self.length('limit', chance.choice((1, 1000, 10_000)))
        self.length('retry', chance.choice((2000, 30_000)))
        self.lines.append('[suspicion]')
        self.put('alpha', chance.choice((1, 4)))


def written_text(seed, number):
    """The text of a case."""
    text = Text(random.Random(f'written {seed} {number}'), ENDS)
    text.head()
    text.links()
    text.script()
    return '\n'.join(text.lines) + '\n'


def run_text(seed, number):
    """The text of a case whose run has some thousand rows."""
    text = Text(random.Random(f'written run {seed} {number}'), SHORT)
    text.head()
    text.links()
    text.settings()
    text.script()
    return '\n'.join(text.lines) + '\n'


if __name__ == '__main__':
    sys.stdout.write((run_text if sys.argv[3:] else written_text)(*map(int, sys.argv[1:3])))
