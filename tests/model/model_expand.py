#!/usr/bin/env python3
"""What a text of version 4 stands for, for the second simulator: its plain text.

    tests/model_expand.py FILE    prints the plain text of FILE

Written from docs/VERSION-4.md ("The text") alone. A plain text has whole numbers of ticks,
one member an entry, one direction a path or cut, and no chance. The text must be accepted: this file judges
no rule but the tenth, which depends on draws. It needs Python 3.11, whose library reads TOML.
"""

import sys
import tomllib

from model_links import Draws

# how many microseconds a unit has, the larger units first
UNITS = {'d': 86_400_000_000, 'h': 3_600_000_000, 'm': 60_000_000, 's': 1_000_000, 'ms': 1_000, 'us': 1}

# the lists that name members, in the order in which they draw
SCRIPT = ('crash', 'leave', 'restart', 'slow', 'pause', 'block')

# the keys that count ticks, where a text may have a length
LENGTHS = {
    '': ('end',),
    'swim': ('period', 'timeout', 'spread'),
    'link': ('delay', 'jitter'),
    'path': ('delay', 'jitter'),
    'group': ('start',),
    'cut': ('at', 'until'),
    'gossip': ('interval', 'dead', 'push'),
    'stream': ('connect', 'again', 'limit', 'retry'),
    'serf': ('reconnect', 'reap', 'linger'),
    **{name: ('at', 'from', 'until', 'extra', 'each', 'back', 'every', 'lasts', 'lasts_most') for name in SCRIPT},
}

MOST_MADE = 100_000
OWN_STREAM = 65_536


class Refused(Exception):
    """A rule that the text breaks."""


# ---- Values ----

def parts_of(word):
    """The numbers and units of a length, or None where it isn't one."""
    parts, place = [], 0
    while place < len(word):
        start = place
        while place < len(word) and word[place] in '0123456789.':
            place += 1
        number = word[start:place]
        unit = next((unit for unit in ('us', 'ms', 's', 'm', 'h', 'd') if word.startswith(unit, place)), None)
        if unit is None:
            return None
        place += len(unit)
        parts.append((number, unit))
    return parts or None


def is_number(word, whole, behind):
    """Whether it is 1 to `whole` digits, and maybe a point and 1 to `behind` digits."""
    front, point, rest = word.partition('.')
    is_front = front.isascii() and front.isdecimal() and len(front) <= whole
    return is_front and (not point or rest.isascii() and rest.isdecimal() and len(rest) <= behind)


def pieces_of(word, most_behind):
    """A number times ten to the power of `most_behind`."""
    front, _, rest = word.partition('.')
    return int(front + rest.ljust(most_behind, '0'))


def microseconds_of(word):
    """A length in millionths of a microsecond; rule 4 where the word is none."""
    parts = parts_of(word)
    if parts is None or not all(is_number(number, 12, 6) for number, _ in parts):
        raise Refused(4)
    sizes = [UNITS[unit] for _, unit in parts]
    if sizes != sorted(set(sizes), reverse=True):
        raise Refused(4)
    return sum(pieces_of(number, 6) * UNITS[unit] for number, unit in parts)


def ticks_of(word, tick):
    """So many ticks; rule 5 where it is no whole number of them. A tick is in microseconds."""
    ticks, rest = divmod(microseconds_of(word), tick * 10**6)
    if rest:
        raise Refused(5)
    return ticks


def tick_of(word):
    """How many microseconds a tick has."""
    tick = ticks_of(word, 1)
    if not 1 <= tick <= 1_000_000:
        raise Refused(5)
    return tick


def parts_per_million_of(word):
    """A share, as 2%."""
    if not word.endswith('%') or not is_number(word[:-1], 3, 4):
        raise Refused(4)
    return pieces_of(word[:-1], 4)


def plain_value(section, key, value, tick):
    """The value of a key with no unit."""
    if isinstance(value, str) and key in LENGTHS.get(section, ()):
        return ticks_of(value, tick)
    if isinstance(value, str) and key == 'loss':
        return parts_per_million_of(value)
    return value


# ---- Who and when ----

class Expansion:
    """The lists of a text, while they are gone through in the order of draws."""

    def __init__(self, document, tick):
        self.tick = tick
        self.draws = Draws(document['seed'], OWN_STREAM)
        self.document = document
        self.starts, self.groups = {}, {}
        for group in document['group']:
            names = [f'{group["name"]}-{place}' for place in range(group['count'])]
            self.groups[group['name']] = names
            start = plain_value('group', 'start', group.get('start', 0), tick)
            self.starts.update((name, start) for name in names)
        self.numbers = {name: number for number, name in enumerate(self.starts)}
        self.made = 0
        self.restarts = []
        # the list and the place of the text's entry of each restart of `back`
        self.returns = []
        # the place of the text's entry of each plain one, but for the restarts of `back`
        self.origins = {section: [] for section in SCRIPT}

    def chosen(self, names, count):
        """So many of the names, in their order."""
        if count is None or count >= len(names):
            return names
        left = list(names)
        taken = [left.pop(self.draws.below(len(left))) for _ in range(count)]
        return sorted(taken, key=self.numbers.get)

    def who(self, entry):
        """Whom an entry is about."""
        if 'member' in entry:
            return [entry['member']]
        if 'members' in entry:
            return entry['members']
        return self.chosen(self.groups[entry['group']], entry.get('count'))

    def count_made(self):
        """One more entry that `every` makes."""
        self.made += 1
        if self.made > MOST_MADE:
            raise Refused(10)

    def times(self, entry):
        """From when until when each of a member's times is, where they come again and again."""
        begins = entry['from'] + self.draws.below(entry['every'])
        while begins < entry['until']:
            most = entry.get('lasts_most', entry['lasts'])
            lasts = entry['lasts'] + self.draws.below(most - entry['lasts'] + 1)
            self.count_made()
            yield begins, min(begins + lasts, entry['until'])
            begins += lasts + 1 + self.draws.below(2 * entry['every'] - 1)

    def moments(self, entry, name):
        """When a member crashes or leaves, where it does so again and again."""
        moment = entry['from'] + self.draws.below(entry['every'])
        while moment < entry['until']:
            if moment > self.starts[name]:
                self.count_made()
                yield moment
            moment += entry['back'] + 1 + self.draws.below(2 * entry['every'] - 1)

    def contact(self, entry, name):
        """Whom a member asks that is back."""
        return entry['contact'] if 'contact' in entry else next(other for other in self.starts if other != name)

    def departures(self, entry):
        """The crashes or leaves that an entry stands for. Their restarts are kept."""
        names = self.who(entry)
        if 'every' in entry:
            found = [(name, moment) for name in sorted(names, key=self.numbers.get)
                     for moment in self.moments(entry, name)]
        else:
            found = [(name, entry['at'] + place * entry.get('each', 0)) for place, name in enumerate(names)]
        for name, moment in found:
            if 'back' in entry:
                back = {'member': name, 'at': moment + entry['back'], 'contact': self.contact(entry, name)}
                self.restarts.append(back)
            yield {'member': name, 'at': moment}

    def own_restarts(self, entry):
        """The restarts that an entry of the text stands for."""
        for place, name in enumerate(self.who(entry)):
            plain = {'member': name, 'at': entry['at'] + place * entry.get('each', 0)}
            yield plain | ({'contact': entry['contact']} if 'contact' in entry else {})

    def spells(self, entry):
        """The times in which members are slow, paused or blocked that an entry stands for."""
        names = self.who(entry)
        if 'every' in entry:
            found = [(name, *time) for name in sorted(names, key=self.numbers.get) for time in self.times(entry)]
        else:
            found = [(name, entry['from'], entry['until']) for name in names]
        for name, begins, ends in found:
            plain = {'member': name, 'from': begins, 'until': ends}
            yield plain | ({'extra': entry['extra']} if 'extra' in entry else {})

    def lists(self):
        """Each of the six lists, plain."""
        kinds = {'crash': self.departures, 'leave': self.departures, 'restart': self.own_restarts,
                 'slow': self.spells, 'pause': self.spells, 'block': self.spells}
        plain = {}
        for section in SCRIPT:
            plain[section] = []
            for place, entry in enumerate(self.document.get(section, [])):
                ticks = {key: plain_value(section, key, value, self.tick) for key, value in entry.items()}
                back = len(self.restarts)
                found = list(kinds[section](ticks))
                plain[section] += found
                self.origins[section] += [place] * len(found)
                self.returns += [(section, place)] * (len(self.restarts) - back)
        plain['restart'] += self.restarts
        return plain


def both_ways(entry):
    """A path or cut, and behind it the same the other way where it says so."""
    one = {key: value for key, value in entry.items() if key != 'both'}
    if not entry.get('both', False) or one['from'] == one['to']:
        return [one]
    return [one, one | {'from': one['to'], 'to': one['from']}]


def origins(document):
    """By the name of a list the place of the item of each of its plain entries."""
    expansion = Expansion(document, tick_of(document.get('tick', '1ms')))
    expansion.lists()
    ways = {section: [place for place, item in enumerate(document.get(section, [])) for _ in both_ways(item)]
            for section in ('path', 'cut')}
    return {**expansion.origins, **ways}


def entries(document):
    """By the name of a list the name of each of its items, and the plain entries for which it stands. `restart of crash` and
    `restart of leave` have those of `back`."""
    expansion = Expansion(document, tick_of(document.get('tick', '1ms')))
    plain = expansion.lists()
    found = {}
    for section in SCRIPT:
        # the restarts of `back`, which have no origin, are behind the others
        pairs = list(zip(expansion.origins[section], plain[section]))
        found[section] = [(item.get('name'), [it for origin, it in pairs if origin == place])
                          for place, item in enumerate(document.get(section, []))]
    for section in ('crash', 'leave'):
        pairs = list(zip(expansion.returns, expansion.restarts))
        found[f'restart of {section}'] = [(item.get('name'), [it for origin, it in pairs if origin == (section, place)])
                                          for place, item in enumerate(document.get(section, []))]
    return found


def expand(document):
    """The document's plain one, its keys in the document's order."""
    tick = tick_of(document.get('tick', '1ms'))
    lists = Expansion(document, tick).lists()
    plain = {}
    for section, held in document.items():
        if section in SCRIPT:
            plain[section] = lists[section]
        elif isinstance(held, list):
            items = [other for item in held for other in (both_ways(item) if section in ('path', 'cut') else [item])]
            plain[section] = [{key: plain_value(section, key, item[key], tick) for key in item} for item in items]
        elif isinstance(held, dict):
            plain[section] = {key: plain_value(section, key, value, tick) for key, value in held.items()}
        elif section != 'tick':
            plain[section] = plain_value('', section, held, tick)
    if lists['restart']:
        plain.setdefault('restart', lists['restart'])
    return plain


# ---- The text ----

def written(value):
    """A value as TOML has it."""
    if isinstance(value, bool):
        return 'true' if value else 'false'
    return f'"{value}"' if isinstance(value, str) else str(value)


def plain_text(document):
    """The plain text that a document stands for: the top's keys, then tables and lists in the document's order."""
    plain = expand(document)
    lines = [f'{key} = {written(value)}' for key, value in plain.items() if not isinstance(value, (dict, list))]
    for section, held in plain.items():
        for table in held if isinstance(held, list) else [held] if isinstance(held, dict) else []:
            lines.append(f'[[{section}]]' if isinstance(held, list) else f'[{section}]')
            lines += [f'{key} = {written(value)}' for key, value in table.items()]
    return ''.join(f'{line}\n' for line in lines)


def main():
    with open(sys.argv[1], 'rb') as file:
        document = tomllib.load(file)
    try:
        sys.stdout.write(plain_text(document))
    except Refused as refused:
        sys.exit(f'scenario rule {refused.args[0]}')


if __name__ == '__main__':
    main()
