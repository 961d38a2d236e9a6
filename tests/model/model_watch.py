"""What the report of version 4 has of a run as a whole, for tests/model/model_text.py: whether its cluster is whole, how
its members come back, and how often an operator is alarmed.

A member is up from its start or restart row to its crash or leave row. What it holds of another is said by its last row
about that one since it started: whoever it has no row about it holds where both started at the beginning and it hasn't
started again. The cluster is whole where each that is up holds each other that is up.
"""

import collections

from model_member import logarithm
from model_rows import ALIVE, CONFIRM, FORGET, LEFT, SUSPECT

Incidents = collections.namedtuple('Incidents', 'alarms deaths members well')


class Watch:
    """A cluster while its rows are gone through."""

    def __init__(self, scenario):
        self.founders = {number for number, member in enumerate(scenario['members']) if member['start'] == 0}
        self.up, self.restarted = set(), set()
        self.said = {}          # member and subject: what the last row said, since the member started
        self.held = {}          # the same, of rows that aren't suspicions
        self.apart = set()      # who is up and doesn't hold another who is up

    def holds(self, member, subject):
        if (member, subject) in self.held:
            return self.held[member, subject] == ALIVE
        return {member, subject} <= self.founders and member not in self.restarted

    def is_whole(self):
        return not self.apart

    def look(self, member, subject):
        """Looks at whether the one holds the other."""
        is_apart = {member, subject} <= self.up and member != subject and not self.holds(member, subject)
        (self.apart.add if is_apart else self.apart.discard)((member, subject))

    def see(self, row):
        """Goes on by a row."""
        if row.what in (ALIVE, SUSPECT, CONFIRM, LEFT, FORGET):
            self.said[row.member, row.about] = row.what
        if row.what in (ALIVE, CONFIRM, LEFT, FORGET):
            self.held[row.member, row.about] = row.what
            self.look(row.member, row.about)
        if row.what in ('start', 'restart', 'crash', 'leave'):
            self.come_or_go(row)

    def come_or_go(self, row):
        if row.what in ('start', 'restart'):
            self.up.add(row.member)
            self.said, self.held = ({pair: what for pair, what in kept.items() if pair[0] != row.member}
                                    for kept in (self.said, self.held))
        else:
            self.up.discard(row.member)
        if row.what == 'restart':
            self.restarted.add(row.member)
        others = self.up | {other for pair in self.apart for other in pair}
        for other in others:
            self.look(row.member, other)
            self.look(other, row.member)

    def suspects(self, subject, *whats):
        """Whether somebody who is up said this about it last."""
        return any(self.said.get((member, subject)) in whats for member in self.up)


def whole_since(scenario, rows):
    """The moment of the last row by which the cluster became whole, 0 where it was so all the time, None where it isn't
    at the end."""
    watch, since = Watch(scenario), 0
    for row in rows:
        was_whole = watch.is_whole()
        watch.see(row)
        if watch.is_whole() and not was_whole:
            since = row.moment
    return since if watch.is_whole() else None


def incidents(scenario, rows):
    """The false suspicions and the false deaths of which nobody who is up has said anything yet, the members of these
    deaths, and how many of them were of members that were well."""
    watch, alarms, deaths = Watch(scenario), 0, []
    for row in rows:
        if row.what in (SUSPECT, CONFIRM) and row.about in watch.up:
            alarms += not watch.suspects(row.about, SUSPECT, CONFIRM)
            if row.what == CONFIRM and not watch.suspects(row.about, CONFIRM):
                deaths.append(row)
        watch.see(row)
    well = [row for row in deaths if is_well(scenario, row)]
    return Incidents(alarms, len(deaths), len({row.about for row in deaths}), len(well))


def longest_suspicion(scenario):
    """How long the longest suspicion of the whole cluster lasts."""
    settings, period = scenario['suspicion'], scenario['swim']['period']
    times = max(1000, logarithm(len(scenario['members']), scenario['version']))
    return settings['beta'] * max(1, settings['alpha'] * times * period // 1000)


def is_well(scenario, row):
    """Whether the subject of a death wasn't slow, paused or blocked from a period before the longest suspicion on."""
    name = scenario['members'][row.about]['name']
    least = max(0, row.moment - longest_suspicion(scenario) - scenario['swim']['period'])
    return not any(entry['from'] <= row.moment and entry['until'] > least
                   for kind in ('slow', 'pause', 'block') for entry in scenario[kind] if entry['member'] == name)


def restarts_of(rows):
    """Of each restart: its member, its moment, when the member first had a table, when somebody last said that it is alive,
    and how many said so; only what comes before it crashes or leaves again counts."""
    found = []
    for place, row in enumerate(rows):
        if row.what == 'restart':
            later = life_of(rows[place + 1:], row.member)
            joined = [other.moment for other in later if other.what == 'joined' and other.member == row.member]
            back = [other for other in later if other.what == ALIVE and other.about == row.member]
            found.append((row.member, row.moment, joined[0] if joined else None, back[-1].moment if back else None,
                          len({other.member for other in back})))
    return found


def life_of(rows, member):
    """The rows before the member crashes or leaves."""
    past = next((place for place, row in enumerate(rows) if row.member == member and row.what in ('crash', 'leave')), len(rows))
    return rows[:past]

