"""What the page of a run is made of: its rows, counted by spans, members and kinds.

Written from docs/PAGES.md ("The page of a run") alone.
"""

from collections import Counter, defaultdict
from itertools import accumulate

from model_rows import ALIVE, CONFIRM, SUSPECT
from model_text import false_rows, messages_of

MOST_SPANS, MOST_WATCHED, MOST_HEALTH = 120, 12, 16


class Story:
    """What members claim of one member, and what befalls it."""

    def __init__(self):
        self.came, self.went = ({what: Counter() for what in (SUSPECT, CONFIRM)} for _ in range(2))
        self.refuted, self.recovered = Counter(), Counter()
        self.first_confirm = self.last_refute = None
        self.false_deaths = self.failed_probes = 0
        # how long after its crash each member suspected it, and held it dead: 0 who did so when it crashed
        self.learned = {SUSPECT: {}, CONFIRM: {}}


class Series:
    """The series of a run of a scenario, of its rows."""

    def __init__(self, scenario, rows):
        self.scenario, self.rows, self.end = scenario, len(rows), scenario['end']
        self.names = [member['name'] for member in scenario['members']]
        self.numbers = {name: number for number, name in enumerate(self.names)}
        self.width = (self.end + MOST_SPANS) // MOST_SPANS
        self.spans = range(self.end // self.width + 1)
        self.stories = [Story() for _ in self.names]
        # what comes after the end never happens
        self.crash, self.leave = ({self.numbers[entry['member']]: entry['at'] for entry in scenario[what] if entry['at'] <= self.end}
                                  for what in ('crash', 'leave'))
        crashed = sorted(self.crash)
        self.watched, self.unwatched = crashed[:MOST_WATCHED], crashed[MOST_WATCHED:]
        self.kinds = messages_of(scenario['version'])
        self.sent, self.lost = ({kind: Counter() for kind in self.kinds} for _ in range(2))
        self.better, self.worse = (defaultdict(Counter) for _ in range(2))
        self.false_suspicions, self.false_deaths = (len(false_rows(scenario, rows, what)[0]) for what in (SUSPECT, CONFIRM))
        self.told = Counter(row.what for row in rows)
        self.worst_health = max((row.value for row in rows if row.what == 'health'), default=0)
        self.found = {}
        self.count(rows)

    def count(self, rows):
        states, health, departed = {}, Counter(), set()
        for place, row in enumerate(rows):
            span = row.moment // self.width
            if row.what in self.kinds:
                self.sent[row.what][span] += 1
                self.lost[row.what][span] += row.lost
            elif row.what in (ALIVE, SUSPECT, CONFIRM):
                self.count_claim(row, span, states)
                self.learn(row, place, departed)
            elif row.what == 'health':
                value = min(MOST_HEALTH, row.value)
                if value != health[row.member]:
                    self.worse[value][span] += 1
                    self.better[health[row.member]][span] += 1
                    health[row.member] = value
            elif row.what == 'refute':
                self.stories[row.member].refuted[span] += 1
                self.stories[row.member].last_refute = row.moment, place + 2
            elif row.what == 'fail':
                self.stories[row.about].failed_probes += 1
            elif row.what in ('crash', 'leave'):
                departed.add(row.member)
                if row.what == 'crash':
                    self.hear_at_once(row.member, states)

    def hear_at_once(self, crashed, states):
        """Keeps who suspects a member, or holds it dead, as it crashes."""
        for (member, about), what in states.items():
            if about == crashed and what != ALIVE:
                self.stories[about].learned[what][member] = 0

    def count_claim(self, row, span, states):
        """Counts what a member holds another for, where that changes."""
        story, before = self.stories[row.about], states.get((row.member, row.about), ALIVE)
        story.recovered[span] += row.what == ALIVE and before == CONFIRM
        if row.what != before:
            states[row.member, row.about] = row.what
            if row.what != ALIVE:
                story.came[row.what][span] += 1
            if before != ALIVE:
                story.went[before][span] += 1

    def learn(self, row, place, departed):
        """Keeps the first to claim something; a row's line in the trace is its place and two more."""
        story = self.stories[row.about]
        if row.about in departed and row.about in self.watched and row.what != ALIVE:
            story.learned[row.what].setdefault(row.member, row.moment - self.crash[row.about])
        if row.what == CONFIRM:
            story.first_confirm = story.first_confirm or (row.moment, row.member, place + 2)
            story.false_deaths += row.about not in departed
            if row.about in departed and row.about in self.crash:
                self.found.setdefault(row.about, row.moment - self.crash[row.about])

    def ends(self, came, went):
        """How many are in a state at the end of each span."""
        return list(accumulate(came[span] - went[span] for span in self.spans))

    def heights(self, came, went, most):
        """How many are in a state at the end of each span or, where there are none, 1 where one came in it."""
        return [min(most, end or min(1, came[span])) for span, end in zip(self.spans, self.ends(came, went))]

    def stays(self, member):
        """Whether a member neither crashes nor leaves by the end."""
        return member not in self.crash and member not in self.leave

    def those(self, what, member):
        """The entries of a list of the scenario that are about a member."""
        return [entry for entry in self.scenario[what] if entry['member'] == self.names[member]]

    def cuts(self, member):
        group = self.scenario['members'][member]['group']
        return [cut for cut in self.scenario['cut'] if group in (cut['from'], cut['to'])]

    def lanes(self):
        """The members that have a lane, in their order: those first with the most false deaths, then who departs first, then of whom
        there are most claims."""
        lanes = []
        for member, story in enumerate(self.stories):
            claims = sum(count for what in (SUSPECT, CONFIRM) for count in story.came[what].values())
            moment = self.crash.get(member, self.leave.get(member))
            if claims or moment is not None or self.those('slow', member) or self.those('pause', member):
                lanes.append((-story.false_deaths, 2**64 if moment is None else moment, -claims, member))
        return [member for *_, member in sorted(lanes)]


class Death:
    """The first death of a member that is up under an incarnation number: of the rows before it, what led to it."""

    def __init__(self, row, line, accusers, is_later, refutation):
        self.row, self.line, self.accusers, self.is_later, self.refutation = row, line, accusers, is_later, refutation


def deaths_of(rows):
    """The first deaths of members that are up. An accuser is a row and its line, its member's last ping by a timer of its own, and
    the rows since that bear the ping's sequence number: requests by that member, and acks and nacks to it."""
    departed, greatest, pings, answers, failed, accusers, refuted, deaths = set(), {}, {}, {}, {}, {}, {}, []
    for place, row in enumerate(rows):
        line = place + 2
        is_new = row.value > greatest.get((row.what, row.about), -1)
        if row.what == CONFIRM and row.about not in departed and is_new:
            is_later = greatest.get((SUSPECT, row.about), -1) > row.value
            deaths.append(Death(row, line, list(accusers.get(row.about, ())), is_later, refuted.get(row.about)))
        if row.what == SUSPECT and is_new:
            accusers[row.about] = []
        if row.what in (SUSPECT, 'accuse') and failed.get(row.about) == (row.member, row.moment):
            accusers.setdefault(row.about, []).append((row, line, pings.get(row.member), list(answers.get(row.member, ()))))
        if row.what in (SUSPECT, CONFIRM) and is_new:
            greatest[row.what, row.about] = row.value
        if row.what == 'fail':
            failed[row.about] = row.member, row.moment
        if row.what == 'refute':
            refuted[row.member] = row, line, 0
        if row.what == ALIVE and row.about in refuted and row.value >= refuted[row.about][0].value:
            refuted[row.about] = *refuted[row.about][:2], refuted[row.about][2] + 1
        if row.what == 'ping' and row.maker == row.member:
            pings[row.member], answers[row.member] = (row, line), []
        prober = {'ping-req': row.member, 'ack': row.about, 'nack': row.about}.get(row.what)
        if prober in pings and row.value == pings[prober][0].value:
            answers[prober].append((row, line))
        if row.what in ('crash', 'leave'):
            departed.add(row.member)
    return deaths
