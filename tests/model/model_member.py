"""What a member makes of an event, for tests/model/model.py.

Written from docs/PROTOCOL.md alone, in its order and in its words. Where versions differ, their rules stand
beside each other; version 3 has memberlist's. What version 4 has beside them is in model_member_four.py.
"""

import collections
import functools
import re

from model_buffers import Buffer, Carry
from model_links import Draws, arrival, awake, free
from model_rows import ALIVE, CONFIRM, LEFT, SUSPECT, Row
from scenarios import script_of

# ---- Times (docs/PROTOCOL.md, "Times") ----

T = [None, 0, 301, 477, 602, 699, 778, 845, 903, 954, 1000]


@functools.cache
def logarithm(n, version):
    """L(n), in thousandths, by the leading digit of n, in version 3 by two, in version 4 by three, and the number of
    digits after the first."""
    digits = str(n)
    if version < 3:
        return 1000 * (len(digits) - 1) + T[int(digits[0])]
    two, third = int((digits + '0')[:2]), int(digits[2:3] or 0) if version > 3 else 0
    between = (logarithm_of_tenths(two + 1) - logarithm_of_tenths(two)) * third // 10
    return 1000 * (len(digits) - 1) + logarithm_of_tenths(two) + between


def logarithm_of_tenths(two):
    """The logarithm of so many tenths, 10 to 100 of them: the greatest k with 10^(1000 + k) at most two^1000."""
    return len(str(two**1000)) - 1 - 1000


Update = collections.namedtuple('Update', 'subject accuser claim incarnation')
Event = collections.namedtuple('Event', 'moment member maker number what content')


class Suspicion:
    """One that stands. `timeout(C)` goes by n as counted when it starts."""

    def __init__(self, scenario, accuser, since, n):
        settings, period = scenario['suspicion'], scenario['swim']['period']
        self.version = scenario['version']
        self.is_shortened = scenario['lifeguard']['suspicion']
        self.accusers = [accuser]
        self.since = since
        self.least = max(1, settings['alpha'] * max(1000, logarithm(n, self.version)) * period // 1000)
        self.greatest = settings['beta'] * self.least
        self.confirmations = scenario['lifeguard']['confirmations']
        if self.version < 3:
            self.confirmations = min(self.confirmations, max(0, n - 2))
        elif self.confirmations > n - 2:
            self.confirmations = 0
        self.timer = None

    def timeout(self, further):
        if further >= self.confirmations or not self.is_shortened:
            return self.least
        share, whole = (logarithm(count + 1, self.version) for count in (further, self.confirmations))
        return self.greatest - (self.greatest - self.least) * share // whole


# ---- The step of a member ----

class Member:
    """A member, which makes rows and events of each event that it handles."""

    def __init__(self, run, number):
        self.run, self.number = run, number
        self.scenario = run.scenario
        self.swim, self.lifeguard = run.scenario['swim'], run.scenario['lifeguard']
        self.gossips = run.scenario['gossip']   # its settings, or None where nobody gossips
        self.version = run.scenario['version']
        self.is_memberlist = self.version >= 3
        self.own = run.scenario['members'][number]
        self.phase = 'waiting'
        self.next_number = 1 + len(script_of(run.scenario, self.own['name']))
        self.sequence = self.incarnation = self.health = 0
        self.heard_confirm = False
        self.probe = None
        self.table = {}         # subject: its claim and number
        self.buffer = Buffer()
        self.suspicions = {}    # subject: Suspicion
        self.rota, self.mark = [], 0
        self.relays = set()     # initiator and sequence number
        self.draws = Draws(run.scenario['seed'], number)
        # of version 3
        self.beat = None        # the moment for which the first period timer was set
        self.tick_waits = False
        self.gossip_phase, self.gossip_is_set = 0, False
        self.gone_since = {}    # subject: since when the table holds it as Confirm, in version 4 or as Left

    @property
    def now(self):
        return self.run.event.moment

    # What a step makes: rows, timers and messages.

    def row(self, what, about=None, value=0, lost=0):
        self.run.rows.append(Row(*self.run.event[:4], what, about, value, lost))

    def make(self, moment, member, what, content):
        """Makes an event, which takes the next number, also where the moment is None and it never comes."""
        if moment is not None:
            self.run.pend(Event(moment, member, self.number, self.next_number, what, content))
        self.next_number += 1

    def set_timer(self, moment, what, **content):
        """Sets a timer; where the moment is None it never comes."""
        due = None if moment is None else awake(self.scenario, self.number, moment)
        self.make(due, self.number, what, content)

    def send(self, what, to, value=0, **content):
        comes = arrival(self.scenario, what, (self.number, to), self.now, self.draws)
        self.row(what, to, value, int(comes is None))
        self.make(comes, to, what, content)

    def send_with_updates(self, what, to, sequence, **content):
        """A ping, a ping-req or an ack."""
        buddy = None
        if what == 'ping' and self.lifeguard['buddy'] and self.holds(to, SUSPECT):
            buddy = Update(to, self.suspicions[to].accusers[0], SUSPECT, self.table[to][1])
        self.send(what, to, sequence, sequence=sequence, updates=self.pick(buddy), **content)

    # What it holds.

    def n(self):
        return 1 + sum(claim != CONFIRM for claim, _ in self.table.values())

    def holds(self, subject, *claims):
        return subject in self.table and self.table[subject][0] in claims

    def alive(self):
        """All whom the table holds as Alive, in the order of their numbers."""
        return [subject for subject in sorted(self.table) if self.holds(subject, ALIVE)]

    def whole_table(self):
        """The table, and oneself."""
        return {**self.table, self.number: (ALIVE, self.incarnation)}

    def scaled(self, time):
        return time * (self.health + 1)

    def change_health(self, by):
        """Better or worse by so much; row `health` if that changed it. Without LHA-Probe it stays 0."""
        old = self.health
        if self.lifeguard['probe']:
            self.health = min(max(0, old + by), self.lifeguard['ceiling'])
        if self.health != old:
            self.row('health', value=self.health)

    def sample(self, count, fits):
        """As memberlist chooses: at most so many that fit, by three draws for each that there is."""
        there = sorted([self.number, *self.table])
        taken = []
        for _ in range(3 * len(there)):
            if len(taken) < count:
                other = there[self.draws.below(len(there))]
                if fits(other) and other not in taken:
                    taken.append(other)
        return taken

    # The buffer and the rota.

    def put(self, update):
        self.buffer.put(update)
        self.set_gossip_timer(self.now)

    def limit(self):
        """How often an update is sent."""
        return self.swim['lambda'] * len(str(self.n()))

    def pick(self, buddy=None):
        """The updates of one message, the buddy first."""
        return self.buffer.pick(self.limit(), Carry(self.swim['carry']), buddy)

    def has_news(self):
        return bool(self.buffer)

    def next_of_rota(self):
        """Whom it probes next, or None of an empty rota."""
        if not self.rota:
            return None
        if self.mark == len(self.rota):
            self.draws.shuffle(self.rota)
            self.mark = 0
        self.mark += 1
        return self.rota[self.mark - 1]

    def enter_rota(self, subject, _):
        """Enters one that is new, or back."""
        self.insert_in_rota(subject)

    def insert_in_rota(self, subject):
        place = self.draws.below(len(self.rota) + 1)
        self.rota.insert(place, subject)
        self.mark += place < self.mark

    def remove_from_rota(self, subject):
        if subject in self.rota:
            place = self.rota.index(subject)
            del self.rota[place]
            self.mark -= place < self.mark

    # Applying an update.

    def apply(self, update, is_quiet=False):
        """Applies an update; a quiet one of another, which a welcome has, goes without a row and without the
        buffer."""
        if update.subject == self.number:
            self.apply_of_oneself(update)
        elif update.subject not in self.table:
            if not self.is_memberlist or update.claim == ALIVE or is_quiet:
                self.take(update, is_quiet)
        elif self.overrides(update, *self.table[update.subject]):
            self.take(update, is_quiet)
        elif self.accuses(update, *self.table[update.subject]):
            self.add_accuser(update)

    def apply_of_oneself(self, update):
        if self.is_memberlist:
            if update.claim in (SUSPECT, CONFIRM) and update.incarnation >= self.incarnation:
                self.refute(update.incarnation + 1)
            return
        if update.claim == SUSPECT and update.incarnation == self.incarnation:
            self.refute(self.incarnation + 1)
        if update.claim == CONFIRM and not self.heard_confirm:
            self.heard_confirm = True
            self.row('dead', self.number, update.incarnation)

    def refute(self, incarnation):
        self.incarnation = incarnation
        self.row('refute', self.number, incarnation)
        self.change_health(1)
        self.put(Update(self.number, self.number, ALIVE, incarnation))

    def overrides(self, update, claim, incarnation):
        """Whether the update overrides the claim that the table holds."""
        is_newer, is_as_new = update.incarnation > incarnation, update.incarnation >= incarnation
        if self.is_memberlist:
            return {ALIVE: is_newer, SUSPECT: claim == ALIVE and is_as_new,
                    CONFIRM: claim != CONFIRM and is_as_new}[update.claim]
        return claim != CONFIRM and {ALIVE: is_newer, SUSPECT: is_as_new if claim == ALIVE else is_newer,
                                     CONFIRM: True}[update.claim]

    def accuses(self, update, claim, incarnation):
        """Whether the update may be a further accusation of whom the table suspects."""
        is_of_it = update.incarnation == incarnation
        if self.is_memberlist:
            is_of_it = update.incarnation >= incarnation
        return update.claim == claim == SUSPECT and is_of_it

    def take(self, update, is_quiet):
        subject = update.subject
        is_new = subject not in self.table
        is_back = self.holds(subject, CONFIRM, LEFT)
        self.table[subject] = (update.claim, update.incarnation)
        if (is_new or is_back) and update.claim != CONFIRM:
            self.enter_rota(subject, is_new)
        self.suspicions.pop(subject, None)
        if update.claim in (CONFIRM, LEFT):
            self.gone_since[subject] = self.now
            self.remove_from_rota(subject)
        if not is_quiet:
            self.row(update.claim, subject, update.incarnation)
        if update.claim == SUSPECT:
            self.suspicions[subject] = Suspicion(self.scenario, update.accuser, self.now, self.n())
            self.set_suspicion_timer(subject, self.now + self.suspicions[subject].timeout(0))
        if not is_quiet:
            self.put(update)

    def set_suspicion_timer(self, subject, moment):
        self.suspicions[subject].timer = self.next_number
        self.set_timer(moment, 'suspicion timer', subject=subject)

    def add_accuser(self, update):
        suspicion = self.suspicions[update.subject]
        further = len(suspicion.accusers)
        if (self.lifeguard['suspicion'] and update.accuser not in suspicion.accusers
                and further <= suspicion.confirmations):
            suspicion.accusers.append(update.accuser)
            self.row('accuse', update.subject, further)
            expires = suspicion.since + suspicion.timeout(further)
            # in version 4 one whose time is over dies at once, behind the accusation
            is_over = self.version >= 4 and expires <= self.now
            if not is_over:
                self.set_suspicion_timer(update.subject, max(self.now + 1, expires))
            self.put(update)
            if is_over:
                self.apply_own(update.subject, CONFIRM)

    def apply_all(self, updates):
        for update in updates:
            self.apply(update)

    def apply_own(self, subject, claim):
        """A claim of another at the number that the table holds, with oneself as accuser."""
        self.apply(Update(subject, self.number, claim, self.table[subject][1]))

    def merge(self, entries):
        """The whole table of another. A death isn't believed, it is suspected."""
        for subject in sorted(entries):
            claim, incarnation = entries[subject]
            claim = ALIVE if claim == ALIVE else SUSPECT
            self.apply(Update(subject, self.number, claim, incarnation))

    # The cases: starts, ends and joins.

    def start(self, _):
        self.row('start')
        if self.own['start'] > 0:
            self.phase = 'joining'
            self.ask_to_join()
            return
        self.phase = 'running'
        self.rota = [other for other, member in enumerate(self.scenario['members'])
                     if member['start'] == 0 and other != self.number]
        self.mark = len(self.rota)
        self.table = {other: (ALIVE, 0) for other in self.rota}
        self.set_first_period()

    def set_first_period(self):
        self.beat = self.now + 1 + self.draws.below(self.swim['spread'])
        self.set_timer(self.beat, 'period timer')
        if self.gossips:
            self.gossip_phase = (self.beat - 1) % self.gossips['interval']
            if self.gossips['push'] > 0:
                self.set_push_timer(self.beat + self.draws.below(self.gossips['push']))

    def ask_to_join(self):
        self.send('join', self.run.numbers[self.own['contact']])
        self.set_timer(self.now + self.swim['period'], 'join timer')

    def crash(self, _):
        self.row('crash')
        self.phase = 'down'

    def leave(self, _):
        self.row('leave')
        if self.phase == 'running':
            told = self.alive()
            self.draws.shuffle(told)
            for other in told[:max(1, self.swim['helpers'])]:
                self.send('bye', other)
        self.phase = 'down'

    def bye(self, event):
        if self.holds(event.maker, ALIVE, SUSPECT):
            self.apply_own(event.maker, CONFIRM)

    def join_timer(self, _):
        self.ask_to_join()

    def join(self, event):
        self.apply(Update(event.maker, self.number, ALIVE, 0))
        self.send('welcome', event.maker, entries=self.whole_table())

    def welcome(self, event):
        entries = event.content['entries']
        self.row('joined', event.maker, sum(subject != self.number for subject in entries))
        self.phase = 'running'
        for subject in sorted(entries):
            self.apply(Update(subject, event.maker, *entries[subject]), is_quiet=True)
        self.set_first_period()

    # Probes.

    def period_timer(self, _):
        period = self.swim['period']
        if not self.is_memberlist:
            self.end_probe()
            self.begin_probe()
            self.set_timer(self.now + self.scaled(period), 'period timer')
            return
        self.set_timer(self.beat + ((self.now - self.beat) // period + 1) * period, 'period timer')
        if self.probe and self.probe['deadline'] > self.now:
            self.tick_waits = True
        else:
            # a tick counts once from version 4 on
            self.tick_waits = self.tick_waits and self.version < 4
            self.end_probe()
            self.begin_probe()

    def deadline_timer(self, event):
        if self.is_probe(event):
            self.end_probe()
            self.take_tick()

    def take_tick(self):
        if self.tick_waits:
            self.tick_waits = False
            self.begin_probe()

    def end_probe(self):
        probe, self.probe = self.probe, None
        if probe is None:
            return
        if probe['is_answered']:
            self.change_health(-1)
            return
        target = probe['target']
        self.row('fail', target, probe['sequence'])
        self.change_health(self.harm_of(probe))
        if self.holds(target, ALIVE, SUSPECT):
            number = probe['incarnation'] if self.is_memberlist else self.table[target][1]
            self.apply(Update(target, self.number, SUSPECT, number))

    def harm_of(self, probe):
        """By how much a failed probe makes health worse."""
        if self.is_memberlist:
            return probe['expected'] - probe['nacks'] if probe['expected'] > 0 else 1
        return 2 if probe['nacks'] < probe['expected'] else 1

    def begin_probe(self):
        target = self.next_of_rota()
        if target is None:
            return
        self.sequence += 1
        departs = free(self.scenario, self.number, self.now)
        # answered by an ack, in version 3 only by an answer: there an ack ends it
        self.probe = {'target': target, 'sequence': self.sequence, 'is_answered': False,
                      'expected': 0, 'nacks': 0, 'incarnation': self.table[target][1],
                      'deadline': max(departs, self.now + self.scaled(self.swim['period']))}
        self.send_with_updates('ping', target, self.sequence, initiator=self.number)
        timeout = self.swim['timeout'] if self.is_memberlist else self.scaled(self.swim['timeout'])
        # that of a blocked ping may have its deadline as it departs
        self.set_timer(min(departs + timeout, self.probe['deadline']), 'timeout timer', sequence=self.sequence)
        if self.is_memberlist:
            self.set_deadline_timer(departs)

    def set_deadline_timer(self, _):
        self.set_timer(self.probe['deadline'], 'deadline timer', sequence=self.sequence)

    def is_probe(self, event):
        """Whether the probe has the sequence number of the event."""
        return self.probe is not None and self.probe['sequence'] == event.content['sequence']

    def timeout_timer(self, event):
        if not self.is_probe(event) or self.probe['is_answered']:
            return
        if self.swim['helpers'] > 0:
            self.ask_helpers()
        if self.is_memberlist and self.swim['fallback']:
            sequence = self.probe['sequence']
            self.send('call', self.probe['target'], sequence, sequence=sequence)

    def ask_helpers(self):
        target = self.probe['target']
        if self.is_memberlist:
            asked = self.sample(self.swim['helpers'], lambda other: other != target and self.holds(other, ALIVE))
        else:
            candidates = [other for other in self.alive() if other != target]
            self.draws.shuffle(candidates)
            asked = candidates[:self.swim['helpers']]
        for helper in asked:
            self.send_with_updates('ping-req', helper, self.probe['sequence'], target=target)
        if self.lifeguard['probe']:
            self.probe['expected'] = len(asked)

    def ping(self, event):
        sequence, initiator = event.content['sequence'], event.content['initiator']
        self.send_with_updates('ack', event.maker, sequence, initiator=initiator)

    def ping_req(self, event):
        sequence = event.content['sequence']
        self.send_with_updates('ping', event.content['target'], sequence, initiator=event.maker)
        if self.lifeguard['probe'] or self.version >= 4:
            self.relays.add((event.maker, sequence))
            delay = max(1, self.lifeguard['nack_percent'] * self.swim['timeout'] // 100)
            self.set_timer(self.now + delay, 'nack timer', relay=(event.maker, sequence))

    def ack(self, event):
        initiator, sequence = event.content['initiator'], event.content['sequence']
        if initiator != self.number:
            self.forward(initiator, sequence)
        elif self.is_probe(event) and self.is_memberlist:
            self.change_health(-1)
            self.probe = None
            self.take_tick()
        elif self.is_probe(event):
            self.probe['is_answered'] = True

    def forward(self, initiator, sequence):
        """Forwards an ack; in version 4 only while the relay is there."""
        if (initiator, sequence) in self.relays or self.version < 4:
            self.relays.discard((initiator, sequence))
            self.send_with_updates('ack', initiator, sequence, initiator=initiator)

    def nack_timer(self, event):
        if event.content['relay'] in self.relays:
            self.relays.discard(event.content['relay'])
            initiator, sequence = event.content['relay']
            if self.lifeguard['probe']:
                self.send('nack', initiator, sequence, sequence=sequence)

    def nack(self, event):
        if self.is_probe(event):
            self.probe['nacks'] = min(16, self.probe['nacks'] + 1)

    def call(self, event):
        sequence = event.content['sequence']
        self.send('answer', event.maker, sequence, sequence=sequence)

    def answer(self, event):
        if self.is_probe(event):
            self.probe['is_answered'] = True

    def suspicion_timer(self, event):
        suspicion = self.suspicions.get(event.content['subject'])
        if suspicion is not None and suspicion.timer == event.number:
            self.apply_own(event.content['subject'], CONFIRM)

    # Gossip, and whole tables.

    def set_gossip_timer(self, since):
        """Sets it, where none is set, for the least moment of its own later than this one."""
        if self.gossips and not self.gossip_is_set:
            self.gossip_is_set = True
            later = since + 1
            moment = later + (self.gossip_phase - later) % self.gossips['interval']
            self.set_timer(moment, 'gossip timer')

    def is_gossiped_to(self, other):
        """Those alive and suspected, and for some time those confirmed."""
        dead = self.gossips['dead']
        return (self.holds(other, ALIVE, SUSPECT)
                or self.holds(other, CONFIRM) and dead > 0 and self.now - self.gone_since[other] <= dead)

    def gossip_timer(self, _):
        self.gossip_is_set = False
        if not self.has_news():
            return
        for other in self.sample(self.gossips['nodes'], self.is_gossiped_to):
            updates = self.pick()
            if not updates:
                break
            self.send('gossip', other, updates=updates)
        if self.has_news():
            self.set_gossip_timer(free(self.scenario, self.number, self.now))

    def gossip(self, _):
        """It brings updates alone."""

    def push_period(self):
        """How long it is from push to push: once longer with each doubling of n over 32."""
        times = 1
        while 32 * 2**(times - 1) < self.n():
            times += 1
        return self.gossips['push'] * times

    def set_push_timer(self, moment):
        """One push period after that moment."""
        self.set_timer(moment + self.push_period(), 'push timer')

    def push_timer(self, _):
        chosen = self.sample(1, lambda other: self.holds(other, ALIVE))
        self.set_push_timer(self.now)
        for other in chosen:
            self.send('push', other, entries=self.whole_table())

    def push(self, event):
        self.send('pull', event.maker, entries=self.whole_table())
        self.merge(event.content['entries'])

    def pull(self, event):
        self.merge(event.content['entries'])

    # the phases in which a case is named, where it isn't `running` alone
    PHASES = {
        'start': ['waiting'], 'crash': ['joining', 'running'], 'leave': ['joining', 'running'],
        'join timer': ['joining'], 'welcome': ['joining'],
    }

    def handle(self, event):
        if self.phase in self.PHASES.get(event.what, ['running']):
            self.act(event)

    def act(self, event):
        """The updates that it brings come before all else."""
        self.apply_all(event.content.get('updates', []))
        self.case_of(event)

    def case_of(self, event):
        """All else that the event does."""
        getattr(self, re.sub('[ -]', '_', event.what))(event)
