"""What a member of version 4 makes of an event, where it isn't as in version 3, for tests/model/model.py.

Claims are in model_claims_four.py. Here is what else memberlist 0.5.0 and Serf do, and what happens to a process:

- A member has a script: it may crash, leave and start again several times. Who starts again, and who starts after the
  beginning, begins alone: it knows nobody, and asks its contact by a connection until that has sent its table.
- A connection is opened by two trips, which the systems make also for a process that doesn't run; then a table is pushed.
- Who leaves goes on: with Serf it says first that it intends to, then that it has left, and each until it was sent
  as often as any update is; then it lingers for a while, and is gone.
- With Serf a member tries those that have failed again, each about once in `serf.reconnect` over the whole cluster.
- The updates of a message are applied after all else that it does; the timer of a deadline that is a beat isn't made.
"""

from model_claims_four import Claims
from model_buffers import INTENT
from model_links import free, trips_of_dial
from model_member import Update
from model_rows import ALIVE, LEFT, SUSPECT


class MemberFour(Claims):
    """A member of version 4."""

    PHASES = {'start': ['waiting'], 'restart': ['running', 'down']}

    def __init__(self, run, number):
        super().__init__(run, number)
        self.birth = 0          # the number from which on its timers are of this life
        self.contact = None     # whom it asks for a table until it has one

    def handle(self, event):
        is_of_former_life = event.what.endswith('timer') and event.number < self.birth
        if not is_of_former_life:
            super().handle(event)

    def act(self, event):
        """The updates that it brings come after all else, and at the end is seen how far a leave is."""
        self.case_of(event)
        self.apply_all(event.content.get('updates', []))
        if self.phase == 'running':
            self.go_on_leaving()

    def is_anybody_up(self):
        return any(self.holds(other, ALIVE, SUSPECT) for other in self.table)

    # ---- Starts ----

    def start(self, _):
        self.row('start')
        self.phase = 'running'
        if self.own['start'] > 0:
            self.begin_alone(self.own['contact'])
            return
        self.rota = [other for other, member in enumerate(self.scenario['members'])
                     if member['start'] == 0 and other != self.number]
        self.table = {other: (ALIVE, 0) for other in self.rota}
        self.draws.shuffle(self.rota)
        self.mark = self.draws.below(len(self.rota) + 1)
        self.set_first_period()
        if self.serf:
            self.set_timer(self.beat + self.draws.below(self.serf['reconnect']), 'reconnect timer')

    def set_first_period(self):
        """That of a founder, and its first push, at any moment of a time between pushes."""
        self.begin_beats(self.now + 1 + self.draws.below(self.swim['spread']))
        if self.gossips and self.gossips['push'] > 0:
            self.set_timer(self.beat + 1 + self.draws.below(self.push_period()), 'push timer')

    def begin_beats(self, beat):
        self.beat = beat
        if self.gossips:
            self.gossip_phase = (beat - 1) % self.gossips['interval']
        self.set_timer(beat, 'period timer')

    def begin_alone(self, contact):
        self.begin_beats(self.now + self.swim['period'])
        if self.gossips and self.gossips['push'] > 0:
            self.set_timer(self.now + 1 + self.draws.below(self.gossips['push']), 'setting timer')
        if self.serf:
            self.set_timer(self.now + self.serf['reconnect'], 'reconnect timer')
        if contact is not None:
            self.contact = self.run.numbers[contact]
            self.ask()

    def restart(self, event):
        """All is as before the start, but its numbers and draws, which go on."""
        kept = self.next_number, self.sequence, self.draws
        self.__init__(self.run, self.number)
        self.next_number, self.sequence, self.draws = kept
        self.birth = self.next_number
        self.row('restart')
        self.phase = 'running'
        self.begin_alone(event.content['contact'])

    def ask(self):
        done = self.dial('join', self.contact)
        self.set_timer(done + self.scenario['stream']['retry'], 'join timer')

    def join_timer(self, _):
        if self.contact is not None:
            self.ask()

    # ---- Connections ----

    def dial(self, kind, to):
        """Opens a connection, over which a push goes once it is there; gives the moment when the dial is done."""
        departs = free(self.scenario, self.number, self.now)
        there = trips_of_dial(self.scenario, (self.number, to), departs, self.draws)
        # a dial for a push that comes to one has its row then
        if kind != 'push' or there is None:
            self.row(kind, to, lost=int(there is None))
        if there is None:
            return departs + self.scenario['stream']['limit']
        self.set_timer(there, 'connected timer', to=to)
        return there

    def connected_timer(self, event):
        self.send('push', event.content['to'], entries=self.whole_table())

    def setting_timer(self, _):
        self.set_push_timer(self.now)

    def push_timer(self, _):
        chosen = self.sample(1, lambda other: self.holds(other, ALIVE))
        done = self.dial('push', chosen[0]) if chosen else self.now
        self.set_push_timer(done)

    def pull(self, event):
        if event.maker == self.contact:
            self.contact = None
            self.row('joined', event.maker, sum(subject != self.number for subject in event.content['entries']))
        self.merge(event.content['entries'])

    def reconnect_timer(self, _):
        since = self.now - self.serf['reap']
        self.failed = {member: failed for member, failed in self.failed.items() if failed >= since}
        failed, up = sorted(self.failed), 1 + sum(self.holds(other, ALIVE, SUSPECT) for other in self.table)
        done = self.now
        if failed and self.draws.below(up) < len(failed):
            done = self.dial('reconnect', failed[self.draws.below(len(failed))])
        self.set_timer(done + self.serf['reconnect'], 'reconnect timer')

    # ---- Leaves ----

    def leave(self, _):
        if self.leaving is not None:
            return
        self.row('leave')
        if self.serf and self.is_anybody_up():
            self.leaving = 'intends'
            self.put_intent(Update(self.number, self.number, INTENT, 0))
        else:
            self.say_left()

    def say_left(self):
        self.leaving = 'says'
        self.row('left', self.number, self.incarnation)
        if self.is_anybody_up():
            self.put(Update(self.number, self.number, LEFT, self.incarnation))
        else:
            self.linger()

    def linger(self):
        self.leaving = 'lingers'
        self.set_timer(self.now + (self.serf['linger'] if self.serf else 1), 'exit timer')

    def go_on_leaving(self):
        """Goes on where what it says about itself was sent as often as any update is."""
        if self.leaving == 'intends' and not self.intents.has(self.number):
            self.say_left()
        if self.leaving == 'says' and not self.buffer.has(self.number):
            self.linger()

    def exit_timer(self, _):
        self.row('exit')
        self.phase = 'down'

    # ---- Probes ----

    def set_deadline_timer(self, departs):
        """At a beat the period timer ends the probe, and this timer takes its number only, but for a blocked ping's."""
        is_beat = (self.probe['deadline'] - self.beat) % self.swim['period'] == 0
        moment = None if is_beat and departs == self.now else self.probe['deadline']
        self.set_timer(moment, 'deadline timer', sequence=self.sequence)
