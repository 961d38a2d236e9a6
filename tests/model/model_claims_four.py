"""What a member of version 4 holds and what it says to others, for tests/model/model_member_four.py.

Version 4 has what memberlist 0.5.0 and Serf do with claims beyond version 3:

- A member that has left is held as Left: this overrides Alive and Suspect of a number no greater, and Alive of a greater
  number overrides it. n counts all entries, whatever they claim.
- Of whom nothing is known only Alive is taken; it comes into the rota in place of another, which goes to the end.
- Who is dead or has left for longer than `gossip.dead` is forgotten, where a probe begins and the rota is at its end.
- An intent (Serf's) says that its subject is about to leave. Intents have a buffer of their own, which is picked after
  the other. Who dies or leaves without one has failed, until it is Alive again.
- `gossip.queue` makes a queue of the buffer, and `gossip.packet` fills messages by bytes.
- A member refutes all that is said against it, and a greater number of its own too, but when it says itself that it leaves.
"""

from model_buffers import INTENT, Buffer, Bytes, Carry, Queue, Sizes
from model_member import Member, Update
from model_rows import ALIVE, CONFIRM, LEFT, SUSPECT

# what a message takes of a packet beside its updates and names, and an ack of Serf's to a ping, which has coordinates
FRAME = 2
PING, PING_REQ, ACK, ACK_WITH_COORDINATES = 59, 85, 22, 154


class Claims(Member):
    """A member as far as its table, its rota and its buffers go."""

    def __init__(self, run, number):
        super().__init__(run, number)
        self.serf = run.scenario['serf']    # its settings, or None
        self.leaving = None                 # how far its leave is: intends, says, lingers
        self.sizes = Sizes(run.scenario)
        if self.gossips and self.gossips['queue']:
            self.buffer = Queue(self.sizes.length)
        # of Serf
        self.intents = Buffer()
        self.marked = set()     # who intends to leave
        self.failed = {}        # who failed, and when

    def n(self):
        return 1 + len(self.table)

    # ---- The buffers ----

    def has_news(self):
        return bool(self.buffer or self.intents)

    def put_intent(self, update):
        self.intents.put(update)
        self.set_gossip_timer(self.now)

    def room(self, taken):
        """How much goes into a message that takes so many bytes itself."""
        if self.gossips and self.gossips['queue'] and self.gossips['packet'] > 0:
            return Bytes(self.gossips['packet'] - FRAME - taken, self.sizes.taken)
        return Carry(self.swim['carry'])

    def pick(self, taken=0):
        """The updates of one message that takes so many bytes itself: claims, then intents."""
        room = self.room(taken)
        picked = self.buffer.pick(self.limit(), room)
        if self.intents:
            picked += self.intents.pick(self.limit(), room)
        return picked

    def send_with_updates(self, what, to, sequence, **content):
        is_own_ping = what == 'ping' and content['initiator'] == self.number
        if is_own_ping and self.lifeguard['buddy'] and self.holds(to, SUSPECT):
            updates = [Update(to, self.number, SUSPECT, self.table[to][1])]
        else:
            updates = self.pick(self.taken_by(what, to, content))
        self.send(what, to, sequence, sequence=sequence, updates=updates, **content)

    def taken_by(self, what, to, content):
        """How many bytes a message takes itself."""
        if what == 'ping':
            return PING + self.sizes.name(to) + self.sizes.name(self.number)
        if what == 'ping-req':
            return PING_REQ + self.sizes.name(content['target']) + self.sizes.name(self.number)
        return ACK_WITH_COORDINATES if self.serf and self.run.event.what == 'ping' else ACK

    # ---- The rota ----

    def enter_rota(self, subject, is_new):
        """One that is back goes in anywhere; one that is new takes the place of another, which goes to the end."""
        if not is_new:
            self.insert_in_rota(subject)
        elif not self.rota:
            self.rota = [subject]
        else:
            place = self.draws.below(len(self.rota))
            self.rota.append(self.rota[place])
            self.rota[place] = subject

    def next_of_rota(self):
        if self.mark == len(self.rota):
            self.forget()
        return super().next_of_rota()

    def forget(self):
        """Takes out of the table who is dead or has left for longer than that is kept."""
        kept = self.gossips['dead'] if self.gossips else 0
        for subject in sorted(self.table):
            if self.holds(subject, CONFIRM, LEFT) and self.now - self.gone_since[subject] > kept:
                self.row('forget', subject, self.table.pop(subject)[1])

    # ---- Applying ----

    def overrides(self, update, claim, incarnation):
        if update.claim == LEFT:
            return claim in (ALIVE, SUSPECT) and update.incarnation >= incarnation
        if claim == LEFT:
            return update.claim == ALIVE and update.incarnation > incarnation
        return super().overrides(update, claim, incarnation)

    def apply(self, update, is_quiet=False):
        if update.claim == INTENT:
            self.apply_intent(update)
        else:
            super().apply(update, is_quiet)

    def apply_intent(self, update):
        if self.serf and update.subject != self.number and update.subject not in self.marked:
            self.mark_leaving(update.subject)
            self.put_intent(update)

    def mark_leaving(self, subject):
        self.marked.add(subject)
        self.failed.pop(subject, None)

    def apply_of_oneself(self, update):
        is_wrong = update.incarnation >= self.incarnation + (update.claim == ALIVE)
        if is_wrong and self.leaving not in ('says', 'lingers'):
            self.refute(update.incarnation + 1)

    def take(self, update, is_quiet):
        if self.serf:
            self.note_failure(update)
        super().take(update, is_quiet)

    def note_failure(self, update):
        """Keeps who failed: who is dead or has left without an intent."""
        if update.claim == ALIVE:
            self.marked.discard(update.subject)
            self.failed.pop(update.subject, None)
        if update.claim in (CONFIRM, LEFT) and update.subject not in self.marked:
            self.failed[update.subject] = self.now

    # ---- Whole tables ----

    def whole_table(self):
        claim = LEFT if self.leaving in ('says', 'lingers') else ALIVE
        return {**self.table, self.number: (claim, self.incarnation)}

    def merge(self, entries):
        """Deaths are suspected only. Who has left there and isn't up here has intended it."""
        for subject in sorted(entries):
            claim, incarnation = entries[subject]
            if claim != LEFT:
                claim = ALIVE if claim == ALIVE else SUSPECT
                self.apply(Update(subject, self.number, claim, incarnation))
                continue
            self.apply(Update(subject, subject, LEFT, incarnation))
            if self.serf and subject != self.number and not self.holds(subject, ALIVE, SUSPECT):
                self.mark_leaving(subject)
