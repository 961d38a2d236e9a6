"""Draws, and when messages arrive, for tests/model/model.py.

Written from docs/RUN.md ("Draws", "Links") alone. Of version 4 are blocks, in which what a member sends and is sent
stands still though it runs; entries of one member that overlap; and dials, the two trips that open a connection.
"""

# ---- Draws ----

class Draws:
    """What one member draws."""

    def __init__(self, seed, number):
        self.inc = 2 * number + 1
        self.state = self.step((seed + self.inc) % 2**64)

    def step(self, state):
        return (state * 6364136223846793005 + self.inc) % 2**64

    def word(self):
        state, self.state = self.state, self.step(self.state)
        low = (((state >> 18) ^ state) >> 27) % 2**32
        turn = state >> 59
        return ((low >> turn) | (low << (32 - turn))) % 2**32

    def below(self, bound):
        if bound == 1:
            return 0
        product = self.word() * bound
        high, low = product // 2**32, product % 2**32
        if low > 2**32 - bound:
            carried = low + self.word() * bound // 2**32
            return high + 1 if carried >= 2**32 else high
        return high

    def is_lost(self, parts):
        if parts in (0, 1000000):
            return parts > 0
        return self.below(1000000) < parts

    def shuffle(self, items):
        served = 0
        for place in range(1, len(items)):
            if served == 0:
                product = place + 1
                served = 1
                while product * (place + 1 + served) < 2**32:
                    product *= place + 1 + served
                    served += 1
                left = self.below(product)
            served -= 1
            other = left if served == 0 else left % (place + 1)
            left //= place + 1
            items[place], items[other] = items[other], items[place]


# ---- Links ----

# how often the system sends what is lost of a stream
TRIES = 8


def entries_of(scenario, list_name, member):
    """Those of a list, slow, pause or block, about a member, by its number."""
    name = scenario['members'][member]['name']
    return [entry for entry in scenario[list_name] if entry['member'] == name]


def slow_by(scenario, member, moment):
    """What a member is slow by: the greatest extra of what holds."""
    return max((entry['extra'] for entry in entries_of(scenario, 'slow', member)
                if entry['from'] <= moment < entry['until']), default=0)


def past(scenario, list_name, member, moment):
    """The least moment, from this one on, in no entry of the list about the member."""
    for entry in sorted(entries_of(scenario, list_name, member), key=lambda entry: entry['from']):
        if entry['from'] <= moment < entry['until']:
            moment = entry['until']
    return moment


def awake(scenario, member, moment):
    """The least moment, from this one on, in no pause of the member."""
    return past(scenario, 'pause', member, moment)


def free(scenario, member, moment):
    """The least moment, from this one on, in no block of the member."""
    return past(scenario, 'block', member, moment)


def way(scenario, ends, moment, draws, is_sure=False):
    """When what one sends to another at this moment is there, slow members aside; None where it is lost. What
    is sure is lost by a cut alone."""
    groups = tuple(scenario['members'][end]['group'] for end in ends)
    for cut in scenario['cut']:
        if (cut['from'], cut['to']) == groups and cut['at'] <= moment < cut['until']:
            return None
    link = scenario['link']
    for path in scenario['path']:
        if (path['from'], path['to']) == groups:
            link = path
    if not is_sure and draws.is_lost(link['loss']):
        return None
    return moment + link['delay'] + draws.below(link['jitter'] + 1)


def trip(scenario, ends, moment, again, draws):
    """The same of what the system sends again, first after so many ticks and then after twice as many as
    before."""
    for time in range(TRIES):
        there = way(scenario, ends, moment + again * (2**time - 1), draws)
        if there is not None:
            return there
    return None


def trips_of_call(scenario, ends, moment, draws):
    """The same of a call: the connection's two trips, then its own."""
    connect, again = scenario['stream']['connect'], scenario['stream']['again']
    back = ends[::-1]
    for one, pause in ((ends, connect), (back, connect), (ends, again)):
        moment = trip(scenario, one, moment, pause, draws)
        if moment is None:
            return None
    return moment


def trips_of_dial(scenario, ends, moment, draws):
    """When a connection that one opens to another at this moment is open, or None where it is given up: its request or the
    answer to it is lost, or comes after the limit."""
    connect, limit = scenario['stream']['connect'], scenario['stream']['limit']
    there = trip(scenario, ends, moment, connect, draws)
    if there is None:
        return None
    back = trip(scenario, ends[::-1], there, connect, draws)
    return back if back is not None and back <= moment + limit else None


def arrival(scenario, what, ends, moment, draws):
    """When a message of this kind that one sends to another at this moment arrives, or None where it is
    lost. That of a blocked member departs when the block ends."""
    sender, receiver = ends
    moment = free(scenario, sender, moment)
    if what == 'call':
        there = trips_of_call(scenario, ends, moment, draws)
    elif what == 'answer':
        there = trip(scenario, ends, moment, scenario['stream']['again'], draws)
    else:
        there = way(scenario, ends, moment, draws, is_sure=what in ('push', 'pull'))
    if there is None:
        return None
    there += slow_by(scenario, sender, moment)
    there += slow_by(scenario, receiver, there)
    return awake(scenario, receiver, free(scenario, receiver, there))
