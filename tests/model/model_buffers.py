"""What a member still has to say to others, and how much of it a message takes, for tests/model/model_member.py.

Written from docs/PROTOCOL.md ("The buffer"); `Queue` and `Bytes` are of version 4: memberlist's queue as it is, with
its fault, and packets of so many bytes.
"""

import collections

from model_rows import ALIVE

# what an update may say beside what rows say: that its subject is about to leave
INTENT = 'intent'


# ---- How much a message takes ----

class Carry:
    """So many updates."""

    def __init__(self, most):
        self.left = most

    def fits(self, _):
        return self.left > 0

    def take(self, _):
        self.left -= 1


class Bytes:
    """So many bytes, with the function that gives how many an update takes; there may be less than none."""

    def __init__(self, left, size_of):
        self.left, self.size_of = left, size_of

    def fits(self, update):
        return self.size_of(update) <= self.left

    def take(self, update):
        self.left -= self.size_of(update)


def number_size(number):
    """How many bytes a number takes."""
    return next((size for size, past in ((1, 2**7), (2, 2**8), (3, 2**16), (5, 2**32)) if number < past), 9)


def word_size(length):
    """How many bytes a name takes, or the meta, of so many bytes itself."""
    return length + (1 if length < 32 else 3)


class Sizes:
    """How many bytes each thing of a packet takes, in a cluster of members with these names."""

    def __init__(self, scenario):
        self.names = [member['name'] for member in scenario['members']]
        self.gossip = scenario['gossip']

    def name(self, member):
        return word_size(len(self.names[member]))

    def length(self, update):
        """The length of a claim, by which the queue orders it."""
        number = number_size(update.incarnation)
        if update.claim == ALIVE:
            return 53 + number + self.name(update.subject) + word_size(self.gossip['meta'])
        return 24 + number + self.name(update.subject) + self.name(update.accuser)

    def taken(self, update):
        """What an update takes of a packet."""
        return 26 + self.name(update.subject) if update.claim == INTENT else 2 + self.length(update)


# ---- Buffers ----

class Buffer:
    """At most one update about each subject, each with how often it was sent."""

    def __init__(self):
        self.held = {}

    def __bool__(self):
        return bool(self.held)

    def has(self, subject):
        return subject in self.held

    def put(self, update):
        self.held[update.subject] = [update, 0]

    def pick(self, limit, room, buddy=None):
        """The updates of one message, the buddy first, then those that were sent the fewest times; what was sent as
        often as the limit says is dropped."""
        fit = sorted((count, subject) for subject, (_, count) in self.held.items()
                     if count < limit and (buddy is None or subject != buddy.subject))
        picked = []
        for update in ([buddy] if buddy else []) + [self.held[subject][0] for _, subject in fit]:
            if room.fits(update):
                room.take(update)
                picked.append(update)
        for update in picked:
            if update.subject in self.held:
                self.held[update.subject][1] += 1
        self.held = {subject: held for subject, held in self.held.items() if held[1] < limit}
        return picked


Item = collections.namedtuple('Item', 'update count length id')


def key_of(item):
    """Where an item stands: the least count first, then the greatest length, then the greatest id."""
    return item.count, -item.length, -item.id


class Queue:
    """memberlist's queue: a set of items with one for each key, for each subject a pointer to an item, which may have left
    the set, and a counter of ids. Where the set runs empty the counter begins anew, so an id comes twice, and an item that
    comes into the set at the key of another one is taken for it: the other one is lost."""

    def __init__(self, length_of):
        self.length_of = length_of
        self.items, self.pointers, self.ids = {}, {}, 0

    def __bool__(self):
        return bool(self.items)

    def has(self, subject):
        return any(item.update.subject == subject for item in self.items.values())

    def delete(self, item):
        """Takes out whichever item has this one's key."""
        self.items.pop(key_of(item), None)
        self.pointers.pop(item.update.subject, None)
        if not self.items:
            self.ids = 0

    def add(self, item):
        self.items[key_of(item)] = item
        self.pointers[item.update.subject] = item

    def put(self, update):
        self.ids += 1
        item = Item(update, 0, self.length_of(update), self.ids)
        if update.subject in self.pointers:
            self.delete(self.pointers[update.subject])
        self.add(item)

    def pick(self, limit, room):
        """The updates of one message: each in order for which there is room, since there is none later for one that didn't
        fit. Those that may be sent again come back behind all."""
        picked = [item for item in sorted(self.items.values(), key=key_of) if self.goes(item, room)]
        for item in picked:
            if item.count + 1 < limit:
                self.add(item._replace(count=item.count + 1))
        return [item.update for item in picked]

    def goes(self, item, room):
        """Whether there is room for an item; then it takes that and is out of the set."""
        if not room.fits(item.update):
            return False
        room.take(item.update)
        self.delete(item)
        return True
