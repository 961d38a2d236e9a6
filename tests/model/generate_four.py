"""What a random scenario of version 4 has beside those of version 3, for tests/model/generate.py: scripts of several
entries, blocks, times that overlap, Serf, the queue, packets and connections."""

from generating import chance, some, spans

# names of groups, of which some make members' names of 32 bytes and around
NAMES = ['a', 'b', 'Dc-1', 'rack_2', 'A' * 28, 'b' * 29 + '-c', 'd' * 30, 'e-2' * 10 + 'f', 'g' * 32]


def add_four(rng, document, period, least):
    """Adds some of each. What all members do after each so many ticks at least makes a run no longer than it may be."""
    members = [(f'{group["name"]}-{index}', group.get('start', 0))
               for group in document['group'] for index in range(group['count'])]
    if 'gossip' in document:
        document['gossip'].update(some(rng, {
            'queue': chance(rng, 70), 'packet': rng.choice([0, 0, 50, 90, 120, 150, 200, 300, 508, 1400, 65507]),
            'meta': rng.choice([0, 2, 30, 31, 32, 100, 512])}))
    if chance(rng, 60):
        document.setdefault('stream', {}).update(some(rng, {
            'limit': min(2**24, rng.choice([1, 10, period, 4 * period, 10000])),
            'retry': min(2**24, max(least, rng.choice([1, period, 3 * period, 30000])))}))
    # a timer that comes for ever makes a run too long where it ends at the greatest moment
    if chance(rng, 60) and least <= 2**24:
        document['serf'] = some(rng, {
            'reconnect': min(2**24, max(least, rng.choice([1, period, 3 * period, 10 * period]))),
            'reap': rng.choice([0, 1, period, 5 * period, 86400000]), 'linger': min(2**24, rng.choice([1, period, 3 * period]))})
    for name, start in rng.sample(members, rng.choice([0, 1, 1, 2, 3, len(members)]) % (len(members) + 1)):
        add_script(rng, document, name, start, [other for other, _ in members if other != name])
    for what in rng.choices(['block', 'block', 'pause', 'slow'], k=rng.choice([0, 1, 1, 2, 4])):
        entries = spans(rng, rng.choice(members)[0], document['end'], rng.choice([period, 5 * period, 15 * period, 2**40]))
        document.setdefault(what, []).extend(
            {**entry, 'extra': rng.randint(1, period)} if what == 'slow' else entry for entry in entries)


def add_script(rng, document, name, start, others):
    """Some crashes, leaves and restarts of one member, of which some come at one moment."""
    latest = max(start + 1, document['end'])
    # who asks in vain from early on makes a run too long that ends at the greatest moment
    earliest = start + 1 if latest < 2**39 else max(start + 1, latest - 2**26)
    moments = [rng.randint(earliest, latest) for _ in range(rng.randint(1, 4))]
    for _ in range(rng.randint(1, 6)):
        what = rng.choice(['crash', 'leave', 'leave', 'restart', 'restart', 'restart'])
        entry = {'member': name, 'at': rng.choice(moments)}
        if what == 'restart' and others and chance(rng, 80):
            entry['contact'] = rng.choice(others)
        items = document.setdefault(what, [])
        items.insert(rng.randint(0, len(items)), entry)
