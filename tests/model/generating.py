"""What the generators of random cases share."""


def chance(rng, percent):
    return rng.randrange(100) < percent


def some(rng, keys):
    """Some of the keys of a table."""
    return {name: value for name, value in keys.items() if chance(rng, 75)}


def spans(rng, name, end, longest):
    """One to three spans of time of one member, of which none overlap, but some touch."""
    marks = sorted(rng.sample(range(min(end + 8, 2**40 + 1)), 2 * rng.randint(1, 3)))
    entries = []
    for begin, stop in zip(marks[::2], marks[1::2]):
        begin = entries[-1]['until'] if entries and chance(rng, 30) else begin
        entries.append({'member': name, 'from': begin, 'until': max(begin + 1, min(stop, begin + longest))})
    rng.shuffle(entries)
    return entries
