"""Texts of scenarios in which members probe each other every 100 ticks, so that little time has many rows."""

from tables import head, item, table


def hasty(end, *groups):
    """One link of two ticks, and groups, each a name and how many members it has."""
    text = head(end, seed=3, period=100, timeout=30, spread=1) + table('link', delay=2)
    return text + ''.join(item('group', name=name, count=count) for name, count in groups)


# some 46,000 rows: more batches than those that write and those that simulate hold between them
LONG = hasty(36000, ('n', 64))


def far(sites, count, end, delay=1000, period=100, timeout=30):
    """So many sites of so many members, each so many ticks from the next, within which a message takes one tick."""
    names = [f's{nth}' for nth in range(sites)]
    text = head(end, seed=5, period=period, timeout=timeout) + table('link', delay=delay)
    text += ''.join(item('group', name=name, count=count) for name in names)
    return text + ''.join(item('path', from_=name, to=name, delay=1) for name in names)
