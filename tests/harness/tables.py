"""Texts of scenarios, table by table. A key that is a word of Python's, as `from`, ends with `_` here."""


def keys_of(keys):
    """A line for each key; words stand in quotes."""
    return ''.join(f'{key.rstrip("_")} = {quoted(value)}\n' for key, value in keys.items())


def quoted(value):
    return f'"{value}"' if isinstance(value, str) else str(value).lower()


def table(name, /, **keys):
    return f'[{name}]\n' + keys_of(keys)


def item(name, /, **keys):
    """An item of a list of tables."""
    return f'[[{name}]]\n' + keys_of(keys)


def head(end, version=1, seed=1, period=1000, timeout=300, **swim):
    """The keys above all tables, and `[swim]`."""
    return keys_of({'version': version, 'seed': seed, 'end': end}) + table('swim', period=period, timeout=timeout, **swim)
