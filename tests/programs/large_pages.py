"""Pages of large runs: those of ten clusters of 4,096 members, each with another kind of trouble, have at most 1 MB."""

from program import Case, Wrong

MOST_BYTES = 1_000_000
SITES = ('north', 'east', 'south', 'west')
MEMBERS = 1024


def table(kind, **entries):
    """An item of a list of tables."""
    lines = [f'{key} = "{value}"' if isinstance(value, str) else f'{key} = {value}' for key, value in entries.items()]
    return '\n'.join([f'[[{kind}]]', *lines, ''])


def cluster(end, link='delay = 5\njitter = 10', version=2, more=(), starts=()):
    """A text of four sites of 1,024 members, with these tables more."""
    head = f'version = {version}\nseed = 1\nend = {end}\n[swim]\nperiod = 1000\ntimeout = 300\nspread = 1000\n[link]\n{link}\n'
    groups = [table('group', name=name, count=MEMBERS, **({'start': 1500, 'contact': 'north-0'} if name in starts else {}))
              for name in SITES]
    return head + ''.join([*groups, *more])


def each_of(count, kind, **entries):
    """So many items of one kind, each about another member of the four sites."""
    return [table(kind, member=f'{SITES[place % 4]}-{place}', **entries) for place in range(count)]


def paths(**entries):
    return [table('path', **{'from': one, 'to': other}, **entries) for one in SITES for other in SITES if one != other]


TEXTS = {
    'quiet': cluster(8000),
    'crashes': cluster(8000, more=each_of(40, 'crash', at=2500)),
    'a third lost': cluster(5000, 'delay = 5\njitter = 10\nloss = 300000'),
    'slow members': cluster(6000, more=each_of(300, 'slow', **{'from': 1500, 'until': 5000, 'extra': 2000})),
    'a cut': cluster(6000, more=[table('cut', **{'from': 'north', 'to': 'east', 'at': 2000, 'until': 5000})]),
    'a site joins': cluster(6000, starts=('west',)),
    'leaves': cluster(6000, more=each_of(200, 'leave', at=2500)),
    'sites': cluster(8000, more=paths(delay=100, jitter=50)),
    'stops': cluster(6000, version=3, more=each_of(200, 'pause', **{'from': 2000, 'until': 4500})),
    'a third lost, version 3': cluster(5000, 'delay = 5\njitter = 10\nloss = 300000', version=3),
}


def check(program, text):
    """The page stands whole, and isn't too large."""
    program.keep('large.toml', text)
    ran = program.call(['run', 'large.toml', '--trace', '/dev/null', '--page', 'p.html'])
    if ran.status != 0:
        raise Wrong(f'status {ran.status}: {ran.err.decode()}')
    page = program.held('p.html')
    if not page.endswith(b'</html>\n') or len(page) > MOST_BYTES:
        raise Wrong(f'a page of {len(page)} bytes')


def cases():
    for name, text in TEXTS.items():
        yield Case(f'large page: {name}', check, (text,))
