"""What members draw, by docs/RUN.md ("Draws"), seen in the rows of small runs under many seeds."""

from model_links import Draws
from model_text import rows_in
from program import Case, Wrong, expect_ran
from tables import head, item, table
from worked import scenario_of

SEEDS = range(64)

# the words that PCG's C code publishes for seed 42 on stream 54
PUBLISHED = (0xa15c02b7, 0x7b47f409, 0xba1d3330, 0x83d2f293, 0xbfa4784b, 0xcbed606e)


def first(rows, what, member):
    """The member's first row of that kind, or None."""
    return next((row for row in rows if row.what == what and row.member == member), None)


def expect_ping(rows, sent, spread, loss, jitter, seed, number):
    """Compares a member's first ping from this moment on, and the ack that the other one makes of it, with
    what its words say."""
    drawn = Draws(seed, number)
    at = sent + drawn.below(spread)
    is_lost = drawn.is_lost(loss)
    arrives = None if is_lost else at + 10 + drawn.below(jitter + 1)
    within = [row for row in rows if sent <= row.moment < sent + 1000]
    ping, ack = first(within, 'ping', number), first(within, 'ack', 1 - number)
    seen = ping.moment, bool(ping.lost), ack.moment if ack else None
    if seen != (at, is_lost, arrives):
        raise Wrong(f'seed {seed}, n-{number}: {seen} in the place of {(at, is_lost, arrives)}')


def check(program, sent, spread, loss, jitter, more):
    """Runs two members under each seed, and compares what they draw for their first pings from that moment
    on."""
    for seed in SEEDS:
        version = 2 if 'cut' in more else 1
        text = (head(1100, version, seed, spread=spread) + table('link', delay=10, jitter=jitter, loss=loss)
                + item('group', name='n', count=2) + more)
        program.keep('s.toml', text)
        ran = program.call(['run', 's.toml', '--trace', 't.csv'])
        rows = rows_in(scenario_of(text), (program.held('t.csv') or b'').decode())
        expect_ran(ran, 0, f'rows {len(rows)}\n'.encode(), b'')
        for number in (0, 1):
            expect_ping(rows, sent, spread, loss, jitter, seed, number)


def check_words(_program):
    """Compares the model's words with the published ones: 630,310 is the first below a million."""
    drawn = Draws(42, 54)
    if tuple(drawn.word() for _ in PUBLISHED) != PUBLISHED or Draws(42, 54).below(1_000_000) != 630_310:
        raise Wrong('the words are others')


def cases():
    """The published words, and each kind of draw under each seed."""
    cut = '[[cut]]\nfrom = "n"\nto = "n"\nat = 1\nuntil = 2\n'
    yield Case('draws: published words', check_words, ())
    yield Case('draws: first pings are spread', check, (1, 50, 0, 0, ''))
    yield Case('draws: messages come after delay and jitter', check, (1, 1, 0, 5, ''))
    yield Case('draws: lost pings are told and have no ack', check, (1, 1, 500_000, 0, ''))
    yield Case('draws: the jitter comes after the loss, for what is not lost', check, (1, 1, 500_000, 5, ''))
    yield Case('draws: spread, loss and jitter', check, (1, 7, 300_000, 900, ''))
    yield Case('draws: a message over a cut link draws nothing', check, (1001, 1, 0, 5, cut))
