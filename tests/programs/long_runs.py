"""Runs of many rows by several workers: traces longer than what threads hand to one another, whole and cut off, and
sites that go to workers in every way."""

import itertools

from harness import NOT_WRITTEN
from hasty import LONG, far
from model import rows_of
from model_text import report_of, trace_of
from program import Case, expect, expect_ran
from worked import scenario_of

WAYS = (['--workers', '2'], ['--workers', '3', '--parts', '3'], ['--workers', '64', '--parts', '64'])

# what has more bytes than each room for a trace
ROOMS = (0, 1000, 200_000, 1_500_000)

def run(program, way):
    """Runs what the folder has; gives what the run answered, and its trace and report."""
    program.keep('t.csv', 'an older trace\n')
    program.keep('r.txt', 'an older report\n')
    ran = program.call(['run', 's.toml', '--trace', 't.csv', '--report', 'r.txt', *way])
    return ran, program.held('t.csv'), program.held('r.txt')


def check_same(program, text, ways):
    """One worker leaves the trace and the report that the model has, and each way leaves the same."""
    scenario = scenario_of(text)
    rows = rows_of(scenario)
    program.keep('s.toml', text)
    wanted = trace_of(scenario, rows).encode(), report_of(scenario, rows).encode()
    for way in ([], *ways):
        ran, *left = run(program, way)
        told = ' '.join(way)
        expect_ran(ran, 0, f'rows {len(rows)}\n'.encode(), b'', f'{told} ')
        for name, seen, whole in zip(('trace', 'report'), left, wanted):
            expect(f'{told} {name}', seen, whole)


def check_cut_off(program, text, way, room):
    """A trace that has room for so many bytes is a beginning, in the first batch or in a later one. More batches come
    behind it than there is room for on the way: whoever sends comes to its end all the same."""
    program.keep('s.toml', text)
    whole = run(program, [])[1]
    program.keep('t.csv', '')
    ran = program.call(['run', 's.toml', '--trace', 't.csv', '--report', 'r.txt', *way], room=room)
    expect_ran(ran, *NOT_WRITTEN)
    expect('trace', program.held('t.csv'), whole[:room])
    expect('report', program.held('r.txt'), b'')


def divided(deal, count):
    """The words for a division of sites of so many members, of which each goes to the part that is dealt."""
    return ['--division', ','.join(str(part) for part in deal for _ in range(count))]


def cases():
    yield Case('long run: many rows', check_same, (LONG, WAYS))
    for about, text in (('one part', LONG), ('four parts', far(4, 64, 20_000))):
        for way, room in itertools.product(WAYS, ROOMS):
            yield Case(f'long run: {about}, {way}, {room} bytes', check_cut_off, (text, way, room))
    for first in range(4):
        deals = itertools.product([first], range(4), range(4), range(4))
        ways = [['--workers', str(2 + nth % 3), *divided(deal, 12)] for nth, deal in enumerate(deals)]
        yield Case(f'long run: four sites, the first in part {first}', check_same, (far(4, 12, 3000), ways))
    each = divided(range(64), 6)
    ways = [['--workers', workers, *each] for workers in ('2', '3', '64')]
    yield Case('long run: 64 sites as 64 parts', check_same, (far(64, 6, 3000), ways))
