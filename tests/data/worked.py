"""Worked runs: scenarios of tests/data/worked, and those of version 4 of tests/data/four, whose whole trace or report was worked out by hand, or by the second simulator
where the text says so, run in every way."""

import re

import texts
from model import rows_of
from model_text import report_of, rows_in, trace_of
from program import Case, DATA, Wrong, expect, expect_ran
from scenarios import NEWEST, document_of, judge

FOLDER = DATA / 'worked'
FOURTH = DATA / 'four'
NUMBERS = (1, 2, 3, 64)

# so many seeds are run in every way, and the others in the first two ways
SEEDS_BY_ALL_WAYS = 3


def ways_of(names):
    """The words of the ways in which a scenario of members of these names is run."""
    members, groups = len(names), [name.partition('-')[0] for name in names]
    lists = [[0] * members, range(members), range(members - 1, -1, -1),
             [63 * (it % 2) for it in range(members)], [63 - it for it in range(members)],
             [list(dict.fromkeys(groups)).index(group) for group in groups]]
    counts = [['--workers', str(workers), '--parts', str(parts)] for workers in NUMBERS for parts in NUMBERS]
    divisions = [['--workers', workers, '--division', ','.join(map(str, parts))]
                 for parts in lists for workers in ('1', '3', '5')]
    return [[], ['--workers', '2', '--parts', '2'], *counts, *divisions]


def run_in(program, text, ways):
    """Runs a text in each of these ways; each ends well and leaves the same. Gives the trace and the
    report."""
    left = None
    program.keep('s.toml', text)
    for way in ways:
        program.keep('t.csv', 'an older trace, which is replaced\n' * 50)
        ran = program.call(['run', 's.toml', '--trace', 't.csv', '--report', 'r.txt', *way])
        told = ' '.join(way)
        expect_ran(ran, 0, f'rows {program.held("t.csv").count(10) - 1}\n'.encode(), b'', f'{told} ')
        now = program.held('t.csv'), program.held('r.txt')
        left = left or now
        for name, seen, wanted in zip(('trace', 'report'), now, left):
            expect(f'{told} {name}', seen, wanted)
    return left


def scenario_of(text):
    """The scenario of a text that is accepted, as the model has it."""
    return judge(document_of(text.encode()))[1]


def expect_counts(rows, counts):
    """Compares how many rows tell of what with the lines of a file of counts."""
    for line in counts.splitlines():
        at, what, _ = line.split(' ', 2)
        told = [row for row in rows if row.what == what and at in ('any', str(row.moment))]
        seen = f'{at} {what} {len(told)} lost {sum(row.lost for row in told)}'
        if seen != line:
            raise Wrong(f'{seen} in the place of {line}')


def worked_file(path, ending):
    """The bytes of a file beside the text of a worked run, None where it has none."""
    beside = path.with_suffix(f'.{ending}')
    return beside.read_bytes() if beside.exists() else None


def expect_left(path, text, left):
    """Compares the trace and the report of a text with what is known of the worked run."""
    trace, report = left
    scenario = scenario_of(text)
    rows = rows_in(scenario, trace.decode())
    known = text_of(path)
    is_second = known.startswith('version = 1\n') and text.startswith('version = 2\n')
    if worked_file(path, 'trace') is not None:
        expect('trace', trace, worked_file(path, 'trace'))
    if worked_file(path, 'counts') is not None:
        expect_counts(rows, worked_file(path, 'counts').decode())
    if worked_file(path, 'report') is not None:
        expect('report', report, worked_file(path, 'report') + (b'sent bye 0 lost 0\n' if is_second else b''))
    expect('report on the trace', report, report_of(scenario, rows).encode())


def check(program, path, text, is_by_all_ways):
    """Runs a text of a worked run, in every way or in two, and compares what it leaves."""
    ways = ways_of([member['name'] for member in scenario_of(text)['members']])
    expect_left(path, text, run_in(program, text, ways if is_by_all_ways else ways[:2]))


def check_until_taken(program, path, text, rule):
    """What can be seen of a worked run of a version that the program doesn't take yet: it is refused by this
    rule, and the model has the run."""
    texts.check(program, text, f'rule {rule}')
    _, scenario = judge(document_of(text.encode()), NEWEST)
    rows = rows_of(scenario)
    expect('the model, trace', trace_of(scenario, rows).encode(), worked_file(path, 'trace'))
    expect('the model, report', report_of(scenario, rows).encode(), worked_file(path, 'report'))


def text_of(path):
    """The text of a scenario, without the comments before it."""
    return re.sub(r'\A(#.*\n)*', '', path.read_text())


def seeds_of(path):
    """The seeds for which a run was worked out, None where there is none but its own."""
    match = re.search(r'^# seeds (\d+)\.\.(\d+)$', path.read_text(), re.M)
    return range(int(match.group(1)), int(match.group(2)) + 1) if match else None


def cases():
    """Each worked run with each of its seeds, and as a text of version 2."""
    for path in [*sorted(FOLDER.glob('*.toml')), *sorted(FOURTH.glob('*.toml'))]:
        name, text = path.stem if path.parent == FOLDER else f'four/{path.stem}', text_of(path)
        rule = texts.rule_until_taken(text)
        if rule:
            yield Case(f'worked run {name}, not taken yet', check_until_taken, (path, text, rule))
            continue
        for place, seed in enumerate(seeds_of(path) or [7]):
            seeded = text.replace('seed = 7\n', f'seed = {seed}\n')
            yield Case(f'worked run {name}, seed {seed}', check, (path, seeded, place < SEEDS_BY_ALL_WAYS))
        if text.startswith('version = 1\n') and seeds_of(path) is None:
            second = text.replace('version = 1\n', 'version = 2\n')
            yield Case(f'worked run {name}, as a text of version 2', check, (path, second, True))
