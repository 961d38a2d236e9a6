"""Sweeps of tests/data/sweeps: their tables and lines, as they were worked out by hand and as the model gives them."""

import itertools
import json
import re
import resource
import subprocess

import texts
from model_drawing import escaped
from model_sweep_page import page_of
from model_sweep_times import spread_of
from model_sweeps import Together, answer_text, cases_of, cases_text, swept, table_of
from program import Case, DATA, Wrong, expect, expect_ran
from scenarios import document_of
from tables import head, item, table
from worked import text_of

FOLDER = DATA / 'sweeps'
# a name that is no markup in the page, and of which all is seen
NAME = '<b>\u202elmot.\u200b\x7f'
# runs of 60 periods: with 2 members each is short, with LONG members each is more than a second of work as a sweep counts it
LONG = 1024
UNEVEN = head(60000, version=2, timeout=500) + table('link', delay=10) + item('group', name='n', count=2)
# a run of ten million periods
QUIET = head(10 ** 10, version=2, timeout=500) + table('link', delay=10) + item('group', name='n', count=2)
# what is printed on the way
LINE = re.compile(rb'(\d+)/(\d+) runs, (\d+) %')
# words that say how long a tick lasts, and how many microseconds that is
TICKS = ((None, None), ('1ms', 1000), ('700us', 700))
WORKERS = ([], ['--workers', '1'], ['--workers', '2'], ['--workers', '3'], ['--workers', '64'])


def value_of(word):
    """The value that a word of `--set` says."""
    return {'true': True, 'false': False}[word] if word in ('true', 'false') else int(word)


def settings_of(words):
    """The keys that are set, each with its values; keys that go together have plus signs between them, and so have their values."""
    settings = []
    for names, _, turns in (setting.partition('=') for setting in words):
        columns = zip(*(map(value_of, turn.split('+')) for turn in turns.split(',')))
        kinds = itertools.chain([list], itertools.repeat(Together))
        settings += [(key, kind(values)) for key, kind, values in zip(names.split('+'), kinds, columns)]
    return settings


def seeds_of(words):
    """The seeds of a range's words; None, for that of the text, where there is no range."""
    if words is None:
        return None
    first, last = map(int, words.split('..'))
    return range(first, last + 1)


def words_of(sweep):
    """The options of a sweep, and the words by which its table names it."""
    seeds = ['--seeds', sweep['seeds']] if 'seeds' in sweep else []
    until = ['--until', str(sweep['until'])] if 'until' in sweep else []
    settings = [word for setting in sweep['set'] for word in ('--set', setting)]
    width = [f'until={sweep["until"]}'] if 'until' in sweep else []
    return [*seeds, *until, *settings], [sweep.get('seeds', '-'), *width, *sweep['set']]


def expected_of(text, sweep):
    """The table and the lines of a sweep, as the model gives them, and how the times of each case spread."""
    settings, until = settings_of(sweep['set']), sweep.get('until')
    _, cases = swept(document_of(text.encode()), settings, seeds_of(sweep.get('seeds')), until=until)
    lines = cases_text(settings, cases) + answer_text(sweep.get('want', []), settings, cases)
    spreads = [spread_of([figures for _, figures in runs]) for _, runs in cases]
    return table_of(text.encode(), settings, words_of(sweep)[1], cases, until).encode(), lines.encode(), spreads


def runs_of(sweep, table):
    """How many runs are asked for, and how many there may be where cases have no more seeds than they need."""
    if 'until' not in sweep:
        return table.count(b'\n') - 1
    return len(seeds_of(sweep.get('seeds')) or [0]) * len(cases_of(settings_of(sweep['set'])))


def expect_progress(text, runs, stood=0):
    """Compares what is printed on the way where so many runs stood: each line says more than the one before it, and of no fewer
    percent than of runs; each fiftieth of the whole has one, and the last one is of all runs."""
    lines = [LINE.fullmatch(line) for line in text.splitlines()]
    if None in lines:
        raise Wrong(f'progress: {text}')
    lines = [tuple(map(int, line.groups())) for line in lines]
    made, percents = [line[0] for line in lines], [line[2] for line in lines]
    rises = made == sorted(made) and percents == sorted(percents) and len(lines) == len(set(lines))
    agree = all(percent >= made * 100 // whole for made, whole, percent in lines)
    begun = stood * 100 // runs
    each = set(range(begun + 2 - begun % 2, 101, 2)) <= set(percents) and percents[0] > begun
    if not (rises and agree and each and made[0] >= stood and lines[-1] == (runs, runs, 100)):
        raise Wrong(f'progress: {text}')


def objects_of(text, keys):
    """What `--jsonl` prints, by the columns and the answers that are printed without it."""
    told = [line.partition(': ') for line in text.decode().splitlines()]
    (names, *rows), answers = [line.split() for line, mark, _ in told if not mark], [it for it in told if it[1]]
    meets, best = {rest for word, _, rest in answers if word == 'meets'}, [rest for word, _, rest in answers if word == 'best']
    may = {rest.rpartition(' more_runs=')[0] for word, _, rest in answers if word == 'may'}
    objects = []
    for row in rows:
        settings = ' '.join(f'{key}={value}' for key, value in zip(keys, row)) or 'the scenario as it is'
        members = dict(zip(names, ['null' if it == '-' else it for it in row]), front='true' if row[-1] == '*' else 'false')
        if answers:
            members['meets'] = '"yes"' if settings in meets else '"may"' if settings in may else '"no"'
            members['best'] = 'true' if best == [settings] else 'false'
            best = [] if best == [settings] else best
        objects.append('{' + ','.join(f'"{name}":{value}' for name, value in members.items()) + '}\n')
    return ''.join(objects).encode()


def check(program, sweep):
    """Makes a sweep by each number of workers, and compares its table and its lines."""
    text = text_of(DATA / sweep['base'])
    wants = [word for want in sweep.get('want', []) for word in ('--want', want)]
    words = ['sweep', 's.toml', '--table', 't.csv', *words_of(sweep)[0], *wants]
    *by_model, spreads = expected_of(text, sweep)
    table, lines = ((FOLDER / sweep[key]).read_bytes() if key in sweep else modelled
                    for key, modelled in zip(('table', 'lines'), by_model))
    expect('table by the model', by_model[0], table)
    expect('lines by the model', by_model[1], lines)
    program.keep('s.toml', text)
    for workers, progress in itertools.product(WORKERS, ([], ['--progress'])):
        program.keep('t.csv', 'an older table\n' * 1000)
        ran = program.call([*words, *workers, *progress])
        if progress:
            expect_progress(ran.err, runs_of(sweep, table))
            ran = ran._replace(err=b'')
        expect_ran(ran, 0, lines, b'', ' '.join([*workers, *progress, '']))
        expect(f'{workers} table', program.held('t.csv'), table)
    keys = [key for key, _ in settings_of(sweep['set'])]
    objects = objects_of(lines, keys)
    expect_ran(program.call([*words, '--jsonl']), 0, objects, b'', 'objects ')
    expect('table beside objects', program.held('t.csv'), table)
    for word, tick in TICKS:
        told = ['--tick', word] if word else []
        plain = check_page(program, [*words, '--page', 'p.html', *told], sweep, lines, objects, spreads, tick)
        expect('table beside the page', program.held('t.csv'), table)
        check_read(program, wants, lines, plain, told)


def check_read(program, wants, lines, plain, told):
    """Reads the table of the sweep, beside its page, with this told of a tick: `page` makes that page without what is wanted, and
    `join` gives its lines, its page and itself."""
    expect_ran(program.call(['page', 't.csv', '--out', 'q.html', '--name', 's.toml', *told]), 0, b'', b'', 'page of the table ')
    expect('page of the table', program.held('q.html'), plain)
    program.call(['page', 't.csv', '--out', 'q.html', '--name', NAME, *told])
    expect('page by a name', program.held('q.html'), plain.replace(b's.toml', escaped(NAME).encode()))
    words = ['join', 't.csv', '--table', 'u.csv', '--page', 'r.html', '--name', 's.toml', *told, *wants]
    expect_ran(program.call(words), 0, lines, b'', 'join of the table ')
    expect('join of the table', program.held('u.csv'), program.held('t.csv'))
    expect('page of the join', program.held('r.html'), program.held('p.html'))


def check_page(program, words, sweep, lines, objects, spreads, tick):
    """Compares the page of a sweep with the model's, over these objects of its cases, and how their times spread, where a tick lasts so
    many microseconds, or it isn't known how long; its style is taken as it stands. Answers the page without what is wanted."""
    expect_ran(program.call(words), 0, lines, b'', 'page ')
    page = program.held('p.html')
    style = page.partition(b'<style>')[2].partition(b'</style>')[0].decode()
    release = program.call(['--version']).out.split()[1].decode()
    told = [{**json.loads(line), **spread} for line, spread in zip(objects.splitlines(), spreads, strict=True)]
    seeds = len(seeds_of(sweep.get('seeds')) or [0])
    shown = ('s.toml', release, style, settings_of(sweep['set']), seeds, 'until' in sweep, told)
    expect('page', page, page_of(*shown, sweep.get('want', []), tick).encode())
    return page_of(*shown, tick=tick).encode()


def check_pace(program, counts):
    """A sweep of short and long runs by one worker: lines are written before the first long run of a case and after each."""
    program.keep('s.toml', UNEVEN)
    words = ['sweep', 's.toml', '--table', 't.csv', '--workers', '1', '--progress', '--seeds', '1..3']
    ran = program.call([*words, '--set', f'group.n.count={",".join(map(str, counts))}'])
    made = {int(line.split(b'/')[0]) for line in ran.err.splitlines()}
    ends = {3 * place + run for place, count in enumerate(counts) if count == LONG for run in (0, 1, 2, 3)} - {0}
    if not ends <= made:
        raise Wrong(f'written after {sorted(made)}, and not after {sorted(ends - made)}')


def check_going(program, words):
    """A sweep of long runs in which nobody fails prints how far it has come long before one of them ends."""
    program.keep('s.toml', QUIET)
    words = [program.path, 'sweep', 's.toml', '--table', 't.csv', '--progress', *words]
    with subprocess.Popen(words, cwd=program.folder, stderr=subprocess.PIPE) as sweep:
        first = sweep.stderr.readline()
        sweep.kill()
        more = sweep.stderr.read()
    if not first.startswith(b'0/') or not first.endswith(b' runs, 2 %\n') or more.count(b'\n') > 20:
        raise Wrong(f'progress: {first}, and then {more}')


def check_shard_begins(program):
    """A shard of 100 runs of a million takes the time of its own runs."""
    program.keep('s.toml', UNEVEN)
    before = resource.getrusage(resource.RUSAGE_CHILDREN)
    ran = program.call(['sweep', 's.toml', '--table', 't.csv', '--shard', '5000/10000', '--seeds', '1..1000000'])
    after = resource.getrusage(resource.RUSAGE_CHILDREN)
    expect_ran(ran, 0, b'', b'')
    expect('lines', program.held('t.csv').count(b'\n'), 101)
    took = after.ru_utime - before.ru_utime + after.ru_stime - before.ru_stime
    if took > 1:
        raise Wrong(f'took {took} seconds of a processor')


def cases():
    """Each sweep of the list, and how soon lines are written."""
    for counts in ((2, LONG), (LONG, 2), (2, LONG, 4, LONG)):
        yield Case(f'sweep: the pace of {counts}', check_pace, (counts,))
    for words in ([], ['--seeds', '1..3'], ['--workers', '1', '--seeds', '1..2'], ['--until', '5', '--seeds', '1..2']):
        yield Case(f'sweep: long runs that go on, {words}', check_going, (words,))
    yield Case('sweep: a shard of a million runs', check_shard_begins, ())
    for sweep in json.loads((FOLDER / 'sweeps.json').read_text()):
        text = text_of(DATA / sweep['base'])
        rule = texts.rule_until_taken(text)
        if rule:
            yield Case(f'sweep: {sweep["about"]}, not taken yet', texts.check, (text, f'rule {rule}'))
        else:
            yield Case(f'sweep: {sweep["about"]}', check, (sweep,))
