"""Files and outputs that take less than they are given: what the program answers, and what is left."""

import os
import threading
from contextlib import contextmanager

from harness import NOT_WRITTEN, call, first_line
from hasty import far, hasty
from program import Case, DATA, expect, expect_ran
from worked import text_of

WORKED = DATA / 'worked'
SWEEP = ['sweep', 's.toml', '--table', 't.csv', '--seeds', '1..2', '--set', 'swim.period=1000,1200']
UNTIL = ['sweep', 's.toml', '--until', '50', '--seeds', '1..9', '--set', 'swim.period=1000,1200']
JOIN = ['join', 'p1', 'p2', '--table', 't.csv']
PAGE = ['page', 'p1', 'p2', '--out', 'p.html']
WAYS = ([], ['--workers', '1', '--parts', '2'], ['--workers', '2', '--parts', '3'],
        ['--workers', '3', '--parts', '64'])

# by several parts, where there are several sites
WAYS_OF_SITES = (['--workers', '2'], ['--workers', '3'], ['--workers', '5'])
# four sites of three members: one worker makes so small a run, unless another division is asked for
FOUR_SITES = ['--division', '0,0,0,1,1,1,2,2,2,3,3,3']

# so many sizes of a file are one case
STEP = 32

# a trace that is longer than what a pipe holds
LONG = hasty(12000, ('n', 64))


def of(name, ending):
    """The bytes of a file of a worked run."""
    path = WORKED / f'{name}.{ending}'
    return text_of(path).encode() if ending == 'toml' else path.read_bytes()


def begin(program, name):
    """Puts the scenario of a worked run into the folder, and older files."""
    program.keep('s.toml', of(name, 'toml'))
    program.keep('t.csv', 'an older trace, which is replaced\n')
    program.keep('r.txt', 'an older report\n')


def check_room(program, name, way, sizes):
    """Runs with room for so many bytes in each file: where the trace has too little, it is a beginning and
    the report is empty; where the report has, the trace is whole and the report is empty. Nothing else is left."""
    trace, report = of(name, 'trace'), of(name, 'report')
    for room in sizes:
        begin(program, name)
        ran = program.call(['run', 's.toml', '--trace', 't.csv', '--report', 'r.txt', *way], room=room)
        is_done = room >= max(len(trace), len(report))
        rows = f'rows {trace.count(10) - 1}\n'.encode()
        expect_ran(ran, *((0, rows, b'') if is_done else NOT_WRITTEN), what=f'{room} bytes, ')
        expect(f'{room} bytes, trace', program.held('t.csv'), trace[:room])
        expect(f'{room} bytes, report', program.held('r.txt'), report if room >= max(len(trace), len(report)) else b'')
        expect(f'{room} bytes, names', sorted(os.listdir(program.folder)), ['r.txt', 's.toml', 't.csv'])


def check_page_room(program, way, sizes):
    """Runs with room for so many bytes in each file and a page longer than the trace and the report: these are whole once they
    have room, and there is nothing of the page. Nothing else is left."""
    words = ['run', 's.toml', '--trace', 't.csv', '--report', 'r.txt', '--page', 'p.html', *way]
    begin(program, 'two-members')
    program.call(words)
    page, trace, report = (program.held(name) for name in ('p.html', 't.csv', 'r.txt'))
    for room in filter(lambda size: size < len(page), sizes):
        program.keep('p.html', 'an older page\n')
        expect_ran(program.call(words, room=room), *NOT_WRITTEN, what=f'{room} bytes, ')
        expect(f'{room} bytes, trace', program.held('t.csv'), trace[:room])
        expect(f'{room} bytes, report', program.held('r.txt'), report if room >= max(len(trace), len(report)) else b'')
        expect(f'{room} bytes, page', program.held('p.html'), b'')
        expect(f'{room} bytes, names', sorted(os.listdir(program.folder)), ['p.html', 'r.txt', 's.toml', 't.csv'])


def check_table_room(program, workers, sizes):
    """Sweeps with room for so many bytes in the table, which is then a beginning."""
    table = (DATA / 'sweeps' / 'two-members.table').read_bytes()
    for room in sizes:
        begin(program, 'two-members')
        ran = program.call([*SWEEP, '--workers', workers], room=room)
        if room < len(table):
            expect_ran(ran._replace(err=first_line(ran.err)), *NOT_WRITTEN, what=f'{room} bytes, ')
        expect(f'{room} bytes, table', program.held('t.csv'), table[:room])


def check_until_room(program, sizes):
    """Sweeps until intervals are narrow, with room for so many bytes in the table, which is then a beginning."""
    words = [*UNTIL, '--table', 't.csv']
    begin(program, 'two-members')
    expect('status', program.call(words).status, 0)
    table = program.held('t.csv')
    for room in filter(lambda size: size < len(table), sizes):
        begin(program, 'two-members')
        ran = program.call(words, room=room)
        expect_ran(ran._replace(err=first_line(ran.err)), *NOT_WRITTEN, what=f'{room} bytes, ')
        expect(f'{room} bytes, table', program.held('t.csv'), table[:room])


def check_whole_room(program, words, name, sizes):
    """Joins two shards, or makes their page, with room for so many bytes in the file, which is as it was before then. Nothing
    else is left."""
    begin(program, 'two-members')
    for shard in '12':
        expect('status', program.call([*UNTIL, '--shard', f'{shard}/2', '--table', f'p{shard}']).status, 0)
    expect('status', program.call(words).status, 0)
    whole = program.held(name)
    kept = sorted(os.listdir(program.folder))
    for room in filter(lambda size: size < len(whole), sizes):
        program.keep(name, 'an older one')
        ran = program.call(words, room=room)
        expect_ran(ran._replace(err=first_line(ran.err)), *NOT_WRITTEN, what=f'{room} bytes, ')
        expect(f'{room} bytes, {name}', program.held(name), b'an older one')
        expect(f'{room} bytes, names', sorted(os.listdir(program.folder)), kept)


def check_full(program, words, left):
    """Calls with a device that takes nothing for a file: fault 3, and these files are left."""
    begin(program, 'two-members')
    ran = program.call(words)
    expect_ran(ran._replace(err=first_line(ran.err)), *NOT_WRITTEN)
    for name, held in left.items():
        expect(f'what {name} holds', program.held(name), held)


def check_pipe(program, text, way):
    """Runs into a pipe that is closed after its first bytes: fault 3, and nothing of a report."""
    program.keep('s.toml', text)
    program.keep('r.txt', 'an older report\n')
    os.mkfifo(program.folder / 't.csv')
    taken = []

    def read_and_close():
        with open(program.folder / 't.csv', 'rb', buffering=0) as pipe:
            taken.append(pipe.read(16))

    reader = threading.Thread(target=read_and_close, daemon=True)
    reader.start()
    ran = program.call(['run', 's.toml', '--trace', 't.csv', '--report', 'r.txt', *way])
    reader.join(10)
    expect_ran(ran, *NOT_WRITTEN)
    expect('what was read', taken, [b'moment,member,fr'])
    expect('what r.txt holds', program.held('r.txt'), b'')


@contextmanager
def full():
    """A file that takes nothing."""
    with open('/dev/full', 'wb') as out:
        yield out


@contextmanager
def closed_pipe():
    """A pipe that nobody reads."""
    reading, writing = os.pipe()
    os.close(reading)
    try:
        yield writing
    finally:
        os.close(writing)


def without(program, words, closed):
    """Calls the program by a shell with a stream closed, as by `>&-`."""
    return call(['sh', '-c', f'exec "$0" "$@" {closed}', program.path, *words], cwd=program.folder)


def check_output(program, words, how, left):
    """Calls with a standard output that takes nothing: status 1, no line, and the files are whole."""
    begin(program, 'two-members')
    if how is None:
        ran = without(program, words, '>&-')
    else:
        with how() as out:
            ran = program.call(words, out=out)
    expect_ran(ran, 1, b'', b'')
    for name, held in left.items():
        expect(f'what {name} holds', program.held(name), held)


def check_error(program, words, status):
    """Calls with a standard error that takes nothing: the status is that of the failure."""
    begin(program, 'two-members')
    expect('status', without(program, words, '2>/dev/full').status, status)
    expect('status without standard error', without(program, words, '2>&-').status, status)


def check_untold(program, words):
    """Runs long with a standard error that takes no line of how far the run has come: all is done as without."""
    program.keep('s.toml', of('two-members', 'toml').replace(b'end = 3', b'end = 2100000000'))
    run = ['run', 's.toml', '--trace', '/dev/null', *words]
    expect_ran(program.call(run), 0, b'rows 8400002\n', b'')
    held = [program.held(name) for name in ('r.txt', 'p.html')]
    program.keep('r.txt', 'an older report\n')
    expect_ran(without(program, [*run, '--progress'], '2>/dev/full'), 0, b'rows 8400002\n', b'')
    expect('the files', [program.held(name) for name in ('r.txt', 'p.html')], held)


def check_shut(program, shut):
    """Sweeps with streams that are shut, whose numbers the next files would get: the table is that of open ones."""
    program.keep('s.toml', of('two-members', 'toml'))
    sweep = ['sweep', 's.toml', '--table', 't.csv', '--seeds', '1..40']
    expect('status', program.call(sweep).status, 0)
    table = program.held('t.csv')
    without(program, [*sweep, '--progress'], shut)
    expect(f'the table with {shut}', program.held('t.csv'), table)


def rooms(length):
    """The sizes from 0 to past the length, some at a time."""
    for start in range(0, length + 2, STEP):
        yield range(start, min(start + STEP, length + 2))


def room_cases():
    """Each size of a file that is too short for its text."""
    for name in ('two-members', 'crash-detected'):
        longest = max(len(of(name, 'trace')), len(of(name, 'report')))
        for way in WAYS:
            for sizes in rooms(longest):
                yield Case(f'writes: {name} {way}, {sizes} bytes', check_room, (name, way, sizes))
    for way in WAYS_OF_SITES:
        yield Case(f'writes: four sites {way}', check_room, ('four-sites', [*way, *FOUR_SITES], range(0, 60_000, 1511)))
    for way in WAYS:
        for sizes in (range(0, 1200, 97), range(1200, 9000, 611)):
            yield Case(f'writes: page {way}, {sizes} bytes', check_page_room, (way, sizes))
    for workers in ('1', '3'):
        for sizes in rooms(len((DATA / 'sweeps' / 'two-members.table').read_bytes())):
            yield Case(f'writes: table by {workers}, {sizes} bytes', check_table_room, (workers, sizes))
    yield Case('writes: table of a sweep until intervals are narrow', check_until_room, (range(0, 20_000, 61),))
    for words, name, step in ((JOIN, 't.csv', 61), (PAGE, 'p.html', 613)):
        yield Case(f'writes: {words[0]}', check_whole_room, (words, name, range(0, 60_000, step)))


def full_cases():
    """Devices and pipes that take nothing for the files of runs and sweeps."""
    trace, run = of('two-members', 'trace'), ['run', 's.toml', '--trace']
    for way in WAYS:
        full_trace, full_report = ['/dev/full', '--report', 'r.txt'], ['t.csv', '--report', '/dev/full']
        yield Case(f'writes: full trace {way}', check_full, ([*run, *full_trace, *way], {'r.txt': b''}))
        yield Case(f'writes: full report {way}', check_full, ([*run, *full_report, *way], {'t.csv': trace}))
        full_page = ['t.csv', '--report', 'r.txt', '--page', '/dev/full']
        whole = {'t.csv': trace, 'r.txt': of('two-members', 'report')}
        yield Case(f'writes: full page {way}', check_full, ([*run, *full_page, *way], whole))
        yield Case(f'writes: no page after a full trace {way}', check_full,
                   ([*run, *full_trace, '--page', 'p.html', *way], {'r.txt': b'', 'p.html': b''}))
        yield Case(f'writes: closed pipe {way}', check_pipe, (LONG, way))
    for way in WAYS_OF_SITES:
        yield Case(f'writes: closed pipe, four sites {way}', check_pipe, (far(4, 64, 6000), way))
    yield Case('writes: full table', check_full, (['sweep', 's.toml', '--table', '/dev/full'], {}))
    yield Case('writes: full table until intervals are narrow', check_full, ([*UNTIL, '--table', '/dev/full'], {}))


def output_cases():
    """Standard output and standard error that take nothing."""
    trace, report = of('two-members', 'trace'), of('two-members', 'report')
    table = (DATA / 'sweeps' / 'two-members.table').read_bytes()
    run = ['run', 's.toml', '--trace', 't.csv', '--report', 'r.txt']
    printing = [(run, {'t.csv': trace, 'r.txt': report}),
                (['check', 's.toml'], {}), (['--help'], {}), (SWEEP, {'t.csv': table})]
    for words, left in printing:
        for how in (full, closed_pipe, None):
            told = how.__name__ if how else 'closed'
            yield Case(f'writes: output {told} of {words[0]}', check_output, (words, how, left))
    for words, status in ((['check', 'absent'], 1), (['check'], 2), ([*run, '--workers', '0'], 4),
                          (['run', 's.toml', '--trace', '/dev/full'], 5), (['check', 's.toml'], 0)):
        yield Case(f'writes: error output of {words}', check_error, (words, status))
    for words in (['--report', 'r.txt'], ['--report', 'r.txt', '--page', 'p.html', '--workers', '2']):
        yield Case(f'writes: untold, {words}', check_untold, (words,))
    for shut in ('2>&-', '>&- 2>&-', '<&- >&- 2>&-'):
        yield Case(f'writes: shut {shut}', check_shut, (shut,))


def cases():
    """All of them."""
    yield from room_cases()
    yield from full_cases()
    yield from output_cases()
