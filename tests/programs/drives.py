"""Drives of the built program: what is told, what T, R and P hold and how each ends, as tests/data/drive has it; and that the
model's own members, driven over two pipes, write what `run` writes."""

import json
import shutil
import subprocess

from generate import run_case
from harness import TESTS, call
from model_harness import Harness
from model_text import report_of, rows_in, trace_of
from program import Case, DATA, expect, expect_ran
from run_pages import expect_page
from scenarios import NEWEST, document_of, judge
from test_model_drive import rows_but_dials
from worked import scenario_of

HEAD = b'moment,member,from,number,what,about,value,lost\n'
RUNS = 300
SEED = 20261130
SECONDS = 60
ANSWERS = 40
# what a drive leaves, and what a run leaves
PAIRS = (('t.csv', 'run.csv'), ('r.txt', 'run.txt'), ('p.html', 'run.html'))
EXAMPLES = TESTS.parent / 'examples'
# what examples/drive/smallest makes of examples/two.toml: a ping each, and its ack
SMALLEST_ROWS = (b'0,n-0,n-0,0,start,,0,0\n0,n-1,n-1,0,start,,0,0\n1,n-0,n-0,1,ping,n-1,1,0\n'
                 b'2,n-1,n-0,2,ack,n-0,1,0\n2,n-1,n-1,1,ping,n-0,1,0\n3,n-0,n-1,3,ack,n-1,1,0\n')


def drive_words(program, *more):
    return [program.path, 'drive', 's.toml', '--trace', 't.csv', '--report', 'r.txt', '--page', 'p.html', *more]


def check_drive(program, case):
    """Compares a drive whose answers are all there before it begins; its report and page are the model's of its trace."""
    program.keep('s.toml', case['text'])
    program.keep('answers', ''.join(f'{answer}\n' for answer in case['answers']))
    with open(program.folder / 'answers', 'rb') as answers:
        ran = call(drive_words(program), cwd=program.folder, stdin=answers)
    expect('told', ran.out.decode().splitlines(), case['told'])
    expect('trace', program.held('t.csv'), HEAD + ''.join(f'{row}\n' for row in case['rows']).encode())
    if 'cause' in case:
        expect('status', ran.status, 6)
        first, why, event = ran.err.decode().splitlines()
        expect('line', first, f'swimsim: answer {case["place"]} {case["cause"]}')
        expect('a reason', bool(why), True)
        expect('the event was told', event in case['told'], True)
        expect('report and page', (program.held('r.txt'), program.held('p.html')), (b'', b''))
        return
    expect_ran(ran, 0, ran.out, b'')
    trace, scenario = program.held('t.csv'), scenario_of(case['text'])
    expect('report', program.held('r.txt'), report_of(scenario, rows_in(scenario, trace.decode())).encode())
    # the model makes no page of version 4
    if scenario['version'] < 4:
        expect_page(program, 'page', 's.toml', case['text'], trace)


def drive_by(program, harness):
    """Drives a harness of the model over two pipes; gives the status."""
    with subprocess.Popen(drive_words(program), cwd=program.folder, stdin=subprocess.PIPE, stdout=subprocess.PIPE) as world:
        for line in world.stdout:
            harness.tell(line.decode())
            for answer in harness.lines:
                world.stdin.write(answer)
            harness.lines.clear()
            world.stdin.flush()
        return world.wait(SECONDS)


def figures_in(report):
    """The lines of a report but for the numbers of rows and of messages, among which dials count."""
    return [line for line in report.decode().splitlines() if not line.startswith(('rows ', 'sent '))]


def expect_run(program, names):
    """Compares what a drive left with what `run` has left under the second of two names."""
    for seen, wanted in names:
        expect(seen, program.held(seen), program.held(wanted))


def check_own_four(program, scenario):
    """The model's own members of version 4 write the rows of the run but for those of dials, and have the figures of `run`."""
    rows = rows_but_dials(scenario)
    expect('trace', program.held('t.csv'), trace_of(scenario, rows).encode())
    expect('report', program.held('r.txt'), report_of(scenario, rows).encode())
    expect('figures', figures_in(program.held('r.txt')), figures_in(program.held('run.txt')))
    if program.held('t.csv') == program.held('run.csv'):
        expect_run(program, PAIRS)


def check_own(program, text):
    """The model's own members write what `run` writes: trace, report and page."""
    program.keep('s.toml', text)
    scenario = judge(document_of(text), NEWEST)[1]
    expect('status', drive_by(program, Harness(scenario)), 0)
    ran = program.call(['run', 's.toml', '--trace', 'run.csv', '--report', 'run.txt', '--page', 'run.html'])
    expect('status of the run', ran.status, 0)
    if scenario['version'] >= 4:
        check_own_four(program, scenario)
    else:
        expect_run(program, PAIRS)


def answer_on(world):
    """Answers event after event until the world takes no more; each answer makes an event more."""
    try:
        while world.poll() is None:
            world.stdin.write(ANSWERS * b'[{"timer":1,"after":1}]\n')
            world.stdin.flush()
    except BrokenPipeError:
        pass


def check_closed(program, text):
    """A harness that closes standard output after the first event, and goes on to answer, ends the drive with status 1."""
    program.keep('s.toml', text.replace('end = 3', 'end = 1099511627776'))
    with subprocess.Popen(drive_words(program), cwd=program.folder, stdin=subprocess.PIPE, stdout=subprocess.PIPE,
                          stderr=subprocess.PIPE, bufsize=0) as world:
        told = world.stdout.readline()
        world.stdout.close()
        answer_on(world)
        status = world.wait(SECONDS)
        said = world.stderr.read()
    expect('the first event', b'"event":"start"' in told, True)
    expect('status', status, 1)
    expect('standard error', said, b'')
    expect('report and page', (program.held('r.txt'), program.held('p.html')), (b'', b''))


def check_smallest(program):
    """The smallest harness, in C, plays the smallest scenario."""
    built = program.folder / 'smallest'
    ran = call(['cc', '-o', built, EXAMPLES / 'drive' / 'smallest' / 'smallest.c'], cwd=program.folder)
    expect('the compiler', (ran.status, ran.err), (0, b''))
    program.keep('s.toml', (EXAMPLES / 'two.toml').read_text())
    expect_ran(call([built, *drive_words(program)], cwd=program.folder), 0, b'', b'')
    expect('trace', program.held('t.csv'), HEAD + SMALLEST_ROWS)


def check_python(program):
    """The harness in Python writes what `run` writes."""
    program.keep('s.toml', (EXAMPLES / 'two.toml').read_text())
    harness = EXAMPLES / 'drive' / 'python' / 'harness.py'
    expect_ran(call(['python3', harness, 's.toml', *drive_words(program)], cwd=program.folder), 0, b'', b'')
    expect('status of the run', program.call(['run', 's.toml', '--trace', 'run.csv']).status, 0)
    expect('trace', program.held('t.csv'), program.held('run.csv'))


def cases():
    """Each drive of the data, some worked runs, random runs, and a harness that closes its end."""
    drives = json.loads((DATA / 'drive' / 'drives.json').read_text())
    for case in drives:
        yield Case(f'drive of the program: {case["name"]}', check_drive, (case,))
    for path in sorted([*(DATA / 'worked').glob('*.toml'), *(DATA / 'four').glob('*.toml')]):
        yield Case(f'drive of the program, own members: {path.stem}', check_own, (path.read_bytes(),))
    for number in range(RUNS):
        yield Case(f'drive of the program, own members: random run {number}', check_own,
                   (run_case(SEED, number, NEWEST)[0],))
    yield Case('drive of the program: standard output is closed', check_closed, (drives[0]['text'],))
    yield Case('drive of the program: the harness in Python', check_python, ())
    if shutil.which('cc'):
        yield Case('drive of the program: the smallest harness', check_smallest, ())
