"""Pages of runs: what `run --page` leaves is the page that the model makes of the trace, by any number of workers."""

from harness import TOP
from model_run_page import page_of
from model_text import rows_in
from program import DATA, Case, expect, expect_ran
from worked import FOLDER as WORKED, scenario_of, text_of

EXAMPLES, PAGES = TOP / 'examples', DATA / 'pages'
# a crash, false claims with Lifeguard and without, a cut, joins, leaves, stops, three sites, and a cluster in which nothing happens
SHOWN = ('crash', 'slow-member', 'slow-member-without-lifeguard', 'cut-between-sites', 'rolling-join', 'rolling-restart', 'pauses',
         'three-sites-wan', 'quiet')
WAYS = ([], ['--workers', '2'], ['--workers', '3', '--parts', '4'])
# words that say how long a tick lasts, and how many microseconds that is
TICKS = (('1ms', 1000), ('1us', 1), ('250us', 250), ('7ms', 7000), ('1s', 10**6))
# how the comment of a text begins that is a sentence of its page
SAYS = '# The page says: '
# of HELD when n-4 and n-5 were suspected and declared dead: by the trace, whose rows of this are 61 to 69, 186 to 194, 222 to 246,
# 320 to 327 and 405
HELD = 'declared-dead-before-and-detected'
HEARD = {'n-4': ('<td>-' * 5, '<td>0' * 5), 'n-5': ('<td>0' * 5, '<td>3,184<td>3,204<td>9,553<td>9,553<td>9,553')}
ROW = '<tr><th scope="row">'
# a name that is no markup in the page, and of which all is seen
NAME = '<script>&"it\'s"\u202e.toml'


def check(program, text):
    """Runs a text with a page, in each way, and compares it with the model's; the trace and the report are those of a run without."""
    program.keep(NAME, text)
    program.call(['run', NAME, '--trace', 'old.csv', '--report', 'old.txt'])
    trace, report = program.held('old.csv'), program.held('old.txt')
    rows = f'rows {trace.count(10) - 1}\n'.encode()
    for way in WAYS:
        told = ' '.join(way)
        ran = program.call(['run', NAME, '--trace', 't.csv', '--report', 'r.txt', '--page', 'p.html', *way])
        expect_ran(ran, 0, rows, b'', f'{told} ')
        expect(f'{told} trace', program.held('t.csv'), trace)
        expect(f'{told} report', program.held('r.txt'), report)
        expect_page(program, f'{told} page', NAME, text, trace)
    for word, tick in TICKS:
        ran = program.call(['run', NAME, '--trace', 't.csv', '--report', 'r.txt', '--page', 'p.html', '--tick', word])
        expect_ran(ran, 0, rows, b'', f'{word} ')
        expect(f'{word} trace', program.held('t.csv'), trace)
        expect(f'{word} report', program.held('r.txt'), report)
        expect_page(program, f'{word} page', NAME, text, trace, tick)
    program.keep('p.html', 'an older page\n' * 100000)
    ran = program.call(['run', NAME, '--trace', '/dev/null', '--page', 'p.html'])
    expect_ran(ran, 0, rows, b'', 'page alone ')
    expect_page(program, 'page alone', NAME, text, trace)


def expect_page(program, told, name, text, trace, tick=None):
    """Compares the page of the file of this name with the model's; its style is taken as it stands."""
    page = program.held('p.html')
    style = page.partition(b'<style>')[2].partition(b'</style>')[0].decode()
    release = program.call(['--version']).out.split()[1].decode()
    scenario = scenario_of(text)
    expect(told, page, page_of(name, release, style, scenario, rows_in(scenario, trace.decode()), tick).encode())


def check_said(program, path):
    """The page has each sentence that a comment of the text has."""
    check(program, text_of(path))
    page = program.held('p.html').decode()
    for line in path.read_text().splitlines():
        if line.startswith(SAYS):
            sentence = line.removeprefix(SAYS)
            expect('a sentence', sentence if sentence in page else page.partition('<p class="lead">')[2].partition('</p>')[0], sentence)


def check_held(program):
    """Members that were suspected or declared dead when they crashed count as such from the crash on."""
    check_said(program, PAGES / f'{HELD}.toml')
    page = program.held('p.html').decode()
    for member, (suspected, dead) in HEARD.items():
        table = page.partition(f'<h3>{member}</h3><div class="chart">')[2].partition('</table>')[0]
        expect(f'table of {member}', table.partition(ROW)[2], f'suspected it after</th>{suspected}{ROW}declared it dead after</th>{dead}')


def cases():
    """Each worked run, examples, and texts of which it is known what their pages say."""
    yield Case('page of members that were declared dead before they crash', check_held, ())
    for path in sorted(PAGES.glob('*.toml')):
        if path.stem != HELD:
            yield Case(f'page of {path.stem}', check_said, (path,))
    for path in [*sorted(WORKED.glob('*.toml')), *(EXAMPLES / f'{name}.toml' for name in SHOWN)]:
        yield Case(f'page of {path.stem}', check, (text_of(path),))
