#!/usr/bin/env python3
"""Shows pages of runs and sweeps in a browser, and looks at them as who reads them does.

    tests/programs/browser.py [--program FILE] [--keep FOLDER]

Each page is loaded by headless Chromium (Debian's package `chromium`), 1,280 and 400 pixels wide, in light and in dark, with its
tables folded and unfolded: no text may stand outside the page, or over another, or be of its ground's colour; at 1,280 pixels no table may
be cut off; in a table with a caption each head says of what it is; a page may ask for nothing from elsewhere. With --keep a picture of each is left in FOLDER. The last line is `N passed, M failed, K skipped`; where
there is no Chromium all are skipped.
"""

import json
import re
import shutil
import subprocess
import tempfile
from pathlib import Path

import paths  # noqa: F401 (puts the folders of what follows on the path)
from harness import TOP, end, parser_of, program_at
from program import Program

UNITS = ['--tick', '1ms']
RUNS = (('crash', []), ('slow-member-without-lifeguard', []), ('cut-between-sites', []), ('rolling-join', []), ('pauses', []),
        ('three-sites-wan', []), ('quiet', []), ('three-sites', UNITS), ('three-sites-lan', UNITS))
SWEEPS = (('slow-member', ['--seeds', '1..5', '--set', 'suspicion.alpha=2,4,6', '--set', 'swim.helpers=0,3']),
          ('crash', ['--seeds', '1..3', '--want', 'out<=0.1', '--want', 'messages<=5']),
          ('quiet', ['--seeds', '1..3', '--set', 'swim.period=1000,2000', '--set', 'swim.helpers=0,3', '--want', 'out<=1', '--want', 'messages<=2.5']),
          ('three-sites-stops', ['--seeds', '1..3', '--set', 'swim.period=1000,2000', '--set', 'pause.eu-3.until=16000,19000',
                                 '--set', 'suspicion.alpha+lifeguard.confirmations=3+1,4+2', *UNITS]))
WIDTHS, SCHEMES = (1280, 400), ('light', 'dark')
SECONDS = 120

# what stands in a page that is wrong, how that is told, and how wide the page is; so the looking itself is tried
BROKEN = (
    ('<p style="position: absolute; top: 9px">one</p><p style="position: absolute; top: 9px">other</p>', 'over another', 400),
    ('<p style="position: absolute; left: 390px; white-space: nowrap">' + 'wide ' * 400 + '</p>', 'outside', 400),
    ('<p style="background: #777; color: #888">grey</p>', 'unreadable', 400),
    ('<p style="background: url(a.png)">fetched</p>', 'asks for something', 400),
    ('<div class="wide"><table><tr><td style="white-space: nowrap">' + 'wide ' * 400 + '</table></div>', 'cut off', 1280),
    ('<table><caption>numbers</caption><tr><th>head<tr><td>1</table>', 'of nothing: head', 400),
)

# what would fetch something, or run
FORBIDDEN = re.compile(r'<script|<link|<iframe|<img|\bsrc=|\bhref=|url\(|@import|\bon[a-z]+=', re.IGNORECASE)

LOOK = """
const lighter = color => { const [r, g, b] = color.match(/[0-9.]+/g).map(Number); return 0.3 * r + 0.6 * g + 0.1 * b; };

function ground(element) {
    for (let it = element; it; it = it.parentElement) {
        const color = it.ownerDocument.defaultView.getComputedStyle(it).backgroundColor;
        if (!/, 0\\)$|transparent/.test(color)) return color;
    }
    return 'rgb(255, 255, 255)';
}

// the part of a place that a table which scrolls shows; a table shows all that it has room for
function shown(place, table) {
    if (!table) return place;
    const room = table.getBoundingClientRect();
    const [left, right] = [Math.max(place.left, room.left), Math.min(place.right, room.right)];
    const [top, bottom] = [Math.max(place.top, room.top), Math.min(place.bottom, room.bottom)];
    return { left, right, top, bottom, width: right - left, height: bottom - top };
}

// the pieces of text that are shown, each with its place
function texts(page) {
    const found = [], walker = page.createTreeWalker(page.body, NodeFilter.SHOW_TEXT);
    while (walker.nextNode()) {
        const node = walker.currentNode, range = page.createRange();
        range.selectNodeContents(node);
        const element = node.parentElement, words = node.data.trim().slice(0, 60);
        // what is folded away has a place all the same
        if (element.closest('details:not([open]) > :not(summary)')) continue;
        for (const rectangle of range.getClientRects()) {
            const place = shown(rectangle, element.closest('.wide'));
            if (words && place.width > 1 && place.height > 1) found.push({ words, place, element });
        }
    }
    return found;
}

function wrong(page, width) {
    const found = texts(page), told = [];
    for (const { words, place, element } of found) {
        if (place.left < -1 || place.right > width + 1) told.push(`outside: ${words}`);
        const ink = page.defaultView.getComputedStyle(element).color;
        if (Math.abs(lighter(ink) - lighter(ground(element))) < 40) told.push(`unreadable: ${words}`);
    }
    for (let i = 0; i < found.length; i++)
        for (let j = i + 1; j < found.length; j++) {
            const [one, other] = [found[i].place, found[j].place];
            const across = Math.min(one.right, other.right) - Math.max(one.left, other.left);
            const up = Math.min(one.bottom, other.bottom) - Math.max(one.top, other.top);
            if (across > 2 && up > 4) told.push(`over another: ${found[i].words} | ${found[j].words}`);
        }
    if (width >= 1280)
        for (const box of page.querySelectorAll('.wide:not(details:not([open]) *)'))
            if (box.scrollWidth > box.clientWidth) told.push(`cut off: ${box.textContent.trim().slice(0, 60)}`);
    for (const head of page.querySelectorAll('table:has(caption) th:not([scope])')) told.push(`of nothing: ${head.textContent}`);
    return found.length ? told : ['no text is shown'];
}

addEventListener('load', () => {
    const frame = document.querySelector('iframe');
    frame.onload = () => {
        const page = frame.contentDocument, told = wrong(page, WIDTH);
        page.querySelectorAll('details').forEach(it => { it.open = true; });
        told.push(...wrong(page, WIDTH));
        const dark = lighter(page.defaultView.getComputedStyle(page.body).color) > 128;
        if (dark !== (SCHEME === 'dark')) told.push(`shown in ${dark ? 'dark' : 'light'}`);
        const answer = document.createElement('pre');
        answer.id = 'told';
        answer.textContent = JSON.stringify(told);
        document.body.append(answer);
    };
    frame.srcdoc = PAGE;
});
"""


def wrapper(page, width, scheme):
    """A page that holds the page in a frame of this width, looks at it, and tells what is wrong."""
    constants = f'const WIDTH = {width}, SCHEME = {json.dumps(scheme)}, PAGE = {json.dumps(page).replace("</", "<" + chr(92) + "/")};'
    return (f'<!DOCTYPE html><html style="color-scheme: {scheme}"><body style="margin: 0">'
            f'<iframe style="border: 0; width: {width}px; height: 4000px; color-scheme: {scheme}"></iframe>'
            f'<script>{constants}{LOOK}</script></body></html>')


def browse(chromium, words, path):
    """What Chromium prints of a page."""
    with tempfile.TemporaryDirectory() as home:
        command = [chromium, '--headless', '--no-sandbox', '--disable-gpu', '--hide-scrollbars', f'--user-data-dir={home}', *words,
                   f'file://{path}']
        return subprocess.run(command, stdout=subprocess.PIPE, stderr=subprocess.DEVNULL, timeout=SECONDS, check=True).stdout.decode()


def wrong_with(chromium, page, width, scheme, picture):
    """What is wrong with a page as it is shown so."""
    found = FORBIDDEN.search(page)
    if found:
        return [f'asks for something: {found[0]}']
    with tempfile.TemporaryDirectory() as folder:
        path = Path(folder) / 'shown.html'
        path.write_text(wrapper(page, width, scheme))
        if picture:
            browse(chromium, [f'--window-size={max(width, 500)},4000', f'--screenshot={picture}'], path)
        told = re.search(r'<pre id="told">(.*?)</pre>', browse(chromium, ['--window-size=1300,4000', '--virtual-time-budget=20000',
                                                                         '--dump-dom'], path), re.DOTALL)
    return json.loads(told[1]) if told else ['nothing was told of it']


def unseen(chromium, page):
    """What is wrong with a page, and isn't seen."""
    seen = [(wanted, wrong_with(chromium, page.replace('<main>', f'<main>{broken}', 1), width, 'light', None))
            for broken, wanted, width in BROKEN]
    return [wanted for wanted, told in seen if not any(line.startswith(wanted) for line in told)]


def pages(path, room):
    """The name and the text of each page."""
    program = Program(path, room)
    for name, words in RUNS:
        program.call(['run', str(TOP / 'examples' / f'{name}.toml'), '--trace', '/dev/null', '--page', 'p.html', *words])
        yield f'run {name}', program.held('p.html').decode()
    for name, words in SWEEPS:
        program.call(['sweep', str(TOP / 'examples' / f'{name}.toml'), '--table', 't.csv', '--page', 'p.html', *words])
        yield f'sweep {name}', program.held('p.html').decode()


def main():
    parser = parser_of(__doc__)
    parser.add_argument('--keep', type=Path, help='a folder that takes pictures')
    options = parser.parse_args()
    chromium = shutil.which('chromium')
    ways = [(width, scheme) for width in WIDTHS for scheme in SCHEMES]
    if chromium is None:
        print('skipped: Chromium is not installed (chromium)')
        end(0, 0, len(ways) * (len(RUNS) + len(SWEEPS)) + len(BROKEN))
    passed = failed = 0
    with tempfile.TemporaryDirectory() as room:
        for name, page in pages(program_at(options.program), room):
            for width, scheme in ways:
                picture = options.keep and options.keep / f'{name.replace(" ", "-")}-{width}-{scheme}.png'
                told = wrong_with(chromium, page, width, scheme, picture)
                passed, failed = passed + (not told), failed + bool(told)
                for line in told[:5]:
                    print(f'{name}, {width} pixels, {scheme}: {line}')
        missed = unseen(chromium, page)
        passed, failed = passed + len(BROKEN) - len(missed), failed + len(missed)
        for wanted in missed:
            print(f'a page that is wrong: {wanted} was not seen')
    end(passed, failed, 0)


if __name__ == '__main__':
    main()
