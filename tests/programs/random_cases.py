#!/usr/bin/env python3
"""Compares the program with tests/model/model.py on random cases.

    tests/programs/random_cases.py [--program FILE] [--seed N] [--runs 300] [--far 12] [--written 300] [--texts 2000] [--sweeps 20]
        [--newest V]

The program is the one that ./swimsim has built, or FILE. Of each run the trace and the report are compared
byte for byte, by 1 to 3 workers and some division, also of texts of version 4 as operators write them; of each text what
`check` says of it; of each sweep its table and its lines. The seed is made of the sources' SHA-256 unless one is given, so that other cases are
tried with each change. Texts are of versions 1 to V of the format; without V to the newest that the program
takes (NEWEST_TAKEN in tests/model/scenarios.py). A comparison that fails is told with its text and its first
differing line. The last line is `N passed, M failed`, and the status is 1 where M is over 0. It needs
Python 3.11. The program sees eight processors, as by tests/programs/cases.py.
"""

import hashlib
import random
import tempfile
from concurrent.futures import ProcessPoolExecutor
from pathlib import Path

import paths  # noqa: F401 (puts the folders of what follows on the path)
import generate
import generate_written
import model
import model_sweeps
import model_text
from harness import TOP, call, end, first_line, parser_of, program_at
from scenarios import NEWEST_TAKEN, document_of, judge
from stand_in import StandIn


def seed_of_sources():
    """A number made of the names and bytes of all sources."""
    paths = [path for folder in ('src', 'specs') for path in TOP.glob(f'crates/*/{folder}/**/*')]
    digest = hashlib.sha256()
    for path in sorted(path for path in [*paths, TOP / 'crates.txt'] if path.is_file()):
        digest.update(f'{path.relative_to(TOP)}\n'.encode() + path.read_bytes())
    return int.from_bytes(digest.digest()[:6], 'big')


def first_difference(name, expected, found):
    """Where two texts differ first, by lines, or None."""
    if expected == found:
        return None
    ours, theirs = expected.split(b'\n'), found.split(b'\n')
    place = 0
    while ours[place:place + 1] == theirs[place:place + 1]:
        place += 1
    said = [b''.join(lines[place:place + 1]) or b'(its end)' for lines in (ours, theirs)]
    return f'{name}, line {place + 1}:\n  model   {said[0]!r}\n  program {said[1]!r}'


def compared(expected, found):
    """The first difference of outcomes: names with the bytes that the model gives and the program's."""
    differences = [first_difference(name, expected[name], found[name]) for name in expected]
    return next((difference for difference in differences if difference), None)


def outcome(status, out, errors):
    return {'status': str(status).encode(), 'standard output': out, 'standard error': errors}


def division_of(rng, members):
    """Words for some workers and some division of the members."""
    words = ['--workers', str(rng.randint(1, 3))]
    which = rng.randrange(3)
    if which == 1:
        words += ['--parts', str(rng.choice([1, 2, 3, 5, 64]))]
    if which == 2:
        parts = rng.choice([1, 2, 4, 64])
        words += ['--division', ','.join(str(rng.randrange(parts)) for _ in members)]
    return words


def site_division_of(rng, members):
    """Words for two to four workers, and for eight parts or for those of the groups: else one worker makes so small a run."""
    words = ['--workers', str(rng.randint(2, 4))]
    parts = ','.join(str(ord(member['name'][0]) - ord('a')) for member in members)
    return [*words, *(['--division', parts] if rng.randrange(2) else ['--parts', '8'])]


def try_run(program, folder, seed, number, newest):
    """The words of a run, its text, and the first difference or None."""
    return tried(program, folder, generate.run_case(seed, number, newest), division_of, newest)


def try_far(program, folder, seed, number, newest):
    """The same of a run whose parts the program hands to its workers."""
    return tried(program, folder, generate.far_case(seed, number, newest), site_division_of, newest)


def try_written(program, folder, seed, number, newest):
    """The same of a run of a text with units, groups, chance and times that come again."""
    text = generate_written.run_text(seed, number).encode()
    return tried(program, folder, (text, None, random.Random(f'{seed} division {number}')), division_of, newest)


def tried(program, folder, case, words_of, newest):
    """The same of this case, by words that are made for its members."""
    text, _, rng = case
    file, trace, report = folder / 'scenario.toml', folder / 'trace.csv', folder / 'report.txt'
    file.write_bytes(text)
    for output in (trace, report):
        output.write_bytes(b'')
    _, scenario = judge(document_of(text), newest)
    rows = model.rows_of(scenario)
    options = words_of(rng, scenario['members'])
    done = call([program, 'run', file, '--trace', trace, '--report', report, *options])
    expected = {**outcome(0, f'rows {len(rows)}\n'.encode(), b''),
                'trace': model_text.trace_of(scenario, rows).encode(),
                'report': model_text.report_of(scenario, rows).encode()}
    found = {**outcome(*done), 'trace': trace.read_bytes(), 'report': report.read_bytes()}
    return ['run', 'FILE', '--trace', 'T', '--report', 'R', *options], text, compared(expected, found)


def try_text(program, folder, seed, number, newest):
    """The same of `check` of a text."""
    text = generate.text_case(seed, number, newest)
    file = folder / 'scenario.toml'
    file.write_bytes(text)
    rule, scenario = judge(document_of(text), newest)
    expected = outcome(3, b'', f'swimsim: scenario rule {rule}\n'.encode())
    if rule == 0:
        expected = outcome(0, f'members {len(scenario["members"])}\n'.encode(), b'')
    return ['check', 'FILE'], text, compared(expected, outcome(*call([program, 'check', file])))


def try_sweep(program, folder, seed, number, newest):
    """The same of a sweep's table and lines, or of how it is refused."""
    text, document, settings, seeds = generate.sweep_case(seed, number, newest)
    file, table = folder / 'scenario.toml', folder / 'table.csv'
    file.write_bytes(text)
    table.write_bytes(b'')
    asked = [f'{seeds[0]}..{seeds[-1]}' if seeds else '-']
    asked += [f'{key}={",".join(map(model_sweeps.word, values))}' for key, values in settings]
    options = ['--workers', str(number % 3 + 1), *(['--seeds', asked[0]] if seeds else [])]
    options += [word for setting in asked[1:] for word in ('--set', setting)]
    refusal, cases = model_sweeps.swept(document, settings, seeds, newest)
    done = call([program, 'sweep', file, '--table', table, *options])
    expected = {**outcome(0, model_sweeps.cases_text(settings, cases).encode(), b''),
                'table': model_sweeps.table_of(text, settings, asked, cases).encode()}
    if refusal:
        expected = {**outcome(3, b'', f'swimsim: {refusal}\n'.encode()), 'table': b''}
        done = done._replace(err=first_line(done.err))
    found = {**outcome(*done), 'table': table.read_bytes()}
    return ['sweep', 'FILE', '--table', 'T', *options], text, compared(expected, found)


TRIALS = {'run': try_run, 'far': try_far, 'written': try_written, 'text': try_text, 'sweep': try_sweep}


def fault_of(case):
    """What is to be told of a case, or None where the program and the model agree."""
    program, seed, kind, number, newest = case
    with tempfile.TemporaryDirectory() as folder:
        words, text, difference = TRIALS[kind](program, Path(folder), seed, number, newest)
    if difference is None:
        return None
    again = f'tests/model/generate.py {seed} {kind} {number} {newest}'
    if kind == 'written':
        again = f'tests/model/generate_written.py {seed} {number} run'
    shown = text.decode(errors='backslashreplace')
    return (f'FAILED {kind} {number}: {difference}\nby: swimsim {" ".join(words)}\n'
            f'the text, by {again}:\n{shown}\n')


def main():
    arguments = parser_of(__doc__)
    arguments.add_argument('--seed', type=int)
    arguments.add_argument('--runs', type=int, default=300)
    arguments.add_argument('--far', type=int, default=12)
    arguments.add_argument('--written', type=int, default=300)
    arguments.add_argument('--texts', type=int, default=2000)
    arguments.add_argument('--sweeps', type=int, default=20)
    arguments.add_argument('--newest', type=int, default=NEWEST_TAKEN)
    options = arguments.parse_args()
    program = program_at(options.program)
    seed = seed_of_sources() if options.seed is None else options.seed
    print(f'seed {seed}, versions 1 to {options.newest}')
    written = options.written if options.newest >= 4 else 0
    counts = {'run': options.runs, 'far': options.far, 'written': written, 'text': options.texts, 'sweep': options.sweeps}
    cases = [(program, seed, kind, number, options.newest) for kind in counts for number in range(counts[kind])]
    with tempfile.TemporaryDirectory() as room:
        StandIn(Path(room)).free_processors()
        with ProcessPoolExecutor() as pool:
            faults = [fault for fault in pool.map(fault_of, cases, chunksize=4) if fault]
    print(''.join(faults), end='')
    end(len(cases) - len(faults), len(faults))


if __name__ == '__main__':
    main()
