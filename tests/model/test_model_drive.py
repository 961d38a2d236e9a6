"""The world of a drive in the model, held against what was worked out by hand from docs/DRIVE.md: what lines answer, what is
told, and which rows there are; and that the model's own members, driven over the protocol, write the rows of the run."""

import functools
import json
import re

from generate import run_case
from model import Run
from model_answers import NoAnswer, Send, Timer, Told, Used, answer_of
from model_drive import Drive
from model_harness import Harness
from model_text import trace_of
from program import Case, DATA, expect
from scenarios import NEWEST, document_of, judge

FOLDER = DATA / 'drive'
RUNS = 200
SEED = 20261129


def nested(text):
    """A text with so many lists in one another for each @N."""
    return re.sub(r'@(\d+)', lambda found: '[' * int(found[1]) + ']' * int(found[1]), text)


def shown(action, names):
    """An action as the data has it."""
    def name(number):
        return None if number is None else names[number]
    if isinstance(action, Send):
        return [action.what, name(action.to), action.value, action.payload, action.stream]
    if isinstance(action, Told):
        return [action.what, name(action.about), action.value]
    return list(action)


def check_answer(_, case, names, member):
    numbers = {name: number for number, name in enumerate(names)}
    try:
        actions = answer_of(nested(case['line']).encode(), numbers[member], numbers, case.get('exits', False))
    except NoAnswer as error:
        expect('cause', error.cause, case.get('cause'))
        return
    expect('cause', None, case.get('cause'))
    expect('actions', [shown(action, names) for action in actions], json.loads(nested(json.dumps(case['actions']))))


def check_length(_, line, cause):
    """Compares the cause of a line that is too long, or just not."""
    try:
        answer_of(line, 0, {})
    except NoAnswer as error:
        expect('cause', error.cause, cause)
        return
    expect('cause', None, cause)


class Script:
    """A harness that answers what the data says."""

    def __init__(self, answers):
        self.answers, self.told = [f'{answer}\n'.encode() for answer in answers], []

    def tell(self, line):
        self.told.append(line.rstrip('\n'))

    def answer(self):
        return self.answers.pop(0) if self.answers else b''


def scenario_of(text):
    rule, scenario = judge(document_of(text.encode()), NEWEST)
    expect('rule', rule, 0)
    return scenario


def check_drive(_, case):
    """Compares what is told, and the rows."""
    scenario, script = scenario_of(case['text']), Script(case['answers'])
    drive = Drive(scenario, script)
    cause = None
    try:
        rows = drive.go()
        drive.tell_end()
    except NoAnswer as error:
        cause, rows = error.cause, error.rows
        expect('place', drive.answers, case['place'])
    expect('cause', cause, case.get('cause'))
    expect('told', script.told, case['told'])
    expect('rows', trace_of(scenario, rows).splitlines()[1:], case['rows'])
    expect('answers that are left', script.answers, [])


def dial_untold(run, dial, kind, to):
    """A dial whose row isn't written."""
    rows = len(run.rows)
    done = dial(kind, to)
    del run.rows[rows:]
    return done


def rows_but_dials(scenario):
    """The rows of a run, in version 4 but for those of dials, which no action of a harness tells."""
    run = Run(scenario)
    if scenario['version'] >= 4:
        for member in run.members:
            member.dial = functools.partial(dial_untold, run, member.dial)
    return run.go()


def check_own(_, text):
    """The model's own members over the protocol write the rows of the run, in version 4 but for those of dials."""
    scenario = scenario_of(text)
    rows = Drive(scenario, Harness(scenario)).go()
    expect('trace', trace_of(scenario, rows), trace_of(scenario, rows_but_dials(scenario)))


def check_random(_, number):
    check_own(_, run_case(SEED, number, NEWEST)[0].decode())


def cases():
    """Each line and each drive of the data, each worked run, and random runs."""
    held = json.loads((FOLDER / 'answers.json').read_text())
    for table in held['tables']:
        for case in table['cases']:
            yield Case(f'drive, {table["about"]}: {case["name"]}', check_answer, (case, held['members'], held['member']))
    for count, cause in ((1048574, None), (1048575, 'long')):
        yield Case(f'drive, a line of {count + 3} bytes', check_length, (b' ' * count + b'[]\n', cause))
    yield Case('drive, a line without an end', check_length, (b' ' * 1048577, 'long'))
    for case in json.loads((FOLDER / 'drives.json').read_text()):
        yield Case(f'drive: {case["name"]}', check_drive, (case,))
    for path in sorted([*(DATA / 'worked').glob('*.toml'), *(DATA / 'four').glob('*.toml')]):
        yield Case(f'drive, own members: {path.stem}', check_own, (path.read_text(),))
    for number in range(RUNS):
        yield Case(f'drive, own members: random run {number}', check_random, (number,))
