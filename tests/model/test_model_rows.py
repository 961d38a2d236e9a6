"""Rows that no run makes: the report that the second simulator gives on them, the figures of such a run, and what is
told of a case of such runs, as worked out by hand from docs/FORMAT.md and SWEEPS.md. `random_cases.py` compares the
program with that simulator on the rows of runs."""

import json

from model_sweep_times import spread_of
from model_sweeps import case_figures, figures_of
from model_text import report_of, rows_in
from program import Case, DATA, expect
from scenarios import NEWEST, document_of, judge

FOLDER = DATA / 'rows'
HEADER = 'moment,member,from,number,what,about,value,lost\n'


def scenario_of(text):
    return judge(document_of(text.encode()), NEWEST)[1]


def lines_in(held):
    return ''.join(f'{line}\n' for line in held)


def rows_of(scenario, lines):
    return rows_in(scenario, HEADER + lines_in(lines))


def check_report(_, text, lines, report):
    """Compares the report on the lines of a trace, that which it tells of the scenario included."""
    scenario = scenario_of(text)
    expect('report', report_of(scenario, rows_of(scenario, lines)).encode(), lines_in(report).encode())


def figures_in(texts, rows, run):
    """The figures of a run, of a scenario and rows by their names."""
    scenario = scenario_of(texts[run['text']])
    return figures_of(scenario, rows_of(scenario, rows[run['rows']]), scenario['version'])


def check_figures(_, texts, rows, case):
    """Compares the figures of a run, or what is told of a case of several."""
    figures = [figures_in(texts, rows, run) for run in case['runs']]
    seen = {**spread_of(figures), **case_figures(figures)} if case.get('is_case') else figures[0]
    for name, wanted in case['wanted'].items():
        expect(name, seen[name], wanted)


def cases():
    """Each report and each run or case of the data."""
    for case in json.loads((FOLDER / 'reports.json').read_text()):
        yield Case(f'rows, report: {case["name"]}', check_report, (case['text'], case['lines'], case['report']))
    held = json.loads((FOLDER / 'figures.json').read_text())
    for case in held['cases']:
        yield Case(f'rows, figures: {case["name"]}', check_figures, (held['texts'], held['rows'], case))
