"""Sweeps, for tests/model/model.py: the table of the runs and the lines of the cases.

Written from docs/SWEEPS.md alone.
"""

import collections
import copy
import hashlib
import itertools
from fractions import Fraction
from math import inf, isqrt

import model
import model_text
from model_sweep_deaths import CASE_COLUMNS, NO_RUN_DEATHS, RUN_COLUMNS, case_deaths, noted_deaths, run_deaths
from scenarios import NEWEST, NEWEST_TAKEN, judge, version_of

RUN_FIGURES = [
    'rows', 'crashes', 'detected', 'suspect_least', 'confirm_least', 'confirm_greatest', 'last_greatest',
    'false_suspect', 'false_suspect_healthy', 'false_confirm', 'false_confirm_healthy', 'thrown_out', 'revived',
    *RUN_COLUMNS, 'accuse', 'refute', 'fail', 'health', 'sent', 'lost',
]
PERCENTILES = {
    'suspect_p50': ('suspect', 50), 'confirm_p50': ('confirm', 50), 'confirm_p99': ('confirm', 99),
    'confirm_greatest': ('confirm', 100), 'last_p50': ('last', 50), 'last_greatest': ('last', 100),
}
CASE_FIGURES = ['runs', *PERCENTILES, 'false_suspect', 'thrown_out', 'revived', *CASE_COLUMNS, 'runs_with', 'share_low',
                'share_high', 'messages']
# the figures that aren't told of each text, by the version of which the text that is swept must be
FIRST_TOLD = {'revived': 3, **{name: 4 for name in (*RUN_COLUMNS, *CASE_COLUMNS)}}
MESSAGES = model_text.messages_of(NEWEST)


# ---- Runs ----

def with_value(document, key, value):
    """The document with this value in the place of the key's, or added; a table that isn't there is made."""
    document = copy.deepcopy(document)
    *place, name = key.split('.')
    if len(place) > 1:
        for one in items_meant(document[place[0]], place[1:]):
            one[name] = value
        return document
    table, _, name = key.rpartition('.')
    (document.setdefault(table, {}) if table else document)[name] = value
    return document


def items_meant(items, name):
    """The items of this name, and the one whose number among those of its name stands behind it."""
    met = collections.Counter()
    meant = []
    for one in items:
        own = own_name(one)
        met[own] += 1
        if list(own) == name or [*own, str(met[own])] == name:
            meant.append(one)
    return meant


def own_name(one):
    """The words by which an item is named, none where it has no such name."""
    for parts in (('name',), ('member',), ('from', 'to')):
        if all(isinstance(one.get(part), str) for part in parts):
            return tuple(one[part] for part in parts)
    return ()


class Together(list):
    """The values of a key that goes together with the one before it."""


def axes_of(settings):
    """The settings in groups: a key, and those that go together with it."""
    axes = []
    for key, values in settings:
        if isinstance(values, Together):
            axes[-1].append((key, values))
        else:
            axes.append([(key, values)])
    return axes


def cases_of(settings):
    """Each choice of one value for each key, the last one's values changing fastest; keys that go together change at one time."""
    turns = (zip(*(values for _, values in axis)) for axis in axes_of(settings))
    return [sum(case, ()) for case in itertools.product(*turns)]


def document_of_run(document, settings, case, seed):
    document = with_value(document, 'seed', seed)
    for (key, _), value in zip(settings, case):
        document = with_value(document, key, value)
    return document


def swept(document, settings, seeds, newest=NEWEST_TAKEN, until=None):
    """An empty text and, for each case, its values and each run's seed and figures; or what is told of the
    first run that is refused, and no cases. Without seeds each case has one run, with the text's own; with a
    width a case has no more seeds than make its interval at most so many hundredths wide."""
    cases, version = [], version_of(document, newest)
    for case in cases_of(settings):
        runs = []
        for seed in seeds or [document['seed']]:
            rule, scenario = judge(document_of_run(document, settings, case, seed), newest)
            if rule:
                return refusal_of(rule, settings, case), []
            runs.append((seed, figures_of(scenario, model.rows_of(scenario), version)))
            if until is not None and is_narrow(until, [figures for _, figures in runs]):
                break
        cases.append((case, runs))
    return '', cases


def is_narrow(width, figures):
    """Whether Wilson's 95 % interval of the share of these runs in which members were thrown out is at most so many
    hundredths wide."""
    runs, found = len(figures), sum(run['thrown_out'] > 0 for run in figures)
    square = Fraction(196, 100) ** 2
    apart = 4 * square * (Fraction(found * (runs - found), runs) + square / 4)
    return apart <= (Fraction(width, 100) * (runs + square)) ** 2


def refusal_of(rule, settings, case):
    """The rule, with what is set in the run that breaks it."""
    told = ''.join(f' {key}={word(value)}' for (key, _), value in zip(settings, case))
    return f'scenario rule {rule}' + (f' with{told}' if told else '')


def figures_of(scenario, rows, version):
    """What is told of a run of a sweep of a text of this version, and `times`, `members`, `end` and `version`, which its
    case needs. Of a run of an earlier version, by `--set version`, what is new in version 4 isn't told."""
    crashes = model_text.ends_of(scenario, rows, 'crash')
    times = {name: [None if crash[place] is None else max(0, crash[place] - crash[1]) for crash in crashes]
             for place, name in enumerate(['suspect', 'confirm', 'last'], 2)}
    suspect, confirm, last = ([time for time in times[name] if time is not None] for name in times)
    suspects, healthy_suspects = model_text.false_rows(scenario, rows, 'suspect')
    confirms, healthy_confirms = model_text.false_rows(scenario, rows, 'confirm')
    sent = [row.lost for row in rows if row.what in MESSAGES]
    return {
        'times': times, 'members': len(scenario['members']), 'end': scenario['end'], 'version': version,
        **(run_deaths(scenario, rows) if scenario['version'] >= FIRST_TOLD['deaths'] else NO_RUN_DEATHS),
        'revived': model_text.revived(scenario, rows),
        'rows': len(rows), 'crashes': len(crashes), 'detected': len(confirm),
        'suspect_least': min(suspect, default=''), 'confirm_least': min(confirm, default=''),
        'confirm_greatest': max(confirm, default=''), 'last_greatest': max(last, default=''),
        'false_suspect': len(suspects), 'false_suspect_healthy': len(healthy_suspects),
        'false_confirm': len(confirms), 'false_confirm_healthy': len(healthy_confirms),
        'thrown_out': len({row.about for row in confirms}),
        **{what: sum(row.what == what for row in rows) for what in ('accuse', 'refute', 'fail')},
        'health': max((row.value for row in rows if row.what == 'health'), default=0),
        'sent': len(sent), 'lost': sum(sent),
    }


def told_names(names, cases):
    """The names of figures, without those that aren't told of the text that is swept."""
    version = max((figures['version'] for _, runs in cases for _, figures in runs), default=1)
    return [name for name in names if FIRST_TOLD.get(name, 1) <= version]


# ---- The table ----

def word(value):
    """A value of a key as it is told."""
    return str(value).lower()


def note_of(figures):
    """What a case keeps of a run, as it is written."""
    told = [figures['false_suspect'], figures['thrown_out'], figures['revived'], figures['sent'],
            figures['members'] * figures['end'], *noted_deaths(figures)]
    times = zip(*(figures['times'][name] for name in ('suspect', 'confirm', 'last')))
    return ' '.join(map(str, [*told, *('-' if time is None else time for crash in times for time in crash)]))


def lines_of(settings, cases):
    """The header and the line of each run, without the field that stands before each."""
    names = told_names(RUN_FIGURES, cases)
    lines = [[*(key for key, _ in settings), 'seed', *names]]
    lines += [[*map(word, case), seed, *(figures[name] for name in names)]
              for case, runs in cases for seed, figures in runs]
    return [','.join(map(str, line)) + '\n' for line in lines]


def shared_out(cases, number, pieces, until):
    """From which run to before which a piece has them. With a width it is one of whole cases, else of runs."""
    runs = [len(runs) for _, runs in cases]
    # how many runs stand ahead of each of the things that are shared out, and how many in all
    ahead = [0, *itertools.accumulate(runs)] if until is not None else range(sum(runs) + 1)
    shared = len(ahead) - 1
    return ahead[(number - 1) * shared // pieces], ahead[number * shared // pieces]


def table_of(text, settings, words, cases, until=None, piece=(1, 1)):
    """The table of a piece of a sweep over the bytes of a text; that of the whole sweep is that of the only piece.
    `words` are those of its seeds, its width and its settings."""
    number, pieces = piece
    header, *lines = lines_of(settings, cases)
    notes = [note_of(figures) for _, runs in cases for _, figures in runs]
    first, past = shared_out(cases, number, pieces, until)
    name = f'{hashlib.sha256(text).hexdigest()} {" ".join(words)}'
    told = [f'{note},{line}' for note, line in zip(notes[first:past], lines[first:past])]
    return f'"{number}/{pieces} {name}",{header}' + ''.join(f'{checksum_of(name, line)} {line}' for line in told)


def checksum_of(name, line):
    """The checksum of a line of the sweep of this name, which is what its pieces' names have behind their numbers."""
    return hashlib.sha256(hashlib.sha256(name.encode()).digest() + line.encode()).hexdigest()[:8]


# ---- Standard output ----

def percentile(times, percent):
    """The time at the percentile's place, None being later than any."""
    rising = sorted(times, key=lambda time: (time is None, time or 0))
    place = max(1, (percent * len(times) + 99) // 100)
    return rising[place - 1] if rising else None


def nearest_thousandth(value):
    return int(value * 1000 + Fraction(1, 2))


def shares(found, runs):
    """The ends of Wilson's 95 % interval, in thousandths."""
    z = Fraction(196, 100)
    square = Fraction(found * (runs - found), runs) + z * z / 4
    root = Fraction(isqrt(int(square * 8000**2)), 8000)
    return [nearest_thousandth((found + z * z / 2 + sign * z * root) / (runs + z * z)) for sign in (-1, 1)]


def nearest_hundredth(value):
    return int(value * 100 + Fraction(1, 2))


def deaths_per_run(counts):
    """The mean of the runs' members with a false death and the ends of its 95 % interval, in hundredths: Poisson's score interval, widened where the
    runs' variance shows more."""
    runs, found = len(counts), sum(counts)
    mean = Fraction(found, runs)
    seen = runs * sum((count - mean) ** 2 for count in counts) / (runs - 1) if runs > 1 else found
    z = Fraction(196, 100)
    root = Fraction(isqrt(int((max(found, seen) + z * z / 4) * 8000**2)), 8000)
    low, high = (max(0, found + z * z / 2 + sign * z * root) / runs for sign in (-1, 1))
    return {'per_run': nearest_hundredth(mean), 'per_run_low': nearest_hundredth(low), 'per_run_high': nearest_hundredth(high)}


def decimal(number, digits):
    """A whole number of hundredths, or of tenths, as a decimal."""
    return f'{number // 10**digits}.{number % 10**digits:0{digits}}'


def case_figures(figures):
    """What is told of a case, of the figures of its runs."""
    runs = len(figures)
    told = {'runs': runs}
    for name, (which, percent) in PERCENTILES.items():
        times = [time for run in figures for time in run['times'][which]]
        told[name] = model_text.told(percentile(times, percent))
    told['false_suspect'] = decimal(sum(run['false_suspect'] for run in figures) * 100 // runs, 2)
    told['thrown_out'] = sum(run['thrown_out'] for run in figures)
    told['revived'] = sum(run['revived'] for run in figures)
    if figures[0]['version'] >= FIRST_TOLD['deaths']:
        told.update(told_deaths(figures))
    told['runs_with'] = sum(run['thrown_out'] > 0 for run in figures)
    low, high = shares(told['runs_with'], runs)
    told['share_low'], told['share_high'] = decimal(low, 1), decimal(high, 1)
    length = sum(run['members'] * run['end'] for run in figures)
    sent = sum(run['sent'] for run in figures)
    told['messages'] = decimal(sent * 1000 * 100 // length, 2) if length else '-'
    return told


def told_deaths(figures):
    """What a case of a text of version 4 has of deaths, as it is told."""
    if figures[0]['deaths'] == '':
        return dict.fromkeys(CASE_COLUMNS, '-')
    found = case_deaths(figures)
    for name in ('alarms', 'deaths_day', 'day_low', 'day_high'):
        found[name] = '-' if found[name] is None else decimal(found[name], 2)
    return found


def cases_text(settings, cases):
    """The lines of standard output."""
    names = told_names(CASE_FIGURES, cases)
    widths = [max(map(len, [key, *map(word, values)])) for key, values in settings]
    widths += [*(max(8, len(name)) for name in names), len('front')]
    lines = [[*(key for key, _ in settings), *names, 'front']]
    all_told, costs = told_of_cases(cases), costs_of(cases)
    for (case, _), told in zip(cases, all_told):
        mark = '-' if any(beats(other, told, costs) for other in all_told) else '*'
        lines.append([*map(word, case), *(told[name] for name in names), mark])
    return ''.join('  '.join(str(item).rjust(width) for item, width in zip(line, widths)) + '\n'
                   for line in lines)


def told_of_cases(cases):
    """What is told of each case."""
    return [case_figures([figures for _, figures in runs]) for _, runs in cases]


def figure(told, name):
    """A figure of a case as a number; one that isn't there is greater than any."""
    held = told.get(name, '-')
    return inf if held in ('-', None) else Fraction(held)


def has_crash(cases):
    """Whether some run of the sweep has a crash."""
    return any(figures['crashes'] for _, runs in cases for _, figures in runs)


def costs_of(cases):
    """The figure by which cases are compared, beside the share of runs with a false death."""
    return 'confirm_p50' if has_crash(cases) else 'messages'


def share_of(told):
    return Fraction(told['runs_with'], told['runs'])


def beats(one, other, costs):
    """Whether the one case is at most as great in both, and less in one."""
    mine, its = ((figure(told, costs), share_of(told)) for told in (one, other))
    return mine != its and mine[0] <= its[0] and mine[1] <= its[1]


# ---- What cases answer ----

def is_inside(bound, told):
    """Whether a share is in Wilson's 95 % interval of the runs in which members were thrown out."""
    runs = told['runs']
    distance = Fraction(told['runs_with'], runs) - bound
    return runs * distance**2 <= Fraction(196, 100)**2 * bound * (1 - bound)


def answer_to(want, told):
    """Whether a case shows what is wanted, shows that it isn't so, or neither: 'shown', 'refuted' or 'open'."""
    name, _, bound = want.partition('<=')
    bound = Fraction(bound)
    if name == 'deaths_day':
        return 'shown' if figure(told, 'day_high') <= bound else 'refuted' if figure(told, 'day_low') > bound else 'open'
    if name != 'out':
        return 'shown' if figure(told, name) <= bound else 'refuted'
    if bound >= 1:
        return 'shown'
    share = Fraction(told['runs_with'], told['runs'])
    runs = told['runs']
    at_end = runs * (share - bound)**2 == Fraction(196, 100)**2 * bound * (1 - bound)
    if share < bound and (at_end or not is_inside(bound, told)):
        return 'shown'
    return 'refuted' if share > bound and not is_inside(bound, told) else 'open'


def first_open(wants, told):
    """The first that is wanted and not shown."""
    return next(want for want in wants if answer_to(want, told) != 'shown')


def more_runs(wants, told):
    """How many more runs would tell, if the share stays; of fatal incidents in a day it isn't told."""
    name, _, bound = first_open(wants, told).partition('<=')
    if name == 'deaths_day':
        return '-'
    bound = Fraction(bound)
    share = Fraction(told['runs_with'], told['runs'])
    if bound >= 1 or share == bound:
        return '-'
    enough = Fraction(196, 100)**2 * bound * (1 - bound) / (share - bound)**2
    return max(0, int(enough) + 1 - told['runs'])


def answer_text(wants, settings, cases):
    """What standard output ends with where something is wanted of the cases."""
    if not wants:
        return ''
    all_told = told_of_cases(cases)
    answers = {want: [answer_to(want, told) for told in all_told] for want in wants}
    lines = []
    for want in wants:
        counts = ' '.join(f'{it}={answers[want].count(it)}' for it in ('shown', 'open', 'refuted'))
        lines.append(f'wanted: {want} {counts}')
    meeting = []
    for number, (case, _) in enumerate(cases):
        name = ' '.join(f'{key}={word(value)}' for (key, _), value in zip(settings, case)) or 'the scenario as it is'
        found = {answers[want][number] for want in wants}
        if found == {'shown'}:
            lines.append(f'meets: {name}')
            told = all_told[number]
            first = figure(told, 'confirm_p50') if has_crash(cases) else share_of(told)
            meeting.append((first, figure(told, 'messages'), number, name))
        elif 'refuted' not in found:
            lines.append(f'may: {name} more_runs={more_runs(wants, all_told[number])}')
    lines.append(f'best: {min(meeting)[3] if meeting else "none"}')
    return ''.join(f'{line}\n' for line in lines)
