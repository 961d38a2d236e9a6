"""What sweeps of texts of version 4 have of false suspicions and deaths as an operator counts them, one for the first of
several rows: of a run, and of the runs of a case with a day's false deaths and their 95 % interval.

With n runs of END ticks that have k deaths between them, the ends of the interval are `k + z * z / 2`, less or more z
times the root of `w + z * z / 4`, each times what a day has of one run's ticks over n. Here w is k, or n times the runs'
variance where that is greater, and z is 1.96. All is exact, and rounded at the end.
"""

from fractions import Fraction
from math import isqrt

import model_watch

DAY = 24 * 60 * 60 * 10**6
Z = Fraction(196, 100)

RUN_COLUMNS = ['alarms', 'deaths', 'deaths_well', 'restarts', 'whole']
CASE_COLUMNS = ['alarms', 'deaths', 'deaths_well', 'deaths_day', 'day_low', 'day_high']
# the columns of a run of an earlier version
NO_RUN_DEATHS = dict.fromkeys(RUN_COLUMNS, '')


def run_deaths(scenario, rows):
    """The columns of a run, and how many microseconds its ticks last."""
    found, since = model_watch.incidents(scenario, rows), model_watch.whole_since(scenario, rows)
    return {'alarms': found.alarms, 'deaths': found.deaths, 'deaths_well': found.well,
            'restarts': sum(row.what == 'restart' for row in rows), 'whole': '' if since is None else since,
            'tick': scenario.get('tick', 1000)}


def noted_deaths(figures):
    """What a case keeps of these columns of a run: three of them, and how many microseconds the run lasts."""
    if figures['deaths'] == '':
        return []
    return [figures['alarms'], figures['deaths'], figures['deaths_well'], figures['end'] * figures['tick']]


def hundredths(middle, sign, square):
    """A number less or more the root of another one in hundredths, rounded half up, but none below 0."""
    middle, square = 100 * middle + Fraction(1, 2), 10000 * square
    # over the denominator of both the root is that of a whole number
    part = middle.denominator * square.denominator
    whole = int(square * part * part)
    root = isqrt(whole)
    if sign < 0 and root * root < whole:
        root += 1
    return max(0, (int(middle * part) + sign * root) // part)


def widened(counts):
    """By what the deaths of runs vary: their sum, or more where they show more."""
    runs, found = len(counts), sum(counts)
    seen = runs * sum((count - Fraction(found, runs)) ** 2 for count in counts) / (runs - 1) if runs > 1 else found
    return max(found, seen)


def case_deaths(figures):
    """The columns of a case; those of a day are in hundredths, None where its runs have no time."""
    counts = [run['deaths'] for run in figures]
    sums = {name: sum(run[name] for run in figures) for name in ('alarms', 'deaths', 'deaths_well')}
    told = {**sums, 'alarms': sums['alarms'] * 100 // len(figures)}
    time = len(figures) * figures[0]['end']
    if time == 0:
        return {**told, 'deaths_day': None, 'day_low': None, 'day_high': None}
    share, found = Fraction(DAY, figures[0]['tick'] * time), Fraction(sum(counts))
    middle, square = share * (found + Z * Z / 2), share**2 * Z * Z * (widened(counts) + Z * Z / 4)
    return {**told, 'deaths_day': hundredths(share * found, 1, Fraction(0)), 'day_low': hundredths(middle, -1, square),
            'day_high': hundredths(middle, 1, square)}
