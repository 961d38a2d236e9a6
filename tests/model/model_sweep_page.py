"""The page of a sweep, a second time: what `sweep --page` writes of the objects that `sweep --jsonl` prints, of
what `spread_of` adds to them, and of what is wanted.

Written from docs/PAGES.md ("The page of a sweep"); how it looks is the style's, which isn't modelled but taken as it stands.
"""

from collections import namedtuple
from decimal import Decimal
from fractions import Fraction

from model_drawing import (FIGURE_END, axis_across, axis_up, cells, escaped, figure, grouped, heads, lasting, page_opening, place,
                           plot, time_alone)
from model_sweeps import axes_of, cases_of, first_open, more_runs
from model_sweep_times import times_figure

# what the figures of keys show of a case, and how its 5th percentile, median and 95th percentile are called in its JSON object
STATISTICS = (('First suspected', 'suspect'), ('First confirmed', 'confirm'), ('Last confirmed', 'last'))
# so many cases are told in words, so many lines drawn in a plot, and so many other cases named, at the most
MOST_TOLD, MOST_LINES, MOST_NAMED = 12, 8, 3

# the statistics of which something may be wanted, in words up to the bound
CRASHES = 'over all crashes of all its runs is at most'
WANTED = {
    'out': 'Share of its runs with a false death: its whole 95&nbsp;% interval is at most',
    'suspect_p50': f'Ticks until a crash is first suspected: the median {CRASHES}',
    'confirm_p50': f'Ticks until a crash is first confirmed: the median {CRASHES}',
    'confirm_p99': f'Ticks until a crash is first confirmed: the 99th percentile {CRASHES}',
    'confirm_greatest': f'Ticks until a crash is first confirmed: the greatest number {CRASHES}',
    'last_p50': f'Ticks until a crash is last confirmed: the median {CRASHES}',
    'last_greatest': f'Ticks until a crash is last confirmed: the greatest number {CRASHES}',
    'false_suspect': 'False suspicions per run: the average over all its runs is at most',
    'thrown_out': 'Members with a false death: the sum over all its runs is at most',
    'messages': 'Messages per member per 1,000 ticks: the average over all its runs is at most',
    'alarms': 'Incidents per run: the average over all its runs is at most',
    'deaths': 'Fatal incidents: the sum over all its runs is at most',
    'deaths_well': 'Fatal incidents of members that were well: the sum over all its runs is at most',
    'deaths_day': 'Fatal incidents of the whole cluster in a day: the whole 95&nbsp;% interval is at most',
}
# how far a safe setting's interval reaches at most, in thousandths
SAFE = 50

# a case on the front: where it stands across, and its place among all
Front = namedtuple('Front', 'across place')
# how times spread: their 5th percentile, median and 95th percentile, each in ticks or None
Spread = namedtuple('Spread', 'early median late')


class Shown:
    """A case as the page shows it, from its JSON object: times in ticks or None, shares in thousandths."""

    def __init__(self, told):
        self.suspected, self.confirmed = told['suspect_p50'], told['confirm_p50']
        self.late, self.latest = told['confirm_p99'], told['confirm_greatest']
        self.last, self.last_latest = told['last_p50'], told['last_greatest']
        self.spreads = [Spread(*(told[f'{name}_p{percent}'] for percent in (5, 50, 95))) for _, name in STATISTICS]
        self.runs, self.runs_with = told['runs'], told['runs_with']
        self.false, self.messages = hundredths(told['false_suspect']), hundredths(told['messages'])
        self.low, self.high = round(10 * told['share_low']), round(10 * told['share_high'])
        self.share = self.runs_with * 1000 // self.runs
        self.deaths, self.few_deaths, self.many_deaths = told['per_run'], told['per_run_low'], told['per_run_high']
        self.is_best = told['front']
        self.told = told

    def figures(self, crashed):
        """What its item shows, but for its name."""
        speed = (self.confirmed,) if crashed else (self.deaths, self.few_deaths, self.many_deaths)
        return (*speed, self.runs_with, self.runs, self.messages)

    def day(self):
        """Its fatal incidents in a day, and their interval."""
        day, low, high = (rate(hundredths(self.told[name])) for name in ('deaths_day', 'day_low', 'day_high'))
        return day, '-' if low == '-' else f'{low} to {high}'

    def safety(self):
        return 'safe' if self.high <= SAFE else 'unsafe' if self.low > SAFE else 'unknown'


def hundredths(rate):
    return None if rate is None else round(100 * rate)


# ---- Numbers and words ----

def rate(parts):
    return '-' if parts is None else f'{parts // 100}.{parts % 100:02}'


def percent(thousandths):
    return f'{thousandths // 10}' + (f'.{thousandths % 10}' if thousandths % 10 else '') + '&nbsp;%'


def interval(case):
    return f'{percent(case.low)} to {percent(case.high)}'


def interval_of_deaths(case):
    return f'{rate(case.few_deaths)} to {rate(case.many_deaths)}'


def bound_of(want):
    """The bound of a goal, of a share in percent."""
    name, _, word = want.partition('<=')
    bound = Decimal(word) * (100 if name == 'out' else 1)
    front, _, back = f'{bound:f}'.partition('.')
    back = back.rstrip('0')
    return grouped(min(int(front), 2 ** 64 - 1)) + (f'.{back}' if back else '') + ('&nbsp;%' if name == 'out' else '')


def of_runs(case):
    return f'{grouped(case.runs_with)} of {grouped(case.runs)}'


def counted(number, one, many):
    return f'{grouped(number)} {one if number == 1 else many}'


def row_head(words):
    return f'<th scope="row">{words}</th>'


def folded(summary, caption, columns):
    return (f'<details><summary>{summary}</summary><div class="wide"><table><caption>{caption}</caption>'
            f'<thead><tr>{heads(columns)}</tr></thead><tbody>')


FOLDED_END = '</tbody></table></div></details></section>\n'


# ---- The page ----

class Page:
    """The page of a sweep of these settings, with so many seeds, or at most so many, over the cases in their order, where a tick lasts
    so many microseconds, or it isn't known how long."""

    def __init__(self, settings, seeds, at_most, cases, wants, tick):
        self.settings, self.seeds, self.cases = settings, seeds, [Shown(told) for told in cases]
        self.at_most, self.all_told, self.tick = at_most, cases, tick
        self.choices = cases_of(settings)
        self.wants, self.crashed = wants, any(told['crashes'] for told in cases)
        on_front = [Front(self.across(case), at) for at, case in enumerate(self.cases)
                    if case.is_best and self.across(case) is not None]
        self.front = sorted(on_front)

    def counts_incidents(self):
        """Whether the table's version counts incidents."""
        return any('deaths_day' in case.told for case in self.cases)

    @staticmethod
    def ticks(ticks):
        return '-' if ticks is None else grouped(ticks)

    def lasting(self, ticks):
        return '' if ticks is None else lasting(self.tick, ticks)

    def time(self, ticks):
        return '-' if ticks is None else time_alone(self.tick, ticks)

    def across(self, case):
        """Where a case stands across the front: by its median, or by its messages where no run has a crash."""
        return case.confirmed if self.crashed else case.messages

    def told(self, at, but=()):
        """The settings of a case, all but those at these places."""
        pairs = zip(self.settings, self.choices[at])
        return escaped(' '.join(f'{key}={word(value)}' for place, ((key, _), value) in enumerate(pairs) if place not in but))

    def name(self, at):
        return self.told(at) if self.settings else 'the scenario as it is'

    # what is wanted, and the answer

    def question(self):
        if not self.wants:
            return ''
        text = figure('answer', 'The question and its answer')
        text += '<p class="lead">Is there a setting that meets all of these goals?</p><ul class="goals">'
        for want in self.wants:
            text += f'<li>{WANTED[want.partition("<=")[0]]} <b>{bound_of(want)}</b> <code>{escaped(want)}</code></li>'
        return text + '</ul>\n' + self.answer() + FIGURE_END

    def answer(self):
        best = [at for at, case in enumerate(self.cases) if case.told['best']]
        may = [at for at, case in enumerate(self.cases) if case.told['meets'] == 'may']
        if best:
            return ('<p class="lead">Yes. Of the settings that are shown to meet all of this, the best is</p><ol class="answers">'
                    f'{self.item(best[0])}</ol>\n{self.caution(best[0])}{self.ties(best[0])}{self.absence(best[0])}')
        if not may:
            return '<p class="lead">No. Each setting that was tried is shown to miss one of these goals.</p>\n'
        text = ('<p class="lead">No setting is shown to meet all of this yet. These may; so many more runs of each would decide, if '
                'its share of runs with a false death stays as it is:</p><ol class="answers">')
        return text + ''.join(self.open_item(at) for at in may) + '</ol>\n'

    def caution(self, at):
        safety, interval_of_share = self.cases[at].safety(), '95&nbsp;% interval of its share of runs with a false death'
        if safety == 'safe':
            return ''
        told = (f'But it is unsafe: the whole {interval_of_share} is above 5&nbsp;%.' if safety == 'unsafe' else
                f'Whether it is safe is unknown: the {interval_of_share} reaches above 5&nbsp;%.')
        return f'<p class="lead">{told} The goals allow that.</p>\n'

    def ties(self, best):
        """Which others have the figures of the best one, and meet all that is wanted."""
        mine = self.cases[best].figures(self.crashed)
        equal = [at for at, case in enumerate(self.cases)
                 if at > best and case.told['meets'] == 'yes' and case.figures(self.crashed) == mine]
        if not equal:
            return ''
        return f'<p class="ties">Equally good by these figures: {counted(len(equal), "more setting:", "more settings:")}{self.others(equal)}.</p>\n'

    def absence(self, best):
        """Why the best one isn't among those that the trade-off lists."""
        if best in [at for _, at in self.front[:MOST_TOLD]]:
            return ''
        begin, case = '<p class="ties">The trade-off doesn\'t list it, since', self.cases[best]
        if self.across(case) is None:
            return f'{begin} {"it confirms fewer than half of its crashes" if self.crashed else "its runs end at moment 0"}.</p>\n'
        if case.is_best:
            order = 'fastest' if self.crashed else 'fewest messages'
            return f'<p class="ties">It is on the front, but the trade-off lists the first {MOST_TOLD} settings there, {order} first.</p>\n'
        beating = [at for at, other in enumerate(self.cases) if self.beats(other, case)]
        if self.crashed:
            one = ('is at least as fast and at least as safe, and better in one of the two. It isn\'t shown to meet all of this, '
                   'or it is as fast and sends no fewer messages:')
            several = ('are at least as fast and at least as safe, and better in one of the two. Each isn\'t shown to meet all of this, '
                       'or it is as fast and sends no fewer messages:')
        else:
            one = ('sends at most as many messages and is at least as safe, and is better in one of the two. It isn\'t shown to meet '
                   'all of this:')
            several = ('send at most as many messages and are at least as safe, and are better in one of the two. None of them is shown '
                       'to meet all of this:')
        return f'{begin} {counted(len(beating), f"other setting {one}", f"other settings {several}")}{self.others(beating)}.</p>\n'

    def beats(self, case, other):
        """One case beats another: it costs no more, its share is no greater, and one of the two is less."""
        mine, yours = [(float('inf') if self.across(it) is None else self.across(it), Fraction(it.runs_with, it.runs)) for it in (case, other)]
        return mine != yours and mine[0] <= yours[0] and mine[1] <= yours[1]

    def others(self, places):
        """The first of these cases by their numbers and names, and how many more there are."""
        text = ''.join(f' <span class="number">{grouped(at + 1)}</span> <code>{self.name(at)}</code>' for at in places[:MOST_NAMED])
        return text + (f' and {grouped(len(places) - MOST_NAMED)} more' if len(places) > MOST_NAMED else '')

    def open_item(self, at):
        # a setting that may meet all is open in the share or in the fatal incidents of a day
        wants = [want for want in self.wants if want.startswith(('out<=', 'deaths_day<='))]
        more, is_of_day = more_runs(wants, self.cases[at].told), first_open(wants, self.cases[at].told).startswith('deaths_day')
        told = ('the interval of its fatal incidents in a day isn\'t narrow enough yet; how many more runs would decide isn\'t known' if is_of_day else
                'no number of runs would decide: its share of runs with a false death is the goal itself' if more == '-' else
                f'<b>{more}</b> more {"run" if more == 1 else "runs"} would decide')
        return f'<li class="unknown"><span class="number">{grouped(at + 1)}</span><code>{self.name(at)}</code><span>{told}</span></li>'

    # the trade-off, in words

    def summary(self):
        text = figure('trade-off', 'The trade-off')
        text += (f'<p class="soft">Settings tried: {grouped(len(self.choices))}. '
                 f'Seeds for each: {"at most " if self.at_most else ""}{grouped(self.seeds)}.</p>\n')
        return text + self.trade_off() + FIGURE_END

    def trade_off(self):
        if not self.front:
            none = ('No setting confirms half of its crashes, so none is listed or plotted by its speed.' if self.crashed else
                    'Each run ends at moment 0, so there is nothing to compare or to plot.')
            return f'<p class="lead">{none}</p>\n'
        text = ('<p class="lead">These settings confirm half of their crashes, and no other setting beats them: none is at least as '
                'fast and at least as safe, and better in one of the two. The further down, the slower and the safer; some may be equal in both.</p>'
                if self.crashed else
                '<p class="lead">No run has a crash, so settings are compared by their false deaths and their messages. No other '
                'setting beats these: none sends at most as many messages and is at least as safe, and is better in one of the '
                'two. The further down, the more messages and the safer; some may be equal in both.</p>')
        text += ('<p class="soft">A false death: a member that has neither crashed nor left is declared dead. Safe: the whole '
                 '95&nbsp;% interval of the share of runs with a false death is at most 5&nbsp;%. Unsafe: the whole interval is '
                 'above 5&nbsp;%. Unknown: only a part of it is, so more runs would decide. A range in parentheses: the 95&nbsp;% interval.</p>'
                 '<ol class="answers">')
        text += ''.join(self.item(at) for _, at in self.front[:MOST_TOLD]) + '</ol>\n'
        if len(self.front) > MOST_TOLD:
            order = 'fastest' if self.crashed else 'fewest messages'
            more = counted(len(self.front) - MOST_TOLD, 'more is', 'more are')
            text += f'<p class="soft">These are the first {MOST_TOLD} settings on the front, {order} first. {more} on it: all have a star in the table of all settings.</p>\n'
        return text

    def item(self, at):
        case = self.cases[at]
        speed = (f'<span>first confirmed after <b>{self.ticks(case.confirmed)}</b> ticks{self.lasting(case.confirmed)}, median</span>' if self.crashed else
                 f'<span><b>{rate(case.deaths)}</b> members with a false death per run ({interval_of_deaths(case)})</span>')
        return (f'<li class="{case.safety()}"><span class="number">{grouped(at + 1)}</span><code>{self.name(at)}</code>{speed}'
                f'<span>a false death in <b>{of_runs(case)}</b> runs ({interval(case)})</span>'
                f'<span><b>{rate(case.messages)}</b> messages per member per 1,000 ticks</span>'
                f'<b class="safety">{case.safety()}</b></li>')

    # every case by its speed, or its messages, and its safety

    def front_figure(self):
        if not self.front:
            return ''
        across = max([1] + [self.across(case) or 0 for case in self.cases])
        across += across // 16
        up = max([10] + [case.high for case in self.cases])
        left, larger, title, told, unit = (
            ('the faster', 'A larger dot sends more messages. ', 'by its speed and its safety',
             'the median time until a crash is first confirmed', 'ticks until a crash is first confirmed, median')
            if self.crashed else
            ('the fewer messages', '', 'by its messages and its safety', 'messages per member', 'messages per member per 100,000 ticks'))
        text = figure('front', f'{"Fast" if self.crashed else "Few messages"} or safe: every setting')
        text += (f'<p class="soft">Each dot is a setting: the further left, {left}; the lower, the safer. Up: the share of runs '
                 f'with a false death, with its 95&nbsp;% interval as a bar. {larger}The numbered dots, joined by a line, are on '
                 'the front: no other setting is as good in both and better in one.</p><div class="chart">')
        text += axis_up(up, percent) + '<div class="plane">'
        text += plot('cases', across, up, f'Every setting {title}',
                     f'Across: {told}. Up: the share of runs with a false death. The table beneath has the settings on the front.')
        text += ''.join(self.dot(case, up) for case in self.cases if not case.is_best) + self.joined(up)
        text += ''.join(self.dot(case, up) for case in self.cases if case.is_best) + '</svg>' + self.numbers(across, up)
        text += '</div>' + axis_across(across, unit, self.tick if self.crashed else None,
                                       'time until a crash is first confirmed, median') + '</div>'
        return text + self.front_table()

    def dot(self, case, up):
        across = self.across(case)
        if across is None:
            return ''
        best = ' best' if case.is_best else ''
        most = max([1] + [it.messages or 0 for it in self.cases])
        size = min((case.messages or 0) // (most // 5 + 1), 4) + 1
        return (f'<path class="span{best}" d="M{across} {up - case.high}V{up - case.low}"/>'
                f'<path class="point r{size}{best}" d="M{across} {up - case.share}h0"/>')

    def joined(self, up):
        points = [f'{"L" if nth else "M"}{across} {up - self.cases[at].share}' for nth, (across, at) in enumerate(self.front)]
        return f'<path class="joined" d="{"".join(points)}"/>'

    def numbers(self, across, up):
        return ''.join(f'<span class="number" aria-hidden="true" style="left:{place(mine, across)};'
                       f'bottom:{place(self.cases[at].share, up)}">{grouped(at + 1)}</span>' for mine, at in self.front)

    def front_table(self):
        text = folded('The front in numbers', 'The settings on the front',
                      ('number', 'setting', *self.times(('confirmed, median',)), 'runs with a false death', 'their share', '95&nbsp;% interval',
                       'members with a false death per run', 'their 95&nbsp;% interval', 'messages per member per 1,000 ticks'))
        for _, at in self.front:
            case = self.cases[at]
            values = (self.name(at), *self.times((self.time(case.confirmed),)), *self.shares(case), rate(case.messages))
            text += f'<tr>{row_head(grouped(at + 1))}{cells("td", values)}</tr>'
        return text + FOLDED_END

    def times(self, columns):
        """Columns of times: none where no run has a crash."""
        return columns if self.crashed else ()

    def shares(self, case):
        return of_runs(case), percent(case.share), interval(case), rate(case.deaths), interval_of_deaths(case)

    # how the times of those on the front spread

    def times_figure(self):
        return times_figure([(at + 1, self.name(at), self.all_told[at]) for _, at in self.front], self.tick)

    # what each key changes

    def key_figures(self):
        """The figure of each key of two values or more, or of keys that go together, with how many cases go by before their values
        change."""
        text, before, nth = '', 1, 0
        for axis in axes_of(self.settings):
            turns = list(zip(*(values for _, values in axis)))
            before *= len(turns)
            if len(turns) > 1:
                places, name = range(nth, nth + len(axis)), '+'.join(key for key, _ in axis)
                text += KeyFigure(self, places, name, ['+'.join(map(word, turn)) for turn in turns], len(self.cases) // before).text()
            nth += len(axis)
        return text

    # all cases

    def table(self):
        late = ('suspected, median', 'confirmed, 99th percentile', 'confirmed, greatest', 'last confirmed, median', 'last confirmed, greatest')
        columns = ['number', *(key.replace('.', '.<wbr>') for key, _ in self.settings), *self.times(('confirmed, median',)),
                   'runs with a false death', 'their share', '95&nbsp;% interval', 'members with a false death per run',
                   'their 95&nbsp;% interval', *self.times(late), 'false suspicions per run', 'messages per member per 1,000 ticks',
                   *(('fatal incidents in a day', 'their 95&nbsp;% interval') if self.counts_incidents() else ())]
        text = figure('cases', 'All settings')
        since = 'counted from the crash on' if self.tick else 'in ticks since the crash'
        told = (f'Times are {since}, over all crashes of all runs; a dash stands where too few crashes were detected.' if self.crashed else
                'No run has a crash, so the columns and the plots of times since a crash are left out.')
        text += f'<p class="soft">{told} Starred settings are on the front.</p>'
        text += f'<div class="wide"><table><caption>All settings</caption><thead><tr>{heads(columns)}</tr></thead><tbody>\n'
        text += ''.join(self.row(at, case) for at, case in enumerate(self.cases))
        return text + '</tbody></table></div></section>\n'

    def row(self, at, case):
        begin, star = ('<tr class="best">', '&#9733;&nbsp;') if case.is_best else ('<tr>', '')
        times = (case.suspected, case.late, case.latest, case.last, case.last_latest)
        values = (*map(word, self.choices[at]), *self.times((self.time(case.confirmed),)), *self.shares(case),
                  *self.times(tuple(map(self.time, times))), rate(case.false), rate(case.messages), *(case.day() if self.counts_incidents() else ()))
        return f'{begin}{row_head(star + grouped(at + 1))}{cells("td", values)}</tr>\n'


class KeyFigure:
    """Three plots over the values of a key, or of keys that go together, in each a line for each choice of the others."""

    def __init__(self, page, places, name, values, after):
        self.page, self.places, self.after = page, places, after
        self.name, self.values = name, values
        self.others = len(page.cases) // len(self.values)
        self.lines = range(min(self.others, MOST_LINES))

    def at(self, line, value):
        """The place of the case of a line and a value."""
        return (line // self.after * len(self.values) + value) * self.after + line % self.after

    def case(self, line, value):
        return self.page.cases[self.at(line, value)]

    def other_keys(self, line, value):
        return self.page.told(self.at(line, value), self.places) or 'all else as in the scenario'

    def text(self):
        text = figure(f'key-{self.places[0]}', f'What {self.name} changes')
        text += (f'<p class="soft">Up: {"time" if self.page.tick else "ticks"} since the crash. Each dot is a median over all crashes of all runs, and its bar goes '
                 "from the 5th to the 95th percentile. A crash that wasn't detected counts as later than any: where more than "
                 "5&nbsp;% weren't, the bar goes to the top of the plot; where more than half weren't, there is no dot.</p>")
        text += '<ul class="legend">'
        for line in self.lines:
            text += (f'<li><svg class="sample" viewBox="0 0 20 10" aria-hidden="true"><path class="path s{line}" d="M0 5H20"/></svg>'
                     f'<code>{self.other_keys(line, 0)}</code></li>')
        text += '</ul>'
        if self.others > MOST_LINES:
            more = counted(self.others - MOST_LINES, 'more line is', 'more lines are')
            text += f'<p class="soft">{more} not drawn; the table of all settings has all figures.</p>'
        text += '<div class="many">' + ''.join(self.plot(nth, title) for nth, (title, _) in enumerate(STATISTICS)) + '</div>'
        return text + self.table()

    def plot(self, nth, statistic):
        """The plot of a statistic; a sixteenth and a tick are free above the last time, where only bars without an end come to."""
        title = f'{statistic}: median, 5th to 95th'
        spreads = {(line, value): self.case(line, value).spreads[nth] for line in self.lines for value in range(len(self.values))}
        last = max([1] + [time for spread in spreads.values() for time in spread if time is not None])
        most = last + last // 16 + 1
        text = f'<div><h3>{title}</h3><div class="chart">' + axis_up(most, tick=self.page.tick) + '<div class="plane">'
        text += plot('lines', 32 * len(self.values), most, title,
                     f'{"Time" if self.page.tick else "Ticks"} since the crash against the values of the key: a line of medians for each value of the others, and over '
                     'each value a bar from the 5th to the 95th percentile, or to the top where more than 5 % of the crashes '
                     "weren't detected.")
        for line in self.lines:
            over = [spreads[line, value] for value in range(len(self.values))]
            text += self.path(line, over, most) + self.marks(line, over, most)
        text += '</svg></div><div class="values" aria-hidden="true">'
        for at, value in enumerate(self.values):
            if at % (len(self.values) // 8 + 1) == 0:
                text += f'<span style="left:{place(32 * at + 16, 32 * len(self.values))}">{value}</span>'
        return text + '</div></div></div>'

    def across(self, line, value):
        return 32 * value + 16 - (len(self.lines) - 1) + 2 * line

    def path(self, line, spreads, most):
        text, is_joined = f'<path class="path s{line}" d="', False
        for value, (_, median, _) in enumerate(spreads):
            if median is not None:
                text += f'{"L" if is_joined else "M"}{self.across(line, value)} {most - median}'
            is_joined = median is not None
        return text + '"/>'

    def marks(self, line, spreads, most):
        """A bar over each value, open to the top where the times have no 95th percentile, and a dot."""
        text = ''
        for value, (early, median, late) in enumerate(spreads):
            across = self.across(line, value)
            if early is not None:
                text += f'<path class="reach s{line}" d="M{across} {most - early}V{0 if late is None else most - late}"/>'
            if median is not None:
                text += f'<path class="mark s{line}" d="M{across} {most - median}h0"/>'
        return text

    def table(self):
        suspected, confirmed, last = (tuple(f'{what}, {which}' for which in ('5th percentile', 'median', '95th percentile'))
                                      for what in ('suspected', 'confirmed', 'last confirmed'))
        text = folded('These figures in numbers', 'What is drawn' if self.page.tick else 'What is drawn, in ticks',
                      ('value', 'other keys', *suspected, *confirmed, 'confirmed, 99th percentile', *last, 'last confirmed, greatest'))
        for line in self.lines:
            for nth, value in enumerate(self.values):
                case = self.case(line, nth)
                suspected, confirmed, last = case.spreads
                times = (*suspected, *confirmed, case.late, *last, case.last_latest)
                text += '<tr>' + cells('td', (value, self.other_keys(line, nth), *map(self.page.time, times))) + '</tr>'
        return text + FOLDED_END


def word(value):
    """A value as the words of a sweep have it."""
    return str(value).lower()


def page_of(name, release, style, settings, seeds, at_most, cases, wants=(), tick=None):
    """The page of the sweep of a file of this name, of which this is wanted, where a tick lasts so many microseconds, or it isn't known
    how long."""
    page = Page(settings, seeds, at_most, cases, wants, tick)
    head = page_opening(name, ' - swimsim sweep', style) + f'Which setting of {escaped(name)}?</h1></header>\n'
    end = f'<footer class="soft">swimsim {escaped(release)}</footer></main></body></html>\n'
    times = page.times_figure() + page.key_figures() if page.crashed else ''
    return head + page.question() + page.summary() + page.front_figure() + times + page.table() + end
