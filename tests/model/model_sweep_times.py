"""How the times to confirm spread, a second time: that section of a sweep's page, and what it is drawn of.

Written from docs/PAGES.md ("The page of a sweep").
"""

from model_drawing import FIGURE_END, PLOT_END, axis_across, axis_up, cells, figure, grouped, heads, lasting, plot, rule, time_alone
from model_sweeps import deaths_per_run, percentile

# so many bins have the times of a case, and so many cases are drawn, at the most
BINS, MOST_DRAWN = 20, 12
# the names of percentiles beside the median
SPREAD = {f'{which}_p{percent}': (which, percent) for which in ('suspect', 'confirm', 'last') for percent in (5, 95)}


def spread_of(figures):
    """What is told of a case beside the figures that are printed, of the figures of its runs."""
    times = {which: [time for run in figures for time in run['times'][which]] for which in ('suspect', 'confirm', 'last')}
    told = {name: percentile(times[which], percent) for name, (which, percent) in SPREAD.items()}
    told.update(deaths_per_run([run['thrown_out'] for run in figures]))
    told['crashes'] = len(times['confirm'])
    told['confirm_times'] = bins_of([time for time in times['confirm'] if time is not None])
    return told


def bins_of(times):
    """How many of these times are in each of equal bins from 0 on, as narrow as hold them all."""
    width = max(times, default=0) // BINS + 1
    return {'width': width, 'bins': [sum(time // width == nth for time in times) for nth in range(BINS)]}


class Times:
    """A case of the section: its number, its name as HTML, its median, and its bins that have times; and how many microseconds a tick
    lasts, or None."""

    def __init__(self, tick, number, name, case):
        self.number, self.name, self.median, self.tick = grouped(number), name, case['confirm_p50'], tick
        self.title = f'Setting {number}: time until a crash is first confirmed'
        self.crashes, width = case['crashes'], case['confirm_times']['width']
        self.bins = [(nth * width, (nth + 1) * width, count)
                     for nth, count in enumerate(case['confirm_times']['bins']) if count]
        self.never = self.crashes - sum(count for _, _, count in self.bins)

    def end(self):
        """Where its last bin ends."""
        return max((past for _, past, _ in self.bins), default=0)

    def chart(self, across):
        up = max([1] + [count for _, _, count in self.bins])
        text = (f'<div><h3><span class="number">{self.number}</span> <code>{self.name}</code></h3>'
                f'<p class="soft">Median: {grouped(self.median)} ticks{lasting(self.tick, self.median)}. Never confirmed: {grouped(self.never)} '
                f'of {grouped(self.crashes)} crashes.</p>')
        text += '<div class="chart">' + axis_up(up) + '<div class="plane">'
        text += plot('times', across, up, self.title,
                     f'Across: {"time" if self.tick else "ticks"} since the crash, as far as in each chart here. Up: how many crashes were first confirmed '
                     'then. The upright rule is the median. The table beneath has the numbers.')
        text += ''.join(bar('one', first, past, count, up) for first, past, count in self.bins)
        text += rule('median', self.median, up) + PLOT_END + '</div>'
        return text + axis_across(across, 'ticks since the crash', self.tick, 'time since the crash') + '</div></div>'

    def rows(self):
        spans = [(f'{time_alone(self.tick, first)} to {time_alone(self.tick, past - 1)}', count) for first, past, count in self.bins]
        return ''.join('<tr>' + cells('td', (self.number, span, grouped(count))) + '</tr>'
                       for span, count in [*spans, ('never', self.never)])


def bar(kind, first, past, count, most):
    return f'<rect class="{kind}" x="{first}" y="{most - count}" width="{past - first}" height="{count}"/>'


def times_figure(cases, tick):
    """The section of the cases on the front, each with its number, its name as HTML and its dict, where a tick lasts so many
    microseconds, or it isn't known how long."""
    if not cases:
        return ''
    drawn = [Times(tick, *case) for case in cases[:MOST_DRAWN]]
    across = max([1] + [case.end() for case in drawn])
    text = figure('times', 'How the times to confirm spread')
    text += ('<p class="soft">For each of the fastest settings on the front, at most 12: how many crashes of all its runs were '
             'first confirmed after how many ticks. A bar is as wide as the span of ticks that it counts, and all charts reach as far as the latest of '
             'these times; the upright rule is the median.</p>')
    text += '<div class="many">' + ''.join(case.chart(across) for case in drawn) + '</div>'
    if len(cases) > MOST_DRAWN:
        more = len(cases) - MOST_DRAWN
        text += f'<p class="soft">{grouped(more)} more {"setting on the front is" if more == 1 else "settings on the front are"} not drawn.</p>'
    text += ('<details><summary>These times in numbers</summary><div class="wide"><table>'
             '<caption>How many crashes were first confirmed when</caption><thead><tr>'
             f'{heads(("setting", ("time" if tick else "ticks") + " until first confirmed", "crashes"))}</tr></thead><tbody>')
    return text + ''.join(case.rows() for case in drawn) + '</tbody></table></div></details>' + FIGURE_END
