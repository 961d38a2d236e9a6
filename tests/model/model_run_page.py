"""The page of a run, a second time: what `run --page` writes, of the scenario and the run's rows.

Written from docs/PAGES.md ("The page of a run") alone.
"""

import functools
import tomllib
from pathlib import Path

from model_drawing import (FIGURE_END, PLOT_END, area, axis_across, axis_up, band, dot, escaped, figure, grouped, heads, lasting,
                           lasting_between, legend, legend_entry, line, moment_alone, page_opening, plot, rule, time_alone, time_text)
from model_rows import CONFIRM, SUSPECT
from model_run_series import MOST_HEALTH, MOST_SPANS, Series, deaths_of
from scenarios import keys_of

MOST_LANES, MOST_FALSE_DEATHS, MOST_CAUSES, MOST_ACCUSERS = 60, 200, 20, 4
MESSAGE_CLASSES = {
    'ping': 'one', 'ack': 'two', 'join': 'three', 'nack': 'four', 'ping-req': 'five', 'welcome': 'six', 'bye': 'seven',
    'gossip': 'eight', 'push': 'nine', 'pull': 'ten', 'call': 'eleven', 'answer': 'twelve',
}
# the rows that only the members of a harness write
HARNESS_ROWS = ('left', 'forget', 'reconnect')
HEALTH_CLASSES = ('two', 'one', 'six', 'dead')
# the tables and lists of keys, in the order in which they are told
TOLD_TABLES = ('swim', 'suspicion', 'lifeguard', 'link', 'gossip', 'stream')
TABLE_END = '</table></div></details>'
PRESETS = Path(__file__).parents[1] / 'data' / 'presets'


def counted(number, one, several):
    """A number and the words for one thing, or for several."""
    return f'{grouped(number)} {one if number == 1 else several}'


@functools.cache
def preset(name):
    """What `init NAME` prints, as a document."""
    return tomllib.loads((PRESETS / f'{name}.toml').read_text())


def differs(value, usual):
    """A key isn't as in a preset that has it."""
    return usual is not None and value != usual


def opening(caption, columns):
    """A table begins, which says what it shows, and of what its heads are."""
    return f'<div class="wide"><table><caption>{caption}</caption><thead><tr>{heads(columns)}</tr></thead><tbody>'


def folded(summary, caption, columns):
    return f'<details><summary>{summary}</summary>{opening(caption, columns)}\n'


def row_head(words):
    return f'<tr><th scope="row">{words}</th>'


class Page:
    """The page of a run of a scenario with these rows, where a tick lasts so many microseconds, or it isn't known how long."""

    def __init__(self, scenario, rows, tick):
        self.scenario, self.series, self.tick = scenario, Series(scenario, rows), tick
        self.others = max(1, len(self.series.names) - 1)
        self.past = self.series.end + 1
        self.lanes = self.series.lanes()
        self.deaths = deaths_of(rows)

    def text(self, release):
        return (self.summary() + self.lanes_figure() + self.false_deaths() + self.causes() + self.spread() + self.traffic() + self.health()
                + Settings(self.scenario).text(release))

    def time(self, ticks):
        return time_text(self.tick, ticks)

    def time_cell(self, ticks):
        return f'<td>{time_alone(self.tick, ticks)}'

    def from_cell(self, span):
        return f'<td>{self.begin(span)}'

    def begin(self, span):
        return moment_alone(self.tick, span * self.series.width)

    def width(self):
        """How long a span is."""
        return f'{counted(self.series.width, "tick", "ticks")}{self.lasting(self.series.width)}'

    def lasting(self, ticks):
        return lasting(self.tick, ticks)

    def time_axis(self):
        return axis_across(max(1, self.series.end), 'moment, in ticks', self.tick, 'moment')

    # what happened, in words

    def summary(self):
        series = self.series
        crashed, out = len(series.crash), sum(story.false_deaths > 0 for story in series.stories)
        text = (f'<p class="lead">{counted(len(series.names), "member", "members")}, {counted(series.end, "tick", "ticks")}{self.lasting(series.end)}. '
                + self.crash_words(crashed))
        text += {0: 'No member that was up was declared dead.',
                 1: '<b>1 member was declared dead while it was up.</b>'}.get(
                     out, f'<b>{out} members were declared dead while they were up.</b>')
        deaths, recoveries = series.false_deaths, sum(sum(story.recovered.values()) for story in series.stories)
        figures = [('', crashed, 'member crashed', 'members crashed'),
                   ('bad' if out else '', out, 'member with a false death', 'members with a false death'),
                   ('bad' if deaths else '', deaths, 'false death', 'false deaths')]
        if self.scenario['version'] == 3:
            figures.append(('', recoveries, 'time declared alive again', 'times declared alive again'))
        figures += [('', series.false_suspicions, 'false suspicion', 'false suspicions'),
                    ('', series.told['refute'], 'refutation', 'refutations'), ('', series.told['fail'], 'failed probe', 'failed probes'),
                    ('', series.worst_health, 'worst health', 'worst health'), ('', series.rows, 'row in the trace', 'rows in the trace')]
        figures += [('', series.told[what], f'row <code>{what}</code>', f'rows <code>{what}</code>')
                    for what in HARNESS_ROWS if series.told[what]]
        items = ''.join(f'<li class="{kind}"><b>{grouped(count)}</b><span>{one if count == 1 else several}</span></li>'
                        for kind, count, one, several in figures)
        return f'{text}</p><ul class="figures">{items}</ul>\n'

    def crash_words(self, crashed):
        found = self.series.found.values()
        if not crashed:
            return 'Nobody crashed. '
        text = '1 member crashed' if crashed == 1 else f'{crashed} members crashed'
        known = sum(story.false_deaths > 0 and member in self.series.crash and member not in self.series.found
                    for member, story in enumerate(self.series.stories))
        if not found and known in (0, crashed):
            return text + (', already declared dead. ' if known else ', undetected. ')
        if not found:
            return f'{text}, {known} already declared dead, the others undetected. '
        was = 'was' if len(found) == 1 else 'were'
        text += f', {len(found)} of them {was} detected' if len(found) < crashed else ''
        text += f', {known} already declared dead' if known else ''
        least, greatest = min(found), max(found)
        if greatest > least:
            after = f'{grouped(least)} to {grouped(greatest)} ticks{lasting_between(self.tick, least, greatest)}'
        else:
            after = f'{grouped(least)} ticks{self.lasting(least)}'
        return f'{text}: first declared dead after {after}. '

    # a lane for each member of whom there is something to tell

    def lanes_figure(self):
        text = figure('lanes', 'Who was suspected, and who was declared dead')
        if not self.lanes:
            return f'{text}<p>No member was suspected, crashed, left, was slow or was paused.</p>{FIGURE_END}'
        text += ('<p class="soft">One lane per member. Its height stands for all other members: how many of them suspect it, and how '
                 'many have declared it dead.</p>')
        bands = [('slow', 'it is slow'), ('pause', 'it is paused'), ('cut', 'it is cut off')]
        text += legend([('suspect', 'suspect it'), ('dead', 'have declared it dead'), *(it for it in bands if self.scenario[it[0]])])
        text += ('<p class="soft">Solid vertical line: the member crashes; dashed: it leaves or starts; dotted: others declare it alive '
                 'again; dot: it refutes a claim.</p>')
        text += f'<p class="soft">Each column is {self.width()} wide: a shorter suspicion is drawn as wide.</p>'
        text += ''.join(self.lane(member) for member in self.lanes[:MOST_LANES])
        text += f'<div class="lane">{self.time_axis()}</div>'
        if len(self.lanes) > MOST_LANES:
            more = len(self.lanes) - MOST_LANES
            text += f'<p class="soft">{more} {"more member isn" if more == 1 else "more members aren"}\'t shown.</p>'
        return text + self.lane_table() + FIGURE_END

    def claims(self, member):
        """How many others suspect a member in each span, and how many have declared it dead."""
        story = self.series.stories[member]
        return [self.series.heights(story.came[what], story.went[what], self.others) for what in (SUSPECT, CONFIRM)]

    def lane(self, member):
        name, width = self.series.names[member], self.series.width
        suspect, dead = self.claims(member)
        text = f'<div class="lane"><div class="name">{name}</div>'
        text += plot('', self.past, self.others, name, 'Over time, how many other members suspect it and how many have declared it dead.')
        text += self.bands(member)
        text += area('suspect', dead, [min(self.others, sum(both)) for both in zip(suspect, dead)], width, self.past, self.others)
        text += area('dead', [0] * len(dead), dead, width, self.past, self.others)
        return f'{text}{self.marks(member)}{PLOT_END}<div class="told">{self.told(member)}</div></div>\n'

    def bands(self, member):
        ended = [(kind, it['from'], it['until']) for kind in ('slow', 'pause') for it in self.series.those(kind, member)]
        ended += [('cut', it['at'], it['until']) for it in self.series.cuts(member)]
        return ''.join(band(kind, min(first, self.past), min(until, self.past), self.others) for kind, first, until in ended)

    def marks(self, member):
        series, story = self.series, self.series.stories[member]
        start, text = self.scenario['members'][member]['start'], ''
        if 0 < start <= series.end:
            text += rule('start', start, self.others)
        for kind, moments in (('crash', series.crash), ('leave', series.leave)):
            if member in moments:
                text += rule(kind, moments[member], self.others)
        for kind, shape, counts in (('back', rule, story.recovered), ('refute', dot, story.refuted)):
            text += ''.join(shape(kind, span * series.width + series.width // 2, self.others) for span in series.spans if counts[span])
        return text

    def told(self, member):
        """What befell a member, in words."""
        series, story = self.series, self.series.stories[member]
        words = []
        if story.false_deaths:
            back = sum(story.recovered.values())
            words.append(f'<b>{counted(story.false_deaths, "false death", "false deaths")}</b>, first at {self.time(story.first_confirm[0])}'
                         + (f', declared alive again {counted(back, "time", "times")}' if back else ''))
        if member in series.crash or member in series.leave:
            gone = f'crashed at {self.time(series.crash[member])}' if member in series.crash else f'left at {self.time(series.leave[member])}'
            found = f'first declared dead at {self.time(story.first_confirm[0])}' if story.first_confirm else 'never declared dead'
            words.append(f'{gone}, {found}')
        return '; '.join(words) or ('suspected, and refuted it' if story.last_refute else 'never declared dead')

    def lane_table(self):
        text = folded('The lanes as a table',
                      'How many members suspect each member, and how many have declared it dead, from each moment at which that changes',
                      ['member', 'from moment', 'suspect it', 'have declared it dead'])
        for member in self.lanes[:MOST_LANES]:
            last = 0, 0
            for span, both in enumerate(zip(*self.claims(member))):
                if both != last:
                    text += f'{row_head(self.series.names[member])}{self.from_cell(span)}<td>{both[0]}<td>{both[1]}'
                last = both
        return text + TABLE_END

    # who was declared dead while it was up

    def false_deaths(self):
        members = [member for member in self.lanes if self.series.stories[member].false_deaths]
        if not members:
            return ''
        text = figure('false-deaths', 'False deaths')
        text += opening('Members that were declared dead although they were up',
                        ['member', 'first declared dead', 'by', 'line of the trace', 'false deaths', 'declared alive again',
                         'failed probes of it']) + '\n'
        return text + ''.join(map(self.false_deaths_row, members[:MOST_FALSE_DEATHS])) + '</table></div>' + FIGURE_END

    def false_deaths_row(self, member):
        story = self.series.stories[member]
        moment, accuser, place = story.first_confirm
        return (f'{row_head(self.series.names[member])}{self.time_cell(moment)}<td>{self.series.names[accuser]}<td>{place}'
                f'<td>{grouped(story.false_deaths)}<td>{grouped(sum(story.recovered.values()))}'
                f'<td>{grouped(story.failed_probes)}\n')

    # how false deaths came about

    def causes(self):
        if not self.deaths:
            return ''
        text = figure('causes', 'How false deaths came about')
        text += ('<p class="soft">Each false death that is the first under its member\'s incarnation number: the later ones under that '
                 'number follow from it, or have the same cause.</p>')
        text += ''.join(map(self.cause, self.deaths[:MOST_CAUSES]))
        if len(self.deaths) > MOST_CAUSES:
            more = len(self.deaths) - MOST_CAUSES
            text += f'<p class="soft">{grouped(more)} {"more isn" if more == 1 else "more aren"}\'t shown.</p>'
        return text + FIGURE_END

    def cause(self, death):
        row, names = death.row, self.series.names
        text = f'<div class="cause"><h3>{names[row.about]} at {self.time(row.moment)}</h3><ul>'
        text += f'<li>{names[row.member]} declared it dead first, on line {death.line}, under incarnation number {grouped(row.value)}.'
        text += f'{self.states(row.member, row.moment, row.moment)}</li>'
        since = self.began(death.accusers[0]) if death.accusers else row.moment
        text += f'<li>From {self.time(since)} until its death:{self.states(row.about, since, row.moment)}</li>'
        if death.refutation:
            refuted, line, heard = death.refutation
            text += (f'<li>It had last refuted at {self.time(refuted.moment)}, on line {line}; members that had heard of that by then: '
                     f'{grouped(heard)}.</li>')
        else:
            text += '<li>It had refuted nothing.</li>'
        if death.is_later:
            text += ('<li>It was suspected under a higher incarnation number before that; these are its accusers under that '
                     'one.</li>')
        text += ''.join(map(self.accuser, death.accusers[:MOST_ACCUSERS]))
        if not death.accusers:
            text += '<li>Nobody accused it on its own evidence.</li>'
        if len(death.accusers) > MOST_ACCUSERS:
            more = len(death.accusers) - MOST_ACCUSERS
            text += f'<li>{counted(more, "more accusation isn", "more accusations aren")}\'t shown.</li>'
        return text + '</ul></div>\n'

    @staticmethod
    def began(accuser):
        """When an accuser's probe began, where that is known; else when it accused."""
        row, _, ping, _ = accuser
        return ping[0].moment if ping else row.moment

    def accuser(self, accuser):
        row, line, ping, answers = accuser
        text = f'<li>{self.series.names[row.member]} accused it at {self.time(row.moment)}, on line {line}.'
        if ping:
            sent, place = ping
            text += f' Its ping of {self.time(sent.moment)}, on line {place}, {self.fate(sent)}'
            text += self.answers(sent, answers)
        return f'{text}{self.states(row.member, self.began(accuser), row.moment)}</li>'

    @staticmethod
    def fate(sent):
        return 'was lost.' if sent.lost else "wasn't lost."

    def answers(self, ping, answers):
        """What came of a probe: the target's ack, and the helpers' answers."""
        acks = [(row, line) for row, line in answers if row.what == 'ack' and row.member == ping.about]
        asked = [row for row, _ in answers if row.what == 'ping-req']
        helped = [row for row, _ in answers if row.what != 'ping-req' and row.member != ping.about]
        helped = [row for row in helped if row.what in ('ack', 'nack')]
        text = '' if ping.lost or acks else ' No ack was sent by then.'
        if acks:
            row, line = acks[-1]
            text = f' The ack of {self.time(row.moment)}, on line {line}, {self.fate(row)}'
        if asked:
            text += (f' Helpers asked: {grouped(len(asked))} (requests lost: {grouped(sum(row.lost for row in asked))}). Their answers '
                     f'by then: {grouped(len(helped))} (lost: {grouped(sum(row.lost for row in helped))}).')
        return text

    def states(self, member, first, last):
        """What a member was at some moment of a time: of slow times, pauses and cuts the last that the text has."""
        text = ''
        for entries, begin, words in ((self.series.those('slow', member), 'from', 'slow by {}'),
                                      (self.series.those('pause', member), 'from', 'paused'),
                                      (self.series.cuts(member), 'at', 'cut off')):
            then = [entry for entry in entries if entry[begin] <= last and first < entry['until']]
            if then:
                told = words.format(self.time(then[-1].get('extra', 0)))
                text += (f' {self.series.names[member]} was {told} from {self.time(then[-1][begin])} until '
                         f'{self.time(then[-1]["until"])}.')
        return text or f' {self.series.names[member]} was well.'

    # how the news of a crash spread

    def spread(self):
        watched = [(member, self.series.stories[member].learned) for member in self.series.watched]
        latest = max((at for _, learned in watched for moments in learned.values() for at in moments.values()), default=0)
        if not watched:
            return ''
        text = figure('spread', 'How the news of a crash spread')
        text += legend([('suspect', 'have suspected it'), ('dead', 'have declared it dead')])
        text += '<p class="soft">A member that suspected it, or held it dead, when it crashed counts as having heard at once.</p>'
        if self.series.unwatched:
            text += f'<p class="soft">{len(self.series.unwatched)} more crashed; these are the first {len(watched)} by number.</p>'
        text += '<div class="many">'
        return text + ''.join(self.news(member, learned, latest // MOST_SPANS + 1) for member, learned in watched) + '</div>' + FIGURE_END

    def news(self, member, learned, step):
        """The plot of a crash, in steps of so many ticks, and its table."""
        stay = [other for other in range(len(self.series.names)) if other != member and self.series.stays(other)]
        suspected, dead = (sorted(learned[what][other] for other in learned[what] if self.series.stays(other))
                           for what in (SUSPECT, CONFIRM))
        name, width, most = self.series.names[member], MOST_SPANS * step, max(1, len(stay), len(suspected), len(dead))
        text = f'<div><h3>{name}</h3><div class="chart">{axis_up(most)}'
        text += plot('', width, most, name,
                     'How many members had suspected it, and how many had declared it dead, by the time since its crash.')
        for kind, times in (('suspect', suspected), ('dead', dead)):
            reached = [sum(time < (nth + 1) * step for time in times) for nth in range(MOST_SPANS)]
            text += line(kind, reached, step, most)
        text += f'{PLOT_END}{axis_across(width, "ticks since the crash", self.tick, "time since the crash")}</div>'
        text += opening('How long after the crash these shares of the members up had heard of it', ['of those up', 'first', '50 %', '90 %', '99 %', 'all'])
        text += self.shares('suspected it after', suspected, len(stay)) + self.shares('declared it dead after', dead, len(stay))
        return text + '</table></div></div>\n'

    def shares(self, words, times, of_all):
        ranks = [max(1, (of_all * percent + 99) // 100) for percent in (0, 50, 90, 99, 100)]
        return row_head(words) + ''.join(self.time_cell(times[rank - 1]) if rank <= len(times) else '<td>-' for rank in ranks)

    # messages, and health

    def stacked(self, layers, most):
        """An area for each layer, each on those before it: of each its class and its heights."""
        text, bases = '', [0] * len(self.series.spans)
        for kind, heights in layers:
            tops = [base + height for base, height in zip(bases, heights)]
            text, bases = text + area(kind, bases, tops, self.series.width, self.past, most), tops
        return text

    def chart(self, kind, title, description, layers, least=0):
        """A plot of layers over time, at least so high; nothing where it has no height."""
        most = max(least, *map(sum, zip(*(heights for _, heights in layers))))
        chart = f'chart {kind}'.strip()
        return (f'<div class="{chart}">{axis_up(most)}{plot("", self.past, most, title, description)}{self.stacked(layers, most)}{PLOT_END}'
                f'{self.time_axis()}</div>') if most else ''

    def traffic(self):
        series, told = self.series, self.series.told
        sent, lost = ([[counts[kind][span] for span in series.spans] for kind in series.kinds] for counts in (series.sent, series.lost))
        all_sent, all_lost = (sum(map(sum, counts)) for counts in (sent, lost))
        rate = all_sent * 100000 // max(1, max(1, series.end) * len(series.names))
        text = figure('traffic', 'Messages')
        text += (f'<p class="soft">Messages sent: {grouped(all_sent)}; lost: {grouped(all_lost)}; sent per member per 1,000 ticks: '
                 f'{rate // 100}.{rate % 100:02}.</p>')
        text += '<ul class="legend">'
        text += ''.join(legend_entry(MESSAGE_CLASSES[kind], f'{kind} {grouped(told[kind])}') for kind in series.kinds if told[kind])
        text += (legend_entry('lost', 'lost, of all kinds') if all_lost else '') + '</ul>'
        if all_sent:
            layers = [(MESSAGE_CLASSES[kind], heights) for kind, heights in zip(series.kinds, sent)]
            text += self.chart('', 'Messages sent', 'How many messages of each kind were sent in each span of time.', layers)
            text += f'<p class="soft">Sent in each span of {self.width()}.</p>' + self.losses(lost)
            text += self.messages_table([(kind, *both) for kind, *both in zip(series.kinds, sent, lost) if told[kind]])
        return text + FIGURE_END

    def messages_table(self, columns):
        """Of each kind that was sent its name, and how many were sent and lost in each span."""
        text = folded('The messages as a table',
                      'How many messages of each kind were sent in each span of time, and how many of them were lost',
                      ['from moment', *(head for kind, _, _ in columns for head in (kind, f'{kind} lost'))])
        for span in self.series.spans:
            text += row_head(self.begin(span)) + ''.join(f'<td>{ours[span]}<td>{theirs[span]}' for _, ours, theirs in columns)
        return text + TABLE_END

    def losses(self, lost):
        layer = [sum(counts) for counts in zip(*lost)]
        text = self.chart('low', 'Messages lost', 'How many messages were lost in each span of time.', [('lost', layer)])
        return text + (f'<p class="soft">Lost in each span of {self.width()}.</p>' if text else '')

    def health(self):
        series = self.series
        if not series.worst_health:
            return ''
        values = range(1, MOST_HEALTH + 1)
        heights = [series.ends(series.worse[value], series.better[value]) for value in values]
        text = figure('health', 'Members in bad health')
        text += ('<p class="soft">A member\'s health score (Lifeguard) rises as its own probes fail and as it refutes; answered probes '
                 'lower it. The score at the end of each span counts. Members at 0 aren\'t drawn.</p>')
        text += legend(zip(HEALTH_CLASSES, ('at 1', 'at 2', 'at 3', 'at 4 and more')))
        layers = [(HEALTH_CLASSES[min(value, 4) - 1], counts) for value, counts in zip(values, heights)]
        text += self.chart('low', 'Health scores', 'How many members have each health score.', layers, 1)
        text += folded('Health scores as a table', 'How many members have each health score, from each moment at which that changes',
                       ['health score', 'from moment', 'members'])
        for value, counts in zip(values, heights):
            for span, count in enumerate(counts):
                if count != (counts[span - 1] if span else 0):
                    text += f'{row_head(value)}{self.from_cell(span)}<td>{count}'
        return text + TABLE_END + FIGURE_END


class Settings:
    """What was run: each key of the scenario, those in bold that aren't as in the nearest preset, and what it has happen."""

    def __init__(self, scenario):
        self.scenario = scenario
        self.keys = keys_of(scenario['version'])
        self.preset = min(('lan', 'wan', 'local') if scenario['version'] == 3 else ('swim',), key=self.differing)
        self.usual = preset(self.preset)

    def differing(self, name):
        """How many keys aren't as in a preset."""
        usual = preset(name)
        return sum(differs(self.scenario[table][key], usual.get(table, {}).get(key))
                   for table in TOLD_TABLES if self.scenario.get(table) for key in self.keys[table].keys)

    def text(self, release):
        keys = ''.join(self.key(name, self.scenario[name], False) for name in ('version', 'seed', 'end'))
        keys += ''.join(self.table(name) for name in TOLD_TABLES)
        keys += ''.join(map(self.group, self.scenario['group'])) + ''.join(map(self.path, self.scenario['path'])) + self.events()
        text = figure('settings', 'What was run')
        text += (f'<p class="soft">In bold: keys of tables that aren\'t as <code>init {self.preset}</code> prints them, late starts, and paths '
                 'with a link of their own.</p>')
        return f'{text}<ul class="keys">{keys}</ul><p class="soft">swimsim {escaped(release)}</p>{FIGURE_END}'

    @staticmethod
    def item(words, is_changed):
        return f'<li{" class=" + chr(34) + "changed" + chr(34) if is_changed else ""}>{words}</li>'

    def key(self, name, value, is_changed):
        told = {True: 'on', False: 'off'}[value] if isinstance(value, bool) else grouped(value)
        return self.item(f'{name} {told}', is_changed)

    def table(self, name):
        held = self.scenario.get(name)
        return ''.join(self.key(f'{name}.{key}', held[key], differs(held[key], self.usual.get(name, {}).get(key)))
                       for key in self.keys[name].keys) if held else ''

    def group(self, group):
        start = f', start {grouped(group["start"])}' if group['start'] else ''
        contact = f', contact {escaped(group["contact"])}' if group.get('contact') else ''
        return self.item(f'group {group["name"]}: count {grouped(group["count"])}{start}{contact}', bool(start))

    def path(self, path):
        link, own = ([entry[key] for key in ('delay', 'jitter', 'loss')] for entry in (self.scenario['link'], path))
        told = 'delay {}, jitter {}, loss {}'.format(*map(grouped, own))
        return self.item(f'path {path["from"]} to {path["to"]}: {told}', link != own)

    def events(self):
        """What happens to each member, and the cuts."""
        told = {member['name']: [] for member in self.scenario['members']}
        for what in ('crash', 'leave'):
            for entry in self.scenario[what]:
                told[entry['member']].append(f'{what} at {grouped(entry["at"])}')
        for what in ('slow', 'pause'):
            for entry in self.scenario[what]:
                begun = f'slow by {grouped(entry["extra"])}' if what == 'slow' else 'paused'
                told[entry['member']].append(f'{begun} from {grouped(entry["from"])} until {grouped(entry["until"])}')
        words = [f'{name}: {event}' for name, events in told.items() for event in events]
        words += [f'cut {cut["from"]} to {cut["to"]} from {grouped(cut["at"])} until {grouped(cut["until"])}'
                  for cut in self.scenario['cut']]
        return ''.join(self.item(escaped(it), False) for it in words)


def page_of(name, release, style, scenario, rows, tick=None):
    """The page of the run of a scenario's file of this name, where a tick lasts so many microseconds, or it isn't known how long."""
    head = page_opening(name, ' - swimsim', style) + f'{escaped(name)}</h1></header>\n'
    return head + Page(scenario, rows, tick).text(release) + '</main></body></html>\n'
