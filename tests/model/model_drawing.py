"""Numbers, words, axes and shapes of pages, for the models of the pages of runs and sweeps.

Written from docs/PAGES.md alone; how they look is the style's, which isn't modelled but taken as it stands.
"""

import html
import unicodedata


# ---- Numbers and words ----

# characters that are invisible or turn the direction of others, beside control characters, each from and to which
HIDDEN = ((0xad, 0xad), (0x61c, 0x61c), (0x200b, 0x200f), (0x2028, 0x202e), (0x2060, 0x206f), (0xfeff, 0xfeff), (0xe0000, 0xe007f))


def is_hidden(character):
    number = ord(character)
    return unicodedata.category(character) == 'Cc' or any(first <= number <= last for first, last in HIDDEN)


def escaped(text):
    shown = html.escape(text, quote=True).replace('&#x27;', '&#39;')
    return ''.join(f'\\u{{{ord(it):x}}}' if is_hidden(it) else it for it in shown)


def grouped(number):
    return f'{number:,}'


# how many microseconds each unit of a length has
SECOND = 10**6
LONG_UNITS = (('d', 24 * 3600 * SECOND), ('h', 3600 * SECOND), ('min', 60 * SECOND))
SHORT_UNITS = (('s', SECOND), ('ms', 1000), ('&micro;s', 1))


def in_unit(length, name, unit):
    whole, part = divmod(length * 10**6 // unit, 10**6)
    return f'{whole}.{part:06}'.rstrip('0').rstrip('.') + f' {name}'


def length_words(length):
    """A length of so many microseconds, in words."""
    words = []
    for name, unit in LONG_UNITS:
        count, length = divmod(length, unit)
        words += [f'{count} {name}'] if count else []
    if words:
        return ' '.join(words + ([in_unit(length, 's', SECOND)] if length else []))
    return in_unit(length, *next((it for it in SHORT_UNITS if it[1] <= length), SHORT_UNITS[0]))


def lasting(tick, ticks):
    """How long so many ticks last, where it is known how many microseconds a tick lasts."""
    return f' ({length_words(tick * ticks)})' if tick else ''


def lasting_between(tick, least, greatest):
    """From how long to how long."""
    return f' ({length_words(tick * least)} to {length_words(tick * greatest)})' if tick else ''


def time_text(tick, ticks):
    return grouped(ticks) + lasting(tick, ticks)


def time_alone(tick, ticks):
    """A time in a cell of a table: in units alone, where it is known how many microseconds a tick lasts."""
    return length_words(tick * ticks) if tick else grouped(ticks)


def moment_alone(tick, ticks):
    """A moment at which a row of a table begins: the same, but its number of ticks has no commas."""
    return length_words(tick * ticks) if tick else str(ticks)


def place(value, most):
    """Where a value stands on an axis, in percent."""
    parts = 10000 if value >= most else value * 10000 // most
    return f'{parts // 100}.{parts % 100:02}%'


def heads(values):
    """The heads of columns."""
    return ''.join(f'<th scope="col">{value}</th>' for value in values)


def cells(tag, values):
    return ''.join(f'<{tag}>{value}</{tag}>' for value in values)


# ---- Axes and legends ----

# the steps of an axis of time, in microseconds, up to half a day; longer ones are 1, 2 or 5 and zeros of days
SIXTIETHS = (1, 2, 5, 10, 15, 30)
TIME_STEPS = ([digit * 10 ** power for power in range(6) for digit in (1, 2, 5)] + [it * SECOND for it in SIXTIETHS]
              + [it * 60 * SECOND for it in SIXTIETHS] + [it * 3600 * SECOND for it in (1, 2, 3, 6, 12)])
DAY = 24 * 3600 * SECOND


def step_of(most, ticks):
    """The least round step of which so many, at most, fit."""
    steps = (digit * 10 ** power for power in range(19) for digit in (1, 2, 5))
    return next((step for step in steps if most // step <= ticks), most + 1)


def steps_up(most, ticks):
    step = step_of(most, ticks)
    return range(0, most + 1, step)


def time_step_of(length, ticks):
    """The least round step of time of which so many, at most, fit into a length."""
    return next((step for step in TIME_STEPS if length // step <= ticks), None) or DAY * step_of(length // DAY, ticks)


def ticks_across(places, most, told):
    """The ticks of an axis across, of which each says what is told of its place."""
    text = '<div class="across" aria-hidden="true">'
    for at in places:
        style = ' class="last"' if at > most - most // 16 else ''
        text += f'<span{style} style="left:{place(at, most)}">{told(at)}</span>'
    return text


def axis_across(most, unit, tick=None, lasting_unit=None):
    """An axis across; one of time is in units of time, and has a unit of its own, where it is known how long a tick of the simulation lasts."""
    if tick:
        length = tick * most
        text = ticks_across(range(0, length + 1, time_step_of(length, 4)), length, length_words)
    else:
        text = ticks_across(steps_up(most, 5), most, grouped)
    return text + f'</div><p class="unit">{escaped(lasting_unit if tick else unit)}</p>'


def axis_up(most, told=grouped, tick=None):
    """An axis up; one of time is in units of time, where it is known how long a tick of the simulation lasts."""
    text, places = '<div class="up" aria-hidden="true">', steps_up(most, 4)
    if tick:
        most, told = tick * most, length_words
        places = range(0, most + 1, time_step_of(most, 4))
    for at in places:
        text += f'<span style="bottom:{place(at, most)}">{told(at)}</span>'
    return text + '</div>'


def legend_entry(kind, words):
    return (f'<li><svg class="swatch" viewBox="0 0 10 10" aria-hidden="true"><rect class="{kind}" width="10" height="10"/></svg>'
            f'{words}</li>')


def legend(entries):
    return '<ul class="legend">' + ''.join(legend_entry(*entry) for entry in entries) + '</ul>'


# ---- Figures and plots ----

FIGURE_END = '</section>\n'
PLOT_END = '</svg>'


def figure(name, heading):
    return f'<section id="{name}"><h2>{escaped(heading)}</h2>\n'


def plot(kind, width, height, title, description):
    return (f'<svg class="plot {kind}" viewBox="0 0 {width} {height}" preserveAspectRatio="none" role="img">'
            f'<title>{escaped(title)}</title><desc>{escaped(description)}</desc>')


def area(kind, bases, tops, step, width, most):
    """What lies between bases and tops in each step, up to the width."""
    text = ''
    for nth, (base, top) in enumerate(zip(bases, tops)):
        if top > base:
            text += f'M{nth * step} {most - base}V{most - top}H{min(nth * step + step, width)}V{most - base}'
    return f'<path class="{kind}" d="{text}"/>'


def line(kind, heights, step, most):
    """A line that goes level through each step."""
    text, last = f'M0 {most}', 0
    for nth, height in enumerate(heights):
        if height != last:
            text, last = text + f'H{nth * step}V{max(0, most - height)}', height
    return f'<path class="line {kind}" d="{text}H{len(heights) * step}"/>'


def band(kind, first, past, most):
    return f'<rect class="{kind}" x="{first}" y="0" width="{past - first}" height="{most}"/>'


def rule(kind, at, most):
    return f'<path class="rule {kind}" d="M{at} 0V{most}"/>'


def dot(kind, at, most):
    return f'<path class="halo" d="M{at} {most // 2}h0"/><path class="dot {kind}" d="M{at} {most // 2}h0"/>'


# ---- Pages ----

def page_opening(name, kind, style):
    """A page up to the words of its heading. A browser takes the styles within it, and loads and runs nothing."""
    return ('<!DOCTYPE html>\n<html lang="en"><head><meta charset="utf-8">'
            '<meta http-equiv="Content-Security-Policy" content="default-src \'none\'; style-src \'unsafe-inline\'">'
            '<meta name="viewport" content="width=device-width,initial-scale=1">'
            f'<title>{escaped(name)}{kind}</title><style>{style}</style></head>\n<body><main><header><h1>')
