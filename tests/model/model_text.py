"""The trace and the report, for tests/model/model.py.

Written from docs/FORMAT.md ("The trace", "The report") alone. What the report of version 4 has of a whole cluster is in
model_watch.py.
"""

import model_watch
from model_links import slow_by
from model_rows import ALIVE, CONFIRM, LEFT, SUSPECT, Row, is_death

# the messages of the report's last lines, by the version that names them
MESSAGES = {
    1: ['join', 'welcome', 'ping', 'ping-req', 'ack', 'nack'],
    2: ['bye'],
    3: ['gossip', 'call', 'answer', 'push', 'pull'],
    4: ['reconnect'],
}


def messages_of(version):
    return [what for first, whats in MESSAGES.items() if first <= version for what in whats]


# ---- The trace (docs/FORMAT.md, "The trace") ----

def trace_of(scenario, rows):
    """The trace's text."""
    names = [member['name'] for member in scenario['members']]
    lines = ['moment,member,from,number,what,about,value,lost']
    for row in rows:
        about = '' if row.about is None else names[row.about]
        lines.append(f'{row.moment},{names[row.member]},{names[row.maker]},{row.number},'
                     f'{row.what},{about},{row.value},{row.lost}')
    return ''.join(line + '\n' for line in lines)


def rows_in(scenario, trace):
    """The rows that a trace's text has."""
    numbers = {member['name']: number for number, member in enumerate(scenario['members'])}
    fields = [line.split(',') for line in trace.splitlines()[1:]]
    return [Row(int(moment), numbers[member], numbers[maker], int(number), what, numbers.get(about), int(value),
                int(lost)) for moment, member, maker, number, what, about, value, lost in fields]


# ---- The report (docs/FORMAT.md, "The report") ----

def told(number):
    return '-' if number is None else str(number)


def until_restart(rows, member):
    """The rows before the member starts again."""
    past = next((place for place, row in enumerate(rows) if row.what == 'restart' and row.member == member), len(rows))
    return rows[:past]


def ends_of(scenario, rows, what):
    """Of each row of this kind, a crash or a leave: its member, moment, A, B, C and D, up to its next restart."""
    found = []
    for place, row in enumerate(rows):
        if row.what == what:
            later = [other for other in until_restart(rows[place + 1:], row.member) if other.about == row.member]
            suspects = [other.moment for other in later if other.what == SUSPECT]
            confirms = [other.moment for other in later if is_death(scenario, other)]
            suspect = suspects[0] if suspects else None
            first, last = (confirms[0], confirms[-1]) if confirms else (None, None)
            found.append((row.member, row.moment, suspect, first, last, len(confirms)))
    return found


def false_rows(scenario, rows, what):
    """The rows of this kind, suspicions or deaths, about a member that has no crash or leave earlier since it started;
    those of them by members that aren't slow."""
    down, found = set(), []
    for row in rows:
        if row.what in ('crash', 'leave'):
            down.add(row.member)
        if row.what == 'restart':
            down.discard(row.member)
        is_such = is_death(scenario, row) if what == CONFIRM else row.what == what
        if is_such and row.about not in down:
            found.append(row)
    return found, [row for row in found if slow_by(scenario, row.member, row.moment) == 0]


def revived(scenario, rows):
    """How many rows of a member say that somebody is alive of whom its last such row said a death."""
    deaths = (CONFIRM, LEFT) if scenario['version'] >= 4 else (CONFIRM,)
    last, count = {}, 0
    for row in rows:
        if row.what in (ALIVE, SUSPECT, *deaths):
            count += row.what == ALIVE and last.get((row.member, row.about)) in deaths
            last[row.member, row.about] = row.what
    return count


def restart_lines(names, rows):
    """A line for each restart."""
    return [f'restart {names[member]} {at} joined {told(joined)} back {told(back)} holders {holders}'
            for member, at, joined, back, holders in model_watch.restarts_of(rows)]


def incident_lines(scenario, rows):
    """Since when the cluster is whole, and what alarmed an operator."""
    alarms, deaths, members, well = model_watch.incidents(scenario, rows)
    return [f'whole {told(model_watch.whole_since(scenario, rows))}',
            f'alarms {alarms} deaths {deaths} members {members} well {well}']


def report_of(scenario, rows):
    """The report's text."""
    names = [member['name'] for member in scenario['members']]
    lines = [f'members {len(names)}', f'end {scenario["end"]}', f'rows {len(rows)}']
    latencies = []
    for member, at, suspect, first, last, count in ends_of(scenario, rows, 'crash'):
        latency = None if first is None else first - at
        latencies += [] if first is None else [latency]
        lines.append(f'crash {names[member]} {at} suspect {told(suspect)} confirm {told(first)} '
                     f'last {told(last)} confirmers {count} latency {told(latency)}')
    for member, at, _, first, last, count in ends_of(scenario, rows, 'leave') if scenario['version'] > 1 else []:
        lines.append(f'leave {names[member]} {at} confirm {told(first)} last {told(last)} confirmers {count}')
    if scenario['version'] >= 4:
        lines += restart_lines(names, rows)
    least, greatest = min(latencies, default=None), max(latencies, default=None)
    lines.append(f'latency least {told(least)} greatest {told(greatest)}')
    for what in (SUSPECT, CONFIRM):
        found, healthy = false_rows(scenario, rows, what)
        lines.append(f'false {what} {len(found)} healthy {len(healthy)}')
    lines += [f'revived {revived(scenario, rows)}'] * (scenario['version'] >= 3)
    if scenario['version'] >= 4:
        lines += incident_lines(scenario, rows)
    lines += [f'{what} {sum(row.what == what for row in rows)}' for what in ('accuse', 'refute', 'fail')]
    lines.append(f'health {max((row.value for row in rows if row.what == "health"), default=0)}')
    for what in messages_of(scenario['version']):
        sent = [row.lost for row in rows if row.what == what]
        lines.append(f'sent {what} {len(sent)} lost {sum(sent)}')
    return ''.join(line + '\n' for line in lines)
