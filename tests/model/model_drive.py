#!/usr/bin/env python3
"""The world of a drive: events go out as lines, answers come in as lines.

    tests/model/model_drive.py FILE --trace T [--report R]

plays the scenario FILE over standard output and standard input. Written from docs/DRIVE.md alone. `Drive` plays a
scenario with a harness: an object whose `tell` takes the line of an event and whose `answer` gives the next line that
the harness wrote, or what there is of it. tests/model/model_harness.py is such a harness.
"""

import collections
import heapq
import json
import os
import sys

from model import asked
from model_answers import Exit, LONGEST, NoAnswer, Send, Timer, Told, Used, answer_of
from model_links import Draws, arrival, awake
from model_member import Event
from model_rows import Row
from model_text import report_of, trace_of
from scenarios import script_of

# what happens to a member by the text
SCRIPT = ('start', 'restart', 'crash', 'leave')


def compact(value):
    return json.dumps(value, separators=(',', ':'), ensure_ascii=False)


class Closed(Exception):
    """A harness that can't be told any more."""


class Process:
    """What the world keeps of a member."""

    def __init__(self, scenario, number):
        self.phase = 'waiting'      # then 'up', 'leaving' or 'down'
        self.next_number = 1 + len(script_of(scenario, scenario['members'][number]['name']))
        self.birth = 0              # the number from which on its timers are of its present process
        self.draws = Draws(scenario['seed'], number)

    def heeds(self, event):
        """Whether an event has an effect."""
        if self.phase == 'waiting':
            return event.what == 'start'
        if self.phase == 'down':
            return event.what == 'restart'
        is_former = event.what == 'timer' and event.number < self.birth
        return not is_former and not (self.phase == 'leaving' and event.what == 'leave')


class Drive:
    """A world, and what its harness has been told and has not answered yet."""

    def __init__(self, scenario, harness):
        self.scenario, self.harness = scenario, harness
        self.names = [member['name'] for member in scenario['members']]
        self.numbers = {name: number for number, name in enumerate(self.names)}
        self.processes = [Process(scenario, number) for number in self.numbers.values()]
        self.pending = [[] for _ in self.names]     # a heap for each member
        self.waiting = []                           # told and not answered, in the order told
        self.line = ''                              # of the event whose answer is taken
        self.rows, self.answers, self.is_first = [], 0, True
        for number, member in enumerate(scenario['members']):
            self.pend(Event(member['start'], number, number, 0, 'start', {}))
            for place, (what, entry) in enumerate(script_of(scenario, member['name']), 1):
                self.pend(Event(entry['at'], number, number, place, what, entry))

    def pend(self, event):
        heapq.heappush(self.pending[event.member], event)

    # ---- Which event is told ----

    def least_delay(self):
        """The least delay of all links between two different members, or None."""
        counts = collections.Counter(member['group'] for member in self.scenario['members'])
        links = {(path['from'], path['to']): path for path in self.scenario['path']}
        pairs = [(one, other) for one in counts for other in counts if one != other or counts[one] > 1]
        return min((links.get(pair, self.scenario['link'])['delay'] for pair in pairs), default=None)

    def least(self):
        """The least event that pends, also one that is told, if it is no later than the end."""
        firsts = [held[0] for held in self.pending if held and held[0].moment <= self.scenario['end']]
        return min(firsts, default=None)

    def safe(self, delay):
        """The event that is told next, or None."""
        least = self.least()
        busy = {event.member for event, _ in self.waiting}
        past = self.scenario['end'] + 1 if delay is None else min(self.scenario['end'] + 1, least.moment + delay)
        found = [held[0] for member, held in enumerate(self.pending)
                 if held and member not in busy and held[0].moment < past]
        return min(found, default=None)

    def go(self):
        """Plays the scenario, and gives its rows. Where an answer is none, or the harness can't be reached, the error has
        the rows of all events before the first that isn't answered."""
        delay = self.least_delay()
        try:
            while self.least() is not None:
                event = self.safe(delay)
                if event is None:
                    self.take_answer()
                elif self.processes[event.member].heeds(event):
                    line = self.line_of(event)
                    self.harness.tell(line)
                    self.settle_or_wait(event, line)
                else:
                    self.settle(event, [])
        except (NoAnswer, Closed) as error:
            error.rows = self.before(self.least())
            raise
        return self.before(None)

    def tell_end(self):
        """Tells that all is written."""
        self.harness.tell(f'{{"moment":{self.scenario["end"]},"event":"end"}}\n')

    def before(self, event):
        """The rows of all events that come before this one."""
        rows = [row for row in self.rows if event is None or row[0][:4] < event[:4]]
        return [row for _, _, row in sorted(rows, key=lambda row: (row[0][:4], row[1]))]

    def settle_or_wait(self, event, line):
        if event.what == 'crash':
            self.settle(event, [])
        else:
            self.waiting.append((event, line))

    def take_answer(self):
        event, self.line = self.waiting[0]
        self.answers += 1
        actions = answer_of(self.harness.answer(), event.member, self.numbers, self.may_exit(event))
        self.waiting.pop(0)
        self.settle(event, actions)

    def may_exit(self, event):
        """Whether the process that answers was told to leave, at the latest by this event."""
        is_leaving = self.processes[event.member].phase == 'leaving' and event.what != 'restart'
        return self.scenario['version'] >= 4 and (is_leaving or event.what == 'leave')

    # ---- What an event comes to ----

    def settle(self, event, actions):
        """Handles the event, which its harness answered by these actions."""
        heapq.heappop(self.pending[event.member])
        process = self.processes[event.member]
        self.event, self.index = event, 0
        if not process.heeds(event):
            return
        if event.what in SCRIPT:
            self.row(event.what)
        if event.what in ('start', 'restart'):
            process.phase = 'up'
        if event.what == 'restart':
            process.birth = process.next_number
        if event.what == 'leave' and self.scenario['version'] >= 4:
            process.phase = 'leaving'
        for action in actions:
            self.act(action)
        if event.what == 'crash' or event.what == 'leave' and self.scenario['version'] < 4:
            process.phase = 'down'

    def row(self, what, about=None, value=0, lost=0):
        self.rows.append((self.event, self.index, Row(*self.event[:4], what, about, value, lost)))
        self.index += 1

    def act(self, action):
        now, member = self.event.moment, self.event.member
        if isinstance(action, Exit):
            self.row('exit')
            self.processes[member].phase = 'down'
        if isinstance(action, Told):
            self.row(action.what, action.about, action.value)
        if isinstance(action, Used):
            for _ in range(action.words):
                self.processes[member].draws.word()
        if isinstance(action, Timer):
            self.make(awake(self.scenario, member, now + action.after), member, 'timer', {'id': action.id})
        if isinstance(action, Send):
            comes = self.arrival(action)
            self.row(action.what, action.to, action.value, int(comes is None))
            self.make(comes, action.to, 'message', {'what': action.what, 'value': action.value,
                                                    'payload': action.payload})

    def make(self, moment, member, what, content):
        process = self.processes[self.event.member]
        if moment is not None:
            self.pend(Event(moment, member, self.event.member, process.next_number, what, content))
        process.next_number += 1

    def arrival(self, action):
        """When a message arrives, or None where it is lost."""
        ends, now = (self.event.member, action.to), self.event.moment
        draws = self.processes[self.event.member].draws
        if action.what in ('push', 'pull') or not action.stream:
            kind = action.what if action.what in ('push', 'pull') else 'ping'
        else:
            kind = 'call' if action.what == 'call' else 'answer'
        return arrival(self.scenario, kind, ends, now, draws)

    # ---- Lines ----

    def line_of(self, event):
        """The line that tells an event."""
        told = {'moment': event.moment, 'member': self.names[event.member], 'from': self.names[event.maker],
                'number': event.number, 'event': 'start' if event.what == 'restart' else event.what}
        if event.what in ('start', 'restart'):
            told |= self.of_start(event)
        if event.what == 'timer':
            told |= event.content
        payload = None
        if event.what == 'message':
            payload = event.content['payload']
            told |= {'what': event.content['what'], 'value': event.content['value']}
        line = compact(told)
        return line[:-1] + (f',"payload":{payload}' if payload is not None else '') + '}\n'

    def of_start(self, event):
        member = self.scenario['members'][event.member]
        told = {'index': event.member, 'seed': self.scenario['seed']}
        if self.is_first:
            self.is_first = False
            told |= {'members': self.names,
                     'founders': [member['name'] for member in self.scenario['members'] if member['start'] == 0]}
        contact = event.content['contact'] if event.what == 'restart' else member['contact'] if member['start'] > 0 else None
        if contact is not None:
            told['contact'] = contact
        if event.what == 'restart':
            told['again'] = True
        return told


# ---- Over pipes ----

class Pipes:
    """A harness behind standard output and standard input."""

    def tell(self, line):
        self.write(line.encode())

    def answer(self):
        self.flush()
        return sys.stdin.buffer.readline(LONGEST + 1)

    def flush(self):
        self.write(b'')

    def write(self, text):
        try:
            sys.stdout.buffer.write(text)
            if not text:
                sys.stdout.buffer.flush()
        except BrokenPipeError as error:
            raise Closed from error


def write_out(options, scenario, rows, is_whole):
    if options.trace:
        options.trace.write_text(trace_of(scenario, rows))
    if options.report and is_whole:
        options.report.write_text(report_of(scenario, rows))


def played(drive, options):
    """Plays the scenario, and gives the status."""
    try:
        rows = drive.go()
    except (NoAnswer, Closed) as error:
        write_out(options, drive.scenario, error.rows, False)
        if isinstance(error, Closed):
            return 1
        print(f'swimsim: answer {drive.answers} {error.cause}\n{error}\n{drive.line}', end='', file=sys.stderr)
        return 6
    write_out(options, drive.scenario, rows, True)
    try:
        drive.tell_end()
        drive.harness.flush()
    except Closed:
        return 1
    return 0


def main():
    scenario, options = asked()
    # what is left to be flushed to a pipe that is closed is given up
    os._exit(played(Drive(scenario, Pipes()), options))


if __name__ == '__main__':
    main()
