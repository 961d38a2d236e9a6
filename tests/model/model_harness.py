"""A harness whose members are the model's own, for tests/model/model_drive.py.

Its members draw from the words that the world draws from. So each says by `used` how many words it took of its
own, and goes over the links itself to keep pace. In version 4 a member draws a dial's trips itself, and its connected timer
is a timer of the harness; the row of a dial can't be told, so T lacks it.
"""

import collections
import json

from model_drive import compact
from model_links import Draws
from model_member import Event, Member, Update
from model_member_four import MemberFour

# rows that the world writes, and by which action it does so, if by one
WORLD_ROWS = {'start': None, 'restart': None, 'crash': None, 'leave': None, 'exit': {'exit': True}}
STREAMS = ('call', 'answer')
# the events by which a process begins, as it is told
STARTS = {False: 'start', True: 'restart'}


class CountedDraws(Draws):
    """Draws that count the words which are taken."""

    words = 0

    def word(self):
        self.words += 1
        return super().word()


def payload_of(content):
    """What a message holds, as JSON: updates and tables as lists."""
    content = dict(content)
    if 'entries' in content:
        content['entries'] = [[subject, *held] for subject, held in content['entries'].items()]
    return content


def content_of(payload):
    content = dict(payload)
    if 'updates' in content:
        content['updates'] = [Update(*update) for update in content['updates']]
    if 'entries' in content:
        content['entries'] = {subject: (claim, number) for subject, claim, number in content['entries']}
    return content


class Driven:
    """A member of the model that writes what it does as actions."""

    def __init__(self, run, number):
        super().__init__(run, number)
        self.draws = CountedDraws(run.scenario['seed'], number)
        self.actions, self.timers, self.told = [], [], 0

    def say_used(self):
        """Tells of the words that were taken since the last action, besides those of the links."""
        left, self.told = self.draws.words - self.told, self.draws.words
        if left > 0:
            self.actions.append({'used': left})

    def row(self, what, about=None, value=0, lost=0):
        if what not in WORLD_ROWS:
            named = {} if about is None else {'about': self.run.names[about]}
            self.actions.append({'row': what, **named, 'value': value})
        elif WORLD_ROWS[what]:
            self.say_used()
            self.actions.append(WORLD_ROWS[what])

    def send(self, what, to, value=0, **content):
        self.say_used()
        self.actions.append({'send': what, 'to': self.run.names[to], 'value': value,
                             'payload': payload_of(content), 'stream': what in STREAMS})
        rows = self.actions[:]
        super().send(what, to, value, **content)
        # the world writes the row and makes the event
        self.actions, self.told = rows, self.draws.words

    def make(self, moment, member, what, content):
        self.next_number += 1

    def set_timer(self, moment, what, **content):
        """Sets a timer. One that never comes is set all the same, since it takes a number, and means nothing."""
        after, what = (1, None) if moment is None else (moment - self.now, what)
        self.actions.append({'timer': len(self.timers), 'after': after})
        self.timers.append((what, content))
        self.next_number += 1


class DrivenMember(Driven, Member):
    """A member of versions 1 to 3."""


class DrivenFour(Driven, MemberFour):
    """A member of version 4."""

    def dial(self, kind, to):
        """No row of a dial can be told."""
        rows = self.actions[:]
        done = super().dial(kind, to)
        self.actions = rows + [action for action in self.actions[len(rows):] if 'row' not in action]
        return done

    def restart(self, event):
        """Its draws go on, and what was told of them."""
        told = self.told
        super().restart(event)
        self.told = told


class Harness:
    """Answers events, in the order in which they are told."""

    def __init__(self, scenario):
        self.scenario, self.event = scenario, None
        self.names = [member['name'] for member in scenario['members']]
        self.numbers = {name: number for number, name in enumerate(self.names)}
        kind = DrivenFour if scenario['version'] >= 4 else DrivenMember
        self.members = [kind(self, number) for number in self.numbers.values()]
        self.lines, self.told = collections.deque(), []

    def tell(self, line):
        self.told.append(line)
        told = json.loads(line)
        if told['event'] in ('crash', 'end'):
            return
        member = self.members[self.numbers[told['member']]]
        member.actions = []
        self.event = self.event_of(member, told)
        if self.event.what is not None:
            member.handle(self.event)
        member.say_used()
        self.lines.append((compact(member.actions) + '\n').encode())

    def answer(self):
        return self.lines.popleft() if self.lines else b''

    def event_of(self, member, told):
        what, content = told['event'], {}
        if what == 'start':
            what, content = STARTS[told.get('again', False)], {'contact': told.get('contact')}
        if what == 'timer':
            what, content = member.timers[told['id']]
        if what == 'message':
            what, content = told['what'], content_of(told['payload'])
        return Event(told['moment'], member.number, self.numbers[told['from']], told['number'], what, content)
