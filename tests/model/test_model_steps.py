"""Steps of one member of the second simulator, one event after another, held against tables that were worked out
by hand from docs/PROTOCOL.md: what the last of these events makes. `random_cases.py` compares the program with
that simulator on whole runs."""

import json

from model_links import Draws
from model_member import Event, Member, Update
from program import Case, DATA, expect
from scenarios import document_of, judge

FOLDER = DATA / 'steps'
SEED = 7
TEXT = 'version = {version}\nseed = 7\nend = 0\n[swim]\n{swim}\n[link]\ndelay = 10\n{rest}\n{groups}'

# the word of an event, what it is called in the model, and the names of its numbers
EVENTS = {
    'start': ('start', []), 'crash': ('crash', []), 'leave': ('leave', []), 'join-timer': ('join timer', []),
    'period': ('period timer', []), 'timeout': ('timeout timer', ['sequence']),
    'nack-timer': ('nack timer', ['initiator', 'sequence']), 'suspicion': ('suspicion timer', ['subject']),
    'join': ('join', []), 'welcome': ('welcome', []), 'ping': ('ping', ['initiator', 'sequence']),
    'ping-req': ('ping-req', ['sequence', 'target']), 'ack': ('ack', ['initiator', 'sequence']),
    'nack': ('nack', ['sequence']), 'bye': ('bye', []),
}
WORDS = {called: (word, names) for word, (called, names) in EVENTS.items()}
WITH_UPDATES = ('ping', 'ping-req', 'ack')


class Stage:
    """Stands for a run: it keeps the rows and the events that a member makes."""

    def __init__(self, scenario):
        self.scenario, self.event = scenario, None
        self.numbers = {member['name']: number for number, member in enumerate(scenario['members'])}
        self.rows, self.made = [], []

    def pend(self, event):
        self.made.append(event)


# ---- Lines ----

def update_of(words):
    """A claim on its way of a text such as `2 alive 0 by 3`: its subject, claim, incarnation number and accuser."""
    subject, claim, incarnation, _, accuser = words.split()
    return int(subject), claim, int(incarnation), int(accuser)


def event_of(line, member):
    """The event of a line: the moment, the sender, the sender's number of it, and what it asks."""
    words, *told = line.split(', ')
    moment, maker, number, word, *numbers = words.split()
    called, names = EVENTS[word]
    content = dict(zip(names, map(int, numbers), strict=True))
    updates = [update_of(update) for update in told]
    if word == 'nack-timer':
        content = {'relay': (content['initiator'], content['sequence'])}
    if word == 'welcome':
        content = {'entries': {subject: (claim, incarnation) for subject, claim, incarnation, _ in updates}}
    if word in WITH_UPDATES:
        content['updates'] = [Update(subject, accuser, claim, incarnation)
                              for subject, claim, incarnation, accuser in updates]
    return Event(int(moment), member, int(maker), int(number), called, content)


def line_of(event):
    """The line of an event that was made: its number, its moment, its receiver, and what it asks."""
    word, names = WORDS[event.what]
    content = event.content
    if word == 'nack-timer':
        content = dict(zip(names, content['relay']))
    numbers = ''.join(f' {content[name]}' for name in names)
    updates = [(update.subject, update.claim, update.incarnation, update.accuser) for update in content.get('updates', [])]
    updates += [(subject, *held, event.maker) for subject, held in sorted(content.get('entries', {}).items())]
    told = ''.join(f', {subject} {claim} {incarnation} by {accuser}' for subject, claim, incarnation, accuser in updates)
    return f'{event.number} at {event.moment} to {event.member} {word}{numbers}{told}'


def row_line(row):
    about = '-' if row.about is None else row.about
    return f'{row.what} {about} {row.value}{" lost" if row.lost else ""}'


# ---- A case ----

def drawn_by(case):
    """What the member of a case draws, by name: numbers below a bound, from some number on, and orders of members."""
    draws, named = Draws(SEED, case.get('member', 0)), {}
    for drawn in case.get('draws', []):
        if 'shuffle' in drawn:
            order = list(drawn['shuffle'])
            draws.shuffle(order)
            named.update(zip(drawn['as'], order))
        else:
            named[drawn.get('as')] = draws.below(drawn['below']) + drawn.get('from', 0)
    return {name: value for name, value in named.items() if name}


def setting_of(settings, name):
    """The keys of a setting, those of the one that it is like included."""
    keys = settings[name] if isinstance(name, str) else name
    return {**(setting_of(settings, keys['like']) if 'like' in keys else {}), **keys}


def filled(lines, drawn):
    return [line.format(**drawn) for line in lines]


def stage_of(case, settings, named, drawn):
    """The stage once the member of a case has handled the last of its events, with what that one made."""
    text = TEXT.format(**setting_of(settings, case.get('setting', 'growing'))).format(**drawn)
    rule, scenario = judge(document_of(text.encode()))
    expect('rule', rule, 0)
    stage = Stage(scenario)
    member = Member(stage, case.get('member', 0))
    for step in case['steps']:
        line = step if step[0].isdigit() else named[step][0]
        stage.rows, stage.made = [], []
        stage.event = event_of(line, member.number)
        member.handle(stage.event)
    return stage


def check(_, case, settings, named):
    """Compares what the last event of a case makes with what the case says."""
    drawn = drawn_by(case)
    stage = stage_of(case, settings, named, drawn)
    rows, made = [row_line(row) for row in stage.rows], [line_of(event) for event in stage.made]
    for row in stage.rows:
        expect('the key of a row', row[:4], stage.event[:4])
    for name, seen in (('rows', rows), ('events', made)):
        if name in case:
            expect(name, seen, filled(case[name], drawn))
        if f'first_{name}' in case:
            first = filled(case[f'first_{name}'], drawn)
            expect(f'the first {name}', seen[:len(first)], first)
    if 'end' in case:
        expect('the end of the last event', made[-1][-len(case['end']):], case['end'])
    for what, number in case.get('count', {}).items():
        expect(f'rows {what}', sum(row.what == what for row in stage.rows), number)


def cases():
    """Each case of the tables."""
    shared = json.loads((FOLDER / 'settings.json').read_text())
    for path in sorted(FOLDER.glob('*.json')):
        if path.stem == 'settings':
            continue
        held = json.loads(path.read_text())
        settings = {**shared, **held.get('settings', {})}
        for table in held['tables']:
            for case in table['cases']:
                yield Case(f'step, {table["about"]}: {case["name"]}', check,
                           ({**table.get('each', {}), **case}, settings, held['events']))
