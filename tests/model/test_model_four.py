"""Version 4 in the second simulator, until the program takes it: runs that were followed by hand, a line after the other
(tests/data/four/NAME.toml, its whole trace and report), and single calls (calls.json)."""

import json
import tomllib

from model import Run, rows_of
from model_buffers import INTENT, Buffer, Bytes, Queue, Sizes
from model_expand import plain_text
from model_member import Update
from model_text import report_of, trace_of
from program import Case, DATA, expect
from scenarios import document_of, judge
from tables import head, item, table
from worked import text_of

FOLDER = DATA / 'four'
NEWEST = 4
LONG = 'g' * 30 + '-0'
# how often an update is sent in a case
LIMIT = 2


def scenario_of(text):
    rule, scenario = judge(document_of(text.encode()), NEWEST)
    expect('rule', rule, 0)
    return scenario


def cluster(meta=0):
    """The scenario of a member with a name of 32 bytes and three with names of 3 bytes."""
    return scenario_of(head(0, version=4) + table('gossip', interval=1, queue=True, meta=meta) + table('link', delay=1)
                       + item('group', name=LONG[:-2], count=1) + item('group', name='n', count=3))


def number_of(name):
    """The member of a name, where `32` stands for the long one, and none for the first."""
    return {'32': 0, '': 0, 'n-0': 1, 'n-1': 2, 'n-2': 3}[name]


def check_run(_, name):
    """Compares the trace and the report of a run with those that were worked out; its text is plain."""
    text = text_of(FOLDER / f'{name}.toml')
    expect('the plain text', plain_text(tomllib.loads(text)).encode(), text.encode())
    scenario = scenario_of(text)
    rows = rows_of(scenario)
    expect('trace', trace_of(scenario, rows).encode(), (FOLDER / f'{name}.trace').read_bytes())
    expect('report', report_of(scenario, rows).encode(), (FOLDER / f'{name}.report').read_bytes())


def check_overrides(_, rows):
    """Compares which claims override which."""
    member = Run(cluster()).members[0]
    for claim, incarnation, held, held_incarnation, wanted in rows:
        seen = member.overrides(Update(1, 0, claim, incarnation), held, held_incarnation)
        expect(f'{claim} {incarnation} on {held} {held_incarnation}', seen, wanted)


def check_lengths(_, claim, rows):
    """Compares how long claims are."""
    for subject, accuser, incarnation, meta, wanted in rows:
        update = Update(number_of(subject), number_of(accuser), claim, incarnation)
        expect(f'{subject} {accuser} {incarnation} {meta}', Sizes(cluster(meta)).length(update), wanted)


def check_pick(_, case):
    """Compares what a message takes of a queue and of intents by bytes, and what is left of its room."""
    sizes = Sizes(cluster())
    queue, intents, room = Queue(sizes.length), Buffer(), Bytes(case['room'], sizes.taken)
    for claim, subject, incarnation in case.get('items', []):
        queue.put(Update(number_of(subject), number_of('n-0'), claim, incarnation))
    for subject in case.get('intents', []):
        intents.put(Update(number_of(subject), number_of(subject), INTENT, 0))
    if 'before' in case:
        queue.pick(LIMIT, Bytes(case['before'], sizes.taken))
    picked = queue.pick(LIMIT, room) + intents.pick(LIMIT, room)
    names = [member['name'] for member in cluster()['members']]
    expect('picked', [f'{update.claim} {names[update.subject]}' for update in picked], case['picked'])
    expect('left', room.left, case['left'])


def cases():
    """Each run and each call."""
    for path in sorted(FOLDER.glob('*.toml')):
        yield Case(f'version 4, run {path.stem}', check_run, (path.stem,))
    held = json.loads((FOLDER / 'calls.json').read_text())
    for group in held['overrides']:
        yield Case(f'version 4, overrides: {group["about"]}', check_overrides, (group['rows'],))
    for group in held['lengths']:
        yield Case(f'version 4, lengths of {group["claim"]}: {group["about"]}', check_lengths, (group['claim'], group['rows']))
    for case in held['picks']:
        yield Case(f'version 4, pick: {case["about"]}', check_pick, (case,))
