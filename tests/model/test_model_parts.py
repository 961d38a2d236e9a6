"""Single calls of what the second simulator is made of, held against what was worked out by hand or published: draws,
how long suspicions last, and when messages arrive."""

import json

from model_links import Draws, arrival, trip, trips_of_call
from model_member import Suspicion, logarithm
from program import Case, DATA, expect
from scenarios import NEWEST, document_of, judge

FOLDER = DATA / 'parts'


def drawn(case):
    """What a stream gives: numbers below a bound, whether something is lost, or an order, and the number after it."""
    draws = Draws(*case['stream'])
    if 'below' in case:
        return [draws.below(case['below']) for _ in case['wanted']]
    if 'lost' in case:
        return [draws.is_lost(case['lost']), draws.below(1_000_000)]
    order = list(case['shuffle'])
    draws.shuffle(order)
    return [*order, draws.below(1_000_000)] if case.get('and_next') else order


def check_draws(_, case):
    expect('draws', drawn(case), case['wanted'])


def check_times(_, terms, members, further, wanted):
    """Compares how long a suspicion lasts that started among so many members, once so many more have accused."""
    version = terms.get('version', 1)
    scenario = {'version': version, 'swim': {'period': terms['period']},
                'suspicion': {'alpha': terms['alpha'], 'beta': terms['beta']},
                'lifeguard': {'suspicion': terms.get('shortens', True), 'confirmations': terms['confirmations']}}
    expect('timeout', Suspicion(scenario, 0, 0, members).timeout(further), wanted)


def check_logarithm(_, version, number, wanted):
    expect(f'the logarithm of {number}', logarithm(number, version), wanted)


def check_arrival(_, text, case):
    """Compares when what one member sends to another arrives, and that it drew no more than so many numbers."""
    rule, scenario = judge(document_of(text.encode()), NEWEST)
    expect('rule', rule, 0)
    draws, untouched = Draws(*case['stream']), Draws(*case['stream'])
    what, ends, now = case['what'], tuple(case['ends']), case['now']
    if what == 'trip':
        there = trip(scenario, ends, now, case['again'], draws)
    elif what == 'call':
        there = trips_of_call(scenario, ends, now, draws)
    else:
        there = arrival(scenario, what, ends, now, draws)
    expect('arrival', there, case['wanted'])
    for bound in case.get('draws', []):
        untouched.below(bound)
    expect('the next draw', draws.below(1 << 30), untouched.below(1 << 30))


def cases():
    """Each call of the tables."""
    held = json.loads((FOLDER / 'draws.json').read_text())
    for case in held:
        yield Case(f'part, draws: {case["name"]}', check_draws, (case,))
    held = json.loads((FOLDER / 'times.json').read_text())
    for table in held['timeouts']:
        for members, further, wanted in table['wanted']:
            yield Case(f'part, times: {table["name"]}, {members} members, {further} further', check_times,
                       (table['terms'], members, further, wanted))
    for version, number, wanted in held['logarithms']:
        yield Case(f'part, logarithm of {number} in version {version}', check_logarithm, (version, number, wanted))
    held = json.loads((FOLDER / 'links.json').read_text())
    for table in held:
        for case in table['cases']:
            yield Case(f'part, links: {case["name"]}', check_arrival, (table['text'], case))
