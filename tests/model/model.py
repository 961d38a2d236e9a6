#!/usr/bin/env python3
"""A small and slow model of swimsim, for comparing.

    tests/model/model.py FILE [--trace T] [--report R]

It is written from docs/FORMAT.md, RUN.md and PROTOCOL.md alone, in their order and in their words; nothing in it
comes from the program's sources. It judges the scenario text FILE as `swimsim check` does
(tests/model/scenarios.py), and writes the trace and the report of its run (tests/model/model_text.py). Here is the cluster
and its order; tests/model/model_links.py has draws and links, tests/model/model_member.py what a member does, and
tests/model/model_member_four.py what one of version 4 does in another way.
"""

import argparse
import heapq
import sys
from pathlib import Path

from model_member import Event, Member
from model_member_four import MemberFour
from model_text import report_of, trace_of
from scenarios import NEWEST, document_of, judge, script_of


# ---- A run (docs/RUN.md, "Events") ----

class Run:
    """All members, what pends, and the rows in the order made."""

    def __init__(self, scenario):
        self.scenario = scenario
        self.rows, self.pending, self.event = [], [], None
        self.numbers = {member['name']: number for number, member in enumerate(scenario['members'])}
        kind = MemberFour if scenario['version'] >= 4 else Member
        self.members = [kind(self, number) for number in self.numbers.values()]
        for number, member in enumerate(scenario['members']):
            self.pend(Event(member['start'], number, number, 0, 'start', {}))
            for place, (what, entry) in enumerate(script_of(scenario, member['name']), 1):
                self.pend(Event(entry['at'], number, number, place, what, entry))

    def pend(self, event):
        heapq.heappush(self.pending, event)

    def go(self):
        """Handles the event of the least key, until none is left up to the end."""
        while self.pending and self.pending[0].moment <= self.scenario['end']:
            self.event = heapq.heappop(self.pending)
            self.members[self.event.member].handle(self.event)
        return self.rows


def rows_of(scenario):
    return Run(scenario).go()


def asked():
    """The scenario of the file that the words name, and the words; a refused scenario ends the program."""
    arguments = argparse.ArgumentParser()
    arguments.add_argument('file', type=Path)
    arguments.add_argument('--trace', type=Path)
    arguments.add_argument('--report', type=Path)
    options = arguments.parse_args()
    rule, scenario = judge(document_of(options.file.read_bytes()), NEWEST)
    if rule:
        sys.exit(f'scenario rule {rule}')
    return scenario, options


def main():
    scenario, options = asked()
    rows = rows_of(scenario)
    if options.trace:
        options.trace.write_text(trace_of(scenario, rows))
    if options.report:
        options.report.write_text(report_of(scenario, rows))
    print(f'rows {len(rows)}')


if __name__ == '__main__':
    main()
