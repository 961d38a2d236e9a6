"""Rows of a trace, and the words of what they say, for the modules of tests/model."""

import collections

ALIVE, SUSPECT, CONFIRM, LEFT, FORGET = 'alive', 'suspect', 'confirm', 'left', 'forget'

Row = collections.namedtuple('Row', 'moment member maker number what about value lost')


def is_death(scenario, row):
    """Whether it says a death: in version 4 also that another one has left."""
    return row.what == CONFIRM or scenario['version'] >= 4 and row.what == LEFT and row.member != row.about
