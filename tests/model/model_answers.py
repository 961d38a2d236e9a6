"""Answers of a harness, for tests/model/model_drive.py: the actions that a line says, or why it says none.

Written from docs/DRIVE.md ("Answers", "What ends a drive") alone.
"""

import collections
import re

from model_json import NoJson, value_of

LONGEST = 1048576
MESSAGES = ['join', 'welcome', 'ping', 'ping-req', 'ack', 'nack', 'bye', 'gossip', 'call', 'answer', 'push',
            'pull', 'reconnect']
ROWS = ['joined', 'fail', 'health', 'alive', 'suspect', 'confirm', 'accuse', 'refute', 'dead', 'left', 'forget']

Send = collections.namedtuple('Send', 'what to value payload stream')
Timer = collections.namedtuple('Timer', 'id after')
Told = collections.namedtuple('Told', 'what about value')
Used = collections.namedtuple('Used', 'words')
Exit = collections.namedtuple('Exit', '')


class NoAnswer(Exception):
    """A line that is no answer: its cause, and why."""

    def __init__(self, cause, why):
        super().__init__(f'{cause}: {why}')
        self.cause = cause


def action_error(why):
    return NoAnswer('action', why)


def whole(held, name, least, most, default=None):
    """The whole number of a member of an action."""
    if name not in held and default is not None:
        return default
    value = held.get(name)
    if value is None or value.kind != 'number' or not re.fullmatch('[0-9]+', value.text):
        raise action_error(f'{name} is no whole number')
    if not least <= int(value.text) <= most:
        raise action_error(f'{name} is out of its range')
    return int(value.text)


def text_in(held, name, words=None):
    value = held.get(name)
    if value is None or value.kind != 'string' or words and value.held not in words:
        raise action_error(f'{name} is no such word')
    return value.held


def flag(held, name):
    value = held.get(name)
    if value is None:
        return False
    if value.kind != 'word' or value.held is None:
        raise action_error(f'{name} is not true or false')
    return value.held


def send_of(held):
    payload = held.get('payload')
    return Send(text_in(held, 'send', MESSAGES), text_in(held, 'to'), whole(held, 'value', 0, 2**63 - 1, 0),
                payload and payload.text, flag(held, 'stream'))


def timer_of(held):
    return Timer(whole(held, 'timer', 0, 2**63 - 1), whole(held, 'after', 1, 2**40))


def row_of(held):
    what = text_in(held, 'row', ROWS)
    if (what == 'health') == ('about' in held):
        raise action_error('about is for all rows but health')
    return Told(what, text_in(held, 'about') if 'about' in held else None, whole(held, 'value', 0, 2**63 - 1, 0))


def used_of(held):
    return Used(whole(held, 'used', 1, 2**20))


def exit_of(held):
    if not flag(held, 'exit'):
        raise action_error('exit is not true')
    return Exit()


# how an action is read, and the members that it may have, by the one that it must have
KINDS = {
    'send': (send_of, ['send', 'to', 'value', 'payload', 'stream']), 'timer': (timer_of, ['timer', 'after']),
    'row': (row_of, ['row', 'about', 'value']), 'used': (used_of, ['used']), 'exit': (exit_of, ['exit']),
}


def action_of(value):
    kinds = [kind for kind in KINDS if value.kind == 'object' and kind in value.held]
    if not kinds:
        raise action_error('no action')
    read, names = KINDS[kinds[0]]
    if not set(value.held) <= set(names):
        raise action_error('another member')
    return read(value.held)


def numbered(action, member, numbers):
    """The action with numbers of members in the place of their names."""
    name = getattr(action, 'to', None) or getattr(action, 'about', None)
    if name is None:
        return action
    if name not in numbers or isinstance(action, Send) and numbers[name] == member:
        raise NoAnswer('member', f'{name} is nobody whom it could name')
    field = 'to' if isinstance(action, Send) else 'about'
    return action._replace(**{field: numbers[name]})


def answer_of(line, member, numbers, may_exit=False):
    """The actions of a line, its line feed included, for an event of this member, which may exit by the last of them or not."""
    if b'\n' not in line[:LONGEST + 1]:
        raise NoAnswer('long' if len(line) > LONGEST else 'ended', 'no line feed')
    try:
        value = value_of(line[:-1])
    except NoJson as error:
        raise NoAnswer('json', str(error)) from error
    if value.kind != 'list':
        raise action_error('no list')
    actions = [action_of(item) for item in value.held]
    if any(isinstance(action, Exit) and not (may_exit and left == 0) for left, action in enumerate(reversed(actions))):
        raise action_error('exit of a member that may not, or before others')
    return [numbered(action, member, numbers) for action in actions]
