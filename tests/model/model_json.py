"""JSON as a line of the protocol has it, for tests/model/model_drive.py: each value keeps the text of its tokens.

Written from docs/DRIVE.md ("Answers") alone. Python's own reader takes more than that: `NaN`, and any depth.
"""

import collections
import json
import math
import re

# a value: what it is, its text without blanks between tokens, and what it holds
Value = collections.namedtuple('Value', 'kind text held')

DEEPEST = 127
BLANKS = re.compile(r'[ \t\n\r]*')
NUMBER = re.compile(r'-?(0|[1-9][0-9]*)(\.[0-9]+)?([eE][+-]?[0-9]+)?')
STRING = re.compile(r'"([^"\\\x00-\x1f]|\\["\\/bfnrt]|\\u[0-9a-fA-F]{4})*"')
WORDS = {'null': None, 'true': True, 'false': False}


class NoJson(Exception):
    """A text that isn't JSON, and why."""


class Reader:
    def __init__(self, text):
        self.text, self.place = text, 0
        self.pass_blanks()

    def pass_blanks(self):
        self.place = BLANKS.match(self.text, self.place).end()

    def take(self, pattern):
        """The token that stands here, or None; blanks behind it are passed."""
        found = pattern.match(self.text, self.place)
        if found is None:
            return None
        self.place = found.end()
        self.pass_blanks()
        return found.group()

    def takes(self, sign):
        return self.take(re.compile(re.escape(sign))) is not None

    def need(self, sign):
        if not self.takes(sign):
            raise NoJson(f'{sign} is missing')

    def value(self, depth):
        if self.takes('['):
            return self.items(self.inside(depth))
        if self.takes('{'):
            return self.members(self.inside(depth))
        if self.text.startswith('"', self.place):
            return self.string()
        for word, held in WORDS.items():
            if self.take(re.compile(word + r'\b')):
                return Value('word', word, held)
        number = self.take(NUMBER)
        if number is None:
            raise NoJson('no value')
        if math.isinf(float(number)):
            raise NoJson('a number out of range')
        return Value('number', number, number)

    def inside(self, depth):
        if depth == 0:
            raise NoJson('too deep')
        return depth - 1

    def string(self):
        text = self.take(STRING)
        if text is None:
            raise NoJson('no string')
        held = json.loads(text)
        if any('\ud800' <= letter <= '\udfff' for letter in held):
            raise NoJson('a lone surrogate')
        return Value('string', text, held)

    def items(self, depth):
        items = []
        while not self.takes(']'):
            if items:
                self.need(',')
            items.append(self.value(depth))
        return Value('list', f'[{",".join(item.text for item in items)}]', items)

    def members(self, depth):
        """Of two members of one name the later one stays, at its own place."""
        members = {}
        is_first = True
        while not self.takes('}'):
            if not is_first:
                self.need(',')
            is_first = False
            name = self.string()
            self.need(':')
            members.pop(name.held, None)
            members[name.held] = name.text, self.value(depth)
        text = ','.join(f'{name}:{value.text}' for name, value in members.values())
        return Value('object', f'{{{text}}}', {name: value for name, (_, value) in members.items()})


def value_of(line):
    """The value of a line's bytes."""
    try:
        reader = Reader(line.decode())
    except UnicodeDecodeError as error:
        raise NoJson('no UTF-8') from error
    value = reader.value(DEEPEST)
    if reader.place < len(reader.text):
        raise NoJson('more than a value')
    return value
