"""What the crates' sources say of the rules that they keep, for tools/map and tools/check_map.

Crates and their layers come from crates.txt; a definition, the rule in the comment above it and the first comment of its
file from specs/*.antt; what a function's contract cites from src/*.rt, where `ghost use` tells which definition a name is.
"""

import re
from collections import namedtuple
from functools import cache
from pathlib import Path

TOP = Path(__file__).resolve().parent.parent
CRATES = TOP / 'crates'

Layer = namedtuple('Layer', 'name about crates')
# a file of definitions: its name, what its first comment says of it, and the definitions
Specs = namedtuple('Specs', 'crate name about definitions')
# a definition: its name, the rule that the comment above it says, or nothing, and the line at which it stands
Definition = namedtuple('Definition', 'name rule line')
# a function: its crate and file, its name, whether other crates can call it, or else other files, and its contract
Function = namedtuple('Function', 'crate file name is_public is_open clauses')
# a clause of a contract: `requires` or `ensures`, its name if it has one, and the definitions that it cites, as
# (crate, file, name)
Clause = namedtuple('Clause', 'kind name cites')

LAYER = re.compile(r'# (\w+): (.+)')
CRATE = re.compile(r'(\w+):')
# a definition, at the beginning of a line or in a section, where it may also be a record's field
DECLARED = re.compile(r'( *)(?:(?:abbrev|unfoldable|opaque) )?pub (record |data )?(?!mod |use )(\S+)')
GHOST_USE = re.compile(r'ghost use Rattle\.(\w+)\.specs\.(\w+)\.\{([^}]*)\}')
FUNCTION = re.compile(r'\s*(pub(?:\([a-z]+\))? )?fn (\w+)')
HOLDER = re.compile(r'(?:pub(?:\([a-z]+\))? )?(?:impl|trait)\b(.*)')
CLAUSE = re.compile(r'\s*(requires|ensures)(?: ([\w-]+))? \{')
WORD = re.compile(r'[^\W\d][\w\'-]*')


def layers():
    """The layers of crates.txt, lowest first."""
    found = []
    for line in (TOP / 'crates.txt').read_text().splitlines():
        if head := LAYER.fullmatch(line):
            found.append(Layer(head[1], head[2], []))
        elif found and (crate := CRATE.match(line)):
            found[-1].crates.append(crate[1])
    return found


def root_of(crate):
    """A crate's first source."""
    return next(path for path in (CRATES / crate / 'src' / name for name in ('lib.rt', 'main.rt')) if path.exists())


def about_crate(crate):
    """What a crate's own first comment says of it: its first paragraph."""
    lines = []
    for line in root_of(crate).read_text().splitlines():
        if not line.startswith('//! '):
            break
        lines.append(line[4:].strip())
    return ' '.join(lines)


def comment_above(lines, place):
    """The comment that stands right above a line, as one line."""
    first = place
    while first > 0 and lines[first - 1].lstrip().startswith('--'):
        first -= 1
    return ' '.join(line.lstrip()[2:].strip() for line in lines[first:place])


def declared_in(lines, place):
    """The name that a line declares, if it does; what has no equation below it is a field."""
    match = DECLARED.match(lines[place])
    if not match:
        return None
    indent, kind, name = match.groups()
    is_defined = not indent or kind or any(line.startswith((f'{indent}{name} ', f'{indent}{name}=')) for line in lines[place:])
    return name if is_defined else None


@cache
def specs_of(crate):
    """The files of definitions of a crate, in the order of their names."""
    found = []
    for path in sorted((CRATES / crate / 'specs').glob('*.antt')):
        if path.stem == 'Lib':
            continue
        lines = path.read_text().splitlines()
        about = lines[0][2:].strip() if lines and lines[0].startswith('--') else ''
        definitions = [Definition(name, comment_above(lines, place), place + 1)
                       for place in range(len(lines)) if (name := declared_in(lines, place))]
        found.append(Specs(crate, path.stem, about, definitions))
    return found


def names_used(text):
    """By each name that a source takes from a file of definitions, which definition it is."""
    used = {}
    for crate, file, names in GHOST_USE.findall(text):
        for name in names.split(','):
            first, *other = name.strip().split(' as ')
            used[(other or [first])[0].strip()] = (crate, file, first.strip())
    return used


def clause_text(lines, place):
    """A clause that begins in a line, to the brace that closes it."""
    text, depth = '', 0
    for line in lines[place:]:
        text += line + '\n'
        depth += line.count('{') - line.count('}')
        if depth <= 0:
            break
    return text


def functions_in(crate, path):
    """The functions of a source with their contracts, in its order; tests are left out."""
    text = path.read_text()
    used, lines = names_used(text), text.splitlines()
    found, is_shared, is_test = [], False, False
    for place, line in enumerate(lines):
        if holder := HOLDER.match(line):
            is_shared = 'trait ' in line or ' for ' in holder[1]
        if line.strip().startswith('#['):
            is_test = is_test or '#[test]' in line
        elif head := FUNCTION.match(line):
            is_public = head[1] == 'pub ' or (line.startswith(' ') and is_shared)
            if not is_test:
                found.append(Function(crate, path.stem, head[2], is_public, is_public or bool(head[1]), []))
            is_test = False
        elif found and (head := CLAUSE.match(line)):
            cites = {used[word] for word in WORD.findall(clause_text(lines, place)) if word in used}
            found[-1].clauses.append(Clause(head[1], head[2], cites))
    return found


@cache
def functions_of(crate):
    """The functions of a crate, file by file."""
    sources = [path for path in sorted((CRATES / crate / 'src').rglob('*.rt')) if not path.stem.endswith('tests')]
    return [function for path in sources for function in functions_in(crate, path)]
