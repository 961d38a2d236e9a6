"""The words that docs/GLOSSARY.md retires, and where they still stand.

The last section of docs/GLOSSARY.md has a table of them: a row has the retired words with commas between them, what to write
in their place, and where they may still stand. That is a document's name, `help` for what the program prints of its
words and its manual's page, `pages` for pages and messages, or `names` for public names of crates. Words in backquotes and in blocks of code are those of formats and count for
nothing, nor do names of files.
"""

import re
from collections import namedtuple
from pathlib import Path

from rules import CRATES, TOP

GLOSSARY = 'docs/GLOSSARY.md'
SECTION = '## Retired words'
# what users read; docs/proof/ and this one are for those who change swimsim
ARCHITECTURE = TOP / 'docs' / 'ARCHITECTURE.md'
DOCUMENTS = ['README.md', 'CHANGELOG.md',
             *sorted(str(path.relative_to(TOP)) for path in (TOP / 'docs').glob('*.md') if path != ARCHITECTURE)]
MANUAL = 'man/swimsim.1'
# the crates whose texts are what --help prints
OF_HELP = ('arguments', 'command_line')
# the crates whose texts stand on pages, in messages and in what explain prints
OF_PAGES = ('drawing', 'series', 'member_timelines', 'run_settings', 'run_summary', 'run_spread', 'false_deaths', 'run_page',
            'sweep_cells', 'sweep_keys', 'sweep_times', 'sweep_page', 'sweep_output', 'goals', 'advice', 'item_reasons',
            'word_reasons', 'reasons', 'diagnostic_text', 'meaning_text', 'warnings')

# a row of the table: the words, what to write, where they may still stand, and the pattern of the words
Retired = namedtuple('Retired', 'words instead still pattern')
# a place where a retired word stands: of which source, at which line of which file, and the word
Hit = namedtuple('Hit', 'source place word retired')

FENCE = re.compile(r'^```.*?^```', re.M | re.S)
CODE = re.compile(r'`[^`]*`')
PUBLIC = re.compile(r'^\s*pub (?:fn|struct|enum|trait) (\w+)', re.M)
STRING = re.compile(r'"((?:[^"\\]|\\.)*)"')
# what is no word in a text: markup, and what is put in its place
MARKUP = re.compile(r'<[^<>]*>|\{[^{}]*\}')


def pattern_of(words):
    """What finds the words with whatever space between their parts, but not as parts of names of files."""
    forms = '|'.join(r'[\s-]+'.join(map(re.escape, word.split())) for word in words)
    return re.compile(rf'(?<![\w./-])(?:{forms})(?![\w-]|\.\w)', re.I)


def retired():
    """The rows of the table."""
    rows = (TOP / GLOSSARY).read_text().partition(SECTION)[2].splitlines()
    cells = [[cell.strip() for cell in row.strip('|').split('|')] for row in rows if row.startswith('|')]
    for words, instead, still in cells[2:]:
        words = [word.strip() for word in re.sub(r'\(.*?\)', '', words).split(',')]
        yield Retired(words, instead, [it.strip(' `') for it in still.split(',') if it.strip()], pattern_of(words))


def without_code(text):
    """A document's text in which code has no words, line by line as before."""
    for code in (FENCE, CODE):
        text = code.sub(lambda match: '*' + '\n' * match[0].count('\n'), text)
    return text


def texts():
    """What is looked at: its source, its file, and its text, in which a line is one of the file."""
    for name in DOCUMENTS:
        text = without_code((TOP / name).read_text())
        yield Path(name).stem, name, text.partition(SECTION)[0] if name == GLOSSARY else text
    yield 'help', MANUAL, (TOP / MANUAL).read_text()
    for crate in OF_HELP:
        for path in sorted((CRATES / crate / 'src').rglob('*.rt')):
            code = ('' if line.lstrip().startswith(('//', 'ghost ')) else line for line in path.read_text().splitlines())
            yield 'help', str(path.relative_to(TOP)), '\n'.join(' ; '.join(STRING.findall(line)) for line in code)
    for crate in OF_PAGES:
        for path in sorted((CRATES / crate / 'src').rglob('*.rt')):
            if not path.stem.endswith('tests'):
                yield 'pages', str(path.relative_to(TOP)), '\n'.join(map(sentences, path.read_text().splitlines()))
    for path in sorted(CRATES.glob('*/src/**/*.rt')):
        names = (PUBLIC.match(line) for line in path.read_text().splitlines())
        yield 'names', str(path.relative_to(TOP)), '\n'.join(spaced(name[1]) if name else '' for name in names)


def sentences(line):
    """The texts of several words in a line of code, without markup."""
    if line.lstrip().startswith(('//', 'ghost ')):
        return ''
    texts = (MARKUP.sub(' * ', text) for text in STRING.findall(line))
    return ' ; '.join(text for text in texts if ' ' in text.strip(' *'))


def spaced(name):
    """A name's words, with spaces between them."""
    return re.sub(r'(?<=[a-z0-9])(?=[A-Z])', ' ', name).replace('_', ' ').strip()


def hits():
    """Each place where a retired word stands."""
    rows = list(retired())
    for source, file, text in texts():
        for row in rows:
            for found in row.pattern.finditer(text):
                yield Hit(source, f'{file}:{text.count(chr(10), 0, found.start()) + 1}', ' '.join(found[0].split()), row)


def looked_at():
    """How many pairs of a retired word and a source there are."""
    return len(list(retired())) * len({source for source, _, _ in texts()})


def refused():
    """A line for each retired word that stands where it may not any more."""
    return [f'{hit.place}: `{hit.word}` is retired: write {hit.retired.instead}' for hit in hits() if hit.source not in hit.retired.still]


def main():
    """Prints how often each retired word stands in each source."""
    counts = {}
    for hit in hits():
        row = counts.setdefault(hit.source, {})
        row[hit.retired.words[0]] = row.get(hit.retired.words[0], 0) + 1
    for source, row in counts.items():
        print(f'{source}: {", ".join(f"{word} {count}" for word, count in row.items())}')


if __name__ == '__main__':
    main()
