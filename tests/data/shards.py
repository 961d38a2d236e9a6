"""Sweeps of tests/data/sweeps in pieces: each piece as the model gives it, and all of them joined as the whole; and tables
of some of their seeds, joined."""

import json
import random

from model_sweeps import cases_text, checksum_of, swept, table_of
from program import Case, DATA, Wrong, expect, expect_ran
from scenarios import document_of
from sweeps import FOLDER, expect_progress, seeds_of, settings_of, words_of
from worked import text_of

# into how many pieces each sweep is cut; of some there are more than runs
COUNTS = (1, 2, 3, 7, 61)

# what is told of a table whose lines have no checksums
OLDER = 'of an earlier version: make it again, or read it with that version'

# what to do with tables that aren't joined
UNLIKE = 'were made with different --set or --until; make both with the same'
SHARD = 'is a shard; join the shards of each range of seeds first, and then the tables'
SHARED = 'leave one table out, or make it with other seeds'
MISSING = 'make a table of what is missing, and join it too'
WIDTH = "was made with --until, so it can't get more seeds; make one table with all seeds"
NO_SEEDS = 'was made without --seeds; make it with a range of seeds'
SAME = 'has the same runs as another file; leave one of them out'
TORN_AT = 'is wrong or missing; run that sweep with --shard and --resume'
TORN = 'lacks a line, or one has changed; run the same sweep with --shard and --resume, which makes the rest'
NO_TABLE = "isn't a table of a sweep; name files that sweep --table or join --table wrote"
STRANGE = "doesn't belong to the first table; take tables of one scenario text with the same options"
RESUMED = 'begins with other runs; resume with the scenario and the options that it was made with, or name another table'
ABSENT = 'no file is shard 2; run the same sweep with its --shard, and name that table too'
TEXTS = 'were made from two scenario texts; make both from one text, byte for byte'


def check(program, sweep, count):
    """Makes all pieces of a sweep, joins them in some order, and compares both."""
    text = text_of(DATA / sweep['base']).encode()
    options, words = words_of(sweep)
    settings = settings_of(sweep['set'])
    until = sweep.get('until')
    _, cases = swept(document_of(text), settings, seeds_of(sweep.get('seeds')), until=until)
    program.keep('s.toml', text)
    names = [f'piece-{number}.csv' for number in range(1, count + 1)]
    for number, name in enumerate(names, 1):
        ran = program.call(['sweep', 's.toml', '--table', name, '--shard', f'{number}/{count}', *options])
        expect_ran(ran, 0, b'', b'', f'piece {number}')
        expect(name, program.held(name), table_of(text, settings, words, cases, until, (number, count)).encode())
    random.Random(count).shuffle(names)
    ran = program.call(['join', *names, '--table', 't.csv'])
    expect_ran(ran, 0, cases_text(settings, cases).encode(), b'', 'join')
    expect('table', program.held('t.csv'), table_of(text, settings, words, cases, until).encode())
    expect('joined again', program.call(['join', 't.csv', '--table', 'again.csv']), ran)
    expect('table again', program.held('again.csv'), program.held('t.csv'))


def check_resumed(program, sweep, piece):
    """Cuts the table of a piece, or of the whole sweep, off at some of its bytes, and goes on with it: at the end it is the
    table that was made in one go."""
    text = text_of(DATA / sweep['base'])
    options, _ = words_of(sweep)
    program.keep('s.toml', text)
    words = ['sweep', 's.toml', '--table', 't.csv', '--shard', piece, *options]
    whole_words = [word for word in words if word not in ('--shard', piece)]
    expect('status', program.call(whole_words if piece == '1/1' else words).status, 0)
    whole = program.held('t.csv')
    first, *ends = [place + 1 for place, byte in enumerate(whole) if byte == 10]
    for cut in sorted({0, 1, first // 2, *(end + more for end in (first, *ends) for more in (-50, -1, 0, 1))}):
        program.keep('t.csv', whole[:cut])
        expect_ran(program.call([*words, '--resume']), 0, b'', b'', f'cut at {cut}')
        expect(f'cut at {cut}', program.held('t.csv'), whole)
    if len(ends) > 1:
        # what stood counts as made
        program.keep('t.csv', whole[:ends[0]])
        told = program.call([*words, '--resume', '--progress']).err
        if 'until' not in sweep:
            expect_progress(told, len(ends), 1)
        if told.startswith(b'0/'):
            raise Wrong(f'progress: {told}')
    expect_kept(program, words, whole)
    (program.folder / 't.csv').unlink()
    expect_ran(program.call([*words, '--resume']), 0, b'', b'', 'no table')
    expect('no table', program.held('t.csv'), whole)
    last = whole[ends[-2]:] if len(ends) > 1 else whole[first:]
    # what isn't the next line is cut off
    for held in (whole + last, whole[:first] + b'no line\n', whole[:first] + b'\xff\n', whole[:first] + last + whole[first:]):
        program.keep('t.csv', held)
        expect_ran(program.call([*words, '--resume']), 0, b'', b'', 'damaged')
        expect('damaged', program.held('t.csv'), whole)
    other = f'of another sweep\nt.csv {RESUMED}'
    refused = [(b'another table\n', other), (whole.replace(piece.encode(), b'1/3', 1), other)]
    refused += [(without_checksums(whole), OLDER)] if ends else []
    for held, line in refused:
        program.keep('t.csv', held)
        expect_ran(program.call([*words, '--resume']), 3, b'', f'swimsim: piece t.csv {line}\n'.encode(), 'refused')
        expect('refused', program.held('t.csv'), held)


def expect_kept(program, words, whole):
    """Goes on behind each line of a table, with a figure of that line changed and its checksum that of the changed line: it stays,
    since it is genuine, also within a setting of a sweep with a width. So no line is made again."""
    header, *lines = whole.splitlines(keepends=True)
    name = header[1:].partition(b'"')[0].partition(b' ')[2]
    for number, line in enumerate(lines):
        rest = line.partition(b' ')[2].rstrip(b'\n')
        front, _, lost = rest.rpartition(b',')
        other = front + b',%d\n' % (int(lost) + 1)
        changed = checksum_of(name.decode(), other.decode()).encode() + b' ' + other
        before, behind = b''.join([header, *lines[:number], changed]), b''.join(lines[number + 1:])
        program.keep('t.csv', before)
        expect_ran(program.call([*words, '--resume']), 0, b'', b'', f'line {number} changed')
        expect(f'line {number} changed', program.held('t.csv'), before + behind)


def without_checksums(table):
    """The table without the checksum of each line, as earlier versions wrote it."""
    header, *lines = table.splitlines(keepends=True)
    return header + b''.join(line.partition(b' ')[2] for line in lines)


def without_notes(table):
    """The table without the field that stands before each line."""
    header, *lines = table.splitlines(keepends=True)
    return header.partition(b'",')[2] + b''.join(line.partition(b',')[2] for line in lines)


def keep_halves(program, sweep):
    """Makes the two pieces of a sweep and the whole, beside an older table; gives the words of `words_of`."""
    options, words = words_of(sweep)
    program.keep('s.toml', text_of(DATA / sweep['base']))
    program.keep('t.csv', 'an older table\n')
    for number in (1, 2):
        program.call(['sweep', 's.toml', '--table', f'{number}.csv', '--shard', f'{number}/2', *options])
    program.call(['sweep', 's.toml', '--table', 'all.csv', *options])
    program.keep('plain.csv', without_notes(program.held('all.csv')))
    return options, words


def expect_refused(program, wanted):
    """Joins pieces of these names: each is told by its line, and maybe what to do by another, and the table stays as it was."""
    for names, *lines in wanted:
        ran = program.call(['join', *names, '--table', 't.csv'])
        told = ''.join(f'{line}\n' for line in lines)
        expect_ran(ran, 3, b'', f'swimsim: {told}'.encode(), ' '.join(names))
        expect('table', program.held('t.csv'), b'an older table\n')


def beside_the_first(line, *names, why=None):
    """The first piece joined with each of these tables, of which this line is reported, and maybe this reason."""
    return [(['1.csv', f'{name}.csv'], f'piece {name}.csv {line}', *([f'{name}.csv {why}'] if why else [])) for name in names]


def check_refused(program, sweep):
    """Joins what isn't the pieces of one sweep: each is told by its line, and the table stays as it was."""
    options, _ = keep_halves(program, sweep)
    program.call(['sweep', 's.toml', '--table', 'other.csv', '--shard', '2/2', '--set', 'end=77', *options])
    program.keep('torn.csv', program.held('2.csv')[:-1])
    header, *lines = program.held('2.csv').splitlines(keepends=True)
    program.keep('short.csv', b''.join([header, *lines[:-1]]))
    program.keep('older.csv', without_checksums(program.held('2.csv')))
    last = len(lines) + 1
    # lines that each are right, but not at their places
    program.keep('swapped.csv', b''.join([header, *lines[1::-1], *lines[2:]]))
    program.keep('doubled.csv', b''.join([header, *lines[:1], *lines[:1], *lines[2:]]))
    program.keep('mixed.csv', b''.join([header, *lines[:-1], program.held('1.csv').splitlines(keepends=True)[-1]]))
    expect_refused(program, [
        (['1.csv'], 'piece 2 missing', ABSENT),
        (['2.csv', '2.csv'], 'piece 2.csv twice', f'2.csv {SAME}'),
        *(torn_at(name, line) for name, line in (('torn', last), ('short', last), ('swapped', 2), ('doubled', 3), ('mixed', last))),
        *beside_the_first(OLDER, 'older'),
        (['1.csv', 'other.csv'], 'piece other.csv of another sweep', f'1.csv and other.csv {UNLIKE}'),
        (['1.csv', 's.toml'], 'no piece s.toml', f's.toml {NO_TABLE}'),
        (['all.csv', 'all.csv'], 'piece all.csv twice', f'all.csv and all.csv both have the {named_seeds(sweep["seeds"])}; {SHARED}'),
        (['all.csv', '1.csv', '2.csv'], 'piece 1.csv of another sweep', f'1.csv {SHARD}'),
        (['1.csv', '2.csv', 'all.csv'], 'piece all.csv of another sweep', f'1.csv {SHARD}'),
        (['plain.csv'], 'no piece plain.csv', f'plain.csv {NO_TABLE}'),
    ])


def torn_at(name, line):
    """The first piece joined with this table, of which this line is wrong."""
    return ['1.csv', f'{name}.csv'], f'piece {name}.csv torn', f'{name}.csv: line {line} {TORN_AT}'


def named_seeds(word):
    """What is said of a range of seeds, or of its only seed."""
    first, last = word.split('..')
    return f'seed {first}' if first == last else f'seeds {word}'


def check_widths_refused(program, sweep):
    """Joins what isn't the pieces of one sweep with a width: cases that are cut short, go on, or are of another width."""
    _, words = keep_halves(program, sweep)
    first, second = (program.held(f'{number}.csv').splitlines(keepends=True) for number in (1, 2))
    width = words[1].encode()
    program.keep('torn.csv', b''.join(second)[:-1])
    program.keep('short.csv', b''.join(second[:-1]))
    program.keep('long.csv', b''.join([*second, second[-1]]))
    program.keep('more.csv', b''.join([*second, *first[1:]]))
    program.keep('none.csv', second[0])
    program.keep('wider.csv', b''.join(second).replace(width, b'until=100', 1))
    program.keep('widest.csv', b''.join(second).replace(width, b'until=101', 1))
    program.keep('whole.csv', b''.join(second).replace(b' ' + width, b'', 1))
    expect_refused(program, [
        (['1.csv'], 'piece 2 missing', ABSENT),
        (['2.csv', '1.csv', '2.csv'], 'piece 2.csv twice', f'2.csv {SAME}'),
        (['short.csv', '1.csv'], 'piece short.csv torn', f'short.csv {TORN}'),
        torn_at('torn', len(second)),
        *beside_the_first('torn', 'long', 'more', 'none', why=TORN),
        (['1.csv', 'wider.csv'], 'piece wider.csv of another sweep', f'1.csv and wider.csv {UNLIKE}'),
        (['1.csv', 'whole.csv'], 'piece whole.csv of another sweep', f'1.csv and whole.csv {UNLIKE}'),
        *beside_the_first('of another sweep', 'widest', why=STRANGE),
        (['widest.csv'], 'no piece widest.csv', f'widest.csv {NO_TABLE}'),
    ])


def check_told(program, sweep, count):
    """Joins pieces with all that may be asked of them, and makes their page: each is what the whole sweep tells and writes."""
    text = text_of(DATA / sweep['base'])
    options, _ = words_of(sweep)
    wants = [word for want in sweep.get('want', ['out<=0.1', 'messages<=1000']) for word in ('--want', want)]
    program.keep('s.toml', text)
    names = [f'piece-{number}.csv' for number in range(count, 0, -1)]
    for number, name in enumerate(reversed(names), 1):
        program.call(['sweep', 's.toml', '--table', name, '--shard', f'{number}/{count}', *options])
    for told in (wants, [*wants, '--jsonl'], [], ['--jsonl']):
        whole = program.call(['sweep', 's.toml', '--table', 'w.csv', '--page', 'w.html', *options, *told])
        for page in ([], ['--page', 'p.html', '--name', 's.toml']):
            ran = program.call(['join', *names, '--table', 't.csv', *page, *told])
            expect_ran(ran, 0, whole.out, b'', ' '.join(['join', *page, *told]))
            expect('table', program.held('t.csv'), program.held('w.csv'))
        expect('page', program.held('p.html'), program.held('w.html'))
    expect_ran(program.call(['page', *names, '--out', 'q.html', '--name', 's.toml']), 0, b'', b'', 'page')
    expect('page alone', program.held('q.html'), program.held('w.html'))
    named = program.held('w.html').replace(b's.toml', names[0].encode())
    for words in (['page', *names, '--out', 'q.html'], ['join', *names, '--table', 't.csv', '--page', 'q.html']):
        program.keep('q.html', 'an older page\n')
        expect(f'{words[0]} ended', program.call(words).status, 0)
        expect('page with the first name', program.held('q.html'), named)
    program.keep('q.html', 'an older page\n')
    program.keep('plain.csv', without_notes(program.held('w.csv')))
    for held in ('plain.csv', 's.toml'):
        expect_ran(program.call(['page', held, '--out', 'q.html']), 3, b'', f'swimsim: no piece {held}\n{held} {NO_TABLE}\n'.encode(), held)
        expect('older page', program.held('q.html'), b'an older page\n')


def first_and_last(sweep):
    """The first and the last seed of a sweep."""
    first, _, last = sweep['seeds'].partition('..')
    return int(first), int(last)


def with_range(options, first, last):
    """The options with these seeds in place of theirs."""
    place = options.index('--seeds')
    return [*options[:place + 1], f'{first}..{last}', *options[place + 2:]]


def cut_seeds(sweep, count):
    """Ranges that follow one another and have all seeds of a sweep, so many, or one for each seed."""
    first, last = first_and_last(sweep)
    all_seeds = last + 1 - first
    count = min(count, all_seeds)
    ends = [first + all_seeds * number // count for number in range(count + 1)]
    return [(low, high - 1) for low, high in zip(ends, ends[1:])]


def check_seeds(program, sweep, count):
    """Makes a table of each range of a sweep's seeds, and joins them in some order: that is what the whole sweep makes."""
    options, _ = words_of(sweep)
    wants = [word for want in sweep.get('want', ['out<=0.1']) for word in ('--want', want)]
    program.keep('s.toml', text_of(DATA / sweep['base']))
    names = []
    for low, high in cut_seeds(sweep, count):
        names.append(f'seeds-{low}.csv')
        ran = program.call(['sweep', 's.toml', '--table', names[-1], *with_range(options, low, high)])
        expect('status', ran.status, 0)
    random.Random(count).shuffle(names)
    for told in (wants, [*wants, '--jsonl'], []):
        whole = program.call(['sweep', 's.toml', '--table', 'w.csv', '--page', 'w.html', *options, *told])
        ran = program.call(['join', *names, '--table', 't.csv', '--page', 'p.html', '--name', 's.toml', *told])
        expect_ran(ran, 0, whole.out, b'', ' '.join(['join', *told]))
        expect('table', program.held('t.csv'), program.held('w.csv'))
        expect('page', program.held('p.html'), program.held('w.html'))
    program.call(['sweep', 's.toml', '--table', 'w.csv', '--page', 'w.html', *options])
    expect_ran(program.call(['page', *names, '--out', 'q.html', '--name', 's.toml']), 0, b'', b'', 'page')
    expect('page alone', program.held('q.html'), program.held('w.html'))
    # the joined table is one as any other
    told = program.call(['join', 'w.csv', '--table', 'x.csv']).out
    expect_ran(program.call(['join', 't.csv', '--table', 'again.csv']), 0, told, b'', 'again')
    expect('table again', program.held('again.csv'), program.held('w.csv'))


def check_seeds_refused(program):
    """Joins tables whose seeds don't follow one another, or that aren't of one sweep: each is told by its line."""
    text = text_of(DATA / 'sweeps' / 'three-members.toml')
    program.keep('s.toml', text)
    program.keep('other.toml', text + '# another text\n')
    program.keep('t.csv', 'an older table\n')
    made = {
        'a.csv': ['s.toml', '--seeds', '1..3'],
        'b.csv': ['s.toml', '--seeds', '4..6'],
        'c.csv': ['s.toml', '--seeds', '3..5'],
        'd.csv': ['s.toml', '--seeds', '8..9'],
        'keys.csv': ['s.toml', '--seeds', '4..6', '--set', 'swim.period=200,250'],
        'text.csv': ['other.toml', '--seeds', '4..6'],
        'own.csv': ['s.toml'],
        'wide.csv': ['s.toml', '--seeds', '1..3', '--until', '90'],
        'wide-more.csv': ['s.toml', '--seeds', '4..6', '--until', '90'],
        'half.csv': ['s.toml', '--seeds', '4..6', '--shard', '1/2'],
    }
    for name, words in made.items():
        expect('status', program.call(['sweep', words[0], '--table', name, *words[1:]]).status, 0)
    torn = program.held('b.csv')
    program.keep('torn.csv', torn[:-1])
    program.keep('older.csv', without_checksums(torn))
    header, *lines = torn.splitlines(keepends=True)
    program.keep('swapped.csv', b''.join([header, *lines[1::-1], *lines[2:]]))
    expect_refused(program, [
        (['a.csv', 'c.csv'], 'piece c.csv twice', f'a.csv and c.csv both have the seed 3; {SHARED}'),
        (['c.csv', 'b.csv', 'a.csv'], 'piece b.csv twice', f'c.csv and b.csv both have the seeds 4..5; {SHARED}'),
        (['a.csv', 'a.csv'], 'piece a.csv twice', f'a.csv and a.csv both have the seeds 1..3; {SHARED}'),
        (['d.csv', 'a.csv'], 'piece d.csv of another sweep', f'a.csv and d.csv leave out the seeds 4..7; {MISSING}'),
        (['b.csv', 'd.csv', 'a.csv'], 'piece d.csv of another sweep', f'b.csv and d.csv leave out the seed 7; {MISSING}'),
        (['a.csv', 'keys.csv'], 'piece keys.csv of another sweep', f'a.csv and keys.csv {UNLIKE}'),
        (['a.csv', 'text.csv'], 'piece text.csv of another sweep', f'a.csv and text.csv {TEXTS}'),
        (['a.csv', 'own.csv'], 'piece own.csv of another sweep', f'own.csv {NO_SEEDS}'),
        (['own.csv', 'a.csv'], 'piece a.csv of another sweep', f'own.csv {NO_SEEDS}'),
        (['own.csv', 'own.csv'], 'piece own.csv twice', f'own.csv {SAME}'),
        (['a.csv', 'wide-more.csv'], 'piece wide-more.csv of another sweep', f'wide-more.csv {WIDTH}'),
        (['wide.csv', 'wide-more.csv'], 'piece wide-more.csv of another sweep', f'wide.csv {WIDTH}'),
        (['a.csv', 'half.csv'], 'piece half.csv of another sweep', f'half.csv {SHARD}'),
        (['half.csv', 'a.csv'], 'piece a.csv of another sweep', f'half.csv {SHARD}'),
        (['a.csv', 's.toml'], 'no piece s.toml', f's.toml {NO_TABLE}'),
        (['a.csv', 'torn.csv'], 'piece torn.csv torn', f'torn.csv: line {len(lines) + 1} {TORN_AT}'),
        (['a.csv', 'swapped.csv'], 'piece swapped.csv torn', f'swapped.csv: line 2 {TORN_AT}'),
        (['a.csv', 'older.csv'], f'piece older.csv {OLDER}'),
    ])


def cases():
    """Each sweep of the list, in each number of pieces."""
    listed = json.loads((FOLDER / 'sweeps.json').read_text())
    for sweep in listed:
        for count in COUNTS:
            yield Case(f'pieces: {sweep["about"]}, {count}', check, (sweep, count))
        for count in (1, 3):
            yield Case(f'pieces: {sweep["about"]}, all that is told of {count}', check_told, (sweep, count))
    for sweep in listed:
        if 'until' not in sweep and 'seeds' in sweep and len(cut_seeds(sweep, 2)) > 1:
            for count in (2, 3, 61):
                yield Case(f'more seeds: {sweep["about"]}, {count} tables', check_seeds, (sweep, count))
    yield Case('more seeds: what join refuses', check_seeds_refused, ())
    narrow, wider = [sweep for sweep in listed if 'until' in sweep][:2]
    yield Case('pieces: what join refuses', check_refused, (listed[0],))
    yield Case('pieces: what join refuses where there is a width', check_widths_refused, (narrow,))
    for piece in ('2/3', '1/1'):
        yield Case(f'pieces: {piece} that was cut off', check_resumed, (listed[0], piece))
        yield Case(f'pieces: {piece} that was cut off, with a width', check_resumed, (wider, piece))
