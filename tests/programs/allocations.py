#!/usr/bin/env python3
"""Refuses each allocation of the program in turn, and each start of a thread, and sees what is left.

    tests/programs/allocations.py [--program FILE] [--scenario FILE]

The program is the one that ./swimsim has built, or FILE; nothing of it is built here. The scenario is one in which a
join, a crash, losses, relays, suspicions and refutations meet, or FILE. `check`, `run` by one worker, by three and with
a page, and `sweep` with a page are called with the first allocation refused, then with the second, and so on until a
call needs no more. Each must end well, with all that it writes without a refusal, or with status 5 and nothing on
standard output. Then standard error has `swimsim: memory`, and no older file has changed, and a new one is empty; or it has
`swimsim: run F1`, and there is a beginning of the trace, nothing of the report unless the whole trace is there, and
nothing of the page unless both are. No other file is left. Where it was a thread that couldn't be started for it,
there is `swimsim: run F4`, and nothing is written. Where the start of a thread is refused that the run needs, it must
end so, though those that were started sleep by then.

The same holds where the system has no memory to open a file, each in turn.

The same holds of a run of four sites by several threads, of which each {step}th allocation is refused, and the first
{first}. There the refusal takes so long that all other threads sleep by then: a thread that fails must wake them. Where
the run doesn't start several threads this is skipped.

Of two faults at once the first is told: the trace of a long run goes to a device that takes nothing, and memory is
refused after that was seen, while rows are still made. That must be `swimsim: run F1`, unless that memory could be
done without.

Its last line is `N passed, M failed, K skipped`, a refusal being one. It needs a C compiler, for the `malloc` that
refuses (stand_in.py); where there is none all is skipped.
"""

import itertools
import os
import sys
import tempfile
from pathlib import Path

import paths  # noqa: F401 (puts the folders of what follows on the path)
from harness import call, end, first_line, parser_of, program_at
from hasty import LONG, far, hasty
from stand_in import NO_COMPILER, StandIn
from tables import head, item, table

SCENARIO = (head(12000, seed=5) + table('link', delay=10, jitter=5, loss=50000)
            + item('group', name='n', count=4) + item('group', name='j', count=1, start=500, contact='n-0')
            + item('crash', member='n-3', at=2500) + item('slow', member='n-1', from_=3000, until=6000, extra=1200))

# two sites so far apart that each has windows of its own that are long enough for a thread
FAR = hasty(4000, ('n', 32), ('m', 32)) + ''.join(item('path', from_=one, to=other, delay=1000) for one, other in ('nm', 'mn'))

MEMORY = b'swimsim: memory\n'
NO_MEMORY = b'swimsim: run F1\n'
NOT_STARTED = b'swimsim: run F4\n'
NOT_WRITTEN = b'swimsim: run F3\n'

# the files that a command may write, in the order in which it does, and what older ones hold
WRITTEN = ('t.csv', 'r.txt', 'p.html')
OLDER = b'an older file\n'

# the name of a file that is there once something was refused
SAID = 'said'

# how many refusals after a failed write are tried one by one; after them each hundredth is
NEXT = 20

# of a run by several threads so many allocations are refused one by one, and after them each of so many
FIRST, STEP = 30, 11

# so many microseconds a refusal takes while all other threads come to sleep, and in so many seconds a call ends
LONG_PAUSE, IN_TIME = 20_000, 60

# what is refused
KINDS = {'a': 'an allocation', 'o': 'the opening of a file'}

# after so many that went wrong no more are tried
MANY = 5


def read(path):
    return path.read_bytes() if path.exists() else None


def left_by(words, folder, environment=None, older=None):
    """Status, standard output and error, and the trace, the report and the page of the program with these words, None for
    a file that isn't there; and the names of other files that it leaves. Each file holds what is older before, or isn't
    there."""
    before = {*WRITTEN, SAID, *os.listdir(folder)}
    for name in WRITTEN:
        if older is None:
            (folder / name).unlink(missing_ok=True)
        else:
            (folder / name).write_bytes(older)
    ran = call(words, IN_TIME, env=environment)
    told = ran._replace(err=first_line(ran.err))
    return *told, *(read(folder / name) for name in WRITTEN), sorted(set(os.listdir(folder)) - before)


def is_refusal(left, whole, older):
    """Whether that is what a refusal leaves of what there is without one."""
    status, out, err, *files, others = left
    if status != 5 or out != b'' or others:
        return False
    if err == MEMORY:
        # where there was no file, an empty one may be left: nothing is removed that another program may use by then
        return all(file == older or (older is None and file == b'') for file in files)
    # an older file that the command doesn't write stays as it is
    written = [(nth, file or b'') for nth, file in enumerate(files) if whole[3 + nth] not in (None, older)]
    in_order = all(whole[3 + nth].startswith(file) and (not file or files[:nth] == list(whole[3:3 + nth]))
                   for nth, file in written)
    return in_order and (err == NO_MEMORY or (err == NOT_STARTED and not any(file for _, file in written)))


def refused(words, stand_in, kind, numbers, older=None, **names):
    """What each call of the program leaves that is refused what has this number among what is of the kind, until there
    is none of that number."""
    said = stand_in.folder / SAID
    for number in numbers:
        said.unlink(missing_ok=True)
        environment = stand_in.environment(KIND=kind, SAID=said, REFUSED=number, **names)
        left = left_by(words, stand_in.folder, environment, older)
        if not said.exists():
            return
        yield number, left


def ended(words, folder, wanted, older=None):
    """What a call leaves that isn't refused anything, and ends with this status and this on standard error."""
    whole = left_by(words, folder, older=older)
    if (whole[0], whole[2]) != wanted:
        sys.exit(f'allocations: status {whole[0]}, {whole[2]!r} from {" ".join(map(str, words))}')
    return whole


def judged(refusals, whole, is_well, about):
    """How many refusals the program could do without, how many it answered well, and how many wrong, which are printed."""
    spared = well = wrong = 0
    for number, left in refusals:
        if left == whole:
            spared += 1
        elif is_well(left):
            well += 1
        else:
            wrong += 1
            print(f'{about} {number}: status {left[0]}, {left[2]!r}')
        if wrong == MANY:
            print(f'{about}: no more are tried')
            break
    return spared, well, wrong


def is_fault(left, line):
    """Whether a run ended with status 5 and this line, and left its files empty."""
    return left[:3] == (5, b'', line) and not any(left[3:])


def refuse_each(words, stand_in, what='', numbers=None, older=None, kind='a', **names):
    """Refuses each allocation of the program or what else is of the kind, or those of these numbers; answers how many went
    well and how many wrong."""
    told, whole = words[1] + what, ended(words, stand_in.folder, (0, b''), older)
    refusals = refused(words, stand_in, kind, numbers or itertools.count(1), older, **names)
    spared, well, wrong = judged(refusals, whole, lambda left: is_refusal(left, whole, older), f'{told}, {KINDS[kind]}')
    print(f'{told}: {spared + well + wrong} times {KINDS[kind]} refused in turn; {spared} could be done without')
    return spared + well, wrong


def refuse_among_several(program, stand_in):
    """Refuses allocations of a run of four sites by several threads; answers how many went well, and how many wrong, or
    None where it isn't several that run."""
    text, trace = stand_in.folder / 'sites.toml', stand_in.folder / 't.csv'
    text.write_text(far(4, 3, 5000))
    words = [program, 'run', text, '--trace', trace, '--report', stand_in.folder / 'r.txt', '--workers', '5', '--division', '0,0,0,1,1,1,2,2,2,3,3,3']
    _, threads = stand_in.counted(words, **stand_in.processors(5))
    if threads < 2:
        print(f'run of four sites: skipped, {threads} threads were started')
        return None
    numbers = itertools.chain(range(1, FIRST), itertools.count(FIRST, STEP))
    names = stand_in.processors(5)
    return refuse_each(words, stand_in, f' of four sites by {threads} threads', numbers, PAUSE=LONG_PAUSE, **names)


def refuse_starts(words, stand_in, least):
    """Refuses the start of each thread, of which the run needs so many at least; answers how many went well and how
    many wrong. A sort of many rows starts threads too, and does without them."""
    whole = ended(words, stand_in.folder, (0, b''))
    refusals = refused(words, stand_in, 's', itertools.count(1), PAUSE=LONG_PAUSE, **stand_in.processors(3))
    spared, needed, wrong = judged(refusals, whole, lambda left: is_fault(left, NOT_STARTED), f'{words[1]}, thread')
    if needed < least:
        print(f'{words[1]}: fewer than {least} threads are needed')
        wrong += 1
    print(f'{words[1]}: each of {needed + spared + wrong} threads not started in turn; {spared} could be done without')
    return needed + spared, wrong


def refuse_after_write(words, stand_in):
    """Refuses allocations that come after a write has failed; answers how many went well and how many wrong."""
    whole = ended(words, stand_in.folder, (5, NOT_WRITTEN))
    numbers = itertools.chain(range(1, NEXT), itertools.count(NEXT, 100))
    refusals, about = refused(words, stand_in, 'w', numbers, **stand_in.processors(3)), f'{words[1]}, after a failed write allocation'
    spared, well, wrong = judged(refusals, whole, lambda left: is_fault(left, NO_MEMORY), about)
    if not well:
        print(f'{words[1]}: no memory that was refused after a failed write was reported')
        wrong += 1
    print(f'{words[1]}: {spared + well + wrong} allocations after a failed write refused in turn; {spared} could be done without')
    return spared + well, wrong


def main():
    parser = parser_of(__doc__.format(step=STEP, first=FIRST))
    parser.add_argument('--scenario', type=Path)
    options = parser.parse_args()
    program = program_at(options.program)
    with tempfile.TemporaryDirectory() as name:
        folder = Path(name)
        stand_in = StandIn(folder)
        if not stand_in.is_there:
            print(NO_COMPILER)
            end(0, 0, 1)
        scenario = options.scenario or folder / 'scenario.toml'
        if options.scenario is None:
            scenario.write_text(SCENARIO)
        run = [program, 'run', scenario, '--trace', folder / 't.csv', '--report', folder / 'r.txt', '--workers']
        page = ['--page', folder / 'p.html']
        sweep = [program, 'sweep', scenario, '--table', folder / 't.csv', *page, '--seeds', '1..2', '--workers', '1']
        counts = [refuse_each(words, stand_in) for words in ([program, 'check', scenario], [*run, '1'], [*run, '3', '--parts', '4'])]
        for words in ([*run, '1'], [*run, '1', *page], sweep):
            counts.append(refuse_each(words, stand_in, ' over older files', older=OLDER))
        counts.append(refuse_each([*run, '1', *page], stand_in, ' with a page'))
        for words, older in itertools.product(([*run, '1'], [*run, '1', *page], sweep), (None, OLDER)):
            counts.append(refuse_each(words, stand_in, '' if older is None else ' over older files', None, older, 'o'))
        several = refuse_among_several(program, stand_in)
        counts += [several] if several else []
        apart = folder / 'apart.toml'
        apart.write_text(FAR)
        words = [apart if word is scenario else word for word in run]
        counts.append(refuse_starts([*words, '3', '--division', ','.join(['0'] * 32 + ['1'] * 32)], stand_in, 2))
        if Path('/dev/full').exists():
            long = folder / 'long.toml'
            long.write_text(LONG)
            words = [program, 'run', long, '--trace', '/dev/full', '--report', folder / 'r.txt', '--workers', '3']
            counts.append(refuse_after_write(words, stand_in))
    well, wrong = map(sum, zip(*counts))
    end(well, wrong, 0 if several else 1)


if __name__ == '__main__':
    main()
