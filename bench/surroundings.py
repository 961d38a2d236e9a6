"""What a run may be measured beside, or within: processes that keep processors busy, and control groups with a quota."""

import os
import subprocess
import sys
from contextlib import contextmanager
from pathlib import Path

# the loop ends by itself where who began it is gone
LOOP = '''
import os, sys
while os.getppid() == int(sys.argv[1]):
    for _ in range(1_000_000):
        pass
'''
MICROSECONDS = 100_000


class NoGroup(Exception):
    """Why no control group with a quota can be made here."""


@contextmanager
def busy_loops(count):
    """Runs so many processes that only count, on the processors that the kernel gives them."""
    loops = [subprocess.Popen([sys.executable, '-S', '-c', LOOP, str(os.getpid())]) for _ in range(count)]
    try:
        yield
    finally:
        for loop in loops:
            loop.kill()
        for loop in loops:
            loop.wait()


def mounted(kind, option=''):
    """Where control groups of this kind (`cgroup`, `cgroup2`) are mounted, those of version 1 with this controller."""
    mounts = [line.split() for line in Path('/proc/self/mounts').read_text().splitlines()]
    return [Path(words[1]) for words in mounts if words[2] == kind and (not option or option in words[3].split(','))]


def group_of(prefix):
    """The path of this process's control group, from the line of /proc/self/cgroup that a rule finds."""
    return next((line.split(':', 2)[2] for line in Path('/proc/self/cgroup').read_text().splitlines() if prefix(line)), None)


def own_group():
    """The folder of the control group, of version 2, in which this process is, and that of the highest one."""
    tops, name = mounted('cgroup2'), group_of(lambda line: line.startswith('0::'))
    if not tops or name is None:
        raise NoGroup('there are no control groups of version 2')
    return tops[0] / name.lstrip('/'), tops[0]


def folder_for_groups():
    """The nearest group around this process whose groups may have a share of the processors."""
    folder, top = own_group()
    while True:
        held = folder / 'cgroup.subtree_control'
        if held.exists() and 'cpu' in held.read_text().split():
            return folder
        if folder == top or top not in folder.parents:
            raise NoGroup('no control group around this process deals out processors (cgroup.subtree_control has no cpu)')
        folder = folder.parent


def folder_of_version_1():
    """The group, of version 1, around this process that deals out processors."""
    tops = mounted('cgroup', 'cpu')
    name = group_of(lambda line: 'cpu' in line.split(':', 2)[1].split(','))
    if not tops or name is None:
        raise NoGroup('no control group of version 1 deals out processors')
    return tops[0] / name.lstrip('/')


def new_group():
    """A folder for a new control group, and its files that take the time allowed in a period: `{}` is that time."""
    name = f'swimsim-bench-{os.getpid()}'
    try:
        return folder_for_groups() / name, {'cpu.max': f'{{}} {MICROSECONDS}'}
    except NoGroup:
        return folder_of_version_1() / name, {'cpu.cfs_period_us': str(MICROSECONDS), 'cpu.cfs_quota_us': '{}'}


@contextmanager
def quota(share):
    """Makes a control group that gets this share of the time of all processors, and gives what a process calls to enter it.
    The group is removed at the end."""
    group, files = new_group()
    try:
        group.mkdir()
    except OSError as error:
        raise NoGroup(f'no control group can be made: {error}') from None

    def enter():
        (group / 'cgroup.procs').write_text(str(os.getpid()))

    try:
        set_quota(group, files, share, enter)
        yield enter
    finally:
        group.rmdir()


def set_quota(group, files, share, enter):
    """Gives a group its share, and sees that a process can enter it."""
    allowed = round(share * os.cpu_count() * MICROSECONDS)
    try:
        for name, text in files.items():
            (group / name).write_text(text.format(allowed))
        subprocess.run(['true'], preexec_fn=enter, check=True)
    except (OSError, subprocess.SubprocessError) as error:
        raise NoGroup(f'the control group takes no quota, or no process: {error}') from None


def on_one_processor():
    """Lets this process, and what it begins, run on one processor alone: the first that it may."""
    os.sched_setaffinity(0, {min(os.sched_getaffinity(0))})
