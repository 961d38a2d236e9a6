#!/usr/bin/env python3
"""Makes a sweep in pieces by batch systems, and compares what `join` makes of them with the whole, byte for byte.

    tests/programs/batch_systems.py [--program FILE]

A cluster of one machine is started in a folder of its own (Debian's slurm-wlm, with munge), runs an array of 8
pieces by examples/slurm/pieces.sbatch, and is stopped again; GNU parallel then makes the same pieces. Where a
package isn't there, its case is skipped, and the script says so. It takes some ten seconds. The last line is
`N passed, M failed`, with `, K skipped` where some were, and the status is 1 where M is over 0.
"""

import functools
import os
import shutil
import socket
import subprocess
import time

import paths  # noqa: F401 (puts the folders of what follows on the path)
from harness import TOP, Skipped, parser_of, program_at, run_cases

SCENARIO = TOP / 'tests' / 'data' / 'sweeps' / 'lossy.toml'
OPTIONS = ['--seeds', '1..5', '--set', 'suspicion.alpha=1,3,10']
PIECES = 8
SECONDS = 60

SLURM_CONF = '''
ClusterName=pieces
SlurmctldHost={host}
SlurmUser={user}
SlurmdUser={user}
AuthType=auth/munge
AuthInfo=socket={room}/munge.socket
CredType=cred/munge
SlurmctldPort={port}
SlurmdPort={node_port}
SlurmctldPidFile={room}/slurmctld.pid
SlurmdPidFile={room}/slurmd.pid
SlurmctldLogFile={room}/slurmctld.log
SlurmdLogFile={room}/slurmd.log
StateSaveLocation={room}/state
SlurmdSpoolDir={room}/spool
MpiDefault=none
ProctrackType=proctrack/linuxproc
TaskPlugin=task/none
SwitchType=switch/none
SelectType=select/cons_tres
SelectTypeParameters=CR_Core
JobAcctGatherType=jobacct_gather/none
AccountingStorageType=accounting_storage/none
ReturnToService=2
SchedulerParameters=sched_interval=1,batch_sched_delay=0
NodeName={host} NodeAddr=127.0.0.1 CPUs={cpus} State=UNKNOWN
PartitionName=all Nodes={host} Default=YES MaxTime=5 State=UP
'''


def need(*names):
    """The ways to these programs; all of them must be there."""
    os.environ['PATH'] += ':/usr/sbin:/sbin'
    missing = [name for name in names if shutil.which(name) is None]
    if missing:
        raise Skipped(f'no {", ".join(missing)}')


def free_port():
    with socket.socket() as it:
        it.bind(('127.0.0.1', 0))
        return it.getsockname()[1]


def await_(what, seconds=20):
    """Waits until a test holds."""
    last = time.monotonic() + seconds
    while not what():
        if time.monotonic() > last:
            raise RuntimeError('waited in vain')
        time.sleep(0.1)


class Cluster:
    """A cluster of this machine, in a folder: its daemons, and the environment in which its commands run."""

    def __init__(self, room):
        self.room, self.daemons = room, []
        self.environment = {**os.environ, 'SLURM_CONF': str(room / 'slurm.conf')}

    def start(self, *words):
        log = open(self.room / f'{words[0]}.out', 'wb')
        self.daemons.append(subprocess.Popen(words, stdin=subprocess.DEVNULL, stdout=log, stderr=log,
                                             env=self.environment, cwd=self.room))

    def __enter__(self):
        room = self.room
        for name in ('state', 'spool'):
            (room / name).mkdir()
        room.chmod(0o755)
        (room / 'munge.key').write_bytes(os.urandom(128))
        (room / 'munge.key').chmod(0o400)
        host = socket.gethostname().split('.')[0]
        (room / 'slurm.conf').write_text(SLURM_CONF.format(
            room=room, host=host, port=free_port(), node_port=free_port(), cpus=os.cpu_count(),
            user=subprocess.check_output(['id', '-un'], text=True).strip()))
        (room / 'cgroup.conf').write_text('CgroupAutomount=no\n')
        self.start('munged', '--foreground', '--force', f'--socket={room}/munge.socket', f'--key-file={room}/munge.key',
                   f'--pid-file={room}/munge.pid', f'--log-file={room}/munge.log', f'--seed-file={room}/munge.seed')
        await_((room / 'munge.socket').exists)
        self.start('slurmctld', '-D', '-i', '-f', str(room / 'slurm.conf'))
        self.start('slurmd', '-D', '-f', str(room / 'slurm.conf'), '-N', host)
        await_(lambda: b'idle' in self.call('sinfo', '-h', '-o', '%T'))
        return self

    def call(self, *words, **options):
        return subprocess.run(words, stdout=subprocess.PIPE, stderr=subprocess.STDOUT, timeout=SECONDS,
                              env=self.environment, **options).stdout

    def __exit__(self, *_):
        for daemon in reversed(self.daemons):
            daemon.terminate()
        for daemon in reversed(self.daemons):
            try:
                daemon.wait(10)
            except subprocess.TimeoutExpired:
                daemon.kill()
                daemon.wait()


def whole(program, room):
    """The table and the lines of the whole sweep, by one process."""
    lines = subprocess.run([program, 'sweep', SCENARIO, '--table', 'whole.csv', *OPTIONS], cwd=room, check=True,
                           stdout=subprocess.PIPE, timeout=SECONDS).stdout
    return (room / 'whole.csv').read_bytes(), lines


def joined(make):
    """A case in a new folder: makes the pieces there, joins them, and compares."""
    @functools.wraps(make)
    def case(place):
        program, room = place
        make(program, room)
        pieces = [f'piece-{number}.csv' for number in range(PIECES, 0, -1)]
        lines = subprocess.run([program, 'join', *pieces, '--table', 'joined.csv'], cwd=room, check=True,
                               stdout=subprocess.PIPE, timeout=SECONDS).stdout
        assert ((room / 'joined.csv').read_bytes(), lines) == whole(program, room), 'joined otherwise than whole'
    return case


@joined
def by_slurm(program, room):
    """Makes the pieces by an array of Slurm's."""
    need('munged', 'slurmctld', 'slurmd', 'sbatch', 'sinfo')
    own = room / 'slurm'
    own.mkdir()
    with Cluster(own) as cluster:
        cluster.environment['SWIMSIM'] = str(program)
        told = cluster.call('sbatch', '--wait', f'--array=1-{PIECES}', str(TOP / 'examples/slurm/pieces.sbatch'),
                            str(SCENARIO), *OPTIONS, cwd=room)
        if b'Submitted' not in told:
            raise RuntimeError(told.decode())


@joined
def by_parallel(program, room):
    """Makes the pieces by GNU parallel; `:` is this machine in its list of those to log in to."""
    need('parallel')
    words = ['parallel', '--will-cite', '--sshlogin', ':', '--jobs', '4', str(program), 'sweep', str(SCENARIO),
             '--table', 'piece-{}.csv', '--shard', f'{{}}/{PIECES}', *OPTIONS, ':::', *map(str, range(1, PIECES + 1))]
    subprocess.run(words, cwd=room, check=True, timeout=SECONDS, stdin=subprocess.DEVNULL)


def main():
    program = program_at(parser_of(__doc__).parse_args().program)
    run_cases((by_slurm, by_parallel), lambda room: (program, room))


if __name__ == '__main__':
    main()
