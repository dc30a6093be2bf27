"""A Slurm of its own, of one machine, for as long as a test takes: slurmctld and slurmd of Debian's slurm-wlm."""

import getpass
import os
import shutil
import socket
import subprocess
import time
from contextlib import contextmanager

NEEDED = "sbatch", "sinfo", "slurmctld", "slurmd"
# So long it may take until the machine is ready; and between two looks, in seconds.
LONGEST, TICK = 120, 0.5
# No other user reaches it, so it asks nobody who he is.
CONFIGURATION = """ClusterName=here
SlurmctldHost={name}(127.0.0.1)
SlurmctldPort={ports[0]}
SlurmdPort={ports[1]}
AuthType=auth/none
CredType=cred/none
SlurmUser={user}
SlurmdUser={user}
StateSaveLocation={folder}/state
SlurmdSpoolDir={folder}/spool
SlurmctldPidFile={folder}/slurmctld.pid
SlurmdPidFile={folder}/slurmd.pid
ProctrackType=proctrack/pgid
TaskPlugin=task/none
SelectType=select/cons_tres
SelectTypeParameters=CR_CPU
SchedulerType=sched/builtin
SchedulerParameters=batch_sched_delay=0,sched_interval=1
NodeName={name} NodeAddr=127.0.0.1 CPUs={workers} State=UNKNOWN
PartitionName=all Nodes=ALL Default=YES MaxTime=INFINITE State=UP
"""


def is_there():
    """Whether the package is. Debian has its daemons in /usr/sbin, which a user's path may lack."""
    return all(shutil.which(name, path=search_path()) for name in NEEDED)


def search_path():
    return f"{os.environ['PATH']}:/usr/sbin"


def free_ports():
    """Two ports that nobody uses now."""
    with socket.socket() as one, socket.socket() as other:
        for each in (one, other):
            each.bind(("127.0.0.1", 0))
        return one.getsockname()[1], other.getsockname()[1]


def wait_until_idle(env):
    """Waits until the machine takes tasks."""
    ended = time.monotonic() + LONGEST
    while time.monotonic() < ended:
        said = subprocess.run(["sinfo", "--noheader", "--format=%T"], capture_output=True, text=True, env=env)
        if said.stdout.split() == ["idle"]:
            return
        time.sleep(TICK)
    raise TimeoutError("Slurm isn't ready")


@contextmanager
def slurm(folder, workers):
    """The environment in which its commands find a Slurm that runs so many tasks at a time; it ends with the block."""
    file = folder / "slurm.conf"
    name, user = socket.gethostname().partition(".")[0], getpass.getuser()
    file.write_text(CONFIGURATION.format(name=name, user=user, folder=folder, workers=workers, ports=free_ports()))
    for part in ("state", "spool"):
        (folder / part).mkdir()
    env = {**os.environ, "PATH": search_path(), "SLURM_CONF": str(file)}
    with open(folder / "log", "w") as log:
        how = {"env": env, "stdout": log, "stderr": log}
        daemons = [subprocess.Popen([daemon, "-D", "-f", file], **how) for daemon in ("slurmctld", "slurmd")]
        try:
            wait_until_idle(env)
            yield env
        finally:
            for daemon in reversed(daemons):
                daemon.terminate()
                daemon.wait()
