"""Jobs as an array of a Slurm cluster of this machine alone: its daemons run on the loopback, as root, in the test's
folder."""
import os
import pathlib
import socket
import subprocess
import time
import unittest
from typing import Callable, List, Optional

from common import ROOT, Case, Word, comes, needs

JOBS = 1500
PROGRAM = '#!/bin/sh\n[ "$1" != fail ] || exit 4\nprintf "%s\\n" "$@"\n'
CONFIGURATION = """ClusterName=test
SlurmctldHost=localhost(127.0.0.1)
SlurmUser=root
SlurmdUser=root
AuthType=auth/munge
AuthInfo=socket={folder}/munge.socket
SlurmctldPort={ports[0]}
SlurmdPort={ports[1]}
StateSaveLocation={folder}/state
SlurmdSpoolDir={folder}/spool
SlurmctldPidFile={folder}/slurmctld.pid
SlurmdPidFile={folder}/slurmd.pid
ProctrackType=proctrack/linuxproc
TaskPlugin=task/none
JobAcctGatherType=jobacct_gather/none
AccountingStorageType=accounting_storage/none
SelectType=select/cons_tres
SelectTypeParameters=CR_CPU
MpiDefault=none
NodeName=localhost NodeAddr=127.0.0.1 CPUs={processors}
PartitionName=all Nodes=localhost Default=YES State=UP
"""


def free_ports(count: int) -> List[int]:
    """Ports of the loopback that nobody listens on."""
    held = [socket.create_server(("127.0.0.1", 0)) for _ in range(count)]
    ports = [each.getsockname()[1] for each in held]
    for each in held:
        each.close()
    return ports


@needs("sbatch", "slurmctld", "slurmd", "munged")
@unittest.skipUnless(os.geteuid() == 0, "the daemons of Slurm run as root here")
class Slurm(Case):
    def setUp(self):
        super().setUp()
        for name in ("state", "spool"):
            (self.folder / name).mkdir()
        self.file("key", os.urandom(1024)).chmod(0o400)
        processors = len(os.sched_getaffinity(0))
        text = CONFIGURATION.format(folder=self.folder, ports=free_ports(2), processors=processors)
        self.environment = {
            **os.environ,
            "SLURM_CONF": str(self.file("slurm.conf", text)),
            "CLEARING": str(self.file("program", PROGRAM)),
        }
        (self.folder / "program").chmod(0o755)
        munge = {name: self.folder / f"munge.{name}" for name in ("socket", "pid", "log", "seed")}
        self.daemon(
            "munged",
            "--foreground",
            "--force",
            f"--socket={munge['socket']}",
            f"--key-file={self.folder / 'key'}",
            f"--pid-file={munge['pid']}",
            f"--log-file={munge['log']}",
            f"--seed-file={munge['seed']}",
        )
        self.until(lambda: munge["socket"].exists())
        self.daemon("slurmctld", "-D", "-i")
        self.daemon("slurmd", "-D", "-N", "localhost")
        self.until(lambda: "idle" in self.run_here("sinfo", "--noheader", "--format=%t").stdout)

    def daemon(self, *words: str) -> None:
        with open(self.folder / f"{words[0]}.told", "wb") as told:
            process = subprocess.Popen(words, env=self.environment, stdin=subprocess.DEVNULL, stdout=told, stderr=told)
        self.addCleanup(process.wait)
        self.addCleanup(process.terminate)

    def until(self, holds: Callable[[], object], seconds: Optional[float] = 600) -> None:
        """Waits for something to hold, which fails with what each daemon told where it does not."""
        if not comes(holds, seconds or self.WAIT):
            told = {path.name: path.read_text(errors="replace")[-1000:] for path in self.folder.glob("*.told")}
            self.fail(f"not within {seconds} seconds: {told}")

    def run_here(self, *words: Word) -> "subprocess.CompletedProcess[str]":
        return subprocess.run(
            [str(word) for word in words],
            cwd=self.folder,
            env=self.environment,
            stdin=subprocess.DEVNULL,
            capture_output=True,
            encoding="utf-8",
        )

    def script(self, *words: Word) -> pathlib.Path:
        """The batch script for the jobs, as a file."""
        done = self.run_here(ROOT / "bin/clearing-many", "slurm", "jobs.tsv", "out", *words)
        self.assertEqual((done.returncode, done.stderr), (0, ""))
        return self.file("batch.sh", done.stdout)

    def ended(self) -> bool:
        """Whether no task waits or runs."""
        done = self.run_here("squeue", "--noheader")
        return done.returncode == 0 and not done.stdout.strip()

    def test_many_short_jobs_are_packed_into_few_tasks(self):
        self.file("jobs.tsv", "".join(f"job-{at}\tgen\t{at}\n" for at in range(JOBS)) + "bad\tfail\n")
        script = self.script("--each", 50)
        self.assertIn("#SBATCH --array=1-31\n", script.read_text())
        begun = time.monotonic()
        done = self.run_here("sbatch", script)
        self.assertEqual(done.returncode, 0, done.stderr)
        self.until(lambda: self.ended() and len(list((self.folder / "out").glob("*.out"))) == JOBS)
        print(f"{JOBS} jobs in {time.monotonic() - begun:.1f} s ", end="", flush=True)
        self.assertEqual((self.folder / "out/job-1234.out").read_text(), "gen\n1234\n")
        self.assertEqual((self.folder / "out/bad.failed").read_text(), "status 4\n")

    def test_more_jobs_than_an_array_may_have_are_cut(self):
        self.file("jobs.tsv", "".join(f"job-{at}\tgen\t{at}\n" for at in range(JOBS)))
        whole = self.run_here("sbatch", "--test-only", self.script("--tasks", JOBS))
        self.assertIn("Invalid job array specification", whole.stderr)
        self.assertNotEqual(whole.returncode, 0)
        script = self.script()
        self.assertIn("#SBATCH --array=1-750\n", script.read_text())
        cut = self.run_here("sbatch", "--test-only", script)
        self.assertEqual(cut.returncode, 0, cut.stderr)


if __name__ == "__main__":
    unittest.main()
