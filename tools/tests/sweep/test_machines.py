"""The recipes of docs/using.md for more machines, each with the package that it names where that is installed: GNU parallel, here and on a second
host's stand-in, an ssh that runs in another folder; and Slurm with its daemons on this machine."""
import glob
import os
import shutil
import socket
import subprocess
import time
import unittest

from test_sweep import Folder


class Parallel(Folder):
    def parallel(self, *words, **more):
        home = os.path.join(self.folder, "home")
        os.makedirs(home, exist_ok=True)
        with open(os.path.join(self.out, "commands"), encoding="utf-8") as lines:
            return subprocess.run(["parallel", "--will-cite", "-j2", *words], stdin=lines, check=False, capture_output=True, text=True,
                                  env=os.environ | {"HOME": home} | more.pop("env", {}), **more)

    def setUp(self):
        super().setUp()
        if shutil.which("parallel") is None:
            self.skipTest("no parallel")

    def test_killed_and_resumed(self):
        self.assertEqual(self.sweep(*self.words("--set", "core.rob=10,20,30", "--list")).returncode, 0)
        log = os.path.join(self.folder, "log")
        self.assertEqual(self.parallel("--joblog", log, env={"KILL": "two"}).returncode, 3)
        self.assertEqual(sorted(line.split("\t")[6] for line in self.read("log").splitlines()[1:]), ["0"] * 3 + ["137"] * 3)
        told = self.sweep(self.out, "--gather")
        self.assertEqual((told.returncode, len(self.rows()), told.stderr.count("missing: two core")), (3, 3, 3))
        self.assertEqual(self.parallel("--joblog", log, "--resume-failed").returncode, 0)
        self.assertEqual((self.sweep(self.out, "--gather").returncode, len(self.rows()), self.runs()), (0, 6, 9))

    def test_a_file_for_each_slot(self):
        """Results as lines of as many files as there are slots; a line that was cut is made again, and spoils none behind it."""
        self.assertEqual(self.sweep(*self.words("--set", "core.rob=10,20,30", "--list")).returncode, 0)
        words, log, out = "RESULTS=results/task_{%} sh -c {}", os.path.join(self.folder, "log"), os.path.join(self.out, "results")
        self.assertEqual(self.parallel("--joblog", log, words, env={"KILL": "two"}).returncode, 3)
        self.assertEqual((self.sweep(self.out, "--gather").returncode, len(self.rows()), self.runs()), (3, 3, 6))
        self.assertLessEqual(set(os.listdir(out)), {"task_1", "task_2"})
        name = os.path.join("out", "results", min(os.listdir(out)))
        self.write(name, self.read(name)[:-20])
        self.assertEqual(self.sweep(self.out, "--list").stdout.split()[0], "4")
        self.assertEqual(self.parallel(words).returncode, 0)
        self.assertEqual((self.sweep(self.out, "--gather").returncode, len(self.rows()), self.runs()), (0, 6, 10))
        self.assertLessEqual(set(os.listdir(out)), {"task_1", "task_2"})

    def test_a_second_host(self):
        """Its ssh runs in another folder, where the archive was unpacked; the results come back by --from."""
        there = os.path.join(self.folder, "there")
        os.mkdir(there)
        self.assertEqual(self.sweep(*self.words("--set", "core.rob=10,20", "--list", "--pack")).returncode, 0)
        subprocess.run(["tar", "xf", f"{self.out}.tar.gz", "-C", there], check=True)
        ssh = self.write("ssh", f'#!/bin/sh\n[ "$2" = -- ] && shift\nshift\ncd {there} && exec sh -c "$*"\n')
        os.chmod(ssh, 0o755)
        with open(os.path.join(there, "out", "commands"), encoding="utf-8") as lines:
            ran = subprocess.run(["parallel", "--will-cite", "--ssh", ssh, "--sshlogin", "2/second"], stdin=lines, check=False,
                                 capture_output=True, text=True, env=os.environ | {"HOME": self.folder, "PARALLEL_SHELL": "/bin/sh"})
        self.assertEqual((ran.returncode, ran.stderr, os.listdir(os.path.join(self.out, "results"))), (0, "", []))
        told = self.sweep(self.out, "--gather", "--from", os.path.join(there, "out"))
        self.assertEqual((told.returncode, len(self.rows()), self.runs()), (0, 4, 4))


CONF = """ClusterName=test
SlurmctldHost={host}
SlurmctldPort={port}
SlurmdPort={other}
SlurmUser=root
AuthType=auth/munge
AuthInfo=socket={folder}/munge.socket
CryptoType=crypto/munge
StateSaveLocation={folder}/state
SlurmdSpoolDir={folder}/spool
SlurmctldPidFile={folder}/ctld.pid
SlurmdPidFile={folder}/d.pid
SlurmctldLogFile={folder}/ctld.log
SlurmdLogFile={folder}/d.log
ProctrackType=proctrack/linuxproc
TaskPlugin=task/none
SelectType=select/cons_tres
SelectTypeParameters=CR_Core
ReturnToService=2
NodeName={host} CPUs=2 RealMemory=1000 State=UNKNOWN
PartitionName=all Nodes={host} Default=YES State=UP
"""
DAEMONS = ("munged", "slurmctld", "slurmd", "sbatch", "squeue")


@unittest.skipUnless(os.geteuid() == 0 and all(shutil.which(name, path="/usr/sbin:/usr/bin") for name in DAEMONS), "no Slurm, or no right to start it")
class Slurm(Folder):
    def setUp(self):
        super().setUp()
        self.children = []
        self.addCleanup(self.stop)
        host, ports = socket.gethostname().split(".")[0], [free_port() for _ in range(2)]
        for name in ("state", "spool"):
            os.mkdir(os.path.join(self.folder, name))
        text = CONF.format(host=host, port=ports[0], other=ports[1], folder=self.folder)
        self.env = os.environ | {"SLURM_CONF": self.write("slurm.conf", text), "PATH": f"{os.environ['PATH']}:/usr/sbin"}
        os.chmod(self.folder, 0o755)
        key = self.write("munge.key", "k" * 64)
        os.chmod(key, 0o600)
        self.start("munged", "--foreground", "--force", f"--key-file={key}", f"--socket={self.folder}/munge.socket",
                   f"--pid-file={self.folder}/munge.pid", f"--log-file={self.folder}/munge.log", f"--seed-file={self.folder}/munge.seed")
        self.wait(lambda: os.path.exists(os.path.join(self.folder, "munge.socket")), "munged doesn't start")
        self.start("slurmctld", "-D")
        self.start("slurmd", "-D", "-N", host)
        self.wait(lambda: "idle" in self.slurm("sinfo", "-h", "-o", "%t").stdout, "Slurm doesn't start")

    def start(self, *words):
        self.children.append(subprocess.Popen(words, env=self.env, stdout=subprocess.DEVNULL, stderr=subprocess.DEVNULL))

    def stop(self):
        for child in reversed(self.children):
            child.terminate()
            child.wait(timeout=30)

    def slurm(self, *words):
        return subprocess.run(words, env=self.env, cwd=self.folder, capture_output=True, text=True, check=False)

    def wait(self, holds, why):
        for _ in range(240):
            if holds():
                return
            time.sleep(0.5)
        self.skipTest(why)

    def array(self):
        """Submits the job array from the folder's own place, and waits for its end."""
        told = self.slurm("sbatch", os.path.join(self.out, "array.sh"))
        self.assertEqual((told.returncode, told.stderr), (0, ""))
        self.wait(lambda: not self.slurm("squeue", "-h").stdout.strip(), "the jobs don't end")

    def test_array(self):
        """Tasks ask for time and memory, keep what is said on standard error, and go on where they were killed."""
        self.env["KILL"] = "two"
        self.assertEqual(self.sweep(*self.words("--set", "core.rob=10,20,30", "--list", "--tasks", "2", "--memory", "100")).returncode, 0)
        self.array()
        told = self.sweep(self.out, "--gather")
        self.assertEqual((told.returncode, len(self.rows())), (3, 3))
        said = "".join(self.read(os.path.relpath(path, self.folder)) for path in glob.glob(f"{self.out}/said/*"))
        self.assertEqual(said.count("has no result: status 137"), 3)
        del self.env["KILL"]
        self.array()
        self.assertEqual((self.sweep(self.out, "--gather").returncode, len(self.rows()), self.runs()), (0, 6, 9))
        self.assertEqual(sorted(os.listdir(os.path.join(self.out, "results"))), ["task_1", "task_2"])


def free_port():
    with socket.socket() as found:
        found.bind(("", 0))
        return found.getsockname()[1]


if __name__ == "__main__":
    unittest.main()
