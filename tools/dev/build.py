#!/usr/bin/env python3
"""Builds the program: proves its crates, as many side by side as there are jobs, and links it. ./clearing calls it,
holds the lock of the build and keeps what was built.

    tools/dev/build.py

In:  the sources, the command rt on the path, and CLEARING_JOBS, how many jobs there are: as many as there are
     processors where it is not set, with 2.5 GB of free memory for each, and one where most crates are proved, since
     each is then looked at for nothing.
Out: crates/*/out, and in crates/clear_main/out the program and build.log. On standard error how far the build is: a
     line that moves on a terminal, else a line for each crate that is proved.

Ends with 0, or with 1 where a crate is not proved, where the program is not linked, or does not check its own example,
and where a signal asked for an end. What is proved is kept, and so is what was begun.
"""
import os
import pathlib
import shutil
import signal
import subprocess
import sys
import time
from typing import Container, Dict, Iterable, List, NamedTuple, Optional, Sequence, Set

ROOT = pathlib.Path(__file__).resolve().parents[2]
# It is called isolated, so that the folder in which it stands is named.
sys.dont_write_bytecode = True
sys.path.insert(0, str(ROOT / "tools/dev"))
import crates  # noqa: E402

OUT = ROOT / "crates/clear_main/out"
PARTS, START = OUT / "build.parts", OUT / "build.start"
SOURCES = ("src", "specs", "proofs")
MEMORY = 2_500_000  # of each job, in kB
ENDS = (signal.SIGTERM, signal.SIGINT, signal.SIGHUP)


def size_of(name: str) -> int:
    """The bytes of the sources of a crate."""
    paths = [path for part in SOURCES for path in (ROOT / "crates" / name / part).rglob("*")]
    return sum(path.stat().st_size for path in paths if path.is_file())


class Ready(NamedTuple):
    """A crate that may be begun, and whether the whole build waits on it."""

    name: str
    is_waited_for: bool


class Crates:
    """The crates that the program is made of, itself included: on which each stands, and the bytes of its sources."""

    def __init__(self) -> None:
        known = crates.stands_on(ROOT)
        of_the_program = crates.lowest_first(crates.listed(ROOT), "clear_main")
        self.below: Dict[str, List[str]] = {name: known[name] for name in of_the_program}
        self.size: Dict[str, int] = {name: size_of(name) for name in self.below}
        self.ways: Dict[str, int] = {}

    def way(self, name: str) -> int:
        """The bytes of the longest way from a crate up to the program."""
        if name not in self.ways:
            above = [self.way(upper) for upper, below in self.below.items() if name in below]
            self.ways[name] = self.size[name] + max(above, default=0)
        return self.ways[name]

    def longest(self, proved: Container[str]) -> int:
        """The bytes of the longest way that is left."""
        return max((self.way(name) for name in self.below if name not in proved), default=0)

    def ready(self, proved: Container[str], begun: Container[str]) -> List[Ready]:
        """The crates below the program that may be begun, those on which most is still to come first: all that they
        stand on is proved."""
        longest = self.longest(proved)
        names = [name for name, below in self.below.items() if name != "clear_main" and name not in begun
                 and name not in proved and all(each in proved for each in below)]
        names.sort(key=lambda name: (self.way(name), name), reverse=True)
        return [Ready(name, self.way(name) == longest) for name in names]


def jobs_for(count: int) -> int:
    """How many crates to prove side by side of so many."""
    stamps = list(ROOT.glob("crates/*/out/rlib/stamp"))
    if 2 * len(stamps) > count:
        return 1
    said = os.environ.get("CLEARING_JOBS", "")
    if said:
        return int(said) if said.isdigit() else 1
    with open("/proc/meminfo", encoding="ascii") as file:
        free = next((int(line.split()[1]) for line in file if line.startswith("MemAvailable:")), MEMORY)
    return max(1, min(free // MEMORY, len(os.sched_getaffinity(0))))


def link(source: str, target: str) -> None:
    """Puts a file into another place, as a link where that is possible."""
    try:
        os.link(source, target)
    except OSError:
        shutil.copy2(source, target)


def copied(source: pathlib.Path, target: pathlib.Path) -> None:
    """Puts a folder into another place, where there is such a folder and nothing stands in that place."""
    if source.is_dir() and not target.exists():
        shutil.copytree(source, target, symlinks=True, copy_function=link)


def lay_out(copy: pathlib.Path) -> None:
    """Makes a copy of the sources for the work of one job, since rt works in a folder, and in those of the crates below
    it, one run at a time."""
    (copy / "crates").mkdir(parents=True)
    for name in ("crates.txt", "HANDLES"):
        if (ROOT / name).is_file():
            shutil.copy(ROOT / name, copy)
    for crate in (ROOT / "crates").iterdir():
        (copy / "crates" / crate.name).mkdir()
        for part in SOURCES:
            copied(crate / part, copy / "crates" / crate.name / part)


class Proof:
    """A crate that is being proved by its share of the jobs, in a copy of the sources, where it finds the libraries of
    those that are proved."""

    def __init__(self, name: str, copy: pathlib.Path, share: int, proved: Iterable[str]) -> None:
        self.name, self.copy, self.share = name, copy, share
        self.home, self.place = ROOT / "crates" / name / "out", copy / "crates" / name / "out"
        for below in proved:
            copied(ROOT / "crates" / below / "out/rlib", copy / "crates" / below / "out/rlib")
        if self.home.is_dir():
            self.home.rename(self.place)
        self.log = PARTS / f"{name}.log"
        self.process = started(["rt", "lib", "--jobs", str(share)], copy / "crates" / name, self.log)

    def bring_back(self) -> None:
        """Moves what it leaves back, however it ended."""
        if self.place.is_dir() and not self.home.exists():
            self.place.rename(self.home)


def started(words: Sequence[str], folder: pathlib.Path, log: pathlib.Path) -> "subprocess.Popen[bytes]":
    """A command in a process group of its own, which adds what it prints to a log."""
    with open(log, "ab") as file:
        return subprocess.Popen(words, cwd=folder, stdin=subprocess.DEVNULL, stdout=file, stderr=subprocess.STDOUT,
                                start_new_session=True)


def end(processes: "Sequence[subprocess.Popen[bytes]]") -> None:
    """Asks processes and all that they began to end, and waits for them."""
    for process in processes:
        if process.poll() is None:
            os.killpg(process.pid, signal.SIGTERM)
    for process in processes:
        process.wait()


class Build:
    """The steps of a build, and what is said of them."""

    def __init__(self) -> None:
        self.crates = Crates()
        self.jobs = jobs_for(len(self.crates.below))
        self.proved: List[str] = []
        self.begun: Set[str] = set()
        self.running: List[Proof] = []
        self.is_asked_to_end = False
        # What was told last, when something is told next, and when the build began, both in seconds.
        self.told: Optional[str] = None
        self.next, self.began = 0.0, time.time()
        self.log = OUT / "build.log"
        self.log.write_bytes(b"")
        START.write_bytes(b"")

    def ask_to_end(self, *_: object) -> None:
        """Takes a signal that asks for an end."""
        self.is_asked_to_end = True

    def run(self) -> bool:
        """Whether the program is built. Where all below it is proved, one job does the rest: a second one would read
        all of it anew."""
        for number in ENDS:
            signal.signal(number, self.ask_to_end)
        is_alone = self.jobs < 2
        if not is_alone and not self.prove_below():
            return False
        words = ["rt", "run", *([] if is_alone else ["--jobs", "1"]), "--"]
        words += ["check", "--banks", "data/banks.csv", "--debts", "data/debts.csv"]
        process = started(words, ROOT / "crates/clear_main", self.log)
        while process.poll() is None and not self.is_asked_to_end:
            self.wait()
        end([process])
        # Built, it checked its own example, and so ended with 0.
        return process.returncode == 0 and not self.is_asked_to_end

    def prove_below(self) -> bool:
        """Whether the crates below the program are proved. Nothing of the work on them goes on, and no copy is left."""
        self.recover()
        try:
            return self.prove_all()
        finally:
            end([proof.process for proof in self.running])
            for proof in self.running:
                proof.bring_back()
            self.running = []
            # No crates.txt but the repository's own may stay there: rt takes none beside.
            shutil.rmtree(PARTS, ignore_errors=True)

    def recover(self) -> None:
        """Takes back what a build that was killed may have left in its copies."""
        for left in sorted(PARTS.glob("*/crates/*/out/incremental")):
            home = ROOT / "crates" / left.parents[1].name / "out"
            if not home.exists():
                left.parent.rename(home)
        shutil.rmtree(PARTS, ignore_errors=True)

    def prove_all(self) -> bool:
        """Proves the crates below the program, each as soon as all that it stands on is proved, and as many side by
        side as there are jobs. Where fewer can be proved, they share the jobs. The crate on which the whole build waits
        has half of the jobs at least, also where fewer are free. What a crate prints goes into the log when it ends."""
        copies = [PARTS / str(number) for number in range(1, self.jobs + 2)]
        for copy in copies:
            lay_out(copy)
        free = self.jobs
        while not self.is_asked_to_end:
            for proof in [proof for proof in self.running if proof.process.poll() is not None]:
                self.running.remove(proof)
                copies.append(proof.copy)
                free += proof.share
                if not self.take(proof):
                    return False
            ready = self.crates.ready(self.proved, self.begun)
            if not ready and not self.running:
                return True
            for waiting, (name, is_waited_for) in zip(range(len(ready), 0, -1), ready):
                if free < 1 and not is_waited_for:
                    break
                share = max(free // waiting, (self.jobs + 1) // 2 if is_waited_for else 1)
                self.running.append(Proof(name, copies.pop(), share, self.proved))
                self.begun.add(name)
                free -= share
            self.wait()
        return False

    def take(self, proof: Proof) -> bool:
        """Whether a crate is proved, once its proof has ended: what it left is taken back, and what it printed kept."""
        proof.bring_back()
        is_proved = proof.process.returncode == 0
        with open(self.log, "ab") as file:
            file.write(proof.log.read_bytes() + f"{'proved' if is_proved else 'failed'} {proof.name}\n".encode())
        if is_proved:
            self.proved.append(proof.name)
        return is_proved

    def wait(self) -> None:
        """Waits a little, and says how far the build is. Who cannot be told of it has gone, and wants no build."""
        if time.monotonic() >= self.next:
            self.next = time.monotonic() + (1 if self.told else 0.1)
            try:
                self.tell(self.line())
            except OSError:
                self.is_asked_to_end = True
        time.sleep(0.1)

    def tell(self, line: str) -> None:
        """Says a line: over the one before it on a terminal, else where another crate is proved."""
        if sys.stderr.isatty():
            print(f"\r\033[Kclearing: {line}", end="", file=sys.stderr, flush=True)
        elif line.partition(";")[0] != self.told:
            print(f"clearing: {line}", file=sys.stderr, flush=True)
        self.told = line.partition(";")[0]

    def line(self) -> str:
        """Which crates are proved, which are being proved, and how long it may take yet. By one job rt goes over all
        crates in one call, and does not say which it found proved."""
        size, whole = self.crates.size, sum(self.crates.size.values())
        done = sum(size[name] for name in self.proved)
        line = f"{len(self.proved)} of {len(size)} crates are proved"
        if self.jobs == 1:
            line = "proving what is not proved yet"
        at = sorted(proof.name for proof in self.running)
        at = at or [name for name in sorted(size) if name not in self.proved and is_begun(name)]
        line += f"; at {', '.join(at[:4])}" if at else ""
        if done * 10 <= whole or len(self.proved) == len(size):
            return line
        # The crates of the longest way follow one another, and each has half of the jobs at least.
        most = max(whole - done, 2 * self.crates.longest(self.proved) if self.jobs > 1 else 0)
        left = (time.time() - self.began) * most / done / 60
        return line + f"; about {int(left + 1)} minute{'' if left < 1 else 's'} left"


def is_begun(name: str) -> bool:
    """Whether something of a crate was checked since the build began: a file came into what is kept of it, or into a
    folder there."""
    start, folder = START.stat().st_mtime_ns, ROOT / "crates" / name / "out/incremental"
    places = [folder, *filter(pathlib.Path.is_dir, folder.iterdir())] if folder.is_dir() else []
    return any(place.stat().st_mtime_ns > start for place in places)


def main() -> int:
    """Builds, and gives the status."""
    try:
        is_built = Build().run()
    except OSError as fault:
        print(f"clearing: {fault}", file=sys.stderr)
        is_built = False
    if sys.stderr.isatty():
        print("\r\033[K", end="", file=sys.stderr, flush=True)
    return 0 if is_built else 1


if __name__ == "__main__":
    sys.exit(main())
