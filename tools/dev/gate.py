#!/usr/bin/env python3
"""Runs a command that calls `rt ci`, says what that is at and how long it may take yet, and what took how long.

    tools/dev/gate.py [--dear-fails] COMMAND [WORD ..]

Out:  each line of the command as it comes. Where one tells a step of `rt ci`, a line `gate: ...` on standard error,
      with the minutes so far and, from the second minute on, an estimate. At the end the minutes of a processor by
      crate, for its proofs, its tests and its edits, and the seconds of its first edit, which proves the crate once
      more, and of the dearest other. Last each edit that by itself, without what proves or reads its crate, took more
      than four and a half times the cheapest proof of a crate, which is about what one with nothing in it takes.

An estimate goes by the bytes of what is to be proved, the edits that are to be tried, which prove a crate once more,
and what follows on what: the steps that are left are given to as many jobs as there are processors. Times are seen by a
look at the processes each second, until `rt ci` says how much passed: what comes after it is no part of the table.

Where a proof was refused, what it said is told once more after that, without the lines of what is proved.

Ends with the status of the command; with 1, before the command is begun, where a crate has more than five edits in
must-fail/; and with 1 for a dear edit where --dear-fails stands first. Where it is ended by a signal, it ends all that
the command began.
"""
import contextlib
import ctypes
import heapq
import os
import pathlib
import re
import signal
import subprocess
import sys
import threading
import time
from typing import Dict, Iterable, Iterator, List, NamedTuple, Optional, Set, Tuple

ROOT = pathlib.Path(__file__).resolve().parents[2]
sys.dont_write_bytecode = True
sys.path.insert(0, str(ROOT / "tools/dev"))
import crates  # noqa: E402

# An edit is dear that takes so many times what the cheapest proof does, beyond the part of its crate's proof that each
# check of it reads.
MOST_EDITS, DEAR, READ = 5, 4.5, 0.1
# What a step takes in seconds of a processor on a machine of today: a proof with nothing in it and for each byte of
# src/ and specs/, a byte of tests, and an edit. The edits of a crate prove it once more, and a part of it again.
PROOF, BYTE, TESTS, EDIT, AGAIN = 5, 0.0016, 0.0035, 6.5, 1.2
# What is taken of this machine before its times are known counts as much as what was seen in so many seconds.
SECONDS = 60
STEP = re.compile(r"rt: (\w+)(?:( is kept): .*|(: its tests are)? proved|: trying its must-fail edits \((\d+)\))$")
VERDICT = re.compile(r"\d+ passed, \d+ failed$")
# A step that was refused, the head of what it says before that, and of that the lines that tell nothing of why.
REFUSED = re.compile(r"rt: (.+?)(?:: its tests are)? NOT PROVED$")
HEAD = "== "
WELL = re.compile(r"fn .*: (?:proved|assumed)|(?:statements|library|crate|logic|axioms|by-macro:?|checked|so far:) ")
MOST_LINES = 40
PHASES = ("proof", "tests", "edits")
CHILD_SUBREAPER = 36

TEST_MODULE = re.compile(r"#\[cfg\(test\)\]\s+(?:pub(?:\(\w+\))? )?mod (\w+);")

Step = Tuple[str, str]
"""A step of `rt ci`: a crate and one of PHASES."""


def bytes_of(crate: str) -> Tuple[int, int]:
    """How many bytes of a crate are proved with it, and how many with its tests, which stand in modules for tests."""
    folder = ROOT / "crates" / crate
    paths = [path for part in ("src", "specs") for path in (folder / part).rglob("*") if path.is_file()]
    files = {path: path.read_text(encoding="utf-8") for path in paths}
    modules = {module for text in files.values() for module in TEST_MODULE.findall(text)}
    tests = sum(file.stat().st_size for file in files if modules & {*file.relative_to(folder).with_suffix("").parts})
    return sum(file.stat().st_size for file in files) - tests, tests


def lines_of(crate: str) -> int:
    """How many lines of code a crate has, of its sources and definitions."""
    return sum(file.read_bytes().count(b"\n") for file in (ROOT / "crates" / crate).glob("s*/**/*.rt"))


def has_tests(crate: str) -> bool:
    """Whether a crate's sources have test functions, whose proofs are a step of their own."""
    files = (ROOT / "crates" / crate / "src").rglob("*.rt")
    return any("#[test]" in file.read_text(encoding="utf-8") for file in files)


def edits_of(crate: str) -> List[pathlib.Path]:
    """The files of the edits of a crate that the gate tries, by their names."""
    return sorted((ROOT / "crates" / crate / "must-fail").glob("*.edit"))


def crates_below() -> Dict[str, List[str]]:
    """By crates.txt the crates of the repository, each with those that it stands on."""
    return crates.stands_on(ROOT)


class Work:
    """The steps of the gate with what each takes, and which of them are done."""

    def __init__(self) -> None:
        self.below = crates_below()
        self.jobs = os.cpu_count() or 1
        self.takes: Dict[Step, float] = {}
        self.lines = {name: lines_of(name) for name in self.below}
        self.ended: Set[Step] = set()
        self.trying: List[str] = []
        for name in self.below:
            own, tests = bytes_of(name)
            self.takes[name, "proof"] = PROOF + BYTE * own
            if has_tests(name):
                self.takes[name, "tests"] = self.takes[name, "proof"] + TESTS * tests
            edits = len(edits_of(name))
            if edits:
                self.takes[name, "edits"] = AGAIN * self.takes[name, "proof"] + EDIT * edits
        self.began = self.looked = time.monotonic()
        # The seconds of jobs that were busy, the steps that are under way, when each began, and the lines of the
        # longest way from each.
        self.busy = 0.0
        self.under_way: List[Step] = []
        self.begun: Dict[Step, float] = {}
        self.ways: Dict[Step, int] = {}
        self.note()

    def read(self, line: str) -> bool:
        """Takes a line of rt ci. Says whether it told a step."""
        found = STEP.match(line)
        if not found:
            return False
        name, kept, tests, edits = found.groups()
        if edits:
            # Edits are told when they begin: those of a crate are as good as tried when as many others as there are
            # jobs follow.
            self.trying.append(name)
            self.begun.setdefault((name, "edits"), time.monotonic())
            if len(self.trying) > self.jobs:
                self.ended.add((self.trying.pop(0), "edits"))
            self.note()
            return True
        if kept:
            # What an earlier run kept takes no time, and tells nothing of how fast this one is.
            for phase in PHASES:
                if (name, phase) in self.takes:
                    self.takes[name, phase] = 0
        self.ended.add((name, "tests" if tests else "proof"))
        self.note()
        return True

    def waits_for(self, step: Step) -> List[Step]:
        """The steps that must be done before: proofs of the crates below, and before edits those of the crate and of
        its tests."""
        name, phase = step
        before = [(crate, "proof") for crate in self.below[name]]
        if phase == "edits":
            before = [(name, "proof"), (name, "tests")]
        return [step for step in before if step in self.takes and step not in self.ended]

    def note(self) -> None:
        """Takes the steps that are under way as such: of those that wait for nothing as many as there are jobs, the
        longest way first."""
        now = time.monotonic()
        self.busy += (now - self.looked) * len(self.under_way)
        self.looked = now
        ready = [step for step in self.takes if step not in self.ended and not self.waits_for(step)]
        for step in sorted(ready, key=self.way, reverse=True)[: self.jobs]:
            self.begun.setdefault(step, now)
        self.under_way = [step for step in ready if step in self.begun][: self.jobs]

    def of_a_job(self) -> float:
        """How many seconds of a machine of today a job does in one, by what was done so far."""
        done = sum(self.takes.get(step, 0) for step in self.ended)
        return (done + SECONDS) / (self.busy + (time.monotonic() - self.looked) * len(self.under_way) + SECONDS)

    def left_of(self, step: Step, rate: float) -> float:
        """What is left of a step: a tenth of it at the least, until it is told that it ended."""
        whole = 0 if step in self.ended else self.takes.get(step, 0)
        return max(whole / 10, whole - (time.monotonic() - self.begun.get(step, time.monotonic())) * rate)

    def way(self, step: Step) -> int:
        """The lines of code of what follows one after another from this step on, itself included. Of steps that wait
        for nothing `rt ci` begins first with the one that has most."""
        if step not in self.ways:
            name, phase = step
            after: List[Step] = []
            if phase == "proof":
                above = [crate for crate, below in self.below.items() if name in below]
                after = [(crate, each) for crate in above for each in ("proof", "tests")]
            if phase != "edits":
                after.append((name, "edits"))
            ways = [self.way(each) for each in after if each in self.takes]
            self.ways[step] = self.lines[name] + max(ways, default=0)
        return self.ways[step]

    def minutes_left(self) -> float:
        """How long it may take yet: the steps that are left, given to the jobs in turn, the longest way first."""
        rate = self.of_a_job()
        order = sorted((step for step in self.takes if step not in self.ended),
                       key=lambda step: (step in self.begun, self.way(step)), reverse=True)
        waits = {step: set(self.waits_for(step)) for step in order}
        running: List[Tuple[float, Step]] = []
        now = 0.0
        while order or running:
            free = self.jobs - len(running)
            for step in [step for step in order if not waits[step]][:free] if free else []:
                heapq.heappush(running, (now + self.left_of(step, rate), step))
                order.remove(step)
            if not running:
                break
            now, done = heapq.heappop(running)
            for before in waits.values():
                before.discard(done)
        return now / rate / 60

    def told(self) -> str:
        """What the gate is at, in a line."""
        minutes = (time.monotonic() - self.began) / 60
        line = f"{sum((name, 'proof') in self.ended for name in self.below)} of {len(self.below)} crates are proved"
        if self.trying:
            line += f"; edits of {', '.join(self.trying)}"
        line += f"; {minutes:.0f} minutes so far"
        return line + (f", about {self.minutes_left():.0f} more" if minutes >= 2 else "")


class Process(NamedTuple):
    """A process of this machine: its parent, when it began, in ticks since the machine was started, and the seconds
    of a processor that it took, with those of its children that ended."""

    parent: int
    began: int
    seconds: float


def processes() -> Dict[int, Process]:
    """The processes of this machine by their numbers."""
    found, tick = {}, os.sysconf("SC_CLK_TCK")
    for path in pathlib.Path("/proc").glob("[0-9]*/stat"):
        with contextlib.suppress(OSError, ValueError, IndexError):
            fields = path.read_text(errors="replace").rpartition(")")[2].split()
            taken = sum(map(int, fields[11:15])) / tick
            found[int(path.parent.name)] = Process(int(fields[1]), int(fields[19]), taken)
    return found


def descendants(found: Dict[int, Process]) -> Iterator[int]:
    """The processes that this one began, and those that they began."""
    children: Dict[int, List[int]] = {}
    for number, process in found.items():
        children.setdefault(process.parent, []).append(number)
    ways = list(children.get(os.getpid(), []))
    while ways:
        number = ways.pop()
        yield number
        ways += children.get(number, [])


class Check(NamedTuple):
    """A check of a crate: what it was, with the name of its edit where it is of one, and its seconds of a processor."""

    crate: str
    phase: str
    edit: str
    seconds: float


class Tried(NamedTuple):
    """An edit that was tried: the seconds of a processor of all processes that share the check, and whether it was the
    first of its crate."""

    crate: str
    edit: str
    seconds: float
    is_first: bool


class Watch(threading.Thread):
    """What each check of a crate takes, by a look at the processes each second."""

    def __init__(self) -> None:
        super().__init__(daemon=True)
        self.over = threading.Event()
        # By number and beginning of the process.
        self.checks: Dict[Tuple[int, int], Check] = {}

    def run(self) -> None:
        """Looks each second, until it is over."""
        while not self.over.wait(1):
            self.look()

    def look(self) -> None:
        """Takes what each check took so far."""
        found = processes()
        for number in descendants(found):
            process = found[number]
            known = self.checks.get((number, process.began)) or self.check_of(number)
            if known:
                self.checks[number, process.began] = known._replace(seconds=process.seconds)

    def check_of(self, process: int) -> Optional[Check]:
        """The check that a process makes; nothing where it makes none."""
        try:
            words = (pathlib.Path("/proc") / str(process) / "cmdline").read_bytes().decode(errors="replace").split("\0")
            folder = pathlib.Path(os.readlink(f"/proc/{process}/cwd"))
        except OSError:
            return None
        if "--crate-name" not in words[:-1]:
            return None
        crate = words[words.index("--crate-name") + 1]
        if any(part.startswith("rt-edit") for part in folder.parts):
            return Check(crate, "edits", edit_in(crate, folder), 0)
        return Check(crate, "tests" if "--test" in words else "proof", "", 0)

    def seconds(self, crate: str, phase: str) -> float:
        """The seconds of a processor that the checks of a phase of a crate took."""
        return sum(check.seconds for check in self.checks.values() if (check.crate, check.phase) == (crate, phase))

    def edits(self) -> List[Tried]:
        """Each edit that was tried, in turn."""
        tried: Dict[Tuple[str, str], float] = {}
        for check in self.checks.values():
            if check.phase == "edits" and check.edit:
                tried[check.crate, check.edit] = tried.get((check.crate, check.edit), 0) + check.seconds
        first = {crate: edit for crate, edit in reversed(tried)}
        return [Tried(crate, edit, seconds, first[crate] == edit) for (crate, edit), seconds in tried.items()]

    def alone(self, tried: Tried) -> float:
        """What an edit took by itself: the first of a crate proves the crate too. Of that nothing is known where no
        proof was seen."""
        proof = self.seconds(tried.crate, "proof")
        return max(0, tried.seconds - proof if proof else 0) if tried.is_first else tried.seconds

    def dear(self) -> List[str]:
        """A line for each edit that by itself takes much longer than the cheapest proof of a crate does, and what is
        read of its own."""
        proofs = [self.seconds(crate, "proof") for crate in {check.crate for check in self.checks.values()}]
        cheapest = min((seconds for seconds in proofs if seconds > 0), default=0)
        rows = [(self.alone(tried), tried.crate, tried.edit) for tried in self.edits()]
        return [f"{crate}/{edit} took {seconds:.0f} s of a processor by itself, "
                f"where a crate with little in it takes {cheapest:.0f} s: plant it anew"
                for seconds, crate, edit in sorted(rows, reverse=True)
                if cheapest and seconds > DEAR * cheapest + READ * self.seconds(crate, "proof")]

    def told_of(self, crate: str) -> str:
        """The seconds of the first edit of a crate, and the dearest of the others."""
        tried = [each for each in self.edits() if each.crate == crate]
        told = [f"{each.edit} {each.seconds:.0f} s, the first" for each in tried if each.is_first]
        others = sorted((each.seconds, each.edit) for each in tried if not each.is_first)
        told += [f"{edit} {seconds:.0f} s" for seconds, edit in others[-1:]]
        return "  " + ("; ".join(told)) if told else ""

    def table(self) -> List[str]:
        """Minutes of a processor by crate and phase, and of each crate the first edit and the dearest other."""
        names = sorted({check.crate for check in self.checks.values()})
        minutes = {name: [self.seconds(name, phase) / 60 for phase in PHASES] for name in names}
        if not minutes:
            return []
        names.sort(key=lambda name: -sum(minutes[name]))
        minutes["all"] = [sum(times[place] for times in minutes.values()) for place in range(len(PHASES))]
        head = "".join(f"{phase:>8}" for phase in (*PHASES, "all"))
        lines = [f"{'minutes of a processor':<24}{head}  dearest edit"]
        for name in (*names, "all"):
            cells = "".join(f"{each:8.1f}" for each in (*minutes[name], sum(minutes[name])))
            lines.append(f"{name:<24}{cells}{self.told_of(name)}")
        return lines


class Refusals:
    """Why steps were refused, to be told once more at the end, where thousands of lines do not stand after it."""

    def __init__(self) -> None:
        self.said: List[str] = []
        self.lines: List[str] = []

    def read(self, line: str) -> None:
        """Takes a line of rt ci."""
        if line.startswith(HEAD):
            self.said = [line]
        elif REFUSED.match(line):
            self.lines += [*self.said[:1], *self.said[1:][-MOST_LINES:], line]
            self.said = []
        elif not WELL.match(line):
            self.said.append(line)


def edit_in(crate: str, folder: pathlib.Path) -> str:
    """The name of the edit that was made in a copy of a crate; "" where none can be told."""
    for path in edits_of(crate):
        with contextlib.suppress(OSError, ValueError, KeyError):
            rows = [line.partition(": ")[::2] for line in path.read_text(encoding="utf-8").splitlines()]
            file = dict(rows)["file"]
            own, text = ((place / file).read_text(encoding="utf-8") for place in (ROOT / "crates" / crate, folder))
            if text != own and all(value in text for word, value in rows if word == "new"):
                return path.stem
    return ""


def too_many_edits() -> List[str]:
    """A line for each crate that has more edits than the gate has time for."""
    counts = {name: len(edits_of(name)) for name in crates_below()}
    return [f"{name} has {count} edits in must-fail/, of {MOST_EDITS}: "
            "the others belong in edits/, which tools/dev/edits.py tries"
            for name, count in counts.items() if count > MOST_EDITS]


def end_all(seconds: float = 10) -> None:
    """Ends all that this process began: asks it to end, and kills what has not ended after some seconds."""
    asked: Set[Tuple[int, int]] = set()
    until = time.monotonic() + seconds
    while True:
        found = processes()
        going = [process for process in descendants(found) if state_of(process) not in ("Z", "")]
        if not going:
            return
        for process in going:
            key, late = (process, found[process].began), time.monotonic() > until
            if late or key not in asked:
                asked.add(key)
                with contextlib.suppress(OSError):
                    os.kill(process, signal.SIGKILL if late else signal.SIGTERM)
        time.sleep(0.1)


def state_of(process: int) -> str:
    """The letter of a process's state; "" where it is no more."""
    try:
        return pathlib.Path(f"/proc/{process}/stat").read_text(errors="replace").rpartition(")")[2].split()[0]
    except (OSError, IndexError):
        return ""


def ended_by(number: int, _: object) -> None:
    """Ends all, and then this process, where a signal asks for it."""
    for each in (signal.SIGTERM, signal.SIGINT, signal.SIGHUP):
        signal.signal(each, signal.SIG_IGN)
    end_all()
    os._exit(128 + number)


def say(lines: Iterable[str]) -> None:
    """Says lines on standard error, if anybody is left to read them."""
    for line in lines:
        with contextlib.suppress(OSError):
            print(f"gate: {line}", file=sys.stderr, flush=True)


def main(words: List[str]) -> int:
    """Runs the command that the words name. Its status, or 1."""
    strict = words[:1] == ["--dear-fails"]
    many = too_many_edits()
    if many:
        say(many)
        return 1
    # What loses its parent is handed to this process, so that it is found when all is ended.
    with contextlib.suppress(OSError, AttributeError):
        ctypes.CDLL(None).prctl(CHILD_SUBREAPER, 1, 0, 0, 0)
    for each in (signal.SIGTERM, signal.SIGINT, signal.SIGHUP):
        signal.signal(each, ended_by)
    work, watch, refusals = Work(), Watch(), Refusals()
    watch.start()
    with subprocess.Popen(words[1:] if strict else words, stdout=subprocess.PIPE) as gate:
        assert gate.stdout
        for line in gate.stdout:
            # As bytes, since the locale may not have the signs of a proof.
            sys.stdout.buffer.write(line)
            sys.stdout.buffer.flush()
            text = line.decode("utf-8", "replace").rstrip("\n")
            refusals.read(text)
            if work.read(text):
                say([work.told()])
            if VERDICT.match(text):
                watch.over.set()
    watch.over.set()
    watch.join()
    say(watch.table())
    dear = watch.dear()
    say(dear)
    say(refusals.lines)
    status = gate.returncode if gate.returncode >= 0 else 128 - gate.returncode
    return status or int(strict and bool(dear))


if __name__ == "__main__":
    sys.exit(main(sys.argv[1:]))
