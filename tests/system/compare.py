"""The program beside a plain model, for tests/system/compare.sh, which says what is compared.

compare.py [--wide] PROGRAM N SEED

Works in the current folder, and keeps there in `differ` each network that differs, with the words of its runs. Each
run is a case: its status, its output and its messages are compared byte for byte. Writes told.txt, which has the
counts, and a file `interrupted` where it was.
"""
import difflib
import os
import pathlib
import random
import shutil
import signal
import sys
import time

sys.dont_write_bytecode = True
import model
import quick
from networks import (
    beyond_net,
    changed_replay,
    drawn_net,
    files_and_cases,
    files_and_cases_beyond,
    judge_compression,
    judge_journal,
)
from running import Runner

LIMIT = 600  # seconds of a run
EVERY = 50  # of so many networks one is at the edge of the standard limits or beyond, where not all of them are
BOTH = 4  # of so many small networks one is computed by the model's quicker ways as well
MESSAGES = {
    0: b"",
    2: b"clearing: the command line is not understood\n",
    7: b"clearing: the journal is not a lawful complete history\n",
}


def differing(text, other):
    """Some lines that differ, from the first on. Texts of very many lines are not compared whole."""
    lines = text.splitlines(), other.splitlines()
    first = next((n for n, (one, two) in enumerate(zip(*lines)) if one != two), min(map(len, lines)))
    parts = [part[first : first + 100] for part in lines]
    return list(difflib.unified_diff(*parts, "model", "program", f"from line {first + 1}", "", 0, ""))[:8]


class Comparison:
    def __init__(self, program, seed, wide):
        self.runner, self.seed, self.wide = Runner(program, LIMIT), seed, wide
        self.networks = self.cases = self.differ = 0
        self.sizes = {8: 0, 30: 0, 1000: 0}
        self.beyond = 0
        # Whether an interrupt came, and whether it ended a run too, as it does in a terminal.
        self.ended = self.cut = False

    def end(self, *_):
        """Ends after the network that is being tried, with the counts so far."""
        self.ended = True

    def run(self, words):
        self.cases += 1
        got = self.runner.run(words)
        self.cut = self.cut or self.ended and got[0] < 0
        return got

    def differs(self, words, what):
        """Prints a difference."""
        if self.cut:
            return
        print(f"network {self.networks} of seed {self.seed}: clearing {' '.join(words)}: {what}", flush=True)
        pathlib.Path("differs.txt").open("a", encoding="utf-8").write(f"{words!r}: {what}\n")
        self.same = False

    def compare(self, words, text, status=0, message=None):
        """Compares a run with what it has to print. Says what it printed."""
        got = self.run(words)
        if got == (status, text.encode(), MESSAGES[status] if message is None else message.encode()):
            return got[1]
        lines = differing(text, got[1].decode(errors="replace"))
        self.differs(words, "\n".join([f"status {got[0]} in place of {status}: {got[2]!r}", *lines]))
        return got[1]

    def judge(self, words, judged):
        """Judges what a run prints that may be another one. Says what it printed."""
        status, out, told = self.run(words)
        try:
            fault = f"status {status}: {told!r}" if (status, told) != (0, b"") else judged(out.decode())
        except (ValueError, KeyError, IndexError) as error:
            fault = f"not to be read: {error!r}"
        if fault:
            self.differs(words, fault)
        return out

    def by_both_ways(self, rng, net):
        """The files and cases of a network. The model's quicker ways have to make the same, whether they put all units
        into order or not."""
        before, made, kept = rng.getstate(), files_and_cases(rng, net), quick.SORTED
        after = rng.getstate()
        for quick.SORTED in (0, kept) if len(net.banks) <= 30 else ():
            rng.setstate(before)
            large = model.Net(net.banks, net.debts)
            large.large = True
            try:
                same = files_and_cases(rng, large) == made
            except AssertionError:
                same = False
            if not same:
                self.differs(["(none)"], f"the model's quicker ways make something else, with SORTED = {quick.SORTED}")
        quick.SORTED = kept
        rng.setstate(after)
        return made

    def one_network(self):
        rng = random.Random(f"{self.seed} {self.networks}")
        self.same = True
        if self.wide or self.networks % EVERY == EVERY - 1:
            net, sizes = beyond_net(rng)
            self.beyond += 1
            texts, cases, shown, compress = files_and_cases_beyond(rng, net, sizes)
        else:
            net = drawn_net(rng)
            self.sizes[min(size for size in self.sizes if len(net.banks) <= size)] += 1
            texts, cases, shown, compress = (files_and_cases if self.networks % BOTH else self.by_both_ways)(rng, net)
        for name, text in texts.items():
            pathlib.Path(name).write_bytes(text)
        before = self.cases
        for case in cases:
            self.compare(*case)
        if shown:
            self.judge_all(rng, net, shown, compress)
        model.forget()
        if self.cut:
            self.cases = before
            return
        if not self.same:
            self.differ += 1
            shutil.copytree(".", pathlib.Path("..", "differ", str(self.networks)))
            os.unlink("differs.txt")
        self.networks += 1

    def judge_all(self, rng, net, shown, compress):
        """What is judged, since more than one answer is right: the journal of a run, which is replayed too, as it is
        and changed, and what is cancelled."""
        low = model.least(net)
        journal = self.judge(shown, lambda text: judge_journal(net, low, text))
        pathlib.Path("journal.csv").write_bytes(journal)
        raises = len(journal.splitlines()) - 2
        replay = ["replay", *shown[1:5], *compress[5:], "--journal"]
        self.compare([*replay, "journal.csv"], f"lawful,{raises}\n\n" + model.payments_text(net, low))
        if self.same:
            text, *told = changed_replay(rng, net, journal.decode())
            pathlib.Path("changed.csv").write_text(text, encoding="utf-8")
            self.compare([*replay, "changed.csv"], *told)
        self.judge(compress, lambda text: judge_compression(net, text))

    def all(self, count):
        os.makedirs("network")
        os.chdir("network")
        begun = time.monotonic()
        while self.networks < count and not self.ended:
            self.one_network()
        seconds = time.monotonic() - begun
        of = [f"{number} of up to {size} banks" for size, number in self.sizes.items() if number]
        of = ", ".join(of + [f"{self.beyond} at the edge of the standard limits or beyond"])
        print(f"seed {self.seed}: {of}; {self.cases / max(seconds, 0.001):.0f} cases a second")
        return f"{self.networks} networks, {self.cases} cases, {self.differ} networks differ"


def main(*words):
    wide, (program, count, seed) = words[0] == "--wide", words[-3:]
    comparison = Comparison(program, seed, wide)
    for number in (signal.SIGINT, signal.SIGTERM):
        signal.signal(number, comparison.end)
    told = comparison.all(int(count))
    sys.stdout.flush()
    pathlib.Path("..", "told.txt").write_text(told + "\n")
    if comparison.networks < int(count):
        pathlib.Path("..", "interrupted").touch()
    return 1 if comparison.differ else 0


if __name__ == "__main__":
    sys.exit(main(*sys.argv[1:]))
