"""Runs of several workers whose threads are held up at random, for tests/system/races.sh, which says what they are
judged by.

races.py PROGRAM SHAKE.so RUNS SEED

Writes into the current folder: the network that is tried, `wrong` with those that went wrong, told.txt, which has the
counts, and a file `interrupted` where it was.
"""
import collections
import importlib.util
import os
import pathlib
import random
import shutil
import signal
import subprocess
import sys
import threading
import time

sys.dont_write_bytecode = True
from model import RULES, Bank, Debt, Net, banks_text, debts_text

_spec = importlib.util.spec_from_file_location(
    "audit", pathlib.Path(__file__).resolve().parents[2] / "python/src/clearing_tools/evidence/audit.py"
)
audit = importlib.util.module_from_spec(_spec)
_spec.loader.exec_module(audit)

WORKERS = [2, 3, 4, 8, 64]
SIZES = [2, 2, 3, 4, 5, 8, 8, 13, 20, 30, 50, 100, 200, 500, 1000]
OWN_THREADS = {"breaking", "impact", "rescues", "outcomes"}
FILES = ["--banks", "banks.csv", "--debts", "debts.csv"]
LIMIT = 600  # seconds of a run; on a busy machine one of the least priority waits long
PROCESSORS = sorted(os.sched_getaffinity(0))


# Networks. Few units and many hands make the most races: a raise that enables another bank's, again and again.


def ring(rng, size):
    """Units that go round, with a chord here and there."""
    claim = rng.choice([1, 3, 20, 100]) if size <= 100 else rng.choice([1, 3])
    debts = [(i, (i + 1) % size, 1, claim) for i in range(size)]
    debts += [
        (rng.randrange(size), rng.randrange(size), rng.randint(2, 3), claim) for _ in range(rng.choice([0, size // 4]))
    ]
    order = rng.choice([list(range(size)), list(range(size))[::-1], rng.sample(range(size), size)])
    rich = rng.sample(range(size), max(1, min(3, size // 20)))
    return [(1 if i in rich else 0) for i in range(size)], [(order[a], order[b], c, d) for a, b, c, d in debts]


def chain(rng, size):
    order = rng.sample(range(size), size)
    debts = [
        (order[i], order[j], rng.randint(1, 2), rng.randint(1, 60))
        for i in range(size)
        for j in range(i + 1, min(size, i + 1 + rng.choice([1, 1, 2, 4])))
    ]
    return [40 if i == order[0] else rng.choice([0, 0, 0, 5]) for i in range(size)], debts


def random_one(rng, size):
    count = min(rng.choice([2, 4, 12]) * size, 6000)
    debts = [
        (rng.randrange(size), rng.randrange(size), rng.randint(1, 3), rng.randint(0, rng.choice([3, 40])))
        for _ in range(count)
    ]
    return [rng.choice([0, 0, rng.randint(0, 9), rng.randint(0, 90)]) for _ in range(size)], debts


def core(rng, size):
    """A few banks that owe each other and all, and the others each one of these."""
    inner = max(2, size // 10)
    debts = [
        (a, b, c, rng.randint(1, 90))
        for a in range(inner)
        for b in range(inner)
        for c in (1, 2)
        if rng.random() < 30 / inner
    ]
    debts += [(i % inner, i, 1, rng.randint(1, 9)) for i in range(inner, size)]
    debts += [(i, rng.randrange(inner), 1, rng.randint(1, 9)) for i in range(inner, size)]
    return [rng.randint(0, 20) if i < inner else rng.choice([0, 2]) for i in range(size)], debts


KINDS = [ring, chain, random_one, core]


def network(rng):
    size = rng.choice(SIZES)
    cash, drawn = rng.choice(KINDS)(rng, size)
    rule = rng.choice(RULES + [None, None])
    outside = rng.random() < 0.25
    banks = [
        Bank(f"N{i}", has, rule or rng.choice(RULES), rng.choice([0, 0, 1, 7]) if outside else 0)
        for i, has in enumerate(cash)
    ]
    debts = {debt[:3]: Debt(*debt) for debt in drawn if debt[0] != debt[1]}
    return Net(banks, list(debts.values()))


# Ways to shake a run: what is done before the program is started, and while it runs.


def on_processors(count):
    def before(rng):
        os.sched_setaffinity(0, PROCESSORS[:1] if count == 1 else rng.sample(PROCESSORS, min(count, len(PROCESSORS))))

    return before


def of_class(policy):
    def before(rng):
        os.sched_setaffinity(0, PROCESSORS[:1])
        os.sched_setscheduler(0, policy, os.sched_param(0))

    return before


def least_priority(rng):
    os.sched_setaffinity(0, PROCESSORS[:1])
    os.nice(19)


def nothing(rng):
    pass


def stop_and_go(rng, process, ended):
    """Stops the program and lets it go on, at random, until it has ended."""
    while not ended.is_set():
        time.sleep(rng.random() * 0.003)
        for number in (signal.SIGSTOP, signal.SIGCONT):
            if process.poll() is None:
                process.send_signal(number)
                if number == signal.SIGSTOP:
                    time.sleep(rng.random() * 0.002)


# The name; before; whether it is stopped and let go; whether its threads are interrupted.
SHAKES = [
    ("as it is", nothing, False, False),
    ("one processor", on_processors(1), False, False),
    ("two processors", on_processors(2), False, False),
    ("batch, one processor", of_class(os.SCHED_BATCH), False, False),
    ("least priority, one processor", least_priority, False, False),
    ("stopped and let go", nothing, True, False),
    ("threads interrupted", nothing, False, True),
    ("threads interrupted, one processor", on_processors(1), False, True),
    ("threads interrupted, two processors", on_processors(2), False, True),
]
WEIGHTS = [1, 2, 2, 1, 1, 1, 4, 2, 4]


class Load:
    """Another process on the first processor that is busy and sleeps by turns, at random."""

    CODE = """if True:
        import os, random, time
        os.nice(2)
        parent = os.getppid()
        while os.getppid() == parent:
            end = time.perf_counter() + random.random() * 0.004
            while time.perf_counter() < end: pass
            time.sleep(random.random() * 0.008)
    """

    def __enter__(self):
        self.process = subprocess.Popen(
            [sys.executable, "-c", self.CODE], preexec_fn=lambda: os.sched_setaffinity(0, PROCESSORS[:1])
        )
        return self

    def __exit__(self, *_):
        self.process.kill()
        self.process.wait()


class Wrong(Exception):
    """What is wrong with a run."""


class Races:
    def __init__(self, program, library, seed):
        self.program, self.library, self.seed = program, library, seed
        self.runs = self.wrong = self.several = self.networks = 0
        self.shaken, self.ended = collections.Counter(), False

    def end(self, *_):
        """Ends after the network that is being tried, with the counts so far."""
        self.ended = True

    def plain(self, *words):
        """What an undisturbed run prints."""
        done = subprocess.run([self.program, *words], stdin=subprocess.DEVNULL, capture_output=True, timeout=LIMIT)
        if done.returncode or done.stderr:
            raise Wrong(f"{' '.join(words)}: status {done.returncode}: {done.stderr.decode()}")
        return done.stdout

    def shaken_run(self, rng, words):
        """What a run prints that is shaken in one of the ways."""
        name, before, stopped, interrupted = rng.choices(SHAKES, WEIGHTS)[0]
        self.shaken[name] += 1
        self.about = f"{' '.join(words)}, {name}"
        environment = dict(os.environ)
        if interrupted:
            environment |= {"LD_PRELOAD": self.library, "SHAKE": str(rng.randrange(2**32))}
        inner = random.Random(rng.random())
        process = subprocess.Popen(
            [self.program, *words],
            stdin=subprocess.DEVNULL,
            stdout=subprocess.PIPE,
            stderr=subprocess.PIPE,
            env=environment,
            preexec_fn=lambda: before(inner),
        )
        ended = threading.Event()
        stopper = threading.Thread(target=stop_and_go, args=(inner, process, ended)) if stopped else None
        if stopper:
            stopper.start()
        try:
            out, err = process.communicate(timeout=LIMIT)
        except subprocess.TimeoutExpired:
            process.kill()
            raise Wrong(f"it does not end in {LIMIT} seconds") from None
        finally:
            ended.set()
            if stopper:
                stopper.join()
            process.wait()
        if process.returncode or err:
            raise Wrong(f"status {process.returncode}: {err.decode()}")
        return out

    def judge(self, out, payments):
        """Judges what `clear --show both` printed. The journal is handed back."""
        paid, _, journal = out.partition(b"\n\n")
        if paid + b"\n" != payments:
            raise Wrong("the payments are not those of central")
        pathlib.Path("journal.csv").write_bytes(journal)
        lines = journal.splitlines()
        raises, rounds = len(lines) - 2, lines[-1].split(b",")
        if rounds[0] != b"rounds" or not 1 <= int(rounds[1]) <= raises + 1:
            raise Wrong(f"{raises} raises, and the last line {lines[-1]!r}")
        if self.plain("replay", *FILES, "--journal", "journal.csv") != b"lawful,%d\n\n" % raises + payments:
            raise Wrong("replay makes other payments of the journal, or counts other raises")
        told, status = audit.judge({**self.read, "journal": journal, "payments": payments})
        if status or told[:3] != [f"{raises} raises lawful", "nobody can pay more", "payments same"]:
            raise Wrong(f"audit.py ends with {status}: {told}")
        return journal

    def attempt(self, number, run):
        """Counts a run, and keeps its network where it is wrong."""
        self.runs += 1
        self.about = "undisturbed"
        try:
            return run()
        except (Wrong, IndexError, ValueError) as fault:
            self.wrong += 1
            kept = pathlib.Path("..", "wrong", str(self.runs))
            shutil.copytree(".", kept)
            print(f"wrong: network {number}: {self.about}: {fault}", flush=True)
            return None

    def words_of(self, rng, workers):
        return ["--workers", str(workers), "--sweeps", str(rng.choice([1, 1, 2, 7, 1000]))]

    def other_task(self, rng, net):
        """The words of another task that runs on threads: by as many workers as it is told, or by a number of its
        own."""
        bank = net.banks[rng.randrange(len(net.banks))].name
        pathlib.Path("cuts.toml").write_text(
            "".join(f'[[scenario]]\nname = "{cut}"\ncut = {cut}\n' for cut in (0, 1, 250, 500, 1000))
        )
        return rng.choice(
            [
                ["defaults", *FILES],
                ["bounds", *FILES],
                ["rescue", *FILES, "--bank", bank],
                ["stress", *FILES, "--scenarios", "cuts.toml"],
                [
                    "gen",
                    "--seed",
                    str(rng.randrange(99)),
                    "--size",
                    str(len(net.banks)),
                    "--tries",
                    str(8 * len(net.banks)),
                ],
                ["breaking", *FILES],
                ["impact", *FILES],
                ["rescues", *FILES],
                ["outcomes", *FILES, "--scenarios", "cuts.toml"],
            ]
        )

    def one_network(self, number, most):
        rng = random.Random(f"{self.seed} {number}")
        net = network(rng)
        self.read = {
            "banks": banks_text(net, any(bank.outside for bank in net.banks)).encode(),
            "debts": debts_text(net).encode(),
        }
        for name, text in self.read.items():
            pathlib.Path(f"{name}.csv").write_bytes(text)
        payments = self.plain("central", *FILES)
        journals = set()
        tries = [(w, None) for w in WORKERS * 2] + [(rng.choice(WORKERS), self.other_task(rng, net)) for _ in range(2)]
        rng.shuffle(tries)
        for workers, other in tries[:most]:
            more = self.words_of(rng, workers)
            if other is None:
                words = ["clear", *FILES, "--show", "both", *more]
                journals.add(self.attempt(number, lambda: self.judge(self.shaken_run(rng, words), payments)))
                continue

            def beside(other=other, more=more):
                told = other[0] not in OWN_THREADS
                alone = self.plain(*other, *(["--workers", "1"] if told else []))
                if self.shaken_run(rng, [*other, *(more if told else [])]) != alone:
                    raise Wrong("another text than by one worker" if told else "another text than undisturbed")

            self.attempt(number, beside)
        self.networks += 1
        self.several += len(journals) > 1

    def all(self, runs):
        while self.runs < runs and not self.ended:
            shutil.rmtree("network", ignore_errors=True)
            os.mkdir("network")
            os.chdir("network")
            self.one_network(self.networks, runs - self.runs)
            os.chdir("..")
        return [
            *(f"{count} runs: {name}" for name, count in sorted(self.shaken.items())),
            f"{self.networks} networks, {self.several} with journals that differ from run to run",
            f"{self.runs} runs, {self.wrong} wrong",
        ]


def main(program, library, runs, seed):
    races = Races(program, library, seed)
    for number in (signal.SIGINT, signal.SIGTERM):
        signal.signal(number, races.end)
    with Load():
        told = races.all(int(runs))
    print("\n".join(told[:-1]), flush=True)
    pathlib.Path("told.txt").write_text(told[-1] + "\n")
    if races.runs < int(runs):
        pathlib.Path("interrupted").touch()
    return 1 if races.wrong else 0


if __name__ == "__main__":
    sys.exit(main(*sys.argv[1:]))
