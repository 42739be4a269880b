"""How many threads the workers of a run have, and the scenarios of a stress test, on networks with debts: counted
from outside, by a library that is loaded before the program and counts each start of a thread."""
import os
import pathlib
import subprocess
import unittest

from common import PROGRAM, TWELVE, Case, Word, files_of, needs

COUNTER = """
#define _GNU_SOURCE
#include <dlfcn.h>
#include <fcntl.h>
#include <pthread.h>
#include <stdlib.h>
#include <unistd.h>
int pthread_create(pthread_t *thread, const pthread_attr_t *how, void *(*run)(void *), void *of) {
    int (*real)(pthread_t *, const pthread_attr_t *, void *(*)(void *), void *) = dlsym(RTLD_NEXT, "pthread_create");
    int told = open(getenv("THREADS_TOLD"), O_WRONLY | O_CREAT | O_APPEND, 0600);
    if (write(told, "T", 1) == 1) close(told);
    return real(thread, how, run, of);
}
"""
LARGEST = ["gen", "--seed", 1, "--size", 1000, "--tries", 20000]


@needs("cc")
class Threads(Case):
    def setUp(self):
        super().setUp()
        self.library = self.folder / "count.so"
        source = self.file("count.c", COUNTER)
        subprocess.run(["cc", "-O2", "-shared", "-fPIC", "-o", self.library, source, "-ldl", "-lpthread"], check=True)

    def started(self, *words: Word) -> int:
        """How many threads a run starts that ends well."""
        told = self.file("told", "")
        env = dict(os.environ, LD_PRELOAD=str(self.library), THREADS_TOLD=str(told))
        done = subprocess.run([PROGRAM, *map(str, words)], stdin=subprocess.DEVNULL, capture_output=True, env=env)
        self.assertEqual((done.returncode, done.stderr), (0, b""), words)
        return len(told.read_bytes())

    def test_each_worker_has_a_thread_in_the_first_round(self):
        files = files_of(TWELVE)
        for words in (
            ["clear", *files],
            ["defaults", *files],
            ["bounds", *files],
            ["rescue", *files, "--bank", self.a_bank()],
            LARGEST,
        ):
            for workers in (1, 2, 4, 9, 64):
                with self.subTest(words=list(map(str, words)), workers=workers):
                    started = self.started(*words, "--workers", workers)
                    # The calling thread is one of them. A later round may have as many again, and one more, by which
                    # the raises of the round before are merged meanwhile.
                    later = started - (workers - 1)
                    rounds = -(-later // workers)
                    self.assertGreaterEqual(later, rounds * (workers - 1))
                    self.assertTrue(workers > 1 or not started)

    def test_they_have_threads_in_later_rounds_of_many_visits_too(self):
        for workers in (4, 64):
            for sweeps in (1, 8, 1000):
                with self.subTest(workers=workers, sweeps=sweeps):
                    started = self.started(*LARGEST, "--workers", workers, "--sweeps", sweeps)
                    # There are seven such rounds or more, on 19,911 debts.
                    self.assertGreaterEqual(started, 4 * (workers - 1))

    def test_each_worker_has_a_thread_on_networks_of_any_size(self) -> None:
        for banks in (2, 7, 31, 60, 100, 200, 400, 699, 1000):
            files = self.owing_in_pairs(banks, 1)
            for workers in (2, 3, 8):
                with self.subTest(banks=banks, workers=workers):
                    # No later round has visits enough for threads.
                    self.assertEqual(self.started("clear", *files, "--workers", workers), workers - 1)

    def test_four_scenarios_at_once(self):
        for count, wanted in ((1, 0), (2, 1), (3, 2), (4, 3), (64, 3), (65, 3), (100, 3)):
            text = "".join(f'[[scenario]]\nname = "{number}"\ncut = {number}\n' for number in range(count))
            for task, *more in (["stress", "--workers", 4], ["outcomes"]):
                with self.subTest(task=task, count=count):
                    words = [task, *files_of(TWELVE), "--scenarios", self.file("scenarios.toml", text), *more]
                    self.assertEqual(self.started(*words), wanted)

    def test_four_shares_of_cuts_and_of_banks_at_once(self):
        for task in ("breaking", "impact", "rescues"):
            with self.subTest(task=task):
                self.assertEqual(self.started(task, *files_of(TWELVE)), 3)

    def test_four_shares_of_many_banks_at_once(self) -> None:
        for task, banks, pairs in (("impact", 66, 33), ("impact", 1000, 1), ("rescues", 200, 100)):
            with self.subTest(task=task, banks=banks):
                self.assertEqual(self.started(task, *self.owing_in_pairs(banks, pairs)), 3)

    def owing_in_pairs(self, banks: int, pairs: int) -> list[str | pathlib.Path]:
        """The files of so many banks without cash, of which the first of each of some pairs owes the second a unit."""
        names = "".join(f"N{bank},0,order\n" for bank in range(banks))
        debts = "".join(f"N{2 * pair},N{2 * pair + 1},1,1\n" for pair in range(pairs))
        return [
            "--banks",
            self.file("banks.csv", f"name,cash,rule\n{names}"),
            "--debts",
            self.file("debts.csv", f"debtor,creditor,class,claim\n{debts}"),
        ]

    @staticmethod
    def a_bank() -> str:
        return (TWELVE / "banks.csv").read_text().splitlines()[1].split(",")[0]


if __name__ == "__main__":
    unittest.main()
