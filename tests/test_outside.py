"""What the program does with the system: each file of a run is opened once, to be read, and nothing else is; what is
read of a file is its front; names are taken as they are; want of memory has a message of its own, and is not told
where a file may not be read."""
import os
import re
import resource
import shutil
import subprocess
import threading
import unittest
from typing import Any, Callable, Iterator, List, Tuple

from common import PROGRAM, TWELVE, Case, Word, files_of

BANKS = "name,cash,rule\nA,7,order\nB,1,order\nC,0,order\n"
DEBTS = "debtor,creditor,class,claim\nA,B,1,10\nB,C,1,9\n"
PAID = "debtor,creditor,class,claim,paid\nA,B,1,10,7\nB,C,1,9,8\n"
SCENARIOS = '[[scenario]]\nname = "a"\n'
THIRDS = {
    "stress": ("scenarios", SCENARIOS),
    "outcomes": ("scenarios", SCENARIOS),
    "replay": ("journal", "stamp,debtor,creditor,class,to\n1,A,B,1,7\n2,B,C,1,8\n"),
}
MEMORY = "clearing: out of memory\n"
# Long enough for any run here, and far from forever.
SECONDS = 20


def memory_of(kilobytes: int) -> Callable[[], None]:
    """What limits a run to so much memory."""
    return lambda: resource.setrlimit(resource.RLIMIT_AS, (kilobytes * 1024, kilobytes * 1024))


class Outside(Case):
    def setUp(self):
        super().setUp()
        self.files = ["--banks", self.file("banks.csv", BANKS), "--debts", self.file("debts.csv", DEBTS)]
        self.thirds = {task: [f"--{name}", self.file(name, text)] for task, (name, text) in THIRDS.items()}

    def run_on(self, *words: Word, **how: Any) -> Tuple[int, str, str]:
        """A run of the program: its status, what it writes and what it tells."""
        how = {"stdin": subprocess.DEVNULL, "timeout": SECONDS, "cwd": self.folder, **how}
        done = subprocess.run(
            [how.pop("program", PROGRAM), *map(str, words)], capture_output=True, encoding="utf-8", **how
        )
        return done.returncode, done.stdout, done.stderr

    def tasks(self) -> Iterator[Any]:
        """Each task that reads files: its words, and the paths of its files."""
        more = {
            "costs": ["--keep", "500"],
            "cost-bounds": ["--keep", "500"],
            "rescue": ["--bank", "B"],
            "clear": ["--workers", "1"],
        }
        for task in (
            "check",
            "clear",
            "central",
            "defaults",
            "convert",
            "bounds",
            "compress",
            "costs",
            "cost-bounds",
            "rescue",
            "rescues",
            "breaking",
            "impact",
            "stress",
            "outcomes",
            "replay",
        ):
            third = self.thirds.get(task, [])
            yield [task, *self.files, *third, *more.get(task, [])], [self.files[1], self.files[3], *third[1:]]

    def test_a_pipe_that_is_written_once_is_read_once(self):
        for words, paths in self.tasks():
            wanted = self.run_on(*words)
            for path in paths:
                with self.subTest(task=words[0], file=path.name):
                    pipe = self.file(f"pipe-{words[0]}-{path.name}")
                    os.mkfifo(pipe)
                    # A second reader waits for a writer that does not come.
                    threading.Thread(target=pipe.write_bytes, args=[path.read_bytes()], daemon=True).start()
                    self.assertEqual(self.run_on(*(pipe if word == path else word for word in words)), wanted)

    def test_of_a_file_without_an_end_the_front_is_read(self):
        for name, words in (
            ("banks", ["check", "--banks", "/dev/zero", *self.files[2:]]),
            ("debts", ["clear", *self.files[:2], "--debts", "/dev/zero"]),
            ("scenarios", ["stress", *self.files, "--scenarios", "/dev/zero"]),
        ):
            with self.subTest(file=name):
                told = self.run_on(*words, preexec_fn=memory_of(200_000))
                self.assertEqual(told, (4, "", f"clearing: {name} row 0: file size (14)\n"))

    def test_a_file_that_may_not_be_read(self):
        how = {}
        if os.getuid() == 0:
            # Nothing is kept from the superuser, so another user runs a copy that he can read.
            how = {"user": 54321, "group": 54321, "extra_groups": [], "program": self.file("clearing")}
            shutil.copy(PROGRAM, how["program"])
            how["program"].chmod(0o755)
            self.folder.chmod(0o755)
        for words, paths in self.tasks():
            self.assertEqual(self.run_on(*words, **how), self.run_on(*words))
            for path in paths:
                with self.subTest(task=words[0], file=path.name):
                    path.chmod(0)
                    told = self.run_on(*words, **how)
                    path.chmod(0o644)
                    self.assertEqual(told, (3, "", f"clearing: cannot read {path}\n"))

    def test_a_name_is_taken_as_it_is(self):
        for name in ("a ", " a", "a\t", "a\u00a0", "a."):
            self.file(name.strip(" \t\u00a0."), BANKS.replace("A,7", "A,5"))
            with self.subTest(name=name):
                self.assertEqual(
                    self.run_on("clear", "--banks", name, *self.files[2:]), (3, "", f"clearing: cannot read {name}\n")
                )
                self.file(name, BANKS)
                self.assertEqual(self.run_on("clear", "--banks", name, *self.files[2:]), (0, PAID, ""))

    def test_want_of_memory_is_told_in_one_line(self):
        banks = self.file("many.csv", "name,cash,rule\n" + ",,\n" * 2_000_000)
        texts = {}
        for task in ("check", "clear", "central"):
            words = [task, "--banks", banks, "--debts", self.file("none.csv", "debtor,creditor,class,claim\n")]
            whole = self.run_on(*words)
            self.assertEqual((whole[0], whole[2]), (0, ""))
            # From where there is room for the program itself, which without words ends with 2, to enough.
            for kilobytes in (3_000, 5_000, 8_000, 12_000, 16_000, 24_000, 64_000, 200_000):
                if self.run_on(preexec_fn=memory_of(kilobytes))[0] != 2:
                    continue
                told = self.run_on(*words, preexec_fn=memory_of(kilobytes))
                with self.subTest(task=task, kilobytes=kilobytes):
                    self.assertIn(told, [whole, (6, "", MEMORY)])
                texts.setdefault(task, set()).add(told[0])
        self.assertEqual(texts, {task: {0, 6} for task in texts})

    def test_standard_input_is_not_read(self):
        for words, _ in [*self.tasks(), (["gen", "--seed", "1", "--size", "2", "--tries", "3"], []), ([], [])]:
            with self.subTest(words=words[:1]):
                wanted = self.run_on(*words)
                # Nothing comes from the pipe, and it is not closed either.
                read, write = os.pipe()
                try:
                    self.assertEqual(self.run_on(*words, stdin=read), wanted)
                finally:
                    os.close(read)
                    os.close(write)

    def traced(self, *words: Word) -> Tuple[int, List[str]]:
        """The calls of a run that name a file, without the numbers that they answer."""
        log = self.file("calls")
        done = subprocess.run(
            ["strace", "-f", "-qq", "-e", "trace=%file", "-e", "signal=none", "-o", log, PROGRAM, *map(str, words)],
            stdin=subprocess.DEVNULL,
            capture_output=True,
            timeout=SECONDS,
        )
        calls = [re.sub(r"^[0-9]+ +", "", line) for line in log.read_text().splitlines()] if log.exists() else []
        return done.returncode, [
            re.sub(r" = .*", "", call) for call in calls if not call.startswith(("execve(", "+++"))
        ]

    def test_a_text_is_written_in_no_more_writes_than_it_has_lines(self) -> None:
        files, largest = files_of(TWELVE), ["gen", "--seed", 1, "--size", 1000, "--tries", 20000]
        runs = [[words[0], *files, *words[5:]] for words, _ in self.tasks() if words[0] not in ("rescue", "replay")]
        for words in [*runs, ["clear", *files, "--show", "journal"], largest]:
            with self.subTest(words=[str(word) for word in words]):
                written = self.writes_of(*words)
                self.assertLessEqual(len(written), b"".join(written).count(b"\n"))

    @staticmethod
    def writes_of(*words: object) -> list[bytes]:
        """What a run that ends well writes, write by write, of which one of more than 4,096 bytes counts as several."""
        front, end = os.pipe2(os.O_DIRECT)
        with subprocess.Popen([PROGRAM, *map(str, words)], stdin=subprocess.DEVNULL, stdout=end) as process:
            os.close(end)
            written = list(iter(lambda: os.read(front, 65_536), b""))
        os.close(front)
        assert process.returncode == 0, words
        return written

    def test_a_run_opens_its_files_and_nothing_else(self):
        if not shutil.which("strace"):
            self.skipTest("strace is not on the path")
        # Without words no file is opened but by the loader.
        status, before = self.traced()
        if (status, bool(before)) != (2, True):
            self.skipTest("strace may trace no program here")
        for words, paths in [*self.tasks(), (["gen", "--seed", "1", "--size", "2", "--tries", "3"], [])]:
            with self.subTest(task=words[0]):
                status, calls = self.traced(*words)
                self.assertEqual((status, calls[: len(before)]), (0, before))
                opened = [re.fullmatch(r'openat\(AT_FDCWD, "(.*)", (.*)\)', call) for call in calls[len(before) :]]
                self.assertTrue(all(opened), calls[len(before) :])
                self.assertEqual([call[1] for call in opened], [str(path) for path in paths])
                # To be read alone, and never made or cut.
                self.assertTrue(
                    all(
                        {"O_RDONLY"} <= set(call[2].split("|")) <= {"O_RDONLY", "O_NOCTTY", "O_CLOEXEC"}
                        for call in opened
                    ),
                    calls,
                )

    def test_nothing_more_is_opened_after_a_file_that_stops_a_run(self):
        if not shutil.which("strace") or self.traced()[0] != 2:
            self.skipTest("strace is not on the path, or may trace no program here")
        long, bad, missing = self.file("long", b"\n" * 8_388_609), self.file("bad", "bad"), self.file("missing")
        for words, paths in self.tasks():
            for number, path in enumerate(paths):
                for wrong in (missing, long, bad):
                    # A journal may be longer than is tried here.
                    if wrong == long and path == self.thirds["replay"][1]:
                        continue
                    with self.subTest(task=words[0], file=path.name, wrong=wrong.name):
                        status, calls = self.traced(*(wrong if word == path else word for word in words))
                        self.assertEqual(status, 3 if wrong == missing else 4)
                        opened = [call for call in calls if f'"{self.folder}/' in call]
                        # What a file has in it is looked at once all are there.
                        wanted = [*paths[:number], wrong, *([] if wrong != bad else paths[number + 1 :])]
                        self.assertEqual(
                            [re.search(r'"(.*?)"', call)[1] for call in opened], [str(path) for path in wanted]
                        )


if __name__ == "__main__":
    unittest.main()
