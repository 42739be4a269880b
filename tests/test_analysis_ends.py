"""How the tools that ask what would break a network end: at failures, at answers that are none, and at interrupts."""
import os
import pty
import shlex
import signal
import subprocess
import sys
import threading
import time
import unittest.mock
from typing import Any

from analyses import ASKED, AnalysisCase
from common import PROGRAM, ROOT, comes, is_running

from clearing_tools import runner


# All banks are sound in the last scenario of a file, and in no other.
LYING = """if [ "$1" = stress ]; then
    %s "$@" | awk -v last="$(grep -c '^..scenario..$' "$5")" '/^scenario,/ { at++ }
        at == last { sub(/,(contagion|fundamental)$/, ",sound") } { print }'
    exit
fi"""


class Ends(AnalysisCase):
    def test_failures_are_told(self):
        words = self.small()
        for command in self.commands():
            self.refused(
                command[0], 3, "cannot read", *command[1:], "--banks", self.folder / "none.csv", "--debts", words[3]
            )
            self.refused(
                command[0], 4, "debts row 0: header (1)", *command[1:], "--banks", words[1], "--debts", words[1]
            )

    def test_answers_that_are_none_are_told(self):
        words = self.short()
        # A program that says that all banks are sound in the last scenario of a file.
        running = self.with_program(LYING % shlex.quote(PROGRAM), "clearing-breaking", *words, "--loss", "A")
        output, messages = running.communicate(timeout=60)
        self.assertEqual((running.returncode, output), (1, b""), messages)
        self.assertIn("milder_shock_hurts_nobody", messages.decode())
        # One that answers another task, and one that leaves a scenario out.
        program = shlex.quote(PROGRAM)
        script = f'case $1 in breaking|impact|rescues|outcomes) exec {program} check "$2" "$3";; esac'
        left_out = f'if [ "$1" = outcomes ]; then {program} "$@" | sed 2d; exit; fi'
        for script, command in [*((script, command) for command in self.commands()), (left_out, self.commands()[-1])]:
            running = self.with_program(script, *command, *words)
            output, messages = running.communicate(timeout=60)
            self.assertEqual((running.returncode, output), (1, b""), messages)
            self.assertIn("did not print", messages.decode())
        for command in self.commands():
            running = self.with_program(
                f'case $1 in {ASKED}) echo "clearing: out of memory" >&2; exit 6;; esac', *command, *words
            )
            output, messages = running.communicate(timeout=60)
            self.assertEqual((running.returncode, output), (1, b""))
            self.assertIn("out of memory", messages.decode())

    def test_an_interrupt_ends_at_once(self):
        words = self.short()
        for command in self.commands():
            output = self.folder / "out.csv"
            begun = self.folder / f"{command[0]}.begun"
            running = self.with_program(
                f'case $1 in {ASKED}) echo $$ >>"{begun}"; exec sleep 60;; esac',
                *command,
                *words,
                "--ranking" if command[0] == "clearing-impact" else "--output",
                output,
                start_new_session=True,
            )
            self.until(begun.exists)
            sent = time.monotonic()
            running.send_signal(signal.SIGINT)
            self.assertEqual(running.wait(30), 130)
            self.assertLess(time.monotonic() - sent, 20)
            self.assertFalse(output.exists())
            # What is ended may take a moment to be gone.
            self.until(lambda: not any(map(is_running, begun.read_text().split())), 20)

    def test_an_interrupt_while_a_run_is_begun_leaves_none(self):
        """By both packages: a signal that comes as soon as the new process is there, before Popen has answered."""
        program = self.executable("program", f'echo $$ >>"{self.folder}/begun"; exec sleep 60\n')
        code = """
import os, signal, subprocess, sys, time
begin = subprocess.Popen.__init__
def begins(*given, **more):
    begin(*given, **more)
    while not os.path.exists(sys.argv[1]) or not open(sys.argv[1]).read():
        time.sleep(0.01)
    os.kill(os.getpid(), getattr(signal, sys.argv[2]))
    time.sleep(0.05)
subprocess.Popen.__init__ = begins
if sys.argv[3] == "tools":
    from clearing_tools import runner
    runner.ProgramRuns().run([os.environ["CLEARING"]])
else:
    import clearing_client as cc
    cc.Network({"A": 1}, {}).check()
"""
        for package in ("tools", "client"):
            with self.subTest(package=package):
                begun = self.folder / "begun"
                begun.unlink(missing_ok=True)
                environment = {**os.environ, "CLEARING": str(program), "PYTHONPATH": str(ROOT / "python/src")}
                done = subprocess.run(
                    [sys.executable, "-c", code, str(begun), "SIGINT", package],
                    env=environment,
                    stdin=subprocess.DEVNULL,
                    capture_output=True,
                    timeout=60,
                )
                self.assertEqual(done.returncode, -signal.SIGINT, done.stderr.decode())
                self.assertFalse(is_running(begun.read_text().strip()))

    def test_no_work_goes_on_behind_a_fault(self):
        class Fault(BaseException):
            pass

        asking, started, begun, ended = runner.ProgramRuns(), threading.Event(), [], []

        def work(item: Any) -> None:
            if item == "fault":
                started.wait(10)
                raise Fault
            begun.append(item)
            started.set()
            time.sleep(0.2)
            ended.append(item)

        with unittest.mock.patch("clearing_tools.running.processors", lambda: 2), self.assertRaises(Fault):
            asking.all(work, ["fault", "write", *range(50)], "thing")
        self.assertEqual((sorted(map(str, ended)), len(ended) < 10), (sorted(map(str, begun)), True))
        # A run that ends with its child alive, which holds its output, is not waited for; and no run begins any more.
        asking, sent = runner.ProgramRuns(), time.monotonic()
        begun = self.folder / "begun"

        def run(item: Any) -> None:
            if item == "fault":
                while not begun.exists():
                    time.sleep(0.01)
                raise Fault
            asking.run(["sh", "-c", f"sleep 30 & echo $! >'{begun}.part'; mv '{begun}.part' '{begun}'; wait"])

        with unittest.mock.patch("clearing_tools.running.processors", lambda: 2), self.assertRaises(Fault):
            asking.all(run, ["fault", "run"], "thing")
        os.kill(int(begun.read_text()), signal.SIGKILL)
        self.assertLess(time.monotonic() - sent, 20)
        with self.assertRaises(KeyboardInterrupt):
            asking.run(["true"])

    def test_a_request_to_end_leaves_no_file(self):
        """At any moment, of the group of processes too, as at a terminal: the status is 130, and no file is left."""
        past = self.file("past.csv", "year,cut\n" + "".join(f"{cut},{cut}\n" for cut in range(1000)))
        banks, debts = self.file("g-banks.csv"), self.file("g-debts.csv")
        self.made("clearing-gen-files", "--seed", 5, "--size", 600, "--tries", 9000, "--banks", banks, "--debts", debts)
        banks.write_text(
            "".join(
                line if at == 0 else ",".join([line.split(",")[0], "9", line.split(",")[2]])
                for at, line in enumerate(banks.read_text().splitlines(keepends=True))
            )
        )
        place = self.folder / "place"
        place.mkdir()
        for tries in range(6):
            running = subprocess.Popen(
                [
                    sys.executable,
                    str(ROOT / "bin/clearing-draws"),
                    "--banks",
                    str(banks),
                    "--debts",
                    str(debts),
                    "--past",
                    str(past),
                    "--draws",
                    "9999",
                ],
                env={**os.environ, "CLEARING": PROGRAM, "TMPDIR": str(place)},
                stdin=subprocess.DEVNULL,
                stdout=subprocess.PIPE,
                stderr=subprocess.PIPE,
                start_new_session=True,
            )
            comes(lambda: len(list(place.glob("*/*"))) > tries % 2, 30)
            for _ in range(1 + tries % 3):
                (os.kill if tries % 2 else os.killpg)(running.pid, signal.SIGINT if tries % 4 == 2 else signal.SIGTERM)
            output, messages = running.communicate(timeout=30)
            self.assertEqual((running.returncode, output, messages), (130, b"", b""))
            self.assertEqual(list(place.rglob("*")), [])

    def test_a_terminal_is_told_how_far_it_is(self):
        main, other = pty.openpty()
        running = subprocess.Popen(
            [sys.executable, str(ROOT / "bin/clearing-breaking"), *map(str, self.small()), "--loss", "A"],
            stdout=subprocess.DEVNULL,
            stderr=other,
        )
        os.close(other)
        said = b""
        try:
            while part := os.read(main, 4096):
                said += part
        except OSError:
            pass
        os.close(main)
        self.assertEqual(running.wait(), 0)
        self.assertIn(b"clearing-breaking: group of scenarios 0 of ", said)
        self.assertTrue(said.endswith(b"\r\x1b[K"))


if __name__ == "__main__":
    unittest.main()
