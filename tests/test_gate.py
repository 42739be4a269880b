"""The gate and the packages that its tests want: with an apt-get that works, fails, hangs or lacks one, and a
toolchain that only tells its calls."""
import functools
import os
import pathlib
import re
import shutil
import signal
import subprocess
import time
import unittest.mock
from typing import Any, Dict, List, Tuple

from common import ROOT, Case, loaded

HERE = pathlib.Path(__file__).resolve().parent

APT = """#!/bin/sh
echo "apt-get $*" >>"$CALLS"
case $APT in
fails) echo "E: no network" >&2; exit 100 ;;
hangs) exec /bin/sleep 60 ;;
lacks) case " $* " in *" moon "*) echo "E: Unable to locate package moon" >&2; exit 100 ;; esac ;;
esac
for word in "$@"; do
    case $word in install) on=yes ;; -*) ;; *) [ -z "$on" ] || echo "$word" >>"$INSTALLED" ;; esac
done
"""
QUERY = """#!/bin/sh
for name in "$@"; do if grep -qx "$name" "$INSTALLED"; then echo "$name installed"; fi; done
exit 1
"""
RT = """#!/bin/sh
echo "rt $*" >>"$CALLS"
mkdir -p crates/clear_main/out && : >crates/clear_main/out/clear_main
printf "$STEPS"
echo "5 passed, 0 failed"
exit $RT
"""
TESTS = """import os, pathlib, unittest
class Some(unittest.TestCase):
    def test_good(self):
        pass

    @unittest.skipUnless("moon" in pathlib.Path(os.environ["INSTALLED"]).read_text().split(), "no moon")
    def test_moon(self):
        pass

    @unittest.skip("it rains")
    def test_sun(self):
        pass
"""


class Machine(Case):
    """A machine that has the package `sea`, and a repository that wants the moon and a star too."""

    def setUp(self):
        super().setUp()
        self.calls, self.installed = self.file("calls", ""), self.file("installed", "sea\n")
        (self.folder / "commands").mkdir()
        dpkg = '#!/bin/sh\necho "dpkg $*" >>"$CALLS"\n'
        for name, text in (
            ("apt-get", APT),
            ("dpkg-query", QUERY),
            ("dpkg", dpkg),
            ("rt", RT),
            ("sleep", "#!/bin/sh\n"),
            ("id", "#!/bin/sh\necho ${WHO:-0}\n"),
        ):
            self.file(f"commands/{name}", text).chmod(0o755)
        self.root = self.folder / "repository"
        (self.root / "tests").mkdir(parents=True)
        if (ROOT / "tests/packages.sh").exists():
            shutil.copy(ROOT / "tests/packages.sh", self.root / "tests")
        (self.root / "tests/packages.txt").write_text("# wanted\nmoon   # the moon\nsea    # and the sea\n\nstar\n")

    def ran(self, *words: str, **more: Any) -> Tuple[int, List[str]]:
        """The status and the lines of a command of the repository. What was called, and the seconds it took, stand in
        `called` and `took`."""
        self.calls.write_text("")
        environment = {
            "PATH": f"{self.folder}/commands:{os.environ['PATH']}",
            "CALLS": str(self.calls),
            "INSTALLED": str(self.installed),
            "APT": "works",
            "RT": "0",
            "STEPS": "",
            "PYTHONDONTWRITEBYTECODE": "1",
            **more,
        }
        begun = time.monotonic()
        done = subprocess.run(
            [str(self.root / words[0]), *words[1:]],
            env=environment,
            stdin=subprocess.DEVNULL,
            stdout=subprocess.PIPE,
            stderr=subprocess.STDOUT,
            encoding="utf-8",
            cwd=self.folder,
        )
        self.took = time.monotonic() - begun
        self.called = self.calls.read_text().splitlines()
        return done.returncode, done.stdout.splitlines()


class Packages(Machine):
    def names(self) -> List[str]:
        return sorted(self.installed.read_text().split())

    def test_what_is_missing_is_told(self):
        self.assertEqual(self.ran("tests/packages.sh", "missing"), (1, ["moon star"]))
        self.installed.write_text("sea\nstar\nmoon\n")
        self.assertEqual(self.ran("tests/packages.sh", "missing"), (0, []))
        self.assertEqual(self.called, [])

    def test_what_is_missing_is_installed_once(self):
        status, _ = self.ran("tests/packages.sh", "install")
        self.assertEqual((status, self.names()), (0, ["moon", "sea", "star"]))
        installs = [re.sub(r".* install( -\S+)*", "install", call) for call in self.called if " install " in call]
        self.assertEqual(installs, ["install moon star"])
        # What an earlier try was ended in is gone on with first.
        self.assertEqual(self.called[0], "dpkg --configure -a")
        self.assertEqual([call for call in self.called if call.endswith(" update")], self.called[1:2])
        self.assertEqual((self.ran("tests/packages.sh", "install")[0], self.called), (0, []))

    def test_three_tries_are_made(self):
        status, lines = self.ran("tests/packages.sh", "install", APT="fails")
        self.assertEqual((status, self.names()), (1, ["sea"]))
        self.assertEqual(sum(call.endswith(" update") for call in self.called), 3)
        self.assertIn("E: no network", lines)
        self.assertIn("moon star", lines[-1])

    def test_one_that_is_nowhere_keeps_no_other_out(self):
        status, lines = self.ran("tests/packages.sh", "install", APT="lacks")
        self.assertEqual((status, self.names()), (1, ["sea", "star"]))
        self.assertIn("moon", lines[-1])
        self.assertNotIn("star", lines[-1])

    def test_what_hangs_is_ended(self):
        status, lines = self.ran("tests/packages.sh", "install", APT="hangs", PACKAGES_SECONDS="2")
        self.assertEqual((status, self.names()), (1, ["sea"]))
        self.assertLess(self.took, 20)
        self.assertIn("moon star", lines[-1])

    def test_faulty_words_do_nothing(self):
        for words in ([], ["all"], ["install", "moon"]):
            self.assertEqual((self.ran("tests/packages.sh", *words)[0], self.called), (2, []), words)

    def test_each_package_of_the_repository_has_a_name_and_says_what_wants_it(self):
        text = (ROOT / "tests/packages.txt").read_text(encoding="utf-8")
        lines = [line for line in text.splitlines() if line and not line.startswith("#")]
        for line in lines:
            self.assertRegex(line, r"^[a-z0-9][a-z0-9+.-]+ +# \S")
        self.assertGreater(len(lines), 10)


class Gate(Machine):
    def setUp(self):
        super().setUp()
        (self.root / ".ci").mkdir()
        (self.root / "tools/dev").mkdir(parents=True)
        (self.root / "crates.txt").write_text("# crates\nlow:\nhigh staticlib: low\n")
        for name, size in (("low", 1000), ("high", 3000)):
            for part in ("src", "must-fail"):
                (self.root / "crates" / name / part).mkdir(parents=True)
            (self.root / "crates" / name / "src/lib.rt").write_text("#[test]\n" * (size // 8))
            (self.root / "crates" / name / "must-fail/one.edit").write_text("")
        beside = self.root / HERE.relative_to(ROOT)
        beside.mkdir(parents=True, exist_ok=True)
        for source, target in (
            (ROOT / ".ci/run", ".ci"),
            (ROOT / "tools/dev/test.sh", "tools/dev"),
            (ROOT / "tools/dev/gate.py", "tools/dev"),
            (ROOT / "tools/dev/crates.py", "tools/dev"),
            (HERE / "run.py", beside),
            (HERE / "ending.py", beside),
            (HERE / "pythons.py", beside),
        ):
            shutil.copy(source, self.root / target)
        (beside / "test_some.py").write_text(TESTS)
        (self.root / "tests/skips.txt").write_text("test_some.Some.test_sun  it rains\n")

    def test_with_the_packages_a_skip_is_a_failure_unless_it_is_listed(self):
        status, lines = self.ran(".ci/run", CI="1")
        self.assertEqual((status, lines[0], lines[-1]), (0, "5 passed, 0 failed", "2 passed, 0 failed, 1 skipped"))
        self.assertEqual(self.called[0], "rt ci")
        (self.root / "tests/skips.txt").write_text("")
        status, lines = self.ran(".ci/run", CI="1")
        self.assertEqual(status, 1)
        self.assertEqual(
            lines[-2:], ["skipped, which no list allows: test_some.Some.test_sun: it rains", "2 passed, 1 failed"]
        )

    def test_without_the_packages_it_goes_on_and_says_so(self):
        for apt in ("fails", "hangs"):
            status, lines = self.ran(".ci/run", CI="1", APT=apt, PACKAGES_SECONDS="2")
            self.assertEqual((status, lines[-1]), (0, "1 passed, 0 failed, 2 skipped"), lines)
            self.assertIn("could not be installed", " ".join(lines[-4:]))
            self.assertIn("apt-get install moon star", " ".join(lines[-4:]))

    def test_elsewhere_nothing_is_installed_and_it_says_what_to_install(self):
        for more in ({}, {"CI": ""}, {"CI": "1", "WHO": "1000"}):
            status, lines = self.ran(".ci/run", **more)
            self.assertEqual((status, lines[-1], self.called), (0, "1 passed, 0 failed, 2 skipped", ["rt ci"]), lines)
            self.assertIn("apt-get install moon star", lines[-2])

    def test_it_ends_with_the_first_status_that_is_not_0(self):
        status, lines = self.ran(".ci/run", CI="1", RT="7")
        self.assertEqual((status, lines, self.called), (7, ["5 passed, 0 failed"], ["rt ci"]))

    def test_the_first_of_its_work_is_a_plain_line(self):
        lines = [
            line for line in (ROOT / ".ci/run").read_text(encoding="utf-8").splitlines() if not line.startswith("#")
        ]
        self.assertEqual(lines[0], 'cd "$(dirname "$0")/.." || exit 1')
        self.assertEqual(lines[2], "rt ci")

    def test_it_says_what_it_is_at(self):
        steps = (
            r"rt: low proved\nrt: low: its tests are proved\nrt: low: trying its must-fail edits (1)\nlogic=proved\nrt:"
            r" high proved\n"
        )
        status, lines = self.ran(".ci/run", STEPS=steps)
        self.assertEqual((status, self.called), (0, ["rt ci"]))
        told = [line for line in lines if line.startswith("gate: ")]
        self.assertEqual(len(told), 4, lines)
        self.assertEqual(told[0], "gate: 1 of 2 crates are proved; 0 minutes so far")
        self.assertEqual(told[2], "gate: 1 of 2 crates are proved; edits of low; 0 minutes so far")
        self.assertEqual(told[3], "gate: 2 of 2 crates are proved; edits of low; 0 minutes so far")
        self.assertIn("logic=proved", lines)

    def test_why_a_proof_was_refused_is_told_once_more_at_the_end(self):
        steps = (
            r"== low\nfn low::a: proved\nlogic=proved functions=1\nrt: low proved\n== low: its tests\nstatements std:"
            r" modules loaded=1\nfn low::b: proved\nfn low::c: not proved\nfalse is not true\n"
            r"rt: low: its tests are NOT PROVED\nrt: FAILED: low\n"
        )
        status, lines = self.ran(".ci/run", STEPS=steps, RT="1")
        self.assertEqual(status, 1)
        why = ["== low: its tests", "fn low::c: not proved", "false is not true", "rt: low: its tests are NOT PROVED"]
        self.assertEqual(lines[-4:], [f"gate: {line}" for line in why])
        status, lines = self.ran(".ci/run", STEPS=r"== low\nfn low::a: proved\nrt: low proved\n")
        self.assertNotIn("gate: == low", lines)

    def test_what_is_printed_comes_through_in_every_locale(self):
        status, lines = self.ran(
            ".ci/run", STEPS=r"one side has `\316\273 x. x \342\211\241 x`\n", PYTHONIOENCODING="ascii"
        )
        self.assertEqual(status, 0, lines)
        self.assertIn("one side has `\u03bb x. x \u2261 x`", lines)

    def gate(self) -> Any:
        """The module of the script, of the small repository."""
        return loaded(self.root / "tools/dev/gate.py")

    def test_the_estimate_goes_by_the_work_that_is_left(self):
        gate = self.gate()
        now = time.monotonic()
        at = unittest.mock.patch.object(gate.time, "monotonic", side_effect=lambda: now)
        self.addCleanup(at.stop)
        at.start()
        with unittest.mock.patch.object(gate.os, "cpu_count", return_value=1):
            work = gate.Work()
        self.assertNotIn("more", work.told())
        now += 600
        # There are 4,000 bytes that are proved, and once more for tests, and two crates with an edit.
        self.assertTrue(work.read("rt: low proved"))
        whole, low = sum(work.takes.values()), gate.PROOF + 1000 * gate.BYTE
        left = (whole - low) / ((low + gate.SECONDS) / (600 + gate.SECONDS)) / 60
        self.assertEqual(work.told(), f"1 of 2 crates are proved; 10 minutes so far, about {left:.0f} more")
        for line in (
            "rt: high proved",
            "rt: low: its tests are proved",
            "rt: high: its tests are proved",
            "rt: low: trying its must-fail edits (1)",
        ):
            self.assertTrue(work.read(line), line)
        edits = 2 * gate.EDIT + (2 * gate.PROOF + 4000 * gate.BYTE) * gate.AGAIN
        left = edits / ((whole - edits + gate.SECONDS) / (600 + gate.SECONDS)) / 60
        self.assertEqual(
            work.told(), f"2 of 2 crates are proved; edits of low; 10 minutes so far, about {left:.0f} more"
        )
        self.assertFalse(work.read("rt: high NOT PROVED"))

    def test_what_is_kept_takes_no_time(self):
        work = self.gate().Work()
        all_of_it = sum(work.takes.values())
        self.assertTrue(
            work.read("rt: low is kept: an earlier run on this machine proved the same files over the same libraries")
        )
        self.assertLess(sum(work.takes.values()), all_of_it)
        self.assertEqual(sum(work.takes["low", phase] for phase in ("proof", "tests", "edits")), 0)

    def test_tests_are_read_apart_from_what_is_proved_with_a_crate(self):
        source = self.root / "crates/low/src"
        (source / "lib.rt").write_text("#[cfg(test)]\nmod tried;\n")
        (source / "tried.rt").write_text("#[test]\nfn one() {}\nmod more;\n")
        (source / "tried").mkdir()
        (source / "tried/more.rt").write_text("fn more() {}\n")
        self.assertEqual(self.gate().bytes_of("low"), (24, 43))
        self.assertEqual(self.gate().lines_of("low"), 6)

    def test_the_estimate_is_no_less_than_the_longest_way(self):
        """A chain of crates, of which each waits for the one before, beside many jobs: told within a third, from the
        second minute on."""
        gate = self.gate()
        names = [f"c{number}" for number in range(12)]
        (self.root / "crates.txt").write_text(
            "".join(f"{name}: {' '.join(names[max(0, place - 1):place])}\n" for place, name in enumerate(names))
        )
        for name in names:
            (self.root / "crates" / name / "src").mkdir(parents=True)
            (self.root / "crates" / name / "src/lib.rt").write_text(" " * int((60 - gate.PROOF) / gate.BYTE))
        # A machine of just the speed that is taken of one, and one of half that speed: a minute a crate, or two.
        for minutes in (1, 2):
            now = time.monotonic()
            with unittest.mock.patch.object(
                gate.time, "monotonic", side_effect=lambda: now
            ), unittest.mock.patch.object(gate.os, "cpu_count", return_value=4):
                work = gate.Work()
                for done, name in enumerate(names[:-1], 1):
                    now += minutes * 60
                    work.read(f"rt: {name} proved")
                    left = (12 - done) * minutes
                    self.assertGreater(work.minutes_left(), left * 2 / 3, (minutes, done))
                    self.assertLess(work.minutes_left(), left * 4 / 3, (minutes, done))
                    # In the midst of a step what is done of it is no more told as left.
                    now += 30 * minutes
                    self.assertLess(work.minutes_left(), left * 4 / 3 - minutes / 3, (minutes, done))
                    now -= 30 * minutes

    def test_more_than_five_edits_are_refused_before_anything_is_begun(self):
        for number in range(5):
            (self.root / f"crates/low/must-fail/more{number}.edit").write_text("")
        status, lines = self.ran(".ci/run")
        self.assertEqual((status, self.called), (1, []))
        self.assertEqual(
            lines,
            ["gate: low has 6 edits in must-fail/, of 5: the others belong in edits/, which tools/dev/edits.py tries"],
        )

    def test_the_estimate_is_within_a_third_from_the_second_minute_on(self):
        """A run of the gate as it was once: what each crate took, and the sizes by which it is estimated, in turn as
        `rt ci` takes them."""
        rows = [
            line.split("\t")
            for line in (HERE / "gate.tsv").read_text(encoding="utf-8").splitlines()
            if not line.startswith("#")
        ]
        crates = {row[0]: (row[1].split(), *map(int, row[2:])) for row in rows}
        gate = self.gate()
        now = 0.0
        for jobs, slow in ((2, 1), (4, 1), (2, 2), (4, 2)):
            told = [(slow * at, line) for at, line in self.run_of(crates, jobs)]
            with unittest.mock.patch.multiple(
                gate,
                crates_below=lambda: {name: row[0] for name, row in crates.items()},
                bytes_of=lambda name: crates[name][1:3],
                lines_of=lambda name: crates[name][3],
                edits_of=lambda name: [None] * crates[name][4],
                has_tests=lambda name: crates[name][6] > 0,
            ), unittest.mock.patch.object(gate.time, "monotonic", side_effect=lambda: now), unittest.mock.patch.object(
                gate.os, "cpu_count", return_value=jobs
            ):
                now = 0.0
                work = gate.Work()
                for now, line in told[:-1]:
                    self.assertTrue(work.read(line), line)
                    left = (told[-1][0] - now) / 60
                    if now >= 120 and left >= 1:
                        self.assertLess(abs(work.minutes_left() - left), left / 3, (jobs, slow, now / 60, line))

    @staticmethod
    def run_of(crates: Dict[str, Any], jobs: int) -> List[Tuple[float, str]]:
        """When each line is told of a run of `rt ci` by so many jobs: of the steps that wait for nothing it begins
        first with the one that has most lines of code behind it."""
        takes = {}
        for name, (_, _, _, _, edits, proof, tests, tried) in crates.items():
            for phase, seconds in (("proof", proof), ("tests", tests), ("edits", tried)):
                if seconds:
                    takes[name, phase] = (
                        seconds,
                        f"rt: {name}"
                        + {
                            "proof": " proved",
                            "tests": ": its tests are proved",
                            "edits": f": trying its must-fail edits ({edits})",
                        }[phase],
                    )

        def before(step: Any) -> List[Any]:
            name, phase = step
            steps = (
                [(name, "proof"), (name, "tests")]
                if phase == "edits"
                else [(below, "proof") for below in crates[name][0]]
            )
            return [each for each in steps if each in takes]

        @functools.cache
        def behind(step: Any) -> float:
            return crates[step[0]][3] + max((behind(each) for each in takes if step in before(each)), default=0)

        left, running, ended, lines, now = sorted(takes, key=behind, reverse=True), [], set(), [], 0.0
        while left or running:
            for step in [step for step in left if ended.issuperset(before(step))][: jobs - len(running)]:
                left.remove(step)
                running.append((now + takes[step][0], step))
                if step[1] == "edits":
                    lines.append((now, takes[step][1]))
            now, step = min(running)
            running.remove((now, step))
            ended.add(step)
            if step[1] != "edits":
                lines.append((now, takes[step][1]))
        return [*lines, (now, "")]

    def test_times_are_told_by_crate_and_phase(self):
        # A toolchain whose checks take a second and more of a processor, one of them for an edit.
        (self.root / "crates/low/src/lib.rt").write_text("#[test]\nfn one() {}\n")
        (self.root / "crates/low/must-fail/one.edit").write_text("file: src/lib.rt\nold: one\nnew: two\n")
        check = self.file(
            "commands/check",
            (
                "#!/usr/bin/env python3\nimport sys, time\nwhile time.process_time() < float(sys.argv[1]):"
                " pass\ntime.sleep(2.2)\n"
            ),
        )
        check.chmod(0o755)
        room = self.folder / "rt-edits-1/low"
        (room / "src").mkdir(parents=True)
        (room / "src/lib.rt").write_text("#[test]\nfn two() {}\n")
        self.file(
            "commands/rt",
            f"""#!/bin/sh
(cd crates/low && {check} 0.3 --crate-name low)
(cd crates/low && {check} 0.3 --crate-name low --test)
(cd {room} && {check} 2.4 --crate-name low)
echo "3 passed, 0 failed"
/bin/sleep 1.2
# What comes after is no check of the gate, such as one that a test of the tools makes.
(cd crates/low && {check} 0.2 --crate-name high)
""",
        ).chmod(0o755)
        status, lines = self.ran("tools/dev/gate.py", "--dear-fails", "sh", "-c", f"cd {self.root} && rt")
        self.assertEqual(status, 1, lines)
        self.assertRegex(
            "\n".join(lines),
            r"gate: low +0\.0 +0\.0 +0\.[01] +0\.[01]  one 2 s, the first\n"
            r"gate: all +0\.0 +0\.0 +0\.[01] +0\.[01]\n",
        )
        self.assertNotIn("high", "\n".join(lines))
        self.assertEqual(
            lines[-1],
            "gate: low/one took 2 s of a processor by itself, where a crate with little in it takes 0 s: plant it anew",
        )

    def test_the_first_edit_of_a_crate_is_told_apart(self):
        """The first proves the crate once more: what it took beyond that is its own, and nothing is known of it where
        no proof was seen."""
        gate = self.gate()
        watch = gate.Watch()

        def took(*rows: str) -> List[str]:
            watch.checks = {(number, 0): gate.Check(*row) for number, row in enumerate(rows)}
            return [line.partition(" took ")[0] for line in watch.dear()]

        low, high = ("low", "proof", "", 10.0), ("high", "proof", "", 100.0)
        self.assertEqual(
            took(low, high, ("high", "edits", "b", 140.0), ("high", "edits", "a", 54.0), ("low", "edits", "one", 55.0)),
            [],
        )
        self.assertEqual(
            [line.rpartition("  ")[2] for line in watch.table()[1:3]],
            ["b 140 s, the first; a 54 s", "one 55 s, the first"],
        )
        self.assertEqual(took(low, high, ("high", "edits", "b", 160.0), ("high", "edits", "a", 54.0)), ["high/b"])
        self.assertEqual(took(low, high, ("high", "edits", "b", 140.0), ("high", "edits", "a", 56.0)), ["high/a"])
        # A check by several processes is one.
        self.assertEqual(took(low, high, ("high", "edits", "b", 90.0), ("high", "edits", "b", 70.0)), ["high/b"])
        self.assertEqual(took(low, ("high", "edits", "b", 160.0), ("high", "edits", "a", 44.0)), [])

    def test_nothing_goes_on_where_it_is_ended(self):
        # A toolchain that begins work of its own: one that answers no request to end, and one that has left its parent.
        self.file(
            "commands/rt",
            """#!/bin/sh
echo "rt $*" >>"$CALLS"
setsid sh -c 'trap "" TERM INT HUP; while :; do /bin/sleep 0.2; done' marked-work &
(setsid /bin/sleep 97531 &)
/bin/sleep 97531
""",
        ).chmod(0o755)
        for number in (signal.SIGTERM, signal.SIGINT, signal.SIGHUP):
            self.calls.write_text("")
            environment = {"PATH": f"{self.folder}/commands:{os.environ['PATH']}", "CALLS": str(self.calls)}
            going = subprocess.Popen(
                [str(self.root / ".ci/run")],
                env=environment,
                stdin=subprocess.DEVNULL,
                stdout=subprocess.DEVNULL,
                stderr=subprocess.DEVNULL,
                start_new_session=True,
            )
            self.addCleanup(going.wait)
            self.until(lambda: self.calls.read_text() and len(self.going()) >= 3)
            going.send_signal(number)
            self.assertEqual(going.wait(timeout=60), 128 + number)
            self.assertEqual(self.going(), [], signal.Signals(number).name)

    def going(self) -> List[Any]:
        """The work of the toolchain that goes on: processes by their words, in the folder of the test."""
        found = []
        for path in pathlib.Path("/proc").glob("[0-9]*"):
            try:
                words = (path / "cmdline").read_bytes().split(b"\0")
                if os.readlink(path / "cwd") == str(self.root) and (b"97531" in words or b"marked-work" in words):
                    found.append(int(path.name))
            except OSError:
                pass
        return found
