"""Folders of evidence: made, checked, and altered."""
import os
import pathlib
import re
import shlex
import shutil
import signal
import subprocess
import sys
import time

from common import HUB, PROGRAM, ROOT, files_of, needs
from evidences import SCENARIOS, SCRIPT, EvidenceCase, evidence

from clearing_tools.evidence.layout import OLDER_README, REPOSITORY_README

# The first of the three scenarios, half of all cash.
ONE_SCENARIO = SCENARIOS.split('[[scenario]]\nname = " South')[0]
# A file, a text in it and what is put there, the status of a check then, and what it tells.
ALTERATIONS = (
    ("scenario-1/banks.csv", ",webster", ",order", 5, "scenario 1: banks differ"),
    (
        "scenario-1/journal.csv",
        "\nrounds",
        "\n9,South,Hub,1,1\nrounds",
        6,
        "scenario 1: raise ",
        "not so: each journal is lawful",
    ),
    ("as-is/journal.csv", "\n1,", "\n1,Nobody,", 6, "as it is: audit.py: journal row 1: fields (2)"),
    ("scenario-1/payments.csv", ",paid\n", ",paid \n", 7, "scenario 1: lawful,", "payments differ: line 1"),
    ("unit-less/defaults.csv", "sound", "contagion", 7, "defaults differ"),
    ("rescue/rescue.csv", "short,1", "short,2", 7, "rescue of South with 20: not what the tables say"),
    ("stress.csv", "scenario,half", "scenario,hall", 7, "stress.csv: differs"),
    (
        "as-is/journal.csv",
        "rounds,",
        "rounds,1",
        8,
        "commands run again: as-is/journal.csv differs",
        "checked: each journal is lawful",
    ),
    ("commands.tsv", "\t0\t", "\t1\t", 3, "commands.tsv: not the commands"),
    ("inputs/debts.csv", "debtor", "Debtor", 3, "inputs: debts row 0: header (1)"),
)


class Made(EvidenceCase):
    """What is in a folder of evidence, and that a check finds it right."""

    def test_what_is_made_is_checked(self):
        folder = self.hub()
        for name in ("banks.csv", "debts.csv"):
            self.assertEqual((folder / "inputs" / name).read_bytes(), (HUB / name).read_bytes())
        listed = subprocess.run(["sha256sum", "--check", "--quiet", "SHA256SUMS"], cwd=folder, capture_output=True)
        self.assertEqual((listed.returncode, listed.stdout), (0, b""))
        with (folder / "commands.tsv").open() as commands:
            self.assertEqual(next(commands), "file\tstatus\twords\n")
            for line in commands:
                file, status, *words = line.rstrip("\n").split("\t")
                done = subprocess.run([PROGRAM, *words], cwd=folder, capture_output=True)
                self.assertEqual((str(done.returncode), done.stdout), (status, (folder / file).read_bytes()))
        done = evidence("check", folder)
        self.assertEqual((done.returncode, done.stderr), (0, b""))
        told = done.stdout.decode()
        for line in [
            "checksums: 31 of 31",
            "scenario 2: banks same",
            "stress.csv: same",
            "commands run again: 20 of 20 the same",
            "rescue of South with 20: sound with it, and not with a unit less",
        ]:
            self.assertIn(line + "\n", told)
        for label in ("as it is", "scenario 1", "scenario 2", "scenario 3", "rescue", "a unit less"):
            self.assertRegex(told, f"(?m)^{label}: lawful,[0-9]+; payments same; defaults same$")
            self.assertRegex(told, f"(?m)^{label}, replayed by the program: lawful,[0-9]+; payments same$")
        self.assertNotIn("not so", told)
        # Made again it has the same bytes.
        again = self.folder / "again"
        words = [
            "--banks",
            HUB / "banks.csv",
            "--debts",
            HUB / "debts.csv",
            "--scenarios",
            self.folder / "s.toml",
            "--bank",
            "South",
        ]
        self.assertEqual(evidence("make", again, *words).returncode, 0)
        self.assertEqual((again / "SHA256SUMS").read_bytes(), (folder / "SHA256SUMS").read_bytes())

    def test_a_folder_without_scenarios_is_checked_without_the_program(self):
        (files, _), folder = self.hostile_files(), self.folder / "a b\n'$"
        self.assertEqual(evidence("make", folder, *files, "--bank", "total").returncode, 0)
        done = self.without_program("check", folder)
        self.assertEqual((done.returncode, done.stderr), (0, b""))
        told = done.stdout.decode()
        self.assertRegex(told, "(?m)^rescue of total with [0-9]+: sound with it, and not with a unit less$")
        self.assertIn("not checked: the same by the program: none is here, and CLEARING names none\n", told)
        self.assertNotIn("replayed", told)

    def test_a_generated_network_of_200_is_checked(self):
        banks, debts = self.file("b.csv"), self.file("d.csv")
        self.made("clearing-gen-files", "--seed", 9, "--size", 200, "--tries", 600, "--banks", banks, "--debts", debts)
        scenarios = self.file("s.toml", "".join(f'[[scenario]]\nname = "{cut}"\ncut = {cut}\n' for cut in (150, 600)))
        folder = self.folder / "evidence"
        self.assertEqual(
            evidence("make", folder, "--banks", banks, "--debts", debts, "--scenarios", scenarios).returncode, 0
        )
        done = evidence("check", folder)
        self.assertEqual(done.returncode, 0, done.stdout)
        self.assertEqual(done.stdout.count(b"; payments same; defaults same\n"), 3)

    def test_the_bank_that_is_saved_is_told_from_others_equal_but_for_capitals(self):
        folder, words = self.folder / "evidence", ["--bank", "Ash"]
        words += ["--banks", self.file("b.csv", "name,cash,rule\nash,0,order\nAsh,3,order\nASH,1,order\nC,0,order\n")]
        words += ["--debts", self.file("d.csv", "debtor,creditor,class,claim\nash,C,1,1\nAsh,C,1,5\nASH,C,1,9\n")]
        done = evidence("make", folder, *words)
        self.assertEqual((done.returncode, done.stderr), (0, b""))
        done = self.without_program("check", folder)
        self.assertEqual((done.returncode, done.stderr), (0, b""), done.stdout)
        self.assertIn(b"\nrescue of Ash with 2: sound with it, and not with a unit less\n", done.stdout)

    def test_the_last_of_a_hundred_scenarios_is_checked_as_the_first(self):
        scenarios = "".join(f'[[scenario]]\nname = "{cut}"\ncut = {cut}\n' for cut in range(901, 1001))
        folder = self.folder / "evidence"
        done = evidence("make", folder, *files_of(HUB), "--scenarios", self.file("s.toml", scenarios))
        self.assertEqual((done.returncode, done.stderr), (0, b""))
        done = self.without_program("check", folder)
        self.assertEqual((done.returncode, done.stderr), (0, b""))
        self.assertEqual(done.stdout.count(b"; payments same; defaults same\n"), 101)
        banks = (folder / "scenario-100/banks.csv").read_bytes()
        (folder / "scenario-100/banks.csv").write_bytes(banks.replace(b",webster", b",order", 1))
        self.sums_anew(folder)
        done = self.without_program("check", folder)
        self.assertEqual(done.returncode, 5, done.stdout)
        self.assertIn(b"\nscenario 99: banks same\nscenario 100: banks differ\n", done.stdout)

    def test_a_journal_of_long_names_and_single_units_is_read_whole(self):
        """Each raise pays one unit, and the first bank alone has a short name."""
        names, folder = ["A", *(f"{number:N>64}" for number in range(30))], self.folder / "evidence"
        banks = "name,cash,rule\n" + "".join(f"{name},1,order\n" for name in names)
        debts = "".join(f"{name},{names[place]},1,1\n" for place, name in enumerate(names[1:]))
        words = ["--banks", self.file("b.csv", banks)]
        words += ["--debts", self.file("d.csv", f"debtor,creditor,class,claim\n{debts}")]
        self.assertEqual(evidence("make", folder, *words).returncode, 0)
        done = self.without_program("check", folder)
        self.assertEqual((done.returncode, done.stderr), (0, b""), done.stdout)
        self.assertIn(b"\nas it is: lawful,30; payments same; defaults same\n", done.stdout)

    def test_each_command_is_run_again_the_last_one_too(self):
        """A program prints otherwise what is the first, or the last, of the commands."""
        folder = self.hub(ONE_SCENARIO)
        commands = [line.split("\t") for line in (folder / "commands.tsv").read_text().splitlines()[1:]]
        count = len(commands)
        for file, _, *words in (commands[0], commands[-1]):
            other = f'[ "$*" != "{" ".join(words)}" ] || {{ echo other; exit 0; }}\nexec {shlex.quote(PROGRAM)} "$@"\n'
            done = evidence("check", folder, program=str(self.executable("program", other)))
            self.assertEqual((done.returncode, done.stderr), (8, b""), done.stdout)
            told = f"commands run again: {count - 1} of {count} the same\ncommands run again: {file} differs\n"
            self.assertIn(told, done.stdout.decode())

    def test_a_text_of_what_was_changed_belongs_to_a_folder(self):
        text = self.file("said.txt", "Hub: cash 5 in place of 4.\n")
        folder = self.folder / "evidence"
        words = files_of(HUB)
        self.assertEqual(evidence("make", folder, *words, "--changes", text).returncode, 0)
        self.assertEqual((folder / "inputs/changes.txt").read_bytes(), text.read_bytes())
        done = evidence("check", folder)
        self.assertEqual(done.returncode, 0, done.stdout)
        self.assertIn(
            b"not checked: that the inputs are true (inputs/banks.csv, inputs/changes.txt, inputs/debts.csv)",
            done.stdout,
        )
        (folder / "inputs/changes.txt").write_text("Hub: cash 4 in place of 4.\n")
        self.assertEqual(evidence("check", folder).returncode, 4)

    def test_a_folder_that_was_made_before_the_commands_stood_in_bin_is_checked(self):
        folder = self.folder / "evidence"
        self.assertEqual(
            evidence("make", folder, "--banks", HUB / "banks.csv", "--debts", HUB / "debts.csv").returncode, 0
        )
        other = OLDER_README.replace("audit.py", "other.py")
        for text, status in ((OLDER_README, 0), (REPOSITORY_README, 0), (other, 3)):
            (folder / "README.txt").write_text(text)
            self.sums_anew(folder)
            self.assertEqual(evidence("check", folder).returncode, status)

    def test_without_what_it_needs_it_says_so_in_a_line(self):
        place = self.folder / "bin"
        place.mkdir()
        shutil.copy(SCRIPT, place)
        done = subprocess.run(
            [str(place / "clearing-evidence"), "check", str(self.folder)], capture_output=True, encoding="utf-8"
        )
        self.assertEqual((done.returncode, done.stdout), (2, ""))
        self.assertRegex(done.stderr, r"\Aclearing-evidence: needs bin/clearing-evidence and python/src [^\n]*\n\Z")

    def test_the_guide_makes_each_folder_once(self):
        text = (ROOT / "docs/GUIDE.md").read_text(encoding="utf-8")
        commands = (
            "".join(re.findall(r"^```\w*\n(.*?)^```$", text, re.MULTILINE | re.DOTALL)).replace("\\\n", " ").split("\n")
        )
        made = [
            name
            for line in commands
            for name in re.findall(r"(?:clearing-report .*--keep|clearing-evidence make) (\S+)", line)
        ]
        self.assertGreater(len(made), 1)
        self.assertEqual(sorted(made), sorted(set(made)))


class Altered(EvidenceCase):
    """What a check says of a folder in which something was altered."""

    def altered(self, path: pathlib.Path, old: str, new: str) -> None:
        """Puts one text in place of another, where it stands first in a file."""
        text = path.read_bytes().decode()
        self.assertIn(old, text)
        path.write_bytes(text.replace(old, new, 1).encode())

    def checked(self, folder: pathlib.Path, status: int, *told: str) -> None:
        """A folder is checked with a status, and this is told of it."""
        done = evidence("check", folder)
        text = (done.stdout + done.stderr).decode()
        self.assertEqual(done.returncode, status, text)
        for line in told:
            self.assertIn(line, text)

    def test_each_file_that_was_altered_differs_from_its_checksum(self):
        folder = self.hub(ONE_SCENARIO)
        files = [path for path in folder.rglob("*") if path.is_file() and path.name != "SHA256SUMS"]
        for path in files:
            path.write_bytes(path.read_bytes() + b"\n")
        names = [path.relative_to(folder) for path in files]
        told = [f"checksums: {name} differs\n" for name in names]
        self.checked(folder, 3, f"checksums: 0 of {len(names)}", *told)

    def test_one_file_that_was_altered_leaves_the_others_as_listed(self):
        folder = self.hub(ONE_SCENARIO)
        count = sum(path.is_file() for path in folder.rglob("*")) - 1
        self.altered(folder / "as-is/journal.csv", "rounds,", "rounds,99")
        told = [f"checksums: {count - 1} of {count}", "not so: the files are those that SHA256SUMS lists"]
        self.checked(folder, 4, *told)

    def test_a_file_more_is_neither_listed_nor_made(self):
        folder = self.hub(ONE_SCENARIO)
        (folder / "more.txt").write_text("x")
        told = ["checksums: more.txt is not listed", "more.txt: none of these commands makes it here"]
        self.checked(folder, 3, *told)

    def test_what_was_altered_with_its_checksum_is_found_by_what_the_files_say(self):
        folder = self.hub(ONE_SCENARIO)
        for name, old, new, status, *told in ALTERATIONS:
            with self.subTest(name=name, new=new):
                kept = (folder / name).read_bytes()
                self.altered(folder / name, old, new)
                self.sums_anew(folder)
                self.checked(folder, status, *told)
                (folder / name).write_bytes(kept)
        self.sums_anew(folder)
        self.checked(folder, 0)

    def test_a_file_that_is_gone_is_named(self):
        folder = self.hub(ONE_SCENARIO)
        (folder / "scenario-1/payments.csv").unlink()
        told = ["checksums: scenario-1/payments.csv is not there", "scenario-1/payments.csv is not there"]
        self.checked(folder, 3, *told)

    def test_what_is_no_plain_file_is_none(self):
        """A link to the same bytes, and a pipe, which is not waited for."""
        folder = self.hub(ONE_SCENARIO)
        path = folder / "as-is/journal.csv"
        kept = path.read_bytes()
        for put in (lambda: path.symlink_to(HUB / "banks.csv"), lambda: os.mkfifo(path)):
            path.unlink()
            put()
            done = evidence("check", folder, timeout=60)
            self.assertEqual(done.returncode, 3)
            self.assertIn(b"as-is/journal.csv is not there\n", done.stderr)
        path.unlink()
        path.write_bytes(kept)
        self.checked(folder, 0)


class Builds(EvidenceCase):
    """Which program and which commit made a folder."""

    def test_two_builds_are_compared(self):
        """With a build that takes no time in place of the real one."""
        root = self.folder / "repository"
        (root / "tests/system").mkdir(parents=True)
        script = root / "tests/system/same_build.sh"
        script.write_bytes((ROOT / "tests/system/same_build.sh").read_bytes())
        (root / ".gitignore").write_text("crates/*/out/\n")
        commands = self.folder / "commands"
        commands.mkdir()
        (commands / "rt").write_text("#!/bin/sh\necho kit\n")
        environment = {**os.environ, "PATH": f"{commands}:{os.environ['PATH']}", "GIT_CONFIG_GLOBAL": os.devnull}
        git = lambda *words: subprocess.run(
            ["git", "-c", "user.name=a", "-c", "user.email=a@b", *words],
            cwd=root,
            check=True,
            capture_output=True,
            env=environment,
        )
        git("init", "--quiet")
        sums = []
        for content, status, said in [
            ("true program", 0, "the same bytes\n"),
            ("$PWD", 1, "the programs differ\n"),
            (None, 1, "no rt\n"),
        ]:
            make = f'mkdir -p crates/clear_main/out; echo "{content}" >crates/clear_main/out/clear_main'
            (root / "clearing").write_text("#!/bin/sh\n" + (make if content else "echo no rt >&2; exit 8") + "\n")
            for path in (root / "clearing", script, commands / "rt"):
                path.chmod(0o755)
            git("add", "--all")
            git("commit", "--quiet", "--message", "x")
            done = subprocess.run([str(script)], env=environment, capture_output=True, encoding="utf-8")
            self.assertEqual((done.returncode, done.stdout[-len(said) :]), (status, said), done.stderr)
            sums.append(done.stdout.splitlines()[2].split()[0])
        program = self.file("program", "true program\n")
        for given, status in ((sums[0], 0), (sums[1], 1)):
            self.assertEqual(subprocess.run([str(script), given, str(program)], capture_output=True).returncode, status)
        for words in (["no-such-commit"], ["-x"], ["a", "b", "c"], [sums[0], str(self.folder / "none")]):
            self.assertEqual(subprocess.run([str(script), *words], env=environment, capture_output=True).returncode, 2)

    @needs("git")
    def test_changes_are_told_where_they_are_of_the_repository(self):
        copy, sources = self.folder / "copy", "crates/one/src"
        own = {**os.environ, "GIT_CONFIG_GLOBAL": "/dev/null", "CLEARING": PROGRAM}
        for part in ("bin", "python"):
            shutil.copytree(ROOT / part, copy / part, ignore=shutil.ignore_patterns("tests", "__pycache__"))
        (copy / sources).mkdir(parents=True)
        (copy / sources / "lib.rt").write_text("old\n")
        (copy / ".gitignore").write_text("out/\n")
        git = ["git", "-C", copy, "-c", "user.name=A", "-c", "user.email=a@b"]
        for words in (["init", "-q"], ["add", "."], ["commit", "-qm", "all"]):
            subprocess.run([*git, *words], env=own, check=True)
        commit = subprocess.check_output([*git, "rev-parse", "HEAD"], env=own, encoding="utf-8").strip()
        ask = [sys.executable, "-B", "-c", "from clearing_tools.evidence import versions; print(versions.commit_of())"]
        # What is written, and whether it is a change: an output of one's own is none, and nor is what a build makes.
        for name, is_change in [
            ("mine.csv", False),
            ("bin/mine.csv", False),
            (f"{sources}/out/x", False),
            (f"{sources}/lib.rt", True),
            (f"{sources}/new.rt", True),
            ("bin/clearing-evidence", True),
        ]:
            path = copy / name
            before = path.read_bytes() if path.exists() else None
            path.parent.mkdir(exist_ok=True)
            path.write_bytes((before or b"") + b"# new\n")
            want = commit + (", with changes that are not committed" if is_change else "")
            self.assertEqual(
                subprocess.check_output(ask, cwd=copy / "python/src", env=own, encoding="utf-8"), want + "\n", name
            )
            if before is None:
                path.unlink()
            else:
                path.write_bytes(before)
        # Both tools say so.
        self.file("copy/mine.csv", "mine")
        folder, page = self.folder / "evidence", self.folder / "page.html"
        for words in (["clearing-evidence", "make", folder], ["clearing-report", "--out", page]):
            run = [copy / "bin" / words[0], *words[1:], "--banks", HUB / "banks.csv", "--debts", HUB / "debts.csv"]
            subprocess.run(run, env={**own, "PYTHONDONTWRITEBYTECODE": "1"}, check=True, capture_output=True)
        self.assertEqual((folder / "versions.txt").read_text().split("\n")[0], f"repository {commit}")
        self.assertIn(f">{commit}<", page.read_text(encoding="utf-8"))


class Whole(EvidenceCase):
    """A folder is made whole or not at all."""

    def nothing_is_left(self, folder: pathlib.Path, *others: str) -> None:
        self.assertEqual(sorted(path.name for path in folder.parent.iterdir()), sorted(others))

    def test_a_folder_is_made_whole_or_not_at_all(self):
        place = self.folder / "place"
        place.mkdir()
        words = ["make", place / "evidence", "--banks", HUB / "banks.csv", "--debts", HUB / "debts.csv"]
        # A program that fails, and one that lies, each on one task alone.
        for task, lie, status in [
            ("defaults", "exit 6", 1),
            ("stress", "echo x; exit 0", 1),
            ("rescue", "printf 'rescue,South,1\\nshort,1\\n\\n'", 1),
        ]:
            lines = f'if [ "$1" = {task} ]; then {lie}; else exec {shlex.quote(PROGRAM)} "$@"; fi\n'
            program = self.executable("program", lines)
            more = ["--scenarios", self.file("s.toml", SCENARIOS), "--bank", "South"]
            done = evidence(*words, *more, program=str(program))
            self.assertEqual((done.returncode, done.stdout), (status, b""), done.stderr)
            self.assertTrue(done.stderr.startswith(b"clearing-evidence: "), done.stderr)
            self.nothing_is_left(words[1])
        for more, status, message in [
            (["--bank", "Nobody"], 4, b"words row 0: unknown bank (8)"),
            (["--scenarios", self.file("x.toml", "x")], 4, b"scenarios row 0: toml (16)"),
            (["--scenarios", self.folder / "none.toml"], 3, b"cannot read"),
            (["--banks", self.file("b.csv", "name\n")], 4, b"banks row 0: header (1)"),
            (["--seed", "1"], 2, b"unrecognized"),
        ]:
            done = evidence(*words, *more)
            self.assertEqual((done.returncode, done.stdout), (status, b""), done.stderr)
            self.assertIn(message, done.stderr)
            self.nothing_is_left(words[1])
        (place / "evidence").mkdir()
        self.assertEqual(evidence(*words).returncode, 2)
        self.nothing_is_left(words[1], "evidence")
        self.assertEqual(evidence("make", self.folder / "none/evidence", *words[2:]).returncode, 5)
        self.assertEqual(evidence("check", self.folder / "none").returncode, 3)
        self.assertEqual(evidence("check", place).returncode, 3)
        self.assertEqual(evidence().returncode, 2)

    def test_an_interrupt_ends_at_once_and_leaves_nothing(self):
        place = self.folder / "place"
        place.mkdir()
        lines = f'case $1 in clear) exec sleep 60;; esac\nexec {shlex.quote(PROGRAM)} "$@"\n'
        program = self.executable("program", lines)
        for number in (signal.SIGINT, signal.SIGTERM):
            running = subprocess.Popen(
                [
                    SCRIPT,
                    "make",
                    str(place / "evidence"),
                    "--banks",
                    str(HUB / "banks.csv"),
                    "--debts",
                    str(HUB / "debts.csv"),
                ],
                env={**os.environ, "CLEARING": str(program), "PYTHONDONTWRITEBYTECODE": "1"},
                stdout=subprocess.PIPE,
                stderr=subprocess.PIPE,
                start_new_session=True,
            )
            self.addCleanup(running.stdout.close)
            self.addCleanup(running.stderr.close)
            self.until(lambda: list(place.glob(".part-*/inputs/debts.csv")))
            time.sleep(0.3)
            begun = time.monotonic()
            running.send_signal(number)
            self.assertEqual(running.wait(30), 130)
            self.assertLess(time.monotonic() - begun, 20)
            self.nothing_is_left(place / "evidence")


if __name__ == "__main__":
    import unittest

    unittest.main()
