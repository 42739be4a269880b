"""`clearing-many` runs many jobs, each once, as many at a time as there are processors."""
import hashlib
import json
import os
import pathlib
import subprocess
from typing import Any, Dict, List, Mapping, Set, Tuple

from common import CHAIN, ROOT, Case, Word, tool

import clearing_client
from clearing_client import limits

# Prints its words, one a line; fails with the number after `fail`, and counts its runs in a file.
PROGRAM = """#!/bin/sh
echo run >>"$COUNTED"
if [ "$1" = fail ]; then echo "refused" >&2; echo part; exit "$2"; fi
printf '%s\\n' "$@"
"""


# Cases as others describe them: files, and the resources that a description names.
FILES = {name: (CHAIN / f"{name}.csv").read_bytes() for name in ("banks", "debts")}
LARGE = {
    "banks": b"name,cash,rule\n" + b"".join(b"N%d,1,order\n" % n for n in range(1001)),
    "debts": b"debtor,creditor,class,claim\n",
}
PLAIN = [{"name": name, "path": f"{name}.csv"} for name in FILES]
HASHED = [{**one, "hash": f"sha256:{hashlib.sha256(FILES[one['name']]).hexdigest()}"} for one in PLAIN]
SWAPPED = [{**one, "hash": two["hash"]} for one, two in zip(PLAIN, HASHED[::-1])]
WIDELY = "{tool}the network is read by the wide limits, as it has more than 1,000 banks; --limits wide says so"


def document(resources: List[Dict[str, str]], **more: Any) -> str:
    """The text of a description."""
    return json.dumps({"name": "a", "resources": resources, **more})


# Of each case that is taken its files and description, whether it is read by the wide limits, and what is told of it.
TAKEN: Dict[str, Tuple[Dict[str, bytes], str, bool, List[str]]] = {
    "without checksums": (FILES, document(PLAIN), False, []),
    "with them": (FILES, document(HASHED), False, []),
    "with others": (
        FILES,
        document(SWAPPED),
        False,
        [f"{{case}}{name}.csv is not the file that was described" for name in ("banks", "debts")],
    ),
    "with another that is not there": (
        FILES,
        document([*HASHED, {"name": "c", "path": "c.csv"}]),
        False,
        ["{case}c.csv is described, and is not there"],
    ),
    "with unknown keys": (
        FILES,
        document(HASHED, clearing={"colour": "red"}),
        False,
        ["{case}the key clearing.colour is unknown"],
    ),
    "with limits in a text": (FILES, document(PLAIN, title='"limits": "wide"'), False, []),
    "with limits by codes": (
        FILES,
        document(PLAIN, clearing={"limits": "wi\\u0064e"}).replace("\\\\u", "\\u"),
        True,
        [],
    ),
    "large": (LARGE, document(PLAIN), True, [WIDELY]),
    "large, and it was standard": (LARGE, document(PLAIN, clearing={"limits": "standard"}), True, [WIDELY]),
    "large, and wide": (LARGE, document(PLAIN, clearing={"limits": "wide"}), True, []),
}
# Of each description that is refused the status, and how the fault begins.
REFUSED = {
    "with a fault": (
        document(PLAIN, clearing={"limits": "wider"}),
        4,
        "{}: clearing.limits: 'wider' is not one of standard, wide\n",
    ),
    "with a path outside": (
        document([{"name": "a", "path": "../a.csv"}]),
        4,
        "{}: resources[0].path: '../a.csv' is not a path below the folder\n",
    ),
    "no JSON": ("{", 4, "{}: datapackage.json is not JSON in UTF-8: "),
}


class Many(Case):
    def many(self, *words: Word, program: str = PROGRAM) -> "subprocess.CompletedProcess[str]":
        script = self.file("program", program)
        script.chmod(0o755)
        environment = {**os.environ, "CLEARING": str(script), "COUNTED": str(self.folder / "counted")}
        run = [str(ROOT / "bin/clearing-many"), *map(str, words)]
        return subprocess.run(
            run, cwd=self.folder, env=environment, stdin=subprocess.DEVNULL, capture_output=True, encoding="utf-8"
        )

    def runs(self) -> int:
        return len((self.folder / "counted").read_text().splitlines())

    def test_one_job_is_run_once_and_kept(self):
        jobs = self.file("jobs.tsv", "a\tclear\t--banks\ta bank's file *.csv\nb\tfail\t7\nc\tfail\t4\n")
        self.assertEqual(self.many("one", jobs, "out", 1).returncode, 0)
        out = self.folder / "out"
        self.assertEqual((out / "a.out").read_text(), "clear\n--banks\na bank's file *.csv\n")
        self.assertEqual(self.many("one", jobs, "out", 1).returncode, 0)
        self.assertEqual(self.runs(), 1)
        # A journal that is not lawful is a result; a refusal is none.
        self.assertEqual(self.many("one", jobs, "out", 2).returncode, 0)
        self.assertEqual((out / "b.out").read_text(), "part\n")
        self.assertEqual(self.many("one", jobs, "out", 3).returncode, 1)
        self.assertEqual((out / "c.failed").read_text(), "status 4\nrefused\n")
        self.assertEqual(sorted(path.name for path in out.iterdir()), ["a.job", "a.out", "b.job", "b.out", "c.failed"])

    def test_a_case_stands_for_its_files(self):
        place = self.folder / "a case"
        scenarios = [clearing_client.Scenario("half", cut=500)]
        clearing_client.Case(clearing_client.Network({"A": 7}, {}), scenarios=scenarios).write(place)
        jobs = self.file(
            "jobs.tsv",
            (
                "a\tdefaults\t--case\ta case\t--workers\t1\nb\tstress\t--case=a case\n"
                "c\tstress\t--scenarios\tmine.toml\t--banks=b.csv\t--case=a case\nd\t--case\ta case\tstress\n"
                "e\t--workers\t1\t--case=a case\t--sweeps=2\toutcomes\n"
            ),
        )
        done = self.many("run", jobs, "out", 1)
        self.assertEqual((done.returncode, done.stdout, done.stderr), (0, "5 done, 0 failed\n", ""))
        banks, debts, years = (f"--{what}=a case/{what}.csv" for what in ("banks", "debts", "scenarios"))
        years = years.replace(".csv", ".toml")
        want = {
            "a": ["defaults", "--workers", "1", banks, debts],
            "b": ["stress", banks, debts, years],
            "c": ["stress", "--scenarios", "mine.toml", "--banks=b.csv", debts],
            "d": ["stress", banks, debts, years],
            "e": ["--workers", "1", "--sweeps=2", "outcomes", banks, debts, years],
        }
        for name, words in want.items():
            self.assertEqual((self.folder / "out" / f"{name}.out").read_text().splitlines(), words)
        # What a job depends on is what the files are: one that was changed is told, and its jobs are run again.
        with open(place / "banks.csv", "a") as file:
            file.write("B,1,order,0\n")
        done = self.many("run", jobs, "out", 1)
        told = "case: a case: banks.csv is not the file that was described\n"
        self.assertEqual((done.stdout, done.stderr, self.runs()), ("5 done, 0 failed\n", 5 * told, 9))

    def described(self, name: str, files: Mapping[str, bytes], document: str) -> pathlib.Path:
        """A folder of some files and a description."""
        place = self.folder / name
        place.mkdir()
        for stem, content in files.items():
            (place / f"{stem}.csv").write_bytes(content)
        (place / "datapackage.json").write_text(document)
        return place

    def test_of_a_case_that_is_taken_it_tells_what_the_other_tools_tell(self) -> None:
        places = {f"job-{at}": self.described(f"case {at}", *case[:2]) for at, case in enumerate(TAKEN.values())}
        lines = "".join(f"{job}\tdefaults\t--case\t{place}\n" for job, place in places.items())
        done = self.many("run", self.file("jobs.tsv", lines), "out", 4)
        self.assertEqual(done.stdout, "10 done, 0 failed\n")
        wanted = []
        for (job, place), (about, (_, _, is_wide, notes)) in zip(places.items(), TAKEN.items()):
            with self.subTest(about):
                wanted += [note.format(case=f"case: {place}: ", tool=f"clearing-many: {job}: ") for note in notes]
                others = tool("clearing-lint", place)
                told = "".join(note.format(case="case: ", tool="clearing-lint: ") + "\n" for note in notes)
                self.assertEqual((others.returncode, others.stderr), (0, told))
                self.assertEqual("--limits=wide" in (self.folder / f"out/{job}.out").read_text(), is_wide)
        self.assertEqual(sorted(done.stderr.splitlines()), sorted(wanted))

    def test_a_case_that_is_refused_is_refused_in_the_words_of_the_other_tools(self) -> None:
        places = {f"job-{at}": self.described(f"case {at}", FILES, case[0]) for at, case in enumerate(REFUSED.values())}
        (self.folder / "case empty").mkdir()
        places |= {f"job-{name}": self.folder / f"case {name}" for name in ("empty", "none")}
        whys = [*(case[1:] for case in REFUSED.values()), (4, "{}: it has no banks.csv, and is no case\n")]
        whys.append((3, "cannot read {}: there is no such folder\n"))
        lines = "".join(f"{job}\tdefaults\t--case={place}\n" for job, place in places.items())
        done = self.many("run", self.file("jobs.tsv", lines), "out", 4)
        self.assertEqual(done.stdout, "0 done, 5 failed\n")
        for (job, place), (status, why) in zip(places.items(), whys):
            with self.subTest(why):
                others = tool("clearing-lint", place)
                self.assertEqual(others.returncode, status)
                self.assertTrue(others.stderr.startswith(f"clearing-lint: {why.format(place)}"), others.stderr)
                failed = (self.folder / f"out/{job}.failed").read_text()
                told = others.stderr.replace("clearing-lint: ", "clearing-many: ")
                self.assertEqual(failed, f"status {status}\n{told}")
                self.assertFalse((self.folder / f"out/{job}.out").exists())

    def test_as_many_jobs_are_run_at_a_time_as_processors_may_be_used(self):
        jobs = self.file("jobs.tsv", "".join(f"{at}\tgen\n" for at in range(6)))
        first = min(os.sched_getaffinity(0))
        # A job that another one goes beside says so.
        program = '#!/bin/sh\nmkdir "$COUNTED.now" || echo beside >>"$COUNTED"\nsleep 0.2\nrmdir "$COUNTED.now"\n'
        before = os.sched_getaffinity(0)
        os.sched_setaffinity(0, {first})
        self.addCleanup(os.sched_setaffinity, 0, before)
        done = self.many("run", jobs, "out", program=program)
        self.assertEqual((done.returncode, done.stdout, done.stderr), (0, "6 done, 0 failed\n", ""))
        self.assertFalse((self.folder / "counted").exists())

    def at_the_limits(self) -> List[Tuple[bytes, bytes]]:
        """Banks files and debts files at the standard limits and beyond, in several forms; the last pair is none."""
        head, standard = b"debtor,creditor,class,claim\n", limits.LIMITS["standard"]
        banks = [b"name,cash,rule\n" + b"".join(b"N%d,1,order\n" % n for n in range(count)) for count in (1000, 1001)]
        debts = [head + b"A,B,1,0\n" * count for count in (20_000, 20_001)]
        owed = [head + b'A,B,1,9999999\r\n"B","A","1"," %d "\r\n,,,\r\n' % more for more in (1, 2)]
        return [
            (banks[0], debts[0]), (banks[1], head), (banks[0], debts[1]), (banks[0], owed[0]), (banks[0], owed[1]),
            (banks[0].ljust(standard.bytes["banks"] + 1, b"\n"), head),
            (banks[0], head.ljust(standard.bytes["debts"] + 1, b"\n")),
            (banks[0].replace(b"\n", b"\r") + b",,\r" * 9, debts[0].replace(b"\n", b"\r\n") + b"\n" * 9),
            (b"\xff" * 99, b'"'),
        ]  # fmt: skip

    def told_of(self, job: str, pair: Tuple[bytes, bytes]) -> str:
        """What is told of a job whose network is beyond the standard limits."""
        beyond = limits.beyond(*pair)
        what = f"the network is read by the wide limits, as it has {beyond}; --limits wide says so"
        return f"clearing-many: {job}: {what}"

    def run_lines(self, lines: List[List[str]], told: Set[str], want: Dict[str, List[str]]) -> None:
        """Runs jobs, of which this is told, and each of which gets these words; a second run has nothing to do."""
        jobs = self.file("jobs.tsv", "".join("\t".join(line) + "\n" for line in lines))
        done = self.many("run", jobs, "out", 4)
        self.assertEqual((done.returncode, done.stdout), (0, f"{len(lines)} done, 0 failed\n"))
        self.assertEqual(set(done.stderr.splitlines()), told)
        for name, words in want.items():
            self.assertEqual((self.folder / "out" / f"{name}.out").read_text().splitlines(), words)
        self.assertEqual((self.many("run", jobs, "out").stderr, self.runs()), ("", len(lines)))

    def test_the_wide_limits_are_taken_where_the_network_needs_them(self):
        lines, want, told = [], {}, set()
        for at, pair in enumerate(self.at_the_limits()):
            words = [f"--{what}={at}{what}.csv" for what in ("banks", "debts")]
            for what, data in zip(("banks", "debts"), pair):
                self.file(f"{at}{what}.csv", data)
            is_beyond = limits.beyond(*pair) is not None
            lines.append([f"n{at}", "clear", *words])
            want[f"n{at}"] = ["clear", *words, *(["--limits=wide"] if is_beyond else [])]
            told |= {self.told_of(f"n{at}", pair)} if is_beyond else set()
        self.assertEqual((len(told), limits.beyond(*self.at_the_limits()[7])), (5, None))
        self.run_lines(lines, told, want)
        # The words that were added are among those beside the result, which stands.
        self.assertIn("word --limits=wide\n", (self.folder / "out/n1.job").read_text())

    def test_what_a_job_says_of_limits_decides_and_then_what_its_case_says(self):
        net, wide, beyond = clearing_client.Network({"A": 7}, {}), ["--limits=wide"], self.at_the_limits()[1]
        for said in ("wide", "standard", None):
            clearing_client.Case(net, limits=said).write(self.folder / f"says {said}")
        for what, data in zip(("banks", "debts"), beyond):
            self.file(f"{what}.csv", data)
        large = ["--banks", "banks.csv", "--debts", "debts.csv"]
        lines = [["said", "clear", *large, "--limits", "standard"], ["case", "clear", "--case=says standard", *large]]
        want = {"said": ["clear", *large, "--limits", "standard"], "case": ["clear", *large, *wide]}
        for said, more in (("wide", wide), ("standard", []), ("None", [])):
            lines.append([said, "defaults", "--case", f"says {said}"])
            want[said] = ["defaults", *(f"--{what}=says {said}/{what}.csv" for what in ("banks", "debts")), *more]
        self.run_lines(lines, {self.told_of("case", beyond)}, want)

    def test_all_jobs_are_run_side_by_side(self):
        jobs = self.file("jobs.tsv", "".join(f"job-{at}\tgen\t{at}\n" for at in range(30)) + "bad\tfail\t6\n")
        done = self.many("run", jobs, "out", 3)
        self.assertEqual((done.returncode, done.stdout), (1, "30 done, 1 failed\n"), done.stderr)
        self.assertEqual((self.folder / "out/job-17.out").read_text(), "gen\n17\n")
        # Only what failed is run again.
        self.many("run", jobs, "out")
        self.assertEqual(self.runs(), 32)

    def test_a_batch_script_has_a_task_for_each_job(self):
        jobs = self.file("jobs.tsv", "a\tgen\t1\nb\tgen\t2\n")
        script = self.many("slurm", jobs, "out").stdout
        self.assertIn("#SBATCH --array=1-2\n", script)
        environment = {**os.environ, "SLURM_ARRAY_TASK_ID": "2", "COUNTED": str(self.folder / "counted")}
        subprocess.run(["sh", "-c", script], cwd=self.folder, env=environment, check=True)
        self.assertEqual((self.folder / "out/b.out").read_text(), "gen\n2\n")

    def test_a_task_of_an_array_has_as_many_jobs_as_asked_or_needed(self):
        jobs = self.file("jobs.tsv", "".join(f"{at}\tgen\t{at}\n" for at in range(1, 12)))
        for words, tasks in [
            (["--each", 4], 3),
            (["--tasks", 4], 4),
            (["--tasks", 3, "--each", 2], 3),
            (["--each", 11], 1),
            ([], 11),
        ]:
            script = self.many("slurm", jobs, "out", *words).stdout
            self.assertIn(f"#SBATCH --array=1-{tasks}\n", script, words)
            done = []
            for task in range(1, tasks + 1):
                environment = {**os.environ, "SLURM_ARRAY_TASK_ID": str(task), "COUNTED": str(self.folder / "counted")}
                subprocess.run(["sh", "-c", script], cwd=self.folder, env=environment, check=True)
                done.append(sorted(int(path.stem) for path in (self.folder / "out").glob("*.out")))
                for path in (self.folder / "out").iterdir():
                    path.unlink()
            self.assertEqual([number for part in done for number in part], list(range(1, 12)), words)
            self.assertEqual(max(map(len, done)), len(done[0]), words)
        many = self.file("many.tsv", "".join(f"{at}\tgen\n" for at in range(2001)))
        self.assertIn("#SBATCH --array=1-667\n", self.many("slurm", many, "out").stdout)

    def test_some_jobs_are_run_one_after_another(self):
        jobs = self.file("jobs.tsv", "a\tgen\t1\nb\tfail\t4\nc\tgen\t3\nd\tgen\t4\n")
        done = self.many("one", jobs, "out", 2, 3)
        self.assertEqual((done.returncode, done.stdout), (1, ""), done.stderr)
        self.assertEqual(sorted(path.name for path in (self.folder / "out").iterdir()), ["b.failed", "c.job", "c.out"])
        # Those that are there are not run again; a last one behind all others is the last.
        self.assertEqual(self.many("one", jobs, "out", 3, 99).returncode, 0)
        self.assertEqual((self.folder / "out/d.out").read_text(), "gen\n4\n")
        self.assertEqual(self.runs(), 3)
        # Alone or among others, a job has the same words beside it.
        kept = (self.folder / "out/c.job").read_text()
        self.many("one", jobs, "alone", 3)
        self.assertEqual((self.folder / "alone/c.job").read_text(), kept)

    def test_words_and_jobs_out_of_form_are_refused(self):
        jobs = self.file("jobs.tsv", "a\tgen\n")
        for words in [
            [],
            ["all", jobs, "out"],
            ["run", jobs],
            ["one", jobs, "out", 0],
            ["one", jobs, "out", 2],
            ["one", jobs, "out", "x"],
            ["run", self.folder / "none", "out"],
            ["run", jobs, ""],
            ["run", jobs, "out", "1", "2"],
            ["slurm", jobs, "out", "1"],
            ["run", jobs, jobs],
            ["slurm", jobs, "out", "--each"],
            ["slurm", jobs, "out", "--each", 0],
            ["slurm", jobs, "out", "--tasks", "x"],
            ["slurm", jobs, "out", "--most", 1],
            ["one", jobs, "out", 1, 0],
            ["one", jobs, "out", 1, "x"],
            ["one", jobs, "out", 1, 1, 1],
        ]:
            done = self.many(*words)
            self.assertEqual((done.returncode, done.stdout), (2, ""), words)
            self.assertIn("--help says more", done.stderr)
        for text in ["", "\n\n", "a\n", "a b\tgen\n", "a\tgen\na\tgen\n", "../a\tgen\n"]:
            self.assertEqual(self.many("one", self.file("bad.tsv", text), "out", 1).returncode, 2, text)
        self.assertIn("JOBS", self.many("--help").stdout)

    def test_a_folder_in_place_of_a_file_is_refused(self):
        done = self.many("run", self.folder, "out")
        self.assertEqual((done.returncode, done.stdout), (2, ""))
        self.assertIn("is no regular file of jobs", done.stderr)
        (self.folder / "out" / "a.out").mkdir(parents=True)
        done = self.many("run", self.file("jobs.tsv", "a\tgen\n"), "out", 1)
        self.assertEqual((done.returncode, done.stdout), (1, "0 done, 1 failed\n"))
        self.assertIn("a.out is a folder", done.stderr)

    def test_a_bad_number_of_slots_is_refused_with_its_reason(self):
        jobs = self.file("jobs.tsv", "a\tgen\n")
        for slots in ("", "0", "x", "-1", "1001", "1.5", "9" * 30):
            done = self.many("run", jobs, "out", slots)
            self.assertEqual((done.returncode, done.stdout), (2, ""), slots)
            self.assertIn(f"{slots} is not how many jobs may run at a time", done.stderr)

    def test_lines_are_read_as_they_come(self):
        want = {"a.out": "gen\n1\n", "b.out": "gen\n2\n"}
        for text in (
            "a\tgen\t1\nb\tgen\t2",
            "a\tgen\t1\r\nb\tgen\t2\r\n",
            "\ufeffa\tgen\t1\r\n\r\nb\tgen\t2\n\n",
            "a\tgen\t1\rb\tgen\t2\r",
        ):
            out = self.folder / f"out{len(list(self.folder.iterdir()))}"
            done = self.many("run", self.file("jobs.tsv", text), out, 2)
            self.assertEqual((done.returncode, done.stdout), (0, "2 done, 0 failed\n"), text)
            self.assertEqual({path.name: path.read_text() for path in out.glob("*.out")}, want)

    def test_a_changed_job_is_run_again(self):
        self.file("in.csv", "1")
        first = "a\tgen\t--banks\tin.csv\nb\tgen\t--debts=in.csv\nc\tgen\n"
        for text, runs in [(first, 3), (first, 3), (first.replace("c\tgen", "c\tgen\t1"), 4), (first, 5)]:
            self.assertEqual(self.many("run", self.file("jobs.tsv", text), "out").stdout, "3 done, 0 failed\n")
            self.assertEqual(self.runs(), runs, text)
        self.assertEqual((self.folder / "out/c.out").read_text(), "gen\n")
        # A file that is read changes, then the program.
        self.file("in.csv", "2")
        self.many("run", self.file("jobs.tsv", first), "out")
        self.assertEqual(self.runs(), 7)
        self.many("run", self.file("jobs.tsv", first), "out", program=PROGRAM + "# newer\n")
        self.assertEqual(self.runs(), 10)
        # What fails now leaves no older result.
        done = self.many("run", self.file("jobs.tsv", first.replace("c\tgen", "c\tfail\t4")), "out")
        self.assertEqual((done.returncode, done.stdout), (1, "2 done, 1 failed\n"))
        self.assertEqual(sorted(path.name for path in (self.folder / "out").glob("c.*")), ["c.failed"])

    def test_no_older_result_is_counted_where_a_job_is_killed(self):
        jobs = "a\tgen\t{0}\nb\tkill\t{0}\nc\tgen\t{0}\nd\tgen\t{0}\n"
        self.assertEqual(self.many("run", self.file("jobs.tsv", jobs.format(1)), "out", 1).stdout, "4 done, 0 failed\n")
        # The program kills the shell that runs it, and then the one above that, too.
        parents = "parent=$(cut -d ' ' -f 4 /proc/$PPID/stat)\n"
        for number, kill, counts, later in [
            (2, "kill -9 $PPID", "3 done, 1 failed", "gen\n2\n"),
            (3, "kill -9 $parent $PPID", "1 done, 0 failed, 3 not finished", "gen\n2\n"),
        ]:
            program = PROGRAM + f'if [ "$1" = kill ]; then {parents}{kill}; fi\n'
            done = self.many("run", self.file("jobs.tsv", jobs.format(number)), "out", 1, program=program)
            self.assertEqual((done.returncode, done.stdout), (1, counts + "\n"), done.stderr)
            self.assertEqual((self.folder / "out/a.out").read_text(), f"gen\n{number}\n")
            self.assertFalse((self.folder / "out/b.out").exists())
            self.assertEqual((self.folder / "out/d.out").read_text(), later)
            if number == 2:
                self.assertIn("the run of job 2 was killed", done.stderr)
        done = self.many("run", self.file("jobs.tsv", jobs.format(4)), "out", 1)
        self.assertEqual((done.returncode, done.stdout), (0, "4 done, 0 failed\n"), done.stderr)

    def test_what_a_killed_run_left_is_removed_when_the_job_begins_again(self):
        jobs = self.file("jobs.tsv", "a\tkill\na.part\tgen\na.part.7\tgen\n")
        killing = PROGRAM + "echo half >&2\n[ $1 = gen ] || kill -9 $PPID\n"
        self.many("run", jobs, "out", 1, program=killing)
        whole = ["a.part.7.job", "a.part.7.out", "a.part.job", "a.part.out"]
        names = sorted(path.name for path in (self.folder / "out").iterdir())
        self.assertEqual((len(names), set(whole) - set(names)), (6, set()), names)
        self.many("run", jobs, "out", 1)
        names = sorted(path.name for path in (self.folder / "out").iterdir())
        self.assertEqual(names, sorted([*whole, "a.job", "a.out"]))

    def test_a_number_of_a_process_that_is_no_run_keeps_nothing(self):
        (self.folder / "out").mkdir()
        ended, other = subprocess.Popen(["true"]), subprocess.Popen(["sleep", "60"])
        self.addCleanup(other.wait)
        self.addCleanup(other.kill)
        # It has ended, and nobody has asked how.
        os.waitid(os.P_PID, ended.pid, os.WEXITED | os.WNOWAIT)
        for process in (ended.pid, other.pid):
            self.file(f"out/a.part+{os.uname().nodename}.{process}", "left")
        self.many("run", self.file("jobs.tsv", "a\tgen\n"), "out", 1)
        ended.wait()
        self.assertEqual(sorted(path.name for path in (self.folder / "out").iterdir()), ["a.job", "a.out"])

    def test_a_job_that_runs_twice_at_once_keeps_the_files_of_both(self):
        jobs = self.file("jobs.tsv", "a\tgen\n")
        inner = f"{ROOT}/bin/clearing-many one {jobs} out 1"
        # While the job runs, it is run once more.
        program = PROGRAM + f'if mkdir "$COUNTED.once" 2>/dev/null; then {inner} || echo failed; fi\n'
        done = self.many("run", jobs, "out", 1, program=program)
        self.assertEqual((done.returncode, done.stdout), (0, "1 done, 0 failed\n"), done.stderr)
        self.assertEqual(sorted(path.name for path in (self.folder / "out").iterdir()), ["a.job", "a.out"])
        self.assertEqual((self.folder / "out/a.out").read_text(), "gen\n")
        self.assertEqual(self.runs(), 2)
