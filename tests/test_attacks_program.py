"""No tool runs a program that was planted: one in the working folder, in a folder above it, or on an entry of the
path that is not absolute."""
import ast
import os
import pathlib
import shutil
import subprocess
import sys
import unittest
from typing import Any, Iterable, Iterator, List

from common import CHAIN, HUB, PROGRAM, ROOT, Case, file_of, files_of, run_of

PLANTED = "#!/bin/sh\ntouch {}\necho planted\n"
# Commands that scripts and tools call, each of which is planted.
COMMANDS = [
    "rt",
    "git",
    "sh",
    "python3",
    "awk",
    "basename",
    "cat",
    "chmod",
    "cp",
    "cut",
    "date",
    "dirname",
    "find",
    "flock",
    "getconf",
    "grep",
    "head",
    "id",
    "ln",
    "mkdir",
    "mktemp",
    "mv",
    "nproc",
    "realpath",
    "rm",
    "sed",
    "seq",
    "setsid",
    "sha256sum",
    "sleep",
    "sort",
    "stat",
    "tail",
    "touch",
    "tr",
    "uname",
    "wc",
    "xargs",
    "chromium",
    "chromium-browser",
    "google-chrome",
    "chrome",
]
# What finds or starts a program, by the modules of Python.
STARTERS = {
    "Popen",
    "run",
    "call",
    "check_call",
    "check_output",
    "getoutput",
    "getstatusoutput",
    "system",
    "popen",
    "execv",
    "execve",
    "execvp",
    "execvpe",
    "execl",
    "execle",
    "execlp",
    "spawnv",
    "spawnvp",
    "spawnl",
    "spawnlp",
    "posix_spawn",
    "posix_spawnp",
    "create_subprocess_exec",
    "create_subprocess_shell",
    "which",
    "get_exec_path",
    "find_executable",
    "startfile",
}
MODULES = {"subprocess", "os", "shutil", "asyncio", "pty", "sysconfig", "distutils"}
# The only places that do, and what each starts.
PLACES = {
    ("clearing_tools/finding.py", "on_path"): "finds",
    ("clearing_client/program.py", "on_path"): "finds",
    ("clearing_tools/running.py", "run_on"): "the program, or Python",
    ("clearing_tools/finding.py", "printed_by"): "what on_path finds",
    ("clearing_tools/finding.py", "built"): "the repository's script",
    ("clearing_tools/evidence/source.py", "run_tool"): "Python",
    ("clearing_client/program.py", "started"): "the program",
    ("clearing_tools/report/browser.py", "in_browser"): "the browser that on_path finds",
    ("clearing_tools/many/job.py", "status_of"): "the program",
    ("clearing_tools/many/command.py", "check_program"): "the repository's script",
    ("clearing_client/program.py", "find_program"): "a file that CLEARING names",
}
GUARD = """# Of the path the absolute entries alone count: no command is one that the working folder has.
set -f; IFS=: path=; for entry in $PATH; do case $entry in /*) path=$path:$entry ;; esac; done
PATH=${path#:} && export PATH; unset IFS; set +f
"""
SCRIPTS = [
    ROOT / "clearing",
    ROOT / "first-look",
    *sorted((ROOT / "tools").glob("*.sh")),
    *(file_of(f"dev/{name}.sh") for name in ("clean", "quick", "release", "test")),
    *(path for path in (ROOT / "bin").iterdir() if path.read_bytes().startswith(b"#!/bin/sh")),
]


def starters_in(path: pathlib.Path) -> Iterator[str]:
    """The functions of a file that find or start a program, by the names that they call of the modules that can."""
    tree = ast.parse(path.read_text(encoding="utf-8"))
    for function in ast.walk(tree):
        if isinstance(function, (ast.FunctionDef, ast.AsyncFunctionDef, ast.Module)):
            inner = [
                node
                for node in ast.walk(function)
                if isinstance(node, ast.Attribute)
                and node.attr in STARTERS
                and isinstance(node.value, ast.Name)
                and node.value.id in MODULES
            ]
            taken = [
                node
                for node in ast.walk(function)
                if isinstance(node, ast.ImportFrom)
                and node.module in MODULES
                and {name.name for name in node.names} & STARTERS
            ]
            if taken or inner and not isinstance(function, ast.Module):
                yield getattr(function, "name", "the file itself")


class Planted(Case):
    def setUp(self):
        super().setUp()
        self.mark = self.folder / "mark"
        self.honest, self.work = self.folder / "honest", self.folder / "work"
        for path in (self.honest, self.work / "crates/clear_main", self.work / "bin", self.work / "deep/er"):
            path.mkdir(parents=True)
        (self.honest / "clearing").symlink_to(os.path.realpath(PROGRAM))
        for path in (self.work / "clearing", self.work / "bin/clearing"):
            path.write_text(PLANTED.format(self.mark))
            path.chmod(0o755)

    def plant(self, names: Iterable[str]) -> None:
        """Plants more commands in the working folder, and in a folder of it."""
        for name in names:
            for path in (self.work / name, self.work / "bin" / name):
                path.write_text(f"#!/bin/sh\n/usr/bin/touch '{self.mark}'\necho planted\n")
                path.chmod(0o755)

    def run_in(self, folder: pathlib.Path, words: List[Any], **variables: str) -> "subprocess.CompletedProcess[str]":
        own = {key: value for key, value in os.environ.items() if key not in ("CLEARING", "PYTHONPATH")}
        return subprocess.run(
            [str(word) for word in words],
            cwd=folder,
            env={**own, "PYTHONDONTWRITEBYTECODE": "1", **variables},
            stdin=subprocess.DEVNULL,
            capture_output=True,
            encoding="utf-8",
        )

    def package(self, place: pathlib.Path) -> pathlib.Path:
        """The packages for Python alone, in another place."""
        for name in ("clearing_client", "clearing_tools"):
            shutil.copytree(ROOT / "python/src" / name, place / name, ignore=shutil.ignore_patterns("__pycache__"))
        return place

    def test_the_package_looks_in_no_folder_above_the_working_folder(self):
        place = self.package(self.folder / "site")
        find = [sys.executable, "-c", "import sys, clearing_client as cc; print(cc.find_program())"]
        for folder in (self.work, self.work / "deep", self.work / "deep/er"):
            done = self.run_in(folder, find, PYTHONPATH=str(place), PATH="/usr/bin:/bin")
            self.assertIn("NoProgramError", done.stderr, done.stdout)
            done = self.run_in(folder, find, PYTHONPATH=str(place), PATH=f"/usr/bin:{self.honest}:/bin")
            self.assertEqual(done.stdout, f"{self.honest}/clearing\n", done.stderr)

    def test_nor_in_the_folders_above_the_package(self):
        find = (
            "import clearing_client as cc, clearing_tools.runner as runner; print(cc.find_program());"
            " print(runner.program())"
        )
        # What stands three folders above, with the program of an installation or a repository beside it.
        for name in ("a/b", "lib/python3/site-packages", "python/other"):
            place = self.package(self.work / name)
            done = self.run_in(
                self.folder, [sys.executable, "-c", find], PYTHONPATH=str(place), PATH=f"/usr/bin:{self.honest}:/bin"
            )
            self.assertEqual(done.stdout, f"{self.honest}/clearing\n" * 2, (name, done.stderr))
        # An installation has it beside the packages.
        place = self.package(self.folder / "share/clearing/python/src")
        (self.folder / "share/clearing/clearing").symlink_to(self.honest / "clearing")
        done = self.run_in(self.work, [sys.executable, "-c", find], PYTHONPATH=str(place), PATH="/usr/bin:/bin")
        self.assertEqual(done.stdout, f"{self.folder}/share/clearing/clearing\n" * 2, done.stderr)

    def test_evidence_runs_nothing_above_the_package(self):
        """Neither the program of a repository that was planted there, nor what its settings of git name."""
        net = files_of(HUB)
        built = self.work / "crates/clear_main/out/clear_main"
        built.parent.mkdir()
        shutil.copy(self.work / "clearing", built)
        if shutil.which("git"):
            for words in (
                ["init", "--quiet"],
                ["add", "clearing"],
                ["-c", "user.name=a", "-c", "user.email=a@b", "commit", "--quiet", "-m", "a"],
                ["config", "core.fsmonitor", built],
            ):
                self.assertEqual(self.run_in(self.work, ["git", *words]).returncode, 0, words)
        place, folder = self.package(self.work / "a/b"), self.folder / "evidence"
        run = [sys.executable, "-c", "from clearing_tools.evidence.evidence import main; main()"]
        done = self.run_in(self.folder, [*run, "make", folder, *net], PYTHONPATH=str(place), CLEARING=PROGRAM)
        self.assertEqual((done.returncode, self.mark.exists()), (0, False), done.stderr)
        # What was built there, and then the script that builds.
        for _ in range(2):
            done = self.run_in(self.folder, [*run, "check", folder], PYTHONPATH=str(place))
            self.assertEqual((done.returncode, self.mark.exists()), (0, False), (done.stdout, done.stderr))
            self.assertIn("not checked: the same by the program: none is here, and CLEARING names none\n", done.stdout)
            shutil.rmtree(self.work / "crates", ignore_errors=True)

    def test_there_is_one_way_to_find_a_program(self):
        """In both packages nothing else finds or starts one; what finds one, and what lets signals wait, are the same
        in both."""
        packages = ROOT / "python/src"
        found = {
            (str(path.relative_to(packages)), name) for path in packages.rglob("*.py") for name in starters_in(path)
        }
        self.assertEqual(
            found - set(PLACES),
            set(),
            "finds or starts a program by a way of its own; take runner.on_path or printed_by",
        )
        self.assertEqual(set(PLACES) - found, set(), "is listed, and starts nothing")
        for told, module in (("on_path", "finding"), ("signals_wait", "running")):
            both = [
                next(
                    ast.unparse(node)
                    for node in ast.walk(ast.parse((packages / name).read_text()))
                    if getattr(node, "name", "") == told
                )
                for name in (f"clearing_tools/{module}.py", "clearing_client/program.py")
            ]
            self.assertEqual(*both, told)
        # What looks for it finds it.
        probe = self.file(
            "probe.py",
            "import subprocess\ndef f():\n    subprocess.run(['rt'])\ndef g():\n    from shutil import which\n",
        )
        self.assertEqual(set(starters_in(probe)), {"f", "g", "the file itself"})

    def test_no_tool_runs_any_command_of_the_working_folder(self):
        """Not rt, git or a shell either, of which a report, an evidence and the scripts ask."""
        net = files_of(HUB)
        jobs = self.file("jobs.tsv", "\t".join(["a", "check", *map(str, net)]) + "\n")
        self.plant(COMMANDS)
        script = self.folder / "script"
        script.mkdir()
        for name, words, statuses in [
            ("clearing-report", [*net, "--out", "OUT.html"], [0]),
            ("clearing-report", [*net, "--out", "OUT.pdf"], [0, 2]),
            ("clearing-evidence", ["make", "OUT-evidence", *net], [0]),
            ("clearing-many", ["run", jobs, "OUT-many", 1], [0]),
            ("install.sh", ["OUT-prefix"], [0]),
            ("../first-look", ["check"], [8]),
            ("dev/clean.sh", ["--dry-run"], [0, 1]),
            ("dev/quick.sh", [], [2]),
            ("dev/test.sh", ["--help"], [0]),
            ("dev/release.sh", [], [2]),
            ("clearing-evidence", ["check", "OUT-evidence"], [0]),
        ]:
            path = os.pathsep.join([".", "", "bin", os.path.dirname(sys.executable), "/usr/bin", "/bin"])
            place = [str(word).replace("OUT", str(self.folder / "made")) for word in words]
            done = self.run_in(
                self.work,
                [*run_of(name), *place],
                CLEARING=PROGRAM,
                PATH=path,
                XDG_CACHE_HOME=str(script),
            )
            self.assertFalse(self.mark.exists(), (name, "a planted command ran", done.stderr))
            self.assertIn(done.returncode, statuses, (name, done.stdout, done.stderr))

    def test_each_script_takes_the_absolute_entries_of_the_path_alone(self):
        """Before its first command."""
        self.assertGreater(len(SCRIPTS), 8)
        for path in SCRIPTS:
            lines = path.read_text(encoding="utf-8").split("\n")
            first = next(at for at, line in enumerate(lines) if line and not line.startswith("#"))
            self.assertEqual("\n".join(lines[first - 1 : first + 2]) + "\n", GUARD, path)
        for given, left in (
            (".:/usr/bin", "/usr/bin"),
            (":/bin::a:/usr/bin:", "/bin:/usr/bin"),
            ("", ""),
            ("a/b:./x", ""),
            ("/a b:*", "/a b"),
        ):
            done = subprocess.run(
                ["/bin/sh", "-c", GUARD + 'printf %s "$PATH"'],
                cwd="/",
                env={"PATH": given},
                capture_output=True,
                encoding="utf-8",
            )
            self.assertEqual(done.stdout, left, given)

    def test_of_the_path_the_absolute_entries_alone_are_looked_at(self):
        net = files_of(HUB)
        moments = self.file("moments.csv", "of,mean,deviation\nSouth,1,1\n")
        jobs = self.file("jobs.tsv", "\t".join(["a", "check", *map(str, net)]) + "\n")
        made = self.run_in(
            self.folder, [ROOT / "bin/clearing-evidence", "make", self.folder / "evidence", *net], CLEARING=PROGRAM
        )
        self.assertEqual(made.returncode, 0, made.stderr)
        client = "import sys, clearing_client as cc; print(cc.Network(*sys.argv[1:]).clear().total)"
        tools = [
            ("clearing-breaking", net),
            ("clearing-impact", net),
            ("clearing-rescues", net),
            ("clearing-draws", [*net, "--moments", moments, "--draws", 2]),
            ("clearing-report", [*net, "--out", self.folder / "OUT.html"]),
            ("clearing-evidence", ["make", self.folder / "OUT-evidence", *net]),
            ("clearing-evidence", ["check", self.folder / "evidence"]),
            ("clearing-many", ["run", jobs, self.folder / "OUT-many", 1]),
            ("clearing-many", ["one", jobs, self.folder / "OUT-many", 1]),
            ("-c", [client, CHAIN / "banks.csv", CHAIN / "debts.csv"]),
        ]
        for number, (name, words) in enumerate(tools):
            run = [sys.executable, "-c"] if name == "-c" else run_of(name)
            for entry in (".", "", "bin", "./bin"):
                place = [str(word).replace("OUT", f"{number}-{entry.replace('/', '-')}") for word in words]
                path = os.pathsep.join([entry, str(self.honest), os.path.dirname(sys.executable), "/usr/bin", "/bin"])
                done = self.run_in(
                    self.work, [*run, *place], CLEARING="clearing", PATH=path, PYTHONPATH=str(ROOT / "python/src")
                )
                self.assertFalse(self.mark.exists(), (name, entry, "the planted program ran"))
                self.assertEqual(done.returncode, 0, (name, entry, done.stderr))
            # And where the path has no other, there is none.
            path = os.pathsep.join([".", os.path.dirname(sys.executable), "/usr/bin", "/bin"])
            place = [str(word).replace("OUT", f"{number}-none") for word in words]
            done = self.run_in(
                self.work, [*run, *place], CLEARING="clearing", PATH=path, PYTHONPATH=str(ROOT / "python/src")
            )
            self.assertFalse(self.mark.exists(), (name, "the planted program ran"))
            self.assertNotEqual(done.returncode, 0, (name, done.stdout))
            self.assertTrue(pathlib.Path(self.work / "clearing").exists())

    def test_what_is_installed_is_of_an_absolute_entry_of_the_path(self):
        prefix, own = self.folder / "prefix", self.honest / "clearing"
        own.unlink()
        own.write_text("#!/bin/sh\necho own\n")
        own.chmod(0o755)
        install = [ROOT / "tools/install.sh", prefix]
        done = self.run_in(self.work, install, CLEARING="clearing", PATH=f".::bin:{self.honest}:/usr/bin:/bin")
        self.assertEqual((done.returncode, done.stderr), (0, ""))
        self.assertEqual((prefix / "bin/clearing").read_text(), own.read_text())
        shutil.rmtree(prefix)
        done = self.run_in(self.work, install, CLEARING="clearing", PATH=".::bin:/usr/bin:/bin")
        self.assertEqual((done.returncode, prefix.exists(), self.mark.exists()), (1, False, False), done.stderr)


if __name__ == "__main__":
    unittest.main()
