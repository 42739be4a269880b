"""The wheel that has the program: installed without a network and without a toolchain it gives the program, all
commands and both packages."""
import hashlib
import os
import pathlib
import shlex
import subprocess
import sys
import unittest
import zipfile
from typing import Any, Tuple

from common import CHAIN, PROGRAM, ROOT, Case, Word, files_of
from offline import OFFLINE, has_venv

sys.path.insert(0, str(ROOT / "python"))
import build

FILES = files_of(CHAIN)


def executable() -> pathlib.Path:
    """The file that is the tested program itself, where that is known."""
    built = ROOT / "crates/clear_main/out/clear_main"
    named = pathlib.Path(os.path.realpath(PROGRAM))
    return built if named == ROOT / "clearing" else named


class Wheel(Case):
    def wheel(self, program: Word) -> pathlib.Path:
        done = subprocess.run(
            [sys.executable, "-IB", str(ROOT / "python/build.py"), str(self.folder), str(program)],
            capture_output=True,
            encoding="utf-8",
        )
        self.assertEqual((done.returncode, done.stderr), (0, ""))
        return self.folder / done.stdout.strip()

    def test_its_name_says_what_the_program_wants(self):
        for named, tag in (
            (b"", "manylinux_2_17"),
            (b"GLIBC_2.2.5\0GLIBC_2.34\0GLIBC_2.9", "manylinux_2_34"),
            (b"GLIBC_2.100", "manylinux_2_100"),
        ):
            self.assertEqual(build.tag_of(b"\x7fELF" + named), f"py3-none-{tag}_x86_64")
        with self.assertRaises(ValueError):
            build.tag_of(b"#!/bin/sh\n")
        name = self.wheel(self.file("program", b"\x7fELFGLIBC_2.34"))
        self.assertEqual(name.name, f"{build.full_name()}-py3-none-manylinux_2_34_x86_64.whl")
        with zipfile.ZipFile(name) as archive:
            entry = archive.getinfo(build.PLACE)
            self.assertEqual((archive.read(entry), oct(entry.external_attr >> 16)), (b"\x7fELFGLIBC_2.34", "0o100755"))
            told = archive.read(f"{build.full_name()}.dist-info/entry_points.txt").decode()
            self.assertIn("\nclearing-many = clearing_tools.many.command:main\n", told)
            # The command is the program itself.
            self.assertNotIn("\nclearing = ", told)
            entry = archive.getinfo(build.command_place())
            self.assertEqual((archive.read(entry), oct(entry.external_attr >> 16)), (b"\x7fELFGLIBC_2.34", "0o100755"))
            metadata = archive.read(f"{build.full_name()}.dist-info/METADATA").decode()
            for line in ("Provides-Extra: desk", "Requires-Dist: bottle; extra == 'desk'", "Provides-Extra: all"):
                self.assertIn(line + "\n", metadata)
            self.assertIn("Root-Is-Purelib: false\n", archive.read(f"{build.full_name()}.dist-info/WHEEL").decode())
        # The plain one has no program, and the same program makes the same bytes.
        with zipfile.ZipFile(self.folder / build.build_wheel(self.folder)) as archive:
            self.assertEqual({build.PLACE, build.command_place()} & set(archive.namelist()), set())
            self.assertEqual(archive.read(f"{build.full_name()}.dist-info/entry_points.txt").decode(), told)
        before = name.read_bytes()
        self.assertEqual(self.wheel(self.folder / "program").read_bytes(), before)

    def installed(self) -> Tuple[pathlib.Path, Any]:
        """A new environment with the wheel of the tested program, and what runs a command in a small environment."""
        program = executable()
        if program.read_bytes()[:4] != b"\x7fELF":
            self.skipTest("the tested program is a script")
        wheel, place = self.wheel(program), self.folder / "venv"
        for words in ([sys.executable, "-m", "venv", str(place)], [str(place / "bin/pip"), "install", str(wheel)]):
            done = subprocess.run(words, env=OFFLINE, capture_output=True, encoding="utf-8")
            self.assertEqual(done.returncode, 0, done.stdout + done.stderr)

        def run(*words: Word, **more: Any) -> "subprocess.CompletedProcess[bytes]":
            environment = {"PATH": "/usr/bin:/bin", "HOME": str(self.folder), **more}
            given = {"cwd": self.folder, "env": environment, "stdin": subprocess.DEVNULL, "capture_output": True}
            return subprocess.run([str(word) for word in words], timeout=120, **given)

        return place, run

    @unittest.skipUnless(has_venv(), "without venv (Debian's package python3-venv)")
    def test_installed_it_gives_the_program_and_all_commands(self):
        place, run = self.installed()
        for words in (["clear", *FILES, "--workers", 1], ["defaults", *FILES, "--workers", 1]):
            done = run(place / "bin/clearing", *words)
            self.assertEqual((done.returncode, done.stdout.decode(), done.stderr), (0, self.printed(*words), b""))
        done = run(place / "bin/clearing", "--help")
        self.assertEqual((done.returncode, done.stdout), (2, b""))
        # The package and the tools find it there, before any other but what CLEARING names.
        done = run(
            place / "bin/python3",
            "-I",
            "-c",
            (
                "import clearing_client as cc; from clearing_tools import runner; print(cc.find_program());"
                " print(runner.program())"
            ),
        )
        (packed,) = place.glob("lib/python3*/site-packages/clearing_client/bin/clearing")
        self.assertEqual(done.stdout.decode(), f"{packed}\n" * 2, done.stderr)
        done = run(place / "bin/clearing-breaking", *FILES)
        self.assertEqual((done.returncode, done.stdout.decode()), (0, self.printed("breaking", *FILES)), done.stderr)
        # Each command tells its words.
        commands = sorted(path.name for path in (place / "bin").glob("clearing-*"))
        self.assertEqual(len(commands), len(list((ROOT / "bin").iterdir())))
        for name in commands:
            done = run(place / "bin" / name, "--help")
            self.assertEqual((done.returncode, done.stderr), (0, b""), name)
            self.assertIn(b"In:" if name != "clearing-why" else b"usage:", done.stdout, name)
        # Many jobs of it, and the batch script for a cluster, name the program itself.
        line = "\t".join(map(str, ["clear", *FILES, "--workers", 1]))
        self.file("jobs.tsv", f"a\t{line}\nb\t{line}\n")
        done = run(place / "bin/clearing-many", "run", "jobs.tsv", "results")
        self.assertEqual((done.returncode, done.stdout, done.stderr), (0, b"2 done, 0 failed\n", b""))
        self.assertEqual((self.folder / "results/b.out").read_text(), self.printed("clear", *FILES, "--workers", 1))
        done = run(place / "bin/clearing-many", "slurm", "jobs.tsv", "results")
        self.assertIn(
            f"CLEARING={shlex.quote(str(packed))} exec {shlex.quote(str(place / 'bin/clearing-many'))} one ".encode(),
            done.stdout,
        )

    @unittest.skipUnless(has_venv(), "without venv (Debian's package python3-venv)")
    def test_its_command_is_the_program_by_whatever_name_it_is_found(self):
        place, run = self.installed()
        clears = ["clear", *FILES, "--workers", 1]
        digest = hashlib.sha256(executable().read_bytes()).hexdigest()
        path = f"{place}/bin:/usr/bin:/bin"
        line = "\t".join(map(str, clears))
        self.file("jobs.tsv", f"a\t{line}\n")
        for number, named in enumerate(("clearing", "", f"{place}/bin/clearing")):
            more = {"PATH": path, "CLEARING": named}
            done = run(place / "bin/clearing", *clears, **more)
            answer = (done.returncode, done.stdout.decode(), done.stderr)
            self.assertEqual(answer, (0, self.printed(*clears), b""), named)
            done = run(place / "bin/clearing-breaking", *FILES, **more)
            breaking = self.printed("breaking", *FILES)
            self.assertEqual((done.returncode, done.stdout.decode()), (0, breaking), done.stderr)
            # The checksum of the program is that of what was built.
            code = "from clearing_client import find_program; from clearing_tools.evidence.versions import program_sum"
            done = run(
                place / "bin/python3", "-I", "-c", f"{code}; print(find_program()); print(program_sum())", **more
            )
            found, told = done.stdout.decode().splitlines()
            self.assertEqual((pathlib.Path(found).read_bytes()[:4], told), (b"\x7fELF", digest), (named, done.stderr))
            done = run(place / "bin/clearing-many", "run", "jobs.tsv", f"results-{number}", **more)
            self.assertEqual((done.returncode, done.stdout, done.stderr), (0, b"1 done, 0 failed\n", b""), named)
            self.assertIn(f"program {digest}\n", (self.folder / f"results-{number}/a.job").read_text(), named)
        # What names no program is said, with both ways on.
        for named in ("no-program-of-this-name", "/none/clearing"):
            done = run(place / "bin/clearing-breaking", *FILES, CLEARING=named)
            self.assertNotEqual(done.returncode, 0, named)
            self.assertIn(named.encode(), done.stderr)

    @unittest.skipUnless(has_venv(), "without venv (Debian's package python3-venv)")
    def test_installed_it_checks_evidence_by_its_program(self):
        place, run = self.installed()
        done = run(place / "bin/clearing-evidence", "make", "evidence", *FILES)
        self.assertEqual((done.returncode, done.stderr), (0, b""), done.stdout)
        done = run(place / "bin/clearing-evidence", "check", "evidence")
        self.assertEqual((done.returncode, done.stderr), (0, b""), done.stdout)
        told = done.stdout.decode()
        self.assertRegex(told, "(?m)^as it is, replayed by the program: lawful,2; payments same$")
        self.assertRegex(told, "(?m)^commands run again: ([0-9]+) of \\1 the same$")
        self.assertIn("; the program here has the checksum that it names\n", told)
        self.assertNotIn("none is built", told)

    @unittest.skipUnless(has_venv(), "without venv (Debian's package python3-venv)")
    def test_tests_run_against_a_wheel_and_find_what_is_wrong_in_it(self):
        program = executable()
        if program.read_bytes()[:4] != b"\x7fELF":
            self.skipTest("the tested program is a script")
        self.file("wrong", None).mkdir()
        altered = {**build.sources(), build.PLACE: program.read_bytes()}
        altered["clearing_tools/imports/generated.py"] = b"raise SystemExit(9)\n"
        wrong = (
            self.folder
            / "wrong"
            / build.write_wheel(self.folder / "wrong", altered, build.tag_of(altered[build.PLACE]))
        )
        for wheel, status, line in (
            (self.wheel(program), 0, "[1-9][0-9]* passed, 0 failed"),
            (wrong, 1, "0 passed, [1-9][0-9]* failed"),
        ):
            run = [str(ROOT / "tools/dev/test.sh"), "--wheel", str(wheel), "test_gen_files"]
            environment = {**OFFLINE, "PYTHON": sys.executable}
            done = subprocess.run(run, env=environment, stdin=subprocess.DEVNULL, capture_output=True, encoding="utf-8")
            self.assertEqual(done.returncode, status, done.stdout + done.stderr)
            self.assertRegex(done.stdout.splitlines()[-1], line)

    @unittest.skipIf(subprocess.run(["unshare", "--mount", "true"], capture_output=True).returncode, "mounts want root")
    def test_a_clean_root_has_what_tools_ask_the_system_for(self):
        """In a userland, here this machine's own without its other file systems, there are processes and open files."""
        place = self.folder / "userland"
        place.mkdir()
        script = "head -n 1 /proc/self/status; cat /dev/stdin; echo a | cat /dev/fd/0"
        code = """if True:
            import pathlib, sys
            sys.path.insert(0, sys.argv[1])
            import install
            root = pathlib.Path(sys.argv[2])
            assert not list((root / "proc").iterdir())
            done = install.Userland(root, "python3", root / "tmp").run("sh", "-c", sys.argv[3])
            print(done.stdout + done.stderr, end="")
        """
        mounted = 'mount --bind / "$2" && exec "$0" -B -c "$3" "$1" "$2" "$4"'
        run = ["unshare", "--mount", "sh", "-c", mounted, sys.executable, ROOT / "bench", place, code, script]
        run = [str(word) for word in run]
        done = subprocess.run(run, cwd="/", stdin=subprocess.DEVNULL, capture_output=True, encoding="utf-8")
        self.assertEqual((done.returncode, done.stdout, done.stderr), (0, "Name:\thead\na\n", ""))

    def test_each_module_that_is_left_out_is_there_and_has_a_reason(self):
        text = (ROOT / "tests/wheel.txt").read_text(encoding="utf-8")
        lines = [line.split(None, 1) for line in text.splitlines() if not line.startswith("#")]
        names = [line[0] for line in lines]
        self.assertEqual([name for name in names if not (ROOT / f"tests/{name}.py").is_file()], [])
        self.assertEqual({len(line) for line in lines}, {2})
        self.assertEqual(names, sorted(set(names)))
        self.assertNotIn("test_lint", names)


if __name__ == "__main__":
    unittest.main()
