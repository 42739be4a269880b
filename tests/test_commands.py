"""The files of bin/ are those of the one list of commands, and what stood in tools/ before still runs them and is
named nowhere else."""
import os
import re
import subprocess
import sys
import unittest
from typing import Any, List, Tuple

from common import HUB, ROOT, Case, files_of, loaded, run_of

sys.path.insert(0, str(ROOT / "python"))
import build

commands = loaded(ROOT / "tools/dev/commands.py")
FILES = files_of(HUB)
# What speaks of the older places since that is its work.
OF_BEFORE = {
    "CHANGELOG.md",
    "tools/_moved.py",
    "tools/_moved.sh",
    "tools/dev/commands.py",
    "tests/test_commands.py",
    "python/src/clearing_tools/evidence/layout.py",
}


def older_places(text: str) -> List[str]:
    """The places of before that a text names."""
    older = "|".join(map(re.escape, commands.older_names()))
    return re.findall(rf"\btools/(?:{older})\b|\"tools\" / \"(?:{older})\"", text)


class Commands(Case):
    def test_the_files_of_bin_are_those_of_the_list(self):
        self.assertEqual(commands.wrong_files(), ([], []))
        # It is the list that a wheel is made of.
        listed = {name: ":".join(called) for name, called in commands.commands().items()}
        self.assertEqual("".join(f"{name} = {called}\n" for name, called in listed.items()), build.commands())
        self.assertEqual(sorted(path.name for path in (ROOT / "bin").iterdir()), sorted(listed))
        self.assertEqual({path.stat().st_mode & 0o777 for path in (ROOT / "bin").iterdir()}, {0o755})

    def test_no_file_is_a_link(self):
        """`rt ci` stops at the first link anywhere in the repository, before it proves anything."""
        read = 0
        for at, folders, names in os.walk(ROOT):
            folders[:] = [name for name in folders if name not in (".git", "out", "__pycache__")]
            for name in [*folders, *names]:
                read += 1
                self.assertFalse(os.path.islink(os.path.join(at, name)), os.path.join(at, name))
        self.assertGreater(read, 1_000)

    def test_what_stood_in_tools_runs_the_same_and_speaks_of_itself_as_before(self):
        for older in commands.older_names():
            now = commands.file_today(older)
            word = "--help" if older == "test.sh" else "--none"
            # The folder of evidence is checked by the script alone, which had this name.
            name = "evidence.sh" if older == "evidence.py" else older
            want = self.said(run_of(now.name) if now.parent.name == "bin" else [now], word, now.name, name)
            self.assertEqual(self.said([ROOT / "tools" / older], word), want, older)
            self.assertEqual(
                self.said([sys.executable if older.endswith(".py") else "sh", ROOT / "tools" / older], word),
                want,
                older,
            )
        done = subprocess.run([ROOT / "tools/lint.py", *map(str, FILES)], capture_output=True, encoding="utf-8")
        self.assertEqual((done.returncode, done.stdout), (0, "no fault\n"), done.stderr)
        done = subprocess.run(
            [ROOT / "tools/evidence.sh", "check", self.folder / "none"], capture_output=True, encoding="utf-8"
        )
        self.assertEqual((done.returncode, done.stderr), (3, f"evidence.sh: {self.folder}/none is no folder\n"))

    def said(self, run: List[str], word: str, name: str = "", older: str = "") -> Tuple[Any, ...]:
        """The status of a command, and what it says by an older name, whatever its lines are."""
        done = subprocess.run([*map(str, run), word], stdin=subprocess.DEVNULL, capture_output=True, encoding="utf-8")
        return done.returncode, *(
            " ".join(text.replace(name, older).split() if name else text.split()) for text in (done.stdout, done.stderr)
        )

    def test_nothing_names_the_places_of_before(self):
        listed = subprocess.run(["git", "-C", ROOT, "ls-files", "-z"], capture_output=True, encoding="utf-8")
        if listed.returncode:
            self.skipTest("no checkout of git")
        found, read = {}, 0
        for name in set(listed.stdout.split("\0")) - OF_BEFORE - {""}:
            if (ROOT / name).is_file():
                read += 1
                places = older_places((ROOT / name).read_text(encoding="utf-8", errors="replace"))
                found.update({name: places} if places else {})
        self.assertEqual(found, {})
        self.assertGreater(read, 500)
        self.assertEqual(
            older_places('tools/lint.py ROOT / "tools" / "many.sh" tools/dev/test.sh tools/test.sh tools/lint.pyx'),
            ["tools/lint.py", '"tools" / "many.sh"', "tools/test.sh"],
        )

    def test_a_file_that_is_not_as_listed_is_named_and_made_anew(self):
        copy = self.folder / "copy"
        for part in ("bin/clearing-lint", "bin/clearing-evidence", "tools/dev/commands.py", "python/pyproject.toml"):
            (copy / part).parent.mkdir(parents=True, exist_ok=True)
            (copy / part).write_bytes((ROOT / part).read_bytes())
        (copy / "bin/clearing-lint").write_text("altered")
        (copy / "bin/clearing-more").write_text("")
        (copy / "tools/lint.py").symlink_to("_moved.py")
        (copy / "tools/more.py").symlink_to("_moved.py")
        (copy / "tools/clearing.bash").write_text("kept")
        run = [sys.executable, str(copy / "tools/dev/commands.py")]
        done = subprocess.run(run, capture_output=True, encoding="utf-8")
        self.assertEqual(
            (
                done.returncode,
                {"bin/clearing-lint", "bin/clearing-more", "tools/lint.py", "tools/more.py"} - set(done.stdout.split()),
            ),
            (1, set()),
        )
        self.assertEqual(subprocess.run([*run, "--write"], capture_output=True).returncode, 0)
        done = subprocess.run(run, capture_output=True, encoding="utf-8")
        self.assertEqual((done.returncode, done.stdout, done.stderr), (0, "", ""))
        self.assertEqual((copy / "bin/clearing-lint").read_bytes(), (ROOT / "bin/clearing-lint").read_bytes())
        self.assertEqual(
            sorted(path.name for path in (copy / "tools").iterdir() if path.is_file()),
            sorted([*commands.older_names(), "clearing.bash"]),
        )
        self.assertEqual((copy / "tools/clearing.bash").read_text(), "kept")


if __name__ == "__main__":
    unittest.main()
