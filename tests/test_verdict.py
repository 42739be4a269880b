"""The last lines of a build, which say what its proofs rest on, are those that docs/PROVED.md explains."""
import fnmatch
import pathlib
import re
import subprocess
import unittest
from typing import List

from common import PROGRAM, ROOT, needs

# The program itself, where PROGRAM is the script that builds it.
BUILT = (
    ROOT / "crates/clear_main/out/clear_main"
    if pathlib.Path(PROGRAM) == ROOT / "clearing"
    else pathlib.Path(PROGRAM).resolve()
)
TEXT = (ROOT / "docs/PROVED.md").read_text(encoding="utf-8")
ROWS = re.search(r"## What is assumed\n(.*?)\n## ", TEXT, re.DOTALL)[1]
SHOWN = re.findall(
    r"`([^`]+)`", "".join(line.split(" | ")[0] for line in ROWS.splitlines(keepends=True) if line.startswith("| "))
)
# What stands there whatever it rests on: how many functions the crate has.
PLAIN = {"functions"}


def unexplained(lines: List[str]) -> List[str]:
    """The words of the last lines of a build that the table does not have; a value counts where the table has one."""
    told = dict(word.split("=", 1) for word in SHOWN if re.fullmatch(r"\w[\w-]*=\S+", word)) | {
        word: None for word in SHOWN if " " not in word
    }
    lost = []
    for line in lines:
        if line.startswith("axioms "):
            crate, count = re.fullmatch(
                r"axioms (\w+): (?:.*\((\d+ of the \d+ declared)\)|none reached of the \d+ declared)", line
            ).groups()
            lost += (
                [line]
                if not any(
                    word.startswith(f"axioms {crate}: {'' if count else 'none'}") and (count or "") in word
                    for word in SHOWN
                )
                else []
            )
        else:
            for word in line.split():
                name, value = word.split("=", 1)
                lost += [word] if name not in PLAIN and (name not in told or told[name] not in (None, value)) else []
    return lost


class Verdict(unittest.TestCase):
    def test_each_word_of_a_build_is_explained(self):
        log = BUILT.parent / "build.log"
        lines = (
            re.findall(r"^(?:axioms .*|logic=proved .*axioms=.*)$", log.read_text(encoding="utf-8"), re.MULTILINE)
            if log.is_file()
            else []
        )
        if not lines:
            self.skipTest("the program was not built by ./clearing, which keeps the log of a build")
        self.assertEqual(unexplained(lines), [])

    @needs("nm")
    def test_each_function_that_is_linked_is_explained(self):
        listed = subprocess.run(
            ["nm", "--dynamic", "--undefined-only", str(BUILT)], capture_output=True, encoding="utf-8"
        ).stdout
        linked = {line.split()[-1].split("@")[0] for line in listed.splitlines()}
        self.assertIn("malloc", linked)
        patterns = re.findall(r"`([\w*]+)`", ROWS[ROWS.index("| C functions |") :])
        self.assertEqual(
            [name for name in sorted(linked) if not any(fnmatch.fnmatchcase(name, pattern) for pattern in patterns)], []
        )
        self.assertEqual(
            [
                name
                for name in re.findall(
                    r"`(\w+)`", re.search(r"No code of the program calls (.*?)\.", ROWS, re.DOTALL)[1]
                )
                if name in linked
            ],
            [],
        )

    def test_a_word_or_a_count_that_is_not_explained_is_told(self):
        self.assertEqual(
            unexplained(
                ["axioms libc: libc::chdir, ... (29 of the 128 declared)", "axioms std: none reached of the 2 declared"]
            ),
            [],
        )
        self.assertEqual(
            unexplained(
                ["axioms libc: libc::chdir, ... (30 of the 128 declared)", "axioms net: net::a (1 of the 1 declared)"]
            ),
            ["axioms libc: libc::chdir, ... (30 of the 128 declared)", "axioms net: net::a (1 of the 1 declared)"],
        )
        self.assertEqual(
            unexplained(["logic=proved functions=7 axioms=40 target=x sum=1 cache=trusted incremental=trusted"]),
            ["axioms=40", "sum=1", "cache=trusted"],
        )


if __name__ == "__main__":
    unittest.main()
