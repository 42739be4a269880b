"""What the tests of folders of evidence share: how one is made and checked, with a program and without one, and how
checksums are made anew."""
import hashlib
import os
import pathlib
import shutil
import subprocess
from typing import Any, List, Tuple

from common import HUB, PROGRAM, ROOT, Case, Word, files_of

SCRIPT = str(ROOT / "bin/clearing-evidence")
# What of the tools checks evidence by itself.
PARTS = ("__init__.py", "files.py", "finding.py", "running.py", "runner.py", "saying.py", "way.py", "evidence")

SCENARIOS = """[[scenario]]
name = "half"
cut = 500
[[scenario]]
name = " South loses; a third is cut "
cut = 333
[[scenario.loss]]
bank = "South"
amount = 41
[[scenario.loss]]
bank = "Hub"
amount = 1000000000000
[[scenario]]
name = "nothing"
"""

# Names that a file may have, and that other texts might take for something else.
HOSTILE = ["total", "cash", "scenario", "bank", "a b", "it's", "back\\slash", "$HOME", "-x", "é é", "rounds", "#"]


def evidence(*words: Word, program: str = PROGRAM, **more: Any) -> Any:
    """A run of the tool with a program, and with what subprocess.run takes besides."""
    environment = {**os.environ, "CLEARING": program, "PYTHONDONTWRITEBYTECODE": "1"}
    return subprocess.run(
        [SCRIPT, *map(str, words)], env=environment, stdin=subprocess.DEVNULL, capture_output=True, **more
    )


def content_of(path: pathlib.Path) -> bytes:
    """What a file has. What is far too long is not read, here neither."""
    return path.read_bytes() if path.stat().st_size < 1 << 30 else b""


class EvidenceCase(Case):
    """A case that makes folders of evidence and checks them."""

    def hub(self, scenarios: str = SCENARIOS) -> pathlib.Path:
        """Evidence of the hub with scenarios and a rescue."""
        folder = self.folder / "evidence"
        words = [*files_of(HUB), "--scenarios", self.file("s.toml", scenarios), "--bank", "South"]
        done = evidence("make", folder, *words)
        self.assertEqual((done.returncode, done.stderr), (0, b""))
        return folder

    def hostile_files(self) -> Tuple[List[Word], pathlib.Path]:
        """A ring of banks of hostile names, short of cash: the words that name its two files, and its scenarios."""
        banks = "name,cash,rule\n" + "".join(f"{name},{7 * place},webster\n" for place, name in enumerate(HOSTILE))
        debts = "debtor,creditor,class,claim\n" + "".join(
            f"{name},{HOSTILE[(place + 1) % len(HOSTILE)]},1,{50 - place}\n" for place, name in enumerate(HOSTILE)
        )
        scenarios = '[[scenario]]\nname = "total"\ncut = 100\n' + "".join(
            f"[[scenario.loss]]\nbank = '''{name}'''\namount = {place}\n" for place, name in enumerate(HOSTILE)
        )
        files: List[Word] = ["--banks", self.file("banks.csv", banks), "--debts", self.file("debts.csv", debts)]
        return files, self.file("s.toml", scenarios)

    def sums_anew(self, folder: pathlib.Path) -> None:
        """Has the checksums of all that is in a folder."""
        names = sorted(
            str(path.relative_to(folder)) for path in folder.rglob("*") if path.is_file() and path.name != "SHA256SUMS"
        )
        sums = [f"{hashlib.sha256(content_of(folder / name)).hexdigest()}  {name}\n" for name in names]
        (folder / "SHA256SUMS").write_bytes(os.fsencode("".join(sums)))

    def without_program(self, *words: Word, **more: Any) -> Any:
        """A run of a copy of the tool alone, where no program is built."""
        package = pathlib.Path("python/src/clearing_tools")
        for name in (pathlib.Path("bin/clearing-evidence"), *(package / part for part in PARTS)):
            if (self.folder / name).exists():
                continue
            (self.folder / name).parent.mkdir(parents=True, exist_ok=True)
            if (ROOT / name).is_dir():
                shutil.copytree(ROOT / name, self.folder / name)
            else:
                shutil.copy(ROOT / name, self.folder / name)
        environment = {key: value for key, value in os.environ.items() if key != "CLEARING"}
        environment["PYTHONDONTWRITEBYTECODE"] = "1"
        run = [str(self.folder / "bin/clearing-evidence"), *map(str, words)]
        return subprocess.run(run, env=environment, stdin=subprocess.DEVNULL, capture_output=True, **more)
