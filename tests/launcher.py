"""What the tests of the script `./clearing` share: a small repository, and a toolchain that counts its calls and links
a program that prints the sources."""
import os
import pathlib
import shutil
import subprocess
import time
from typing import Any, List

from common import ROOT, Case

TOOLCHAIN = """#!/bin/sh
name=$(basename "$PWD")
echo "$name: $*" >>"$CALLS"
case "$*" in
"lib --jobs "*)
    for below in $(sed -n "s/^$name: *\\([^#]*\\).*/\\1/p" ../../crates.txt); do
        [ -f "../$below/out/rlib/stamp" ] || { echo "$name lacks $below"; exit 1; }
    done
    if [ -f out/rlib/stamp ]; then exit 0; fi
    mkdir -p out/rlib out/incremental
    : >out/incremental/begun
    echo "$name begins $(date +%s%N)" >>"$TIMES"
    sleep "${SLOW:-0}"
    if [ "$name" = "$LONG" ]; then sleep 60; fi
    if [ "$name" = "$WRONG" ]; then echo "$name is not proved"; exit 1; fi
    echo "$name ends $(date +%s%N)" >>"$TIMES"
    : >out/rlib/stamp
    echo "crate $name: modules loaded=0 checked=1" ;;
"run -- check "* | "run --jobs 1 -- check "*)
    [ -z "$FAULTY" ] || exit 1
    sleep "${LINKING:-0}"
    { echo '#!/bin/sh'; echo 'echo "$*" here'; sed 's/^/# /' src/main.rt; } >out/clear_main
    chmod +x out/clear_main ;;
esac
"""
NAMES = ("low", "left", "right", "top", "clear_main")


class LauncherCase(Case):
    """A test in a small repository of five crates, which the script `./clearing` builds by the toolchain below."""

    def setUp(self) -> None:
        """Makes the repository and the toolchain."""
        super().setUp()
        self.folder.chmod(0o755)
        self.calls = self.file("calls", "")
        self.times = self.file("times", "")
        (self.folder / "bin").mkdir()
        self.rt = self.folder / "bin/rt"
        self.rt.write_text(TOOLCHAIN)
        self.rt.chmod(0o755)
        self.root = self.folder / "a folder"
        for name in NAMES:
            for part in ("src", "specs", "proofs", "out"):
                (self.root / "crates" / name / part).mkdir(parents=True)
            (self.root / "crates" / name / "src/main.rt").write_text(f"fn {name}() {{}}\n")
        (self.root / "crates.txt").write_text(
            "low:\nleft: low # and no other\nright: low\ntop: left right\nclear_main: top\ntests: low top\n"
        )
        shutil.copy(ROOT / "clearing", self.root / "clearing")
        (self.root / "tools/dev").mkdir(parents=True)
        for name in ("build.py", "crates.py"):
            shutil.copy(ROOT / "tools/dev" / name, self.root / "tools/dev")

    def run_at(
        self, root: pathlib.Path, *words: str, path: bool = True, **more: Any
    ) -> "subprocess.CompletedProcess[str]":
        """A run of the script of a repository, by a path that has the toolchain or not, and what more stands in the
        environment."""
        environment = {
            "PATH": (f"{self.folder}/bin:" if path else "") + "/usr/bin:/bin",
            "CALLS": str(self.calls),
            "TIMES": str(self.times),
            "CLEARING_JOBS": "2",
            **more,
        }
        prefix: List[str] = []
        if os.geteuid() == 0 and more.get("READER"):
            prefix = ["setpriv", "--reuid=65534", "--regid=65534", "--clear-groups"]
        return subprocess.run(
            [*prefix, str(root / "clearing"), *words],
            env=environment,
            cwd=self.folder,
            stdin=subprocess.DEVNULL,
            capture_output=True,
            encoding="utf-8",
        )

    def builds(self) -> int:
        """How many builds there were."""
        return self.calls.read_text().count(": run ")

    def built(self) -> pathlib.Path:
        """The repository, once it was built."""
        done = self.run_at(self.root, "a", "b")
        self.assertEqual((done.returncode, done.stdout, self.builds()), (0, "a b here\n", 1), done.stderr)
        self.assertIn("clearing: building the program, since it is not there", done.stderr)
        self.wait_for_a_tick(self.root / "crates/clear_main/out/built.sums")
        return self.root

    def wait_for_a_tick(self, path: pathlib.Path) -> None:
        """Until what is written next is later than the file, also where the file system's clock goes in steps."""
        probe = self.folder / "tick"
        probe.touch()
        while probe.stat().st_ctime_ns <= path.stat().st_mtime_ns:
            time.sleep(0.001)
            probe.touch()

    def quiet(self, root: pathlib.Path, **more: Any) -> None:
        """The program of a repository runs, and nothing is built."""
        done = self.run_at(root, "x", **more)
        self.assertEqual((done.returncode, done.stdout, done.stderr), (0, "x here\n", ""))
