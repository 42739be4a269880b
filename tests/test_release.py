"""tools/dev/release.sh: what is in the archive and the package, what they do where they are installed, and what is no
release."""
import os
import pathlib
import re
import shutil
import subprocess
import sys
import tempfile
import unittest
from typing import Any, List

from common import PROGRAM, ROOT, Case, Word, files_of, needs
from offline import ALONE

sys.path.insert(0, str(ROOT / "python"))
import build

LACKS = [name for name in ("pandoc", "dpkg-deb", "git", "Rscript") if not shutil.which(name)]
if not LACKS and subprocess.run(["Rscript", "-e", "library(knitr)"], capture_output=True).returncode:
    LACKS.append("R's package knitr")


def ran(*words: Word, **more: Any) -> "subprocess.CompletedProcess[str]":
    return subprocess.run(
        [str(word) for word in words], stdin=subprocess.DEVNULL, capture_output=True, encoding="utf-8", **more
    )


class Version(unittest.TestCase):
    def test_it_is_the_same_everywhere(self):
        version = (ROOT / "VERSION").read_text(encoding="utf-8").strip()
        self.assertIn(f"\nversion: {version}\n", (ROOT / "CITATION.cff").read_text(encoding="utf-8"))
        first = re.search(r"^## (\S+?),? ", (ROOT / "CHANGELOG.md").read_text(encoding="utf-8"), re.MULTILINE)[1]
        self.assertEqual(first, version)

    def test_no_licence_is_assumed(self):
        """None has been chosen, which the README says, and no file says otherwise."""
        self.assertIn("No licence has been chosen", (ROOT / "README.md").read_text(encoding="utf-8"))
        self.assertNotIn("\nlicense", (ROOT / "CITATION.cff").read_text(encoding="utf-8"))
        self.assertEqual([path.name for path in ROOT.glob("*") if re.match(r"(?i)licen[cs]e|copying", path.name)], [])


@unittest.skipIf(LACKS, f"{', '.join(LACKS)} missing")
class Release(Case):
    """One checkout serves all; each test leaves it as it was."""

    @classmethod
    def setUpClass(cls):
        folder = tempfile.TemporaryDirectory()
        cls.addClassCleanup(folder.cleanup)
        cls.shared = pathlib.Path(folder.name)
        cls.checkout = cls.shared / "checkout"
        shutil.copytree(ROOT, cls.checkout, ignore=shutil.ignore_patterns(".git", "out", "__pycache__"), symlinks=True)
        (cls.checkout / "VERSION").write_text("7.8.9\n")
        cls.git("init", "-q")
        cls.git("add", "-A")
        cls.git("-c", "user.name=A", "-c", "user.email=a@b", "commit", "-qm", "one")
        out = cls.checkout / "crates/clear_main/out"
        out.mkdir(parents=True)
        # A program that was built: the tests' own, which is newer than its sources.
        built = ROOT / "crates/clear_main/out/clear_main"
        shutil.copy(built if pathlib.Path(PROGRAM) == ROOT / "clearing" else PROGRAM, out / "clear_main")
        os.utime(out / "clear_main")
        cls.log = cls.shared / "gate.log"
        cls.log.write_text("..\n12 passed, 0 failed\ntools\n7 passed, 0 failed\n")
        cls.one = cls.made(cls.shared / "one")

    @classmethod
    def git(cls, *words: str) -> None:
        subprocess.run(["git", "-C", str(cls.checkout), *words], check=True, capture_output=True)

    @classmethod
    def release(cls, *words: Word, **more: Any) -> "subprocess.CompletedProcess[str]":
        environment = {key: value for key, value in os.environ.items() if key != "CLEARING"}
        return ran(cls.checkout / "tools/dev/release.sh", *words, env={**environment, **more})

    @classmethod
    def made(cls, folder: pathlib.Path) -> List[pathlib.Path]:
        done = cls.release("--gate", cls.log, folder)
        full = build.full_name()
        wheel = f"{full}-{build.tag_of((cls.checkout / 'crates/clear_main/out/clear_main').read_bytes())}.whl"
        names = [
            "clearing-7.8.9-x86_64.tar.gz",
            "clearing_7.8.9_amd64.deb",
            wheel,
            f"{full}-py3-none-any.whl",
            f"{full}.tar.gz",
            "clearing_1.0.0.tar.gz",
            "clearing-7.8.9.RECORD",
            "INSTALL",
            "SHA256SUMS",
        ]
        wanted = (0, "", [f"{folder}/{name}" for name in names])
        if (done.returncode, done.stderr, done.stdout.split()) != wanted:
            raise AssertionError(done)
        return [folder / name for name in names]

    def clears(self, program: Word) -> None:
        files = files_of(ROOT / "examples/chain")
        done = ran(program, "clear", *files)
        self.assertEqual((done.returncode, done.stdout.split()[1:]), (0, ["A,B,1,10,7", "B,C,1,9,8"]))

    def test_the_archive_is_whole(self):
        archive, *_, sums = self.one
        self.assertEqual(ran("sha256sum", "--check", "SHA256SUMS", cwd=sums.parent).returncode, 0)
        prefix = self.folder / "prefix"
        prefix.mkdir()
        self.assertEqual(ran("tar", "-xzf", archive, "--strip-components=1", "-C", prefix).returncode, 0)
        self.clears(prefix / "bin/clearing")
        for name in (
            "man/man1/clearing.1",
            "bash-completion/completions/clearing",
            "zsh/vendor-completions/_clearing",
            "fish/vendor_completions.d/clearing.fish",
            "doc/clearing/guide.html",
            "doc/clearing/examples/chain/banks.csv",
        ):
            self.assertTrue((prefix / "share" / name).is_file(), name)
        record = (prefix / "share/doc/clearing/RECORD").read_text()
        self.assertEqual(self.one[-3].read_text(), record)
        install = (prefix / "share/doc/clearing/INSTALL").read_text()
        self.assertEqual(self.one[-2].read_text(), install)
        for words in ("pip install FILE", "apt install ./clearing_7.8.9_amd64.deb", "R CMD INSTALL FILE"):
            self.assertIn(words, install)
        head = ran("git", "-C", self.checkout, "rev-parse", "HEAD").stdout.strip()
        for line in (
            "clearing 7.8.9",
            f"commit {head}",
            "gate 12 passed, 0 failed; 7 passed, 0 failed",
            "It was built and proved from this commit.",
        ):
            self.assertIn(line + "\n", record)
        for folder, words in (("must-fail", "edits that the gate refused"), ("edits", "edits beside the gate")):
            number = len(list((ROOT / "crates").glob(f"*/{folder}/*.edit")))
            self.assertIn(f"{words} {number}\n", record)
        self.assertEqual(
            [path.name for path in prefix.rglob("*") if path.stem in ("release", "quick", "clearing-release")], []
        )

    def test_its_record_is_compared_with_a_build(self):
        """By a toolchain that says which it is: what is the same, and what differs."""
        (self.folder / "rt").write_text("#!/bin/sh\necho other logic 7\n")
        (self.folder / "rt").chmod(0o755)
        record = self.one[-3].read_text()
        told = re.search("(?m)^toolchain (.*)$", record)[1]
        done = ran(
            self.checkout / "tools/dev/check_record.sh",
            self.one[-3],
            env={**os.environ, "PATH": f"{self.folder}:/usr/bin:/bin"},
        )
        self.assertEqual((done.returncode, done.stdout.count("same: ")), (1, 2), (done.stdout, done.stderr))
        self.assertIn(f"differs: toolchain is {told} in the record, and here other logic 7\n", done.stdout)
        (self.folder / "rt").write_text(f"#!/bin/sh\necho '{told}'\n")
        done = ran(
            self.checkout / "tools/dev/check_record.sh",
            self.one[-3],
            env={**os.environ, "PATH": f"{self.folder}:/usr/bin:/bin"},
        )
        self.assertEqual((done.returncode, done.stdout.count("same: ")), (0, 3), (done.stdout, done.stderr))
        wrong = self.file("RECORD", record.replace("program ", "program 0"))
        self.assertEqual(
            ran(
                self.checkout / "tools/dev/check_record.sh",
                wrong,
                env={**os.environ, "PATH": f"{self.folder}:/usr/bin:/bin"},
            ).returncode,
            1,
        )

    def test_links_between_its_pages_lead_somewhere(self):
        archive = self.one[0]
        ran("tar", "-xzf", archive, "-C", self.folder)
        docs = self.folder / "clearing-7.8.9/share/doc/clearing"
        pages = {page.name: page.read_text(encoding="utf-8") for page in docs.glob("*.html")}
        self.assertIn("theory.html", pages)
        for name, page in pages.items():
            for target in re.findall(r'(?:href|src)="([^":]+)"', page):
                file, _, anchor = target.partition("#")
                self.assertTrue((docs / (file or name)).exists(), f"{name}: {target}")
                if anchor and (file or name) in pages:
                    self.assertIn(f'id="{anchor}"', pages[file or name], f"{name}: {target}")
        # And each picture that is there stands in one of them.
        pictures = [path.relative_to(docs).as_posix() for path in (docs / "pictures").rglob("*") if path.is_file()]
        self.assertIn("pictures/twelve-banks.svg", pictures)
        self.assertEqual([name for name in pictures if not any(f'"{name}"' in page for page in pages.values())], [])

    def test_the_same_checkout_makes_the_same_bytes(self):
        first = [path.read_bytes() for path in self.one]
        # Also by a user with another mask, whose checkout nobody else may read.
        modes = {
            path: path.stat().st_mode & 0o777
            for path in self.checkout.rglob("*")
            if path.is_file() and ".git" not in path.parts
        }
        self.addCleanup(os.umask, os.umask(0o000))
        try:
            for path, mode in modes.items():
                path.chmod(mode & 0o700)
            # That the sources were touched is told by whoever runs the program next, and once.
            environment = {key: value for key, value in os.environ.items() if key != "CLEARING"}
            self.assertIn("it is not built again", ran(self.checkout / "clearing", "check", env=environment).stderr)
            second = self.made(self.folder / "two")
        finally:
            for path, mode in modes.items():
                path.chmod(mode)
        self.assertEqual([path.read_bytes() for path in second], first)
        for path in [self.folder / "two", *second]:
            self.assertEqual(path.stat().st_mode & 0o022, 0, path)

    @unittest.skipUnless(shutil.which("dpkg"), "dpkg is missing")
    def test_the_package_is_installed_in_a_clean_root_and_removed(self):
        package = self.one[1]
        root = self.folder / "root"
        for name in ("info", "updates", "triggers"):
            (root / "var/lib/dpkg" / name).mkdir(parents=True)
        (root / "var/lib/dpkg/status").write_text("")
        # The root has no C library, on which the package depends.
        dpkg = [
            "dpkg",
            f"--root={root}",
            "--force-not-root",
            "--force-depends",
            "--force-bad-path",
            f"--log={self.folder}/log",
        ]
        done = ran(*dpkg, "--install", package)
        self.assertEqual(done.returncode, 0, done.stderr)
        self.clears(root / "usr/bin/clearing")
        self.assertTrue((root / "usr/share/man/man1/clearing.1.gz").is_file())
        self.assertEqual(ran("dpkg-deb", "--field", package, "Depends").stdout.split(" (")[0], "libc6")
        # What Python keeps of the tools, where it may write, goes with them.
        shared = root / "usr/share/clearing"
        self.assertEqual(
            ran(
                "python3",
                shared / "bin/clearing-from-list",
                "--help",
                env={**os.environ, "PYTHONDONTWRITEBYTECODE": ""},
            ).returncode,
            0,
        )
        self.assertTrue((shared / "python/src/clearing_tools/imports/__pycache__").is_dir())
        self.assertEqual(ran(*dpkg, "--force-script-chrootless", "--remove", "clearing").returncode, 0)
        self.assertEqual([path for path in (root / "usr").rglob("*") if not path.is_dir()], [])
        self.assertFalse((root / "usr/share/clearing").exists())

    @needs("lintian")
    def test_lintian_finds_nothing_in_the_package(self):
        """Neither errors nor hints: what it would say is put right, or has its reason beside it in the package."""
        done = ran("lintian", "--allow-root", "--display-info", "--pedantic", "--tag-display-limit", "0", self.one[1])
        self.assertEqual((done.returncode, done.stdout), (0, ""), done.stderr)

    def test_its_checksums_are_those_of_all_files_of_the_package(self):
        ran("dpkg-deb", "--raw-extract", self.one[1], self.folder / "tree")
        done = ran("md5sum", "--check", "--strict", "--quiet", "DEBIAN/md5sums", cwd=self.folder / "tree")
        self.assertEqual((done.returncode, done.stdout), (0, ""), done.stderr)
        sums = (self.folder / "tree/DEBIAN/md5sums").read_text().splitlines()
        files = [
            path.relative_to(self.folder / "tree").as_posix()
            for path in (self.folder / "tree/usr").rglob("*")
            if path.is_file() and not path.is_symlink()
        ]
        self.assertEqual(sorted(line.split("  ", 1)[1] for line in sums), sorted(files))

    def test_the_package_for_r_is_one_as_r_makes_them(self):
        """R's checks take it as it is, and what is installed has the vignette."""
        (archive,) = [path for path in self.one if re.fullmatch(r"clearing_[0-9.]+\.tar\.gz", path.name)]
        done = ran("R", "CMD", "INSTALL", f"--library={self.folder}", archive)
        self.assertEqual(done.returncode, 0, done.stdout + done.stderr)
        self.assertTrue((self.folder / "clearing/R/clearing.rdb").is_file())
        named = f"cat(vignette('twelve-banks', 'clearing', '{self.folder}')$PDF)"
        self.assertEqual(ran("Rscript", "-e", named).stdout, "twelve-banks.html")
        self.assertIn("8256671", (self.folder / "clearing/doc/twelve-banks.html").read_text(encoding="utf-8"))
        # What runs the program is checked in test_r_package.
        words = ["--no-manual", "--no-examples", "--no-tests", "--ignore-vignettes"]
        done = ran(
            "R", "CMD", "check", *words, archive, cwd=self.folder, env={**os.environ, **ALONE, "LC_ALL": "C.UTF-8"}
        )
        self.assertRegex(done.stdout, "(?m)^Status: OK$")

    def refused(self, message: str, *words: Word, status: int = 1, **more: Any) -> None:
        folder = self.folder / "none"
        done = self.release(*words, folder, **more)
        self.assertEqual((done.returncode, done.stdout, folder.exists()), (status, "", False), done.stderr)
        self.assertIn(message, done.stderr)

    def test_what_is_no_release_is_refused(self):
        self.refused("the gate's record is wanted")
        self.refused("the last line", "--gate", self.file("bad.log", "12 passed, 1 failed\n"))
        self.refused(
            "a part of the gate failed", "--gate", self.file("bad.log", "12 passed, 1 failed\n3 passed, 0 failed\n")
        )
        self.refused("CLEARING is for drafts", "--gate", self.log, CLEARING="/bin/true")
        self.refused("no option", "--fast", status=2)
        source = self.checkout / "crates/stress/src/lib.rt"
        os.utime(source, (2**31, 2**31))
        self.refused("is newer than", "--gate", self.log)
        os.utime(source, (1, 1))
        source.write_text(source.read_text() + "\n")
        self.refused("the checkout has changes", "--gate", self.log)
        self.git("checkout", "-q", "--", ".")
        self.addCleanup(self.git, "checkout", "-q", "--", ".")
        (self.checkout / "VERSION").write_text("seven\n")
        self.refused("VERSION has no number", "--draft")
        self.assertEqual(self.release().returncode, 2)

    def test_a_draft_says_that_it_is_one(self):
        (self.checkout / "more").write_text("")
        self.addCleanup((self.checkout / "more").unlink)
        done = self.release("--draft", self.folder / "draft")
        self.assertEqual((done.returncode, done.stderr), (0, ""))
        record = ran(
            "tar",
            "-xzOf",
            self.folder / "draft/clearing-7.8.9-x86_64.tar.gz",
            "clearing-7.8.9/share/doc/clearing/RECORD",
        ).stdout
        self.assertIn(
            "This is a draft: nothing here says that the program was proved. The checkout had changes", record
        )
        self.assertNotIn("built and proved", record)


if __name__ == "__main__":
    unittest.main()
