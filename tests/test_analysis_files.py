"""What the tools that ask what would break a network write: whole or not at all, never over an input, and pictures."""
import importlib.util
import os
import shutil
import subprocess
import sys
import unittest
from typing import Any, Iterator

from analyses import AnalysisCase
from common import PROGRAM, file_of, run_of, tool

from clearing_tools import runner
from clearing_tools.drawing import style


class Files(AnalysisCase):
    def writers(self) -> Iterator[Any]:
        """Each tool, with each option that names a file of records to write."""
        for command, options in zip(
            self.commands(),
            [["--output"], ["--ranking", "--matrix", "--defaults"], ["--output", "--saved"], ["--output", "--each"]],
        ):
            for option in options:
                yield [*command, *self.short(), option]
        yield [
            "clearing-shock",
            *self.short()[:2],
            "--scenarios",
            self.file("s.toml", '[[scenario]]\nname = "s"\n'),
            "--scenario",
            1,
            "--output",
        ]

    def test_no_input_is_written_over(self):
        words = self.small()
        before = [path.read_bytes() for path in (words[1], words[3])]
        for command, options in zip(
            self.commands(),
            [
                ["--output", "--picture"],
                ["--ranking", "--matrix", "--defaults", "--picture"],
                ["--output", "--saved"],
                ["--output", "--each", "--picture"],
            ],
        ):
            for option in options:
                self.refused(command[0], 2, "would be written over", *command[1:], *words, option, words[3])
            same = self.folder / "same.csv"
            self.refused(
                command[0], 2, "would be written over", *command[1:], *words, options[0], same, options[1], same
            )
            self.refused(
                command[0], 5, "cannot write", *command[1:], *words, options[0], self.folder / "none" / "out.csv"
            )
        self.assertEqual([path.read_bytes() for path in (words[1], words[3])], before)

    def test_a_file_that_is_written_keeps_its_mode(self):
        mask = os.umask(0)
        os.umask(mask)
        for number, (name, *words) in enumerate(self.writers()):
            with self.subTest(tool=name, option=words[-1]):
                kept, new = self.file("kept.csv", "old"), self.folder / f"new-{number}.csv"
                for mode in (0o600, 0o640):
                    kept.chmod(mode)
                    self.made(name, *words, kept)
                    self.assertEqual(kept.stat().st_mode & 0o777, mode)
                self.made(name, *words, new)
                self.assertEqual(new.stat().st_mode & 0o777, 0o666 & ~mask)
                self.assertEqual((new.read_bytes(), b"old" in new.read_bytes()), (kept.read_bytes(), False))

    def test_a_file_that_may_not_be_written_is_kept(self):
        prefix = []
        if os.geteuid() == 0:
            prefix = ["setpriv", "--reuid=65534", "--regid=65534", "--clear-groups"]
            if not shutil.which("setpriv"):
                self.skipTest("setpriv is missing: root may write everywhere")
        self.folder.chmod(0o777)
        for name, *words in self.writers():
            with self.subTest(tool=name, option=words[-1]):
                run = [*prefix, sys.executable, "-B", str(file_of(name))]
                tried = [
                    [*run, "--help"],
                    [
                        *prefix,
                        sys.executable,
                        "-c",
                        "import os, sys; sys.exit(not os.access(sys.argv[1], os.X_OK))",
                        PROGRAM,
                    ],
                ]
                if any(subprocess.run(each, capture_output=True).returncode for each in tried):
                    self.skipTest("another user may not read the tools or the program")
                kept = self.file("kept.csv", "old")
                kept.chmod(0o444)
                before = sorted(os.listdir(self.folder))
                done = subprocess.run(
                    [*run, *map(str, words), str(kept)], stdin=subprocess.DEVNULL, capture_output=True, encoding="utf-8"
                )
                self.assertEqual(
                    (done.returncode, done.stderr), (5, f"{name}: cannot write {kept}: Permission denied\n")
                )
                self.assertEqual((kept.read_text(), sorted(os.listdir(self.folder))), ("old", before))
                kept.unlink()

    def test_a_picture_is_written_whole(self):
        kept, link = self.file("kept.svg", "old"), self.folder / "link.png"
        kept.chmod(0o600)
        link.symlink_to(kept)
        full = self.folder / "full.svg"
        full.symlink_to("/dev/full")
        kinds = []

        class Figure:
            def savefig(self, part: Any, **more: Any) -> None:
                kinds.append(more["format"])
                part.write(b"new")

        class Broken:
            def savefig(self, part: Any, **more: Any) -> None:
                part.write(b"half")
                raise ValueError("no such picture")

        style.save(Figure(), str(link), folders=False)
        self.assertEqual((kept.read_text(), kept.stat().st_mode & 0o777, link.is_symlink()), ("new", 0o600, True))
        self.assertEqual(kinds, ["svg"])
        for place, figure in (
            (kept, Broken()),
            (self.folder / "none.svg", Broken()),
            (self.folder / "none" / "a.svg", Figure()),
            (full, Figure()),
        ):
            with self.assertRaisesRegex(runner.ToolError, f"cannot write {place}: ") as failed:
                style.save(figure, str(place), folders=False)
            self.assertEqual((failed.exception.status, kept.read_text()), (1, "new"))
        full.unlink()
        self.assertEqual(sorted(os.listdir(self.folder)), ["kept.svg", "link.png"])

    def test_an_output_that_cannot_be_written_ends_with_5(self):
        for name, *words in self.writers():
            for place in (
                self.folder / "none" / "out.csv",
                self.folder,
                self.file("file", "") / "out.csv",
                "/dev/full",
            ):
                with self.subTest(tool=name, option=words[-1], place=place):
                    self.refused(name, 5, f"cannot write {place}: ", *words, place)
            with open("/dev/full", "wb") as full:
                done = subprocess.run([*run_of(name), *map(str, words[:-1])], stdout=full, stderr=subprocess.PIPE)
            self.assertEqual((done.returncode, b"cannot write the output" in done.stderr), (5, True))

    def test_pictures_are_drawn_where_matplotlib_is(self):
        for command in self.commands():
            if command[0] == "clearing-rescues":
                continue
            for name, words in (("svg", self.small()), ("png", self.small())):
                picture = self.folder / f"picture.{name}"
                done = tool(*command, *words, "--picture", picture)
                if importlib.util.find_spec("matplotlib"):
                    self.assertEqual((done.returncode, done.stderr), (0, ""))
                    self.assertIn(b"</svg>" if name == "svg" else b"PNG", picture.read_bytes())
                    picture.unlink()
                else:
                    self.assertEqual((done.returncode, done.stdout), (2, ""))
                    self.assertIn("python3-matplotlib", done.stderr)
        if not importlib.util.find_spec("matplotlib"):
            self.skipTest("matplotlib is missing")


if __name__ == "__main__":
    unittest.main()
