"""A tool with one thing that fails does not end with 0: an input that is not there, an output that cannot be written, a
program that fails. It changes nothing but what it is told to write."""
import unittest
from typing import Any, Dict, List

from places import EachTool


class Failures(EachTool):
    def fails(self, name: str, words: List[Any], how: Dict[str, Any], about: Any) -> None:
        """A tool does not do well, and is not ended by a signal."""
        with self.subTest(about, tool=name):
            done = self.attempt(name, *words, **how)
            self.assertNotEqual(done.returncode, 0, f"{about}: {name} {words}: {done.stdout!r}")
            self.assertGreater(done.returncode, 0, f"{about}: {name} {words}: ended by a signal")

    def test_each_line_does_well(self):
        for number, (name, words, _, how) in enumerate(self.each()):
            self.well(name, *self.placed(words, self.out / f"place-{number}"), **how)

    def test_an_input_that_is_not_there_is_a_failure(self):
        for name, words, _, how in self.each():
            for at, word in enumerate(words):
                # The words alone are what why.py judges.
                if self.is_input(word) and name != "clearing-why":
                    other = self.inputs / "none" if at % 2 else self.inputs
                    self.fails(
                        name,
                        self.placed([*words[:at], other, *words[at + 1 :]], self.out / "place"),
                        how,
                        f"{word.name} is {other.name}",
                    )

    def test_an_output_that_cannot_be_written_is_a_failure(self):
        stop, device = self.given("stop", ""), self.out / "device"
        device.symlink_to("/dev/full")
        for number, (name, words, _, how) in enumerate(self.each()):
            if any(str(word).startswith("OUT") for word in words):
                # Below a file, in the place of a file that is read, and where nothing has room.
                self.fails(name, self.placed(words, stop / "x"), how, "below a file")
                read = [word for word in words if self.is_input(word)]
                if read and "OUT.svg" not in words:
                    path = read[number % len(read)]
                    self.fails(name, self.placed(words, path), how, f"over {path.name}")
                if "OUT.svg" not in words:
                    # By a link, so that a tool that puts a file in the place of a device harms the link alone.
                    self.fails(name, self.placed(words, device), how, "a full device")
                    self.assertTrue(device.is_symlink() and device.is_char_device(), name)

    def test_standard_output_that_takes_nothing_is_a_failure(self):
        for number, (name, words, _, how) in enumerate(self.each()):
            if not self.well(name, *self.placed(words, self.out / f"place-{number}"), **how):
                continue
            with open("/dev/full", "wb") as full:
                self.fails(
                    name,
                    self.placed(words, self.out / f"full-{number}"),
                    {**how, "stdout": full},
                    "a full standard output",
                )
            self.fails(
                name,
                self.placed(words, self.out / f"closed-{number}"),
                {**how, "stdout": -1},
                "a closed standard output",
            )

    def test_a_program_that_fails_is_a_failure(self):
        for about, body in [
            ("want of memory", "echo 'clearing: out of memory' >&2; exit 6"),
            ("killed", "kill -9 $$"),
            ("its output is not written", 'echo "bank,estate,paid,owed,equity,state"; exit 5'),
            ("it says something else", "echo lawful; exit 0"),
        ]:
            script = self.given("program", f"#!/bin/sh\n{body}\n")
            script.chmod(0o755)
            for number, (name, words, asks, how) in enumerate(self.each()):
                # What clearing-many runs may be any program.
                if asks and not (name == "clearing-many" and body.endswith("exit 0")):
                    place = self.out / f"{about}-{number}"
                    self.fails(name, self.placed(words, place), {**how, "program": script}, about)
                    if name not in ("clearing-many",):
                        self.assertFalse(place.exists(), (about, name))
            script.unlink()
        self.fails(
            "clearing-many", ["one", self.inputs / "jobs.tsv", self.out / "many", 1], {"program": "/none"}, "no program"
        )


if __name__ == "__main__":
    unittest.main()
