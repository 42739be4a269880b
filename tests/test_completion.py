"""The completions are those of the table of the command line, and that for bash offers the words that it should, and
executes and alters no name."""
import os
import pathlib
import pty
import subprocess
import threading
import time
import unittest
from typing import Any, List, Optional

from common import ROOT, Case, clearing, loaded, needs
from odd_names import ODD_NAMES, all_names

completions = loaded(ROOT / "tools/dev/completions.py")
SCRIPT = ROOT / "tools/clearing.bash"
ENVIRONMENT = {**os.environ, "LC_ALL": "C.UTF-8"}


def completed(folder: pathlib.Path, line: str, word: Optional[str] = None, errors: str = "strict") -> List[str]:
    """What the function offers for the end of a line."""
    script = f"""
        source "{SCRIPT}"
        COMP_LINE=$1 COMP_POINT=${{#1}}
        _clearing clearing "$2" 2>/dev/null
        printf '%s\\n' "${{COMPREPLY[@]}}"
    """
    run = ["bash", "--norc", "-c", script, "bash", line, line.split(" ")[-1] if word is None else word]
    done = subprocess.run(
        run, cwd=folder, env=ENVIRONMENT, capture_output=True, encoding="utf-8", errors=errors, timeout=300
    )
    return done.stdout.split("\n")[:-1]


def banks_of(names: List[str], end: str = "\n") -> str:
    return "".join(line + end for line in ["name,cash,rule"] + [f"{name},1,order" for name in names])


class Terminal:
    """A bash that reads a terminal, in which a line is typed and completed."""

    def __init__(self, folder: pathlib.Path) -> None:
        self.folder = folder
        environment = {
            **ENVIRONMENT,
            "HOME": str(folder),
            "TERM": "dumb",
            "PS1": "",
            "INPUTRC": "/dev/null",
            "HISTFILE": "",
        }
        self.process, self.fd = pty.fork()
        if not self.process:
            os.chdir(folder)
            os.execvpe("bash", ["bash", "--norc", "--noprofile", "-i"], environment)
        threading.Thread(target=self.drain, daemon=True).start()
        # C-g writes down the line that is being typed.
        self.type(
            f"bind 'set bell-style none'; bind -x '\"\\C-g\": printf %s \"$READLINE_LINE\" >part; mv part typed'; "
            f"source '{SCRIPT}'; touch ready\r"
        )
        self.wait("ready")

    def drain(self) -> None:
        try:
            while os.read(self.fd, 4096):
                pass
        except OSError:
            pass

    def type(self, text: str) -> None:
        os.write(self.fd, text.encode())

    def wait(self, name: str) -> str:
        end = time.monotonic() + 60
        while not (self.folder / name).exists():
            if time.monotonic() > end:
                raise TimeoutError(name)
            time.sleep(0.002)
        text = (self.folder / name).read_text(encoding="utf-8")
        (self.folder / name).unlink()
        return text

    def completed(self, line: str) -> str:
        """The line after a TAB at its end."""
        self.type(f"{line}\t\x07")
        typed = self.wait("typed")
        self.type("\x05\x15")
        return typed

    def close(self) -> None:
        self.type("\x15exit\r")
        os.waitpid(self.process, 0)
        os.close(self.fd)


@needs("bash")
class Completion(Case):
    def words_of(self, line: str) -> Any:
        """The words of a line as the shell takes them, where it expands nothing else."""
        run = ["bash", "--norc", "-c", f"set -f; printf '%s\\0' {line}"]
        return subprocess.run(
            run, cwd=self.folder, env=ENVIRONMENT, capture_output=True, encoding="utf-8"
        ).stdout.split("\0")[:-1]

    def test_words_are_completed(self):
        self.file("banks.csv", "name,cash,rule\nAster,1,order\nBank Two,2,order\n")
        self.assertEqual(
            completed(self.folder, "clearing c"),
            ["check", "clear", "central", "convert", "compress", "costs", "cost-bounds"],
        )
        self.assertEqual(
            completed(self.folder, "clearing cost-bounds --banks banks.csv --"), ["--debts", "--keep", "--limits"]
        )
        self.assertEqual(
            completed(self.folder, "clearing outcomes --banks banks.csv --"), ["--debts", "--scenarios", "--limits"]
        )
        self.assertEqual(completed(self.folder, "clearing clear --s"), ["--sweeps", "--show"])
        self.assertEqual(completed(self.folder, "clearing clear --show b"), ["both"])
        self.assertEqual(completed(self.folder, "clearing clear --show=b", "b"), ["both"])
        self.assertEqual(
            completed(self.folder, "clearing costs --banks banks.csv --"), ["--debts", "--keep", "--limits"]
        )
        self.assertEqual(
            completed(self.folder, "clearing costs --banks=banks.csv --"), ["--debts", "--keep", "--limits"]
        )
        self.assertEqual(completed(self.folder, "clearing check --limits w"), ["wide"])
        self.assertEqual(completed(self.folder, "clearing check --limits "), ["standard", "wide"])
        self.assertNotIn("--limits", completed(self.folder, "clearing gen --seed 1 --"))
        self.assertEqual(completed(self.folder, "clearing check --banks b"), ["banks.csv"])
        self.assertEqual(completed(self.folder, "clearing rescue --banks banks.csv --bank B"), ["Bank\\ Two"])

    def test_what_a_file_holds_is_not_executed(self):
        names = ["$(touch X)", "`touch X`", "a$(touch X)", "d'Italia", "A$HOME", "B&W"]
        self.file("banks.csv", banks_of(names))
        offered = completed(self.folder, "clearing rescue --banks banks.csv --bank ")
        self.assertFalse((self.folder / "X").exists())
        self.assertEqual(self.words_of(" ".join(offered)), names)

    def test_names_of_every_character_come_back_as_they_are(self):
        names = [name for name in [*ODD_NAMES, *all_names(last=0xFFFF), *all_names(0x10000, step=257)]]
        for at in range(0, len(names), 1000):
            self.file("banks.csv", banks_of(names[at : at + 1000]))
            offered = completed(self.folder, "clearing rescue --banks banks.csv --bank ")
            self.assertEqual(self.words_of(" ".join(offered)), names[at : at + 1000])
        self.assertEqual(sorted(path.name for path in self.folder.iterdir()), ["banks.csv"])

    def test_names_are_read_as_the_program_reads_them(self):
        self.file("banks.csv", '\ufeff\r\nname,cash,rule\r\n "A B",1,order\r\n\r\n,,\r\n\tC ,1,order')
        self.assertEqual(completed(self.folder, "clearing rescue --banks banks.csv --bank "), ["A\\ B", "C"])
        (self.folder / "my 'own' $file.csv").write_text(banks_of(["Z"], "\r"))
        for word in [
            "my\\ \\'own\\'\\ \\$file.csv",
            "\"my 'own' \\$file.csv\"",
            "'my '\\''own'\\'' $file.csv'",
            "$'my \\'own\\' $file.csv'",
        ]:
            for line in (f"clearing rescue --banks {word} --bank ", f"clearing rescue --banks={word} --bank "):
                self.assertEqual(completed(self.folder, line), ["Z"], line)
        for file in ("none.csv", ".", "/dev/zero", "$(touch X)"):
            self.assertEqual(completed(self.folder, f"clearing rescue --banks {file} --bank "), [""])
        self.assertFalse((self.folder / "X").exists())

    def test_a_name_is_completed_where_it_is_typed(self):
        names = [f"{at}-{name}"[:40] for at, name in enumerate(ODD_NAMES)]
        names = [name.strip() for name in names]
        self.file("banks.csv", banks_of(names))
        terminal = Terminal(self.folder)
        self.addCleanup(terminal.close)
        for at, name in enumerate(names):
            for begin in (f"{at}-", f"'{at}-", f'"{at}-'):
                if '"' in begin and "!" in name:
                    # Between double quotes the shell has no way to write this sign where it keeps a history.
                    continue
                line = terminal.completed(f"clearing rescue --banks banks.csv --bank {begin}")
                words = self.words_of(line)
                self.assertEqual(words, ["clearing", "rescue", "--banks", "banks.csv", "--bank", name], line)
        for begin, name in [("a:", "a:b c:d"), ("a:b\\ c", "a:b c:d"), ("--bank=e", "e=f g")]:
            self.file("banks.csv", banks_of(["a:b c:d", "e=f g"]))
            option = "" if begin.startswith("--") else "--bank "
            words = self.words_of(terminal.completed(f"clearing rescue --banks=banks.csv {option}{begin}"))
            self.assertEqual(
                words[3:] if option else [words[3].removeprefix("--bank=")], ["--bank", name][not option :]
            )
        self.assertFalse((self.folder / "X").exists())

    def test_each_option_of_the_completion_is_one_of_the_program(self):
        # The program refuses words that are no job with 2; here it comes as far as a file that is missing.
        files = ["--banks", "none", "--debts", "none"]
        more = {
            "stress": ["--scenarios", "none"],
            "outcomes": ["--scenarios", "none"],
            "replay": ["--journal", "none"],
            "rescue": ["--bank", "A"],
            "costs": ["--keep", "1"],
            "cost-bounds": ["--keep", "1"],
            "gen": ["--seed", "1", "--size", "1", "--tries", "1"],
        }
        value = {"--workers": "2", "--sweeps": "2", "--show": "both", "--limits": "wide"}
        for task in completed(self.folder, "clearing "):
            words = ([] if task == "gen" else files) + more.get(task, [])
            for option in completed(self.folder, f"clearing {task} --"):
                if option not in words:
                    words = words + [option, value[option]]
            self.assertEqual(clearing(task, *words).returncode, 0 if task == "gen" else 3, words)

    def test_the_files_are_those_of_the_table(self):
        self.assertEqual(
            [path.name for path, text in completions.texts().items() if path.read_text(encoding="utf-8") != text],
            [],
            "tools/dev/completions.py --write makes them so",
        )


@needs("bash")
class HostileFiles(Case):
    def names(self, content: bytes) -> List[str]:
        """What is offered for the name of a bank of a file, which may be no UTF-8."""
        self.file("banks.csv", content)
        line = "clearing rescue --banks banks.csv --debts d.csv --bank "
        return completed(self.folder, line, errors="surrogateescape")

    def test_of_eight_megabytes_a_part_is_looked_at(self):
        for about, content in [
            ("many banks", b"name,cash,rule\n" + b"".join(b"Bank%d,1,order\n" % n for n in range(450_000))),
            ("one line", b"name,cash,rule\nA,1,order\n" + b"x" * 8_000_000),
            ("commas", b"name,cash,rule\nA,1,order\n" + b"," * 8_000_000),
            ("empty lines", b"name,cash,rule\n" + b"\n" * 8_000_000 + b"A,1,order\n"),
            ("NUL", b"name,cash,rule\nA,1,order\n" + b"\0" * 8_000_000),
        ]:
            with self.subTest(about):
                found = self.names(content)
                self.assertTrue(found, about)
                self.assertLessEqual(len(found), 10_000)

    def test_what_is_no_utf_8_hides_no_other_name(self):
        found = self.names(
            b"name,cash,rule\nAlpha,1,order\nB\xffeta,1,order\nGamma,1,order\n\xc3\x28,1,order\nDelta,1,order\n"
        )
        for name in ("Alpha", "Gamma", "Delta"):
            self.assertIn(name, found)


if __name__ == "__main__":
    unittest.main()
