"""The completions for fish and zsh: which words they offer, and that no name is executed or altered."""
import os
import re
import shlex
import shutil
import subprocess
import unittest
from typing import Any, Callable, List

from common import ROOT, Case, Word, needs
from odd_names import ODD_NAMES, untrimmed

NAMES = untrimmed(ODD_NAMES)
ENVIRONMENT = {**os.environ, "LC_ALL": "C.UTF-8"}
FISH, ZSH = ROOT / "tools/clearing.fish", ROOT / "tools/clearing.zsh"


class OtherShell(Case):
    """A case with a file of banks, and with a shell that runs there."""

    def ran(self, *words: Word) -> Any:
        """What a command prints."""
        return subprocess.run(
            list(map(str, words)),
            cwd=self.folder,
            env={**ENVIRONMENT, **dict.fromkeys(("HOME", "XDG_DATA_HOME", "XDG_CONFIG_HOME"), str(self.folder))},
            stdin=subprocess.DEVNULL,
            capture_output=True,
            timeout=300,
        ).stdout

    def banks(self) -> None:
        """A file with names that a shell may take for something else, and with what is no name behind them."""
        self.file(
            "banks.csv",
            ("name,cash,rule\n" + "".join(f"{name},1,order\n" for name in NAMES)).encode()
            + b"-x,1,order\nx\x1b[2J,1,order\nx\tdescribed,1,order\nx\xc2\x9b1A,1,order\n\0"
            + b"y" * 5000
            + b",1,order\nZ\xff,1,order\nlast,1,order\n",
        )

    def assert_offered(self, names_of: Callable[[str], Any]) -> None:
        """The names of a file are offered as they are, and of what is no file none."""
        self.banks()
        found = names_of("banks.csv").split(b"\n")[:-1]
        self.assertEqual([name.decode() for name in found if name not in (b"Z\xff", b"last")], NAMES)
        self.assertIn(b"last", found)
        os.mkfifo(self.folder / "pipe")
        for file in ("/dev/zero", "pipe", "none", "."):
            self.assertEqual(names_of(file), b"", file)
        self.assertFalse((self.folder / "X").exists())


@needs("fish")
class Fish(OtherShell):
    def fish(self, lines: str) -> Any:
        """What lines of fish print, below the completion."""
        return self.ran("fish", "--no-config", "-c", f"source {FISH}; {lines}")

    def offered(self, line: str) -> List[str]:
        """What is offered for the end of a line."""
        text = self.fish(f"complete -C '{line}'").decode(errors="replace")
        return [word.split("\t")[0] for word in text.splitlines()]

    def test_words_are_completed(self):
        self.file("banks.csv", "name,cash,rule\nAster,1,order\n")
        for line, words in (
            ("c", ["central", "check", "clear", "compress", "convert", "cost-bounds", "costs"]),
            ("clear --show b", ["both"]),
            ("costs --", ["--banks", "--debts", "--keep", "--limits"]),
            ("cost-bounds --", ["--banks", "--debts", "--keep", "--limits"]),
            ("outcomes --", ["--banks", "--debts", "--limits", "--scenarios"]),
            ("gen --", ["--seed", "--size", "--sweeps", "--tries", "--workers"]),
            ("rescue --banks banks.csv --bank A", ["Aster"]),
        ):
            self.assertEqual(sorted(self.offered(f"clearing {line}")), words, line)

    def test_names_are_offered_as_they_are(self):
        typed = "function commandline; printf '%s\\n' clearing rescue --banks {file}; end; __clearing_banks"
        self.assert_offered(lambda file: self.fish(typed.format(file=file)))
        offered = self.offered("clearing rescue --banks banks.csv --bank ")
        for name in ("$(touch X)", "a;touch X", "last"):
            self.assertIn(name, offered)
        self.assertFalse((self.folder / "X").exists())


@needs("zsh")
class Zsh(OtherShell):
    def typed(self, line: str, expected: str) -> str:
        """What stands at a terminal of its own after a line is typed and completed there: what comes until it has some
        words. The completion is installed in a folder of fpath."""
        (self.folder / "there").mkdir()
        shutil.copy(ZSH, self.folder / "there/_clearing")
        script = f"""
            zmodload zsh/zpty; cd {self.folder}; zpty z zsh -f -i
            zpty -w z "PS1=; fpath=({self.folder}/there \\$fpath); autoload -U compinit"
            zpty -w z "compinit -u -d {self.folder}/dump; echo REA''DY"
            zpty -r -m z begun '*READY*'; zpty -w -n z $'{line}\\t'
            for try in {{1..300}}; do
                sleep 0.1; while zpty -r -t z more; do out+=$more; done
                [[ $out == {expected} ]] && break
            done
            print -r -- $out
        """
        return self.ran("zsh", "-f", "-c", script).decode(errors="replace")

    def test_words_are_completed(self):
        self.assertIn("clearing compress", self.typed("clearing comp", "*compress*"))

    def test_an_option_of_a_task_is_completed(self):
        self.assertIn("clearing costs --keep", self.typed("clearing costs --k", "*keep*"))

    def test_names_are_offered_as_they_are(self):
        script = (
            "_describe() { : }; words=(clearing); CURRENT=1; source $1; "
            'compadd() { print -rl -- "${(@P)2}" }; words=(clearing rescue --banks $2 --bank ""); _clearing_banks'
        )
        self.assert_offered(lambda file: self.ran("zsh", "-f", "-c", script, "zsh", ZSH, file))

    def test_a_name_that_is_typed_runs_nothing(self):
        """A name that is a command is completed as one word."""
        self.file("banks.csv", "name,cash,rule\n$(touch X)`touch Y`;touch Z,1,order\n")
        out = self.typed("clearing rescue --banks banks.csv --bank ", "*touch*Z*")
        word = re.sub("\x1b\\[[0-9;?]*[A-Za-z]", "", out).split("--bank ")[-1].strip()
        self.assertEqual(shlex.split(word), ["$(touch X)`touch Y`;touch Z"], out)
        self.assertEqual([name for name in "XYZ" if (self.folder / name).exists()], [])


if __name__ == "__main__":
    unittest.main()
