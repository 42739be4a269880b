"""The picture of the architecture is that of crates.txt and the sources as they are; neither has anything that nothing
uses, and each lemma says in words what it states."""
import collections
import pathlib
import re
import shutil
import subprocess
import unittest
import xml.etree.ElementTree as xml
from typing import Dict, List, Set

from common import ROOT, Case, loaded, tool

architecture = loaded(ROOT / "tools/dev/architecture.py")
# A call, or a function that is passed on; and a function that a file offers, with the first line of its body, which a
# law has not.
CALL = re.compile(r"(?<!fn )\b(\w+)\b(?=\(|::<|\)|,)")
OFFERED = re.compile(r"^( *)pub (?:const )?fn (\w+)(?:.*\n)*?^ *(\{\}|\{)$", re.MULTILINE)
# A name in a file of definitions or of proofs, a line that opens a block of them, the first line of a lemma, and a line
# that begins with a name, after the words that say what it is the name of.
NAME = re.compile(r"[^\W\d][\w'-]*")
BLOCK = re.compile(r" *(?:pub )?(?P<kind>module|record|data)\b")
LEMMA = re.compile(r" *(?:(?:pub|abbrev|unfoldable) )*(?P<name>[^\s(){}\[\],;:=.]+) :(?: |$)")
HEAD = re.compile(
    r"(?P<indent> *)(?P<kind>(?:(?:pub|abbrev|unfoldable|record|module) )*)(?P<name>[^\W\d][\w'-]*)(?= *[({:=]|"
    r" [\w(\[])"
)


def code_of(path: pathlib.Path) -> str:
    """A file without its comments, its imports and its contracts."""
    lines = path.read_text(encoding="utf-8").splitlines()
    return "\n".join(line for line in lines if not re.match(r" *(//|(ghost )?(pub )?use |requires |ensures )", line))


class Picture(unittest.TestCase):
    def test_it_is_drawn_from_the_sources(self):
        drawn = tool("dev/architecture.py")
        self.assertEqual((drawn.returncode, drawn.stderr), (0, ""))
        self.assertEqual((ROOT / "docs/pictures/architecture.svg").read_text(encoding="utf-8"), drawn.stdout)

    def test_it_has_each_crate_once(self):
        tree = xml.parse(ROOT / "docs/pictures/architecture.svg")
        words = [node.text for node in tree.iter("{http://www.w3.org/2000/svg}text")]
        crates = [folder.name for folder in (ROOT / "crates").iterdir() if (folder / "src").is_dir()]
        self.assertEqual(sorted(word for word in words if word in crates), sorted(crates))

    def test_the_table_beside_it_has_each_crate_once(self):
        text = (ROOT / "docs/ARCHITECTURE.md").read_text(encoding="utf-8")
        rows = re.findall(r"^\| `(\w+)` \|", text[: text.index("## The way of the data")], re.MULTILINE)
        self.assertEqual(sorted(rows), sorted(architecture.stands_on()))

    def test_its_counts_of_crates_are_those_of_the_sources(self):
        text = " ".join((ROOT / "docs/ARCHITECTURE.md").read_text(encoding="utf-8").split())
        crates = architecture.stands_on()
        tests = [crate for crate in crates if crate.endswith("_tests")]
        self.assertIn(
            f"over {len(crates) - len(tests) - 2} library crates",
            text,
            "all but those of tests, clear_main and net_samples",
        )
        self.assertEqual(len(tests), 4)
        self.assertIn("Tests stand in four crates of their own", text)

    def test_its_figures_are_constants_of_the_code(self):
        text = " ".join((ROOT / "docs/ARCHITECTURE.md").read_text(encoding="utf-8").split())
        for words, file, constant in (
            ("after a round of 512 visits", "settle/src/teams.rt", "MANY_VISITS: u64 = 512;"),
            ("through a room of 64 KB", "raise_journal/src/lib.rt", "ROOM: usize = 65_536;"),
            ("in a buffer of 256 bytes", "clr_edge/src/line.rt", "MAX_LINE: usize = 256;"),
            ("is tried 64 times", "clr_host/src/std_sink.rt", "TRIES: u32 = 64;"),
            ("those of up to eight workers", "settle/src/noting.rt", "FEW_WORKERS: usize = 8;"),
        ):
            with self.subTest(words=words):
                self.assertIn(words, text)
                self.assertIn(constant, (ROOT / "crates" / file).read_text(encoding="utf-8"))

    def test_a_crate_in_the_wrong_layer_is_told(self):
        below = architecture.stands_on()
        self.assertEqual(architecture.faults_of(below), [])
        wrong = {**below, "clr_net": ["settle"], "another": []}
        self.assertEqual(
            architecture.faults_of(wrong),
            ["another is in no layer", "clr_net stands on settle, which is in a higher layer"],
        )
        del wrong["stress"]
        self.assertIn("stress is in a layer, but not in crates.txt", architecture.faults_of(wrong))

    def test_it_says_where_threads_are(self):
        parts = {crate: architecture.part_in_threads(crate) for crate in architecture.stands_on()}
        self.assertEqual(parts["settle"], "starts threads")
        self.assertEqual(parts["pay_words"], "words that threads share")
        self.assertEqual(parts["clear_core"], "")


@unittest.skipUnless(shutil.which("rt"), "without the toolchain's command rt")
class Layout(Case):
    """The toolchain's layout of files, without which `rt ci` refuses a crate however well it is proved."""

    def changed_by(self, crate: str) -> List[str]:
        """What `rt fmt` changes in a copy of a crate."""
        words = ["rt", "fmt"]
        done = subprocess.run(words, cwd=self.folder / "crates" / crate, capture_output=True, encoding="utf-8")
        self.assertEqual(done.returncode, 0, done.stdout + done.stderr)
        return [f"{crate}: {line}" for line in done.stdout.splitlines() + done.stderr.splitlines() if line]

    def test_each_crate_is_laid_out(self):
        crates = sorted(folder.parent.name for folder in (ROOT / "crates").glob("*/src"))
        shutil.copy(ROOT / "crates.txt", self.folder)
        for crate in crates:
            for part in ("src", "specs", "proofs"):
                if (ROOT / "crates" / crate / part).is_dir():
                    shutil.copytree(ROOT / "crates" / crate / part, self.folder / "crates" / crate / part)
        self.assertEqual([line for crate in crates for line in self.changed_by(crate)], [])
        with open(self.folder / "crates" / crates[0] / "src/lib.rt", "a", encoding="utf-8") as file:
            file.write("fn  f(){}\n")
        self.assertEqual(self.changed_by(crates[0]), [f"{crates[0]}: rt: formatted src/lib.rt"])


class Unused(unittest.TestCase):
    def test_what_the_program_does_not_call_stands_in_modules_called_plain(self):
        texts = {
            path: code_of(path)
            for path in sorted((ROOT / "crates").glob("*/src/**/*.rt"))
            if not re.match(r".*_tests$|net_samples$", path.relative_to(ROOT / "crates").parts[0])
        }
        plain = {path for path in texts if path.name == "plain.rt" or path.parent.name == "plain"}
        called = {name for path, text in texts.items() if path not in plain for name in CALL.findall(text)}
        offered = [
            (path, deep, name)
            for path, text in texts.items()
            for deep, name, body in OFFERED.findall(text)
            if body != "{}"
        ]
        self.assertEqual(
            [
                f"{path.relative_to(ROOT)}: {name}"
                for path, _, name in offered
                if path not in plain and path.name != "mem_sink.rt" and name not in called
            ],
            [],
            "a sink in memory is there for tests",
        )
        self.assertEqual(
            [
                f"{path.relative_to(ROOT)}: {name}"
                for path, deep, name in offered
                if path in plain and not deep and name in called
            ],
            [],
            "of methods the name alone does not tell",
        )

    def test_each_crate_names_all_that_it_is_listed_to_stand_on(self):
        self.assertEqual(
            [
                f"{crate} is listed to stand on {other}, which none of its files names"
                for crate, others in listed().items()
                for other in others
                if other not in named_in(crate)
            ],
            [],
        )

    def test_each_definition_and_lemma_that_a_file_offers_is_named_elsewhere(self):
        self.assertEqual(unnamed(ROOT / "crates"), [], "worked cases apart, which are shown where they stand")


class Comments(unittest.TestCase):
    def test_each_lemma_has_a_comment_above_it(self):
        files = sorted((ROOT / "crates").glob("*/proofs/*.antt"))
        self.assertEqual(
            [
                f"{path.relative_to(ROOT)}:{lemma}"
                for path in files
                for lemma in without_comment(path.read_text(encoding="utf-8").splitlines())
            ],
            [],
        )

    def test_a_lemma_without_one_is_named(self):
        lines = [
            "-- what it says",
            "pub first : ℕ",
            "first = 1",
            "",
            "abbrev second : ℕ",
            "second = 2",
            "",
            "record Pair : Type 0 where",
            "  left : ℕ",
            "",
            "-- of some n",
            "module _ (n : ℕ) where",
            "  third : ℕ",
            "  third = other",
            "    where",
            "      other : ℕ",
            "      other = n",
            "",
            "pub fourth : ℕ → ℕ",
            "    → ℕ",
        ]
        self.assertEqual(without_comment(lines), ["5: second", "13: third", "19: fourth"])


def without_comment(lines: List[str]) -> List[str]:
    """The lemmas and definitions of a file of proofs that have no comment on the line above them. Those are in no
    record and in no `where`: they begin at the left, or in a module two columns for each module round them."""
    lost, above, open_blocks = [], "", []
    for number, line in enumerate(lines, 1):
        indent = len(line) - len(line.lstrip())
        if line.strip() and line.strip()[0] not in ")}]":
            open_blocks = [(deep, kind) for deep, kind in open_blocks if deep < indent]
        block, lemma = BLOCK.match(line), LEMMA.match(line)
        if block:
            open_blocks.append((indent, block["kind"]))
        elif lemma and indent == 2 * len(open_blocks) and all(kind == "module" for _, kind in open_blocks):
            if not above.lstrip().startswith("--"):
                lost.append(f"{number}: {lemma['name']}")
        above = line
    return lost


def listed() -> Dict[str, List[str]]:
    """What crates.txt lists for each crate: crates of the repository and of the toolchain."""
    lines = [line.split("#")[0] for line in (ROOT / "crates.txt").read_text(encoding="utf-8").splitlines()]
    return {name.split()[0]: crates.split() for name, crates in (line.split(":") for line in lines if line.strip())}


def named_in(crate: str) -> Set[str]:
    """The crates that the sources, definitions and proofs of a crate name, among other words before two colons."""
    files = [
        path
        for part in ("src", "specs", "proofs")
        for path in (ROOT / "crates" / crate / part).rglob("*")
        if path.suffix in (".rt", ".antt")
    ]
    text = "\n".join(re.sub(r"//.*|--.*", "", path.read_text(encoding="utf-8")) for path in files)
    return {name for pair in re.findall(r"\bRattle\.(\w+)\.|\b(\w+)::", text) for name in pair}


def unnamed(crates: pathlib.Path) -> List[str]:
    """The definitions and lemmas that a file of specs/ or proofs/ offers to others, and that only the lines that
    begin with their names name. The parts of a record are not looked for, since a tactic reads them without their
    names."""
    files = [
        path
        for part in ("src", "specs", "proofs")
        for path in crates.glob(f"*/{part}/**/*")
        if path.suffix in (".rt", ".antt")
    ]
    texts = {path: re.sub(r"--.*|//.*", "", path.read_text(encoding="utf-8")) for path in files}
    named = collections.Counter(word for text in texts.values() for word in NAME.findall(text))
    lost = []
    for path in sorted(
        path for path in files if path.parent.name in ("specs", "proofs") and not path.stem.endswith("Cases")
    ):
        heads = [head for head in map(HEAD.match, texts[path].splitlines()) if head]
        begun = collections.Counter((head["indent"], head["name"]) for head in heads)
        above = []
        for head in heads:
            above = [line for line in above if len(line["indent"]) < len(head["indent"])]
            in_record = above and "record" in above[-1]["kind"].split()
            if (
                "pub" in head["kind"].split()
                and not in_record
                and named[head["name"]] == begun[head["indent"], head["name"]]
            ):
                lost.append(f"{path.relative_to(crates)}: {head['name']}")
            above.append(head)
    return lost


if __name__ == "__main__":
    unittest.main()
