"""Every link, path, command and name of code that a document cites is there.

A name in back quotes is looked for where its text says that it stands: `crate::name` in that crate,
`crate::laws::name` among its laws, `crate`: `name` in that crate, names after a file in that file, and any other name
somewhere in the repository.

`python3 test_names.py --list` prints the names of code that each page cites.
"""
import collections
import functools
import pathlib
import re
import sys
import unittest
from typing import Any, Callable, Iterable, Iterator, List, Set, Tuple

from common import ROOT, tool

CRATES = sorted(folder.name for folder in (ROOT / "crates").iterdir() if (folder / "src").is_dir())
# Crates of the toolchain that documents name.
PORTED = {"atomic_table", "clap", "csv", "indexmap", "itoa", "rand_core", "rand_pcg", "std", "toml"}
# Programs that commands begin with beside those of the repository.
PROGRAMS = {
    "awk",
    "cat",
    "cmp",
    "cp",
    "diff",
    "docker",
    "dpkg",
    "echo",
    "for",
    "git",
    "grep",
    "head",
    "ls",
    "man",
    "mkdir",
    "nice",
    "printf",
    "python3",
    "rt",
    "sed",
    "sh",
    "sha256sum",
    "tail",
    "tar",
    "wc",
}
# Functions of the C library and of the toolchain's own, which documents name as what is trusted.
TRUSTED = re.compile(r"(rattle|pthread|sched)_[a-z_]+|__[a-z0-9_]+")
WORD = re.compile(r"[A-Za-z_][A-Za-z0-9_]*")
QUOTED = re.compile(r"`([^`\n]+)`")
FENCED = re.compile(r"^```(\w*)\n(.*?)^```$", re.MULTILINE | re.DOTALL)
IN_CRATE = re.compile(r"`(\w+)`: (`\w+`(?:(?:,| and)\s`\w+`)*)")
FOLDERS = ("bench", "bin", "crates", "docs", "examples", "python", "tests", "tools", ".ci")
# What the name of a clause may not be where others read it: it would say nothing of the clause.
EMPTY_NAMES = {"few", "one", "others", "same", "some"}


def documents() -> List[pathlib.Path]:
    return [
        path
        for path in [
            *sorted(ROOT.glob("*.md")),
            *sorted((ROOT / "docs").glob("*.md")),
            ROOT / "examples/README.md",
            ROOT / "tests/README.md",
        ]
        if path.is_file()
    ]


def prose_of(text: str) -> str:
    """A document without its blocks of code."""
    return FENCED.sub("", text)


def words_in(paths: Iterable[pathlib.Path]) -> Set[str]:
    return {word for path in paths for word in WORD.findall(path.read_text(encoding="utf-8", errors="replace"))}


@functools.cache
def words_of(crate: str) -> Set[str]:
    """All words of a crate: its sources, definitions and proofs, and the names of its files and edits."""
    folder = ROOT / "crates" / crate
    files = [
        path
        for part in ("src", "specs", "proofs", "must-fail", "edits")
        for path in (folder / part).rglob("*")
        if path.is_file()
    ]
    code = [path for path in files if path.suffix in (".rt", ".antt")]
    return (
        words_in(code)
        | {path.stem for path in files}
        | {part for path in files for part in path.relative_to(folder).parts}
    )


@functools.cache
def all_words() -> Set[str]:
    scripts = [
        path
        for folder in ("tools", "bin", "bench", "tests", "python", "examples", "r")
        for path in (ROOT / folder).rglob("*")
        if path.suffix in (".py", ".sh", ".rs", ".c", ".csv", ".toml", ".bash", ".fish", ".R")
        and path.name != "test_names.py"
    ]
    return set().union(*map(words_of, CRATES)) | words_in(scripts) | set(CRATES) | {path.stem for path in scripts}


@functools.cache
def laws_of(crate: str) -> Set[str]:
    path = ROOT / "crates" / crate / "src/laws.rt"
    return (
        set(re.findall(r"^pub fn (\w+)", path.read_text(encoding="utf-8"), re.MULTILINE)) if path.is_file() else set()
    )


def anchors_of(path: pathlib.Path) -> Set[str]:
    """The anchors of a page: those that GitHub makes of its headings, and those that it names."""
    text = path.read_text(encoding="utf-8")
    heads = re.findall(r"^#+ (.*)$", prose_of(text), re.MULTILINE)
    return {re.sub(r"[^\w\- ]", "", head.lower()).replace(" ", "-") for head in heads} | set(
        re.findall(r'<a id="([\w-]+)"></a>', text)
    )


def is_name(token: str) -> bool:
    """Whether a word in back quotes can only be a name of code: it has an underscore, or a capital within."""
    return bool(re.fullmatch(WORD, token)) and ("_" in token.strip("_") or bool(re.search(r"[a-z][A-Z]", token)))


def cited_names(text: str) -> List[str]:
    """The names of code that a text cites, each once."""
    tokens = QUOTED.findall(prose_of(text))
    return sorted({token for token in tokens if is_name(token) or re.fullmatch(r"\w+(::\w+)+", token)})


def missing_names(text: str) -> List[str]:
    """The names of code in a text that are nowhere to be found."""
    lost = []
    for token in QUOTED.findall(prose_of(text)):
        parts = token.split("::")
        if len(parts) > 1 and all(re.fullmatch(WORD, part) for part in parts):
            crate, names = parts[0], parts[1:]
            if crate in CRATES:
                # Where a name follows `laws` it is a law.
                here = (
                    laws_of(crate)
                    if names[0] == "laws" and len(names) > 1
                    else words_of(crate) | {"laws", "proofs", "specs"}
                )
                lost += [token] if names[-1] not in here else []
            elif crate not in PORTED and not (crate in all_words() and names[-1] in all_words()):
                lost.append(token)
        elif is_name(token) and not TRUSTED.fullmatch(token) and token not in all_words():
            lost.append(token)
    for crate, names in IN_CRATE.findall(prose_of(text)):
        if crate in CRATES:
            lost += [
                f"{crate}: {name}"
                for name in re.findall(r"\w+", names.replace(" and", ""))
                if name not in words_of(crate)
            ]
    return lost


def missing_in_files(text: str) -> List[str]:
    """The names that stand after a file of a crate, and are not in it."""
    lost, file = [], None
    for passage in re.findall(r"\*In the code: (.*?)\*\n", text, re.DOTALL):
        for token in QUOTED.findall(passage):
            if re.fullmatch(r"\w+/(specs|proofs|src)/[\w/]+\.(antt|rt)", token):
                file = ROOT / "crates" / token
                lost += [] if file.is_file() else [token]
            elif "::" in token:
                file = None
            elif file and file.is_file() and token not in words_in([file]):
                lost.append(f"{file.relative_to(ROOT / 'crates')}: {token}")
        file = None
    return lost


def missing_paths(path: pathlib.Path, text: str) -> List[str]:
    """The links and paths of a page that lead nowhere."""
    lost = []
    for target in re.findall(r"\]\(([^)\s]+)\)", prose_of(text)):
        if re.match(r"[a-z]+:", target):
            continue
        name, _, anchor = target.partition("#")
        file = (path.parent / name).resolve() if name else path
        if not file.exists():
            lost.append(target)
        elif anchor and file.suffix == ".md" and anchor not in anchors_of(file):
            lost.append(target)
    for token in QUOTED.findall(prose_of(text)):
        name = token.split(" ")[0].removeprefix("./")
        if name.startswith(tuple(folder + "/" for folder in FOLDERS)) and not re.search(
            r"[A-Z*]{3}|/out/|\*|\.\.", name
        ):
            lost += [token] if not (ROOT / name).exists() else []
    return lost


def commands_of(text: str) -> Iterator[str]:
    """The commands of the blocks of a page."""
    for language, block in FENCED.findall(text):
        lines = block.replace("\\\n", " ").split("\n")
        if language == "console":
            yield from (line[2:] for line in lines if line.startswith("$ "))
        elif language == "":
            yield from (
                line
                for line in lines
                if re.match(
                    r"(\./clearing|\./first-look|bin/|tools/|bench/|tests/|\.ci/|rt |git |sha256sum |python3 )", line
                )
            )


@functools.cache
def options_in(file: pathlib.Path, task: str = "") -> str:
    """A text with the options of a tool: its help, and that of a task of it, where it is a command, else what it is."""
    if file.parent != ROOT / "bin":
        return file.read_text(encoding="utf-8") if file.is_file() else ""
    helps = [tool(file.name, *words, "--help").stdout for words in ([], [task]) if words != [""] and file.is_file()]
    return "".join(helps)


def named_edits(text: str) -> Iterator[Tuple[str, str, bool]]:
    """The wrong bodies that the tables of a page name: each with its crate, and whether it has the sign of those beside
    the gate. A name without a crate before it is of clear_top."""
    table_of_edits = r"^\|.* a wrong body that the check must refuse \|\n\|[-|]+\n((?:\|.*\n)+)"
    for table in re.findall(table_of_edits, text, re.MULTILINE):
        for row in table.splitlines():
            crate = "clear_top"
            for name, sign in re.findall(r"`(\w+)`([°:]?)", row.rstrip("| ").rpartition(" | ")[2]):
                if sign == ":":
                    crate = name
                else:
                    yield crate, name, sign == "°"


def wrong_edits(text: str) -> List[str]:
    """The wrong bodies that a page's tables name, and that do not stand where they say."""
    return [
        f"{crate}: {name}"
        for crate, name, beside in named_edits(text)
        if not (ROOT / "crates" / crate / ("edits" if beside else "must-fail") / f"{name}.edit").is_file()
    ]


def definitions_below(*paths: pathlib.Path) -> Set[pathlib.Path]:
    """The files of definitions that some files cite, with these."""
    found, ahead = set(), list(paths)
    while ahead:
        path = ahead.pop()
        if path.is_file() and path not in found:
            found.add(path)
            text = path.read_text(encoding="utf-8")
            used = re.findall(r"^(?:pub )?use Rattle\.(\w+)\.specs\.([\w.]+)\.\{", text, re.MULTILINE)
            ahead += [ROOT / "crates" / crate / "specs" / (name.replace(".", "/") + ".antt") for crate, name in used]
    return found


def theorem_of(text: str) -> str:
    """The theorem as a page quotes it, in one line and without the signs of its form."""
    quoted = re.search(r"(?:^>.*\n)+", text, re.MULTILINE)[0]
    return " ".join(re.sub(r"^> ?|\*\*", "", quoted, flags=re.MULTILINE).split())


def wrong_commands(text: str) -> List[str]:
    """The commands that begin with no program, and the options of the repository's tools that the tools do not have."""
    lost = []
    for command in commands_of(text):
        first = re.split(r"[\s;|]", command.lstrip("("))[0]
        if "/" in first and not (ROOT / first).exists() or "/" not in first and first not in PROGRAMS:
            lost.append(command)
        for name, rest in re.findall(r"(?<![\w/])((?:bin|tools|bench|tests)/[\w./-]+)([^|;>]*)", command):
            task = rest.split()[0] if name == "bin/clearing-case" and rest.split() else ""
            known = options_in(ROOT / name, task if task.isalpha() else "")
            lost += [f"{name} {option}" for option in re.findall(r"(?<!\S)--[a-z-]+", rest) if option not in known]
            lost += [] if known else [name]
    return lost


def public_clauses(text: str) -> Iterator[Tuple[str, str]]:
    """The named clauses of the functions of a source that others call: of public functions, of traits, and of what
    implements these; each as its function and its name."""
    function, shared, public = "", False, False
    for line in text.splitlines():
        if re.match(r"(pub )?trait |impl\b.* for |\}", line):
            shared = line != "}"
        elif begun := re.match(r"\s*(pub |pub\(crate\) )?fn (\w+)", line):
            function, public = begun[2], begun[1] == "pub " or shared
        elif public and (clause := re.match(r"\s*(?:requires|ensures) (\w+) \{", line)):
            yield function, clause[1]


def miscounted(names: List[str], text: str) -> List[str]:
    """The names that a text does not have in back quotes once."""
    count = collections.Counter(QUOTED.findall(text))
    return sorted(name for name in names if count[name] != 1)


def unknown_modules(text: str) -> List[str]:
    """The modules of tests that a text names and that are not there."""
    return [name for name in QUOTED.findall(text) if re.fullmatch(r"test_\w+", name) and not is_module(name)]


def is_module(name: str) -> bool:
    """Whether a module of tests has a name."""
    return (ROOT / "tests" / f"{name}.py").is_file()


class Names(unittest.TestCase):
    def each(self, what: Callable[[pathlib.Path, str], List[Any]]) -> None:
        for path in documents():
            with self.subTest(page=str(path.relative_to(ROOT))):
                self.assertEqual(what(path, path.read_text(encoding="utf-8")), [])

    def test_links_and_paths_lead_somewhere(self):
        self.each(missing_paths)

    def test_names_of_code_are_there(self):
        self.each(lambda path, text: missing_names(text))

    def test_names_after_a_file_stand_in_it(self):
        self.each(lambda path, text: missing_in_files(text))

    def test_commands_and_their_options_are_there(self):
        self.each(lambda path, text: wrong_commands(text))

    def test_what_is_missing_is_told(self):
        self.assertEqual(
            missing_names("`clear_core::laws::least_is_most` `no_such_name` `clr_net`: `row`, `pole`"),
            ["clear_core::laws::least_is_most", "no_such_name", "clr_net: pole"],
        )
        self.assertEqual(
            missing_in_files(
                "*In the code: `clr_net/specs/Net.antt`: `row`, `award`; `clr_net/specs/No.antt`: `x`.*\n"
            ),
            ["clr_net/specs/Net.antt: award", "clr_net/specs/No.antt"],
        )
        self.assertEqual(
            missing_paths(
                ROOT / "README.md", "[a](docs/NO.md) [b](docs/GUIDE.md#no) [c](docs/GUIDE.md) `tools/no.sh a`"
            ),
            ["docs/NO.md", "docs/GUIDE.md#no", "tools/no.sh a"],
        )
        self.assertEqual(
            wrong_commands("```console\n$ tools/no.sh x\n$ bin/clearing-lint --nonsense\n$ nothing\n```\n"),
            ["tools/no.sh x", "tools/no.sh", "bin/clearing-lint --nonsense", "nothing"],
        )
        self.assertEqual(
            wrong_commands(
                "```console\n$ bin/clearing-case scenarios a b --amounts-in 10\n$ bin/clearing-case show a --amounts-in"
                " 10\n```\n"
            ),
            ["bin/clearing-case --amounts-in"],
        )
        self.assertEqual(
            missing_paths(ROOT / "README.md", "[a](docs/GLOSSARY.md#one-unit) [b](docs/GLOSSARY.md#two-units)"),
            ["docs/GLOSSARY.md#two-units"],
        )

    def test_the_page_of_the_tests_names_each_module_and_script_once(self):
        modules = [path.stem for path in (ROOT / "tests").glob("*.py") if path.name not in ("run.py", "wheel.py")]
        scripts = [path.name for path in (ROOT / "tests/system").iterdir() if path.suffix in (".py", ".sh", ".c")]
        text = (ROOT / "tests/README.md").read_text(encoding="utf-8")
        self.assertEqual(miscounted([*modules, *scripts], text), [])
        self.assertEqual(miscounted(["a", "b", "c"], "`a` and `b`, but `b` alone"), ["b", "c"])
        self.assertEqual(unknown_modules(text), [])
        self.assertEqual(unknown_modules("`test_names` and `test_nobody`"), ["test_nobody"])

    def test_the_laws_that_are_tried_at_networks_are_counted(self):
        laws = sum(
            len(re.findall(r"^pub fn ", path.read_text(), re.MULTILINE)) for path in ROOT.glob("crates/*/src/laws.rt")
        )
        tried = {
            name
            for path in ROOT.glob("crates/law_tests/src/*.rt")
            for name in re.findall(r"\w+::laws::\w+", path.read_text())
        }
        self.assertIn(f"`law_tests`, of {len(tried)} of the {laws} laws", (ROOT / "docs/CLAUSES.md").read_text())

    def test_clauses_that_others_read_have_names_that_say_something(self):
        said = [
            (path, clause)
            for path in (ROOT / "crates").glob("*/src/**/*.rt")
            for clause in public_clauses(path.read_text(encoding="utf-8"))
        ]
        self.assertGreater(len(said), 500)
        self.assertEqual([(path.name, clause) for path, clause in said if clause[1] in EMPTY_NAMES], [])
        inside = "fn a()\n    requires few { 1 }\n{\n}\n\npub(crate) fn b()\n    ensures one { 2 }\n"
        shared = "impl C for D {\n    fn e()\n        ensures same { 3 }\n    {}\n}\n"
        public = "pub fn f(\n    g: u8,\n)\n    requires h { 4 }\n    ensures { 5 }\n{\n}\n"
        self.assertEqual(list(public_clauses(public + shared + inside)), [("f", "h"), ("e", "same")])

    def test_wrong_bodies_stand_where_the_tables_of_proved_say(self):
        text = (ROOT / "docs/PROVED.md").read_text(encoding="utf-8")
        self.assertGreater(len(list(named_edits(text))), 60)
        self.assertEqual(wrong_edits(text), [])
        self.assertEqual(text.count("a wrong body that the check must refuse |\n"), 3)
        row = "| `check` | `record_left_out`°, `settle`: `one_round_only`, `none` |\n"
        table = "| task | a wrong body that the check must refuse |\n|---|---|\n"
        self.assertEqual(wrong_edits(table + row), ["clear_top: record_left_out", "settle: none"])

    def test_proved_has_a_row_for_each_other_task(self):
        text = (ROOT / "docs/PROVED.md").read_text(encoding="utf-8")
        table = text.partition("## The other tasks")[2].partition("\n## ")[0]
        source = (ROOT / "crates/clear_words/src/task.rt").read_text(encoding="utf-8")
        tasks = re.findall(r'"([a-z-]+)" => Some\(Task::', source)
        self.assertEqual(sorted(re.findall(r"^\| `([a-z-]+)` \|", table, re.MULTILINE)), sorted({*tasks} - {"clear"}))

    def test_the_theorem_is_the_same_on_both_pages_and_has_each_phrase_of_its_table(self):
        text = (ROOT / "docs/PROVED.md").read_text(encoding="utf-8")
        theorem = theorem_of(text.partition("## The theorem, phrase by phrase")[2])
        self.assertEqual(theorem_of((ROOT / "README.md").read_text(encoding="utf-8")), theorem)
        rows = re.search(r"^\| phrase \|.*\n.*\n((?:\|.*\n)+)", text, re.MULTILINE)[1].splitlines()
        phrases = [phrase for row in rows for phrase in row.split(" | ")[0].lstrip("| ").split("; ")]
        self.assertGreater(len(phrases), 8)
        self.assertEqual([phrase for phrase in phrases if phrase.lower() not in theorem.lower()], [])

    def test_the_definitions_behind_the_least_list_are_those_that_proved_names(self):
        text = " ".join((ROOT / "docs/PROVED.md").read_text(encoding="utf-8").split())
        passage = text.partition("The definitions behind `least` and the verdict `judged` ")[2]
        passage = passage.partition("They cite no other definitions of the repository")[0]
        named, files = set(), []
        for token in QUOTED.findall(passage):
            if token.endswith(".antt"):
                files.append(token)
            else:
                named |= {ROOT / "crates" / token / file for file in files}
                files = []
        specs = ROOT / "crates/clear_core/specs/Clearing.antt", ROOT / "crates/raise_journal/specs/Verdicts.antt"
        self.assertEqual(named, definitions_below(*specs))
        self.assertTrue(passage.startswith("stand in nine files: "))
        self.assertEqual(len(named), 9)

    def test_the_program_names_no_clock_and_takes_from_the_environment_its_words_alone(self):
        said = {}
        for crate in CRATES:
            for path in (ROOT / "crates" / crate / "src").rglob("*.rt") if not crate.endswith("_tests") else ():
                for name in re.findall(r"\b(?:env::\w+|std::time|Clock)\b", path.read_text(encoding="utf-8")):
                    said.setdefault(crate, set()).add(name)
        self.assertEqual(said, {"clear_main": {"env::Env", "env::args"}})

    def test_no_page_speaks_of_the_commit_that_it_stands_in(self):
        """What was measured or run names its commit, since a page outlives the one that it was written in."""
        self.each(lambda path, text: re.findall(r"(?i)\bthis\s+(?:commit|text's|program's\s+sources)", text))

    def test_no_page_names_a_toolchain_by_its_kit(self):
        """Several toolchains have the logic of the proofs. A page names the logic."""
        self.each(lambda path, text: re.findall(r"rattle-kit|\bkit-\w+", text))

    def test_the_paper_cites_names_of_code(self):
        """The check of names has something to check: each section of the paper but the last two cites some."""
        text = (ROOT / "docs/THEORY.md").read_text(encoding="utf-8")
        self.assertGreater(len(re.findall(r"\*In the code: ", text)), 20)
        self.assertGreater(len(re.findall(r"`\w+::laws::\w+`", text)), 40)


if __name__ == "__main__":
    if sys.argv[1:] == ["--list"]:
        for page in documents():
            print(page.relative_to(ROOT), *cited_names(page.read_text(encoding="utf-8")), sep="\n    ")
    else:
        unittest.main()
