"""The package for R: it passes R's own checks, its vignette runs, and its cases are those of the package for Python."""
import functools
import html
import os
import pathlib
import re
import shutil
import subprocess
import tarfile
import tempfile
import unittest
from typing import Any, List

from common import PROGRAM, ROOT, Case, Word, needs
from offline import ALONE

from clearing_client import Case as BankCase
from clearing_client import Network, Source
from clearing_client.description import hash_of

PACKAGE = ROOT / "r"


@functools.cache
def library() -> tempfile.TemporaryDirectory:
    """A library of R's with the package in it."""
    place = tempfile.TemporaryDirectory()
    ran("R", "CMD", "INSTALL", "--no-docs", f"--library={place.name}", PACKAGE)
    return place


@functools.cache
def built() -> tempfile.TemporaryDirectory:
    """A folder with the archive that R makes of the package, with its vignette."""
    place = tempfile.TemporaryDirectory()
    ran("R", "CMD", "build", PACKAGE, folder=place.name)
    return place


def archive() -> pathlib.Path:
    """The archive that R makes of the package."""
    (found,) = pathlib.Path(built().name).glob("clearing_*.tar.gz")
    return found


@functools.cache
def has(package: str) -> bool:
    """Whether R has a package."""
    return not subprocess.run(["Rscript", "-e", f"library({package})"], capture_output=True).returncode


# The scripts of the package's own tests, which R runs one by one.
TESTS = sorted((PACKAGE / "tests").glob("*.R"))


def named(script: pathlib.Path) -> List[str]:
    """The names of the tests in a script."""
    return re.findall(r'(?m)^test(?:_with_program)?\("(.*?)"', script.read_text(encoding="utf-8"))


def passed(printed: str) -> List[str]:
    """The names of the tests that passed."""
    return re.findall("(?m)^passed: (.*)$", printed)


def ran(*words: Word, folder: Any = None, libraries: str = "", **more: Any) -> str:
    """A run of R that ends well, with what it printed."""
    environment = {
        **os.environ,
        **ALONE,
        "LC_ALL": "C.UTF-8",
        "CLEARING": str(pathlib.Path(PROGRAM).resolve()),
        "R_LIBS": libraries,
        **more,
    }
    done = subprocess.run(
        [str(word) for word in words],
        cwd=folder,
        env=environment,
        stdin=subprocess.DEVNULL,
        stdout=subprocess.PIPE,
        stderr=subprocess.STDOUT,
        encoding="utf-8",
    )
    if done.returncode:
        raise AssertionError(f"{words}: {done.stdout[-3000:]}")
    return done.stdout


@unittest.skipUnless(shutil.which("R"), "without R (Debian's package r-base-core)")
class Package(Case):
    def r(self, code: str) -> str:
        """What a few lines of R print, with the package loaded."""
        script = self.file("script.R", f"library(clearing)\n{code}\n")
        return ran("Rscript", script, folder=self.folder, libraries=library().name)

    def has_knitr(self) -> None:
        """Skips a test of the vignette where R has not what makes it."""
        if not has("knitr"):
            self.skipTest("R has no knitr (Debian's package r-cran-knitr)")

    @needs("qpdf")
    def test_it_passes_the_checks_of_r(self):
        """Those of R's archive of packages, without a word: also of the examples, the tests and the vignette, which
        run."""
        self.has_knitr()
        told = ran("R", "CMD", "check", "--as-cran", "--no-manual", archive(), folder=self.folder)
        self.assertRegex(told, r"(?m)^Status: OK$")
        for step in ("checking examples", "checking re-building of vignette outputs"):
            # A step that takes long is told with its time.
            self.assertRegex(told, rf"{step} \.\.\.( \[.*\])? OK")
        for script in TESTS:
            self.assertIn(f"Running \u2018{script.name}\u2019", told)
            printed = (self.folder / "clearing.Rcheck/tests" / f"{script.name}out").read_text(encoding="utf-8")
            self.assertEqual(passed(printed), named(script), printed)

    def test_its_tests_tell_what_they_skip_where_there_is_no_program(self):
        """The others run."""
        script = PACKAGE / "tests/networks.R"
        printed = ran("Rscript", script, folder=script.parent, libraries=library().name, CLEARING="none")
        skipped = re.findall("(?m)^SKIPPED, as there is no program: (.*)$", printed)
        self.assertEqual(skipped, ["the program reads a network by its limits"])
        self.assertEqual(passed(printed), [name for name in named(script) if name not in skipped])

    def test_its_vignette_is_a_page_that_asks_nobody_for_more(self):
        self.has_knitr()
        with tarfile.open(archive()) as files:
            page = files.extractfile("clearing/inst/doc/twelve-banks.html").read().decode()
        printed = html.unescape(re.sub("<[^>]*>", "", page))
        self.assertIn("8256671", printed)
        self.assertIn('"lawful"', printed)
        # What Birk leaves unpaid, in euros, and a network of 1,001 banks.
        self.assertRegex(printed, "Birk +113331000\n")
        self.assertIn('[1] "wide"\n', printed)
        sources = re.findall(r"""(?:src|href)\s*=\s*["']?([^"'>]{,30})|(https?://\S*)|@import""", page)
        self.assertEqual([source[0][:22] for source in sources], ["data:image/png;base64,"] * 2)

    def test_where_there_is_no_program_it_is_made_and_its_page_says_so(self):
        self.has_knitr()
        said = "This page was made where there is no program, so its answers are missing."
        ran("R", "CMD", "build", PACKAGE, folder=self.folder, CLEARING=str(self.folder / "none"))
        for name, told in ((archive(), False), (self.folder / archive().name, True)):
            with tarfile.open(name) as files:
                page = files.extractfile("clearing/inst/doc/twelve-banks.html").read().decode()
            self.assertEqual((said in page, "8256671" in page), (told, not told))

    @needs("pdftotext")
    def test_titles_of_pictures_stand_in_them(self):
        """Also in a picture that is narrow, beside long names."""
        self.r(
            "here <- system.file('extdata', 'twelve-banks', package = 'clearing')\n"
            "net <- read_network(file.path(here, 'banks.csv'), file.path(here, 'debts.csv'))\n"
            "pdf('pictures.pdf', 5, 4.5)\nplot(clear(net))\nplot(breaking(net))\n"
        )
        told = subprocess.check_output(["pdftotext", "-bbox", self.folder / "pictures.pdf", "-"], encoding="utf-8")
        pages = told.split("<page ")[1:]
        titles = [
            "4 of 12 debtors leave 1,493,329 of 9,750,000 units unpaid",
            "4 of 12 banks are in default as things are; a cut of 891 fells the next",
        ]
        self.assertEqual(len(pages), len(titles))
        for page, title in zip(pages, titles):
            width = float(re.match('width="([0-9.]+)"', page)[1])
            words = re.findall(
                '<word xMin="([-0-9.]+)" yMin="[-0-9.]+" xMax="([-0-9.]+)" yMax="[-0-9.]+">(.*?)</word>', page
            )
            inside = [word for first, last, word in words if 0 <= float(first) and float(last) <= width]
            self.assertIn(title, " ".join(inside))

    def test_its_networks_and_version_are_those_of_the_repository(self):
        for file in sorted((PACKAGE / "inst/extdata/twelve-banks").iterdir()):
            self.assertEqual(file.read_bytes(), (ROOT / "examples/twelve-banks" / file.name).read_bytes(), file.name)
        version = re.search(r"(?m)^Version: (.*)$", (PACKAGE / "DESCRIPTION").read_text(encoding="utf-8"))
        self.assertEqual(version and version[1], (ROOT / "VERSION").read_text(encoding="utf-8").strip())

    def test_python_reads_the_case_that_r_writes(self):
        self.r(
            "net <- bank_network(data.frame(name = c('A', 'B'), cash = c(7, 1)), data.frame(debtor = 'A', creditor ="
            " 'B', claim = 10))\nlabels <- data.frame(bank = 'A', short = 'A', full = 'Alpha, \"S.A.\"', group = '',"
            " country = 'DE')\ncase <- bank_case(net, title = 'Zwei Banken', as_of = '2026-03-31', test = 'solvency',"
            " currency = 'EUR', unit = '0.01',\n                  labels = labels)\nwrite_case(case, 'case')"
        )
        case = BankCase.read(self.folder / "case")
        self.assertEqual(case.notes, ())
        self.assertEqual(
            (case.title, str(case.as_of), case.test, case.currency), ("Zwei Banken", "2026-03-31", "solvency", "EUR")
        )
        self.assertEqual((str(case.amount(1234)), case.labels["A"].full), ("12.34", 'Alpha, "S.A."'))
        self.assertEqual(case.network.clear().total, Network({"A": 7, "B": 1}, {("A", "B"): 10}).clear().total)

    def test_r_reads_the_case_that_python_writes_and_keeps_what_it_does_not_know(self):
        network = Network({"A": 7, "B": 1}, {("A", "B"): 10})
        case = BankCase(
            network,
            title="Über \\ \u0001 \U0001f600",
            description="Two\nlines.",
            unit="0.01",
            currency="EUR",
            contributors=[{"title": "Ada"}],
        )
        case.others["licenses"] = [{"name": "none"}]
        case.write(self.folder / "python")
        printed = self.r(
            "case <- read_case('python')\n"
            "stopifnot(length(case$notes) == 0)\n"
            "cat(case$unit, case$currency, case$document$contributors[[1]]$title, clear(case)$payments$paid, '\\n')\n"
            "write_case(case, 'r')"
        )
        self.assertEqual(printed.split(), ["0.01", "EUR", "Ada", "7"])
        again = BankCase.read(self.folder / "r")
        self.assertEqual(
            (again.title, again.description, again.author, again.notes), (case.title, case.description, "Ada", ())
        )
        self.assertEqual(again.others["licenses"], [{"name": "none"}])

    def test_both_keep_the_sheets_of_a_case_and_tell_the_same_of_it(self):
        sheets = {"z list.csv": b"debtor,creditor,amount\nA,B,10\n", "banks.xlsx": bytes(range(256))}
        sources = [Source(name, f"sources/{name}", hash_of(data)) for name, data in sheets.items()]
        case = BankCase(Network({"A": 7, "B": 1}, {("A", "B"): 10}), title="Two", sources=sources)
        case.others["clearing"] = {"colour": "red", "x" * 100: 1}
        case.write(self.folder / "python", sources=sheets)
        (self.folder / "python" / "labels.csv").write_text("bank,short,full,group,country\nA,,Alpha,,\n")
        notes = BankCase.read(self.folder / "python").notes
        self.assertEqual(len(notes), 3)
        printed = self.r("case <- read_case('python')\ncat(case$notes, sep = '\\n')\nwrite_case(case, 'r')\n")
        self.assertEqual(tuple(printed.splitlines()), notes)
        again = BankCase.read(self.folder / "r")
        self.assertEqual((again.sheets(), list(again.sources)), (sheets, sources))
        self.assertEqual(again.notes, notes[1:])
        resources = {one["path"]: one for one in again.others["resources"]}
        for name, data in sheets.items():
            one = resources[f"sources/{name}"]
            self.assertEqual((one["bytes"], one["hash"]), (len(data), hash_of(data)))


if __name__ == "__main__":
    unittest.main()
