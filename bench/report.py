#!/usr/bin/env python3
"""What a report of the largest network costs: its page, its making, the browser, paper, and the memory of a long
journal.

    bench/report.py [--runs N]

The network has 1,000 banks, 20,000 debts and a hundred scenarios; that of the journal is a ring of ten banks round
which one unit goes two million raises. Prints a line for each figure with the bound that it is held to. Making is
told by the clock and of a processor, with the program's own answers apart. The page is ready where its scripts have
run. By the clock a figure means something on a quiet machine alone. The least of the runs is told. The environment
variable CLEARING names the program. Wants Debian's packages chromium, chromium-driver, python3-selenium,
python3-jinja2, node-d3 and poppler-utils; what is missing is left out.

Ends with 0, with 1 where a page cannot be made or a figure is beyond its bound, and with 2 where the words are not
understood.
"""
import argparse
import base64
import os
import pathlib
import re
import shutil
import subprocess
import sys
import tempfile
import time
from typing import Any, Dict, Iterator, List, NamedTuple, Optional, Tuple

BENCH = pathlib.Path(__file__).resolve().parent
ROOT = BENCH.parent
sys.dont_write_bytecode = True
sys.path[:0] = [str(BENCH)]
import frame  # noqa: E402
import inputs  # noqa: E402
import usual_networks  # noqa: E402
from networks import BANKS_HEADER, DEBTS_HEADER, Bank, Debt  # noqa: E402

RAISES = 2_000_000
# What stands in the program's place, and notes for each answer the seconds by the clock and of a processor.
TIMED = """#!/bin/bash
TIMEFORMAT='%R %U %S'
{{ time {program} "$@" 2>&3; }} 3>&2 2>>{log}
"""
# The report in a process that tells its own memory, in MB.
MEMORY = """
import resource
from clearing_tools import cases, files
from clearing_tools.report import command
words = command.build_parser()
asked = words.parse_args()
files.write_all(command.written_of(cases.take_case(words, asked), asked), [])
print(resource.getrusage(resource.RUSAGE_SELF).ru_maxrss / 1000)
"""
READY = "const t = performance.getEntriesByType('navigation')[0]; return t.loadEventEnd / 1000"


class Line(NamedTuple):
    """A figure: what it is, its value and unit, and what it is held to, where it is."""

    what: str
    value: float
    unit: str
    bound: Optional[float] = None

    def __str__(self) -> str:
        """The line that is printed."""
        bound = "" if self.bound is None else f"below {self.bound:g}"
        return f"{self.what:<58}{self.value:>9.2f} {self.unit:<6}{bound}".rstrip()


def program() -> str:
    """The program, by its whole name."""
    return os.path.abspath(os.environ.get("CLEARING") or ROOT / "clearing")


def largest(folder: pathlib.Path) -> List[str]:
    """The largest network with a hundred scenarios, as words of the tool."""
    banks, debts = usual_networks.largest("webster")
    write(folder, banks, debts)
    losses = '[[scenario]]\nname = "shock {0}"\ncut = {1}\n[[scenario.loss]]\nbank = "bank {2}"\namount = {3}\n'
    text = "".join(losses.format(at, 9 * at, 7 * at, 11 * at) for at in range(100))
    (folder / "scenarios.toml").write_text(text)
    return ["--banks", "banks.csv", "--debts", "debts.csv", "--scenarios", "scenarios.toml"]


def ring(folder: pathlib.Path) -> List[str]:
    """A ring of ten banks round which one unit goes until all is paid."""
    banks: List[Bank] = [(f"K{at}", int(at == 0), "order") for at in range(10)]
    write(folder, banks, [(f"K{at}", f"K{(at + 1) % 10}", 1, RAISES // 10) for at in range(10)])
    return ["--banks", "banks.csv", "--debts", "debts.csv"]


def write(folder: pathlib.Path, banks: List[Bank], debts: List[Debt]) -> None:
    """Writes the two files of a network whose banks owe nothing outside."""
    (folder / "banks.csv").write_text(inputs.text_of(BANKS_HEADER, banks))
    (folder / "debts.csv").write_text(inputs.text_of(DEBTS_HEADER, debts))


def made(python: str, words: List[str], folder: pathlib.Path) -> Dict[str, float]:
    """Makes the page once: the seconds by the clock, those without the program's answers, and of the tool's
    processor."""
    log, timed = folder / "answers.log", folder / "timed"
    log.write_text("")
    timed.write_text(TIMED.format(program=program(), log=log))
    timed.chmod(0o755)
    before, start = os.times(), time.perf_counter()
    subprocess.run(
        [python, "-B", str(ROOT / "bin/clearing-report"), *words, "--out", "report.html"],
        cwd=folder,
        env={**os.environ, "CLEARING": str(timed)},
        stdin=subprocess.DEVNULL,
        check=True,
    )
    clock, after = time.perf_counter() - start, os.times()
    answers = [list(map(float, line.split())) for line in log.read_text().splitlines() if re.match(r"[0-9.]+ ", line)]
    spent = after.children_user + after.children_system - before.children_user - before.children_system
    return {
        "clock": clock,
        "rest": clock - sum(answer[0] for answer in answers),
        "answers": sum(answer[1] + answer[2] for answer in answers),
        "tool": spent - sum(answer[1] + answer[2] for answer in answers),
    }


def browser() -> Any:
    """The browser without a window."""
    from selenium import webdriver
    from selenium.webdriver.chrome.service import Service

    options: Any = webdriver.ChromeOptions()
    options.binary_location = shutil.which("chromium") or ""
    for word in ("headless=new", "no-sandbox", "disable-gpu", "disable-dev-shm-usage", "window-size=1280,900"):
        options.add_argument(f"--{word}")
    return webdriver.Chrome(service=Service(shutil.which("chromedriver") or ""), options=options)


def thread_of(driver: Any) -> float:
    """The seconds of a processor that the page's own thread took so far."""
    told = driver.execute_cdp_cmd("Performance.getMetrics", {})["metrics"]
    return float(next(metric["value"] for metric in told if metric["name"] == "ThreadTime"))


def looked_at(page: pathlib.Path, runs: int) -> Tuple[float, float, int]:
    """The seconds until the page is ready, by the clock and of a processor, and how many sheets of paper it is."""
    driver = browser()
    try:
        times, spent = [], []
        driver.execute_cdp_cmd("Performance.enable", {})
        for _ in range(runs):
            driver.get("about:blank")
            before = thread_of(driver)
            driver.get(page.as_uri())
            times.append(float(driver.execute_script(READY)))
            after = thread_of(driver)
            spent.append(after - before if after > before else after)  # a page may have another process
        printed = driver.execute_cdp_cmd("Page.printToPDF", {"preferCSSPageSize": True})["data"]
    finally:
        driver.quit()
    paper = page.with_suffix(".pdf")
    paper.write_bytes(base64.b64decode(printed))
    told = subprocess.run(["pdfinfo", str(paper)], capture_output=True, encoding="utf-8", check=True).stdout
    pages = re.search(r"^Pages:\s+([0-9]+)", told, re.MULTILINE)
    return min(times), min(spent), int(pages[1]) if pages else 0


def memory(python: str, words: List[str], folder: pathlib.Path) -> float:
    """The most memory that the tool held, in MB."""
    done = subprocess.run(
        [python, "-B", "-c", MEMORY, *words, "--out", "ring.html"],
        cwd=folder,
        env={**os.environ, "CLEARING": program(), "PYTHONPATH": str(ROOT / "python/src")},
        stdin=subprocess.DEVNULL,
        stdout=subprocess.PIPE,
        encoding="utf-8",
        check=True,
    )
    return float(done.stdout)


def lines_of(runs: int, python: str, folder: pathlib.Path) -> Iterator[Line]:
    """All figures, as they are found."""
    held = memory(python, ring(folder), folder)
    yield Line(f"memory of the tool, {RAISES:,} raises", held, "MB", 300)
    words = largest(folder)
    each = [made(python, words, folder) for _ in range(runs)]
    best = {key: min(one[key] for one in each) for key in each[0]}
    page = folder / "report.html"
    yield Line("size of the page", page.stat().st_size / 1e6, "MB", 8)
    yield Line("made, by the clock", best["clock"], "s", 10)
    yield Line("made, by the clock without the program's answers", best["rest"], "s")
    yield Line("made, of a processor without the program's answers", best["tool"], "s")
    yield Line("the program's answers, of a processor", best["answers"], "s")
    if shutil.which("chromium") and shutil.which("pdfinfo") and frame.python_with("selenium") == sys.executable:
        ready, spent, pages = looked_at(page, max(runs, 3))
        yield Line("ready in the browser, by the clock", ready, "s", 1.5)
        yield Line("ready in the browser, of a processor", spent, "s")
        yield Line("sheets of paper", pages, "", 12.5)


def main() -> int:
    """Prints the figures."""
    parser = argparse.ArgumentParser(description=__doc__, formatter_class=argparse.RawDescriptionHelpFormatter)
    parser.add_argument("--runs", metavar="N", type=int, default=1, help="how often the page is made (1)")
    asked = parser.parse_args()
    python = frame.python_with("jinja2")
    if python is None:
        print("bench/report.py: no Python here has jinja2 (Debian's package python3-jinja2)", file=sys.stderr)
        return 1
    beyond = []
    with tempfile.TemporaryDirectory() as folder:
        for line in lines_of(max(1, asked.runs), python, pathlib.Path(folder)):
            print(line, flush=True)
            if line.bound is not None and line.value >= line.bound:
                beyond.append(line.what)
    if beyond:
        print(f"bench/report.py: beyond its bound: {', '.join(beyond)}", file=sys.stderr)
    return 1 if beyond else 0


if __name__ == "__main__":
    sys.exit(main())
