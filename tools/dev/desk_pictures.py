#!/usr/bin/env python3
"""Takes the pictures of the desk for docs/pictures: those of the guide, and three cases at four widths, in both themes
and on paper.

    tools/dev/desk_pictures.py [--only NAME] [FOLDER]     docs/pictures where no folder is named

Out:  desk.png, the page after a shock of three banks; desk-bank.png, the account of a bank on a phone in the dark; and
      in desk/ the twelve banks of the examples, sixteen banks two of which have names of 80 signs, and a network of
      1,000 banks, each after a cut of all cash and with a bank chosen. With --only those of the guide (`guide`), or
      of one case (`twelve`, `long`, `thousand`).

Wants a python3 with bottle, Selenium and PIL, Chromium and its driver, pdftoppm, and d3 (Debian's packages
python3-bottle, python3-selenium, python3-pil, chromium, chromium-driver, poppler-utils and node-d3). The environment
variable CLEARING names another program. Ends with 0, with 1 where a picture cannot be made, and with 2 where the words
are not understood.
"""
import argparse
import base64
import contextlib
import pathlib
import re
import subprocess
import sys
import tempfile
import time
from typing import Any, Callable, Iterator, List, NamedTuple, Optional

sys.dont_write_bytecode = True
from report_pictures import TWELVE, browser, long_names, side_by_side, thousand  # noqa: E402

ROOT = pathlib.Path(__file__).resolve().parents[2]
EXAMPLE = ["--banks", f"{TWELVE}/banks.csv", "--debts", f"{TWELVE}/debts.csv",
           "--scenarios", f"{TWELVE}/scenarios.toml", "--unit", "1000", "--currency", "EUR", "--title", "Twelve banks"]
LOSSES = (("Birk", "1500000"), ("Isar", "1000000"), ("Fjord", "1000000"))
SHARES = {390: 1.0, 800: 0.75, 1280: 0.65, 1920: 0.5}
MOST = 3200  # of the page, in pixels from its top
ANSWERED = ("!document.querySelector('#answer-rescue .stops')"
            " && /pay in full|none/.test(document.getElementById('answer-rescue').textContent)")
SAVED = ("/pay in full/.test(document.getElementById('answer-rescue').textContent)"
         " && !document.querySelector('#answer-rescue .stops')")
CHOOSE = ("document.querySelector('#picture a[data-bank=\"5\"]')"
          ".dispatchEvent(new MouseEvent('click', {bubbles: true, cancelable: true}))")


class Drawn(NamedTuple):
    """A case that is drawn: its name in those of the pictures, its words, the cut of all cash, and the chosen bank."""

    name: str
    words: Callable[[], List[str]]
    cut: str
    bank: str


def until(driver: Any, script: str) -> None:
    """Waits until a script answers what holds; a TimeoutError after five minutes."""
    ends = time.monotonic() + 300
    while not driver.execute_script(f"return {script}"):
        if time.monotonic() > ends:
            raise TimeoutError(script)
        time.sleep(0.05)


def small(path: pathlib.Path, share: float = 1.0) -> None:
    """Makes a picture small: fewer pixels, and few colours, those that are frequent and those that stand alone."""
    from PIL import Image

    image = Image.open(path).convert("RGB")
    image = image.resize((round(image.width * share), round(image.height * share)), Image.LANCZOS)
    chosen: List[int] = []
    for method, count in ((Image.Quantize.MEDIANCUT, 80), (Image.Quantize.MAXCOVERAGE, 48)):
        chosen += image.quantize(count, method=method, dither=Image.Dither.NONE).getpalette()[:3 * count]
    palette = Image.new("P", (1, 1))
    palette.putpalette(chosen + chosen[:3] * (256 - len(chosen) // 3))
    image.quantize(palette=palette, dither=Image.Dither.NONE).save(path, optimize=True)


def seen(driver: Any, wide: int, theme: str = "light") -> None:
    """Sees the page at a width in pixels, in a theme."""
    size = {"width": wide, "height": 900, "deviceScaleFactor": 1, "mobile": False}
    driver.execute_cdp_cmd("Emulation.setDeviceMetricsOverride", size)
    feature = {"name": "prefers-color-scheme", "value": theme}
    driver.execute_cdp_cmd("Emulation.setEmulatedMedia", {"media": "", "features": [feature]})
    time.sleep(0.7)


class Part(NamedTuple):
    """A part of the page as wide as that, in pixels: its height, all of the page up to a limit where none is said, and
    its top."""

    wide: int
    tall: Optional[int] = None
    top: int = 0


def shot(driver: Any, path: pathlib.Path, part: Part, share: float = 1.0) -> None:
    """A picture of a part of the page, which is seen at its width already, with this share of its pixels each way."""
    tall = part.tall or min(MOST, driver.execute_script("return document.documentElement.scrollHeight"))
    clip = {"x": 0, "y": part.top, "width": part.wide, "height": tall, "scale": 1}
    how = {"format": "png", "clip": clip, "captureBeyondViewport": True}
    taken = driver.execute_cdp_cmd("Page.captureScreenshot", how)
    path.write_bytes(base64.b64decode(taken["data"]))
    small(path, share)


def printed(driver: Any, path: pathlib.Path) -> None:
    """The pages on paper, side by side."""
    from PIL import Image

    done = driver.execute_cdp_cmd("Page.printToPDF", {"preferCSSPageSize": True, "printBackground": True})
    with tempfile.TemporaryDirectory() as folder:
        paper = pathlib.Path(folder, "paper.pdf")
        paper.write_bytes(base64.b64decode(done["data"]))
        subprocess.run(["pdftoppm", "-r", "60", "-png", str(paper), f"{folder}/paper"], check=True)
        sheets = [Image.open(one).convert("RGB") for one in sorted(pathlib.Path(folder).glob("paper-*.png"))]
    side_by_side(sheets).save(path)
    small(path)


@contextlib.contextmanager
def desk(words: List[str]) -> Iterator[str]:
    """A desk on some words: the link to it. A RuntimeError where it has none."""
    run = [sys.executable, "-B", str(ROOT / "bin/clearing-desk"), *words, "--no-browser"]
    process = subprocess.Popen(run, stdin=subprocess.DEVNULL, stdout=subprocess.PIPE, encoding="utf-8")
    assert process.stdout
    try:
        found = re.search("http://[^ \n]*", process.stdout.readline())
        if not found:
            raise RuntimeError("the desk has no link")
        yield found[0]
    finally:
        process.terminate()
        process.communicate()


def shocked(driver: Any, link: str, cut: str, bank: str) -> None:
    """Goes to the state of a cut, in thousandths, and chooses a bank by its name."""
    driver.get(link)
    seen(driver, 1280)
    until(driver, "document.documentElement.dataset.ready")
    driver.execute_script("const e = document.getElementById('cut'); e.value = arguments[0];"
                          " e.dispatchEvent(new Event('change'))", cut)
    until(driver, "location.hash === '#state-1'")
    driver.execute_script("""const e = document.getElementById('find'); e.value = arguments[0];
        e.dispatchEvent(new Event('input')); document.querySelector('#found button').click()""", bank)
    until(driver, "!!document.getElementById('account')")
    driver.execute_script("const ask = document.getElementById('ask-curve'); if (!ask.hidden) ask.click();"
                          "document.getElementById('ask-rescue').click()")
    until(driver, "/%|no cut/.test(document.getElementById('next')?.textContent ?? '')")
    until(driver, ANSWERED)
    driver.execute_script("document.activeElement.blur(); scrollTo(0, 0)")


def draw_case(driver: Any, case: Drawn, folder: pathlib.Path) -> None:
    """A case at all widths, in both themes and on paper."""
    with desk(case.words()) as link:
        shocked(driver, link, case.cut, case.bank)
        for wide, share in SHARES.items():
            seen(driver, wide)
            shot(driver, folder / f"{case.name}-{wide}.png", Part(wide), share)
        seen(driver, 1280, "dark")
        shot(driver, folder / f"{case.name}-1280-dark.png", Part(1280), SHARES[1280])
        seen(driver, 1280)
        printed(driver, folder / f"{case.name}-print.png")
        driver.get("about:blank")


def enter_losses(driver: Any) -> None:
    """Builds the scenario of the guide, and goes to its state."""
    driver.execute_script("document.getElementById('build-open').click();"
                          " document.getElementById('scenario-name').value = 'Three banks'")
    for at, (bank, loss) in enumerate(LOSSES):
        if at:
            driver.execute_script("document.getElementById('loss-more').click()")
        driver.execute_script("const l = document.querySelectorAll('.loss')[arguments[0]];"
                              " l.querySelector('.loss-bank').value = arguments[1];"
                              " l.querySelector('.loss-amount').value = arguments[2]", at, bank, loss)
    driver.execute_script("document.getElementById('build-done').click()")
    until(driver, "location.hash === '#state-1'")


def draw_guide(driver: Any, folder: pathlib.Path) -> None:
    """Does what the guide tells, and takes its two pictures."""
    with desk(EXAMPLE) as link:
        driver.get(link)
        seen(driver, 1280)
        until(driver, "document.documentElement.dataset.ready")
        enter_losses(driver)
        driver.execute_script("document.getElementById('keep-open').click();"
                              " document.getElementById('keep-done').click()")
        driver.execute_script(CHOOSE)
        until(driver, "!!document.getElementById('ask-rescue')")
        driver.execute_script("document.getElementById('ask-rescue').click()")
        until(driver, SAVED)
        until(driver, "/%/.test(document.getElementById('next')?.textContent ?? '')")
        driver.execute_script("document.activeElement.blur(); scrollTo(0, 0)")
        shot(driver, folder / "desk.png", Part(1280, 880), 0.8)
        seen(driver, 390, "dark")
        top = driver.execute_script("const box = document.getElementById('bank').getBoundingClientRect();"
                                    " return Math.round(box.top + scrollY) - 12")
        shot(driver, folder / "desk-bank.png", Part(390, 740, top))
        driver.get("about:blank")


def main() -> int:
    """Takes the pictures that are asked for. The status."""
    parser = argparse.ArgumentParser(description=__doc__, formatter_class=argparse.RawDescriptionHelpFormatter)
    parser.add_argument("--only", choices=("guide", "twelve", "long", "thousand"), help="these alone")
    parser.add_argument("folder", metavar="FOLDER", nargs="?", type=pathlib.Path, default=ROOT / "docs/pictures")
    asked = parser.parse_args()
    (asked.folder / "desk").mkdir(parents=True, exist_ok=True)
    driver = browser()
    try:
        with tempfile.TemporaryDirectory() as work:
            for case in (
                Drawn("twelve", lambda: EXAMPLE, "950", "Fjord"),
                Drawn("long", lambda: [str(long_names(pathlib.Path(work, "long")))], "750", "SGC"),
                Drawn("thousand", lambda: [str(thousand(pathlib.Path(work, "thousand")))], "300", "B0001"),
            ):
                if asked.only in (None, case.name):
                    draw_case(driver, case, asked.folder / "desk")
        if asked.only in (None, "guide"):
            draw_guide(driver, asked.folder)
    finally:
        driver.quit()
    return 0


if __name__ == "__main__":
    sys.exit(main())
