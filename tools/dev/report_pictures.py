#!/usr/bin/env python3
"""Takes the pictures of the report for docs/pictures/report: three cases at four widths, in both themes and on paper.

    tools/dev/report_pictures.py [FOLDER [CASE]..]     docs/pictures/report and all cases where nothing is named

The cases are `twelve`, the twelve banks of the examples; `long`, sixteen banks two of which have names of 80 signs; and
`thousand`, a network of 1,000 banks with a hundred scenarios, made by a number. A picture of a screen ends below the
table of banks, or where it is as tall as a picture may be; `CASE-first.png` is the first screen of it. The environment
variable CLEARING names the program, else it is the repository's. Wants Debian's packages chromium, chromium-driver,
python3-selenium, python3-jinja2, python3-markdown-it, node-d3, poppler-utils and python3-pil.

Ends with 0, with 1 where a page cannot be made or shown, and with 2 where the words are not understood.
"""
import base64
import pathlib
import random
import shutil
import subprocess
import sys
import tempfile
from typing import Any, Callable, Dict, List, Tuple

ROOT = pathlib.Path(__file__).resolve().parents[2]
sys.dont_write_bytecode = True
sys.path[:0] = [str(ROOT / "python/src")]
import clearing_client as cc  # noqa: E402

TWELVE = ROOT / "examples/twelve-banks"
SEED = 5  # the same networks each time
TALLEST = {390: 6800, 800: 4800, 1280: 3900, 1920: 4300}
SHARES = {390: 0.9, 800: 0.7, 1280: 0.65, 1920: 0.5}
COLOURS, DOTS, ACROSS = 64, 56, 4
FIRST = 0.86  # how tall the first screen is, of its width
NAMES = [
    "Banco Atlántico",
    "Österreichische Kredit AG",
    "Raiffeisen Tirol",
    "Deutsche Handelsbank AG",
    "ING-Delta N.V.",
    "KBC Zuid",
    "Ålandsbanken Syd",
    "LBH",
    "Crédit du Rhône",
    "SGC",
    "Münchner Landesbank",
    "Helvetia Kantonalbank",
    "Bank Polski Kredyt S.A.",
    "Sparkasse Elbe-Weser",
    "Nordea-Sør ASA",
    "Banca del Lago S.p.A.",
]
LONG = {
    "LBH": "Landesbank für Handel, Gewerbe und Landwirtschaft der Norddeutschen Küstenländer AG",
    "SGC": "Société Générale de Crédit Industriel et Commercial de la Principauté de Monaco S.A.",
}
TEXT = (
    "Amounts are the interbank claims of the November return, *without* collateral. Havel's cash is its balance at the"
    " central bank **after** the reserve requirement."
)
Rows = List[Tuple[str, str, int, int]]


def case_of(folder: pathlib.Path, network: cc.Network, scenarios: bytes, **more: Any) -> pathlib.Path:
    """Writes the case of a network into a folder."""
    author = [{"title": "Financial Stability", "roles": ["author"]}]
    known: Dict[str, Any] = {"as_of": "2026-11-30", "test": "liquidity", "currency": "EUR", "contributors": author}
    cc.Case(network, scenarios=scenarios, **known, **more).write(folder)
    return folder


def debts_of(rows: Rows) -> Dict[Tuple[str, str, int], int]:
    """Debts by their debtor, creditor and class."""
    return {(debtor, creditor, class_): claim for debtor, creditor, class_, claim in rows}


def twelve(folder: pathlib.Path) -> pathlib.Path:
    """The twelve banks of the examples."""
    network = cc.Network(str(TWELVE / "banks.csv"), str(TWELVE / "debts.csv"))
    scenarios = (TWELVE / "scenarios.toml").read_bytes()
    return case_of(folder, network, scenarios, title="Twelve banks", unit="1000", description=TEXT)


def long_names(folder: pathlib.Path) -> pathlib.Path:
    """Sixteen banks, two of them with long names."""
    chance = random.Random(SEED)
    banks = {name: chance.randint(100, 9000) for name in NAMES}
    rows = [
        (name, other, chance.choice([1, 1, 2]), chance.randint(200, 6000))
        for name in NAMES
        for other in chance.sample([other for other in NAMES if other != name], chance.randint(3, 6))
    ]
    scenarios = (
        '[[scenario]]\nname = "mild"\ncut = 100\n'
        '[[scenario]]\nname = "severe: three quarters of all cash are gone on one day"\ncut = 750\n'
    )
    labels = [cc.Label(code, full=name) for code, name in LONG.items()]
    network = cc.Network(banks, debts_of(rows), rule="webster")
    return case_of(folder, network, scenarios.encode(), title="Sixteen banks", unit="100000", labels=labels)


def thousand(folder: pathlib.Path) -> pathlib.Path:
    """A thousand banks, some of which owe to very many, and a hundred scenarios."""
    chance, owed, pairs = random.Random(SEED), [0] * 1000, set()
    banks = {f"B{at:04d}": chance.randint(0, 9000 if at % 3 else 1200) for at in range(1000)}
    rows: Rows = []
    while len(rows) < 4000:
        debtor, creditor, claim = int(chance.paretovariate(0.6)) % 1000, chance.randrange(1000), chance.randint(10, 900)
        if owed[debtor] + claim > 400_000:
            debtor = chance.randrange(1000)
        if debtor != creditor and (debtor, creditor) not in pairs and owed[debtor] + claim < 500_000:
            pairs.add((debtor, creditor))
            owed[debtor] += claim
            rows.append((f"B{debtor:04d}", f"B{creditor:04d}", chance.choice([1, 2, 3]), claim))
    shock = '[[scenario]]\nname = "shock number {0}"\ncut = {1}\n[[scenario.loss]]\nbank = "B{0:04d}"\namount = {2}\n'
    scenarios = "".join(shock.format(at, 9 * at, 1100 * at) for at in range(1, 101))
    network = cc.Network(banks, debts_of(rows), rule="webster")
    return case_of(folder, network, scenarios.encode(), title="System of 1,000 banks", unit="200000")


CASES: Dict[str, Callable[[pathlib.Path], pathlib.Path]] = {
    "twelve": twelve,
    "long": long_names,
    "thousand": thousand,
}


def page_of(case: pathlib.Path, page: pathlib.Path) -> pathlib.Path:
    """The page of a case."""
    words = [sys.executable, "-B", str(ROOT / "bin/clearing-report"), str(case), "--out", str(page)]
    subprocess.run(words, check=True, stdin=subprocess.DEVNULL)
    return page


def browser() -> Any:
    """The browser without a window."""
    from selenium import webdriver
    from selenium.webdriver.chrome.options import Options
    from selenium.webdriver.chrome.service import Service

    options: Any = Options()
    options.binary_location = shutil.which("chromium") or ""
    for word in ("--headless=new", "--no-sandbox", "--disable-gpu", "--disable-dev-shm-usage", "--hide-scrollbars"):
        options.add_argument(word)
    return webdriver.Chrome(service=Service(shutil.which("chromedriver") or ""), options=options)


def small(png: pathlib.Path, share: float = 1.0) -> None:
    """Makes a picture small: fewer pixels, and few colours."""
    from PIL import Image

    image = Image.open(png).convert("RGB")
    if share != 1:
        image = image.resize((round(image.width * share), round(image.height * share)), Image.LANCZOS)
    image.quantize(COLOURS, method=Image.Quantize.FASTOCTREE, dither=Image.Dither.NONE).save(png, optimize=True)


def take(driver: Any, page: pathlib.Path, out: pathlib.Path, wide: int, theme: str = "light") -> None:
    """A page at a width, in a theme, from its top to the end of the table of banks."""
    size = {"width": wide, "height": 900, "deviceScaleFactor": 1, "mobile": False}
    driver.execute_cdp_cmd("Emulation.setDeviceMetricsOverride", size)
    feature = {"name": "prefers-color-scheme", "value": theme}
    driver.execute_cdp_cmd("Emulation.setEmulatedMedia", {"media": "", "features": [feature]})
    driver.get(page.as_uri())
    end = driver.execute_script("return document.querySelector('#banks').getBoundingClientRect().bottom + scrollY + 24")
    clip = {"x": 0, "y": 0, "width": wide, "height": min(TALLEST[wide], round(end)), "scale": 1}
    taken = driver.execute_cdp_cmd("Page.captureScreenshot", {"captureBeyondViewport": True, "clip": clip})
    out.write_bytes(base64.b64decode(taken["data"]))
    small(out, SHARES[wide])


def side_by_side(sheets: List[Any]) -> Any:
    """One picture of sheets of one size, in rows of four."""
    from PIL import Image

    wide, tall = sheets[0].size
    across = min(ACROSS, len(sheets))
    whole = Image.new("RGB", (across * (wide + 8), -(-len(sheets) // across) * (tall + 8)), "#888888")
    for at, sheet in enumerate(sheets):
        whole.paste(sheet, (at % across * (wide + 8), at // across * (tall + 8)))
    return whole


def printed(driver: Any, page: pathlib.Path, out: pathlib.Path) -> None:
    """The pages on paper, side by side."""
    from PIL import Image

    driver.get(page.as_uri())
    done = driver.execute_cdp_cmd("Page.printToPDF", {"preferCSSPageSize": True, "printBackground": True})
    with tempfile.TemporaryDirectory() as folder:
        work = pathlib.Path(folder)
        (work / "paper.pdf").write_bytes(base64.b64decode(done["data"]))
        subprocess.run(["pdftoppm", "-r", str(DOTS), "-png", str(work / "paper.pdf"), str(work / "paper")], check=True)
        sheets = [Image.open(path).convert("RGB") for path in sorted(work.glob("paper-*.png"))]
    side_by_side(sheets).save(out)
    small(out)


def first_screen(whole: pathlib.Path, out: pathlib.Path) -> None:
    """The top of a picture: the finding, the four figures, the summary and the picture of the network."""
    from PIL import Image

    image = Image.open(whole)
    image.crop((0, 0, image.width, round(FIRST * image.width))).save(out, optimize=True)


def pictures_of(driver: Any, page: pathlib.Path, name: str, to: pathlib.Path) -> None:
    """All pictures of a page."""
    for wide in TALLEST:
        take(driver, page, to / f"{name}-{wide}.png", wide)
    first_screen(to / f"{name}-1280.png", to / f"{name}-first.png")
    take(driver, page, to / f"{name}-1280-dark.png", 1280, "dark")
    printed(driver, page, to / f"{name}-print.png")


def main() -> int:
    """Takes the pictures."""
    words = sys.argv[1:]
    names = words[1:] or list(CASES)
    if any(word.startswith("-") or not word for word in words) or not set(names) <= set(CASES):
        print((__doc__ or "").split("\n\n")[1], file=sys.stderr)
        return 2
    to = pathlib.Path(words[0] if words else ROOT / "docs/pictures/report").resolve()
    to.mkdir(parents=True, exist_ok=True)
    with tempfile.TemporaryDirectory() as folder:
        work = pathlib.Path(folder)
        driver = browser()
        try:
            for name in names:
                case = CASES[name](work / name)
                pictures_of(driver, page_of(case, work / f"{name}.html"), name, to)
        finally:
            driver.quit()
    return 0


if __name__ == "__main__":
    sys.exit(main())
