"""What the tests of the desk in headless Chromium share: a desk that is opened there, what is done on its page, and
what the page then shows.

They want bottle, Chromium, its driver, Selenium and d3 (Debian's packages python3-bottle, chromium, chromium-driver,
python3-selenium and node-d3), and are skipped where one of them is not there."""
import pathlib
import re
import unittest
from typing import Any, Dict, Iterable, List, Optional, Sequence, Tuple

from browser import Browsing, Keys, selenium
from common import TWELVE, Word, files_of
from desk import REASON as NO_BOTTLE
from desk import Running, payments_of, standings

Rows = Sequence[Sequence[str]]
"""Records that the program prints; those of banks have name, estate, paid, owed, equity and state."""
STATES = {"sound": "sound", "fundamental": "own fundamentals", "contagion": "contagion"}
"""What the page calls the states that the program prints."""


def strip(text: str) -> str:
    """A text without the marks that hold a name apart, and with plain blanks between numbers and units."""
    return text.replace("\u2068", "").replace("\u2069", "").replace("\u00a0", " ")


def named(text: str) -> str:
    """A name without the mark of a bank that one unit decides."""
    return strip(text).removesuffix(" ≈")


def grouped(units: int) -> str:
    """Units as the page writes them."""
    return f"{units:,}".replace("-", "−")


def signed(units: int) -> str:
    """A difference as the page writes it."""
    return f"+{units:,}" if units > 0 else grouped(units)


def flows_of(payments: Rows) -> List[str]:
    """What the drawing must say of some lines of payments: a line for each pair of banks."""
    pairs: Dict[Tuple[str, str], Tuple[int, int]] = {}
    for debtor, creditor, _, claim, paid in payments:
        sums = pairs.get((debtor, creditor), (0, 0))
        pairs[debtor, creditor] = sums[0] + int(claim), sums[1] + int(paid)
    return sorted(
        f"{debtor} to {creditor}: {paid:,} of {claim:,} paid" for (debtor, creditor), (claim, paid) in pairs.items()
    )


def differences_of(before: Rows, now: Rows) -> Dict[str, List[str]]:
    """What the table must say of each bank, by the records of banks that the program prints."""
    is_same = [row[1:] for row in before] == [row[1:] for row in now]
    expected = {}
    for was, is_ in zip(before, now):
        unpaid, kept = [int(row[3]) - int(row[2]) for row in (was, is_)], [int(row[4]) for row in (was, is_)]
        state = STATES[is_[5]] if was[5] == is_[5] else f"{STATES[was[5]]} → {STATES[is_[5]]}"
        if is_same:
            expected[is_[0]] = [state, grouped(unpaid[1]), grouped(kept[1])]
        else:
            columns = ([*map(grouped, two), signed(two[1] - two[0])] for two in (unpaid, kept))
            expected[is_[0]] = [state, *(cell for column in columns for cell in column)]
    return expected


def large(folder: pathlib.Path, banks: int, debts: int) -> List[Word]:
    """The words for a network of so many banks and debts, of which many are not paid in full."""
    lines = [f"bank {at},{at * 7919 % 5000},webster" for at in range(banks)]
    found: Dict[Tuple[int, int], int] = {}
    for at in range(10 * debts):
        pair = at % banks, (at % banks + 1 + at // banks * 37) % banks
        if pair[0] != pair[1] and len(found) < debts:
            found.setdefault(pair, 1 + at * 104729 % 990)
    (folder / "banks.csv").write_text("name,cash,rule\n" + "\n".join(lines) + "\n")
    (folder / "debts.csv").write_text(
        "debtor,creditor,class,claim\n" + "".join(f"bank {a},bank {b},1,{claim}\n" for (a, b), claim in found.items())
    )
    return files_of(folder)


@unittest.skipIf(NO_BOTTLE, NO_BOTTLE)
class DeskPage(Browsing):
    """A case that opens desks in the browser, by default on the twelve banks of the examples."""

    def setUp(self) -> None:
        """Begins without a desk, and with nothing that the console may say."""
        super().setUp()
        self.expected: List[str] = []  # parts of what the console may say
        self.hosts: List[str] = []  # the desks of this test

    def tearDown(self) -> None:
        """No request leaves this machine's desk, and no error is on the console but those of faults that are
        expected."""
        told, asked = self.logged()
        self.assertTrue(asked)
        # What begins with blob: is the page's own, on the way to a PNG.
        own = tuple(f"{kind}http://{host}/" for host in self.hosts for kind in ("", "blob:"))
        self.assertEqual([url for url in asked if not url.startswith(own)], [])
        self.assertEqual([line for line in told if not any(part in line for part in self.expected)], [])

    # What is done on the page.

    def open(self, files: Optional[Iterable[Word]] = None, *more: Word, program: Optional[Word] = None) -> None:
        """Opens a desk on some files."""
        self.desk = Running(self, files_of(TWELVE) if files is None else files, *more, program=program)
        self.hosts.append(self.desk.host)
        self.driver.get(self.desk.link)
        self.ready()

    def open_session(self, path: pathlib.Path) -> None:
        """Ends the desk, and opens a session at another."""
        self.driver.get("about:blank")
        self.desk.end()
        self.open([], "--session", path)

    def ready(self) -> None:
        """Waits for the page to be laid out."""
        self.until(lambda: self.js("return document.documentElement.dataset.ready"))

    def chord(self, *keys: str) -> None:
        """Presses keys that are held down before the last."""
        chain = selenium("common.action_chains").ActionChains(self.driver)
        for key in keys[:-1]:
            chain.key_down(key)
        chain.send_keys(keys[-1])
        for key in keys[:-1]:
            chain.key_up(key)
        chain.perform()

    def slide(self, name: str, value: int) -> None:
        """Moves a slider, and lets it go."""
        self.js(
            "const s = document.getElementById(arguments[0]); s.value = arguments[1];"
            " s.dispatchEvent(new Event('input')); s.dispatchEvent(new Event('change'))",
            f"{name}-slide",
            value,
        )

    def pick(self, key: str, value: str) -> None:
        """Picks a value of a list."""
        self.js(
            "const e = document.getElementById(arguments[0]); e.value = arguments[1];"
            " e.dispatchEvent(new Event('change'))",
            key,
            value,
        )

    def fill_in(self, key: str, value: str) -> None:
        """Fills in a field, and sends nothing."""
        self.js("document.getElementById(arguments[0]).value = arguments[1]", key, value)

    def unfold(self, key: str) -> None:
        """Opens a part of the page that is folded."""
        self.js("document.getElementById(arguments[0]).open = true", key)

    def focus(self, key: str) -> None:
        """Gives an element the focus."""
        self.js("document.getElementById(arguments[0]).focus()", key)

    def type_in(self, key: str, value: str) -> None:
        """Types a value in a field, and Enter."""
        self.js("const e = document.getElementById(arguments[0]); e.focus(); e.select()", key)
        self.press(value, Keys.ENTER)

    def choose(self, bank: int) -> None:
        """Clicks a bank in the picture, and waits for its part."""
        self.js(
            'document.querySelector(`#picture a[data-bank="${arguments[0]}"]`)'
            ".dispatchEvent(new MouseEvent('click', {bubbles: true, cancelable: true}))",
            bank,
        )
        name = self.names()[bank]
        self.until(
            lambda: self.js("return document.getElementById('bank-name')?.textContent.includes(arguments[0])", name)
        )
        for part in ("change-bank", "owed-part"):
            self.unfold(part)

    def tab(self, name: str) -> None:
        """Goes to a state that is kept."""
        self.js(
            "[...document.querySelectorAll('#tabs button')].find(b => b.textContent === arguments[0]).click()", name
        )

    def keep(self, name: str, note: str = "") -> None:
        """Keeps the state at hand under a name."""
        self.click("keep-open")
        self.fill_in("keep-name", name)
        self.fill_in("keep-note", note)
        self.click("keep-done")
        self.until(lambda: not self.js("return document.getElementById('keep-dialog').open"))

    def against(self, words: str) -> None:
        """Holds the state at hand against another."""
        self.js(
            "const s = document.getElementById('against'), o = [...s.options].find(o => o.text === arguments[0]);"
            " s.value = o.value; s.dispatchEvent(new Event('change'))",
            words,
        )
        is_same = self.js("return document.getElementById('against').value === `state-${location.hash.split('-')[1]}`")
        self.until(
            lambda: self.text("differ-title") == "The banks" if is_same else f"“{words}”" in self.text("compared")
        )

    def build(self, losses: Sequence[Tuple[str, str]], name: str, cut: str) -> None:
        """Fills the form of a scenario, and sends it."""
        self.fill_in("scenario-name", name)
        self.fill_in("scenario-cut", cut)
        for at, (bank, amount) in enumerate(losses):
            if at >= self.js("return document.querySelectorAll('.loss').length"):
                self.click("loss-more")
            self.js(
                "const l = document.querySelectorAll('.loss')[arguments[0]];"
                " l.querySelector('.loss-bank').value = arguments[1];"
                " l.querySelector('.loss-amount').value = arguments[2]",
                at,
                bank,
                amount,
            )
        self.click("build-done")

    # What the page shows.

    def text(self, key: str) -> str:
        """The text of an element, without the marks of banks that one unit decides, which come when a state stands
        still."""
        return strip(self.js("return document.getElementById(arguments[0])?.innerText ?? ''", key)).replace(" ≈", "")

    def texts(self, selector: str) -> List[str]:
        """The texts of all elements of a kind, as they stand in the page."""
        return list(self.js("return [...document.querySelectorAll(arguments[0])].map(e => e.textContent)", selector))

    def count(self, selector: str) -> int:
        """How many elements of a kind the page has."""
        return int(self.js("return document.querySelectorAll(arguments[0]).length", selector))

    def state(self) -> int:
        """The number of the state at hand."""
        found = re.search("#state-([0-9]+)$", self.driver.current_url)
        assert found
        return int(found[1])

    def until_state(self, number: int) -> None:
        """Waits for a state to be at hand."""
        self.until(lambda: self.state() == number)

    def names(self) -> List[str]:
        """The names of the banks."""
        return list(self.js("return fetch('network').then(a => a.json()).then(a => a.names)"))

    def taken(self, what: str) -> bytes:
        """A file that is taken away."""
        script = (
            "return fetch(document.getElementById(arguments[0]).href).then(a => a.arrayBuffer())"
            ".then(b => [...new Uint8Array(b)])"
        )
        return bytes(self.js(script, f"take-{what}"))

    def taken_files(self) -> List[Word]:
        """The words for the two files of the state at hand."""
        for what in ("banks", "debts"):
            self.file(f"{what}.csv", self.taken(what))
        return files_of(self.folder)

    def rows(self, key: str = "differences") -> List[List[str]]:
        """The rows of a table: the name of a bank, and the other cells."""
        rows = self.js(
            "return [...document.getElementById(arguments[0]).tBodies].flatMap(b => [...b.rows])"
            ".map(r => [...r.cells].map(c => c.innerText.trim()))",
            key,
        )
        return [[named(row[0]), *map(strip, row[1:])] for row in rows]

    def picture(self) -> List[str]:
        """What the drawing says of each debt drawn."""
        return sorted(strip(title).partition(";")[0] for title in self.texts("#picture g[data-flow] > title"))

    def account(self) -> List[List[Any]]:
        """The lines of the account that is shown: words and the amount in the state at hand."""
        rows = self.js(
            "return [...document.querySelectorAll('#account tbody tr:not(.inner), #account tfoot tr')]"
            ".map(r => [...r.cells].map(c => c.innerText.trim()))"
        )
        return [[named(row[0]), *(int(cell.replace(",", "").replace("−", "-")) for cell in row[1:-1])] for row in rows]

    # What it must show.

    def base(self) -> List[List[str]]:
        """What the program says of the banks as they are."""
        return standings("defaults", *files_of(TWELVE))

    def assert_shown(self, before: Rows, now: Rows, payments: Rows) -> None:
        """The figures, the table of what differs and the picture are those of the program's tables."""
        # The column of how much a state has changed is of the page alone.
        left_out = 2 if [row[1:] for row in before] == [row[1:] for row in now] else 4
        shown = {row[0]: [cell for at, cell in enumerate(row[1:]) if at != left_out] for row in self.rows()}
        self.assertEqual(shown, differences_of(before, now))
        self.assertEqual(self.text("sum-defaults"), str(sum(row[5] != "sound" for row in now)))
        self.assertEqual(self.text("sum-pays"), f"{sum(int(row[2]) for row in now):,} units")
        self.assertEqual(self.text("sum-keeps"), f"{sum(int(row[4]) for row in now):,} units")
        self.assertEqual([title for title in self.picture() if ": 0 of 0 paid" not in title], flows_of(payments))

    def assert_is_cleared(self) -> None:
        """What is shown is what the program says of the two files of the state at hand."""
        files = self.taken_files()
        self.assert_shown(self.base(), standings("defaults", *files), payments_of(*files))
