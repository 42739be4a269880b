"""The design tokens: one file has them, and their colours are told apart on each ground, by the colour-blind and in
grey print.

Contrast is that of WCAG 2, distance CIEDE2000 (Sharma, Wu and Dalal 2005), and colour blindness the model of Machado,
Oliveira and
Fernandes (2009) at its most severe."""
import itertools
import math
import re
import unittest
from typing import Any, List, Tuple

from common import PACKAGES, Case

from clearing_tools.drawing import tokens
from clearing_tools.drawing.style import COLOUR_OF
from clearing_tools.texts import STATES

BLIND = {
    "none": ((1, 0, 0), (0, 1, 0), (0, 0, 1)),
    "protanopia": ((0.152286, 1.052583, -0.204868), (0.114503, 0.786281, 0.099216), (-0.003882, -0.048116, 1.051998)),
    "deuteranopia": ((0.367322, 0.860646, -0.227968), (0.280085, 0.672501, 0.047413), (-0.011820, 0.042940, 0.968881)),
    "tritanopia": ((1.255528, -0.076749, -0.178779), (-0.078411, 0.930809, 0.147602), (0.004733, 0.691367, 0.303900)),
}
TO_XYZ = ((0.4124, 0.3576, 0.1805), (0.2126, 0.7152, 0.0722), (0.0193, 0.1192, 0.9505))


def linear(colour: str) -> List[float]:
    parts = [int(colour[at : at + 2], 16) / 255 for at in (1, 3, 5)]
    return [part / 12.92 if part <= 0.04045 else ((part + 0.055) / 1.055) ** 2.4 for part in parts]


def contrast(one: str, two: str) -> float:
    low, high = sorted(sum(weight * part for weight, part in zip(TO_XYZ[1], linear(colour))) for colour in (one, two))
    return (high + 0.05) / (low + 0.05)


def lab(colour: str, model: Any = BLIND["none"]) -> Tuple[float, float, float]:
    """The colour in CIE L*a*b*, as one sees it who lacks a kind of cone."""
    seen = [min(1, max(0, sum(a * b for a, b in zip(row, linear(colour))))) for row in model]
    x, y, z = (sum(a * b for a, b in zip(row, seen)) / white for row, white in zip(TO_XYZ, (0.9505, 1, 1.089)))
    f = [part ** (1 / 3) if part > 0.008856 else 7.787 * part + 16 / 116 for part in (x, y, z)]
    return 116 * f[1] - 16, 500 * (f[0] - f[1]), 200 * (f[1] - f[2])


def distance(one: Any, two: Any) -> float:
    """CIEDE2000 of two colours in L*a*b*."""
    (l1, a1, b1), (l2, a2, b2) = one, two
    mean = (math.hypot(a1, b1) + math.hypot(a2, b2)) / 2
    stretch = 1.5 - 0.5 * math.sqrt(mean**7 / (mean**7 + 25**7))
    c1, c2 = math.hypot(stretch * a1, b1), math.hypot(stretch * a2, b2)
    h1, h2 = math.degrees(math.atan2(b1, stretch * a1)) % 360, math.degrees(math.atan2(b2, stretch * a2)) % 360
    turn = 0 if c1 * c2 == 0 else (h2 - h1 + 180) % 360 - 180
    hue = h1 + h2 if c1 * c2 == 0 else ((h1 + h2) / 2 if abs(h1 - h2) <= 180 else (h1 + h2 + 360) / 2)
    lightness, chroma = (l1 + l2) / 2, (c1 + c2) / 2
    t = (
        1
        - 0.17 * math.cos(math.radians(hue - 30))
        + 0.24 * math.cos(math.radians(2 * hue))
        + 0.32 * math.cos(math.radians(3 * hue + 6))
        - 0.2 * math.cos(math.radians(4 * hue - 63))
    )
    by_l = (l2 - l1) / (1 + 0.015 * (lightness - 50) ** 2 / math.sqrt(20 + (lightness - 50) ** 2))
    by_c = (c2 - c1) / (1 + 0.045 * chroma)
    by_h = 2 * math.sqrt(c1 * c2) * math.sin(math.radians(turn / 2)) / (1 + 0.015 * chroma * t)
    spin = (
        -2
        * math.sqrt(chroma**7 / (chroma**7 + 25**7))
        * math.sin(math.radians(60 * math.exp(-(((hue - 275) / 25) ** 2))))
    )
    return math.sqrt(by_l**2 + by_c**2 + by_h**2 + spin * by_c * by_h)


class Colours(unittest.TestCase):
    def test_the_distance_is_that_of_the_published_pairs(self):
        for one, two, expected in (
            ((50, 2.6772, -79.7751), (50, 0, -82.7485), 2.0425),
            ((50, 2.5, 0), (73, 25, -18), 27.1492),
            ((50, 2.5, 0), (50, 3.2592, 0.335), 1.0),
            ((2.0776, 0.0795, -1.135), (0.9033, -0.0636, -0.5514), 0.9082),
        ):
            self.assertAlmostEqual(distance(one, two), expected, delta=0.001)

    def test_each_text_and_mark_can_be_seen_on_its_ground(self):
        for theme in map(tokens.colours_of, tokens.THEMES):
            for ground in ("paper", "panel"):
                for text in ("ink", "ink-2", "unpaid-text", "link"):
                    self.assertGreaterEqual(contrast(theme[text], theme[ground]), 4.5, (text, ground))
            for mark in ("unpaid", "paid", "sound", "contagion", "fundamental", "focus"):
                self.assertGreaterEqual(contrast(theme[mark], theme["paper"]), 3, mark)

    def test_marks_are_told_apart_by_all_who_look(self):
        for name in ("light", "dark"):
            theme = tokens.colours_of(name)
            for blind, model in BLIND.items():
                seen = {
                    mark: lab(theme[mark], model)
                    for mark in ("unpaid", "paid", "sound", "contagion", "fundamental", "paper")
                }
                for one, two in itertools.combinations(seen, 2):
                    # Paid and sound are both grey: a line and a hollow circle.
                    if {one, two} != {"paid", "sound"}:
                        self.assertGreater(distance(seen[one], seen[two]), 10, (name, blind, one, two))
                self.assertGreater(distance(seen["unpaid"], seen["paid"]), 30, (name, blind))

    def test_a_copy_in_grey_tells_unpaid_from_paid(self):
        for name, least in (("light", 12), ("dark", 12), ("grey", 40)):
            theme = tokens.colours_of(name)
            self.assertGreater(abs(lab(theme["unpaid"])[0] - lab(theme["paid"])[0]), least, name)
        grey = tokens.colours_of("grey")
        self.assertEqual(
            [name for name, colour in grey.items() if len({colour[1:3], colour[3:5], colour[5:7]}) > 1], []
        )
        self.assertEqual(set(COLOUR_OF), set(STATES))
        self.assertLessEqual(set(COLOUR_OF.values()), set(grey))


class OneFile(Case):
    def test_nothing_else_names_a_colour_or_a_font(self):
        own = {"tokens.css"}
        # The desk's icon stands in a tab of the browser, which has no style.
        found = []
        for path in sorted((PACKAGES / "clearing_tools").rglob("*")):
            if path.suffix in (".py", ".css", ".html", ".js", ".mjs") and path.name not in own:
                for number, line in enumerate(path.read_text(encoding="utf-8").split("\n"), 1):
                    if (
                        re.search(
                            (
                                r"#(?:[0-9a-fA-F]{6}|[0-9a-fA-F]{3})\b(?!;)|\brgba?\((?!0 0 0"
                                r" /)|\bhsl\(|sans-serif|system-ui"
                            ),
                            line,
                        )
                        and "favicon" not in line
                    ):
                        found.append(f"{path.name}:{number}: {line.strip()[:80]}")
        self.assertEqual([line for line in found if not line.startswith("app.py")], [])

    def test_each_theme_has_each_colour_and_each_name_used_is_there(self):
        self.assertEqual(set(tokens.DARK), set(tokens.LIGHT))
        self.assertEqual(
            set(re.findall(r"--([a-z0-9-]+):", tokens.css().partition("monochrome")[2])), set(tokens.LIGHT)
        )
        known = {*tokens.tokens_of("light"), "v"}
        for path in sorted((PACKAGES / "clearing_tools/report").rglob("*.css")) + sorted(
            (PACKAGES / "clearing_tools/drawing").rglob("*.css")
        ):
            text = path.read_text(encoding="utf-8")
            used, here = set(re.findall(r"var\(--([a-z0-9-]+)", text)), set(re.findall(r"--([a-z0-9-]+):", text))
            self.assertEqual(used - known - here, set(), path.name)
        # Six sizes of letters, and a grid of 8 pixels.
        sizes = [tokens.tokens_of("light")[f"t{at}"] for at in range(6)]
        self.assertEqual([16 * float(size.removesuffix("rem")) for size in sizes], [12, 14, 16, 18, 24, 32])
        steps = [
            int(value.removesuffix("px"))
            for name, value in tokens.tokens_of("light").items()
            if re.fullmatch(r"s[1-9]", name)
        ]
        self.assertEqual([step for step in steps if step % 8], [])
