"""What is odd in names that the program takes: signs that are not seen, what a spreadsheet takes for a formula, letters
of several scripts, and names that look the same."""
from __future__ import annotations

import re
import unicodedata
from typing import Dict, Iterator, List, Optional, Sequence, Tuple

from ..runner import UNSEEN, shown

# What goes together in one name: scripts that one language writes side by side.
TOGETHER = [{"LATIN", "CJK", "HIRAGANA", "KATAKANA", "HANGUL", "BOPOMOFO"}]
SCRIPT = re.compile("([A-Z]+)[ -].*(?:LETTER|SYLLABLE|IDEOGRAPH)")


def script_of(letter: str) -> Optional[str]:
    """The script of a letter by its name in Unicode, or nothing where it has none of its own."""
    if not unicodedata.category(letter).startswith("L"):
        return None
    match = SCRIPT.match(unicodedata.name(unicodedata.normalize("NFKC", letter)[0], ""))
    return match[1] if match and match[1] != "MODIFIER" else None


def scripts_of(name: str) -> List[str]:
    """The scripts of a name that do not go together, in the order of its letters; none where they do."""
    scripts = list(dict.fromkeys(script for script in map(script_of, name) if script)) if not name.isascii() else []
    return [] if len(scripts) < 2 or any(set(scripts) <= kinds for kinds in TOGETHER) else scripts


def look_of(name: str) -> str:
    """A name as it looks: without what is not seen, with one blank where there are several, and with each letter in one
    form."""

    def seen(match: re.Match[str]) -> str:
        return " " if unicodedata.category(match[0]) == "Zs" else match[0] if match[0] == "<" else ""

    return unicodedata.normalize("NFC", " ".join(UNSEEN.sub(seen, name).split()))


# What a spreadsheet takes for a formula at the start of a cell.
FORMULA = re.compile(r"[=+@-]")


def oddities(names: Sequence[str]) -> Iterator[Tuple[int, str]]:
    """What is odd in some names, each once: the place of the name, and what it is."""
    first: Dict[str, int] = {}
    for at, name in enumerate(names):
        signs = list(dict.fromkeys(sign for sign in UNSEEN.findall(name) if sign != "<"))
        if signs:
            codes = " and ".join(f"U+{ord(sign):04X}" for sign in signs)
            yield at, f"the name {shown(name)!r} has {codes}, which is not seen"
        if FORMULA.match(name):
            yield at, f"a spreadsheet takes the name {shown(name)!r} for a formula; import what has it as text"
        scripts = scripts_of(name)
        if scripts:
            called = " and ".join(script.capitalize() for script in scripts)
            yield at, f"the name {shown(name)!r} has letters of {called}"
        other = names[first.setdefault(look_of(name), at)]
        if other != name:
            yield at, f"the names {shown(other)!r} and {shown(name)!r} look the same"
