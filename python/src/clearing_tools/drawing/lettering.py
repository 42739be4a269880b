"""Names and numbers in a picture: how wide a text is, how it is laid in lines, and where a name is cut."""
import unicodedata
from typing import List

BOLD = 1.12  # how much wider bold letters are
WIDTHS = {"mwMW@%…": 0.88, "frtI()[]/-": 0.4, "ijl.,:;|' ": 0.33, "0123456789": 0.64}
WIDTH_OF = {letter: width for letters, width in WIDTHS.items() for letter in letters}
CUT = "…"
MOST_IN_SENTENCE = 28  # so many letters of a name stand in a sentence
LEAST_WORD = 4  # a cut is after a whole word of so many letters, so that no line ends with an article


def width_of(text: str, size: float, is_bold: bool = False) -> float:
    """About how wide a text is, in pixels, by the widest font of the stack."""
    width = 0.0
    for letter in text:
        if unicodedata.combining(letter):
            continue
        wide = unicodedata.east_asian_width(letter) in "WF"
        width += 1.05 if wide else WIDTH_OF.get(letter, 0.72 if letter.isupper() else 0.61)
    return size * width * (BOLD if is_bold else 1)


def fitting(text: str, width: float, size: float, is_bold: bool = False) -> str:
    """As many letters of a text as are no wider than that, at least one."""
    end = 1
    while end < len(text) and width_of(text[: end + 1], size, is_bold) <= width:
        end += 1
    return text[:end]


def cut(text: str, width: float, size: float, is_bold: bool = False) -> str:
    """A text that is no wider than that: whole, or cut after a whole word of four letters or more, with … behind it.
    Within a word it is cut only where its first word is wider."""
    if width_of(text, size, is_bold) <= width:
        return text
    room = width - width_of(CUT, size, is_bold)
    words = text.split(" ")
    words_kept = words[:1]
    for word in words[1:]:
        if width_of(" ".join([*words_kept, word]), size, is_bold) > room:
            break
        words_kept.append(word)
    while len(words_kept) > 1 and len(words_kept[-1]) < LEAST_WORD:
        words_kept.pop()
    held = " ".join(words_kept).rstrip(",;:-")
    return (held if width_of(held, size, is_bold) <= room else fitting(held, room, size, is_bold)) + CUT


def lines_of(text: str, width: float, size: float, is_bold: bool = False, most: int = 2) -> List[str]:
    """A text in at most so many lines that are no wider than that, broken at blanks; the last is cut where there is
    more."""
    words = text.split(" ")
    lines: List[str] = []
    while words and len(lines) < most - 1:
        line = words.pop(0)
        while words and width_of(f"{line} {words[0]}", size, is_bold) <= width:
            line += f" {words.pop(0)}"
        if width_of(line, size, is_bold) > width:
            # A word that is wider than a line is broken within.
            first = fitting(line, width, size, is_bold)
            words.insert(0, line[len(first) :])
            line = first
        lines.append(line)
    return [*lines, cut(" ".join(words), width, size, is_bold)] if words else lines


def short(text: str) -> str:
    """A name in a sentence: whole where it is not long, else cut after a whole word of four letters or more."""
    if len(text) <= MOST_IN_SENTENCE:
        return text
    start = text[:MOST_IN_SENTENCE]
    words_kept = start.rpartition(" ")[0].split(" ") if " " in start else [start[:-1]]
    while len(words_kept) > 1 and len(words_kept[-1]) < LEAST_WORD:
        words_kept.pop()
    return " ".join(words_kept).rstrip(",;:-") + CUT
