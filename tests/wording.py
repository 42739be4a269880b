"""The words that say what no result does, each with what is said in its place. docs/INTERPRETING.md gives the reasons:
a label is no cause, what is unpaid is no loss, and a loss is what all keep less."""
import re
from typing import List, Tuple

FORBIDDEN: List[Tuple[str, str]] = [
    (r"creditors?(?: banks?)? (?:will |would )?(?:lose|loses|lost)", "unpaid, or keep less"),
    (r"\bothers? lose\b", "others keep less"),
    (r"lost by (?:banks|creditors|others)|lost outside", "unpaid"),
    (r"contagion from|infected by", "the label contagion, which names no debtor"),
    (r"(?:defaults?|falls?|fails?|is in default|are in default) because", "with the label"),
    (r"(?:by )?another cause|by which causes|by what cause", "with the other label"),
    (r"brought down|brings? down", "then in default"),
]
"""What is said nowhere: a pattern, and what is said in its place."""

ON_PAGES: List[Tuple[str, str]] = [
    *FORBIDDEN,
    (r"\bcauses?\b", "label"),
    (r"\bbecause\b", "with the label"),
    (r"\b(?:brought|brings?) (?:\w+ ){1,3}down\b", "then in default"),
]
"""What is said on no page and in no picture beside; a document may tell what a label is not."""


def faults_in(text: str, on_page: bool = False) -> List[Tuple[str, str]]:
    """What a text says that no result does, each with what is said in its place."""
    return [
        (found.group(0), instead)
        for pattern, instead in (ON_PAGES if on_page else FORBIDDEN)
        for found in re.finditer(pattern, text, re.IGNORECASE)
    ]
