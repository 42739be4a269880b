"""Numbers and sentences as a report has them: words up to twelve, a large first letter, and cuts of all cash."""
from clearing_client.format import MAX_CUT

from ..labels import percent

WORDS_TO_TWELVE = (
    "none", "one", "two", "three", "four", "five", "six", "seven", "eight", "nine", "ten", "eleven", "twelve",
)


def number_word(number: int) -> str:
    """A number in a sentence: a word up to twelve."""
    return WORDS_TO_TWELVE[number] if 0 <= number < len(WORDS_TO_TWELVE) else f"{number:,}"


def counted(number: int, one: str = "bank", many: str = "") -> str:
    """A number in a sentence with its noun."""
    return f"{number_word(number)} {one if number == 1 else many or one + 's'}"


def begun(sentence: str) -> str:
    """A sentence with a large first letter."""
    return sentence[:1].upper() + sentence[1:]


def cut_words(cut: int) -> str:
    """A cut of all cash in per mille, as a share."""
    return percent(cut, MAX_CUT)
