"""How amounts are read as they stand in a sheet, and printed for people."""
import re
import unicodedata
from fractions import Fraction
from typing import Dict, Optional, Set, Tuple, Union

BLANKS = " \t\u00a0\u2007\u2009\u202f"
SAME_SIGN = {**{blank: " " for blank in BLANKS}, "\u2019": "'"}
DASHES = "-\u2010\u2011\u2012\u2013\u2014\u2212"
SIGNS = {"€": "EUR", "£": "GBP"}
PLAIN = re.compile(r"[0-9]*([.,' ][0-9]*)*", re.ASCII)
POWER = re.compile(r"([0-9]*)(?:([.,])([0-9]*))?[eE]([+-]?[0-9]{1,2})", re.ASCII)
MOST_DIGITS = 40


Amount = Union[int, Fraction]


class Cell(str):
    """A cell of a workbook: its text, and its number where it has one, or why it is none; with the currency of its
    format."""

    value: Optional[Amount] = None
    fault: Optional[str] = None
    currency: Optional[str] = None


class AmountError(Exception):
    """A text that is no amount; with the kind of a question, where one answer serves many cells."""

    def __init__(self, what: str, question: object = None, kind: str = "no amount") -> None:
        super().__init__(what)
        self.question, self.kind = question, kind


class Amounts:
    """Reads amounts as they stand in a sheet: with a decimal sign, separators between thousands, an exponent, or a
    currency.

    What could be read in two ways is refused, unless --decimal or --thousands says which sign is which; so is a sign
    that is used in two ways. A number of a workbook is itself."""

    def __init__(
        self,
        decimal: Optional[str] = None,
        thousands: Optional[str] = None,
        empty_words: bool = False,
        is_signed: bool = False,
    ) -> None:
        self.decimal, self.thousands = decimal, thousands
        # Whether NULL and its like are 0, and whether an amount below 0 is read as one.
        self.empty_words, self.is_signed = empty_words, is_signed
        if decimal is None and thousands in (".", ","):
            self.decimal = "," if thousands == "." else "."
        # The use of each sign and the currency, with the text that showed it; what was read of texts, and the numbers
        # of workbooks.
        self.uses: Dict[str, Tuple[str, str]] = {}
        self.currency: Optional[Tuple[str, str]] = None
        self.read_before: Dict[str, Amount] = {}
        self.numbers: Set[Amount] = set()

    def read(self, text: str) -> Amount:
        """The amount in a cell: an integer or a fraction. Fails with `AmountError` where it is none."""
        if isinstance(text, Cell):
            return self.of_cell(text)
        amount = self.read_before.get(text)
        if amount is None:
            amount = self.read_before[text] = self.of_text(text)
        return amount

    def scale(self) -> int:
        """How many of the finest amount that was read make one, of the amounts that are no whole numbers."""
        fractions = [amount for amount in (*self.read_before.values(), *self.numbers) if not isinstance(amount, int)]
        scale: int = 10 ** max(map(decimals_of, fractions), default=0)
        return scale

    def of_cell(self, cell: Cell) -> Amount:
        """The amount of a cell of a workbook: its number, or what its text says."""
        if cell.fault:
            raise AmountError(f"{str(cell)!r} {cell.fault}")
        value: Optional[Amount] = cell.value
        if value is None:
            return self.of_text(str(cell))
        if value < 0 and not self.is_signed:
            raise AmountError(below_zero(str(cell)), kind="below 0")
        if cell.currency and value:
            self.see_currency(cell.currency, str(cell))
        self.numbers.add(value)
        return value

    def of_text(self, text: str) -> Amount:
        """The amount of a text, with its sign and without its currency."""
        if text.isascii() and text.isdigit() and len(text) <= MOST_DIGITS:
            return int(text)
        text = "".join(SAME_SIGN.get(c, c) for c in text).strip(" ")
        if is_null(text):
            if self.empty_words:
                return 0
            what = f"{text!r} is not an amount; say --empty 0 to read it as 0, or --leave-out empty"
            raise AmountError(what, kind="null")
        digits, currency = bare(text)
        if digits == "" or all(c in DASHES for c in digits):
            if currency and not digits:
                raise AmountError(f"{text!r} is not an amount")
            return 0
        amount = self.number(text, digits)
        if is_negative(digits) and amount and not self.is_signed:
            raise AmountError(below_zero(text), kind="below 0")
        if currency:
            self.see_currency(currency, text)
        return -amount if is_negative(digits) else amount

    def see_currency(self, currency: str, text: str) -> None:
        """Refuses a currency that is another than those before."""
        self.currency = self.currency or (currency, text)
        if self.currency[0] != currency:
            raise AmountError(
                f"{text!r} is of another currency than {self.currency[1]!r}: {currency}, not {self.currency[0]}; "
                "convert all amounts to one"
            )

    def number(self, text: str, digits: str) -> Amount:
        """The number of a text, whatever its sign, by its digits and the signs between them."""
        if is_negative(digits):
            digits = digits.strip(DASHES + "() ")
        if not any(c.isascii() and c.isdigit() for c in digits) or len(digits) > 2 * MOST_DIGITS:
            raise AmountError(f"{text!r} is not an amount")
        power = POWER.fullmatch(digits)
        if power:
            if power[2]:
                self.use(text, power[2], "decimals")
            return decimal_of(power[1], power[3] or "") * Fraction(10) ** int(power[4])
        if not PLAIN.fullmatch(digits):
            raise AmountError(f"{text!r} is not an amount")
        sign = self.decimal_sign(text, digits)
        whole, _, part = digits.rpartition(sign) if sign else (digits, "", "")
        separators = {c for c in whole if not c.isdigit()}
        for c in separators:
            self.use(text, c, "thousands")
        if len(separators) > 1 or separators and not (is_in_threes(whole) or is_indian(whole)):
            raise AmountError(f"{text!r} is not an amount: its digits do not stand in groups of three")
        if sign:
            self.use(text, sign, "decimals")
        return decimal_of("".join(c for c in whole if c.isdigit()), part)

    def decimal_sign(self, text: str, digits: str) -> Optional[str]:
        """The sign before the decimals, or none where all signs stand between thousands."""
        signs = [c for c in digits if not c.isdigit()]
        last = signs[-1] if signs else None
        if last not in (".", ","):
            return None
        if signs.count(last) > 1:
            return None
        if len(signs) > 1 or last == self.decimal:
            return last
        if self.decimal is not None or last == self.thousands:
            return None
        before, _, behind = digits.partition(last)
        if self.thousands is not None or len(behind) != 3 or not 1 <= len(before) <= 3 or before[0] == "0":
            return last
        question = f"{text}: thousands or decimals? say --thousands {last} or --decimal {last}"
        raise AmountError(question, last)

    def use(self, text: str, sign: str, use: str) -> None:
        """Remembers a use of a sign, and refuses another of it, or two signs for decimals."""
        uses = {self.decimal: "decimals", self.thousands: "thousands"}
        if sign in uses and uses[sign] != use or use == "decimals" and self.decimal not in (None, sign):
            raise AmountError(self.question_of(text, sign, use), ("sign", sign, use))
        other = self.uses.get(sign)
        if other and other[0] != use:
            raise AmountError(
                f"{text!r} has {sign!r} before {use}, and {other[1]!r} before {other[0]}; say --decimal or --thousands"
            )
        if use == "decimals":
            for seen, (what, where) in self.uses.items():
                if what == use and seen != sign:
                    raise AmountError(
                        f"{text!r} has {sign!r} before its decimals, and {where!r} has {seen!r}; say --decimal"
                    )
        self.uses.setdefault(sign, (use, text))

    def question_of(self, text: str, sign: str, use: str) -> str:
        """What is asked where a sheet has a sign otherwise than a word says."""
        word = {"decimals": "--decimal", "thousands": "--thousands"}
        named = word["thousands" if use == "decimals" and sign == self.thousands else "decimals"]
        return f"{text!r} has {sign!r} before its {use}, and {named} says otherwise; is {word[use]} {sign} meant?"


NULLS = {"null", "(null)", "na", "n/a", "n.a.", "none", "nan", "nil"}
"""What databases and programs write where there is nothing."""


def is_null(text: str) -> bool:
    """Whether a text says that there is nothing."""
    return text.casefold() in NULLS


def below_zero(text: str) -> str:
    """What is said of an amount below 0."""
    hint = "say --turn negative, or --leave-out negative"
    return f"{text!r} is below 0; what a bank is owed stands as a debt of the bank that owes: {hint}"


def is_in_threes(whole: str) -> bool:
    """Whether digits stand in groups of three, such as 1,234,567."""
    return re.fullmatch(r"[0-9]{1,3}(\D[0-9]{3})+", whole) is not None


def is_indian(whole: str) -> bool:
    """Whether digits stand as in India, such as 12,34,567: three at the end, and two in each group before."""
    return re.fullmatch(r"[0-9]{1,2}(,[0-9]{2})+,[0-9]{3}", whole) is not None


def bare(text: str) -> Tuple[str, Optional[str]]:
    """A text without a currency at one of its ends, and that currency or nothing."""
    for pattern in (
        r"(?P<code>[^\W\d_]{3}|[^\W\d_]{0,3}\W)(?P<rest>.*)",
        r"(?P<rest>.*?)(?P<code>[^\W\d_]{3}|[^\W\d_]{0,2}\W)",
    ):
        match = re.fullmatch(pattern, text, re.DOTALL)
        if match and is_currency(match["code"]):
            return match["rest"].strip(" "), SIGNS.get(match["code"], match["code"])
    return text, None


def is_currency(code: str) -> bool:
    """Whether it is a currency: three capitals, or what ends with a sign such as that of the euro."""
    return re.fullmatch("[A-Z]{3}", code) is not None or unicodedata.category(code[-1]) == "Sc"


def is_negative(text: str) -> bool:
    """Whether an amount is below 0: a dash stands before or behind it, or it stands in parentheses."""
    return text[0] in DASHES or text[-1] in DASHES or text[0] == "(" and text[-1] == ")"


def decimal_of(whole: str, part: str) -> Amount:
    """The number of some digits, and of others behind the decimal sign."""
    if not whole + part or len(whole) > MOST_DIGITS or len(part) > MOST_DIGITS:
        raise AmountError(f"{whole}.{part} is not an amount")
    number = Fraction(int(whole + part or "0"), 10 ** len(part))
    return int(number) if number.denominator == 1 else number


def shown(amount: Amount) -> str:
    """An amount as a decimal number with commas between thousands."""
    amount = Fraction(amount)
    places = decimals_of(amount)
    whole, part = divmod(abs(amount) * 10**places, 10**places)
    text = f"{whole:,}" + (f".{int(part):0{places}d}" if places else "")
    return f"-{text}" if amount < 0 else text


def decimals_of(amount: Amount) -> int:
    """How many decimals a number needs; a fraction without an end is cut at 12."""
    if isinstance(amount, int) or amount.denominator == 1:
        return 0
    places, rest = 0, amount.denominator
    while rest % 10 == 0:
        places, rest = places + 1, rest // 10
    for prime in (2, 5):
        while rest % prime == 0:
            places, rest = places + 1, rest // prime
    return places if rest == 1 and places < 60 else 12
