"""Names of banks that the formats allow and that something may take for something else: the one list for all tests on
names. Whether they come through each tool test_hostile tries, and through the package test_client_names; completions,
lint, pictures, the report and the desk have tests of their own."""
from typing import Iterator, List

ODD_NAMES: List[str] = [
    # Words and signs of a shell.
    "$(touch X)", "`touch X`", "${IFS}", "A$HOME", "d'Italia", "''", "B&W", "a;touch X", "a|touch X", "a>X", "a<b",
    "*", "?", "[a-z]*", "~", "~root", "\\", "a\\", "\\n", "!!", "!$", "#", "a#b", "{a..b}", "(x)", ")", "%s%n", "%q",
    "a:b:c", "a=b", "'", "'''", "it's", ";", "|", "&", "/", ".", "..", "{}",
    # Formulas, numbers and words of the formats.
    "=1+1", "@SUM(A1)", "+1", "a  b", "a - b", "0", "00", "1e3", "1", "nan", "order", "name", "cash", "rule", "debtor",
    "total", "rounds", "null", "true", "\\u0041", "[[scenario]]", "a = 1", "scenario", "bank", "lawful", "NA", "None",
    "inf", "007",
    # Markup.
    "<b>&amp;</b>", "]]>", "<!--",
    # Letters outside ASCII, signs that are not seen or turn the order of letters, and the longest names.
    "Crédit Loire", "Cre\u0301dit Loire", "Straße", "STRASSE", "İ", "漢字", "עברית", "😀", "\U0010ffff", "\u00a0A",
    "A\u00a0", "A\u200b", "\u200bA", "\ufeffA", "A\ufeff", "A\u2028B", "A\u2029B", "\u202eA", "\ue000", "\ufffd",
    "\u00ad", "\ufeff", "\u00a0", "\u2028", "\u200b", "x" * 64, "é" * 32, "😀" * 16,
]
"""Names that a shell, a spreadsheet, a document or a careless reader of lines may take for something else."""

ODD_FIELDS: List[str] = [
    # Numbers in other forms, or greater than any may be.
    "", " ", "0", "00", "7", " 7\t", "1,000", "1.000", "-7", "+7", "1e3", "٣", "9" * 20, "1000001",
    # A rule and a name that are none, quotes and ends of lines.
    "order", "Order", "x" * 65, "A", '"', "a\rb", "\0", "#",
]
"""What is put in the place of a field of a file, by the tests that alter files."""

DASHED: List[str] = ["-", "--", "-A", "--bank=A"]
"""Names that a command line may take for options."""

MARKUP: List[str] = [
    "<script>alert(1)</script>", "</script>", "<img src=x onerror=alert(1)>", "&amp;", "&", "'",
    "</noscript><script>alert(1)</script>", "<svg onload=alert(1)>", "<!--", "-->", "]]>", "<![CDATA[",
    "javascript:alert(1)", "</title>", "</style>", "<base href=//x>", "{{x}}", "${alert(1)}", "\\u003cscript",
    "<a href=#>x</a>", "__proto__", "constructor", "toString", "0", "-1", "null",
]
"""Names that a page, or a script of one, may take for something else."""

MORE_NAMES: List[str] = [
    # Options, formulas and markup.
    "-x", "--help", "--banks", "-o/X", "@x", "=cmd|' /C X'!A0", "=HYPERLINK(1)", "\u00a0=1", "<img src=x onerror=X>",
    "&lt;", "&#0;", "javascript:1", "</svg>",
    # Commands of a shell, and what fills in a text.
    "; touch X", "| touch X", "& touch X", "> X", "' ; touch X ; '", "$HOME", "!x", "\\\\", "[1]", "{'a': 1}", "#x",
    "# x", "${x}", "{0}", "%s", "%(x)s",
    # Mathematics and commands of LaTeX, which pictures might read.
    "$\\alpha$", "$x_1$", "$x_{", "$$", "$", "\\$", "a$b$c", "\\input{X}", "\\write18{touch X}", "x_y^z", "%",
    # Paths.
    "/etc/passwd", "../X", "../../X", "./X", "C:\\X", "X/", "NUL", ".git",
    # Words of the program's tables, and numbers.
    "cut", "of", "creditor", "class", "claim", "paid", "cancelled", "rescue", "short", "banks", "debts", "outside",
    "webster", "yes", "True", "01", "1.0", "1_000", "0x1", "-0", "٣", "²", "½",
    # Letters that are alike, in several forms.
    "A", "a", "Å", "A\u030a", "\u212b", "ﬁ", "ß", "SS", "i\u0307", "\u0390",
]
"""Names that each tool is tried with besides."""


def untrimmed(names: List[str]) -> List[str]:
    """Names without repetition, and without those that a reader of files trims."""
    return [name for name in dict.fromkeys(names) if name.strip(" \t") == name]


def all_names(first: int = 0xA0, last: int = 0x10FFFF, step: int = 1) -> Iterator[str]:
    """Names of at most 64 bytes in which every character from a first to a last one stands that a name may have."""
    name, size = "", 0
    for code in [*range(33, 127), *range(max(first, 160), last + 1, step)]:
        if 0xD800 <= code <= 0xDFFF or chr(code) in ',"':
            continue
        more = len(chr(code).encode())
        if size + more > 62:
            yield f"N{name}N"
            name, size = "", 0
        name, size = name + chr(code), size + more
    yield f"N{name}N"
