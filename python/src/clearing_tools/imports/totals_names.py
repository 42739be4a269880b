"""Names that lines of totals have."""
import unicodedata

TOTALS = {
    "total",
    "totals",
    "grand total",
    "subtotal",
    "sub-total",
    "sum",
    "sums",
    "σ",
    "∑",
    "summe",
    "gesamt",
    "gesamtsumme",
    "insgesamt",
    "gesamtergebnis",
    "somme",
    "total général",
    "total general",
    "totale",
    "totali",
    "totaal",
    "suma",
    "soma",
    "summa",
    "razem",
    "celkem",
    "yhteensä",
}


def is_called_total(name: str) -> bool:
    """Whether a name is one that lines of totals have."""
    return unicodedata.normalize("NFKC", name).strip(" :.*").casefold() in TOTALS
