#!/usr/bin/env python3
"""Draws the architecture: the crates in layers, what data flows between the layers, and where threads are.

    tools/dev/architecture.py > docs/pictures/architecture.svg

In:  crates.txt of the repository, which says what each crate stands on, and the sources, which say where threads are
     started and where atomic words are used. The layers and what flows between them stand in this script.
Out: the picture as SVG on standard output.

Ends with 0, with 1 where a crate is in no layer or stands on one of a higher layer, and with 2 where the words are not
understood.
"""
import argparse
import html
import pathlib
import re
import sys
from typing import Dict, List, NamedTuple, Optional

ROOT = pathlib.Path(__file__).resolve().parents[2]
sys.dont_write_bytecode = True
sys.path.insert(0, str(ROOT / "tools/dev"))
import crates  # noqa: E402


class Layer(NamedTuple):
    """Crates that stand side by side: what they are for, their names, and what they take from the layers below."""

    what: str
    crates: List[str]
    takes: Optional[str]


# From the top.
LAYERS = [
    Layer("Tests", ["top_tests", "run_tests", "call_tests", "law_tests", "net_samples"],
          "public calls"),
    Layer("The program", ["clear_main", "clear_top", "clear_load", "clr_host"],
          "texts, and the record of the run"),
    Layer("Written", ["clear_stress", "clear_many", "clear_report"],
          "standings, greatest payments and waves, sums, shocked networks"),
    Layer("Asked of a network", ["cascade", "upper", "rescue", "descent", "impact", "costs", "compress", "stress"],
          "least payments, and the journal of the run"),
    Layer("The run of workers", ["settle", "bank_worker", "bank_desk", "pay_words", "shares"],
          "a network; what is lawful"),
    Layer("Read and printed", ["clear_words", "net_csv", "net_check", "net_gen", "raise_journal", "clr_edge"],
          "raises, and the verdict on them"),
    Layer("The clearing process", ["clear_least", "clear_core"],
          "a bank's division of what it has"),
    Layer("Networks and rules", ["clr_net", "rule_level", "rule_class", "rule_divisor", "rule_kinds", "rule_unit"],
          None),
]
WIDTH, LEFT, BOX, GAP, BAND, FLOW = 1060, 210, 98, 7, 62, 34
FILLS = {"starts threads": "#f3c9a5", "words that threads share": "#f7e6b0", "": "#e4ecf4"}


def stands_on() -> Dict[str, List[str]]:
    """What each crate stands on, by crates.txt: of the repository's own crates alone."""
    return crates.stands_on(ROOT)


def faults_of(below: Dict[str, List[str]]) -> List[str]:
    """What is wrong with the layers: crates in none or in two, and crates that stand on a higher one."""
    level = {crate: -number for number, layer in enumerate(LAYERS) for crate in layer.crates}
    told = [crate for layer in LAYERS for crate in layer.crates]
    faults = [f"{name} is in no layer" for name in below if name not in level]
    faults += [f"{name} is in a layer, but not in crates.txt" for name in level if name not in below]
    faults += [f"{name} is in two layers" for name in sorted(set(told)) if told.count(name) > 1]
    faults += [f"{name} stands on {other}, which is in a higher layer" for name, others in below.items()
               for other in others if name in level and other in level and level[other] > level[name]]
    return faults


def part_in_threads(crate: str) -> str:
    """What a crate has to do with threads, as a key of FILLS: nothing, also where it has tests alone, is ""."""
    sources = [path.read_text(encoding="utf-8") for path in sorted((ROOT / "crates" / crate / "src").glob("*.rt"))
               if path.stem != "tests" and crate not in LAYERS[0].crates]
    if any(re.search(r"use std::thread::\{[^}]*join", source) for source in sources):
        return "starts threads"
    return "words that threads share" if any("use atomic_table::" in source for source in sources) else ""


def text(x: float, y: float, words: str, size: int = 13, more: str = "") -> str:
    """Words at a place of the picture, in pixels, with further attributes."""
    return f'<text x="{x}" y="{y}" font-size="{size}" {more}>{html.escape(words)}</text>'


def box(crate: str, below: List[str], x: int, y: int) -> List[str]:
    """The lines of a crate, whose box begins at a place of the picture."""
    part = part_in_threads(crate)
    title = html.escape(f"{crate}{': ' if part else ''}{part}; stands on {', '.join(below) or 'nothing'}")
    return [f'<rect x="{x}" y="{y}" width="{BOX}" height="{BAND - 24}" rx="4" fill="{FILLS[part]}" '
            f'stroke="#555555"><title>{title}</title></rect>',
            text(x + BOX / 2, y + 24, crate, 13, 'text-anchor="middle"')]


def picture(below: Dict[str, List[str]]) -> List[str]:
    """The lines of the picture of crates, each with those that it stands on."""
    height = 20 + len(LAYERS) * BAND + (len(LAYERS) - 1) * FLOW + 46
    lines = [
        f'<svg xmlns="http://www.w3.org/2000/svg" viewBox="0 0 {WIDTH} {height}" width="{WIDTH}" height="{height}" '
        'font-family="sans-serif" role="img">',
        "<title>The crates in layers</title>",
        "<desc>" + "; ".join(f"{layer.what}: {', '.join(layer.crates)}" for layer in LAYERS) + "</desc>",
        f'<rect width="{WIDTH}" height="{height}" fill="white"/>',
    ]
    y = 20
    for layer in LAYERS:
        lines.append(f'<rect x="10" y="{y}" width="{WIDTH - 20}" height="{BAND}" rx="6" fill="#f7f7f7" '
                     'stroke="#cccccc"/>')
        lines.append(text(24, y + 36, layer.what, 14, 'font-weight="bold"'))
        for place, crate in enumerate(layer.crates):
            lines += box(crate, below[crate], LEFT + place * (BOX + GAP), y + 12)
        y += BAND
        if layer.takes:
            middle = LEFT + 40
            lines.append(f'<path d="M{middle} {y + FLOW - 3} V{y + 5} m-5 8 l5 -8 l5 8" fill="none" stroke="#333333"/>')
            lines.append(text(middle + 16, y + 22, layer.takes, 13, 'font-style="italic"'))
            y += FLOW
    y += 14
    x = LEFT
    for part in ("starts threads", "words that threads share"):
        lines.append(f'<rect x="{x}" y="{y}" width="22" height="14" rx="3" fill="{FILLS[part]}" stroke="#555555"/>')
        lines.append(text(x + 30, y + 12, part))
        x += 230
    lines.append("</svg>")
    return lines


def main() -> None:
    """Prints the picture, or ends with what is wrong with the layers."""
    words = argparse.ArgumentParser(description=__doc__, formatter_class=argparse.RawDescriptionHelpFormatter)
    words.parse_args()
    below = stands_on()
    faults = faults_of(below)
    if faults:
        sys.exit("architecture.py: " + "; ".join(faults))
    try:
        with open(1, "w", encoding="utf-8", closefd=False) as output:
            output.write("\n".join(picture(below)) + "\n")
    except OSError as fault:
        sys.exit(f"architecture.py: cannot write the output: {fault.strerror}")


if __name__ == "__main__":
    main()
