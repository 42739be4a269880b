"""What stands twice in the packages. `clearing_tools.runner` and its modules stand alone, so that evidence can be
judged, and `clearing_client` stands on no tools: so a few functions are in both, word by word. No other function
stands twice, and what each of them is for is made nowhere anew."""
import ast
import collections
import re
import unittest
from typing import Iterator, Tuple

from common import PACKAGES

LEAST = 400
"""So long is the tree of a body that is looked for elsewhere."""
BOTH = {
    ("clearing_client/program.py", "clearing_tools/finding.py"): {"on_path"},
    ("clearing_client/program.py", "clearing_tools/running.py"): {"processors", "signals_wait"},
}
# What is done in these functions alone, each with how it is known.
ALONE = {
    # The desk has a tool run on few processors.
    r"\bcpu_count\(|sched_getaffinity\(|SC_NPROCESSORS": {
        "program.py: processors",
        "running.py: processors",
        "takeaway.py: run_tool",
    },
    r"get_exec_path\(": {"program.py: on_path", "finding.py: on_path"},
    # Of bytes that are there the module is called at once.
    r"hashlib\.sha256\(\)": {"finding.py: digest_of", "case.py: hash_in", "plain_files.py: checksum_of"},
    r"& 0o044|& 0o040": {"files.py: mask_of"},
}


def functions() -> Iterator[Tuple[str, str, str, str]]:
    """The functions of the packages: the file, the name, the tree of the body and the text, both without what the
    function is for."""
    for path in sorted(PACKAGES.rglob("*.py")):
        for node in ast.walk(ast.parse(path.read_text(encoding="utf-8"))):
            if isinstance(node, ast.FunctionDef):
                body = node.body[1:] if ast.get_docstring(node) else node.body
                yield str(path.relative_to(PACKAGES)), node.name, "\n".join(map(ast.dump, body)), "\n".join(
                    map(ast.unparse, body)
                )


class Twice(unittest.TestCase):
    def test_what_stands_twice_is_the_same_and_is_known(self):
        places = collections.defaultdict(list)
        for path, name, tree, _ in functions():
            if len(tree) > LEAST:
                places[tree].append((path, name))
        found = collections.defaultdict(set)
        for same in places.values():
            if len(same) > 1:
                paths, names = zip(*same)
                self.assertEqual(len(set(names)), 1, same)
                found[paths].add(names[0])
        self.assertEqual(dict(found), BOTH)

    def test_what_one_function_does_no_other_does_anew(self):
        found = {words: set() for words in ALONE}
        for path, name, _, text in functions():
            for words in ALONE:
                if re.search(words, text):
                    found[words].add(f"{path.rpartition('/')[2]}: {name}")
        for words, places in found.items():
            self.assertEqual(places - ALONE[words], set(), words)
