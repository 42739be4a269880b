"""The scripts of the pages are typed, and each module says what it is for: its types hold, each name that it exports
has a comment that tells its parameters, and no function is long."""
import json
import pathlib
import re
import shutil
import subprocess
import unittest
from typing import Iterator, Tuple

from common import ROOT, Case, needs
from sources import FOLDERS, MODULES

SETTINGS = ROOT / "tests/script/tsconfig.json"
MOST_LINES = 30  # of a function
# What a module exports, with the comment before it.
EXPORT = re.compile(
    r"^(?P<comment>/\*\*(?:(?!\*/)[\s\S])*\*/\n)?export (?:const|class) (?P<name>\w+)(?P<rest>.*)", re.MULTILINE
)
# The first line of a function, or of a method of a class, that has more lines than one.
OPENS = re.compile(
    r"^(?P<indent> *)(?:(?:export )?const (?P<const>\w+) = .*=>.*[({]|(?:async )?(?:get )?(?P<method>\w+)\(.*\) \{)$"
)
NO_METHOD = ("if", "for", "while", "switch")


def functions_in(text: str) -> Iterator[Tuple[str, int]]:
    """The functions of a module, each with how many lines it has: to the first line that is indented no more."""
    lines = text.split("\n")
    for at, line in enumerate(lines):
        found = OPENS.match(line)
        if found and found["method"] not in NO_METHOD:
            indent = found["indent"]
            ends = (
                place
                for place, other in enumerate(lines[at + 1 :], at + 1)
                if other.strip() and not other.startswith(indent + " ")
            )
            yield found["const"] or found["method"], next(ends) - at + 1


class Modules(unittest.TestCase):
    def test_each_says_what_it_is_for(self):
        for path in MODULES:
            self.assertRegex(path.read_text(encoding="utf-8"), r"^// [A-Z]", path.name)

    def test_what_each_exports_says_what_it_is_and_what_it_takes(self):
        count = 0
        for path in MODULES:
            for found in EXPORT.finditer(path.read_text(encoding="utf-8")):
                rest, comment = found["rest"], found["comment"] or ""
                taken = re.match(r" = (?:async )?\((?P<names>[^)]+)\) =>", rest)
                if "=>" in rest or " {" in rest:
                    self.assertTrue(comment, f"{path.name}: {found['name']}")
                if taken:
                    count += 1
                    self.assertIn("@param", comment, f"{path.name}: {found['name']}")
        self.assertGreater(count, 80)

    def test_no_function_is_long(self):
        lines = {f"{path.name}: {name}": count for path in MODULES for name, count in functions_in(path.read_text())}
        self.assertGreater(len(lines), 250)
        self.assertEqual({name: count for name, count in lines.items() if count > MOST_LINES}, {})
        long = "const long = () => {\n" + MOST_LINES * "  one();\n" + "};\n"
        found = list(functions_in(long + "class A {\n  b() {\n    c();\n  }\n}\n"))
        self.assertEqual(found, [("long", MOST_LINES + 2), ("b", 3)])

    def test_no_module_has_a_value_that_others_set(self):
        for path in MODULES:
            self.assertNotRegex(path.read_text(encoding="utf-8"), r"(?m)^(?:export )?(?:let|var)\b", path.name)


@needs("tsc")
class Types(Case):
    def tsc(self, folder: pathlib.Path) -> Tuple[int, str]:
        """What the checker of types says of the modules of a checkout."""
        words = ["tsc", "-p", str(folder / SETTINGS.relative_to(ROOT))]
        done = subprocess.run(words, capture_output=True, encoding="utf-8")
        return done.returncode, done.stdout + done.stderr

    def test_the_modules_keep_their_types(self):
        self.assertEqual(self.tsc(ROOT), (0, ""))

    def test_a_call_that_does_not_fit_is_told(self):
        """In a copy, in which a module of the desk calls one of the report with a text in place of a number."""
        for path in [SETTINGS, *MODULES]:
            place = self.folder / path.relative_to(ROOT)
            place.parent.mkdir(parents=True, exist_ok=True)
            shutil.copy(path, place)
        wrong = self.folder / FOLDERS[1].relative_to(ROOT) / "wrong.mjs"
        wrong.write_text('import { many } from "./texts.mjs";\nexport const wrong = () => many("two", "bank");\n')
        status, told = self.tsc(self.folder)
        self.assertNotEqual(status, 0)
        self.assertEqual([pathlib.Path(line.partition("(")[0]).name for line in told.splitlines()], ["wrong.mjs"])

    def test_the_settings_name_both_folders(self):
        settings = json.loads(SETTINGS.read_text(encoding="utf-8"))
        roots = [(SETTINGS.parent / one).resolve() for one in settings["compilerOptions"]["rootDirs"]]
        self.assertEqual(roots, FOLDERS)


if __name__ == "__main__":
    unittest.main()
