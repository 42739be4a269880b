"""The picture of the packages is that of their imports as they are: no ring, and what is to stand alone does."""
import sys
import unittest

from common import ROOT, Case, loaded, tool

sys.path.insert(0, str(ROOT / "python/src"))
from clearing_tools.evidence import source
from clearing_tools.imports import made_case

imports = loaded(ROOT / "tools/dev/imports.py")


class Imports(Case):
    def test_the_picture_is_that_of_the_sources(self):
        drawn = tool("dev/imports.py")
        self.assertEqual((drawn.returncode, drawn.stderr), (0, ""))
        self.assertEqual((ROOT / "docs/pictures/imports.svg").read_text(encoding="utf-8"), drawn.stdout)

    def test_a_ring_and_what_does_not_stand_alone_are_told(self):
        below = imports.graph()
        self.assertGreater(len(below), 40)
        self.assertEqual(imports.faults_of(below), [])
        self.assertIn("clearing_tools.runner", below["clearing_tools.files"])
        with self.assertRaisesRegex(SystemExit, "in a ring"):
            imports.levels_of({**below, "clearing_tools.runner": {"clearing_tools.files"}})
        self.assertEqual(
            imports.faults_of({**below, "clearing_tools.evidence.audit": {"clearing_tools.files"}}),
            ["clearing_tools.evidence.audit imports clearing_tools.files"],
        )

    def test_an_import_by_a_name_is_told(self):
        self.assertEqual(imports.hidden_in(imports.modules()), [])
        words = {
            "importlib.import_module('clearing_tools.cases')": "clearing_tools.cases",
            "import_module(f'clearing_tools.{kind}')": "f'clearing_tools.{kind}'",
            "map(importlib.import_module, ('numpy', 'clearing_client.case'))": "clearing_client.case",
            "__import__(name)": "name",
        }
        for call, name in words.items():
            path = self.file("late.py", f"def read(name, kind):\n    return {call}\n")
            self.assertEqual(
                imports.hidden_in({"clearing_tools.evidence.parts": path}),
                [f"clearing_tools.evidence.parts imports {name} by its name"],
            )
        self.assertEqual(
            imports.hidden_in(
                {"clearing_tools.cases": self.file("late.py", "import importlib\nimportlib.import_module('numpy')\n")}
            ),
            [],
        )

    def test_what_evidence_has_apart_from_the_importers_is_the_same(self):
        """Both leave out of a command that is kept what says where to write; the one imports nothing of the other."""
        self.assertEqual({f"--{word}" for word in made_case.WRITTEN}, {*source.PLACES, *source.FLAGS})
        for option in [*source.PLACES, *source.FLAGS]:
            words = [option, "x", "y"] if option in source.PLACES else [option, "y"]
            self.assertEqual(source.without_places(words), ["y"])
            self.assertEqual(made_case.command_of("from_list", words, {}, False), ["from_list.py", "y"])

    def test_the_path_of_modules_is_set_by_the_files_of_tools_alone(self):
        said = [path for path in imports.SOURCES.rglob("*.py") if "sys.path" in path.read_text(encoding="utf-8")]
        # It is started by itself, isolated, as those are.
        self.assertEqual([path.name for path in said], ["confined.py"])


if __name__ == "__main__":
    unittest.main()
