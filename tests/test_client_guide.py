"""The examples of the docstrings and of docs/PYTHON.md answer what stands there."""
import doctest
import importlib
import inspect
import os
import pkgutil
import types
import unittest

from common import ROOT, Case, needs_packages

import clearing_client

PAGE = ROOT / "docs" / "PYTHON.md"
PUBLIC = [
    name
    for name, one in vars(clearing_client).items()
    if not name.startswith("_") and not isinstance(one, types.ModuleType)
]


class Guide(Case):
    def test_docstrings(self):
        tried = 0
        for module in pkgutil.iter_modules(clearing_client.__path__, "clearing_client."):
            result = doctest.testmod(importlib.import_module(module.name))
            self.assertEqual(result.failed, 0, module.name)
            tried += result.attempted
        result = doctest.testmod(clearing_client)
        self.assertEqual(result.failed, 0)
        self.assertGreater(tried + result.attempted, 50)

    def test_every_public_name_says_what_it_is(self):
        for name in PUBLIC:
            one = getattr(clearing_client, name)
            self.assertTrue(one.__doc__ and not one.__doc__.startswith(name + "("), name)
            for member, value in vars(one).items() if isinstance(one, type) else ():
                if callable(value) and not member.startswith("_"):
                    self.assertTrue(inspect.getdoc(getattr(one, member)), f"{name}.{member}")

    @needs_packages("pandas", "numpy", "networkx")
    def test_the_page(self):
        before = os.getcwd()
        self.addCleanup(os.chdir, before)
        os.chdir(ROOT)
        text = PAGE.read_text(encoding="utf-8").replace("```\n", "\n")
        test = doctest.DocTestParser().get_doctest(text, {}, PAGE.name, str(PAGE), 0)
        runner = doctest.DocTestRunner()
        runner.run(test)
        self.assertGreater(runner.tries, 15)
        self.assertEqual(runner.failures, 0)

    def test_the_page_names_every_exception_and_result(self):
        text = PAGE.read_text(encoding="utf-8")
        for name in PUBLIC:
            if (
                name.endswith("Error")
                or isinstance(getattr(clearing_client, name), type)
                and issubclass(getattr(clearing_client, name), clearing_client.Result)
                and name not in ("Result", "Journal", "Converted")
            ):
                self.assertIn(f"`{name}", text)


if __name__ == "__main__":
    unittest.main()
