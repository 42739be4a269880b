"""The modules of the desk's page: each is served that another imports, and what they compute is tried by node."""
import os
import re
import subprocess
import unittest

from common import PACKAGES, ROOT, Case, needs
from desk import DeskCase

from clearing_tools.desk.app import SCRIPTS, SHARED


class Served(DeskCase):
    def test_each_module_that_a_module_imports_is_served_and_no_two_have_one_name(self):
        self.assertEqual(set(SHARED) & set(SCRIPTS), set())
        desk, seen, wanted = self.desk(), set(), ["desk.mjs"]
        while wanted:
            name = wanted.pop()
            if name not in seen:
                seen.add(name)
                wanted += re.findall(r'from "\./([\w-]+\.mjs)"', desk.see(f"/script/{name}").decode())
        self.assertEqual(seen, set(SHARED) | set(SCRIPTS))


class Script(Case):
    @needs("node")
    def test_the_modules_of_the_page(self):
        words = ["node", "--test", str(ROOT / "tests/script/desk.test.mjs")]
        environment = {**os.environ, "PACKAGES": str(PACKAGES)}
        done = subprocess.run(words, capture_output=True, encoding="utf-8", env=environment)
        self.assertEqual(done.returncode, 0, done.stdout[-3000:] + done.stderr[-2000:])
        self.assertGreaterEqual(int(re.search(r"^# pass ([0-9]+)$", done.stdout, re.MULTILINE)[1]), 12)


if __name__ == "__main__":
    unittest.main()
