"""The tests of the package that are quick, without the packages that it uses where they are there."""
import subprocess
import sys

from common import ROOT, Case


class Python(Case):
    def test_without_other_packages(self):
        quick = [f"test_client_{name}" for name in ("errors", "guide", "names", "network", "packages", "texts")]
        line = [sys.executable, ROOT / "tests/run.py", "--without", "pandas,numpy,networkx,tomli_w", *quick]
        done = subprocess.run(line, capture_output=True, encoding="utf-8")
        self.assertEqual(done.returncode, 0, done.stdout[-4000:] + done.stderr[-4000:])
        self.assertGreater(int(done.stdout.splitlines()[-1].split()[0]), 40)
