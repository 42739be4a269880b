"""The notebook runs, and its cells print what stands in it."""
import os
import shutil
import subprocess
import sys
import unittest

from common import ROOT, Case, needs_packages
from offline import has_venv

BUILD = ROOT / "examples/notebook/build.py"
CELL = """if True:
    import sys
    sys.path.insert(0, sys.argv[1])
    import build
    told = build.run(build.notebook_of("# %%\\nimport only_here\\nprint(only_here.__file__)\\n"))
    print(told.cells[0].outputs[0].text, end="")
"""


@needs_packages("nbformat", "nbconvert", "ipykernel", "matplotlib", "networkx", "pandas")
class Notebook(Case):
    def test_it_runs_and_prints_what_stands_there(self):
        done = subprocess.run(
            [sys.executable, BUILD, "--check", "--pictures", self.folder], capture_output=True, encoding="utf-8"
        )
        self.assertEqual(done.returncode, 0, done.stdout + done.stderr)
        pictures = sorted(path.name for path in self.folder.iterdir())
        self.assertEqual(pictures, [f"figure-{n}.png" for n in (1, 2, 3, 4)])
        for path in self.folder.iterdir():
            self.assertGreater(path.stat().st_size, 10_000)

    @unittest.skipUnless(has_venv(), "without venv (Debian's package python3-venv)")
    def test_its_cells_are_run_by_the_python_that_runs_it(self):
        """What an environment has that sees the system's packages is there in the notebook too, without the
        repository."""
        shutil.copytree(BUILD.parent, self.folder / "examples/notebook")
        place = self.folder / "environment"
        run = [sys.executable, "-m", "venv", "--system-site-packages", "--without-pip", place]
        subprocess.run(run, check=True, capture_output=True)
        (packages,) = place.glob("lib/python3*/site-packages")
        (packages / "only_here.py").write_text("")
        environment = {name: value for name, value in os.environ.items() if name not in ("PYTHONPATH", "JUPYTER_PATH")}
        done = subprocess.run(
            [place / "bin/python3", "-c", CELL, self.folder / "examples/notebook"],
            env=environment,
            capture_output=True,
            encoding="utf-8",
        )
        self.assertEqual((done.returncode, done.stdout), (0, f"{packages}/only_here.py\n"), done.stderr[-2000:])


if __name__ == "__main__":
    unittest.main()
