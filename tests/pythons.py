"""The Python that has what a tool or a test wants, since the packages may be those of the system's Python alone."""
import functools
import shutil
import subprocess
import sys
from typing import Optional


@functools.cache
def python_with(*modules: str) -> Optional[str]:
    """A Python that can import some modules: the one that runs the tests, else the system's, else none."""
    for python in (sys.executable, "/usr/bin/python3"):
        # A folder that a package has left behind is no module.
        run = [python, "-c", "".join(f"import {module}; assert {module}.__file__\n" for module in modules)]
        if shutil.which(python) and subprocess.run(run, capture_output=True).returncode == 0:
            return python
    return None
