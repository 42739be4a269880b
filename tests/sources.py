"""Where the sources of the repository stand: of the packages, of scripts, of tests, and of the pages."""
from common import ROOT

SOURCES = sorted((ROOT / "python/src").rglob("*.py"))
TESTS = sorted((ROOT / "tests").rglob("*.py"))
# What modules of tests share is typed as the scripts are.
SHARED = [path for path in TESTS if path.parent == ROOT / "tests" and not path.name.startswith("test_")]
SCRIPTS = sorted(
    [ROOT / "python/build.py", *(ROOT / "bench").rglob("*.py"), *(ROOT / "tools/dev").glob("*.py"), *SHARED]
)
# What of the scripts that try the built program is typed as well.
SYSTEM = [ROOT / "tests/system" / name for name in ("allocations.py", "quick.py", "running.py")]
# Scripts of pages and their tests, and the package for R.
OTHERS = sorted([*(ROOT / "python/src").rglob("*.mjs"), *(ROOT / "tests").rglob("*.mjs"), *(ROOT / "r").rglob("*.R")])
# The folders of the scripts of both pages, and these.
FOLDERS = [ROOT / "python/src/clearing_tools" / part for part in ("drawing/web/script", "desk/script")]
MODULES = sorted(path for folder in FOLDERS for path in folder.glob("*.mjs"))
