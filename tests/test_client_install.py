"""The package installs by the line of its pages into a fresh virtual environment, without a network."""
import ast
import json
import os
import pathlib
import re
import subprocess
import sys
import unittest
import zipfile
from typing import Iterator

from common import CHAIN, PACKAGES, ROOT, Case, Word, files_of
from offline import OFFLINE, has_venv
from pythons import python_with

sys.path.insert(0, str(ROOT / "python"))

# The kinds of files of a wheel, by the folders that have others than Python's alone.
KINDS = {
    "clearing_client": {".py", ".typed", ".json"},
    "clearing_tools/report/templates": {".html"},
    "clearing_tools/drawing/web": {".py", ".html", ".css"},
    "clearing_tools/drawing/web/script": {".mjs"},
    "clearing_tools/desk/page": {".html"},
    "clearing_tools/desk/script": {".mjs"},
    "clearing_tools/desk/style": {".css"},
}

# What has a module, where it has another name. Markupsafe is Jinja2's own.
DISTRIBUTIONS = {"docx": "python-docx", "markdown_it": "markdown-it-py", "markupsafe": "jinja2", "odf": "odfpy"}


def imported(path: pathlib.Path) -> Iterator[str]:
    """The packages that a file of Python imports, also those that it names in a call that imports or wants them. What
    stands there for the check of types alone is not imported."""
    tree = ast.parse(path.read_bytes())
    tree.body = [
        node for node in tree.body if not (isinstance(node, ast.If) and ast.unparse(node.test) == "TYPE_CHECKING")
    ]
    for node in ast.walk(tree):
        if isinstance(node, ast.Import):
            yield from (each.name.partition(".")[0] for each in node.names)
        elif isinstance(node, ast.ImportFrom) and not node.level:
            yield (node.module or "").partition(".")[0]
        elif isinstance(node, ast.Call) and isinstance(node.func, (ast.Name, ast.Attribute)):
            called = node.func.id if isinstance(node.func, ast.Name) else node.func.attr
            if (
                called in ("import_module", "lacking", "package")
                and node.args
                and isinstance(node.args[0], ast.Constant)
            ):
                yield str(node.args[0].value).partition(".")[0]


@unittest.skipUnless(has_venv(), "without venv (Debian's package python3-venv)")
class Install(Case):
    def run_in(self, folder: pathlib.Path, *words: Word) -> str:
        done = subprocess.run(
            [str(word) for word in words], cwd=folder, env=OFFLINE, capture_output=True, encoding="utf-8"
        )
        self.assertEqual(done.returncode, 0, done.stdout + done.stderr)
        return done.stdout

    def test_by_the_line_of_the_pages(self):
        pages = [
            (ROOT / page).read_text(encoding="utf-8") for page in ("README.md", "docs/PYTHON.md", "python/README.md")
        ]
        (line,) = {line for page in pages for line in page.splitlines() if line.startswith("python3 -m venv ~/")}
        line = line.replace("~", str(self.folder)).replace("python3 -m venv", f"{sys.executable} -m venv")
        before = sorted(path for path in (ROOT / "python").rglob("*") if "__pycache__" not in path.parts)
        self.run_in(ROOT, "sh", "-c", line)
        after = sorted(path for path in (ROOT / "python").rglob("*") if "__pycache__" not in path.parts)
        self.assertEqual(after, before, "the installation leaves files in the repository")
        python = self.folder / "clearing/bin/python3"
        code = "import clearing_client as cc, sys; print(cc.__file__); print(cc.Network(*sys.argv[1:]).clear().total)"
        told = self.run_in(self.folder, python, "-I", "-c", code, CHAIN / "banks.csv", CHAIN / "debts.csv").splitlines()
        self.assertTrue(pathlib.Path(told[0]).is_relative_to(self.folder), told)
        self.assertEqual(told[1], "Sums(claim=19, paid=15)")
        self.assertIn("Version: 1.0", self.run_in(self.folder, python, "-m", "pip", "show", "clearing_client"))
        # The installed package finds the program on the path, and never by the working folder.
        code = "import clearing_client as cc; print(cc.find_program())"
        told = self.run_in(
            ROOT / "examples", "env", "-u", "CLEARING", f"PATH={ROOT}:/usr/bin:/bin", python, "-I", "-c", code
        )
        self.assertEqual(told.strip(), str(ROOT / "clearing"))
        # Its commands are the tools.
        files = files_of(CHAIN)
        self.assertEqual(self.run_in(self.folder, self.folder / "clearing/bin/clearing-lint", *files), "no fault\n")
        help_ = self.run_in(self.folder, self.folder / "clearing/bin/clearing-from-list", "--help")
        self.assertTrue(help_.startswith("usage: clearing-from-list "), help_)
        self.run_in(self.folder, python, "-m", "pip", "uninstall", "-y", "clearing_client")
        # In place, so that a change of a source holds at once.
        self.run_in(ROOT, python, "-m", "pip", "install", "-e", "./python")
        told = self.run_in(self.folder, python, "-I", "-c", "import clearing_client as cc; print(cc.__file__)")
        self.assertEqual(told.strip(), str(ROOT / "python/src/clearing_client/__init__.py"))

    def test_a_wheel_has_all_files_and_is_the_same_each_time(self):
        import build

        (self.folder / "a").mkdir()
        (self.folder / "b").mkdir()
        name = build.build_wheel(self.folder / "a")
        self.assertEqual(build.build_wheel(self.folder / "b"), name)
        self.assertEqual((self.folder / "a" / name).read_bytes(), (self.folder / "b" / name).read_bytes())
        entries = zipfile.ZipFile(self.folder / "a" / name).infolist()
        self.assertEqual({entry.date_time for entry in entries}, {(1980, 1, 1, 0, 0, 0)})
        names = {entry.filename for entry in entries if ".dist-info/" not in entry.filename}
        # Each file of the sources, of whatever kind, and these kinds are there.
        sources = {
            path.relative_to(PACKAGES).as_posix()
            for path in PACKAGES.rglob("*")
            if path.is_file() and "__pycache__" not in path.parts
        }
        self.assertEqual(names, sources | {build.RELEASE})
        for folder, kinds in KINDS.items():
            self.assertEqual(
                {pathlib.PurePath(name).suffix for name in names if str(pathlib.PurePath(name).parent) == folder},
                kinds,
                folder,
            )

    def test_the_tools_of_a_wheel_know_the_number_of_the_release(self):
        import build

        number = (ROOT / "VERSION").read_text(encoding="utf-8").strip()
        # One of the repository, and one of the archive of its sources.
        self.run_in(self.folder, "tar", "-xzf", build.build_sdist(self.folder))
        (self.folder / "again").mkdir()
        code = "import build; print(build.build_wheel('../again'))"
        again = self.run_in(self.folder / build.full_name(), sys.executable, "-Bc", code)
        for wheel in (self.folder / build.build_wheel(self.folder), self.folder / "again" / again.strip()):
            place = self.folder / "of" / wheel.parent.name
            zipfile.ZipFile(wheel).extractall(place)
            code = (
                "import sys; sys.path[:0] = sys.argv[1:]; from clearing_tools.runner import version; print(version())"
            )
            self.assertEqual(self.run_in(self.folder, sys.executable, "-IBc", code, place), f"{number}\n", wheel)
            (place / build.RELEASE).unlink()
            self.assertEqual(self.run_in(self.folder, sys.executable, "-IBc", code, place), "\n", wheel)

    @unittest.skipUnless(
        python_with("jinja2", "bottle"),
        "no Python here has jinja2 and bottle (Debian's packages python3-jinja2 and python3-bottle)",
    )
    def test_what_a_wheel_has_is_enough_for_a_report_and_for_the_desk(self):
        import build

        zipfile.ZipFile(self.folder / build.build_wheel(self.folder)).extractall(self.folder / "there")
        python, there = python_with("jinja2", "bottle"), {**os.environ, "PYTHONPATH": str(self.folder / "there")}
        code = (
            "import sys\nfrom clearing_tools.report import command\nassert"
            " command.__file__.startswith(sys.argv.pop(1))\nsys.exit(command.main())"
        )
        report = self.folder / "report.html"
        files = [*files_of(CHAIN), "--out", report]
        done = subprocess.run(
            [python, "-c", code, self.folder, *files], cwd=self.folder, env=there, capture_output=True, encoding="utf-8"
        )
        self.assertEqual((done.returncode, done.stdout, done.stderr), (0, "", ""))
        self.assertIn("</html>", report.read_text(encoding="utf-8"))
        code = (
            "import json\nfrom clearing_tools.desk import app\nprint(json.dumps([app.__file__, app.page_text(True),"
            " app.style_text(), app.SCRIPTS]))"
        )
        done = subprocess.run([python, "-c", code], cwd=self.folder, env=there, capture_output=True, encoding="utf-8")
        self.assertEqual((done.returncode, done.stderr), (0, ""))
        place, page, style, scripts = json.loads(done.stdout)
        self.assertTrue(place.startswith(str(self.folder)), place)
        self.assertIn("</html>", page)
        self.assertIn("svg", style)
        self.assertIn("desk.mjs", scripts)

    def test_what_is_said_of_the_project_is_what_toml_says(self):
        import build

        try:
            import tomllib
        except ImportError:
            self.skipTest("without tomllib (Python 3.11)")
        told = tomllib.loads((ROOT / "python/pyproject.toml").read_text(encoding="utf-8"))["project"]
        self.assertEqual(told.pop("dependencies"), [])
        scripts = told.pop("scripts")
        self.assertEqual(build.extras(), told.pop("optional-dependencies"))
        self.assertEqual(build.project(), told)
        self.assertEqual(build.commands(), "".join(f"{name} = {function}\n" for name, function in scripts.items()))

    @unittest.skipUnless(hasattr(sys, "stdlib_module_names"), "without the names of Python's own modules (Python 3.10)")
    def test_the_extras_are_what_the_sources_import(self):
        import build

        found = {name: path for path in PACKAGES.rglob("*.py") for name in imported(path)}
        own = {"clearing_client", "clearing_tools", "__future__", *sys.stdlib_module_names}
        wanted = {DISTRIBUTIONS.get(name, name) for name in found if name not in own}
        self.assertEqual(set(build.extras()["all"]), wanted, found)
        # A tool names an extra that has what it lacks.
        for path in PACKAGES.rglob("*.py"):
            for name, extra in re.findall(r'lacking\("(\w+)", "(\w+)"', path.read_text(encoding="utf-8")):
                self.assertIn(DISTRIBUTIONS.get(name, name), build.extras()[extra], path.name)

    def test_a_source_archive_installs(self):
        import build

        name = build.build_sdist(self.folder)
        self.run_in(
            self.folder,
            sys.executable,
            "-m",
            "pip",
            "install",
            "--quiet",
            "--target",
            self.folder / "there",
            self.folder / name,
        )
        self.assertTrue((self.folder / "there/clearing_client/network.py").is_file())


if __name__ == "__main__":
    unittest.main()
