#!/usr/bin/env python3
"""Makes twelve_banks.ipynb of twelve_banks.py and runs it, with nbconvert.

In:  nothing but the words `--check`, and the file twelve_banks.py beside this one, cells in the percent format: `# %%` begins a
     cell of code, `# %% [markdown]` one of text.
Out: twelve_banks.ipynb with what its cells print and draw. With --check nothing is written: it is compared with the one that is
     there, cell by cell, in all but the pictures themselves. With --pictures the pictures go to a folder, too.

It wants Debian's packages jupyter-nbconvert, python3-ipykernel, python3-pandas, python3-networkx and python3-matplotlib.

Ends with 0, with 1 where the notebook fails or is another than the one that is there, and with 2 where a package is missing.
"""
import argparse
import base64
import json
import os
import pathlib
import re
import sys
import tempfile

HERE = pathlib.Path(__file__).resolve().parent
MARK = re.compile(r"^# %%(.*)\n", re.MULTILINE)


def cells_of(text):
    """The kind and the text of each cell."""
    parts = MARK.split(text)[1:]
    for mark, body in zip(parts[::2], parts[1::2]):
        body = body.strip("\n")
        if mark.strip() == "[markdown]":
            yield "markdown", "\n".join(line[2:] if line.startswith("# ") else line[1:] for line in body.split("\n"))
        else:
            yield "code", body


def notebook_of(text):
    """The notebook, not run yet. Its cells have numbers for names, so that nothing in it is of chance."""
    import nbformat.v4 as v4

    made = {"code": v4.new_code_cell, "markdown": v4.new_markdown_cell}
    cells = [made[kind](body) for kind, body in cells_of(text)]
    for number, cell in enumerate(cells):
        cell["id"] = f"cell-{number}"
    kernel = {"display_name": "Python 3", "language": "python", "name": "python3"}
    return v4.new_notebook(cells=cells, metadata={"kernelspec": kernel})


def run(notebook):
    """Runs the cells by the Python that runs this, with the package of the repository if this stands in one."""
    from nbconvert.preprocessors import ExecutePreprocessor

    source = str(HERE.parents[1] / "python" / "src")
    os.environ["PYTHONPATH"] = os.pathsep.join(filter(None, [source, os.environ.get("PYTHONPATH")]))
    with tempfile.TemporaryDirectory() as folder:
        # The kernel that a system has of this name is the system's Python, which does not see what an environment has.
        kernel = pathlib.Path(folder, "kernels/python3/kernel.json")
        kernel.parent.mkdir(parents=True)
        words = [sys.executable, "-m", "ipykernel_launcher", "-f", "{connection_file}"]
        kernel.write_text(json.dumps({"argv": words, "display_name": "Python 3", "language": "python"}), encoding="utf-8")
        os.environ["JUPYTER_PATH"] = os.pathsep.join(filter(None, [folder, os.environ.get("JUPYTER_PATH")]))
        ExecutePreprocessor(timeout=600, kernel_name="python3", record_timing=False).preprocess(notebook, {"metadata": {"path": str(HERE)}})
    notebook.metadata.pop("language_info", None)
    notebook.metadata["made_with"] = versions()
    return notebook


def versions():
    """What the texts of tables depend on."""
    import importlib.metadata

    return {name: importlib.metadata.version(name) for name in ("matplotlib", "networkx", "numpy", "pandas")}


def printed(notebook):
    """What the cells say and print, and how many pictures they draw."""
    for cell in notebook.cells:
        outputs = cell.get("outputs", [])
        texts = [output.get("text") or output.get("data", {}).get("text/plain") for output in outputs]
        pictures = sum("image/png" in output.get("data", {}) for output in outputs)
        # What a cell prints may come in one piece or in several.
        yield cell.cell_type, cell.source, "".join(text for text in texts if text and not text.startswith("<Figure")), pictures


def compare(notebook, there):
    """Ends where a cell is another than in the notebook that is there; what they print counts where both were made with the same
    versions of the packages."""
    if len(notebook.cells) != len(there.cells):
        sys.exit(f"build.py: {len(notebook.cells)} cells, {len(there.cells)} in the notebook that is there")
    same = there.metadata.get("made_with") == versions()
    for number, (new, old) in enumerate(zip(printed(notebook), printed(there))):
        if (new if same else new[:2]) != (old if same else old[:2]):
            sys.exit(f"build.py: cell {number} is another than in the notebook that is there:\n{new}\n{old}")
    print("the same" if same else f"the same cells; made with other packages, {dict(there.metadata.get('made_with', {}))}")


def save_pictures(notebook, folder):
    """Writes the pictures as PNG files."""
    datas = [output["data"]["image/png"] for cell in notebook.cells for output in cell.get("outputs", []) if "image/png" in output.get("data", {})]
    for number, data in enumerate(datas, 1):
        (pathlib.Path(folder) / f"figure-{number}.png").write_bytes(base64.b64decode(data))
    return len(datas)


def main():
    summary, _, rest = __doc__.partition("\n\n")
    parser = argparse.ArgumentParser(description=summary, epilog=rest, formatter_class=argparse.RawDescriptionHelpFormatter)
    parser.add_argument("--check", action="store_true", help="write nothing, compare with the notebook that is there")
    parser.add_argument("--pictures", metavar="FOLDER", help="where to put the pictures as PNG files")
    words = parser.parse_args()
    try:
        import nbformat
        from nbconvert.preprocessors import CellExecutionError
        import ipykernel, matplotlib, networkx, pandas  # noqa: E401, F401
    except ImportError as fault:
        print(f"build.py: {fault} in {sys.executable}; --help names the packages", file=sys.stderr)
        sys.exit(2)
    try:
        notebook = run(notebook_of((HERE / "twelve_banks.py").read_text(encoding="utf-8")))
    except CellExecutionError as fault:
        sys.exit(f"build.py: {fault}")
    if words.pictures:
        print(f"{save_pictures(notebook, words.pictures)} pictures")
    place = HERE / "twelve_banks.ipynb"
    if words.check:
        there = nbformat.read(place, as_version=4)
        compare(notebook, there)
    else:
        nbformat.write(notebook, place)


if __name__ == "__main__":
    main()
