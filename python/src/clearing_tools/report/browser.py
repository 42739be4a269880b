"""The browser that prints the page and draws its charts for documents: Chromium, without a window, on files of this
machine alone."""
import os
import pathlib
import subprocess
from typing import List, Optional

from ..runner import ToolError, on_path, work_folder

BROWSERS = ("chromium", "chromium-browser", "google-chrome", "chrome")
SECONDS = 300  # that it has for a page


def browser() -> str:
    """The browser that prints. Where there is none the tool fails with 2."""
    for name in BROWSERS:
        path = on_path(name)
        if path:
            return path
    raise ToolError("no browser prints the page as PDF: Debian's package chromium", 2)


def in_browser(words: List[str], folder: str) -> None:
    """Runs the browser without a window on a page of this machine, with a folder of its own for what it keeps."""
    plain = ["--headless=new", "--no-sandbox", "--disable-gpu", "--disable-dev-shm-usage", "--hide-scrollbars"]
    command = [browser(), *plain, f"--user-data-dir={folder}/profile", *words]
    # A browser may be a script, whose commands are looked for in the absolute entries of the path alone.
    path = os.pathsep.join(filter(os.path.isabs, os.environ.get("PATH", os.defpath).split(os.pathsep)))
    environment = {**os.environ, "HOME": folder, "PATH": path}
    try:
        done = subprocess.run(
            command, stdin=subprocess.DEVNULL, capture_output=True, timeout=SECONDS, env=environment
        )
    except (OSError, subprocess.TimeoutExpired) as fault:
        raise ToolError(f"{command[0]} cannot print the page: {fault}") from fault
    if done.returncode:
        raise ToolError(f"{command[0]} ended with {done.returncode} and printed no page")


def pdf_of(text: str) -> bytes:
    """The page as PDF, as it is printed: A4, a running title, numbers of pages."""
    with work_folder() as folder:
        page, out = pathlib.Path(folder) / "report.html", pathlib.Path(folder) / "report.pdf"
        page.write_text(text, encoding="utf-8")
        in_browser([f"--print-to-pdf={out}", "--no-pdf-header-footer", page.as_uri()], folder)
        return out.read_bytes()


def png_of(chart: str, width: float, height: float) -> Optional[bytes]:
    """A picture as PNG by the browser; nothing where there is no browser."""
    try:
        browser()
    except ToolError:
        return None
    with work_folder() as folder:
        page, out = pathlib.Path(folder) / "chart.svg", pathlib.Path(folder) / "chart.png"
        page.write_text(chart, encoding="utf-8")
        size = f"--window-size={width:.0f},{height:.0f}"
        in_browser([f"--screenshot={out}", size, "--force-device-scale-factor=2", page.as_uri()], folder)
        return out.read_bytes()
