#!/usr/bin/env python3
"""Takes pictures of a report: its first screen on a desk, in the dark and on a phone, two of its parts, and its first
printed pages.

In:   PAGE     the report, as clearing-report --default-keeps N writes it
Out:  PREFIX-desktop.png, PREFIX-dark.png, PREFIX-phone.png, PREFIX-banks.png, PREFIX-costs.png, both ends where default
      costs, and PREFIX-print.png, four sheets of A4 side by side

Wants Chromium with its driver, Selenium, PIL and pdftoppm: Debian's packages chromium-driver, python3-selenium,
python3-pil and poppler-utils. Ends with 0, and with 1 where one of them is missing or a picture cannot be made.

Example:
    tools/dev/screenshots.py report.html docs/pictures/report
"""
import argparse
import base64
import io
import pathlib
import shutil
import subprocess
import sys
import tempfile
from typing import Any, Tuple

DESK, PHONE = (1366, 768), (390, 844)
SHEETS = 4


def driver_of() -> Any:
    """A browser without a window."""
    from selenium import webdriver
    from selenium.webdriver.chrome.service import Service

    options: Any = webdriver.ChromeOptions()
    options.binary_location = shutil.which("chromium")
    for word in ("--headless=new", "--no-sandbox", "--disable-gpu", "--disable-dev-shm-usage", "--hide-scrollbars"):
        options.add_argument(word)
    return webdriver.Chrome(service=Service(shutil.which("chromedriver") or ""), options=options)


def shot(driver: Any, size: Tuple[int, int], theme: str = "light", below: str = "") -> bytes:
    """A picture of what a window of a size, its width and height in pixels, shows: the top of the page, or an element
    of it."""
    feature = {"name": "prefers-color-scheme", "value": theme}
    driver.execute_cdp_cmd("Emulation.setEmulatedMedia", {"media": "", "features": [feature]})
    metrics = {"width": size[0], "height": size[1], "deviceScaleFactor": 1, "mobile": False}
    driver.execute_cdp_cmd("Emulation.setDeviceMetricsOverride", metrics)
    driver.execute_script("const e = document.querySelector(arguments[0] || 'body'); e.scrollIntoView();", below)
    return bytes(driver.get_screenshot_as_png())


def small(content: bytes, most: int) -> bytes:
    """A picture of few colours, and at most so many pixels wide."""
    from PIL import Image

    picture = Image.open(io.BytesIO(content)).convert("RGB")
    if picture.width > most:
        picture = picture.resize((most, picture.height * most // picture.width), Image.LANCZOS)
    out = io.BytesIO()
    picture.quantize(64).save(out, "png", optimize=True)
    return out.getvalue()


def sheets(driver: Any) -> bytes:
    """A picture of the first printed pages, side by side."""
    from PIL import Image

    done = driver.execute_cdp_cmd("Page.printToPDF", {"preferCSSPageSize": True, "printBackground": False})
    paper = base64.b64decode(done["data"])
    with tempfile.TemporaryDirectory() as folder:
        file = pathlib.Path(folder, "paper.pdf")
        file.write_bytes(paper)
        subprocess.run(["pdftoppm", "-png", "-r", "60", "-l", str(SHEETS), str(file), f"{folder}/sheet"], check=True)
        pages = [Image.open(path).convert("RGB") for path in sorted(pathlib.Path(folder).glob("sheet*.png"))]
        size = sum(page.width + 8 for page in pages), max(page.height for page in pages)
        whole = Image.new("RGB", size, "#808080")
        at = 0
        for page in pages:
            whole.paste(page, (at, 0))
            at += page.width + 8
        out = io.BytesIO()
        whole.save(out, "png")
    return out.getvalue()


def main() -> None:
    """Takes the pictures."""
    parser = argparse.ArgumentParser(description=__doc__, formatter_class=argparse.RawDescriptionHelpFormatter)
    parser.add_argument("page", metavar="PAGE", help="the report")
    parser.add_argument("prefix", metavar="PREFIX", help="how the names of the pictures begin")
    asked = parser.parse_args()
    driver = driver_of()
    try:
        driver.get(pathlib.Path(asked.page).resolve().as_uri())
        for name, content, most in (
            ("desktop", shot(driver, DESK), 1000),
            ("dark", shot(driver, DESK, "dark"), 1000),
            ("phone", shot(driver, PHONE), 390),
            ("banks", shot(driver, DESK, below="#banks"), 1000),
            ("costs", shot(driver, DESK, below="#costs"), 1000),
            ("print", sheets(driver), 2000),
        ):
            pathlib.Path(f"{asked.prefix}-{name}.png").write_bytes(small(content, most))
    finally:
        driver.quit()


if __name__ == "__main__":
    try:
        main()
    except (ImportError, OSError, subprocess.CalledProcessError) as fault:
        sys.exit(f"screenshots.py: {fault}")
