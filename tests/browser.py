"""Headless Chromium for tests of a page, driven by Selenium: Debian's packages chromium, chromium-driver and
python3-selenium."""
import importlib
import json
import os
import shutil
import subprocess
import sys
import unittest
from typing import Any, Dict, List, Tuple

from common import Case
from pythons import python_with

D3 = "/usr/share/nodejs/d3/dist/d3.min.js"


def reason() -> str:
    """Makes Selenium importable, or says why the browser cannot be driven."""
    missing = [command for command in ("chromium", "chromedriver") if not shutil.which(command)]
    if missing:
        return f"{', '.join(missing)} is not on the path (Debian's packages chromium and chromium-driver)"
    if not os.path.exists(D3):
        return f"{D3} is not there (Debian's package node-d3)"
    python = python_with("selenium")
    if not python:
        return "no Python here has selenium (Debian's package python3-selenium)"
    if python == sys.executable:
        return ""
    asked = subprocess.run(
        [python, "-c", "import sys; print(*sys.version_info[:2]); print(*sys.path, sep='\\n')"],
        capture_output=True,
        encoding="utf-8",
    ).stdout.splitlines()
    if asked[0] != "{} {}".format(*sys.version_info[:2]):
        return f"selenium is there for {python} alone, another version of Python; PYTHON={python} runs the tests by it"
    sys.path += [path for path in asked[1:] if path.endswith("-packages")]
    return ""


REASON = reason()


class Keys:
    """Keys by the signs that WebDriver has for them (its standard, W3C 2018), so that a test names one where Selenium
    is missing too."""

    BACKSPACE, TAB, ENTER = "\ue003", "\ue004", "\ue007"
    SHIFT, CONTROL, ESCAPE = "\ue008", "\ue009", "\ue00c"
    END, HOME, ARROW_LEFT, ARROW_RIGHT = "\ue010", "\ue011", "\ue012", "\ue014"


def selenium(module: str) -> Any:
    """A module of Selenium, which has types in some versions alone."""
    return importlib.import_module(f"selenium.webdriver.{module}")


@unittest.skipIf(REASON, REASON)
class Browsing(Case):
    """A browser without a window, which logs what is asked and what its console says."""

    WAIT = float(os.environ.get("WAIT", "120"))
    driver: Any

    @classmethod
    def setUpClass(cls) -> None:
        """Starts the browser, which all tests of a class share."""
        super().setUpClass()
        options = selenium("chrome.options").Options()
        options.binary_location = shutil.which("chromium")
        for word in (
            "--headless=new",
            "--no-sandbox",
            "--disable-gpu",
            "--disable-dev-shm-usage",
            "--disable-extensions",
            "--disable-background-networking",
            "--window-size=1280,900",
        ):
            options.add_argument(word)
        options.set_capability("goog:loggingPrefs", {"browser": "ALL", "performance": "ALL"})
        service = selenium("chrome.service").Service(shutil.which("chromedriver"))
        cls.driver = selenium("chrome.webdriver").WebDriver(service=service, options=options)
        cls.driver.set_script_timeout(cls.WAIT)
        cls.addClassCleanup(cls.driver.quit)

    def setUp(self) -> None:
        """Has the size, the media and the scripts of a window that was never touched."""
        super().setUp()
        self.run_of("Emulation.setScriptExecutionDisabled", value=False)
        self.run_of("Emulation.setEmulatedMedia", media="", features=[])
        self.size(1280, 900)

    def logged(self) -> Tuple[List[str], List[str]]:
        """What the console said, and the addresses that were asked for, since the last call; the page is left."""
        told = [entry["message"] for entry in self.driver.get_log("browser")]
        events = [json.loads(entry["message"])["message"] for entry in self.driver.get_log("performance")]
        asked = [
            event["params"]["request"]["url"] for event in events if event["method"] == "Network.requestWillBeSent"
        ]
        self.driver.get("about:blank")
        self.driver.get_log("performance")
        self.driver.get_log("browser")
        return told, asked

    def run_of(self, command: str, **words: object) -> Dict[str, Any]:
        """What a command of Chromium's protocol for developers answers."""
        answer: Dict[str, Any] = self.driver.execute_cdp_cmd(command, words)
        return answer

    def size(self, wide: int, tall: int) -> None:
        """Has the window so many points wide and tall."""
        self.run_of("Emulation.setDeviceMetricsOverride", width=wide, height=tall, deviceScaleFactor=1, mobile=False)

    def js(self, script: str, *words: object) -> Any:
        """What a script of the page returns, which has the words as `arguments`."""
        return self.driver.execute_script(script, *words)

    def click(self, key: str) -> None:
        """Clicks the element of an id."""
        self.js("document.getElementById(arguments[0]).click()", key)

    def press(self, *keys: str) -> None:
        """Presses keys in turn, where the focus is."""
        selenium("common.action_chains").ActionChains(self.driver).send_keys(*keys).perform()


# Each text that can be seen against the nearest ground behind it, by the contrast of WCAG 2; text in a drawing has a
# halo of the ground.
CONTRAST = """
const part = c => { c /= 255; return c <= 0.04045 ? c / 12.92 : ((c + 0.055) / 1.055) ** 2.4; };
const light = ([r, g, b]) => 0.2126 * part(r) + 0.7152 * part(g) + 0.0722 * part(b);
const parse = text => text.match(/[\\d.]+/g).map(Number);
const ground = e => {
  for (; e; e = e.parentElement) {
    const c = parse(getComputedStyle(e).backgroundColor);
    if (c.length < 4 || c[3] > 0) return c;
  }
};
const poor = []; let count = 0;
const walk = document.createTreeWalker(document.body, NodeFilter.SHOW_TEXT);
while (walk.nextNode()) {
  const e = walk.currentNode.parentElement;
  if (!walk.currentNode.textContent.trim() || !e.checkVisibility()) continue;
  if (['SCRIPT', 'NOSCRIPT', 'TITLE', 'title', 'OPTION'].includes(e.tagName)) continue;
  const style = getComputedStyle(e);
  const ink = parse(e.namespaceURI.endsWith('svg') ? style.fill : style.color);
  const a = light(ink), b = light(ground(e.closest('svg') || e));
  const contrast = (Math.max(a, b) + 0.05) / (Math.min(a, b) + 0.05);
  count += 1;
  if (contrast < 4.5) poor.push([walk.currentNode.textContent.slice(0, 30), contrast]);
}
return [poor, count];
"""
