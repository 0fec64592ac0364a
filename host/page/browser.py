"""A browser that opens pages of the command, and what the tests do in it."""

import base64
import os
import re
import subprocess
import tempfile
import time
import unittest
from pathlib import Path

from selenium import webdriver
from selenium.webdriver.chrome.options import Options
from selenium.webdriver.chrome.service import Service
from selenium.webdriver.common.action_chains import ActionChains
from selenium.webdriver.common.by import By
from selenium.webdriver.support.ui import WebDriverWait

ROOT = Path(__file__).resolve().parents[2]
COMMAND = os.environ["LOVASUKU_COMMAND"]
PICTURES = Path(os.environ["LOVASUKU_PICTURES"])
YARD = ROOT / "data/samples/yard.geojson"
COARSE = ["--class", "kind", "--bend", "60", "--tolerance", "10", "--units", "m"]


def lovasuku(*args, text=None):
    """Runs the command, which must succeed, and gives its standard output."""
    run = subprocess.run([COMMAND, *map(str, args)], input=text, capture_output=True, text=True)
    assert run.returncode == 0, run.stderr
    return run.stdout


class Pages(unittest.TestCase):
    """Tests with a browser of their own and a folder for pages."""

    @classmethod
    def setUpClass(cls):
        options = Options()
        options.add_argument("--headless=new")
        options.add_argument("--force-device-scale-factor=1")
        if os.geteuid() == 0:
            options.add_argument("--no-sandbox")
        options.set_capability("goog:loggingPrefs", {"browser": "ALL"})
        cls.driver = webdriver.Chrome(service=Service("/usr/bin/chromedriver"), options=options)
        cls.driver.set_script_timeout(60)
        cls.folder = tempfile.TemporaryDirectory()

    @classmethod
    def tearDownClass(cls):
        cls.driver.quit()
        cls.folder.cleanup()

    def setUp(self):
        self.screen(1280, 800)

    def tearDown(self):
        """Nothing that a page does may be refused or fail."""
        told = self.driver.get_log("browser")
        self.assertEqual(told, [], "what the browser told")

    def screen(self, width, height, phone=False):
        """Takes the size of the screen, and fingers in place of a mouse for a phone."""
        ratio = 2 if phone else 1
        metrics = {"width": width, "height": height, "deviceScaleFactor": ratio, "mobile": phone}
        self.driver.execute_cdp_cmd("Emulation.setDeviceMetricsOverride", metrics)
        self.driver.execute_cdp_cmd("Emulation.setTouchEmulationEnabled", {"enabled": phone})

    def page(self, name, source, *args):
        """Makes a page of a file or a text, and gives its path."""
        path = Path(self.folder.name) / name
        text = None if isinstance(source, Path) else source
        given = source if isinstance(source, Path) else "-"
        lovasuku("join", given, "-o", "/dev/null", "-q", "--page", path, *args, text=text)
        return path

    def open(self, path, link=""):
        """Opens a page from nothing, and waits until its map is painted."""
        self.driver.get("about:blank")
        self.driver.get(path.as_uri() + link)
        self.painted()

    def painted(self):
        """Waits until the map shows what is asked for."""
        ready = "const p = window.lovasuku.painter; return p.job === null && p.current() && !p.asked"
        WebDriverWait(self.driver, 30).until(lambda driver: driver.execute_script(ready))

    def script(self, text, *args):
        return self.driver.execute_script(text, *args)

    def find(self, selector):
        return self.driver.find_element(By.CSS_SELECTOR, selector)

    def all(self, selector):
        return self.driver.find_elements(By.CSS_SELECTOR, selector)

    def told(self):
        """The words of the panel, with a blank between each two."""
        return " ".join(self.script("return document.getElementById('panel').innerText").split())

    def heading(self):
        """The heading of what is shown; nothing where it is the whole."""
        words = "const what = document.getElementById('what'); return what === null ? null : what.innerText.trim()"
        return self.script(words)

    def shows(self, heading):
        """Waits until the panel shows something."""
        WebDriverWait(self.driver, 5).until(lambda _: self.heading() == heading)
        self.painted()

    def place(self, point):
        """Where a point of the map lies on the canvas."""
        return self.script("return window.lovasuku.view.place(...arguments[0])", point)

    def click(self, point):
        """Clicks a point of the map."""
        left, top = self.place(point)
        canvas = self.find("#canvas")
        size = canvas.size
        action = ActionChains(self.driver, duration=0)
        action.move_to_element_with_offset(canvas, left - size["width"] / 2, top - size["height"] / 2)
        action.click().perform()

    def tap(self, point):
        """Taps a point of the map with a finger."""
        left, top = self.place(point)
        box = self.script("const b = document.getElementById('canvas').getBoundingClientRect(); return [b.left, b.top]")
        touch = [{"x": box[0] + left, "y": box[1] + top}]
        self.driver.execute_cdp_cmd("Input.dispatchTouchEvent", {"type": "touchStart", "touchPoints": touch})
        self.driver.execute_cdp_cmd("Input.dispatchTouchEvent", {"type": "touchEnd", "touchPoints": []})

    def picture(self, name):
        """Leaves a picture of what is seen."""
        time.sleep(0.1)
        self.driver.save_screenshot(str(PICTURES / f"{name}.png"))

    def printed(self, name):
        """Prints the page, and gives the number of sheets."""
        settings = {"printBackground": True, "preferCSSPageSize": True}
        pdf = base64.b64decode(self.driver.execute_cdp_cmd("Page.printToPDF", settings)["data"])
        (PICTURES / f"{name}.pdf").write_bytes(pdf)
        return len(re.findall(rb"/Type\s*/Page\b(?!s)", pdf))


def middle(coordinates):
    """The middle of the longest segment of a line."""
    def square(pair):
        return (pair[0][0] - pair[1][0]) ** 2 + (pair[0][1] - pair[1][1]) ** 2
    a, b = max(zip(coordinates, coordinates[1:]), key=square)
    return [(a[0] + b[0]) / 2, (a[1] + b[1]) / 2]
