"""The map by mouse, by keys and by touch, at the width of a desk and of a phone."""

import json

from browser import COARSE, YARD, Pages, middle
from selenium.webdriver.common.action_chains import ActionChains
from selenium.webdriver.common.actions.wheel_input import ScrollOrigin
from selenium.webdriver.common.keys import Keys

LINES = {line["id"]: line["geometry"]["coordinates"] for line in json.loads(YARD.read_text())["features"]}
VIEW = "const v = window.lovasuku.view; return [v.middle[0], v.middle[1], v.scale / v.fits]"


class Moving(Pages):
    def yard(self, link=""):
        self.open(self.page("yard.html", YARD, *COARSE), link)

    def view(self):
        """The middle of the view, and how many times nearer it is than all."""
        self.painted()
        return self.script(VIEW)

    def test_drags_with_the_mouse(self):
        self.yard()
        before = self.view()
        drag = ActionChains(self.driver, duration=50).click_and_hold(self.find("#canvas"))
        drag.move_by_offset(120, -60).release().perform()
        after = self.view()
        self.assertLess(after[0], before[0])
        self.assertLess(after[1], before[1])
        self.assertEqual(after[2], 1)
        self.assertIsNone(self.heading(), "a drag is no click")

    def test_zooms_by_the_wheel_where_the_pointer_is(self):
        self.yard()
        canvas = self.find("#canvas")
        at = "return window.lovasuku.view.point(arguments[0], arguments[1])"
        place = [canvas.size["width"] / 2 + 100, canvas.size["height"] / 2 + 50]
        before = self.script(at, *place)
        ActionChains(self.driver).scroll_from_origin(ScrollOrigin.from_element(canvas, 100, 50), 0, -240).perform()
        self.assertGreater(self.view()[2], 1.5)
        after = self.script(at, *place)
        self.assertAlmostEqual(before[0], after[0], delta=2)
        self.assertAlmostEqual(before[1], after[1], delta=2)
        ActionChains(self.driver).scroll_from_origin(ScrollOrigin.from_element(canvas, 100, 50), 0, 2400).perform()
        self.assertLess(self.view()[2], 1)

    def test_moves_by_keys(self):
        self.yard("#chain=0")
        canvas = self.find("#canvas")
        self.script("arguments[0].focus()", canvas)
        before = self.view()
        canvas.send_keys(Keys.ARROW_RIGHT, Keys.ARROW_UP)
        after = self.view()
        self.assertGreater(after[0], before[0])
        self.assertGreater(after[1], before[1])
        canvas.send_keys("+", "+")
        self.assertGreater(self.view()[2], 1.9 * after[2])
        canvas.send_keys("0")
        self.assertEqual(self.view()[2], 1)
        canvas.send_keys(Keys.ESCAPE)
        self.shows(None)

    def test_buttons_zoom(self):
        self.yard()
        self.find("#closer").click()
        self.assertGreater(self.view()[2], 1.5)
        self.find("#all").click()
        self.assertEqual(self.view()[2], 1)
        self.find("#farther").click()
        self.assertLess(self.view()[2], 1)

    def test_cells_are_seen_from_near(self):
        self.yard("#bridge=1")
        self.assertGreater(self.view()[2], 10)
        pixels = self.script("return window.lovasuku.view.pixels(10)")
        self.assertGreater(min(pixels), 60)

    def test_a_phone(self):
        self.screen(375, 667, phone=True)
        self.yard()
        wide = self.script("return document.documentElement.scrollWidth")
        self.assertEqual(wide, 375, "nothing reaches beyond the screen")
        canvas, panel = self.find("#canvas").rect, self.find("#panel").rect
        self.assertGreater(canvas["height"], 200)
        self.assertGreater(panel["height"], 200)
        self.assertLessEqual(canvas["y"] + canvas["height"], panel["y"] + 1)
        for name in ["closer", "farther", "all", "theme", "print"]:
            size = self.find(f"#{name}").size
            self.assertGreaterEqual(min(size["width"], size["height"]), 42, name)
        self.picture("phone")
        self.tap(middle(LINES["H9"]))
        self.shows("Chain 2")
        self.find("#home").click()
        self.shows(None)
        self.find("#all").click()
        self.painted()
        self.tap([1180.4, 812.6])
        self.shows("Junction 0")
        self.assertIn("joined as pair 1 of 2", self.told())
        self.picture("phone-junction")
        self.find("#words").send_keys("H7", Keys.ENTER)
        self.shows("Chain 0")
        self.picture("phone-chain")

    def test_two_fingers_zoom(self):
        self.screen(375, 667, phone=True)
        self.yard()
        box = self.find("#canvas").rect
        x, y = box["x"] + box["width"] / 2, box["y"] + box["height"] / 2

        def touch(kind, apart):
            points = [] if apart is None else [{"x": x - apart, "y": y, "id": 0}, {"x": x + apart, "y": y, "id": 1}]
            self.driver.execute_cdp_cmd("Input.dispatchTouchEvent", {"type": kind, "touchPoints": points})

        touch("touchStart", 30)
        for apart in range(35, 95, 5):
            touch("touchMove", apart)
        touch("touchEnd", None)
        self.assertGreater(self.view()[2], 2.4)
        self.assertIsNone(self.heading(), "two fingers are no tap")
