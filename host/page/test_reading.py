"""What a reader does with a page: opens it, searches, clicks, follows links, and reads the reasons."""

import json
import struct

from browser import COARSE, YARD, Pages, lovasuku, middle
from networks import collection, feature
from selenium.webdriver.common.keys import Keys

LINES = {line["id"]: line["geometry"]["coordinates"] for line in json.loads(YARD.read_text())["features"]}
CROSSING = [1180.4, 812.6]
BERM = [[933.2, 1083.4], [938.6, 1087.9]]


class Reading(Pages):
    def yard(self, link=""):
        self.open(self.page("yard.html", YARD, *COARSE), link)

    def search(self, words):
        field = self.find("#words")
        field.clear()
        field.send_keys(words)

    def test_opens_with_all_that_there_is(self):
        self.yard()
        self.assertEqual(self.driver.title, "yard.geojson · Lovasuku")
        self.assertEqual(self.find("#tally").text, "23 lines joined into 10 chains")
        told = self.told()
        for words in [
            "2 bridges, longest first", "bridge 1 7.02922 m, S2 to S3, chain 1", "3 junctions", "2 loops",
            "All 4 selected pairs stand, as in the run.", "cells of side 10 m",
            "paired up to a bend of 60°, limit -0.5", "by kind", "none is named", "lovasuku 0.1.0",
        ]:
            self.assertIn(words, told)
        self.assertIn("bridge: a segment of no line", self.find("#legend").text)
        self.assertIn("m", self.find("#length").text)
        self.assertGreater(len(self.colours()), 20)
        self.picture("yard")

    def colours(self):
        """The colours that the map is painted in."""
        return self.script(
            "const c = document.getElementById('canvas');"
            "const d = c.getContext('2d').getImageData(0, 0, c.width, c.height).data; const all = new Set();"
            "for (let k = 0; k < d.length; k += 4) all.add(d[k] << 16 | d[k + 1] << 8 | d[k + 2]); return [...all]"
        )

    def test_nothing_is_fetched(self):
        self.yard()
        self.assertEqual(self.script("return performance.getEntriesByType('resource').length"), 0)

    def test_every_bit_of_every_coordinate(self):
        wild = [[0.1, -0.0], [0.30000000000000004, 5e-324], [-123456.789012345, 1e300], [7.0, -1e-7]]
        text = collection([feature("a", wild), feature("b", wild[::-1]), feature("c", wild[1:3])])
        bits = (
            "const { x, y } = window.lovasuku.network.lines;"
            "const words = (axis) => Array.from(new BigUint64Array(axis.buffer), String); const ys = words(y);"
            "return words(x).flatMap((each, k) => [each, ys[k]])"
        )
        for name, source in [("yard.html", YARD), ("wild.html", text)]:
            with self.subTest(name):
                self.open(self.page(name, source, "--units", "m"))
                told = json.loads(YARD.read_text() if source is YARD else source)
                runs = []
                for line in told["features"]:
                    geometry = line["geometry"]
                    several = geometry["type"] == "MultiLineString"
                    runs += geometry["coordinates"] if several else [geometry["coordinates"]]
                doubles = [number for run in runs for point in run for number in point]
                wanted = [str(struct.unpack("<Q", struct.pack("<d", number))[0]) for number in doubles]
                self.assertEqual(self.script(bits), wanted)

    def test_searches_a_line_and_reads_why_it_is_joined(self):
        self.yard()
        self.search("h3")
        self.assertEqual([item.text for item in self.all("#found li")], ["H3 · chain 0"])
        self.find("#words").send_keys(Keys.ENTER)
        self.shows("Chain 0")
        self.assertTrue(self.driver.current_url.endswith("#line=H3"))
        told = self.told()
        self.assertIn("6 lines, 2331.4 m long, class \"haul\".", told)
        self.assertIn("Line H3", told)
        self.assertIn("S4's start lies there too, of another class", told)
        answer = lovasuku("why", YARD, "H3", "H4", *COARSE).splitlines()[1].strip()
        self.assertIn(answer, told)
        self.assertEqual(self.find("[aria-current]").text, "→ H3 drawn along, 283.524 m")
        self.assertIn("← H2 drawn against, 360.802 m", told)

    def test_searches_by_number_and_finds_nothing(self):
        self.yard()
        for words, heading in [("chain 3", "Chain 3 loop"), ("junction 1", "Junction 1"), ("bridge 0", "Bridge 0")]:
            self.search(words)
            self.find("#found li").click()
            self.shows(heading)
        self.search("no such line")
        self.assertEqual(self.find("#found").text, "Nothing has this name.")

    def test_searches_by_arrows(self):
        self.yard()
        self.search("s")
        self.find("#words").send_keys(Keys.ARROW_DOWN, Keys.ARROW_DOWN, Keys.ENTER)
        self.shows("Chain 1")
        self.assertTrue(self.driver.current_url.endswith("#line=S2"))

    def test_clicks_a_chain(self):
        self.yard()
        self.click(middle(LINES["S5"]))
        self.shows("Chain 6")
        self.click(middle(LINES["H9"]))
        self.shows("Chain 2")
        self.picture("chain")

    def test_clicks_a_bridge_and_reads_where_it_is(self):
        self.yard()
        self.click(BERM[0])
        self.shows("Bridge 1")
        told = self.told()
        for words in [
            "Length 7.02922 m", "From 933.2 1083.4", "To 938.6 1087.9", "Cell 93 108",
            "with no third end (round two)",
        ]:
            self.assertIn(words, told)
        self.open(self.page("yard.html", YARD, *COARSE), "#bridge=1")
        self.picture("bridge")

    def test_clicks_a_junction_and_reads_why_a_bend_was_not_joined(self):
        self.yard()
        self.click(CROSSING)
        self.shows("Junction 0")
        pairs = [item.text.replace("\n", " ") for item in self.all(".pairs li")]
        self.assertEqual(len(pairs), 6)
        first = "selected, 1 of 2 0 H3's end, 1 H4's start joined as pair 1 of 2"
        self.assertTrue(pairs[0].startswith(first), pairs[0])
        bend = (
            "not qualifying 0 H3's end, 2 H5's start not joined: measure -0.2606575542608197 (a bend of "
            "74.8909°) is above the limit -0.5 (60°)."
        )
        self.assertIn(bend, pairs)
        self.assertIn("4 ends meet at 1180.4 812.6, bit for bit, in round one.", self.told())
        self.picture("junction")
        self.open(self.page("yard.html", YARD, *COARSE), "#junction=1")
        blocked = (
            "blocked by pair 1 0 S4's end, 1 S5's end not joined: measure -0.886225443961837 (a bend of "
            "27.5973°) qualifies, but pair 1, S4's end with S6's start, comes first."
        )
        self.assertIn(blocked, [item.text.replace("\n", " ") for item in self.all(".pairs li")])

    def test_clicks_a_loop_and_a_gap(self):
        ring = feature("ring", [[500, 0], [520, 0], [520, 20], [500, 20], [500, 0]])
        near = [feature("a", [[600, 5], [609.999, 5]]), feature("b", [[610.001, 5], [640, 5]])]
        self.open(self.page("gap.html", collection([ring, *near]), "--tolerance", "10"))
        self.click([510, 10])
        self.shows("Chain 0 loop")
        self.find("#home").click()
        self.shows(None)
        self.click([609.999, 5])
        self.shows("Gap 0")
        self.assertIn("Its ends lie in two cells, 60 0 and 61 0, however near they are.", self.told())
        self.picture("gap")

    def test_opens_for_any_input(self):
        def line(coordinates, kind="LineString"):
            return {"type": "Feature", "properties": None, "geometry": {"type": kind, "coordinates": coordinates}}

        far = 1.7e308
        for lines in [
            [],
            [line([[5, 5]])],
            [line([[5, 5], [5, 5]])],
            [line([[5, 5], [5, 9]]), line([[5, 9], [5, 5]])],
            [line([[-far, -far], [far, far]]), line([[far, far], [0, 0]])],
            [line([[5e-324, 0], [0, 5e-324]])],
            [line([[[5, 5], [6, 6]], []], "MultiLineString"), line([[7, 7], [8, 8]])],
            [line([[k, 9 * (k % 7)], [0, 0]]) for k in range(80)],
        ]:
            path = self.page("any.html", collection(lines), "--tolerance", "3", "--limit", "0.5", "--units", "m")
            for link in ["", "#chain=0", "#junction=0", "#bridge=0"]:
                self.open(path, link)
                self.assertEqual(self.find("#tally").text.split(" ")[0], str(len(lines)))
                self.find("#closer").click()
                self.find("#all").click()
                self.painted()

    def test_follows_links_and_goes_back(self):
        self.yard("#chain=0")
        self.shows("Chain 0")
        self.find(".joint a[href='#junction=0']").click()
        self.shows("Junction 0")
        self.find(".ends a[href='#chain=2']").click()
        self.shows("Chain 2")
        self.driver.back()
        self.shows("Junction 0")
        self.driver.back()
        self.shows("Chain 0")
        self.find(".back").click()
        self.shows(None)

    def test_a_link_to_nothing_says_so(self):
        for link, words in [
            ("#chain=99", "There is no chain 99 in this page; they go from 0 to 9."),
            ("#gap=0", "There is no gap 0 in this page; and there is none."),
            ("#junction=-1", "There is no junction -1 in this page"),
            ("#line=%E0%A4%A", "There is no line %E0%A4%A in this page."),
        ]:
            self.yard(link)
            self.assertIn(words, self.find("[role='alert']").text)
        self.yard("#nothing")
        self.assertEqual(self.all("[role='alert']"), [])

    def test_a_ring_tells_how_it_closes(self):
        self.yard("#chain=3")
        closing = self.all(".joint")[-1].text.replace("\n", " ")
        self.assertTrue(closing.startswith("ring Y3's start and Y1's start lie at 1150 430"), closing)

    def test_without_a_limit_no_junction_is_paired(self):
        self.open(self.page("plain.html", YARD), "#junction=2")
        pairs = [item.text.replace("\n", " ") for item in self.all(".pairs li")]
        self.assertEqual(len(pairs), 6)
        words = (
            "not paired 0 H3's end, 1 H4's start not joined: junctions are not paired; measure "
            "-0.9999414763565161 (a bend of 0.619877°)."
        )
        self.assertEqual(pairs[0], words)
        self.assertEqual(self.all("#limit"), [])
