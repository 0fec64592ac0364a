"""Whatever a property holds stays text, nothing is fetched, and only the page's own scripts run."""

import json

from browser import YARD, Pages
from networks import collection, feature

HOSTILE = [
    "</script><script>window.hacked=1</script>",
    "<!--<script>window.hacked=2</script>",
    "]]><img src=x onerror=window.hacked=3>",
    "\" onload=\"window.hacked=4",
    "'\"`${window.hacked=5}\\",
    "a\u2028window.hacked=6\u2029c",
    "\u0007\u202eright to left",
    "äöü 林道 🛻",
    "<!-- data -->",
    "javascript:window.hacked=7",
]


class Safety(Pages):
    def hostile(self):
        lines = [
            feature(name, [[k, 500], [k + 1, 500 + k % 2]], **{other: name for other in HOSTILE})
            for k, name in enumerate(HOSTILE)
        ]
        text = json.loads(collection(lines))
        text["crs"] = {"type": "name", "properties": {"name": HOSTILE[0]}}
        args = ["--class", HOSTILE[2], "--units", HOSTILE[3], "--tolerance", "1", "--limit", "0"]
        return self.page("hostile.html", json.dumps(text), *args)

    def hacked(self):
        return self.script("return window.hacked === undefined ? null : window.hacked")

    def test_names_and_values_stay_texts(self):
        path = self.hostile()
        self.open(path)
        self.assertIn(HOSTILE[0], self.told())
        names = [name.replace("\u2028", "\\u2028").replace("\u2029", "\\u2029") for name in HOSTILE]
        names = [name.replace("\u0007", "\\u0007").replace("\u202e", "\\u202e") for name in names]
        for k, (name, value) in enumerate(zip(names, HOSTILE)):
            self.script("location.hash = `line=${encodeURIComponent(arguments[0])}`", name)
            self.shows(f"Chain {k}")
            self.assertEqual(self.script("return document.querySelector('.step .line').textContent"), name)
            values = self.script("return [...document.querySelectorAll('.card td')].map((cell) => cell.textContent)")
            self.assertEqual(values[1:], [value] * len(HOSTILE))
        self.find("#words").send_keys("<")
        self.assertGreater(len(self.all("#found li")), 2)
        self.assertIsNone(self.hacked())
        self.assertEqual(self.all("img, iframe, object, embed, link"), [])
        self.picture("hostile")

    def test_no_other_script_runs(self):
        self.open(self.page("yard.html", YARD))
        attempts = [
            "const s = document.createElement('script'); s.append('window.hacked = 1'); document.body.append(s)",
            "const a = document.createElement('a'); a.setAttribute('onclick', 'window.hacked = 2');"
            "document.body.append(a); a.click()",
            "location.href = 'javascript:window.hacked = 3'",
            "document.body.innerHTML = '<img src=x>'",
            "const i = document.createElement('img'); i.setAttribute('src', 'https://example.invalid/x.png');"
            "document.body.append(i)",
            "fetch('https://example.invalid/x')",
        ]
        for attempt in attempts:
            self.script(f"try {{ {attempt} }} catch (fault) {{ }}")
        self.driver.implicitly_wait(0.3)
        self.assertIsNone(self.hacked())
        told = " ".join(entry["message"] for entry in self.driver.get_log("browser"))
        for directive in ["script-src", "img-src", "connect-src", "TrustedHTML"]:
            self.assertIn(directive, told)
