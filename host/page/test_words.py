"""The page tells what `lovasuku why` tells, and what a stricter limit leaves is what a run with it gives."""

from browser import COARSE, YARD, Pages, lovasuku
from networks import streets

# Every sentence that the page has: of each joint, and of each pair of each junction, with its two lines.
SENTENCES = """
const { network, reasons } = window.lovasuku;
const all = [];
for (let chain = 0; chain < network.chains.count; chain += 1) {
  for (let k = 0; k + 1 < network.countOf(chain); k += 1) {
    all.push([...network.jointEnds(chain, k).map((end) => network.label(end.line)), reasons.ofJoint(chain, k).words]);
  }
  const closing = reasons.ofClosing(chain);
  const path = network.pathOf(chain).map(({ line }) => network.label(line));
  if (closing !== null) all.push([path[0], path[path.length - 1], closing.words]);
}
for (const junction of network.junctions) {
  for (const pair of reasons.pairsOf(junction)) {
    const [a, b] = [junction.ends[pair.i], junction.ends[pair.j]];
    if (pair.rank < 0) all.push([network.label(a.line), network.label(b.line), reasons.ofPair(junction, pair)]);
  }
}
return all;
"""

# Of each junction its ends and the pairs that stand at a limit, in order, and whether a run has to tell; and
# the joints of two ends in round two that stand.
STANDING = """
const { network, whatif } = window.lovasuku;
whatif.at(arguments[0]);
const name = ({ line, last }) => `${network.label(line)} ${last}`;
const junctions = network.junctions.map((junction) => {
  const open = junction.round === 1 && whatif.strict && whatif.takesRun(junction.ends);
  const stands = junction.selected.filter((pair, rank) => whatif.ofPair(junction, rank) === 'stands');
  return { round: junction.round, ends: junction.ends.map(name), open, stands };
});
const joints = [];
for (let chain = 0; chain < network.chains.count; chain += 1) {
  for (let k = 0; k + 1 < network.countOf(chain); k += 1) {
    if (network.jointKind(chain, k) !== 1 || whatif.ofJoint(chain, k) !== 'stands') continue;
    joints.push(network.jointEnds(chain, k).map(name).sort().join());
  }
}
return { junctions, joints, words: whatif.words() };
"""


class Telling(Pages):
    def compare(self, name, source, args):
        """Compares every sentence of a page with the answer of the command, and counts them."""
        self.open(self.page(f"{name}.html", source, *args))
        text = None if source is YARD else source
        given = YARD if source is YARD else "-"
        answers = {}
        sentences = self.script(SENTENCES)
        for one, other, words in sentences:
            if (one, other) not in answers:
                told = lovasuku("why", given, one, other, *args, text=text)
                answers[one, other] = [line.strip() for line in told.splitlines()]
            self.assertIn(words, answers[one, other], f"{name}: {one} {other}")
        return len(sentences)

    def test_the_yard_is_told_as_the_command_tells_it(self):
        self.assertGreater(self.compare("coarse", YARD, COARSE), 20)
        self.assertGreater(self.compare("exact", YARD, []), 20)
        self.assertGreater(self.compare("wide", YARD, ["--tolerance", "100", "--origin", "5,-3", "--bend", "170"]), 20)

    def test_networks_are_told_as_the_command_tells_them(self):
        told = 0
        for seed in range(8):
            limit = ["--limit", ["-1", "-0.9", "-0.5", "0", "0.5", "1"][seed % 6]]
            tolerance = ["--tolerance", ["0", "1", "0.5", "2"][seed % 4], "--units", "m"]
            more = [[], ["--class", "kind"], ["--district", "kind=b"]][seed % 3]
            told += self.compare(f"streets-{seed}", streets(seed, 40), limit + tolerance + more)
        self.assertGreater(told, 200)

    def test_what_stands_at_a_stricter_limit_is_what_a_run_gives(self):
        sure = {"junctions": 0, "cells": 0, "joints": 0, "open": 0}
        for seed in range(30):
            text = streets(1000 + seed, 18 + seed)
            args = ["--tolerance", ["0", "1", "0.5", "2"][seed % 4], "--units", "m"]
            wide = self.page("wide.html", text, "--limit", "0.9", *args)
            limit = [-1, -0.95, -0.8, -0.5, 0, 0.4][seed % 6]
            strict = self.page("strict.html", text, "--limit", str(limit), *args)
            self.open(wide)
            told = self.script(STANDING, limit)
            self.open(strict)
            run = self.script(STANDING, limit)
            self.agree(told, run, sure)
        self.assertGreater(min(sure.values()), 20, sure)

    def agree(self, told, run, sure):
        """What is told of a stricter limit, against a run with it."""
        # Round one has the same junctions under any limit, and round two where nothing below it has changed.
        of_run = {(each["round"], *each["ends"]): each["stands"] for each in run["junctions"]}
        for each in told["junctions"]:
            if each["open"]:
                sure["open"] += 1
                continue
            self.assertEqual(each["stands"], of_run.get((each["round"], *each["ends"]), "no such junction"))
            sure["cells" if each["round"] == 1 else "junctions"] += 1
        for joint in told["joints"]:
            self.assertIn(joint, run["joints"])
            sure["joints"] += 1

    def test_the_slider(self):
        self.open(self.page("yard.html", YARD, *COARSE))
        slide = (
            "const s = document.getElementById('limit'); s.value = arguments[0];"
            "s.dispatchEvent(new Event('input')); return document.getElementById('stands').textContent"
        )
        self.assertEqual(self.script(slide, 60), "All 4 selected pairs stand, as in the run.")
        some = self.script(slide, 3)
        self.assertTrue(some.startswith("2 of 4 selected pairs stand, 2 fall away."), some)
        self.painted()
        self.picture("what-if")
        self.script("location.hash = 'junction=0'")
        self.shows("Junction 0")
        told = self.told()
        self.assertIn("Falls away at limit", told)
        self.assertIn("in round one; round two looks at its ends again", told)
        self.find(".back").click()
        self.shows(None)
        # One pair goes on straight, to the last bit.
        straight = self.script(slide, 0)
        self.assertTrue(straight.startswith("1 of 4 selected pairs stand, 3 fall away."), straight)
