#!/usr/bin/env python3
"""Brings this repository's own names in specs/, proofs/ and clauses to snake case.

usage: tools/respell.py [--list FILE]     at the top of the repository, once, after the kit's port.py

A name is the repository's own where a file below crates/ declares it. Names with a dash, and names of functions, lemmas and
fields in lower camel case, become snake case; types and facts keep their capitals. A name that a file imports from the kit's
library stays in that file, and so does what the kit generates. --list writes old and new names, a line each.
"""

import collections
import glob
import os
import re
import sys

WORD = re.compile(r"[^\s(){}\[\],;.«»\"|]+")
# Names that would fall together with others of their file, by hand.
CHOSEN = {
    "low-x": "from_low_x", "low-y": "from_low_y", "high-x": "to_high_x", "high-y": "to_high_y",
    "least-x": "at_least_x", "least-y": "at_least_y", "greatest-x": "at_greatest_x", "greatest-y": "at_greatest_y",
    "is-nan": "is_nan_lem", "of-bits": "of_bits_lem", "flat-map": "flat_map_lem", "put-mid": "put_mid_lem",
    "cell-of": "cell_of", "group-is": "group_is_lem", "mark-at": "mark_at", "measure-of": "measure_of", "pair-at": "pair_at",
    "point-of": "point_of", "points-in": "points_in", "rank-of": "rank_of",
    "inOrder": "in_order_case", "inCells": "in_cells_case",
}
# Lemmas and fields that have the name which a function gets.
LEMMAS = {"one_key", "plain_at"}
MADE = re.compile(r"^(Need|After|Then|Else|At|Start|invariant-|decreases-|loop-|the-)")


def spelled(name):
    if name in CHOSEN:
        return CHOSEN[name]
    new = name.replace("→", "_to_") if re.match(r"^[a-z][\w'-]*→", name) else name
    new = new.replace("-", "_") if re.match(r"^[A-Za-z]", new) else new
    if re.match(r"^[A-Z]", name):
        return re.sub(r"-([a-z])", lambda m: m.group(1).upper(), name)
    if re.match(r"^[a-z]", new):
        new = re.sub(r"(?<=[a-z0-9'])([A-Z])", lambda m: "_" + m.group(1).lower(), new)
    return new


def files(root):
    for p in sorted(glob.glob(os.path.join(root, "crates/*/specs/**/*.antt"), recursive=True) + glob.glob(os.path.join(root, "crates/*/proofs/**/*.antt"), recursive=True)):
        yield p


def rust(root):
    return sorted(glob.glob(os.path.join(root, "crates/*/src/**/*.rt"), recursive=True))


def code(line):
    """The part of a line of antt before its comment."""
    m = re.search(r"(^|\s)--(\s|$)", line)
    return (line[: m.start()], line[m.start():]) if m else (line, "")


def declared(text):
    """Names that a file of antt declares, at its top, in a record, in a data, under where or as a local."""
    names = set()
    for line in text.split("\n"):
        line = code(line)[0]
        m = re.match(r"^\s*(?:(?:pub|abbrev|unfoldable|record|data|ruleset)\s+)*(" + WORD.pattern + r")(?:\s+[({].*?[)}])*\s*:(\s|$)", line)
        if m:
            names.add(m.group(1))
        m = re.match(r"^\s*(?:(?:pub|abbrev|unfoldable)\s+)*(?:record|data|ruleset)\s+(" + WORD.pattern + r")", line)
        if m:
            names.add(m.group(1))
        m = re.match(r"^\s*\|\s*(" + WORD.pattern + r")\s*:", line)
        if m:
            names.add(m.group(1))
    return names


USE = re.compile(r"^\s*(?:ghost )?(?:pub )?use\s+([^\s{};]+?)(?:\.\{(.*?)\})?(?:\s+as\s+(\S+?))?;?\s*$")


def imports(text):
    """Names that a file imports: from the kit, and from this repository, each as it is called there and here."""
    kit, own = set(), set()
    for line in text.split("\n"):
        m = USE.match(code(line)[0] if not line.lstrip().startswith("ghost") else line)
        if not m or not m.group(2):
            continue
        mine = m.group(1).startswith("Rattle.") and not m.group(1).startswith("Rattle.std")
        for part in m.group(2).split(","):
            words = part.split()
            if not words:
                continue
            there = words[0]
            here = words[2] if len(words) == 3 and words[1] == "as" else there
            (own if mine else kit).add(here)
            if mine:
                own.add(there)
            elif here != there:
                own.add(here)
                kit.discard(here)
                kit.add(there)
    return kit, own


def turned(text, names):
    return WORD.sub(lambda m: names.get(m.group(0), m.group(0)), text)


def turned_comment(text, names):
    """Names in a comment: those in backticks, and those that no English word is like."""
    text = re.sub(r"`([^`]*)`", lambda m: "`" + turned(m.group(1), names) + "`", text)
    return WORD.sub(lambda m: names[m.group(0)] if m.group(0) in names and re.search(r"[a-z][A-Z]", m.group(0)) else m.group(0), text)


def aliases(text):
    return {w for part in re.findall(r"\bas ([^\s,;}]+)", text) for w in [part] if "-" in w or re.match(r"^[a-z]\w*[A-Z]", w)}


def main(argv):
    root = os.getcwd()
    texts = {p: open(p, encoding="utf-8").read() for p in list(files(root)) + rust(root)}
    own = set()
    for p, t in texts.items():
        if p.endswith(".antt"):
            own |= declared(t)
        own |= {a for line in t.split("\n") if re.match(r"^\s*(ghost )?use ", line) for a in aliases(line)}
    names = {n: spelled(n) for n in own if not MADE.match(n) or n in CHOSEN}
    taken = {n for n in own if n == spelled(n)} | {spelled(n) for n in own if not re.search("[-→]", n)}
    names = {n: s + "_lem" if n not in CHOSEN and re.search("[-→]", n) and s != n and s in taken else s for n, s in names.items()}
    names = {n: s for n, s in names.items() if s != n} | {n: n + "_lem" for n in LEMMAS}
    for p, t in texts.items():
        if p.endswith(".antt"):
            kit, mine = imports(t)
            mine |= declared(t)
            here = {n: s for n, s in names.items() if n not in kit or n in mine}
            lines = []
            for line in t.split("\n"):
                c, rest = code(line)
                lines.append(turned(c, here) + turned_comment(rest, here))
            new = "\n".join(lines)
            seen = collections.defaultdict(set)
            for w in WORD.findall("\n".join(re.sub(r"^use \S+?\.(\{|[A-Z]\w*( as \S+)?$)", "{", code(x)[0]) for x in t.split("\n"))):
                seen[here.get(w, w)].add(w)
        else:
            kit, mine = imports(t)
            here = {n: s for n, s in names.items() if n not in kit or n in mine}
            lines = []
            for line in t.split("\n"):
                at = line.find("//")
                c, rest = (line[:at], line[at:]) if at >= 0 else (line, "")
                lines.append(turned(c, here) + turned_comment(rest, here))
            new = "\n".join(lines)
            seen = collections.defaultdict(set)
            for w in WORD.findall("\n".join(x.split("//")[0] for x in t.split("\n"))):
                seen[here.get(w, w)].add(w)
        for s, ws in seen.items():
            if len(ws) > 1:
                print(f"{os.path.relpath(p, root)}: {', '.join(sorted(ws))} fall together as {s}")
        if new != t:
            open(p, "w", encoding="utf-8").write(new)
    if "--list" in argv:
        with open(argv[argv.index("--list") + 1], "w") as f:
            for n in sorted(names):
                f.write(f"{n} {names[n]}\n")
    return 0


if __name__ == "__main__":
    raise SystemExit(main(sys.argv[1:]))
