"""Compares the charts of cost curves with a plain reading of their lines: `charts.py PROGRAM [CURVES]`.

Random curves, with proved costs, brackets, brackets without a plan and counts that have none, become charts. Each has to be
well-formed, with one mark for each count, in the order of the counts; each end of a mark has to stand where the amounts at the axis
put its cost, the ring at the least cost that a plan has, and no text outside of the picture or over another. What is no curve is
refused, with its line, and then nothing is written. Last comes the curve of the example in `examples/sheets/`, whose picture the
pages show.
"""
import contextlib
import io
import random
import re
import subprocess
import sys
import xml.etree.ElementTree as ElementTree
from pathlib import Path

from common import MICRO, main, money
from refusals import LANES, ROOT, cells, wrong

from planner import chart

CURVES, SVG = 300, "{http://www.w3.org/2000/svg}"
GOOD = ("count 1 infeasible\ncount 2 bracket 3.000000 none nodes 5 budget 4\ncount 3 bracket 3.000000 5.500000 nodes 5 budget 4\n"
        "count 4 optimal 4.000000\ncount 5 optimal 4.500000\n")
REFUSED = [("", "", "it has no lines"), ("count 1 infeasible\n", "", "line 1: {}"), ("count 2", "count 3", "line 2: {}"),
           ("count 3", "count 1", "line 3: {}"),
           ("count 4", "count 4 ", "line 4: {}"), ("4.500000", "4.5", "line 5: {}"), ("4.500000\n", "4.500000\nno memory\n", "line 6: {}"),
           ("5.500000", "3.000000", "line 3: {}"), ("3.000000 none", "none 3.000000", "line 2: {}"),
           ("infeasible", "infeasible nodes 1", "line 1: {}"),
           (" nodes 5", "", "line 2: {}"), ("count 1", "Count 1", "line 1: {}"), ("4.000000", "-4.000000", "line 4: {}")]
NO_LINE = "this is no line of a cost curve, or not the next one"
# How the picture of the pages is drawn.
DRAWN = "--title", "The region", "--unit", "euros"


def some_curve():
    """Random lines; and for each the ends of its costs, of which the last may be missing, or both."""
    first, many = random.choice([0, 1, 1, 5]), random.choice([1, 2, 5, 8, 12, 13, 40, 90])
    step, base = random.choice([1, MICRO // 100, MICRO, 1000 * MICRO, 10**13]), random.choice([0, 0, 1, 7, 50, 5000])
    cost = lambda: step * (base * 20 + random.randrange(40))
    kinds, lines, ends = random.choice(["o", "oi", "ob", "oibu", "i", "u", "oooobui"]), [], []
    for count in range(first, first + many):
        kind, low = random.choice(kinds), cost()
        high = low + step * random.randint(1, 9)
        told, pair = {"o": (f"optimal {money(low)}", (low, low)), "i": ("infeasible", (None, None)),
                      "b": (f"bracket {money(low)} {money(high)} nodes 9 budget 8", (low, high)),
                      "u": (f"bracket {money(low)} none nodes 9 budget 8", (low, None))}[kind]
        lines.append(f"count {count} {told}\n")
        ends.append(pair)
    return "".join(lines), ends


class Seen:
    """A chart as it is drawn."""

    def __init__(self, shown, text):
        self.shown, self.top = shown, ElementTree.fromstring(text)
        self.wide, self.high = (float(it) for it in self.top.get("viewBox").split()[2:])
        self.ticks = [(cost_at(it.text), float(it.get("y")) - 4) for it in self.of("text", "tick")]

    def of(self, name, kind):
        return [it for it in self.top.iter(SVG + name) if kind in (it.get("class") or "").split() and "key" not in it.get("class")]

    def due(self, holds, why):
        if not holds:
            wrong(self.shown, why)

    def place(self, cost):
        """Where a cost stands, by the amounts at the axis."""
        (a, y), (b, z) = self.ticks[0], self.ticks[-1]
        return y + (z - y) * ((cost - a) / (b - a))

    def marks(self):
        """The middle, the upper and the lower end of each mark, by the kinds of marks."""
        middle = lambda it: (float(it.get("cx")), float(it.get("cy")), float(it.get("cy")))
        side = lambda it, name: float(it.get(name))
        bar = lambda it: (side(it, "x") + side(it, "width") / 2, side(it, "y"), side(it, "y") + side(it, "height"))
        cross = lambda it: tuple(float(n) for n in re.match(r"M(\S+) (\S+) ", it.get("d")).groups())
        return {"optimal": [middle(it) for it in self.of("circle", "optimal")], "bracket": [bar(it) for it in self.of("rect", "bracket")],
                "unbounded": [bar(it) for it in self.of("rect", "unbounded")],
                "infeasible": [(cross(it)[0] + 5, None, None) for it in self.of("path", "infeasible")]}

    def judge(self, ends):
        kind_of = lambda low, high: "infeasible" if low is None else "unbounded" if high is None else "optimal" if low == high else "bracket"
        marks, last = self.marks(), 0
        for low, high in ends:
            self.due(marks[kind_of(low, high)], "a mark is missing")
            x, top, foot = marks[kind_of(low, high)].pop(0)
            self.due(last < x < self.wide, "the marks aren't in the order of the counts")
            self.due(low is None or abs(foot - self.place(low)) < 1.1, f"a mark ends at {foot}, and {low} is at {low and self.place(low)}")
            self.due(high is None or abs(top - self.place(high)) < 1.1, f"a mark begins at {top}, and {high} is at {high and self.place(high)}")
            last = x
        self.due(not any(marks.values()), f"there are more marks: {marks}")
        highs = [high for _, high in ends if high is not None]
        rings = [float(it.get("cy")) for it in self.of("circle", "least")]
        self.due(len(rings) == bool(highs) and all(abs(it - self.place(min(highs))) < 0.2 for it in rings), f"the rings are at {rings}")

    def texts(self):
        """No text is outside, or over another; a letter is taken for two thirds as wide as high."""
        boxes = []
        for it in self.top.iter(SVG + "text"):
            words = (it.get("class") or "").split()
            size = 18 if "head" in words else 11 if "small" in words else 12
            wide, x, y = 0.66 * size * len(it.text), float(it.get("x")), float(it.get("y"))
            left = x - wide if "right" in words else x - wide / 2 if "middle" in words else x
            boxes.append((left, y - 0.8 * size, left + wide, y + 0.1 * size, it.text))
        for place, (a, b, c, d, text) in enumerate(boxes):
            self.due(a >= 0 and b >= 0 and c <= self.wide + 1 and d <= self.high, f"{text!r} is outside")
            over = [it[4] for it in boxes[:place] if it[0] < c - 1 and a < it[2] - 1 and it[1] < d and b < it[3]]
            self.due(not over, f"{text!r} is over {over}")


def cost_at(text):
    whole, _, part = text.replace("\u2009", "").partition(".")
    return int(whole + part.ljust(6, "0"))


def called(*words):
    """What the tool prints, or the refusal."""
    said = io.StringIO()
    try:
        with contextlib.redirect_stdout(said):
            chart.main([*words])
    except cells.Refusal as why:
        return None, str(why)
    return said.getvalue(), None


def one(lines, picture):
    """A random curve."""
    text, ends = some_curve()
    lines.write_text(text)
    said, why = called(str(lines), str(picture), *random.choice([[], ["--unit", "EUR"], ["--title", "<&\">"]]))
    optimal, impossible = sum(low is not None and low == high for low, high in ends), sum(low is None for low, _ in ends)
    if said != f"optimal {optimal} brackets {len(ends) - optimal - impossible} infeasible {impossible}\n":
        wrong(text, f"{said!r}, {why}")
    seen = Seen(text, picture.read_text())
    seen.judge(ends)
    seen.texts()
    return len(ends)


def refuse(lines, picture):
    for old, new, due in REFUSED:
        text = GOOD.replace(old, new, 1) if old else ""
        if old == "count 1 infeasible\n":
            text = "\n" + GOOD
        lines.write_text(text)
        picture.write_text("before")
        found, due = called(str(lines), str(picture)), f"{lines}{', ' if old else ': '}{due.format(NO_LINE)}"
        if found != (None, due) or picture.read_text() != "before":
            wrong(text, f"{found}, and {due!r} is due")
    if called(str(lines), str(lines)) != (None, f"{lines}: it is named twice"):
        wrong("one file", called(str(lines), str(lines)))
    return len(REFUSED) + 1


def example(program, lines, picture):
    """The curve of the pages, made by the commands that they show."""
    at, files = ROOT / "examples" / "sheets", [program.at(it) for it in ("region.own", "names.csv")]
    ask = lambda *words: subprocess.run([sys.executable, *map(str, words)], stdout=subprocess.PIPE, stderr=subprocess.STDOUT, text=True)
    ask(ROOT / "tools" / "sheets.py", "own", at / "sites.csv", at / "customers.csv", *files, "--lanes", at / LANES)
    said, status = program.ask("curve", "own", "region.own", "1", "6")
    lines.write_text(said)
    ran = ask(ROOT / "tools" / "curve.py", lines, picture, *DRAWN)
    if status or ran.returncode or picture.read_text() != (ROOT / "docs" / "pictures" / "curve.svg").read_text():
        wrong("docs/pictures/curve.svg", f"{said!r}, {ran.stdout!r}: the chart of the example is another one")


def check(program, curves=CURVES):
    lines, picture = Path(program.at("curve")), Path(program.at("curve.svg"))
    counts = sum(one(lines, picture) for _ in range(int(curves)))
    many = refuse(lines, picture)
    example(program, lines, picture)
    return f"charts: {curves} curves of {counts} counts are drawn as they say, {many} refusals, and the example's picture is that of the pages"


if __name__ == "__main__":
    main(check)
