"""Draws a cost curve as an SVG picture: what the best plan costs with each number of open sites.

It takes the lines that `curve` prints. A proved cost is a point, joined to its neighbours; a bracket is a bar between what no plan
costs less than and what a plan costs, open at the top where none was found; and a number of sites with which there is no plan has
a cross at the foot. The least cost is ringed. A browser shows amounts, and what a further site saves, where the mouse points.
"""
import argparse
import re
from collections.abc import Iterator
from dataclasses import dataclass

from .cells import MICRO, Refusal, are_apart, money, run
from .plans import micro
from .shapes import circle, cross, short, tag, told, write

COLOUR, WIDE, HIGH, TOP, RIGHT, FOOT = "#1f6fb4", 760, 480, 88, 28, 86
# About so many ticks of costs, at most so many of counts, and at most so many points with their costs beside them.
TICKS, MOST_COUNTS, MOST_TOLD = 6, 25, 12
STYLE = """
.cost-curve text { font: 12px 'DejaVu Sans', Verdana, sans-serif; fill: #222 }
.cost-curve .head { font-size: 18px; font-weight: bold } .cost-curve .small { font-size: 11px; fill: #555 }
.cost-curve .right { text-anchor: end } .cost-curve .middle { text-anchor: middle }
.cost-curve .label { paint-order: stroke; stroke: white; stroke-width: 3px } .cost-curve .grid { stroke: #ddd }
.cost-curve .axis { stroke: #555; fill: none } .cost-curve .line { stroke: #1f6fb4; stroke-width: 2; fill: none }
.cost-curve .bracket { fill: #e07b00; fill-opacity: 0.35; stroke: #e07b00 }
.cost-curve .unbounded { fill: #e07b00; fill-opacity: 0.15 } .cost-curve .infeasible { stroke: #999; fill: none }
.cost-curve .least { stroke: #c8323c; stroke-width: 2; fill: none }
"""
LINE = re.compile(r"count ([0-9]{1,4}) (?:optimal (\S+)|(infeasible)|bracket (?!none)(\S+) (\S+) nodes [0-9]+ budget [0-9]+)")


@dataclass
class Entry:
    """What is known of a number of open sites: no plan costs less than `low`, and one costs `high`. Neither is there where there is
    no plan, and no `high` where none was found."""

    count: int
    low: int | None
    high: int | None

    def is_optimal(self) -> bool:
        return self.low is not None and self.low == self.high

    def says(self, before: "Entry | None") -> str:
        sites = f"{self.count} site{'s' * (self.count != 1)}"
        if self.low is None:
            return f"{sites}: there is no plan"
        if not self.is_optimal():
            found = "none was found" if self.high is None else f"one costs {money(self.high)}"
            return f"{sites}: no plan costs less than {money(self.low)}, {found}"
        change = before.low - self.low if before and before.is_optimal() else 0
        against = f", {money(abs(change))} {'less' if change > 0 else 'more'} than with {before.count}" if change else ""
        return f"{sites}: {money(self.low)}{against}"


def entries(text: str, path: str = "the curve") -> list[Entry]:
    """The entries of lines, whose counts go up by one. The first line that is none is refused."""
    found: list[Entry] = []
    for number, line in enumerate(text.splitlines(), 1):
        said = LINE.fullmatch(line)
        try:
            ends = [] if not said or said[3] else [said[2] or said[4], said[2] or said[5]]
            costs = [micro(it) for it in ends if it != "none"]
        except ValueError:
            said = None
        is_next = said and not (found and int(said[1]) != found[-1].count + 1)
        if not is_next or said[4] and len(costs) == 2 and costs[0] >= costs[1]:
            raise Refusal(f"{path}, line {number}: this is no line of a cost curve, or not the next one")
        found.append(Entry(int(said[1]), *(costs + [None, None])[:2]))
    if not found:
        raise Refusal(f"{path}: it has no lines")
    return found


def step_over(span: int) -> int:
    """The least of 1, 2, 5, 10, 20 and so on, in millionths, of which about as many as there are ticks make up the span."""
    ten = 1
    while True:
        for it in (1, 2, 5):
            if it * ten * TICKS >= span:
                return it * ten
        ten *= 10


class Chart:
    """Entries with their places in the picture."""

    def __init__(self, entries: list[Entry]):
        self.entries = entries
        costs = [it for entry in entries for it in (entry.low, entry.high) if it is not None]
        least, most = min(costs, default=0), max(costs, default=0)
        # The axis of costs begins at 0 where that leaves the curve half of the picture.
        is_from_zero = 2 * least <= most or least == most
        self.step = step_over(most if is_from_zero else most - least) if most > 0 else MICRO
        self.foot = 0 if is_from_zero else least // self.step * self.step
        self.most = max(-(-most // self.step) * self.step, self.foot + self.step)
        self.shown = short if self.step % 10_000 == 0 else money
        self.left = 40.0 + 7.5 * max(len(self.shown(it)) for it in self.ticks())
        self.wide = (WIDE - RIGHT - self.left) / len(entries)

    def ticks(self) -> range:
        return range(self.foot, self.most + 1, self.step)

    def x(self, entry: Entry) -> float:
        return self.left + self.wide * (entry.count - self.entries[0].count + 0.5)

    def y(self, cost: int) -> float:
        return HIGH - FOOT - (HIGH - FOOT - TOP) * ((cost - self.foot) / (self.most - self.foot))

    def axes(self, unit: str) -> Iterator[str]:
        left, foot = self.left, float(HIGH - FOOT)
        if any(it.low is not None for it in self.entries):
            for cost in self.ticks():
                yield tag("line", x1=left, y1=self.y(cost), x2=float(WIDE - RIGHT), y2=self.y(cost), of="grid")
                yield write(left - 8, self.y(cost) + 4, self.shown(cost), "right tick")
        yield tag("path", d=f"M{left:.1f} {TOP - 8} V{foot} H{WIDE - RIGHT}", of="axis")
        every = -(-len(self.entries) // MOST_COUNTS)
        for it in self.entries[::every]:
            yield tag("line", x1=self.x(it), y1=foot, x2=self.x(it), y2=foot + 5, of="axis")
            yield write(self.x(it), foot + 19, str(it.count), "middle count")
        yield write((left + WIDE - RIGHT) / 2, foot + 38, "open sites", "middle")
        yield write(16, TOP - 18.0, f"cost in {unit}" if unit else "cost", "small")

    def line(self) -> str:
        """The points of proved costs, joined where they are neighbours."""
        pieces, last = [], None
        for it in filter(Entry.is_optimal, self.entries):
            pieces.append(f"{'L' if last and last.count + 1 == it.count else 'M'}{self.x(it):.1f} {self.y(it.low):.1f}")
            last = it
        return tag("path", d=" ".join(pieces), of="line") if len(pieces) > 1 else ""

    def mark(self, it: Entry, before: Entry | None) -> str:
        title, x = told(it.says(before)), self.x(it)
        if it.low is None:
            return cross(x, HIGH - FOOT - 10.0, 5.0, "infeasible", title)
        if it.is_optimal():
            return circle(x, self.y(it.low), 4.5, COLOUR, "optimal", title)
        half, is_bounded = min(9.0, self.wide * 0.3), it.high is not None
        top, foot = self.y(it.high) if is_bounded else TOP - 8.0, self.y(it.low)
        bar = tag("rect", title, x=x - half, y=top, width=2 * half, height=max(foot - top, 1.0), of="bracket" if is_bounded else "unbounded")
        return bar if is_bounded else bar + tag("path", d=f"M{x - half:.1f} {foot:.1f} h{2 * half:.1f}", of="bracket")

    def costs_told(self) -> Iterator[str]:
        """Costs beside the points, the least one first, where there is room; beside the least one alone where there are many."""
        lows, taken = {it.count: it.low for it in self.entries if it.is_optimal()}, []
        for it in sorted(filter(Entry.is_optimal, self.entries), key=lambda it: it.low)[:None if len(self.entries) <= MOST_TOLD else 1]:
            text, x, y = short(it.low), self.x(it), self.y(it.low)
            # Below where the line comes from above on both sides.
            is_low = all(lows.get(it.count + by, it.low) > it.low for by in (-1, 1)) and y + 24 < HIGH - FOOT
            y, half = y + 22 if is_low else y - 12, 3.5 * len(text)
            if self.left < x - half and x + half < WIDE and all(x + half < a or b < x - half or abs(y - other) > 12 for a, b, other in taken):
                taken.append((x - half, x + half, y))
                yield write(x, y, text, "label small middle")

    def least(self) -> tuple[Entry | None, bool]:
        """The least cost that a plan has, and whether no bracket leaves room for a lesser one."""
        known = [it for it in self.entries if it.high is not None]
        best = min(known, key=lambda it: it.high, default=None)
        return best, best is not None and all(it.low is None or it.low >= best.high for it in self.entries)

    def says(self) -> str:
        best, is_proved = self.least()
        if best is None:
            return "no plan was found"
        return f"{'least' if is_proved else 'least that was found'}: {short(best.high)} with {best.count} open site{'s' * (best.count != 1)}"

    def keys(self, y: float) -> Iterator[str]:
        """The marks that the picture has, with what they mean."""
        x, entries = self.left, self.entries
        if any(it.is_optimal() for it in entries):
            yield circle(x + 6, y - 4, 4.5, COLOUR, "key") + write(x + 18, y, "proved least cost", "small")
            x += 140
        if any(it.low is not None and not it.is_optimal() for it in entries):
            yield tag("rect", x=x, y=y - 11.0, width=9, height=14, of="bracket key") + write(x + 18, y, "open: the least cost is within", "small")
            x += 245
        if any(it.low is None for it in entries):
            yield cross(x + 6, y - 4, 5.0, "infeasible key") + write(x + 18, y, "no plan", "small")

    def svg(self, title: str, unit: str) -> str:
        best, _ = self.least()
        ring = circle(self.x(best), self.y(best.high), 9.0, "none", "least") if best else ""
        begins = "" if self.foot == 0 else f"; the axis begins at {self.shown(self.foot)}"
        parts = [told(title), tag("style", STYLE), tag("rect", width=WIDE, height=HIGH, fill="white"), write(16, 26, title, "head"),
                 write(16, 45, self.says() + begins, "small"), *self.axes(unit), self.line(),
                 *(self.mark(it, before) for it, before in zip(self.entries, [None, *self.entries])), ring, *self.costs_told(),
                 *self.keys(HIGH - 16.0)]
        return tag("svg", "\n" + "".join(parts), xmlns="http://www.w3.org/2000/svg", viewBox=f"0 0 {WIDE} {HIGH}", width=WIDE, height=HIGH, role="img",
                   of="cost-curve")


def svg(those: list[Entry], title: str = "Cost by the number of open sites", unit: str = "") -> str:
    """The picture of entries, whose costs are in the unit."""
    return Chart(those).svg(title, unit)


def main(words: list[str] | None = None) -> None:
    """The command `chart` with its words."""
    about, _, more = __doc__.partition("\n\n")
    top = argparse.ArgumentParser(prog="chart", description=about, epilog=more, formatter_class=argparse.RawDescriptionHelpFormatter)
    top.add_argument("curve", help="the file of the lines that `curve` printed")
    top.add_argument("picture", help="the SVG file to write")
    top.add_argument("--title", default="Cost by the number of open sites", help="what stands above it")
    top.add_argument("--unit", default="", help="the unit of the costs, as EUR")
    args = top.parse_args(words)
    are_apart(args.curve, args.picture)
    with open(args.curve, encoding="utf-8") as file:
        found = entries(file.read(), args.curve)
    picture = svg(found, args.title, args.unit)
    with open(args.picture, "w", encoding="utf-8") as file:
        file.write(picture)
    optimal, impossible = sum(it.is_optimal() for it in found), sum(it.low is None for it in found)
    print(f"optimal {optimal} brackets {len(found) - optimal - impossible} infeasible {impossible}")


if __name__ == "__main__":
    run(main)
