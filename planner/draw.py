"""Draws the map of a plan as an SVG picture.

It takes a plan text, as `solve` writes it and `answer` prints it, the plan of a center, or a JSON report, as `json` prints it, and
the file of names that `sheets own` left with the instance, where each site and customer has to have x and y, or lat and lon. Open
sites are squares in a colour of their own, closed ones grey crosses, and customers are circles as large as their demands, in the
colour of the site that serves them, with a line to it. Beside the map stand the cost, the marks, a scale, and how full each open
site is. A browser shows names and amounts where the mouse points.
"""
import argparse
import math
from collections.abc import Iterator

from .answers import read_answer, take_answer, used
from .cells import MICRO, Refusal, money, run
from .names import Names
from .places import Site, planar, projector
from .plans import Plan
from .shapes import Labels, circle, cross, short, square, tag, told, write

# Colours that can be told apart on white.
COLOURS = ("#1f6fb4 #e07b00 #2a9d4a #c8323c #7d54b2 #8a5a3c #d45ca8 #5f7f00 #009aa6 #b59000 #34479e #7f2a5b").split()
WIDE, HIGH, EDGE, PANEL = 760, 760, 36, 340
ROW = 19
# The most open sites in the list beside the map, and the most sites and customers whose names stand in it.
LISTED, NAMED_SITES, NAMED_CUSTOMERS = 24, 60, 60
STYLE = """
.plan-map text { font: 12px 'DejaVu Sans', Verdana, sans-serif; fill: #222 }
.plan-map .head { font-size: 18px; font-weight: bold } .plan-map .small { font-size: 11px; fill: #555 }
.plan-map .right { text-anchor: end } .plan-map .middle { text-anchor: middle }
.plan-map .label { paint-order: stroke; stroke: white; stroke-width: 3px; stroke-linejoin: round } .plan-map .of-open { font-weight: bold }
.plan-map .of-closed { fill: #777 } .plan-map .of-customer { font-size: 10px; fill: #555 }
.plan-map .frame { fill: #fafaf7; stroke: #ccc } .plan-map .open, .plan-map .customer { stroke: white }
.plan-map .closed { stroke: #999; fill: none } .plan-map .lane { stroke-opacity: 0.6 }
"""


def told_of(site: Site) -> str:
    """What is told of an open or a closed site alike."""
    must = {"open": ", must be open", "closed": ", must stay closed"}.get(site.status, "")
    return must if site.capacity is None else f", capacity {money(site.capacity)}{must}"


def colours(spots: dict[int, tuple[float, float]]) -> dict[int, str]:
    """A colour for each: of all the one whose nearest use is farthest away, so that neighbours differ."""
    chosen = {}
    for key, spot in spots.items():
        uses = {colour: [spots[it] for it, has in chosen.items() if has == colour] for colour in COLOURS}
        chosen[key] = max(COLOURS, key=lambda colour: min((math.dist(spot, it) for it in uses[colour]), default=math.inf))
    return chosen


def round_length(most: float) -> float:
    """The greatest of 1, 2, 5, 10, 20 and so on, or of 0.5, 0.2 and so on, that isn't above it."""
    ten = 10.0**math.floor(math.log10(most))
    return max(it * ten for it in (1, 2, 5) if it * ten <= most)


class Map:
    """A plan with the places of its sites and customers in the picture, where the second coordinate goes up."""

    def __init__(self, plan: Plan, names: Names):
        sites, customers = names.sites, names.customers
        self.plan, self.sites, self.customers = plan, sites, customers
        project = projector([*sites.values(), *customers.values()])
        spots = planar(sites, project), planar(customers, project)
        xs, ys = zip(*(at for those in spots for at in those.values()))
        wide, high = max(xs) - min(xs), max(ys) - min(ys)
        self.scale = min((WIDE - 2 * EDGE) / max(wide, 1), (HIGH - 2 * EDGE) / max(high, 1))
        self.high = max(high * self.scale + 2 * EDGE, 300.0)
        left, foot = (WIDE - (min(xs) + max(xs)) * self.scale) / 2, (self.high + (min(ys) + max(ys)) * self.scale) / 2
        self.site_at, self.customer_at = ({key: (left + x * self.scale, foot - y * self.scale) for key, (x, y) in those.items()}
                                          for those in spots)
        self.colour = colours({s: self.site_at[s] for s in plan.fixed})
        self.most = max(it.demand for it in customers.values())
        # The radius of the largest circles, and half the side of a square: less where there are many.
        self.largest = max(4.0, min(11.0, 120 / math.sqrt(len(customers))))
        self.half = max(4.5, min(8.0, 60 / math.sqrt(len(sites))))
        self.mine = {s: [c for c, (by, _) in plan.served.items() if by == s] for s in plan.fixed}
        self.load = {s: sum(customers[c].demand for c in mine) for s, mine in self.mine.items()}

    def radius(self, demand: int) -> float:
        return self.largest * max(0.3, math.sqrt(demand / self.most)) if self.most else self.largest / 2

    def lanes(self) -> Iterator[str]:
        for c, (s, _) in self.plan.served.items():
            (x1, y1), (x2, y2) = self.site_at[s], self.customer_at[c]
            yield tag("line", x1=x1, y1=y1, x2=x2, y2=y2, stroke=self.colour[s], of="lane")

    def closed_sites(self) -> Iterator[str]:
        for s, it in self.sites.items():
            if s not in self.plan.fixed:
                text = f"{it.name}: closed, would cost {money(it.fixed)}{told_of(it)}"
                yield cross(*self.site_at[s], self.half * 0.75, "site closed", told(text))

    def customers_served(self) -> Iterator[str]:
        """Large ones first, so that none is hidden."""
        for c, it in sorted(self.customers.items(), key=lambda pair: -pair[1].demand):
            s, cost = self.plan.served[c]
            price = "" if cost is None else f" for {money(cost)}"
            text = f"{it.name}: demand {money(it.demand)}, from {self.sites[s].name}{price}"
            yield circle(*self.customer_at[c], self.radius(it.demand), self.colour[s], "customer", told(text))

    def open_sites(self) -> Iterator[str]:
        for s, fixed in self.plan.fixed.items():
            it = self.sites[s]
            text = f"{it.name}: open for {money(fixed)}{told_of(it)}, load {money(self.load[s])} of {len(self.mine[s])} customers"
            yield square(*self.site_at[s], self.half, self.colour[s], "site open", told(text))

    def names(self) -> Iterator[str]:
        """The names for which there is room, those of open sites first."""
        boxes = lambda those: [(x - r, y - r, x + r, y + r) for (x, y), r in those]
        opened = boxes((self.site_at[s], self.half) for s in self.plan.fixed)
        closed = boxes((spot, self.half) for s, spot in self.site_at.items() if s not in self.plan.fixed)
        served = boxes((spot, self.radius(self.customers[c].demand)) for c, spot in self.customer_at.items())
        labels, is_small = Labels(WIDE, self.high, opened, opened + closed + served), len(self.sites) <= NAMED_SITES
        for s in self.plan.fixed if len(self.plan.fixed) <= NAMED_SITES else ():
            yield labels.put(*self.site_at[s], self.half + 4, self.sites[s].name, 12, "of-open")
        for s in sorted(self.sites.keys() - self.plan.fixed.keys()) if is_small else ():
            yield labels.put(*self.site_at[s], self.half + 3, self.sites[s].name, 11, "of-closed")
        for c, it in self.customers.items() if len(self.customers) <= NAMED_CUSTOMERS else ():
            yield labels.put(*self.customer_at[c], self.radius(it.demand) + 3, it.name, 10, "of-customer")

    def says(self) -> list[tuple[str, str]]:
        """The cost and the counts, each with the class of its letters."""
        plan, fixed = self.plan, sum(self.plan.fixed.values())
        # What no plan is below is rounded down.
        than = "" if plan.low == (plan.radius if plan.is_center else plan.cost) else f" than {short(plan.low - plan.low % 10000)}"
        claim = f"the dearest lane costs {short(plan.radius)}: in no plan it costs less" if plan.is_center else "no plan costs less"
        return [(f"cost {short(plan.cost)}", "head"), (f"{plan.claim}: {claim}{than}", "small"),
                (f"{short(fixed)} for sites, {short(plan.cost - fixed)} for lanes", "small"),
                (f"{len(plan.fixed)} of {len(self.sites)} sites open, {len(self.customers)} customers", "small")]

    def keys(self, left: float, y: float, unit: str) -> Iterator[str]:
        """The marks and the scale, within 60 below."""
        yield square(left + 8, y - 4, 7.0, COLOURS[0], "key") + write(left + 24, y, "open site")
        yield cross(left + 128, y - 4, 6.0, "closed") + write(left + 144, y, "closed site")
        for x, demand in zip((left, left + 120), (round(round_length(self.most / 4)), self.most) if self.most else ()):
            yield circle(x + 8, y + 22, self.radius(demand), COLOURS[0], "key") + write(x + 24, y + 26, f"demand {short(demand)}")
        length = round_length(150 / self.scale / MICRO)
        bar = length * MICRO * self.scale
        yield tag("path", d=f"M{left} {y + 50} v6 h{bar:.1f} v-6", stroke="#222", fill="none")
        yield write(left + bar + 8, y + 56, f"{length:g} {unit}".strip())

    def rows(self, left: float, y: float) -> Iterator[str]:
        """The open sites, those of most customers first."""
        plan, sites = self.plan, self.sites
        is_bounded = any(sites[s].capacity is not None for s in plan.fixed)
        ends = [left + 165, left + 255, left + 302][:3 if is_bounded else 2]
        yield write(left, y, "open sites", "small")
        yield from (write(x, y, it, "small right") for x, it in zip(ends, ("customers", "load", "full")))
        for s in sorted(plan.fixed, key=lambda it: -len(self.mine[it]))[:LISTED]:
            y += ROW
            share = used(self.load[s], sites[s].capacity)
            name = sites[s].name if len(sites[s].name) <= 13 else sites[s].name[:12] + "…"
            row = str(len(self.mine[s])), short(self.load[s]), "" if share is None else f"{share / 10:.0f} %"
            yield square(left + 6, y - 4, 5.0, self.colour[s], "key") + write(left + 18, y, name)
            yield from (write(x, y, it, "right") for x, it in zip(ends, row))
        if len(plan.fixed) > LISTED:
            yield write(left, y + ROW, f"and {len(plan.fixed) - LISTED} more", "small")

    def svg(self, title: str, unit: str) -> str:
        left, y = WIDE + 24.0, 30.0
        beside = [write(left, y, title, "head")]
        for text, of in self.says():
            y += 26 if of == "head" else 17
            beside.append(write(left, y, text, of))
        beside += [*self.keys(left, y + 34, unit), *self.rows(left, y + 128)]
        wide, high = WIDE + PANEL, max(self.high, y + 128 + ROW * (min(len(self.plan.fixed), LISTED + 1) + 1))
        drawn = *self.closed_sites(), *self.lanes(), *self.customers_served(), *self.open_sites(), *self.names()
        parts = [told(title), tag("style", STYLE), tag("rect", width=wide, height=high, fill="white"),
                 tag("rect", x=0.5, y=0.5, width=WIDE - 1, height=high - 1, of="frame"),
                 tag("g", "\n" + "".join(drawn), transform=f"translate(0 {(high - self.high) / 2:.1f})"), *beside]
        return tag("svg", "\n" + "".join(parts), xmlns="http://www.w3.org/2000/svg", viewBox=f"0 0 {wide} {high:.0f}",
                   width=wide, height=float(high), role="img", of="plan-map")


def svg(plan: Plan, names: Names, title: str = "Plan", unit: str = "") -> str:
    """The picture of a plan, whose unit of distance stands at the scale: kilometres where it isn't told and degrees are. Refused are
    sites and customers without coordinates, and those in two kinds of them."""
    those = [*names.sites.values(), *names.customers.values()]
    is_geo = any(it.is_geo for it in those)
    faults = [f"{it.name!r} has no {'lat and lon' if is_geo else 'x and y'}" for it in those if not it.at or it.is_geo != is_geo]
    if faults:
        raise Refusal(*faults)
    return Map(plan, names).svg(title, unit or "km" * is_geo)


def main(words: list[str] | None = None) -> None:
    """The command `draw` with its words."""
    about, _, more = __doc__.partition("\n\n")
    top = argparse.ArgumentParser(prog="draw", description=about, epilog=more, formatter_class=argparse.RawDescriptionHelpFormatter)
    take_answer(top, "picture", "the SVG file to write")
    top.add_argument("--title", default="Plan", help="what stands above it")
    top.add_argument("--unit", default="", help="the unit of the coordinates, as km, for the scale")
    args = top.parse_args(words)
    plan, names = read_answer(args, args.picture)
    try:
        picture = svg(plan, names, args.title, args.unit)
    except Refusal as why:
        raise Refusal(*(f"{args.names}: {it}" for it in why.faults)) from None
    with open(args.picture, "w", encoding="utf-8") as file:
        file.write(picture)
    print(f"open {len(plan.fixed)} closed {len(names.sites) - len(plan.fixed)} customers {len(names.customers)}")


if __name__ == "__main__":
    run(main)
