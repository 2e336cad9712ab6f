"""The costs of lanes: of a planner's sheet, or made of distances by a rule, which is kept with the names for sites that come later.

A row of lanes is an array of millionths by the places of the customers, with -1 where there is no lane."""
import math
from array import array
from collections.abc import Callable, Sequence
from dataclasses import dataclass
from itertools import repeat

from . import earth
from .cells import MICRO, MOST_AMOUNT, Faults, Refusal, money
from .columns import Sheet
from .places import Customer, Site, Spot, distance

ROW = "from", "to", "cost"
NO_LANE = -1
SHEET, STRAIGHT, GREAT_CIRCLE = KINDS = "sheet", "straight", "great circle"
COORDINATES = {STRAIGHT: "x and y", GREAT_CIRCLE: "lat and lon"}


def half_up(over: int, under: int) -> int:
    """A quotient of whole numbers, rounded to the nearest and up from half."""
    return (2 * over + under) // (2 * under)


@dataclass(frozen=True)
class Rule:
    """How lanes were made, all in millionths. A lane costs what the sheet says, or its distance times the detour times the rate, for
    all of a customer or `by_demand` for a unit of it; and besides, for a unit of demand, `per_unit` and the site's throughput cost.
    There is no lane longer than `reach`."""

    kind: str = SHEET
    rate: int = 0
    by_demand: bool = False
    detour: int = MICRO
    per_unit: int = 0
    reach: int | None = None

    has_distances = property(lambda self: self.kind != SHEET)
    unit = property(lambda self: "km" if self.kind == GREAT_CIRCLE else "")

    def goes_by_demand(self, site: Site) -> bool:
        """Whether lanes from the site cost more where more is demanded."""
        return bool(self.by_demand or self.per_unit or site.throughput)

    def handling(self, site: Site, customer: Customer) -> int:
        """What goes by demand alone, whatever the distance is."""
        return half_up(customer.demand * (self.per_unit + site.throughput), MICRO)

    def cost(self, site: Site, customer: Customer) -> int | None:
        """What the lane costs by its distance; nothing where it is beyond the reach. Refused past the limit of amounts, and where
        one of the two isn't where it has to be."""
        faults = Faults()
        for it in site, customer:
            has_place(self, it, it.name, faults)
        faults.due()
        [cost] = Maker(self, [customer], faults).row(site)
        faults.due()
        return None if cost == NO_LANE else cost

    def again(self, cost: int, site: Site, before: Customer, after: Customer) -> int:
        """What a lane costs after a change of the customer's demand: by the rule where it did so before, and else, where a unit of
        demand has its cost, by the ratio of the demands. Refused where that is past the limit, or nothing was demanded before."""
        if not self.goes_by_demand(site):
            return cost
        if self.has_distances and self.cost(site, before) == cost:
            return self.cost(site, after)
        lane = max(0, cost - self.handling(site, before))
        if self.by_demand and before.demand == 0 < after.demand:
            raise Refusal(f"{before.name!r} demanded nothing, so what a unit costs from {site.name!r} isn't known")
        if self.by_demand and before.demand:
            lane = half_up(lane * after.demand, before.demand)
        found = lane + self.handling(site, after)
        if found > MOST_AMOUNT:
            raise Refusal(too_dear(site, after))
        return found

    def length(self, a: Spot, b: Spot) -> int | None:
        """How long a lane is, in millionths of the unit, with the detour where lanes are made of distances; nothing where that isn't
        known."""
        found = distance(a, b)
        return None if found is None else half_up(found * self.detour, MICRO)


def too_dear(site: Site, customer: Customer) -> str:
    return f"from {site.name!r} to {customer.name!r}: the cost is more than {money(MOST_AMOUNT)}"


def has_place(rule: Rule, it: Spot, where: str, faults: Faults) -> bool:
    """Whether a site or customer is where its distances can be made of."""
    found = it.at is not None and it.is_geo == (rule.kind == GREAT_CIRCLE)
    if not found:
        faults.add(f"{where} has no {COORDINATES[rule.kind]}, of which its distances could be made")
    return found


class Maker:
    """Makes the rows of lanes to customers. It notes the shortest and the longest lane, in millionths of the unit, without
    detour."""

    def __init__(self, rule: Rule, customers: Sequence[Customer], faults: Faults):
        self.rule, self.customers, self.faults = rule, customers, faults
        self.least, self.most = math.inf, -math.inf
        weights = [rule.rate * rule.detour * (it.demand if rule.by_demand else MICRO) for it in customers]
        if rule.kind == GREAT_CIRCLE:
            self.vectors, self.weights = [earth.vector(it.at) for it in customers], [1000 * it for it in weights]
        else:
            # Twice the lane's cost is the root of the square of its distance times its weight.
            self.weights = [4 * it**2 for it in weights]

    def row(self, site: Site) -> array:
        """The lanes of a site. What is past the limit of amounts is a fault."""
        rule = self.rule
        row = self.along(site) if rule.kind == GREAT_CIRCLE else self.straight(site)
        if rule.per_unit or site.throughput:
            row = array("q", [it if it < 0 else it + rule.handling(site, c) for it, c in zip(row, self.customers)])
        if max(row, default=0) > MOST_AMOUNT:
            self.faults.add(*(too_dear(site, c) for it, c in zip(row, self.customers) if it > MOST_AMOUNT))
        return row

    def along(self, site: Site) -> array:
        """Along great circles: the distances are whole metres."""
        rule, here, row = self.rule, earth.vector(site.at), array("q", [NO_LANE]) * len(self.customers)
        # The reach in whole metres, and the chord of a metre more: what is clearly beyond is left out at a glance.
        far = math.inf if rule.reach is None else rule.reach * MICRO // (1000 * rule.detour)
        chord_far = earth.chord_of(far + 1)
        near = ((place, chord) for place, chord in enumerate(map(math.dist, repeat(here), self.vectors)) if chord <= chord_far)
        for place, chord in near:
            length = earth.along(chord)
            if length <= far:
                self.least, self.most = min(self.least, 1000 * length), max(self.most, 1000 * length)
                row[place] = min(half_up(length * self.weights[place], MICRO**3), MOST_AMOUNT + 1)
        return row

    def straight(self, site: Site) -> array:
        """Straight, with a root that is rounded once."""
        rule, (x, y), row = self.rule, site.at, array("q")
        far = math.inf if rule.reach is None else (rule.reach * MICRO)**2 // rule.detour**2
        for customer, weight in zip(self.customers, self.weights):
            v, w = customer.at
            square = (x - v)**2 + (y - w)**2
            if square > far:
                row.append(NO_LANE)
                continue
            length = math.isqrt(square)
            self.least, self.most = min(self.least, length), max(self.most, length)
            row.append(min((math.isqrt(square * weight // MICRO**6) + 1) // 2, MOST_AMOUNT + 1))
        return row


def known(sheet: Sheet, row: int, place: int, name: str, numbers: dict[str, int], what: str) -> int | None:
    """The place of a name. One that is unknown is a fault, unless some names couldn't be read."""
    if name not in numbers and (what not in sheet.unsure or not name):
        sheet.refuse(row, place, f"{name!r} is none of the {what}" if name else "the cell is empty")
    return numbers.get(name)


def reads_costs(sheet: Sheet, rule: Rule, sites: list[Site], customers: list[Customer]) -> Callable:
    """What reads a cell's cost for a site and a customer: -1 for no lane and, with a fault, where the cell is at fault."""

    def cost_in(row: int, cells: list[str], place: int, s: int | None, c: int | None) -> int:
        if not cells[place]:
            sheet.refuse(row, place, "the cell is empty; none stands for a lane that isn't there")
            return NO_LANE
        if cells[place].lower() == "none":
            return NO_LANE
        cost = sheet.amount(row, cells, place, "cost")
        if cost is None or s is None or c is None:
            return NO_LANE
        if rule.by_demand:
            rest = cost * customers[c].demand % MICRO
            if rest and not sheet.ways.rounds:
                sheet.refuse(row, place, "its cost by the demand has more than six decimals; --round rounds it")
            cost = half_up(cost * customers[c].demand, MICRO)
        cost += rule.handling(sites[s], customers[c])
        if cost > MOST_AMOUNT:
            sheet.refuse(row, place, f"its cost by the demand is more than {money(MOST_AMOUNT)}")
        return min(cost, MOST_AMOUNT)

    return cost_in


def lanes_by_rows(sheet: Sheet, of_site: dict, of_customer: dict, cost_in: Callable) -> list[array]:
    """The lanes of a sheet with a row for each."""
    sheet.columns(ROW)
    costs, seen = [array("q", [NO_LANE]) * len(of_customer) for _ in of_site], {}
    if not {*ROW} <= {*sheet.places}:
        return costs
    at_site, at_customer, at_cost = (sheet.places[title] for title in ROW)
    for row, cells in sheet.rows:
        s = known(sheet, row, at_site, cells[at_site], of_site, "sites")
        c = known(sheet, row, at_customer, cells[at_customer], of_customer, "customers")
        cost = cost_in(row, cells, at_cost, s, c)
        if s is None or c is None:
            continue
        if (s, c) in seen:
            sheet.refuse(row, at_customer, f"this lane stands in row {seen[s, c]} already")
        seen[s, c] = row
        costs[s][c] = cost
    return costs


def columns_of(sheet: Sheet, places: list[int], of_customer: dict) -> dict[int, int]:
    """The customers' columns in a table."""
    columns = {}
    for place in places:
        c = known(sheet, 1, place, sheet.titles[place], of_customer, "customers")
        if c in columns:
            sheet.refuse(1, place, f"{sheet.titles[place]!r} has another column already")
        elif c is not None:
            columns[c] = place
    return columns


def lanes_by_table(sheet: Sheet, of_site: dict, of_customer: dict, cost_in: Callable) -> list[array]:
    """Those of a table with a row for each site and a column for each customer."""
    first, *places = sheet.filled() or [0]
    sheet.tell(places, "cost")
    columns, rows, costs = columns_of(sheet, places, of_customer), {}, [array("q")] * len(of_site)
    for row, cells in sheet.rows:
        s = known(sheet, row, first, cells[first], of_site, "sites")
        if s in rows:
            sheet.refuse(row, first, f"{cells[first]!r} stands in row {rows[s]} already")
        of_column = {c: cost_in(row, cells, place, s, c) for c, place in columns.items()}
        if s is not None and s not in rows:
            rows[s] = row
            costs[s] = array("q", [of_column.get(c, NO_LANE) for c in range(len(of_customer))])
    for numbers, found, what in (of_site, rows, "row"), (of_customer, columns, "column"):
        if sheet.is_whole:
            sheet.faults.add(*(f"{sheet.path}: {name!r} has no {what}" for name, it in numbers.items() if it not in found))
    return costs


def read_lanes(sheet: Sheet, rule: Rule, sites: list[Site], customers: list[Customer], unsure: set[str]) -> list[array]:
    """The lanes of a sheet of either kind, by the places of sites and customers. `unsure` says of which of them some names couldn't be
    read, so that other names are no faults."""
    sheet.unsure = unsure
    of_site, of_customer = ({it.name: place for place, it in enumerate(those)} for those in (sites, customers))
    is_list = {*ROW} <= {title.lower() for title in sheet.titles}
    read = lanes_by_rows if is_list else lanes_by_table
    return read(sheet, of_site, of_customer, reads_costs(sheet, rule, sites, customers))


def measured(rule: Rule, sites: list[Site], customers: list[Customer], paths: tuple[str, str],
             faults: Faults) -> tuple[list[array], Maker | None]:
    """Lanes by distance between all of them, and what made them. `paths` are the sheets, for faults."""
    are_placed = [has_place(rule, it, f"{path}: {it.name!r}", faults) for path, those in zip(paths, (sites, customers)) for it in those]
    if not all(are_placed):
        return [], None
    maker = Maker(rule, customers, faults)
    return [maker.row(it) for it in sites], maker
