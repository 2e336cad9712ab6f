"""What a planner's sheets mean: sites, customers and lanes, by the options that say how they are to be read."""
import argparse
from array import array
from dataclasses import dataclass

from .cells import MICRO, MOST_AMOUNT, Faults, are_apart, grouped, money, number
from .columns import COORDINATES, MARKS, PRICES, Sheet, Ways, title_of
from .lanes import GREAT_CIRCLE, SHEET, STRAIGHT, Maker, Rule, measured, read_lanes
from .own import MOST_CUSTOMERS, MOST_LANES, MOST_SITES
from .places import CUSTOMER, SITE, Customer, Site, customer_in, read_named, site_in
from .tables import file_of

# How sheets are encoded, and how many sites may be open, where that isn't told.
USUAL, ANY = "utf-8-sig", (0, MOST_SITES)
# The columns of numbers of a planner's sheets.
NUMBERED = *PRICES, "capacity", "demand", *COORDINATES
# So many names are told of customers without a lane.
MOST_TOLD = 5


@dataclass
class Region:
    """Sites and customers in the order of the sheets, lanes by the places of both, how lanes were made, what made them of distances,
    and how many sites may be open."""

    sites: list[Site]
    customers: list[Customer]
    lanes: list[array]
    rule: Rule
    maker: Maker | None
    count: tuple[int, int]


def take_sheets(parser: argparse.ArgumentParser, instance: str, names: str) -> None:
    """The words and options of a command that reads sheets."""
    for file, what in (("sites", "the sheet of sites"), ("customers", "the sheet of customers"), ("instance", instance), ("names", names)):
        parser.add_argument(file, help=what)
    lanes = parser.add_mutually_exclusive_group(required=True)
    lanes.add_argument("--lanes", metavar="FILE", help="the sheet of lanes")
    lanes.add_argument("--rate", metavar="A", help="makes each lane of its distance: what a unit of it costs, for all of the demand; "
                       "with lat and lon a kilometre, for a unit of demand")
    option = parser.add_argument
    option("--by-demand", action="store_true", help="the costs of lanes, or the rate, are for a unit of demand")
    option("--detour", metavar="F", help="how much longer the way is than the distance, as 1.25")
    option("--per-unit", metavar="A", help="what a unit of demand costs besides, on any lane")
    option("--reach", metavar="L", help="there is no lane longer than that, with its detour")
    option("--count", nargs=2, type=int, default=ANY, metavar=("LO", "HI"), help="how many sites may be open")
    option("--decimal", action="append", default=[], metavar="[TITLE=]point|comma",
           help="what stands before decimals in columns that don't tell, or in that one")
    option("--round", action="store_true", help="rounds numbers to six decimals")
    option("--skip", action="append", default=[], type=str.lower, metavar="TITLE", help="passes over a column")
    option("--encoding", default=USUAL, help="of the sheets, where that isn't UTF-8")


def sheets_of(args: argparse.Namespace) -> list[str]:
    """The sheets that are named."""
    return [args.sites, args.customers, *[args.lanes][:1 if args.lanes else 0]]


def options_of(args: argparse.Namespace) -> list[str]:
    """The options with which they are read, but for the sheet of lanes."""
    told = [("--rate", args.rate), ("--detour", args.detour), ("--per-unit", args.per_unit), ("--reach", args.reach),
            *(("--decimal", it) for it in args.decimal), *(("--skip", it) for it in args.skip)]
    told += [("--encoding", args.encoding)] if args.encoding != USUAL else []
    words = [it for option, value in told if value is not None for it in (option, value)]
    words += ["--count", *map(str, args.count)] if tuple(args.count) != ANY else []
    return words + ["--by-demand"] * args.by_demand + ["--round"] * args.round


def amount_of(faults: Faults, option: str, told: str | None, default: int | None) -> int | None:
    """The amount of an option, with a decimal point."""
    if told is None:
        return default
    micro, rest = number(told, ".") or (-1, "")
    if micro < 0 or rest or "," in told or micro > MOST_AMOUNT:
        faults.add(f"{option} {told}: an amount is due, with a decimal point")
        return default
    return micro


def rule_of(args: argparse.Namespace, is_geo: bool, faults: Faults) -> Rule:
    """How lanes are to be made. Along great circles a rate is always for a unit of demand."""
    rate = amount_of(faults, "--rate", args.rate, 0)
    detour = amount_of(faults, "--detour", args.detour, MICRO)
    per_unit, reach = amount_of(faults, "--per-unit", args.per_unit, 0), amount_of(faults, "--reach", args.reach, None)
    if detour < MICRO:
        faults.add(f"--detour {args.detour}: no way is shorter than the distance")
    for option, told in ("--detour", args.detour), ("--reach", args.reach):
        if args.lanes and told is not None:
            faults.add(f"{option} {told}: that goes with --rate, and not with a sheet of lanes")
    if args.lanes:
        return Rule(SHEET, by_demand=args.by_demand, per_unit=per_unit)
    return Rule(GREAT_CIRCLE if is_geo else STRAIGHT, rate, args.by_demand or is_geo, max(detour, MICRO), per_unit, reach)


def ways_of(args: argparse.Namespace, faults: Faults) -> Ways:
    """How the sheets are written."""
    marks = {}
    for told in args.decimal:
        title, is_named, mark = told.rpartition("=")
        title = title_of(title)[0]
        if mark not in MARKS or is_named and title not in NUMBERED:
            faults.add(f"--decimal {told}: point or comma is due, perhaps behind one of {', '.join(NUMBERED)} and =")
        marks[title] = MARKS.get(mark, ".")
    return Ways(args.encoding, marks, args.round, tuple(" ".join(it.replace("_", " ").split()) for it in args.skip))


def check_words(args: argparse.Namespace) -> None:
    """Refuses what would be written over a file that is read, and a sheet that is named twice."""
    tables = sheets_of(args)
    are_apart(*tables)
    are_apart(args.instance, args.names, *dict.fromkeys(map(file_of, tables)))


def read_sheets(args: argparse.Namespace) -> Region:
    """Reads the sheets that are named. All their faults are refused at once."""
    check_words(args)
    faults = Faults()
    ways = ways_of(args, faults)
    of_sites, of_customers = Sheet(args.sites, faults, ways, "sites"), Sheet(args.customers, faults, ways, "customers")
    sites, _ = read_named(of_sites.columns(*SITE), "sites", MOST_SITES, site_in)
    customers, _ = read_named(of_customers.columns(*CUSTOMER), "customers", MOST_CUSTOMERS, customer_in)
    if len(sites) * len(customers) > MOST_LANES:
        faults.add(f"{len(sites)} sites and {len(customers)} customers: {MOST_LANES} lanes are the limit")
    if not 0 <= args.count[0] <= args.count[1] <= MOST_SITES:
        faults.add(f"--count {args.count[0]} {args.count[1]}: two numbers up to {MOST_SITES} are due, the lesser one first")
    rule, maker = rule_of(args, any(it.is_geo for it in (*sites, *customers)), faults), None
    unsure = {what for what, sheet in (("sites", of_sites), ("customers", of_customers)) if not sheet.is_whole}
    if args.lanes:
        lanes = read_lanes(Sheet(args.lanes, faults, ways, "lanes"), rule, sites, customers, unsure)
        faults.due()
    else:
        faults.due()
        lanes, maker = measured(rule, sites, customers, (args.sites, args.customers), faults)
        faults.due()
    return Region(sites, customers, lanes, rule, maker, tuple(args.count))


def said_of(region: Region) -> str:
    """What was read, in a line, and how lanes were made of distances, in another."""
    sites, customers, rule = region.sites, region.customers, region.rule
    limits = [it.capacity for it in sites if it.capacity is not None]
    without = f" ({len(sites) - len(limits)} without)" if limits and len(limits) < len(sites) else ""
    room = f", capacity {grouped(sum(limits))}{without}" if limits else ", none with a capacity"
    demands = [it.demand for it in customers]
    parts = [f"sites {len(sites):,}{room}, fixed costs {grouped(sum(it.fixed for it in sites))}",
             f"customers {len(customers):,}, demand {grouped(sum(demands))}, the largest {grouped(max(demands))}", said_of_lanes(region)]
    return "\n".join(["; ".join(parts), *said_of_rule(rule), *["and the throughput cost of each site"] * any(it.throughput for it in sites)])


def said_of_rule(rule: Rule) -> list[str]:
    """How lanes are made, in a line; nothing of lanes that are those of a sheet."""
    if rule == Rule():
        return []
    by = f" by {rule.unit or 'unit of distance'}" + " and unit of demand" * rule.by_demand
    way = {SHEET: ["by the sheet of lanes" + ", for a unit of demand" * rule.by_demand],
           STRAIGHT: ["by its straight distance", f"rate {money(rule.rate)}{by}"],
           GREAT_CIRCLE: ["by its great-circle distance", f"rate {money(rule.rate)}{by}"]}[rule.kind]
    way += [f"detour {money(rule.detour)}"] * (rule.detour != MICRO)
    way += [] if rule.reach is None else [f"reach {money(rule.reach)} {rule.unit}".strip()]
    return ["each lane " + ", ".join([*way, *[f"and {money(rule.per_unit)} by unit of demand"] * (rule.per_unit > 0)])]


def said_of_lanes(region: Region) -> str:
    """How many lanes there are, how long they are or what they cost, and which customers have none."""
    rule, maker = region.rule, region.maker
    made = sum(sum(map((0).__le__, row)) for row in region.lanes)
    absent = len(region.sites) * len(region.customers) - made
    ends = ""
    if made and maker:
        # Rounded to whole units, since that is for people.
        least, most = ((it * rule.detour // MICRO + MICRO // 2) // MICRO for it in (maker.least, maker.most))
        ends = f", {least:,} to {most:,} {rule.unit}".rstrip()
    elif made:
        least = min(it for row in region.lanes for it in row if it >= 0)
        ends = f", {grouped(least)} to {grouped(max(map(max, region.lanes)))} each"
    alone = [*range(len(region.customers))]
    for row in region.lanes:
        alone = [c for c in alone if row[c] < 0]
    cut_off = [region.customers[c].name for c in alone]
    told = f"; no lane to {', '.join(cut_off[:MOST_TOLD])}" + f" and {len(cut_off) - MOST_TOLD} more" * (len(cut_off) > MOST_TOLD)
    return f"lanes {made:,}" + f" and {absent:,} pairs without one" * (absent > 0) + ends + told * bool(cut_off)
