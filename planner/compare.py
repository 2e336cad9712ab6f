"""Compares an instance with the sheets that it was made of: they are equal, or each difference is told by its name.

It takes the words of `sheets own`, with the same options. The step from sheets to an instance is the one that no proof covers. So the
instance's file is read back here, and the sheets once more, and each number of the one is held against the other: sites, customers,
lanes, and how many sites may be open. Each lane that is made of a distance is made again in another way than before: by decimal
fractions, and a formula of its own for the distance. The status is 0 where all is equal, and 1 where something differs.
"""
import argparse
import math
import sys
from collections.abc import Iterator
from decimal import ROUND_HALF_UP, Decimal, localcontext

from . import names as names_file, own
from .cells import MICRO, grouped, money, run
from .earth import HALF_TURN, RADIUS
from .lanes import GREAT_CIRCLE, Rule
from .names import Names
from .own import Instance
from .places import Customer, Site
from .region import Region, read_sheets, said_of_rule, take_sheets

# So many differences are told, and how many more there are.
MOST_TOLD = 100
# By how many metres two formulas for a distance may differ, and how far a lane beyond the reach is clearly so.
HAIR, CLEARLY = 1e-4, 2


def haversine(a: tuple[int, int], b: tuple[int, int]) -> float:
    """The metres between two latitudes and longitudes by another formula than the one by which lanes are made."""
    (lat, lon), (lat2, lon2) = ((it * math.pi / HALF_TURN for it in at) for at in (a, b))
    root = math.sin((lat2 - lat) / 2)**2 + math.cos(lat) * math.cos(lat2) * math.sin((lon2 - lon) / 2)**2
    return 2 * RADIUS * math.atan2(math.sqrt(root), math.sqrt(1 - root))


def units(micro: int) -> Decimal:
    return Decimal(micro) / MICRO


def lengths(rule: Rule, site: Site, customer: Customer) -> list[Decimal]:
    """The distance in units, none where it is clearly beyond the reach. Where it is so near to half a metre that the two formulas may
    round it apart, there are both."""
    if rule.kind != GREAT_CIRCLE:
        return [sum((units(p) - units(q))**2 for p, q in zip(site.at, customer.at)).sqrt()]
    metres = haversine(site.at, customer.at)
    if rule.reach is not None and metres * rule.detour > 1000 * rule.reach + CLEARLY * rule.detour:
        return []
    return [Decimal(it) / 1000 for it in {round(metres - HAIR), round(metres + HAIR)}]


def costs_again(rule: Rule, site: Site, customer: Customer) -> list[int | None]:
    """What a lane costs, computed in units with decimal fractions; nothing beyond the reach."""
    found = []
    for length in lengths(rule, site, customer):
        demand, way = units(customer.demand), length * units(rule.detour)
        carried = way * units(rule.rate) * (demand if rule.by_demand else 1)
        handled = demand * (units(rule.per_unit) + units(site.throughput))
        is_within = rule.reach is None or way <= units(rule.reach)
        found.append(sum(int((it * MICRO).quantize(1, ROUND_HALF_UP)) for it in (carried, handled)) if is_within else None)
    return found or [None]


def differ(what: str, found: int | str | None, due: int | str | None) -> str:
    """A difference: what the instance has, and what the sheets."""
    shown = lambda it: "none" if it is None else money(it) if isinstance(it, int) else it
    return f"{what}: {shown(found)} in the instance, and {shown(due)} by the sheets"


def differences(instance: Instance, names: Names, region: Region) -> Iterator[str]:
    """Where the instance, with these names, isn't what the sheets mean."""
    if instance.count != region.count:
        found, due = (f"{low} to {high}" for low, high in (instance.count, region.count))
        yield differ("how many sites may be open", found, due)
    if names.rule != region.rule:
        told, due = ((said_of_rule(it) or ["by the sheet of lanes"])[0].removeprefix("each lane ") for it in (names.rule, region.rule))
        yield f"how lanes are made: {told} in the file of names, and {due} by the options"
    sites, customers = by_names(instance.sites, names.sites), by_names(instance.customers, names.customers)
    yield from unmatched("site", sites, [it.name for it in region.sites])
    yield from unmatched("customer", customers, [it.name for it in region.customers])
    for it in region.sites:
        for what, found, due in zip(("fixed cost", "capacity", "status"), instance.sites.get(sites.get(it.name), ()),
                                    (it.fixed, it.capacity, it.status)):
            if found != due:
                yield differ(f"site {it.name!r}, {what}", found, due)
    for it in region.customers:
        found = instance.customers.get(customers.get(it.name), it.demand)
        if found != it.demand:
            yield differ(f"customer {it.name!r}, demand", found, it.demand)
    for those, ids, named in (region.sites, sites, names.sites), (region.customers, customers, names.customers):
        yield from (f"{it.name!r}: other coordinates in the file of names than in the sheets" for it in those
                    if it.name in ids and (named[ids[it.name]].at, named[ids[it.name]].is_geo) != (it.at, it.is_geo))
    yield from lanes_apart(instance, region, sites, customers)


def by_names(ids: dict[int, object], named: dict[int, Site | Customer]) -> dict[str, int]:
    """The ids by their names. One without a name has its number for one."""
    return {named[key].name if key in named else f"number {key}": key for key in ids}


def unmatched(what: str, found: dict[str, int], due: list[str]) -> Iterator[str]:
    yield from (f"{what} {name!r}: only in the instance" for name in found if name not in {*due})
    yield from (f"{what} {name!r}: only in the sheets" for name in due if name not in found)


def lanes_apart(instance: Instance, region: Region, sites: dict[str, int], customers: dict[str, int]) -> Iterator[str]:
    """Lanes that differ, each made again where the rule tells how."""
    columns = [(place, it, instance.places[customers[it.name]]) for place, it in enumerate(region.customers) if it.name in customers]
    for site, row in zip(region.sites, region.lanes):
        mine = instance.lanes.get(sites.get(site.name))
        for place, customer, at in columns if mine is not None else ():
            due = costs_again(region.rule, site, customer) if region.rule.has_distances else [row[place] if row[place] >= 0 else None]
            found = None if mine[at] < 0 else mine[at]
            if found not in due:
                yield differ(f"lane from {site.name!r} to {customer.name!r}", found, due[0])


def main(words: list[str] | None = None) -> None:
    """The command `compare` with its words."""
    about, _, more = __doc__.partition("\n\n")
    top = argparse.ArgumentParser(prog="compare", description=about, epilog=more, formatter_class=argparse.RawDescriptionHelpFormatter)
    take_sheets(top, "the instance in the suite's own form", "its file of names")
    args = top.parse_args(words)
    region, instance, names = read_sheets(args), own.read(args.instance), names_file.read(args.names)
    with localcontext() as context:
        context.prec = 60
        found = [*differences(instance, names, region)]
    lanes = sum(sum(map((0).__le__, row)) for row in region.lanes)
    if not found:
        print(f"equal: sites {len(region.sites):,}, customers {len(region.customers):,}, lanes {lanes:,}, demand "
              f"{grouped(sum(instance.customers.values()))}, fixed costs {grouped(sum(it[0] for it in instance.sites.values()))}")
        return
    print("\n".join([*found[:MOST_TOLD], *[f"and {len(found) - MOST_TOLD:,} more"] * (len(found) > MOST_TOLD)]))
    sys.exit(1)


if __name__ == "__main__":
    run(main)
