"""The sheet of a plan: who serves whom, how full each open site is, and the totals, for a spreadsheet."""
import csv
import io

from .answers import used
from .cells import MICRO, money, number
from .names import Names
from .plans import Plan

TITLES = "what", "name", "served by", "customers", "cost", "demand", "capacity", "share %", "spare"


def safe(cell: str) -> str:
    """A text that no spreadsheet takes for a formula and runs: behind an apostrophe, where it begins like one and is no number."""
    return f"'{cell}" if cell[:1] in ("=", "+", "-", "@") and not any(number(cell, mark) for mark in ".,") else cell


def rows(plan: Plan, names: Names, mark: str = ".") -> list[list[str]]:
    """The rows of the sheet, its titles first. Amounts have this mark before their decimals."""
    sites, customers = names.sites, names.customers
    amounts = lambda *those: ["" if it is None else money(it, mark) for it in those]

    def room(load: int, capacity: int | None) -> list[str]:
        """The load, the capacity, how much of it that is, and what is left."""
        share, spare = (None, None) if capacity is None else (used(load, capacity) * MICRO // 10, capacity - load)
        return amounts(load, capacity, share, spare)

    found = [[*TITLES]]
    found += [["customer", safe(customers[c].name), safe(sites[s].name), "", *amounts(cost, customers[c].demand), "", "", ""]
              for c, (s, cost) in plan.served.items()]
    for s, fixed in plan.fixed.items():
        mine = [c for c, (by, _) in plan.served.items() if by == s]
        load = sum(customers[c].demand for c in mine)
        found.append(["site", safe(sites[s].name), "", str(len(mine)), *amounts(fixed), *room(load, sites[s].capacity)])
    load, rooms = sum(it.demand for it in customers.values()), [sites[s].capacity for s in plan.fixed]
    whole = None if None in rooms else sum(rooms)
    found.append(["total", plan.claim, "", str(len(customers)), *amounts(plan.cost), *room(load, whole)])
    return found + [[what, name, "", "", *amounts(it), "", "", "", ""] for what, name, it in ends_of(plan)]


def ends_of(plan: Plan) -> list[tuple[str, str, int]]:
    """What is said below the total: what no plan is below, where that is less, and the radius of a center."""
    if plan.is_center:
        bound = [("bound", "no plan has a lesser radius", plan.low)]
        return [("radius", "the dearest lane", plan.radius), *bound[:plan.low < plan.radius]]
    return [("bound", "no plan costs less", plan.low)][:plan.low < plan.cost]


def text(plan: Plan, names: Names, comma: bool = False) -> str:
    """The sheet as the text of a CSV file: with decimal commas, semicolons stand between cells."""
    written = io.StringIO()
    lines = csv.writer(written, delimiter=";" if comma else ",", lineterminator="\n")
    lines.writerows(rows(plan, names, "," if comma else "."))
    return written.getvalue()


def write(path: str, plan: Plan, names: Names, comma: bool = False) -> None:
    """Writes the sheet, behind a mark by which spreadsheets take the file for UTF-8."""
    told = text(plan, names, comma)
    with open(path, "w", encoding="utf-8-sig", newline="") as file:
        file.write(told)


def said_of(plan: Plan) -> str:
    radius = f" radius {money(plan.radius)}" if plan.is_center else ""
    return f"{plan.claim}{radius}{' cost' * bool(radius)} {money(plan.cost)} sites {len(plan.fixed)} customers {len(plan.served)}"
