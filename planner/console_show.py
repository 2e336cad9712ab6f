"""What the console shows: tables of sites, customers, plans and scenarios, as text."""
from collections.abc import Iterable

from .answer import Answer
from .answers import used
from .cells import grouped
from .questions import change
from .scenarios import Row
from .state import State, Step


def aligned(rows: list[list[str]]) -> list[str]:
    """Rows with their columns under each other: the first one to the left, the others to the right."""
    wide = [max(len(row[at]) for row in rows) for at in range(len(rows[0]))]
    return ["  ".join(cell.ljust(wide[0]) if at == 0 else cell.rjust(wide[at]) for at, cell in enumerate(row)).rstrip() for row in rows]


def told(micro: int | None) -> str:
    """An amount, or a hyphen where there is none."""
    return "-" if micro is None else grouped(micro)


def length(micro: int | None, unit: str) -> str:
    """A length with one decimal."""
    return "-" if micro is None else f"{(micro + 50_000) // 100_000 / 10:,.1f}{' ' * bool(unit)}{unit}"


def share(load: int, capacity: int | None) -> str:
    """How full a site is."""
    tenths = used(load, capacity)
    return "-" if tenths is None else f"{tenths // 10}.{tenths % 10} %"


def plan_lines(answer: Answer) -> list[str]:
    """The open sites of a plan: what they cost, how many customers they serve, and how full they are."""
    rows = [["site", "fixed cost", "transport", "customers", "load", "capacity", "full", "farthest"]]
    for s, fixed in answer.open.items():
        mine = {c: cost for c, (by, cost) in answer.served.items() if by == s}
        load = sum(answer.customers[c].demand for c in mine)
        far = max((answer.lengths[c] for c in mine if c in answer.lengths), default=None)
        it = answer.sites[s]
        rows.append([it.name, told(fixed), told(sum(mine.values())), str(len(mine)), told(load), told(it.capacity),
                     share(load, it.capacity), length(far, answer.rule.unit)])
    return [answer.text, *aligned(rows)]


def served_lines(answer: Answer, s: int) -> list[str]:
    """The customers of a site."""
    rows = [["customer", "demand", "cost", "distance"]]
    rows += [[answer.customers[c].name, told(answer.customers[c].demand), told(cost), length(answer.lengths.get(c), answer.rule.unit)]
             for c, (by, cost) in answer.served.items() if by == s]
    return aligned(rows) if len(rows) > 1 else [f"{answer.sites[s].name} serves nobody"]


def site_lines(state: State, answer: Answer | None) -> list[str]:
    """All sites as they stand, and which of them the last answer opens."""
    rows = [["site", "fixed cost", "capacity", "status", "in the plan"]]
    rows += [[it.name, told(it.fixed), told(it.capacity), it.status, "open" if answer and s in answer.open else "-"]
             for s, it in state.sites.items()]
    return aligned(rows)


def customer_lines(state: State, answer: Answer | None, ids: Iterable[int]) -> list[str]:
    """Customers as they stand, and who serves them in the last answer."""
    rows = [["customer", "demand", "served by"]]
    for c in ids:
        by = answer.served.get(c) if answer else None
        rows.append([state.customers[c].name, told(state.customers[c].demand), answer.sites[by[0]].name if by else "-"])
    return aligned(rows)


def compared_lines(rows: list[Row]) -> list[str]:
    """Scenarios side by side, with what `check` said of each just now."""
    table = [["scenario", "cost", "difference", "sites", "farthest", "mean", "moved", "check"]]
    for it in rows:
        unit = it.answer.rule.unit
        table.append([it.name, told(it.answer.cost), "-" if it.difference is None else change(it.difference), str(it.sites or "-"),
                      length(it.farthest, unit), length(it.mean, unit), "-" if it.moved is None else str(it.moved), said(it.answer)])
    return aligned(table)


def said(answer: Answer) -> str:
    """What `check` says, without the cost where that stands beside it."""
    words = answer.check().split()
    return "yes bracket from " + told(answer.low) if words[1] == "bracket" else " ".join(words[:2])


def step_lines(steps: list[Step]) -> list[str]:
    """The edits in force, the oldest first."""
    return [f"{at:>3}  {it.text}" for at, it in enumerate(steps, 1)] or ["no edits are in force"]
