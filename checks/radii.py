"""A plain reading of what docs/FORMATS.md says of centers, for `centers.py`: the least radius, by a walk over all plans, and the plan in
a center's file."""
import dataclasses
import re

from common import money
from instances import NO_PLAN
from trees import least_cost


def counted(inst, count):
    return dataclasses.replace(inst, count=(count, count))


def below(inst, radius):
    """The instance without its lanes of so much or more."""
    return dataclasses.replace(inst, lanes={pair: cost for pair, cost in inst.lanes.items() if cost < radius})


def is_possible(inst):
    """Whether there is a plan, whatever it costs."""
    free = dataclasses.replace(inst, lanes=dict.fromkeys(inst.lanes, 0), sites=tuple((s, 0, *rest) for s, _, *rest in inst.sites))
    return least_cost(free) < NO_PLAN


def best_radius(inst):
    """The least greatest cost of a plan's lanes, or `NO_PLAN`."""
    return next((it for it in sorted({*inst.lanes.values()}) if is_possible(below(inst, it + 1))), NO_PLAN)


def is_hindered(inst):
    """Whether capacities or the number of open sites may leave a search without a plan."""
    return any(cap is not None for _, _, cap, _ in inst.sites) or inst.count[0] > 0 or inst.count[1] < len(inst.sites)


def radius_in(inst, text, claim):
    """The radius of the plan in a center's file that has this claim, `NO_PLAN` where it has none, and nothing where it is at fault."""
    if text == f"dualoc-center 1\n{claim}\nend\n":
        return NO_PLAN
    opened = [int(it) for it in re.findall(r"(?m)^site ([0-9]+) ", text)]
    serve = [int(it) for it in re.findall(r"(?m)^serve [0-9]+ ([0-9]+) ", text)]
    if inst.cost_of(opened, serve) is None or opened != sorted({*opened}):
        return None
    fixed = {s: cost for s, cost, *_ in inst.sites}
    used = [(c, s, inst.lanes[s, c]) for s, (c, _) in zip(serve, inst.customers)]
    lines = ["dualoc-center 1", claim, *(f"site {s} {money(fixed[s])}" for s in opened),
             *(f"serve {c} {s} {money(cost)}" for c, s, cost in used), "end", ""]
    return max(cost for *_, cost in used) if text == "\n".join(lines) else None
