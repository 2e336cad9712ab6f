"""Answers: a plan with the names of its instance, held against that instance. One whose costs aren't the instance's is refused."""
import argparse
from collections.abc import Iterator
from dataclasses import replace

from . import names as names_file, own, plans
from .cells import Faults, Refusal, are_apart, money
from .names import Names
from .own import Instance
from .plans import Plan


def take_answer(parser: argparse.ArgumentParser, written: str, what: str) -> None:
    """The words of a command that takes an answer and writes a file."""
    parser.add_argument("plan", help="a plan text, the plan of a center or a JSON report, as a file")
    parser.add_argument("names", help="the file of names that came with the instance")
    parser.add_argument(written, help=what)
    parser.add_argument("--instance", metavar="FILE", help="the instance of the plan in the suite's own form, where it is another one "
                        "than the file of names tells, as after the edits of a session")


def read_answer(args: argparse.Namespace, written: str) -> tuple[Plan, Names]:
    """A plan, with what its lanes cost, and the names with the numbers of its instance."""
    are_apart(args.plan, args.names, *[args.instance][:1 if args.instance else 0], written)
    plan, names = plans.read(args.plan), names_file.read(args.names)
    path = args.instance or names.instance
    if not path:
        raise Refusal(f"{args.names}: it doesn't tell its instance; --instance names it")
    are_apart(path, written)
    try:
        instance = own.read(path)
    except FileNotFoundError:
        raise Refusal(f"{path}: there is no such file, and {args.names} tells it as its instance; --instance names another") from None
    known = in_instance(args.names, path, names, instance)
    if not args.instance:
        refuse_all(f"{args.names}: {it}; --instance takes an instance that was edited" for it in unlike(names, known, path))
    refuse_all(f"{args.plan}: {it}" for it in why_not(plan, instance, path))
    plan.served = {c: (s, cost_of(instance, s, c)) for c, (s, _) in plan.served.items()}
    return plan, known


def refuse_all(faults: Iterator[str]) -> None:
    found = Faults()
    found.add(*faults)
    found.due()


def in_instance(told: str, path: str, names: Names, instance: Instance) -> Names:
    """The sites and customers of the instance, with their names and coordinates."""
    for what, ids, named in ("site", instance.sites, names.sites), ("customer", instance.customers, names.customers):
        refuse_all(f"{told}: it has no {what} {it}, and {path} has one" for it in ids if it not in named)
    sites = {s: replace(names.sites[s], fixed=fixed, capacity=room, status=status) for s, (fixed, room, status) in instance.sites.items()}
    customers = {c: replace(names.customers[c], demand=demand) for c, demand in instance.customers.items()}
    return Names(sites, customers, names.rule, path)


def unlike(names: Names, known: Names, path: str) -> Iterator[str]:
    """Where the names have other sites, customers or numbers than their instance."""
    limit = lambda micro: "none" if micro is None else money(micro)
    ways = {"fixed": ("costs", money), "capacity": ("has the capacity", limit), "status": ("is", str), "demand": ("demands", money)}
    for those, others in (names.sites, known.sites), (names.customers, known.customers):
        for key, it in those.items():
            if key not in others:
                yield f"{it.name!r} isn't in {path}"
            for field, (does, show) in ways.items() if key in others else ():
                mine, due = getattr(it, field, None), getattr(others[key], field, None)
                if mine != due:
                    yield f"{it.name!r} {does} {show(mine)}, and in {path} {show(due)}"


def cost_of(instance: Instance, s: int, c: int) -> int | None:
    """What a lane costs; nothing where there is none."""
    cost = instance.lanes[s][instance.places[c]]
    return None if cost < 0 else cost


def why_not(plan: Plan, instance: Instance, path: str) -> Iterator[str]:
    """Why this is no plan of the instance, or has other costs."""
    of_sites, of_customers = [*why_not_open(plan, instance, path)], [*why_not_served(plan, instance, path)]
    yield from of_sites + of_customers
    if of_sites or of_customers:
        return
    lanes = [cost_of(instance, s, c) for c, (s, _) in plan.served.items()]
    if plan.cost != sum(plan.fixed.values()) + sum(lanes):
        yield "its costs don't sum to the one that it claims"
    if plan.is_center and plan.radius != max(lanes):
        yield f"its dearest lane costs {money(max(lanes))}, and {money(plan.radius)} is claimed"


def why_not_open(plan: Plan, instance: Instance, path: str) -> Iterator[str]:
    loads = dict.fromkeys(plan.fixed, 0)
    for c, (s, _) in plan.served.items():
        loads[s] = loads.get(s, 0) + instance.customers.get(c, 0)
    for s, fixed in plan.fixed.items():
        due, capacity, status = instance.sites.get(s, (None, None, ""))
        if due is None:
            yield f"it opens site {s}, which isn't in {path}"
        elif fixed != due:
            yield f"it opens site {s} for {money(fixed)}, and in {path} that costs {money(due)}"
        elif status == "closed":
            yield f"it opens site {s}, which must stay closed in {path}"
        elif capacity is not None and loads[s] > capacity:
            yield f"site {s} serves {money(loads[s])}, and in {path} its capacity is {money(capacity)}"
    for s, (*_, status) in instance.sites.items():
        if status == "open" and s not in plan.fixed:
            yield f"it doesn't open site {s}, which must be open in {path}"
    if not instance.count[0] <= len(plan.fixed) <= instance.count[1]:
        yield f"it opens {len(plan.fixed)} sites, and in {path} from {instance.count[0]} to {instance.count[1]} are to be open"


def why_not_served(plan: Plan, instance: Instance, path: str) -> Iterator[str]:
    for c, (s, cost) in plan.served.items():
        if c not in instance.customers:
            yield f"it serves customer {c}, who isn't in {path}"
        elif s not in plan.fixed:
            yield f"it serves customer {c} from site {s}, which it doesn't open"
        elif s in instance.sites and (due := cost_of(instance, s, c)) is None:
            yield f"customer {c} is served from site {s}, and {path} has no such lane"
        elif s in instance.sites and cost not in (None, due):
            yield f"customer {c} is served from site {s} for {money(cost)}, and in {path} that costs {money(due)}"
    for c in instance.customers:
        if c not in plan.served:
            yield f"it doesn't serve customer {c} of {path}"


def used(load: int, capacity: int | None) -> int | None:
    """What share of a capacity a load is, in tenths of a percent, rounded; nothing where there is no limit."""
    return capacity and (2000 * load + capacity) // (2 * capacity)
