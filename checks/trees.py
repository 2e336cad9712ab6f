"""A plain reading of what docs/DEFINITIONS.md says of trees that are carried over to an edited instance, and of what may take the
place of their leaves; and the least cost of a small instance, over all sets of sites.

A leaf is a tuple of its scale, its price of the number of sites, its numbers by customer, and its prices by site, or none of
these where it takes whole knapsacks. A split is a tuple of the words of its line and of its two children.
"""
import itertools

from instances import NO_PLAN
from own import FREE, OPEN
from verdicts import MAX_COST, Box, Instance, closes

MOST_NUMBERS = 40_000_000
STEPS = {b"site": ("closed", "opened"), b"lane": ("no", "yes")}


def by_id(inst):
    """An instance of the own form, as the reading of certificates has it."""
    sites, fixed, capacities, statuses = zip(*inst.sites)
    customers, demands = zip(*inst.customers)
    return Instance(fixed, [inst.row(s) for s in sites], capacities, demands, *inst.count, statuses, sites, customers)


def is_split(tree):
    return len(tree) == 3


def tree_in(text, customers):
    """The tree of a certificate's text for these customers, and its plan: the open sites, and each customer's site."""
    lines = iter([line.split() for line in text.splitlines()])

    def below(line):
        if line[0] == b"leaf":
            v, last = next(lines)[1:], next(lines)
            prices = None if last == [b"whole"] else dict(zip(map(int, last[1::2]), map(int, last[2::2])))
            return int(line[1]), int(line[2]), dict(zip(customers, map(int, v))), prices
        return (line[0], *map(int, line[1:])), below(next(lines)), below(next(lines))

    opened = serve = None
    for line in lines:
        if line[0] == b"open":
            opened = [int(it) for it in line[1:]]
        elif line[0] == b"serve":
            serve = dict(zip(customers, map(int, line[1:])))
        elif line[0] in (b"site", b"lane", b"leaf"):
            return below(line), None if opened is None else (opened, serve)


def nodes_of(tree):
    return 1 + nodes_of(tree[1]) + nodes_of(tree[2]) if is_split(tree) else 1


def children(tree, path):
    """Both children of a split, each with its path."""
    (kind, *ids), *both = tree
    return [(child, (*path, (step, *ids))) for child, step in zip(both, STEPS[kind])]


def leaves_of(tree, path=()):
    if not is_split(tree):
        return [(tree, path)]
    return [it for child, way in children(tree, path) for it in leaves_of(child, way)]


def root_leaf(inst):
    return 1, 0, dict.fromkeys(inst.customers, 0), {}


def carried(tree, inst):
    """The tree on an instance: what speaks of what is gone gives way to its first child, and numbers go by ids."""
    def over(tree):
        if is_split(tree):
            (_, site, *customer), first, second = tree
            known = site in inst.sites and all(it in inst.customers for it in customer)
            return (tree[0], over(first), over(second)) if known else over(first)
        q, nu, v, prices = tree
        if prices is None:
            prices = None if inst.has_small_knapsacks() else {}
        else:
            prices = {s: price for s, price in prices.items() if inst.capacities.get(s) is not None}
        return q, nu, {c: v.get(c, 0) for c in inst.customers}, prices

    new = over(tree)
    return root_leaf(inst) if 2 * nodes_of(new) > MOST_NUMBERS // (inst.m + inst.n) else new


def carried_cost(plan, inst):
    """What the plan costs, carried over to an instance of the own form; nothing where that isn't feasible."""
    if plan is None:
        return None
    opened, serve = plan
    opened = sorted(s for s, *_, status in inst.sites if status == OPEN or status == FREE and s in opened)
    places = []
    for c, _ in inst.customers:
        cheapest = min(((inst.lanes[s, c], s) for s in opened if (s, c) in inst.lanes), default=(0, None))[1]
        stays = serve.get(c) in opened and (serve[c], c) in inst.lanes
        places.append(serve[c] if stays else cheapest)
    return inst.cost_of(opened, places)


def bound_of(inst, leaf, path):
    q, nu, v, prices = leaf
    return Box(inst, path).bound(q, nu, [v[c] for c in inst.customers], prices)


def leaf_closes(inst, leaf, path, target):
    return closes(bound_of(inst, leaf, path), leaf[0], target)


def low_of(inst, tree):
    """The low end that the leaves show."""
    ends = [-(-bound_of(inst, leaf, path) // leaf[0]) for leaf, path in leaves_of(tree) if leaf[0] > 0]
    return max(0, min([MAX_COST, *ends]))


def is_lawful_split(inst, split, path):
    """Whether a box may be split so: on a free site, or, where a site has a capacity and none is free, on an allowed lane of a
    customer who has another one."""
    box = Box(inst, path)
    free = [s for s in inst.sites if s not in box.called | box.closed]
    kind, site, *customer = split
    if kind == b"site":
        return site in free
    lanes = [s for s in inst.sites if box.allows(s, *customer)]
    decided = any(step[0] == "yes" and step[2:] == tuple(customer) for step in path)
    return not free and site in lanes and len(lanes) > 1 and not decided and any(it is not None for it in inst.capacities.values())


def grown_wrong(inst, old, new, target, cost, path=()):
    """Where a solve may not have grown a tree out of the carried one, whose leaves that close with the target have to stand; the
    answer's plan costs so much. Nothing where all is in order."""
    if is_split(old):
        if not is_split(new) or new[0] != old[0]:
            return f"the split {old[0]} is gone at {path}"
        both = zip(children(old, path), children(new, path))
        return next(filter(None, (grown_wrong(inst, a, b, target, cost, way) for (a, way), (b, _) in both)), None)
    if leaf_closes(inst, old, path, target):
        return None if new == old else f"a leaf that closes doesn't stand at {path}"
    return made_wrong(inst, new, cost, path)


def made_wrong(inst, tree, cost, path):
    """The same of what takes the place of a leaf."""
    if is_split(tree):
        if not is_lawful_split(inst, tree[0], path):
            return f"the split {tree[0]} isn't lawful at {path}"
        return next(filter(None, (made_wrong(inst, child, cost, way) for child, way in children(tree, path))), None)
    q, _, _, prices = tree
    scales = (1, 10**6) if all(it is None for it in inst.capacities.values()) else (1000,)
    if q > 0 and prices is not None and q not in scales:
        return f"the scale {q} isn't lawful at {path}"
    if (q == 0 or prices is None) and not leaf_closes(inst, tree, path, cost):
        return f"the leaf {tree} is open at {path}"
    return None


def least_cost(inst):
    """The least cost of all plans of an instance of the own form: of all sets of sites, and, where some have capacities, of all
    ways to serve the customers from them."""
    must, free = ([it for it in inst.sites if it[3] == status] for status in (OPEN, FREE))
    lo, hi = inst.count
    least = NO_PLAN
    for extra in itertools.chain.from_iterable(itertools.combinations(free, k) for k in range(len(free) + 1)):
        opened = must + [*extra]
        if lo <= len(opened) <= hi:
            least = min(least, served(inst, opened, sum(cost for _, cost, *_ in opened), least))
    return least


def served(inst, opened, fixed, least):
    """The least cost with these open sites, where it is below another one; else that other one or more."""
    room = {s: cap for s, _, cap, _ in opened}
    fits = lambda s, demand: room[s] is None or demand <= room[s]
    ways = [(demand, sorted((inst.lanes[s, c], s) for s in room if (s, c) in inst.lanes and fits(s, demand)))
            for c, demand in sorted(inst.customers, key=lambda it: -it[1])]
    if not all(lanes for _, lanes in ways):
        return NO_PLAN
    after = [sum(lanes[0][0] for _, lanes in ways[k:]) for k in range(len(ways) + 1)]

    def best(k, cost, least):
        if cost + after[k] >= least or k == len(ways):
            return min(least, cost + after[k])
        demand, lanes = ways[k]
        for lane, s in lanes:
            if fits(s, demand):
                if room[s] is not None:
                    room[s] -= demand
                least = best(k + 1, cost + lane, least)
                if room[s] is not None:
                    room[s] += demand
        return least

    return best(0, fixed, least)
