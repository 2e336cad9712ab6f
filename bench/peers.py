"""Solves an instance with other solvers that are installed: `peers.py [--limit SECONDS] PROGRAM INSTANCE [COST]`.

These are GLPK (`glpsol`), SYMPHONY, CBC, and HiGHS as SciPy has it, each as it is by default but for the gap, which has
to be 0. The form of the instance is the ending of its name: `ufl`, `uncap`, `cap` or `pmed`. All solvers get the same
model: a binary variable for each site, one between 0 and 1 for each lane, which is a binary one where capacities count, an
equation for each customer, for each lane that it is used only from an open site, for each capacity that it is enough for
what is served from an open site and 0 else, and of a network how many vertices are open. Of the first three all processor
seconds of the run are printed, with the reading of the model, and of HiGHS those of the call, whose limit is one of wall
seconds.

Where COST, what some plan of the instance costs, is given, the lanes are left out that no plan uses which costs at most
that. They are found by what `PROGRAM duals` prints: no slack is below 0, so of each open site the customers' duals
above the costs of its lanes come to its fixed cost less its slack. A plan pays the fixed cost and the lane, so that a
customer costs it at least its dual, and at least the lane, and an open site its slack besides. Hence a plan that serves
customer `j` from site `i` costs at least the bound, the slack of `i`, and what the lane costs above the dual of `j`.
Where that is above COST, the lane is in no cheapest plan; and all lanes of a cheapest one stay, so that the least cost
of the model is that of the instance. Capacities only take plans away. Of a network with `p` medians the lanes stay that
cost a vertex no more than its dearest but `p - 1`, since one of the others leads to a median wherever those do.
"""
import argparse
import heapq
import importlib.util
import os
import re
import shutil
import tempfile
import time

from timing import Run

MICRO = 10**6
# Costs agree up to so much, for each unit of cost and besides: these solvers go by floating numbers.
TOLERANCE = 1e-6
# Terms in a line of a model.
MANY = 8


def micro(word):
    whole, _, decimals = word.partition(".")
    return int(whole or 0) * MICRO + int(decimals[:6].ljust(6, "0"))


def money(amount):
    return f"{amount // MICRO}.{amount % MICRO:06}"


def words_of(path):
    """The words of an instance's file, behind its title."""
    with open(path) as file:
        for number, line in enumerate(file):
            if number or not line.startswith("FILE:"):
                yield from line.split()


class Instance:
    """Fixed costs and demands, rows of lanes by site, in millionths; the sites' capacities, where they count; and how many
    sites have to be open, where that is given. Places count from 0."""

    def __init__(self, fixed, rows, rooms=None, demands=None, count=None):
        self.fixed, self.rows, self.rooms, self.demands, self.count = fixed, rows, rooms, demands, count
        self.customers = len(rows[0])


def form_of(path):
    return path.rpartition(".")[2]


def whole(word):
    return micro(word) // MICRO


def read_ufl(words):
    m, n, _ = (whole(next(words)) for _ in range(3))
    rows = [[micro(next(words)) for _ in range(n + 2)] for _ in range(m)]
    return Instance([row[1] for row in rows], [row[2:] for row in rows])


def read_warehouses(words, with_rooms):
    m, n = whole(next(words)), whole(next(words))
    sites = [(next(words), micro(next(words))) for _ in range(m)]
    customers = [[micro(next(words)) for _ in range(m + 1)] for _ in range(n)]
    rooms = [micro(room) for room, _ in sites] if with_rooms else None
    rows = [[row[site + 1] for row in customers] for site in range(m)]
    return Instance([fixed for _, fixed in sites], rows, rooms, [row[0] for row in customers])


def walks_from(start, edges):
    """The costs of the cheapest walks from a vertex to all vertices, which the network has to join."""
    costs, queue = {start: 0}, [(0, start)]
    while queue:
        cost, vertex = heapq.heappop(queue)
        if cost > costs[vertex]:
            continue
        for other, more in edges[vertex].items():
            if cost + more < costs.get(other, cost + more + 1):
                costs[other] = cost + more
                heapq.heappush(queue, (cost + more, other))
    return [costs[vertex] for vertex in range(len(edges))]


def read_network(words):
    n, m, p = (whole(next(words)) for _ in range(3))
    edges = [{} for _ in range(n)]
    for _ in range(m):
        a, b, cost = whole(next(words)) - 1, whole(next(words)) - 1, micro(next(words))
        if a != b:
            edges[a][b] = edges[b][a] = cost
    return Instance([0] * n, [walks_from(vertex, edges) for vertex in range(n)], count=p)


def read(path):
    words, form = words_of(path), form_of(path)
    if form == "ufl":
        return read_ufl(words)
    return read_network(words) if form == "pmed" else read_warehouses(words, form == "cap")


class Useful:
    """Which lanes can be in a plan that costs at most a limit."""

    def __init__(self, program, path, cost, limit):
        self.limit, self.bound, self.duals, self.slacks = None, 0, {}, {}
        if cost is None:
            return
        run = Run([program, "duals", form_of(path), path], limit)
        if run.status:
            print(f"    duals ended with {run.status}: all lanes are in the model")
            return
        self.limit = micro(cost)
        for line in run.said.splitlines():
            kind, *words = line.split()
            if kind == "bound":
                self.bound = micro(words[0])
            else:
                (self.duals if kind == "customer" else self.slacks)[int(words[0]) - 1] = micro(words[1])

    def has(self, site, customer, cost):
        if self.limit is None:
            return True
        return self.bound + self.slacks[site] + max(0, cost - self.duals[customer]) <= self.limit


class Model:
    """The sites and lanes that can matter, lanes as site, customer and cost in millionths."""

    def __init__(self, instance, useful):
        self.instance, self.of = instance, len(instance.rows) * instance.customers
        last = [self.last_cost(column) for column in zip(*instance.rows)]
        self.lanes = [(site, customer, cost) for site, row in enumerate(instance.rows) for customer, cost in enumerate(row)
                      if cost <= last[customer] and useful.has(site, customer, cost)]
        self.sites = sorted({site for site, _, _ in self.lanes})

    def last_cost(self, column):
        """What a customer's lane costs at most in a cheapest plan, by the number of open sites."""
        return sorted(column)[-min(self.instance.count or 1, len(column))]

    def write(self, path):
        """As a file in the LP format of CPLEX, which all these solvers read."""
        fixed, rooms, demands = self.instance.fixed, self.instance.rooms, self.instance.demands
        servers, served = ({key: [] for key in keys} for keys in (range(self.instance.customers), self.sites))
        for site, customer, _ in self.lanes:
            servers[customer].append(f"x{site}_{customer}")
            served[site].append(customer)
        terms = [f"{money(fixed[site])} y{site}" for site in self.sites]
        terms += [f"{money(cost)} x{site}_{customer}" for site, customer, cost in self.lanes]
        rows = [f" s{customer}: {joined(names)} = 1" for customer, names in servers.items()]
        rows += [f" o{site}_{customer}: x{site}_{customer} - y{site} <= 0" for site, customer, _ in self.lanes]
        if rooms:
            loads = {site: joined([f"{money(demands[it])} x{site}_{it}" for it in served[site]]) for site in self.sites}
            rows += [f" r{site}: {load} - {money(rooms[site])} y{site} <= 0" for site, load in loads.items()]
        if self.instance.count:
            rows += [f" count: {joined([f'y{site}' for site in self.sites])} = {self.instance.count}"]
        units = [f"y{site}" for site in self.sites]
        units += [f"x{site}_{customer}" for site, customer, _ in self.lanes] if rooms else []
        with open(path, "w") as file:
            file.write("Minimize\n cost: " + joined(terms) + "\nSubject To\n" + "\n".join(rows) + "\nBounds\n")
            file.write("".join(f" {unit} <= 1\n" for unit in units))
            file.write("Generals\n" + "".join(f" {unit}\n" for unit in units) + "End\n")


def joined(terms):
    lines = (" + ".join(terms[place:place + MANY]) for place in range(0, len(terms), MANY))
    return "\n + ".join(lines)


def found(pattern, text):
    """The cost that a solver prints, in units."""
    match = re.search(pattern, text)
    return float(match[1]) if match else None


def read_if_there(path):
    if not os.path.exists(path):
        return ""
    with open(path) as file:
        return file.read()


def glpk(folder, limit):
    run = Run(["glpsol", "--lp", "model.lp", "-o", "glpk.txt"], limit, cwd=folder)
    text = read_if_there(f"{folder}/glpk.txt")
    return run.seconds, found(r"Objective: +cost = (\S+)", text) if "INTEGER OPTIMAL" in text else None


def symphony(folder, limit):
    run = Run(["symphony", "-L", "model.lp"], limit, cwd=folder)
    return run.seconds, found(r"Solution Cost: +(\S+)", run.said) if "Optimal Solution Found" in run.said else None


def cbc(folder, limit):
    words = ["cbc", "model.lp", "-ratioGap", "0", "-allowableGap", "0", "-solve", "-solution", "cbc.txt"]
    run = Run(words, limit, cwd=folder)
    return run.seconds, found(r"^Optimal - objective value +(\S+)", read_if_there(f"{folder}/cbc.txt"))


def highs(model, limit):
    import numpy
    from scipy import optimize, sparse

    instance, lanes = model.instance, len(model.lanes)
    places, sites = {site: place for place, site in enumerate(model.sites)}, len(model.sites)
    costs = [*(instance.fixed[site] for site in model.sites), *(cost for _, _, cost in model.lanes)]
    columns = numpy.arange(sites, sites + lanes)
    customers, opened = [customer for _, customer, _ in model.lanes], [places[site] for site, _, _ in model.lanes]

    def matrix(entries, rows, columns, height):
        return sparse.csr_array((entries, (rows, columns)), shape=(height, sites + lanes))

    served = matrix(numpy.ones(lanes), customers, columns, instance.customers)
    pairs = numpy.concatenate([numpy.ones(lanes), -numpy.ones(lanes)])
    used = matrix(pairs, numpy.concatenate([numpy.arange(lanes)] * 2), numpy.concatenate([columns, opened]), lanes)
    limits = [optimize.LinearConstraint(served, 1, 1), optimize.LinearConstraint(used, -numpy.inf, 0)]
    if instance.rooms:
        loads = [instance.demands[it] / MICRO for it in customers] + [-instance.rooms[it] / MICRO for it in model.sites]
        load = matrix(loads, [*opened, *range(sites)], [*columns, *range(sites)], sites)
        limits.append(optimize.LinearConstraint(load, -numpy.inf, 0))
    if instance.count:
        count = matrix(numpy.ones(sites), numpy.zeros(sites, int), numpy.arange(sites), 1)
        limits.append(optimize.LinearConstraint(count, instance.count, instance.count))
    whole_ones = numpy.concatenate([numpy.ones(sites), numpy.full(lanes, 1 if instance.rooms else 0)])
    how = {"time_limit": limit, "mip_rel_gap": 0}
    start = time.process_time()
    answer = optimize.milp([it / MICRO for it in costs], integrality=whole_ones, bounds=optimize.Bounds(0, 1),
                           constraints=limits, options=how)
    return time.process_time() - start, answer.fun if answer.status == 0 else None


def told(name, seconds, cost, known):
    """How a solver did, and whether it found what is known to be the cost of a plan."""
    if cost is None:
        return f"{name} open after {seconds:.3f}"
    differs = known is not None and abs(cost - known / MICRO) > TOLERANCE * (1 + abs(cost))
    return f"{name} {seconds:.3f}" + (f" WITH THE COST {cost:.6f}" if differs else "")


def main():
    words = argparse.ArgumentParser(description=__doc__, formatter_class=argparse.RawDescriptionHelpFormatter)
    words.add_argument("--limit", type=int, default=60, help="processor seconds that one run may take (60)")
    words.add_argument("program")
    words.add_argument("instance")
    words.add_argument("cost", nargs="?")
    options = words.parse_args()
    known = micro(options.cost) if options.cost else None
    model = Model(read(options.instance), Useful(options.program, options.instance, options.cost, options.limit))
    said, missing = [], []
    with tempfile.TemporaryDirectory() as folder:
        model.write(f"{folder}/model.lp")
        for name, command, run in [("GLPK", "glpsol", glpk), ("SYMPHONY", "symphony", symphony), ("CBC", "cbc", cbc)]:
            if shutil.which(command):
                said.append(told(name, *run(folder, options.limit), known))
            else:
                missing.append(name)
    if importlib.util.find_spec("scipy"):
        said.append(told("HiGHS", *highs(model, options.limit), known))
    else:
        missing.append("HiGHS")
    lanes = f"{len(model.lanes)} of {model.of} lanes"
    print(f"    {'; '.join([lanes, *said])}{'; not installed: ' + ', '.join(missing) if missing else ''}", flush=True)


if __name__ == "__main__":
    main()
