"""Compares the searches of a built program under capacities and counts with all plans there are:
`capacities.py PROGRAM [FILES] [SEED]`.

Random warehouse files of up to 4 sites and 5 customers are searched with their capacities, and half as many networks of up
to 8 vertices. Most capacities are such that the customers just fit, or just don't; some stand for the option's number. A
plain walk goes over all ways to serve the customers, or over all sets of so many vertices. The program has to find the
least cost, or that there is no plan, within its usual budget; with a budget of 0 to 5 nodes a bracket may come, also one
without a plan, and has to hold at both ends. The plan's file and the certificate's are judged as in `solve.py`.
"""
import itertools
import random

from common import MICRO, main, money
from instances import MAX_AMOUNT, NO_PLAN, Fault, cost_of_plan
from networks import read as read_network
from solve import BAD_INPUT, NAMES, TOO_LARGE, USAGE, Task, costs, greatest, refuse, solve

MOST_SITES, MOST_CUSTOMERS, MOST_VERTICES, MOST_BUDGET = 4, 5, 8, 5
WITHOUT_PLAN = "dualoc-plan 1\n{}\nend\n"


def cost_of(text, fixed, lanes, fits):
    """What the plan in a text costs, `NO_PLAN` where the text says that there is none, and nothing where it is at fault."""
    claim = text.splitlines()[1:2]
    if claim and text == WITHOUT_PLAN.format(*claim):
        return NO_PLAN if claim == ["infeasible"] or claim[0].endswith(" none") else None
    return cost_of_plan(text, fixed, lanes, fits)


def loads_of(places, demands, m):
    loads = [0] * m
    for place, demand in zip(places, demands):
        loads[place] += demand
    return loads


class Warehouses:
    """A random warehouse file, its walk over all ways to serve the customers, and its task."""

    def __init__(self, most_customers=MOST_CUSTOMERS):
        m, n = random.randrange(1, MOST_SITES + 1), random.randrange(1, most_customers + 1)
        fixed, lane = random.choice([(costs(), costs())] * 9 + [(greatest, greatest)])
        unit = random.choice([1, MICRO // 4, MICRO, 10**9])
        self.demands = self.some_demands(n, unit)
        self.rooms = self.some_rooms(m, unit)
        self.fixed = [min(random.choice([1, 1, 4]) * fixed(), MAX_AMOUNT) for _ in range(m)]
        self.lanes = [[lane() for _ in range(n)] for _ in range(m)]
        if random.random() < 0.2:
            self.lanes = [self.lanes[0]] * m
        self.option = random.choice(self.rooms) if random.random() < 0.3 else None

    @staticmethod
    def some_demands(n, unit):
        least, most = random.choice([(0, 3), (1, 1), (4, 7), (1, 30), (0, 1)])
        return [unit * random.randint(least, most) for _ in range(n)]

    def some_rooms(self, m, unit):
        """Capacities: what some way to serve the customers needs, and a little more or less; or shares of the demand."""
        if random.random() < 0.6:
            loads = loads_of([random.randrange(m) for _ in self.demands], self.demands, m)
            return [max(0, load + random.choice([0, 0, 0, unit, -unit, 1, -1])) for load in loads]
        total = int(sum(self.demands) * random.choice([0.7, 1, 1, 1.2, 1.5, 3]))
        return [max(0, min(total // m + unit * random.randrange(-2, 3), MAX_AMOUNT)) for _ in range(m)]

    def text(self):
        rooms = ["capacity" if room == self.option else money(room) for room in self.rooms]
        lines = [f"{len(self.fixed)} {len(self.demands)}"]
        lines += [f"{room} {money(fixed)}" for room, fixed in zip(rooms, self.fixed)]
        lines += [" ".join(map(money, [demand, *row])) for demand, row in zip(self.demands, zip(*self.lanes))]
        return ("\n".join(lines) + "\n").encode()

    def fits(self, places):
        return all(load <= room for load, room in zip(loads_of(places, self.demands, len(self.rooms)), self.rooms))

    def least_cost(self):
        """No plan is cheaper for an open site that serves nobody, so the served ones are open in a cheapest plan."""
        ways = itertools.product(range(len(self.fixed)), repeat=len(self.demands))
        return min((sum(self.fixed[i] for i in {*way}) + sum(self.lanes[i][j] for j, i in enumerate(way))
                    for way in ways if self.fits(way)), default=NO_PLAN)

    def task(self):
        judge = lambda text: cost_of(text, self.fixed, self.lanes, lambda opened, serve: self.fits([it - 1 for it in serve]))
        options = [] if self.option is None else [f"capacity={money(self.option)}"]
        sizes = len(self.fixed), len(self.demands)
        return Task("cap", "sites", self.text(), self.least_cost(), sizes, judge, options)


def some_network():
    """A random network: a few edges, or most of them, and one vertex more to open than there are at most."""
    n, cost = random.randrange(1, MOST_VERTICES + 1), costs()
    edges = random.choice([n, 2 * n, n * n // 2])
    lines = [(random.randint(1, n), random.randint(1, n), money(cost())) for _ in range(edges)]
    rows = "".join(f"{a} {b} {cost}\n" for a, b, cost in lines)
    return f"{n} {edges} {random.randint(1, n + 1)}\n{rows}".encode()


def network_task():
    """The task of a random network, by a walk over all sets of so many vertices."""
    while True:
        text = some_network()
        try:
            n, p, pairs = read_network(text)
            break
        except Fault:
            continue
    vertices = range(1, n + 1)
    lanes = [[pairs.get((site, customer)) for customer in vertices] for site in vertices]
    reached = lambda opened, j: min((lanes[i - 1][j] for i in opened if lanes[i - 1][j] is not None), default=NO_PLAN)
    least = min((sum(reached(opened, j) for j in range(n)) for opened in itertools.combinations(vertices, p)), default=NO_PLAN)
    judge = lambda text: cost_of(text, [0] * n, lanes, lambda opened, serve: len(opened) == p)
    return Task("pmed", "sites", text, least, (n, n), judge)


class Found:
    """How many instances were searched, and what came of them."""

    def __init__(self, kind):
        self.kind, self.tasks, self.impossible, self.split, self.small = kind, 0, 0, 0, 0

    def search(self, program, task):
        program.write(task.name, task.shown)
        nodes = solve(program, task)
        if nodes >= task.usual:
            task.wrong(None, "the usual budget is spent on a small instance")
        self.tasks += 1
        self.impossible += task.optimum == NO_PLAN
        self.split += nodes > 1
        budgets = {random.randrange(MOST_BUDGET + 1)} if nodes > 1 or random.random() < 0.05 else ()
        for budget in budgets:
            solve(program, task, budget)
        self.small += len(budgets)

    def told(self):
        return (f"{self.tasks} {self.kind} at the least cost, of which {self.split} needed a split and {self.impossible} have no "
                f"plan; {self.small} with a small budget")


PAIR = b"2 2\ncapacity 7500.00000\n10 0.50000\n6 6739.72500 1.25\n6 3.00000 4.00000\n"
NET = b"3 3 1\n1 2 5\n2 3 7\n1 2 4\n"
REFUSED = [("usage\n", USAGE, words) for words in [
    ("cap", "sites"), ("pmed", "net"), ("cap", "sites", "plan"), ("cap", *NAMES, "capacity"), ("cap", *NAMES, "capacity="),
    ("cap", *NAMES, "capacity=-1"), ("cap", *NAMES, "capacity=1.0000001"), ("cap", *NAMES, "capacity=1", "capacity=1"),
    ("cap", *NAMES, "capacity=1", "budget=1", "budget=1"), ("cap", *NAMES, "capacity=1", "3"), ("cap", "capacity=1", *NAMES),
    ("uncap", *NAMES, "capacity=1"), ("pmed", *NAMES, "capacity=1"), ("ufl", *NAMES, "capacity=1")]]
REFUSED += [("bad input NeedCapacity line 2 word 1\n", BAD_INPUT, ("cap", *NAMES)),
            ("bad input NotANumber line 2 word 1\n", BAD_INPUT, ("pmed", *NAMES)),
            ("too large budget\n", TOO_LARGE, ("cap", *NAMES, "capacity=6", "budget=5000001")),
            ("too large budget\n", TOO_LARGE, ("pmed", "net", *NAMES[1:], "budget=3333334"))]


def refused(program):
    """Words, budgets and files at fault; and what the greatest budget and both options give."""
    program.write("sites", PAIR)
    program.write("net", NET)
    for due, status, words in REFUSED:
        refuse(program, due, status, *words)
    for options, optimum in [(["capacity=6"], 7504750000), (["capacity=5.999999"], NO_PLAN)]:
        solve(program, Task("cap", "sites", PAIR, optimum, (2, 2), options=options), 5000000)
    solve(program, Task("pmed", "net", NET, 11 * MICRO, (3, 3)), 3333333)
    return f"{len(REFUSED)} refusals"


def check(program, files="2000", seed="1"):
    random.seed(int(seed))
    warehouses, networks = Found("warehouse files"), Found("networks")
    for _ in range(int(files)):
        warehouses.search(program, Warehouses().task())
    for _ in range(int(files) // 2):
        networks.search(program, network_task())
    return f"capacities: {warehouses.told()}; {networks.told()}; {refused(program)}"


if __name__ == "__main__":
    main(check)
