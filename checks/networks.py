"""Compares what a built program says of p-median files with a plain reading of docs/FORMATS.md: `networks.py PROGRAM`.

The reading keeps all costs of pairs in one table, in which each vertex in turn may be passed through. Both are asked about
a few files, all their proper prefixes, all deletions of one byte and many random changes, and about random small networks.
Of a network of a few vertices a certificate with a random plan is checked: the program has to refuse the plan, or to find
what it costs along cheapest walks.

Of two networks of 400 vertices, whose relaxations are a thousandth below the optimum, the program has to find an optimal
plan within a few nodes, and to accept the certificate: that takes splits that are looked into, and duals that are fitted.
"""
import itertools
import random

from common import MICRO, differs, main, money, texts
from instances import BAD_INPUT, DONE, MAX_AMOUNT, MOST_SITES, Fault, Reader

MOST_EDGES, MOST_PLANNED, PLANS, NETWORKS = 10**7, 8, 3, 1500
NO = 3
# Networks by vertices, medians and a seed, with the least cost and a budget.
TIGHT = {(400, 40, 7): (4253, 60), (400, 40, 9): (4269, 120)}


def read(text):
    """The number of medians, and the costs of all pairs that a walk joins."""
    reader = Reader(text, title=None)
    n = reader.size(MOST_SITES, "BadSize")
    m = reader.amount(lambda it: None if it % MICRO == 0 and it // MICRO <= MOST_EDGES else "BadSize") // MICRO
    p = reader.size(MOST_SITES, "BadSize")
    lines = [(reader.size(n, "BadVertex"), reader.size(n, "BadVertex"), reader.amount()) for _ in range(m)]
    reader.finish()
    costs = {(min(a, b), max(a, b)): cost for a, b, cost in lines if a != b}
    costs.update({(b, a): cost for (a, b), cost in costs.items()})
    costs.update({(a, a): 0 for a in range(1, n + 1)})
    ends = sorted({a for pair in costs for a in pair if pair[0] != pair[1]})
    for over, a, b in itertools.product(ends, repeat=3):
        if (a, over) in costs and (over, b) in costs:
            costs[a, b] = min(costs[a, over] + costs[over, b], costs.get((a, b), 10**20))
    if max(costs.values()) > MAX_AMOUNT:
        reader.fault("TooBig", reader.words[-1])
    return n, p, costs


def judged(program, text, n, p, costs):
    """Has a certificate with a random plan checked, which claims that the plan costs nothing."""
    opened = sorted(random.sample(range(1, n + 1), min(p, n)))
    serve = [random.choice(opened) for _ in range(n)]
    lines = ["dualoc-certificate 1", f"sites {n} customers {n}", "claim bracket 0.000000 0.000000",
             " ".join(map(str, ["open", *opened])), " ".join(map(str, ["serve", *serve])),
             "leaf 1 0", "v" + " 0" * n, "u", "end", ""]
    program.write("c", "\n".join(lines).encode())
    lanes = [costs.get((site, customer)) for customer, site in enumerate(serve, 1)]
    if None in lanes:
        due = "no PlanRefused line 5 NoLane"
    elif len(opened) != p:
        due = "no PlanRefused line 5 SiteCount"
    else:
        due = f"no CostDiffers line 5 found {money(sum(lanes))}" if sum(lanes) else "yes bracket 0.000000 0.000000"
    program.expect(due + "\n", NO if due.startswith("no ") else DONE, (text, lines), "check", "pmed", "a", "c")


def compare(program, text):
    """Stops where the program answers otherwise than it must, and returns whether the text is a network's."""
    program.write("a", text)
    try:
        n, p, costs = read(text)
    except Fault as fault:
        program.expect(str(fault), BAD_INPUT, text, "duals", "pmed", "a")
        program.expect(str(fault), BAD_INPUT, text, "check", "pmed", "a", "nothing")
        return False
    if n > MOST_PLANNED:
        found = program.ask("duals", "pmed", "a")
        if found[1] != DONE:
            differs(text, found, ("the duals", DONE))
        return True
    for _ in range(PLANS):
        judged(program, text, n, p, costs)
    return True


def some_network():
    n = random.randrange(1, 7)
    lines = [(random.randrange(1, n + 1), random.randrange(1, n + 1), random.choice(["0", "1.5", "2", "7", ".000001", "999999999.999999"]))
             for _ in range(random.randrange(13))]
    rows = "".join(f"{a} {b} {cost}\n" for a, b, cost in lines)
    return f"{n} {len(lines)} {random.randrange(1, n + 2)}\n{rows}".encode()


def crossed(n, p, seed):
    """A network in which edges join any vertices: a tree, and more until each vertex has some n / 25."""
    drawn = random.Random(seed)
    costs = {}
    for b in range(2, n + 1):
        cost = drawn.randrange(1, 101)
        costs[drawn.randrange(1, b), b] = cost
    while len(costs) < n * n // 50:
        a, b = sorted(drawn.sample(range(1, n + 1), 2))
        costs.setdefault((a, b), drawn.randrange(1, 101))
    edges = "".join(f"{a} {b} {cost}\n" for (a, b), cost in costs.items())
    return f"{n} {len(costs)} {p}\n{edges}".encode()


def solved(program, network, cost, budget):
    """Has the network solved within the budget, and its certificate checked."""
    program.write("a", crossed(*network))
    answer, status = program.ask("solve", "pmed", "a", "p", "c", f"budget={budget}")
    claim = f"optimal {money(cost * MICRO)}"
    if status != DONE or not answer.startswith(claim + " nodes "):
        differs(network, (answer, status), (claim, DONE))
    program.expect(f"yes {claim}\n", DONE, network, "check", "pmed", "a", "c")


def check(program):
    files = [b"3 3 1\n1 2 5\n2 3 7\n1 2 4\n", b"2 2 1\n1 1 5\n1 2 3\n", b"3 2 1\n1 2 999999999.999999\n2 3 0.000001\n"]
    read_ones = sum(compare(program, text) for original in files for text in texts(original, b"0123. \n+-x", 300))
    read_ones += sum(compare(program, some_network()) for _ in range(NETWORKS))
    for network, (cost, budget) in TIGHT.items():
        solved(program, network, cost, budget)
    return f"networks: {program.asked} answers agree, on texts of which {read_ones} are networks"


if __name__ == "__main__":
    main(check)
