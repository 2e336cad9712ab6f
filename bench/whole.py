"""Checking leaves that take whole knapsacks, at full size: `whole.py PROGRAM`.

Two kinds of instances are made, each with a certificate whose leaves don't close by what sites would collect from customers
in part, so that each of their knapsacks has to be solved exactly.

- *Many leaves*: a full tree of 1,024 leaves for 20 sites and 200 customers. Its splits are on further sites that hold nothing,
  so that every leaf has the bound of the first one, which is added up here by a table over weights.
- *One knapsack*: one site and 5,000 customers, of whose demand it holds 1,000,000 units less one, the most that is allowed but
  for that one. What customers offer is in proportion to their demands, or nearly, or has nothing to do with them. In the first
  case no choice is worth more than another one of as much demand: demands are even but for one customer who offers nothing,
  and the capacity is odd, so that nothing reaches the continuous value.

A certificate claims a low end that its leaves just show: where that isn't known beforehand it is taken from what the checker
says of a leaf that shows less than is claimed, and a claim of a millionth more has to be refused. For each the script prints
the processor seconds, the best of three runs where one takes less than a second, and the peak memory.
"""
import argparse
import os
import random
import re
import sys
import tempfile

from timing import Run

MICRO = 10**6
# A run below so many seconds is repeated, so often in all; one above the limit is ended.
SHORT, TIMES, LIMIT = 1, 3, 300
OPEN = re.compile(r"no LeafOpen line [0-9]+ bound ([0-9]+) scale 1\Z")
# Far above what any leaf shows.
TOO_MUCH = 8 * 10**18


def money(micro):
    return f"{micro // MICRO}.{micro % MICRO:06}"


class Case:
    """An instance and a certificate of it, in files of a folder; the bound of each of its leaves, where that is known."""

    def __init__(self, name, folder, sites, customers, v, depth=0, bound=None):
        self.name, self.bound = name, bound
        self.instance, self.certificate = os.path.join(folder, "instance"), os.path.join(folder, "certificate")
        with open(self.instance, "w") as file:
            file.write(f"{len(sites)} {len(customers)}\n")
            file.writelines(f"{room} {money(fixed)}\n" for room, fixed in sites)
            file.writelines(f"{demand} {' '.join(map(money, row))}\n" for demand, row in customers)
        self.head = f"dualoc-certificate 1\nsites {len(sites)} customers {len(customers)}\n"
        self.leaf = f"leaf 1 0\nv {' '.join(map(str, v))}\nwhole\n"
        self.splits = [len(sites) - k for k in range(depth)]

    def words(self, program, low):
        """The command that checks a certificate of this low end."""
        with open(self.certificate, "w") as file:
            file.write(f"{self.head}claim bracket {money(low)} none\n")
            self.write(file, self.splits)
            file.write("end\n")
        return [program, "check", "cap", self.instance, self.certificate]

    def write(self, file, splits):
        if not splits:
            file.write(self.leaf)
            return
        file.write(f"site {splits[0]}\n")
        for _ in range(2):
            self.write(file, splits[1:])

    def said(self, program, low):
        return Run(self.words(program, low), LIMIT).said

    def tell(self, program):
        low = self.bound or int(OPEN.match(self.said(program, TOO_MUCH))[1])
        refused = self.said(program, low + 1)
        if not OPEN.match(refused):
            sys.exit(f"whole.py: {self.name}: {refused}")
        runs = [Run(self.words(program, low), LIMIT)]
        while len(runs) < TIMES and runs[0].seconds < SHORT:
            runs.append(Run(self.words(program, low), LIMIT))
        run = min(runs, key=lambda it: it.seconds)
        if run.said != f"yes bracket {money(low)} none":
            sys.exit(f"whole.py: {self.name}: {run.said}")
        each = run.seconds / 2 ** len(self.splits)
        print(f"{self.name:<28} {os.path.getsize(self.certificate):>9} bytes {run.seconds:8.3f} s {each * 1e6:12.1f} µs a leaf "
              f"{run.memory / 1e6:7.1f} MB", flush=True)


def greatest_value(items, room):
    """The greatest value of some of the items, given by weight and value, within the room."""
    table = [0] * (room + 1)
    for weight, value in items:
        if value > 0:
            for load in range(room, weight - 1, -1):
                table[load] = max(table[load], table[load - weight] + value)
    return table[room]


def many_leaves(folder):
    """Sites and customers in a square. Customers offer a fifth more than their third cheapest lane costs."""
    m, n, depth, room = 20, 200, 10, 400
    at = [(random.random(), random.random()) for _ in range(m + n)]
    demands = [random.randrange(10, 51) for _ in range(n)]
    lanes = [[int(d * MICRO * ((a - x) ** 2 + (b - y) ** 2) ** 0.5) for a, b in at[:m]] for d, (x, y) in zip(demands, at[m:])]
    v = [sorted(row)[2] * 6 // 5 for row in lanes]
    fixed = [random.randrange(5 * MICRO, 10 * MICRO) for _ in range(m)]
    slacks = [cost - greatest_value([(d, value - row[i]) for d, value, row in zip(demands, v, lanes)], room)
              for i, cost in enumerate(fixed)]
    sites = [(room, cost) for cost in fixed] + [(0, 0)] * depth
    rows = [(d, row + [0] * depth) for d, row in zip(demands, lanes)]
    return Case("1,024 leaves, 20 sites", folder, sites, rows, v, depth, sum(v) + sum(min(0, slack) for slack in slacks))


def one_knapsack(name, folder, offer, bound_of=lambda v, demands: None):
    """One site whose lanes cost nothing, customers of even demands, and one of demand 1 who offers nothing."""
    n, room = 5000, 10**6 - 1
    demands = [2 * random.randrange(1, 401) for _ in range(n - 1)] + [1]
    v = [offer(demand) for demand in demands[:-1]] + [0]
    return Case(name, folder, [(room, 0)], [(d, [0]) for d in demands], v, bound=bound_of(v, demands))


def in_proportion(v, demands):
    """The bound where each unit of demand offers 1,000: the sums of demands that there are, as bits of a number."""
    sums = 1
    for demand in demands[:-1]:
        sums |= sums << demand
    return sum(v) - 1000 * max(load for load in range(999_990, 10**6) if sums >> load & 1)


def main():
    words = argparse.ArgumentParser(description=__doc__, formatter_class=argparse.RawDescriptionHelpFormatter)
    words.add_argument("program")
    program = os.path.abspath(words.parse_args().program)
    cases = [many_leaves,
             lambda it: one_knapsack("one knapsack, in proportion", it, lambda d: 1000 * d, in_proportion),
             lambda it: one_knapsack("nearly in proportion", it, lambda d: 1000 * d + random.randrange(100)),
             lambda it: one_knapsack("by half", it, lambda d: random.randrange(500 * d, 1500 * d)),
             lambda it: one_knapsack("out of proportion", it, lambda d: random.randrange(10**6))]
    for case in cases:
        random.seed(1)
        with tempfile.TemporaryDirectory() as folder:
            case(folder).tell(program)


if __name__ == "__main__":
    main()
