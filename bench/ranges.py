"""Ranges of costs against the check of the same certificate: `ranges.py [--sites M] [--customers N] [--costs K] PROGRAM`.

The instances have M sites and N customers, 100 and 200: in a square, where lanes cost distances; at costs all alike, where a search
grows many leaves; and in a square with capacities. Each is solved, and its certificate checked. Then K times, 5, the program tells the
range of the fixed cost of an open site, of a closed one, and of a lane that the plan uses. A line gives the nodes of the tree, the
bytes of the certificate, the milliseconds of the processor of `check`, the best of five runs, and those of the ranges, the median and
the greatest of the best of five runs each, and how many times `check` the greatest is. Reading the instance is in all of them.

The script ends with 1 where a range takes more than one and a half times as long as the check.
"""
import argparse
import math
import os
import random
import re
import statistics
import sys
import tempfile

from timing import Run

AIM, TIMES, LIMIT = 1.5, 5, 600


def in_a_square(m, n, draw):
    """Fixed costs, rows of lanes by site, demands, and no capacities."""
    at = [(draw.random(), draw.random()) for _ in range(m + n)]
    rows = [[round(1000 * math.dist(a, b), 3) for b in at[m:]] for a in at[:m]]
    return [draw.randint(800, 1500) for _ in range(m)], rows, [draw.randint(1, 20) for _ in range(n)], None


def all_alike(m, n, draw):
    rows = [[draw.randint(1000, 2000) for _ in range(n)] for _ in range(m)]
    return [draw.randint(4000, 5000) for _ in range(m)], rows, [0] * n, None


def with_capacities(m, n, draw):
    fixed, rows, demands, _ = in_a_square(m, n, draw)
    rows = [[round(cost * demand / 10, 3) for cost, demand in zip(row, demands)] for row in rows]
    return fixed, rows, demands, sum(demands) // 8


def text_of(fixed, rows, demands, room):
    """The instance in the suite's own form."""
    m, n = len(fixed), len(demands)
    lines = ["dualoc-instance 1", f"sites {m} next {m + 1}", f"customers {n} next {n + 1}", "count 0 3000"]
    lines += [f"customer {c} {demand}" for c, demand in enumerate(demands, 1)]
    lines += [f"site {s} {cost} {'none' if room is None else room} {' '.join(map(str, row))}" for s, (cost, row) in enumerate(zip(fixed, rows), 1)]
    return "\n".join([*lines, "end", ""])


def milliseconds(words):
    """The best of some runs, and what the command printed."""
    runs = [Run(words, LIMIT) for _ in range(TIMES)]
    if runs[0].status:
        sys.exit(f"ranges.py: {words} ended with {runs[0].status}: {runs[0].said}")
    return 1000 * min(it.seconds for it in runs), runs[0].said


def costs_in(certificate, m, many, draw):
    """The words of some costs of each kind."""
    with open(certificate) as file:
        opened, serve = ([int(it) for it in line.split()[1:]] for line in file.readlines()[3:5])
    closed = sorted({*range(1, m + 1)} - {*opened})
    some = lambda those: draw.sample(those, min(many, len(those)))
    yield "open site", [("site", s) for s in some(opened)]
    yield "closed site", [("site", s) for s in some(closed)]
    yield "used lane", [("lane", serve[c - 1], c) for c in some(range(1, len(serve) + 1))]


def tell(program, name, made, options):
    """The lines of an instance; the greatest number of times that a range takes as long as the check."""
    draw, worst = random.Random(1), 0
    with tempfile.TemporaryDirectory() as folder:
        file, plan, certificate = (os.path.join(folder, it) for it in ("instance", "plan", "certificate"))
        with open(file, "w") as end:
            end.write(text_of(*made(options.sites, options.customers, draw)))
        solved = Run([program, "solve", "own", file, plan, certificate], LIMIT)
        if not solved.said.startswith("optimal "):
            sys.exit(f"ranges.py: {name}: {solved.said}")
        check, _ = milliseconds([program, "check", "own", file, certificate])
        nodes, size = re.search(r"nodes (\d+)", solved.said)[1], os.path.getsize(certificate)
        print(f"{name}: {nodes} nodes, {size} bytes, solved in {solved.seconds:.2f} s, check {check:.2f} ms", flush=True)
        for kind, costs in costs_in(certificate, options.sites, options.costs, draw):
            times = [milliseconds([program, "range", "own", file, certificate, *map(str, it)])[0] for it in costs]
            worst = max(worst, max(times) / check)
            print(f"  {kind:<12} {statistics.median(times):8.2f} {max(times):8.2f} ms {max(times) / check:6.2f} times", flush=True)
    return worst


def main():
    words = argparse.ArgumentParser(description=__doc__, formatter_class=argparse.RawDescriptionHelpFormatter)
    words.add_argument("--sites", type=int, default=100)
    words.add_argument("--customers", type=int, default=200)
    words.add_argument("--costs", type=int, default=5)
    words.add_argument("program")
    options = words.parse_args()
    program = os.path.abspath(options.program)
    kinds = {"in a square": in_a_square, "all alike": all_alike, "with capacities": with_capacities}
    sys.exit(1 if max([tell(program, name, made, options) for name, made in kinds.items()]) > AIM else 0)


if __name__ == "__main__":
    main()
