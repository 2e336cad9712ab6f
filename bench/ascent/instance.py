"""Writes an instance: `instance.py KIND SITES CUSTOMERS FILE`, KIND `plane` (distances in a square) or `uniform`."""
import argparse
import math
import random

words = argparse.ArgumentParser(description=__doc__)
words.add_argument("kind", choices=["plane", "uniform"])
words.add_argument("sites", type=int)
words.add_argument("customers", type=int)
words.add_argument("file")
options = words.parse_args()
kind, sites, customers = options.kind, options.sites, options.customers
random.seed(f"{kind} {sites} {customers}")
SIDE = 10_000


def places(n):
    return [(random.random() * SIDE, random.random() * SIDE) for _ in range(n)]


near, far = places(customers), places(sites)
with open(options.file, "w") as file:
    file.write(f"{sites} {customers} 0\n")
    for site in range(sites):
        fixed = random.randrange(2 * SIDE, 4 * SIDE)
        if kind == "plane":
            costs = (f"{math.dist(far[site], place):.3f}" for place in near)
        else:
            costs = (f"{random.random() * SIDE:.3f}" for _ in range(customers))
        file.write(f"{site + 1} {fixed} {' '.join(costs)}\n")
