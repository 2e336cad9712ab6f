#!/usr/bin/env bash
# `paths.sh [PROGRAM]`: cheapest walks between all pairs of vertices of networks at full size. Prints the
# processor seconds and the peak memory of `dualoc duals pmed`, which also sorts the lanes and raises the
# duals, and the seconds of a plain search in Python over a queue by cost, from all vertices of the smaller
# network alone.
set -eu
. "$(dirname "$0")/help.sh"
cd "$(dirname "$0")/.."
program=${1:-crates/dualoc/out/dualoc}
dir=$(mktemp -d)
trap 'rm -rf "$dir"' EXIT
PYTHONPATH=bench python3 - "$program" "$dir" <<'P'
import heapq, os, random, sys, time
from timing import Run

program, folder = sys.argv[1:3]


def network(vertices, edges):
    """A way through all vertices, and random edges besides."""
    random.seed(vertices + edges)
    pairs = [(k, k + 1) for k in range(1, vertices)]
    while len(pairs) < edges:
        pairs.append((random.randint(1, vertices), random.randint(1, vertices)))
    return [(a, b, random.randint(1, 100)) for a, b in pairs]


def all_costs(vertices, lines):
    arcs = [{} for _ in range(vertices + 1)]
    for a, b, cost in lines:
        if a != b:
            arcs[a][b] = arcs[b][a] = cost
    total = 0
    for start in range(1, vertices + 1):
        costs, queue = {}, [(0, start)]
        while queue:
            cost, at = heapq.heappop(queue)
            if at not in costs:
                costs[at] = cost
                for other, more in arcs[at].items():
                    if other not in costs:
                        heapq.heappush(queue, (cost + more, other))
        total += sum(costs.values())
    return total


for vertices, edges in (900, 16200), (3000, 15000):
    lines = network(vertices, edges)
    name = os.path.join(folder, "network")
    with open(name, "w") as file:
        file.write(f"{vertices} {edges} 5\n" + "".join(f"{a} {b} {cost}\n" for a, b, cost in lines))
    run = Run([program, "duals", "pmed", name], 600)
    print(f"{vertices} vertices, {edges} edges: status {run.status}, {run.seconds:.3f} s, {run.memory} bytes")
    if vertices < 1000:
        began = time.process_time()
        all_costs(vertices, lines)
        print(f"  in Python {time.process_time() - began:.3f} s")
P
