"""Compares the trials of a built program with a plain reading of docs/FORMATS.md: `trial.py PROGRAM`.

The reading draws the numbers of a seed and makes the instance of so many sites and customers. Of 200 triples each is asked
twice, and the answers have to be the same bytes. The same instance is written in the suite's own form and searched there:
the line of `trial` has to be that of `solve`, with as many nodes, and as many sites open as in the plan's file. Where few
sites come, all sets of sites are walked over, and the cost has to be the least. Words that are no trial are refused.
"""
import itertools
import random
import re

from common import MICRO, differs, main, money
from instances import DONE
from own import Instance
from solve import BRACKET, USAGE

TRIPLES, FEW_SITES, GREATEST_SEED = 200, 9, 2**31 - 1
# A seed, and the numbers that are drawn from it.
WORKED = 1, [16838, 5758, 10113, 17515, 31051, 5627, 23010, 7419, 16212, 4086]
REFUSED = ["", "1", "1 2", "1 2 2 2", "01 2 2", "1 02 2", "1 2 02", "+1 2 2", "-1 2 2", "1.0 2 2", "1 2 2.", "x 2 2", "1 2 x",
           "1 0 2", "1 2 0", "1 3001 1", "1 1 5001", "1 2001 5000", "1 3000 3334", "2147483648 2 2", "4294967296 2 2",
           "1 4294967298 2", "1 2 4294967298", "1 2 2 budget=3", "1 2 2 capacity=3", "budget=3 1 2 2"]


def drawn(seed):
    """The numbers that are drawn from a seed."""
    state = seed
    while True:
        state = (1103515245 * state + 12345) % 2**31
        yield state // 65536


def instance(seed, m, n):
    """The fixed costs and the rows of lanes of a trial, in whole units."""
    numbers = drawn(seed)
    draw = lambda: next(numbers) % 1000
    sites = [(draw(), draw(), 500 + draw()) for _ in range(m)]
    customers = [(draw(), draw()) for _ in range(n)]
    return [fixed for *_, fixed in sites], [[abs(x - a) + abs(y - b) for a, b in customers] for x, y, _ in sites]


def least(fixed, rows):
    """The least cost over all sets of sites, and how many sites such a set has."""
    best, sizes = None, set()
    for size in range(1, len(fixed) + 1):
        for places in itertools.combinations(range(len(fixed)), size):
            cost = sum(fixed[i] for i in places) + sum(map(min, zip(*(rows[i] for i in places))))
            if best is None or cost < best:
                best, sizes = cost, set()
            if cost == best:
                sizes.add(size)
    return best, sizes


def searched(program, fixed, rows):
    """What the search of the same instance in a file prints, its status, and how many sites its plan opens."""
    micro = lambda units: MICRO * units
    text = Instance.numbered(list(map(micro, fixed)), [list(map(micro, row)) for row in rows]).text()
    program.write("own", text)
    said, status = program.ask("solve", "own", "own", "plan", "certificate")
    with open(program.at("plan")) as plan:
        return said, status, len(re.findall(r"(?m)^site ", plan.read()))


def compare(program, seed, m, n):
    """Asks about a trial twice. Whether it ends with a bracket."""
    shown = f"trial {seed} {m} {n}"
    fixed, rows = instance(seed, m, n)
    said, status, opened = searched(program, fixed, rows)
    due = f"{said}open {opened}\n"
    for _ in range(2):
        program.expect(due, status, shown, *shown.split())
    if status not in (DONE, BRACKET):
        differs(shown, (due, status), ("a plan", DONE))
    if m <= FEW_SITES:
        cost, sizes = least(fixed, rows)
        if said.split(" nodes ")[0] != f"optimal {money(MICRO * cost)}" or opened not in sizes:
            differs(shown, (due, status), (f"{money(MICRO * cost)}, with so many sites: {sizes}", DONE))
    return status == BRACKET


def check(program):
    seed, numbers = WORKED
    if list(itertools.islice(drawn(seed), len(numbers))) != numbers:
        differs(seed, ("other draws", None), (numbers, None))
    program.expect("optimal 2338.000000 nodes 1\nopen 1\n", DONE, "the worked trial", "trial", "1", "2", "2")
    brackets = 0
    triples = [(0, 1, 1), (GREATEST_SEED, 3, 7), (7, 30, 100), (7, 60, 200)]
    while len(triples) < TRIPLES:
        most_sites, most_customers = random.choice([(3, 4), (FEW_SITES, 20), (FEW_SITES, 60), (25, 40)])
        seed = random.choice([random.randrange(10), random.randrange(GREATEST_SEED + 1)])
        triples.append((seed, random.randrange(1, most_sites + 1), random.randrange(1, most_customers + 1)))
    for triple in triples:
        brackets += compare(program, *triple)
    for words in REFUSED:
        program.expect("usage\n", USAGE, words, "trial", *words.split())
    return f"{len(triples)} trials are those of a plain reading, {brackets} with a bracket, and {len(REFUSED)} kinds of words are refused"


if __name__ == "__main__":
    main(check)
