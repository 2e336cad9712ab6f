"""Compares the searches of a built program with its walks over all sets of sites: `solve.py PROGRAM [FOLDER]`.

The search is `solve ufl FILE PLAN CERT`, the walk `solve ufl FILE`. Both are asked about random instances of 2 to 8
sites and up to 10 customers, with many equal costs, costs of 0 and large ones, and covers, of which many need splits.
The costs have to agree, the plan's file has to hold a feasible plan that costs what is printed, the certificate's as
many nodes as are printed, and the checker has to say yes to it. With a small budget a bracket may come: then the budget
has to be spent, and the least cost has to be in the bracket. Words, budgets and files at fault are refused, and leave
both files as they were.

Where a folder is named, the same is asked of its instances `*.ufl` whose least cost its file `best.tsv` tells: a table
with the columns `instance`, the file's name, and `optimum`, parted by tabs and named in its first line.
"""
import csv
import os
import random
import re
import sys

from common import MICRO, main, money
from instances import DONE, MAX_AMOUNT, NO_PLAN, cost_of_plan, words_of

FILES = 2000
MOST_DUALS, USUAL_BUDGET = 20_000_000, 20_000
INFEASIBLE, BRACKET, USAGE, BAD_INPUT, READ_FAULT, WRITE_FAULT, TOO_LARGE = 1, 2, 4, 5, 6, 7, 8
COST = r"([0-9]+\.[0-9]{6})"
OPTIMAL_LINE = re.compile(rf"optimal {COST} nodes ([0-9]+)\n\Z")
INFEASIBLE_LINE = re.compile(r"infeasible nodes ([0-9]+)\n\Z")
BRACKET_LINE = re.compile(rf"bracket {COST} (?:{COST}|none) nodes ([0-9]+) budget ([0-9]+)\n\Z")
NODE = re.compile(rb"(?m)^(?:site|lane|leaf) ")
PLAN, CERTIFICATE = "plan", "certificate"
# What stands in both files before: mostly longer than what comes.
BEFORE = b"before\n" * 1000


class Task:
    """An instance in a file, by its form and name and the words of its options; what is shown of it where the check stops;
    its least cost, which is `NO_PLAN` where it has none; and what a plan's text costs, where that can be told."""

    def __init__(self, form, name, shown, optimum, sizes, cost_of=None, options=()):
        self.form, self.name, self.shown, self.optimum = form, name, shown, optimum
        self.cost_of, self.options = cost_of, options
        self.usual = min(USUAL_BUDGET, MOST_DUALS // sum(sizes))

    def wrong(self, budget, why):
        sys.exit(f"check: {self.shown!r} as {self.form} with {self.options} and the budget {budget}: {why}")


def micro(word):
    """A cost in millionths; no word is no plan's."""
    return NO_PLAN if word is None else int(word.replace(".", ""))


def ends_of(task, budget, said, status):
    """The claim that is printed, its upper end and the nodes, where they are in order."""
    optimal, infeasible, bracket = (it.match(said) for it in (OPTIMAL_LINE, INFEASIBLE_LINE, BRACKET_LINE))
    if optimal and status == DONE:
        low = high = micro(optimal[1])
        nodes = int(optimal[2])
    elif infeasible and status == INFEASIBLE:
        low = high = NO_PLAN
        nodes = int(infeasible[1])
    elif bracket and status == BRACKET:
        low, high, nodes = micro(bracket[1]), micro(bracket[2]), int(bracket[3])
        if low >= high or int(bracket[4]) != budget or nodes + 1 <= budget:
            task.wrong(budget, f"the bracket is empty, or its budget isn't spent: {said!r}")
    else:
        task.wrong(budget, f"{said!r} with {status} is no answer")
    if not low <= task.optimum <= high:
        task.wrong(budget, f"{said!r}, and the least cost in millionths is {task.optimum}")
    if nodes % 2 == 0 or nodes - 1 > budget:
        task.wrong(budget, f"so many nodes can't be: {said!r}")
    return said.partition(" nodes ")[0], high, nodes


def solve(program, task, budget=None):
    """Has the instance searched, judges all that comes of it, and returns the number of nodes."""
    words = [*task.options, *([] if budget is None else [f"budget={budget}"])]
    random.shuffle(words)
    program.write(PLAN, BEFORE)
    program.write(CERTIFICATE, BEFORE)
    said, status = program.ask("solve", task.form, task.name, PLAN, CERTIFICATE, *words)
    claim, high, nodes = ends_of(task, task.usual if budget is None else budget, said, status)
    with open(program.at(PLAN)) as file:
        plan = file.read()
    if plan.splitlines()[1:2] != [claim]:
        task.wrong(budget, f"{said!r} is printed, and not what the plan's file says")
    if task.cost_of and task.cost_of(plan) != high:
        task.wrong(budget, f"{said!r} is printed, and the plan is another: {plan!r}")
    with open(program.at(CERTIFICATE), "rb") as file:
        found = len(NODE.findall(file.read()))
    if found != nodes:
        task.wrong(budget, f"{said!r} is printed, and the certificate has {found} nodes")
    checked = ("check", task.form, task.name, CERTIFICATE, *task.options)
    program.expect(f"yes {claim}\n", DONE, (task.shown, budget), *checked)
    return nodes


def costs():
    """Random costs of a step and a kind, with zeros among them."""
    step, most = random.choice([(MICRO, 3), (MICRO, 12), (MICRO, 1000), (1, 2 * MICRO), (MICRO // 8, 50)])
    zeros = random.choice([0, 0, 0.2, 0.5])
    return lambda: 0 if random.random() < zeros else step * random.randrange(most + 1)


def scattered(m, n):
    fixed, lane = costs(), costs()
    factor = random.choice([1, 1, 3])
    return [factor * fixed() for _ in range(m)], [[lane() for _ in range(n)] for _ in range(m)]


def greatest():
    """A random amount, mostly one of the greatest that there are."""
    return MAX_AMOUNT - random.choice([0, 1, random.randrange(10**6), random.randrange(MAX_AMOUNT)])


def large(m, n):
    return [greatest() for _ in range(m)], [[greatest() for _ in range(n)] for _ in range(m)]


def cover(m, n):
    """Sites of nearly one cost, and each customer near two or three of a few: no duals reach the cost where half of
    each site would do, so that a split is needed."""
    unit = random.choice([MICRO, 2 * MICRO, 10**9])
    far, extra = 3 * unit, random.choice([0, 0, unit // 10])
    few = random.sample(range(m), min(m, random.randrange(3, 7)))
    near = [random.sample(few, min(len(few), random.choice([2, 2, 2, 3]))) for _ in range(n)]
    fixed = [unit + random.randrange(extra + 1) for _ in range(m)]
    return fixed, [[0 if site in near[j] else far for j in range(n)] for site in range(m)]


def file_of(fixed, lanes):
    rows = (f"{site} {money(cost)} {' '.join(map(money, row))}\n" for site, (cost, row) in enumerate(zip(fixed, lanes), 1))
    return (f"{len(fixed)} {len(lanes[0])} 0\n" + "".join(rows)).encode()


def walked(program, text, fixed, lanes):
    """The task of an instance, with the least cost by the walk."""
    program.write("sites", text)
    said, status = program.ask("solve", "ufl", "sites")
    optimum = cost_of_plan(said, fixed, lanes)
    task = Task("ufl", "sites", text, optimum, (len(fixed), len(lanes[0])), lambda it: cost_of_plan(it, fixed, lanes))
    if status != DONE or optimum is None or said.splitlines()[1] != f"optimal {money(optimum)}":
        task.wrong(None, f"the walk says {said!r} with {status}")
    return task


def small(program):
    """Random instances; how many of them needed a split, and how many brackets came."""
    split = budgets = 0
    for place in range(FILES):
        kind = random.choice([scattered, scattered, cover, cover, cover, large])
        fixed, lanes = kind(random.randrange(2, 9), random.randrange(1, 11))
        task = walked(program, file_of(fixed, lanes), fixed, lanes)
        nodes = solve(program, task)
        split += nodes > 1
        tried = {random.randrange(2), random.randrange(nodes)} if nodes > 1 else {place % 2} if place % 10 == 0 else ()
        for budget in tried:
            solve(program, task, budget)
        budgets += len(tried)
    return f"{FILES} instances, of which {split} needed a split, at the cost of the walk; {budgets} with a small budget"


SITES = b"2 3 0\n1 10 1 2 9\n2 12 8 7 1\n"
GREATEST = MOST_DUALS // 5
NAMES = "sites", PLAN, CERTIFICATE
REFUSED = [("usage\n", USAGE, words) for words in [
    ("sites", PLAN), ("sites", PLAN, PLAN), ("sites", "sites", CERTIFICATE), ("sites", PLAN, "sites"),
    ("", PLAN, CERTIFICATE), ("sites", "", CERTIFICATE), ("sites", PLAN, ""), ("sites", "budget=1"),
    (*NAMES, "3"), (*NAMES, "budget"), (*NAMES, "budget="), (*NAMES, "budget=01"), (*NAMES, "budget=+1"),
    (*NAMES, "budget=-1"), (*NAMES, "budget=1.0"), (*NAMES, "budget=4294967296"), (*NAMES, "budget=9999999999"),
    (*NAMES, "budget=1", "budget=1"), (*NAMES, "Budget=1"), ("budget=1", *NAMES)]]
REFUSED += [("too large budget\n", TOO_LARGE, (*NAMES, f"budget={budget}")) for budget in (GREATEST + 1, 4294967295)]
REFUSED += [("bad input NotANumber line 2 word 2\n", BAD_INPUT, ("fault", PLAN, CERTIFICATE, f"budget={GREATEST + 1}")),
            ("read fault\n", READ_FAULT, ("nothing", PLAN, CERTIFICATE)),
            ("write fault\n", WRITE_FAULT, ("sites", "nowhere/plan", CERTIFICATE))]


def refuse(program, due, status, *words):
    """Stops where a search isn't refused as is due, or changes a file."""
    for name in (PLAN, CERTIFICATE):
        program.write(name, BEFORE)
    program.expect(due, status, words, "solve", *words)
    for name in (PLAN, CERTIFICATE):
        with open(program.at(name), "rb") as file:
            if file.read() != BEFORE:
                sys.exit(f"check: {words!r} is refused, and the file {name} changed")


def refused(program):
    """Words, budgets and files at fault."""
    program.write("sites", SITES)
    program.write("fault", SITES.replace(b"10", b"ten"))
    for due, status, words in REFUSED:
        refuse(program, due, status, "ufl", *words)
    program.expect("write fault\n", WRITE_FAULT, "no folder", "solve", "ufl", "sites", PLAN, "nowhere/certificate")
    task = Task("ufl", "sites", SITES, 22 * MICRO, (2, 3))
    for budget in (0, 1, GREATEST):
        solve(program, task, budget)
    return f"{len(REFUSED) + 1} refusals"


def told(program, folder):
    """The instances of a folder, with the usual budget and with small ones."""
    with open(os.path.join(folder, "best.tsv"), newline="") as file:
        optima = {row["instance"]: row["optimum"] for row in csv.DictReader(file, delimiter="\t")}
    names = [it for it in sorted(os.listdir(folder)) if it.endswith(".ufl") and optima.get(it)]
    for name in names:
        path = os.path.abspath(os.path.join(folder, name))
        with open(path, "rb") as file:
            words = words_of(file.read(1000))[0]
        task = Task("ufl", path, name, micro(optima[name]), [int(words[place][2]) for place in (0, 1)])
        for budget in (None, 0, 5):
            solve(program, task, budget)
    return f"{len(names)} instances of {folder} at the cost of its table"


def check(program, *folders):
    return "; ".join(["solve: " + small(program), refused(program), *(told(program, it) for it in folders)])


if __name__ == "__main__":
    main(check)
