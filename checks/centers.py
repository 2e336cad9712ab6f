"""Compares centers and cost curves of a built program with a plain walk over all plans: `centers.py PROGRAM [INSTANCES] [SEED]`.

Random small instances of all forms are asked for a center, most of them with a count, and some with a budget of a few nodes. The
radius has to be the least one with which some plan is feasible; the plan's file has to hold such a plan, with the costs of the
instance itself; the file `NEW` the own text of the instance without its lanes of that radius or more; and the certificate has to
have the yes of the plain reading of `verdicts.py` and of the program's own `check`, that this instance has no plan. A bracket has to
hold at both ends, to come only with the budget spent, and never where nothing hinders a plan. Then each instance has its curve drawn,
mostly over all counts from 0 on, where the cost of each count is compared with that of the walk over its plans. Words, files and
budgets at fault are refused, and leave the files as they were.
"""
import collections
import random
import re
import subprocess
import sys

from common import differs, main
from drafts import some_start
from instances import BAD_INPUT, DONE, NO_PLAN, TOO_LARGE
from own import file_at
from radii import below, best_radius, counted, is_hindered, radius_in
from solve import BRACKET, COST, INFEASIBLE, MOST_DUALS, READ_FAULT, USAGE, USUAL_BUDGET, WRITE_FAULT, micro
from trees import by_id, least_cost
from verdicts import verdict

INSTANCES = 2000
WRITTEN = PLAN, CERT, NEW = "p", "c", "n"
BEFORE = b"before\n" * 300
CENTER = re.compile(rf"center {COST}\n\Z")
OPEN = re.compile(rf"bracket {COST} (?:{COST}|none) at {COST} nodes ([0-9]+) budget ([0-9]+)\n\Z")
COUNT = re.compile(rf"count ([0-9]+) (?:optimal {COST}|(infeasible)|bracket {COST} (?:{COST}|none) nodes ([0-9]+) budget ([0-9]+))\n\Z")
# What has to come, so that the check doesn't become empty.
DUE = ["centers", "centers with capacities", "centers at no cost", "infeasible", "brackets with a plan", "brackets without one",
       "counts that are optimal", "counts that are infeasible", "counts with a bracket", "counts with a bracket without a plan"]


class Wrong(Exception):
    """What is wrong with an answer."""


def wrong_if(is_wrong, *why):
    if is_wrong:
        raise Wrong(" ".join(map(str, why)))


class Asked:
    """The program, and what came of it."""

    def __init__(self, program):
        self.program, self.found = program, collections.Counter()

    def one(self):
        """A random instance: a center, and a curve."""
        inst, form, text, options = some_start()
        self.program.write("a", text)
        m, n = len(inst.sites), len(inst.customers)
        usual = min(USUAL_BUDGET, MOST_DUALS // (m + n))
        budget = random.choice([0, 0, 1, 2, 5]) if random.random() < 0.5 else None
        given = [*options, *([] if budget is None else [f"budget={budget}"])]
        count = random.randint(0, m + 1) if random.random() < 0.6 else None
        words = ["center", form, "a", *WRITTEN, *mixed(given + [f"count={count}"] * (count is not None))]
        first = random.choice([0, 0, 0, random.randint(0, m + 1)])
        last = max(first, random.choice([m, m, m + 1, random.randint(0, m + 2)]))
        curve = ["curve", form, "a", str(first), str(last), *mixed(given)]
        try:
            shown = words
            self.center(inst if count is None else counted(inst, count), words, usual if budget is None else budget, budget is None)
            shown = curve
            self.curve(inst, curve, usual if budget is None else budget, budget is None)
        except Wrong as why:
            sys.exit(f"check: {text!r} with {shown}: {why}")

    def center(self, inst, words, budget, is_usual):
        for name in WRITTEN:
            self.program.write(name, BEFORE)
        said, status = self.program.ask(*words)
        plan, text, new = (file_at(self.program, name) for name in WRITTEN)
        best, told, opened = best_radius(inst), CENTER.match(said), OPEN.match(said)
        if told and status == DONE:
            radius = high = micro(told[1])
            claim, cut = f"radius {told[1]}", below(inst, radius)
            wrong_if(radius != best, f"{said!r}, and the best radius is {best}")
            self.found["centers with capacities"] += any(cap is not None for _, _, cap, _ in inst.sites)
            self.found["centers at no cost"] += radius == 0
            self.found["centers"] += 1
        elif said == "infeasible\n" and status == INFEASIBLE:
            high, claim, cut = NO_PLAN, "infeasible", inst
            wrong_if(best != NO_PLAN, f"{said!r}, and the best radius is {best}")
            self.found["infeasible"] += 1
        else:
            wrong_if(not opened or status != BRACKET, f"{said!r} with {status} is no answer")
            low, high = micro(opened[1]), micro(opened[2])
            claim, cut = f"bracket {opened[1]} {opened[2] or 'none'}", below(inst, low)
            self.bracket(inst, said, low, high, best, budget)
            wrong_if(is_usual, f"{said!r}: the usual budget is spent on a small instance")
        wrong_if(radius_in(inst, plan.decode(), claim) != high, f"{said!r}, and the plan is {plan!r}")
        wrong_if(new != cut.text(), f"{said!r}, and the instance that has no plan is {new!r}")
        due = verdict(by_id(cut), text)
        wrong_if(due != "yes infeasible", f"{said!r}, and the certificate is answered {due!r}: {text!r}")
        self.program.expect("yes infeasible\n", DONE, words, "check", "own", NEW, CERT)

    def bracket(self, inst, said, low, high, best, budget):
        opened = OPEN.match(said)
        at, nodes, given = micro(opened[3]), int(opened[4]), int(opened[5])
        wrong_if(not low <= best <= high or at <= low, f"{said!r}, and the best radius is {best}")
        wrong_if(given != budget or nodes % 2 == 0 or not nodes - 1 <= budget < nodes + 1, f"{said!r} with the budget {budget}")
        wrong_if(not is_hindered(inst), f"{said!r}, and nothing hinders a plan")
        most = max(inst.lanes.values(), default=0)
        wrong_if(at > high if opened[2] else at <= most, f"{said!r}, and the dearest lane costs {most}")
        self.found["brackets with a plan" if opened[2] else "brackets without one"] += 1

    def curve(self, inst, words, budget, is_usual):
        said, status = self.program.ask(*words)
        lines, due = said.splitlines(True), range(int(words[3]), int(words[4]) + 1)
        wrong_if(status != DONE or len(lines) != len(due), f"{said!r} with {status}")
        for count, line in zip(due, lines):
            told, now = COUNT.match(line), counted(inst, count)
            wrong_if(not told or int(told[1]) != count, f"the line {line!r} of the count {count}")
            least, kind = least_cost(now), "optimal" if told[2] else "infeasible" if told[3] else "bracket"
            if kind == "bracket":
                low, high, nodes = micro(told[4]), micro(told[5]), int(told[6])
                is_spent = int(told[7]) == budget and nodes % 2 == 1 and nodes - 1 <= budget < nodes + 1
                is_right = low <= least <= high and low < high and is_spent and not is_usual
                wrong_if(not is_right, f"{line!r} with the budget {budget}, and the least cost is {least}")
                self.found["counts with a bracket" + " without a plan" * (high == NO_PLAN)] += 1
            else:
                wrong_if(least != (micro(told[2]) if told[2] else NO_PLAN), f"{line!r}, and the least cost is {least}")
                self.found[f"counts that are {kind}"] += 1


def mixed(words):
    return random.sample(words, len(words))


FILES = b"2 3 0\n1 10 1 2 9\n2 12 8 7 1\n", b"2 2\ncapacity 7500\n10 .5\n6 6739.725 1.25\n6 3 4\n"
MOST = MOST_DUALS // 5
USAGES = [it.split(" ") for it in (
    "center ufl a p c", "center ufl a p c n x", "center ufl a p c p", "center ufl a a c n", "center ufl a p p n", "center ufl a p c a",
    "center ufl  p c n", "center ufl a  c n", "center ufl a p  n", "center ufl a p c ", "center UFL a p c n", "center ufl a p c n count=01",
    "center ufl a p c n count=", "center ufl a p c n count=-1", "center ufl a p c n count=3001", "center ufl a p c n count=1 count=1",
    "center ufl a p c n budget=01", "center ufl a p c n budget=1 budget=2", "center ufl a p c n capacity=1", "center ufl a p c n count",
    "center ufl a p c count=1 n", "center cap b p c n capacity=", "center ufl a p c n 1", "curve ufl a 1", "curve ufl a 1 2 3", "curve ufl a",
    "curve ufl a 2 1", "curve ufl a 01 2", "curve ufl a 1 02", "curve ufl a 1 3001", "curve ufl a -1 2", "curve ufl a 1 x", "curve ufl  1 2",
    "curve ufl a 1 2 count=1", "curve ufl a 1 2 capacity=1", "curve ufl a 1 2 budget=1 budget=1", "curve ufl a budget=1 1 2", "curve cab a 1 2")]
REFUSALS = [("too large budget\n", TOO_LARGE, f"center ufl a p c n budget={MOST + 1}"),
            ("too large budget\n", TOO_LARGE, f"curve ufl a 1 2 budget={MOST + 1}"),
            ("read fault\n", READ_FAULT, "center ufl nothing p c n"), ("read fault\n", READ_FAULT, "curve ufl nothing 1 2"),
            ("bad input BadWord line 1 word 1\n", BAD_INPUT, f"center own a p c n budget={MOST + 1}"),
            ("bad input BadWord line 1 word 1\n", BAD_INPUT, "curve own a 1 2"), ("write fault\n", WRITE_FAULT, "center ufl a nowhere/p c n"),
            ("bad input NeedCapacity line 2 word 1\n", BAD_INPUT, "center cap b p c n"),
            ("bad input NeedCapacity line 2 word 1\n", BAD_INPUT, "curve cap b 1 1")]
CURVES = [("count 0 infeasible\ncount 1 optimal 22.000000\ncount 2 optimal 26.000000\ncount 3 infeasible\n", f"ufl a 0 3 budget={MOST}"),
          ("count 1 infeasible\ncount 2 optimal 7504.750000\n", "cap b 1 2 capacity=6"), ("count 3000 infeasible\n", "ufl a 3000 3000")]


def refused(program):
    """Words, files and budgets at fault, and curves that are known; and what takes only a front of a curve."""
    for name, text in zip("ab", FILES):
        program.write(name, text)
    for due, status, words in [("usage\n", USAGE, it) for it in USAGES] + [(due, status, it.split()) for due, status, it in REFUSALS]:
        for name in WRITTEN:
            program.write(name, BEFORE)
        program.expect(due, status, words, *words)
        if any(file_at(program, name) != BEFORE for name in WRITTEN):
            sys.exit(f"check: {words} are refused, and a file changed")
    for due, words in CURVES:
        program.expect(due, DONE, words, "curve", *words.split())
    program.expect("center 2.000000\n", DONE, "the pair", "center", "ufl", "a", *WRITTEN)
    with open("/dev/full", "wb") as full:
        ended = subprocess.run([program.path, "curve", "ufl", "a", "1", "2"], cwd=program.folder, stdout=full).returncode
    if ended != WRITE_FAULT:
        differs("a full output", ("", ended), ("", WRITE_FAULT))
    return len(USAGES) + len(REFUSALS)


def check(program, instances=INSTANCES, seed="1"):
    random.seed(int(seed))
    asked = Asked(program)
    for _ in range(int(instances)):
        asked.one()
    many = refused(program)
    missing = [it for it in DUE if not asked.found[it]]
    if missing:
        sys.exit(f"check: no {missing} among {instances} instances")
    told = ", ".join(f"{asked.found[it]} {it}" for it in DUE)
    return f"centers: those of {instances} instances and their curves are the best of all plans: {told}; {many} words and files at fault"


if __name__ == "__main__":
    main(check)
