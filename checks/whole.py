"""Compares searches in which whole knapsacks are on from the first box on with all plans there are:
`whole.py PROGRAM [FILES] [SEED]`.

A search takes knapsacks whole only where the instance is large enough and long to solve. So a program is built for this check
alone, without proofs, whose searches don't wait: its strategy is `SearchStrategy::of_whole`, and all else of the program is the
repository's. It searches random warehouse files of up to 4 sites and 6 customers, whose capacities are mostly such that the
customers just fit, or just don't. A plain walk goes over all ways to serve the customers, and what the search answers is judged
as in `capacities.py`. To each certificate the program that is checked and the plain reading of certificates have to say yes; and
of what comes of it when a number is changed by little, or a leaf gets the other form, both have to say the same.

Some of the files have knapsacks that aren't small, and the searches of these must do without.
"""
import random
import re
import sys

from capacities import Warehouses, loads_of
from certificates import Verdicts, nudged
from common import Program, differs, main
from instances import NO_PLAN
from programs import built, change, copied
from solve import CERTIFICATE, PLAN, solve

MOST_CUSTOMERS, MOST_BUDGET = 6, 5
# How the program's search makes its strategy, and how the one that is built for this check does.
SEARCH, USUAL, WHOLE = "crates/dualoc_cli/src/search.rt", r"SearchStrategy::of\(alloc, inst, &order, None\)", "SearchStrategy::of_whole(alloc, inst, &order)"
THIRD = re.compile(rb"(?m)^(?:u.*|whole)$")
# So many changes of each certificate with whole knapsacks are compared.
NUDGES = 3


class Tight(Warehouses):
    """A random warehouse file; a few have demands without a unit that makes their knapsacks small."""

    def __init__(self):
        super().__init__(MOST_CUSTOMERS)

    @staticmethod
    def some_demands(n, unit):
        if random.random() < 0.05:
            return [random.randrange(1, 3 * 10**6) for _ in range(n)]
        return Warehouses.some_demands(n, unit)

    def some_rooms(self, m, unit):
        """Mostly what some way to serve the customers needs, and up to the demand of one customer more."""
        if random.random() < 0.3:
            return super().some_rooms(m, unit)
        loads = loads_of([random.randrange(m) for _ in self.demands], self.demands, m)
        return [load + random.randrange(max(self.demands) + 1) for load in loads]


def turned(text):
    """The text with one of its leaves in the other form, without prices."""
    line = random.choice([*THIRD.finditer(text)])
    return text[:line.start()] + (b"u" if line[0] == b"whole" else b"whole") + text[line.end():]


class Found:
    """The searches of a program, the verdicts on what they leave, and what came of them."""

    def __init__(self, searches, program):
        self.searches, self.verdicts = searches, Verdicts(program)
        self.files = self.split = self.impossible = self.taken = self.leaves = self.large = self.small = 0

    def search(self, file):
        task = file.task()
        self.verdicts.take("cap", file.text(), file.option)
        self.searches.write(task.name, task.shown)
        nodes = solve(self.searches, task)
        if nodes >= task.usual:
            task.wrong(None, "the usual budget is spent on a small instance")
        taken = self.judge(file)
        self.files, self.split, self.impossible = self.files + 1, self.split + (nodes > 1), self.impossible + (task.optimum == NO_PLAN)
        self.taken, self.leaves, self.large = self.taken + (taken > 0), self.leaves + taken, self.large + (not self.verdicts.inst.has_small_knapsacks())
        if nodes > 1 and random.random() < 0.5:
            solve(self.searches, task, random.randrange(MOST_BUDGET + 1))
            self.judge(file)
            self.small += 1

    def judge(self, file):
        """Both say yes to what a search claims, and the same of changes of its certificate. How many of its leaves take whole
        knapsacks."""
        with open(self.searches.at(PLAN)) as plan, open(self.searches.at(CERTIFICATE), "rb") as certificate:
            claim, text = plan.read().splitlines()[1], certificate.read()
        verdict = self.verdicts.compare(text)
        if verdict != f"yes {claim}":
            differs((file.text(), file.option, text), (verdict, None), (f"yes {claim}", None))
        taken = len(re.findall(rb"(?m)^whole$", text))
        for _ in range(NUDGES if taken else 0):
            self.verdicts.compare(nudged(text))
        if taken or random.random() < 0.1:
            self.verdicts.compare(turned(text))
        return taken

    def told(self):
        if min(self.split, self.impossible, self.large, self.small) == 0 or self.taken < self.files // 10:
            sys.exit(f"check: of {self.files} files too few are of use: {vars(self)}")
        return (f"whole: {self.files} warehouse files at the least cost, of which {self.split} needed a split, {self.impossible} "
                f"have no plan and {self.large} no small knapsacks; whole knapsacks closed {self.leaves} leaves, of {self.taken} "
                f"files; {self.small} with a small budget; {self.verdicts.program.asked} verdicts agree")


def check(program, files="2000", seed="1"):
    random.seed(int(seed))
    top = copied(program.folder)
    change(top, SEARCH, USUAL, WHOLE)
    found = Found(Program(built(top), program.folder), program)
    for _ in range(int(files)):
        found.search(Tight())
    return found.told()


if __name__ == "__main__":
    main(check)
