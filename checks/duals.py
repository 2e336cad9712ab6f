"""Compares the duals that a built program prints with a literal reading of docs/DEFINITIONS.md: `duals.py PROGRAM`.

The reading adds up every slack anew, looks at all lanes of a customer each time, and goes on with rounds until one
changes nothing. Both are asked about random instances of up to 6 sites and 8 customers, with many equal costs, with
costs of 0, and with amounts of six decimals, and about some larger ones.
"""
import random

from common import MICRO, main, money

DONE = 0


class Ascent:
    """The ascent at the root from duals of 0, at scale 1: `fixed` and `lanes` (by site, then customer) in millionths, and
    `None` where a lane isn't allowed."""

    def __init__(self, fixed, lanes):
        self.fixed, self.lanes = fixed, lanes
        self.sites, self.customers = range(len(fixed)), range(len(lanes[0]))
        self.v = [0] * len(self.customers)
        for j in self.customers:
            self.v[j] = max(self.v[j], min(self.levels(j).values(), default=0))
        while self.round():
            pass

    def levels(self, j):
        """The levels of a customer's allowed lanes, by site."""
        return {i: self.lanes[i][j] for i in self.sites if self.lanes[i][j] is not None}

    def slack(self, i):
        return self.fixed[i] - sum(max(0, self.v[j] - lane) for j, lane in enumerate(self.lanes[i]) if lane is not None)

    def round(self):
        """Whether a dual rose in the round."""
        before = list(self.v)
        for j in self.customers:
            self.raise_dual(j)
        return self.v != before

    def raise_dual(self, j):
        levels = self.levels(j)
        reached = [self.slack(i) for i, level in levels.items() if level <= self.v[j]]
        if not levels or any(slack <= 0 for slack in reached):
            return
        above = [level - self.v[j] for level in levels.values() if level > self.v[j]]
        self.v[j] += min(reached + above)

    def text(self):
        slacks = [self.slack(i) for i in self.sites]
        lines = [f"bound {money(sum(self.v) + sum(min(0, slack) for slack in slacks))}"]
        lines += [f"customer {j + 1} {money(self.v[j])}" for j in self.customers]
        lines += [f"site {i + 1} {money(slacks[i])}" for i in self.sites]
        return "".join(line + "\n" for line in lines)


def instance(sites, customers, most):
    unit = random.choice([1, MICRO, MICRO // 4])
    amount = lambda: random.randrange(most + 1) * unit
    return [amount() for _ in range(sites)], [[amount() for _ in range(customers)] for _ in range(sites)]


def file_of(fixed, lanes):
    rows = (f"{i + 1} {money(fixed[i])} {' '.join(map(money, lanes[i]))}\n" for i in range(len(fixed)))
    return (f"{len(fixed)} {len(lanes[0])} 0\n" + "".join(rows)).encode()


def check(program):
    sizes = [(random.randrange(1, 7), random.randrange(1, 9)) for _ in range(1500)] + [(12, 40), (40, 25), (25, 60)]
    for sites, customers in sizes:
        fixed, lanes = instance(sites, customers, random.choice([3, 12, 1000]))
        program.write("sites.txt", file_of(fixed, lanes))
        program.expect(Ascent(fixed, lanes).text(), DONE, (fixed, lanes), "duals", "ufl", "sites.txt")
    return f"duals: {program.asked} instances have the duals, the slacks and the bound of a plain reading of the ascent"


if __name__ == "__main__":
    main(check)
