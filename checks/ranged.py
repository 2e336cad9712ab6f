"""A plain reading of what docs/RANGES.md says of a range, for `ranges.py`: at which amounts a certificate still proves its plan; and
random changes of certificates that prove no less."""
import random
import re

import edits
from common import money
from instances import MAX_AMOUNT
from own import Instance
from solve import micro
from trees import by_id, tree_in
from verdicts import verdict

# So many amounts are gone through, from an amount that is no greater than the first number.
NEAR, MOST = 12, 200
CLAIM = re.compile(rb"(?m)^claim optimal (.*)$")


def few_millionths():
    """A small instance whose costs are a few millionths each."""
    m, n, most = random.randint(1, 4), random.randint(1, 4), random.randint(1, 9)
    cost, room = lambda: random.randint(0, most), lambda: random.choice([None, None, 1, 2, 3])
    rows = [[cost() if random.random() < 0.9 else None for _ in range(n)] for _ in range(m)]
    inst = Instance.numbered([cost() for _ in range(m)], rows, [room() for _ in range(m)], [random.randint(0, 2) for _ in range(n)])
    return inst, "own", inst.text(), []


class Proof:
    """A certificate of an optimal plan: its instance, its text, and the plan with its cost."""

    def __init__(self, inst, text):
        self.inst, self.text, self.cost = inst, text, micro(CLAIM.search(text)[1].decode())
        _, (self.opened, self.serve) = tree_in(text, [c for c, _ in inst.customers])


class Cost:
    """What it costs to open a site, or to serve a customer from it: the amount, and whether the plan pays it."""

    def __init__(self, proof, site, customer=None):
        self.proof, self.site, self.customer = proof, site, customer
        if customer is None:
            self.now = next(fixed for s, fixed, *_ in proof.inst.sites if s == site)
            self.is_paid = site in proof.opened
        else:
            self.now = proof.inst.lanes[site, customer]
            self.is_paid = proof.serve[customer] == site

    def moved(self, amount):
        """The instance with another amount in its place, the certificate with what the plan then costs, and the verdict on both."""
        inst, proof = self.proof.inst, self.proof
        lane = () if self.customer is None else (self.customer,)
        inst, _ = (edits.set_lane if lane else edits.set_fixed)(inst, self.site, *lane, amount)
        cost = proof.cost + (amount - self.now if self.is_paid else 0)
        text = CLAIM.sub(f"claim optimal {money(cost)}".encode(), proof.text)
        return inst, text, verdict(by_id(inst), text)

    def stands(self, amount):
        return self.moved(amount)[2].startswith("yes optimal ")

    def scanned(self):
        """The range, where its amounts are few, or go on up to the greatest amount; else nothing."""
        if self.now > NEAR:
            return None
        least = greatest = self.now
        while least > 0 and self.stands(least - 1):
            least -= 1
        while greatest < MOST and self.stands(greatest + 1):
            greatest += 1
        if greatest == MOST:
            greatest = MAX_AMOUNT
        return (least, greatest) if self.stands(greatest) else None


def refusal(inst, site, customer=None):
    """The line of a cost that isn't there; nothing where it is."""
    if all(s != site for s, *_ in inst.sites):
        return "refused NoSite\n"
    if customer is not None and customer not in dict(inst.customers):
        return "refused NoCustomer\n"
    return "refused NoLane\n" if customer is not None and (site, customer) not in inst.lanes else None


def leaf_of(lines, k):
    """The scale, the price of the number of sites, the numbers of the customers, and the prices of capacities or `whole`."""
    q, nu = map(int, lines[k].split()[1:])
    return q, nu, [*map(int, lines[k + 1].split()[1:])], lines[k + 2]


def finer(q, nu, v, last):
    """The leaf at a finer scale, with a little less offered by one of the customers."""
    by = random.choice([2, 3, 1000])
    if q == 0 or q * by > 10**6:
        return q, nu, v, last
    v = [it * by for it in v]
    v[random.randrange(len(v))] -= random.choice([0, 1, by // 2, by - 1])
    words = last.split()
    prices = " ".join(str(int(it) * (by if k % 2 else 1)) for k, it in enumerate(words[1:]))
    return q * by, nu * by, v, f"{words[0]} {prices}".strip()


def varied(inst, text):
    """The certificate with one of its leaves changed: split in two alike, with whole knapsacks, or finer. It may no longer be accepted."""
    lines = text.decode().split("\n")
    k = random.choice([k for k, line in enumerate(lines) if line.startswith("leaf ")])
    leaf = lines[k:k + 3]
    kind = random.choice(["site", "site", "lane", "whole", "finer"])
    if kind in ("site", "lane"):
        ids = [random.choice(inst.sites)[0], random.choice(inst.customers)[0]][:1 if kind == "site" else 2]
        changed = [" ".join(map(str, [kind, *ids])), *leaf, *leaf]
    elif kind == "whole":
        changed = [*leaf[:2], "whole"]
    else:
        q, nu, v, last = finer(*leaf_of(lines, k))
        changed = [f"leaf {q} {nu}", f"v {' '.join(map(str, v))}", last]
    return "\n".join([*lines[:k], *changed, *lines[k + 3:]]).encode()
