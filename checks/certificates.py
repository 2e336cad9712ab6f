"""Compares the verdicts of a built program with those of a plain reading of docs/FORMATS.md: `certificates.py PROGRAM`.

The reading stands in `verdicts.py`. Both are asked about a few certificates of the forms `ufl`, `cap`, `pmed` and `own`, with
prices of capacities and of the number of sites, whole knapsacks, rays, splits on lanes and sites that must be open or stay
closed: about all their proper prefixes, all deletions of one byte, and many random changes. Then about leaves of whole
knapsacks that are as large as is allowed, or one unit larger; and about random trees over random small instances, whose
splits may contradict each other and whose claims lie at the very cost at which a leaf closes and beside it;
and about the certificates of searches, which have to have the yes of both, with their numbers changed by little. The program
is asked besides about two files that are longer than any that is looked at.
"""
import random
import re
import sys
from collections import Counter

from capacities import Warehouses, some_network
from common import MICRO, differs, main, money, texts
from instances import Fault as FileFault
from own import CLOSED, FREE, OPEN, random_own
from solve import cover, file_of, scattered
from verdicts import Box, Instance, verdict

MAX_BYTES = 2**30
CHANGED, NUDGED, RANDOM, SEARCHES, DEPTH = 250, 100, 1500, 150, 3

PAIR = "2 3 0\n1 10 1 2 9\n2 12 8 7 1\n"
RING = "3 3 0\n1 2 0 0 9\n2 2 9 0 0\n3 2 0 9 0\n"
ROOMS = "2 2\n10 7500\n10 .5\n6 6739.725 1.25\n6 3 4\n"
NET = "3 3 1\n1 2 5\n2 3 7\n1 2 4\n"
HEAD = "dualoc-certificate 1\nsites {} customers {}\nclaim {}\n"
BEST = HEAD.format(2, 3, "optimal 22.000000") + "open 1\nserve 1 1 1\nleaf 1 0\nv 11000000 2000000 9000000\nu\nend\n"
SPLIT = (HEAD.format(3, 3, "optimal 4.000000") + "open 1 2\nserve 1 1 2\nsite 1\nleaf 1 0\nv 2000000 2000000 0\nu\n"
         "leaf 1 0\nv 0 0 2000000\nu\nend\n")
BOTH = (HEAD.format(3, 3, "bracket 2.000000 none") + "lane 1 2\nleaf 1 0\nv 2000000 0 1000000\nu\n"
        "site 1\nleaf 0 0\nv 1 0 0\nu\nleaf 1000 -5\nv 1000000000 0 2000000000\nu\nend\n")
PRICED = (HEAD.format(2, 2, "optimal 7504.750000") + "open 1 2\nserve 2 1\nsite 2\nleaf 0 0\nv 6000000 6000000\nu 1 1 2 1\n"
          "site 1\nleaf 0 0\nv 6000000 6000000\nu 2 1\nlane 1 2\nleaf 1000 0\nv 1250000000 3000000000\nu 1 250 2 40\n"
          "leaf 1000 0\nv 1250000000 3000000000\nu\nend\n")
WHOLE = HEAD.format(2, 2, "optimal 7504.750000") + "open 1 2\nserve 2 1\nleaf 1 0\nv 7500250000 7503000000\nwhole\nend\n"
RAYS = (HEAD.format(2, 2, "bracket 0.499986 none") + "site 2\nleaf 0 0\nv 1 1\nwhole\nlane 1 2\nlane 2 2\nleaf 0 0\nv 0 1\nwhole\n"
        "leaf 1000 5\nv 9 -7\nwhole\nleaf 1 0\nv 0 0\nu\nend\n")
COUNTED = HEAD.format(3, 3, "optimal 11.000000") + "open 2\nserve 2 2 2\nleaf 1 7500002\nv 7500001 3750001 7250000\nu\nend\n"
OWN = """dualoc-instance 2
sites 3 next 9
customers 2 next 6
count 0 3000
customer 2 6
customer 5 6
site 3 7500 10 open 6739.725 3
site 4 .5 10 free 1.25 4
site 8 0 none closed 0 0
end
"""
SETTLED = ("dualoc-certificate 2\nsites 3 customers 2\nmust-open 3\nmust-closed 8\nclaim optimal 7504.750000\nopen 3 4\nserve 4 3\n"
           "site 4\nleaf 0 0\nv 6000000 6000000\nu 3 1\nlane 4 5\n"
           "leaf 1000 0\nv 1250000000 3000000000\nu\nleaf 1000 0\nv 1754000000 4504000000\nu 4 84\nend\n")
FILES = [("ufl", PAIR, BEST), ("ufl", RING, SPLIT), ("ufl", RING, BOTH), ("cap", ROOMS, PRICED),
         ("cap", ROOMS, WHOLE), ("cap", ROOMS, RAYS), ("uncap", ROOMS, WHOLE), ("pmed", NET, COUNTED),
         ("own", OWN, SETTLED)]
# A capacity, the demands of three customers, and whether whole knapsacks of this capacity are small, in a file and a certificate.
LIMITS = [("1", ".4", ".300001", ".5", True), ("1.000001", ".4", ".300001", ".5", False), ("9", ".4", ".300001", ".299999", True),
          ("9", ".4", ".300001", ".3", False), ("1000000.999999", "999999", "1", "1", True), ("1000001", "999999", "1", "1", False),
          ("9", "0", "0", "0", True), ("0", "1000001", ".000001", "0", True)]
LIMITED = "2 3\n{} 7\n.5 .5\n{} 1 0\n{} 2 .25\n{} 3 .25\n"
LIMIT = HEAD.format(2, 3, "bracket 0.000001 none") + "leaf 1 0\nv 2000000 3000000 4000000\nwhole\nend\n"
CHANGES = [(b"22.000000", b"21.000000"), (b"serve 1 1 1", b"serve 1 1 2"), (b" 2000000", b" 02000000"),
           (b"u\n", b"u 1 5\n"), (b"end\n", b""), (b"end\n", b"end\nx\n"), (b"open 1", b"open 7"),
           (b"customers 3", b"customers 4"), (b"9000000", b"8000000"), (b"9000000", b"9" * 100),
           (b"open 1", b"open " + b"1" * 40 + b" " + b"2" * 40), (b"serve 2 1", b"serve 1 1"), (b"u 2 1", b"u 2 0"),
           (b"u 2 1", b"u 2 " + b"9" * 18), (b"u 2 1", b"u 3 1"), (b"u 2 1", b"u 2 -1"), (b"open 2", b"open 1 2"),
           (b"must-open 3", b"must-open 4"), (b"must-open 3", b"must-open"), (b"must-open 3", b"must-open 3 8"),
           (b"must-open 3", b"must-open 3 9"), (b"must-open 3", b"must-open 8 3"), (b"must-open", b"must-opened"),
           (b"must-closed 8", b"must-closed 4294967296"), (b"-closed 8", b"-closed 08"), (b"open 3 4", b"open 4"),
           *[(b"whole\n", line + b"\n") for line in (b"", b"u", b" whole", b"whole ", b"\twhole", b"whole\r", b"whole 1", b"whole 0 5",
                                                    b"whole whole", b"whole u", b"u whole", b"Whole", b"whol", b"wholes", b"v 1 1")],
           (b"u\n", b"whole\n"), (b"u 2 1\n", b"whole\n"), (b"leaf 0 0", b"leaf 0 1"), (b"7503000000", b"7502999999"),
           (b"open 3 4", b"open 3 4 8"), (b"open 3 4", b"open 3 4 9"), (b"open 3 4\nserve 4 3", b"open 4\nserve 4 4")]
PIECES = b" \t\r\n+-0123456789.xnoneu\0\xff"
# What has to be among the verdicts, so that the check doesn't become empty.
DUE = ["yes optimal", "yes infeasible", "yes bracket", "no LeafOpen", "no CostDiffers", "ServedByClosed", "NoLane",
       "OverCapacity", "SiteCount", "StatusBroken", "no UnknownId", "no OutOfRange", "no NotCanonical", "no WrongStatus"]


class Verdicts:
    """The program, asked about certificates of one instance after the other, and which verdicts came."""

    def __init__(self, program):
        self.program, self.found, self.traits = program, Counter(), Counter()

    def take(self, form, text, given=None):
        """Has the certificates that follow be those of this file."""
        self.form, self.text = form, text
        self.options = [] if given is None else [f"capacity={money(given)}"]
        self.inst = Instance.of(form, text, given)
        self.program.write("a", text)

    def compare(self, text):
        """Stops where the program doesn't answer the certificate with the line that is due."""
        due = verdict(self.inst, text)
        self.program.write("k", text)
        shown = (self.form, self.text, self.options, text)
        self.program.expect(due + "\n", 0 if due.startswith("yes") else 3, shown, "check", self.form, "a", "k", *self.options)
        self.found.update(it for it in DUE if it in due)
        return due


def some_duals(inst):
    """Duals of scale 1 and more around the costs, or small numbers of scale 0; by prices or by whole knapsacks."""
    if random.random() < 0.4:
        q, nu, v, _ = some_priced_duals(inst)
        return q, nu, [random.choice([0, 1, 1]) for _ in v] if q == 0 and random.random() < 0.8 else v, None
    return some_priced_duals(inst)


def some_priced_duals(inst):
    """The same by prices."""
    capped = [site for site in inst.sites if inst.capacities[site] is not None]
    q = random.choice([0, 1, 1, 1000, 10**6, random.randrange(1, 3000)])
    if q == 0:
        v = [random.choice([0, 1, demand, demand]) for demand in inst.demands.values()]
        prices = {site: random.choice([0, 1, 1, 1, 2]) for site in capped}
        nu = random.choice([0, 0, 1, -1])
    else:
        share = q * (sum(inst.fixed.values()) // (inst.m * inst.n) + 1)
        costs = [[inst.lanes[s][c] for s in inst.sites if inst.lanes[s][c] is not None] or [0] for c in inst.customers]
        v = [q * random.choice(column) + random.choice([0, 0, share, random.randrange(-share, 2 * share)]) for column in costs]
        most = lambda site: q * inst.fixed[site] // max(1, inst.capacities[site]) + q // 4 + 2
        prices = {site: random.choice([0, random.randrange(most(site))]) for site in capped}
        nu = random.choice([0, 0, 0, share, -share, random.randrange(-share, share)])
    return q, nu, v, {site: price for site, price in prices.items() if price}


def some_tree(inst, path, depth, leaves):
    """The lines of a random tree; its leaves are added, each with its path and duals."""
    if depth == 0 or random.random() < 0.3:
        q, nu, v, u = duals = some_duals(inst)
        leaves.append((path, duals))
        third = "whole" if u is None else "u" + "".join(f" {site} {price}" for site, price in u.items())
        return f"leaf {q} {nu}\nv {' '.join(map(str, v))}\n{third}\n"
    site, customer = random.choice(inst.sites), random.choice(inst.customers)
    if random.random() < 0.5:
        line, steps = f"site {site}\n", [("closed", site), ("opened", site)]
    else:
        line, steps = f"lane {site} {customer}\n", [("no", site, customer), ("yes", site, customer)]
    return line + "".join(some_tree(inst, path + (step,), depth - 1, leaves) for step in steps)


def some_plan(inst):
    """A random plan, mostly over lanes that are there, with what it costs."""
    some = random.randint(1, inst.m) if random.random() < 0.3 else max(1, min(inst.most, inst.m))
    opened = sorted(random.sample(inst.sites, some))
    serve = [random.choice(opened if random.random() < 0.98 else inst.sites) for _ in range(inst.n)]
    lanes = [inst.lanes[s][c] or 0 for c, s in zip(inst.customers, serve)]
    return opened, serve, sum(inst.fixed[s] for s in opened) + sum(lanes)


def head_of(inst, claim):
    """The lines up to the claim, with those of statuses where not all sites are free."""
    head = HEAD.format(inst.m, inst.n, claim)
    if inst.of_status(FREE) == [*inst.sites]:
        return head
    kinds = ("must-open", OPEN), ("must-closed", CLOSED)
    lines = "".join(" ".join([word, *map(str, inst.of_status(status))]) + "\n" for word, status in kinds)
    return head.replace("certificate 1", "certificate 2").replace("claim", lines + "claim")


def some_certificate(inst, traits):
    """A random certificate whose claim is near the greatest low end that its tree shows."""
    leaves = []
    tree = some_tree(inst, (), random.randrange(DEPTH + 1), leaves)
    bounds = [(Box(inst, path).bound(*duals), duals[0]) for path, duals in leaves]
    ends = [(bound - 1) // q + 1 for bound, q in bounds if q > 0]
    low = max(0, min(ends, default=random.randrange(10 * MICRO)) + random.choice([0, 0, 0, 1, 1, -1]))
    traits["prices"] += any(duals[3] for _, duals in leaves)
    rays = [duals for (_, duals), (bound, q) in zip(leaves, bounds) if q == 0 and bound >= 1]
    traits["rays"] += any(duals[3] is not None for duals in rays)
    traits["whole knapsacks"] += any(duals[3] is None for _, duals in leaves)
    traits["rays of whole knapsacks"] += any(duals[3] is None for duals in rays)
    traits["lanes"] += "lane" in tree
    traits["counts"] += any(duals[1] for _, duals in leaves)
    traits["statuses"] += inst.of_status(FREE) != [*inst.sites]
    opened, serve, cost = some_plan(inst)
    plan = f"open {' '.join(map(str, opened))}\nserve {' '.join(map(str, serve))}\n"
    kind = random.choice(["none", "none", "high", "optimal", "infeasible"] if ends else ["infeasible", "none"])
    claim, plan = {"none": (f"bracket {money(low)} none", ""), "high": (f"bracket {money(low)} {money(cost)}", plan),
                   "optimal": (f"optimal {money(random.choice([cost, cost, low]))}", plan), "infeasible": ("infeasible", "")}[kind]
    return (head_of(inst, claim) + plan + tree + "end\n").encode()


def some_file():
    """A random small instance: its form, its text, and what the word `capacity` stands for in it."""
    kind = random.choice(["cap", "cap", "pmed", "ufl", "uncap", "own", "own"])
    if kind == "own":
        return kind, random_own().text(), None
    if kind in ("cap", "uncap"):
        task = Warehouses()
        return kind, task.text(), task.option if kind == "cap" else None
    if kind == "pmed":
        return kind, some_network(), None
    fixed, lanes = random.choice([scattered, cover])(random.randrange(2, 6), random.randrange(1, 6))
    return kind, file_of(fixed, lanes), None


def take_some(verdicts):
    """Has the verdicts be on a random instance; a network whose walks cost too much is none."""
    while True:
        try:
            return verdicts.take(*some_file())
        except FileFault:
            continue


def nudged(text):
    """The text with one of its numbers, of the claim or the tree, changed by little, or two of its ids exchanged."""
    spots = [it for it in re.finditer(rb"-?[0-9]+(\.[0-9]+)?", text) if it.start() > text.index(b"claim")]
    spot = random.choice(spots)
    if spot[1]:
        number = money(max(0, int(spot[0].replace(b".", b"")) + random.choice([1, -1]))).encode()
    else:
        number = str(int(spot[0]) + random.choice([1, -1, 1, -1, 1000, -1000])).encode()
    return text[:spot.start()] + number + text[spot.end():]


def searched(verdicts, program):
    """The certificate of a search, with a budget that may be too small, has the yes of both; and then its changes are compared."""
    budget = [] if random.random() < 0.6 else [f"budget={random.randrange(6)}"]
    said, status = program.ask("solve", verdicts.form, "a", "plan", "proof", *verdicts.options, *budget)
    with open(program.at("proof"), "rb") as file:
        text = file.read()
    due = verdicts.compare(text)
    if status > 2 or due != "yes " + said.partition(" nodes ")[0]:
        differs((verdicts.form, verdicts.text, text), (said, status), (due, 0))
    for _ in range(8):
        verdicts.compare(nudged(text))


def check(program):
    verdicts = Verdicts(program)
    for form, text, certificate in FILES:
        verdicts.take(form, text.encode())
        original = certificate.encode()
        for changed in [original.replace(old, new) for old, new in CHANGES] + [nudged(original) for _ in range(NUDGED)]:
            verdicts.compare(changed)
        for changed in texts(original, PIECES, CHANGED):
            verdicts.compare(changed)
    for *words, small in LIMITS:
        verdicts.take("cap", LIMITED.format(*words).encode())
        due = verdicts.compare(LIMIT.encode())
        if ("OutOfRange" in due) == small:
            differs((verdicts.text, LIMIT), (due, 0), ("small" if small else "not small", 0))
    # Longer than the limit: a first line with a fault, and one without an end. What follows is a hole in the file.
    for front, due, status in [(b"x\n", "no BadLine line 1\n", 3), (b"x", "too large certificate\n", 8)]:
        program.write("k", front)
        with open(program.at("k"), "r+b") as file:
            file.truncate(MAX_BYTES + 1)
        program.expect(due, status, front, "check", verdicts.form, "a", "k")
    for _ in range(RANDOM):
        take_some(verdicts)
        verdicts.compare(some_certificate(verdicts.inst, verdicts.traits))
    for _ in range(SEARCHES):
        take_some(verdicts)
        searched(verdicts, program)
    missing = [it for it in [*DUE, *verdicts.traits] if not (verdicts.found + verdicts.traits)[it]]
    if missing or len(verdicts.traits) < 5:
        sys.exit(f"check: no verdict among {program.asked} has {missing}")
    told = ", ".join(f"{count} with {name}" for name, count in verdicts.traits.items())
    return f"certificates: {program.asked - SEARCHES} verdicts agree, {SEARCHES} of them on searches; of {RANDOM} random trees {told}"


if __name__ == "__main__":
    main(check)
