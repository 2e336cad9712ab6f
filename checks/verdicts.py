"""A plain reading of what docs/FORMATS.md says of certificates: the verdict on a text. It goes over the whole list of a
certificate's lines, and adds up every bound anew; of whole knapsacks it keeps a table of all weights that a set may have."""
import math
import re

from common import money
from instances import read as read_ufl
from networks import read as read_network
from own import CLOSED, FREE, OPEN, read as read_own
from warehouses import Warehouses

MAX_COST, MAX_ID, MAX_SCALE, MAX_VALUE, MAX_PRICE = 8 * 10**18, 2**32 - 1, 10**6, 10**24, 10**18
MOST_SITES, MOST_CUSTOMERS, MAX_UNITS = 3000, 5000, 10**6
NUMBER, PLAIN_NUMBER = re.compile(rb"[-+]?[0-9]+\Z"), re.compile(rb"(0|-?[1-9][0-9]*)\Z")
COST, PLAIN_COST = re.compile(rb"[0-9]+\.[0-9]+\Z"), re.compile(rb"(0|[1-9][0-9]*)\.[0-9]{6}\Z")


class Fault(Exception):
    """The line that the checker prints."""


class Instance:
    """Costs, capacities, demands and statuses by the ids of sites and customers, all amounts in millionths; `None` where there
    is no capacity, or no lane. Ids are 1, 2, 3 and so on where none are given."""

    def __init__(self, fixed, lanes, capacities=None, demands=None, least=0, most=MOST_SITES, statuses=None, sites=None, customers=None):
        self.least, self.most, self.m, self.n = least, most, len(fixed), len(lanes[0])
        self.sites = sites or range(1, self.m + 1)
        self.customers = customers or range(1, self.n + 1)
        self.fixed = dict(zip(self.sites, fixed))
        self.lanes = {site: dict(zip(self.customers, row)) for site, row in zip(self.sites, lanes)}
        self.capacities = dict(zip(self.sites, capacities or [None] * self.m))
        self.demands = dict(zip(self.customers, demands or [0] * self.n))
        self.statuses = dict(zip(self.sites, statuses or [FREE] * self.m))

    def of_status(self, status):
        return [site for site in self.sites if self.statuses[site] == status]

    def has_small_knapsacks(self):
        total, unit = sum(self.demands.values()), math.gcd(*self.demands.values())
        return total == 0 or all(cap is None or min(cap, total) // unit <= MAX_UNITS for cap in self.capacities.values())

    @staticmethod
    def of(form, text, given=None):
        """The instance of a file of a form; given is what the word `capacity` stands for, in millionths."""
        if form == "ufl":
            return Instance(*read_ufl(text))
        if form == "pmed":
            n, p, costs = read_network(text)
            vertices = range(1, n + 1)
            return Instance([0] * n, [[costs.get((a, b)) for b in vertices] for a in vertices], least=p, most=p)
        if form == "own":
            found = read_own(text)
            sites, fixed, capacities, statuses = map(list, zip(*found.sites))
            customers, demands = map(list, zip(*found.customers))
            return Instance(fixed, [found.row(site) for site in sites], capacities, demands, *found.count, statuses, sites, customers)
        found = Warehouses(text, form, given)
        return Instance(found.fixed, found.lanes, found.capacities if form == "cap" else None, found.demands)


class Box:
    """What statuses and the splits above a leaf settle, these as pairs of a word and the ids behind it."""

    def __init__(self, inst, path):
        self.inst, self.path = inst, path
        self.called = {step[1] for step in path if step[0] in ("opened", "yes")} | {*inst.of_status(OPEN)}
        self.closed = {step[1] for step in path if step[0] == "closed"} | {*inst.of_status(CLOSED)}

    def allows(self, site, customer):
        capacity = self.inst.capacities[site]
        fits = capacity is None or self.inst.demands[customer] <= capacity
        barred = ("no", site, customer) in self.path or any(
            step[0] == "yes" and step[2] == customer and step[1] != site for step in self.path)
        has_lane = self.inst.lanes[site][customer] is not None
        return has_lane and fits and not barred and site not in self.closed and not self.called & self.closed

    def best_set(self, site, q, v):
        """The greatest sum over a set of customers whom the site may serve together, by a table of weights."""
        inst, capacity, best = self.inst, self.inst.capacities[site], {0: 0}
        for customer, value in zip(inst.customers, v):
            if self.allows(site, customer):
                gain = value - q * inst.lanes[site][customer]
                for weight, worth in [*best.items()]:
                    more = weight + inst.demands[customer]
                    if capacity is None or more <= capacity:
                        best[more] = max(best.get(more, worth + gain), worth + gain)
        return max(best.values())

    def slack(self, site, q, nu, v, u):
        """By the prices `u` of capacities, or by whole knapsacks where there are none."""
        inst = self.inst
        if u is None:
            return q * inst.fixed[site] + nu - self.best_set(site, q, v)
        price = u.get(site, 0)
        slack = q * inst.fixed[site] + nu - price * (inst.capacities[site] or 0)
        for customer, value in zip(inst.customers, v):
            if self.allows(site, customer):
                slack -= max(0, value - q * inst.lanes[site][customer] - price * inst.demands[customer])
        return slack

    def bound(self, q, nu, v, u):
        total = sum(v) - nu * (self.inst.most if nu >= 0 else self.inst.least)
        for site in self.inst.sites:
            if site not in self.closed:
                slack = self.slack(site, q, nu, v, u)
                total += slack if site in self.called else min(0, slack)
        return total


def closes(bound, q, target):
    """Whether a leaf closes, against a cost or without one."""
    return bound >= 1 if q == 0 else target is not None and bound > q * (target - 1)


class Reader:
    """The lines of a text, one behind the other, with the tests of their words."""

    def __init__(self, text):
        self.lines = text.split(b"\n")
        self.number = 0

    def fault(self, kind):
        raise Fault(f"no {kind} line {self.number}")

    def next(self):
        self.number += 1
        if self.number == len(self.lines):
            self.fault("Ended")
        self.line = self.lines[self.number - 1]
        return [word for word in re.split(rb"[ \t\r]+", self.line) if word]

    def numbers(self, words, args, rising=False):
        if not all(NUMBER.match(arg) for arg in args):
            self.fault("BadLine")
        values = [int(arg) for arg in args]
        falls = rising and any(a >= b for a, b in zip(values, values[1:]))
        if self.line != b" ".join(words) or not all(PLAIN_NUMBER.match(arg) for arg in args) or falls:
            self.fault("NotCanonical")
        return values

    def ids(self, values, *known):
        """Ids, which have to be in the instance: all of sites, or each of another kind."""
        if any(not 0 <= value <= MAX_ID for value in values):
            self.fault("OutOfRange")
        if any(value not in ids for value, ids in zip(values, known * len(values) if len(known) == 1 else known)):
            self.fault("UnknownId")

    def fixed(self, words, due):
        if words != due:
            self.fault("BadLine")
        if self.line != b" ".join(words):
            self.fault("NotCanonical")


def read_claim(reader):
    words = reader.next()
    costs = {3: words[2:], 4: words[2:3] if words[3:] == [b"none"] else words[2:]}.get(len(words), [])
    named = words[:1] == [b"claim"] and words[1:2] == [{2: b"infeasible", 3: b"optimal", 4: b"bracket"}.get(len(words))]
    if not named or not all(COST.match(cost) for cost in costs):
        reader.fault("BadLine")
    if reader.line != b" ".join(words) or not all(PLAIN_COST.match(cost) for cost in costs):
        reader.fault("NotCanonical")
    values = [int(cost.replace(b".", b"")) for cost in costs]
    if any(value > MAX_COST for value in values):
        reader.fault("OutOfRange")
    return words[1].decode(), values


def refused(inst, opened, serve):
    """The name of the first part of a feasible plan that fails; nothing where none does."""
    if any(site not in opened for site in serve):
        return "ServedByClosed"
    if any(inst.lanes[site][customer] is None for customer, site in zip(inst.customers, serve)):
        return "NoLane"
    load = {site: sum(demand for demand, it in zip(inst.demands.values(), serve) if it == site) for site in opened}
    if any(inst.capacities[site] is not None and load[site] > inst.capacities[site] for site in opened):
        return "OverCapacity"
    if not inst.least <= len(opened) <= inst.most:
        return "SiteCount"
    is_broken = {*inst.of_status(OPEN)} - {*opened} or {*inst.of_status(CLOSED)} & {*opened}
    return "StatusBroken" if is_broken else None


def judge_plan(reader, inst, cost):
    words = reader.next()
    if words[:1] != [b"open"]:
        reader.fault("BadLine")
    opened = reader.numbers(words, words[1:], rising=True)
    reader.ids(opened, inst.sites)
    words = reader.next()
    if words[:1] != [b"serve"] or len(words) != 1 + inst.n:
        reader.fault("BadLine")
    serve = reader.numbers(words, words[1:])
    reader.ids(serve, inst.sites)
    name = refused(inst, opened, serve)
    if name:
        raise Fault(f"no PlanRefused line {reader.number} {name}")
    found = sum(inst.fixed[s] for s in opened) + sum(inst.lanes[s][c] for c, s in zip(inst.customers, serve))
    if found != cost:
        raise Fault(f"no CostDiffers line {reader.number} found {money(found)}")


def read_duals(reader, inst, words):
    """A leaf's scale, price of the number of sites, numbers of the customers and prices of capacities; with whole knapsacks it has
    none of these."""
    q, nu = reader.numbers(words, words[1:])
    if not 0 <= q <= MAX_SCALE or abs(nu) > MAX_VALUE:
        reader.fault("OutOfRange")
    words = reader.next()
    if words[:1] != [b"v"] or len(words) != 1 + inst.n:
        reader.fault("BadLine")
    v = reader.numbers(words, words[1:])
    if any(abs(value) > MAX_VALUE for value in v):
        reader.fault("OutOfRange")
    words = reader.next()
    if words[:1] == [b"whole"]:
        reader.fixed(words, [b"whole"])
        if not inst.has_small_knapsacks():
            reader.fault("OutOfRange")
        return q, nu, v, None
    if words[:1] != [b"u"] or len(words) % 2 == 0:
        reader.fault("BadLine")
    pairs = reader.numbers(words, words[1:])
    sites, prices = pairs[::2], pairs[1::2]
    if any(a >= b for a, b in zip(sites, sites[1:])) or 0 in prices:
        reader.fault("NotCanonical")
    unpriced = any(site in inst.capacities and inst.capacities[site] is None for site in sites)
    if unpriced or any(not 0 <= price <= MAX_PRICE for price in prices):
        reader.fault("OutOfRange")
    reader.ids(sites, inst.sites)
    return q, nu, v, dict(zip(sites, prices))


def judge_leaf(reader, inst, path, words, target):
    line = reader.number
    q, *rest = read_duals(reader, inst, words)
    bound = Box(inst, path).bound(q, *rest)
    if not closes(bound, q, target):
        raise Fault(f"no LeafOpen line {line} bound {bound} scale {q}")


def judge_tree(reader, inst, target):
    due = [()]
    while due:
        path = due.pop()
        words = reader.next()
        if len(words) == 2 and words[0] == b"site":
            (site,) = reader.numbers(words, words[1:])
            reader.ids([site], inst.sites)
            due += [path + (("opened", site),), path + (("closed", site),)]
        elif len(words) == 3 and words[0] == b"lane":
            site, customer = reader.numbers(words, words[1:])
            reader.ids([site, customer], inst.sites, inst.customers)
            due += [path + (("yes", site, customer),), path + (("no", site, customer),)]
        elif len(words) == 3 and words[0] == b"leaf":
            judge_leaf(reader, inst, path, words, target)
        else:
            reader.fault("BadLine")


def judge_statuses(reader, inst, word, status):
    words = reader.next()
    if words[:1] != [word]:
        reader.fault("BadLine")
    ids = reader.numbers(words, words[1:], rising=True)
    reader.ids(ids, inst.sites)
    if ids != inst.of_status(status):
        reader.fault("WrongStatus")


def verdict(inst, text):
    """The line that the checker prints of a certificate's text."""
    reader = Reader(text)
    is_settled = inst.of_status(FREE) != [*inst.sites]
    try:
        reader.fixed(reader.next(), [b"dualoc-certificate", b"2" if is_settled else b"1"])
        words = reader.next()
        if len(words) != 4 or words[::2] != [b"sites", b"customers"]:
            reader.fault("BadLine")
        m, n = reader.numbers(words, words[1::2])
        if not (1 <= m <= MOST_SITES and 1 <= n <= MOST_CUSTOMERS):
            reader.fault("OutOfRange")
        if (m, n) != (inst.m, inst.n):
            reader.fault("WrongSizes")
        if is_settled:
            judge_statuses(reader, inst, b"must-open", OPEN)
            judge_statuses(reader, inst, b"must-closed", CLOSED)
        kind, costs = read_claim(reader)
        if kind == "optimal" or len(costs) == 2:
            judge_plan(reader, inst, costs[-1])
        judge_tree(reader, inst, costs[0] if costs else None)
        reader.fixed(reader.next(), [b"end"])
        reader.number += 1
        if reader.lines[reader.number - 1:] != [b""]:
            reader.fault("Trailing")
    except Fault as fault:
        return str(fault)
    ends = [money(cost) for cost in costs] + ["none"] * (kind == "bracket" and len(costs) == 1)
    return " ".join(["yes", kind] + ends)
