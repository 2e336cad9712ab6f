"""Compares what a built program says of files in the suite's own form with a plain reading of docs/FORMATS.md:
`own.py PROGRAM`.

The reading takes the words one behind the other, by the list in that page, and keeps the lanes by pairs of ids. `convert`
has to write the one text of the instance that was read, or to tell the fault and to leave the file as it was. It is asked
about a few files of both versions, all their proper prefixes, all deletions of one byte, many random changes of bytes and
of words, and about random small instances, whose ids have gaps, with their amounts spelled in many ways. Those are searched
too, and the plan has to be as cheap as any. Then about files of the other forms: what `convert` writes is the text of the
instance that the plain readings of those forms find, is written again as it is, and is solved with the same bytes.
"""
import dataclasses
import itertools
import random
import re
import sys

from capacities import Warehouses as RandomWarehouses, some_network
from common import MICRO, main, money, texts
from instances import (BAD_INPUT, DONE, MAX_AMOUNT, MAX_BYTES, MOST_CUSTOMERS, MOST_LANES, MOST_SITES, NO_PLAN, TOO_LARGE,
                       Fault, Reader, amount_of, changed_words, random_instance, read as read_ufl, spelled)
from networks import read as read_network
from solve import READ_FAULT, USAGE, WRITE_FAULT, Task, costs, solve
from warehouses import Warehouses

MAX_COUNT = 2**32 - 1
FREE, OPEN, CLOSED = STATUSES = "free", "open", "closed"
CHANGED_BYTES, CHANGED_WORDS, RANDOM, SEARCHED, OTHERS = 700, 700, 600, 400, 150
BEFORE = b"before\n"


@dataclasses.dataclass(frozen=True)
class Instance:
    """The customers are pairs of an id and a demand, the sites have an id, a fixed cost, a capacity or none, and a status, and
    the lanes are costs by pairs of ids of a site and a customer."""

    customers: tuple
    sites: tuple
    lanes: dict
    count: tuple = (0, MOST_SITES)
    next_ids: tuple = ()

    @staticmethod
    def numbered(fixed, rows, capacities=None, demands=None, count=(0, MOST_SITES)):
        """Free sites and customers whose ids are their numbers, with the rows of costs by site."""
        m, n = len(fixed), len(rows[0])
        customers = tuple(enumerate(demands or [0] * n, 1))
        sites = tuple((s, cost, cap, FREE) for s, (cost, cap) in enumerate(zip(fixed, capacities or [None] * m), 1))
        lanes = {(s, c): cost for s, row in enumerate(rows, 1) for c, cost in enumerate(row, 1) if cost is not None}
        return Instance(customers, sites, lanes, count, (m + 1, n + 1))

    def row(self, site):
        return [self.lanes.get((site, c)) for c, _ in self.customers]

    def text(self):
        """Its one text: of version 1 where every site is free."""
        shown = lambda amount: "none" if amount is None else money(amount)
        version = 1 if all(status == FREE for *_, status in self.sites) else 2
        lines = [("dualoc-instance", version), ("sites", len(self.sites), "next", self.next_ids[0]),
                 ("customers", len(self.customers), "next", self.next_ids[1]), ("count", *self.count)]
        lines += [("customer", c, money(demand)) for c, demand in self.customers]
        lines += [("site", s, money(cost), shown(cap), *[status][:version - 1], *map(shown, self.row(s)))
                  for s, cost, cap, status in self.sites]
        return "".join(" ".join(map(str, line)) + "\n" for line in [*lines, ("end",)]).encode()

    def cost_of(self, opened, serve):
        """What the plan with these open sites costs, where each customer in turn is served by one of these; nothing where the
        plan isn't feasible."""
        by_id, loads = {s: rest for s, *rest in self.sites}, dict.fromkeys(opened, 0)
        must = [s for s, *_, status in self.sites if status == OPEN]
        if not {*opened} <= {*by_id} or not {*must} <= {*opened} or any(by_id[s][2] == CLOSED for s in opened):
            return None
        if not self.count[0] <= len(opened) <= self.count[1] or len(serve) != len(self.customers):
            return None
        total = sum(by_id[s][0] for s in opened)
        for s, (c, demand) in zip(serve, self.customers):
            if s not in loads or (s, c) not in self.lanes:
                return None
            loads[s] += demand
            total += self.lanes[s, c]
        return total if all(by_id[s][1] is None or load <= by_id[s][1] for s, load in loads.items()) else None

    def least_cost(self):
        """The least cost of all ways to open sites and to serve the customers."""
        ids = [s for s, *_ in self.sites]
        sets = [opened for k in range(len(ids) + 1) for opened in itertools.combinations(ids, k)]
        found = (self.cost_of(opened, serve) for opened in sets for serve in itertools.product(opened, repeat=len(self.customers)))
        return min((cost for cost in found if cost is not None), default=NO_PLAN)

    def cost_in(self, text):
        """What the plan of a plan text costs, `NO_PLAN` where it says that there is none, and nothing where it is at fault."""
        claim = text.splitlines()[1]
        if text == f"dualoc-plan 1\n{claim}\nend\n":
            return NO_PLAN if claim == "infeasible" or claim.endswith(" none") else None
        opened = [int(it) for it in re.findall(r"(?m)^site ([0-9]+) ", text)]
        serve = [int(it) for it in re.findall(r"(?m)^serve [0-9]+ ([0-9]+) ", text)]
        total = self.cost_of(opened, serve)
        if total is None or opened != sorted({*opened}):
            return None
        by_id = {s: cost for s, cost, *_ in self.sites}
        lines = ["dualoc-plan 1", claim, *[f"site {s} {money(by_id[s])}" for s in opened],
                 *[f"serve {c} {s} {money(self.lanes[s, c])}" for s, (c, _) in zip(serve, self.customers)], "end", ""]
        return total if text == "\n".join(lines) else None


class OwnReader(Reader):
    """Words of the own form."""

    def fixed(self, *words):
        """Which of these words comes next."""
        return self.take(lambda word: (word.decode("latin-1"), None if word.decode("latin-1") in words else "BadWord"))

    def count(self, kind, low, high):
        def meaning(word):
            if not re.fullmatch(rb"[0-9]+", word):
                return None, "NotANumber"
            return (int(word), None) if int(word) <= MAX_COUNT else (None, "TooBig")
        return self.take(meaning, lambda it: None if low <= it <= high else kind)

    def maybe(self):
        return self.take(lambda word: (None, None) if word == b"none" else amount_of(word))

    def many(self, word, most):
        """How many there are, and the next id."""
        self.fixed(word)
        many = self.count("BadSize", 1, most)
        self.fixed("next")
        return many, self.count("BadSize", 1, MAX_COUNT)

    def ids(self, word, many, next_id):
        """The ids of so many lines, one at a time."""
        last = 0
        for _ in range(many):
            self.fixed(word)
            last = self.count("BadIndex", last + 1, next_id - 1)
            yield last


def read(text):
    reader = OwnReader(text, title=None)
    reader.fixed("dualoc-instance")
    version = reader.fixed("1", "2")
    m, next_site = reader.many("sites", MOST_SITES)
    n, next_customer = reader.many("customers", min(MOST_CUSTOMERS, MOST_LANES // m))
    reader.fixed("count")
    lo = reader.count("BadSize", 0, MOST_SITES)
    hi = reader.count("BadSize", lo, MOST_SITES)
    customers = tuple((c, reader.amount()) for c in reader.ids("customer", n, next_customer))
    sites, lanes = [], {}
    for s in reader.ids("site", m, next_site):
        sites.append((s, reader.amount(), reader.maybe(), reader.fixed(*STATUSES) if version == "2" else FREE))
        costs_by_id = [(c, reader.maybe()) for c, _ in customers]
        lanes |= {(s, c): cost for c, cost in costs_by_id if cost is not None}
    reader.fixed("end")
    reader.finish()
    return Instance(customers, tuple(sites), lanes, (lo, hi), (next_site, next_customer))


def file_at(program, name):
    with open(program.at(name), "rb") as file:
        return file.read()


def converted(program, form, text, inst, *options):
    """Has the file converted, whose instance is this one."""
    program.write("new", BEFORE * random.choice([1, 1000]))
    due = f"converted sites {len(inst.sites)} customers {len(inst.customers)}\n"
    program.expect(due, DONE, (form, text, options), "convert", form, "a", "new", *options)
    found = file_at(program, "new")
    if found != inst.text():
        sys.exit(f"check: {text!r} as {form} with {options}: {found!r}, and {inst.text()!r} is due")
    return found


def compare(program, text):
    """Stops where the program answers otherwise than it must, and returns whether the text has no fault."""
    program.write("a", text)
    try:
        inst = read(text)
    except Fault as fault:
        program.write("new", BEFORE)
        program.expect(str(fault), BAD_INPUT, text, "convert", "own", "a", "new")
        if file_at(program, "new") != BEFORE:
            sys.exit(f"check: {text!r} is refused, and the file that was to be written changed")
        return False
    converted(program, "own", text, inst)
    return True


PAIR = b"""dualoc-instance 1
sites 2 next 3
customers 3 next 4
count 0 3000
customer 1 0.000000
customer 2 0.000000
customer 3 0.000000
site 1 10.000000 none 1.000000 2.000000 9.000000
site 2 12.000000 none 8.000000 7.000000 1.000000
end
"""
RING = b"""dualoc-instance 1 sites 3 next 4 customers 3 next 4 count 0 3000
customer 1 0 customer 2 0\tcustomer 3 +0.
site 1 2 none 0 0 none\r
site 2 2 none none 0 0

site 3 2 none 0 none 0 end"""
ROOMS = b"""dualoc-instance 2
sites 3 next 4294967295
customers 2 next 9
count 1 2
customer 4 6.5
customer 8 .000001
site 2 7500 10 open 6739.725 3
site 3 0.5 0 free none none
site 4294967294 999999999.999999 none closed 1.25 007.
end
"""
FILES = [PAIR, RING, ROOMS, ROOMS.replace(b" open ", b" free ").replace(b" closed ", b" free "),
         PAIR.replace(b"0.000000", b"0").replace(b"1.000000", b"1"),
         b"dualoc-instance 2 sites 1 next 2 customers 1 next 2 count 0 0 customer 1 0 site 1 0 none closed none end", b" "]
PIECES = b" \t\r\n+-.0123456789nopen\0\xff"
WORDS = [b"0", b"1", b"2", b"3", b"4", b"01", b"+1", b"-1", b"1.", b"1.0", b".5", b"1e3", b"1.5", b"1.0000001", b"1.00000000",
         b"999999999.999999", b"1000000000", b"0" * 40 + b"1", b"9" * 40, b"2999", b"3000", b"3001", b"5000", b"5001", b"4294967294",
         b"4294967295", b"4294967296", b"none", b"None", b"none", b"nona", b"non", b"free", b"open", b"closed", b"opened", b"site",
         b"sites", b"customer", b"customers", b"next", b"count", b"end", b"dualoc-instance", b"dualoc", b"\xc2\xa01", b"\0"]


def random_ids(count):
    """Ids with gaps, and the next one."""
    top = random.choice([count, count, 2 * count + 1, MAX_COUNT - 1])
    ids = sorted(random.sample(range(1, top + 1), count))
    return ids, random.choice([ids[-1] + 1, top + 1, MAX_COUNT])


def random_own(most_sites=5, most_customers=5):
    """A small instance with gaps between its ids, statuses, capacities and lanes that are missing."""
    m, n = random.randint(1, most_sites), random.randint(1, most_customers)
    (sites, next_site), (customers, next_customer) = random_ids(m), random_ids(n)
    fixed, lane = costs(), costs()
    unit, most = random.choice([1, MICRO, 10**9]), random.choice([MOST_SITES, MOST_SITES, m, random.randint(0, m)])
    tight, missing, settled = (random.choice(it) for it in ([0, 0, 0.5, 1], [0, 0, 0.1, 0.5], [0, 0, 0.2, 0.6]))
    status = lambda: random.choice([OPEN, CLOSED]) if random.random() < settled else FREE
    room = lambda: unit * random.randint(0, 6) if random.random() < tight else None
    return Instance(tuple((c, unit * random.randint(0, 3)) for c in customers),
                    tuple((s, min(fixed(), MAX_AMOUNT), room(), status()) for s in sites),
                    {(s, c): lane() for s in sites for c in customers if random.random() >= missing},
                    (random.randint(0, min(most, 2)), most), (next_site, next_customer))


def spelled_out(inst):
    """The instance's text with its words spelled and laid out at random."""
    words = []
    for word in inst.text().decode().split():
        amount = "." in word
        zeros = random.choice(["", "", "00"]) if word.isdigit() and words else ""
        words.append(spelled(int(word.replace(".", ""))) if amount else (word if len(words) < 2 else zeros + word))
    return "".join(word + random.choice([" ", " ", "  ", "\t", "\n", "\r\n"]) for word in words).encode()


def same(program, form, text, inst, *options):
    """Has the file converted, and what comes of it again; and both searched, which has to give the same bytes."""
    program.write("a", text)
    own = converted(program, form, text, inst, *options)
    program.write("a", own)
    converted(program, "own", own, read(own))
    if read(own) != inst:
        sys.exit(f"check: {own!r} isn't read as it was written")
    program.write("b", text)
    answers = [program.ask("solve", *words, f"{words[0]}.plan", f"{words[0]}.cert", *more)
               for words, more in ((("own", "a"), ()), ((form, "b"), options))]
    files = [[file_at(program, f"{it}.{kind}") for kind in ("plan", "cert")] for it in ("own", form)]
    if answers[0] != answers[1] or files[0] != files[1]:
        sys.exit(f"check: {text!r} as {form} with {options}: {answers[1]}, and its own form {own!r}: {answers[0]}, or other files")


def other_forms(program):
    """Files of the other forms; how many there were."""
    for _ in range(OTHERS):
        text = random_instance()
        same(program, "ufl", text, Instance.numbered(*read_ufl(text)))
        files = RandomWarehouses()
        found = Warehouses(files.text(), "cap", files.option)
        options = [] if files.option is None else [f"capacity={money(files.option)}"]
        same(program, "cap", files.text(), Instance.numbered(found.fixed, found.lanes, found.capacities, found.demands), *options)
        same(program, "uncap", files.text(), Instance.numbered(found.fixed, found.lanes, None, found.demands))
        text = some_network()
        try:
            n, p, pairs = read_network(text)
        except Fault:
            continue
        rows = [[pairs.get((s, c)) for c in range(1, n + 1)] for s in range(1, n + 1)]
        same(program, "pmed", text, Instance.numbered([0] * n, rows, count=(p, p)))
    return 4 * OTHERS


REFUSED = [("usage\n", USAGE, words) for words in [
    ("own",), ("own", "a"), ("own", "a", "a"), ("own", "a", ""), ("own", "", "new"), ("own", "a", "new", "x"), ("ufl", "a", "a"),
    ("own", "a", "new", "capacity=1"), ("own", "a", "new", "budget=1"), ("uncap", "a", "new", "capacity=1"), ("OWN", "a", "new"),
    ("cap", "a", "new", "capacity=1", "capacity=1"), ("cap", "a", "new", "capacity=x"), ("own1", "a", "new")]]
REFUSED += [("read fault\n", READ_FAULT, ("own", "nothing", "new")), ("read fault\n", READ_FAULT, ("own", ".", "new")),
            ("bad input NotANumber line 1 word 1\n", BAD_INPUT, ("ufl", "a", "new"))]


def refused(program):
    """Words and files at fault, and files as long as the limit and longer."""
    program.write("a", PAIR)
    program.write("new", BEFORE)
    for due, status, words in REFUSED:
        program.expect(due, status, words, "convert", *words)
    for size, due, status in [(MAX_BYTES, "bad input BadWord line 1 word 1\n", BAD_INPUT),
                              (MAX_BYTES + 1, "too large instance\n", TOO_LARGE)]:
        program.write("long", b"x")
        with open(program.at("long"), "r+b") as file:
            file.truncate(size)
        program.expect(due, status, f"{size} bytes", "convert", "own", "long", "new")
    if file_at(program, "new") != BEFORE:
        sys.exit("check: a command was refused, and the file that was to be written changed")
    program.expect("write fault\n", WRITE_FAULT, "no folder", "convert", "own", "a", "nowhere/new")
    return len(REFUSED) + 3


def check(program):
    is_read = sum(compare(program, changed) for text in FILES
                  for changed in itertools.chain(texts(text, PIECES, CHANGED_BYTES), changed_words(text, CHANGED_WORDS, WORDS)))
    for _ in range(RANDOM):
        inst = random_own(7, 9)
        if not compare(program, spelled_out(inst)) or read(inst.text()) != inst:
            sys.exit(f"check: {inst.text()!r} isn't read")
    texts_read, split = program.asked, 0
    for _ in range(SEARCHED):
        inst = random_own()
        program.write("sites", inst.text())
        sizes = len(inst.sites), len(inst.customers)
        split += solve(program, Task("own", "sites", inst.text(), inst.least_cost(), sizes, inst.cost_in)) > 1
    others = other_forms(program)
    return (f"own: {texts_read} texts are converted as is due, of which {texts_read - is_read - RANDOM} have a fault; {SEARCHED} "
            f"instances are solved at the least cost, of which {split} needed a split; {others} files of other forms are the same "
            f"instances in their own; {refused(program)} refusals")


if __name__ == "__main__":
    main(check)
