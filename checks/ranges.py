"""Compares the ranges of costs of a built program with a plain reading of docs/RANGES.md: `ranges.py PROGRAM [INSTANCES] [SEED]`.

Random small instances of all forms are solved, or edited in a session and solved again; the certificates that come of it are
changed as well, with further splits, whole knapsacks and finer scales, where the plain reading of `verdicts.py` still accepts
them. Then the program tells the range of the fixed cost of a site and of the cost of a lane. At both ends of each the plain
reading has to accept the certificate, with the plan's cost there in its claim, and at some amounts between; one millionth
further it has to refuse it; and so has the program's own `check`, with the same line. Where all costs are a few millionths, the
range is found besides by going on amount by amount from the present one. A cost that isn't there is refused, and so is a
certificate that shows no optimal plan: with the line of `check`, or with `no OptimalClaim`.
"""
import collections
import random
import re
import sys

import edits
from certificates import CHANGES, FILES, MAX_BYTES, PIECES, nudged
from common import differs, main, texts
from drafts import near_line, some_start
from instances import BAD_INPUT, DONE, MAX_AMOUNT, TOO_LARGE
from own import file_at, read as read_own
from ranged import Cost, Proof, few_millionths, refusal, varied
from solve import BRACKET, COST, INFEASIBLE, READ_FAULT, USAGE, micro
from trees import by_id, leaves_of, tree_in
from verdicts import Instance as Judged, verdict

INSTANCES, CHANGED, CHECK_NO, REFUSED = 2000, 150, 3, 10
RANGE = re.compile(rf"range {COST} {COST}\n\Z")
# What has to come, so that the check doesn't become empty.
DUE = ["sites that are open", "sites that are closed", "lanes that are used", "lanes that aren't used", "ends at the present cost",
       "ends past it", "ranges of one amount", "trees of several leaves", "rays", "whole knapsacks", "ranges gone through by millionths",
       "refused NoSite", "refused NoCustomer", "refused NoLane", "no OptimalClaim of a bracket", "no OptimalClaim of infeasible"]


class Asked:
    """The program, and what came of it."""

    def __init__(self, program):
        self.program, self.found = program, collections.Counter()

    def some_proof(self):
        """An instance that was solved in the file `a`, with the words of its form and its options, and the certificate."""
        status = INFEASIBLE
        # Mostly one that has a plan.
        while status == INFEASIBLE:
            inst, form, text, options = few_millionths() if random.random() < 0.3 else some_start()
            self.program.write("a", text)
            budget = [f"budget={random.choice([0, 0, 2])}"] if random.random() < 0.1 else []
            said, status = self.program.ask("solve", form, "a", "p", "k", *options, *budget)
            if status > BRACKET:
                differs((form, text), (said, status), ("a search", DONE))
            if random.random() < 0.1:
                break
        if random.random() < 0.3:
            lines = "".join(f"solve\n{near_line(inst)}\n" for _ in range(random.randint(1, 3))) + "solve\nsave a\ncert k\n"
            said, status = self.program.ask("session", form, "a", *options, input=lines.encode())
            if status != DONE or not said.endswith("\nok\nok\n"):
                differs((form, text, lines), (said, status), ("the replies of a session", DONE))
            inst, form, options = read_own(file_at(self.program, "a")), "own", []
        text = file_at(self.program, "k")
        for _ in range(random.choice([0, 0, 1, 2, 4])):
            changed = varied(inst, text)
            text = changed if verdict(by_id(inst), changed).startswith("yes") else text
        self.program.write("k", text)
        return inst, form, options, text

    def ask(self, form, options, *words):
        return self.program.ask("range", form, "a", "k", *map(str, words), *options)

    def one(self):
        """A random instance: the ranges of a site and of a lane."""
        inst, form, options, text = self.some_proof()
        claim = re.search(rb"(?m)^claim (\w+)", text)[1].decode()
        tree, plan = tree_in(text, [c for c, _ in inst.customers])
        leaves = [leaf for leaf, _ in leaves_of(tree)]
        self.found["trees of several leaves"] += len(leaves) > 1
        self.found["whole knapsacks"] += any(prices is None for *_, prices in leaves)
        self.found["rays"] += any(q == 0 for q, *_ in leaves)
        for words in self.some_words(inst, plan):
            shown = (form, inst.text(), text, words)
            found = self.ask(form, options, *words)
            if claim != "optimal":
                due, status = "no OptimalClaim\n", CHECK_NO
                self.found[f"no OptimalClaim of {'a bracket' if claim == 'bracket' else claim}"] += 1
            else:
                due, status = refusal(inst, *words[1:]), REFUSED
            if due:
                if status == REFUSED:
                    self.found[due.strip()] += 1
                if found != (due, status):
                    differs(shown, found, (due, status))
            else:
                self.judge(shown, Cost(Proof(inst, text), *words[1:]), found)

    @staticmethod
    def some_words(inst, plan):
        """The words of a site and of a lane, of which some aren't there; most lanes that are asked for are used."""
        sites, customers = [s for s, *_ in inst.sites], [c for c, _ in inst.customers]
        site, customer = edits.known(sites), edits.known(customers)
        server = plan[1][customer] if plan and customer in customers and random.random() < 0.4 else edits.known(sites)
        return [("site", site), ("lane", server, customer)]

    def judge(self, shown, cost, found):
        """Stops where the answer isn't the range."""
        told = RANGE.match(found[0])
        if not told or found[1] != DONE:
            differs(shown, found, ("a range", DONE))
        ends = least, greatest = micro(told[1]), micro(told[2])
        if not least <= cost.now <= greatest <= MAX_AMOUNT:
            differs(shown, found, (f"a range that holds {cost.now}", DONE))
        for amount in {*ends, random.randint(*ends), (least + cost.now) // 2, (greatest + cost.now) // 2}:
            if not cost.stands(amount):
                differs(shown, found, (f"another range, since the tree proves nothing at {amount}", DONE))
        for amount in (least - 1, greatest + 1):
            if 0 <= amount <= MAX_AMOUNT and cost.stands(amount):
                differs(shown, found, (f"a wider range, since the tree proves the plan at {amount}", DONE))
        scanned = cost.scanned()
        if scanned not in (None, ends):
            differs(shown, found, (f"the range {scanned}", DONE))
        for amount in {least - 1, *ends, greatest + 1}:
            if 0 <= amount <= MAX_AMOUNT:
                self.check(shown, cost, amount)
        self.count(cost, ends, scanned)

    def check(self, shown, cost, amount):
        """The program's own verdict at an amount: the plain one."""
        inst, text, due = cost.moved(amount)
        self.program.write("moved", inst.text())
        self.program.write("moved.k", text)
        self.program.expect(due + "\n", DONE if due.startswith("yes") else CHECK_NO, (shown, amount), "check", "own", "moved", "moved.k")

    def count(self, cost, ends, scanned):
        kinds = ("sites that are closed", "sites that are open") if cost.customer is None else ("lanes that aren't used", "lanes that are used")
        self.found[kinds[cost.is_paid]] += 1
        near = ends[1] if cost.is_paid else ends[0]
        self.found["ends at the present cost" if near == cost.now else "ends past it"] += 1
        self.found["ranges of one amount"] += ends[0] == ends[1]
        self.found["ranges gone through by millionths"] += scanned is not None

    def changed(self):
        """Certificates with faults, of which each has the line of `check`, also where the site isn't there; and what isn't refused
        has a range, or is no optimal claim."""
        for form, text, certificate in FILES:
            self.program.write("a", text.encode())
            inst, original = Judged.of(form, text.encode()), certificate.encode()
            many = [*texts(original, PIECES, CHANGED), *(original.replace(old, new) for old, new in CHANGES)]
            for it in [original, *random.sample(many, CHANGED), *(nudged(original) for _ in range(CHANGED // 5))]:
                self.program.write("k", it)
                said = verdict(inst, it)
                due = "no OptimalClaim" if said[:4] == "yes " and said[:11] != "yes optimal" else said
                found = self.ask(form, [], "site", random.choice([*inst.sites, 7777]))
                if due.startswith("no ") and found != (due + "\n", CHECK_NO) or due[:3] == "yes" and found[1] not in (DONE, REFUSED):
                    differs((form, text, it), found, (due, CHECK_NO))
                self.found["certificates with a fault"] += due.startswith("no ")


GOOD = "ufl a k"
USAGES = [it.split(" ") for it in (
    "ufl a k", "ufl a k site", "ufl a k site 1 1", "ufl a k lane 1", "ufl a k lane", "ufl a k lane 1 1 1", "ufl a k Site 1", "ufl a k 1",
    "ufl a k site 01", "ufl a k site +1", "ufl a k site -1", "ufl a k site 1.0", "ufl a k site x", "ufl a k site 4294967296",
    "ufl a k site 00", "ufl a k lane 1 01", "ufl a k lane 01 1", "ufl a k lane 1 4294967296", "ufl a k site 12345678901", "ufl a a site 1",
    "ufl  k site 1", "ufl a  site 1", "ufl a k site ", "UFL a k site 1", "ufl a k site 1 capacity=1", "ufl a k site 1 budget=1",
    "cap a k site 1 capacity=1 capacity=1", "cap a k site 1 capacity=", "cap a k capacity=1 site 1", "ufl a site 1", "site 1")]
REFUSALS = [("refused NoSite\n", REFUSED, f"{GOOD} site 0"), ("refused NoSite\n", REFUSED, f"{GOOD} site 4294967295"),
            ("refused NoCustomer\n", REFUSED, f"{GOOD} lane 1 0"), ("refused NoSite\n", REFUSED, f"{GOOD} lane 3 4"),
            ("read fault\n", READ_FAULT, "ufl a nothing site 1"), ("read fault\n", READ_FAULT, "ufl nothing k site 1"),
            ("read fault\n", READ_FAULT, "ufl a . site 3"), ("bad input BadWord line 1 word 1\n", BAD_INPUT, "own a nothing site 1"),
            ("range 0.000000 10.000000\n", DONE, f"{GOOD} site 1"), ("range 7.000000 999999999.999999\n", DONE, f"{GOOD} lane 2 1"),
            ("range 11.000000 999999999.999999\n", DONE, "cap b k site 2 capacity=1"),
            ("bad input NeedCapacity line 2 word 1\n", BAD_INPUT, "cap b k site 2")]


def refused(program):
    """Words, files and certificates at fault; and a certificate as long as the limit, and a longer one."""
    form, text, certificate = FILES[0]
    program.write("a", text.encode())
    program.write("b", b"2 3\ncapacity 10\ncapacity 12\n0 1 8\n0 2 7\n0 9 1\n")
    program.write("k", certificate.encode())
    for due, status, words in [("usage\n", USAGE, it) for it in USAGES] + [(due, status, it.split()) for due, status, it in REFUSALS]:
        program.expect(due, status, words, "range", *words)
    for size, due, status in [(MAX_BYTES, "no Ended line 1\n", CHECK_NO), (MAX_BYTES + 1, "too large certificate\n", TOO_LARGE)]:
        program.write("k", b"x")
        with open(program.at("k"), "r+b") as file:
            file.truncate(size)
        program.expect(due, status, f"{size} bytes", "range", form, "a", "k", "site", "9")
    return len(USAGES) + len(REFUSALS) + 2


def check(program, instances=INSTANCES, seed="1"):
    random.seed(int(seed))
    asked = Asked(program)
    for _ in range(int(instances)):
        asked.one()
    asked.changed()
    many = refused(program)
    missing = [it for it in DUE if not asked.found[it]]
    if missing:
        sys.exit(f"check: no {missing} among {instances} instances")
    told = ", ".join(f"{count} {name}" for name, count in sorted(asked.found.items()))
    return f"ranges: those of {instances} instances are the greatest: {told}; {many} words and files at fault"


if __name__ == "__main__":
    main(check)
