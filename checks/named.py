"""Compares sessions by names with sessions by ids: `named.py PROGRAM [DESK] [SCRIPTS] [SEED]`.

Random scripts edit small instances by the lines of the console, under names that are hard to tell apart from the lines themselves. Beside
each a plain session of the program is told the same by ids, which this check makes of the same choices by its own plain reading: which
lines an edit is, what lanes cost by distance or by demand, how many lines an undo takes back. At the end the two instances have to be the
same bytes and have the same least cost, which `check` has to say yes to. Some edits begin a process of their own; some scripts keep what
they made, load it again, and have a desk of the program load it beside, and put its edits on the base by their names. Names that are
unknown or stand twice, and amounts that are none, are refused, and change nothing.
"""
import collections
import math
import os
import random
import shlex
import subprocess
import sys

from common import MICRO, PATIENCE, main, money
from crates import ROOT

sys.path.insert(0, str(ROOT))
from planner import Refusal, Session, grounds, names, own  # noqa: E402
from planner.lanes import Rule  # noqa: E402
from planner.phrases import edit  # noqa: E402
from planner.places import Customer, Site  # noqa: E402
from planner.program import Program as Words  # noqa: E402

SCRIPTS, LINES = 500, 9
DESK = ROOT / "crates/dualoc_desk/out/dualoc_desk"
NAMES = ["Kassel", "Bad Homburg v.d.H.", "to", "at", 'a "b"', "=1+1", "where", "none", "Köln", "x\\y", "keep lanes", "Stadt <b>", "10", "+10%",
         "site", "customer", "fixed 5", "A-1", "-", "#1", "Ulm", "Hof at Sea", "or", "Gera, Süd", "!", "base"]
# What has to come, so that the check doesn't become empty.
DUE = ["close", "open", "free", "fixed", "capacity", "demand", "count", "lane", "tie", "add", "drop", "demand %", "fixed %", "capacity %", "undo",
       "refused", "of its own", "kept", "rebased", "optimal", "infeasible", "by demand", "by distance", "lanes kept"]


def half_up(over, under):
    return (2 * over + under) // (2 * under)


def quoted(name):
    return '"' + name.replace("\\", "\\\\").replace('"', '\\"') + '"'


def some_amount(most=60):
    return random.choice([random.randrange(most) * MICRO, random.randrange(most * MICRO), random.randrange(most) * MICRO // 4])


class Region:
    """A small instance with names and, by its rule, lanes of distances or of a sheet; and what is told of it by ids."""

    def __init__(self):
        kind, by_demand = random.choice(["sheet", "straight"]), random.random() < 0.6
        self.rule = Rule(kind, random.randrange(1, 3 * MICRO), by_demand, detour=random.choice([MICRO, 1_250_000]),
                         per_unit=random.choice([0, 0, 30_000])) if kind == "straight" else Rule(by_demand=by_demand)
        told, self.spare = random.sample(NAMES, 20), []
        m, n = random.randrange(2, 6), random.randrange(2, 7)
        self.sites = {s: [told[s], some_amount(), random.choice([None, some_amount(90)]), "free", self.spot()] for s in range(1, m + 1)}
        self.customers = {c: [told[c + 8], some_amount(20) + 1, self.spot()] for c in range(1, n + 1)}
        self.lanes = {(s, c): self.lane(s, c) for s in self.sites for c in self.customers}
        self.next, self.spare = {"site": m + 1, "customer": n + 1}, told[-4:]

    def spot(self):
        return random.randrange(9 * MICRO), random.randrange(9 * MICRO)

    def handling(self, demand):
        return half_up(demand * self.rule.per_unit, MICRO)

    def made(self, site, customer, demand):
        """What a lane costs by its distance: the root of a square, rounded once, and the handling."""
        (x, y), (v, w) = site, customer
        weight = self.rule.rate * self.rule.detour * (demand if self.rule.by_demand else MICRO)
        square = ((x - v)**2 + (y - w)**2) * (2 * weight)**2
        return (math.isqrt(square // MICRO**6) + 1) // 2 + self.handling(demand)

    def lane(self, s, c):
        if self.rule.kind == "sheet":
            return random.choice([None, some_amount(), some_amount(), some_amount()])
        return self.made(self.sites[s][4], self.customers[c][2], self.customers[c][1])

    def write(self, front):
        """The files of the instance and of its names."""
        sites = {s: Site(name, fixed, room, status, at) for s, (name, fixed, room, status, at) in self.sites.items()}
        customers = {c: Customer(name, demand, at) for c, (name, demand, at) in self.customers.items()}
        rows = {s: own.array("q", [-1 if self.lanes[s, c] is None else self.lanes[s, c] for c in customers]) for s in sites}
        it = own.Instance({s: (it.fixed, it.capacity, it.status) for s, it in sites.items()}, {c: it.demand for c, it in customers.items()},
                          rows, (0, 3000), len(sites) + 1, len(customers) + 1)
        own.write(f"{front}.own", it)
        names.write(f"{front}.csv", names.Names(sites, customers, self.rule, None))

    def copy(self):
        twin = object.__new__(Region)
        vars(twin).update(vars(self), sites={s: [*it] for s, it in self.sites.items()}, customers={c: [*it] for c, it in self.customers.items()},
                          lanes={**self.lanes}, next={**self.next}, spare=[*self.spare])
        return twin

    def goes(self):
        return self.rule.by_demand or self.rule.per_unit

    def demand_lines(self, c, demand, is_kept=False):
        """A demand is one line, and one for each lane whose cost goes by it and becomes another one."""
        before, at = self.customers[c][1:]
        yield f"demand {c} {money(demand)}"
        self.customers[c][1] = demand
        for s, (*_, spot) in self.sites.items():
            cost = self.lanes[s, c]
            if cost is None or is_kept or not self.goes():
                continue
            if self.rule.kind == "straight" and cost == self.made(spot, at, before):
                new = self.made(spot, at, demand)
            else:
                rest = max(0, cost - self.handling(before))
                new = (half_up(rest * demand, before) if self.rule.by_demand else rest) + self.handling(demand)
            self.lanes[s, c] = new
            if new != cost:
                yield f"lane {s} {c} {money(new)}"


def told(micro):
    return "none" if micro is None else money(micro)


def times(micro, tenths):
    return half_up(micro * (1000 + tenths), 1000)


def some_edit(it, found):
    """A random edit of a region: its line by names, and its lines by ids, or none where the line has to be refused. The region is changed."""
    s, c = random.choice([*it.sites]), random.choice([*it.customers])
    site, customer, amount = it.sites[s], it.customers[c], some_amount()
    verb = random.choice(DUE[:14])
    found[verb] += 1
    match verb:
        case "close" | "open" | "free":
            site[3] = {"close": "closed"}.get(verb, verb)
            return f"{verb} {quoted(site[0])}", [f"status {s} {site[3]}"]
        case "fixed":
            site[1] = amount
            return f"fixed {quoted(site[0])} {money(amount)}", [f"fixed {s} {money(amount)}"]
        case "capacity":
            site[2] = random.choice([None, amount])
            return f"capacity {quoted(site[0])} {told(site[2])}", [f"cap {s} {told(site[2])}"]
        case "demand":
            is_kept = random.random() < 0.2
            found["lanes kept"] += is_kept
            found["by distance" if it.rule.kind == "straight" else "by demand"] += bool(it.goes())
            return f"demand {quoted(customer[0])} {money(amount + 1)}" + " keep lanes" * is_kept, [*it.demand_lines(c, amount + 1, is_kept)]
        case "count":
            least = random.randrange(3)
            return f"count {least} {least + 2}", [f"count {least} {least + 2}"]
        case "lane":
            it.lanes[s, c] = cost = random.choice([None, amount])
            return f"lane {quoted(site[0])} to {quoted(customer[0])} {told(cost)}", [f"lane {s} {c} {told(cost)}"]
        case "tie":
            return f"tie {quoted(customer[0])} to {quoted(site[0])}", some_tie(it, s, c)
        case "add":
            return some_newcomer(it)
        case "drop":
            return some_loss(it, random.choice(["site", "customer"]))
    return some_share(it, verb.split()[0])


def some_tie(it, s, c):
    """The other sites' lanes to a customer go: a line for each, or none where the line has to be refused."""
    others = [key for key in it.sites if key != s and it.lanes[key, c] is not None]
    if it.lanes[s, c] is None or not others:
        return None
    it.lanes |= {(key, c): None for key in others}
    return [f"lane {key} {c} none" for key in others]


def some_share(it, title):
    """Many at once by a part, those whose value is above another."""
    tenths, least = random.choice([-55, 100, 25]), some_amount(20)
    place = {"fixed": 1, "capacity": 2, "demand": 1}[title]
    those = it.customers if title == "demand" else it.sites
    line = f"{title} {tenths / 10:+}% where {title} >= {money(least)}"
    chosen = {key: times(row[place], tenths) for key, row in those.items() if row[place] is not None and row[place] >= least}
    above = [key for key, row in those.items() if row[place] is None or row[place] >= least]
    if not chosen or not above or title == "demand" and any(row[1] == 0 for row in it.customers.values()):
        return (line, None) if not chosen else ("count 0 3000", ["count 0 3000"])
    if title == "demand":
        return line, [told for key, micro in chosen.items() for told in it.demand_lines(key, micro)]
    for key, micro in chosen.items():
        those[key][place] = micro
    return line, [f"{'cap' if title == 'capacity' else 'fixed'} {key} {money(micro)}" for key, micro in chosen.items()]


def some_newcomer(it):
    """A site or a customer that comes: with a place where lanes are made of distances, and else with lanes."""
    what, name, at, amount = random.choice(["site", "customer"]), it.spare.pop() if it.spare else "", it.spot(), some_amount(20) + 1
    if not name:
        return "add site  fixed 5", None
    key, it.next[what] = it.next[what], it.next[what] + 1
    others, verb = (it.customers, "addsite") if what == "site" else (it.sites, "addcust")
    room = random.choice([None, some_amount(90)])
    line = f"add {what} {quoted(name)} at {money(at[0])} {money(at[1])}" + (
        f" fixed {money(amount)}" + (f" capacity {money(room)}" if room is not None else "") if what == "site" else f" demand {money(amount)}")
    if it.rule.kind == "straight":
        pairs = {other: (at, row[2], row[1]) if what == "site" else (row[4], at, amount) for other, row in others.items()}
        lanes = {other: it.made(*pair) for other, pair in pairs.items()}
    else:
        lanes = {other: random.choice([None, some_amount()]) for other in others}
        line += " lanes" + "".join(f" {quoted(others[other][0])} {told(cost)}" for other, cost in lanes.items())
    it.lanes |= {(key, other) if what == "site" else (other, key): cost for other, cost in lanes.items()}
    if what == "site":
        it.sites[key] = [name, amount, room, "free", at]
        return line, [" ".join([verb, money(amount), told(room), *map(told, lanes.values())])]
    it.customers[key] = [name, amount, at]
    return line, [" ".join([verb, money(amount), *map(told, lanes.values())])]


def some_loss(it, what):
    those = it.sites if what == "site" else it.customers
    key = random.choice([*those])
    line = f"drop {what} {quoted(those[key][0])}"
    if len(those) == 1:
        return line, None
    del those[key]
    return line, [f"drop{'site' if what == 'site' else 'cust'} {key}"]


def odd_line(it):
    """A line that has to be refused."""
    name = next(iter(it.sites.values()))[0]
    return random.choice(['close "no such site"', f"fixed {quoted(name)} 1,5", f"fixed {quoted(name)} -3", f"fixed {quoted(name)} 1e3x", "count 3 1",
                          f"fixed {quoted(name)} 0.0000001", f'close "{name[:1]}', "demand +10% where height > 3", "demand -101%", "drop site",
                          f"lane {quoted(name)} 5", f"add site {quoted(name)} fixed 5 lanes", "capacity", "fixed +5% where fixed > x"])


def plain(program, lines, file, saved):
    """A session by ids: its replies, and the instance that it saves."""
    words = [program.path, "session", "own", file]
    text = "".join(f"{line}\n" for line in [*lines, f"save {saved}", "solve"])
    ran = subprocess.run(words, input=text, stdout=subprocess.PIPE, text=True, timeout=PATIENCE, cwd=program.folder)
    return ran.stdout.splitlines()


def wrong(script, why):
    sys.exit(f"check: named: {script}: {why}")


def play(program, session, it, found):
    """A script: what the session is told by names, and the lines in force by ids."""
    script, former = [], []
    for _ in range(random.randrange(1, LINES)):
        if former and random.random() < 0.15:
            it, _ = former.pop()
            session.undo()
            script.append("undo")
            found["undo"] += 1
            continue
        if random.random() < 0.15:
            line, twin, lines = odd_line(it), it, None
        else:
            twin = it.copy()
            line, lines = some_edit(twin, found)
        script.append(line)
        version = session.version
        try:
            step = edit(session, line)
        except Refusal as why:
            found["refused"] += 1
            if lines is not None or session.version != version:
                wrong(script, f"refused: {why}")
            continue
        if lines is None:
            wrong(script, "it has to be refused")
        found["of its own"] += step.is_ground
        former.append((it, lines))
        it = twin
    return script, [line for _, lines in former for line in lines]


def same(program, script, session, lines, front, found):
    """Whether both have the same instance and the same least cost, which `check` confirms."""
    session.save(program.at("named.own"))
    replies = plain(program, lines, f"{front}.own", "plain.own")
    bad = [it for it in replies if it.startswith("refused")]
    with open(program.at("named.own")) as mine, open(program.at("plain.own")) as due:
        if bad or mine.read() != due.read():
            wrong(script, f"the instance isn't that of {lines}: {bad}")
    answer = session.solve()
    kind, cost = (*replies[-1].split(), "")[:2]
    found[kind] += 1
    if answer.kind != kind or kind == "optimal" and money(answer.cost) != cost:
        wrong(script, f"the answer is {answer.text}, and {replies[-1]} is due")
    if answer.check() != f"yes {answer.claim}":
        wrong(script, "check doesn't confirm it")


def kept(program, script, session, front, found):
    """What is kept is loaded again, here and by a desk of the program, and put on the base by its names."""
    session.save(program.at("before.own"))
    texts, cost = [it.text for it in session.steps], session.solve().cost
    session.keep("it")
    session.load("base")
    session.load("it")
    session.save(program.at("after.own"))
    told = "load it\nsave desk.own\n"
    subprocess.run([*session.program.words, "desk", "own", f"{front}.own", session.desk], input=told, text=True, stdout=subprocess.DEVNULL,
                   cwd=program.folder, timeout=PATIENCE)
    read = [open(program.at(f"{name}.own")).read() for name in ("before", "after", "desk")]
    again = session.solve()
    if len({*read}) > 1 or [it.text for it in session.steps] != texts or not again.was_held or again.cost != cost:
        wrong(script, "what is loaded isn't what was kept")
    found["kept"] += 1
    fault = session.rebase("it", "base", "again").refused
    session.load("again")
    session.save(program.at("rebased.own"))
    if fault or open(program.at("rebased.own")).read() != read[0]:
        wrong(script, f"on the base the edits aren't the same: {fault}")
    found["rebased"] += 1
    session.forget("it"), session.forget("again")


def check(program, desk=str(DESK), scripts=SCRIPTS, seed=1):
    random.seed(int(seed))
    found, words = collections.Counter(), program.at("dualoc")
    with open(words, "w") as file:
        file.write(f'#!/bin/sh\n[ "$1" = desk ] && shift && exec {shlex.quote(os.path.abspath(desk))} "$@"\nexec {shlex.quote(program.path)} "$@"\n')
    os.chmod(words, 0o755)
    front, shared, long = program.at("region"), Words(words), grounds.LONG
    for number in range(int(scripts)):
        it = Region()
        it.write(front)
        grounds.LONG = random.choice([2, long])
        with Session("own", f"{front}.own", f"{front}.csv", program.at("store.db"), program=shared) as session:
            script, lines = play(program, session, it, found)
            same(program, script, session, lines, front, found)
            if number % 10 == 0:
                kept(program, script, session, front, found)
    missing = [it for it in DUE if not found[it]]
    if missing and int(scripts) >= SCRIPTS:
        sys.exit(f"check: named: nothing was seen of {', '.join(missing)}")
    return f"named: {scripts} scripts by names are sessions by ids ({found['optimal']} optimal, {found['refused']} lines refused, {found['of its own']} edits " \
           f"with a process of their own, {found['kept']} kept, loaded and put on the base)"


if __name__ == "__main__":
    main(check)
