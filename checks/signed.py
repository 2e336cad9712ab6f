"""Holds a report against what it speaks of: `signed.py PROGRAM [DESK]`.

What a report says of a random region is read back out of its HTML, and compared with the plan text and with the bytes of its files: the
claim, the tables with sums that are added up anew, the checksums, the files within it. The commands that it shows are run, in a folder
with just these files, and come to what it says. Whatever isn't so is refused and nothing is written: a plan, a certificate or names of
another instance, a cost or a claim that was changed, a plan that isn't the certificate's.
"""
import base64
import csv
import hashlib
import html.parser
import json
import os
import random
import re
import shlex
import subprocess
import sys
from decimal import Decimal

from common import main
from crates import ROOT

EVIL = '<b>Old</b> <img src=x onerror=alert(1)> & "Mill"'
REPORT = "report.html"
ROUNDS = 2


class Page(html.parser.HTMLParser):
    """The tables of a report by their ids, the texts of other elements that have one, the links, and all tags."""

    def __init__(self, text):
        super().__init__()
        self.tables, self.texts, self.links, self.tags, self.open, self.row = {}, {}, {}, set(), [], None
        self.feed(text)

    def handle_starttag(self, tag, values):
        values = dict(values)
        self.tags.add((tag, values.get("src", "")[:5]))
        if tag in ("meta", "img"):
            return
        self.open.append((tag, values.get("id")))
        if tag == "table":
            self.rows = self.tables.setdefault(values.get("id"), [])
        elif tag == "tr":
            self.rows.append([])
        elif tag in ("td", "th"):
            self.rows[-1].append("")
        elif tag == "a":
            self.links[values["download"]] = values["href"]

    def handle_endtag(self, tag):
        if not self.open or self.open.pop()[0] != tag:
            sys.exit(f"check: a report isn't well-formed at {self.getpos()}")

    def handle_data(self, data):
        for tag, name in self.open:
            if name and tag != "table":
                self.texts[name] = self.texts.get(name, "") + data
        if any(tag in ("td", "th") for tag, _ in self.open):
            self.rows[-1][-1] += data


def wrong(what, found):
    sys.exit(f"check: a report: {what}: {found!r}")


def due(what, found, expected):
    if found != expected:
        wrong(what, (found, expected))


def value(text):
    return Decimal(text.replace(",", "").replace("−", "-").replace("+", ""))


class Scene:
    """A folder with the sheets of a region, its instance, and an answer to it."""

    def __init__(self, program):
        self.program, self.reports, self.refused, self.commands = program, 0, 0, 0
        self.script = program.at("dualoc")
        words = f'export DUALOC={shlex.quote(self.script)} PYTHONPATH={shlex.quote(str(ROOT))}'
        own = "compare|console|report|sheets"
        program.write("dualoc", f'#!/bin/sh\n{words}\ncase "$1" in {own}) exec {shlex.quote(sys.executable)} -m planner "$@";; esac\n'
                                f'exec {shlex.quote(program.path)} "$@"\n'.encode())
        os.chmod(self.script, 0o755)

    def run(self, *words, status=0):
        """What a command of the package says. It has to end with this status."""
        ran = subprocess.run([self.script, *words], cwd=self.program.folder, capture_output=True, text=True)
        due(words, (ran.returncode, ran.stderr if status == 0 else ""), (status, ""))
        return ran.stdout if status == 0 else ran.stderr

    def read(self, name):
        with open(self.program.at(name), "rb") as file:
            return file.read()

    def make(self, has_places):
        """Random sheets, and the instance that they mean."""
        m, n = random.randrange(2, 6), random.randrange(1, 9)
        names = random.sample(["Hamburg", "Köln", EVIL, "München", "=1+1", "Ulm", "Nürnberg"], m)
        put = lambda name, rows: self.program.write(name, "\n".join(",".join('"' + str(it).replace('"', '""') + '"' for it in row) for row in rows).encode())
        at = lambda: [random.randrange(-99, 99), random.randrange(-99, 99)] if has_places else []
        title = ["x", "y"] if has_places else []
        put("sites.csv", [["name", "fixed cost", "capacity", *title]] + [[it, random.randrange(1, 900), random.choice(["", 500]), *at()] for it in names])
        put("customers.csv", [["name", "demand", *title]] + [[f"Town {c}", random.randrange(1, 60), *at()] for c in range(n)])
        put("lanes.csv", [["", *[f"Town {c}" for c in range(n)]]] + [[it, *[f"{random.randrange(99999) / 100:.2f}" for _ in range(n)]] for it in names])
        self.run("sheets", "own", "sites.csv", "customers.csv", "region.own", "names.csv", "--lanes", "lanes.csv")

    def solve(self, instance, plan, cert, *more):
        said, status = self.program.ask("solve", "own", self.program.at(instance), self.program.at(plan), self.program.at(cert), *more)
        return said, status

    def report(self, instance, plan, cert, *words):
        self.run("report", instance, "names.csv", plan, cert, REPORT, *words)
        self.reports += 1
        return Page(self.read(REPORT).decode())

    def names(self):
        """The names of sites and customers by kind and id, and the demands by id."""
        rows = list(csv.DictReader(self.read("names.csv").decode().splitlines()))
        return {(it["kind"], it["id"]): it["name"] for it in rows}, {it["id"]: Decimal(it["demand"]) for it in rows if it["kind"] == "customer"}

    def refuse(self, why, *words):
        """A report that is refused in these words, and leaves what was there."""
        self.program.write(REPORT, b"before")
        said = self.run("report", *words, status=1)
        if why not in said:
            wrong(words, said)
        due("what is left of a report that is refused", self.read(REPORT), b"before")
        self.refused += 1


def same(scene, page, claim):
    """The report against the plan text and the files."""
    plan = [line.split() for line in scene.read("plan.txt").decode().splitlines()]
    names, demand = scene.names()
    due("what check says", page.texts["said"], f"yes {claim}")
    sites = {it[1]: Decimal(it[2]) for it in plan if it[0] == "site"}
    served = [(it[1], it[2], Decimal(it[3])) for it in plan if it[0] == "serve"]
    total = sum(sites.values()) + sum(cost for *_, cost in served)
    shown = {row[0]: row[1] for row in page.tables["summary"] if row[0]}
    due("the cost", value(shown["cost"]), total)
    due("its parts", [value(shown["of it for sites"]), value(shown["of it for transport"])], [sum(sites.values()), total - sum(sites.values())])
    rows = {row[0]: (int(row[1]), value(row[2]), value(row[5]), value(row[6])) for row in page.tables["sites"][1:]}
    mine = {s: [it for it in served if it[1] == s] for s in sites}
    due("the open sites", rows, {names["site", s]: (len(mine[s]), sum(demand[c] for c, *_ in mine[s]), fixed, sum(it[2] for it in mine[s]))
                                 for s, fixed in sites.items()})
    due("who serves whom", [(a, b, value(c), value(d)) for a, b, c, d in page.tables["customers"][1:]],
        [(names["customer", c], names["site", s], demand[c], cost) for c, s, cost in served])
    for what, name, size, checksum in page.tables["sources"][1:]:
        body = scene.read(name)
        due(what, (int(size.replace(",", "")), checksum), (len(body), hashlib.sha256(body).hexdigest()))
        due(f"{what} within the report", base64.b64decode(page.links[name].partition(",")[2]), body)
    due("the sheets", page.tables["sheets"][1:], [[it, hashlib.sha256(scene.read(it)).hexdigest(), "as it was"] for it in ("sites.csv", "customers.csv", "lanes.csv")])
    if ("b", "") in page.tags or ("img", "x") in page.tags or page.tags & {("script", ""), ("link", "")}:
        wrong("its tags", page.tags)


def repeats(scene, page, claim):
    """The commands of a report do what it says."""
    said = subprocess.run(["sh", "-e"], input=page.texts["commands"], cwd=scene.program.folder, capture_output=True, text=True)
    due("its commands", (said.returncode, said.stderr), (0, ""))
    for row in page.tables["sources"][1:]:
        if f"{row[3]}  {row[1]}" not in said.stdout:
            wrong("a checksum by its command", said.stdout)
    if f"\nyes {claim}\n" not in said.stdout or "\noptimal " not in said.stdout and claim.startswith("optimal"):
        wrong("what its commands print", said.stdout)
    scene.commands += page.texts["commands"].count("\n") + 1


def follow(scene, has_places):
    """A region from its sheets to a report, and after a change to one against the base."""
    scene.make(has_places)
    said, _ = scene.solve("region.own", "plan.txt", "proof.cert", *random.choice([[], ["budget=0"]]))
    claim = " ".join(said.split()[:2 if said.startswith("optimal") else 3])
    if "none" in claim or claim.startswith("infeasible"):
        return
    page = scene.report("region.own", "plan.txt", "proof.cert", "--title", EVIL, "--unit", "km")
    same(scene, page, claim)
    due("its map", ("img", "data:") in page.tags, has_places)
    repeats(scene, page, claim)
    against(scene)


def plan_of(scene, name):
    """The costs of a plan text's open sites, and the sites of its customers."""
    lines = [line.split() for line in scene.read(name).decode().splitlines()]
    return {it[1]: Decimal(it[2]) for it in lines if it[0] == "site"}, {it[1]: (it[2], Decimal(it[3])) for it in lines if it[0] == "serve"}


def against(scene):
    """What changed where a lease is another one: the amounts, the costs, and who moves."""
    names, _ = scene.names()
    opened, served = plan_of(scene, "plan.txt")
    [site] = random.sample(sorted(opened), 1)
    scene.program.ask("session", "own", scene.program.at("region.own"),
                      input=f"fixed {site} 12345.5\ndemand 1 61\nsave {scene.program.at('edited.own')}\n".encode())
    scene.solve("edited.own", "edited.txt", "edited.cert")
    page = scene.report("edited.own", "edited.txt", "edited.cert", "--base", "region.own", "plan.txt")
    changes = {(row[0], row[1]): value(row[3]) for row in page.tables["changes"][1:]}
    due("what changed", changes, {(names["site", site], "fixed cost"): Decimal("12345.5"), (names["customer", "1"], "demand"): 61})
    now, moved = plan_of(scene, "edited.txt")
    costs = lambda sites, those: (sum(sites.values()) + sum(it[1] for it in those.values()), sum(sites.values()), sum(it[1] for it in those.values()))
    due("the differences", [tuple(value(it) for it in row[1:]) for row in page.tables["differences"][1:]],
        [(a, b, b - a) for a, b in zip(costs(opened, served), costs(now, moved))])
    moves = [[names["customer", c], names["site", served[c][0]], names["site", s]] for c, (s, _) in moved.items() if s != served[c][0]]
    due("who moves", page.tables.get("moves", [[]])[1:], moves)
    refusals(scene)


def refusals(scene):
    """What isn't so is refused. There are a region and an edited one, each with its plan and its certificate."""
    plan, cert = scene.read("plan.txt").decode(), scene.read("proof.cert")
    put = lambda name, text: scene.program.write(name, text if isinstance(text, bytes) else text.encode())
    cost = plan.splitlines()[1].split()[-1]
    put("dearer.txt", plan.replace(cost, f"{Decimal(cost) + 1:.6f}"))
    put("bracket.txt", plan.replace(plan.splitlines()[1], f"bracket 0.000000 {cost}"))
    put("front.cert", cert[:-5])
    put("center.txt", plan.replace("dualoc-plan", "dualoc-center").replace(plan.splitlines()[1], f"radius {max(re.findall(r'serve .* (.*)', plan), key=Decimal)}"))
    put("fewer.csv", b"".join(line for line in scene.read("names.csv").splitlines(True) if not line.startswith(b"site,1,")))
    whole = ["region.own", "names.csv", "plan.txt", "proof.cert"]
    for at, name, why in ((2, "dearer.txt", "dearer.txt"), (2, "bracket.txt", "proof.cert: check says"), (2, "edited.txt", ""),
                          (3, "front.cert", "front.cert"), (3, "edited.cert", "edited.cert"), (1, "fewer.csv", "has no site 1"),
                          (2, "center.txt", "center.txt"), (2, "proof.cert", "proof.cert"), (0, "none.own", "none.own")):
        words = [*whole[:at], name, *whole[at + 1:]]
        scene.refuse(why, *words, REPORT)
    scene.run("report", *whole, "plan.txt", status=1)
    due("a plan over which a report isn't written", scene.read("plan.txt").decode(), plan)


def another_plan(scene):
    """A plan of the same cost that isn't the certificate's."""
    scene.program.write("two.own", b"dualoc-instance 1\nsites 2 next 3\ncustomers 1 next 2\ncount 0 3000\ncustomer 1 1\n"
                                   b"site 1 3 none 4\nsite 2 3 none 4\nend\n")
    scene.program.write("two.csv", b"kind,id,name,fixed cost,capacity,status,demand\nsite,1,A,3,,free,\nsite,2,B,3,,free,\ncustomer,1,C,,,,1\n")
    scene.solve("two.own", "two.txt", "two.cert")
    other = {b"1": b"2", b"2": b"1"}
    scene.program.write("other.txt", re.sub(rb"(site |serve 1 )([12])", lambda it: it[1] + other[it[2]], scene.read("two.txt")))
    scene.run("report", "two.own", "two.csv", "two.txt", "two.cert", REPORT)
    scene.refuse("isn't the one that is shown", "two.own", "two.csv", "other.txt", "two.cert", REPORT)


def in_session(scene):
    """The report of a console, whose edits are repeated by its commands."""
    scene.make(True)
    lines = [f"fixed {json.dumps(EVIL, ensure_ascii=False)} 7" if EVIL.encode() in scene.read("sites.csv") else "demand \"Town 0\" 7",
             'demand "Town 0" 8', "solve", f"report {REPORT} Region"]
    ran = subprocess.run([scene.script, "console", "region.own", "names.csv"], input="".join(f"{it}\n" for it in lines),
                         cwd=scene.program.folder, capture_output=True, text=True)
    due(lines, ran.returncode, 0)
    page = Page(scene.read(REPORT).decode())
    due("its edits", page.texts["edits"].count(" -> "), 2)
    for row in page.tables["sources"][1:]:
        scene.program.write(row[1], base64.b64decode(page.links[row[1]].partition(",")[2]))
    repeats(scene, page, page.texts["said"].removeprefix("yes "))
    scene.reports += 1


def check(program, *_):
    scene = Scene(program)
    for it in range(ROUNDS):
        follow(scene, it > 0)
    another_plan(scene)
    in_session(scene)
    return f"signed: {scene.reports} reports say what is so, {scene.commands} of their commands repeat it, and {scene.refused} that don't are refused"


if __name__ == "__main__":
    main(check)
