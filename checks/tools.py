"""Compares the tools for sheets and maps with plain readings: `tools.py PROGRAM [SHEETS]`.

Random sheets, with names, decimals, thousands and quotes of many kinds and with lanes in each of the three ways, have to
become the instance that they mean, in the one spelling in which `convert` writes it. It is solved, and the sheet of the plan
has to say what a plain reading of the plan text says, with sums that are added up anew; the map has to be well-formed, with a
mark for each site and customer within it. A JSON report of the same plan has to give the same sheet and the same map. What
isn't told by a sheet is refused, with its file, row and column, and then nothing is written, and so is what is neither a plan
text nor a report. The example in `examples/sheets/` goes all the way through the commands.
"""
import csv
import io
import random
import subprocess
import sys
import time
import xml.etree.ElementTree as ElementTree
from decimal import ROUND_HALF_UP, Decimal
from pathlib import Path

from common import MICRO, main
from instances import DONE
from planners import Task, reading
from refusals import (CUSTOMERS, FILES, GOOD, INSTANCE, LANES, MAP, NAMES, PLAN, REPORT, ROOT, SITES, TABLE, Scene, cells, draw,
                      refuse, sheets, wrong)
from retold import edited, plan_in_session, refuse_answers, told_anew

SHEETS = 300
# What is said of the example's sheets.
SAID = ("sites 6, capacity 1,200, fixed costs 10,850; customers 20, demand 586, the largest 45; "
        "lanes 102 and 18 pairs without one, 158.4 to 1,841.4 each\n")
# How the pictures of the pages are drawn.
DRAWN = "--title", "The region", "--unit", "km"
SVG = "{http://www.w3.org/2000/svg}"


def in_cell(name):
    """A name as it stands in a sheet: what begins like a formula, and is no number, stands behind an apostrophe."""
    is_number = name[0] == "-" and any(reading(name[1:], mark) is not None for mark in ".,")
    return "'" + name if name[0] in "=+-@" and not is_number else name


def same_table(scene, task, inst, comma):
    """The sheet of the plan against the plan text, with the sums added up anew."""
    said, why = scene.call(sheets, "table", PLAN, NAMES, TABLE, *["--comma"] * comma)
    plan = [line.split() for line in scene.read(PLAN).splitlines()]
    if why:
        wrong(plan, why)
    mark, delimiter = (",", ";") if comma else (".", ",")
    head, *rows = csv.reader(io.StringIO(scene.read(TABLE, "utf-8-sig")), delimiter=delimiter)
    value = lambda text: None if text == "" else Decimal(text.replace(mark, "."))
    units = lambda micro: None if micro is None else Decimal(micro) / MICRO
    demand, by_id = dict(inst.customers), {s: rest for s, *rest in inst.sites}
    served = {int(it[1]): (int(it[2]), Decimal(it[3])) for it in plan if it[0] == "serve"}
    customers, sites = ([in_cell(it) for it in those] for those in (task.customer_names, task.site_names))
    due = [("customer", customers[c - 1], sites[s - 1], None, cost, units(demand[c]), None, None, None)
           for c, (s, cost) in served.items()]

    def room(what, name, count, cost, load, cap):
        share = None if cap is None else (load * 100 / cap if cap else Decimal()).quantize(Decimal("0.1"), ROUND_HALF_UP)
        return what, name, "", count, cost, units(load), units(cap), share, None if cap is None else units(cap - load)

    opened = [(int(it[1]), Decimal(it[2])) for it in plan if it[0] == "site"]
    for s, fixed in opened:
        mine = [c for c, (by, _) in served.items() if by == s]
        due.append(room("site", sites[s - 1], len(mine), fixed, Decimal(sum(demand[c] for c in mine)), by_id[s][1]))
    caps = [by_id[s][1] for s, _ in opened]
    total = sum(cost for _, cost in opened) + sum(cost for _, cost in served.values())
    due.append(room("total", plan[1][0], len(served), total, Decimal(sum(demand.values())), None if None in caps else sum(caps)))
    if plan[1][0] == "bracket" and plan[1][1] != plan[1][2]:
        due.append(("bound", "no plan costs less", "", None, Decimal(plan[1][1]), None, None, None, None))
    found = [(*row[:3], *map(value, row[3:])) for row in rows]
    if len(head) != 9 or found != due or total != Decimal(plan[1][-1]):
        wrong(plan, f"the sheet is {found}, and {due} is due")
    if not said.startswith(f"{plan[1][0]} ") or not said.endswith(f" sites {len(opened)} customers {len(served)}\n"):
        wrong(plan, f"{said!r} is said")


def same_map(scene, opened, sites, customers, *words):
    """The map has a mark for each, and each within it."""
    said, why = scene.call(draw, PLAN, NAMES, MAP, *words)
    if said != f"open {opened} closed {sites - opened} customers {customers}\n":
        wrong(scene.read(PLAN), f"{said!r}, {why}")
    top = ElementTree.parse(scene.path[MAP]).getroot()
    marks = [it.get("class") for it in top.iter()]
    found = [marks.count(it) for it in ("site open", "site closed", "customer", "lane")]
    if found != [opened, sites - opened, customers, customers] or top.tag != f"{SVG}svg":
        wrong(scene.read(PLAN), f"the map has {found} marks")
    wide, high = (float(it) for it in top.get("viewBox").split()[2:])
    shift = max(float(it.get("transform").strip("translate()").split()[1]) for it in top.iter(f"{SVG}g"))
    spots = [(float(it.get("cx")), float(it.get("cy")) + shift) for it in top.iter(f"{SVG}circle") if it.get("class") == "customer"]
    if not all(0 < x < draw.WIDE < wide and 0 < y < high for x, y in spots):
        wrong(scene.read(PLAN), "a mark is outside of the map")
    scene.maps += 1
    return top


def follow(scene, task):
    """One random task through both tools."""
    options = task.put(scene)
    said, why = scene.own(*options)
    if not task.is_told:
        if not why or "has thousands or decimals; --decimal says which" not in why:
            wrong([scene.read(it) for it in (SITES, CUSTOMERS)], f"a decimal mark isn't told, and {said!r} is said, {why}")
        scene.refused += 1
        return
    inst = task.instance()
    shown = [scene.read(it) for it in (SITES, CUSTOMERS)] + [options]
    if why or scene.read(INSTANCE).encode() != inst.text():
        wrong(shown, f"it means {inst.text()!r}, and is {scene.read(INSTANCE)!r}, {why}")
    said, status = scene.program.ask("convert", "own", INSTANCE, "again")
    if status != DONE or scene.read(INSTANCE).encode() != Path(scene.program.at("again")).read_bytes():
        wrong(shown, f"{said!r}, and the instance isn't in its one spelling")
    plan, report = plan_in_session(scene, *random.choice([[], ["0"]]))
    scene.put(PLAN, plan)
    if "\nsite " not in plan:
        says = plan.splitlines()[1]
        scene.put(REPORT, report)
        for text, word in (PLAN, says), (REPORT, says.split()[0]):
            if scene.call(sheets, "table", text, NAMES, TABLE) != (None, f"{text}: it says {word!r}, and has no plan"):
                wrong(shown, scene.call(sheets, "table", text, NAMES, TABLE))
        return
    same_table(scene, task, inst, random.random() < 0.5)
    opened = plan.count("\nsite ")
    if task.has_places:
        same_map(scene, opened, task.m, task.n, "--title", random.choice(["Plan", "<&\">"]), "--unit", random.choice(["", "km"]))
    told_anew(scene, report, task.has_places)


def rounded(scene):
    """What is written with many decimals is rounded where that is asked for, and a decimal mark that is named is taken."""
    for name, text in GOOD.items():
        scene.put(name, text.replace("12.5", "1.0000005").replace("2.25", "2.1234564999"))
    scene.own("--lanes", LANES, "--round")
    if "site 1 1.000001 20.000000 free 1.000000 2.123456\n" not in scene.read(INSTANCE):
        wrong("rounded", scene.read(INSTANCE))
    # Half a millionth goes up.
    scene.put(CUSTOMERS, GOOD[CUSTOMERS].replace("3.5", "0.5"))
    scene.put(LANES, GOOD[LANES].replace("2.25", "0.000001"))
    scene.own("--lanes", LANES, "--by-demand", "--round")
    if " free 2.000000 0.000001\n" not in scene.read(INSTANCE):
        wrong("half a millionth", scene.read(INSTANCE))
    scene.put(SITES, GOOD[SITES].replace("12.5", "1.234"))
    for options, due in (["--decimal", "point"], "1.234000"), (["--decimal", "comma"], "1234.000000"):
        scene.put(CUSTOMERS, GOOD[CUSTOMERS].replace("3.5", "3"))
        scene.put(LANES, GOOD[LANES].replace("2.25", "2"))
        if scene.own("--lanes", LANES, *options)[1] or f"site 1 {due} " not in scene.read(INSTANCE):
            wrong(options, scene.read(INSTANCE))


def large(scene, m, n):
    """A map of so many sites and customers, of which each is served from the nearest of every tenth site."""
    spots = [(random.randint(0, 9000), random.randint(0, 6000)) for _ in range(m + n)]
    scene.put(SITES, "name,fixed cost,x,y\n" + "".join(f"S{s},1,{x},{y}\n" for s, (x, y) in enumerate(spots[:m])))
    scene.put(CUSTOMERS, "name,demand,x,y\n" + "".join(f"C{c},{c % 7},{x},{y}\n" for c, (x, y) in enumerate(spots[m:])))
    scene.own("--rate", "0")
    opened = range(1, m + 1, 10)
    served = [min(opened, key=lambda s: (spots[s - 1][0] - x)**2 + (spots[s - 1][1] - y)**2) for x, y in spots[m:]]
    lines = ["dualoc-plan 1", f"bracket 0.999999 {len(opened)}.000000", *(f"site {s} 1.000000" for s in opened)]
    scene.put(PLAN, "\n".join([*lines, *(f"serve {c} {s} 0.000000" for c, s in enumerate(served, 1)), "end\n"]))
    start = time.monotonic()
    top = same_map(scene, len(opened), m, n)
    if "bracket: no plan costs less than 0.99" not in [it.text for it in top.iter(f"{SVG}text")] or time.monotonic() - start > 10:
        wrong((m, n), "the map takes long, or doesn't tell the bracket")
    scene.call(sheets, "table", PLAN, NAMES, TABLE)
    if scene.read(TABLE).splitlines()[-1] != "bound,no plan costs less,,,0.999999,,,,":
        wrong((m, n), "the sheet of the plan doesn't tell the bracket")


def example(scene):
    """The commands of README.md, each as a process of its own, and both tools' help."""
    at = ROOT / "examples" / "sheets"

    def ask(*words):
        how = {"cwd": scene.program.folder, "stdout": subprocess.PIPE, "stderr": subprocess.STDOUT, "text": True}
        ran = subprocess.run([sys.executable, *words], **how)
        return ran.stdout, ran.returncode

    tools = [str(ROOT / "tools" / name) for name in ("sheets.py", "draw.py")]
    for words in [tools[:1], [tools[0], "own"], [tools[0], "table"], tools[1:]]:
        if ask(*words, "--help")[1] or ask(*words)[1] != 2 or "usage:" not in ask(*words, "--help")[0]:
            wrong(words, "there is no help")
    said = ask(tools[0], "own", *(str(at / name) for name in FILES[:2]), INSTANCE, NAMES, "--lanes", str(at / LANES))
    if said != (SAID, 0):
        wrong("the example", said)
    cost = scene.program.ask("solve", "own", INSTANCE, PLAN, "proof")[0].split()[1]
    if scene.program.ask("check", "own", INSTANCE, "proof")[0] != f"yes optimal {cost}\n":
        wrong("the example", "its certificate has no yes")
    said = ask(tools[0], "table", PLAN, NAMES, TABLE)[0], ask(tools[1], PLAN, NAMES, MAP, *DRAWN)[0]
    short = cells.money(int(cost.replace(".", "")))
    if said != (f"optimal {short} sites 4 customers 20\n", "open 4 closed 2 customers 20\n"):
        wrong("the example", said)
    if ask(tools[1], "no-plan", NAMES, MAP) != ("draw.py: [Errno 2] No such file or directory: 'no-plan'\n", 1):
        wrong("no plan", ask(tools[1], "no-plan", NAMES, MAP))
    # What the pages show of it.
    if f"`optimal {cost}`" not in (ROOT / "README.md").read_text():
        wrong("README.md", f"it doesn't tell the example's cost, {cost}")
    if scene.read(MAP) != (ROOT / "docs" / "pictures" / "region.svg").read_text():
        wrong("docs/pictures/region.svg", "the map of the example is another one")


def compare(program, count=SHEETS):
    scene = Scene(program)
    for _ in range(int(count)):
        follow(scene, Task())
    refused, changed = refuse_answers(scene)
    refused += refuse(scene)
    edited(scene)
    rounded(scene)
    large(scene, 30, 150)
    large(scene, 300, 500)
    example(scene)
    reports = "the program's own JSON reports" if scene.reports else "JSON reports"
    return (f"tools: {count} random sheets, of which {scene.refused} leave their decimals open, {refused} refusals, {changed} "
            f"changed files, {scene.maps} maps and {reports} are as plain readings have them")


if __name__ == "__main__":
    main(compare)
