"""Plans that are told in three ways, as a plan text, as a JSON report, and beside an instance, and what the tools refuse of these,
for `tools.py`."""
import csv
import io
import json
import random

from common import texts
from refusals import CUSTOMERS, GOOD, INSTANCE, LANES, MAP, NAMES, PLAN, REPORT, SITES, TABLE, draw, sheets, wrong


def json_of(plan):
    """The JSON report of a plan text, by the list of docs/FORMATS.md: keys in the alphabet's order, amounts in quotes."""
    _, (answer, *costs), *rest, _ = (line.split() for line in plan.splitlines())
    told = {"answer": answer}
    if costs:
        told |= {"cost": None if costs[-1] == "none" else costs[-1]} | ({"low": costs[0]} if answer == "bracket" else {})
        mine = lambda s: [int(line[1]) for line in rest if line[0] == "serve" and line[2] == s]
        told["sites"] = [{"customers": mine(it[1]), "fixed": it[2], "id": int(it[1])} for it in rest if it[0] == "site"]
    return json.dumps(told, separators=(",", ":"), sort_keys=True) + "\n"


def plan_in_session(scene, *budget):
    """The plan text of a session and, where the program knows that line, its own JSON report, which has to be the one above."""
    lines = " ".join(["solve", *budget]) + "\nanswer\njson\n"
    said, _ = scene.program.ask("session", "own", INSTANCE, input=lines.encode())
    _, *lines, last = said.splitlines(keepends=True)
    plan = "".join(lines)
    if last != "refused BadCommand\n":
        scene.reports += 1
        if last != json_of(plan):
            wrong(plan, f"the report is {last!r}, and {json_of(plan)!r} is due")
    return plan, json_of(plan)


def rewritten(report):
    """The same report as another program may write it: with spaces and lines, and the sites and customers in any order."""
    told = json.loads(report)
    random.shuffle(told.get("sites", []))
    for site in told.get("sites", []):
        random.shuffle(site["customers"])
    return json.dumps(told, indent=random.choice([None, 1, 4]))


def made(scene, tool, plan, file, *words):
    """What a tool makes of a plan."""
    said, why = scene.call(tool, *["table"][:tool is sheets], plan, NAMES, file, *words)
    if why:
        wrong((scene.read(plan), words), why)
    return said, scene.read(file, "utf-8-sig")


def other_numbers(names):
    """The file of names with other costs, capacities, statuses and demands."""
    rows, written = [*csv.DictReader(io.StringIO(names))], io.StringIO()
    for row in rows:
        row |= {"customer": {"demand": "7"}, "site": {"fixed cost": "8.5", "capacity": "", "status": "closed"}}.get(row["kind"], {})
    file = csv.DictWriter(written, rows[0], lineterminator="\n")
    file.writeheader()
    file.writerows(rows)
    return written.getvalue()


def told_anew(scene, report, has_places):
    """A JSON report has the sheet and the map of its plan text, since the instance tells the lanes. Where the file of names has other
    numbers, those of an instance that is named count."""
    scene.put(REPORT, random.choice([report, rewritten(report)]))
    names, beside = scene.read(NAMES), ("--instance", INSTANCE)
    for tool, file, words in [(sheets, TABLE, ())] + [(draw, MAP, ("--unit", "km"))] * has_places:
        due, bare = made(scene, tool, PLAN, file, *words), made(scene, tool, REPORT, file, *words)
        if bare != due:
            wrong(report, f"of the report {file} is {bare!r}, and of the plan text {due!r}")
        for known in names, other_numbers(names):
            scene.put(NAMES, known)
            for shown in PLAN, REPORT:
                if made(scene, tool, shown, file, *words, *beside) != due:
                    wrong((scene.read(shown), known), f"with the instance {file} is {scene.read(file)!r}, and {due[1]!r} is due")
        scene.put(NAMES, names)


def same_refusal(scene, words, due):
    """The first fault that is told is the one that is due."""
    said, why = scene.call(*words)
    if said is not None or why.split("\n")[0] != due:
        wrong(words[1:], f"{said!r}, {why!r}, and {due!r} is due")


PIECES = b'0129.,:;+-"[]{} \n\r\0nE\xc3\xa9'
SESSION = b"fixed 1 20\naddcust 1 2 3\ndropcust 2\nsolve\nsave made.own\nanswer\n"
EDITED = """what,name,served by,customers,cost,demand,capacity,share %,spare
customer,A,Ulm,,1,2,,,
customer,C,Ulm,,2,1,,,
site,Ulm,,2,20,3,20,15,17
site,Riga,,0,7,0,,,
total,optimal,,2,30,3,,,
"""


def edited(scene):
    """The plan of a session whose edits the file of names doesn't know: the instance tells them, but for names and coordinates."""
    for name, text in GOOD.items():
        scene.put(name, text)
    scene.own("--lanes", LANES)
    scene.put(PLAN, scene.program.ask("session", "own", INSTANCE, input=SESSION)[0].split("ok\n")[-1])
    scene.put(REPORT, json_of(scene.read(PLAN)))
    names, beside = scene.read(NAMES), ("--instance", INSTANCE)
    unlike = f"{NAMES}: 'Ulm' costs 12.5, and in {INSTANCE} 20; --instance takes an instance that was edited"
    for plan in PLAN, REPORT:
        scene.put(NAMES, names)
        for words in (), beside:
            same_refusal(scene, (sheets, "table", plan, NAMES, TABLE, *words), f"{NAMES}: it has no customer 3, and {INSTANCE} has one")
        scene.put(NAMES, names + "customer,3,C,,,,0,2,2,\n")
        same_refusal(scene, (sheets, "table", plan, NAMES, TABLE), unlike)
        if made(scene, sheets, plan, TABLE, *beside)[1] != EDITED:
            wrong(SESSION, f"the sheet is {scene.read(TABLE)!r}, and {EDITED!r} is due")
        if made(scene, draw, plan, MAP, *beside)[0] != "open 2 closed 0 customers 2\n":
            wrong(SESSION, "the map has other marks")


def plans_at_fault(plan):
    """Plan texts that are cut, changed or of another instance, each with its refusal."""
    lines = plan.splitlines(keepends=True)
    line = lambda at: f", line {at}: this is no line of a plan text, or the last one is missing"
    neither = ", line 1: neither a plan text, which begins with dualoc-plan or dualoc-center, nor a JSON report, which begins with {"
    changed = lambda old, new: plan.replace(old, new, 1)
    return [
        ("", neither),
        ("optimal 22.750000 made 0 nodes 1\n" + plan, neither),
        ("[]", neither),
        (plan.replace("end\n", ""), line(len(lines) - 1)),
        (plan + "\n", line(len(lines))),
        (changed("plan 1", "plan 2"), line(1)),
        (changed("optimal", "best"), line(2)),
        (changed(".000000", ".0"), line(4)),
        (changed("site 2", "site +2"), line(4)),
        (changed("site 2", "site 1"), line(4)),
        (changed("serve 2", "serve 1"), line(6)),
        ("dualoc-plan 1\nbracket 1.000000 none\nend\n", ": it says 'bracket 1.000000 none', and has no plan"),
        (changed("site 2 ", "site 3 "), f": it opens site 3, which isn't in {INSTANCE}"),
        (changed("site 2 7.", "site 2 8."), f": it opens site 2 for 8, and in {INSTANCE} that costs 7"),
        (changed("serve 2 ", "serve 9 "), f": it serves customer 9, who isn't in {INSTANCE}"),
        (changed("serve 2 1", "serve 2 4"), ": it serves customer 2 from site 4, which it doesn't open"),
        (plan.replace(lines[-2], ""), f": it doesn't serve customer 2 of {INSTANCE}"),
        (changed("serve 2 1 2.", "serve 2 1 3."), f": customer 2 is served from site 1 for 3.25, and in {INSTANCE} that costs 2.25"),
        (changed("serve 1 1 1.", "serve 1 2 1."), f": customer 1 is served from site 2, and {INSTANCE} has no such lane"),
        (changed("optimal 2", "optimal 1"), ": its costs don't sum to the one that it claims"),
        (plan.replace(lines[3], ""), f": it doesn't open site 2, which must be open in {INSTANCE}"),
        (changed("plan", "center"), line(2)),
        (changed("plan", "center").replace("optimal 22.75", "radius 2.00"), ": its dearest lane costs 2.25, and 2 is claimed"),
        ("dualoc-center 1\nbracket 1.000000 none\nend\n", ": it says 'bracket 1.000000 none', and has no plan"),
    ]


def reports_at_fault(report):
    """The same of JSON reports."""
    changed = lambda old, new: report.replace(old, new, 1)
    amount = "due is an amount with six decimals, in quotes"
    return [
        (report[:-3], f", line 1, character {len(report) - 2}: this is no JSON: Expecting ',' delimiter"),
        (report + "]", ", line 2, character 1: this is no JSON: Extra data"),
        (changed('"22.750000"', "22.75"), f", at .cost: {amount}"),
        (changed('"22.750000"', '"22.75"'), f", at .cost: {amount}"),
        (changed('"22.750000"', "null"), f", at .cost: {amount}"),
        (changed('"12.500000"', "12.5"), f", at .sites[0].fixed: {amount}"),
        (changed("optimal", "best"), ", at .answer: due is optimal, bracket or infeasible"),
        (changed("optimal", "bracket"), ", at .: due is an object with answer, cost, sites, low"),
        (changed('"fixed":"7.000000",', ""), ", at .sites[1]: due is an object with customers, fixed, id"),
        (changed('"id":2', '"id":2,"name":"Riga"'), ", at .sites[1]: due is an object with customers, fixed, id"),
        (changed("[1,2]", "[1,1]"), ", at .sites[0].customers[1]: due is an id that stands once"),
        (changed("[1,2]", '[1,"2"]'), ", at .sites[0].customers[1]: due is an id that stands once"),
        (changed("[1,2]", "{}"), ", at .sites[0].customers: due is a list"),
        (changed('"id":2', '"id":1'), ", at .sites[1].id: due is an id that stands once"),
        (changed('"id":2', '"id":2.0'), ", at .sites[1].id: due is an id that stands once"),
        (changed('"id":2', '"id":true'), ", at .sites[1].id: due is an id that stands once"),
        (changed('"id":2', '"id":2,"id":2'), ": a key stands twice in an object"),
        (changed("[1,2]", "[" * 10**5), ": it has a number or a list that no JSON report has"),
        (changed("[1,2]", "9" * 10**4), ": it has a number or a list that no JSON report has"),
        ('{"answer":"infeasible"}\n', ": it says 'infeasible', and has no plan"),
        ('{"answer":"bracket","cost":null,"low":"1.000000","sites":[]}\n', ": it says 'bracket', and has no plan"),
        (changed('"id":2', '"id":3'), f": it opens site 3, which isn't in {INSTANCE}"),
        (changed("[1,2]", "[1]"), f": it doesn't serve customer 2 of {INSTANCE}"),
        (changed("[1,2]", "[1,2,9]"), f": it serves customer 9, who isn't in {INSTANCE}"),
    ]


def instances_at_fault(own):
    """Instances that don't go with the plan, each with its refusal."""
    form = lambda line: f"{INSTANCE}, line {line}: this isn't what is due in the suite's own form of an instance"
    return [
        (own.replace("dualoc-instance", "dualoc-plan"), form(1)),
        (own.replace("site 2", "sight 2"), form(8)),
        (own.replace("end\n", ""), form(8)),
        (own.replace("7.000000", "7,0"), form(8)),
        (own.replace("7.000000", "7.5"), f"{{}}: it opens site 2 for 7, and in {INSTANCE} that costs 7.5"),
        (own.replace("customer 2", "customer 3"), form(6)),
        (own + "more", f"{INSTANCE}, line 9: something stands behind the end"),
        (own.replace("20.000000", "5.000000"), f"{{}}: site 1 serves 5.5, and in {INSTANCE} its capacity is 5"),
        (own.replace("open", "closed"), f"{{}}: it opens site 2, which must stay closed in {INSTANCE}"),
        (own.replace("0 3000", "0 1"), f"{{}}: it opens 2 sites, and in {INSTANCE} from 0 to 1 are to be open"),
        (own.replace("2 next 3\ncount", "2 next 4\ncount").replace("customer 2", "customer 3"), f"{NAMES}: it has no customer 3, and {INSTANCE} has one"),
        (own.replace("1.000000 2.250000", "1 none"), f"{{}}: customer 2 is served from site 1, and {INSTANCE} has no such lane"),
    ]


def changed_anyhow(scene):
    """A report and a plan text that are cut or changed anywhere are refused, or mean the same; instances, names and sheets are
    refused, or have other numbers."""
    beside, changed = ("--instance", INSTANCE), 0
    due = made(scene, sheets, PLAN, TABLE, *beside)
    for name, plan in (REPORT, REPORT), (PLAN, PLAN), (INSTANCE, REPORT), (NAMES, PLAN):
        original = scene.read(name).encode()
        for text in texts(original, PIECES, 200):
            with open(scene.path[name], "wb") as file:
                file.write(text)
            said, why = scene.call(sheets, "table", plan, NAMES, TABLE, *beside)
            is_same = name in (INSTANCE, NAMES) or (said, scene.read(TABLE, "utf-8-sig")) == due
            if (why is None) == (said is None) or (said and not is_same):
                wrong((name, text), f"{said!r}, {why!r}, and the sheet is {scene.read(TABLE)!r}")
            changed += 1
        scene.put(name, original.decode())
    for name in SITES, CUSTOMERS, LANES:
        for text in texts(GOOD[name].encode(), PIECES, 200):
            with open(scene.path[name], "wb") as file:
                file.write(text)
            said, why = scene.own("--lanes", LANES)
            if (why is None) == (said is None):
                wrong((name, text), f"{said!r}, {why!r}")
            changed += 1
        scene.put(name, GOOD[name])
    return changed


def refuse_answers(scene):
    """Each of these is refused by both tools, and the file that they would write stays as it was."""
    for name, text in GOOD.items():
        scene.put(name, text)
    scene.own("--lanes", LANES)
    scene.program.ask("solve", "own", INSTANCE, PLAN, "proof")
    plan, own, names = (scene.read(name) for name in (PLAN, INSTANCE, NAMES))

    def refused(text, due, *words):
        for tool, file, before in (sheets, TABLE, ["table"]), (draw, MAP, []):
            scene.put(file, "before")
            same_refusal(scene, (tool, *before, text, NAMES, file, *words), due)
            if scene.read(file) != "before":
                wrong((scene.read(text), words), f"it is refused, and {file} is written")

    told = [(PLAN, *it) for it in plans_at_fault(plan)] + [(REPORT, *it) for it in reports_at_fault(json_of(plan))]
    for name, text, due in told:
        if text in (plan, json_of(plan)):
            wrong(due, "nothing was changed")
        scene.put(name, text)
        refused(name, name + due)
    scene.put(PLAN, plan)
    scene.put(REPORT, json_of(plan))
    for text, due in instances_at_fault(own):
        scene.put(INSTANCE, text)
        for name in PLAN, REPORT:
            refused(name, due.format(name), "--instance", INSTANCE)
    scene.put(INSTANCE, own.replace("2.250000", "2.5"))
    refused(PLAN, f"{PLAN}: customer 2 is served from site 1 for 2.25, and in {INSTANCE} that costs 2.5", "--instance", INSTANCE)
    refused(REPORT, f"{REPORT}: its costs don't sum to the one that it claims", "--instance", INSTANCE)
    scene.put(INSTANCE, own)
    for old, new, due in [("site,2", "site,1", "row 3, column B (id): '1' is another site's"),
                          ("site,2", "site,1.5", "row 3, column B (id): '1.5' isn't whole"),
                          ("site,2", "shop,2", "row 3, column A (kind): 'shop' is none of site, customer, rule, sheet"),
                          ("rule,,instance", "rule,,instants", f"row 6, column J (value): '{INSTANCE}' is no value of 'instants'"),
                          ("kind,", "sort,", "row 1: this is no file of names, whose titles are kind, id, name, fixed cost, capacity, "
                           "status, demand, and perhaps x, y, lat, lon, throughput cost, value")]:
        scene.put(NAMES, names.replace(old, new))
        refused(PLAN, f"{NAMES}, {due}")
    for old, new, due in [(INSTANCE, "nowhere.own", f"nowhere.own: there is no such file, and {NAMES} tells it as its instance; --instance "
                           "names another"), (f"rule,,instance,,,,,,,{INSTANCE}\n", "", f"{NAMES}: it doesn't tell its instance; "
                                                                                "--instance names it")]:
        scene.put(NAMES, names.replace(old, new))
        refused(PLAN, due)
    scene.put(NAMES, names.replace(",,2,0,0", ",,2,,"))
    if scene.call(draw, REPORT, NAMES, MAP)[1] != f"{NAMES}: 'A' has no x and y":
        wrong(plan, scene.call(draw, REPORT, NAMES, MAP))
    scene.put(NAMES, names)
    return len(told) + len(instances_at_fault(own)) + 10, changed_anyhow(scene)
