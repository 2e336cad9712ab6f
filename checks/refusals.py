"""What the tools refuse of a planner's sheets, with its place, and how `tools.py` calls them."""
import contextlib
import io
import os
import sys
from pathlib import Path

ROOT = Path(__file__).resolve().parent.parent
sys.path.insert(0, str(ROOT))
from planner import cells, draw, sheets

FILES = "sites.csv", "customers.csv", "lanes.csv", "made.own", "names.csv", "plan", "report.json", "table.csv", "map.svg"
SITES, CUSTOMERS, LANES, INSTANCE, NAMES, PLAN, REPORT, TABLE, MAP = FILES


def wrong(shown, why):
    sys.exit(f"check: {shown!r}: {why}")


class Scene:
    """The folder of the files, in which both tools are called, and what was seen."""

    def __init__(self, program):
        self.program, self.refused, self.maps, self.reports = program, 0, 0, 0
        self.path = {name: program.at(name) for name in FILES}

    def put(self, name, text, encoding="utf-8"):
        with open(self.path[name], "w", encoding=encoding, newline="") as file:
            file.write(text)

    def read(self, name, encoding="utf-8"):
        with open(self.path[name], encoding=encoding, newline="") as file:
            return file.read()

    def call(self, tool, *words):
        """What a tool prints, or the refusal."""
        said = io.StringIO()
        try:
            with contextlib.redirect_stdout(said):
                tool.main([self.path.get(it, it) for it in words])
        except cells.Refusal as why:
            return None, str(why).replace(self.program.folder + os.sep, "")
        return said.getvalue(), None

    def own(self, *options):
        """Has the instance made. Where that is refused nothing is written."""
        for name in INSTANCE, NAMES:
            self.put(name, "before")
        said, why = self.call(sheets, "own", SITES, CUSTOMERS, INSTANCE, NAMES, *options)
        if why and (self.read(INSTANCE), self.read(NAMES)) != ("before", "before"):
            wrong(options, f"it is refused, {why}, and a file is written")
        return said, why


GOOD = {SITES: "name,fixed cost,capacity,status,x,y\nUlm,12.5,20,,0,0\nRiga,7,,open,3,4\n",
        CUSTOMERS: "name,demand,x,y\nA,2,0,0\nB,3.5,6,8\n",
        LANES: "site,A,B\nUlm,1,2.25\nRiga,none,4\n"}
BY_ROWS = "from,to,cost\nUlm,A,1\nRiga,B,4\n"
KNOWN = "name, fixed cost, capacity, status, throughput cost, x, y, lat, lon"
# A sheet, what is changed in it or its whole text, further options, and the refusal behind the sheet's name.
REFUSED = [
    (SITES, "Ulm,", "Riga,", "", "row 3, column A (name): 'Riga' stands in row 2 already"),
    (SITES, "Ulm,12.5", ",12.5", "", "row 2, column A (name): the cell is empty"),
    (SITES, "Ulm", "U\0m", "", "row 2, column A (name): the cell has a character that can't be shown"),
    (SITES, "12.5", "", "", "row 2, column B (fixed cost): the cell is empty"),
    (SITES, "12.5", "-12.5", "", "row 2, column B (fixed cost): '-12.5' is negative"),
    (SITES, "12.5", "\u221212.5", "", "row 2, column B (fixed cost): '\u221212.5' is negative"),
    (SITES, "12.5", "none", "", "row 2, column B (fixed cost): 'none' is no number"),
    (SITES, "12.5", "12.5 DM", "", "row 2, column B (fixed cost): '12.5 DM' is no number"),
    (SITES, "12.5", "12.5e3", "", "row 2, column B (fixed cost): '12.5e3' is no number"),
    (SITES, "12.5", "1 23", "", "row 2, column B (fixed cost): '1 23' is no number"),
    (SITES, "12.5", ".", "", "row 2, column B (fixed cost): '.' is no number"),
    (SITES, "12.5", "1.0000001", "", "row 2, column B (fixed cost): '1.0000001' has more than six decimals; --round rounds it"),
    (SITES, "12.5", "1000000000", "", "row 2, column B (fixed cost): '1000000000' is more than 999999999.999999"),
    (SITES, "12.5", "999999999.9999996", "--round",
     "row 2, column B (fixed cost): '999999999.9999996' is more than 999999999.999999"),
    (SITES, "12.5", "1.234", "", "row 2, column B (fixed cost): '1.234' has thousands or decimals; --decimal says which"),
    (SITES, "12.5", '"1,234"', "", "row 2, column B (fixed cost): '1,234' has thousands or decimals; --decimal says which"),
    (SITES, "20,,0,0\nRiga,7,,", '"2,5",,0,0\nRiga,7,2.5,', "", "row 3, column C (capacity): '2.5' has another decimal mark than '2,5' in row 2"),
    (SITES, "12.5", "12.5", "--decimal fixed_cost=comma", "row 2, column B (fixed cost): '12.5' has another decimal mark than --decimal"),
    (SITES, ",20,", ",-1,", "", "row 2, column C (capacity): '-1' is negative"),
    (SITES, "open", "opened", "", "row 3, column D (status): 'opened' is none of free, open, closed"),
    (SITES, ",0,0", ",0,", "", "row 2, column F (y): there is no y beside the other coordinate"),
    (SITES, "capacity", "capactiy", "", f"row 1, column C: 'capactiy' is none of {KNOWN}; --skip passes a column over"),
    (SITES, "capacity", "Fixed_Cost", "", "row 1, column C: the title 'fixed cost' stands twice"),
    (SITES, "fixed cost", "rent", "--skip Rent", "row 1: no column has the title 'fixed cost'"),
    (SITES, "12.5", "12,5", "", "row 2: it has 7 cells, and row 1 has 6"),
    (SITES, "Ulm", '"Ul"m', "", "line 2: ',' expected after '\"'"),
    (SITES, None, "", "", "row 1: the titles of the columns are due"),
    (SITES, None, "\nname,fixed cost\nUlm,1", "", "row 1: the titles of the columns are due"),
    (SITES, None, "name,fixed cost\n,\n", "", "row 2: a first row is due below the titles"),
    (SITES, None, "name,fixed cost\n" + "".join(f"{it},1\n" for it in range(3001)), "", "it has 3001 sites, and 3000 is the limit"),
    (CUSTOMERS, "\nB", "\n\nA", "", "row 4, column A (name): 'A' stands in row 2 already"),
    (CUSTOMERS, "3.5", "", "", "row 3, column B (demand): the cell is empty"),
    (CUSTOMERS, "3.5", "-0.1", "", "row 3, column B (demand): '-0.1' is negative"),
    (CUSTOMERS, "demand", "weight", "", "row 1, column B: 'weight' is none of name, demand, x, y, lat, lon; --skip passes a column over"),
    (LANES, "Ulm", "Bonn", "", "row 2, column A (site): 'Bonn' is none of the sites"),
    (LANES, "Ulm,", "Riga,", "", "row 3, column A (site): 'Riga' stands in row 2 already"),
    (LANES, ",B", ",C", "", "row 1, column C: 'C' is none of the customers"),
    (LANES, ",B", ",A", "", "row 1, column C: 'A' has another column already"),
    (LANES, ",B", ",", "", "row 1, column C: the cell is empty"),
    (LANES, "2.25", "", "", "row 2, column C (B): the cell is empty; none stands for a lane that isn't there"),
    (LANES, "2.25", "-2.25", "", "row 2, column C (B): '-2.25' is negative"),
    (LANES, "2.25", "x", "", "row 2, column C (B): 'x' is no number"),
    (LANES, "2.25", "2.250001", "--by-demand",
     "row 2, column C (B): its cost by the demand has more than six decimals; --round rounds it"),
    (LANES, "2.25", "999999999.5", "--by-demand", "row 2, column C (B): its cost by the demand is more than 999999999.999999"),
    (LANES, "Riga,none,4\n", "", "", "'Riga' has no row"),
    (LANES, None, "site,B\nUlm,1\nRiga,2", "", "'A' has no column"),
    (LANES, None, BY_ROWS.replace("Ulm", "Bonn"), "", "row 2, column A (from): 'Bonn' is none of the sites"),
    (LANES, None, BY_ROWS.replace(",B,", ",,"), "", "row 3, column B (to): the cell is empty"),
    (LANES, None, BY_ROWS.replace(",4", ","), "", "row 3, column C (cost): the cell is empty; none stands for a lane that isn't there"),
    (LANES, None, BY_ROWS + "Ulm,A,1\n", "", "row 4, column B (to): this lane stands in row 2 already"),
]


def refuse(scene):
    """Each change of the good sheets is refused with its place, and so are files and words at fault."""
    def put(changed=None, old=None, new=None):
        for name, text in GOOD.items():
            scene.put(name, text if name != changed else new if old is None else text.replace(old, new, 1))

    for name, old, new, options, due in REFUSED:
        put(name, old, new)
        said, why = scene.own("--lanes", LANES, *options.split())
        if said or why is None or why.split("\n")[0] not in (f"{name}, {due}", f"{name}: {due}"):
            wrong((name, old, new), f"{said!r} is said, {why!r}, and {due!r} is due")
    put()
    places = scene.read(SITES).replace(",0,0", ",,")
    for options, why_due, text in [
        (["--rate", "1"], f"{SITES}: 'Ulm' has no x and y, of which its distances could be made", places),
        (["--rate", "1,5"], "--rate 1,5: an amount is due, with a decimal point", None),
        (["--rate", "-1"], "--rate -1: an amount is due, with a decimal point", None),
        (["--rate", "999999999"], "from 'Ulm' to 'B': the cost is more than 999999999.999999", None),
        (["--rate", "1", "--count", "2", "1"], "--count 2 1: two numbers up to 3000 are due, the lesser one first", None),
        (["--lanes", SITES], f"{SITES}: it is named twice", None),
    ]:
        scene.put(SITES, text or GOOD[SITES])
        said, why = scene.own(*options)
        if said or why is None or why.split("\n")[0] != why_due:
            wrong(options, f"{said!r} is said, {why!r}, and {why_due!r} is due")
    scene.put(SITES, GOOD[SITES].replace("Ulm", "Köln"), "cp1252")
    if scene.own("--rate", "1")[1] != f"{SITES}: it isn't written in utf-8-sig; --encoding says in what it is, as cp1252":
        wrong("cp1252", scene.own("--rate", "1"))
    if scene.own("--rate", "1", "--encoding", "cp1252")[0] is None:
        wrong("cp1252", scene.own("--rate", "1", "--encoding", "cp1252"))
    return len(REFUSED) + 7
