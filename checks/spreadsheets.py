"""Reads sheets as spreadsheets write them, and holds what comes of them against plain readings: `spreadsheets.py PROGRAM [REGIONS]`.

Marks of thousands and decimals that differ from column to column, currencies, powers of ten, files of several encodings, a line that
says what parts the cells, and workbooks have to be read as they are meant, or refused, all faults at once. Random regions with
latitudes and longitudes have to get the lanes that a plain reading gives, and `compare` has to call them equal, or name just the
numbers that were changed. A center's plan has to be shown with its radius.
"""
import contextlib
import csv
import io
import os
import sys
from pathlib import Path

from common import MICRO, main
from globes import differences, same_lanes
from refusals import CUSTOMERS, INSTANCE, LANES, NAMES, SITES, cells, draw, sheets, wrong

from planner import names, plans

REGIONS = 60
PLAIN = {SITES: "name,fixed cost,capacity,lat,lon\nKassel,250000,,51.32,9.50\nUlm,180000.5,15000,48.40,9.99\n",
         CUSTOMERS: "name,demand,lat,lon\nBerlin,100,52.52,13.40\nMünchen,20.5,48.14,11.58\n",
         LANES: "from,to,cost\nKassel,Berlin,7.5\nKassel,München,3\nUlm,Berlin,1\nUlm,München,2\n"}
RATE = "--rate", "0.25"
THOUSANDS = "name;fixed cost;capacity;{};{}\nKassel;1.368.900;10.304;{}\nUlm;368.900;9.500;{}\n"


class Desk:
    """A folder with the sheets of a planner."""

    def __init__(self, program):
        self.program, self.cases = program, 0
        os.chdir(program.folder)

    def put(self, encoding="utf-8", **changed):
        """Writes the sheets, some of them changed: their text, or a pair of what is replaced in it."""
        for name, text in PLAIN.items():
            change = changed.get(name.removesuffix(".csv"), text)
            text = text.replace(*change, 1) if isinstance(change, tuple) else change
            Path(name).write_bytes(text.encode(encoding))

    def call(self, command, *words):
        """What a command prints with its status, or nothing with its faults."""
        said = io.StringIO()
        try:
            with contextlib.redirect_stdout(said):
                command.main([*words])
        except cells.Refusal as why:
            return None, why.faults
        except SystemExit as end:
            return said.getvalue(), end.code
        return said.getvalue(), 0

    def own(self, *options, sites=SITES, customers=CUSTOMERS):
        for name in INSTANCE, NAMES:
            Path(name).write_text("before")
        said, faults = self.call(sheets, "own", sites, customers, INSTANCE, NAMES, *options)
        if said is None and {Path(name).read_text() for name in (INSTANCE, NAMES)} != {"before"}:
            wrong(options, f"{faults}, and a file is written")
        return said, faults

    def means(self, due, *options, **how):
        """The fixed costs and capacities of the sites, the demands, and what was said, are those."""
        self.cases += 1
        said, faults = self.own(*options, **how)
        if said is None:
            wrong((self.files(), options), faults)
        lines = [it.split() for it in Path(INSTANCE).read_text().splitlines()]
        found = [*(" ".join(it[2:4]) for it in lines if it[0] == "site"), *(it[2] for it in lines if it[0] == "customer")]
        found = [it.replace(".000000", "") for it in found]
        if found != due[:len(found)] or not all(it in said for it in due[len(found):]):
            wrong((self.files(), options), f"it is {found}, {said!r}, and {due} is due")

    def refuses(self, due, *options, **how):
        self.cases += 1
        found = self.own(*options, **how)
        if found != (None, due):
            wrong((self.files(), options), f"{found}, and {due} is due")

    def files(self):
        return [Path(name).read_bytes()[:300] for name in (SITES, CUSTOMERS)]


def thousands(desk):
    """The mark is told by each column alone."""
    geo = THOUSANDS.format("lat", "lon", "51.32;9.50", "48.40;9.99")
    unsure = f"{SITES}, row 2, column C (capacity): '10.304' has thousands or decimals; --decimal says which"
    rest = ["100", "20.500000"]
    desk.put(sites=geo)
    desk.refuses([unsure], *RATE)
    for told in "comma", "capacity=comma":
        desk.means(["1368900 10304", "368900 9500", *rest, "sites 2, capacity 19,804, fixed costs 1,737,800;"], *RATE, "--decimal", told)
    desk.means(["1368900 10.304000", "368900 9.500000", *rest], *RATE, "--decimal", "point")
    # Degrees with three decimals can't be thousands, and kilometres can.
    desk.put(sites=THOUSANDS.format("lat", "lon", "51.320;9.500", "48.400;9.990"))
    desk.means(["1368900 10304", "368900 9500", *rest], *RATE, "--decimal", "capacity=comma")
    planar = THOUSANDS.format("x", "y", "51.320;9.500", "48.400;9.990")
    desk.put(sites=planar, customers=("lat,lon", "x,y"))
    desk.refuses([unsure] + [f"{SITES}, row 2, column {column}: {cell!r} has thousands or decimals; --decimal says which"
                             for column, cell in (("D (x)", "51.320"), ("E (y)", "9.500"))], *RATE)
    of_each = [word for it in ("comma", "x=point", "y=point") for word in ("--decimal", it)]
    desk.means(["1368900 10304", "368900 9500", *rest, "lanes 4, 2 to 5\n"], *RATE, *of_each)
    desk.refuses(["--decimal capcity=comma: point or comma is due, perhaps behind one of fixed cost, throughput cost, cost, capacity, demand, "
                  "x, y, lat, lon and =", unsure, *(f"{SITES}, row 2, column {it} has thousands or decimals; --decimal says which"
                                                    for it in ("D (x): '51.320'", "E (y): '9.500'"))], *RATE, "--decimal", "capcity=comma")


def cells_of_all_kinds(desk):
    """Currencies, powers of ten, lines that say what parts the cells, and encodings."""
    plain = ["250000 none", "180000.500000 15000", "100", "20.500000"]
    one = lambda cell: ("250000,", f'"{cell}",')
    for cell in "€250,000", "250000 €", "EUR 250000", "250000 (EUR)", "2.5E+05", "2.5e5", "250 000.00", "250'000", "$250,000.00":
        desk.put(sites=one(cell))
        desk.means(plain, *RATE)
    for title in "fixed cost (EUR)", "Fixed_Cost [€]", "FIXED  COST ($)":
        desk.put(sites=("fixed cost", title))
        desk.means(plain, *RATE)
    german = ("sep=;\r\nname;fixed cost;capacity;Breitengrad;Längengrad\r\nKassel;250.000,00 €;;51,32;9,50\r\n"
              "Ulm;180.000,50 €;15.000,0;48,40;9,99\r\n")
    said = "capacity 15,000 (1 without), fixed costs 430,000.5; customers 2, demand 120.5, the largest 100; lanes 4, "
    for encoding, options in ("utf-8", []), ("utf-8-sig", []), ("utf-16", []), ("cp1252", ["--encoding", "cp1252"]):
        desk.put(encoding, sites=german)
        desk.means([*plain, said], *RATE, *options)
    none = lambda cell: [f"{SITES}, row 2, column B (fixed cost): {cell!r} is no number"]
    for cell in "250000 DM", "€250000 €", "2.5E+", "12.5E+04", "=1+2", "EUR", "250,00,0":
        desk.put(sites=one(cell))
        desk.refuses(none(cell), *RATE)
    desk.put(sites=("Ulm,180000.5", "Ulm,$180000.5"), lanes=("7.5", "€7.5"))
    desk.refuses([f"{LANES}, row 2, column C (cost): it is in EUR, and {SITES}, row 3, column B, in USD"], "--lanes", LANES)
    desk.put(sites=one("#N/A"))
    desk.refuses([f"{SITES}, row 2, column B (fixed cost): '#N/A' is no number: a formula failed, or was never computed"], *RATE)


def faults_at_once(desk):
    """Every fault of the three sheets and of the options is told, and nothing is written."""
    desk.put(sites=("250000,,51.32", "abc,-1,51.32"), customers=("100,52.52", ",95.2"), lanes=("Ulm,Berlin,1", "Bonn,Berlin,x"))
    desk.refuses([f"{SITES}, row 2, column B (fixed cost): 'abc' is no number",
                  f"{SITES}, row 2, column C (capacity): '-1' is negative",
                  f"{CUSTOMERS}, row 2, column B (demand): the cell is empty", f"{CUSTOMERS}, row 2, column C (lat): '95.2' is more than 90",
                  "--per-unit x: an amount is due, with a decimal point",
                  f"{LANES}, row 4, column A (from): 'Bonn' is none of the sites",
                  f"{LANES}, row 4, column C (cost): 'x' is no number"], "--lanes", LANES, "--per-unit", "x")
    # Where names can't be read, others aren't called unknown.
    desk.put(sites=("Kassel,", ","), lanes=("7.5", "seven"))
    desk.refuses([f"{SITES}, row 2, column A (name): the cell is empty", f"{LANES}, row 2, column C (cost): 'seven' is no number"],
                 "--lanes", LANES)
    desk.put(sites=("lat,lon\nKassel,250000,,51.32,9.50", "lat,x\nKassel,250000,,51.32,9.50"))
    desk.refuses([f"{SITES}, row {row}, column A (name): there is no {it} beside the other coordinate"
                  for row in (2, 3) for it in ("y", "lon")], *RATE)
    desk.put(customers=("lat,lon", "x,y"))
    desk.refuses([f"{CUSTOMERS}: {it!r} has no lat and lon, of which its distances could be made" for it in ("Berlin", "München")], *RATE)
    desk.put()
    desk.refuses(["[Errno 2] No such file or directory: 'none.csv'"], *RATE, customers="none.csv")
    desk.refuses(["--detour 0.9: no way is shorter than the distance"], *RATE, "--detour", "0.9")
    desk.refuses(["--reach 5: that goes with --rate, and not with a sheet of lanes"], "--lanes", LANES, "--reach", "5")


def workbooks(desk):
    """Sheets of workbooks, whose numbers are numbers, whatever they look like."""
    desk.put()
    desk.refuses(["book.xls: workbooks of this kind aren't read; save the sheet as CSV, or the workbook as .xlsx"], *RATE, sites="book.xls")
    sys.modules["openpyxl"], held = None, sys.modules.get("openpyxl")
    Path("book.xlsx").write_bytes(b"PK")
    desk.refuses(["book.xlsx: workbooks are read by openpyxl, which isn't installed; save the sheet as CSV"], *RATE, sites="book.xlsx")
    sys.modules.pop("openpyxl")
    sys.modules |= {"openpyxl": held} if held else {}
    try:
        import openpyxl
    except ImportError:
        return "without openpyxl"
    desk.refuses(["book.xlsx: this is no workbook that can be read (File is not a zip file)"], *RATE, sites="book.xlsx")
    book = openpyxl.Workbook()
    book.active.title = "Sites"
    book.create_sheet("Customers")
    for row in (["name", "fixed cost", "capacity", "lat", "lon"], ["Kassel", 10.304, None, 51.32, 9.5],
                ["Ulm", "1.250.000,5", 15000, 48.4, 9.99]):
        book["Sites"].append(row)
    for row in ["name", "demand", "lat", "lon"], ["Berlin", 1.5e-3, 52.52, 13.4], ["München", 2, 48.14, 11.58], []:
        book["Customers"].append(row)
    book.save("book.xlsx")
    for one, other in ("book.xlsx#Sites", "book.xlsx"), ("book.xlsx", "book.xlsx#customers"):
        desk.means(["10.304000 none", "1250000.500000 15000", "0.001500", "2"], *RATE, sites=one, customers=other)
    desk.refuses(["book.xlsx: it has the worksheets Sites, Customers; book.xlsx#Sites names one"], *RATE, sites="book.xlsx#Prices")
    book["Sites"]["B2"] = "=1+2"
    book.save("book.xlsx")
    desk.refuses(["book.xlsx, row 2, column B (fixed cost): '#VALUE!' is no number: a formula failed, or was never computed"], *RATE,
                 sites="book.xlsx")
    return "with openpyxl"


def by_demand(desk):
    """Throughput costs and a price by unit come to the lanes of a sheet, and a change of demand changes just what goes by it."""
    desk.put(sites=PLAIN[SITES].replace("capacity", "throughput cost").replace(",15000,", ",0.5,"))
    desk.own("--lanes", LANES, "--by-demand", "--per-unit", "0.1")
    lines = Path(INSTANCE).read_text().splitlines()
    if [it.split()[4:] for it in lines if it.startswith("site ")] != [["760.000000", "63.550000"], ["160.000000", "53.300000"]]:
        wrong("by demand", lines)
    kept = names.read(NAMES)
    rule, (site, *_), (berlin, *_) = kept.rule, kept.sites.values(), kept.customers.values()
    more = type(berlin)(berlin.name, 110 * MICRO, berlin.at, berlin.is_geo)
    if rule.again(760 * MICRO, site, berlin, more) != 836 * MICRO or not rule.goes_by_demand(site):
        wrong("a change of demand", rule.again(760 * MICRO, site, berlin, more))


def centers(desk):
    """The plan of a center is shown, with its radius."""
    desk.put()
    desk.own("--lanes", LANES)
    said, status = desk.program.ask("center", "own", INSTANCE, "plan", "proof", "cut")
    plan = plans.read("plan")
    for command, words in (sheets, ["table", "plan", NAMES, "table.csv"]), (draw, ["plan", NAMES, "map.svg"]):
        shown, faults = desk.call(command, *words)
        if status or faults or said != f"center {plan.radius // MICRO}.{plan.radius % MICRO:06}\n":
            wrong("a center", (said, shown, faults))
    table, picture = (Path(it).read_text() for it in ("table.csv", "map.svg"))
    if f"\nradius,the dearest lane,,,{cells.money(plan.radius)}," not in table or "in no plan it costs less" not in picture:
        wrong("a center", table)


def formulas(desk):
    """No cell of the files for people begins like a formula, and the names are read back as they were."""
    named = ["=1+2", "'=1+2", "@x", "-a", "+a", "'t Harde", "-5"]
    desk.put(customers="name,demand\n" + "".join(f'"{it}",1\n' for it in named),
             lanes="from,to,cost\n" + "".join(f'Ulm,"{it}",1\n' for it in named))
    said, faults = desk.own("--lanes", LANES, "--skip", "notes")
    kept = names.read(NAMES)
    with open(NAMES, encoding="utf-8", newline="") as file:
        begin = {cell[:1] for row in csv.reader(file) for cell in row if cell != "-5"} & {*"=+-@"}
    if said is None or begin or [it.name for it in kept.customers.values()] != named or kept.options != ["--skip", "notes"]:
        wrong("formulas", (faults, begin, kept.customers, kept.options))


def check(program, regions=REGIONS):
    desk = Desk(program)
    for part in thousands, cells_of_all_kinds, faults_at_once, differences, by_demand, centers, formulas:
        part(desk)
    books = workbooks(desk)
    for _ in range(int(regions)):
        same_lanes(desk)
    return f"spreadsheets: {desk.cases} cases {books}, and {regions} regions on the sphere, mean what plain readings say"


if __name__ == "__main__":
    main(check)
