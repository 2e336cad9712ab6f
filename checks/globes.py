"""Random regions on the sphere, with the lanes that they mean by a plain reading, and what `compare` says of their instances, for
`spreadsheets.py`."""
import math
import random
from fractions import Fraction
from pathlib import Path

from common import MICRO
from refusals import CUSTOMERS, INSTANCE, LANES, NAMES, SITES, cells, wrong

from planner import compare, names

RADIUS = Fraction("6371.0088")


def distance(a, b):
    """Whole metres by the formula for the angle between two places, in kilometres."""
    (p, q), (r, s) = ((math.radians(float(it)) for it in at) for at in (a, b))
    across = math.hypot(math.cos(r) * math.sin(s - q), math.cos(p) * math.sin(r) - math.sin(p) * math.cos(r) * math.cos(s - q))
    angle = math.atan2(across, math.sin(p) * math.sin(r) + math.cos(p) * math.cos(r) * math.cos(s - q))
    return Fraction(round(angle * float(RADIUS) * 1000), 1000)


def some_region(desk):
    """Random sites and customers on the sphere, with options, and the lanes that they mean."""
    some = lambda most, fine: Fraction(random.randrange(most * fine), fine)
    spot = lambda: (Fraction(random.randint(-90 * 10**4, 90 * 10**4), 10**4), Fraction(random.randint(-180 * 10**4, 180 * 10**4), 10**4))
    near = spot()
    place = lambda: random.choice([spot(), (min(Fraction(90), near[0] + some(3, 1000)), min(Fraction(180), near[1] + some(3, 1000)))])
    of_sites = [(place(), random.choice([0, some(9, 100)])) for _ in range(random.randint(1, 5))]
    of_customers = [(place(), some(2000, random.choice([1, 10, 1000]))) for _ in range(random.randint(1, 5))]
    detour, per_unit, rate = random.choice([Fraction(1), 1 + some(1, 100)]), random.choice([Fraction(), some(3, 100)]), some(2, 100)
    reach = random.choice([None, some(200, 10), some(20000, 1)])
    show = lambda it: cells.money(int(it * MICRO))
    rows = [f"S{s},1,{show(p)},{show(q)},{show(cost)}" for s, ((p, q), cost) in enumerate(of_sites)]
    desk.put(sites="\n".join(["name,fixed cost,Latitude,LON,throughput cost", *rows]),
             customers="\n".join(["name,demand,lat,long",
                                  *(f"C{c},{show(d)},{show(p)},{show(q)}" for c, ((p, q), d) in enumerate(of_customers))]))
    options = ["--decimal", "point", "--rate", show(rate), "--detour", show(detour), "--per-unit", show(per_unit)]
    options += [] if reach is None else ["--reach", show(reach)]
    micro = lambda it: math.floor(it * MICRO + Fraction(1, 2))
    due = []
    for at, cost in of_sites:
        ways = [distance(at, other) * detour for other, _ in of_customers]
        due.append(["none" if reach is not None and way > reach else micro(way * rate * d) + micro(d * (per_unit + cost))
                    for way, (_, d) in zip(ways, of_customers)])
    return options, due


def same_lanes(desk):
    """A random region has the lanes that it means, its rule is kept with its names, and `compare` calls it equal, or tells what differs."""
    options, due = some_region(desk)
    said, faults = desk.own(*options)
    if said is None:
        wrong((desk.files(), options), faults)
    text = Path(INSTANCE).read_text()
    rows = [line.split()[4:] for line in text.splitlines() if line.startswith("site ")]
    found = [[it if it == "none" else int(it.replace(".", "")) for it in row] for row in rows]
    if found != due:
        wrong((desk.files(), options), f"the lanes are {found}, and {due} is due")
    kept = names.read(NAMES)
    again = [[kept.rule.cost(site, customer) for customer in kept.customers.values()] for site in kept.sites.values()]
    if [["none" if it is None else it for it in row] for row in again] != due:
        wrong((desk.files(), options), f"the rule that is kept makes {again}, and {due} is due")
    words = SITES, CUSTOMERS, INSTANCE, NAMES, *options
    said, status = desk.call(compare, *words)
    if status or not said.startswith("equal: "):
        wrong((desk.files(), options), f"{said!r}, and nothing differs")
    Path(INSTANCE).write_text(text.replace("site 1 1.000000", "site 1 2.000000"))
    if desk.call(compare, *words) != ("site 'S0', fixed cost: 2 in the instance, and 1 by the sheets\n", 1):
        wrong((desk.files(), options), desk.call(compare, *words))


def differences(desk):
    """Each kind of difference is told by its name."""
    desk.put()
    desk.own("--lanes", LANES)
    text, words = Path(INSTANCE).read_text(), (SITES, CUSTOMERS, INSTANCE, NAMES, "--lanes", LANES)
    by = "in the instance, and {} by the sheets\n"
    for old, new, due in [
        ("none 7.500000", "9.000000 7.500000", "site 'Kassel', capacity: 9 " + by.format("none")),
        ("count 0 3000", "count 1 2", "how many sites may be open: 1 to 2 " + by.format("0 to 3000")),
        ("customer 2 20.5", "customer 2 21.5", "customer 'München', demand: 21.5 " + by.format("20.5")),
        ("none 7.500000", "none none", "lane from 'Kassel' to 'Berlin': none " + by.format("7.5")),
        ("2 next 3\ncount 0 3000\ncustomer 1 100.000000\ncustomer 2", "2 next 4\ncount 0 3000\ncustomer 1 100.000000\ncustomer 3",
         "customer 'number 3': only in the instance\ncustomer 'München': only in the sheets\n"),
    ]:
        Path(INSTANCE).write_text(text.replace(old, new))
        desk.cases += 1
        if old not in text or desk.call(compare, *words) != (due, 1):
            wrong(new, f"{desk.call(compare, *words)}, and {due!r} is due")
    desk.own("--rate", "0.25")
    text, words = Path(NAMES).read_text(), (SITES, CUSTOMERS, INSTANCE, NAMES, "--rate", "0.25")
    told = "how lanes are made: by its great-circle distance, rate {} by km and unit of demand in the file of names, and by its great-circle "
    for old, new, due in [("48.14", "48.15", "'München': other coordinates in the file of names than in the sheets\n"),
                          (",0.25\n", ",0.35\n", told.format("0.35") + "distance, rate 0.25 by km and unit of demand by the options\n")]:
        Path(NAMES).write_text(text.replace(old, new))
        desk.cases += 1
        if old not in text or desk.call(compare, *words) != (due, 1):
            wrong(new, f"{desk.call(compare, *words)}, and {due!r} is due")
