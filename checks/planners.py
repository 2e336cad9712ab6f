"""Random sheets of a planner, and the instances that they mean, for `tools.py`."""
import csv
import decimal
import io
import random
from collections import defaultdict
from decimal import ROUND_HALF_UP, Decimal

from common import MICRO
from own import FREE, STATUSES, Instance
from refusals import CUSTOMERS, LANES, SITES, cells

ALPHABET = "abcdefgz ÄöéŁ&<>'\",;.-0123456789#=()"
decimal.getcontext().prec = 80


def reading(text, mark):
    """The value of a number with its decimals behind the mark, or nothing where it is none."""
    whole, *part = text.split(mark)
    gaps = {it for it in whole if not it.isdigit()}
    if len(part) > 1 or not all(it.isdigit() or it == "" for it in part) or len(gaps) > 1:
        return None
    if gaps:
        first, *groups = whole.split(*gaps)
        if not groups or not gaps <= {*" '’,."} or not 1 <= len(first) <= 3 or first[0] == "0" or {*map(len, groups)} != {3}:
            return None
    digits = "".join(it for it in whole if it.isdigit())
    return Decimal(f"{digits or 0}.{(*part, '')[0] or 0}") if digits or any(part) else None


class Spelling:
    """How a sheet is written: all its numbers have one decimal mark, and those of each column have to tell it."""

    def __init__(self):
        self.mark, self.delimiter = random.choice([".", ","]), random.choice(",;\t")
        self.gap = random.choice(["", "", "", " ", "'", ",." [self.mark == ","]])
        self.end, self.numbers = random.choice(["\n", "\r\n"]), defaultdict(list)

    def number(self, micro, column="cost"):
        """An amount, or a coordinate, as a sheet may have it."""
        whole, part = divmod(abs(micro), MICRO)
        text = f"{whole:,}".replace(",", self.gap if random.random() < 0.7 else "")
        digits = f"{part:06}".rstrip("0")
        digits += "0" * random.choice([0, 0, 0, 1, 2, 3])
        text = ("-" if micro < 0 else "") + text + (self.mark + digits if digits else "")
        self.numbers[column].append(text.lstrip("-"))
        return text

    def sheet(self, rows):
        written = io.StringIO()
        is_plain = not any(it in title for title in rows[0] for it in ",;")
        how = random.choice([csv.QUOTE_MINIMAL, csv.QUOTE_ALL]) if is_plain else csv.QUOTE_ALL
        lines = csv.writer(written, delimiter=self.delimiter, lineterminator=self.end, quoting=how)
        for row in rows:
            lines.writerow(row)
            if random.random() < 0.1:
                lines.writerow([""] * len(row))
        return written.getvalue()

    def is_told(self):
        """Whether the numbers of each column leave one decimal mark, or mean the same with both."""
        other = "," if self.mark == "." else "."
        columns = [[(reading(it, self.mark), reading(it, other)) for it in those] for those in self.numbers.values()]
        return all(any(it is None for _, it in column) or all(mine == others for mine, others in column) for column in columns)


def some_name(taken):
    while True:
        name = "".join(random.choice(ALPHABET) for _ in range(random.randint(1, 12)))
        name = " ".join(name.split())
        if name and name not in taken:
            taken.add(name)
            return name


def some_amount():
    unit = random.choice([MICRO, MICRO, 125_000, 10_000, 1000, 1])
    return unit * random.choice([random.randint(0, 20), random.randint(0, 3000), 10**7])


class Task:
    """Random sites and customers with their sheets, and the instance that they mean."""

    def __init__(self):
        m, n, rooms = random.randint(1, 5), random.randint(1, 5), random.random()
        at_sites, at_customers = set(), set()
        self.m, self.n, self.is_told = m, n, True
        self.site_names = [some_name(at_sites) for _ in range(m)]
        self.customer_names = [some_name(at_customers) for _ in range(n)]
        self.way, self.by_demand = random.choice(["table", "rows", "rate"]), random.random() < 0.4
        self.has_places = self.way == "rate" or random.random() < 0.5
        place = lambda: (random.randint(-10**9, 10**9), random.randint(-5 * 10**8, 10**9))
        self.places = [place() for _ in range(m + n)]
        self.fixed, self.demands = [some_amount() for _ in range(m)], [some_amount() % (50 * MICRO) for _ in range(n)]
        room = lambda: sum(self.demands) * random.randint(20, 120) // 100 if random.random() < rooms else None
        self.capacities = [room() for _ in range(m)]
        self.status = [random.choice(STATUSES) if random.random() < 0.2 else FREE for _ in range(m)]
        self.lanes = {(s, c): some_amount() for s in range(m) for c in range(n) if self.way == "rate" or random.random() < 0.9}
        self.rate, self.count = random.choice([0, 1, MICRO, 2_500_000]), random.choice([(0, 3000), (1, 2)])
        self.options = ["--round"] * self.by_demand + ["--by-demand"] * self.by_demand
        self.options += ["--count", *map(str, self.count)] if self.count != (0, 3000) else []

    def put(self, scene):
        """Writes the sheets."""
        spelling = Spelling()
        place_titles = ["x", "y"] * self.has_places
        titles = ["name", random.choice(["fixed cost", "Fixed Cost", "fixed_cost"]), "capacity", "status", *place_titles]
        rows = [[name, spelling.number(cost), "" if cap is None else spelling.number(cap, "capacity"),
                 random.choice(["", FREE]) if status == FREE else status, *self.spelt(spelling, at)]
                for name, cost, cap, status, at in zip(self.site_names, self.fixed, self.capacities, self.status, self.places)]
        self.put_one(scene, SITES, spelling, titles, rows)
        spelling = Spelling()
        rows = [[name, spelling.number(demand), *self.spelt(spelling, at)]
                for name, demand, at in zip(self.customer_names, self.demands, self.places[self.m:])]
        self.put_one(scene, CUSTOMERS, spelling, ["name", "demand", *place_titles], rows)
        spelling = Spelling()
        if self.way == "table":
            order = random.sample(range(self.n), self.n)
            shown = lambda pair: spelling.number(self.lanes[pair]) if pair in self.lanes else "none"
            rows = [[self.site_names[s], *(shown((s, c)) for c in order)] for s in random.sample(range(self.m), self.m)]
            self.put_one(scene, LANES, spelling, ["", *(self.customer_names[c] for c in order)], rows)
        elif self.way == "rows":
            rows = [[self.site_names[s], self.customer_names[c], spelling.number(cost)] for (s, c), cost in self.lanes.items()]
            random.shuffle(rows)
            rows = rows or [[self.site_names[0], self.customer_names[0], "none"]]
            self.put_one(scene, LANES, spelling, ["from", "to", "cost"], rows)
        how = ["--lanes", LANES] if self.way != "rate" else ["--rate", cells.money(self.rate)]
        return [*how, *self.options]

    def spelt(self, spelling, at):
        return [spelling.number(it, axis) for it, axis in zip(at, "xy") if self.has_places]

    def put_one(self, scene, name, spelling, titles, rows):
        scene.put(name, spelling.sheet([titles, *rows]), random.choice(["utf-8", "utf-8-sig"]))
        self.is_told &= spelling.is_told()

    def cost(self, s, c):
        """What a lane costs."""
        weight = Decimal(self.demands[c]) / MICRO if self.by_demand else 1
        value = Decimal(self.lanes[s, c])
        if self.way == "rate":
            (x, y), (v, w) = self.places[s], self.places[self.m + c]
            value = (Decimal(x - v)**2 + Decimal(y - w)**2).sqrt() * self.rate / MICRO
        return int((value * weight).quantize(1, ROUND_HALF_UP))

    def instance(self):
        sites = zip(range(1, self.m + 1), self.fixed, self.capacities, self.status)
        lanes = {(s + 1, c + 1): self.cost(s, c) for s, c in self.lanes}
        return Instance(tuple(enumerate(self.demands, 1)), tuple(sites), lanes, self.count, (self.m + 1, self.n + 1))
