"""Sheets: tables whose first row has the titles of the columns, and whose numbers are read column by column.

Rows count from 1 and columns from A, as a spreadsheet shows them. Nothing is guessed: which mark stands before decimals is told by a
column's own numbers, or by `--decimal`."""
import re
from dataclasses import dataclass, field
from typing import NamedTuple

from .cells import CODES, CURRENCY, MICRO, MOST_AMOUNT, Faults, Refusal, letters, money, number, priced
from .tables import ERRORS, Typed, read_table

# Titles of numbers: amounts of money, others, and coordinates with their limits, which alone may be negative.
PRICES, SIZES = ("fixed cost", "throughput cost", "cost"), ("capacity", "demand", "id")
COORDINATES = {"x": MOST_AMOUNT, "y": MOST_AMOUNT, "lat": 90 * MICRO, "lon": 180 * MICRO}
USUAL = {"latitude": "lat", "breitengrad": "lat", "longitude": "lon", "lng": "lon", "long": "lon", "längengrad": "lon"}
MARKS = {"point": ".", "comma": ","}


@dataclass
class Ways:
    """How the sheets of a run are written: what they are encoded in, what stands before decimals in columns that don't tell, under
    "", or in those of a title; whether more than six decimals are rounded; which columns are passed over; and the currency, with
    the place where it stands first."""

    encoding: str = "utf-8-sig"
    marks: dict[str, str] = field(default_factory=dict)
    rounds: bool = False
    skip: tuple[str, ...] = ()
    currency: tuple[str, str] | None = None


class Told(NamedTuple):
    """The mark before the decimals of a column, and by which cell that is known."""

    mark: str
    by: str = ""


def title_of(cell: str) -> tuple[str, str]:
    """A title as it is looked for, and the currency behind it, or nothing."""
    title = " ".join(cell.lower().replace("_", " ").split())
    found = re.fullmatch(rf"(.+?) ?[(\[]({CURRENCY.lower()})[)\]]", title)
    title, code = (found[1], found[2].upper()) if found else (title, "")
    return USUAL.get(title, title), CODES.get(code, code)


class Sheet:
    """A table with its titles. What is at fault in it is added to the faults of the run."""

    def __init__(self, path: str, faults: Faults, ways: Ways | None = None, role: str = ""):
        self.path, self.faults, self.ways = path, faults, ways or Ways()
        self.places: dict[str, int] = {}
        self.marks: dict[int, Told] = {}
        self.titles, self.rows = [""], []
        # Of what some names could not be read.
        self.unsure: set[str] = set()
        try:
            rows = read_table(path, self.ways.encoding, role)
            if not rows or not any(rows[0]):
                raise Refusal(f"{path}, row 1: the titles of the columns are due")
        except (Refusal, OSError) as why:
            faults.add(str(why))
            self.is_whole = False
            return
        self.titles = rows[0]
        self.rows = [(row, cells) for row, cells in enumerate(rows[1:], 2) if any(cells) and self.is_long(row, cells)]
        self.is_whole = len(self.rows) == sum(map(any, rows[1:]))
        if not self.rows and self.is_whole:
            faults.add(f"{path}, row 2: a first row is due below the titles")

    def is_long(self, row: int, cells: list[str]) -> bool:
        if len(cells) != len(self.titles):
            self.faults.add(f"{self.path}, row {row}: it has {len(cells)} cells, and row 1 has {len(self.titles)}")
        return len(cells) == len(self.titles)

    def refuse(self, row: int, place: int, why: str) -> None:
        title = f" ({self.titles[place]})" if row > 1 and self.titles[place] else ""
        self.faults.add(f"{self.path}, row {row}, column {letters(place)}{title}: {why}")

    def filled(self) -> list[int]:
        """The places of the columns that aren't empty."""
        return [place for place, title in enumerate(self.titles) if title or any(cells[place] for _, cells in self.rows)]

    def columns(self, needed: tuple[str, ...], others: tuple[str, ...] = ()) -> "Sheet":
        """Finds the columns by their titles, and what mark the numbers of each have."""
        known = *needed, *others
        for place in self.filled() if any(self.titles) else ():
            title, currency = title_of(self.titles[place])
            if {title, " ".join(self.titles[place].lower().split())} & {*self.ways.skip}:
                continue
            if title in self.places:
                self.refuse(1, place, f"the title {title!r} stands twice")
            elif title not in known:
                self.refuse(1, place, f"{title!r} is none of {', '.join(known)}; --skip passes a column over")
            else:
                self.places[title] = place
                self.is_in(currency, 1, place)
        for title in needed if any(self.titles) else ():
            if title not in self.places:
                self.faults.add(f"{self.path}, row 1: no column has the title {title!r}")
        for title in (*PRICES, *SIZES, *COORDINATES):
            if title in self.places:
                self.tell([self.places[title]], title)
        return self

    def tell(self, places: list[int], title: str) -> None:
        """Tells by the numbers of columns of one kind whether decimals stand behind a point or a comma: by one that has one reading,
        or else since both readings mean the same."""
        told, unsure = self.ways.marks.get(title), None
        for row, cells in self.rows if not told else ():
            for place in places:
                if cells[place].isdigit() or isinstance(cells[place], Typed):
                    continue
                found = self.readings(cells[place], title)
                if len(found) == 1:
                    [mark] = found
                    self.marks |= dict.fromkeys(places, Told(mark, f"{cells[place]!r} in row {row}"))
                    return
                if not unsure and len({*found.values()}) == 2:
                    unsure = row, place, f"{cells[place]!r} has thousands or decimals; --decimal says which"
        told = told or self.ways.marks.get("")
        if unsure and not told:
            self.refuse(*unsure)
        self.marks |= dict.fromkeys(places, Told(told or ".", "--decimal" if told else ""))

    def readings(self, cell: str, title: str) -> dict[str, tuple[int, str]]:
        """What a cell can mean, by the marks before decimals."""
        plain, most = priced(cell)[0] if title in PRICES else cell, COORDINATES.get(title, MOST_AMOUNT * MICRO)
        found = {mark: number(plain, mark) for mark in ".,"}
        within = {mark: it for mark, it in found.items() if it and abs(it[0]) <= most}
        return within or {mark: it for mark, it in found.items() if it}

    def text(self, cells: list[str], title: str) -> str:
        return cells[self.places[title]] if title in self.places else ""

    def is_in(self, currency: str, row: int, place: int) -> bool:
        """Whether this is the currency of the run, or there is none."""
        if not currency:
            return True
        where = f"{self.path}, row {row}, column {letters(place)}"
        first, at = self.ways.currency = self.ways.currency or (currency, where)
        if first != currency:
            self.refuse(row, place, f"it is in {currency}, and {at}, in {first}")
        return first == currency

    def amount(self, row: int, cells: list[str], place: int, title: str = "") -> int | None:
        """The millionths of a cell's number; nothing, and a fault, where it is none."""
        cell = cells[place]
        plain, currency = priced(cell) if title in PRICES else (cell, "")
        told = Told(".") if isinstance(cell, Typed) else self.marks.get(place, Told("."))
        found = number(plain, told.mark)
        if not found:
            self.refuse(row, place, self.why_none(cell, plain, told))
            return None
        micro, rest = found
        if rest and not self.ways.rounds:
            self.refuse(row, place, f"{cell!r} has more than six decimals; --round rounds it")
            return None
        micro += (-1 if micro < 0 else 1) * (rest[:1] >= "5")
        why = self.out_of_range(cell, plain, micro, title)
        if why:
            self.refuse(row, place, why)
        return micro if not why and self.is_in(currency, row, place) else None

    def why_none(self, cell: str, plain: str, told: Told) -> str:
        if not cell:
            return "the cell is empty"
        if cell in ERRORS:
            return f"{cell!r} is no number: a formula failed, or was never computed"
        if number(plain, "," if told.mark == "." else "."):
            return f"{cell!r} has another decimal mark than {told.by or 'the column'}"
        return f"{cell!r} is no number"

    def out_of_range(self, cell: str, plain: str, micro: int, title: str) -> str:
        most = COORDINATES.get(title, MOST_AMOUNT)
        if plain[0] in "-−" and title not in COORDINATES:
            return f"{cell!r} is negative"
        if abs(micro) > most:
            return f"{cell!r} is {'more than' if micro > 0 else 'less than'} {'-' * (micro < 0)}{money(most)}"
        return ""

    def value(self, row: int, cells: list[str], title: str) -> int | None:
        """The same by a column's title: nothing where the column isn't there, or the cell is empty."""
        return self.amount(row, cells, self.places[title], title) if self.text(cells, title) else None
