"""Sites and customers: what a planner's sheets say of them, and where they are."""
from collections.abc import Callable, Iterable
from dataclasses import dataclass
from decimal import Decimal

from . import earth
from .cells import MICRO
from .columns import Sheet
from .tables import ERRORS

FREE, *_ = STATUSES = "free", "open", "closed"
# The titles of the sheets: those that are needed, and others.
WHERE = "x", "y", "lat", "lon"
SITE, CUSTOMER = (("name", "fixed cost"), ("capacity", "status", "throughput cost", *WHERE)), (("name", "demand"), WHERE)


@dataclass(frozen=True)
class Spot:
    """Something with a name and, perhaps, coordinates in millionths: `x` and `y`, or the degrees of latitude and longitude where
    `is_geo`."""

    def coordinate(self, place: int, is_geo: bool) -> Decimal | None:
        return Decimal(self.at[place]) / MICRO if self.at and self.is_geo == is_geo else None

    x = property(lambda self: self.coordinate(0, False))
    y = property(lambda self: self.coordinate(1, False))
    lat = property(lambda self: self.coordinate(0, True))
    lon = property(lambda self: self.coordinate(1, True))


@dataclass(frozen=True)
class Site(Spot):
    """Amounts are whole millionths. Without a limit there is no capacity. `throughput` is what a unit of demand costs here."""

    name: str
    fixed: int
    capacity: int | None = None
    status: str = FREE
    at: tuple[int, int] | None = None
    is_geo: bool = False
    throughput: int = 0


@dataclass(frozen=True)
class Customer(Spot):
    """The demand is in whole millionths."""

    name: str
    demand: int
    at: tuple[int, int] | None = None
    is_geo: bool = False


def distance(a: Spot, b: Spot) -> int | None:
    """The distance in millionths: straight where both have x and y, along the sphere in kilometres where both have degrees, and
    else nothing."""
    if not a.at or not b.at or a.is_geo != b.is_geo:
        return None
    return earth.metres(a.at, b.at) * 1000 if a.is_geo else earth.straight(a.at, b.at)


def projector(spots: Iterable[Spot]) -> Callable[[float, float], tuple[float, float]]:
    """What puts coordinates into a plane, in millionths: x and y stay; a longitude and a latitude become kilometres to the east and
    north, on a map that is true around the middle of these spots."""
    lats = [it.at[0] for it in spots if it.at and it.is_geo]
    if not lats:
        return lambda x, y: (x, y)
    return earth.projector((min(lats) + max(lats)) / 2)


def planar(spots: dict[int, Spot], project: Callable | None = None) -> dict[int, tuple[float, float]]:
    """Where those with coordinates stand in a plane, by such a projector, or one of their own."""
    project = project or projector(spots.values())
    return {key: project(*(it.at[::-1] if it.is_geo else it.at)) for key, it in spots.items() if it.at}


def name_in(sheet: Sheet, row: int, cells: list[str]) -> str | None:
    """The name in a row; nothing, and a fault, where it has none that can be shown."""
    name = sheet.text(cells, "name")
    if name and name.isprintable() and name not in ERRORS:
        return name
    if "name" in sheet.places:
        shown = f"{name!r} is no name: a formula failed" if name in ERRORS else "the cell has a character that can't be shown"
        sheet.refuse(row, sheet.places["name"], shown if name else "the cell is empty")
    return None


def pair_in(sheet: Sheet, row: int, cells: list[str], titles: tuple[str, str]) -> tuple[int, int] | None:
    """Two coordinates: both or none."""
    first, second = ((title, sheet.text(cells, title)) for title in titles)
    for (title, cell), (_, other) in (first, second), (second, first):
        if other and not cell:
            sheet.refuse(row, sheet.places.get(title, 0), f"there is no {title} beside the other coordinate")
            return None
    found = sheet.value(row, cells, titles[0]), sheet.value(row, cells, titles[1])
    return None if None in found else found


def place_in(sheet: Sheet, row: int, cells: list[str]) -> dict[str, object]:
    """The coordinates of a row."""
    straight, geo = (pair_in(sheet, row, cells, titles) for titles in (WHERE[:2], WHERE[2:]))
    if straight and geo:
        sheet.refuse(row, sheet.places["x"], "there are x and y, and lat and lon; --skip passes two of them over")
    return {"at": geo or straight, "is_geo": bool(geo)}


def needed(sheet: Sheet, row: int, cells: list[str], title: str) -> int:
    """A number that is due: 0, and a fault, where it isn't there."""
    return sheet.amount(row, cells, sheet.places[title], title) or 0 if title in sheet.places else 0


def site_in(sheet: Sheet, row: int, cells: list[str], name: str) -> Site:
    """The site of a row. What is at fault in it is added to the faults of the sheet."""
    is_bounded = sheet.text(cells, "capacity").lower() not in ("", "none")
    status = sheet.text(cells, "status").lower() or FREE
    if status not in STATUSES:
        sheet.refuse(row, sheet.places["status"], f"{status!r} is none of {', '.join(STATUSES)}")
    fixed = needed(sheet, row, cells, "fixed cost")
    capacity = needed(sheet, row, cells, "capacity") if is_bounded else None
    throughput = sheet.value(row, cells, "throughput cost") or 0
    return Site(name, fixed, capacity, status, **place_in(sheet, row, cells), throughput=throughput)


def customer_in(sheet: Sheet, row: int, cells: list[str], name: str) -> Customer:
    """The customer of a row."""
    return Customer(name, needed(sheet, row, cells, "demand"), **place_in(sheet, row, cells))


def read_named(sheet: Sheet, what: str, most: int, read) -> tuple[list, dict[str, int]]:
    """The sites or customers of a sheet, and their places from 0 by their names. Whether all names are known is `sheet.is_whole`."""
    found, numbers, rows = [], {}, {}
    for row, cells in sheet.rows:
        name = name_in(sheet, row, cells)
        it = read(sheet, row, cells, name or "")
        if name in numbers:
            sheet.refuse(row, sheet.places["name"], f"{name!r} stands in row {rows[name]} already")
        if name is None or name in numbers:
            sheet.is_whole = False
            continue
        numbers[name], rows[name] = len(found), row
        found.append(it)
    if len(found) > most:
        sheet.faults.add(f"{sheet.path}: it has {len(found)} {what}, and {most} is the limit")
        sheet.is_whole = False
    return found, numbers
