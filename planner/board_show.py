"""What a board shows of a session: sections of its state, in which amounts are texts and only the map's places are floats."""
from . import places
from .cells import MICRO, money


def amount(micro: int | None) -> str | None:
    return None if micro is None else money(micro)


def length(micro: int | None) -> str | None:
    """A distance rounded to a tenth of its unit, to read."""
    return None if micro is None else money((micro + MICRO // 20) // (MICRO // 10) * (MICRO // 10))


class Projection:
    """Where places are on the map: as they are, or degrees as kilometres to the east and north, whatever comes later."""

    def __init__(self, spots):
        self.project, self.is_geo = places.projector(spots), any(it.at and it.is_geo for it in spots)

    def spot(self, it) -> list[float] | None:
        """The place of a site or customer in the unit of the map's scale; nothing for one without coordinates."""
        if not it.at or it.is_geo != self.is_geo:
            return None
        return [part / MICRO for part in self.project(*(reversed(it.at) if it.is_geo else it.at))]

    def corner(self, x: float, y: float) -> tuple[float, float]:
        """The place of two numbers of an outline: a longitude and a latitude where the map has those."""
        across, along = self.project(x * MICRO, y * MICRO)
        return across / MICRO, along / MICRO


class Rows:
    """Sites or customers as rows by their ids, each with its place, and with what it was in the base where that is something else."""

    def __init__(self, show, base: dict, projection: Projection):
        self.show, self.projection, self.base = show, projection, {key: show(it) for key, it in base.items()}
        self.known: dict = {}

    def row(self, key: int, it) -> dict:
        now, before = self.show(it), self.base.get(key)
        was = {title: value for title, value in (before or now).items() if now[title] != value}
        return now | {"at": self.projection.spot(it)} | ({"was": was} if was else {})

    def of(self, those: dict) -> dict:
        """The rows of all. An edit replaces what it changes, so that the row of the very same object stands."""
        known, self.known = self.known, {}
        for key, it in those.items():
            kept = known.get(key)
            self.known[key] = kept if kept and kept[0] is it else (it, self.row(key, it))
        return {key: row for key, (_, row) in self.known.items()}


def site(it) -> dict:
    return {"name": it.name, "fixed": amount(it.fixed), "capacity": amount(it.capacity), "status": it.status}


def customer(it) -> dict:
    return {"name": it.name, "demand": amount(it.demand)}


def answer(found, is_stale: bool, checked: str | None) -> dict | None:
    """The answer, with the permille that leases are of its cost."""
    if not found:
        return None
    shown = {"kind": found.kind, "cost": amount(found.cost), "low": amount(found.low), "gap": None if found.gap is None else str(found.gap),
             "text": found.text, "isStale": is_stale, "checked": checked}
    if found.cost is None:
        return shown
    distance, c, s = found.farthest
    far = None if distance is None else {"distance": length(distance), "customer": found.customers[c].name, "site": found.sites[s].name}
    return shown | {"leases": amount(found.leases), "transport": amount(found.transport), "farthest": far, "mean": length(found.mean),
                    "share": found.cost and 1000 * found.leases // found.cost}


def plan(found) -> dict:
    return {c: s for c, (s, _) in found.served.items()} if found else {}


def loads(found) -> dict:
    """What each open site serves, and how full it is, in permille rounded down; nothing for one without a capacity."""
    if not found:
        return {}
    many, load, lanes = ({s: 0 for s in found.open} for _ in range(3))
    for c, (s, cost) in found.served.items():
        many[s] += 1
        load[s] += found.customers[c].demand
        lanes[s] += cost
    room = {s: found.sites[s].capacity for s in found.open}
    return {s: {"customers": many[s], "load": amount(load[s]), "lanes": amount(lanes[s]), "capacity": amount(room[s]),
                "full": None if room[s] is None else 1000 * load[s] // (room[s] or 1)} for s in found.open}


def against(found, base) -> dict | None:
    """What differs from the base: costs, sites that come and go, and customers that move, with the ids of what is still there."""
    if not found or not base or found.cost is None or base.cost is None:
        return None
    ids = {it.name: key for key, it in found.sites.items()}
    customers = {it.name: key for key, it in found.customers.items()}
    named = lambda those: [[ids.get(it), it] for it in those]
    return {"cost": amount(found.cost - base.cost), "leases": amount(found.leases - base.leases),
            "transport": amount(found.transport - base.transport), "opened": named(found.opened(base)), "closed": named(found.closed(base)),
            "moved": [[customers.get(it.customer), it.customer, it.before, it.after] for it in found.moved(base)]}


def compared(those) -> list[dict]:
    """Scenarios side by side, with what is proved of each."""
    return [{"name": it.name, "cost": amount(it.answer.cost), "kind": it.answer.kind, "said": it.answer.check(),
             "difference": amount(it.difference), "sites": it.sites, "farthest": length(it.farthest), "mean": length(it.mean),
             "moved": it.moved} for it in those]
