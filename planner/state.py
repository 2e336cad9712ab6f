"""The instance as it stands in a session, with names: what the program was told and has taken, edit by edit."""
import difflib
import re
from array import array
from collections.abc import Iterable
from dataclasses import dataclass, field

from . import own
from .cells import MICRO, Refusal
from .places import Customer, Site

ABSENT = -1
# A name that needs no quotes, of words of which none is one of the console's own.
PLAIN = re.compile(r"[^\W_][^\s\"\\<>=!]*(?: [^\s\"\\<>=!]+)*")
TAKEN = {"at", "fixed", "capacity", "throughput", "demand", "where", "keep", "lanes", "to", "none", "and", "or", "onto", "as", "gap",
         "within"}


def shown(micro: int | None) -> str:
    """An amount as the program's lines have it."""
    return "none" if micro is None else f"{micro // MICRO}.{micro % MICRO:06}"


def quote(name: str, is_one: bool = False) -> str:
    """A name as a line of the console has it: in quotes where it could be taken for something else, and with `is_one` where it is more
    than one word."""
    words = name.lower().split(" ")
    if PLAIN.fullmatch(name) and not TAKEN & {*words} and not (is_one and len(words) > 1):
        return name
    return '"' + name.replace("\\", "\\\\").replace('"', '\\"') + '"'


def find(those: dict[int, Site] | dict[int, Customer], name: int | str, what: str) -> int:
    """The id of a site or customer by its id or its name, whose capitals may differ where that leaves one alone."""
    if isinstance(name, int):
        if name in those:
            return name
        raise Refusal(f"no {what} has the id {name}")
    exact = [key for key, it in those.items() if it.name == name]
    found = exact or [key for key, it in those.items() if it.name.casefold() == name.casefold()]
    if len(found) == 1:
        return found[0]
    if found:
        raise Refusal(f"{name!r} is the name of {len(found)} {what}s: " + ", ".join(repr(those[key].name) for key in found))
    near = difflib.get_close_matches(name, [it.name for it in those.values()], 3)
    raise Refusal(f"no {what} is named {name!r}" + (f": is it {' or '.join(near)}?" if near else ""))


class Lanes:
    """What the lanes cost: of the instance that was read rows by site, and besides what was changed since."""

    def __init__(self, rows: dict[int, array], customers: Iterable[int]):
        self.rows, self.column, self.changed = rows, {c: at for at, c in enumerate(customers)}, {}

    def get(self, s: int, c: int) -> int | None:
        """What serving the customer from the site costs; nothing where that can't be."""
        cost = self.changed.get((s, c))
        if cost is None:
            row = self.rows.get(s)
            cost = ABSENT if row is None or c not in self.column else row[self.column[c]]
        return None if cost < 0 else cost

    def put(self, lane: tuple[int, int], cost: int | None) -> int | None:
        """Changes what a lane costs. What stood there among what was changed, for `back`."""
        former = self.changed.get(lane)
        self.changed[lane] = ABSENT if cost is None else cost
        return former

    def back(self, lane: tuple[int, int], former: int | None) -> None:
        if former is None:
            del self.changed[lane]
        else:
            self.changed[lane] = former

    def table(self, sites: Iterable[int], customers: Iterable[int]) -> dict[int, array]:
        """The rows of these sites by the places of these customers, as the own form has them."""
        ids, place, changed = [*customers], {}, {}
        for at, c in enumerate(ids):
            place[c] = at
        for (s, c), cost in self.changed.items():
            if c in place:
                changed.setdefault(s, []).append((place[c], cost))
        columns, found = [self.column.get(c) for c in ids], {}
        for s in sites:
            row = self.rows.get(s)
            found[s] = array("q", [ABSENT if row is None or at is None else row[at] for at in columns])
            for at, cost in changed.get(s, ()):
                found[s][at] = cost
        return found


@dataclass(frozen=True)
class Step:
    """An edit in force. `words` are the console's lines that make it anew, `text` says it in one line, `ids` are the sites and
    customers that it touches, and `lines` what the program was told. Its process is the one at `depth`, which it began itself where
    `is_ground`. `former` is what takes it back; an edit that can't be taken back has none."""

    text: str
    words: tuple[str, ...]
    ids: tuple[tuple[str, int], ...] = ()
    lines: tuple[str, ...] = ()
    is_ground: bool = False
    depth: int = 1
    former: tuple = field(default=(), repr=False)


@dataclass
class State:
    """Sites and customers by id, in the order of the instance; how many sites may be open; and the lanes. `sites` and `customers`
    are replaced by an edit and never changed, so that an answer may keep them."""

    sites: dict[int, Site]
    customers: dict[int, Customer]
    count: tuple[int, int]
    next_site: int
    next_customer: int
    lanes: Lanes

    def site(self, name: int | str) -> int:
        return find(self.sites, name, "site")

    def customer(self, name: int | str) -> int:
        return find(self.customers, name, "customer")

    def instance(self) -> own.Instance:
        """The instance as it stands, to be written."""
        return own.Instance({s: (it.fixed, it.capacity, it.status) for s, it in self.sites.items()},
                            {c: it.demand for c, it in self.customers.items()}, self.lanes.table(self.sites, self.customers),
                            self.count, self.next_site, self.next_customer)

    def heads(self) -> tuple:
        return self.sites, self.customers, self.count, self.next_site, self.next_customer

    def take(self, draft: "Draft") -> tuple:
        """Makes an edit, and answers what `back` needs to take it back."""
        former = self.heads(), [(lane, self.lanes.put(lane, cost)) for lane, cost in draft.lanes.items()]
        self.sites, self.customers, self.count = draft.sites, draft.customers, draft.count
        self.next_site, self.next_customer = draft.next_site, draft.next_customer
        return former

    def back(self, former: tuple) -> None:
        heads, lanes = former
        self.sites, self.customers, self.count, self.next_site, self.next_customer = heads
        for lane, cost in reversed(lanes):
            self.lanes.back(lane, cost)


class Draft:
    """An edit that isn't made yet: what the program is to be told, and the state behind it."""

    def __init__(self, state: State, text: str, words: Iterable[str]):
        self.text, self.words, self.lines, self.lanes, self.ids = text, tuple(words), [], {}, []
        self.sites, self.customers, self.count, self.next_site, self.next_customer = state.heads()

    def line(self, *words: object) -> None:
        self.lines.append(" ".join(map(str, words)))

    def put_site(self, s: int, site: Site | None) -> None:
        """Puts a site in the place of the one with its id, or last, or without one drops it."""
        self.ids.append(("site", s))
        self.sites = {**self.sites, s: site} if site else {key: it for key, it in self.sites.items() if key != s}

    def put_customers(self, those: dict[int, Customer | None]) -> None:
        self.ids += [("customer", c) for c in those]
        self.customers = {key: it for key, it in {**self.customers, **those}.items() if it}

    def put_lane(self, s: int, c: int, cost: int | None) -> None:
        self.lanes[s, c] = cost
