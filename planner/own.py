"""The suite's own form of an instance: how it is written and read."""
import re
from array import array
from collections.abc import Iterable, Iterator
from dataclasses import dataclass, field
from functools import cached_property

from .cells import MICRO, MOST_AMOUNT, Refusal, number
from .lanes import NO_LANE
from .places import FREE, STATUSES, Customer, Site

MOST_SITES, MOST_CUSTOMERS, MOST_LANES = 3000, 5000, 10**7
COUNT, AMOUNT = re.compile("[0-9]+"), re.compile("[+]?[0-9.]+")
# Lanes as they are written, which are read many at once.
WRITTEN = re.compile(r"(?:none|[0-9]{1,9}[.][0-9]{6})(?: (?:none|[0-9]{1,9}[.][0-9]{6}))*")


@dataclass
class Instance:
    """Of each site its fixed cost, capacity and status, and its lanes by the places of the customers, -1 where there is none; of each
    customer its demand. All go by ids, and amounts are whole millionths."""

    sites: dict[int, tuple[int, int | None, str]] = field(default_factory=dict)
    customers: dict[int, int] = field(default_factory=dict)
    lanes: dict[int, array] = field(default_factory=dict)
    count: tuple[int, int] = (0, MOST_SITES)
    next_site: int = 1
    next_customer: int = 1

    @cached_property
    def places(self) -> dict[int, int]:
        """The place of each customer in the rows of lanes, of an instance that is read."""
        return {c: place for place, c in enumerate(self.customers)}


def of_places(sites: list[Site], customers: list[Customer], lanes: list[array], count: tuple[int, int]) -> Instance:
    """The instance of sites and customers, whose ids are their places from 1."""
    return Instance({s: (it.fixed, it.capacity, it.status) for s, it in enumerate(sites, 1)},
                    {c: it.demand for c, it in enumerate(customers, 1)},
                    dict(enumerate(lanes, 1)), count, len(sites) + 1, len(customers) + 1)


def shown(micro: int | None) -> str:
    return "none" if micro is None or micro < 0 else f"{micro // MICRO}.{micro % MICRO:06}"


def text(instance: Instance) -> Iterator[str]:
    """The instance in its one spelling, line by line."""
    version = 1 if all(status == FREE for *_, status in instance.sites.values()) else 2
    yield f"dualoc-instance {version}\nsites {len(instance.sites)} next {instance.next_site}\n"
    yield f"customers {len(instance.customers)} next {instance.next_customer}\ncount {instance.count[0]} {instance.count[1]}\n"
    for c, demand in instance.customers.items():
        yield f"customer {c} {shown(demand)}\n"
    for s, (fixed, capacity, status) in instance.sites.items():
        # What `shown` does, without ten million calls.
        lanes = [f"{it // MICRO}.{it % MICRO:06}" if it >= 0 else "none" for it in instance.lanes[s]]
        yield " ".join(["site", str(s), shown(fixed), shown(capacity), *[status][:version - 1], *lanes]) + "\n"
    yield "end\n"


def write(path: str, instance: Instance) -> None:
    with open(path, "w", encoding="ascii") as file:
        file.writelines(text(instance))


class Words:
    """The words of an instance, one behind the other. What isn't due is refused with its line."""

    def __init__(self, path: str, lines: Iterable[str]):
        self.path, self.lines, self.line, self.words, self.next = path, iter(lines), 0, [], 0

    def refuse(self, why: str = "this isn't what is due in the suite's own form of an instance") -> None:
        raise Refusal(f"{self.path}, line {self.line}: {why}")

    def take(self, many: int) -> list[str]:
        """The next words, so many."""
        found: list[str] = []
        while len(found) < many:
            if self.next == len(self.words):
                line = next(self.lines, None)
                if line is None:
                    self.refuse()
                self.line, self.words, self.next = self.line + 1, line.split(), 0
            upto = min(len(self.words), self.next + many - len(found))
            found += self.words[self.next:upto]
            self.next = upto
        return found

    def fixed(self, *due: str) -> None:
        if self.take(len(due)) != [*due]:
            self.refuse()

    def count(self, least: int = 0, most: int = 2**32 - 1) -> int:
        [word] = self.take(1)
        if not COUNT.fullmatch(word) or not least <= int(word) <= most:
            self.refuse()
        return int(word)

    def amount(self, word: str) -> int:
        micro, rest = AMOUNT.fullmatch(word) and number(word.lstrip("+"), ".") or (0, "no number")
        if rest or micro > MOST_AMOUNT:
            self.refuse()
        return micro

    def limit(self, word: str) -> int | None:
        """An amount, or `none`."""
        return None if word == "none" else self.amount(word)

    def row(self, many: int) -> array:
        """The lanes of a site."""
        words = self.take(many)
        written = " ".join(words)
        if WRITTEN.fullmatch(written):
            return array("q", map(int, written.replace(".", "").replace("none", str(NO_LANE)).split()))
        return array("q", [NO_LANE if (it := self.limit(word)) is None else it for word in words])


def sizes_in(words: Words, what: str, most: int) -> tuple[int, int]:
    """The number of sites or customers, and the id of the next one."""
    words.fixed(what)
    many = words.count(1, most)
    words.fixed("next")
    return many, words.count(1)


def id_in(words: Words, what: str, those: dict, next_id: int) -> int:
    """An id, which is above those before it and below the next one."""
    words.fixed(what)
    return words.count(next(reversed(those), 0) + 1, next_id - 1)


def read(path: str) -> Instance:
    """Reads an instance. Refused is what isn't in the form, with its line."""
    with open(path, encoding="utf-8", errors="replace") as file:
        words, it = Words(path, file), Instance()
        words.fixed("dualoc-instance")
        [version] = words.take(1)
        if version not in ("1", "2"):
            words.refuse()
        m, it.next_site = sizes_in(words, "sites", MOST_SITES)
        n, it.next_customer = sizes_in(words, "customers", MOST_CUSTOMERS)
        words.fixed("count")
        least = words.count(0, MOST_SITES)
        it.count = least, words.count(least, MOST_SITES)
        for _ in range(n):
            c = id_in(words, "customer", it.customers, it.next_customer)
            it.customers[c] = words.amount(*words.take(1))
        for _ in range(m):
            s = id_in(words, "site", it.sites, it.next_site)
            (fixed, capacity), [status] = words.take(2), words.take(1) if version == "2" else [FREE]
            it.sites[s] = words.amount(fixed), words.limit(capacity), status if status in STATUSES else words.refuse()
            it.lanes[s] = words.row(n)
        words.fixed("end")
        if words.next < len(words.words) or any(line.split() for line in file):
            words.refuse("something stands behind the end")
    return it
