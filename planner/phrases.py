"""The lines of the console that edit: their words, and what they ask of a session."""
import fnmatch
import re
from collections.abc import Callable
from dataclasses import dataclass
from decimal import Decimal, InvalidOperation

from .answer import units
from .cells import Refusal
from .state import Step

TOKEN = re.compile(r'"((?:[^"\\]|\\.)*)"|(<=|>=|!=|[<>=])|([^\s"<>=!]+)|(\S)')
COMPARES = {"<": lambda a, b: a < b, "<=": lambda a, b: a <= b, ">": lambda a, b: a > b, ">=": lambda a, b: a >= b,
            "=": lambda a, b: a == b, "!=": lambda a, b: a != b}
PART = re.compile(r"[-+−]?[0-9.]+%")
# What a condition may speak of; the site is the one that serves a customer in the last answer.
TEXTS, NUMBERS = ("name", "status", "site"), ("lat", "lon", "x", "y", "demand", "fixed", "capacity")


@dataclass(frozen=True)
class Word:
    """A word of a line. One in quotes is part of a name, whatever it says."""

    text: str
    is_quoted: bool = False

    def is_one(self, *those: str) -> bool:
        return not self.is_quoted and self.text.lower() in those


def words_of(line: str) -> list[Word]:
    """The words of a line. Refused is a quote that isn't closed."""
    found = []
    for it in TOKEN.finditer(line):
        quoted, compares, plain, other = it.groups()
        if other == '"':
            raise Refusal("a name in quotes isn't closed")
        found.append(Word(re.sub(r"\\(.)", r"\1", quoted), True) if quoted is not None else Word(compares or plain or other))
    return found


class Rest:
    """The words of a line that are left to read."""

    def __init__(self, words: list[Word], form: str):
        self.words, self.form = words, form

    def refuse(self) -> None:
        raise Refusal(f"due is: {self.form}")

    def take(self) -> str:
        """The next word."""
        if not self.words:
            self.refuse()
        return self.words.pop(0).text

    def has(self, *those: str) -> bool:
        """Takes the next words where they are these."""
        is_next = len(self.words) >= len(those) and all(word.is_one(it) for word, it in zip(self.words, those))
        if is_next:
            del self.words[:len(those)]
        return is_next

    def name(self, *ends: str, leave: int = 0) -> str:
        """A name: the words up to one of these, or to the last ones."""
        found = []
        while len(self.words) > leave and not self.words[0].is_one(*ends):
            found.append(self.words.pop(0).text)
        if not found:
            self.refuse()
        return " ".join(found)

    def limit(self) -> str | None:
        """An amount, or none."""
        word = self.take()
        return None if word.lower() == "none" else word

    def end(self) -> None:
        if self.words:
            self.refuse()


def value_of(session: object, it: object, field: str) -> Decimal | str | None:
    """What a condition's field is of a site or a customer."""
    if field == "site":
        if not session.last:
            raise Refusal("site is who serves a customer in the last answer, and there is none yet")
        return (session.last.plan.get(it.name) or "").casefold()
    if not hasattr(it, field):
        raise Refusal(f"{it.name} has no {field}")
    value = getattr(it, field)
    if field in ("demand", "fixed", "capacity"):
        return units(value)
    if value is None:
        raise Refusal(f"{it.name} has no {field}")
    return value.casefold() if field in TEXTS else value


def clause_of(session: object, rest: Rest) -> Callable[[object], bool]:
    """One comparison: a field, how, and a value. An empty capacity is more than any."""
    field, how, value = rest.take().lower(), rest.take().lower(), rest.name("and", "or", "keep")
    if field in TEXTS and how in ("=", "!=", "like"):
        told = value.casefold()
        if how == "like":
            return lambda it: fnmatch.fnmatchcase(value_of(session, it, field), told)
        return lambda it: COMPARES[how](value_of(session, it, field), told)
    if field not in NUMBERS or how not in COMPARES:
        raise Refusal(f"{field} {how}: due is one of {', '.join(NUMBERS)} and {' '.join(COMPARES)}, or one of {', '.join(TEXTS)} and = != like")
    try:
        least = Decimal(value)
    except InvalidOperation:
        raise Refusal(f"{value!r} is no number with a decimal point") from None
    infinite = Decimal("Infinity")
    return lambda it: COMPARES[how](infinite if (found := value_of(session, it, field)) is None else found, least)


def where_of(session: object, rest: Rest) -> Callable[[object], bool] | None:
    """The condition behind `where`: comparisons joined by `and`, and such joined by `or`."""
    if not rest.has("where"):
        return None
    either = [[clause_of(session, rest)]]
    while rest.words and not rest.words[0].is_one("keep"):
        if rest.has("or"):
            either.append([])
        elif not rest.has("and"):
            rest.refuse()
        either[-1].append(clause_of(session, rest))
    return lambda it: any(all(holds(it) for holds in those) for those in either)


def scaled(session: object, rest: Rest, line: str, scale: Callable, **more: object) -> Step | None:
    """A line that changes many, as `demand +10% where lat < 49`; nothing where it is none."""
    if not rest.words or rest.words[0].is_quoted or not PART.fullmatch(rest.words[0].text):
        return None
    part, where = rest.take(), where_of(session, rest)
    more = {key: do(rest) for key, do in more.items()}
    rest.end()
    return scale(part, where, words=line, **more)


def stays(rest: Rest) -> bool | None:
    """Whether the line ends with `keep lanes`."""
    return False if rest.has("keep", "lanes") else None


def status(session: object, rest: Rest, line: str, verb: str) -> Step:
    name = rest.name()
    return {"close": session.close, "open": session.must_open, "free": session.free}[verb](name)


def fixed(session: object, rest: Rest, line: str, verb: str) -> Step:
    return scaled(session, rest, line, session.scale_fixed) or session.fixed(rest.name(leave=1), rest.take())


def capacity(session: object, rest: Rest, line: str, verb: str) -> Step:
    return scaled(session, rest, line, session.scale_capacity) or session.capacity(rest.name(leave=1), rest.limit())


def demand(session: object, rest: Rest, line: str, verb: str) -> Step:
    step = scaled(session, rest, line, session.scale_demand, lanes=stays)
    if step:
        return step
    is_kept = len(rest.words) > 2 and rest.words[-2].is_one("keep") and rest.words[-1].is_one("lanes")
    if is_kept:
        del rest.words[-2:]
    return session.demand(rest.name(leave=1), rest.take(), lanes=False if is_kept else None)


def count(session: object, rest: Rest, line: str, verb: str) -> Step:
    found = [rest.take() for _ in rest.words[:2]] or [rest.take()]
    rest.end()
    if not all(it.isdecimal() for it in found):
        rest.refuse()
    return session.count(int(found[0]), int(found[-1]))


def lane(session: object, rest: Rest, line: str, verb: str) -> Step:
    site = rest.name("to")
    if not rest.has("to"):
        rest.refuse()
    return session.lane(site, rest.name(leave=1), rest.limit())


def tie(session: object, rest: Rest, line: str, verb: str) -> Step:
    customer = rest.name("to")
    if not rest.has("to"):
        rest.refuse()
    return session.tie(customer, rest.name())


def lanes_in(rest: Rest) -> dict[str, str | None] | None:
    """What stands behind `lanes`: a name and a cost, again and again, each name in quotes where it is more than a word."""
    if not rest.has("lanes"):
        return None
    found = {}
    while rest.words:
        name = rest.take()
        found[name] = rest.limit()
    return found


def at_in(session: object, rest: Rest) -> dict[str, str]:
    """The place behind `at`: latitude and longitude, or x and y, as those that the instance has."""
    if not rest.has("at"):
        return {}
    return dict(zip(("lat", "lon") if session.is_geo else ("x", "y"), (rest.take(), rest.take())))


def add(session: object, rest: Rest, line: str, verb: str) -> Step:
    """A site or a customer comes, with what stands behind its name in any order."""
    what = rest.take().lower()
    known = {"site": ("fixed", "capacity", "throughput"), "customer": ("demand",)}.get(what) or rest.refuse()
    name, more = rest.name("at", "lanes", *known), {}
    while rest.words:
        at, lanes = at_in(session, rest), lanes_in(rest)
        more |= at | ({} if lanes is None else {"lanes": lanes})
        if not at and lanes is None:
            key = next((it for it in known if rest.has(it)), None) or rest.refuse()
            more[key] = rest.limit()
    if known[0] not in more:
        rest.refuse()
    return (session.add_site if what == "site" else session.add_customer)(name, **more)


def drop(session: object, rest: Rest, line: str, verb: str) -> Step:
    what = rest.take().lower()
    if what not in ("site", "customer"):
        rest.refuse()
    name = rest.name()
    return session.drop_site(name) if what == "site" else session.drop_customer(name)


FORMS = {
    "close": (status, "close SITE"), "open": (status, "open SITE"), "free": (status, "free SITE"),
    "fixed": (fixed, "fixed SITE AMOUNT, or fixed +10% [where CONDITION]"),
    "capacity": (capacity, "capacity SITE AMOUNT, or none in its place, or capacity +10% [where CONDITION]"),
    "demand": (demand, "demand CUSTOMER AMOUNT [keep lanes], or demand +10% [where CONDITION] [keep lanes]"),
    "count": (count, "count LEAST MOST, or count NUMBER"),
    "lane": (lane, "lane SITE to CUSTOMER AMOUNT, or none in its place"),
    "tie": (tie, "tie CUSTOMER to SITE"),
    "add": (add, "add site NAME [at LAT LON] fixed AMOUNT [capacity AMOUNT] [lanes CUSTOMER COST ..], or "
                 "add customer NAME [at LAT LON] demand AMOUNT [lanes SITE COST ..]"),
    "drop": (drop, "drop site SITE, or drop customer CUSTOMER"),
}


def edit(session: object, line: str) -> Step | None:
    """Makes the edit of a line; nothing where its first word is none of an edit. Refused is what is wrong with it."""
    words = words_of(line)
    verb = words[0].text.lower() if words and not words[0].is_quoted else ""
    if verb not in FORMS:
        return None
    make, form = FORMS[verb]
    return make(session, Rest(words[1:], form), " ".join(line.split()), verb)
