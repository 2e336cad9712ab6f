"""How the state of a session comes about: from an instance with its file of names, and from the lines of edits that were kept."""
from collections.abc import Mapping

from . import edits, own
from .cells import Refusal
from .names import Names
from .places import Customer, Site
from .state import Draft, Lanes, State, Step


def state_of(instance: own.Instance, given: Names) -> State:
    """The state of an instance. What has no name is called by its id; amounts are those of the instance."""
    sites, customers = {}, {}
    for s, (fixed, capacity, status) in instance.sites.items():
        it = given.sites.get(s)
        more = (it.at, it.is_geo, it.throughput) if it else ()
        sites[s] = Site(it.name if it else f"site {s}", fixed, capacity, status, *more)
    for c, demand in instance.customers.items():
        it = given.customers.get(c)
        customers[c] = Customer(it.name if it else f"customer {c}", demand, *((it.at, it.is_geo) if it else ()))
    return State(sites, customers, instance.count, instance.next_site, instance.next_customer, Lanes(instance.lanes, instance.customers))


def limit(word: str) -> str | None:
    return None if word == "none" else word


def coming_site(state: State, given: Names, words: list[str]) -> Draft:
    """What `addsite` does, with the name and the place that were noted."""
    s = state.next_site
    it = given.sites.get(s) or Site(f"site {s}", 0)
    fixed, room, *lanes = words
    site = Site(it.name, edits.amount(fixed), None if room == "none" else edits.amount(room), "free", it.at, it.is_geo, it.throughput)
    draft = Draft(state, f"site {site.name} comes", ())
    draft.next_site = s + 1
    draft.put_site(s, site)
    for c, cost in zip(state.customers, lanes):
        draft.put_lane(s, c, None if cost == "none" else edits.amount(cost))
    return draft


def coming_customer(state: State, given: Names, words: list[str]) -> Draft:
    """What `addcust` does."""
    c = state.next_customer
    it = given.customers.get(c) or Customer(f"customer {c}", 0)
    draft = Draft(state, f"customer {it.name} comes", ())
    draft.next_customer = c + 1
    draft.put_customers({c: Customer(it.name, edits.amount(words[0]), it.at, it.is_geo)})
    for s, cost in zip(state.sites, words[1:]):
        draft.put_lane(s, c, None if cost == "none" else edits.amount(cost))
    return draft


def draft_of(state: State, given: Names, line: str) -> Draft:
    """The edit of a line of the program, by ids. A demand's lanes have lines of their own."""
    match line.split():
        case ["fixed", s, cost]:
            return edits.fixed(state, int(s), cost)
        case ["cap", s, room]:
            return edits.capacity(state, int(s), limit(room))
        case ["status", s, word]:
            return edits.status(state, int(s), word)
        case ["count", least, most]:
            return edits.count(state, int(least), int(most))
        case ["lane", s, c, cost]:
            return edits.lane(state, int(s), int(c), limit(cost))
        case ["demand", c, much]:
            return edits.demand(state, Names().rule, int(c), much, False)
        case ["dropsite", s]:
            return edits.drop(state, "site", int(s))
        case ["dropcust", c]:
            return edits.drop(state, "customer", int(c))
        case ["addsite", *words]:
            return coming_site(state, given, words)
        case ["addcust", *words]:
            return coming_customer(state, given, words)
    raise Refusal(f"{line}: this is no edit")


def replayed(state: State, given: Names, lines: list[str], noted: list[Mapping] | None) -> list[Step]:
    """Makes the edits of these lines in the state, and answers their steps: those that were noted, or one for each line."""
    steps, left = [], [*lines]
    for note in noted if noted is not None else [{"lines": 1}] * len(lines):
        mine, left = left[:note["lines"]], left[note["lines"]:]
        drafts, former = [], []
        for line in mine:
            drafts.append(draft_of(state, given, line))
            former.append(state.take(drafts[-1]))
        ids = tuple(dict.fromkeys(it for draft in drafts for it in draft.ids))
        text = note.get("text") or drafts[0].text
        words = tuple(note["words"]) if "words" in note else drafts[0].words
        steps.append(Step(text, words, ids, tuple(mine), False, 1, tuple(former)))
    return steps
