"""Sites and customers that come in a session: where they are, and what their lanes cost."""
from collections.abc import Mapping
from decimal import Decimal

from .cells import Refusal, amount, money, number
from .edits import Amount, told
from .lanes import Rule
from .places import Customer, Site
from .state import Draft, State, find, quote, shown

Costs = Mapping[str | int, Amount | None]


def is_new(those: dict, name: str, what: str) -> None:
    """Refuses a name that can't be one, or is another one's."""
    if not isinstance(name, str) or not name.strip() or not name.isprintable() or name != " ".join(name.split()):
        raise Refusal(f"{name!r} is no name")
    if any(it.name.casefold() == name.casefold() for it in those.values()):
        raise Refusal(f"a {what} is named {name!r} already")


def degrees(value: Amount) -> int:
    """The millionths of a coordinate, which may be negative."""
    if isinstance(value, bool) or not isinstance(value, (int, str, Decimal)):
        raise TypeError(f"a coordinate is due as an int, a Decimal or a text, and {value!r} is a {type(value).__name__}")
    found = number(f"{value:f}" if isinstance(value, Decimal) else str(value).strip(), ".")
    if not found or found[1]:
        raise Refusal(f"{str(value)!r} is no coordinate with at most six decimals")
    return found[0]


def place(at: Mapping[str, Amount | None]) -> tuple[tuple[int, int] | None, bool]:
    """The coordinates that were given, and whether they are a latitude and a longitude. Both, or none."""
    given = {key: degrees(it) for key, it in at.items() if it is not None}
    if not given:
        return None, False
    for keys in ("lat", "lon"), ("x", "y"):
        if given.keys() == {*keys}:
            return (given[keys[0]], given[keys[1]]), keys[0] == "lat"
    raise Refusal("a place is due as lat and lon, or as x and y, and given is " + ", ".join(given))


def spot(it: Site | Customer) -> str:
    """The place as the console's line has it."""
    return f" at {money(it.at[0])} {money(it.at[1])}" if it.at else ""


def given_lanes(those: dict, costs: Costs, what: str) -> dict[int, int | None]:
    """The lanes that were given by names or ids; those that weren't aren't there."""
    found = {find(those, name, what): None if cost is None else amount(cost) for name, cost in costs.items()}
    return {key: found.get(key) for key in those}


def told_lanes(those: dict, costs: Mapping[int, int | None], was_given: bool) -> str:
    """The lanes in the console's line, where they were given."""
    if not was_given:
        return ""
    return " lanes" + "".join(f" {quote(those[key].name, True)} {told(cost)}" for key, cost in costs.items() if cost is not None)


def needs_place(it: Site | Customer, rule: Rule) -> None:
    if not rule.has_distances:
        raise Refusal(f"{it.name}: the lanes of this instance come from a sheet; lanes= says what its own cost")
    if not it.at or it.is_geo != (rule.kind == "great circle"):
        raise Refusal(f"{it.name}: its {'lat and lon' if rule.kind == 'great circle' else 'x and y'} are due, of which its lanes are made")


def add_site(state: State, rule: Rule, name: str, costs: Costs | None, fixed: Amount, capacity: Amount | None,
             at: Mapping[str, Amount | None], throughput: Amount = 0) -> Draft:
    """A site comes, last and free. Its lanes are made as the sheets' were, or are `costs`."""
    is_new(state.sites, name, "site")
    site = Site(name, amount(fixed), None if capacity is None else amount(capacity), "free", *place(at), amount(throughput))
    if costs is None:
        needs_place(site, rule)
        lanes = {c: rule.cost(site, it) for c, it in state.customers.items()}
    else:
        lanes = given_lanes(state.customers, costs, "customer")
    rest = f" fixed {told(site.fixed)}" + (f" capacity {told(site.capacity)}" if site.capacity is not None else "")
    rest += f" throughput {told(site.throughput)}" if site.throughput else ""
    draft = Draft(state, f"site {name} comes, fixed cost {told(site.fixed)}, capacity {told(site.capacity)}",
                  [f"add site {quote(name)}{spot(site)}{rest}{told_lanes(state.customers, lanes, costs is not None)}"])
    draft.line("addsite", shown(site.fixed), shown(site.capacity), *map(shown, lanes.values()))
    s, draft.next_site = state.next_site, state.next_site + 1
    draft.put_site(s, site)
    for c, cost in lanes.items():
        draft.put_lane(s, c, cost)
    return draft


def add_customer(state: State, rule: Rule, name: str, costs: Costs | None, demand: Amount, at: Mapping[str, Amount | None]) -> Draft:
    """A customer comes, last. The lanes are made as the sheets' were, or are `costs`."""
    is_new(state.customers, name, "customer")
    customer = Customer(name, amount(demand), *place(at))
    if costs is None:
        needs_place(customer, rule)
        lanes = {s: rule.cost(it, customer) for s, it in state.sites.items()}
    else:
        lanes = given_lanes(state.sites, costs, "site")
    draft = Draft(state, f"customer {name} comes, demand {told(customer.demand)}",
                  [f"add customer {quote(name)}{spot(customer)} demand {told(customer.demand)}"
                   f"{told_lanes(state.sites, lanes, costs is not None)}"])
    draft.line("addcust", shown(customer.demand), *map(shown, lanes.values()))
    c, draft.next_customer = state.next_customer, state.next_customer + 1
    draft.put_customers({c: customer})
    for s, cost in lanes.items():
        draft.put_lane(s, c, cost)
    return draft
