"""The edits of a session, each as a draft: what the program is to be told, by ids, and the state behind it."""
from collections.abc import Callable, Iterable, Mapping
from dataclasses import replace
from decimal import Decimal

from .cells import MICRO, MOST_AMOUNT, Refusal, amount, money
from .lanes import Rule
from .places import Customer, Site
from .state import Draft, State, quote, shown

Amount = int | str | Decimal
STATUS = {"free": "free", "open": "open", "closed": "close"}
STAY = " keep lanes"


def told(micro: int | None) -> str:
    """An amount in a line of the console."""
    return "none" if micro is None else money(micro)


def fixed(state: State, site: int | str, cost: Amount) -> Draft:
    """Opening the site costs so much."""
    s, micro = state.site(site), amount(cost)
    it = state.sites[s]
    draft = Draft(state, f"{it.name}: fixed cost {money(it.fixed)} -> {money(micro)}", [f"fixed {quote(it.name)} {told(micro)}"])
    draft.line("fixed", s, shown(micro))
    draft.put_site(s, replace(it, fixed=micro))
    return draft


def capacity(state: State, site: int | str, room: Amount | None) -> Draft:
    """The site holds so much demand, or any."""
    s, micro = state.site(site), None if room is None else amount(room)
    it = state.sites[s]
    draft = Draft(state, f"{it.name}: capacity {told(it.capacity)} -> {told(micro)}", [f"capacity {quote(it.name)} {told(micro)}"])
    draft.line("cap", s, shown(micro))
    draft.put_site(s, replace(it, capacity=micro))
    return draft


def status(state: State, site: int | str, word: str) -> Draft:
    """The site is free, must be open, or must stay closed."""
    s = state.site(site)
    it = state.sites[s]
    draft = Draft(state, f"{it.name}: {it.status} -> {word}", [f"{STATUS[word]} {quote(it.name)}"])
    draft.line("status", s, word)
    draft.put_site(s, replace(it, status=word))
    return draft


def count(state: State, least: int, most: int) -> Draft:
    """So many sites are to be opened, the least and the greatest number."""
    if not all(type(it) is int and it >= 0 for it in (least, most)):
        raise Refusal(f"count {least} {most}: two whole numbers are due")
    draft = Draft(state, f"open sites: {state.count[0]} to {state.count[1]} -> {least} to {most}", [f"count {least} {most}"])
    draft.line("count", least, most)
    draft.count = least, most
    return draft


def lane(state: State, site: int | str, customer: int | str, cost: Amount | None) -> Draft:
    """Serving all of the customer's demand from the site costs so much, or can't be."""
    s, c, micro = state.site(site), state.customer(customer), None if cost is None else amount(cost)
    names = state.sites[s].name, state.customers[c].name
    draft = Draft(state, f"{names[0]} to {names[1]}: {told(state.lanes.get(s, c))} -> {told(micro)}",
                  [f"lane {quote(names[0])} to {quote(names[1])} {told(micro)}"])
    draft.ids += [("site", s), ("customer", c)]
    draft.line("lane", s, c, shown(micro))
    draft.put_lane(s, c, micro)
    return draft


def tie(state: State, customer: int | str, site: int | str) -> Draft:
    """The customer can be served from this site alone: all other lanes go. Refused where the site has no lane there, or no other has."""
    c, s = state.customer(customer), state.site(site)
    names = state.customers[c].name, state.sites[s].name
    others = [it for it in state.sites if it != s and state.lanes.get(it, c) is not None]
    if state.lanes.get(s, c) is None:
        raise Refusal(f"{names[1]} has no lane to {names[0]}")
    if not others:
        raise Refusal(f"{names[0]} can be served from {names[1]} alone already")
    draft = Draft(state, f"{names[0]}: from {names[1]} alone ({len(others)} lanes go)", [f"tie {quote(names[0])} to {quote(names[1])}"])
    draft.ids += [("site", s), ("customer", c)]
    for it in others:
        draft.line("lane", it, c, "none")
        draft.put_lane(it, c, None)
    return draft


def put_demand(draft: Draft, state: State, rule: Rule, c: int, micro: int, goes: bool | None) -> Customer:
    """Changes a demand in the draft, and the lanes with it: as the names file says, or where `goes` does. The customer behind it."""
    before = state.customers[c]
    after = replace(before, demand=micro)
    draft.line("demand", c, shown(micro))
    for s, site in state.sites.items() if goes is not False else ():
        cost = state.lanes.get(s, c)
        if cost is None or not rule.goes_by_demand(site):
            continue
        new = rule.again(cost, site, before, after)
        if new != cost:
            draft.line("lane", s, c, shown(new))
            draft.put_lane(s, c, new)
    return after


def demands(state: State, rule: Rule, those: Mapping[int, int], text: str, words: Iterable[str], lanes: bool | None) -> Draft:
    """Customers demand so much. `lanes` says whether their lanes' costs change in step; without it the names file does."""
    draft = Draft(state, text, words)
    forced = replace(rule, by_demand=True) if lanes else rule
    draft.put_customers({c: put_demand(draft, state, forced, c, micro, lanes) for c, micro in those.items()})
    if draft.lanes:
        draft.text += f" ({len(draft.lanes)} lane costs with it)"
    return draft


def demand(state: State, rule: Rule, customer: int | str, much: Amount, lanes: bool | None = None) -> Draft:
    """The customer demands so much."""
    c, micro = state.customer(customer), amount(much)
    it = state.customers[c]
    text = f"{it.name}: demand {money(it.demand)} -> {money(micro)}"
    return demands(state, rule, {c: micro}, text, [f"demand {quote(it.name)} {told(micro)}{STAY if lanes is False else ''}"], lanes)


def factor_of(word: Amount) -> tuple[int, int]:
    """A factor as a fraction, from `1.10`, `+10%` or `-2.5%`."""
    text = str(word).strip() if not isinstance(word, float) else None
    if text is None:
        raise TypeError(f"a factor is due as an int, a Decimal or a text, and {word!r} is a float")
    if not text.endswith("%"):
        return amount(word), MICRO
    sign, rest = (-1, text[1:-1]) if text[0] in "-−" else (1, text[:-1].lstrip("+"))
    parts = 100 * MICRO + sign * amount(rest.strip())
    if parts < 0:
        raise Refusal(f"{text!r} takes more than all")
    return parts, 100 * MICRO


def times(micro: int, factor: tuple[int, int], name: str) -> int:
    """An amount times a factor, rounded to the nearest millionth. Refused past the limit."""
    found = (2 * micro * factor[0] + factor[1]) // (2 * factor[1])
    if found > MOST_AMOUNT:
        raise Refusal(f"{name}: {money(found)} is more than {money(MOST_AMOUNT)}")
    return found


def chosen(those: Mapping[int, Site | Customer], where: Callable | None, what: str) -> list[int]:
    """The ids of those of which `where` holds. Refused where there is none."""
    found = [key for key, it in those.items() if where is None or where(it)]
    if not found:
        raise Refusal(f"there is no such {what}")
    return found


def scale_demand(state: State, rule: Rule, factor: Amount, where: Callable | None = None, lanes: bool | None = None,
                 words: str | None = None) -> Draft:
    """The demands of all customers, or of those of which `where` holds, times a factor. `words` is the console's line for it."""
    part = factor_of(factor)
    those = {c: times(state.customers[c].demand, part, state.customers[c].name) for c in chosen(state.customers, where, "customer")}
    one_by_one = [f"demand {quote(state.customers[c].name)} {told(micro)}{STAY if lanes is False else ''}" for c, micro in those.items()]
    text = f"demand times {factor}: {len(those)} customers" if words is None else f"{words}: {len(those)} customers"
    return demands(state, rule, those, text, one_by_one if words is None else [words], lanes)


def scale_sites(state: State, title: str, factor: Amount, where: Callable | None = None, words: str | None = None) -> Draft:
    """The fixed costs, or the capacities, of all sites or of those of which `where` holds, times a factor. `title` says which."""
    part, verb = factor_of(factor), "cap" if title == "capacity" else "fixed"
    those = {s: times(getattr(state.sites[s], title), part, state.sites[s].name)
             for s in chosen(state.sites, where, "site") if getattr(state.sites[s], title) is not None}
    if not those:
        raise Refusal("no such site has a capacity")
    one_by_one = [f"{title} {quote(state.sites[s].name)} {told(micro)}" for s, micro in those.items()]
    draft = Draft(state, f"{words or f'{title} times {factor}'}: {len(those)} sites", one_by_one if words is None else [words])
    for s, micro in those.items():
        draft.line(verb, s, shown(micro))
        draft.put_site(s, replace(state.sites[s], **{title: micro}))
    return draft


def drop(state: State, what: str, name: int | str) -> Draft:
    """The site or the customer goes, with its lanes."""
    key = state.site(name) if what == "site" else state.customer(name)
    it = (state.sites if what == "site" else state.customers)[key]
    draft = Draft(state, f"{what} {it.name} goes", [f"drop {what} {quote(it.name)}"])
    draft.line("dropsite" if what == "site" else "dropcust", key)
    draft.put_site(key, None) if what == "site" else draft.put_customers({key: None})
    return draft
