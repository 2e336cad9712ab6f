"""The report as one HTML file that loads nothing from elsewhere. All that is told is written as text."""
import base64
from collections.abc import Iterable, Iterator
from html import escape
from pathlib import Path

from . import draw, plans
from .answer import Answer
from .board_show import length
from .cells import grouped
from .report_facts import Facts, Source

STYLE = Path(__file__).parent / "page" / "report.css"


def tag(name: str, inner: str, **values: str) -> str:
    words = "".join(f' {key.rstrip("_")}="{escape(it)}"' for key, it in values.items())
    return f"<{name}{words}>{inner}</{name}>"


def table(head: Iterable[str], rows: Iterable[Iterable[object]], numbers: Iterable[int] = (), of: str = "") -> str:
    """A table. The columns of these numbers stand to the right."""
    right = set(numbers)

    def cells(kind: str, those: Iterable[object]) -> str:
        return "".join(tag(kind, escape("" if it is None else str(it)), **({"class_": "number"} if at in right else {}))
                       for at, it in enumerate(those))

    body = "".join(f"<tr>{cells('td', row)}</tr>\n" for row in rows)
    return tag("table", f"<thead><tr>{cells('th', head)}</tr></thead>\n<tbody>{body}</tbody>", **({"id": of} if of else {}))


def amount(micro: int | None) -> str:
    return "none" if micro is None else grouped(micro)


def signed(micro: int) -> str:
    return f"+{grouped(micro)}" if micro > 0 else f"−{grouped(-micro)}" if micro < 0 else "0"


def says(answer: Answer) -> str:
    """What is proved, in a sentence."""
    if answer.kind == "infeasible":
        return "There is no plan: capacities, statuses, missing lanes or the number of sites leave none."
    if not answer.has_plan:
        return f"No plan was found. None costs less than {amount(answer.low)}."
    if answer.kind == "optimal":
        return f"This plan costs {amount(answer.cost)}, and no plan costs less."
    return (f"This plan costs {amount(answer.cost)}, and no plan costs less than {amount(answer.low)}: it is at most {answer.gap} % above "
            "the best one.")


def head(facts: Facts) -> Iterator[str]:
    answer = facts.answer
    yield tag("h1", escape(facts.title))
    yield tag("p", escape(says(answer)), class_="claim", id="claim")
    said = tag("code", escape(facts.said), id="said")
    yield tag("p", f"The checker of dualoc, which believes no solver, was asked again for this report. It says {said}.")
    if not answer.has_plan:
        return
    rows = [("cost", amount(answer.cost)), ("of it for sites", amount(answer.leases)), ("of it for transport", amount(answer.transport)),
            ("open sites", f"{len(answer.open)} of {len(answer.sites)}"), ("customers", str(len(answer.customers)))]
    distance, customer, site = answer.farthest
    if distance is not None:
        far = f"{length(distance)} {facts.unit}, {answer.customers[customer].name} from {answer.sites[site].name}"
        rows += [("farthest customer", far), ("mean distance", f"{length(answer.mean)} {facts.unit}")]
    yield table(("", ""), rows, of="summary")


def picture(facts: Facts) -> Iterator[str]:
    answer = facts.answer
    if not answer.has_plan:
        return
    yield tag("h2", "Map")
    if not all(it.at for it in (*answer.sites.values(), *answer.customers.values())):
        yield tag("p", "There is no map, since not all sites and customers have coordinates.")
        return
    svg = draw.svg(plans.in_text(answer.plan_text()), answer.names(), facts.title, facts.unit)
    data = f"data:image/svg+xml;base64,{base64.b64encode(svg.encode()).decode()}"
    yield f'<img src="{data}" alt="The map of the plan: open sites with lines to the customers that they serve">'


def sites(answer: Answer) -> Iterator[str]:
    """The open sites, those of most customers first."""
    transport, mine = ({s: 0 for s in answer.open} for _ in range(2))
    for s, cost in answer.served.values():
        transport[s] += cost
        mine[s] += 1
    rows = []
    for s in sorted(answer.open, key=lambda it: -mine[it]):
        it, load = answer.sites[s], answer.loads[answer.sites[s].name]
        full = "" if it.capacity is None else f"{(2000 * load + it.capacity) // (2 * it.capacity or 1) / 10:.1f} %"
        rows.append((it.name, mine[s], amount(load), amount(it.capacity), full, amount(it.fixed), amount(transport[s])))
    yield tag("h2", "Open sites")
    yield table(("site", "customers", "load", "capacity", "full", "fixed cost", "transport"), rows, range(1, 7), "sites")


def changed(now: dict, before: dict, titles: tuple[str, ...]) -> Iterator[tuple[str, ...]]:
    """What of sites or customers is something else than in the base: its name, what changed, before and now."""
    shown = lambda it: it if isinstance(it, str) else amount(it)
    for key in {**before, **now}:
        one, other = before.get(key), now.get(key)
        if one is None or other is None:
            yield (one or other).name, "", *(("there", "gone") if one else ("", "new"))
            continue
        for title in titles:
            if getattr(one, title) != getattr(other, title):
                yield other.name, title.replace("fixed", "fixed cost"), shown(getattr(one, title)), shown(getattr(other, title))


def edits(facts: Facts) -> Iterator[str]:
    """What a session changed, edit by edit."""
    if facts.edits:
        yield tag("h2", "Edits in force") + tag("ol", "".join(tag("li", escape(it)) for it in facts.edits), id="edits")


def against(facts: Facts) -> Iterator[str]:
    """What differs from the base: the instance, the cost, the sites, and who moves."""
    answer, base = facts.answer, facts.base
    if base is None or base.checksum == answer.checksum:
        return
    yield tag("h2", "Against the base")
    rows = [*changed(answer.sites, base.sites, ("fixed", "capacity", "status")), *changed(answer.customers, base.customers, ("demand",))]
    if rows:
        yield table(("changed", "what", "base", "here"), rows, of="changes")
    if not answer.has_plan or not base.has_plan:
        yield tag("p", f"Of the base is known: {escape(says(base))}")
        return
    yield from costs_against(answer, base)


def costs_against(answer: Answer, base: Answer) -> Iterator[str]:
    costs = [("cost", base.cost, answer.cost), ("for sites", base.leases, answer.leases), ("for transport", base.transport, answer.transport)]
    rows = [(what, amount(b), amount(a), signed(a - b)) for what, b, a in costs]
    yield table(("", "base", "here", "difference"), rows, range(1, 4), "differences")
    if base.kind != "optimal":
        yield tag("p", f"The base's plan is at most {base.gap} % above its best one.")
    for what, those in ("Sites that come", answer.opened(base)), ("Sites that go", answer.closed(base)):
        yield tag("p", f"{what}: {escape(', '.join(those)) or 'none'}.")
    moves = answer.moved(base)
    elsewhere = f"{len(moves)} of {len(answer.customers)} customers are served from elsewhere."
    yield tag("p", elsewhere if moves else "Each customer is served from where it was.")
    if moves:
        yield table(("customer", "before", "here"), [(it.customer, it.before, it.after) for it in moves], of="moves")


def customers(answer: Answer) -> Iterator[str]:
    rows = [(answer.customers[c].name, answer.sites[s].name, amount(answer.customers[c].demand), amount(cost))
            for c, (s, cost) in answer.served.items()]
    yield tag("h2", "Who serves whom")
    yield table(("customer", "served from", "demand", "cost"), rows, (2, 3), "customers")


def link(it: Source) -> str:
    """A file's name, from which its bytes can be taken where the report holds them."""
    return escape(it.name) if it.link is None else tag("a", escape(it.name), href=it.link, download=it.name)


def rests(facts: Facts) -> Iterator[str]:
    rows = "".join(f'<tr><td>{escape(it.what)}</td><td>{link(it)}</td><td class="number">{it.bytes:,}</td>'
                   f"<td><code>{it.checksum}</code></td></tr>\n" for it in facts.sources)
    yield tag("h2", "What it rests on")
    head = '<tr><th>file</th><th>name</th><th class="number">bytes</th><th>SHA-256</th></tr>'
    yield tag("table", f"<thead>{head}</thead><tbody>{rows}</tbody>", id="sources")
    if any(it.link for it in facts.sources):
        yield tag("p", "The files whose names are links are within this report: a browser saves them.", class_="screen")
    if facts.sheets:
        yield tag("p", "The instance was made of these sheets, which then had these checksums:")
        yield table(("sheet", "SHA-256", "now"), [(it.name, it.checksum, it.now) for it in facts.sheets], of="sheets")
    yield table(("made with", ""), facts.versions, of="versions")
    yield tag("h2", "How anyone repeats it") + tag("pre", escape("\n".join(facts.commands)), id="commands")


def signature() -> str:
    return '<div class="sign">' + "".join(tag("div", it) for it in ("Name", "Date", "Signature")) + "</div>"


def page(facts: Facts) -> str:
    """The whole file."""
    answer = facts.answer
    tables = [*sites(answer)] if answer.has_plan else []
    served = [*customers(answer)] if answer.has_plan else []
    parts = [*head(facts), signature(), *picture(facts), *tables, *edits(facts), *against(facts), *served, *rests(facts)]
    return ('<!doctype html>\n<html lang="en"><head><meta charset="utf-8"><meta name="viewport" content="width=device-width">'
            f"<title>{escape(facts.title)}</title><style>{STYLE.read_text()}</style></head>\n<body>\n" + "\n".join(parts) + "\n</body></html>\n")
