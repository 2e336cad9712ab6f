"""The lines of the console that don't edit: each with what it does, its form, and what `help` says."""
from collections.abc import Callable
from dataclasses import dataclass

from . import console_show as show
from . import draw as drawing
from . import table as tables
from .cells import Refusal
from .phrases import FORMS, Rest, edit, where_of, words_of
from .plans import in_text
from .scenarios import BASE

EDITS = {
    "close": "the site must stay closed", "open": "it must be open", "free": "the solver says whether it opens",
    "fixed": "what opening a site costs; of many at once, in per cent", "capacity": "how much demand it holds",
    "demand": "what a customer demands; its lanes' costs go with it where they go by demand, but for `keep lanes`",
    "count": "how many sites may be open", "lane": "what serving a customer from a site costs",
    "tie": "the customer can be served from this site alone",
    "add": "a site or a customer comes, with lanes made as the sheets' were, or those that are named",
    "drop": "a site or a customer goes",
}


def limits_in(rest: Rest) -> dict[str, object]:
    """The limits of a solve, in any order: `30 s`, `gap 0.1`, `budget 5000`, `anew`."""
    found = {}
    while rest.words:
        if rest.has("gap"):
            found["gap"] = rest.take()
        elif rest.has("budget"):
            found["budget"] = whole(rest)
        elif rest.has("anew"):
            found["anew"] = True
        else:
            found["seconds"] = whole(rest)
            rest.has("s") or rest.has("seconds") or rest.refuse()
    return found


def whole(rest: Rest) -> int:
    word = rest.take()
    return int(word) if word.isdecimal() else rest.refuse()


def due_answer(session: object) -> object:
    """The standing answer. Refused where there is none, or it has no plan."""
    if not session.answer:
        raise Refusal("no answer stands: solve first")
    if not session.answer.has_plan:
        raise Refusal(session.answer.text)
    return session.answer


def edits_in(many: int) -> str:
    return f"{many} edit{'s' * (many != 1)}"


def undo(console: object, rest: Rest) -> list[str]:
    session = console.session
    if rest.has("all"):
        gone = session.undo(len(session.steps))
    else:
        gone = session.undo(whole(rest) if rest.words else 1)
    return [f"taken back: {it.text}" for it in gone] or ["there is no edit to take back"]


def steps(console: object, rest: Rest) -> list[str]:
    return show.step_lines(console.session.steps)


def mark(console: object, rest: Rest) -> list[str]:
    name = rest.name() if rest.words else "mark"
    console.marks[name] = console.session.mark()
    return [f"back {name} leads here: {edits_in(len(console.session.steps))}"]


def back(console: object, rest: Rest) -> list[str]:
    name = rest.name() if rest.words else "mark"
    if name not in console.marks:
        raise Refusal(f"there is no mark {name!r}")
    console.session.back_to(console.marks[name])
    return [f"in force: {edits_in(len(console.session.steps))}"]


def solve(console: object, rest: Rest) -> list[str]:
    limits = limits_in(rest)
    found = console.session.solve(tell=console.tell, **limits)
    more = ["held, and check says " + found.check()] if found.was_held else []
    if found.kind == "bracket" and not found.was_held:
        more = ["solve again goes on from here"]
    return [found.text, *more]


def why(console: object, rest: Rest) -> list[str]:
    other = console.session.answer_of(rest.name(), tell=console.tell) if rest.words else None
    return console.session.why(other).lines


def limited(console: object, rest: Rest, ask: Callable, named: bool) -> object:
    """Asks a question that takes solves, with the limits that stand behind it."""
    name = [rest.name("gap", "within")] if named else []
    rest.has("within")
    limits = limits_in(rest)
    return ask(*name, tell=console.tell, **{key: limits[key] for key in ("seconds", "gap") if key in limits})


def breakeven(console: object, rest: Rest) -> list[str]:
    return [limited(console, rest, console.session.breakeven, True).text]


def second(console: object, rest: Rest) -> list[str]:
    found = limited(console, rest, console.session.second, False)
    listed = lambda those: ", ".join(those) or "none"
    sites = [f"sites that come: {listed(found.answer.opened(found.best))}", f"sites that go: {listed(found.answer.closed(found.best))}"]
    return [found.text, *(sites if found.answer else [])]


def keep(console: object, rest: Rest) -> list[str]:
    name = rest.name()
    console.session.keep(name)
    return [f"kept as {name}: {edits_in(len(console.session.steps))}"]


def load(console: object, rest: Rest) -> list[str]:
    name = rest.name()
    return [f"{name}, in force: {edits_in(console.session.load(name))}"]


def forget(console: object, rest: Rest) -> list[str]:
    name = rest.name()
    console.session.forget(name)
    return [f"{name} is forgotten"]


def scenarios(console: object, rest: Rest) -> list[str]:
    found = console.session.scenarios()
    return [f"{name}: {many} lines of edits" for name, many in found] or ["nothing is kept"]


def compare(console: object, rest: Rest) -> list[str]:
    names = [it.text for it in rest.words] or [BASE, *(name for name, _ in console.session.scenarios())]
    return show.compared_lines(console.session.compare(names, tell=console.tell))


def rebase(console: object, rest: Rest) -> list[str]:
    name = rest.name("onto")
    onto = rest.name("as") if rest.has("onto") else rest.refuse()
    as_name = rest.name() if rest.has("as") else rest.refuse()
    found = console.session.rebase(name, onto, as_name)
    return [f"kept as {as_name}: {edits_in(len(found.made))} made, {len(found.refused)} refused",
            *(f"  refused: {line}: {fault}" for line, fault in found.refused)]


def plan(console: object, rest: Rest) -> list[str]:
    found = due_answer(console.session)
    return show.served_lines(found, console.session.state.site(rest.name())) if rest.words else show.plan_lines(found)


def sites(console: object, rest: Rest) -> list[str]:
    return show.site_lines(console.session.state, console.session.answer)


def customers(console: object, rest: Rest) -> list[str]:
    state, where = console.session.state, where_of(console.session, rest)
    rest.end()
    return show.customer_lines(state, console.session.answer, [c for c, it in state.customers.items() if where is None or where(it)])


def check(console: object, rest: Rest) -> list[str]:
    if not console.session.answer:
        raise Refusal("no answer stands: solve first")
    return [f"check says: {console.session.answer.check()}"]


def report(console: object, rest: Rest) -> list[str]:
    from .report import write
    path, title = rest.take(), " ".join(it.text for it in rest.words)
    return [write(console.session, path, title=title or None)]


def save(console: object, rest: Rest) -> list[str]:
    path = rest.take()
    names = rest.take() if rest.words else None
    console.session.save(path)
    if names:
        console.session.save_names(names)
    return [f"{path}: the instance as it stands" + (f"; {names}: its names" if names else "")]


def cert(console: object, rest: Rest) -> list[str]:
    path = rest.take()
    if not console.session.answer:
        raise Refusal("no answer stands: solve first")
    with open(console.session.answer.certificate_file, "rb") as held, open(path, "wb") as file:
        file.write(held.read())
    return [f"{path}: the certificate of {console.session.answer.claim}"]


def table(console: object, rest: Rest) -> list[str]:
    path, found = rest.take(), due_answer(console.session)
    tables.write(path, in_text(found.plan_text()), found.names(), comma=rest.has("comma"))
    return [f"{path}: the plan as a sheet"]


def draw(console: object, rest: Rest) -> list[str]:
    path, found = rest.take(), due_answer(console.session)
    title = " ".join(it.text for it in rest.words) or "Plan"
    picture = drawing.svg(in_text(found.plan_text()), found.names(), title, found.rule.unit)
    with open(path, "w", encoding="utf-8") as file:
        file.write(picture)
    return [f"{path}: the map of the plan"]


def help(console: object, rest: Rest) -> list[str]:
    if rest.words:
        word = rest.take().lower()
        if word in FORMS:
            return [FORMS[word][1], f"  {EDITS[word]}"]
        if word not in COMMANDS:
            raise Refusal(f"there is no line {word!r}: help lists them")
        return [COMMANDS[word].form, f"  {COMMANDS[word].says}"]
    edits = [f"  {form.split(', or ')[0]:<44} {EDITS[verb]}" for verb, (_, form) in FORMS.items()]
    others = [f"  {it.form:<44} {it.says}" for it in COMMANDS.values()]
    return ["Lines that edit:", *edits, "A name may be in quotes. CONDITION is as: lat < 49 and demand >= 100 or name like B*",
            "Other lines:", *others, "help WORD says more of one. Ctrl-C ends a solve and keeps what it found."]


@dataclass(frozen=True)
class Command:
    """What a line does, its form, and what it is for. `takes` says of what it may be completed."""

    do: Callable
    form: str
    says: str
    takes: str = ""


COMMANDS = {
    "solve": Command(solve, "solve [30 s] [gap 0.1] [budget N] [anew]", "solves what stands; ends early by seconds, a gap in per cent or nodes"),
    "why": Command(why, "why [SCENARIO]", "what the last answer changes against the one before, or a scenario's", "scenarios"),
    "plan": Command(plan, "plan [SITE]", "the open sites, or the customers of one", "sites"),
    "sites": Command(sites, "sites", "all sites as they stand"),
    "customers": Command(customers, "customers [where CONDITION]", "customers as they stand, and who serves them", "fields"),
    "breakeven": Command(breakeven, "breakeven SITE [within 30 s] [gap 0.1]", "at which lease the site is all one, by two solves", "sites"),
    "second": Command(second, "second [within 30 s] [gap 0.1]", "the best plan with other sites, by some solves"),
    "edits": Command(steps, "edits", "the edits in force"),
    "undo": Command(undo, "undo [N], or undo all", "takes the last edits back"),
    "mark": Command(mark, "mark [NAME]", "remembers the edits in force"),
    "back": Command(back, "back [NAME]", "takes back what was edited since"),
    "keep": Command(keep, "keep NAME", "keeps the edits in force as a scenario", "scenarios"),
    "load": Command(load, "load NAME", "begins anew with a scenario, or with base", "scenarios"),
    "forget": Command(forget, "forget NAME", "drops a scenario", "scenarios"),
    "scenarios": Command(scenarios, "scenarios", "lists what is kept"),
    "compare": Command(compare, "compare [NAME ..]", "scenarios in one table, against the first", "scenarios"),
    "rebase": Command(rebase, "rebase NAME onto NAME as NAME", "a scenario's edits on another one, or on base", "scenarios"),
    "check": Command(check, "check", "has the certificate of the answer judged"),
    "report": Command(report, "report FILE [TITLE]", "writes an HTML file to sign", "files"),
    "table": Command(table, "table FILE [comma]", "writes the plan as a sheet", "files"),
    "draw": Command(draw, "draw FILE [TITLE]", "writes the map of the plan", "files"),
    "save": Command(save, "save FILE [NAMES]", "writes the instance as it stands, and its names", "files"),
    "cert": Command(cert, "cert FILE", "writes the certificate of the answer", "files"),
    "help": Command(help, "help [WORD]", "says what lines there are"),
    "quit": Command(None, "quit", "ends the console"),
}


def run(console: object, line: str) -> list[str]:
    """Does what a line says, and answers what is to be shown. Refused is what is wrong with it."""
    step = edit(console.session, line)
    if step:
        return [step.text]
    first, *words = words_of(line)
    found = COMMANDS.get(first.text.lower()) if not first.is_quoted else None
    if not found or not found.do:
        near = console.near(first.text)
        raise Refusal(f"there is no line {first.text!r}" + (f": is it {near}?" if near else ": help lists them"))
    return found.do(console, Rest(words, found.form))
