"""Completion of the console's lines: verbs, names, scenarios, and what a condition may speak of."""
import glob
import re

from .console_commands import COMMANDS
from .phrases import FORMS, NUMBERS, TEXTS
from .scenarios import BASE
from .state import quote

# The names that stand behind the verb of an edit, and behind `to`.
TAKES = {**dict.fromkeys(("close", "open", "free", "fixed", "capacity", "lane"), "sites"), "demand": "customers", "tie": "customers"}
BOTH = {"lane": "customers", "tie": "sites"}
FIELD = re.compile(r".*\b(?:where|and|or)\s+(\w*)", re.I)


def names_of(session: object, what: str) -> list[str]:
    those = session.sites if what == "sites" else session.customers
    return [quote(it.name) for it in those.values()]


def choices(session: object, verb: str, rest: str) -> tuple[str, list[str]]:
    """The part of the rest of a line that is to be completed, and what it may become."""
    field = FIELD.fullmatch(rest)
    if field:
        return field[1], [*NUMBERS, *TEXTS]
    last = rest.rpartition(" ")[2]
    if verb in ("add", "drop") and " " not in rest:
        return rest, ["site ", "customer "]
    if verb == "drop":
        what, _, name = rest.partition(" ")
        return name, names_of(session, f"{what}s")
    if verb in BOTH and re.search(r"\sto\s", rest):
        return re.split(r"\sto\s", rest)[-1], names_of(session, BOTH[verb])
    takes = COMMANDS[verb].takes if verb in COMMANDS else TAKES.get(verb, "")
    if takes in ("sites", "customers"):
        return rest, names_of(session, takes)
    if takes == "scenarios":
        return last, [BASE, *(name for name, _ in session.scenarios())]
    if takes == "files":
        return last, sorted(glob.glob(f"{glob.escape(last)}*"))
    if verb == "help":
        return last, [*FORMS, *COMMANDS]
    return last, []


def completions(session: object, line: str) -> list[str]:
    """The lines that a line may become."""
    head = re.match(r"\s*", line)[0]
    verb, gap, rest = line[len(head):].partition(" ")
    if not gap:
        return [f"{head}{it} " for it in (*FORMS, *COMMANDS) if it.startswith(verb.lower())]
    begun, those = choices(session, verb.lower(), rest.lstrip())
    front = line[:len(line) - len(begun)]
    wanted = begun.lstrip('"').casefold()
    return [front + it for it in those if it.lstrip('"').casefold().startswith(wanted)]
