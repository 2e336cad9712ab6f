"""What the checks of the repository's own texts share: the crates, and what their files declare."""
import re
from collections import defaultdict
from pathlib import Path

ROOT = Path(__file__).resolve().parent.parent
DEFINITION = re.compile(r"(?:(?:abbrev|unfoldable) )?pub (?:(record|data) )?([^\s:({]+)")
FIELD = re.compile(r"  (?:pub )?([A-Za-z]\w*) :")
TYPE = re.compile(r"\b(?:struct|enum|trait) +([A-Za-z]\w*)")
CALL = re.compile(r"\b(?:fn|const) +([A-Za-z]\w*)")
VARIANT = re.compile(r"(?<=^    )([A-Z]\w*)(?:,|\(| \{)")
CLAUSE = re.compile(r"\bensures (\w+) \{")
LEMMA = re.compile(r"(?:pub )?([A-Za-z][\w-]*) :")


def listed():
    """Each crate with those of the repository on which it stands by its own line."""
    lines = [it.split(":") for it in (ROOT / "crates.txt").read_text().splitlines() if ":" in it and it[0] != "#"]
    names = {name.split()[0] for name, _ in lines}
    return {name.split()[0]: [it for it in below.split() if it in names] for name, below in lines}


def below(crates, *tops):
    """All crates on which these stand, and they themselves."""
    found, due = set(), list(tops)
    while due:
        name = due.pop()
        if name not in found:
            found.add(name)
            due += crates[name]
    return found


def pages(name, folder="specs"):
    return sorted((ROOT / "crates" / name / folder).rglob("*.antt"))


def heads(page):
    """The definitions of a page, each with its kind, its name and its lines. A line that is indented goes on."""
    found = []
    for line in page.read_text().splitlines():
        head = DEFINITION.match(line)
        if head and head[2] not in ("mod", "use"):
            found.append((head[1], head[2], [line]))
        elif found and line.startswith(" "):
            found[-1][2].append(line)
    return found


def definitions(name):
    """The names that the pages of a crate define, each with its fields or its cases."""
    found = defaultdict(set)
    for page in pages(name):
        for kind, defined, lines in heads(page):
            found[defined] |= {it[1] for it in map(FIELD.match, lines[1:]) if kind and it}
    return found


def code(name):
    """The names that the code of a crate declares: its types, and its calls with clauses and cases of enums."""
    lines = [line for page in sorted((ROOT / "crates" / name / "src").rglob("*.rt")) for line in page.read_text().splitlines()]
    named = lambda *kinds: {it[1] for line in lines for kind in kinds for it in kind.finditer(line)}
    return named(TYPE), named(CALL, CLAUSE, VARIANT)


def lemmas(name):
    return {it[1] for page in pages(name, "proofs") for it in map(LEMMA.match, page.read_text().splitlines()) if it}
