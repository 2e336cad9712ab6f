"""Tells pages of definitions that a reader of contracts never meets: `pages.py`, which needs no program.

A page of `specs/` is met where a clause of a public call, of a public trait or of a public type's model names one of its
definitions, or where a definition that is met does. Each other page says in its first line that it is for private functions
alone, or of calls that are yet to come, and no page that is met says so.
"""
import re
import sys
from collections import defaultdict

from crates import ROOT, heads, listed, pages

UNMET = (
    "-- For private functions alone: no public contract cites this page.",
    "-- Of calls that are yet to come: no public contract cites this page.",
)
# Pages for private functions whose first line doesn't say so: the next change of their crate is to mend it.
UNSAID = set()
USE = re.compile(r"use Rattle\.(\w+)\.specs\.(\w+)(?:\.\{([^}]*)\}| as (\w+)|);?$", re.M)
PUBLIC = re.compile(r"^pub use (?:\w+::)*(?:\{([^}]*)\}|(\w+));", re.M)
WORD = re.compile(r"[^\W\d](?:[\w-]|\.(?=\w))*")


def imports(text):
    """What the names in a text stand for, as a crate, a page and a name; of an alias of a page, all of the page's."""
    names, aliases = {}, {}
    for crate, page, listed_names, alias in USE.findall(text):
        for item in filter(None, map(str.strip, listed_names.split(","))):
            name, _, other = item.partition(" as ")
            names[other or name] = (crate, page, name)
        if alias:
            aliases[alias] = (crate, page)
    return names, aliases


def met_in(text, names, aliases):
    """The definitions that the words of a text name."""
    for word in set(WORD.findall(text)):
        head, _, rest = word.partition(".")
        if head in names:
            yield names[head]
        elif head in aliases and rest:
            yield (*aliases[head], rest.split(".")[0])


def public_text(source, public):
    """The lines of a file's public calls up to their bodies, and of its public traits and models."""
    taken, kind = [], None
    for line in source.splitlines():
        if re.match(r"(?!where\b)[a-z#/]", line):
            block = re.match(r"(?:pub )?(trait|impl|fn)\b.*", line)
            names = {*re.findall(r"\w+", line.split("requires")[0])} & public
            kind = block[1] if block and names else None
            inherent = kind == "impl" and " for " not in line
            head = kind == "fn" and line.startswith("pub")
        if kind == "impl" and inherent and re.match(r"    (?:pub )?fn ", line):
            head = line.startswith("    pub")
        if kind in ("fn", "impl") and re.match(r" *\{\}?$", line):
            head = False
        if (kind == "fn" and head) or kind == "trait" or (kind == "impl" and (head if inherent else True)):
            taken.append(line)
    return "\n".join(taken)


def public_names(crate):
    root = next(it for it in (ROOT / "crates" / crate / "src" / name for name in ("lib.rt", "main.rt")) if it.exists())
    text = root.read_text()
    found = {name.strip().split(" as ")[-1] for many, one in PUBLIC.findall(text) for name in (many or one).split(",")}
    return found | {*re.findall(r"^pub (?:fn|struct|enum|trait) (\w+)", text, re.M)}


def cited():
    """What the public contracts of all crates name."""
    for crate in listed():
        public = public_names(crate)
        for path in sorted((ROOT / "crates" / crate / "src").rglob("*.rt")):
            source = path.read_text()
            yield from met_in(public_text(source, public), *imports(re.sub(r"(?m)^ *ghost use", "use", source)))


def bodies(page):
    """The text of each definition of a page, up to the next one."""
    heads_of, found, name = {lines[0]: name for _, name, lines in heads(page)}, defaultdict(str), None
    for line in page.read_text().splitlines():
        name = heads_of.get(line, name)
        found[name] += "" if line.startswith("--") else line + "\n"
    return found


def cites(crate, page):
    """The definitions that each definition of a page names."""
    names, aliases = imports(page.read_text())
    own = {name: (crate, page.stem, name) for _, name, _ in heads(page)}
    return {(crate, page.stem, name): [*met_in(text, {**names, **own}, aliases)] for name, text in bodies(page).items()}


def main():
    every = {(crate, page.stem): page for crate in listed() for page in pages(crate) if page.stem != "Lib"}
    named = {name: others for (crate, _), page in every.items() for name, others in cites(crate, page).items()}
    found, due = set(), [*cited()]
    while due:
        name = due.pop()
        if name not in found:
            found.add(name)
            due += named.get(name, [])
    met, faults = {name[:2] for name in found} & every.keys(), []
    for key, page in every.items():
        says = page.read_text().startswith(UNMET)
        if says == (key in met or key in UNSAID):
            faults.append(f"{page.relative_to(ROOT)}: {'a' if says else 'no'} public contract cites it")
    if faults:
        sys.exit("\n".join(faults))
    print(f"pages: {len(every)} pages of definitions, of which {len(met)} are met in public contracts")


if __name__ == "__main__":
    main()
