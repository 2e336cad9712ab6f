"""The file of names, which goes with an instance: what was told of sites and customers beside their ids, and how lanes were made."""
import csv
import hashlib
import os
import re
import shlex
from dataclasses import dataclass, field

from .cells import MICRO, Faults, Refusal, money, number
from .columns import COORDINATES, PRICES, SIZES, Sheet, Ways
from .lanes import KINDS, Rule
from .places import WHERE, Customer, Site, customer_in, name_in, needed, site_in
from .tables import file_of

TITLES = "kind", "id", "name", "fixed cost", "capacity", "status", "demand"
OTHERS = *WHERE, "throughput cost", "value"
FORMULA = re.compile("'*[=+@-]")
AMOUNTS = {"rate": "rate", "detour": "detour", "per unit": "per_unit", "reach": "reach"}


@dataclass
class Names:
    """Sites and customers by their ids, and the rule of their lanes; the path of the instance, where it is told, the paths of the
    sheets that it was made of, each with the checksum that it had then (SHA-256), and the options with which they were read."""

    sites: dict[int, Site] = field(default_factory=dict)
    customers: dict[int, Customer] = field(default_factory=dict)
    rule: Rule = Rule()
    instance: str | None = None
    sheets: list[tuple[str, str]] = field(default_factory=list)
    options: list[str] = field(default_factory=list)

    def words(self) -> list[str]:
        """The words behind `sheets own` that make the instance again, without the files to write; none where they aren't told."""
        sites, customers, *lanes = [path for path, _ in self.sheets] or ["", ""]
        return [sites, customers, *(it for path in lanes for it in ("--lanes", path)), *self.options] if self.sheets else []


def checksum(path: str) -> str:
    """The SHA-256 of a file, or of the workbook of a worksheet."""
    with open(file_of(path), "rb") as file:
        return hashlib.sha256(file.read()).hexdigest()


def quoted(name: str) -> str:
    """A name as it stands in the file: behind one more apostrophe where a spreadsheet would take it for a formula and run it."""
    return f"'{name}" if FORMULA.match(name) else name


def unquoted(name: str) -> str:
    return name[1:] if name[:1] == "'" and FORMULA.match(name) else name


def titles_of(names: Names) -> list[str]:
    """The columns of what is told: coordinates of both kinds only where there are such."""
    those = [*names.sites.values(), *names.customers.values()]
    is_geo, is_straight = (any(it.at and it.is_geo == kind for it in those) for kind in (True, False))
    return [*TITLES, *WHERE[:2] * (is_straight or not is_geo), *WHERE[2:] * is_geo,
            *["throughput cost"] * any(it.throughput for it in names.sites.values()), "value"]


def told_of(it: Site | Customer) -> dict[str, str]:
    """What a row says of a site or a customer."""
    shown = lambda micro: "" if micro is None else money(micro)
    at = dict(zip(WHERE[2:] if it.is_geo else WHERE[:2], map(shown, it.at or ())))
    if isinstance(it, Customer):
        return {"kind": "customer", "name": quoted(it.name), "demand": shown(it.demand), **at}
    return {"kind": "site", "name": quoted(it.name), "fixed cost": shown(it.fixed), "capacity": shown(it.capacity), "status": it.status,
            "throughput cost": shown(it.throughput), **at}


def rules_of(names: Names, folder: str) -> dict[str, str]:
    """The rows of the rule: only what differs from a sheet's lanes, and which instance it is."""
    rule, plain = names.rule, Rule()
    told = {"lanes": rule.kind, "by demand": "yes" if rule.by_demand else "no"}
    told |= {key: money(it) for key, name in AMOUNTS.items() if (it := getattr(rule, name)) != getattr(plain, name)}
    told = {} if rule == plain else told
    told |= {"options": shlex.join(names.options)} if names.options else {}
    return told if names.instance is None else {"instance": os.path.relpath(names.instance, folder), **told}


def write(path: str, names: Names) -> None:
    """Writes the file. Paths are told as seen from its folder."""
    folder = os.path.dirname(path) or "."
    rules = rules_of(names, folder)
    with open(path, "w", encoding="utf-8", newline="") as file:
        rows = csv.DictWriter(file, titles_of(names), restval="", extrasaction="ignore", lineterminator="\n")
        rows.writeheader()
        for those in names.sites, names.customers:
            rows.writerows({"id": str(key), **told_of(it)} for key, it in those.items())
        rows.writerows({"kind": "rule", "name": key, "value": quoted(value)} for key, value in rules.items())
        rows.writerows({"kind": "sheet", "name": quoted(os.path.relpath(sheet, folder)), "value": told} for sheet, told in names.sheets)


def read(path: str) -> Names:
    """Reads the file. All its faults are refused at once."""
    faults, names, rules = Faults(), Names(), {}
    point = dict.fromkeys([*PRICES, *SIZES, *COORDINATES], ".")
    sheet = Sheet(path, faults, Ways(marks=point))
    faults.due()
    if not {*TITLES} <= {*sheet.titles}:
        raise Refusal(f"{path}, row 1: this is no file of names, whose titles are {', '.join(TITLES)}, and perhaps {', '.join(OTHERS)}")
    sheet.columns(TITLES, OTHERS)
    for row, cells in sheet.rows:
        take(sheet, row, cells, names, rules)
    text = lambda key: rules[key][1] if key in rules else None
    names.instance, names.options = beside(sheet, text("instance")), options_in(sheet, text("options") or "")
    names.rule = rule_in(sheet, rules)
    faults.due()
    return names


def take(sheet: Sheet, row: int, cells: list[str], names: Names, rules: dict[str, tuple[int, str]]) -> None:
    """Takes a row: a site, a customer, a sheet, or what is told of the rule, with its row."""
    kind, name = sheet.text(cells, "kind"), unquoted(name_in(sheet, row, cells) or "")
    value = unquoted(sheet.text(cells, "value"))
    if kind == "rule":
        rules[name] = row, value
    elif kind == "sheet":
        names.sheets.append((beside(sheet, name), value))
    elif kind == "site":
        put(sheet, row, cells, names.sites, site_in(sheet, row, cells, name))
    elif kind == "customer":
        put(sheet, row, cells, names.customers, customer_in(sheet, row, cells, name))
    else:
        sheet.refuse(row, sheet.places["kind"], f"{kind!r} is none of site, customer, rule, sheet")


def put(sheet: Sheet, row: int, cells: list[str], those: dict, it: Site | Customer) -> None:
    """Puts in a site or a customer by its id, which is whole and has no other."""
    found = needed(sheet, row, cells, "id")
    key, part = divmod(found, MICRO)
    if part or key in those:
        kind = "customer" if isinstance(it, Customer) else "site"
        sheet.refuse(row, sheet.places["id"], f"{sheet.text(cells, 'id')!r} " + ("isn't whole" if part else f"is another {kind}'s"))
    those[key] = it


def beside(sheet: Sheet, path: str | None) -> str | None:
    """A path that is told as seen from the folder of the file."""
    return path and os.path.normpath(os.path.join(os.path.dirname(sheet.path), path))


def options_in(sheet: Sheet, text: str) -> list[str]:
    try:
        return shlex.split(text)
    except ValueError:
        sheet.faults.add(f"{sheet.path}: its options, {text!r}, are no words")
        return []


def rule_in(sheet: Sheet, rules: dict[str, tuple[int, str]]) -> Rule:
    """The rule of the rows that tell one."""
    told = {}
    for key, (row, value) in rules.items():
        found = number(value, ".")
        if key == "lanes" and value in KINDS:
            told["kind"] = value
        elif key == "by demand" and value in ("yes", "no"):
            told["by_demand"] = value == "yes"
        elif key in AMOUNTS and found and not found[1] and found[0] >= 0:
            told[AMOUNTS[key]] = found[0]
        elif key not in ("instance", "options"):
            sheet.refuse(row, sheet.places.get("value", 0), f"{value!r} is no value of {key!r}")
    return Rule(**told)
