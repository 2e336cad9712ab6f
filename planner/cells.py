"""Numbers as a planner's cells have them, as whole millionths, and refusals, which say what is wrong and where."""
import os
import re
import sys
from collections.abc import Callable
from decimal import Decimal

MICRO, MOST_AMOUNT = 10**6, 10**15 - 1
# So many faults are told at once, and how many more there are.
MOST_FAULTS = 100
# A number with its decimals behind a mark. Thousands may be parted by the other mark, a space or an apostrophe.
NUMBERS = {mark: re.compile(rf"(-?)([1-9][0-9]{{0,2}}([{other} '’])[0-9]{{3}}(?:\3[0-9]{{3}})*|[0-9]*)(?:[{mark}]([0-9]*))?")
           for mark, other in (".,", ",.")}
# One in the way of 1.2E+05, which parts no thousands.
POWERS = {mark: re.compile(rf"(-?)([0-9])(?:[{mark}]([0-9]+))?[eE]([-+]?[0-9]{{1,2}})") for mark in ".,"}
CURRENCY = r"€|\$|£|EUR|USD|GBP|CHF"
CODES = {"€": "EUR", "$": "USD", "£": "GBP"}
PRICED = re.compile(rf"(-?)(?:({CURRENCY}) ?)?(-?.*?)(?: ?(?:({CURRENCY})|\(({CURRENCY})\)))?")


class Refusal(Exception):
    """What is wrong, and where: a line for each of its faults."""

    def __init__(self, *faults: str):
        super().__init__("\n".join(faults))
        self.faults = [*faults]


class Faults:
    """The faults of a run, which are told all at once."""

    def __init__(self) -> None:
        self.found: list[str] = []

    def add(self, *faults: str) -> None:
        self.found += faults

    def due(self) -> None:
        """Refuses where there is a fault."""
        if self.found:
            more = len(self.found) - MOST_FAULTS
            raise Refusal(*self.found[:MOST_FAULTS], *[f"and {more} more faults"] * (more > 0))


def number(cell: str, mark: str) -> tuple[int, str] | None:
    """The millionths of a number, and its digits behind them; nothing where it is none."""
    text = cell.replace("−", "-")
    found = NUMBERS[mark].fullmatch(text)
    if found and re.search("[0-9]", text):
        part = found[4] or ""
        micro, rest = int(re.sub("[^0-9]", "", found[2]) + part[:6].ljust(6, "0")), part[6:]
    elif found := POWERS[mark].fullmatch(text):
        digits, shift = found[2] + (found[3] or ""), int(found[4]) - len(found[3] or "") + 6
        digits = digits.ljust(len(digits) + shift, "0").rjust(1 - shift, "0")
        micro, rest = (int(digits), "") if shift >= 0 else (int(digits[:shift]), digits[shift:])
    else:
        return None
    return -micro if found[1] else micro, rest.rstrip("0")


def priced(cell: str) -> tuple[str, str]:
    """A number without the currency that stands before or behind it, and that currency, or nothing."""
    sign, before, rest, behind, around = PRICED.fullmatch(cell).groups()
    found = before or behind or around
    if not found or before and (behind or around):
        return cell, ""
    return sign + rest, CODES.get(found, found)


def money(micro: int, mark: str = ".") -> str:
    """An amount without needless zeros."""
    whole, part = divmod(abs(micro), MICRO)
    return f"{'-' if micro < 0 else ''}{whole}" + f"{mark}{part:06}".rstrip("0").rstrip(mark)


def grouped(micro: int) -> str:
    """The same with commas between thousands, for people."""
    whole, mark, part = money(micro).partition(".")
    return f"{int(whole):,}{mark}{part}" if whole != "-0" else whole + mark + part


def amount(value: int | Decimal | str) -> int:
    """The millionths of an amount in units, which is a whole number, a Decimal or a text such as "1250.50". A float is a TypeError;
    refused is what is no number, negative, finer than a millionth or past the limit."""
    if isinstance(value, bool) or not isinstance(value, (int, Decimal, str)):
        raise TypeError(f"{value!r}: an amount is an int, a Decimal or a text")
    text = f"{value:f}" if isinstance(value, Decimal) else str(value).strip()
    found = number(text, ".") if "," not in text else None
    if not found:
        raise Refusal(f"{text!r} is no number with a decimal point")
    why = wrong_amount(text, *found)
    if why:
        raise Refusal(why)
    return found[0]


def wrong_amount(shown: str, micro: int, rest: str = "") -> str:
    """What is wrong with an amount, or nothing."""
    if rest:
        return f"{shown!r} has more than six decimals"
    if micro < 0:
        return f"{shown!r} is negative"
    return f"{shown!r} is more than {money(MOST_AMOUNT)}" if micro > MOST_AMOUNT else ""


def letters(place: int) -> str:
    """A column's name in a spreadsheet, of its place from 0."""
    left, found = place + 1, ""
    while left:
        left, letter = divmod(left - 1, 26)
        found = chr(65 + letter) + found
    return found


def are_apart(*paths: str) -> None:
    """Refuses what would write a file over one that is read, or over another."""
    for place, path in enumerate(paths):
        if os.path.realpath(path) in map(os.path.realpath, paths[:place]):
            raise Refusal(f"{path}: it is named twice")


def run(command: Callable[[], None], name: str = "") -> None:
    """Runs a command, and says what is refused: a line for each fault."""
    name = name or sys.argv[0].rpartition("/")[2]
    try:
        command()
    except (Refusal, OSError) as why:
        sys.exit("\n".join(f"{name}: {it}" for it in str(why).split("\n")))
