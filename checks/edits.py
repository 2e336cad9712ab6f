"""Compares edits of an instance, and their undoing, with a plain reading of docs/FORMATS.md: `edits.py PROGRAM`.

The reading makes a new instance for each edit and keeps all former ones, so that to take an edit back is to take the last of
these. Both are given random small instances and random lists of lines, in which all ten kinds of edits come, edits that are
refused, lines that are none, and some that take edits back; then all edits are taken back one by one. After each line the
own text is saved. Every reply and every text has to be as it is due, and the last text is the first one. Then each limit is
met: of sites, customers, lanes and ids.

What solves and answers are of a session is compared by `sessions.py`.
"""
import dataclasses
import random
import re

from common import MICRO, differs, main
from instances import DONE, MAX_AMOUNT, MOST_CUSTOMERS, MOST_LANES, MOST_SITES, amount_of, spelled
from own import FREE, MAX_COUNT, STATUSES, Instance, file_at, random_own, spelled_out

LISTS, EDITS = 400, 50


class Refused(Exception):
    """The name of a fault."""


# What words stand for.


def refuse_if(is_fault, name):
    if is_fault:
        raise Refused(name)


def count(word):
    refuse_if(not re.fullmatch(rb"[0-9]+", word) or int(word) > MAX_COUNT, "BadCommand")
    return int(word)


def amount(word):
    value, kind = amount_of(word)
    refuse_if(kind, "BadCommand")
    return value


def maybe(word):
    return None if word == b"none" else amount(word)


def status(word):
    refuse_if(word.decode("latin-1") not in STATUSES, "BadCommand")
    return word.decode()


# Edits: each returns the instance that it makes and what stands in its reply behind `ok`.


def with_site(inst, site, *changed):
    """The instance with the fixed cost, the capacity and the status of a site changed, where they aren't `...`."""
    refuse_if(all(s != site for s, *_ in inst.sites), "NoSite")
    new = lambda old: tuple(was if it is ... else it for was, it in zip(old, (..., *changed)))
    return dataclasses.replace(inst, sites=tuple(new(it) if it[0] == site else it for it in inst.sites)), ""


def has_customer(inst, customer):
    refuse_if(all(c != customer for c, _ in inst.customers), "NoCustomer")


def set_fixed(inst, site, cost):
    return with_site(inst, site, cost, ..., ...)


def set_cap(inst, site, cap):
    return with_site(inst, site, ..., cap, ...)


def set_status(inst, site, new):
    return with_site(inst, site, ..., ..., new)


def set_lane(inst, site, customer, cost):
    with_site(inst, site, ..., ..., ...)
    has_customer(inst, customer)
    others = {pair: it for pair, it in inst.lanes.items() if pair != (site, customer)}
    return dataclasses.replace(inst, lanes=others if cost is None else {**others, (site, customer): cost}), ""


def set_demand(inst, customer, demand):
    has_customer(inst, customer)
    return dataclasses.replace(inst, customers=tuple((c, demand if c == customer else old) for c, old in inst.customers)), ""


def set_count(inst, lo, hi):
    refuse_if(lo > hi or hi > MOST_SITES, "BadCount")
    return dataclasses.replace(inst, count=(lo, hi)), ""


def joined(inst, m, n, row, others, next_id):
    """Refuses what would pass a limit with so many sites and customers."""
    refuse_if(len(row) != others, "LaneCount")
    refuse_if(m > MOST_SITES or n > MOST_CUSTOMERS or m * n > MOST_LANES, "TooMany")
    refuse_if(next_id == MAX_COUNT, "IdsSpent")


def add_site(inst, cost, cap, *row):
    m, n, (new, other) = len(inst.sites), len(inst.customers), inst.next_ids
    joined(inst, m + 1, n, row, n, new)
    lanes = {(new, c): it for (c, _), it in zip(inst.customers, row) if it is not None}
    return dataclasses.replace(inst, sites=(*inst.sites, (new, cost, cap, FREE)), lanes={**inst.lanes, **lanes},
                               next_ids=(new + 1, other)), f" site {new}"


def add_customer(inst, demand, *row):
    m, n, (other, new) = len(inst.sites), len(inst.customers), inst.next_ids
    joined(inst, m, n + 1, row, m, new)
    lanes = {(s, new): it for (s, *_), it in zip(inst.sites, row) if it is not None}
    return dataclasses.replace(inst, customers=(*inst.customers, (new, demand)), lanes={**inst.lanes, **lanes},
                               next_ids=(other, new + 1)), f" customer {new}"


def drop_site(inst, site):
    with_site(inst, site, ..., ..., ...)
    refuse_if(len(inst.sites) == 1, "LastOne")
    return dataclasses.replace(inst, sites=tuple(it for it in inst.sites if it[0] != site),
                               lanes={pair: it for pair, it in inst.lanes.items() if pair[0] != site}), ""


def drop_customer(inst, customer):
    has_customer(inst, customer)
    refuse_if(len(inst.customers) == 1, "LastOne")
    return dataclasses.replace(inst, customers=tuple(it for it in inst.customers if it[0] != customer),
                               lanes={pair: it for pair, it in inst.lanes.items() if pair[1] != customer}), ""


# Each first word with its edit, with what the words behind it are, and with what each further one is, where more may come.
ROWS = {b"fixed": (set_fixed, [count, amount], None), b"lane": (set_lane, [count, count, maybe], None),
        b"demand": (set_demand, [count, amount], None), b"cap": (set_cap, [count, maybe], None),
        b"count": (set_count, [count, count], None), b"addsite": (add_site, [amount, maybe], maybe),
        b"addcust": (add_customer, [amount], maybe), b"dropsite": (drop_site, [count], None),
        b"dropcust": (drop_customer, [count], None), b"status": (set_status, [count, status], None)}


class Session:
    """The instance as it stands, all former ones, and the files that were saved."""

    def __init__(self, inst):
        self.now, self.former, self.saved, self.faults = inst, [], {}, set()

    def reply(self, line):
        verb, *words = re.split(rb"[ \t\r]+", line.strip(b" \t\r"))
        if not verb:
            return ""
        try:
            return f"ok{self.does(verb, words)}\n"
        except Refused as fault:
            self.faults.add(str(fault))
            return f"refused {fault}\n"

    def does(self, verb, words):
        if verb == b"undo" and not words:
            refuse_if(not self.former, "NothingToUndo")
            self.now = self.former.pop()
            return ""
        if verb == b"save" and len(words) == 1:
            self.saved[words[0].decode()] = self.now.text()
            return ""
        refuse_if(verb not in ROWS, "BadCommand")
        edit, shape, more = ROWS[verb]
        refuse_if(len(words) < len(shape) or len(words) > len(shape) and more is None, "BadCommand")
        meant = [means(word) for means, word in zip(shape + [more] * (len(words) - len(shape)), words)]
        changed, said = edit(self.now, *meant)
        self.former.append(self.now)
        self.now = changed
        return said


# Random lines.


def known(ids):
    """An id that is there, mostly."""
    return random.choice(ids) if random.random() < 0.9 else random.choice([0, 1, 2, 3, max(ids) + 1, MAX_COUNT - 1, MAX_COUNT])


def some_amount():
    return random.choice([0, 1, MICRO // 2, 3 * MICRO, random.randrange(20 * MICRO), random.randrange(MAX_AMOUNT + 1), MAX_AMOUNT])


def shown(value):
    """A number or an amount as a word, and rarely one that is at fault."""
    if random.random() < 0.01:
        return random.choice(["-1", "x", "1.0000001", "1000000000", "4294967296", "None", "1e3", "+", "0x1"])
    return value


def some_line(inst):
    """A random line for the instance."""
    sites, customers = [s for s, *_ in inst.sites], [c for c, _ in inst.customers]
    site, customer, value = known(sites), known(customers), spelled(some_amount())
    lane = lambda: "none" if random.random() < 0.25 else spelled(some_amount())
    many = lambda due: max(0, due + random.choice([0, 0, 0, 0, 0, 0, 0, -1, 1]))
    lo = random.choice([0, 0, 1, 2, MOST_SITES, MOST_SITES + 1])
    words = random.choice([
        ["fixed", site, value], ["lane", site, customer, lane()], ["demand", customer, value], ["cap", site, lane()],
        ["count", lo, random.choice([lo, lo + 1, 1, MOST_SITES, MOST_SITES + 1])],
        ["addsite", value, lane(), *(lane() for _ in range(many(len(customers))))],
        ["addcust", value, *(lane() for _ in range(many(len(sites))))],
        ["dropsite", site], ["dropcust", customer], ["status", site, random.choice([*STATUSES, *STATUSES, "shut"])],
        ["undo"], random.choice([["undo", "1"], ["fixed", site], ["lane", site, customer], ["Fixed", site, value],
                                 ["addsite", value], ["addcust"], ["dropsite", site, "1"], [], ["edit"],
                                 ["demand", customer, value, value]])])
    words = [str(words[0]), *(str(shown(it)) for it in words[1:])] if words else []
    return random.choice(["", "", " "]) + random.choice([" ", " ", "\t ", "  "]).join(words) + random.choice(["", "", " \r"])


# Comparing.


def converse(program, text, lines):
    """What the program replies to the lines in a session on an instance, each reply with its line feed."""
    program.write("a", text)
    with open(program.at("lines"), "wb") as file:
        file.write(b"\n".join(lines) + b"\n")
    with open(program.at("lines"), "rb") as file:
        said, ended = program.ask("session", "own", "a", stdin=file)
    if ended != DONE:
        differs((text, lines), (said, ended), ("a reply to each line", DONE))
    return said


def compare(program, text, lines, due, session):
    """Stops where a reply or a file isn't the one that is due."""
    said = converse(program, text, lines)
    if said != "".join(due):
        found = said.splitlines(True)
        place = next((k for k, (a, b) in enumerate(zip(found, due)) if a != b), min(len(found), len(due)))
        differs((text, lines), (found[place:place + 1], f"reply {place}"), (due[place:place + 1], DONE))
    for name, saved in session.saved.items():
        if file_at(program, name) != saved:
            differs((text, lines, name), (file_at(program, name), DONE), (saved, DONE))


def one_list(program, faults):
    """A random list of lines, and as many that take back all that stands. How many edits stood in between."""
    inst = random_own(4, 5)
    session, lines, due = Session(inst), [], []

    def say(line):
        for it in line, b"save s%d" % len(lines):
            reply = session.reply(it)
            lines.append(it)
            due.extend([reply] if reply else [])

    for _ in range(EDITS):
        say(some_line(session.now).encode())
    stood = len(session.former)
    while session.former:
        say(b"undo")
    say(b"undo")
    if session.now != inst:
        differs(lines, ("another instance", DONE), ("the first one", DONE))
    compare(program, spelled_out(inst), lines, due, session)
    faults |= session.faults
    return stood


def plain(m, n, next_ids=None):
    """An instance whose lanes cost nothing."""
    inst = Instance.numbered([0] * m, [[0] * n] * m)
    return dataclasses.replace(inst, next_ids=next_ids or inst.next_ids)


def zeros(count):
    return " 0" * count


def limits(program):
    """Limits at their edge, and the order of the faults there."""
    last = MAX_COUNT - 1
    cases = [(plain(MOST_SITES - 1, 1), ["addsite 0 none 0", "addsite 0 none 0", "addsite 0 none", "dropsite 7",
                                         "addsite 0 none 0"]),
             (plain(1, MOST_CUSTOMERS - 1), ["addcust 0 0", "addcust 0 0", "addcust 0", "dropcust 7", "addcust 0 none"]),
             (plain(1, 1, (last, last)), ["addsite 0 none 1", "addcust 0 1 1", "addsite 0 none 1 1", "addcust 0 1 1",
                                          "addcust 0 1", "dropsite 1", "addcust 1", "dropcust 1", "addsite 0 none 1"]),
             (plain(MOST_SITES, 1, (MAX_COUNT, 2)), ["addsite 0 none 1", "addcust 0" + zeros(MOST_SITES)]),
             (plain(1, 1), ["dropsite 1", "dropcust 1", "dropsite 2", "dropcust 2", "lane 2 2 1", "lane 1 2 1", "count 3000 3000",
                            "count 0 3001"])]
    for inst, commands in cases:
        session = Session(inst)
        lines = [*map(str.encode, commands), *[b"undo"] * (len(commands) + 1), b"save s"]
        due = [session.reply(line) for line in lines]
        compare(program, inst.text(), lines, due, session)
    return len(cases)


def most_lanes(program):
    """The limit on lanes at its edge, in an instance of so many, whose text is written at once."""
    m, n = MOST_LANES // 4000, 4000
    text = f"dualoc-instance 1\nsites {m} next {m + 1}\ncustomers {n} next {n + 1}\ncount 0 {MOST_SITES}\n"
    text += "".join(f"customer {c} 0.000000\n" for c in range(1, n + 1))
    text += "".join(f"site {s} 0.000000 none{' 0.000000' * n}\n" for s in range(1, m + 1)) + "end\n"
    turns = [(f"addcust 0{zeros(m)}", "refused TooMany"), (f"addsite 0 none{zeros(n)}", "refused TooMany"),
             ("addcust 0 0", "refused LaneCount"), ("dropcust 2", "ok"), (f"addsite 0 none{zeros(n - 1)}", "refused TooMany"),
             (f"dropcust {n}", "ok"), (f"addsite 0 none{zeros(n - 2)}", f"ok site {m + 1}"),
             (f"addcust 0{zeros(m + 1)}", "refused TooMany"), ("undo", "ok"), (f"addcust 0{zeros(m)}", f"ok customer {n + 1}"),
             ("undo", "ok"), ("undo", "ok"), ("undo", "ok"), ("undo", "refused NothingToUndo"), ("save s", "ok")]
    said = converse(program, text.encode(), [line.encode() for line, _ in turns])
    if said.splitlines() != [due for _, due in turns] or file_at(program, "s") != text.encode():
        differs("an instance of all lanes that there may be", (said, DONE), ([due for _, due in turns], DONE))


def check(program):
    faults = set()
    stood = sum(one_list(program, faults) for _ in range(LISTS))
    most_lanes(program)
    return (f"edits: {LISTS} lists of {EDITS} lines, of which {stood} edits stood and were taken back one by one, and "
            f"{limits(program) + 1} instances at a limit; refused: {' '.join(sorted(faults))}")


if __name__ == "__main__":
    main(check)
