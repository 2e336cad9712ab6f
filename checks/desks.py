"""Compares a built desk program with a plain model of a desk: `desks.py PROGRAM [DESKS] [SEED] [one-run]`.

A desk is a session, as `sessions.py` judges it, with a base and the lines of the edits in force, and with a table of scenarios by
their names. The model keeps all of these anew from what is typed, and knows nothing of stores. Random desks on small instances of all
forms are told random lines through two pipes, each reply is read before the next line is written, and has to be the one that is due.
Some desks come one behind the other on one store: what one has kept the next one finds. Behind each desk the two tables of the store
are read by SQLite itself, and have to hold the model's table. With the word `one-run` scenarios end with the run, and no store is made.

What stores may hold and suffer besides is compared by `stores.py`.
"""
import collections
import contextlib
import os
import random
import re
import select
import sqlite3
import subprocess
import sys

import edits
import sessions
from common import PATIENCE, differs, main
from drafts import BUDGETS, ODD, near_line, some_start
from instances import DONE, MAX_BYTES, Fault
from own import file_at, read as read_own
from sessions import Wrong, lines_to_end, wrong_if

DESKS, LINES, STORE, MOST_SITES, MOST_CUSTOMERS = 1000, 30, "s.db", 5, 6
VERBS = {b"keep": 1, b"load": 1, b"forget": 1, b"names": 0}
NAME = re.compile(rb"[A-Za-z0-9_-]{1,64}\Z")
NAMES = [b"a", b"b", b"B-2", b"_", b"a_1", b"x" * 64]
BAD_NAMES = [b"x" * 65, b"a.b", b"a b", b"", b"\xc3\xa9", b"a/b", b"\xff"]
# What has to come, so that the check doesn't become empty.
DUE = ["keep", "load", "forget", "names", "refused NoScenario", "refused BadCommand", "loads of edits", "loads behind a solve",
       "edits undone behind a load", "solves behind a load", "names of several", "names of 64 bytes", "names of 65 bytes"]


class BadScenario(Exception):
    """The number of a line of a scenario, which is 0 for its base."""


def session_of(base, lines):
    """A session on a scenario's base with its edits, none of which is a line of another kind or is refused."""
    try:
        session = edits.Session(read_own(base)) if len(base) <= MAX_BYTES else None
    except Fault:
        session = None
    if not session:
        raise BadScenario(0)
    for number, line in enumerate(lines, 1):
        verb = re.split(rb"[ \t\r]+", line.strip(b" \t\r"))[0]
        if verb not in edits.ROWS or not session.reply(line).startswith("ok"):
            raise BadScenario(number)
    return session


class Desk(sessions.Session):
    """A desk as it has to go on. The table has the base's text and the lines of each scenario by its name."""

    def __init__(self, program, inst, found, table):
        super().__init__(program, inst, found)
        self.base, self.lines, self.table, self.loaded = inst.text(), [], table, None

    def judge(self, line, said):
        verb, *words = re.split(rb"[ \t\r]+", line.strip(b" \t\r"))
        if VERBS.get(verb) == 1 == len(words) and len(words[0]) in (64, 65):
            self.found[f"names of {len(words[0])} bytes"] += 1
        if VERBS.get(verb) == len(words) and all(map(NAME.match, words)):
            due = "".join(f"{it}\n" for it in self.answer(verb, *words))
            found = "".join(lines_to_end(said)) if verb == b"names" else next(said, "")
            wrong_if(found != due, f"{found!r}, and {due!r} is due")
            self.found[due.strip() if due.startswith("refused") else verb.decode()] += 1
            return
        held = len(self.former)
        super().judge(line, said)
        self.lines = self.lines[:len(self.former)] if len(self.former) <= held else [*self.lines, line]
        self.found["edits undone behind a load"] += self.loaded is not None and len(self.former) < self.loaded
        self.found["solves behind a load"] += self.loaded is not None and verb == b"solve"
        self.loaded = self.loaded and min(self.loaded, len(self.former))

    def answer(self, verb, name=None):
        """The lines of the reply to one of the four lines."""
        if verb == b"names":
            self.found["names of several"] += len(self.table) > 1
            return [*(f"name {name.decode()} edits {len(lines)}" for name, (_, lines) in sorted(self.table.items())), "end"]
        if verb == b"keep":
            self.table[name] = self.base, [*self.lines]
            return ["ok"]
        if name not in self.table:
            return ["refused NoScenario"]
        if verb == b"forget":
            del self.table[name]
            return ["ok"]
        return [self.load(*self.table[name])]

    def load(self, base, lines):
        """A new session on a scenario, without any tree; where that isn't one, all stays as it is."""
        try:
            session = session_of(base, lines)
        except BadScenario as number:
            return f"refused BadScenario line {number}"
        self.found["loads behind a solve"] += self.present is not None
        self.found["loads of edits"] += len(lines) > 0
        self.base, self.lines, self.now, self.former = base, [*lines], session.now, session.former
        self.stood, self.present, self.stands, self.loaded = [None] * len(lines), None, False, len(lines)
        self.kept.clear()
        return f"ok edits {len(lines)}"


def some_line(desk, k):
    """A random line for a desk as it stands."""
    draw, now, name = random.random(), desk.now, random.choice(NAMES[:4] if random.random() < 0.8 else NAMES)
    if draw < 0.4:
        line = b"undo" if random.random() < 0.25 else random.choice([near_line, near_line, edits.some_line])(now).encode()
        full = [b"addsite"] * (len(now.sites) >= MOST_SITES) + [b"addcust"] * (len(now.customers) >= MOST_CUSTOMERS)
        return some_line(desk, k) if any(it in line for it in full) else line
    if draw < 0.6:
        return random.choice([b"solve" + random.choice(BUDGETS), b"solve", b"answer", b"cert c%d" % k, b"table", b"json"])
    if draw < 0.95:
        verb = random.choice([b"keep", b"keep", b"keep", b"load", b"load", b"load", b"forget", b"names"])
        if random.random() < 0.08:
            return random.choice([verb + b" " + random.choice(BAD_NAMES), verb + b" a b", b"names a", b"keep", b"Keep a", b"load"])
        gap = random.choice([b" ", b" ", b"\t", b"  "])
        return verb if verb == b"names" else verb + gap + name + random.choice([b"", b"", b" \r"])
    return random.choice([b"save s%d" % k, *random.sample(ODD, 4)])


class Talk:
    """A process of the desk program at two pipes. `said` is an iterator over the lines of its replies."""

    def __init__(self, program, *words, **how):
        ends = {"stdin": subprocess.PIPE, "stdout": subprocess.PIPE, "cwd": program.folder}
        self.run, self.rest = subprocess.Popen([program.path, *words], **ends, **how), b""
        self.said = iter(self.line, "")
        program.asked += 1

    def line(self):
        """The next line that is said, or what there is where none comes."""
        while b"\n" not in self.rest and select.select([self.run.stdout], [], [], PATIENCE)[0]:
            piece = os.read(self.run.stdout.fileno(), 65536)
            if not piece:
                break
            self.rest += piece
        line, end, self.rest = self.rest.partition(b"\n")
        return (line + end).decode(errors="replace")

    def tell(self, line):
        with contextlib.suppress(BrokenPipeError):
            os.write(self.run.stdin.fileno(), line + b"\n")

    def ask(self, line):
        """The one line of a reply."""
        self.tell(line)
        return self.line()

    def end(self, *lines):
        """What is said behind these last lines, and the status."""
        for line in lines:
            self.tell(line)
        self.run.stdin.close()
        rest = "".join(self.said)
        self.run.stdout.close()
        return rest, self.run.wait(PATIENCE)


def table_in(path):
    """The table in a store, by SQLite itself: names, bases and lines, where all places are there. Nothing where it isn't as is due."""
    with contextlib.closing(sqlite3.connect(path)) as store:
        rows = store.execute("SELECT name, base, edits FROM scenario").fetchall()
        lines = store.execute("SELECT name, place, body FROM line ORDER BY name, place").fetchall()
    found = {name.encode(): (base, [body for other, _, body in lines if other == name]) for name, base, _ in rows}
    places = {name: [place for other, place, _ in lines if other == name] for name, *_ in rows}
    counts = [(name, list(range(1, many + 1))) for name, _, many in rows]
    return found if dict(counts) == places and {name for name, *_ in lines} <= {*places} else None


def one(program, start, store, table, found, lasts):
    """A random desk on a store that holds the table, which goes on with it."""
    inst, form, text, options = start
    program.write("a", text)
    talk, told = Talk(program, form, "a", store, *options), []
    desk = Desk(program, inst, found, table)
    try:
        for k in range(LINES):
            told.append(some_line(desk, k))
            talk.tell(told[-1])
            if told[-1].split() == [b"quit"]:
                break
            desk.judge(told[-1], talk.said)
        ended = talk.end(*random.choice([[], [b"quit"]]))
    except Wrong as why:
        talk.run.kill()
        sys.exit(f"check: {text!r} as {form} with {options}, {told}: {why}")
    if ended != ("", DONE):
        differs((text, form, told), ended, ("", DONE))
    for name, saved in desk.saved.items():
        if file_at(program, name) != saved:
            differs((text, form, told, name), (file_at(program, name), DONE), (saved, DONE))
    path = program.at(store)
    held = table_in(path) if os.path.exists(path) else {}
    if held != (table if lasts else {}):
        differs((text, form, told), (held, "the store"), (table, DONE))


def check(program, many=DESKS, seed="1", *words):
    random.seed(int(seed))
    found, made, lasts = collections.Counter(), 0, words != ("one-run",)
    while made < int(many):
        for name in os.listdir(program.folder):
            os.remove(program.at(name))
        table = {}
        for _ in range(random.choice([1, 1, 2, 3])):
            one(program, some_start(), STORE, table if lasts else {}, found, lasts)
            made += 1
    missing = [it for it in DUE if not found[it]]
    if missing:
        sys.exit(f"check: no {missing} in {made} desks")
    told = ", ".join(f"{found[it]} {it}" for it in DUE)
    return f"desks: {made} of {LINES} lines through two pipes, as a plain model has them{'' if lasts else ', without stores'}: {told}"


if __name__ == "__main__":
    main(check)
