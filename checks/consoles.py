"""The console under a pseudo-terminal, and as a script: `consoles.py PROGRAM [DESK]`.

A person types lines at the region of `examples/sheets`: completion and history, the prompt, edits, a solve, why, a break-even, scenarios
kept, compared and put on another base, a report of `check`. A solve of a hard instance shows how far it is; Ctrl-C ends it and keeps the
session and what was found, twice ends it at once; at the prompt it drops the line. A busy store is waited for. Lines on standard input are
a script, which ends at the first fault with a status. What is said of costs is what the program says of instances that are told by ids.
"""
import contextlib
import os
import pty
import random
import re
import select
import shlex
import signal
import sqlite3
import subprocess
import sys
import time

from common import PATIENCE, main
from crates import ROOT

DESK = ROOT / "crates/dualoc_desk/out/dualoc_desk"
# The end of a prompt; an arrow ends no prompt.
PROMPT = "[^-]> "


class Terminal:
    """A console in front of which someone sits."""

    def __init__(self, folder, words, environment):
        self.said, self.at = "", 0
        self.process, self.end = pty.fork()
        if self.process == 0:
            os.chdir(folder)
            os.execve(words[0], words, environment)

    def until(self, due, patience=PATIENCE):
        """What is said up to these words, which have to come."""
        end, pattern = time.monotonic() + patience, re.compile(PROMPT if due == "> " else re.escape(due))
        while not (found := pattern.search(self.said, self.at)):
            if time.monotonic() > end or not self.read(0.2):
                sys.exit(f"check: consoles: {due!r} is due, and {self.said[self.at:]!r} came")
        between, self.at = self.said[self.at:found.end()], found.end()
        return between

    def read(self, patience):
        """Whether there may be more."""
        if not select.select([self.end], [], [], patience)[0]:
            return True
        with contextlib.suppress(OSError):
            told = os.read(self.end, 65536)
            self.said += told.decode(errors="replace")
            return bool(told)
        return False

    def type(self, keys, due):
        """Types keys, and waits for these words."""
        os.write(self.end, keys.encode())
        return self.until(due)

    def ask(self, line, *dues):
        """Types a line, waits for these words, and for the next prompt."""
        os.write(self.end, f"{line}\n".encode())
        self.until("\n")
        said = "".join(self.until(due) for due in dues)
        return said + self.until("> ")

    def status(self):
        """How it ended."""
        end = time.monotonic() + PATIENCE
        while self.read(1):
            if time.monotonic() > end:
                sys.exit(f"check: consoles: it doesn't end behind {self.said[-200:]!r}")
        os.close(self.end)
        return os.waitstatus_to_exitcode(os.waitpid(self.process, 0)[1])


class Place:
    """A folder with the region, a hard instance, and the words of the commands."""

    def __init__(self, program, desk):
        self.folder, self.program = program.folder, program
        dualoc = self.at("dualoc")
        with open(dualoc, "w") as file:
            file.write(f'#!/bin/sh\n[ "$1" = desk ] && shift && exec {shlex.quote(os.path.abspath(desk))} "$@"\nexec {shlex.quote(program.path)} "$@"\n')
        os.chmod(dualoc, 0o755)
        self.environment = {**os.environ, "DUALOC": dualoc, "PYTHONPATH": str(ROOT), "HOME": self.folder, "TERM": "dumb"}
        sheets = ROOT / "examples/sheets"
        self.run("sheets", "own", f"{sheets}/sites.csv", f"{sheets}/customers.csv", "region.own", "names.csv", "--lanes", f"{sheets}/lanes.csv")
        self.make_hard()

    def at(self, name):
        return os.path.join(self.folder, name)

    def words(self, *words):
        return [sys.executable, "-m", "planner", *words]

    def run(self, *words, input="", status=0):
        """What a command prints. It has to end with the status."""
        ran = subprocess.run(self.words(*words), input=input, cwd=self.folder, env=self.environment, text=True, stdout=subprocess.PIPE,
                             stderr=subprocess.PIPE, timeout=PATIENCE)
        if ran.returncode != status:
            sys.exit(f"check: consoles: {words}: {ran.returncode}, {ran.stdout!r}, {ran.stderr!r}")
        return ran.stdout, ran.stderr

    def make_hard(self):
        """Sites whose capacities hold little more than is demanded: no search is at its end soon."""
        m, n, draw = 30, 200, random.Random(3)
        demands = [draw.randrange(20, 1000) for _ in range(n)]
        room = sum(demands) * 5 // (2 * m)
        spots = [(draw.randrange(500), draw.randrange(500)) for _ in range(m + n)]
        with open(self.at("sites.csv"), "w") as file:
            file.write("name,fixed cost,capacity,x,y\n" + "".join(
                f"S {s},{draw.randrange(100, 400) * 1000},{room * draw.choice((7, 10, 15)) // 10},{x},{y}\n" for s, (x, y) in enumerate(spots[:m])))
        with open(self.at("customers.csv"), "w") as file:
            file.write("name,demand,x,y\n" + "".join(f"C {c},{demands[c]},{x},{y}\n" for c, (x, y) in enumerate(spots[m:])))
        self.run("sheets", "own", "sites.csv", "customers.csv", "hard.own", "hard.csv", "--rate", "0.1", "--by-demand")

    def console(self, *words):
        terminal = Terminal(self.folder, self.words("console", *words), self.environment)
        terminal.until("> ")
        return terminal

    def least(self, *lines):
        """The least cost of the region after lines by ids, as the program has it."""
        said, _ = self.program.ask("session", "own", "region.own", input="".join(f"{line}\n" for line in [*lines, "solve"]).encode())
        return shown(said.split()[-5])


def shown(cost):
    """A cost as the console shows it."""
    whole, part = cost.split(".")
    return f"{int(whole):,}.{part}".rstrip("0").rstrip(".")


def has(said, *dues):
    for due in dues:
        if due not in said:
            sys.exit(f"check: consoles: {due!r} is due in {said!r}")


def day(place):
    """A day's lines."""
    terminal = place.console("region.own", "names.csv", "plans.db")
    base, without = place.least(), place.least("status 3 closed")
    has(terminal.ask("solve"), f"optimal {base}", f"region, {base}> ")
    has(terminal.type("clo\t", "close ") + terminal.type("Ol\t", "Old Mill"), "close")
    has(terminal.type("\n", "> "), "Old Mill: free -> closed", f"region, 1 edit, {base} before> ")
    has(terminal.ask("solve"), f"optimal {without}", f"region, 1 edit, {without}> ")
    has(terminal.ask("why"), f"cost {base} -> {without}", "sites that go: Old Mill", "Ivybridge: Old Mill -> ")
    terminal.ask("keep noMill", "kept as noMill: 1 edit")
    has(terminal.ask("fixed Harbor 1", "no site is named 'Harbor': is it Harbour?"), "noMill, 1 edit")
    terminal.ask("demand +10% where y < 50 and demand >= 20", "customers")
    terminal.ask("add site Gorse at 50.5 49 fixed 900 capacity 200", "come from a sheet")
    terminal.ask('add site "New Quay" at 50 49 fixed 900 capacity 200 lanes Alder 9 Kelso 12.5', "New Quay comes")
    has(terminal.ask("edits"), "  1  Old Mill", "  3  site New Quay")
    terminal.ask("keep quay", "kept as quay: 3 edits")
    has(terminal.ask("undo 2"), "quay*, 1 edit")
    has(terminal.ask("load base"), "region")
    has(terminal.ask("solve"), f"optimal {base}", "held, and check says yes optimal")
    even = re.search(r"breaks even at ([\d,.]+):", terminal.ask("breakeven Old Mill"))
    below, above = (place.least(f"fixed 3 {float(even[1].replace(',', '')) + by:.6f}", f"status 3 {word}") for by, word in ((-1, "closed"), (1, "open")))
    free = [place.least(f"fixed 3 {float(even[1].replace(',', '')) + by:.6f}") for by in (-1, 1)]
    if below == free[0] or above == free[1]:
        sys.exit(f"check: consoles: {even[0]}, and the best plans aren't others there")
    table = terminal.ask("compare base noMill quay")
    has(table, "base ", "noMill ", base, without, "yes optimal")
    terminal.ask("rebase noMill onto quay as both", "kept as both: 1 edit made, 0 refused")
    terminal.ask("forget both", "both is forgotten")
    has(terminal.ask("check"), "check says: yes optimal")
    terminal.ask("report signed.html The region", "signed.html")
    terminal.ask("close Harbour")
    terminal.type("\x04", "aren't kept")
    terminal.until("> ")
    terminal.type("quit\n", "\n")
    ends(terminal, 0)


def ends(terminal, due):
    status = terminal.status()
    if status != due:
        sys.exit(f"check: consoles: it ends with {status}, and {due} is due: {terminal.said[-300:]!r}")


def next_day(place):
    """What was kept and typed is there on another day."""
    terminal = place.console("region.own", "names.csv", "plans.db")
    has(terminal.said, "2 scenarios")
    has(terminal.type("\x1b[A", "quit") + terminal.type("\x15", ""), "quit")
    has(terminal.ask("load noMill"), "in force: 1 edit", "noMill, 1 edit> ")
    has(terminal.ask("solve"), "held, and check says yes optimal")
    store = sqlite3.connect(place.at("plans.db"), isolation_level=None)
    store.execute("BEGIN EXCLUSIVE")
    os.write(terminal.end, b"keep again\n")
    terminal.until("waiting")
    store.close()
    terminal.until("kept as again")
    terminal.until("> ")
    spoil(place)
    said = terminal.ask("compare noMill")
    has(said, "yes optimal")
    terminal.type("\x04", "\n")
    ends(terminal, 0)


def spoil(place):
    """Spoils the answers that are held: none of them may be shown as it is then."""
    folder = place.at("plans.db.answers")
    for name in os.listdir(folder):
        if name.endswith(".cert"):
            with open(f"{folder}/{name}", "r+") as file:
                told = re.sub(r"claim optimal (\d)", lambda it: f"claim optimal {9 - int(it[1])}", file.read())
                file.seek(0), file.write(told)


def hard(place):
    """Ctrl-C in a solve, twice in another one, and at the prompt."""
    terminal = place.console("hard.own", "hard.csv")
    os.write(terminal.end, b"close S 3\nsolve 600 s\n")
    terminal.until("gap ")
    os.write(terminal.end, b"\x03")
    terminal.until("keeps what it found")
    has(terminal.until("> "), "above the best")
    terminal.ask("check", "check says: yes bracket")
    os.write(terminal.end, b"solve 600 s\n")
    terminal.until("gap ")
    os.write(terminal.end, b"\x03")
    terminal.until("keeps what it found")
    os.write(terminal.end, b"\x03")
    has(terminal.until("> "), "above the best")
    has(terminal.ask("edits"), "S 3: free -> closed")
    terminal.type("fixed S", "fixed S")
    # What reads keys hears of a signal only where it waits for one, or at the next key.
    time.sleep(1)
    has(terminal.type("\x03", "> "), "^C")
    has(terminal.ask("solve 1 s gap 50"), "above the best")
    time.sleep(1)
    os.kill(terminal.process, signal.SIGTERM)
    ends(terminal, 128 + signal.SIGTERM)


def scripts(place):
    """Scripts end at the first fault, or well."""
    said, _ = place.run("console", "region.own", "names.csv", input="# a comment\n\nsolve\nclose Old Mill\nsolve\nplan\n")
    has(said, f"optimal {place.least()}", f"optimal {place.least('status 3 closed')}", "Harbour")
    for line, why in (("close Oldmill", "no site is named 'Oldmill': is it Old Mill?"), ("clsoe Harbour", "is it close?"), ("fixed Harbour 2,5", "is no number"),
                      ("plan", "solve first"), ("load nothing", "no store"), ("undo", "there is no edit to take back"), ("count 9 2", "refused BadCount")):
        said, fault = place.run("console", "region.own", "names.csv", input=f"sites\n{line}\nsolve\n", status=1)
        has(fault, f"line 2: {line}: ", why)
        if "optimal" in said:
            sys.exit(f"check: consoles: a script goes on behind {line!r}")


def check(program, desk=str(DESK)):
    place = Place(program, desk)
    for part in scripts, day, next_day, hard:
        part(place)
    return "consoles: a day, the next one, solves that are stopped and scripts are as a planner would have them"


if __name__ == "__main__":
    main(check)
