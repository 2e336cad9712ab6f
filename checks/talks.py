"""Sessions whose replies are told beforehand, as `sessions.py` has them: at two pipes and at a terminal, where each reply is read
before the next line is written; at the limits of lines, of the input and of edits; and with an input or an output that fails.
"""
import os
import pty
import random
import select
import subprocess
import termios

from common import PATIENCE, differs
from instances import BAD_INPUT, DONE, TOO_LARGE
from solve import READ_FAULT, USAGE, WRITE_FAULT

MOST_EDITS, MAX_LINE, MAX_INPUT = 10_000, 2**20, 2**26
PAIR = b"FILE: a\n2 3 0\n1 10 1 2 9\n2 12 8 7 1\n"
PLAN = "dualoc-plan 1\noptimal 22.000000\nsite 1 10.000000\nserve 1 1 1.000000\nserve 2 1 2.000000\nserve 3 1 9.000000\nend\n"
BEST = "optimal 22.000000 made 0 nodes 1\n"
TABLE = "site 1 customers 3 load 0.000000 spare none cost 22.000000 share 1000\nend\n"
JSON = '{"answer":"optimal","cost":"22.000000","sites":[{"customers":[1,2,3],"fixed":"10.000000","id":1}]}\n'
TALK = [("solve", BEST), ("answer", PLAN), ("table", TABLE), ("json", JSON), ("fixed 1 30", "ok\n"), ("answer", "refused Stale\n"),
        ("solve 0", "optimal 28.000000 made 0 nodes 1\n"), ("undo", "ok\n"), ("solve 0", BEST), ("undo", "refused NothingToUndo\n"),
        ("frobnicate", "refused BadCommand\n"), ("dropcust 3", "ok\n"), ("addcust 1 9 1", "ok customer 4\n"), ("solve", BEST),
        *[(f"{verb} {name}", "refused WriteFailed\n") for verb in ("save", "cert")
          for name in (".", "nowhere/x", "/dev/full", "/proc/version", "x" * 300)],
        ("save s", "ok\n"), ("cert k", "ok\n"), ("", ""), ("undo", "ok\n"), ("undo", "ok\n"), ("cert k", "refused Stale\n"),
        ("addcust 1 9", "refused LaneCount\n"), ("addcust 1 9 1", "ok customer 4\n"), ("undo", "ok\n"),
        ("dropsite 9", "refused NoSite\n"), ("lane 1 9 none", "refused NoCustomer\n"), ("count 3 2", "refused BadCount\n"),
        ("dropsite 1", "ok\n"), ("dropsite 2", "refused LastOne\n"), ("undo", "ok\n"), ("solve 4000001", "refused BudgetTooLarge\n"),
        ("solve 4000000", BEST), ("status 2 open", "ok\n"), ("solve 0", "optimal 26.000000 made 0 nodes 1\n"),
        ("status 1 closed", "ok\n"), ("solve", "optimal 28.000000 made 0 nodes 1\n"), ("status 2 closed", "ok\n"),
        ("solve", "infeasible made 0 nodes 1\n"), ("answer", "dualoc-plan 1\ninfeasible\nend\n"),
        ("table", "end\n"), ("json", '{"answer":"infeasible"}\n')]


def talk_over(program, write, read, hang_up):
    """Has a session on the pair at these ends: each reply is read before the next line is written, which comes in two pieces."""
    for line, due in TALK:
        cut = random.randrange(len(line) + 1)
        for piece in line[:cut], line[cut:] + "\n":
            os.write(write, piece.encode())
        said = ""
        while len(said) < len(due) and select.select([read], [], [], PATIENCE)[0]:
            said += os.read(read, len(due) - len(said)).decode() or "nothing more"
        if said != due:
            differs(("pair", line), (said, "no end"), (due, "no end"))
    hang_up()
    return os.read(read, 1) if select.select([read], [], [], PATIENCE)[0] else b"no end"


def at_pipes(program):
    ends = {"stdin": subprocess.PIPE, "stdout": subprocess.PIPE}
    with subprocess.Popen([program.path, "session", "ufl", "a"], cwd=program.folder, **ends) as run:
        write = run.stdin.fileno()
        rest = talk_over(program, write, run.stdout.fileno(), lambda: os.write(write, b"quit\n"))
        # The other end of the input stays open.
        if (rest, run.wait(PATIENCE)) != (b"", DONE):
            differs("quit at two pipes", (rest, run.returncode), (b"", DONE))


def at_terminal(program):
    here, there = pty.openpty()
    modes = termios.tcgetattr(there)
    # No echo, and line feeds as they are.
    modes[1] &= ~termios.OPOST
    modes[3] &= ~termios.ECHO
    termios.tcsetattr(there, termios.TCSANOW, modes)
    run = subprocess.Popen([program.path, "session", "ufl", "a"], cwd=program.folder, stdin=there, stdout=there)

    def hang_up():
        os.write(here, b"\x04")
        if run.wait(PATIENCE) != DONE:
            differs("the end of input at a terminal", ("", run.returncode), ("", DONE))
        os.write(there, b"!")

    rest = talk_over(program, here, here, hang_up)
    os.close(here)
    os.close(there)
    if rest != b"!":
        differs("the end of input at a terminal", (rest, run.returncode), ("", DONE))


def spoken_to(program, input, *words):
    """What a session with these words says to an input, and its status."""
    program.write("lines", input)
    with open(program.at("lines"), "rb") as file:
        return program.ask("session", *words, stdin=file)


def limits(program):
    """Sessions at their limits, and what comes of an input and an output that fail."""
    fill = b" " * (MAX_LINE - 1) + b"\n"
    most = MAX_INPUT // MAX_LINE - 1
    none, full, held = "refused NothingToUndo\n", "refused SessionFull\n", "ok\n" * MOST_EDITS
    edits = b"fixed 1 10\n" * (MOST_EDITS + 1) + b"fixed 9 1\nfixed 9\nsolve\nundo\nfixed 9 1\nfixed 1 10\nundo\n"
    replies = f"{held}{full}{full}refused BadCommand\n{BEST}ok\nrefused NoSite\nok\n{held}{none}"
    cases = [
        (edits + b"undo\n" * MOST_EDITS, replies, DONE), (b"", "", DONE), (b"\n \n\r", "", DONE), (b"undo\nsolve", none + BEST, DONE), (b"solve\nquit\nsolve\n", BEST, DONE),
        (b"quit", "", DONE),
        (b"solve".ljust(MAX_LINE) + b"\nundo", BEST + none, DONE), (b"undo\n" + b"solve".rjust(MAX_LINE), none + BEST, DONE),
        (b"solve\n" + b"undo".ljust(MAX_LINE + 1) + b"\nsolve\n", BEST + "too large line\n", TOO_LARGE),
        (b"solve\nundo\n" + b" " * (MAX_LINE + 1), BEST + none + "too large line\n", TOO_LARGE),
        (b"quit\n" + b" " * (MAX_LINE + 1), "", DONE),
        (fill * most + b"solve".ljust(MAX_LINE - 1) + b"\n", BEST, DONE),
        (fill * most + b"solve".ljust(MAX_LINE - 1) + b"\nundo", BEST + "too large input\n", TOO_LARGE),
        (fill * most + b"solve".ljust(MAX_LINE) + b"\n", "too large input\n", TOO_LARGE),
        (fill * most + b"solve".ljust(MAX_LINE + 1), "too large line\n", TOO_LARGE),
        (fill * most + b"quit\n" + fill * 2, "", DONE)]
    for text, due, status in cases:
        found = spoken_to(program, text, "ufl", "a")
        if found != (due, status):
            differs(f"{len(text)} bytes, {text[:40]!r} .. {text[-40:].strip()!r}", (found[0][-200:], found[1]), (due[-200:], status))
    words = [(), ("ufl",), ("ufl", ""), ("xyz", "a"), ("ufl", "a", "b"), ("ufl", "a", "budget=1"), ("ufl", "a", "capacity=1"),
             ("cap", "a", "capacity="), ("cap", "a", "capacity=1", "capacity=1"), ("cap", "capacity=1", "a", "b"), ("UFL", "a")]
    refusals = [("usage\n", USAGE, it) for it in words]
    refusals += [("read fault\n", READ_FAULT, ("ufl", "nothing")), ("read fault\n", READ_FAULT, ("ufl", ".")),
                 ("bad input BadWord line 1 word 1\n", BAD_INPUT, ("own", "a"))]
    for due, status, it in refusals:
        program.expect(due, status, it, "session", *it, stdin=subprocess.DEVNULL)
    folder = os.open(program.folder, os.O_RDONLY)
    program.expect("read fault\n", READ_FAULT, "an input that can't be read", "session", "ufl", "a", stdin=folder)
    os.close(folder)
    with open("/dev/full", "wb") as sink:
        run = subprocess.run([program.path, "session", "ufl", "a"], cwd=program.folder, input=b"solve\nsave late\n", stdout=sink)
    if run.returncode != WRITE_FAULT or os.path.exists(program.at("late")):
        differs("an output that takes nothing", ("", run.returncode), ("", WRITE_FAULT))
    return len(cases) + len(refusals) + 2
