"""Random small instances of all forms, and random lines for sessions on them."""
import random

import edits
from capacities import Warehouses as RandomWarehouses, some_network
from common import MICRO, money
from instances import Fault, read as read_ufl, spelled
from networks import read as read_network
from own import Instance, random_own, spelled_out
from solve import cover, file_of, scattered
from warehouses import Warehouses

LINES, MOST_SITES, MOST_CUSTOMERS = 30, 5, 6


def some_start():
    """A random small instance, with its form, its text and the options of the command."""
    while True:
        try:
            return some_file()
        except Fault:
            continue


def some_file():
    """The same; a network whose walks cost too much is none."""
    kind = random.choice(["own", "own", "cap", "cap", "uncap", "ufl", "ufl", "pmed"])
    if kind == "own":
        inst = random_own(4, 5)
        return inst, kind, spelled_out(inst), []
    if kind == "ufl":
        text = file_of(*random.choice([scattered, cover, cover])(random.randint(2, 5), random.randint(2, 6)))
        return Instance.numbered(*read_ufl(text)), kind, text, []
    if kind == "pmed":
        text = some_network()
        n, p, pairs = read_network(text)
        rows = [[pairs.get((s, c)) for c in range(1, n + 1)] for s in range(1, n + 1)]
        return Instance.numbered([0] * n, rows, count=(p, p)), kind, text, []
    files = RandomWarehouses()
    found = Warehouses(files.text(), kind, files.option if kind == "cap" else None)
    options = [f"capacity={money(files.option)}"] if kind == "cap" and files.option is not None else []
    inst = Instance.numbered(found.fixed, found.lanes, found.capacities if kind == "cap" else None, found.demands)
    return inst, kind, files.text(), options


def near_line(inst):
    """An edit that changes one amount by little, or leaves it."""
    (s, fixed, cap, _), (c, demand) = random.choice(inst.sites), random.choice(inst.customers)
    lane = inst.lanes.get((s, c))
    new = lambda it: [it, it // 2, it * 6 // 5, it + MICRO, it + 1]
    near = lambda it: random.choice([0, MICRO, 3 * MICRO] if it is None else new(it))
    word = lambda it: spelled(min(near(it), edits.MAX_AMOUNT))
    opened = random.randint(0, len(inst.sites))
    return random.choice([f"fixed {s} {word(fixed)}", f"fixed {s} {word(fixed)}", f"lane {s} {c} {word(lane)}",
                          f"lane {s} {c} {random.choice(['none', word(lane)])}", f"demand {c} {word(demand)}",
                          f"cap {s} {random.choice(['none', word(cap)])}",
                          f"status {s} {random.choice(['free', 'free', 'open', 'closed'])}",
                          f"count 0 {random.choice([3000, opened])}", f"count {random.choice([0, opened])} 3000"])


ODD = [b"", b" \t", b"\r", b"solve 1 2", b"solve x", b"solve -1", b"solve +1", b"solve 4294967296", b"Solve", b"answer 1", b"save",
       b"save a b", b"cert", b"cert a b", b"undo 1", b"quit 1", b"table 1", b"json 1", b"table", b"json", b"\0", b"\xff",
       b"save \xff", b"cert \xc3", b"solve\x0c", b"fixed 1 1.0000001", b"fixed 1", b"frobnicate", b"solve none", b"status 1 maybe",
       b"end"]
BUDGETS = [b"", b"", b"", b" 0", b" 0", b" 1", b" 5", b" 5", b" 2", b" 007", b" 20000001", b" 4294967295"]


def some_lines(inst):
    """Random lines for a session on the instance, in which most answers are proved, and some `quit`."""
    state, lines = edits.Session(inst), []
    while len(lines) < LINES:
        draw, name = random.random(), b"%d" % len(lines)
        if draw < 0.55:
            now = state.now
            line = b"undo" if random.random() < 0.2 else random.choice([near_line, near_line, edits.some_line])(now).encode()
            full = [b"addsite"] * (len(now.sites) >= MOST_SITES) + [b"addcust"] * (len(now.customers) >= MOST_CUSTOMERS)
            if not any(it in line for it in full):
                state.reply(line)
                lines.append(line)
        elif draw < 0.85:
            shown = [b"answer"] * (random.random() < 0.4) + [b"table"] * (random.random() < 0.4) + [b"json"] * (random.random() < 0.4)
            more = [b"cert c" + name] * (random.random() < 0.85) + shown
            lines += [b"solve" + random.choice(BUDGETS), *random.sample(more, len(more))]
        else:
            saves = [b"save s" + name, b"save \xc3\xa9" + name]
            lines.append(random.choice([b"answer", b"cert d" + name, *saves, *random.sample(ODD, 4)]))
    if random.random() < 0.1:
        lines.insert(random.randrange(LINES), b" quit\t")
    return lines[:LINES]
