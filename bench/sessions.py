"""Re-solving in a session against solving anew: `sessions.py PROGRAM FOLDER [--table TABLE] [NAME ..]`.

The instances are the files `*.ufl`, `*.uncap`, `*.cap`, `*.pmed` and `*.own` of the folder. Beside an instance stand lines for
sessions on it: in the file `INSTANCE.all` edits that are each taken back before the next one comes, in `INSTANCE.chain` edits
that stand. They begin with `solve`, and have a `solve` behind each edit, or a few, and behind what takes them back.

One process of `dualoc session` is given the lines, one at a time. After each `solve` of its it saves the instance, and a fresh
process reads that, and solves it anew. The times are processor seconds of the processes, without reading; those of an edit
hold what the session keeps besides, its order of lanes and its book. An instance that was solved anew already, as after what
takes edits back, isn't solved anew again. Of several runs of the session (`--runs`) the least times count. A line says

    kind          what was edited: the first words of the lines, or `undo`; `first` for the first solve
    answer        of the session; behind it `anew` and the other answer where the two are at odds, and `OPEN` where just the
                  session's is a bracket
    made, nodes   of the session's solve, and the nodes of the tree that is made anew
    edit          milliseconds of the edits before the solve
    carried       milliseconds of the session's solve, and behind them those of the table
    anew          milliseconds of solving anew, and behind them those of the table
    ratio         of carried to anew

The table has a line for each solve but those after `undo`, of columns parted by tabs that its first line names: `script`
(`all` or `chain`), `instance`, `carried_ms` and `scratch_ms`, in the order of the lines. At the end come medians and 90th
percentiles of the ratios where solving anew takes 20 ms or more, the sums of all, and the greatest peak of memory. The script
ends with 1 where two answers are at odds, or a process failed.
"""
import argparse
import collections
import csv
import os
import re
import select
import statistics
import subprocess
import sys
import tempfile
import time

FORMS = ("ufl", "uncap", "cap", "pmed", "own")
SCRIPTS = ("all", "chain")
# Solves that take less anew don't count in the ratios, in milliseconds.
LEAST = 20
ANSWER = re.compile(r"(?:optimal (\S+)|infeasible|bracket (\S+) (\S+)) made (\d+) (?:nodes|budget) (\d+)\Z")
WIDTHS = (10, 42, -7, -7, -7, -9, -9, -9, -9, -9, -6)
HEADS = ("kind", "answer", "made", "nodes", "anew", "edit", "carried", "table", "anew", "table", "ratio")


def shown(cells):
    return " ".join(f"{cell:>{-width}}" if width < 0 else f"{cell:<{width}}" for cell, width in zip(cells, WIDTHS))


class Late(Exception):
    """A reply that didn't come in time."""


class Talk:
    """A process of `dualoc session` at two pipes."""

    def __init__(self, program, form, file, limit):
        words = [program, "session", form, file]
        self.process = subprocess.Popen(words, stdin=subprocess.PIPE, stdout=subprocess.PIPE)
        # The clock of another process, as Linux numbers it.
        self.clock, self.limit, self.rest = (~self.process.pid << 3) | 2, limit, b""
        self.ask("undo")

    def ask(self, line):
        """The reply to a line, which is one line, and the milliseconds of the processor that it took."""
        before = time.clock_gettime(self.clock)
        self.process.stdin.write(line.encode() + b"\n")
        self.process.stdin.flush()
        while b"\n" not in self.rest:
            if not select.select([self.process.stdout], [], [], self.limit)[0]:
                raise Late(line[:40])
            piece = os.read(self.process.stdout.fileno(), 65536)
            if not piece:
                sys.exit(f"sessions.py: a session ended at {line[:40]!r} with {self.process.wait()}")
            self.rest += piece
        reply, _, self.rest = self.rest.partition(b"\n")
        return reply.decode(), 1000 * (time.clock_gettime(self.clock) - before)

    def peak(self):
        """The bytes that the process has held at most."""
        with open(f"/proc/{self.process.pid}/status") as file:
            return int(re.search(r"VmHWM:\s*(\d+) kB", file.read())[1]) * 1024

    def close(self):
        self.process.kill()
        self.process.wait()
        self.process.stdin.close()
        self.process.stdout.close()


class Solve:
    """A solve of a session: what was edited before it, the session's answer and times, and the answer and time of solving anew."""

    def __init__(self, kind, said, edit, carried):
        self.kind, self.said, self.edit, self.carried = kind, said, edit, carried
        self.anew = self.scratch = self.table = None

    def ratio(self):
        return self.carried / max(self.scratch, 0.001) if self.scratch is not None else None

    def known_ratio(self):
        """That of the table, where it has one and took long enough."""
        row = self.table or {}
        there = row.get("carried_ms") and row.get("scratch_ms") and float(row["scratch_ms"]) >= LEAST
        return float(row["carried_ms"]) / float(row["scratch_ms"]) if there else None

    def trouble(self):
        """What the two answers have to do with each other."""
        if self.anew is None:
            return "late"
        mine, other = ANSWER.match(self.said), ANSWER.match(self.anew)
        if not mine or not other:
            return f"anew {self.anew}"
        ends = [[float("inf") if it in (None, "none") else float(it) for it in (found[1] or found[2], found[1] or found[3])]
                for found in (mine, other)]
        if max(ends[0][0], ends[1][0]) > min(ends[0][1], ends[1][1]):
            return f"anew {self.anew}"
        return "OPEN" if mine[2] and not other[2] else ""

    def row(self):
        found, other = ANSWER.match(self.said), ANSWER.match(self.anew or "")
        nodes = lambda it: it[5] if it and not it[2] else "-"
        number = lambda it: f"{it:.2f}" if it is not None else "-"
        known = self.table or {}
        answer = " ".join([self.said.partition(" made ")[0], self.trouble()])
        return [self.kind, answer, found[4] if found else "-", nodes(found), nodes(other), number(self.edit), number(self.carried),
                known.get("carried_ms") or "-", number(self.scratch), known.get("scratch_ms") or "-", number(self.ratio())]


def kind_of(lines):
    verbs = [it.split()[0] for it in lines]
    return "first" if not verbs else "undo" if "undo" in verbs else verbs[0] if len(verbs) == 1 else f"{len(verbs)} {verbs[0]}"


def session(options, instance, lines, solves, folder):
    """One run of the lines; in the first one each instance that is new is saved and solved anew. The peak of memory."""
    talk, edits, spent, anew = Talk(options.program, form_of(instance), instance, options.limit), [], 0, {}
    first, place = not solves, 0
    try:
        for line in lines:
            if not line.startswith("solve"):
                reply, taken = talk.ask(line)
                if not reply.startswith("ok"):
                    sys.exit(f"sessions.py: {instance}: {line[:60]!r} is answered {reply!r}")
                edits.append(line)
                spent += taken
                continue
            said, taken = talk.ask(line)
            if first:
                solves.append(Solve(kind_of(edits), said, spent if edits else None, taken))
                talk.ask(f"save {os.path.join(folder, 'edited')}")
                solve_anew(options, line, solves[-1], anew, folder)
            else:
                solves[place].carried = min(solves[place].carried, taken)
            place += 1
            edits, spent = [], 0
        return talk.peak()
    except Late as late:
        print(f"out of time: {late}")
        return talk.peak()
    finally:
        talk.close()


def solve_anew(options, line, solve, known, folder):
    """Has a fresh process solve the saved instance by the same line, where none did so yet."""
    file = os.path.join(folder, "edited")
    with open(file, "rb") as saved:
        asked = line, saved.read()
    if asked not in known:
        talk = Talk(options.program, "own", file, options.limit)
        try:
            known[asked] = talk.ask(line)
        except Late:
            known[asked] = None, None
        talk.close()
    solve.anew, solve.scratch = known[asked]


def form_of(name):
    return name.rpartition(".")[2]


def spread(ratios):
    """How many there are, with their median and 90th percentile."""
    ratios = sorted(ratios)
    ends = f"{statistics.median(ratios):6.2f} {ratios[len(ratios) * 9 // 10]:6.2f}" if ratios else "     -      -"
    return f"{len(ratios):>5} {ends}"


def tell(title, solves):
    """A line on some solves: those that take long enough anew, with their ratios, those of the table, and the sums of all."""
    known = [it for it in solves if it.scratch is not None]
    if known:
        mine = spread(it.ratio() for it in known if it.scratch >= LEAST)
        others = spread(it.known_ratio() for it in known if it.known_ratio() is not None)
        sums = sum(it.carried for it in known) / 1000, sum(it.scratch for it in known) / 1000
        edits = max((it.edit for it in known if it.edit is not None), default=0)
        told = f"{sums[0]:8.2f} s {sums[1]:8.2f} s {sums[0] / max(sums[1], 1e-9):5.2f} {edits:8.2f} ms"
        print(f"{title:<26} {mine} {others} {len(known):>5} {told}", flush=True)


def options_of():
    words = argparse.ArgumentParser(description=__doc__, formatter_class=argparse.RawDescriptionHelpFormatter)
    words.add_argument("--limit", type=int, default=60, help="seconds that one reply may take (60)")
    words.add_argument("--runs", type=int, default=1, help="how often the lines are run (1)")
    words.add_argument("--script", choices=SCRIPTS, help="one kind of lines alone")
    words.add_argument("--table", help="figures to show beside")
    words.add_argument("program")
    words.add_argument("folder")
    words.add_argument("names", nargs="*")
    options = words.parse_intermixed_args()
    options.program = os.path.abspath(options.program)
    return options


def main():
    options = options_of()
    table = collections.defaultdict(list)
    if options.table:
        with open(options.table, newline="") as file:
            for row in csv.DictReader(file, delimiter="\t"):
                table[row["instance"], row["script"]].append(row)
    names = options.names or sorted(it for it in os.listdir(options.folder) if form_of(it) in FORMS)
    groups, peaks, wrong = collections.defaultdict(list), {}, 0
    with tempfile.TemporaryDirectory() as folder:
        for name, script in [(name, script) for name in names for script in SCRIPTS if options.script in (None, script)]:
            instance = os.path.abspath(os.path.join(options.folder, name))
            if not os.path.exists(f"{instance}.{script}"):
                continue
            with open(f"{instance}.{script}") as file:
                lines, solves = file.read().splitlines(), []
            peaks[name, script] = max(session(options, instance, lines, solves, folder) for _ in range(options.runs))
            edited = [it for it in solves if it.kind != "undo"]
            if len(edited) == len(table[name, script]):
                for solve, row in zip(edited, table[name, script]):
                    solve.table = row
            print(f"\n{name}, {script}: {peaks[name, script] / 1e6:.1f} MB\n{shown(HEADS)}")
            print("\n".join(shown(it.row()) for it in solves), flush=True)
            wrong += sum(it.trouble().startswith("anew") for it in solves)
            kind = "with capacities" if form_of(name) == "cap" else "without capacities"
            for it in solves[1:]:
                groups[kind, "chains" if script == "chain" else "undo" if it.kind == "undo" else "edits"].append(it)
                if script == "all":
                    groups[kind, f"  {it.kind}"].append(it)
    heads = f"{'from':>5} {'median':>6} {'90th':>6} {'table':>5} {'median':>6} {'90th':>6}"
    print(f"\n{'':<26} {heads} {'all':>5} {'carried':>10} {'anew':>10} {'ratio':>5} {'worst edit':>11}")
    for kind, title in sorted(groups):
        tell(f"{title} {kind}" if title[0] != " " else f"{title}, {kind.split()[0]}", groups[kind, title])
    if peaks:
        worst = max(peaks, key=peaks.get)
        print(f"peak memory: {peaks[worst] / 1e6:.1f} MB, in {' '.join(worst)}")
    print(f"answers at odds: {wrong}")
    sys.exit(1 if wrong else 0)


if __name__ == "__main__":
    main()
