"""Solves a folder's instances with a built program, and compares with a table: `solve.py PROGRAM FOLDER TABLE [NAME ..]`.

The instances are the files `*.ufl` of the folder, in the UflLib simple format, `*.cap` and `*.uncap`, warehouse files
with their capacities and without, and `*.pmed`, networks; other files are passed over.

The table has a line for each instance, of columns parted by tabs that its first line names. Those that are used are
`instance`, the file's name, and, each of which may be missing or empty, `optimum`, `reference_seconds`, `reference_nodes`
and `budget`, the nodes that the search is given. Without that last one a search under capacities is given 80,000, and any
other what the program takes by itself; `--budget` goes before both.

For each instance `dualoc solve FORM` writes a plan and a certificate, and `dualoc check FORM` has to say yes to what was
printed. A line says

    cost          yes: it is the table's; new: it is optimal, and the table has none; open: a bracket about the table's
                  cost, with its width, or without a plan; none: there is no plan, and the table has no cost; WRONG: the
                  table's cost is another, or outside of the bracket
    seconds       processor seconds, for itself and for the system, with reading and writing; the best of three runs
                  where one takes less than a second. Behind them those of the table
    nodes         of the tree, and those of the table
    memory        the peak, in millions of bytes. Of a program that holds less than this script, the script's is seen
    certificate   the bytes of its file
    check         the processor seconds of the checker, or what it says where that isn't the yes that is due

At the end come the instances that took more than twice the seconds of the table and more than 20 ms. The script ends
with 1 where a cost is wrong, a run failed or a certificate wasn't accepted.
"""
import argparse
import csv
import os
import subprocess
import sys
import tempfile

from timing import Run

MICRO = 10**6
FORMS = ("ufl", "uncap", "cap", "pmed")
BUDGETS = {"cap": 80000}
OPTIMAL, INFEASIBLE, BRACKET = ANSWERS = 0, 1, 2
# The cost of no plan.
NO_PLAN = float("inf")
# A run below so many seconds is repeated, so often in all.
SHORT, TIMES = 1, 3
# What is allowed: so many times the seconds of the table, or so many seconds.
FACTOR, SPARE = 2, 0.02
WIDTHS = (26, -14, -9, -9, -9, -9, -8, -12, -7)
HEADS = ("instance", "cost", "seconds", "table", "nodes", "table", "memory", "certificate", "check")


def micro(amount):
    whole, _, decimals = amount.partition(".")
    return int(whole) * MICRO + int(decimals.ljust(6, "0"))


def shown(cells):
    return " ".join(f"{cell:>{-width}}" if width < 0 else f"{cell:<{width}}" for cell, width in zip(cells, WIDTHS))


def form_of(name):
    return name.rpartition(".")[2]


class Answer:
    """What the program and its checker say of an instance."""

    def __init__(self, options, instance, budget, folder):
        files = [instance, os.path.join(folder, "plan"), os.path.join(folder, "certificate")]
        form = form_of(instance)
        words = [options.program, "solve", form, *files]
        words += [f"budget={budget}"] if budget is not None else []
        runs = [Run(words, options.limit)]
        while len(runs) < TIMES and runs[0].seconds < SHORT:
            runs.append(Run(words, options.limit))
        self.run = min(runs, key=lambda run: run.seconds)
        self.claim = self.run.said.partition(" nodes ")[0]
        self.is_answer = self.run.status in ANSWERS
        self.nodes = self.ends = self.size = self.check = None
        if self.is_answer:
            self.nodes = int(self.run.said.split(" nodes ")[1].split()[0])
            ends = [micro(word) if word != "none" else NO_PLAN for word in self.claim.split()[1:]]
            self.ends = ends or [NO_PLAN]
            self.size = os.path.getsize(files[2])
            self.check = Run([options.program, "check", form, instance, files[2]], options.limit)

    def is_accepted(self):
        return self.is_answer and (self.check.said, self.check.status) == (f"yes {self.claim}", 0)

    def cost(self, optimum):
        """How the cost that was found stands to the table's."""
        if not self.is_answer:
            return "out of time" if self.run.is_late else f"status {self.run.status}"
        low, high = self.ends[0], self.ends[-1]
        if optimum and not low <= micro(optimum) <= high:
            return "WRONG"
        if self.run.status == INFEASIBLE:
            return "none"
        if self.run.status == BRACKET:
            return f"open {(high - low) / max(high, 1):.4%}" if high < NO_PLAN else "open none"
        return "yes" if optimum else "new"

    def row(self, name, known):
        """The cells of its line."""
        costs = [name, self.cost(known.get("optimum"))]
        if not self.is_answer:
            return costs + [f"{self.run.seconds:.3f}"]
        check = f"{self.check.seconds:.3f}" if self.is_accepted() else self.check.said or f"status {self.check.status}"
        times = [f"{self.run.seconds:.3f}", known.get("reference_seconds") or "-"]
        nodes = [self.nodes, known.get("reference_nodes") or "-"]
        return costs + times + nodes + [f"{self.run.memory / 1e6:.1f}", self.size, check]


def budget_of(options, name, known):
    """The nodes that the search is given, where they are given."""
    return options.budget if options.budget is not None else known.get("budget") or BUDGETS.get(form_of(name))


def is_slow(answer, known):
    reference = known.get("reference_seconds")
    return bool(reference) and answer.run.seconds > max(FACTOR * float(reference), SPARE)


def instances(options, table):
    """The names of the instances, in the order of the table and then by name."""
    ranks = {name: rank for rank, name in enumerate(table)}
    there = os.listdir(options.folder)
    names = sorted((it for it in there if form_of(it) in FORMS), key=lambda it: (ranks.get(it, len(ranks)), it))
    asked = [it if form_of(it) in FORMS else f"{it}.ufl" for it in options.names]
    unknown = [it for it in asked if it not in names]
    if unknown:
        sys.exit(f"solve.py: the folder has no {', '.join(unknown)}")
    if len(names) < len(there):
        print(f"passed over: {len(there) - len(names)} files of other forms")
    return asked or names


def peers(options, instance, answer):
    """Prints what other solvers take, on the lanes that can matter where a plan is at hand."""
    words = [sys.executable, os.path.join(os.path.dirname(os.path.abspath(__file__)), "peers.py")]
    cost = [answer.claim.split()[-1]] if answer.is_answer and answer.ends[-1] < NO_PLAN else []
    subprocess.run([*words, "--limit", str(options.limit), options.program, instance, *cost], check=False)


def options_of():
    words = argparse.ArgumentParser(description=__doc__, formatter_class=argparse.RawDescriptionHelpFormatter)
    words.add_argument("--limit", type=int, default=60, help="processor seconds that one run may take (60)")
    words.add_argument("--budget", type=int, help="the budget of nodes that the program is given")
    words.add_argument("--peers", action="store_true", help="run other solvers that are installed too, by peers.py")
    words.add_argument("program")
    words.add_argument("folder")
    words.add_argument("table")
    words.add_argument("names", nargs="*")
    options = words.parse_args()
    options.program = os.path.abspath(options.program)
    return options


def main():
    options = options_of()
    with open(options.table, newline="") as file:
        table = {row["instance"]: row for row in csv.DictReader(file, delimiter="\t")}
    slow, wrong = [], []
    names = instances(options, table)
    print(shown(HEADS), flush=True)
    with tempfile.TemporaryDirectory() as folder:
        for name in names:
            instance, known = os.path.abspath(os.path.join(options.folder, name)), table.get(name, {})
            answer = Answer(options, instance, budget_of(options, name, known), folder)
            line = shown(answer.row(name, known))
            print(line, flush=True)
            slow += [line] if is_slow(answer, known) else []
            wrong += [line] if not answer.is_accepted() or answer.cost(known.get("optimum")) == "WRONG" else []
            if options.peers:
                peers(options, instance, answer)
    for title, lines in [("slower than the table allows", slow), ("wrong, failed or not accepted", wrong)]:
        print("\n".join([f"{title}: {len(lines)} of {len(names)}", *lines]))
    sys.exit(1 if wrong else 0)


if __name__ == "__main__":
    main()
