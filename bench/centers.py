"""Centers and cost curves against single solves: `centers.py [--center N P] [--curve N P] [--limit SECONDS] PROGRAM`.

The networks are connected and random, in the form `pmed`, with edges that cost 1 to 100. Of the first one, with N vertices, 400, the
center of P of them, 20, is found, and then once more the plain way: by halving the costs that lanes have, where each probe is a
`solve` of the instance without its lanes of so much or more, with all costs 0. Of the second one, with N vertices, 200, the curve of
1 to P, 40, is drawn, and then each of these numbers of medians is solved by a command of its own. The times are processor seconds, with
all reading and writing of files; a probe that takes longer than the limit, 600, is ended, and so is one that comes to a bracket.

The script ends with 1 where the center takes more than a minute or isn't optimal, where the curve takes half of the time of the single
solves or more, or where two answers are at odds.
"""
import argparse
import os
import random
import re
import sys
import tempfile

from timing import Run

MOST_SECONDS, SHARE = 60, 0.5


def network(n, edges, draw):
    """The edges of a connected network."""
    tree = [(draw.randint(1, k - 1), k, draw.randint(1, 100)) for k in range(2, n + 1)]
    return tree + [(*draw.sample(range(1, n + 1), 2), draw.randint(1, 100)) for _ in range(edges - len(tree))]


def write_network(path, n, edges, p):
    with open(path, "w") as file:
        file.write(f"{n} {len(edges)} {p}\n" + "".join(f"{a} {b} {cost}\n" for a, b, cost in edges))


class Probes:
    """Single solves of an instance without its dear lanes, at no cost."""

    def __init__(self, program, own, folder, limit):
        with open(own) as file:
            self.lines = [line.split() for line in file]
        self.program, self.limit, self.seconds, self.made = program, limit, 0, 0
        self.files = [os.path.join(folder, it) for it in ("cut", "cut.plan", "cut.cert")]
        self.radii = sorted({int(it.replace(".", "")) for line in self.lines if line[0] == "site" for it in line[4:] if it != "none"})

    def holds(self, radius):
        """Whether there is a plan whose lanes cost no more; nothing where that isn't told."""
        free = lambda it: "none" if it == "none" or int(it.replace(".", "")) > radius else "0"
        with open(self.files[0], "w") as file:
            for line in self.lines:
                file.write(" ".join(line if line[0] != "site" or len(line) < 5 else [*line[:2], "0", line[3], *map(free, line[4:])]) + "\n")
        run = Run([self.program, "solve", "own", *self.files], self.limit)
        self.seconds, self.made = self.seconds + run.seconds, self.made + 1
        return {"optimal": True, "infeasible": False}.get(run.said.partition(" ")[0])

    def best(self):
        """The least radius, or the word of what kept it from being found."""
        low, high = 0, len(self.radii) - 1
        while low < high:
            middle = (low + high) // 2
            holds = self.holds(self.radii[middle])
            if holds is None:
                return f"no answer at {self.radii[middle] / 1e6:g}"
            low, high = (low, middle) if holds else (middle + 1, high)
        return f"center {self.radii[low] // 10**6}.{self.radii[low] % 10**6:06}"


def center(program, n, p, limit, folder):
    """Finds a center twice. Whether it is found as it is to be."""
    at = lambda name: os.path.join(folder, name)
    write_network(at("net"), n, network(n, n * n // 50, random.Random(1)), p)
    run = Run([program, "center", "pmed", at("net"), at("plan"), at("cert"), at("new")], limit)
    if run.status not in (0, 2):
        sys.exit(f"centers.py: {run.said!r} with {run.status}")
    checked = Run([program, "check", "own", at("new"), at("cert")], limit)
    print(f"{n} vertices, {p} of them: {run.said} in {run.seconds:.2f} s and {run.memory / 1e6:.0f} MB, certificate of {os.path.getsize(at('cert'))} bytes; "
          f"{checked.said} in {checked.seconds:.2f} s", flush=True)
    Run([program, "convert", "pmed", at("net"), at("own")], limit)
    probes = Probes(program, at("own"), folder, limit)
    best = probes.best()
    print(f"  single solves: {best} in {probes.seconds:.2f} s of {probes.made} probes over {len(probes.radii)} radii", flush=True)
    agrees = best == run.said or best.startswith("no answer")
    return run.said.startswith("center ") and run.seconds <= MOST_SECONDS and checked.said == "yes infeasible" and agrees


def curve(program, n, p, limit, folder):
    """Draws a curve, and solves each count alone. Whether that takes as much less time as it is to, with the same answers."""
    at = lambda name: os.path.join(folder, name)
    edges = network(n, n * n // 50, random.Random(2))
    write_network(at("net"), n, edges, 1)
    run = Run([program, "curve", "pmed", at("net"), "1", str(p)], limit)
    if run.status:
        sys.exit(f"centers.py: {run.said!r} with {run.status}")
    lines, seconds, odd = run.said.splitlines(), 0, []
    for count, line in enumerate(lines, 1):
        write_network(at("net"), n, edges, count)
        alone = Run([program, "solve", "pmed", at("net"), at("plan"), at("cert")], limit)
        seconds += alone.seconds
        mine, other = (re.sub(r" nodes .*", "", it) for it in (line.removeprefix(f"count {count} "), alone.said))
        if mine != other and "bracket" not in mine + other:
            odd.append(f"{line} and {alone.said}")
    said = sum(" optimal " in it for it in lines)
    print(f"{n} vertices, 1 to {p} of them: {said} of {len(lines)} counts optimal in {run.seconds:.2f} s and {run.memory / 1e6:.0f} MB; "
          f"single solves {seconds:.2f} s, {run.seconds / seconds:.2f} times", flush=True)
    print("\n".join(f"  at odds: {it}" for it in odd), end="\n" * bool(odd))
    return not odd and run.seconds < SHARE * seconds


def main():
    words = argparse.ArgumentParser(description=__doc__, formatter_class=argparse.RawDescriptionHelpFormatter)
    words.add_argument("--center", nargs=2, type=int, default=[400, 20])
    words.add_argument("--curve", nargs=2, type=int, default=[200, 40])
    words.add_argument("--limit", type=int, default=600)
    words.add_argument("program")
    options = words.parse_args()
    program, found = os.path.abspath(options.program), []
    for part, sizes in (center, options.center), (curve, options.curve):
        with tempfile.TemporaryDirectory() as folder:
            found.append(part(program, *sizes, options.limit, folder))
    sys.exit(0 if all(found) else 1)


if __name__ == "__main__":
    main()
