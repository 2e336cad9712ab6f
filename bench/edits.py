"""What an edit of a session takes that keeps a book: `edits.py PROGRAM [--sites M] [--customers N] [--nodes K] [--turns T]`.

The instance has M sites and N customers, 1,000 each, and a lane between each two, at costs from which a search grows many
leaves: fixed costs and lanes are about alike. One session of the program solves it with a budget of K nodes, 2,000, whose tree
has about half as many leaves. Then come T turns, 20, of one edit of each kind that changes one site or the count alone, each
taken back before the next one. A line gives the least, the median and the greatest number of milliseconds of the processor of
an edit and of its `undo`. The clock is that of the process: a line is read, and its reply written, within them.

The script ends with 1 where a median is above 10 ms.
"""
import argparse
import random
import statistics
import sys
import tempfile

from sessions import ANSWER, Talk

AIM = 10


def instance(sites, customers):
    """An instance in the form ufl."""
    draw = random.Random(1)
    rows = [f"{sites} {customers} 0"]
    for site in range(1, sites + 1):
        lanes = " ".join(str(draw.randint(1000, 2000)) for _ in range(customers))
        rows.append(f"{site} {draw.randint(1000, 2000)} {lanes}")
    return "\n".join(["FILE: edits", *rows, ""])


def edits_of(sites, customers, draw):
    site, customer = draw.randint(1, sites), draw.randint(1, customers)
    return {
        "fixed": f"fixed {site} {draw.randint(1000, 2000)}",
        "lane": f"lane {site} {customer} {draw.randint(1000, 2000)}",
        "count": f"count 1 {draw.randint(sites // 2, sites)}",
    }


def asked(talk, line):
    reply, spent = talk.ask(line)
    if reply != "ok":
        sys.exit(f"edits.py: {line!r} was answered by {reply!r}")
    return spent


def main():
    read = argparse.ArgumentParser(description=__doc__, formatter_class=argparse.RawDescriptionHelpFormatter)
    read.add_argument("program")
    read.add_argument("--sites", type=int, default=1000)
    read.add_argument("--customers", type=int, default=1000)
    read.add_argument("--nodes", type=int, default=2000)
    read.add_argument("--turns", type=int, default=20)
    read.add_argument("--limit", type=float, default=3600)
    options = read.parse_args()
    draw, spent = random.Random(2), {}
    with tempfile.NamedTemporaryFile("w", suffix=".txt") as file:
        file.write(instance(options.sites, options.customers))
        file.flush()
        talk = Talk(options.program, "ufl", file.name, options.limit)
        reply, _ = talk.ask(f"solve {options.nodes}")
        found = ANSWER.match(reply)
        leaves = int(found[4]) // 2 + 1 if found else 0
        for _ in range(options.turns):
            for kind, line in edits_of(options.sites, options.customers, draw).items():
                spent.setdefault(kind, []).append(asked(talk, line))
                spent.setdefault(f"{kind}, undo", []).append(asked(talk, "undo"))
        talk.close()
    print(f"{options.sites} sites, {options.customers} customers: {reply}, so {leaves} leaves")
    for kind, times in spent.items():
        print(f"{kind:<12} {min(times):8.2f} {statistics.median(times):8.2f} {max(times):8.2f} ms")
    late = [kind for kind, times in spent.items() if statistics.median(times) > AIM]
    sys.exit(1 if late else 0)


if __name__ == "__main__":
    main()
