"""Compares what a built program says of OR-Library warehouse files with a plain reading of docs/FORMATS.md:
`warehouses.py PROGRAM`.

The reading takes the words one behind the other, by the list in that page. A file without a fault has to have the duals
of the plain ascent over the lanes that its capacities leave, with them and without them; a file with one, the same fault
in both commands. Both are asked about a few files, all their proper prefixes, all deletions of one byte, many random
changes of bytes and of words, and about random files in the layout of the OR-Library, with and without numbers for the
capacities. Small instances without capacities are searched too, and the plan has to be as cheap as any.
"""
import itertools
import random

from common import MICRO, differs, main, money, texts
from duals import Ascent
from instances import (BAD_INPUT, DONE, MAX_AMOUNT, PIECES, WORDS, Fault, Reader, amount_of, changed_words, cost_of_plan,
                       least_cost, spelled)

MOST_RAISED, MOST_SEARCHED, SEARCHES = 60, 6, 500
CAPACITY = b"capacity"


class Warehouses:
    """What a file says: its sites' capacities and fixed costs, its customers' demands, and the costs by site."""

    def __init__(self, text, form, given):
        reader = Reader(text, title=None)
        m, n = reader.sizes()
        sites = [(self.capacity(reader, form, given), reader.amount()) for _ in range(m)]
        customers = [(reader.amount(), [reader.amount() for _ in range(m)]) for _ in range(n)]
        reader.finish()
        self.fixed = [fixed for _, fixed in sites]
        self.capacities = [limit for limit, _ in sites]
        self.demands = [demand for demand, _ in customers]
        self.lanes = [[row[i] for _, row in customers] for i in range(m)]
        # The lanes that are left where a customer has to fit into its site.
        self.allowed = [[cost if form == "uncap" or demand <= limit else None for cost, (demand, _) in zip(row, customers)]
                        for row, (limit, _) in zip(self.lanes, sites)]

    @staticmethod
    def capacity(reader, form, given):
        """The capacity of the next warehouse; one that is read as `uncap` counts for nothing."""
        *place, word = reader.words[reader.next] if reader.next < len(reader.words) else (*reader.end, b"")
        if word != CAPACITY:
            return reader.amount()
        if form == "cap" and given is None:
            reader.fault("NeedCapacity", place)
        reader.next += 1
        return given


def words_for(form, option):
    return [form, "a", *([] if option is None else [f"capacity={option}"])]


def searched(program, text, read):
    """Has the instance searched, whose plan has to be as cheap as any, and whose certificate has to be accepted."""
    said, status = program.ask("solve", "uncap", "a", "plan", "proof")
    with open(program.at("plan")) as file:
        plan = file.read()
    due = f"optimal {money(least_cost(read.fixed, read.lanes))}"
    if status != DONE or said.partition(" nodes ")[0] != due or cost_of_plan(plan, read.fixed, read.lanes) is None:
        differs(text, (said, status), (due, DONE))
    program.expect(f"yes {due}\n", DONE, text, "check", "uncap", "a", "proof")


def compare(program, text, form, option=None):
    """Stops where the program answers otherwise than it must, and returns whether the file has no fault."""
    program.write("a", text)
    given = None if option is None else amount_of(option.encode())[0]
    try:
        read = Warehouses(text, form, given)
    except Fault as fault:
        program.expect(str(fault), BAD_INPUT, text, "duals", *words_for(form, option))
        program.expect(str(fault), BAD_INPUT, text, "check", form, "a", "nothing", *words_for(form, option)[2:])
        return False
    if max(len(read.fixed), len(read.lanes[0])) <= MOST_RAISED:
        due = Ascent(read.fixed, read.allowed).text()
        program.expect(due, DONE, (text, option), "duals", *words_for(form, option))
    return True


LAYOUT = b""" 2 3\x20
 5000 7500.\x20
 5000 7500.\x20
 146\x20
 6739.72500 10355.05000\x20
 87\x20
 3204.86250 3853.29375\x20
 672\x20
 4914.00000\x20
 26409.60000\x20
"""
PAIR = b"2 2\n10 7500.00000\n10 0.50000\n6 6739.72500 1.25\n6 3.00000 4.00000\n"
FILES = [PAIR, LAYOUT, PAIR.replace(b"\n10 ", b"\ncapacity "), LAYOUT.replace(b"5000 ", b"capacity ", 1),
         b"1 1 capacity 0 5 2", b"3 1\r\n.5 1\t2. 1 007 1\n\n+1 0 0\r\n999999999.999999", b"FILE: a\n1 1 0 0 0 0", b" "]
MORE_WORDS = [b"capacity", b"capacity", b"Capacity", b"capacity.", b"+capacity", b"capacit", b"capacity0", b"5000.", b"7500.00000"]
OPTIONS = [None, None, "10", "5", "6.000000", "+0", ".5", "999999999.999999", "0120."]


def in_five(micro):
    """The amount as the OR-Library prints costs, rounded to five decimals."""
    return f"{micro // MICRO}.{micro % MICRO // 10:05}"


def random_file():
    """A small file in the layout of the OR-Library, or with its words spelled and laid out at random."""
    m, n = random.randrange(1, MOST_SEARCHED + 1), random.randrange(1, 9)
    step, most = random.choice([(MICRO, 4), (MICRO, 40), (10, 10**6), (MICRO // 8, 50), (10**9, 10**6 - 1)])
    amount = lambda most_times=1: min(random.choice([0, *[step] * 4]) * random.randrange(most_times * most + 1), MAX_AMOUNT)
    laid_out, named, width = random.random() < 0.5, random.choice([0, 0, 0.3, 1]), random.randrange(1, 8)
    cost = in_five if laid_out else spelled
    whole = (lambda it: f"{it // MICRO}{random.choice(['', '.'])}") if laid_out else spelled
    lines = [[str(m), str(n)]]
    lines += [["capacity" if random.random() < named else whole(amount(3)), cost(amount(2))] for _ in range(m)]
    for _ in range(n):
        costs = [cost(amount()) for _ in range(m)]
        lines += [[whole(amount())], *(costs[k:k + width] for k in range(0, m, width))]
    ends = [" "] if laid_out else [" ", "\t", "\n", "\r\n"]
    return "".join(" " + "".join(word + random.choice(ends) for word in line) + "\n" for line in lines).encode()


def check(program):
    for text in FILES:
        changes = itertools.chain(texts(text, PIECES + b"cap", 100), changed_words(text, 200, WORDS + MORE_WORDS))
        for changed in changes:
            compare(program, changed, random.choice(["cap", "uncap"]))
            compare(program, changed, "cap", random.choice(OPTIONS))
    for _ in range(SEARCHES):
        text = random_file()
        compare(program, text, "cap")
        for form, option in ("cap", random.choice(OPTIONS[2:])), ("uncap", None):
            if not compare(program, text, form, option):
                differs(text, ("a fault", BAD_INPUT), ("duals", DONE))
        searched(program, text, Warehouses(text, "uncap", None))
    return f"warehouses: {program.asked} answers agree, among them {SEARCHES} searches that end at the least cost"


if __name__ == "__main__":
    main(check)
