"""Compares what a built program says of UflLib files with a plain reading of docs/FORMATS.md: `instances.py PROGRAM`.

The reading takes all words with their places first, and goes over them by the list in that page. An instance of at
most 12 sites is solved over all sets of sites; which of several cheapest plans is printed isn't fixed, so a printed
plan is read back, and has to be feasible, to cost what it says, and to be as cheap as any. Both are asked about a few
files, all their proper prefixes, all deletions of one byte, many random changes of bytes and of words, two files as
long as the limit and longer, and about random small instances with their amounts spelled in many ways.
"""
import itertools
import random
import re

from common import MICRO, differs, main, money, texts

MOST_SITES, MOST_CUSTOMERS, MOST_LANES, MOST_SOLVED = 3000, 5000, 10**7, 12
MAX_AMOUNT = 10**15 - 1
MAX_BYTES = 2**28
AMOUNT = re.compile(rb"\+?(?=\.?[0-9])([0-9]*)(?:\.([0-9]*))?\Z")
DONE, BAD_INPUT, TOO_LARGE = 0, 5, 8
# What the least plan costs where there is none.
NO_PLAN = float("inf")


class Fault(Exception):
    """The line that the program prints."""


def words_of(text, title=b"FILE:"):
    """The words behind a line of the title, each with its line and its place in it, and the place behind the last word."""
    words = [(number, place, word) for number, line in enumerate(text.split(b"\n"), 1)
             for place, word in enumerate((it for it in re.split(rb"[ \t\r]+", line) if it), 1)]
    end = (words[-1][0], words[-1][1] + 1) if words else (1, 1)
    if title and words and words[0][2].startswith(title):
        words = [it for it in words if it[0] != words[0][0]]
    return words, end


def amount_of(word):
    """A word's millionths, or its kind of fault."""
    found = AMOUNT.match(word)
    if not found:
        return None, "NotANumber"
    decimals = found[2] or b""
    if decimals[6:].strip(b"0"):
        return None, "TooFine"
    value = int(found[1] or b"0") * MICRO + int(decimals[:6].ljust(6, b"0"))
    return (value, None) if value <= MAX_AMOUNT else (None, "TooBig")


class Reader:
    """Words, one behind the other."""

    def __init__(self, text, title=b"FILE:"):
        self.words, self.end = words_of(text, title)
        self.next = 0

    def fault(self, kind, place):
        raise Fault(f"bad input {kind} line {place[0]} word {place[1]}\n")

    def take(self, meaning, refused=lambda value: None):
        """What the next word means, which is a value and a kind of fault, or none of one, and isn't refused by such a kind."""
        if self.next == len(self.words):
            self.fault("Ended", self.end)
        *place, word = self.words[self.next]
        value, kind = meaning(word)
        kind = kind or refused(value)
        if kind:
            self.fault(kind, place)
        self.next += 1
        return value

    def amount(self, refused=lambda value: None):
        return self.take(amount_of, refused)

    def size(self, most, kind):
        return self.amount(lambda it: None if it % MICRO == 0 and 1 <= it // MICRO <= most else kind) // MICRO

    def sizes(self):
        """The numbers of sites and of customers."""
        m = self.size(MOST_SITES, "BadSize")
        return m, self.size(min(MOST_CUSTOMERS, MOST_LANES // m), "BadSize")

    def number(self, due, kind):
        self.amount(lambda it: None if it == due * MICRO else kind)

    def finish(self):
        if self.next < len(self.words):
            self.fault("Trailing", self.words[self.next])


def read(text):
    """The opening costs and the rows of connection costs, in millionths."""
    reader = Reader(text)
    m, n = reader.sizes()
    reader.number(0, "NotZero")
    fixed, lanes = [], []
    for site in range(1, m + 1):
        reader.number(site, "BadIndex")
        fixed.append(reader.amount())
        lanes.append([reader.amount() for _ in range(n)])
    reader.finish()
    return fixed, lanes


def least_cost(fixed, lanes):
    sites = range(len(fixed))
    return min(sum(fixed[i] for i in opened) + sum(min(costs) for costs in zip(*(lanes[i] for i in opened)))
               for size in range(1, len(fixed) + 1) for opened in itertools.combinations(sites, size))


def cost_of_plan(said, fixed, lanes, fits=lambda opened, serve: True):
    """What the plan of a plan text costs, whose claim isn't looked at; nothing where it isn't a feasible plan's text. The
    plan has to fit by its open sites and by the customers' sites, and a lane that is missing costs `None`."""
    opened = [int(it) for it in re.findall(r"(?m)^site ([0-9]+) ", said)]
    serve = [int(it) for it in re.findall(r"(?m)^serve [0-9]+ ([0-9]+) ", said)]
    rises = all(a < b for a, b in zip([0, *opened], [*opened, len(fixed) + 1]))
    if not rises or len(serve) != len(lanes[0]) or not {*serve} <= {*opened} or not fits(opened, serve):
        return None
    costs = [lanes[site - 1][j] for j, site in enumerate(serve)]
    if None in costs:
        return None
    due = ["dualoc-plan 1", said.splitlines()[1], *[f"site {site} {money(fixed[site - 1])}" for site in opened],
           *[f"serve {j} {site} {money(cost)}" for j, (site, cost) in enumerate(zip(serve, costs), 1)], "end", ""]
    return sum(fixed[site - 1] for site in opened) + sum(costs) if said == "\n".join(due) else None


def is_cheapest(said, fixed, lanes):
    """Whether the text is a plan's, which is feasible, costs what it says, and is as cheap as any."""
    total = cost_of_plan(said, fixed, lanes)
    return total == least_cost(fixed, lanes) and said.splitlines()[1] == f"optimal {money(total)}"


def compare(program, text):
    """Stops where the program answers otherwise than it must, and returns whether it solved the instance."""
    program.write("a", text)
    found = program.ask("solve", "ufl", "a")
    try:
        fixed, lanes = read(text)
    except Fault as fault:
        if found != (str(fault), BAD_INPUT):
            differs(text, found, (str(fault), BAD_INPUT))
        return False
    if len(fixed) > MOST_SOLVED:
        if found != ("too large sites\n", TOO_LARGE):
            differs(text, found, ("too large sites\n", TOO_LARGE))
        return False
    if found[1] != DONE or not is_cheapest(found[0], fixed, lanes):
        differs(text, found, (f"a plan of {money(least_cost(fixed, lanes))}", DONE))
    return True


FILES = [b"FILE: a\n2 3 0\n1 10 1 2 9\n2 12 8 7 1\n",
         b"3 2 0.\n1 1.5 .25 007\r\n2 +2 3.\t0\n\n3 0 999999999.999999 0.1000000 \n",
         b"\n \nFILE:x 1 1\n1. 2\n+0.0 1 .5 12.25 0",
         b"13 1 0\n" + b"".join(b"%d 1 2 " % site for site in range(1, 14)),
         b"2 1 0 1 0 0 2 0 0", b"FILE: alone", b" "]
PIECES = b" \t\r\n+-.0123456789eF:\0\xff"
WORDS = [b"0", b"1", b"2", b"+", b".", b"+.", b"1.", b".5", b"+.5", b"++1", b"-1", b"-0", b"1e3", b"1,5", b"1.2.3",
         b"capacity", b"FILE:", b"0.0", b"1.5", b"1.0000001", b"1.00000000", b".0000009", b"999999999.999999",
         b"999999999.9999990", b"999999999.9999991", b"1000000000", b"1000000000.0000001", b"0" * 40 + b"1", b"9" * 40,
         b"3000", b"3001", b"5000", b"5001", b"3333", b"3334", b"4294967297", b"\xc2\xa01", b"\0"]


def changed_words(text, count, words=WORDS):
    """Random changes of whole words, with the white space as it was."""
    for _ in range(count):
        parts = re.split(rb"([ \t\r\n]+)", text)
        place = random.randrange(0, len(parts), 2)
        parts[place] = random.choice([*words, b"", parts[place] + b" " + parts[place], random.choice(parts[::2])])
        yield b"".join(parts)


def spelled(micro):
    """The amount in one of its spellings."""
    whole, decimals = str(micro // MICRO), f"{micro % MICRO:06}".rstrip("0")
    plain = whole + ("." + decimals if decimals else random.choice(["", "."]))
    plain = plain[1:] if plain.startswith("0.") and decimals and random.random() < 0.5 else plain
    plain += "0" * random.randrange(9) if "." in plain else ""
    return random.choice(["", "", "+"]) + random.choice(["", "", "00"]) + plain


def random_instance():
    """A small instance with decimals, ties and zeros."""
    m, n = random.randrange(1, 7), random.randrange(1, 9)
    step, most = random.choice([(MICRO, 4), (MICRO, 40), (1, 2 * MICRO), (MICRO // 8, 50), (10**9, 10**6 - 1)])
    amount = lambda: random.choice([0, 1, 1, 1, 1]) * step * random.randrange(most + 1)
    rows = [[site * MICRO, amount() * random.randrange(1, 4), *[amount() for _ in range(n)]] for site in range(1, m + 1)]
    words = [spelled(min(it, MAX_AMOUNT)) for it in [m * MICRO, n * MICRO, 0, *sum(rows, [])]]
    return "".join(word + random.choice([" ", "  ", "\t", "\n", "\r\n"]) for word in words).encode()


def check(program):
    for text in FILES:
        for changed in itertools.chain(texts(text, PIECES, 150), changed_words(text, 150)):
            compare(program, changed)
    # What follows the first word is a hole in the file, whose bytes are part of that word.
    for size, due, status in [(MAX_BYTES, "bad input NotANumber line 1 word 1\n", BAD_INPUT),
                              (MAX_BYTES + 1, "too large instance\n", TOO_LARGE)]:
        program.write("a", b"x")
        with open(program.at("a"), "r+b") as file:
            file.truncate(size)
        program.expect(due, status, f"{size} bytes", "solve", "ufl", "a")
    read = program.asked
    for _ in range(500):
        text = random_instance()
        if not compare(program, text):
            differs(text, ("not solved", 1), ("a plan", DONE))
    return f"instances: {read} readings agree, and {program.asked - read} instances are solved at the least cost"


if __name__ == "__main__":
    main(check)
