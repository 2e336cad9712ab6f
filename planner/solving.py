"""A solve in slices: budgets of nodes, with what is known after each, until it may end.

A later option of the program that says when to end, by seconds or by a gap, replaces `in_slices`.
"""
import threading
import time
from collections.abc import Callable
from dataclasses import dataclass
from decimal import Decimal

from .answer import gap_between
from .cells import Refusal, grouped
from .talk import Refused, Talk

# The nodes of the first slice; a later one has as many as all before it. What is open is worked anew in each, so that many small ones
# would take many times as long as one. By the pace of the one before, a slice takes at most so many seconds, or this part of the time
# that was spent.
FIRST, LONGEST, PART = 200, 15.0, 4
# Those of the first one where few seconds are given, or many sites and customers.
FEW, SHORT, MANY = 20, 10, 10**6
# What the program takes for a budget by default, and the greatest budget for one site and customer.
DEFAULT, GREATEST = 20000, 20_000_000


@dataclass(frozen=True)
class Progress:
    """How far a solve is: no plan costs less than `low`, one costs `high`, where one was found, in millionths. `gap` is in per cent."""

    seconds: float
    nodes: int
    low: int | None
    high: int | None

    @property
    def gap(self) -> Decimal | None:
        return gap_between(self.low, self.high)

    @property
    def known(self) -> str:
        """What is known, without the time."""
        ends = "no plan yet" if self.high is None else f"best {grouped(self.high)}"
        low = "" if self.low is None else f"  none below {grouped(self.low)}"
        return f"nodes {self.nodes}  {ends}{low}" + ("" if self.gap is None else f"  gap {self.gap} %")

    @property
    def text(self) -> str:
        return f"{self.seconds:.0f} s  {self.known}"


@dataclass(frozen=True)
class Limits:
    """When a solve may end before it is optimal: after so many seconds or nodes, or where the gap is at most so many per cent."""

    seconds: float | None = None
    gap: Decimal | None = None
    budget: int | None = None

    @staticmethod
    def of(seconds: object, gap: object, budget: object) -> "Limits":
        """Refuses what is no limit. Seconds are no amount, so they may be a float."""
        if seconds is not None and not (isinstance(seconds, (int, float, Decimal)) and seconds > 0):
            raise Refusal(f"{seconds!r} is no number of seconds")
        if isinstance(gap, float):
            raise TypeError(f"a gap is due as a text or a Decimal, in per cent, and {gap!r} is a float")
        if budget is not None and (type(budget) is not int or budget < 0):
            raise Refusal(f"{budget!r} is no number of nodes")
        try:
            part = None if gap is None else Decimal(str(gap).rstrip("% "))
        except ArithmeticError:
            part = Decimal(-1)
        if part is not None and not 0 <= part < 100:
            raise Refusal(f"{gap!r} is no gap in per cent")
        return Limits(seconds, part, budget)

    def allows(self, nodes: int) -> bool:
        """Whether more nodes than so many may be made."""
        return self.budget is None or nodes + 2 <= self.budget

    def is_met(self, progress: Progress) -> bool:
        is_late = self.seconds is not None and progress.seconds >= self.seconds
        return is_late or self.gap is not None and progress.gap is not None and progress.gap <= self.gap


class Stops:
    """Whether what is being solved is to end, which any thread may ask. `talk` is the process that is at work."""

    def __init__(self):
        self.asked, self.talk = threading.Event(), None

    def clear(self) -> None:
        self.asked.clear()
        self.talk = None

    def is_set(self) -> bool:
        return self.asked.is_set()

    def set(self, at_once: bool) -> None:
        self.asked.set()
        talk = self.talk
        if at_once and talk:
            talk.give_up()


def read_reply(reply: str) -> tuple[str, int | None, int | None, int]:
    """The kind of the reply to a solve, its low end, its cost, and how many nodes it made."""
    words = reply.split()
    cost = lambda word: None if word == "none" else int(word.replace(".", ""))
    match words:
        case ["optimal", high, "made", made, "nodes", _]:
            return "optimal", cost(high), cost(high), int(made)
        case ["infeasible", "made", made, "nodes", _]:
            return "infeasible", None, None, int(made)
        case ["bracket", low, high, "made", made, "budget", _]:
            return "bracket", cost(low), cost(high), int(made)
    raise Refused("solve", reply)


def next_slice(asked: int, took: float, progress: Progress, limits: Limits) -> int:
    """The nodes of the next slice, behind one of so many nodes and seconds."""
    due = max(LONGEST, progress.seconds / PART)
    if limits.seconds is not None:
        due = min(due, max(0.0, float(limits.seconds) - progress.seconds))
    return max(2, min(progress.nodes, int(asked * due / max(took, 0.001))))


def first_slice(size: tuple[int, int], limits: Limits) -> int:
    """The nodes of the first slice."""
    if size[0] * size[1] > MANY:
        return 0
    return FEW if limits.seconds is not None and limits.seconds < SHORT else FIRST


def in_slices(talk: Talk, size: tuple[int, int], limits: Limits, stops: Stops, tell: Callable[[str, Progress], None], most: int | None = None,
              before: Progress = Progress(0.0, 0, None, None)) -> tuple[str, Progress]:
    """Solves what the session has, slice by slice. `size` is how many sites and customers there are. It ends where the answer is
    optimal or infeasible, a limit is met, the nodes are spent, which are at most so many, or `stops` says so. `tell` is told the kind of
    each reply and how far it came, what was spent `before` counted in; both are answered at the end."""
    begun, made, asked, stops.talk = time.monotonic() - before.seconds, 0, first_slice(size, limits), talk
    is_limited = limits.seconds is not None or limits.gap is not None
    whole = (GREATEST if is_limited else DEFAULT) if limits.budget is None else max(0, limits.budget - before.nodes)
    most = min(GREATEST // sum(size), whole if most is None else min(most, whole))
    while True:
        asked, since = min(asked, most - made), time.monotonic()
        kind, low, high, new = read_reply(talk.ask(f"solve {asked}"))
        now, made = time.monotonic(), made + new
        progress = Progress(now - begun, before.nodes + made, low, high)
        tell(kind, progress)
        if kind != "bracket" or limits.is_met(progress) or made + 2 > most or stops.is_set():
            return kind, progress
        asked = next_slice(asked, now - since, progress, limits)
