"""What a planner asks of an answer: why it is another one, and at what lease a site breaks even."""
import contextlib
from collections.abc import Callable, Iterator
from dataclasses import dataclass

from .answer import Answer, Move
from .cells import Refusal, grouped
from .places import Site
from .solving import Limits, Progress
from .talk import Refused


class Stopped(Refusal):
    """What was asked was stopped before there was an answer."""

    def __init__(self):
        super().__init__("stopped")


def change(micro: int) -> str:
    """A difference of amounts, with its sign."""
    return f"{'-' if micro < 0 else '+'}{grouped(abs(micro))}"


@dataclass(frozen=True)
class Why:
    """What sets one answer apart from another: the sites that came and went, who moved, and the costs, the differences in millionths."""

    before: Answer
    after: Answer

    opened = property(lambda self: self.after.opened(self.before))
    closed = property(lambda self: self.after.closed(self.before))
    leases = property(lambda self: self.after.leases - self.before.leases)
    transport = property(lambda self: self.after.transport - self.before.transport)

    @property
    def moved(self) -> list[Move]:
        return self.after.moved(self.before)

    @property
    def lines(self) -> list[str]:
        """The same to read."""
        before, after = self.before, self.after
        if not (before.has_plan and after.has_plan):
            return [f"before: {before.text}", f"now: {after.text}"]
        listed = lambda those: ", ".join(those) or "none"
        sure = "" if before.kind == after.kind == "optimal" else " (the plans that were found; not both are proved to be the best)"
        found = [f"cost {grouped(before.cost)} -> {grouped(after.cost)}: {change(after.cost - before.cost)}{sure}",
                 f"leases {change(self.leases)}, transport {change(self.transport)}",
                 f"sites that come: {listed(self.opened)}", f"sites that go: {listed(self.closed)}",
                 f"customers that move: {len(self.moved)}"]
        return found + [f"  {it.customer}: {it.before or '(not there)'} -> {it.after or '(not there)'}" for it in self.moved]


@dataclass(frozen=True)
class BreakEven:
    """At which fixed cost a site is worth as much as it costs, in millionths: `at`, or between `low` and `high` where a solve wasn't
    taken to its end. Below it a best plan opens the site, above it none does. None of them is there where the site can't be missed,
    or can't be open; `at` may be below 0, where it isn't worth being open even for nothing."""

    site: str
    fixed: int
    at: int | None
    low: int | None
    high: int | None
    text: str


@dataclass(frozen=True)
class Second:
    """The best plan whose open sites aren't those of the best one. Where a solve wasn't taken to its end no such plan costs less than
    `low`, in millionths. Without another plan there is no answer."""

    best: Answer
    answer: Answer | None
    low: int | None

    @property
    def text(self) -> str:
        if not self.answer:
            return "no plan was found that opens other sites"
        sure = "" if self.low == self.answer.cost else f", or better ones: none costs less than {grouped(self.low)}"
        return f"the best plan with other sites costs {grouped(self.answer.cost)}, {change(self.answer.cost - self.best.cost)}{sure}"


def even_text(name: str, fixed: int, low: int, high: int) -> str:
    now = f"its fixed cost is {grouped(fixed)} now"
    if low == high:
        if low < 0:
            return f"{name} isn't worth being open even for nothing: it would add {grouped(-low)}; {now}"
        return f"{name} breaks even at {grouped(low)}: below that a best plan opens it, above it none does; {now}"
    return f"{name} breaks even between {change(low)} and {change(high)}: solve longer to tell; {now}"


class Questions:
    """The part of a session that answers such questions by solves."""

    def why(self, other: Answer | None = None) -> Why:
        """What sets the last answer apart from another one: the one before it, where none is named."""
        other = other or self.before
        if not self.last or not other:
            raise Refusal("there aren't two answers yet: solve, edit, and solve again")
        return Why(other, self.last)

    @contextlib.contextmanager
    def aside(self) -> Iterator[None]:
        """Whatever is edited and solved within is taken back, and what stood stands again."""
        stood = {key: getattr(self, key) for key in ("answer", "last", "before", "base", "is_changed", "version")}
        mark = self.mark()
        try:
            yield
        finally:
            self.back_to(mark)
            vars(self).update(stood)

    def solved(self, limits: Limits, tell: Callable[[Progress], None] | None) -> Answer:
        """The answer to the instance as it stands, the standing one where there is one. Stopped where it was stopped before."""
        found = self.answer or self.find(limits, tell, False)
        if self.stopped.is_set() and found.kind == "bracket":
            raise Stopped
        return found

    def breakeven(self, site: int | str, seconds: float | None = None, gap: str | None = None,
                  tell: Callable[[Progress], None] | None = None) -> BreakEven:
        """The fixed cost at which it is all one whether the site is open, by at most two solves: of the instance as it stands, and
        with the site closed where that opens it, or open where it doesn't. Limits are as in `solve`, for each of them."""
        self.stopped.clear()
        s, limits = self.state.site(site), Limits.of(seconds, gap, None)
        it, first = self.state.sites[s], self.solved(limits, tell)
        is_open = s in first.open
        with self.aside():
            (self.close if is_open else self.must_open)(s)
            second = self.solved(limits, tell)
        opened, closed = (first, second) if is_open else (second, first)
        return even(it, opened, closed)

    def second(self, seconds: float | None = None, gap: str | None = None, tell: Callable[[Progress], None] | None = None) -> Second:
        """The best plan with other open sites, by a solve for each open site of the best plan, in which that is closed, and one in which
        all of them are open and one more. Limits are as in `solve`, for each of them."""
        self.stopped.clear()
        limits = Limits.of(seconds, gap, None)
        best, others = self.solved(limits, tell), []
        for s in [*(s for s in best.open if best.sites[s].status != "open"), None]:
            with contextlib.suppress(Refused), self.aside():
                self.part_from(best, s)
                others.append(self.solved(limits, tell))
        able = [it for it in others if it.kind != "infeasible"]
        found = min((it for it in able if it.has_plan), key=lambda it: it.cost, default=None)
        return Second(best, found, min((it.low for it in able), default=None))

    def part_from(self, best: Answer, s: int | None) -> None:
        """Leaves only the plans that don't open the site or, without one, those that open all of the best plan's sites and one more."""
        if s is not None:
            self.close(s)
            return
        for it in best.open:
            self.must_open(it)
        least, most = len(best.open) + 1, self.state.count[1]
        self.count(least, most)


def even(it: Site, opened: Answer, closed: Answer) -> BreakEven:
    """The break-even between the best plans that open a site, at its fixed cost, and those that don't."""
    name, fixed = it.name, it.fixed
    for answer, why in (opened, "can't be open in any plan"), (closed, "can't be missed: there is no plan without it"):
        if answer.kind == "infeasible":
            return BreakEven(name, fixed, None, None, None, f"{name} {why}")
    if not (opened.has_plan and closed.has_plan):
        return BreakEven(name, fixed, None, None, None, f"{name}: no plan was found on one side; solve longer to tell")
    low, high = fixed + closed.low - opened.cost, fixed + closed.cost - opened.low
    must = {"free": "", "open": "; it must be open as things stand", "closed": "; it must stay closed as things stand"}[it.status]
    return BreakEven(name, fixed, low if low == high else None, low, high, even_text(name, fixed, low, high) + must)
