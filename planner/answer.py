"""Answers: what the program said of an instance, with the plan by names, and the files by which anyone has it checked."""
from collections.abc import Callable
from dataclasses import dataclass, field
from decimal import Decimal
from functools import cached_property

from .cells import MICRO, Refusal, grouped
from .lanes import Rule
from .names import Names
from .places import Customer, Site
from .state import Lanes, shown


def gap_between(low: int | None, high: int | None) -> Decimal | None:
    """How far apart two ends are, in per cent of the upper one, rounded up to four decimals. Nothing without a plan."""
    if low is None or high is None:
        return None
    return Decimal(-(-(high - low) * MICRO // high) if high else 0).scaleb(-4)


def units(micro: int | None) -> Decimal | None:
    """An amount as a Decimal of units."""
    return None if micro is None else Decimal(micro).scaleb(-6)


@dataclass(frozen=True)
class Move:
    """A customer who is served from elsewhere: the names of the sites before and after, of which one may be missing."""

    customer: str
    before: str | None
    after: str | None


@dataclass(frozen=True)
class Answer:
    """What is known of an instance. `kind` is optimal, bracket or infeasible. No plan costs less than `low`, and the plan costs
    `cost`; without one `cost` is None. `open` has the fixed costs of the open sites, `served` of each customer the site and what
    its lane costs, by ids. `sites` and `customers` are the instance's. All amounts are millionths."""

    kind: str
    cost: int | None
    low: int | None
    open: dict[int, int]
    served: dict[int, tuple[int, int]]
    sites: dict[int, Site] = field(repr=False)
    customers: dict[int, Customer] = field(repr=False)
    rule: Rule = field(repr=False)
    checksum: str = ""
    nodes: int = 0
    seconds: float = 0.0
    instance_file: str = ""
    plan_file: str = ""
    certificate_file: str = ""
    judge: Callable[[str, str], str] | None = field(default=None, repr=False)
    was_held: bool = False

    @property
    def has_plan(self) -> bool:
        return self.cost is not None

    @property
    def gap(self) -> Decimal | None:
        return gap_between(self.low, self.cost)

    @cached_property
    def leases(self) -> int:
        return sum(self.open.values())

    @cached_property
    def transport(self) -> int:
        return sum(cost for _, cost in self.served.values())

    @cached_property
    def plan(self) -> dict[str, str]:
        """The name of each customer's site by the customer's name."""
        return {self.customers[c].name: self.sites[s].name for c, (s, _) in self.served.items()}

    @cached_property
    def loads(self) -> dict[str, int]:
        """The demand that each open site serves, in millionths, by its name."""
        found = {self.sites[s].name: 0 for s in self.open}
        for c, (s, _) in self.served.items():
            found[self.sites[s].name] += self.customers[c].demand
        return found

    @cached_property
    def lengths(self) -> dict[int, int]:
        """How far each customer is from its site, in millionths of the unit, for those of whom that is known."""
        found = {c: self.rule.length(self.sites[s], self.customers[c]) for c, (s, _) in self.served.items()}
        return {c: it for c, it in found.items() if it is not None}

    @property
    def farthest(self) -> tuple[int | None, int | None, int | None]:
        """The greatest of these lengths, its customer and its site by ids."""
        if not self.lengths:
            return None, None, None
        c = max(self.lengths, key=self.lengths.get)
        return self.lengths[c], c, self.served[c][0]

    @property
    def mean(self) -> int | None:
        """The mean of these lengths over the customers."""
        return (2 * sum(self.lengths.values()) + len(self.lengths)) // (2 * len(self.lengths)) if self.lengths else None

    @property
    def claim(self) -> str:
        """What is claimed, as `check` prints it behind its yes."""
        if self.kind == "infeasible":
            return self.kind
        return f"bracket {shown(self.low)} {shown(self.cost)}" if self.kind == "bracket" else f"optimal {shown(self.cost)}"

    @property
    def text(self) -> str:
        """The answer in one line."""
        if self.kind == "infeasible":
            return "infeasible: there is no plan"
        if not self.has_plan:
            return f"no plan was found yet, and none costs less than {grouped(self.low)}"
        if self.kind == "optimal":
            return f"optimal {grouped(self.cost)}: {len(self.open)} sites, leases {grouped(self.leases)}, transport {grouped(self.transport)}"
        return f"cost {grouped(self.cost)}, at most {self.gap} % above the best: no plan costs less than {grouped(self.low)}; {len(self.open)} sites"

    def is_better(self, other: "Answer") -> bool:
        """Whether it says more of the same instance than the other answer: it is settled, or has the lesser gap, or a plan."""
        if "bracket" not in (self.kind, other.kind) or self.kind != other.kind:
            return self.kind != "bracket" and other.kind == "bracket"
        if not self.has_plan or not other.has_plan:
            return self.has_plan or not other.has_plan and self.low > other.low
        return self.cost - self.low < other.cost - other.low

    def site_of(self, customer: str) -> str | None:
        """The site that serves the customer, by their names; none where the answer has no plan for it."""
        return self.plan.get(customer)

    def moved(self, other: "Answer") -> list[Move]:
        """The customers who are served from elsewhere than in the other answer, by its names; those who came or went are among them."""
        mine, theirs = self.plan, other.plan
        return [Move(name, theirs.get(name), mine.get(name)) for name in {**mine, **theirs} if mine.get(name) != theirs.get(name)]

    def opened(self, other: "Answer") -> list[str]:
        """The names of the sites that are open here and not in the other answer."""
        theirs = {other.sites[s].name for s in other.open}
        return [self.sites[s].name for s in self.open if self.sites[s].name not in theirs]

    def closed(self, other: "Answer") -> list[str]:
        """The names of the sites that are open in the other answer and not here."""
        return other.opened(self)

    def names(self) -> Names:
        """The sites and customers that were solved, as `draw` and `table` take them."""
        return Names(self.sites, self.customers, self.rule, None)

    def to_rows(self) -> list[dict[str, object]]:
        """A row for each customer: its name, its site, what serving it costs and its demand, in units. `pandas` takes them."""
        return [{"customer": self.customers[c].name, "site": self.sites[s].name, "cost": units(cost),
                 "demand": units(self.customers[c].demand)} for c, (s, cost) in self.served.items()]

    def plan_text(self) -> str:
        """The plan text, as the program writes it."""
        found = ["dualoc-plan 1", self.claim, *(f"site {s} {shown(fixed)}" for s, fixed in self.open.items()),
                 *(f"serve {c} {s} {shown(cost)}" for c, (s, cost) in self.served.items()), "end"]
        return "".join(f"{line}\n" for line in found)

    def check(self) -> str:
        """Has `check` judge the certificate of the instance that was solved, and answers its line. Refused is all but a yes to this
        very claim."""
        said = self.judge(self.instance_file, self.certificate_file)
        if said != f"yes {self.claim}":
            raise Refusal(f"{self.certificate_file}: check says {said!r}, and the answer is {self.claim!r}")
        return said


def plan_of_certificate(path: str) -> tuple[str, int | None, int | None, list[int], list[int]]:
    """What a certificate claims, and its plan: the kind, the low end and the cost, the open sites, and a site for each customer in
    their order. It believes the file: `check` is what judges it."""
    kind, low, high, opened, served = "", None, None, [], []
    with open(path, encoding="ascii") as file:
        for line in file:
            words = line.split()
            if words[0] == "claim":
                kind, ends = words[1], [None if it == "none" else int(it.replace(".", "")) for it in words[2:]]
                low, high = (ends[0], ends[-1]) if ends else (None, None)
                if kind == "infeasible" or high is None:
                    break
            elif words[0] == "open":
                opened = [*map(int, words[1:])]
            elif words[0] == "serve":
                served = [*map(int, words[1:])]
                break
    return kind, low, high, opened, served


def with_plan(kind: str, low: int | None, cost: int | None, opened: list[int], served: list[int], sites: dict[int, Site],
              customers: dict[int, Customer], lanes: Lanes, **more: object) -> Answer:
    """An answer by what a certificate claims. Refused where its plan doesn't cost that in this instance."""
    due = {s: sites[s].fixed for s in opened if s in sites}
    mine = {c: (s, lanes.get(s, c)) for c, s in zip(customers, served)}
    costs = [cost for _, cost in mine.values()]
    if cost is not None and (len(due) < len(opened) or None in costs or sum(due.values()) + sum(costs) != cost):
        raise Refusal("the plan of the certificate isn't one of this instance")
    return Answer(kind, cost, low, due, mine, sites, customers, **more)
