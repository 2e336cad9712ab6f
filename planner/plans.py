"""Plans, from plan texts, from the plans of centers and from JSON reports, which are told apart by what they hold."""
import json
import re
from dataclasses import dataclass, field

from .cells import Refusal

PRINTED, COUNT = re.compile("([0-9]+)[.]([0-9]{6})"), re.compile("[0-9]{1,10}")
HEADS = "dualoc-plan", "dualoc-center"


@dataclass
class Plan:
    """No plan costs less than `low`; of a center, none has a lesser radius. Open sites have their fixed costs, and customers a site
    and what its lane costs, where that is told, all by ids. Amounts are whole millionths. `claim` is optimal, bracket or center, and
    `radius` what the dearest lane costs, where that is claimed."""

    claim: str = ""
    low: int = 0
    cost: int = 0
    fixed: dict[int, int] = field(default_factory=dict)
    served: dict[int, tuple[int, int | None]] = field(default_factory=dict)
    radius: int | None = None

    is_center = property(lambda self: self.radius is not None)


def put(those: dict, key: int, value: object) -> None:
    """Puts in what may stand once."""
    if key in those:
        raise ValueError
    those[key] = value


def micro(word: str) -> int:
    """The millionths of an amount as it is printed."""
    found = PRINTED.fullmatch(word)
    if not found:
        raise ValueError
    return int(found[1] + found[2])


def count(word: str) -> int:
    if not COUNT.fullmatch(word):
        raise ValueError
    return int(word)


def without_plan(path: str, says: str) -> Refusal:
    return Refusal(f"{path}: it says {says!r}, and has no plan")


def claim_in(path: str, plan: Plan, head: str, words: list[str]) -> bool:
    """Takes the second line of a plan text. Whether it is one."""
    match words:
        case ["optimal", cost] if head == "dualoc-plan":
            plan.claim, plan.low, plan.cost = "optimal", micro(cost), micro(cost)
        case ["radius", radius] if head == "dualoc-center":
            plan.claim, plan.low, plan.radius = "center", micro(radius), micro(radius)
        case ["infeasible"] | ["bracket", _, "none"]:
            raise without_plan(path, " ".join(words))
        case ["bracket", low, high]:
            plan.claim, plan.low = "bracket", micro(low)
            plan.cost, plan.radius = (micro(high), None) if head == "dualoc-plan" else (0, micro(high))
        case _:
            return False
    return True


def in_text(text: str, path: str = "the plan") -> Plan:
    """The plan of a plan text, which is what `solve` and `center` write, and the reply to `answer`."""
    lines = [line.split() for line in text.splitlines()]
    number, plan = 1, Plan()
    try:
        for number, words in enumerate(lines, 1):
            match words:
                case [("dualoc-plan" | "dualoc-center") as head, "1"] if number == 1:
                    pass
                case _ if number == 2 and claim_in(path, plan, head, words):
                    pass
                case ["site", s, fixed] if number > 2:
                    put(plan.fixed, count(s), micro(fixed))
                case ["serve", c, s, cost] if number > 2:
                    put(plan.served, count(c), (count(s), micro(cost)))
                case ["end"] if 2 < number == len(lines):
                    return summed(plan)
                case _:
                    break
    except ValueError:
        pass
    raise Refusal(f"{path}, line {number}: this is no line of a plan text, or the last one is missing")


def summed(plan: Plan) -> Plan:
    """The plan of a center with its cost, which its text doesn't tell."""
    if plan.is_center:
        plan.cost = sum(plan.fixed.values()) + sum(cost for _, cost in plan.served.values())
    return plan


class Report:
    """A JSON report: the reply to `json`. A refusal names the place of a value as `jq` takes it, as `.sites[0].fixed`."""

    def __init__(self, path: str, text: str):
        self.path = path
        try:
            self.told = json.loads(text, object_pairs_hook=self.keyed)
        except json.JSONDecodeError as fault:
            raise Refusal(f"{path}, line {fault.lineno}, character {fault.colno}: this is no JSON: {fault.msg}") from None
        except (ValueError, RecursionError):
            raise Refusal(f"{path}: it has a number or a list that no JSON report has") from None

    def keyed(self, pairs: list[tuple]) -> dict:
        found = dict(pairs)
        if len(found) < len(pairs):
            raise Refusal(f"{self.path}: a key stands twice in an object")
        return found

    def due(self, what: str, holds: object, place: str) -> None:
        if not holds:
            raise Refusal(f"{self.path}, at {place}: due is {what}")

    def values(self, it: object, place: str, *keys: str) -> list:
        """The values of an object that has just these keys."""
        self.due(f"an object with {', '.join(keys)}", type(it) is dict and it.keys() == {*keys}, place)
        return [it[key] for key in keys]

    def amount(self, it: object, place: str) -> int:
        self.due("an amount with six decimals, in quotes", type(it) is str and PRINTED.fullmatch(it), place)
        return micro(it)

    def listed(self, it: object, place: str) -> list[tuple]:
        """The elements of a list, each with its place."""
        self.due("a list", type(it) is list, place)
        return [(element, f"{place}[{at}]") for at, element in enumerate(it)]

    def put(self, those: dict, key: object, value: object, place: str) -> None:
        self.due("an id that stands once", type(key) is int and key >= 0 and key not in those, place)
        those[key] = value

    def plan(self) -> Plan:
        claim, plan = self.told.get("answer"), Plan()
        if claim == "infeasible":
            raise without_plan(self.path, claim)
        self.due("optimal, bracket or infeasible", claim in ("optimal", "bracket"), ".answer")
        keys = ["answer", "cost", "sites", *["low"][:claim == "bracket"]]
        _, cost, sites, *low = self.values(self.told, ".", *keys)
        if claim == "bracket" and cost is None:
            raise without_plan(self.path, claim)
        plan.claim, plan.cost = claim, self.amount(cost, ".cost")
        plan.low = self.amount(*low, ".low") if low else plan.cost
        for it, place in self.listed(sites, ".sites"):
            customers, fixed, s = self.values(it, place, "customers", "fixed", "id")
            self.put(plan.fixed, s, self.amount(fixed, f"{place}.fixed"), f"{place}.id")
            for c, at in self.listed(customers, f"{place}.customers"):
                self.put(plan.served, c, (s, None), at)
        return plan


def read(path: str) -> Plan:
    """The plan of a file, its sites and customers by rising ids. Refused is what has no plan, or is none of the three."""
    with open(path, encoding="utf-8-sig", errors="replace") as file:
        text = file.read()
    if text.lstrip().startswith("{"):
        plan = Report(path, text).plan()
    elif {*text.split(maxsplit=1)[:1]} & {*HEADS}:
        plan = in_text(text, path)
    else:
        raise Refusal(f"{path}, line 1: neither a plan text, which begins with dualoc-plan or dualoc-center, nor a JSON report, "
                      "which begins with {")
    plan.fixed, plan.served = dict(sorted(plan.fixed.items())), dict(sorted(plan.served.items()))
    return plan
