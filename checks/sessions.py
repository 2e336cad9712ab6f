"""Compares sessions of a built program with a plain reading of docs/FORMATS.md: `sessions.py PROGRAM [SESSIONS] [SEED]`.

Random small instances of all forms are edited, solved, shown and saved by random lines. What edits do is the reading of
`edits.py`; what a solve may say and grow is that of `trees.py`: its claim agrees with the least cost over all plans of the
instance as edited, a bracket holds at both ends and comes only with the budget spent, no leaf is made again that closes with
the cost of the carried plan, and made nodes and carried ones are the nodes of the certificate's tree. Each certificate has the
yes of the plain reading of `verdicts.py`, and the last one of a session that of the program's checker. What `table` and `json`
show agrees with the plan text, by the plain reading of `reports.py`, and `jq` reads the JSON. Then come a session at
two pipes and one at a terminal, where each reply is read before the next line is written; limits of lines, of the input, of
edits and of kept trees; and files that can't be written or read.
"""
import collections
import os
import random
import re
import sys

import edits
from common import differs, main
from drafts import LINES, some_lines, some_start
from instances import DONE, NO_PLAN
from own import file_at, read as read_own
from reports import agree_with_jq, plan_text_in, table_of
from solve import COST, MOST_DUALS, USUAL_BUDGET, micro
from talks import PAIR, TALK, at_pipes, at_terminal, limits, spoken_to
from trees import (by_id, carried, carried_cost, grown_wrong, leaf_closes, leaves_of, least_cost, low_of, nodes_of, root_leaf,
                   tree_in)
from verdicts import verdict

KEPT = 4
RESULT = re.compile(rf"(?:optimal {COST}|(infeasible)|bracket {COST} (?:{COST}|none)) made ([0-9]+) (nodes|budget) ([0-9]+)\n\Z")
# What has to come, so that the check doesn't become empty.
DUE = ["optimal", "infeasible", "bracket", "bracket without a plan", "solves with splits", "solves with leaves that stand",
       "solves with open leaves beside such", "solves of the instance of a tree", "solves behind a bracket", "other trees back",
       "plans shown", "tables", "JSON texts", "certificates",
       *(f"refused {it}" for it in ("BadCommand", "NoSite", "NoCustomer", "LaneCount", "BadCount", "LastOne", "NothingToUndo", "Stale",
                                    "BudgetTooLarge"))]


class Wrong(Exception):
    """What is wrong with a reply."""


def wrong_if(is_wrong, *why):
    if is_wrong:
        raise Wrong(" ".join(map(str, why)))


class Solve:
    """A solve: its instance, its claim with both ends, the carried tree and that tree's target, where they are known, how many
    nodes it made, and its tree and its plan, once they are."""

    def __init__(self, inst, claim, ends, made, old, target):
        self.inst, self.claim, self.ends, self.made, self.old, self.target = inst, claim, ends, made, old, target
        self.tree = self.plan = None


class Session(edits.Session):
    """A session as it has to go on: with each edit goes the solve whose tree stood then."""

    def __init__(self, program, inst, found):
        super().__init__(inst)
        self.program, self.found = program, found
        self.stood, self.kept, self.present, self.stands = [], collections.deque(maxlen=KEPT), None, False
        self.proved, self.texts = None, []

    def does(self, verb, words):
        """An edit, an undo or a save; and what it does to the trees."""
        edits.refuse_if(verb == b"save" and len(words) == 1 and not is_utf8(words[0]), "BadCommand")
        said = super().does(verb, words)
        if verb == b"undo":
            last = self.stood.pop()
            self.found["other trees back"] += last in self.kept and last is not self.present
            self.present = last if last in self.kept else self.present
        elif verb != b"save":
            self.stood.append(self.present)
        self.stands = self.stands and verb == b"save"
        return said

    def judge(self, line, said):
        """Takes the reply to a line from what is said, an iterator over lines, and stops where it can't be."""
        verb, *words = re.split(rb"[ \t\r]+", line.strip(b" \t\r"))
        if verb == b"solve" and (not words or len(words) == 1 and words[0].isdigit() and int(words[0]) < 2**32):
            self.solve(int(words[0]) if words else None, next(said, ""))
        elif self.stands and verb == b"answer" and not words:
            self.show(lines_to_end(said))
        elif self.stands and verb == b"table" and not words:
            self.tabulate(lines_to_end(said))
        elif self.stands and verb == b"json" and not words:
            self.show_json(next(said, ""))
        elif self.stands and verb == b"cert" and len(words) == 1 and is_utf8(words[0]):
            wrong_if(next(said, "") != "ok\n", "no certificate is written")
            self.prove(words[0].decode())
        else:
            is_stale = verb in (b"answer", b"table", b"json") and not words or verb == b"cert" and len(words) == 1 and is_utf8(words[0])
            due, found = "refused Stale\n" if is_stale else self.reply(line), ""
            found = next(said, "") if due else ""
            wrong_if(found != due, f"{found!r}, and {due!r} is due")
            self.found[due.strip() if due.startswith("refused") else "other lines"] += 1

    def solve(self, given, reply):
        most = MOST_DUALS // (len(self.now.sites) + len(self.now.customers))
        budget = min(USUAL_BUDGET, most) if given is None else given
        if budget > most:
            wrong_if(reply != "refused BudgetTooLarge\n", f"{reply!r} for a budget above {most}")
            self.found["refused BudgetTooLarge"] += 1
            return
        it = RESULT.match(reply)
        wrong_if(not it or (it[6] == "budget") != bool(it[3]), f"{reply!r} is no result")
        low, high = micro(it[1] or it[3]), micro(it[1] or it[4])
        claim, made, last = reply.partition(" made ")[0], int(it[5]), int(it[7])
        least = least_cost(self.now)
        wrong_if(not low <= least <= high or it[2] and low != high or it[3] and low >= high,
                 f"{reply!r}, and the least cost in millionths is {least}")
        wrong_if(made % 2 or made > budget, f"{reply!r} with the budget {budget}")
        wrong_if(it[3] and (made + 2 <= budget or last != budget), f"{reply!r}, and the budget {budget} isn't spent")
        was, inst = self.present, by_id(self.now)
        old = root_leaf(inst) if not was else was.tree and carried(was.tree, inst)
        target = was and was.plan and carried_cost(was.plan, self.now)
        now = Solve(self.now, claim, (low, high), made, old, target)
        if was and was.inst == self.now:
            self.again(was, now)
        if old:
            wrong_if(not it[3] and last != nodes_of(old) + made, f"{reply!r}, and the carried tree has {nodes_of(old)} nodes")
            closed = [leaf_closes(inst, leaf, path, target) for leaf, path in leaves_of(old)]
            wrong_if(all(closed) and (made or it[3]), f"{reply!r}, and nothing was open")
            wrong_if(target is not None and high > target, f"{reply!r}, and the carried plan costs {target}")
            self.found["solves with leaves that stand"] += any(closed)
            self.found["solves with open leaves beside such"] += any(closed) and not all(closed)
        self.found[claim.split()[0] + (" without a plan" if claim.endswith("none") else "")] += 1
        self.found["solves with splits"] += made > 0
        self.kept.append(now)
        self.present, self.stands = now, True

    def again(self, was, now):
        """The instance is that of the tree: what was proved stays so, and a bracket doesn't get wider."""
        if not was.claim.startswith("bracket"):
            wrong_if((now.claim, now.made) != (was.claim, 0), f"{now.claim} made {now.made}, and {was.claim} was proved")
            self.found["solves of the instance of a tree"] += 1
        else:
            wrong_if(now.ends[0] < was.ends[0] or now.ends[1] > was.ends[1], f"{now.claim}, and it was {was.claim}")
            self.found["solves behind a bracket"] += 1

    def show(self, lines):
        text = "".join(lines)
        cost = self.now.cost_in(text) if len(lines) > 1 else None
        due = self.present.ends[1]
        is_told = lines[1:2] == [self.present.claim + "\n"]
        wrong_if(not is_told or cost != due, f"the plan {text!r} of {self.present.claim}, which costs {cost}")
        opened = [int(it) for it in re.findall(r"(?m)^site ([0-9]+) ", text)]
        places = {int(c): int(s) for c, s in re.findall(r"(?m)^serve ([0-9]+) ([0-9]+) ", text)}
        self.take_plan(None if due == NO_PLAN else (opened, places))
        self.found["plans shown"] += 1

    def tabulate(self, lines):
        """The table is that of the plan, where the plan was shown, and else its costs are together the plan's."""
        text, now = "".join(lines), self.present
        high = now.ends[1]
        if high == NO_PLAN or now.plan:
            due = table_of(self.now, now.plan)
            wrong_if(text != due, f"the table {text!r} of the plan {now.plan}, and {due!r} is due")
        else:
            costs = [micro(it) for it in re.findall(rf" cost {COST} share [0-9]+\n", text)]
            wrong_if(sum(costs) != high or len(costs) + 1 != len(lines), f"the table {text!r} of {now.claim}")
        self.found["tables"] += 1

    def show_json(self, text):
        """What the JSON says is what a plan text says, line by line."""
        plan_text = plan_text_in(self.now, text)
        wrong_if(plan_text is None, f"the JSON {text!r} of {self.present.claim}")
        self.show(plan_text.splitlines(True))
        self.found["plans shown"] -= 1
        self.found["JSON texts"] += 1
        self.texts.append(text)

    def take_plan(self, plan):
        known = self.present.plan or self.present.tree
        wrong_if(known and plan != self.present.plan, f"the plan is {plan}, and it was {self.present.plan}")
        self.present.plan = plan

    def prove(self, name):
        now, inst, text = self.present, by_id(self.now), file_at(self.program, name)
        said = verdict(inst, text)
        wrong_if(said != "yes " + now.claim, f"the certificate of {now.claim} is answered {said!r}: {text!r}")
        tree, plan = tree_in(text, inst.customers)
        self.take_plan(plan)
        wrong_if(now.tree and tree != now.tree, f"another tree of the same answer: {text!r}")
        low, high = now.ends
        cost = None if high == NO_PLAN else high
        if low < high:
            is_open = any(not leaf_closes(inst, leaf, path, cost) for leaf, path in leaves_of(tree))
            wrong_if(not is_open or low_of(inst, tree) != low, f"the tree isn't that of {now.claim}: {text!r}")
        if now.old:
            wrong_if(nodes_of(tree) != nodes_of(now.old) + now.made, f"{now.made} nodes made of {now.old}: {text!r}")
            why = grown_wrong(inst, now.old, tree, now.target, cost)
            wrong_if(why, f"{why}, with the target {now.target}, out of {now.old}: {text!r}")
        now.tree, self.proved = tree, (name, now.claim, self.now)
        self.found["certificates"] += 1


def lines_to_end(said):
    """The lines of a reply that ends with the line `end`."""
    lines = []
    while not lines or lines[-1] not in ("end\n", ""):
        lines.append(next(said, ""))
    return lines


def is_utf8(word):
    try:
        return word.decode() is not None
    except UnicodeDecodeError:
        return False


def converse(program, inst, form, text, options, lines, end, found):
    """Has the program answer the lines, and judges each reply, and the files; the last certificate is checked as well."""
    for name in os.listdir(program.folder):
        os.remove(program.at(name))
    program.write("a", text)
    said, status = spoken_to(program, b"\n".join(lines) + end, form, "a", *options)
    session, replies = Session(program, inst, found), iter(said.splitlines(True))
    for place, line in enumerate(lines, 1):
        if line.split() == [b"quit"]:
            break
        try:
            session.judge(line, replies)
        except Wrong as why:
            talk = f"{text!r} as {form} with {options}, {lines}: {said!r} with {status}"
            sys.exit(f"check: {talk}: line {place} {line!r}: {why}")
    if status != DONE or next(replies, None) is not None:
        differs((text, form, lines), (said, status), ("no more", DONE))
    for name, saved in session.saved.items():
        if file_at(program, name) != saved:
            differs((text, form, lines, name), (file_at(program, name), DONE), (saved, DONE))
    if session.proved:
        name, claim, inst = session.proved
        program.write("b", inst.text())
        program.expect(f"yes {claim}\n", DONE, (text, form, lines), "check", "own", "b", name)
        found["checked"] += 1
    return session.texts


RING = (b"dualoc-instance 1 sites 3 next 4 customers 3 next 4 count 0 3000 customer 1 0 customer 2 0 customer 3 0 "
        b"site 1 2 none 0 0 none site 2 2 none none 0 0 site 3 2 none 0 none 0 end")


def kept_trees(program, found):
    """Three solves behind an edit leave the tree before it among the last four, four don't; then what brings back trees in turn."""
    prove = lambda budget, k: [b"solve" + budget, b"cert c%d" % k]
    again = lambda solves: [it for k in range(1, solves + 1) for it in prove(b"", k)]
    lists = [[*prove(b" 0", 0), b"fixed 1 2", *again(solves), b"undo", *prove(b" 0", 9)] for solves in (1, 3, 4, 5)]
    steps = [it for k in range(6) for it in (b"fixed %d %d" % (k % 3 + 1, k), *prove(b"", k))]
    lists.append([*prove(b"", 9), *steps, *(it for k in range(10, 16) for it in (b"undo", *prove(b" 0", k)))])
    for lines in lists:
        converse(program, read_own(RING), "own", RING, [], lines, b"\n", found)
    return len(lists)


def check(program, sessions="2000", seed="1"):
    random.seed(int(seed))
    found = collections.Counter()
    shown = []
    for _ in range(int(sessions)):
        start = some_start()
        shown += converse(program, *start, some_lines(start[0]), random.choice([b"\n", b""]), found)
    agrees, by_jq = agree_with_jq(shown)
    if not agrees:
        sys.exit("check: jq doesn't print the JSON of a session as it is")
    kept = kept_trees(program, found)
    program.write("a", PAIR)
    at_pipes(program)
    at_terminal(program)
    told = limits(program)
    missing = [it for it in DUE if not found[it]]
    if missing:
        sys.exit(f"check: no {missing} in {sessions} sessions")
    counts = ", ".join(f"{found[it]} {it}" for it in DUE if not it.startswith("refused"))
    refused = " ".join(sorted(it.split()[1] for it in found if it.startswith("refused")))
    return (f"sessions: {sessions} of {LINES} lines and {kept} on kept trees: {counts}; {found['checked']} checked; {by_jq} JSON texts read by jq; refused: "
            f"{refused}; {len(TALK)} lines at two pipes and at a terminal, {told} sessions at limits and faults")


if __name__ == "__main__":
    main(check)
