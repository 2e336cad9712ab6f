"""Writes one HTML file to sign: the map and the tables of a plan, what changed against a base, the claim and what `check` says of it, the
checksums of all files that it rests on, and the commands by which anyone repeats it. The certificate is judged anew; without a yes to just
the plan's claim nothing is written."""
import argparse
import os
import tempfile
from collections.abc import Sequence
from dataclasses import replace

from . import names, own, plans
from .answer import Answer
from .answers import in_instance, refuse_all, why_not
from .cells import Refusal, are_apart, run
from .names import Names
from .program import Program
from .report_facts import Facts, Source, commands, judged, sheets_of, source, versions
from .report_page import page
from .session import Session
from .standing import checksum_of


def write(session: Session, path: str, answer: Answer | None = None, base: Answer | None = None, title: str | None = None,
          unit: str | None = None) -> str:
    """Writes the report of an answer of a session, and says so in a line. Without an answer it is the one that stands, and without a base
    the session's own. Refused, with nothing written, where no answer stands or `check` doesn't say yes to its claim."""
    answer, base = answer or session.answer, base or session.base
    if answer is None:
        raise Refusal("no answer stands: solve first")
    steps = session.steps if answer is session.answer else []
    with tempfile.TemporaryDirectory() as folder:
        sources = sources_of(session, answer, bool(steps), folder)
    lines = [line for step in steps for line in step.words]
    put(path, facts_of(title or "Plan", unit, answer, base, sources, session.program, session.origin, [it.text for it in steps], lines))
    return f"{path}: {answer.claim}, as check says"


def sources_of(session: Session, answer: Answer, is_edited: bool, folder: str) -> list[Source]:
    """The files of a session's answer, written to a folder where there are none yet."""
    at = lambda name: os.path.join(folder, name)
    names.write(at("names.csv"), answer.names())
    with open(at("plan.txt"), "w", encoding="ascii") as file:
        file.write(answer.plan_text())
    files = {"instance": ("instance.own", answer.instance_file), "names": ("names.csv", at("names.csv")),
             "plan": ("plan.txt", at("plan.txt")), "certificate": ("proof.txt", answer.certificate_file)}
    if is_edited:
        names.write(at("base.csv"), replace(session.origin, instance=None, sheets=[], options=[]))
        files |= {"base instance": ("base.own", session.origin_file), "base names": ("base-names.csv", at("base.csv"))}
    return [source(what, path, name) for what, (name, path) in files.items()]


def facts_of(title: str, unit: str | None, answer: Answer, base: Answer | None, sources: list[Source], program: Program, named: Names,
             edits: Sequence[str] = (), lines: Sequence[str] = ()) -> Facts:
    """What a report says, with the answer judged anew. `lines` are the console's, which make the edits again."""
    said = judged(answer)
    return Facts(title, answer.rule.unit if unit is None else unit, answer, base, said, sources, sheets_of(named), versions(program),
                 commands(sources, named, answer.claim, list(lines)), list(edits))


def put(path: str, facts: Facts) -> None:
    """Writes the whole file or leaves what is there."""
    text = page(facts)
    with open(f"{path}.new", "w", encoding="utf-8") as file:
        file.write(text)
    os.replace(f"{path}.new", path)


def read_answer(instance: str, plan: str, certificate: str, named: Names, program: Program) -> Answer:
    """The answer of files. Refused where the plan's sites, customers and costs aren't those of the instance."""
    found, it = own.read(instance), plans.read(plan)
    if it.claim not in ("optimal", "bracket"):
        raise Refusal(f"{plan}: it is the plan of a {it.claim}, and due is one of a solve")
    known = in_instance("the file of names", instance, named, found)
    refuse_all(f"{plan}: {why}" for why in why_not(it, found, instance))
    served = {c: it.served[c] for c in found.customers}
    return Answer(it.claim, it.cost, it.low, it.fixed, served, known.sites, known.customers, named.rule, checksum_of(instance),
                  instance_file=instance, plan_file=plan, certificate_file=certificate, judge=program.check)


def words_of(words: list[str] | None) -> argparse.Namespace:
    top = argparse.ArgumentParser(prog="dualoc report", description=" ".join(__doc__.split()))
    for file, what in (("instance", "the instance in the suite's own form"), ("names", "the file of names that came with it"),
                       ("plan", "the plan text that solve wrote"), ("certificate", "the certificate that it wrote beside"),
                       ("report", "the HTML file to write")):
        top.add_argument(file, help=what)
    top.add_argument("--base", nargs=2, metavar=("INSTANCE", "PLAN"), help="the instance and the plan text that it is compared with")
    top.add_argument("--title", help="what stands above it; the instance's name else")
    top.add_argument("--unit", help="the unit of the coordinates, as km")
    return top.parse_args(words)


def main(words: list[str] | None = None) -> None:
    args = words_of(words)
    files = [args.instance, args.names, args.plan, args.certificate, *(args.base or ())]
    for path in files:
        are_apart(path, args.report)
    program, named = Program(), names.read(args.names)
    answer = read_answer(args.instance, args.plan, args.certificate, named, program)
    base = args.base and read_answer(*args.base, "", named, program)
    kinds = "instance", "names", "plan", "certificate", "other instance", "other plan"
    sources = [source(what, path) for what, path in zip(kinds, files)]
    title = args.title or os.path.splitext(os.path.basename(args.instance))[0]
    facts = facts_of(title, args.unit, answer, base, sources, program, named)
    for it, path in zip(sources, files):
        if source(it.what, path).checksum != it.checksum:
            raise Refusal(f"{path}: it has changed while the report was made")
    put(args.report, facts)
    print(f"report of {answer.claim}")


if __name__ == "__main__":
    run(main)
