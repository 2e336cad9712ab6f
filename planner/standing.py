"""The standing answer of a session of the program: its plan and its certificate, in files."""
import hashlib
import os

from .answer import Answer
from .cells import Refusal
from .plans import in_text
from .state import State
from .talk import Talk


def checksum_of(path: str) -> str:
    """The SHA-256 of a file, in hexadecimal digits."""
    with open(path, "rb") as file:
        return hashlib.file_digest(file, "sha256").hexdigest() if hasattr(hashlib, "file_digest") else hashlib.sha256(file.read()).hexdigest()


def standing_answer(talk: Talk, kind: str, state: State, instance: str, name: str, **more: object) -> Answer:
    """The answer that stands behind a solve of the instance in a file, beside which plan and certificate are written under this name.
    Refused where it isn't one of this instance."""
    front = f"{os.path.dirname(instance)}/{name}"
    text = "".join(f"{line}\n" for line in talk.ask_text("answer"))
    with open(f"{front}.plan", "w", encoding="ascii") as file:
        file.write(text)
    talk.due(f"cert {name}.cert")
    files = {"instance_file": instance, "plan_file": f"{front}.plan", "certificate_file": f"{front}.cert"}
    claim = text.split("\n")[1].split()
    if kind == "infeasible" or claim[-1] == "none":
        low = None if kind == "infeasible" else int(claim[1].replace(".", ""))
        return Answer(kind, None, low, {}, {}, state.sites, state.customers, **files, **more)
    plan = in_text(text)
    for c, (s, cost) in plan.served.items():
        if state.lanes.get(s, c) != cost or plan.fixed.get(s) != state.sites[s].fixed:
            raise Refusal(f"the plan serves {state.customers[c].name} from {state.sites[s].name} at another cost than the instance has")
    return Answer(kind, plan.cost, plan.low, plan.fixed, plan.served, state.sites, state.customers, **files, **more)
