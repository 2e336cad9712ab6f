"""The downloads of a board, each made of the answer that stands when it is asked for."""
import os
import tempfile
from pathlib import Path

from . import draw, plans, report, table
from .cells import Refusal


def read(path: str) -> bytes:
    return Path(path).read_bytes()


def written(write) -> bytes:
    """What `write` writes to the file of this name."""
    with tempfile.TemporaryDirectory() as folder:
        path = os.path.join(folder, "made")
        write(path)
        return read(path)


def sheet(board) -> bytes:
    """The table of the plan, for a spreadsheet."""
    answer = board.answer()
    return written(lambda path: table.write(path, plans.in_text(answer.plan_text()), answer.names()))


def picture(board) -> bytes:
    answer = board.answer()
    return draw.svg(plans.in_text(answer.plan_text()), answer.names(), board.title, board.unit).encode()


def signed(board) -> bytes:
    answer = board.answer()
    return written(lambda path: report.write(board.session, path, answer, board.base(), board.title, board.unit))


def has_plan(session, _) -> bool:
    return session.answer is not None and session.answer.has_plan


def has_answer(session, _) -> bool:
    return session.answer is not None


# What is in each, whether it is there, and how it is made.
FILES = {
    "result.csv": ("the plan as a sheet", has_plan, sheet),
    "map.svg": ("the map of the plan", has_plan, picture),
    "report.html": ("a report to sign", has_plan, signed),
    "plan.txt": ("the plan text", has_plan, lambda board: board.answer().plan_text().encode()),
    "instance.own": ("the instance as it stands", lambda *_: True, lambda board: written(board.session.save)),
    "names.csv": ("its names", lambda *_: True, lambda board: written(board.session.save_names)),
    "proof.txt": ("the certificate", has_answer, lambda board: read(board.answer().certificate_file)),
    "curve.svg": ("the cost curve", lambda _, curve: bool(curve.entries), None),
}


def make(name: str, board) -> bytes:
    """The bytes of a download. Refused where no answer stands, or it has no plan."""
    _, is_there, does = FILES[name]
    if not is_there(board.session, board.curve):
        raise Refusal(f"{name}: no plan stands: solve first")
    return does(board)
