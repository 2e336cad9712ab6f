"""What stands between a planner and the program `dualoc`: sheets, names, maps, sessions, a console and a board.

It believes nothing of its own: what it says of an optimum is what the program said, and `check` judges that."""
from importlib import import_module

from .cells import Refusal

# What is imported where it is asked for, since sheets and maps need no session: each with its module.
LATER = {"Answer": "answer", "Ended": "talk", "Refused": "talk", "Session": "session", "Stopped": "questions"}

__all__ = ["Refusal", *LATER]


def __getattr__(name: str) -> object:
    if name not in LATER:
        raise AttributeError(f"module {__name__!r} has no attribute {name!r}")
    return getattr(import_module(f".{LATER[name]}", __name__), name)
