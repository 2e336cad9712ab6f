"""The store of scenarios: what the desk keeps in it, read as docs/FORMATS.md says, and written by the desk alone."""
import contextlib
import os
import re
import sqlite3
import tempfile
import time
from collections.abc import Callable

from .cells import Refusal
from .program import TINY, Program
from .talk import Refused, Talk

NAME = re.compile("[A-Za-z0-9_-]{1,64}")
# Seconds for which a busy store is waited for, after how many that is said, and between two tries.
PATIENCE, QUIET, PAUSE = 30.0, 1.0, 0.1


def is_name(name: str) -> str:
    """A scenario's name. Refused is what the desk wouldn't take."""
    if not isinstance(name, str) or not NAME.fullmatch(name):
        raise Refusal(f"{name!r} is no name of a scenario: 1 to 64 letters, digits, - and _ are due")
    return name


class Store:
    """The store at a path. It is open only while it is asked; where another program is at it, it is waited for, which `say` is told."""

    def __init__(self, program: Program, path: str, say: Callable[[str], None]):
        self.program, self.path, self.say = program, os.path.abspath(path), say

    def read(self, ask: Callable[[sqlite3.Connection], object]) -> object:
        """What `ask` finds in the store."""
        with contextlib.closing(sqlite3.connect(f"file:{self.quoted()}?mode=ro", uri=True, timeout=0)) as store:
            return self.wait(lambda: ask(store))

    def quoted(self) -> str:
        return self.path.replace("%", "%25").replace("?", "%3f").replace("#", "%23")

    def wait(self, do: Callable[[], object]) -> object:
        """Does it, again and again while the store is busy."""
        begun, is_said = time.monotonic(), False
        while True:
            try:
                return do()
            except (sqlite3.Error, Refused) as fault:
                spent = time.monotonic() - begun
                busy = "locked" in str(fault) or isinstance(fault, Refused) and fault.reply == "refused KeeperFailed"
                if not busy or spent > PATIENCE:
                    raise Refusal(f"{self.path}: {fault}" + (f", for {PATIENCE:.0f} seconds now" if busy else "")) from None
            if spent > QUIET and not is_said:
                self.say(f"{self.path}: another program is at it; waiting, up to {PATIENCE:.0f} seconds")
                is_said = True
            time.sleep(PAUSE)

    def names(self) -> list[tuple[str, int]]:
        """The names of what is kept, each with its number of edits; none where there is no store yet."""
        if not os.path.exists(self.path):
            return []
        return [*self.read(lambda store: store.execute("SELECT name, edits FROM scenario ORDER BY CAST(name AS BLOB)").fetchall())]

    def load(self, name: str) -> tuple[bytes, list[str]]:
        """The text of the instance with which a scenario began, and the lines of its edits. Refused where there is none."""
        def ask(store):
            row = store.execute("SELECT base, edits FROM scenario WHERE name = ?", (name,)).fetchone()
            return row, store.execute("SELECT CAST(body AS TEXT) FROM line WHERE name = ? ORDER BY place", (name,)).fetchall()

        row, lines = self.read(ask) if os.path.exists(self.path) and is_name(name) else (None, [])
        if not row:
            raise Refusal(f"{self.path}: nothing is kept as {name!r}" + "".join(
                f"; there is {', '.join(it for it, _ in names)}" for names in [self.names()] if names))
        if len(lines) != row[1]:
            raise Refusal(f"{self.path}: {name} has {len(lines)} of its {row[1]} edits")
        return row[0], [line for line, in lines]

    def keep(self, name: str, file: str, lines: list[str]) -> None:
        """Keeps an instance, in the suite's own form, and the lines of edits under a name, in the place of what stood there."""
        self.ask(file, [*lines], f"keep {is_name(name)}")

    def forget(self, name: str) -> None:
        """Drops what is kept under a name. Refused where there is nothing."""
        with tempfile.TemporaryDirectory() as folder:
            with open(f"{folder}/tiny.own", "w", encoding="ascii") as file:
                file.write(TINY)
            self.ask(file.name, [], f"forget {is_name(name)}")

    def ask(self, file: str, lines: list[str], line: str) -> None:
        """Has a desk on the instance take these lines, and then the last one."""
        talk = Talk(self.program, "desk", "own", os.path.abspath(file), self.path, at=os.path.dirname(self.path))
        try:
            for told, reply in zip(lines, talk.ask_all(lines)):
                if reply.startswith("refused"):
                    raise Refusal(f"{told}: {reply}")
            self.wait(lambda: talk.due(line))
        finally:
            talk.end()
