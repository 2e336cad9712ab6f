"""Scenarios of a session: kept under names, loaded again, compared, and put on another base."""
import contextlib
import hashlib
import os
import tempfile
from collections.abc import Callable, Iterator
from dataclasses import dataclass, field

from . import own
from .answer import Answer
from .cells import Refusal
from .grounds import Grounds
from .held import Note
from .names import Names, read as read_names, write as write_names
from .replay import replayed, state_of
from .solving import Limits, Progress
from .standing import checksum_of
from .state import Step
from .store import Store, is_name

# The instance without edits.
BASE = "base"
Tell = Callable[[Progress], None] | None


@dataclass(frozen=True)
class Row:
    """A scenario in a comparison. The difference, in millionths, and the customers who moved are against the first of them."""

    name: str
    answer: Answer
    difference: int | None
    moved: int | None

    sites = property(lambda self: len(self.answer.open) if self.answer.has_plan else None)
    farthest = property(lambda self: self.answer.farthest[0])
    mean = property(lambda self: self.answer.mean)


@dataclass(frozen=True)
class Rebase:
    """How edits went on another base: those that were made, and those that were refused, each with why."""

    made: list[str] = field(default_factory=list)
    refused: list[tuple[str, str]] = field(default_factory=list)


def kept_sum(base: bytes, lines: list[str]) -> str:
    """The checksum of what a store holds of a scenario."""
    return hashlib.sha256(base + "\n".join(lines).encode()).hexdigest()


def noted(step: Step, is_below: bool) -> dict:
    """A step as a note has it. One that is part of the instance kept has no lines."""
    return {"text": step.text, "words": [*step.words], "lines": 0 if is_below else len(step.lines)}


class Scenarios:
    """The part of a session that works with a store."""

    def due_store(self) -> Store:
        if not self.store:
            raise Refusal("this session has no store of scenarios: name one behind the file of names")
        return self.store

    def scenarios(self) -> list[tuple[str, int]]:
        """The names of what is kept, each with its number of edits."""
        return self.store.names() if self.store else []

    def keep(self, name: str) -> None:
        """Keeps the edits in force under a name, with their instance, in the place of what stood there."""
        store = self.due_store()
        if is_name(name) == BASE:
            raise Refusal(f"{BASE} is the name of the instance without edits")
        depth, base, lines = self.grounds.kept(max((it.depth for it in self.steps if it.is_ground), default=1))
        store.keep(name, f"{self.folder}/{base}", lines)
        with open(f"{self.folder}/{base}", "rb") as file:
            kept = kept_sum(file.read(), lines)
        steps = [noted(it, it.is_ground or it.depth < depth or not it.former) for it in self.steps]
        self.notes.put(name, Note(kept, checksum_of(self.instance_text_file()), steps, self.names_text()))
        self.name, self.is_changed = name, False

    def names_text(self) -> str:
        """The file of names of the instance as it stands, as a text."""
        path = f"{self.folder}/{self.grounds.new_file('csv')}"
        write_names(path, self.names())
        with open(path, encoding="utf-8", newline="") as file:
            return file.read()

    def names_in(self, text: str) -> Names:
        path = f"{self.folder}/{self.grounds.new_file('csv')}"
        with open(path, "w", encoding="utf-8", newline="") as file:
            file.write(text)
        return read_names(path)

    def load(self, name: str) -> int:
        """Begins anew with what is kept under a name, or with `base`, the instance without edits. How many edits are in force."""
        base, lines = (self.origin_text(), []) if name == BASE else self.due_store().load(name)
        note = None if name == BASE else self.notes.get(name, kept_sum(base, lines))
        given = self.names_in(note.names) if note else self.origin
        depth, file = len(self.grounds.stack), self.grounds.new_file("own")
        with open(f"{self.folder}/{file}", "wb") as made:
            made.write(base)
        try:
            self.grounds.begin(file)
            self.grounds.tell(lines, [f"load {name}"])
            state = state_of(own.read(f"{self.folder}/{file}"), given)
            steps = replayed(state, given, lines, note.steps if note else None)
        except BaseException:
            self.grounds.drop_to(depth)
            raise
        self.grounds.drop_below(depth)
        self.state, self.given, self.steps = state, given, steps
        self.is_new(None)
        self.name, self.is_changed = None if name == BASE else name, False
        return len(steps)

    def origin_text(self) -> bytes:
        with open(self.origin_file, "rb") as file:
            return file.read()

    def forget(self, name: str) -> None:
        """Drops what is kept under a name."""
        self.due_store().forget(name)
        self.notes.drop(name)
        self.known.pop(name, None)

    @contextlib.contextmanager
    def side(self, name: str) -> Iterator["Scenarios"]:
        """A session beside this one with a scenario loaded. Its answers stay when it ends."""
        other = type(self).__new__(type(self))
        vars(other).update(vars(self))
        other.folder = tempfile.mkdtemp(dir=self.folder)
        other.grounds, other.steps = Grounds(self.program, other.folder), []
        other.answer = other.last = other.before = other.base = other.saved = None
        os.symlink(self.origin_file, f"{other.folder}/base.own")
        try:
            other.load(name)
            yield other
        finally:
            other.grounds.drop_to(0)

    def is_here(self, name: str) -> bool:
        """Whether the session stands on this scenario, unchanged."""
        return not self.steps and self.name is None if name == BASE else name == self.name and not self.is_changed

    def answer_of(self, name: str, seconds: float | None = None, gap: str | None = None, tell: Tell = None) -> Answer:
        """The answer to a scenario: what is held, judged by `check` now, or what a solve finds."""
        self.stopped.clear()
        return self.sought(name, Limits.of(seconds, gap, None), tell)

    def sought(self, name: str, limits: Limits, tell: Tell) -> Answer:
        if self.is_here(name) and self.answer:
            return self.solved(limits, tell)
        kept = "" if name == BASE else kept_sum(*self.due_store().load(name))
        if name in self.known and self.known[name][0] == kept:
            self.known[name][1].check()
            return self.known[name][1]
        with self.side(name) as other:
            found = other.solved(limits, tell)
        if found.kind != "bracket":
            self.known[name] = kept, found
        return found

    def compare(self, names: list[str], seconds: float | None = None, gap: str | None = None, tell: Tell = None) -> list[Row]:
        """Scenarios side by side, each against the first. `base` is the instance without edits."""
        self.stopped.clear()
        limits = Limits.of(seconds, gap, None)
        answers = [self.sought(name, limits, tell) for name in names]
        both = lambda it: it.has_plan and answers[0].has_plan
        return [Row(name, it, it.cost - answers[0].cost if both(it) else None, len(it.moved(answers[0])) if both(it) else None)
                for name, it in zip(names, answers)]

    def rebase(self, name: str, onto: str, as_name: str) -> Rebase:
        """Makes a scenario's edits, by names, on another one or on `base`, and keeps what comes of it under a name. What is refused
        there is left out, and named."""
        from .phrases import edit
        is_name(as_name)
        found = Rebase()
        with self.side(name) as source:
            words = [word for step in source.steps for word in step.words]
        with self.side(onto) as other:
            for word in words:
                try:
                    edit(other, word)
                    found.made.append(word)
                except Refusal as why:
                    found.refused.append((word, str(why)))
            other.keep(as_name)
        self.known.pop(as_name, None)
        self.is_changed = self.is_changed or self.name == as_name
        return found
