"""What stands beside a store: the answers to its scenarios, and how each of these came about, by names.

An answer is a certificate in a file named for the checksum of its instance. It is believed where `check` says yes to it, each time that
it is shown. The note of a scenario tells what the store doesn't: its edits by names, and names and places of sites and customers.
"""
import contextlib
import glob
import json
import os
import shutil
from dataclasses import dataclass, field

from .answer import Answer, plan_of_certificate, with_plan
from .cells import Refusal
from .program import Program
from .state import State


def put_file(path: str, text: str) -> None:
    """Writes a file as a whole or not at all."""
    with open(f"{path}.new", "w", encoding="utf-8") as file:
        file.write(text)
    os.replace(f"{path}.new", path)


class Held:
    """The answers in a folder, by the checksums of their instances. It is made by the first that comes."""

    def __init__(self, program: Program, folder: str):
        self.program, self.folder, self.made = program, folder, set()

    def file(self, checksum: str) -> str:
        return f"{self.folder}/{checksum}.cert"

    def put(self, answer: Answer) -> None:
        """Holds an answer, where none was held that is as good."""
        path = self.file(answer.checksum)
        self.made.add(answer.checksum)
        if os.path.exists(path) and not self.is_better(answer, path):
            return
        os.makedirs(self.folder, exist_ok=True)
        shutil.copyfile(answer.certificate_file, f"{path}.new")
        os.replace(f"{path}.new", path)

    def prune(self, kept: set[str]) -> None:
        """Drops what was put here since the beginning, but for the answers to these instances."""
        for checksum in self.made - kept:
            with contextlib.suppress(FileNotFoundError):
                os.remove(self.file(checksum))
        self.made.clear()

    @staticmethod
    def is_better(answer: Answer, path: str) -> bool:
        """Whether an answer says more than what is held. A file that isn't whole says nothing."""
        try:
            kind, low, high, *_ = plan_of_certificate(path)
        except (OSError, ValueError, IndexError):
            return True
        if kind != "bracket" or answer.kind != "bracket":
            return kind == "bracket" and answer.kind != "bracket"
        return high is None and answer.has_plan or answer.has_plan and answer.cost - answer.low < high - low

    def get(self, checksum: str, instance: str, state: State, **more: object) -> Answer | None:
        """The answer to the instance in a file, where one is held and `check` says yes to it."""
        path = self.file(checksum)
        if not os.path.exists(path):
            return None
        front = instance.removesuffix(".own")
        try:
            shutil.copyfile(path, f"{front}.cert")
            kind, *rest = plan_of_certificate(f"{front}.cert")
            answer = with_plan(kind, *rest, state.sites, state.customers, state.lanes, checksum=checksum, instance_file=instance,
                               plan_file=f"{front}.plan", certificate_file=f"{front}.cert", judge=self.program.check, was_held=True, **more)
            answer.check()
            with open(answer.plan_file, "w", encoding="ascii") as file:
                file.write(answer.plan_text())
            return answer
        except (Refusal, OSError, ValueError, IndexError):
            return None


@dataclass
class Note:
    """What is noted of a scenario: the checksum of what the store holds, that of the instance with all edits, its steps, and all
    names: of sites and customers by id, with their places."""

    kept: str
    checksum: str
    steps: list[dict] = field(default_factory=list)
    names: str = ""


class Notes:
    """The notes of a store's scenarios, in the folder of its answers."""

    def __init__(self, folder: str):
        self.folder = folder

    def put(self, name: str, note: Note) -> None:
        os.makedirs(self.folder, exist_ok=True)
        put_file(f"{self.folder}/{name}.json", json.dumps(vars(note), indent=1, ensure_ascii=False))

    def get(self, name: str, kept: str) -> Note | None:
        """The note of a scenario, where it is of what the store holds."""
        try:
            with open(f"{self.folder}/{name}.json", encoding="utf-8") as file:
                note = Note(**json.load(file))
        except (OSError, ValueError, TypeError):
            return None
        return note if note.kept == kept else None

    def checksums(self) -> set[str]:
        """Those of the instances of all scenarios that are noted."""
        found = set()
        for path in glob.glob(f"{glob.escape(self.folder)}/*.json"):
            with contextlib.suppress(OSError, ValueError, KeyError, TypeError), open(path, encoding="utf-8") as file:
                found.add(json.load(file)["checksum"])
        return found

    def drop(self, name: str) -> None:
        with contextlib.suppress(FileNotFoundError):
            os.remove(f"{self.folder}/{name}.json")
