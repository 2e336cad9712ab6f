"""The processes of a session, one on the ground of the other: an edit of many lines begins a new one on a new instance.

A session of the program holds at most 10,000 edits, takes so many bytes of input, and is slow to take many edits once it has a large
tree. So a long edit is written into an instance, on which another process begins; taking it back leads to the one below.
"""
from collections.abc import Iterable
from dataclasses import dataclass, field

from .program import Program
from .talk import Ended, Refused, Talk

# A process holds at most so many edits, and takes so many bytes, with room to spare below 10,000 and 67,108,864.
MOST_EDITS, MOST_BYTES = 9_000, 60_000_000
# An edit of more lines begins a new process; and so does one of more than so many on a tree of so many nodes.
LONG, SLOW, LARGE = 1_000, 20, 500


@dataclass
class Ground:
    """A process, the file of the instance that it began with, the lines of the edits in force there, the nodes of its tree, and whether
    there were edits since that was made."""

    talk: Talk
    file: str
    lines: list[str] = field(default_factory=list)
    nodes: int = 0
    is_edited: bool = False


class Grounds:
    """The stack of these processes, the topmost being the one that is told. Files are written in `folder`."""

    def __init__(self, program: Program, folder: str):
        self.program, self.folder, self.stack, self.files = program, folder, [], 0

    @property
    def top(self) -> Ground:
        """The topmost process: one that was left in the midst of a line is begun anew, with its edits."""
        if self.stack[-1].talk.is_amid:
            self.renew()
        return self.stack[-1]

    def new_file(self, ending: str) -> str:
        """A name within the folder that no file has."""
        self.files += 1
        return f"{self.files}.{ending}".rstrip(".")

    def begin(self, file: str, *words: str) -> None:
        """Begins a process on an instance, `session WORDS`. `file` holds it in the suite's own form."""
        talk = Talk(self.program, "session", *(words or ("own", f"{self.folder}/{file}")), at=self.folder)
        self.stack.append(Ground(talk, file))

    def save(self) -> str:
        """Has the instance as it stands written to a new file."""
        name = self.new_file("own")
        self.top.talk.due(f"save {name}")
        return name

    def is_long(self, lines: list[str]) -> bool:
        """Whether so many lines are better written into an instance."""
        return len(lines) > (SLOW if self.top.nodes > LARGE else LONG)

    def make_room(self, lines: list[str]) -> None:
        """Begins a new process where the present one couldn't hold these lines besides."""
        size = sum(map(len, lines)) + len(lines)
        if self.top.lines and (len(self.top.lines) + len(lines) > MOST_EDITS or self.top.talk.told + size > MOST_BYTES):
            self.begin(self.save())

    def tell(self, lines: list[str], words: Iterable[str]) -> None:
        """Tells the lines of an edit, whose words are the console's. Where one is refused, the others are taken back."""
        top = self.top
        replies = top.talk.ask_all(lines)
        wrong = [(line, reply) for line, reply in zip(lines, replies) if reply.startswith("refused")]
        if wrong:
            top.talk.ask_all(["undo"] * (len(lines) - len(wrong)))
            raise Refused("; ".join(words), wrong[0][1])
        top.lines += lines
        top.is_edited = True

    def untell(self, many: int) -> None:
        """Takes back the last lines."""
        for reply in self.top.talk.ask_all(["undo"] * many):
            if reply != "ok":
                raise Ended(self.top.talk.words, 0, f"undo: {reply}")
        del self.top.lines[len(self.top.lines) - many:]
        self.top.is_edited = True

    def kept(self, depth: int) -> tuple[int, str, list[str]]:
        """The process at this depth or, where its edits and those above are too many, the next one above: how deep it is, the file of its
        instance, and the lines of all edits from there on."""
        while True:
            lines = [line for ground in self.stack[depth - 1:] for line in ground.lines]
            if len(lines) <= MOST_EDITS or depth == len(self.stack):
                return depth, self.stack[depth - 1].file, lines
            depth += 1

    def renew(self) -> None:
        """Gives the topmost process up in the midst of what it does, and begins another one with the same edits and no tree."""
        gone = self.stack.pop()
        gone.talk.end(at_once=True)
        self.begin(gone.file)
        self.tell(gone.lines, ["begin anew"])

    def drop_to(self, depth: int) -> None:
        """Ends the processes above the one at this depth."""
        while len(self.stack) > depth:
            self.stack.pop().talk.end()

    def drop_below(self, depth: int) -> None:
        """Ends the processes below this depth."""
        gone, self.stack = self.stack[:depth], self.stack[depth:]
        for ground in gone:
            ground.talk.end()
