"""A session of the program at two pipes: a line is told, and its reply is read before the next one."""
import subprocess

from .cells import Refusal
from .program import Program

# So many lines are told before their replies are read: those fit into a pipe.
MANY = 500
# What the program prints last, when it can't go on.
LAST = "bad input", "read fault", "too large", "no memory", "usage"


class Refused(Refusal):
    """A line that was refused. `line` is what was told, and `reply` is why."""

    def __init__(self, line: str, reply: str):
        super().__init__(f"{line}: {reply}")
        self.line, self.reply = line, reply


class Ended(Refusal):
    """The program has ended where it should go on. `status` is its status, and `last` what it printed last."""

    def __init__(self, words: tuple[str, ...], status: int, last: str):
        super().__init__(f"{' '.join(words)}: the program ended with {status}" + (f": {last}" if last else ""))
        self.status, self.last = status, last


class Talk:
    """One process of the program, `session FORM FILE` or `desk FORM FILE STORE`, in the folder `at`, in which it writes its files.
    `told` counts the bytes that it was told."""

    def __init__(self, program: Program, *words: str, at: str):
        self.words, self.told, self.process = words, 0, program.start(*words, at=at)
        self.due_replies, self.is_given_up = 0, False
        try:
            # No line is `hello`, so whoever answers has read the instance.
            self.ask("hello")
        except BaseException:
            self.end()
            raise

    def write(self, lines: list[str]) -> None:
        text = "".join(f"{line}\n" for line in lines).encode()
        self.told, self.due_replies = self.told + len(text), len(lines)
        try:
            self.process.stdin.write(text)
            self.process.stdin.flush()
        except BrokenPipeError:
            pass

    def read(self) -> str:
        """A line of a reply. Ended where there is none."""
        line = self.process.stdout.readline().decode(errors="replace").rstrip("\n")
        if not line or line.startswith(LAST):
            raise Ended(self.words, self.process.wait(), line)
        return line

    @property
    def is_amid(self) -> bool:
        """Whether it was left in the midst of a line, so that nothing more can be asked of it."""
        return self.is_given_up or self.due_replies > 0

    def give_up(self) -> None:
        """Ends the process in the midst of what it does, for whoever waits for its reply. Any thread may call it."""
        self.is_given_up = True
        self.process.terminate()

    def reply(self) -> str:
        """The reply to a line that was told, of one line."""
        found = self.read()
        self.due_replies -= 1
        return found

    def ask(self, line: str) -> str:
        """The reply to a line, of one line."""
        self.write([line])
        return self.reply()

    def ask_all(self, lines: list[str]) -> list[str]:
        """The replies to lines with a reply of one line each."""
        replies = []
        for at in range(0, len(lines), MANY):
            self.write(lines[at:at + MANY])
            replies += [self.reply() for _ in lines[at:at + MANY]]
        return replies

    def ask_text(self, line: str) -> list[str]:
        """The lines of a reply that ends with `end`; of a refusal the one line."""
        self.write([line])
        found = [self.read()]
        while found[-1] != "end" and not found[0].startswith("refused"):
            found.append(self.read())
        self.due_replies = 0
        return found

    def due(self, line: str) -> str:
        """The reply to a line that has to be taken. Refused else."""
        reply = self.ask(line)
        if reply.startswith("refused"):
            raise Refused(line, reply)
        return reply

    def end(self, at_once: bool = False) -> None:
        """Ends the process: by its input's end, and a moment later, or at once, by a signal."""
        if at_once:
            self.process.terminate()
        for pipe in self.process.stdin, self.process.stdout:
            try:
                pipe.close()
            except BrokenPipeError:
                pass
        try:
            self.process.wait(2)
        except subprocess.TimeoutExpired:
            self.process.terminate()
            self.process.wait()
