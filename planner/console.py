"""A console for a planner: lines by names that edit an instance, solve it, and keep, load and compare scenarios.

At a terminal it completes names by the tab key, remembers lines from one day to the next, and shows in its prompt the edits in force and
the last cost. Ctrl-C ends a solve and keeps what was found. Lines on standard input that is no terminal are a script, which ends at the
first fault with the status 1. `help` lists the lines.
"""
import argparse
import contextlib
import difflib
import os
import signal
import sys
import threading
import time
from collections.abc import Callable, Iterator

from .cells import Refusal, grouped, run as run_command
from .console_commands import COMMANDS, run
from .console_complete import completions
from .phrases import FORMS
from .session import Session
from .solving import Progress

try:
    import readline
except ImportError:
    readline = None

HISTORY, MOST_HISTORY = "~/.dualoc_history", 2000
CLEAR, TICK = "\r\x1b[K", 1.0


class Console:
    """A session with a person, or a script, in front of it."""

    def __init__(self, session: Session, title: str, is_terminal: bool):
        self.session, self.title, self.is_terminal, self.marks = session, title, is_terminal, {}
        self.is_busy, self.was_asked, self.is_warned, self.heard = False, False, False, None

    def prompt(self) -> str:
        """Which scenario it is, how many edits are in force, and the last cost, with a star where edits came since."""
        session = self.session
        name = session.name or self.title
        many = len(session.steps)
        edits = f", {many} edit{'s' * (many != 1)}" if many else ""
        changed = "*" if session.name and session.is_changed else ""
        last = session.last
        cost = "" if not last else f", {grouped(last.cost) if last.has_plan else last.kind}{'' if session.answer else ' before'}"
        return f"{name}{changed}{edits}{cost}> "

    def tell(self, progress: Progress) -> None:
        """Notes how far a solve is."""
        self.heard = progress

    def tick(self, is_over: threading.Event) -> None:
        """Shows at a terminal, each second, how long what is being done takes, and how far it was last: one line, which the next one
        replaces."""
        begun = time.monotonic()
        while not is_over.wait(TICK):
            heard = f"  {self.heard.known}" if self.heard else ""
            print(f"{CLEAR}{time.monotonic() - begun:.0f} s{heard}", end="", flush=True)

    @contextlib.contextmanager
    def busy(self):
        """While something is done, Ctrl-C stops it, and how long it takes is shown."""
        self.is_busy, self.was_asked, self.is_warned, self.heard, is_over = True, False, False, None, threading.Event()
        ticks = threading.Thread(target=self.tick, args=(is_over,), daemon=True)
        if self.is_terminal:
            ticks.start()
        try:
            yield
        finally:
            self.is_busy = False
            is_over.set()
            if self.is_terminal:
                ticks.join()
                print(CLEAR, end="")

    def say(self, text: str) -> None:
        print(f"{CLEAR * self.is_terminal}{text}", file=sys.stderr, flush=True)

    def near(self, word: str) -> str | None:
        found = difflib.get_close_matches(word.lower(), [*FORMS, *COMMANDS], 1)
        return found[0] if found else None

    def interrupted(self, *_: object) -> None:
        """Ctrl-C: at the prompt it drops the line; in a solve it ends that after its slice, and the second time at once."""
        if not self.is_busy:
            raise KeyboardInterrupt
        self.session.stop(at_once=self.was_asked)
        if not self.was_asked:
            self.say("it ends after this step, and keeps what it found; Ctrl-C again ends it at once")
        self.was_asked = True

    def do(self, line: str) -> bool:
        """Does a line, and shows what comes of it. Whether it was the last one. Refused is what is wrong with it."""
        line = line.strip()
        if not line or line.startswith("#"):
            return False
        if line.lower() in ("quit", "exit"):
            return self.may_quit()
        with self.busy():
            lines = run(self, line)
        print("\n".join(lines), flush=True)
        return False

    def may_quit(self) -> bool:
        """Whether nothing would be lost. Edits that aren't kept are told once."""
        session = self.session
        is_lost = self.is_terminal and session.store and session.is_changed and session.steps and not self.is_warned
        if is_lost:
            print(f"{len(session.steps)} edits aren't kept: keep NAME keeps them, quit again ends without them")
            self.is_warned = True
        return not is_lost

    def script(self, lines: object) -> None:
        """Does the lines of a script. The first fault ends it, with its line."""
        for number, line in enumerate(lines, 1):
            try:
                if self.do(line):
                    return
            except (Refusal, OSError, TypeError) as why:
                raise Refusal(f"line {number}: {line.strip()}: {why}") from None

    def converse(self) -> None:
        """Takes lines at a terminal until `quit` or the end of the input."""
        signal.signal(signal.SIGINT, self.interrupted)
        is_over = False
        while not is_over:
            try:
                is_over = self.do(input(self.prompt()))
            except EOFError:
                print()
                is_over = self.may_quit()
            except KeyboardInterrupt:
                print("^C")
            except (Refusal, OSError, TypeError) as why:
                print(why)


def completer(console: Console) -> Callable[[str, int], str | None]:
    """What readline asks for the line, as often as there are ways to go on with it."""
    found = []

    def complete(_: str, at: int) -> str | None:
        nonlocal found
        if at == 0:
            with contextlib.suppress(Refusal, OSError):
                found = completions(console.session, readline.get_line_buffer()[:readline.get_endidx()])
        return found[at] if at < len(found) else None

    return complete


@contextlib.contextmanager
def remembering(console: Console) -> Iterator[None]:
    """Has lines completed and remembered, where this Python can."""
    if readline is None:
        yield
        return
    path = os.path.expanduser(HISTORY)
    readline.set_completer_delims("")
    readline.set_completer(completer(console))
    readline.parse_and_bind("tab: complete")
    with contextlib.suppress(OSError):
        readline.read_history_file(path)
    try:
        yield
    finally:
        readline.set_history_length(MOST_HISTORY)
        with contextlib.suppress(OSError):
            readline.write_history_file(path)


def main(words: list[str] | None = None) -> None:
    """The command `console`."""
    about, _, more = __doc__.partition("\n\n")
    parser = argparse.ArgumentParser(prog="console", description=about, epilog=more, formatter_class=argparse.RawDescriptionHelpFormatter)
    parser.add_argument("instance", help="the instance in the suite's own form")
    parser.add_argument("names", help="the file of names that came with it")
    parser.add_argument("store", nargs="?", help="the store of scenarios, which is made where it is missing")
    args = parser.parse_args(words)
    signal.signal(signal.SIGTERM, lambda *_: sys.exit(128 + signal.SIGTERM))
    is_terminal = sys.stdin.isatty()
    say = lambda text: print(text, file=sys.stderr, flush=True)
    with Session("own", args.instance, args.names, args.store, say=say) as session:
        console = Console(session, os.path.basename(args.instance).removesuffix(".own"), is_terminal)
        session.say = session.program.say = console.say
        if not is_terminal:
            console.script(sys.stdin)
            return
        print(greeting(session))
        with remembering(console):
            console.converse()


def greeting(session: Session) -> str:
    """What a terminal shows first."""
    kept = session.scenarios()
    return (f"{len(session.sites)} sites, {len(session.customers)} customers" + (f", {len(kept)} scenarios" if kept else "")
            + "; solve finds the best plan, help lists the lines, quit ends")


if __name__ == "__main__":
    run_command(main, "console")
