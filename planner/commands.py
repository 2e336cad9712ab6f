"""The commands of the package, each by its word: `python3 -m planner WORD ..`, or `./dualoc WORD ..`."""
import sys
from importlib import import_module

from .cells import run

# The module of each, whose `main` takes the words behind.
COMMANDS = {"sheets": "sheets", "compare": "compare", "draw": "draw", "chart": "chart", "console": "console", "board": "board",
            "report": "report"}


def main(words: list[str] | None = None) -> None:
    """Runs the command that the first word names with the others. What it refuses is said, and the status is 1; other words are
    answered by the list of commands, with the status 2."""
    words = sys.argv[1:] if words is None else words
    if not words or words[0] not in COMMANDS:
        print(f"usage: {' | '.join(COMMANDS)}; each has --help", file=sys.stderr)
        sys.exit(0 if words == ["--help"] else 2)
    command = import_module(f".{COMMANDS[words[0]]}", __package__).main
    run(lambda: command(words[1:]), words[0])
