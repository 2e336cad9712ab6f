"""Follows the pages: what README.md and docs/ show of commands and sessions is what comes of them: `shown.py PROGRAM [DESK]`.

A page is gone through from its top, in a folder of its own. Each command in a block, or in a line of text, has to end well, and
where the page says behind it what it `prints` or `says`, that has to be its output, or the first words of it. Blocks of Python
are run. A table of lines and replies is a session, or a desk, on the instance that is named last above it, and each line has to have
just the reply that stands beside it; behind it the lines of sessions that the text names are told as well.
"""
import os
import re
import shlex
import subprocess
import sys
import urllib.request

from common import PATIENCE, main
from crates import ROOT

PAGES = "README.md", "docs/SHEETS.md", "docs/SESSIONS.md", "docs/MODELLING.md", "docs/BOARD.md"
COMMAND = re.compile(r"(?:\./dualoc (?!--)|python3 tools/|printf )(?!.*\b[A-Z]{2,}\b)")
# What a page shows: a block, the rows of a session, or words in a line.
SHOWN = re.compile(r"```(?P<kind>\w*)\n(?P<block>.*?)```|\| Line \| Reply \| \|\n\|[-|]+\n(?P<rows>(?:\|[^\n]*\n)+)|`(?P<words>[^`\n]+)`", re.S)
ROW = re.compile(r"\| `(?P<line>[^`]*)` \| (?P<replies>`.*`) \|[^|]*\|")
SAYS = re.compile(r",? ?(?:then )?(?:prints|says)[ \n]+(?:```\n(?P<block>.*?)```|`(?P<words>[^`\n]+)`)", re.S)
LATER = re.compile(r"(?:cert|save) [\w.]+\Z")
DESK = ROOT / "crates/dualoc_desk/out/dualoc_desk"
# What stands for the script `dualoc`: it runs the program, the desk, or the package, which finds the program by it.
SCRIPT = """#!/bin/sh
case $1 in
desk) shift; exec {desk} "$@" ;;
sheets|compare|draw|chart|console|board|report) DUALOC=$0 PYTHONPATH={root} exec {python} -m planner "$@" ;;
esac
exec {program} "$@"
"""


class Reader:
    """One who follows a page, and counts what was done."""

    def __init__(self, program, desk, page):
        self.page, self.folder, self.done, self.session = page, program.at(page.replace("/", " ")), 0, None
        os.mkdir(self.folder)
        for name in "examples", "tools":
            os.symlink(ROOT / name, f"{self.folder}/{name}")
        with open(f"{self.folder}/dualoc", "w") as file:
            file.write(SCRIPT.format(desk=shlex.quote(os.path.abspath(desk)), python=shlex.quote(sys.executable), root=shlex.quote(str(ROOT)),
                                     program=shlex.quote(program.path)))
        os.chmod(f"{self.folder}/dualoc", 0o755)

    def fail(self, words, why):
        sys.exit(f"check: {self.page}: {words!r}: {why}")

    def run(self, words, input=""):
        """What the commands print. The last of them has to end well."""
        found = {**os.environ, "PYTHONPATH": str(ROOT), "DUALOC": f"{self.folder}/dualoc"}
        how = {"cwd": self.folder, "env": found, "stdout": subprocess.PIPE, "stderr": subprocess.PIPE, "text": True, "timeout": PATIENCE}
        ran = subprocess.run(words, input=input, **how)
        if ran.returncode or ran.stderr:
            self.fail(words, f"it ends with {ran.returncode}, and prints {ran.stdout + ran.stderr!r}")
        self.done += 1
        return ran.stdout

    def follow(self, command, rest):
        """Runs a command, and compares its output with what the text behind it says of that. A board stands last, and only opens."""
        if "./dualoc board" in command:
            *before, board = command.splitlines()
            for line in before:
                self.follow(line, "")
            return self.open_board(board)
        if re.search(r"\./dualoc (session|desk)", command) and not command.startswith("printf"):
            self.session = command
        said, due = self.run(["sh", "-c", command]), SAYS.match(rest)
        if due and not said.startswith((due["block"] or due["words"])):
            self.fail(command, f"it prints {said!r}, and {due[0]!r} is shown")

    def open_board(self, command):
        """Begins a board, opens the page at the address that it prints, and ends it."""
        with subprocess.Popen(shlex.split(command), cwd=self.folder, stdout=subprocess.PIPE, text=True) as board:
            try:
                with urllib.request.urlopen(board.stdout.readline().strip(), timeout=PATIENCE) as page:
                    if b"<title>Board</title>" not in page.read():
                        self.fail(command, "its page isn't there")
            finally:
                board.terminate()
        self.done += 1

    def converse(self, rows, rest):
        """Tells a session the lines of the rows, and behind them those that write files, which have the reply ok."""
        found = [ROW.match(it) for it in rows.splitlines()]
        if None in found or not self.session:
            self.fail(rows, "this is no session")
        lines = [it["line"] for it in found] + [it for it in re.findall("`([^`\n]+)`", rest.split("\n## ")[0]) if LATER.match(it)]
        due = [it for row in found for it in re.findall("`([^`]*)`", row["replies"])] + ["ok"] * (len(lines) - len(found))
        said = self.run(self.session.split(), "".join(f"{it}\n" for it in lines)).splitlines()
        for reply, shown in zip([*said, *[None] * len(due)], [*due, *[None] * len(said)]):
            if reply != shown:
                self.fail(lines, f"a reply is {reply!r}, and {shown!r} is shown")

    def read(self):
        text = (ROOT / self.page).read_text()
        for it in SHOWN.finditer(text):
            rest = text[it.end():]
            if it["rows"]:
                self.converse(it["rows"], rest)
            elif it["kind"] == "python":
                self.run([sys.executable, "-c", it["block"]])
            elif it["words"] and COMMAND.match(it["words"]):
                self.follow(it["words"], rest)
            elif it["block"] and all(COMMAND.match(line) for line in it["block"].splitlines()):
                self.follow(it["block"], rest.lstrip())
        return self.done


def check(program, desk=str(DESK)):
    counts = {page: Reader(program, desk, page).read() for page in PAGES}
    if not all(counts.values()):
        sys.exit(f"check: a page shows no command: {counts}")
    return "shown: " + ", ".join(f"{many} commands and sessions of {page}" for page, many in counts.items()) + " come to what they show"


if __name__ == "__main__":
    main(check)
