"""The cost curve of a board: what the best plan costs with each number of open sites, line by line as the program prints it."""
import os
import subprocess
import tempfile
from collections.abc import Callable

from . import chart
from .board_show import amount
from .cells import Refusal
from .session import Session

MOST_SITES = 3000


class Curve:
    """The lines of the last `curve`, and the process of one that runs."""

    def __init__(self):
        self.entries, self.text, self.mark, self.process, self.is_stopped, self.of = [], "", 0, None, False, None

    def run(self, session: Session, first: int, last: int, tell: Callable[[str], None]) -> None:
        """Has the curve of the instance as it stands computed, and tells after each number of sites that there is more. Refused where
        the numbers are none, and where the program says something else than a curve."""
        if not 0 <= first <= last <= MOST_SITES:
            raise Refusal(f"two numbers up to {MOST_SITES} are due, the lesser one first")
        self.entries, self.is_stopped, self.of, lines, many = [], False, session.mark(), [], last - first + 1
        with tempfile.TemporaryDirectory() as folder:
            self.begin(session, os.path.join(folder, "instance.own"), first, last)
            for line in self.process.stdout:
                lines.append(line.decode(errors="replace"))
                self.entries = chart.entries("".join(lines))
                self.says(f"{len(lines)} of {many} numbers of sites", tell)
        status = self.process.wait()
        if status and not self.is_stopped:
            raise Refusal(f"curve ended with {status}")
        self.says("stopped" if self.is_stopped else "all numbers of sites are done", tell)

    def begin(self, session: Session, instance: str, first: int, last: int) -> None:
        """Begins the process, on the instance as it stands."""
        session.save(instance)
        session.program.ready()
        words = [*session.program.words, "curve", "own", instance, str(first), str(last)]
        self.process = subprocess.Popen(words, stdin=subprocess.DEVNULL, stdout=subprocess.PIPE, stderr=subprocess.DEVNULL,
                                        start_new_session=True)

    def says(self, text: str, tell: Callable[[str], None]) -> None:
        self.text, self.mark = text, self.mark + 1
        tell(text)

    def shown(self, session: Session) -> dict | None:
        """What is shown of it, and whether it is of another instance than the session has now."""
        if self.of is None:
            return None
        entries = [{"count": it.count, "low": amount(it.low), "high": amount(it.high)} for it in self.entries]
        return {"entries": entries, "text": self.text, "mark": self.mark, "isStale": self.of != session.mark()}

    def picture(self, unit: str) -> str:
        """The chart of what is known by now, as SVG. Refused where there is nothing."""
        if not self.entries:
            raise Refusal("no curve is drawn yet")
        return chart.svg(self.entries, "Cost by the number of open sites", unit)

    def stop(self) -> None:
        if self.process and self.process.poll() is None:
            self.is_stopped = True
            self.process.terminate()
