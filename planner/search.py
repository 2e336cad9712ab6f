"""A solve on the processes of a session: what of a carried tree is worth going on with, and which of several answers is the best."""
from collections.abc import Callable

from .answer import Answer
from .grounds import Ground, Grounds
from .solving import Limits, Progress, Stops, in_slices
from .talk import Ended, Talk

# The nodes that a carried tree may have before a process without one goes on.
CARRIED = 100


class Search:
    """A solve of the instance as it stands. `answer_of` makes an answer of what stands in a process after a slice, `size` is how many
    sites and customers there are, and `tell` is told how far it is."""

    def __init__(self, grounds: Grounds, size: tuple[int, int], limits: Limits, stops: Stops, answer_of: Callable[[Talk, str, Progress], Answer],
                 tell: Callable[[Progress], None]):
        self.grounds, self.size, self.limits, self.stops, self.answer_of, self.tell = grounds, size, limits, stops, answer_of, tell
        self.found: Answer | None = None

    def run(self) -> Answer | None:
        """The best answer of all slices. A tree that was carried over from another instance has one slice: where that doesn't do, a process
        without a tree goes on. Where the program is given up, what was found before stands, or nothing."""
        top = self.grounds.top
        try:
            if not (top.is_edited and top.nodes):
                self.slices(top)
                return self.found
            kind, spent = self.slices(top, CARRIED)
            if kind == "bracket" and not self.limits.is_met(spent) and not self.stops.is_set() and self.limits.allows(spent.nodes):
                self.grounds.begin(self.grounds.save())
                top = self.grounds.top
                self.slices(top, before=spent)
        except Ended:
            if not top.talk.is_given_up:
                raise
        return self.found

    def slices(self, ground: Ground, most: int | None = None, before: Progress = Progress(0.0, 0, None, None)) -> tuple[str, Progress]:
        """Solves on a process, and notes the better answer after each slice."""

        def heard(kind: str, progress: Progress) -> None:
            ground.nodes, ground.is_edited = max(ground.nodes, progress.nodes), False
            new = self.answer_of(ground.talk, kind, progress)
            if self.found is None or not self.found.is_better(new):
                self.found = new
            self.tell(Progress(progress.seconds, progress.nodes, self.found.low, self.found.cost))

        return in_slices(ground.talk, self.size, self.limits, self.stops, heard, most, before)
