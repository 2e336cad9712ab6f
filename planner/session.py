"""`planner.Session`: a session of the program by the names of sites and customers, for scripts, notebooks, console and board."""
import contextlib
import os
import shutil
import tempfile
from collections.abc import Callable
from dataclasses import dataclass, replace

from . import edits, newcomers, own
from .answer import Answer
from .cells import Refusal
from .edits import Amount
from .grounds import Grounds
from .held import Held, Notes
from .names import Names, read as read_names, write as write_names
from .program import Program
from .questions import Questions, Stopped
from .replay import state_of
from .scenarios import Scenarios
from .search import Search
from .solving import Limits, Progress, Stops
from .standing import checksum_of, standing_answer
from .state import Draft, Step
from .store import Store
from .talk import Talk

Where = Callable[[object], bool] | None


@dataclass(frozen=True)
class Mark:
    """A place among the edits in force, to which `back_to` leads."""

    steps: tuple[Step, ...]


class Session(Scenarios, Questions):
    """Edits an instance and solves it again, by names. `form` and `file` are those of the program's `session`, `names` the file of
    names that came with the instance, `desk` a store of scenarios. `program` says how the program is started, and `say` is told what
    a person should know: that it is built, that a store is waited for.

    Amounts are ints, Decimals or texts, never floats; a site or customer is a name or an id. What is refused changes nothing. One
    thread at a time uses a session; `stop` alone may be called from another one."""

    def __init__(self, form: str, file: str, names: str | None = None, desk: str | None = None, *, program: Program | str | list[str] | None = None,
                 capacity: Amount | None = None, say: Callable[[str], None] | None = None):
        self.say = say or (lambda text: None)
        given = read_names(names) if names else Names()
        if not os.path.isfile(file):
            raise Refusal(f"{file}: there is no such file")
        self.settle(program if isinstance(program, Program) else Program(program, self.say), desk)
        options = [] if capacity is None else [f"capacity={capacity}"]
        with self.ending_on_fault():
            self.grounds.begin("base.own", form, os.path.abspath(file), *options)
            self.grounds.top.talk.due("save base.own")
            self.begin_state(given)
        self.origin = given

    def settle(self, program: Program, desk: str | None) -> None:
        """What it has before an instance."""
        self.program, self.folder, self.desk = program, tempfile.mkdtemp(prefix="dualoc-"), desk
        self.grounds = Grounds(program, self.folder)
        self.store = Store(program, desk, self.say) if desk else None
        self.beside = f"{os.path.abspath(desk)}.answers" if desk else f"{self.folder}/answers"
        self.held, self.notes, self.stopped = Held(program, self.beside), Notes(self.beside), Stops()
        self.steps: list[Step] = []
        self.known: dict[str, tuple[str, Answer]] = {}
        self.version, self.name, self.is_changed = 0, None, False
        self.answer = self.last = self.before = self.base = self.progress = self.saved = None

    def begin_state(self, given: Names) -> None:
        """Reads the instance with which the topmost process began."""
        self.given = given
        self.state = state_of(own.read(f"{self.folder}/{self.grounds.top.file}"), given)

    @contextlib.contextmanager
    def ending_on_fault(self):
        try:
            yield
        except BaseException:
            self.end()
            raise

    def __enter__(self) -> "Session":
        return self

    def __exit__(self, *_: object) -> None:
        self.end()

    def end(self) -> None:
        """Ends the program, and removes the session's folder. Beside a store stay the answers to its scenarios and to the base."""
        self.grounds.drop_to(0)
        if self.store and self.held.made:
            self.held.prune(self.notes.checksums() | {checksum_of(self.origin_file)})
        shutil.rmtree(self.folder, ignore_errors=True)

    rule = property(lambda self: self.given.rule)
    sites = property(lambda self: self.state.sites)
    customers = property(lambda self: self.state.customers)
    is_geo = property(lambda self: any(it.is_geo for those in (self.sites, self.customers) for it in those.values()))
    count_of_sites = property(lambda self: self.state.count)
    origin_file = property(lambda self: f"{self.folder}/base.own")

    def names(self) -> Names:
        """Sites and customers as they stand, with their names and places."""
        return replace(self.given, sites=self.state.sites, customers=self.state.customers)

    def take(self, draft: Draft) -> Step:
        """Makes an edit. Refused is what the program refuses, by the line of the console, and then nothing is changed."""
        is_ground = self.grounds.is_long(draft.lines)
        if is_ground:
            former = self.state.take(draft)
            try:
                self.begin_on_state()
            except BaseException:
                self.state.back(former)
                raise
        else:
            self.grounds.make_room(draft.lines)
            self.grounds.tell(draft.lines, draft.words)
            former = self.state.take(draft)
        step = Step(draft.text, draft.words, tuple(draft.ids), tuple(draft.lines), is_ground, len(self.grounds.stack), (former,))
        self.steps.append(step)
        self.is_new(None)
        return step

    def begin_on_state(self) -> None:
        """Begins a new process on the instance as it stands here."""
        name = self.grounds.new_file("own")
        own.write(f"{self.folder}/{name}", self.state.instance())
        self.grounds.begin(name)

    def is_new(self, answer: Answer | None) -> None:
        """Notes that the instance, or its answer, is another one."""
        self.version += 1
        if answer is None:
            self.answer, self.is_changed, self.saved = None, True, None
            return
        if self.last is not None and self.last.checksum != answer.checksum:
            self.before = self.last
        self.answer = self.last = answer
        if not self.steps:
            self.base = answer

    def undo(self, steps: int = 1) -> list[Step]:
        """Takes the last edits back, and answers them. Refused where there are fewer, or what is kept begins with them."""
        if steps > len(self.steps) or steps < 0:
            raise Refusal(f"there are {len(self.steps)} edits to take back" if self.steps else "there is no edit to take back")
        gone = self.steps[len(self.steps) - steps:]
        for step in gone:
            if not step.former:
                raise Refusal(f"{step.text}: it is part of what was kept, and can't be taken back; load base begins without it")
        for step in reversed(gone):
            self.grounds.drop_to(step.depth)
            self.grounds.drop_to(step.depth - 1) if step.is_ground else self.grounds.untell(len(step.lines))
            for former in reversed(step.former):
                self.state.back(former)
            self.steps.pop()
            self.is_new(None)
        return gone[::-1]

    def undo_all(self) -> None:
        """Takes all edits back."""
        self.undo(len(self.steps))

    def mark(self) -> Mark:
        """Where the edits are now."""
        return Mark(tuple(self.steps))

    def back_to(self, mark: Mark) -> None:
        """Takes back what was edited since the mark. Refused where edits before it were taken back."""
        many = len(mark.steps)
        if len(self.steps) < many or any(a is not b for a, b in zip(self.steps, mark.steps)):
            raise Refusal("the edits before the mark were taken back")
        self.undo(len(self.steps) - many)

    def fixed(self, site: int | str, cost: Amount) -> Step:
        """Opening the site costs so much."""
        return self.take(edits.fixed(self.state, site, cost))

    def capacity(self, site: int | str, room: Amount | None) -> Step:
        """The site holds so much demand; None is no limit."""
        return self.take(edits.capacity(self.state, site, room))

    def close(self, site: int | str) -> Step:
        """The site must stay closed."""
        return self.take(edits.status(self.state, site, "closed"))

    def must_open(self, site: int | str) -> Step:
        """The site must be open."""
        return self.take(edits.status(self.state, site, "open"))

    def free(self, site: int | str) -> Step:
        """Whether the site opens is for the solver to say."""
        return self.take(edits.status(self.state, site, "free"))

    def count(self, least: int, most: int) -> Step:
        """From so many to so many sites are to be opened."""
        return self.take(edits.count(self.state, least, most))

    def lane(self, site: int | str, customer: int | str, cost: Amount | None) -> Step:
        """Serving all of the customer's demand from the site costs so much; with None it can't be served from there."""
        return self.take(edits.lane(self.state, site, customer, cost))

    def tie(self, customer: int | str, site: int | str) -> Step:
        """The customer can be served from this site alone: all its other lanes go."""
        return self.take(edits.tie(self.state, customer, site))

    def demand(self, customer: int | str, much: Amount, lanes: bool | None = None) -> Step:
        """The customer demands so much. Where lane costs go by demand they change in step, which the step's text says; with `lanes`
        False they don't, and with True they do whatever the file of names says."""
        return self.take(edits.demand(self.state, self.rule, customer, much, lanes))

    def scale_demand(self, factor: Amount, where: Where = None, lanes: bool | None = None, words: str | None = None) -> Step:
        """The demands of the customers of which `where` holds, times a factor, as "1.10" or "+10%", rounded to millionths."""
        return self.take(edits.scale_demand(self.state, self.rule, factor, where, lanes, words))

    def scale_fixed(self, factor: Amount, where: Where = None, words: str | None = None) -> Step:
        """The fixed costs of such sites, times a factor."""
        return self.take(edits.scale_sites(self.state, "fixed", factor, where, words))

    def scale_capacity(self, factor: Amount, where: Where = None, words: str | None = None) -> Step:
        """The capacities of such sites, times a factor. What has no limit stays so."""
        return self.take(edits.scale_sites(self.state, "capacity", factor, where, words))

    def add_site(self, name: str, *, fixed: Amount, capacity: Amount | None = None, lanes: newcomers.Costs | None = None,
                 throughput: Amount = 0, **at: Amount) -> Step:
        """A site comes, at `lat` and `lon` or `x` and `y`. Its lanes are made as the sheets' were, or are `lanes`: what serving each
        customer costs, by name; a customer who isn't there can't be served."""
        return self.take(newcomers.add_site(self.state, self.rule, name, lanes, fixed, capacity, at, throughput))

    def add_customer(self, name: str, *, demand: Amount, lanes: newcomers.Costs | None = None, **at: Amount) -> Step:
        """A customer comes, in the same way."""
        return self.take(newcomers.add_customer(self.state, self.rule, name, lanes, demand, at))

    def drop_site(self, site: int | str) -> Step:
        """The site goes."""
        return self.take(edits.drop(self.state, "site", site))

    def drop_customer(self, customer: int | str) -> Step:
        """The customer goes."""
        return self.take(edits.drop(self.state, "customer", customer))

    def stop(self, at_once: bool = False) -> None:
        """Ends what is being solved after the slice in which it is. Any thread may call it. With `at_once` the program is ended in the
        midst of the slice, which loses its tree: what the slice before found stands."""
        self.stopped.set(at_once)

    def solve(self, seconds: float | None = None, gap: str | None = None, budget: int | None = None,
              tell: Callable[[Progress], None] | None = None, anew: bool = False) -> Answer:
        """Solves the instance as it stands: until its answer is optimal, or so many seconds are over, or the gap is at most so many
        per cent, or the budget of nodes is spent, which without any of these is the program's own. `tell` is told how far it is after
        each slice. An answer that is held and that `check` accepts isn't made again, but for `anew`."""
        self.stopped.clear()
        return self.find(Limits.of(seconds, gap, budget), tell, anew)

    def find(self, limits: Limits, tell: Callable[[Progress], None] | None, anew: bool) -> Answer:
        """The answer to the instance as it stands: the one that is held, where it is as good as asked for, or what a solve finds."""
        file = self.instance_text_file()
        checksum = checksum_of(file)
        held = None if anew else self.held.get(checksum, file, self.state, rule=self.rule)
        if not held or held.kind == "bracket" and not limits.is_met(Progress(0, 0, held.low, held.cost)):
            found = self.work(limits, tell, file, checksum)
            held = held if held and held.is_better(found) else found
        self.is_new(held)
        return held

    def work(self, limits: Limits, tell: Callable[[Progress], None] | None, file: str, checksum: str) -> Answer:
        """Has the program solve what it has, and holds the answer."""

        def answer_of(talk: Talk, kind: str, progress: Progress) -> Answer:
            return standing_answer(talk, kind, self.state, file, self.grounds.new_file(""), rule=self.rule, checksum=checksum,
                                   nodes=progress.nodes, seconds=progress.seconds, judge=self.program.check)

        def heard(progress: Progress) -> None:
            self.progress = progress
            if tell:
                tell(progress)

        found = Search(self.grounds, (len(self.sites), len(self.customers)), limits, self.stopped, answer_of, heard).run()
        if not found:
            raise Stopped
        self.held.put(found)
        return found

    def save(self, path: str) -> None:
        """Writes the instance as it stands, in the suite's own form."""
        shutil.copyfile(self.instance_text_file(), path)

    def instance_text_file(self) -> str:
        """The path of a file that the program wrote, with the instance as it stands. It is the session's own, and goes with it."""
        self.saved = self.saved or f"{self.folder}/{self.grounds.save()}"
        return self.saved

    def save_names(self, path: str) -> None:
        """Writes the file of names of the instance as it stands."""
        write_names(path, self.names())
