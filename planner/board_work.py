"""What the windows of a board ask for, done with one session: edits at once, and what takes longer beside them, one at a time."""
import threading
import time
from collections.abc import Callable

from . import board_show as show
from .answer import Answer
from .board_curve import Curve
from .board_files import FILES, make
from .board_hub import Hub
from .cells import Refusal
from .session import Session

# How long an edit waits for another one that is being made, in seconds.
PATIENCE = 10
# A solve goes on until it is optimal or stopped, so for so many seconds at most.
LONGEST = 7 * 24 * 3600
# What takes longer is told how far it is by this, and answers what is said at its end.
Tell = Callable[[object], None]
Work = Callable[[Tell], str]


def word(asked: dict, key: str, kind: type) -> object:
    """A word of what a window asks for. Refused where it isn't there, or of another kind."""
    value = asked.get(key)
    if type(value) is not kind:
        raise Refusal(f"{key} is due")
    return value


class Board:
    """A session and what is shown of it. `do`, `stop` and `file` are for the server's threads."""

    def __init__(self, session: Session, title: str, unit: str, outline: Callable | None = None):
        self.session, self.hub, self.turn, self.curve = session, Hub(), threading.Lock(), Curve()
        self.title, self.unit, self.begun = title, unit, 0.0
        # The break-evens of the instance as it stands, what check said of its answer, the names in the store, scenarios side by side,
        # and the answer of the base where the session has none of its own.
        self.even, self.checked, self.kept, self.compared, self.solved_base = {}, None, session.scenarios(), None, None
        projection = show.Projection([*session.sites.values(), *session.customers.values()])
        self.sites, self.customers = (show.Rows(of, those, projection) for of, those in
                                      ((show.site, session.sites), (show.customer, session.customers)))
        self.hub.put(head={"title": title, "unit": unit, "hasStore": session.desk is not None}, work=None, said=None,
                     outline=outline(projection.corner) if outline else [])
        self.show()

    def base(self) -> Answer | None:
        """The answer of the instance without edits, if it was solved."""
        return self.session.base or self.solved_base

    def answer(self) -> Answer:
        """The answer that stands. Refused where none does."""
        if not self.session.answer:
            raise Refusal("no answer stands: solve first")
        return self.session.answer

    def show(self, **more: object) -> None:
        """Puts what the session has now. What didn't change isn't sent."""
        session, found = self.session, self.session.last
        scenarios = {"kept": [{"name": name, "edits": edits} for name, edits in self.kept], "name": session.name,
                     "isChanged": session.is_changed, "compared": self.compared}
        self.hub.put(sites=self.sites.of(session.sites), customers=self.customers.of(session.customers),
                     edits=[it.text for it in session.steps], plan=show.plan(found), loads=show.loads(found),
                     answer=show.answer(found, session.answer is None, self.checked), breakeven=self.even,
                     against=show.against(found, self.base()) if session.steps else None, scenarios=scenarios,
                     curve=self.curve.shown(session),
                     files=[[name, what, has_all(session, self.curve)] for name, (what, has_all, _) in FILES.items()], **more)

    def take_turn(self) -> None:
        """Waits for the session. Refused while something that takes longer is under way."""
        work = self.hub.state["work"]
        if not self.turn.acquire(timeout=0 if work else PATIENCE):
            raise Refusal(f"{work['what'] if work else 'something else'} is under way: stop it first")

    def do(self, asked: dict) -> dict:
        """Does what a window asks for. Refused, with nothing changed, where that can't be; what takes longer is only begun."""
        what = asked.get("do") if isinstance(asked, dict) else None
        if what == "stop":
            self.stop()
        elif what in EDITS:
            self.edit(EDITS[what], asked)
        elif what in LONG:
            self.begin(*LONG[what], asked)
        else:
            raise Refusal("there is nothing of that name to do")
        return {"said": ""}

    def edit(self, does: Callable, asked: dict) -> None:
        self.take_turn()
        try:
            does(self.session, asked)
            self.even, self.checked = {}, None
            self.show(said=None)
        finally:
            self.turn.release()

    def begin(self, called: str, does: Callable, asked: dict) -> None:
        """Begins what takes longer. The turn is given back at its end."""
        self.take_turn()
        try:
            work = does(self, asked)
        except BaseException:
            self.turn.release()
            raise
        self.begun = time.time()
        self.hub.put(work=self.working(called, ""), said=None)
        threading.Thread(target=self.run, args=(called, work), daemon=True).start()

    def working(self, called: str, text: str) -> dict:
        before = self.hub.state["work"]
        return {"what": called, "text": text, "begun": self.begun, "isStopping": bool(before) and before["isStopping"]}

    def run(self, called: str, work: Work) -> None:
        """Does what takes longer, telling the windows how far it is."""
        said = {"text": f"{called} broke off; the board's own output says why", "isRefused": True}
        try:
            text = work(lambda it: self.hub.put(work=self.working(called, getattr(it, "text", it))))
            said = {"text": text, "isRefused": False}
        except (Refusal, OSError) as why:
            said = {"text": str(why), "isRefused": True}
        finally:
            self.show(work=None, said=said)
            self.turn.release()

    def stop(self, at_once: bool = False) -> None:
        """Ends what is under way behind its slice, and where it is asked for again at once."""
        work = self.hub.state["work"]
        self.session.stop(at_once or bool(work) and work["isStopping"])
        self.curve.stop()
        if work:
            self.hub.put(work=work | {"isStopping": True})

    def end(self) -> None:
        """Ends the session, once what is under way let go of it."""
        self.stop(at_once=True)
        self.turn.acquire(timeout=PATIENCE)
        self.session.end()

    def file(self, name: str) -> bytes:
        """A download, made of the answer that stands. Refused where none does."""
        if name not in FILES:
            raise Refusal("there is no such file")
        if name == "curve.svg":
            return self.curve.picture(self.unit).encode()
        self.take_turn()
        try:
            return make(name, self)
        finally:
            self.turn.release()

    def listed(self, does: Callable[[], None], text: str) -> Work:
        """Has the store do something, and lists it anew."""
        def work(tell: Tell) -> str:
            tell("the store is asked; where the desk isn't built yet, that takes some minutes")
            does()
            self.kept, self.even, self.compared, self.checked = self.session.scenarios(), {}, None, None
            return text

        return work


def solve(board: Board, asked: dict) -> Work:
    def work(tell: Tell) -> str:
        board.checked = None
        return board.session.solve(seconds=LONGEST, tell=tell).text

    return work


def check(board: Board, asked: dict) -> Work:
    answer = board.answer()

    def work(tell: Tell) -> str:
        tell("the certificate is judged anew")
        board.checked = answer.check()
        return ""

    return work


def solve_base(board: Board, asked: dict) -> Work:
    def work(tell: Tell) -> str:
        board.solved_base = board.session.answer_of("base", tell=tell)
        return board.solved_base.text

    return work


def breakeven(board: Board, asked: dict) -> Work:
    site = word(asked, "id", int)

    def work(tell: Tell) -> str:
        found = board.session.breakeven(site, tell=tell)
        board.even = board.even | {site: found.text}
        return found.text

    return work


def draw(board: Board, asked: dict) -> Work:
    first, last = word(asked, "first", int), word(asked, "last", int)

    def work(tell: Tell) -> str:
        def further(text: str) -> None:
            board.hub.put(curve=board.curve.shown(board.session))
            tell(text)

        board.curve.run(board.session, first, last, further)
        return ""

    return work


def keep(board: Board, asked: dict) -> Work:
    name = word(asked, "name", str)
    return board.listed(lambda: board.session.keep(name), f"kept as {name}")


def forget(board: Board, asked: dict) -> Work:
    name = word(asked, "name", str)
    return board.listed(lambda: board.session.forget(name), f"{name} is forgotten")


def load(board: Board, asked: dict) -> Work:
    name = word(asked, "name", str)
    return board.listed(lambda: board.session.load(name), f"{name} is loaded")


def compare(board: Board, asked: dict) -> Work:
    names = word(asked, "names", list)
    if len(names) < 2 or not all(type(it) is str for it in names):
        raise Refusal("tick two scenarios or more")

    def work(tell: Tell) -> str:
        board.compared = show.compared(board.session.compare(names, tell=tell))
        return ""

    return work


def limit(asked: dict) -> str | None:
    """A capacity as it is typed: none is no limit."""
    amount = word(asked, "amount", str)
    return None if amount.lower() in ("none", "") else amount


EDITS = {
    "open": lambda session, asked: session.must_open(word(asked, "id", int)),
    "close": lambda session, asked: session.close(word(asked, "id", int)),
    "free": lambda session, asked: session.free(word(asked, "id", int)),
    "fixed": lambda session, asked: session.fixed(word(asked, "id", int), word(asked, "amount", str)),
    "capacity": lambda session, asked: session.capacity(word(asked, "id", int), limit(asked)),
    "demand": lambda session, asked: session.demand(word(asked, "id", int), word(asked, "amount", str)),
    "undo": lambda session, asked: session.undo(),
}
# What takes longer, by its word: how it is called while it goes on, and what begins it.
LONG = {"solve": ("solve", solve), "check": ("check", check), "base": ("base", solve_base), "breakeven": ("break-even", breakeven),
        "curve": ("curve", draw), "keep": ("store", keep), "forget": ("store", forget), "load": ("store", load),
        "compare": ("compare", compare)}
