"""Stores that are none, and stores that SQLite itself has written, for `stores.py`: what a desk program makes of them."""
import contextlib
import os
import sqlite3
import subprocess

from common import MICRO, differs
from desks import STORE, Talk, table_in
from instances import DONE
from own import Instance, file_at

PAIR = b"2 3 0\n1 10 1 2 9\n2 12 8 7 1\n"
BASE = Instance.numbered([10 * MICRO, 12 * MICRO], [[MICRO, 2 * MICRO, 9 * MICRO], [8 * MICRO, 7 * MICRO, MICRO]]).text()
BEST, FAILED = "optimal 22.000000 made 0 nodes 1\n", "refused KeeperFailed\n"
TABLES = ("CREATE TABLE scenario (name TEXT PRIMARY KEY, base BLOB, edits INTEGER)",
          "CREATE TABLE line (name TEXT, place INTEGER, body BLOB, PRIMARY KEY (name, place))")
# Stores of another make, and what they are asked.
STRANGE = [("CREATE TABLE scenario (x)",), ("CREATE TABLE line (name TEXT, x INTEGER)",), ("CREATE VIEW scenario AS SELECT 1 AS x",),
           (TABLES[0].replace("base BLOB, ", ""), TABLES[1])]
ASKED = [b"keep a", b"load a", b"forget a", b"names"]
# A scenario's base, how many edits it says it has, its lines with their places, and the reply to `load c`.
WRITTEN = [(BASE, 0, [], "ok edits 0\n"), (BASE, 2, [(1, b"fixed 1 30"), (2, b" lane 1 3 none\r")], "ok edits 2\n"),
           (b"dualoc-instance 9", 0, [], "refused BadScenario line 0\n"), (b"", 0, [], "refused BadScenario line 0\n"),
           (BASE + b"x", 1, [(1, b"fixed 1 30")], "refused BadScenario line 0\n"), (BASE, 1, [(1, b"save x")], "refused BadScenario line 1\n"),
           (BASE, 2, [(1, b"fixed 1 30"), (2, b"fixed 9 5")], "refused BadScenario line 2\n"), (BASE, 1, [(1, b"")], "refused BadScenario line 1\n"),
           (BASE, 1, [(1, b"undo")], "refused BadScenario line 1\n"), (BASE, 2, [(1, b"fixed 1 1"), (3, b"fixed 1 2")], FAILED),
           (BASE, 1, [(2, b"fixed 1 1")], FAILED), (BASE, 2, [(1, b"fixed 1 1")], FAILED), (BASE, 0, [(1, b"fixed 1 1")], FAILED),
           (BASE.decode(), 0, [], FAILED), (BASE, 1, [(1, "fixed 1 1")], FAILED), (BASE, "one", [(1, b"fixed 1 1")], FAILED),
           (None, 0, [], FAILED), (BASE, None, [], FAILED), (BASE, 1, [(1, None)], FAILED), (BASE, 1, [(None, b"fixed 1 1")], FAILED)]
# A session holds no more edits.
MOST_EDITS = 10_000


def due(shown, found, wanted):
    if found != wanted:
        differs(shown, (found, "a desk"), (wanted, DONE))


class Scene:
    """The program on the pair, and how many replies were judged."""

    def __init__(self, program):
        self.program, self.count = program, 0
        program.write("a", PAIR)

    def desk(self, store=STORE, **how):
        return Talk(self.program, "ufl", "a", store, **how)

    def say(self, desk, line, wanted, shown=""):
        found = desk.ask(line)
        due((shown, line), found, wanted)
        self.count += 1

    def remove(self):
        for name in os.listdir(self.program.folder):
            if name.startswith(STORE):
                os.remove(self.program.at(name))

    def sql(self, *texts):
        """Has SQLite write a new store."""
        self.remove()
        with contextlib.closing(sqlite3.connect(self.program.at(STORE))) as store, store:
            for text in texts:
                store.execute(*text) if isinstance(text, tuple) else store.execute(text)

    def refuse(self, shown, store=STORE, asked=ASKED, **how):
        """Each of the four lines is refused, where an edit is in force, and the session goes on."""
        desk = self.desk(store, **how)
        self.say(desk, b"fixed 1 10", "ok\n", shown)
        for line in asked:
            self.say(desk, line, FAILED, shown)
            self.say(desk, b"solve", BEST, shown)
        due(shown, desk.end(), ("", DONE))


def strange(scene):
    """What is no store, or none that can be written, is refused and stays as it was."""
    os.mkdir(scene.program.at("folder"))
    for name in "folder", "nowhere/s.db", "/dev/full", "a/s.db", "/proc/version":
        scene.refuse(name, name)
    due("nowhere", os.path.exists(scene.program.at("nowhere")), False)
    for text in b"hello " * 1000, PAIR, b"SQLite format 3\0" + bytes(2000):
        scene.remove()
        scene.program.write(STORE, text)
        scene.refuse(text[:20])
        due(text[:20], file_at(scene.program, STORE), text)
    for texts in STRANGE:
        scene.sql(*texts)
        before = file_at(scene.program, STORE)
        scene.refuse(texts, asked=ASKED[:1])
        with contextlib.closing(sqlite3.connect(scene.program.at(STORE))) as store:
            due(texts, store.execute("SELECT count(*) FROM sqlite_master WHERE sql IN (%s)" % ",".join("?" * len(texts)), texts).fetchone(), (len(texts),))
        due(texts, len(before) <= len(file_at(scene.program, STORE)), True)
    return 8 + len(STRANGE)


def unwritable(scene):
    """A store that may only be read, for one who isn't the superuser: nothing is kept. Whether that could be tried."""
    scene.sql(*TABLES)
    before = file_at(scene.program, STORE)
    os.chmod(scene.program.folder, 0o555)
    os.chmod(scene.program.at(STORE), 0o444)
    try:
        how = {"preexec_fn": lambda: os.setuid(65534)} if os.getuid() == 0 else {}
        scene.refuse("read-only", asked=ASKED[:1], **how)
    except (PermissionError, subprocess.SubprocessError):
        return False
    finally:
        os.chmod(scene.program.folder, 0o755)
        os.chmod(scene.program.at(STORE), 0o644)
    due("read-only", file_at(scene.program, STORE), before)
    return True


def full(scene):
    """A disk on which one block of a log has room takes no long scenario, and the session goes on. Whether there was one."""
    disk = scene.program.at("disk")
    os.mkdir(disk)
    if subprocess.run(["mount", "-t", "tmpfs", "-o", "size=409600", "none", disk], stderr=subprocess.DEVNULL).returncode:
        return False
    try:
        desk = scene.desk("disk/s.db")
        scene.say(desk, b"keep a", "ok\n", "a small disk")
        for k in range(3000):
            desk.ask(b"fixed 1" + b" " * 200 + b"%d" % k)
        scene.say(desk, b"keep b", FAILED, "a full disk")
        scene.say(desk, b"load a", "ok edits 0\n", "a full disk")
        due("a full disk", desk.end(), ("", DONE))
        due("a full disk", table_in(os.path.join(disk, "s.db")), {b"a": (BASE, [])})
    finally:
        subprocess.run(["umount", disk], check=True)
    return True


def written(scene):
    """Stores that SQLite has written: each is loaded, or refused, and then nothing of it is done."""
    for base, many, lines, wanted in WRITTEN:
        scene.sql(*TABLES, ("INSERT INTO scenario VALUES ('c', ?, ?)", (base, many)), *[("INSERT INTO line VALUES ('c', ?, ?)", it) for it in lines])
        desk = scene.desk()
        scene.say(desk, b"load c", wanted, (base, many, lines))
        if not wanted.startswith("ok"):
            scene.say(desk, b"undo", "refused NothingToUndo\n", (base, many, lines))
            scene.say(desk, b"solve", BEST, (base, many, lines))
        due((base, lines), desk.end(), ("", DONE))
        due("a line that saves", os.path.exists(scene.program.at("x")), False)
    for name in "a b", "", "x" * 65, "\u00e9", b"c", None:
        scene.sql(*TABLES, ("INSERT INTO scenario VALUES (?, ?, 0)", (name, BASE)))
        scene.refuse(f"the name {name!r}", asked=[b"names"])
    return len(WRITTEN) + 6


def longest(scene):
    """A scenario of as many edits as a session holds is loaded, takes no further edit, and is kept again; one with an edit more is refused."""
    for many in MOST_EDITS, MOST_EDITS + 1:
        scene.sql(*TABLES, ("INSERT INTO scenario VALUES ('c', ?, ?)", (BASE, many)),
                  *[("INSERT INTO line VALUES ('c', ?, ?)", (k, b"fixed 1 30")) for k in range(1, many + 1)])
        desk, loaded = scene.desk(), f"ok edits {MOST_EDITS}\n"
        talk = [(b"load c", loaded), (b"fixed 1 10", "refused SessionFull\n"), (b"keep d", "ok\n"), (b"undo", "ok\n"), (b"load d", loaded)]
        for line, wanted in talk if many == MOST_EDITS else [(b"load c", f"refused BadScenario line {many}\n"), (b"undo", "refused NothingToUndo\n")]:
            scene.say(desk, line, wanted, f"{many} edits")
        due(f"{many} edits", desk.end(), ("", DONE))
