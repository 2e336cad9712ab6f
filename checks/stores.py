"""What a built desk program makes of real stores: `stores.py PROGRAM [KILLS] [large]`.

A desk that keeps a scenario is killed at random moments: the store then holds what it held before that line or behind it, never a
part. Two desks work on one store; a store that another one has locked is refused at once, and the session goes on. Folders, files
that are no database, files and folders that can't be written, full disks and tables of another make are refused, and stay as they
were. Stores that SQLite itself has written are loaded, or refused with the line at fault. With the word `large` many scenarios, long
ones and a base of 100 MB are kept, and the seconds told.
"""
import contextlib
import random
import sqlite3
import sys
import time

from common import differs, main, money
from desks import STORE, table_in
from instances import DONE
from odd_stores import ASKED, BASE, FAILED, Scene, due, full, longest, strange, unwritable, written

KILLS, LINES, AT_ONCE = 200, 300, 5


def kills(scene, many):
    """The desk is killed while it keeps; how often the line was done by then."""
    scene.remove()
    table, done = {}, 0
    first = scene.desk()
    scene.say(first, b"keep s", "ok\n")
    due("keep", first.end(), ("", DONE))
    table, spent = {b"s": (BASE, [])}, None
    for k in range(many):
        desk, lines = scene.desk(), [b"fixed 1 %d" % (k * LINES + i) for i in range(LINES)]
        desk.tell(b"\n".join(lines))
        due("edits", [desk.line() for _ in lines], ["ok\n"] * LINES)
        wanted, start = {b"s": (BASE, lines)}, time.monotonic()
        desk.tell(b"keep s")
        if spent is None:
            due("keep s", desk.line(), "ok\n")
            spent = time.monotonic() - start
        else:
            time.sleep(random.random() * 1.5 * spent)
        desk.run.kill()
        said, _ = desk.end()
        held = table_in(scene.program.at(STORE))
        if held != wanted and (held != table or said == "ok\n"):
            differs(f"a desk that was killed, which said {said!r}", (held, "the store"), (table, "or"))
        done += held == wanted
        table = held
    if many > 10 and not 0 < done - 1 < many - 1:
        sys.exit(f"check: of {many} desks that were killed {done} had kept")
    return done


def two(scene):
    """Two desks on one store see what the other has kept, and a store that is locked is refused at once."""
    scene.remove()
    one, other = scene.desk(), scene.desk()
    for desk, line, wanted in [(one, b"keep a", "ok\n"), (other, b"load a", "ok edits 0\n"), (other, b"fixed 1 30", "ok\n"), (other, b"keep a", "ok\n"),
                               (one, b"load a", "ok edits 1\n"), (one, b"forget a", "ok\n"), (other, b"forget a", "refused NoScenario\n")]:
        scene.say(desk, line, wanted, "two desks")
    with contextlib.closing(sqlite3.connect(scene.program.at(STORE), isolation_level=None)) as store:
        for lock, lines in ("EXCLUSIVE", ASKED), ("IMMEDIATE", ASKED[:1]):
            store.execute(f"BEGIN {lock}")
            for desk in one, other:
                for line in lines:
                    start = time.monotonic()
                    scene.say(desk, line, FAILED, lock)
                    if time.monotonic() - start > AT_ONCE:
                        sys.exit(f"check: {line!r} waits for a store that is locked")
                scene.say(desk, b"solve 0", "optimal 28.000000 made 0 nodes 1\n", lock)
            store.execute("ROLLBACK")
    for desk in one, other:
        scene.say(desk, b"keep b", "ok\n", "a store that was locked")
        due("two desks", desk.end(), ("", DONE))
    due("two desks", [*table_in(scene.program.at(STORE))], [b"b"])


def large(scene):
    """Many scenarios, long ones, and a large base: the seconds of a `keep`."""
    def kept(desk, *names):
        start = time.monotonic()
        for name in names:
            scene.say(desk, b"keep " + name, "ok\n", "large")
        return (time.monotonic() - start) / len(names)

    scene.remove()
    desk, told = scene.desk(), []
    for many, names in (10, [b"s%d" % k for k in range(1000)]), (10_000, [b"t%d" % k for k in range(10)]):
        for k in range(many if many == 10 else many - 10):
            scene.say(desk, b"fixed 1 %d" % k, "ok\n")
        told.append(f"{len(names)} of {many} edits {kept(desk, *names):.3f} s each")
    due("large", desk.end(), ("", DONE))
    due("large", len(table_in(scene.program.at(STORE))), 1010)
    m, n = 2500, 4000
    row = " ".join(money(k) for k in range(10**9, 10**9 + n))
    scene.program.write("a", (f"{m} {n} 0\n" + "".join(f"{s} 1 {row}\n" for s in range(1, m + 1))).encode())
    scene.remove()
    desk = scene.desk()
    told.append(f"a base of {m * n * 12 // 10**6} MB {kept(desk, b'a'):.1f} s")
    scene.say(desk, b"load a", "ok edits 0\n", "a large base")
    due("large", desk.end(), ("", DONE))
    return "; a `keep` takes: " + ", ".join(told)


def check(program, many=KILLS, *words):
    scene = Scene(program)
    done = kills(scene, int(many))
    two(scene)
    longest(scene)
    odd, told, is_full, is_read_only = strange(scene), written(scene), full(scene), unwritable(scene)
    without = "".join(f", without {name}" for name, it in [("a full disk", is_full), ("a store that is read-only", is_read_only)] if not it)
    return (f"stores: {scene.count} replies are as is due: of {many} desks that were killed while they kept {done} had kept, and no store held a part; "
            f"two desks on one store; {odd} files that are no store, and {told} stores that SQLite wrote{without}{large(scene) if words == ('large',) else ''}")


if __name__ == "__main__":
    main(check)
