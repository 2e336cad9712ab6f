"""Lets each allocation of a built program fail, one in each run: `memory.py PROGRAM`.

A small library stands between the program and the C library's `malloc` and `realloc`: it counts the calls, and refuses the one
of a given number. With it the program solves, checks, shows duals, converts, tells ranges, finds a center, draws a curve and holds a
session on a small file of each form, for each number up to that of the calls of a whole run; behind the first 300 of a run some are left out, always the same. Each run has to
come to what it comes to without a fault, to the same bytes; or to `no memory`, behind the replies to a session's first lines or the
first lines of a curve, with each file as it has to be then: those of the lines before whole, the next one as before or a front of its text, and all others as
before. Last come the host's own limits of memory, and files that are too large for them.

The library is compiled with `cc`. Where there is none, or none that can do it, nothing is asked.
"""
import contextlib
import os
import resource
import subprocess
import sys

from common import differs, main
from solve import DONE

NO_MEMORY = 9
# So many calls of a run are all refused in turn, and of those behind them about as many.
ALL, SOME = 300, 100
# So much memory is too little for the files that need it.
MOST = 2**25
LIBRARY = r"""
#include <fcntl.h>
#include <stdlib.h>
#include <sys/mman.h>

extern void *__libc_malloc(size_t), *__libc_realloc(void *, size_t);
static long failing, *made;

__attribute__((constructor)) static void begin(void) {
    const char *number = getenv("FAILING_CALL"), *name = getenv("CALLS_MADE");
    void *count = mmap(0, sizeof *made, PROT_READ | PROT_WRITE, MAP_SHARED, open(name ? name : "", O_RDWR), 0);
    failing = number ? atol(number) : 0;
    made = count == MAP_FAILED ? 0 : count;
}

static int fails(void) { return made && ++*made == failing; }

void *malloc(size_t bytes) { return fails() ? 0 : __libc_malloc(bytes); }
void *realloc(void *block, size_t bytes) { return fails() ? 0 : __libc_realloc(block, bytes); }
"""
# What stands in each file that is written before: longer than what comes.
BEFORE = b"before\n" * 100
PAIR = b"FILE: a\n2 3 0\n1 10 1 2 9\n2 12 8 7 1\n"
RING = b"3 3 0\n1 2 0 0 4\n2 2 4 0 0\n3 2 0 4 0\n"
WAREHOUSES = b"2 2\n10 7500\n10 .5\n6 6739.725 1.25\n6 3 4\n"
NETWORK = b"3 3 1\n1 2 5\n2 3 7\n1 2 4\n"
OWN = (b"dualoc-instance 2\nsites 2 next 3\ncustomers 3 next 4\ncount 0 2\ncustomer 1 1\ncustomer 2 1\ncustomer 3 2\n"
       b"site 1 10 3 free 1 2 none\nsite 2 12 none open 8 7 1\nend\n")
# A form, a file, the lanes of a customer that comes and those of a site.
FILES = [("ufl", PAIR, "9 1", "1 1 1"), ("ufl", RING, "1 none 2", "1 1 1"), ("cap", WAREHOUSES, "3 4", "3 4"),
         ("uncap", WAREHOUSES, "3 4", "3 4"), ("pmed", NETWORK, "3 4 none", "3 4 5"), ("own", OWN, "9 1", "1 1 1")]
LINES = ["solve", "fixed 1 30", "answer", "solve 0", "undo", "solve 0", "dropcust 1", "addcust 1 {0}", "status 2 open", "solve",
         "cert k", "undo", "undo", "dropcust 9", "cert k", "addcust 1 9 9 9 9", "addcust 1 {0}", "addsite 3 none {1}", "lane 1 2 none",
         "cap 1 5", "demand 2 1", "count 1 2", "dropsite 2", "frobnicate", "save n", "solve 3", "answer", "quit"]


class Scene:
    """The program, with the library before it."""

    def __init__(self, program, library):
        self.program, self.refused, self.all = program, 0, 0
        self.host = {**os.environ, "LD_PRELOAD": library, "CALLS_MADE": program.at("made")}

    def read(self, name):
        with open(self.program.at(name), "rb") as file:
            return file.read()

    def run(self, words, lines, written, failing=0):
        """What is said, with its status, and what the written files then hold, where the call of this number is refused."""
        for name in written:
            self.program.write(name, BEFORE)
        self.program.write("made", bytes(8))
        host, input = {**self.host, "FAILING_CALL": str(failing)}, "".join(f"{line}\n" for line in lines)
        said, status = self.program.ask(*words, input=input.encode(), env=host)
        return said, status, [self.read(name) for name in written]

    def made(self):
        return int.from_bytes(self.read("made"), sys.byteorder)

    def refuse(self, words, lines=(), written=(), is_row=False):
        """Each call is refused in turn, and what comes of it is judged. Of a row each line stands that was done."""
        whole = self.run(words, lines, written)
        made = self.made()
        if made == 0:
            sys.exit(f"check: {words} makes no allocation that the library sees")
        # What was said, and what the files held, behind each line; or at the start and at the end.
        rows = whole[0].splitlines(True) if is_row else []
        steps = [self.run(words, lines[:count], written) for count in range(len(lines))] or [
            ("".join(rows[:count]), DONE, [BEFORE for _ in written]) for count in range(len(rows) + 1)]
        for failing in [*range(1, min(made, ALL) + 1), *range(ALL + 1, made + 1, max(1, (made - ALL) // SOME))]:
            found = self.run(words, lines, written, failing)
            if found != whole and not is_due(found, [*steps, whole]):
                differs(f"{words} with {lines}, the call {failing} of {made} refused", (found[::2], found[1]), (whole[::2], whole[1]))
            self.refused += found != whole
            self.all += 1


def is_due(found, steps):
    """Whether memory ran out behind one of the steps, and within the next one."""
    said, status, files = found
    return status == NO_MEMORY and any(
        said == f"{step[0]}no memory\n" and are_fronts(files, step[2], behind[2])
        for step, behind in zip(steps, [*steps[1:], steps[-1]]))


def are_fronts(files, before, behind):
    """Whether the first files are as they are behind a step, the next one is as before or has a front of its text, and all others are
    as before."""
    is_cut = False
    for held, old, due in zip(files, before, behind):
        if is_cut or held != due:
            if held != old and (is_cut or not due.startswith(held)):
                return False
            is_cut = True
    return True


def ask(scene, form, text, *lanes):
    """Each command on a file of this form."""
    scene.program.write("a", text)
    scene.refuse(["duals", form, "a"])
    scene.refuse(["convert", form, "a", "n"], written=["n"])
    scene.refuse(["solve", form, "a", "p", "c"], written=["p", "c"])
    scene.refuse(["check", form, "a", "c"])
    scene.refuse(["range", form, "a", "c", "site", "2"])
    scene.refuse(["range", form, "a", "c", "lane", "1", "1"])
    scene.refuse(["center", form, "a", "cp", "cc", "cn"], written=["cp", "cc", "cn"])
    scene.refuse(["curve", form, "a", "1", "3"], is_row=True)
    scene.refuse(["session", form, "a"], [line.format(*lanes) for line in LINES], ["k", "n"])
    if form == "ufl":
        scene.refuse(["solve", form, "a"])


def limits(program):
    """Where the host gives less memory than a file needs, that is said."""
    def short_of(words, **how):
        program.expect("no memory\n", NO_MEMORY, f"{words} within {MOST} bytes", *words, **how,
                       preexec_fn=lambda: resource.setrlimit(resource.RLIMIT_AS, (MOST, MOST)))

    sites, customers = 1000, 5000
    program.write("a", b"%d %d 0\n" % (sites, customers) + b"".join(b"%d 1" % site + b" 1" * customers + b"\n" for site in range(1, sites + 1)))
    asked = [["solve", "ufl", "a", "p", "c"], ["convert", "ufl", "a", "n"], ["duals", "ufl", "a"], ["solve", "ufl", "/dev/zero"],
             ["session", "ufl", "/dev/zero"]]
    for name in "pcn":
        with contextlib.suppress(FileNotFoundError):
            os.remove(program.at(name))
    for words in asked:
        short_of(words, stdin=subprocess.DEVNULL)
    if any(os.path.exists(program.at(name)) for name in "pcn"):
        sys.exit("check: a file is made without memory for its text")
    return len(asked)


def check(program):
    library = program.at("library.so")
    program.write("library.c", LIBRARY.encode())
    try:
        made = subprocess.run(["cc", "-O2", "-shared", "-fPIC", "-o", library, program.at("library.c")], capture_output=True)
    except FileNotFoundError:
        return "memory: SKIPPED, since there is no cc: no allocation is refused"
    if made.returncode:
        return f"memory: SKIPPED, since cc makes no such library: {made.stderr.decode(errors='replace').splitlines()[:1]}"
    scene = Scene(program, library)
    for row in FILES:
        ask(scene, *row)
    count = limits(program)
    return (f"memory: {scene.all} allocations refused, one in each run, of which {scene.refused} ended it as they have to; "
            f"{count} runs short of memory say so")


if __name__ == "__main__":
    main(check)
