"""What a built program answers where its words, files or streams are such as nobody means: `hostile.py PROGRAM`.

Words that are no text, empty or long; folders, devices, links and pipes in the place of each file; disks that are full; sizes behind
which nothing stands, numbers of a million digits, trees of a million splits; and streams that are closed, full or read by nobody. Each
has the one answer of docs/FORMATS.md, and leaves the files that are written as that says. Long lines and inputs of sessions are in
`talks.py`, and pipes that are read in `pipes.py`.
"""
import contextlib
import os
import resource
import subprocess
import threading

from common import PATIENCE, differs, main
from instances import BAD_INPUT, DONE, TOO_LARGE
from pipes import CERTIFICATE, SMALL
from solve import READ_FAULT, USAGE, WRITE_FAULT

CHECK_NO = 3
LINES = {READ_FAULT: "read fault\n", WRITE_FAULT: "write fault\n", USAGE: "usage\n"}
BEFORE = b"before\n" * 100
# Each command on good files, of which it reads `a` and `k` and writes the others.
COMMANDS = [it.split() for it in ("solve ufl a", "solve ufl a p c", "check ufl a k", "convert ufl a n", "range ufl a k site 1",
                                  "center ufl a cp cc cn", "curve ufl a 0 3", "duals ufl a", "session ufl a")]
SEARCH, CHECK, CONVERSION, RANGE, CENTER = COMMANDS[1:6]
WRITTEN = ["p", "c", "n", "cp", "cc", "cn"]
NO_FILES = [".", "a/a", "nowhere/a", "loop", "x" * 300, "y/" * 2500]
UNREADABLE = [*NO_FILES, "nothing", "z" * 100_000, "--help", "/proc/self/mem"]
UNWRITABLE = [*NO_FILES, "/dev/full", "/proc/version"]
MILLION = 10**6
PLAN_FRONT = CERTIFICATE[:CERTIFICATE.index(b"leaf")]


class Scene:
    """The program, good files for its commands, and what these come to."""

    def __init__(self, program):
        self.program, self.count = program, 0
        program.write("a", SMALL)
        program.write("k", CERTIFICATE)
        os.symlink("loop", program.at("loop"))
        self.whole = [self.run(words) for words in COMMANDS]
        self.text = {name: found[2][name] for words, found in zip(COMMANDS, self.whole) for name in WRITTEN if name in words}

    def run(self, words, **how):
        """What is said, with its status, and what the written files then hold."""
        for name in WRITTEN:
            self.program.write(name, BEFORE)
        said, status = self.program.ask(*words, **({"stdin": subprocess.DEVNULL} | how))
        held = {}
        for name in WRITTEN:
            with open(self.program.at(name), "rb") as file:
                held[name] = file.read()
        self.count += 1
        return said, status, held

    def expect(self, words, due, status, left=None, **how):
        """Stops where another answer comes, or where a file isn't left so, or else as it was."""
        said, ended, held = self.run(words, **how)
        wanted = {name: BEFORE for name in WRITTEN} | (left or {})
        if (said, ended, held) != (due, status, wanted):
            differs([word[:40] for word in words[:9]], ((said, held), ended), ((due, wanted), status))

    def refuse(self, words, status, left=None, **how):
        self.expect(words, LINES[status], status, left, **how)


def put(words, place, word):
    return [*words[:place], word, *words[place + 1:]]


def odd_words(scene):
    """Words that are no text or no words are no command, wherever they stand, and neither are too many."""
    for words in COMMANDS:
        for place in range(len(words)):
            for word in b"\xff", os.fsencode(words[place]) + b"\xc3", b"", b"\xed\xa0\x80":
                scene.refuse(put(words, place, word), USAGE)
        scene.refuse([*words, *map(str, range(10_000))], USAGE)
    scene.refuse(["w" * 100_000], USAGE)


def odd_files(scene):
    """Names that can't be read, or not be written, in each place. Where a file can't be written, those before it are whole."""
    for words in COMMANDS:
        for place in [k for k, word in enumerate(words) if word in ("a", "k", *WRITTEN)]:
            is_written = words[place] in WRITTEN
            left = {name: scene.text[name] for name in words[2:place] if is_written and name in WRITTEN}
            for name in UNWRITABLE if is_written else UNREADABLE:
                scene.refuse(put(words, place, name), WRITE_FAULT if is_written else READ_FAULT, left)
    scene.expect(put(CHECK, 2, "/dev/null"), "bad input Ended line 1 word 1\n", BAD_INPUT)
    for words in CHECK, RANGE:
        scene.expect(put(words, 3, "/dev/null"), "no Ended line 1\n", CHECK_NO)
    scene.expect(put(CHECK, 2, "/dev/zero"), "too large instance\n", TOO_LARGE)
    scene.expect(put(CHECK, 3, "/dev/zero"), "too large certificate\n", TOO_LARGE)
    with open("/dev/zero", "rb") as zeros:
        scene.expect(COMMANDS[-1], "too large line\n", TOO_LARGE, stdin=zeros)


def odd_sizes(scene):
    """Files that promise much and hold little, long numbers, and deep trees."""
    files = [("ufl", b"3000 3333 0\n", "Ended line 1 word 4"), ("cap", b"3000 3333\n", "Ended line 1 word 3"),
             ("pmed", b"3000 10000000 1\n", "Ended line 1 word 4"),
             ("own", b"dualoc-instance 1 sites 3000 next 4000 customers 3333 next 4000 count 0 3000", "Ended line 1 word 14"),
             ("ufl", b"9" * MILLION, "TooBig line 1 word 1"), ("ufl", b"0" * MILLION + b"1 1 0 1", "Ended line 1 word 5"),
             ("ufl", b"1 1 0 1 0." + b"0" * MILLION + b"1 1", "TooFine line 1 word 5"), ("own", b"x" * MILLION, "BadWord line 1 word 1"),
             ("ufl", b"\n" * MILLION, "Ended line 1 word 1"), ("ufl", b"FILE:" + b" x" * MILLION, f"Ended line 1 word {MILLION + 2}")]
    for form, text, fault in files:
        scene.program.write("odd", text)
        scene.expect(["duals", form, "odd"], f"bad input {fault}\n", BAD_INPUT)
    texts = [(b"leaf 1 0\nv 11000000 2000000 " + b"9" * 100 + b"\nu\nend\n", "OutOfRange line 7"),
             (b"leaf 1 0\nv 11000000 2000000 -" + b"9" * MILLION + b"\nu\nend\n", "OutOfRange line 7"),
             (b"leaf 1 0\nv " + b"1 " * MILLION + b"\n", "BadLine line 7"), (b"leaf 1 0\nv 0 0 " + b"0" * MILLION + b"\n", "NotCanonical line 7"),
             (b"site 1\n" * MILLION, f"Ended line {MILLION + 6}"), (b"lane 2 3\n" * MILLION + b"end\n", f"BadLine line {MILLION + 6}"),
             (b"x" * MILLION, "Ended line 6"), (b"\xff\0\n", "BadLine line 6")]
    for text, fault in texts:
        scene.program.write("odd", PLAN_FRONT + text)
        for words in CHECK, RANGE:
            scene.expect(put(words, 3, "odd"), f"no {fault}\n", CHECK_NO)


def bad_outputs():
    """Outputs that take nothing, each with how a program gets it."""
    @contextlib.contextmanager
    def unread():
        reads, writes = os.pipe()
        os.close(reads)
        yield {"stdout": writes}
        os.close(writes)

    @contextlib.contextmanager
    def full():
        with open("/dev/full", "wb") as sink:
            yield {"stdout": sink}

    closed = lambda *ends: contextlib.nullcontext({"preexec_fn": lambda: [os.close(end) for end in ends]})
    return {"unread": unread(), "full": full(), "closed": closed(1), "closed with the input": closed(0, 1), "closed, all": closed(0, 1, 2)}


def odd_outputs(scene):
    """A result that isn't printed is a write fault, though its files are whole; other lines keep their statuses."""
    asked = [(words, WRITE_FAULT, found[2]) for words, found in zip(COMMANDS[:-1], scene.whole)]
    asked += [(["frobnicate"], USAGE, {}), (["duals", "ufl", "nothing"], READ_FAULT, {}), (["duals", "own", "a"], BAD_INPUT, {})]
    for words, status, left in asked:
        for kind, output in bad_outputs().items():
            for name in WRITTEN:
                scene.program.write(name, BEFORE)
            with output as how:
                run = subprocess.run([scene.program.path, *words], cwd=scene.program.folder, timeout=PATIENCE, **how)
            for name in WRITTEN:
                with open(scene.program.at(name), "rb") as file:
                    held, due = file.read(), left.get(name, BEFORE)
                if (held, run.returncode) != (due, status):
                    differs(f"{words} with an output that is {kind}: the file {name}", (held, run.returncode), (due, status))
            scene.count += 1


def odd_inputs(scene):
    """No command but a session needs an input, and a session whose input is closed, or is a folder, ends before its first line."""
    for words, (said, status, left) in zip(COMMANDS, scene.whole):
        scene.expect(words, said, status, left, stdin=None, preexec_fn=lambda: os.close(0))
    folder = os.open(scene.program.folder, os.O_RDONLY)
    scene.refuse(COMMANDS[-1], READ_FAULT, stdin=folder)
    os.close(folder)


def full_disks(scene):
    """A file takes only so many bytes: what is written is a front of its text."""
    plan, certificate, new = (scene.text[name] for name in WRITTEN[:3])
    for size in {0, 1, len(plan) - 1, len(plan), len(plan) + 1, len(certificate) - 1, len(certificate)}:
        how = {"restore_signals": False, "preexec_fn": lambda: resource.setrlimit(resource.RLIMIT_FSIZE, (size, size))}
        if size < len(plan):
            scene.refuse(SEARCH, WRITE_FAULT, {"p": plan[:size]}, **how)
        elif size < len(certificate):
            scene.refuse(SEARCH, WRITE_FAULT, {"p": plan, "c": certificate[:size]}, **how)
        else:
            scene.expect(SEARCH, scene.whole[1][0], DONE, {"p": plan, "c": certificate}, **how)
        scene.refuse(CONVERSION, WRITE_FAULT, {"n": new[:size]}, **how)
        scene.expect(COMMANDS[-1], "refused WriteFailed\n", DONE, {"n": new[:size]}, stdin=None, input=b"save n\n", **how)
    names = CENTER[3:]
    for size in {max(0, len(scene.text[name]) + more) for name in names for more in (-1, 0)}:
        how = {"restore_signals": False, "preexec_fn": lambda: resource.setrlimit(resource.RLIMIT_FSIZE, (size, size))}
        cut = next((k for k, name in enumerate(names) if len(scene.text[name]) > size), len(names))
        left = {name: scene.text[name][:size] for name in names[:cut + 1]}
        said, status = (LINES[WRITE_FAULT], WRITE_FAULT) if cut < len(names) else scene.whole[COMMANDS.index(CENTER)][:2]
        scene.expect(CENTER, said, status, left, **how)


def full_mount(scene):
    """A disk of one block: the plan fills it, and nothing is left for the certificate. Whether there was one."""
    disk = scene.program.at("disk")
    os.mkdir(disk)
    mount = ["mount", "-t", "tmpfs", "-o", "size=4096", "none", disk]
    if subprocess.run(mount, stdout=subprocess.DEVNULL, stderr=subprocess.DEVNULL).returncode:
        return False
    try:
        scene.refuse(["solve", "ufl", "a", "disk/p", "disk/c"], WRITE_FAULT)
        held = {}
        for name in "pc":
            with open(os.path.join(disk, name), "rb") as file:
                held[name] = file.read()
        if held != {"p": scene.text["p"], "c": b""}:
            differs("a disk of one block", (held, WRITE_FAULT), ("the plan alone", WRITE_FAULT))
        scene.refuse(["convert", "ufl", "a", "disk/n"], WRITE_FAULT)
    finally:
        subprocess.run(["umount", disk], check=True)
    return True


def odd_pipes(scene):
    """A pipe that is read takes a text as a file does; one that its reader has left is a write fault, and no signal ends the program."""
    def read(pipe, held, count):
        with open(pipe, "rb") as end:
            held.append(end.read(count))

    # Both texts are longer than what a pipe holds.
    scene.program.write("wide", b"1 5000 0\n1 1" + b" 999999999" * 5000)
    said, _, whole = scene.run(put(SEARCH, 2, "wide"))
    for name, other in ("p", "c"), ("c", "p"):
        for count in -1, 0:
            os.mkfifo(scene.program.at("pipe"))
            held = []
            reader = threading.Thread(target=read, args=(scene.program.at("pipe"), held, count), daemon=True)
            reader.start()
            words = ["pipe" if word == name else word for word in put(SEARCH, 2, "wide")]
            if count == 0:
                scene.refuse(words, WRITE_FAULT, {"p": whole["p"]} if name == "c" else {})
            else:
                scene.expect(words, said, DONE, {other: whole[other]})
                reader.join(PATIENCE)
                if held != [whole[name]]:
                    differs(f"a pipe in the place of {name}", (held, DONE), (whole[name], DONE))
            os.remove(scene.program.at("pipe"))


def check(program):
    scene = Scene(program)
    for part in odd_words, odd_files, odd_sizes, odd_outputs, odd_inputs, full_disks, odd_pipes:
        part(scene)
    mounted = "a full disk among them" if full_mount(scene) else "without a full disk, since none can be mounted here"
    return f"hostile: {scene.count} answers to words, files and streams that nobody means, each the one that is due, {mounted}"


if __name__ == "__main__":
    main(check)
