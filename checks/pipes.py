"""Compares what a built program says of pipes with what it says of files that hold the same bytes: `pipes.py PROGRAM`.

A pipe can be opened once and read once, and gives its bytes in pieces. The same texts, among them some longer than
what a pipe holds, come as a file, as standard input from a file and from a pipe under the name /dev/stdin, as a
named pipe, and as the open pipe that a shell makes of `<(command)`.
"""
import os
import random
import subprocess
import threading
import time

from common import differs, main

NAMES = "a", "b"
PAUSE = 0.02


def pieces_of(text):
    """The text in a few pieces, of which some are long."""
    cuts = sorted(random.randrange(len(text) + 1) for _ in range(random.randrange(5)))
    return [text[a:b] for a, b in zip([0, *cuts], [*cuts, len(text)])]


def feed(end, text):
    """Writes the text to a pipe, piece after piece, as long as someone reads it, and closes it."""
    try:
        # A named pipe that is gone by then is no file to be made.
        opened = os.open(end, os.O_WRONLY) if isinstance(end, str) else end
    except FileNotFoundError:
        return
    with open(opened, "wb", buffering=0) as pipe:
        try:
            for piece in pieces_of(text):
                time.sleep(PAUSE)
                while piece:
                    piece = piece[pipe.write(piece):]
        except BrokenPipeError:
            pass


def in_background(end, text):
    # Where the program opens no pipe, the writer waits for it until this check ends.
    threading.Thread(target=feed, args=(end, text), daemon=True).start()


class Ways:
    """The ways in which a text can come to one run: each returns the word that names it."""

    def __init__(self, program):
        self.program, self.names = program, iter(NAMES)
        self.input, self.open = subprocess.DEVNULL, []

    def file(self, text):
        name = next(self.names)
        self.program.write(name, text)
        return name

    def named_pipe(self, text):
        name = next(self.names)
        os.mkfifo(self.program.at(name))
        in_background(self.program.at(name), text)
        return name

    def opened_pipe(self, text):
        reads, writes = os.pipe()
        self.open.append(reads)
        in_background(writes, text)
        return f"/dev/fd/{reads}"

    def input_pipe(self, text):
        self.opened_pipe(text)
        self.input = self.open[-1]
        return "/dev/stdin"

    def input_file(self, text):
        self.input = os.open(self.program.at(self.file(text)), os.O_RDONLY)
        self.open.append(self.input)
        return "/dev/stdin"

    def close(self):
        for it in self.open:
            os.close(it)
        for name in filter(os.path.lexists, map(self.program.at, NAMES)):
            os.remove(name)


ONE = ["input_file", "input_pipe", "named_pipe", "opened_pipe"]
BOTH = [("named_pipe", "file"), ("file", "named_pipe"), ("named_pipe", "named_pipe"), ("opened_pipe", "opened_pipe"),
        ("input_pipe", "named_pipe"), ("file", "input_file"), ("file", "input_pipe"), ("opened_pipe", "named_pipe")]


def answer(program, verb, texts, kinds):
    ways = Ways(program)
    try:
        words = [getattr(ways, kind)(text) for text, kind in zip(texts, kinds)]
        return program.ask(verb, "ufl", *words, stdin=ways.input, pass_fds=ways.open)
    finally:
        ways.close()


def compare(program, verb, texts, all_kinds):
    due = answer(program, verb, texts, ["file"] * len(texts))
    for kinds in all_kinds:
        found = answer(program, verb, texts, kinds)
        if found != due:
            differs(f"{verb} of {' and '.join(kinds)} with {[text[:60] for text in texts]}", found, due)


SMALL = b"FILE: a\n2 3 0\n1 10 1 2 9\n2 12 8 7 1\n"
CERTIFICATE = (b"dualoc-certificate 1\nsites 2 customers 3\nclaim optimal 22.000000\nopen 1\nserve 1 1 1\n"
               b"leaf 1 0\nv 11000000 2000000 9000000\nu\nend\n")


def wide(sites, customers):
    """An instance whose file is longer than a pipe holds."""
    rows = [[site, site * 7, *[random.randrange(10**6) for _ in range(customers)]] for site in range(1, sites + 1)]
    return b"\n".join(" ".join(map(str, row)).encode() for row in [[sites, customers, 0], *rows])


def deep(levels):
    """A certificate longer than a pipe holds, whose last leaf doesn't close."""
    leaf = b"leaf 1 0\nv 11000000 2000000 9000000\nu\n"
    tree = leaf
    for _ in range(levels):
        tree = b"lane 1 1\n" + tree + tree
    front = CERTIFICATE[:CERTIFICATE.index(b"leaf")]
    return front + tree[:-len(leaf)] + leaf.replace(b"9000000", b"8000000") + b"end\n"


def check(program):
    for text in [SMALL, SMALL[:-1], SMALL[:20], b"", b"x\n" * 100_000, wide(3, 2500), wide(4, 5000), wide(13, 5000)]:
        compare(program, "solve", [text], [(kind,) for kind in ONE])
    for texts in [(SMALL, CERTIFICATE), (SMALL, CERTIFICATE[:-4]), (SMALL, b""), (SMALL[:-2], CERTIFICATE),
                  (SMALL, deep(11)), (wide(13, 3000), CERTIFICATE)]:
        compare(program, "check", texts, BOTH)
    return f"pipes: {program.asked} answers, of pipes as of files"


if __name__ == "__main__":
    main(check)
