"""What the checks share: a program to ask, the changes of a text, and a cost as it is printed."""
import os
import random
import subprocess
import sys
import tempfile

MICRO = 10**6
# What a program that hangs is given, in seconds.
PATIENCE = 100


def money(micro):
    return f"{micro // MICRO}.{micro % MICRO:06}"


class Program:
    """The built program, run in a folder for the files that it is asked about. It counts how often it was asked."""

    def __init__(self, path, folder):
        self.path, self.folder, self.asked = os.path.abspath(path), folder, 0

    def at(self, name):
        return os.path.join(self.folder, name)

    def write(self, name, text):
        with open(self.at(name), "wb") as file:
            file.write(text)

    def ask(self, *words, **how):
        """What the program prints, and its status."""
        self.asked += 1
        try:
            run = subprocess.run([self.path, *words], cwd=self.folder, stdout=subprocess.PIPE, timeout=PATIENCE, **how)
        except subprocess.TimeoutExpired:
            return "nothing", "no end"
        return run.stdout.decode(errors="replace"), run.returncode

    def expect(self, due, status, shown, *words, **how):
        """Stops where the program doesn't print what is due, with its status."""
        found = self.ask(*words, **how)
        if found != (due, status):
            differs(shown, found, (due, status))


def differs(shown, found, due):
    sys.exit(f"check: {shown!r}: {found[0]!r} with {found[1]}, and {due[0]!r} with {due[1]} is due")


def texts(original, pieces, count):
    """The text, its proper prefixes, the text without each byte, and random changes, which put in some of the pieces."""
    yield original
    for place in range(len(original)):
        yield original[:place]
        yield original[:place] + original[place + 1:]
    for _ in range(count):
        place = random.randrange(len(original) + 1)
        piece = bytes(random.choice(pieces) for _ in range(random.randrange(1, 3)))
        yield original[:place] + piece + original[place + random.randrange(3):]


def main(compare):
    """Hands the program that the command line names, and the words behind it, to a check, and prints its line."""
    random.seed(1)
    with tempfile.TemporaryDirectory() as folder:
        print(compare(Program(sys.argv[1], folder), *sys.argv[2:]))
