"""The program and the desk: how they are found, built once and started. All that is said of an optimum comes from them."""
import os
import shlex
import shutil
import subprocess
import tempfile
from collections.abc import Callable

from .cells import Refusal

TOP = os.path.dirname(os.path.dirname(os.path.realpath(__file__)))
UNSURE = "weren't checked on this machine"
# The least instance, for a desk that is asked about its store alone.
TINY = "dualoc-instance 1\nsites 1 next 2\ncustomers 1 next 2\ncount 0 3000\ncustomer 1 0.000000\nsite 1 0.000000 none 0.000000\nend\n"


def find() -> list[str]:
    """The words that start the program: $DUALOC, the script of this checkout, or `dualoc` on the path. Refused where there is none."""
    told = os.environ.get("DUALOC")
    if told:
        first, *rest = [told] if os.path.isfile(told) else shlex.split(told)
        return [os.path.abspath(first) if os.path.isfile(first) else first, *rest]
    if os.path.isfile(f"{TOP}/dualoc"):
        return [f"{TOP}/dualoc"]
    found = shutil.which("dualoc")
    if not found:
        raise Refusal("the program isn't found: run this in its checkout, or let DUALOC name the script dualoc")
    return [found]


class Program:
    """The program that is started by these words. `say` is told what it says while it is built."""

    def __init__(self, words: list[str] | str | None = None, say: Callable[[str], None] | None = None):
        self.words = [os.path.abspath(words)] if isinstance(words, str) else list(words or find())
        self.say, self.built, self.is_proved = say or (lambda text: None), set(), True

    def ready(self, name: str = "dualoc") -> None:
        """Has the program, or the desk, built where it isn't yet. Refused where that fails."""
        if name in self.built:
            return
        with tempfile.TemporaryDirectory() as folder:
            with open(f"{folder}/tiny.own", "w", encoding="ascii") as file:
                file.write(TINY)
            words = ["desk", "own", f"{folder}/tiny.own", f"{folder}/store"] if name == "desk" else ["session", "own", f"{folder}/tiny.own"]
            try:
                with subprocess.Popen([*self.words, *words], stdin=subprocess.DEVNULL, stdout=subprocess.DEVNULL,
                                      stderr=subprocess.PIPE, text=True, errors="replace") as run:
                    said = [self.told(line.strip()) for line in run.stderr]
            except OSError as why:
                raise Refusal(f"{self.words[0]} can't be run: {why.strerror}") from None
        if run.returncode:
            raise Refusal(f"{self.words[0]} can't be run: it ends with {run.returncode}" + (f" and says {said[-1]!r}" if said else ""))
        self.built.add(name)

    def told(self, line: str) -> str:
        """Passes on a line of standard error, and notes whether the proofs were checked."""
        if UNSURE in line:
            self.is_proved = False
        self.say(line)
        return line

    def start(self, *words: str, at: str) -> subprocess.Popen:
        """Starts it at two pipes, in the folder `at`, and apart from the terminal, so that Ctrl-C reaches the caller alone."""
        self.ready("desk" if words[0] == "desk" else "dualoc")
        return subprocess.Popen([*self.words, *words], cwd=at, stdin=subprocess.PIPE, stdout=subprocess.PIPE,
                                stderr=subprocess.DEVNULL, start_new_session=True)

    def run(self, *words: str) -> tuple[int, str]:
        """Runs it to its end: its status, and what it prints."""
        self.ready()
        ran = subprocess.run([*self.words, *words], stdin=subprocess.DEVNULL, stdout=subprocess.PIPE, stderr=subprocess.DEVNULL,
                             start_new_session=True)
        return ran.returncode, ran.stdout.decode(errors="replace").strip()

    def check(self, instance: str, certificate: str) -> str:
        """What `check` says of a certificate of an instance in the suite's own form: its line."""
        status, said = self.run("check", "own", instance, certificate)
        if status not in (0, 3):
            raise Refusal(f"{certificate}: check says {said!r}")
        return said
