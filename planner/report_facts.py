"""What a report says: an answer that `check` has judged anew, what it rests on with checksums, and how anyone repeats it."""
import base64
import hashlib
import os
import platform
import shlex
import subprocess
from dataclasses import dataclass, field

from .answer import Answer, plan_of_certificate
from .cells import Refusal
from .names import Names, checksum
from .program import TOP, Program

# What has at most so many bytes stands within the report, so that it can be taken out of it and judged again.
MOST_WITHIN = 4_000_000


@dataclass(frozen=True)
class Source:
    """A file that the report rests on: what it is, its name there, its checksum, and its bytes where the report holds them."""

    what: str
    name: str
    checksum: str
    bytes: int
    body: bytes | None = field(default=None, repr=False)

    @property
    def link(self) -> str | None:
        """An address that holds the bytes themselves."""
        return None if self.body is None else f"data:application/octet-stream;base64,{base64.b64encode(self.body).decode()}"


def source(what: str, path: str, name: str | None = None) -> Source:
    """A file as it is now, under its own name or the one by which the report calls it."""
    with open(path, "rb") as file:
        body = file.read()
    return Source(what, name or os.path.basename(path), hashlib.sha256(body).hexdigest(), len(body),
                  body if len(body) <= MOST_WITHIN else None)


@dataclass(frozen=True)
class SheetThen:
    """A sheet of which the instance was made, with the checksum that it had then, and what is so of it now."""

    name: str
    checksum: str
    now: str


def sheets_of(named: Names) -> list[SheetThen]:
    """The sheets that a file of names tells, held against what is there now."""
    found = []
    for path, then in named.sheets:
        try:
            now = "as it was" if checksum(path) == then else "has changed since"
        except (OSError, Refusal):
            now = "isn't there now"
        found.append(SheetThen(os.path.basename(path), then, now))
    return found


@dataclass(frozen=True)
class Facts:
    """All that a report shows. `said` is the line of `check`, and `edits` what the session changed, each in a line."""

    title: str
    unit: str
    answer: Answer
    base: Answer | None
    said: str
    sources: list[Source]
    sheets: list[SheetThen]
    versions: list[tuple[str, str]]
    commands: list[str]
    edits: list[str] = field(default_factory=list)


def judged(answer: Answer) -> str:
    """The line of `check` for the answer's files, judged now. Refused unless it is a yes to just the answer's claim, and the
    certificate's plan is the answer's."""
    said = answer.check()
    if not answer.has_plan:
        return said
    *_, opened, served = plan_of_certificate(answer.certificate_file)
    if sorted(opened) != sorted(answer.open) or dict(zip(answer.customers, served)) != {c: s for c, (s, _) in answer.served.items()}:
        raise Refusal(f"{answer.certificate_file}: its plan isn't the one that is shown")
    return said


def commit() -> str | None:
    """The commit of the checkout that the package stands in, and whether files differ from it."""
    try:
        asked = lambda *words: subprocess.run(["git", "-C", TOP, *words], capture_output=True, text=True, check=True).stdout.strip()
        found = asked("rev-parse", "HEAD")
        return found + (" and changes to it" if asked("status", "--porcelain", "--untracked-files=no") else "")
    except (OSError, subprocess.CalledProcessError):
        return None


def versions(program: Program) -> list[tuple[str, str]]:
    """What made the report, and judged the certificate."""
    proofs = "checked on this machine" if program.is_proved else "not checked on this machine; ./dualoc --prove does"
    if program.words != [f"{TOP}/dualoc"]:
        proofs = "not told: another program than this checkout's was run"
    found = commit()
    return [*([("dualoc, commit", found)] if found else []), ("proofs of the program", proofs),
            ("python", f"{platform.python_version()} on {platform.system()} {platform.machine()}")]


def from_sheets(named: Names, instance: str, names: str) -> list[str]:
    """The commands that hold an instance against the sheets that it was made of, where these are told."""
    paths = {path for path, _ in named.sheets}
    words = [os.path.basename(it) if it in paths else it for it in named.words()]
    return [shlex.join(["./dualoc", "compare", *words[:2], instance, names, *words[2:]])] if words else []


def commands(sources: list[Source], named: Names, claim: str, lines: list[str]) -> list[str]:
    """The commands by which anyone repeats it, in a folder with these files: that they are the ones of the report; that the instance
    is what the sheets say and, where a session edited it, what these lines make of that; the judgement; and another solve."""
    name = {it.what: it.name for it in sources}
    base, base_names = (name.get(f"base {it}", name[it]) for it in ("instance", "names"))
    edited = [shlex.join(["./dualoc", "console", base, base_names]) + " <<'END'", *lines, "save again.own", "END",
              shlex.join(["cmp", "again.own", name["instance"]])] if lines else []
    return [shlex.join(["sha256sum", *name.values()]), *from_sheets(named, base, base_names), *edited,
            f"{shlex.join(['./dualoc', 'check', 'own', name['instance'], name['certificate']])}   # yes {claim}",
            shlex.join(["./dualoc", "solve", "own", name["instance"], "again.txt", "again.cert"])]
