"""What every window of a board shows: a state in sections, and by versions what changed of it."""
import json
import threading
from collections import deque

# These sections are rows by ids, and of them only the rows that changed are sent.
KEYED = "sites", "customers", "plan", "loads"
# A window that missed more changes than these takes the whole state again.
MOST_KEPT = 300


def difference(before: dict, after: dict) -> dict:
    """The rows that came or changed, and nothing for those that are gone."""
    changed = {key: row for key, row in after.items() if (old := before.get(key)) is not row and old != row}
    return changed | {key: None for key in before if key not in after}


def text(it) -> str:
    return json.dumps(it, ensure_ascii=False, separators=(",", ":"))


class Hub:
    """The state and its changes. Any thread may put, read or wait."""

    def __init__(self):
        self.state: dict = {name: {} for name in KEYED}
        self.version, self.changes, self.moved = 0, deque(maxlen=MOST_KEPT), threading.Condition()

    def put(self, **sections) -> int:
        """Takes sections anew, and tells those who wait what changed. A section isn't changed once it was put."""
        with self.moved:
            change = {}
            for name, value in sections.items():
                part = difference(self.state[name], value) if name in KEYED else value
                if part if name in KEYED else name not in self.state or self.state[name] != value:
                    change[name] = part
                self.state[name] = value
            if change:
                self.version += 1
                self.changes.append((self.version, text(change)))
                self.moved.notify_all()
            return self.version

    def whole(self) -> str:
        with self.moved:
            return text({"version": self.version, "state": self.state})

    def since(self, version: int, seconds: float) -> list[tuple[int, str]] | None:
        """The changes behind a version, waited for at most so long; nothing at all where they aren't kept any more."""
        with self.moved:
            if version >= self.version:
                self.moved.wait_for(lambda: self.version > version, seconds)
            found = [it for it in self.changes if it[0] > version]
            is_kept = len(found) == self.version - version
            return found if is_kept else None
