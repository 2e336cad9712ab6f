"""Holds the names of definitions apart: `names.py`, which needs no program.

A name that several pages of `specs/` define, in one crate or in several, has several meanings, and whoever reads a contract
has to look which one is meant. Those that are known are listed below, and the list may only shrink: a name that isn't on it,
or that no longer has several meanings, is a fault. What docs/DEFINITIONS.md and docs/TRUST.md name is to have one meaning.
"""
import re
import sys
from collections import defaultdict

from crates import ROOT, heads, listed, pages

# Names in docs/DEFINITIONS.md or docs/TRUST.md that have several meanings still.
NAMED = """IsAnswerTo IsDecided IsVerdict end_of head_at lane_at least_cost numbered""".split()
# Other names of definitions that have several.
OTHERS = """Answers AreAlike AreRooms AreWhole GoesOn IsKept IsLaneWalk IsLine IsNoWorse IsReached IsReady IsSearch IsSound
IsStored IsUnread PassesLimit Suits array_sizes behind chosen claim_in cost_in counted customer_at entries_of is_among
is_line_feed is_named joined lesser lowered nodes_shown placed plan_of read_faults_of write_faults_of""".split()


def defined():
    """The pages that define each name."""
    found = defaultdict(list)
    for crate in listed():
        for page in pages(crate):
            for name in {name for _, name, _ in heads(page)}:
                found[name].append(f"{crate}/{page.stem}")
    return found


def main():
    found = defined()
    several = {name: places for name, places in found.items() if len(places) > 1}
    texts = "".join((ROOT / "docs" / name).read_text() for name in ("DEFINITIONS.md", "TRUST.md"))
    named = {*re.findall(r"`(\w+)`", texts)} & {*several}
    faults = [f"{name} of {' and '.join(several[name])}: " + (
        "docs/DEFINITIONS.md or docs/TRUST.md names it, and it has several meanings" if name in named else "a name with several meanings")
        for name in sorted(several) if name not in (NAMED if name in named else OTHERS)]
    faults += [f"{name} is on the list of checks/names.py, and has one meaning now, or is named elsewhere"
               for name in sorted({*NAMED} - named) + sorted({*OTHERS} - ({*several} - named))]
    if faults:
        sys.exit("\n".join(faults))
    print(f"names: {len(found)} names of definitions, of which {len(several)} have several meanings, as is known")


if __name__ == "__main__":
    main()
