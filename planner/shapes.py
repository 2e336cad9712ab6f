"""Elements of an SVG picture as texts."""
from html import escape


def tag(name: str, inner: str = "", **values: object) -> str:
    """An element. `of` is its class, and underlines in the names of its values are hyphens."""
    shown = {("class" if key == "of" else key.replace("_", "-")): f"{it:.1f}" if isinstance(it, float) else it
             for key, it in values.items() if it != ""}
    words = "".join(f' {key}="{escape(str(it))}"' for key, it in shown.items())
    return f"<{name}{words}>{inner}</{name}>\n" if inner else f"<{name}{words}/>\n"


def write(x: float, y: float, text: str, of: str = "") -> str:
    return tag("text", escape(text), x=float(x), y=float(y), of=of)


def short(micro: int) -> str:
    """An amount with its thousands apart and at most two decimals, rounded."""
    cents = (micro + 5000) // 10000
    return f"{cents // 100:,}".replace(",", "\u2009") + (f".{cents % 100:02}" if cents % 100 else "")


def told(text: str) -> str:
    """What a browser shows of the mark that holds it, where the mouse points."""
    return tag("title", escape(text))


def square(x: float, y: float, half: float, colour: str, of: str, inner: str = "") -> str:
    return tag("rect", inner, x=x - half, y=y - half, width=2 * half, height=2 * half, fill=colour, of=of)


def cross(x: float, y: float, half: float, of: str, inner: str = "") -> str:
    side = 2 * half
    path = f"M{x - half:.1f} {y - half:.1f} l{side:.1f} {side:.1f} m0 {-side:.1f} l{-side:.1f} {side:.1f}"
    return tag("path", inner, d=path, stroke_width=half / 3, of=of)


def circle(x: float, y: float, radius: float, colour: str, of: str, inner: str = "") -> str:
    return tag("circle", inner, cx=x, cy=y, r=radius, fill=colour, of=of)


class Labels:
    """Names beside marks, each where it hides no other name and no mark: those of open sites may hide other marks at need."""

    def __init__(self, wide: float, high: float, open_marks: list[tuple], marks: list[tuple]):
        self.wide, self.high, self.open_marks, self.marks, self.names = wide, high, open_marks, marks, []

    def put(self, x: float, y: float, gap: float, text: str, size: int, of: str) -> str:
        """The name as an element, or nothing where there is no room."""
        wide = 0.64 * size * len(text)
        # Where the text is written, with its anchor, and its left and upper end.
        spots = [(x + gap, "", x + gap, y - size / 2), (x - gap, "right", x - gap - wide, y - size / 2),
                 (x, "middle", x - wide / 2, y - gap - size), (x, "middle", x - wide / 2, y + gap)]
        for marks in [self.marks, self.open_marks][:2 if of == "of-open" else 1]:
            for at, anchor, left, top in spots:
                right, foot = left + wide, top + size
                is_within = left > 0 and top > 0 and right < self.wide and foot < self.high
                if is_within and not any(a < right and c > left and b < foot and d > top for a, b, c, d in (*marks, *self.names)):
                    self.names.append((left, top, right, foot))
                    return write(at, top + 0.85 * size, text, f"label {of} {anchor}".strip())
        return ""
