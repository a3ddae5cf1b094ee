"""A picture as SVG, which docs/pictures/draw and bench/chart put together: texts, boxes and lines on a ground of its own, with a title and a description."""
import sys
from html import escape
from pathlib import Path

WIDTH = 880
MARGIN = 20
LINE = 17

STYLES = {
    "=": ("#1f5f8b", "#1f5f8b", "", "#ffffff"),
    "~": ("#e4eff8", "#1f5f8b", "5 3", "#1b1f24"),
    "?": ("#fdf0d5", "#9a6700", "2 3", "#1b1f24"),
    "x": ("#ffffff", "#b0452f", "2 3", "#b0452f"),
    "-": ("#f6f8fa", "#8c959f", "", "#1b1f24"),
    "run": ("#e4eff8", "#1f5f8b", "", "#1b1f24"),
    "law": ("#fdf0d5", "#9a6700", "", "#1b1f24"),
    "test": ("#eff1f3", "#8c959f", "", "#1b1f24"),
}
INK, MUTED, RED = "#1b1f24", "#57606a", "#b0452f"
FONT = "'DejaVu Sans', Verdana, Arial, sans-serif"

# How wide a character is, of its size: as a wide common font has them, so that a text fits in others too.
NARROW = {**dict.fromkeys("ijl'|", 0.28), **dict.fromkeys("ftr.,:; ()[]!I-", 0.4), **dict.fromkeys("mwMW@%", 0.98), **dict.fromkeys("+=<>#", 0.84)}


class Misfit(Exception):
    """A text that can't be drawn."""


def width_of(text, size=13, bold=False):
    return sum(NARROW.get(each, 0.72 if each.isupper() else 0.62) for each in text) * size * (1.1 if bold else 1)


def wrapped(text, room, size=13):
    lines = [""]
    for word in text.split():
        longer = f"{lines[-1]} {word}".strip()
        if width_of(longer, size) > room and lines[-1]:
            lines.append(word)
        else:
            lines[-1] = longer
    return lines


class Picture:
    def __init__(self, title, desc):
        self.title, self.desc, self.drawn, self.height = title, desc, [], 0

    def add(self, drawn, bottom):
        self.drawn.append(drawn)
        self.height = max(self.height, bottom)

    def text(self, x, y, text, size=13, colour=INK, anchor="start", bold=False, room=None, is_over=False):
        wide = width_of(text, size, bold)
        left = x - {"start": 0, "middle": wide / 2, "end": wide}[anchor]
        if left < 4 or left + wide > WIDTH - 4 or (room is not None and wide > room):
            raise Misfit(f"no room for: {text}")
        halo = ' stroke="#ffffff" stroke-width="4" paint-order="stroke" stroke-linejoin="round"' if is_over else ""
        weight = ' font-weight="bold"' if bold else ""
        self.add(f'<text x="{x:g}" y="{y:g}" font-size="{size}" fill="{colour}" text-anchor="{anchor}"{weight}{halo}>{escape(text)}</text>', y + 5)

    def box(self, x, y, wide, high, style, radius=4):
        fill, stroke, dashes, _ = STYLES[style]
        dashed = f' stroke-dasharray="{dashes}"' if dashes else ""
        self.add(f'<rect x="{x:g}" y="{y:g}" width="{wide:g}" height="{high:g}" rx="{radius}" fill="{fill}" stroke="{stroke}"{dashed}/>', y + high)

    def bar(self, x, y, wide, high, colour):
        self.add(f'<rect x="{x:g}" y="{y:g}" width="{wide:g}" height="{high:g}" fill="{colour}"/>', y + high)

    def dot(self, x, y, colour, radius=3.5):
        self.add(f'<circle cx="{x:g}" cy="{y:g}" r="{radius}" fill="{colour}"/>', y + radius)

    def line(self, points, colour=MUTED, dashes="", arrow=False, wide=1.3):
        dashed = f' stroke-dasharray="{dashes}"' if dashes else ""
        ended = ' marker-end="url(#arrow)"' if arrow else ""
        path = " ".join(f"{x:g},{y:g}" for x, y in points)
        self.add(f'<polyline points="{path}" fill="none" stroke="{colour}" stroke-width="{wide}"{dashed}{ended}/>', max(y for _, y in points))

    def legends(self, pairs):
        x, y = MARGIN, self.height + 22
        for style, text in pairs:
            if x > MARGIN and x + 34 + width_of(text, 12) > WIDTH - MARGIN:
                x, y = MARGIN, y + 22
            self.box(x, y - 11, 22, 13, style, 2)
            self.text(x + 30, y, text, 12, MUTED)
            x += 50 + width_of(text, 12)

    def svg(self):
        high = self.height + 16
        head = [
            f'<svg xmlns="http://www.w3.org/2000/svg" width="{WIDTH}" height="{high:g}" viewBox="0 0 {WIDTH} {high:g}" role="img" aria-labelledby="title desc">',
            f'<title id="title">{escape(self.title)}</title>',
            f'<desc id="desc">{escape(self.desc)}</desc>',
            f'<defs><marker id="arrow" viewBox="0 0 10 10" refX="9" refY="5" markerWidth="8" markerHeight="8" orient="auto"><path d="M0,1 L10,5 L0,9 z" fill="{MUTED}"/></marker></defs>',
            f'<rect x="0.5" y="0.5" width="{WIDTH - 1}" height="{high - 1:g}" rx="6" fill="#ffffff" stroke="#d0d7de"/>',
            f'<g font-family="{FONT}">',
        ]
        return "\n".join([*head, *self.drawn, "</g>", "</svg>", ""])


def drawn_or_told(path, text, source, is_check):
    """Writes the picture, or tells where it is not what its source gives."""
    if not is_check:
        path.parent.mkdir(exist_ok=True)
        path.write_text(text)
    elif not path.exists() or path.read_text() != text:
        yield f"{path.name} is not what {source}"


def main(faults_of, default, unread=Misfit):
    """Draws, or with --check looks at, what the command line names, and prints what is wrong."""
    words = [word for word in sys.argv[1:] if word != "--check"]
    try:
        found = [*faults_of(Path(words[0]) if words else default, "--check" in sys.argv[1:])]
    except unread as wrong:
        found = [f"can't be drawn: {wrong}"]
    for fault in found:
        print(fault)
    return 1 if found else 0
