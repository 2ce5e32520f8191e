"""Pictures as SVG, of boxes, lines and text, in colours for a light page and for a dark one."""

from dataclasses import dataclass, field
from pathlib import Path
from xml.sax.saxutils import escape

# What a thing looks like: its colour on a light page, and on a dark one.
COLOURS = {
    "page": ("#ffffff", "#0d1117"),
    "ink": ("#1f2328", "#e6edf3"),
    "soft": ("#59636e", "#9198a1"),
    "rule": ("#d1d9e0", "#30363d"),
    "first": ("#0969da", "#4493f8"),
    "second": ("#bc4c00", "#f0883e"),
    "third": ("#8c959f", "#6e7681"),
    "first-tint": ("#ddf4ff", "#13233a"),
    "second-tint": ("#fff1e5", "#33200f"),
    "wrong": ("#cf222e", "#f85149"),
    "wrong-tint": ("#ffebe9", "#3c1618"),
}
FONT = "font-family:system-ui,-apple-system,'Segoe UI',Helvetica,Arial,sans-serif"


def rules(shade):
    """The style of each look, by the first colour of its pair or by the second."""
    return "".join(f".{look}{{fill:{pair[shade]}}}.{look}-line{{stroke:{pair[shade]}}}" for look, pair in COLOURS.items())


@dataclass
class Picture:
    """What is drawn so far. Lengths are pixels, from the top left."""

    parts: list = field(default_factory=list)

    def box(self, x, y, width, height, look, edge="", radius=0, dashed=False):
        lined = f" {edge}-line" if edge else ""
        dashes = ' stroke-dasharray="4 3"' if dashed else ""
        self.parts.append(f'<rect class="{look}{lined}" x="{x:g}" y="{y:g}" width="{width:g}" height="{height:g}" rx="{radius:g}"{dashes}/>')

    def line(self, x1, y1, x2, y2, look):
        self.parts.append(f'<path class="{look}-line" d="M{x1:g} {y1:g}L{x2:g} {y2:g}"/>')

    def text(self, x, y, words, look="ink", anchor="start", size=12, weight=400, clear=False):
        """Text, which the page's colour keeps clear of the lines below it where that is asked for."""
        around = " clear page-line" if clear else ""
        how = f'text-anchor="{anchor}" font-size="{size}" font-weight="{weight}"'
        self.parts.append(f'<text class="{look}{around}" x="{x:g}" y="{y:g}" {how}>{escape(words)}</text>')

    def svg(self, width, height, title):
        """The whole as a file's text, which says this title to who cannot see it."""
        style = f"text{{{FONT}}}.clear{{paint-order:stroke;stroke-width:3;stroke-linejoin:round}}{rules(0)}@media (prefers-color-scheme:dark){{{rules(1)}}}"
        head = f'<svg xmlns="http://www.w3.org/2000/svg" viewBox="0 0 {width:g} {height:g}" width="{width:g}" height="{height:g}" role="img">'
        page = f'<rect class="page" width="{width:g}" height="{height:g}"/>'
        lines = [head, f"<title>{escape(title)}</title>", f"<style>{style}</style>", page, *self.parts, "</svg>"]
        return "\n".join(lines) + "\n"

    def write(self, path, width, height, title):
        Path(path).write_text(self.svg(width, height, title))
