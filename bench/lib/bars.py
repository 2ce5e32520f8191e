"""Bars of figures beside those of a reference, as SVG: a bar as long as the reference's ends at 1."""

import math
from dataclasses import dataclass

from lib.drawing import Picture

# In pixels: where the names end and the bars begin, a bar's place, what stands above the bars of a group, a column, and how much of that is bars.
NAMED, BAR, GAP, COLUMN, PLOT = 124, 17, 30, 390, 310


@dataclass
class Bar:
    """A name, a look, and a figure for each column, or None."""

    name: str
    look: str
    figures: list


@dataclass
class Group:
    """A name, the reference's figure for each column, or None, and the bars beside it."""

    name: str
    reference: list
    bars: list

    def ratio(self, bar, column):
        figure, reference = bar.figures[column], self.reference[column]
        return figure / reference if figure is not None and reference else None

    def height(self):
        return GAP + BAR * len(self.bars)


@dataclass
class Panel:
    """A title, the heads of its columns, and its groups."""

    title: str
    heads: list
    groups: list

    def scale(self):
        """The ratio at the right end of each column."""
        ratios = [group.ratio(bar, column) for group in self.groups for bar in group.bars for column in range(len(self.heads))]
        return max(2, math.ceil(2 * max((it for it in ratios if it), default=1)) / 2)

    def height(self):
        return 78 + sum(group.height() for group in self.groups)


def draw_group(picture, group, column, left, top, unit):
    """The bars of a group in a column, each with its ratio and its figure behind it."""
    reference = group.reference[column]
    picture.text(left + unit + 5, top + 14, "not measured" if reference is None else f"the reference {reference:.3g}", "soft", size=10, clear=True)
    for place, bar in enumerate(group.bars):
        y, ratio = top + GAP - 8 + place * BAR, group.ratio(bar, column)
        if ratio is not None:
            end = left + ratio * unit
            picture.box(left, y, ratio * unit, BAR - 4, bar.look, radius=2)
            picture.text(end + 4, y + 10, f"{ratio:.2f}", size=11, weight=600, clear=True)
            picture.text(end + 36, y + 10, f"{bar.figures[column]:.3g}", "soft", size=10, clear=True)


def draw_panel(picture, panel, top):
    """A panel from this height on."""
    picture.text(16, top, panel.title, size=14, weight=600)
    unit = PLOT / panel.scale()
    first, bottom = top + 48, top + panel.height() - 38
    for column, head in enumerate(panel.heads):
        left = NAMED + column * COLUMN
        picture.text(left, first - 22, head, "soft")
        for half in range(int(2 * panel.scale()) + 1):
            at = left + half / 2 * unit
            picture.line(at, first, at, bottom, "soft" if half == 2 else "rule")
            picture.text(at, first - 5, f"{half / 2:g}", "soft", "middle", 10)
    for group in panel.groups:
        picture.text(NAMED - 8, first + 14, group.name, anchor="end", weight=600)
        for place, bar in enumerate(group.bars):
            picture.text(NAMED - 8, first + GAP + 2 + place * BAR, bar.name, anchor="end", size=11)
        for column in range(len(panel.heads)):
            draw_group(picture, group, column, NAMED + column * COLUMN, first, unit)
        first += group.height()


def draw(path, title, panels, notes):
    """Draws panels below one another, and a line for each note below them."""
    picture = Picture()
    picture.text(16, 28, title, size=16, weight=600)
    y = 62
    for panel in panels:
        draw_panel(picture, panel, y)
        y += panel.height()
    for note in notes:
        picture.text(16, y, note, "soft", size=10)
        y += 15
    picture.write(path, NAMED + 2 * COLUMN + 8, y + 4, title)
