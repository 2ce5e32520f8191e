"""The steps of docs/STEPS.md: by kind of queue, what each label does."""
import os
import re

STEPS = os.path.join(os.path.dirname(os.path.dirname(os.path.dirname(os.path.abspath(__file__)))), "docs", "STEPS.md")
SECTIONS = {"single": "One slot", "bounded": "A ring", "unbounded": "A chain"}
LABEL = re.compile(r"\b[A-Z]{1,2}\d*b?\b")
LETTERS = "p, h: the positions of the tail t and of the head, as they were read"


def operations(cell, count):
    """The operation of each of so many labels: parts, or words that one verb has in common."""
    plain = cell.replace("`", "")
    parts = plain.split("; ")
    if count == 1:
        return [plain]
    if len(parts) == count:
        return parts
    verb, _, rest = plain.partition(" ")
    return [f"{verb} {word}" for word in rest.split(", ")]


def table_of(section):
    """What each label of a section does."""
    found = {}
    for line in section.splitlines():
        cells = [cell.strip() for cell in line.split(" | ")]
        labels = LABEL.findall(cells[0])
        if len(cells) == 3 and labels:
            found.update(zip(labels, operations(cells[1], len(labels)), strict=True))
    return found


def tables():
    """For each kind what its labels do."""
    with open(STEPS, encoding="utf-8") as file:
        sections = file.read().split("\n## ")
    return {kind: table_of(next(it for it in sections if it.startswith(title))) for kind, title in SECTIONS.items()}


def legend(labels, kind=None):
    """A line for each of these labels, in order of their first use; or none, where they may be those of two kinds that do not agree."""
    used = list(dict.fromkeys(labels))
    fitting = [table for name, table in tables().items() if kind in (None, name) and all(label in table for label in used)]
    lines = {tuple(f"{label}  {table[label]}" for label in used) for table in fitting}
    if len(lines) != 1:
        return None
    found = list(lines.pop())
    return found + [LETTERS] * any(re.search(r"\b[pht]\b(?!')", line) for line in found)
