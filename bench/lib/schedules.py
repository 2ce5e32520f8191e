"""Schedules as `queue_explore KIND schedule N` and `waits N` print them, by the model of docs/STEPS.md in `outcomes`: what each step is, and the list after it."""
import importlib.util
import os
import sys
from importlib.machinery import SourceFileLoader

LONGEST = 128
# The effect of a step, by its label and that of the next one.
EFFECTS = {
    ("P1", "P2"): "append",
    ("B3", "B4"): "append",
    ("U5", "U6"): "append",
    ("U5", "U9"): "append",
    ("F5", "F6"): "front",
    ("F6", "F7"): "arrive",
    ("O3", "O4"): "take",
    ("V4", "V5"): "take",
    ("V4", "V9"): "take",
}


def model():
    """The module of the model."""
    loader = SourceFileLoader("outcomes", os.path.join(os.path.dirname(os.path.dirname(os.path.abspath(__file__))), "outcomes"))
    module = importlib.util.module_from_spec(importlib.util.spec_from_loader("outcomes", loader))
    loader.exec_module(module)
    return module


class Run:
    """A run of a schedule. Each move gives a row: the party, its cell, and the list after it."""

    def __init__(self, kind):
        self.model = model()
        self.queue = self.model.queue_of(kind)
        self.is_slot = isinstance(self.queue, self.model.Slot)
        self.shared, self.items = self.queue.opening, []
        # The call that a party is in, before its next step, and the value that the call has.
        self.calls, self.values = {}, {}

    def begin(self, party, words):
        value = words[1] if len(words) == 2 else None
        call = self.queue.begin(words[0], value)
        if isinstance(call, str):
            return party, f"{' '.join(words)} = {call}", list(self.items)
        self.calls[party], self.values[party] = call, value
        return party, " ".join(words), list(self.items)

    def effect(self, call, later, reply):
        if call[0] == "F1" and later and later[0] == "F2":
            return "append" if later[2] == 0 else "replace"
        if self.is_slot and call[0] == "O1" and later and later[0] == "O2":
            return "take"
        if call[0] == "C1" and reply == "true":
            return "close"
        return EFFECTS.get((call[0], later and later[0]))

    def change(self, effect, value):
        """What an effect does to the list."""
        if effect in ("take", "front", "replace"):
            self.items.pop(0)
        if effect in ("append", "arrive", "replace"):
            self.items.append(value)

    def step(self, party, granted):
        call = self.calls.pop(party)
        refused = call[0] == "U3" and not granted
        taken = self.queue.refused(self.shared, *call[1:]) if refused else self.model.taken(self.queue, self.shared, call)
        self.shared, later, reply = taken
        effect = self.effect(call, later, reply)
        self.change(effect, self.values[party])
        if later:
            self.calls[party] = later
        parts = [call[0], "refused" if refused else "", effect or "", f"= {reply}" if reply else ""]
        return party, " ".join(part for part in parts if part), list(self.items)

    def rows(self, line):
        """The rows of a line of the schedule."""
        head, _, event = line.partition(" ")
        if not head.isdigit() or not event:
            sys.exit(f"lanes: this is no line of a schedule: {line}")
        party = int(head)
        if event not in ("step", "refuse", "run"):
            yield self.begin(party, event.split())
            return
        for _ in range(LONGEST if event == "run" else 1):
            if party in self.calls:
                yield self.step(party, event != "refuse")


def picture(kind, text, before):
    """The numbers of the parties, and the rows below them, as a picture of `queue_explore` has them. The first calls, so many, are made before it."""
    run, lines = Run(kind), [line for line in text.splitlines() if line]
    moves = [list(run.rows(line)) for line in lines[: 2 * before]]
    opening = moves[-1][-1][2] if moves else []
    shown = [row for line in lines[2 * before :] for row in run.rows(line)]
    count = 1 + max(party for party, _, _ in shown)
    rows = [([cell if column == party else "" for column in range(count)], [str(it) for it in items]) for party, cell, items in shown]
    return [str(party) for party in range(count)], [([""] * count, [str(it) for it in opening]), *rows]


def text_of(parties, rows):
    """The picture in text, as `queue_explore KIND lanes N` prints it."""
    width = max(len(cell) for cells, _ in rows for cell in cells)
    lines = ["".join(f"| {party.ljust(width)} " for party in parties) + "| list"]
    lines += ["".join(f"| {cell.ljust(width)} " for cell in cells) + "|" + "".join(f" {item}" for item in items) for cells, items in rows]
    return "\n".join(lines)
