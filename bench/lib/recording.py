"""Recorded histories as docs/CHECK.md has them: their calls, what `queue_check` answers of them, and the list at each move of an order."""
import re
import subprocess
from dataclasses import dataclass, field

from lib.law import Order, rules_of

CALL = re.compile(r"(push|force) \d+|pop|close|is_closed|is_empty|is_full|len|capacity")
MOVE = re.compile(r"(\d+) (\d+) (sees|acts|takes|arrives|displaces)")
PLACE = re.compile(r"line (\d+): ")
PARTIES = 4096


class Unreadable(Exception):
    """Why a text is no history, or no answer."""


class Undecided(Exception):
    """Why `queue_check` does not know."""


@dataclass
class Call:
    """A call of a party: its first line, and its last one with the reply, where it has ended. Lines count from 1."""

    party: int
    words: str
    first: int
    reply: str = None
    last: int = None

    def is_open_at(self, line):
        """Whether the line comes after its beginning, and not after its end."""
        return self.first < line and (self.last is None or line <= self.last)


def calls_of(lines):
    """The calls, in the order of their beginnings."""
    calls, current = [], {}
    for number, line in enumerate(lines, 1):
        party, space, text = line.partition(" ")
        if not space or not party.isdecimal() or int(party) >= PARTIES:
            raise Unreadable(f"line {number}: no party from 0 to {PARTIES - 1} and a space are at the beginning")
        call = current.get(int(party))
        if call and text.startswith("= "):
            call.reply, call.last = text[2:], number
            del current[int(party)]
        elif call:
            raise Unreadable(f"line {number}: party {party} is in a call, `{call.words}` of line {call.first}")
        elif CALL.fullmatch(text):
            current[int(party)] = Call(int(party), text, number)
            calls.append(current[int(party)])
        else:
            raise Unreadable(f"line {number}: party {party} is in no call, and `{text}` is none")
    return calls


@dataclass
class Answer:
    """What `queue_check` answers, in its words; the line that nothing explains, if there is one; and the moves of an order, where it prints one."""

    verdict: str
    wrong: int = None
    moves: list = field(default_factory=list)


def answer_of(text):
    """Reads an answer. A line that is no move is passed over."""
    first, *rest = text.splitlines() or [""]
    place = PLACE.match(rest[0]) if rest else None
    if first not in ("legal", "not legal") or (first == "not legal" and not place):
        raise Unreadable("this is no answer of queue_check: it begins with `legal`, or with `not legal` and `line N: ..`")
    found = [it for it in map(MOVE.fullmatch, rest) if it]
    return Answer(first, int(place[1]) if first == "not legal" else None, [(int(it[1]), int(it[2]), it[3]) for it in found])


def ask(checker, kind, lines):
    """What the program answers of these lines."""
    try:
        run = subprocess.run([checker, kind], input="".join(f"{line}\n" for line in lines), capture_output=True, text=True)
    except OSError as why:
        raise Unreadable(f"{checker} was not started, {why.strerror}: docs/CHECK.md says how it is built") from None
    if run.returncode not in (0, 1):
        raise (Undecided if run.returncode == 3 else Unreadable)(f"{checker} {kind}: {run.stderr.strip()}")
    return answer_of(run.stdout)


@dataclass
class Move:
    """A move of a call after so many lines of the history, and the list then."""

    before: int
    call: Call
    what: str
    items: tuple
    closed: bool


def followed(kind, lines, calls, moves):
    """The moves, each with its call and the list after it. `NoOrder` of lib.law says that they are none."""
    order, taken, current, begun = Order(rules_of(kind)), 0, {}, {call.first: call for call in calls}
    for before, party, what in moves:
        for number in range(taken + 1, before + 1):
            order.line(lines[number - 1])
            if number in begun:
                current[begun[number].party] = begun[number]
        taken = before
        order.move(str(party), what)
        items, _, closed, _ = order.queue
        yield Move(before, current[party], what, items, closed)
    for line in lines[taken:] if moves else ():
        order.line(line)
