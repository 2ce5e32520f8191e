"""The law of docs/CHECK.md by a plain search, which looks at no line ahead, and the answer of the built `queue_check`. It uses no code of the crates."""
import os
import subprocess
import sys

TOP = os.path.dirname(os.path.dirname(os.path.dirname(os.path.abspath(__file__))))
CHECKER = os.path.join(TOP, "crates/queue_check/out/queue_check")
BLOCK = 63


def capacity_of(kind):
    return {"single": 1, "unbounded": None}[kind] if ":" not in kind else int(kind.split(":")[1])


def rules_of(kind):
    """The capacity, and whether a displacement is one step."""
    name = kind.removeprefix("atomic:")
    return capacity_of(name), name != kind


# A queue is its list, the item on its way in, whether it is closed, and how many items it accepted.
EMPTY = ((), None, False, 0)


def moves(rules, queue, call, saw_open):
    """What the call may do next: the queue then, whether it is half way, and its reply."""
    cap, at_once = rules
    items, coming, closed, accepted = queue
    name, _, value = call.partition(" ")
    full = len(items) == cap
    if name in ("push", "force"):
        if closed:
            yield queue, False, f"closed {value}"
        elif not full and coming is None:
            yield (items + (value,), None, False, accepted + 1), False, "ok"
        if cap is None and not closed and (accepted == 0 or accepted % BLOCK == BLOCK - 1):
            yield queue, False, f"no memory {value}"
    if name == "push" and full and not closed:
        yield queue, False, f"full {value}"
    if name == "force" and full and cap == 1 and not closed:
        yield ((value,), None, False, accepted + 1), False, f"displaced {items[0]}"
    if name == "force" and full and cap != 1 and at_once and not closed:
        yield (items[1:] + (value,), None, False, accepted + 1), False, f"displaced {items[0]}"
    if name == "force" and full and cap != 1 and not at_once and coming is None and saw_open:
        yield (items[1:], value, closed, accepted), True, f"displaced {items[0]}"
    if name == "pop" and items:
        yield (items[1:], coming, closed, accepted), False, f"item {items[0]}"
    if name == "pop" and not items and coming is None:
        yield queue, False, "closed" if closed else "empty"
    if name == "close":
        yield (items, coming, True, accepted), False, "false" if closed else "true"
    looks = {"is_closed": closed, "is_empty": not items, "is_full": full, "len": len(items), "capacity": "none" if cap is None else cap}
    if name in looks:
        yield queue, False, str(looks[name]).lower()


def longest(rules, lines):
    """How many of the lines are explained at most, from the first on."""
    events = [(line.split(" ", 1)[0], line.split(" ", 1)[1]) for line in lines]
    seen, stack, best = set(), [(0, EMPTY, frozenset())], 0
    while stack:
        state = stack.pop()
        if state in seen:
            continue
        seen.add(state)
        at, queue, calls = state
        best = max(best, at)
        if best == len(events):
            break
        # a call is its party, its text, whether it saw the queue open, whether it is half way, and its reply
        for one in calls:
            party, call, saw_open, half, reply = one
            others = calls - {one}
            if half:
                items, coming, closed, accepted = queue
                then = (items + (coming,), None, closed, accepted + 1)
                stack.append((at, then, others | {(party, call, saw_open, False, reply)}))
            elif reply is None:
                for then, goes_on, told in moves(rules, queue, call, saw_open):
                    stack.append((at, then, others | {(party, call, saw_open, goes_on, told)}))
        party, text = events[at]
        if text.startswith("= "):
            for one in calls:
                if one[0] == party and not one[3] and one[4] == text[2:]:
                    stack.append((at + 1, queue, calls - {one}))
        else:
            stack.append((at + 1, queue, calls | {(party, text, not queue[2], False, None)}))
    return best


class NoOrder(Exception):
    """The order that was printed is none."""


class Order:
    """Takes the lines of a history, and the moves of calls between them."""

    def __init__(self, rules):
        # of each party's call: its text, whether it saw the queue open, whether it is half way, and its reply
        self.rules, self.queue, self.calls = rules, EMPTY, {}

    def line(self, line):
        party, _, text = line.partition(" ")
        if not text.startswith("= "):
            if party in self.calls:
                raise NoOrder(f"{line} within a call")
            self.calls[party] = (text, not self.queue[2], False, None)
        elif self.calls.pop(party, (None, None, True, None))[2:] != (False, text[2:]):
            raise NoOrder(f"{line} is not what its call is told")

    def move(self, party, what):
        if party not in self.calls:
            raise NoOrder(f"{party} {what}, in no call")
        call, saw_open, half, reply = self.calls[party]
        if half and what == "arrives":
            items, coming, closed, accepted = self.queue
            self.queue = (items + (coming,), None, closed, accepted + 1)
            self.calls[party] = (call, saw_open, False, reply)
            return
        for then, goes_on, told_it in moves(self.rules, self.queue, call, saw_open) if reply is None else ():
            cap, at_once = self.rules
            displaces = at_once and cap != 1 and told_it.startswith("displaced ")
            if what == ("takes" if goes_on else "displaces" if displaces else "sees" if then == self.queue else "acts"):
                self.queue, self.calls[party] = then, (call, saw_open, goes_on, told_it)
                return
        raise NoOrder(f"{party} {what}, which its call cannot")


def check_order(rules, lines, printed):
    """Each printed line has how many lines of the history come before, a party, and what its call does there."""
    order, taken = Order(rules), 0
    for row in printed:
        before, party, what = row.split(" ")
        for line in lines[taken : int(before)]:
            order.line(line)
        taken = int(before)
        order.move(party, what)
    for line in lines[taken:]:
        order.line(line)


def told(checker, kind, lines, seconds=None):
    """How many of the lines are explained, by the program. The order that it prints of a legal history has to be one. None where it has no answer in so many seconds."""
    try:
        run = subprocess.run([checker, kind], input="".join(f"{line}\n" for line in lines), capture_output=True, text=True, timeout=seconds)
    except subprocess.TimeoutExpired:
        return None
    first, *rest = run.stdout.splitlines() or [""]
    if run.returncode == 0 and first == "legal":
        try:
            check_order(rules_of(kind), lines, rest)
        except NoOrder as why:
            sys.exit(f"{kind}: {why}\n{run.stdout}\nof\n" + "\n".join(lines))
        return len(lines)
    if run.returncode == 1 and first == "not legal" and len(rest) == 1 and rest[0].startswith("line ") and rest[0].endswith(": nothing explains it"):
        return int(rest[0].split(" ")[1].rstrip(":")) - 1
    sys.exit(f"{checker} {kind}: status {run.returncode}, {run.stdout!r}, {run.stderr!r}, of\n" + "\n".join(lines))
