"""Python's queues: of each the calls that are recorded, a name and what makes the call and gives its reply. Capacity 0 is none."""
import multiprocessing
import queue


def calls(made, looks=True):
    """Those of what has the calls of `queue.Queue`."""

    def push(value):
        try:
            made.put_nowait(value)
        except queue.Full:
            return f"full {value}"
        return "ok"

    def pop(_):
        try:
            return f"item {made.get_nowait()}"
        except queue.Empty:
            return "empty"

    return [("push", push), ("pop", pop)] * 3 + ([("len", lambda _: made.qsize()), ("is_empty", lambda _: str(made.empty()).lower())] if looks else [])


class Twice(queue.Queue):
    """A wrong one: it looks at the front under its lock, and takes it off under the lock once more."""

    def get_nowait(self):
        with self.mutex:
            fronts = list(self.queue)[:1]
        item = super().get_nowait()
        return fronts[0] if fronts else item


QUEUES = {
    "queue": lambda cap: calls(queue.Queue(cap)),
    "simple": lambda cap: calls(queue.SimpleQueue()),
    "multiprocessing": lambda cap: calls(multiprocessing.Queue(cap), looks=False),
    "wrong": lambda cap: calls(Twice(cap), looks=False),
}
