"""Records small histories of threads on a queue, a new queue for each: record.py QUEUE CAPACITY [HISTORIES]. A line in `queues.py` is what a queue of yours needs."""
import itertools
import random
import sys
import threading
import time

from queues import QUEUES

THREADS, CALLS = 3, 8


def run(calls, party, choice, arrived, clock, lines):
    arrived.append(party)
    while len(arrived) < THREADS:
        time.sleep(0)
    for at in range(CALLS):
        name, call = choice.choice(calls)
        value = 100 * (party + 1) + at
        begin = next(clock)
        reply = call(value)
        end = next(clock)
        lines[begin] = f"{party} {name} {value}" if name in ("push", "force") else f"{party} {name}"
        lines[end] = f"{party} = {reply}"


def record(calls, seed):
    lines, arrived, clock = [None] * (2 * THREADS * CALLS), [], itertools.count()
    threads = [threading.Thread(target=run, args=(calls, party, random.Random(THREADS * seed + party), arrived, clock, lines)) for party in range(THREADS)]
    for thread in threads:
        thread.start()
    for thread in threads:
        thread.join()
    return lines


if __name__ == "__main__":
    name, capacity, *count = sys.argv[1:]
    sys.setswitchinterval(1e-6)
    for seed in range(int(count[0]) if count else 2000):
        print(*record(QUEUES[name](int(capacity)), seed), "", sep="\n")
