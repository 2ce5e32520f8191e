"""The texts of stored cases."""
import os

DATA = os.path.join(os.path.dirname(os.path.dirname(os.path.dirname(os.path.abspath(__file__)))), "crates/test_cases/data")


def read(path):
    """What a file of the stored cases has, or, if its name ends with `.times`, stands for."""
    with open(os.path.join(DATA, path), encoding="utf-8", newline="") as file:
        text = file.read()
    return "".join(map(expanded, text.splitlines())) if path.endswith(".times") else text


def expanded(line):
    """A part as often as the number before it says, with how often it has come for `#`, twice that for `%`, and the end of a line for `|`."""
    times, _, part = line.partition(" ")
    return "".join(part.replace("#", str(it)).replace("%", str(2 * it)).replace("|", "\n") for it in range(1, int(times) + 1))
