"""What README has to be pasted: commands, programs, and what they print."""
import os
import re

TOP = os.path.dirname(os.path.dirname(os.path.dirname(os.path.abspath(__file__))))
COMMANDS = r"(?<=\n\n)((?:    .*\n)+)"
PRINTED = r"```\n(.*?)```"


def read(path):
    with open(path, encoding="utf-8") as file:
        return file.read()


def write(path, text):
    os.makedirs(os.path.dirname(path), exist_ok=True)
    with open(path, "w", encoding="utf-8") as file:
        file.write(text)


def section(name):
    """The text of a section of README."""
    return "\n" + read(f"{TOP}/README.md").split(f"\n## {name}\n")[1].split("\n## ")[0]


def blocks(text):
    """Each block of commands, and what is shown as printed below it and before the next, or none."""
    found = list(re.finditer(COMMANDS, text))
    for it, after in zip(found, [*(it.start() for it in found[1:]), len(text)]):
        printed = re.search(PRINTED, text[it.end():after], re.S)
        yield re.sub(r"^    ", "", it[1], flags=re.M), printed and printed[1]


def inline(text):
    """The commands within sentences that a shell takes as they are."""
    return re.findall(r"`(\./[^`]+|\(cd [^`]+)`", text)


def taken():
    """Of "Take it": the commands, and the files that are to be written, each by the path that is named last before it."""
    text = section("Take it")
    files = {}
    for it in re.finditer(r"```\w*\n(.*?)```", text, re.S):
        named = re.findall(r"`(crates/[^`]+)`", text[: it.start()])
        if named and named[-1] not in files:
            files[named[-1]] = it[1]
    return "".join(commands for commands, _ in blocks(text)), files


def programs():
    """The programs of "Take it": of each crate its files, by their paths in it."""
    found = {}
    for path, text in taken()[1].items():
        _, crate, inside = path.split("/", 2)
        found.setdefault(crate, {})[inside] = text
    return found
