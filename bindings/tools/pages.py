#!/usr/bin/env python3
"""pages.py: whether the pages of docs/ can be made as the folder of `dist` has them, without what wants the kit, or files that are not there.

Where one cannot, it says why, and ends with status 1.
"""
import os
import re
import shutil
import sys
import tempfile

BINDINGS = os.path.dirname(os.path.dirname(os.path.realpath(__file__)))
DOCS = os.path.join(os.path.dirname(BINDINGS), "docs")
RECORDINGS = os.path.join(os.path.dirname(BINDINGS), "crates", "test_cases", "data", "check")

# What each program has beside it, of docs/ and of the recordings.
PAGES = {"queue_run": ("PROGRAMS.md", "STEPS.md"), "queue_explore": ("EXPLORE.md", "STEPS.md", "schedule.svg"), "queue_check": ("CHECK.md", "lost_close.svg")}
RECORDED = {"queue_check": ("lost_close.in", "len_1_beside_a_displacement.in")}

# What a page says otherwise there. Each text is once on the page of docs/.
OTHERWISE = {
    "PROGRAMS.md": (
        (
            """    (cd crates/queue_run && rt run -- FORM ..)        # proves, builds and runs it
    (cd crates/queue_run && rt try -- FORM ..)        # without a proof; rt adds three lines on standard error
    crates/queue_run/out/queue_run FORM ..            # once built
""",
            "    ./queue_run FORM ..\n",
        ),
    ),
    "EXPLORE.md": (
        ("Outcome 1 of the program above, as text and as `bench/lanes` draws it:", "Outcome 1 of the program above, as text and as a picture:"),
        (" `bench/lanes --text` adds what each label does, as below the picture.", ""),
        (" `waits N`, piped into `bench/lanes --schedule KIND --text`, is a picture too.", ""),
        ("The proved build (`rt run`), on", "On"),
    ),
    "STEPS.md": (("; `cases/waits` has schedules.", "."),),
    "CHECK.md": (("[FOUND](FOUND.md) has what the tool found in queues of other libraries. Of ours", "Of ours"),),
}
# What no page of the folder may say: these are of who has the kit, or the repository.
FOREIGN = re.compile(r"\brt (?:try|run|check|lib|ci)\b|\b(?:crates|bench|docs|cases)/")
# What a page has for the repository alone, and what the folder has in its place.
PLACES = re.compile(r"<!-- in the repository -->\n.*?<!-- in the folder:\s*(.*?)-->\n", re.S)
LINK = re.compile(r"(!?)\[([^\]]*)\]\(([^)\s]+)\)")
COMMAND = re.compile(r"^(\s*)(?:cd crates/(\w+) && )?(.*?)\brt try -- ", re.M)


def read(path):
    with open(path, encoding="utf-8") as file:
        return file.read()


def write(path, text):
    with open(path, "w", encoding="utf-8") as file:
        file.write(text)


def run_there(text, program):
    """The page's commands, as they are run beside the program."""
    return COMMAND.sub(lambda it: f"{it[1]}{it[3]}./{it[2] or program} ", text)


def of_the_folder(name, beside):
    """The page of that name, with links to the files beside it and to PROVED alone. Of another link its words stay."""
    text = read(f"{DOCS}/{name}")
    for old, new in OTHERWISE.get(name, ()):
        if text.count(old) != 1:
            raise ValueError(f"docs/{name} has not once: {old.splitlines()[0]}")
        text = text.replace(old, new)
    text = PLACES.sub(lambda it: it[1] and "    " + it[1], text)
    (program,) = [it for it, pages in PAGES.items() if pages[0] == name] or [""]
    text = run_there(text, program)
    text = re.sub(r"\]\(PROVED\.md(?:#[\w-]*)?\)", "](../PROVED)", text)
    return LINK.sub(lambda it: it[0] if it[3].partition("#")[0] in ("", "../PROVED", *beside) else it[2], text)


def anchors(text):
    """The anchors of a page's headings, as GitHub makes them."""
    return {re.sub(r"[^\w\- ]", "", it.strip().lower()).replace(" ", "-") for it in re.findall(r"^#+ (.*)$", text, re.M)}


def faults(folder, paths):
    """What is wrong on these pages: a link that leads nowhere, a command that is not there."""
    for path in paths:
        text = read(f"{folder}/{path}")
        for _, _, target in LINK.findall(text):
            if re.match(r"\w+:", target):
                continue
            file, _, anchor = target.partition("#")
            found = os.path.normpath(f"{folder}/{os.path.dirname(path)}/{file}") if file else f"{folder}/{path}"
            if not os.path.exists(found) or (anchor and anchor not in anchors(read(found))):
                yield f"{path}: no {target}"
        for it in FOREIGN.finditer(text):
            yield f"{path}: {it[0]}"


def add(to, names):
    """Adds the pages of these programs, and what they show, to the folder with the programs."""
    beside = sorted({it for name in names for it in PAGES[name]})
    os.makedirs(to, exist_ok=True)
    for it in beside:
        if it.endswith(".md"):
            write(f"{to}/{it}", of_the_folder(it, beside))
        else:
            shutil.copyfile(f"{DOCS}/{it}", f"{to}/{it}")
    for it in [it for name in names for it in RECORDED.get(name, ())]:
        os.makedirs(f"{to}/recordings", exist_ok=True)
        shutil.copyfile(f"{RECORDINGS}/{it}", f"{to}/recordings/{it}")
    return [it for it in beside if it.endswith(".md")]


def main():
    found = []
    with tempfile.TemporaryDirectory() as folder:
        write(f"{folder}/PROVED", "")
        # Of each program alone, too: it may be made without the others.
        for names in (tuple(PAGES), *((it,) for it in PAGES)):
            made = add(f"{folder}/{'_'.join(names)}", names)
            found += faults(f"{folder}/{'_'.join(names)}", made)
    print("\n".join(sorted(set(found))) or "pages.py: ok")
    return 1 if found else 0


if __name__ == "__main__":
    try:
        sys.exit(main())
    except ValueError as why:
        sys.exit(f"pages.py: {why}")
