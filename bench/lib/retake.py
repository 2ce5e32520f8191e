"""`take` that runs again over a repository with crates of its own: first from an older version of this repository, then from a newer one."""
import os
import shutil
import subprocess

from lib import pages
from lib.wrong import link

OWN = {
    "crates/app/src/main.rt": "//! The owner's own.\n",
    "crates/mid/src/lib.rt": "//! Whose line is between the marks.\n",
    "crates/tool/src/lib.rt": "//! Whose line is below them.\n",
    "HANDLES": "Handles allowed: none.\n",
    ".gitignore": "*.log\ncrates/*/out/\n",
    "LICENSE-MIT": "A licence of the owner's own.\n",
    "notes.txt": "Nothing of take's.\n",
}
ABOVE = ["# the owner's crates", "app: exclusive_queue own_cells # and not more"]
BETWEEN = ["# between the marks", "mid: app"]
BELOW = ["# below", "tool: mid"]


def write(path, text):
    os.makedirs(os.path.dirname(path), exist_ok=True)
    if os.path.exists(path):
        os.remove(path)
    pages.write(path, text)


def version(folder, only):
    """A copy of this repository, as far as `take` reads it, in which one crate has this file, and no other version has it."""
    shutil.copytree(f"{pages.TOP}/crates", f"{folder}/crates", copy_function=link, ignore=shutil.ignore_patterns("out", "must-fail"))
    for name in ("take", "crates.txt", "LICENSE-APACHE", "LICENSE-MIT"):
        shutil.copy(f"{pages.TOP}/{name}", f"{folder}/{name}")
    write(f"{folder}/crates/own_cells/src/{only}.rt", f"//! Of the version that has {only}.\n")
    return folder


def older(folder):
    """One that has a crate more, on which another stands."""
    version(folder, "gone")
    write(f"{folder}/crates/old_laws/src/lib.rt", "//! Only here.\n")
    table = pages.read(f"{folder}/crates.txt").replace("\nown_cells: ", "\nold_laws:\nown_cells: old_laws ")
    write(f"{folder}/crates.txt", table)
    return folder


def take(source, *words):
    ran = subprocess.run([f"{source}/take", *words], stdout=subprocess.PIPE, stderr=subprocess.STDOUT, text=True)
    return ran.returncode, ran.stdout


def files_of(folder):
    found = {}
    for at, _, names in os.walk(folder):
        for name in names:
            path = f"{at}/{name}"
            found[os.path.relpath(path, folder)] = pages.read(path)
    return found


class Compared:
    """What is found, compared with what is wanted."""

    def __init__(self):
        self.wrong = 0

    def is_so(self, what, right):
        print(f"{what}: {'ok' if right else 'WRONG'}", flush=True)
        self.wrong += not right

    def is_kept(self, when, mine):
        files = files_of(mine)
        self.is_so(f"{when}, the owner's own files are as they were", all(files.get(path) == text for path, text in OWN.items()))
        lines = pages.read(f"{mine}/crates.txt").splitlines()
        self.is_so(f"{when}, each line of the owner's own is there once", all(lines.count(it) == 1 for it in [*ABOVE, *BETWEEN, *BELOW]))


def begin(top):
    """The repository once the older version is taken, and its owner has gone on: a line lies between the marks, and one below."""
    mine = f"{top}/mine"
    for path, text in OWN.items():
        write(f"{mine}/{path}", text)
    write(f"{mine}/crates.txt", "\n".join(ABOVE))
    status, _ = take(older(f"{top}/older"), mine, "exclusive_queue")
    table = pages.read(f"{mine}/crates.txt")
    end = table.index("# end of what take writes")
    write(f"{mine}/crates.txt", table[:end] + "".join(f"{it}\n" for it in BETWEEN) + table[end:] + "\n".join(BELOW))
    write(f"{mine}/crates/own_cells/out/kept", "what rt keeps\n")
    return mine, status


def again(top):
    seen = Compared()
    mine, status = begin(top)
    seen.is_so("the older version is taken", status == 0 and os.path.exists(f"{mine}/crates/old_laws/src/lib.rt"))
    seen.is_kept("after the older version", mine)
    newer = version(f"{top}/newer", "come")
    status, said = take(newer, mine)
    files = files_of(mine)
    seen.is_so("the newer version is taken", status == 0)
    seen.is_kept("after the newer version", mine)
    slot = {path: text for path, text in files_of(f"{newer}/crates/own_cells").items()}
    found = {path: text for path, text in files_of(f"{mine}/crates/own_cells").items() if not path.startswith("out/")}
    seen.is_so("a crate of ours has the newer version's files, and no other", found == slot and "src/come.rt" in found)
    seen.is_so("what rt keeps stays", "crates/own_cells/out/kept" in files)
    is_gone = "crates/old_laws/src/lib.rt" not in files and "old_laws" not in files["crates.txt"]
    seen.is_so("a crate that is no longer ours is gone, and is reported", is_gone and "old_laws" in said)
    seen.is_so("a licence that is not ours is reported", "LICENSE-MIT is not" in said)
    seen.is_so("a HANDLES without what is needed stays as it is", files["HANDLES"] == OWN["HANDLES"])
    status, _ = take(newer, mine)
    seen.is_so("taken once more, nothing changes", status == 0 and files_of(mine) == files)
    changed(seen, newer, mine, files)
    given_up(seen, newer, mine)
    return seen.wrong


def changed(seen, newer, mine, files):
    """A crate of ours that the owner has changed is not written over without a word."""
    path = "crates/own_cells/src/lib.rt"
    write(f"{mine}/{path}", files[path] + "// the owner's own\n")
    before = files_of(mine)
    status, said = take(newer, mine)
    seen.is_so("a crate that was changed is reported, and nothing is written", status == 1 and "own_cells" in said and files_of(mine) == before)
    status, _ = take(newer, "--over", mine)
    seen.is_so("--over writes over it", status == 0 and files_of(mine) == files)


def given_up(seen, newer, mine):
    """What the owner's crates stand on stays, and else all that is given up goes."""
    table = pages.read(f"{mine}/crates.txt").replace("# taken: exclusive_queue", "# taken:").replace(ABOVE[1], "app: own_cells")
    write(f"{mine}/crates.txt", table)
    status, _ = take(newer, mine)
    files = files_of(mine)
    stays, goes = "crates/own_cells/src/lib.rt" in files, "crates/exclusive_queue/src/lib.rt" not in files
    seen.is_so("what is given up goes, but for what the owner's crates stand on", status == 0 and stays and goes)
