"""Wrong bodies: how an edit is read and applied, and the copy of the repository in which `rt` tries it.

An edit has a line `file: PATH`, and then pairs of lines `old: TEXT` and `new: TEXT`. Each old text is in its file once.
"""
import contextlib
import os
import shutil
import signal
import subprocess
import sys
import tempfile

TOP = os.path.dirname(os.path.dirname(os.path.dirname(os.path.abspath(__file__))))


def read(path):
    with open(path, encoding="utf-8") as it:
        return it.read()


def write(path, text):
    """Writes the file anew, since the old one may be a link to the repository's own."""
    with open(f"{path}.new", "w", encoding="utf-8") as it:
        it.write(text)
    os.replace(f"{path}.new", path)


def link(source, to):
    try:
        os.link(source, to)
    except OSError:
        shutil.copyfile(source, to)


def changes_of(text):
    """Returns what an edit changes: of each file that it names the pairs of an old and a new text. It reads the lines that `rt must-fail` reads."""
    files, path, old = {}, None, None
    for line in text.split("\n"):
        if line.startswith("file: "):
            path = line[len("file: ") :].strip()
            files.setdefault(path, [])
        elif line.startswith("old: "):
            old = line[len("old: ") :]
        elif line.startswith("new:") and path and old:
            new = line[len("new:") :]
            files[path].append((old, new[1:] if new.startswith(" ") else new))
            old = None
    return files


def edited(path, pairs):
    """Returns the text of a file with the new texts in place of the old ones, or nothing where an old one is not there once."""
    text = read(path) if os.path.isfile(path) else ""
    for old, new in pairs:
        if text.count(old) != 1:
            return None
        text = text.replace(old, new)
    return text


@contextlib.contextmanager
def copied(title, *folders, copy=shutil.copy2):
    """A copy of what `rt` reads, without edits, that `rt` takes for the top of a repository, with these empty folders. It goes at the end, also where this
    program is ended by a signal."""
    for it in (signal.SIGTERM, signal.SIGHUP):
        signal.signal(it, lambda *_: sys.exit(1))
    with tempfile.TemporaryDirectory(prefix=f"{title}-") as top:
        shutil.copytree(f"{TOP}/crates", f"{top}/crates", symlinks=True, copy_function=copy, ignore=shutil.ignore_patterns("out", "must-fail"))
        for name in ("crates.txt", "HANDLES"):
            if os.path.isfile(f"{TOP}/{name}"):
                shutil.copyfile(f"{TOP}/{name}", f"{top}/{name}")
        for name in (".git", "tmp", *folders):
            os.mkdir(f"{top}/{name}")
        yield top


def run(words, folder, top):
    """Returns a command's status and what it said. The command ends where this does, and what it leaves goes with the copy."""
    how = {"cwd": folder, "stdin": subprocess.DEVNULL, "stdout": subprocess.PIPE, "stderr": subprocess.STDOUT, "errors": "replace"}
    how["env"] = {**os.environ, "TMPDIR": f"{top}/tmp"}
    with subprocess.Popen(words, **how) as ran:
        try:
            said, _ = ran.communicate()
        except BaseException:
            ran.terminate()
            raise
    return ran.returncode, said


def print_end(said, indent=""):
    """Prints the last lines of what a command said."""
    print("\n".join(f"{indent}{it}" for it in said.rstrip("\n").split("\n")[-12:]), flush=True)


def print_sum(found):
    """Prints how many bodies were refused, and returns the status: 0 if each was."""
    print(f"{sum(found)} refused, {len(found) - sum(found)} not")
    return 0 if all(found) else 1
