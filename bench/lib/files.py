"""The files of the repository."""
import fnmatch
import os
import subprocess

TOP = os.path.dirname(os.path.dirname(os.path.dirname(os.path.abspath(__file__))))
BUILT = ("out", "target", ".git")


def listed(*kinds):
    """Returns the paths of the files of these kinds, as `*.md`, that are committed; or where git does not say which, of all that are there and were not built."""
    try:
        ran = subprocess.run(["git", "-C", TOP, "ls-files", *kinds], stdout=subprocess.PIPE, stderr=subprocess.DEVNULL, universal_newlines=True)
    except OSError:
        return there(kinds)
    return ran.stdout.split("\n")[:-1] if ran.returncode == 0 and ran.stdout else there(kinds)


def there(kinds):
    found = []
    for at, folders, names in os.walk(TOP):
        folders[:] = [it for it in folders if it not in BUILT]
        paths = (os.path.relpath(f"{at}/{name}", TOP) for name in names)
        found += [path for path in paths if any(fnmatch.fnmatch(path, kind) for kind in kinds)]
    return sorted(found)
