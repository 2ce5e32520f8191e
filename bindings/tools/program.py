#!/usr/bin/env python3
"""program.py NAME: proves and builds a program for any x86-64, and prints what rt says of the proof. It is then crates/NAME/out/NAME.

In a fresh clone this proves all that it is built on, which may take an hour.
"""
import os
import subprocess
import sys

import library

CRATES = os.path.dirname(library.CRATE)


def make(name):
    """Makes the program, and gives what rt says of its proof, and its path. It is run too, on nothing, and may end as it likes."""
    made = f"{CRATES}/{name}/out/{name}"
    # By flags rt takes nothing that was built before.
    ran = subprocess.run(["rt", "run", *library.KINDS["x86_64"]], cwd=f"{CRATES}/{name}", stdin=subprocess.DEVNULL, stdout=subprocess.PIPE, stderr=subprocess.STDOUT, text=True, errors="replace")
    said = library.of_the_proof(ran.stdout)
    if not os.path.isfile(made) or not any(line.startswith("logic=proved") for line in said):
        print("\n".join(ran.stdout.splitlines()[-20:]), file=sys.stderr)
        library.stop(f"{name} is not proved and built")
    return said, made


if __name__ == "__main__":
    if len(sys.argv) != 2:
        library.stop("program.py NAME")
    print("\n".join(make(sys.argv[1])[0]))
