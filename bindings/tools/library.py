#!/usr/bin/env python3
"""library.py FOLDER [ARCH]: makes FOLDER/libqueue_c.a for the processors of ARCH, x86_64 or aarch64, or of this machine.

It has the object that `rt lib` proves and builds, byte for byte, and beside it c/heap.c and c/version.c by a C compiler: CC, or for aarch64
AARCH64_CC. Wants rt and ar. It prints what rt says of the proof. In a fresh clone this proves all that the library is built on, which may take an hour.
"""
import os
import platform
import subprocess
import sys
import tempfile

BINDINGS = os.path.dirname(os.path.dirname(os.path.realpath(__file__)))
CRATE = os.path.join(os.path.dirname(BINDINGS), "crates", "queue_c")
# The flags by which rt builds for each processor of that kind.
KINDS = {"x86_64": ["--cpu", "x86-64"], "aarch64": ["--target", "aarch64-unknown-linux-gnu"]}
C_FLAGS = "-std=c11 -D_POSIX_C_SOURCE=200809L -O2 -fPIC -fno-ident -Wall -Wextra -Werror".split()


def stop(why):
    sys.exit(f"{os.path.basename(sys.argv[0])}: {why}")


def compiler(arch):
    """The C compiler for these processors."""
    if arch == platform.machine():
        return os.environ.get("CC", "cc")
    return os.environ.get(f"{arch.upper()}_CC", f"{arch}-linux-gnu-gcc")


def run(words, folder, why):
    """Runs a command there, and gives what it writes; without success it stops, and says why."""
    try:
        ran = subprocess.run(words, cwd=folder, stdin=subprocess.DEVNULL, stdout=subprocess.PIPE, stderr=subprocess.STDOUT, text=True, errors="replace")
    except FileNotFoundError:
        stop(f"{why}: there is no {words[0]} here")
    if ran.returncode:
        print("\n".join(ran.stdout.splitlines()[-20:]), file=sys.stderr)
        stop(why)
    return ran.stdout


def of_the_proof(said):
    """The lines of what rt says that name the axioms and the verdict."""
    return [line for line in said.splitlines() if line.startswith(("axioms ", "logic="))]


def make(folder, arch):
    """Makes the library there, and gives what rt says of its proof and the object that is proved."""
    said = run(["rt", "lib", *KINDS[arch]], CRATE, f"the library for {arch} is not proved and built")
    with tempfile.TemporaryDirectory() as room:
        run(["ar", "x", f"{CRATE}/out/libqueue_c.a"], room, "the library cannot be read")
        (proved,) = os.listdir(room)
        for name in ("heap", "version"):
            words = [compiler(arch), *C_FLAGS, "-I", ".", "-c", "-o", f"{room}/{name}.o", f"{name}.c"]
            run(words, f"{BINDINGS}/c", f"c/{name}.c is not compiled for {arch}")
        os.makedirs(folder, exist_ok=True)
        made = f"{os.path.abspath(folder)}/libqueue_c.a"
        if os.path.exists(made):
            os.remove(made)
        run(["ar", "rcD", made, proved, "heap.o", "version.o"], room, "the library is not written")
        with open(f"{room}/{proved}", "rb") as file:
            return of_the_proof(said), file.read()


def main():
    if not 2 <= len(sys.argv) <= 3:
        stop("library.py FOLDER [ARCH]")
    arch = sys.argv[2] if len(sys.argv) == 3 else platform.machine()
    if arch not in KINDS:
        stop(f"there is none for {arch}: x86_64 and aarch64 alone")
    said, _ = make(sys.argv[1], arch)
    print("\n".join(said))


if __name__ == "__main__":
    main()
