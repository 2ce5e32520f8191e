#!/usr/bin/env python3
"""trials.py FOLDER WORK HIDDEN..: tries a folder that bindings/dist made, with these folders hidden and an empty environment. WORK is a new folder.

It hides them by `unshare`, as root or in a namespace of its own; where neither can be had it says so, and tries all the same. It says what it did not
try, and for want of what. It ends with status 1 where a trial fails.
"""
import collections
import os
import pwd
import re
import shutil
import signal
import subprocess
import sys
import time

LIMIT = 900
C = 'cc=$CC; flags="-std=c11 -D_POSIX_C_SOURCE=200809L -O2 -Wall -Wextra -Werror -pthread"; L=$F/c/lib/x86_64/libqueue_c.a; I=$F/c/include\n'
APP = '#include "queue_c.h"\nint main(void) { queue_c_party a = QUEUE_C_NONE; return queue_c_unbounded(&a) != QUEUE_C_DONE || queue_c_drop(&a) != QUEUE_C_DONE; }\n'
OWN_HEAP = r'''
#include "queue_c.h"
#include <stdbool.h>
#include <stdio.h>
#include <stdlib.h>
struct block { bool ok; void *p; };
static int asked;
struct block rattle_alloc(size_t n, size_t a) { asked++; void *p = malloc(n ? n : a); return (struct block){p, p ? p : &asked}; }
struct block rattle_realloc(void *p, size_t kept, size_t n, size_t a) { (void)kept; p = realloc(p, n ? n : a); return (struct block){p, p ? p : &asked}; }
void rattle_dealloc(void *p) { free(p); }
int main(void) {
    queue_c_party a = QUEUE_C_NONE;
    if (queue_c_unbounded(&a) != QUEUE_C_DONE) return 1;
    for (uint64_t i = 0; i < 1000; i++) if (queue_c_push(&a, i) != QUEUE_C_DONE) return 1;
    printf("asked %d times\n", asked);
    return queue_c_drop(&a) != QUEUE_C_DONE || asked == 0;
}
'''
USER = '''use concurrent_queue::ConcurrentQueue;
fn main() {
    let queue = ConcurrentQueue::bounded(2);
    queue.push("a".to_string()).unwrap();
    let item = std::thread::scope(|scope| scope.spawn(|| queue.pop().unwrap()).join().unwrap());
    println!("popped {item}");
}
'''
PATCHED = '''[package]
name = "app"
edition = "2021"

[dependencies]
concurrent-queue = "2"

[patch.crates-io]
concurrent-queue = { path = "%s/rust" }
'''
BY_GIT = '''[package]
name = "app"
edition = "2021"

[dependencies]
concurrent-queue = { git = "file://%s/repository", tag = "v1" }
'''
# Changes of heap.c, each of which its test has to find; those of `memory` only with ASan.
WRONG_HEAPS = {
    "a block is never aligned anew": "s/if (!p || .*/return p;/",
    "a block that moves loses its alignment": "s/if (a <= sizeof p) return/return/",
    "no bytes have no block": "s/n ? n : a, a/n, a/; s/return answer(aligned/return n == 0 ? answer(NULL) : answer(aligned/",
    "a refused request is answered as met": "s/{false, &nothing}/{true, \\&nothing}/",
    "what is kept does not move along": "s/memcpy(moved.p, p, kept);//",
    "a refused block is freed": "s/    if (moved.ok) {/    if (!moved.ok) free(p);\\n    if (moved.ok) {/",
    "a block that moved stays": "s/^        free(p);$//",
}


BY_CTYPES = """
import ctypes
queue = ctypes.CDLL("./libqueue_c.so")
party, value = ctypes.c_void_p(), ctypes.c_uint64()
by = ctypes.byref
assert queue.queue_c_bounded(by(party), ctypes.c_size_t(2)) == 0
assert queue.queue_c_push(by(party), ctypes.c_uint64(7)) == 0
assert queue.queue_c_pop(by(party), by(value)) == 0 and value.value == 7
assert queue.queue_c_drop(by(party)) == 0
print("popped", value.value)
"""
PAGES = {"queue_run": "PROGRAMS.md", "queue_explore": "EXPLORE.md", "queue_check": "CHECK.md"}
# A command of a page, the comment behind it, and comments below that; or what a block below the command has.
SHOWN = re.compile(r"^ +((?:printf|\./queue_)[^#\n]*?)(?: +# (.*(?:\n +# .*)*)|\n\n```\n((?:.*\n)*?)```)$", re.M)


def shown(page):
    """The commands of a page, each with what the page says that it prints."""
    for command, comment, block in SHOWN.findall(page):
        yield command, re.sub(r"\n +# ", "\n", comment) or block.rstrip("\n")


class Trials:
    def __init__(self, folder, work, is_hidden):
        self.folder, self.work, self.is_hidden = folder, work, is_hidden
        self.passed, self.failed, self.lacking = 0, 0, collections.Counter()

    def file(self, name, text):
        with open(f"{self.work}/{name}", "w", encoding="utf-8") as file:
            file.write(text)

    def lacks(self, name, what):
        self.lacking[what] += 1
        print(f"{name}: not tried, there is no {what}", flush=True)

    def __call__(self, name, script, *needs, **also):
        """Runs a script that has to succeed, where these commands are there."""
        for it in needs:
            if not shutil.which(it):
                return self.lacks(name, it)
        start = time.monotonic()
        env = {**os.environ, "F": self.folder, "CC": "cc", **also}
        ran = subprocess.Popen(["bash", "-euc", C + script], cwd=self.work, env=env, stdin=subprocess.DEVNULL, stdout=subprocess.PIPE, stderr=subprocess.STDOUT, text=True, errors="replace", start_new_session=True)
        try:
            said, status = ran.communicate(timeout=LIMIT)[0], ran.returncode
        except subprocess.TimeoutExpired:
            # With all that it started, which may have its output open.
            os.killpg(ran.pid, signal.SIGKILL)
            said, status = ran.communicate()[0], f"none within {LIMIT} seconds"
        lines = [it for it in said.splitlines() if it.strip()]
        if status == 0:
            self.passed += 1
            print(f"{name}: {lines[-1][:110] if lines else 'ok'} ({time.monotonic() - start:.1f} s)", flush=True)
        else:
            self.failed += 1
            print(f"{name}: FAILED, status {status}", *lines[-12:], sep="\n    ", flush=True)

    def of_c(self):
        for cc in ("gcc", "clang"):
            for flags in ("", "-static", "-static-pie", "-no-pie", "-flto", "-O1 -g -fsanitize=address,undefined -fno-sanitize-recover=all"):
                self(f"{cc} {flags} test.c", f'$cc $flags {flags} -I"$I" -o a "$F/c/test.c" "$L"; ./a 500', cc, CC=cc)
            self(f"{cc} example.c", '$cc $flags -I"$I" -o a "$F/c/example.c" "$L"; ./a', cc, CC=cc)
            self(f"{cc} heap_test.c", '$cc $flags -o a "$F/c/heap_test.c" "$F/c/heap.c"; ./a', cc, CC=cc)
            asan = "-O1 -g -fsanitize=address,undefined -fno-sanitize-recover=all"
            self(f"{cc} heap_test.c with ASan and UBSan", f'$cc $flags {asan} -o a "$F/c/heap_test.c" "$F/c/heap.c"; ASAN_OPTIONS=allocator_may_return_null=1 ./a', cc, CC=cc)
            self(f"{cc} heap_test.c over a malloc that aligns to 8", '$cc $flags -fno-builtin -o a "$F/c/heap_test.c" "$F/c/heap.c" "$F/c/low_malloc.c"; ./a', cc, CC=cc)
        self("test.c over a malloc that aligns to 8", '$cc $flags -fno-builtin -I"$I" -o a "$F/c/test.c" "$F/c/low_malloc.c" "$L"; ./a 500')
        self("heap_test.c by valgrind", '$cc $flags -g -o a "$F/c/heap_test.c" "$F/c/heap.c"; valgrind -q --error-exitcode=9 --leak-check=full ./a', "valgrind")
        for name, change in WRONG_HEAPS.items():
            script = f"sed '{change}' \"$F/c/heap.c\" >wrong.c; ! cmp -s wrong.c \"$F/c/heap.c\"\n"
            script += '$cc $flags -Wno-error -w -O1 -g -fno-builtin -fsanitize=address,undefined -fno-sanitize-recover=all -o a "$F/c/heap_test.c" wrong.c\n'
            script += '$cc $flags -Wno-error -w -fno-builtin -o b "$F/c/heap_test.c" wrong.c "$F/c/low_malloc.c"\n'
            script += "if ASAN_OPTIONS=allocator_may_return_null=1 ./a >said 2>&1 && ./b >>said 2>&1; then exit 1; fi; grep -m 1 -e '^heap_test.c, line' -e '^SUMMARY' -e 'runtime error' said"
            self(f"heap_test.c finds that {name}", script)
        self("gcc -fcf-protection=full, --gc-sections, relro, now", 'gcc $flags -fcf-protection=full -Wl,--gc-sections,-z,noexecstack,-z,relro,-z,now -I"$I" -o a "$F/c/test.c" "$L"; ./a 300', "gcc")
        self("ld.lld", 'clang $flags -fuse-ld=lld -I"$I" -o a "$F/c/test.c" "$L"; ./a 300', "clang", "ld.lld")
        self("ld.gold", 'gcc $flags -fuse-ld=gold -I"$I" -o a "$F/c/test.c" "$L"; ./a 300', "gcc", "ld.gold")
        for cxx in ("g++", "clang++"):
            self(f"{cxx} test.cpp", f'{cxx} -std=c++17 -O2 -Wall -Wextra -Werror -pthread -I"$I" -o a "$F/c/test.cpp" "$L"; ./a 10000', cxx)
        self.file("app.c", APP)
        self("the header as C99 and as C++11", 'for of in "gcc -std=c99 -x c" "g++ -std=c++11 -x c++"; do $of -pedantic -Wall -Wextra -Werror -I"$I" app.c -x none "$L" -o a; ./a; done', "gcc", "g++")
        for static in ("-static", ""):
            self(f"musl-gcc {static} test.c", f'musl-gcc $flags {static} -I"$I" -o a "$F/c/test.c" "$L"; ./a 500', "musl-gcc")
        self("a program's own heap", '$cc $flags -I"$I" -o a own.c "$L"; ./a')

    def of_links(self):
        shared = '$cc $flags -fPIC -shared -Wl,-z,defs%s -I"$I" -o libapp.so app.c "$L"; nm -D --defined-only libapp.so >names; '
        self("a shared library over it", shared % "" + "! grep -q rattle_ names; grep -c ' T queue_c_' names")
        self("a shared library that exports none of it", shared % ",--exclude-libs,libqueue_c.a" + "! grep -e queue_c_ -e rattle_ names; echo none")
        whole = '$cc -shared -o libqueue_c.so -Wl,--whole-archive "$L" -Wl,--no-whole-archive; nm -D --defined-only libqueue_c.so >names; test $(grep -c " T queue_c_" names) = 15; test $(wc -l <names) = 16; echo 15 functions and the version'
        self("the whole of it as a shared library", whole)
        self.file("by_ctypes.py", BY_CTYPES)
        self("that library from Python", "python3 by_ctypes.py", "python3")
        version = 'mkdir -p other; sed "s/queue_c_version_[0-9][0-9_]*/queue_c_version_1_0_0/" "$I/queue_c.h" >other/queue_c.h; '
        for flags in ("", "-flto", "-O2 -Wl,--gc-sections -ffunction-sections -fdata-sections"):
            self(f"a header of another version does not link {flags}", version + f'! $cc $flags {flags} -Iother -o a app.c "$L" 2>said; grep -m 1 -o "undefined.*queue_c_version_1_0_0" said')

    def of_installs(self):
        self("make test", 'make -s -C "$F/c" test OUT="$PWD/made" ARGS=300 2>&1', "make")
        app = '$cc $flags app.c $(pkg-config --cflags --libs queue_c) -o a; ./a; pkg-config --modversion queue_c'
        spaced = 'eval $cc $flags app.c $(pkg-config --cflags --libs queue_c) -o a; ./a; pkg-config --modversion queue_c'
        self("pkg-config in the folder", 'export PKG_CONFIG_PATH="$F/c/lib/x86_64/pkgconfig"; ' + spaced, "pkg-config")
        self("make install, then moved", 'rm -rf to moved; make -s -C "$F/c" install PREFIX="$PWD/to"; mv to moved; export PKG_CONFIG_PATH=$PWD/moved/lib/pkgconfig; ' + app, "make", "pkg-config")
        os.makedirs(f"{self.work}/cm")
        cmake = "cmake_minimum_required(VERSION 3.10)\nproject(app C)\nfind_package(queue_c %s REQUIRED)\nadd_executable(app ../app.c)\ntarget_link_libraries(app PRIVATE queue_c::queue_c)\n"
        self.file("cm/CMakeLists.txt", cmake % 2)
        for where in ("$F/c", "$PWD/moved"):
            self(f"CMake over {where}", f'rm -rf built; cmake -S cm -B built -DCMAKE_PREFIX_PATH="{where}" >said; cmake --build built >said; built/app; echo built', "cmake")
        self("CMake refuses another version", f"sed -i 's/queue_c 2/queue_c 3/' cm/CMakeLists.txt; ! cmake -S cm -B other_version -DCMAKE_PREFIX_PATH=\"$F/c\" >said 2>&1; grep -m 1 -o 'version: [0-9][0-9.]*' said", "cmake")

    def of_processors(self):
        self("test.c on older x86-64", '$cc $flags -static -I"$I" -o a "$F/c/test.c" "$L"; for cpu in qemu64 Conroe Penryn Nehalem; do qemu-x86_64 -cpu $cpu ./a 40 >said; echo $cpu $(tail -n 1 said); done', "qemu-x86_64")
        if not os.path.isdir(f"{self.folder}/c/lib/aarch64"):
            return self.lacks("test.c, example.c and heap_test.c on aarch64", "library for aarch64 in the folder")
        A = 'A="aarch64-linux-gnu-gcc $flags -static"; L=$F/c/lib/aarch64/libqueue_c.a; '
        needs = ("aarch64-linux-gnu-gcc", "qemu-aarch64")
        self("test.c on aarch64, by qemu", A + '$A -I"$I" -o arm "$F/c/test.c" "$L"; qemu-aarch64 ./arm 100', *needs)
        self("example.c on aarch64, by qemu", A + '$A -I"$I" -o arm "$F/c/example.c" "$L"; qemu-aarch64 ./arm', *needs)
        self("heap_test.c on aarch64, by qemu", A + '$A -o arm "$F/c/heap_test.c" "$F/c/heap.c"; qemu-aarch64 ./arm', *needs)

    def of_rust(self):
        cd = 'cd "$F/rust"; export CARGO_TARGET_DIR="$W/target"; '
        count = """ | grep '^test result' | awk '{p += $4; f += $6} END {print p " passed, " f " failed"; exit f > 0 || p == 0}'"""
        for flags in ("", "--release"):
            self(f"the crate's tests {flags}", cd + f"cargo test {flags} 2>&1" + count, "cargo", W=self.work)
        self("the crate's example", cd + "cargo run --quiet --example sum", "cargo", W=self.work)
        self("cargo doc", cd + 'RUSTDOCFLAGS=-Dwarnings cargo doc --no-deps 2>&1; ls "$W/target/doc/concurrent_queue/index.html"', "cargo", W=self.work)
        self("another system is refused", cd + '! cargo build --target wasm32-unknown-unknown >"$W/said" 2>&1; grep -h "Linux on x86-64 and aarch64" "$W/said"', "cargo", W=self.work)
        os.makedirs(f"{self.work}/app/src")
        self.file("app/src/main.rs", USER)
        self.file("app/Cargo.toml", PATCHED % self.folder)
        self("a program of one's own, patched by path", 'cd app; export CARGO_TARGET_DIR="$W/target"; cargo run --quiet; cargo tree -i concurrent-queue | head -n 1 | grep -q "/rust)"; cargo run --quiet', "cargo", W=self.work)
        self.file("app/Cargo.toml", BY_GIT % self.work)
        git = 'rm -rf repository; cp -r "$F" repository; cd repository; git init -q; git add -A; git -c user.name=a -c user.email=a@b commit -qm a; git tag v1; cd ../app; rm -f Cargo.lock; '
        self("a program of one's own, by git and a tag", git + 'export CARGO_TARGET_DIR="$W/target" CARGO_NET_OFFLINE=false; cargo run --quiet; cargo tree -i concurrent-queue | grep -m 1 "tag=v1"', "cargo", "git", W=self.work)
        other = 'rm -rf crate; cp -r "$F/rust" crate; cd crate; sed -i s/queue_c_version_2/queue_c_version_1/ src/raw.rs; export CARGO_TARGET_DIR="$W/target"; '
        self("a crate of another version does not link", other + '! cargo build --example sum >"$W/said" 2>&1; grep -m 1 -o "undefined.*queue_c_version_1_[0-9_]*" "$W/said"', "cargo", W=self.work)

    def of_programs(self):
        for at in ("bin", "bin/static"):
            for name in PAGES:
                if os.path.isfile(f"{self.folder}/{at}/{name}"):
                    self.of_program(at, name)
                else:
                    self.lacks(f"{at}/{name}", f"{name} in the folder")

    def of_program(self, at, name):
        it = f"{at}/{name}"
        self(it, f'"$F/{it}" 2>&1 | grep usage')
        with open(f"{self.folder}/bin/{PAGES[name]}", encoding="utf-8") as page:
            pairs = list(shown(page.read()))
        script = f'cd "$F/{at}"\n'
        for number, (command, wanted) in enumerate(pairs):
            self.file(f"wanted_{number}", wanted)
            script += f'{{ {command} || true; }} >"$W/said" 2>&1; test "$(cat "$W/said")" = "$(cat "$W/wanted_{number}")" || {{ cat "$W/said"; false; }}\n'
        self(f"{it}, what its page shows", script + f"echo {len(pairs)} as they are there; test {len(pairs)} -gt 0", W=self.work)
        if name == "queue_check":
            status = 'tells() { code=0; "$F/%s" $1 <"$F/bin/recordings/$2" >said || code=$?; test $code = $3 || { echo "$1 $2: $code"; false; }; }; ' % it
            recordings = "tells single full_beside_an_empty_slot.in 1; tells bounded:2 len_1_beside_a_displacement.in 0; tells atomic:bounded:2 len_1_beside_a_displacement.in 1; cat said"
            self(f"{it}, its recordings", status + recordings)
        if at == "bin":
            glibc = f'readelf --dyn-syms -W "$F/{it}" | grep -o "GLIBC_[0-9.]*" | sort -uV | tail -n 1'
            self(f"{it} asks for no later glibc", glibc + """ >said; printf 'GLIBC_2.34\n' | sort -V - said | tail -n 1 | grep -x GLIBC_2.34; cat said""", "readelf")
        else:
            self(f"{it} on an older processor", f'qemu-x86_64 -cpu qemu64 "$F/{it}" 2>&1 | grep usage', "qemu-x86_64")
            if self.is_hidden:
                self(f"{it} where nothing else is", f'rm -rf empty; mkdir empty; cp "$F/{it}" empty/it; chroot empty /it 2>&1 | grep usage')
            else:
                self.lacks(f"{it} where nothing else is", "right to another root")
            self(f"{it}, linked again", f'cd "$F/bin/static/objects"; $CC -static -o "$W/again" {name}.o libos_c.a liblibc_c.a -pthread; "$W/again" 2>&1 | grep usage', W=self.work)

    def all(self):
        hidden = "hidden" if self.is_hidden else "NOT HIDDEN: neither root nor a namespace of one's own can be had here"
        print(hidden, flush=True)
        self("sums", 'cd "$F"; sha256sum -c --quiet SHA256SUMS; echo "$(wc -l <SHA256SUMS) files"')
        first = 'rm -rf taken; cp -r "$F" taken; cd taken; export CARGO_TARGET_DIR="$W/target"; '
        with open(f"{self.folder}/README.md", encoding="utf-8") as page:
            commands = [it[4:] for it in page.read().split("\n## ")[0].splitlines() if it.startswith("    ")]
        self("the first commands of README.md", first + "".join(f"({it}\n)\n" for it in commands) + f"test {len(commands)} = 3", "make", "cargo", W=self.work)
        self.file("own.c", OWN_HEAP)
        self.of_c()
        self.of_links()
        self.of_installs()
        self.of_processors()
        self.of_rust()
        self.of_programs()
        self("sums afterwards", 'cd "$F"; sha256sum -c --quiet SHA256SUMS; echo "$(wc -l <SHA256SUMS) files"')
        wanting = ", ".join(f"{what} ({count})" for what, count in self.lacking.items())
        print(f"{self.passed} passed, {self.failed} failed, {self.lacking.total()} not tried{wanting and ', for want of: '}{wanting}; {hidden}")
        return int(self.failed > 0)


def inside(folder, work, is_hidden):
    if is_hidden and (shutil.which("rt") or shutil.which("rattle")):
        sys.exit("trials: the kit is not hidden")
    sys.exit(Trials(folder, work, is_hidden).all())


def main():
    folder, work, hidden = sys.argv[1], os.path.abspath(sys.argv[2]), [os.path.realpath(it) for it in sys.argv[3:]]
    os.makedirs(work)
    # The path of the folder has a space, and nothing of the repository is named from there.
    shutil.copytree(folder, f"{work}/a folder")
    os.makedirs(f"{work}/home")
    os.makedirs(f"{work}/try")
    shutil.copyfile(os.path.realpath(__file__), f"{work}/trials.py")
    home = pwd.getpwuid(os.getuid()).pw_dir
    rust = os.environ.get("RUSTUP_HOME", f"{home}/.rustup")
    cargo = os.path.dirname(os.path.realpath(shutil.which("cargo") or "/nowhere/cargo"))
    env = {"PATH": f"/usr/bin:/bin:/usr/sbin:/sbin:{home}/.cargo/bin:{cargo}", "HOME": f"{work}/home", "RUSTUP_HOME": rust, "CARGO_NET_OFFLINE": "true"}
    call = [sys.executable, f"{work}/trials.py", "--inside", f"{work}/a folder", f"{work}/try"]
    hide = "for folder in $HIDDEN; do mount -t tmpfs none \"$folder\" || exit 9; done; unset HIDDEN; cd /; exec \"$@\""
    for words in (["unshare", "-m"], ["unshare", "-rm"]):
        tried = subprocess.run([*words, "sh", "-c", "mount -t tmpfs none /mnt"], stdout=subprocess.DEVNULL, stderr=subprocess.DEVNULL)
        if tried.returncode == 0:
            sys.exit(subprocess.run([*words, "sh", "-c", hide, "sh", *call, "hidden"], env={**env, "HIDDEN": " ".join(hidden)}).returncode)
    sys.exit(subprocess.run([*call, "seen"], env=env).returncode)


if __name__ == "__main__":
    if sys.argv[1:2] == ["--inside"]:
        inside(sys.argv[2], sys.argv[3], sys.argv[4] == "hidden")
    main()
