# Our tests, and those of the crate concurrent-queue. To be sourced; wants tools/library.sh and tools/build.sh.

# NAME ARG..: runs cargo's tests, and shows how many passed.
cargo_tests() {
    local name=$1
    shift
    if try "$name" cargo test --offline --release --quiet "$@"; then
        echo "$name: $(sed -n 's/^test result: ok. \([0-9]*\) passed.*/\1/p' "$work/log" | paste -sd+ | bc) passed"
    fi
}

# The drop-in with that crate's tests in the place of ours.
put_their_tests() {
    cp -r "$here/rust" "$work/theirs"
    cd "$work/theirs"
    rm tests/*.rs
    cp "$reference"/tests/*.rs tests/
    # It tries the crate's own steps, by a model of memory.
    rm -f tests/loom.rs
}

# FILE: that crate's tests over a wrong library. Each test is run by itself, since it may never end.
try_wrong() {
    local name=$(basename "$1" .c) file test code fail=0
    [ -d "$work/theirs" ] || put_their_tests
    QUEUE_C=$(library_with "$1")
    export QUEUE_C CARGO_PROFILE_RELEASE_LTO=off
    for file in tests/*.rs; do
        file=$(basename "$file" .rs)
        for test in $(cargo test --offline --release --quiet --test "$file" -- --list 2>"$work/log" | sed -n 's/: test$//p'); do
            code=0
            timeout 20 cargo test --offline --release --quiet --test "$file" -- --exact "$test" >"$work/log" 2>&1 || code=$?
            case $code in
                0) ;;
                124) echo "wrong/$name.c: tests/$file.rs, $test does not end within 20 seconds" ;;
                *)
                    echo "wrong/$name.c: tests/$file.rs, $test fails"
                    fail=$((fail + 1))
                    ;;
            esac
        done
    done
    if [ "$fail" != 0 ]; then return; fi
    if grep -q 'Only histories show it' "$1"; then
        echo "wrong/$name.c: no test fails, and none has to: histories show it"
    else
        echo "wrong/$name.c: no test fails: FAILED"
        failed=$((failed + 1))
    fi
}

# FLAGS: our test from C, whose leaks these flags of cc find, over each library of keeps/. What it keeps is found.
check_keeps() {
    local shim name
    for shim in "$here"/keeps/*.c; do
        name=$(basename "$shim" .c)
        check_refused "LeakSanitizer: detected memory leaks" make -s -C c test_c OUT="$work/keeps_$name" QUEUE_C="$(library_with "$shim")" CFLAGS="$1" ARGS=200
        echo "keeps/$name.c: $(sed -n 's/^SUMMARY: //p' "$work/log")"
    done
}

check_c() {
    local sanitize="-O1 -g -fsanitize=address,undefined -fno-sanitize-recover=all" version
    version=$(sed -n 's/^#define QUEUE_C_VERSION "\(.*\)"/\1/p' c/queue_c.h)
    if ! grep -qF "This is version $version." ../README.md; then
        echo "c/queue_c.h: QUEUE_C_VERSION is $version, and the repository's version is another: FAILED"
        failed=$((failed + 1))
    fi
    if [ "$(grep -ho "queue_c_version_[0-9][0-9_]*" c/queue_c.h rust/src/raw.rs | sort -u)" != "queue_c_version_${version//./_}" ]; then
        echo "queue_c_version_..: c/queue_c.h or rust/src/raw.rs has not version $version: FAILED"
        failed=$((failed + 1))
    fi
    if try "c/heap_test.c" make -s -C c test_heap OUT="$work/c"; then
        echo "c/heap_test.c: $(tail -n 1 "$work/log")"
    fi
    if try "c/test.c" make -s -C c test_c OUT="$work/c"; then
        echo "c/test.c: $(tail -n 1 "$work/log")"
    fi
    if command -v "${CXX:-c++}" >/dev/null; then
        if try "c/test.cpp" make -s -C c test_cpp OUT="$work/c"; then
            echo "c/test.cpp: $(tail -n 1 "$work/log")"
        fi
    else
        echo "c/test.cpp: not tried, there is no C++ compiler"
    fi
    if try "make install" make -s -C c install PREFIX="$work/installed" && command -v pkg-config >/dev/null; then
        export PKG_CONFIG_PATH=$work/installed/lib/pkgconfig
        if try "c/test.c by pkg-config" sh -c 'cc -std=c11 -D_POSIX_C_SOURCE=200809L -O2 -o "$1" c/test.c $(pkg-config --cflags --libs queue_c) -pthread && "$1" 300' sh "$work/by_pkg_config"; then
            echo "c/test.c by pkg-config: $(tail -n 1 "$work/log")"
        fi
        unset PKG_CONFIG_PATH
    fi
    if echo 'int main(void) { return 0; }' | cc $sanitize -x c -o "$work/sanitized" - 2>"$work/log"; then
        if try "c/test.c with ASan and UBSan" make -s -C c test_c OUT="$work/sanitize" CFLAGS="$sanitize" ARGS=2000; then
            echo "c/test.c with ASan and UBSan: $(tail -n 1 "$work/log")"
        fi
        check_keeps "$sanitize"
    else
        echo "c/test.c with ASan and UBSan: not tried, cc has neither"
    fi
}

# TEXT COMMAND..: the command fails, and says why.
check_refused() {
    local text=$1
    shift
    if timeout 600 "$@" >"$work/log" 2>&1; then
        echo "'$*' is not refused: FAILED"
        failed=$((failed + 1))
    elif ! grep -qF "$text" "$work/log"; then
        echo "'$*' does not say '$text': FAILED"
        tail -n 20 "$work/log"
        failed=$((failed + 1))
    fi
}

# FILE [TEST]: our tests of that file, or the one of that name, over that crate itself.
run_over_reference() {
    local name="concurrent-queue $version itself, rust/tests/$1.rs"
    build_over "$work/$1" "$here/rust/tests/$1.rs" "$work/reference" --test
    if try "$name" "$work/$1" "${@:2}"; then
        echo "$name: $(sed -n 's/^test result: ok. \([0-9]*\) passed.*/\1/p' "$work/log") passed"
    fi
}

check_tests() {
    local test file
    check_c
    cp -r "$here/rust" "$work/ours"
    cd "$work/ours"
    check_refused "libqueue_c.a is not there" env -u QUEUE_C cargo build --offline --release
    check_refused "libqueue_c.a is not there" env QUEUE_C="$work" cargo build --offline --release
    check_refused "for Linux on x86-64 and aarch64, not for unknown on wasm32" cargo build --offline --release --target wasm32-unknown-unknown
    check_refused "the feature \`loom\`" cargo build --offline --release --features loom
    for test in tests/*.rs; do
        file=$(basename "$test")
        cargo_tests "rust/tests/$file" --test "${file%.rs}"
    done
    cargo_tests "rust/src/places/tests.rs" --lib
    cargo_tests "rust/src/refused.rs" --doc
    # No handle may be in two calls, though such a call might answer right.
    export QUEUE_C=$(library_with "$here/tools/one_call.c") CARGO_PROFILE_RELEASE_LTO=off
    cargo_tests "rust/tests over the library that watches its calls" --tests
    unset CARGO_PROFILE_RELEASE_LTO
    name_library
    find_reference || return 0
    # What we expect of it comes from the crate itself.
    build_reference "$work/reference"
    run_over_reference as_the_reference
    run_over_reference within_a_call an_allocator_writes_each_request_down
    put_their_tests
    for test in tests/*.rs; do
        file=$(basename "$test")
        cargo_tests "concurrent-queue $version, tests/$file" --test "${file%.rs}"
    done
    # The examples of its comments, as the only ones of the copy.
    sed -i -e 's|^ *//[/!].*||' -e 's/, missing_docs//' src/*.rs
    awk '/^[ \t]*\/\/[\/!]/ { sub(/^[ \t]*\/\/[\/!] ?/, ""); fence = /^```/; if (fence || inside) print; if (fence) inside = !inside }' "$reference/src/lib.rs" >src/examples.md
    sed -i '1i #![doc = include_str!("examples.md")]' src/lib.rs
    cargo_tests "concurrent-queue $version, examples of src/lib.rs" --doc
}
