# The library, and others in its place: wrong ones, and one that watches its calls. To be sourced; wants $here and $work.

# NAME COMMAND..: runs the command within ten minutes, and shows what it wrote only if it fails.
try() {
    local name=$1
    shift
    if timeout 600 "$@" >"$work/log" 2>&1; then
        return 0
    fi
    echo "$name: FAILED"
    tail -n 40 "$work/log"
    failed=$((failed + 1))
    return 1
}

# Builds the library.
build_library() {
    if ! name_library; then
        echo "the library: FAILED"
        exit 1
    fi
    export CARGO_TARGET_DIR=$work/target
    echo "the library: $(nm -g --defined-only "$QUEUE_C/libqueue_c.a" 2>/dev/null | grep -c ' T queue_c_') functions"
}

# FILE: makes a library whose functions in that file take the place of the right ones, in a folder of its own, and prints the folder.
library_with() {
    local name=$(basename "$1" .c) symbol renames=()
    mkdir -p "$work/$name"
    cc -O2 -I "$here/c" -c -o "$work/$name.o" "$1"
    for symbol in $(nm --defined-only "$work/$name.o" | sed -n 's/.* T //p'); do
        renames+=(--redefine-sym "$symbol=right_$symbol")
    done
    objcopy "${renames[@]}" "$library/libqueue_c.a" "$work/$name/libqueue_c.a"
    ar r "$work/$name/libqueue_c.a" "$work/$name.o" 2>/dev/null
    echo "$work/$name"
}
