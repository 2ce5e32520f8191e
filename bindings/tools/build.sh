# The programs of bench/ over the library and over the crate concurrent-queue. To be sourced; wants $here and $work.
. "$here/tools/debian.sh"

rust=(rustc --edition 2021 -C opt-level=3 -C codegen-units=1 --cap-lints allow)

# FOLDER LIBRARY: builds the drop-in over that library.
build_drop_in() {
    mkdir -p "$1"
    "${rust[@]}" --crate-type rlib --crate-name concurrent_queue -L "native=$2" -l static=queue_c --out-dir "$1" "$here/rust/src/lib.rs"
}

# Finds the crate's source: the version that this repository ports is in Debian 13.
find_reference() {
    reference=${REFERENCE:-}
    crossbeam_utils=${CROSSBEAM_UTILS:-}
    if [ -z "$reference" ] || [ -z "$crossbeam_utils" ]; then
        debian_open "$work/debian" && debian_crates concurrent-queue || return 1
        reference=${reference:-$(echo "$registry"/concurrent-queue-2*)}
        crossbeam_utils=$(echo "$registry"/crossbeam-utils-0.8*)
    fi
    version=$(sed -n 's/^version = "\(.*\)"/\1/p' "$reference/Cargo.toml" | head -n 1)
}

# FOLDER: builds that crate, once it was found.
build_reference() {
    mkdir -p "$1"
    "${rust[@]}" --crate-type rlib --crate-name crossbeam_utils --out-dir "$1" "$crossbeam_utils/src/lib.rs"
    "${rust[@]}" --crate-type rlib --crate-name concurrent_queue --cfg 'feature="std"' --extern "crossbeam_utils=$1/libcrossbeam_utils.rlib" --out-dir "$1" "$reference/src/lib.rs"
}

# OUT SOURCE FOLDER FLAG..: builds a program over the crate that was built in the folder.
build_over() {
    local out=$1 source=$2 folder=$3
    shift 3
    "${rust[@]}" "$@" --extern "concurrent_queue=$folder/libconcurrent_queue.rlib" -L "$folder" -o "$out" "$source"
}

# Builds the library for this machine, once, and names its folder. In a fresh clone this proves all that it is built on, which may take an hour. So it has no
# limit of time.
name_library() {
    library=$work/library
    [ -f "$library/libqueue_c.a" ] || "$here/tools/library.py" "$library" >"$work/proved"
    export QUEUE_C=$library
}

# Builds bench.c, bench.rs, pair.c and pair.rs, from the folder bench.
build_forms() {
    local source
    name_library
    for source in bench pair; do
        cc -std=c11 -D_POSIX_C_SOURCE=200809L -O2 -I "$here/c" -pthread -o "$work/${source}_c" "$source.c" "$QUEUE_C/libqueue_c.a"
    done
    build_drop_in "$work/ours" "$QUEUE_C"
    find_reference
    build_reference "$work/reference"
    build_over "$work/bench_ours" bench.rs "$work/ours" --cfg ours
    build_over "$work/bench_theirs" bench.rs "$work/reference"
    build_over "$work/pair_handle" pair.rs "$work/ours" --cfg handle
    build_over "$work/pair_ours" pair.rs "$work/ours"
    build_over "$work/pair_theirs" pair.rs "$work/reference"
}
