# Histories of real threads, and queues and channels that are open again. To be sourced; wants tools/library.sh, tools/build.sh and tools/dependents.sh.

# OUT LIBRARY FLAG..: builds the recorder over C's handles of that library.
build_over_handles() {
    "${rust[@]}" --cfg c_handles "${@:3}" -L "native=$2" -l static=queue_c -o "$1" "$here/histories/main.rs"
}

# SIDE: counts channels of async-channel that are open again, over that side's queue.
lost_close_of_channels() {
    mkdir -p "$work/$1/lost_close"
    cat >"$work/$1/lost_close/Cargo.toml" <<END
[package]
name = "lost_close"
edition = "2021"

[features]
default = ["channel"]
channel = []

[dependencies]
async-channel = "2"

[[bin]]
name = "lost_close"
path = "$here/histories/lost_close.rs"

[workspace]
END
    env -C "$work/$1/lost_close" CARGO_TARGET_DIR="$work/$1/target" timeout 900 cargo run --offline --release --quiet
}

# Proves and builds the program that decides histories, or takes the one that QUEUE_CHECK names.
name_queue_check() {
    if [ -z "${QUEUE_CHECK:-}" ]; then
        if ! "$here/tools/program.py" queue_check; then
            echo "queue_check, which is to decide histories: FAILED"
            failed=$((failed + 1))
            return 1
        fi
        QUEUE_CHECK=$here/../crates/queue_check/out/queue_check
    fi
    export QUEUE_CHECK
}

# NAME COMMAND..: of this queue some history has to be illegal, which status 1 says. Each other status is a failure.
check_some_illegal() {
    local name=$1 status=0
    shift
    timeout 3600 "$@" >"$work/log" 2>&1 || status=$?
    case $status in
        0) echo "$name: no history is illegal: FAILED" ;;
        1) echo "$name: $(tail -n 1 "$work/log")" && return ;;
        *) echo "$name: FAILED, status $status" && tail -n 20 "$work/log" ;;
    esac
    failed=$((failed + 1))
}

# COUNT: the histories of each form, so many of each capacity, and queues that are open again. None over our library may be illegal, and some over the crate
# concurrent-queue and over each wrong library have to be.
check_histories() {
    local count=$1 form shim name side
    name_queue_check || return 0
    build_over_handles "$work/known" "$QUEUE_C" --test
    if try "histories/checker/tests.rs" "$work/known"; then
        echo "histories/checker/tests.rs: $(sed -n 's/^test result: ok. \([0-9]*\) passed.*/\1/p' "$work/log") passed"
    fi
    build_over_handles "$work/handles" "$QUEUE_C"
    build_drop_in "$work/ours" "$QUEUE_C"
    build_over "$work/drop_in" "$here/histories/main.rs" "$work/ours"
    build_over "$work/drop_in_large" "$here/histories/main.rs" "$work/ours" --cfg large
    build_over "$work/lost_close_ours" "$here/histories/lost_close.rs" "$work/ours"
    for form in handles drop_in drop_in_large; do
        if timeout 3600 "$work/$form" "$count" 1; then continue; fi
        echo "histories, $form: FAILED"
        failed=$((failed + 1))
    done
    echo "ours, queues that are open again:"
    if ! timeout 600 "$work/lost_close_ours"; then
        echo "lost_close: FAILED"
        failed=$((failed + 1))
    fi
    for shim in "$here"/wrong/*.c; do
        name=$(basename "$shim")
        build_over_handles "$work/wrong_handles" "$(library_with "$shim")"
        check_some_illegal "wrong/$name" "$work/wrong_handles" 4096 1 first
    done
    if ! find_reference; then
        failed=$((failed + 1))
        return 0
    fi
    build_reference "$work/reference"
    build_over "$work/control" "$here/histories/main.rs" "$work/reference"
    build_over "$work/lost_close_reference" "$here/histories/lost_close.rs" "$work/reference"
    check_some_illegal "the control, concurrent-queue $version" "$work/control" "$count" 1
    grep ', capacity ' "$work/log" || true
    echo "concurrent-queue $version, queues that are open again:"
    if timeout 600 "$work/lost_close_reference"; then
        echo "lost_close, the control: no queue is open again"
    fi
    if ! { [ -n "${registry:-}" ] || debian_open "$work/debian"; } || ! debian_crates concurrent-queue async-channel; then
        failed=$((failed + 1))
        return 0
    fi
    for side in ours reference; do
        make_side "$side"
        echo "async-channel over $side, channels that are open again:"
        if ! lost_close_of_channels "$side" && [ "$side" = ours ]; then
            echo "lost_close of channels: FAILED"
            failed=$((failed + 1))
        fi
    done
}
