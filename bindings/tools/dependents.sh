# The tests of the crates that stand on concurrent-queue, over ours and over it. To be sourced; wants tools/library.sh and tools/build.sh.

# How many seconds a crate's tests may take.
limit=1800

# The crate that takes the place of concurrent-queue.
drop_in=$here/rust

# SIDE: a folder whose crates come from Debian's packages, with the library's crate for concurrent-queue where the side is `ours`.
make_side() {
    mkdir -p "$work/$1/.cargo"
    cat >"$work/$1/.cargo/config.toml" <<END
[source.crates-io]
replace-with = "debian"

[source.debian]
directory = "$registry"
END
    if [ "$1" = ours ]; then
        cp -r "$drop_in" "$work/$1/concurrent-queue"
        cp "$here/README.md" "$work/$1/README.md"
        # Those that stand on it want none of its own tests' crates.
        sed -i '/^# Stand-ins/,/^$/d' "$work/$1/concurrent-queue/Cargo.toml"
        printf '\n[patch.crates-io]\nconcurrent-queue = { path = "%s" }\n' "$work/$1/concurrent-queue" >>"$work/$1/.cargo/config.toml"
    fi
}

# FOLDER NAME..: takes the examples and the benchmarks out of a crate, and each crate that only its tests may name but for these.
leave_for_tests() {
    local folder=$1
    shift
    rm -rf "$folder/examples" "$folder/benches" "$folder/.cargo-checksum.json"
    awk -v names=" $* " '
        /^\[/ {
            drop = $0 == "[[example]]" || $0 == "[[bench]]"
            if (match($0, /dev-dependencies\./)) { name = substr($0, RSTART + RLENGTH); sub(/\]$/, "", name); drop = !index(names, " " name " ") }
        }
        !drop' "$folder/Cargo.toml" >"$folder/Cargo.toml.new"
    mv "$folder/Cargo.toml.new" "$folder/Cargo.toml"
}

# SIDE CRATE FLAG..: runs the crate's tests there. It writes the names of the tests that failed to SIDE.failed, the counts to SIDE.counts.
run_tests() {
    local side=$1 crate=$2 linked=no status=0
    shift 2
    (
        cd "$work/$side/$crate"
        export CARGO_TARGET_DIR=$work/$side/target
        if ! timeout 1800 cargo test --offline --release --no-run "$@" >"$work/$side.build" 2>&1; then
            echo "$crate $* over $side cannot be built:"
            tail -n 20 "$work/$side.build"
            exit 3
        fi
        cargo tree --offline --invert concurrent-queue --depth 0 --prefix none "$@" >"$work/$side.tree" 2>&1 || true
        timeout "$limit" cargo test --offline --release --no-fail-fast "$@" >"$work/$side.log" 2>&1
    ) || status=$?
    [ "$status" = 3 ] && return 1
    # Where only the examples of its comments call the queue, no executable that is left has the library.
    if grep -qF "($work/$side/concurrent-queue)" "$work/$side.tree" && [ -n "$(nm "$work/$side"/target/release/deps/libconcurrent_queue-*.rlib 2>/dev/null | sed -n '/ queue_c_push$/p')" ]; then
        linked=yes
    fi
    sed -n 's/^test \(.*\) \.\.\. FAILED$/\1/p' "$work/$side.log" | sort -u >"$work/$side.failed"
    if [ "$status" != 0 ] && ! [ -s "$work/$side.failed" ]; then echo "the run, with status $status" >"$work/$side.failed"; fi
    awk '/^test result:/ { passed += $4; failed += $6 } END { printf "%d passed, %d failed", passed, failed }' "$work/$side.log" >"$work/$side.counts"
    # With nothing but its name in common, a patch that is not taken would have every test pass.
    if [ "$linked" != "$([ "$side" = ours ] && echo yes || echo no)" ]; then
        echo "$crate $* over $side: the library is linked: $linked"
        return 1
    fi
}

# [CRATE]: the table, of all crates or of this one, and a failure where a test fails over ours that passes over the reference.
check_dependents() {
    local crate flags names side folder only crates=() rows=()
    mapfile -t rows < <(grep "^${1:-[^#]}" "$here/dependents.txt" | tr -s ' ')
    mapfile -t crates < <(printf '%s\n' "${rows[@]}" | awk -F'|' '{ print $1, $3 }' | xargs -n 1 | sort -u)
    if ! debian_open "$work/debian" || ! debian_crates concurrent-queue "${crates[@]}"; then
        failed=$((failed + 1))
        return 0
    fi
    for side in ours reference; do
        make_side "$side"
    done
    echo "| crate | over concurrent-queue | over ours |"
    echo "|---|---|---|"
    for row in "${rows[@]}"; do
        IFS='|' read -r crate flags names <<<"$row"
        crate=${crate// /}
        flags=$(xargs <<<"$flags")
        for side in reference ours; do
            folder=$(echo "$registry/$crate"-[0-9]*)
            rm -rf "${work:?}/$side/$crate"
            cp -r "$folder" "$work/$side/$crate"
            leave_for_tests "$work/$side/$crate" $names
            if ! run_tests "$side" "$crate" $flags; then
                echo "$crate: FAILED"
                failed=$((failed + 1))
                continue 2
            fi
        done
        echo "| ${folder##*/}${flags:+, \`$flags\`} | $(cat "$work/reference.counts") | $(cat "$work/ours.counts") |"
        only=$(comm -13 "$work/reference.failed" "$work/ours.failed")
        if [ -n "$only" ]; then
            echo "$crate: FAILED only over ours:"
            echo "$only"
            failed=$((failed + 1))
        fi
    done
}
