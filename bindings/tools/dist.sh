# The folder that `dist` makes, tried as a stranger has it. To be sourced; wants tools/library.sh and tools/dependents.sh.

# [--without WHAT..]: makes the folder twice and tries it. Without a C compiler for aarch64 it is made without that.
check_dist() {
    local kit without=("$@")
    kit=$(dirname "$(dirname "$(realpath "$(command -v rt)")")")
    if [[ " $* " != *" aarch64 "* ]] && ! command -v "${AARCH64_CC:-aarch64-linux-gnu-gcc}" >/dev/null; then
        echo "aarch64: NOT TRIED, there is no ${AARCH64_CC:-aarch64-linux-gnu-gcc}"
        without=("${without[@]:---without}" aarch64)
    fi
    if ! "$here/dist" "$work/folder" "${without[@]}" || ! "$here/dist" "$work/again" "${without[@]}"; then
        echo "dist: FAILED"
        failed=$((failed + 1))
        return 0
    fi
    if cmp "$work/folder/SHA256SUMS" "$work/again/SHA256SUMS"; then
        echo "a second time: the same sums"
    else
        echo "a second time: other sums: FAILED"
        diff "$work/folder/SHA256SUMS" "$work/again/SHA256SUMS" || true
        failed=$((failed + 1))
    fi
    if ! "$here/tools/trials.py" "$work/folder" "$work/trials" "$kit" "$(realpath "$here/..")"; then
        failed=$((failed + 1))
    fi
    unset QUEUE_C
    drop_in=$work/folder/rust
    check_dependents async-channel
}
