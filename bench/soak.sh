#!/usr/bin/env bash
# Soaks shared queues without a capacity: no part of the gate. It wants the kit's `rt`, and valgrind.
# Eight million items by sixteen threads; 200,000 by eight threads under valgrind's memcheck, which fails where
# memory is misused or left over, and under clang's AddressSanitizer, with which `rt try` builds the program.
set -euo pipefail
cd "$(dirname "$0")/../crates/queue_run"
time rt run -- threads unbounded 8 8 1000000
time valgrind --leak-check=full --show-leak-kinds=all --errors-for-leak-kinds=all --error-exitcode=1 \
    out/queue_run threads unbounded 4 4 50000
time rt try --seconds 600 -- threads unbounded 4 4 50000
