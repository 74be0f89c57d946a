#!/bin/sh
# The sender's part of bench/run: its calls through the C interface beside the original's, in one process, and its memory.
# VANITYCROW_LIB names a folder with libstation.a, where it is not to be built.
set -eu
cd "$(dirname "$0")/.."
if ! command -v cargo > /dev/null 2>&1 || ! oracle/where > /dev/null 2>&1; then
    echo "the sender is not timed beside the original: cargo or the original's sources are not at hand"
    exit 0
fi
if [ -z "${VANITYCROW_LIB:-}" ]; then
    tools/prove station > /dev/null
    VANITYCROW_LIB=target/staticlib
fi
VANITYCROW_LIB=$(cd "$VANITYCROW_LIB" && pwd)
export VANITYCROW_LIB
oracle/run speed
# What the library asks for and doesn't have itself: with no function that allocates, it has no heap.
outside=$(nm "$VANITYCROW_LIB/libstation.a" | awk '$1 == "U" { asked[$2] } NF == 3 { had[$3] } END { for (s in asked) if (!(s in had)) print s }' | sort)
# shellcheck disable=SC2086
echo "the library's symbols from outside:" ${outside:-none}
if echo "$outside" | grep -q -E 'alloc|free|map|brk|_Zn'; then
    echo "heap: the library may use one"
else
    echo "heap: none"
fi
