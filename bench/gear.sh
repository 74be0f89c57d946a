#!/bin/sh
# The gear's part of bench/run: an ack in Goodput, beside the Rust's on_ack where cargo and the original's sources are at hand.
set -eu
cd "$(dirname "$0")/.."
tools/prove bench_gear > /dev/null
"${CC:-cc}" -O3 -o target/bench_gear bench/gear.c target/staticlib/libbench_gear.a
rust=
if command -v cargo > /dev/null 2>&1 && oracle/where > /dev/null 2>&1; then
    rust=$(oracle/run bench)
fi
# shellcheck disable=SC2086
target/bench_gear $rust
