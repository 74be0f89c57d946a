#!/bin/sh
# usage: bench/calls.sh [FOLDER]
# The least nanoseconds of single calls (bench/calls.c), of six runs. FOLDER is another checkout whose library is built (`tools/prove station` there): the runs of both
# take turns, and the last column is by how much this one's calls take longer. Wants a C compiler, as `cc` or in CC.
set -eu
other=${1:+$(cd "$1" && pwd)}
cd "$(dirname "$0")/.."
room=$(mktemp -d)
trap 'rm -rf "$room"' EXIT

# built FOLDER PROGRAM: the rows' program over the library of a checkout.
built() {
    [ -f "$1/target/staticlib/libstation.a" ] || { echo "bench/calls.sh: no library in $1: tools/prove station" >&2; exit 1; }
    before=
    grep -q 'struct vanitycrow_message ' "$1/include/vanitycrow.h" || before=-DBEFORE_MESSAGES
    "${CC:-cc}" -O3 -D_POSIX_C_SOURCE=199309L $before -I"$1/include" -I"$1/examples" -Ibench -o "$2" bench/calls.c "$1/target/staticlib/libstation.a"
}

built . "$room/this"
[ -z "$other" ] || built "$other" "$room/other"
for run in 1 2 3 4 5 6; do
    "$room/this" >>"$room/this.rows"
    [ -z "$other" ] || "$room/other" >>"$room/other.rows"
done
touch "$room/other.rows"
awk -F '\t' '
    FILENAME ~ /other/ { if (!($1 in was) || $2 < was[$1]) was[$1] = $2; next }
    { if (!($1 in is)) { order[++n] = $1; is[$1] = $2 } else if ($2 < is[$1]) is[$1] = $2 }
    END {
        for (i = 1; i <= n; i++) {
            name = order[i]
            if (name in was) printf "%-48s %6d %6d %+5d\n", name, was[name], is[name], is[name] - was[name]
            else printf "%-48s %6d\n", name, is[name]
        }
    }' "$room/other.rows" "$room/this.rows"
