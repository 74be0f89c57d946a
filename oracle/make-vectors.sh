#!/bin/sh
# Writes the generated part of vectors/ anew, and the transcripts of all of it but the `log` lists of vectors/changes.
# Each list is named KIND-CALLS-SEED after the arguments that make it.
set -eu
here=$(cd "$(dirname "$0")" && pwd)
vectors=$here/../vectors
find "$vectors" -maxdepth 1 -name '*-[0-9]*-[0-9]*.calls' -exec rm {} +
find "$vectors" -maxdepth 1 -name '*.transcript' -exec rm {} +

# vectors KIND CALLS SEED.., into $into
vectors() {
    kind=$1
    calls=$2
    shift 2
    for seed; do
        "$here/run" generate "$seed" 1 "$calls" "$kind" >"$into/$kind-$calls-$seed.calls"
    done
}
into=$vectors

vectors usual 26 6 16 33 41 43 47 50 59 62 64 67 74 79
vectors usual 30 411
vectors ladder 26 1001 1007 1008 1019 1028 1035 1040 1045 1054 1056 1063 1070
vectors harq 18 15 29 36 41 43 52 71 78
vectors harq 20 1105 1125 1187
vectors harq 26 403 415 418 423 436 451 481 484 492
vectors merge 16 1 5 32 33 41 42 44 46
vectors many 8 227
vectors many 10 42
vectors extreme 18 4 8 10 13 16 28 35 45 51 55
vectors hostile 20 0 2 3 22 29 32 36
vectors limits 12 39
vectors limits 24 3
vectors limits 30 36 41 46 47 88 105 106
vectors profiles 24 3 4 5 8
vectors lines 5 0 18 25 37 64 89 131 133 143 145 169 184 188 196 197 210 234 241 245 259 263 265 279 296 299 302 309 369 \
    389 392

into=$vectors/changes
vectors levels 180 12
vectors classes 40 2 5 12 14 15 21 32 33 41 51
vectors classes 70 9 18 42 53
vectors labels 40 4 7 15 39 59
vectors labels 70 5 13 30 36 41 50 54
vectors box 50 1
vectors box 70 2
vectors box 90 3
vectors box 110 4
vectors box 130 5
vectors box 150 6
vectors frames 40 0 1 2 3 4 5 6 7
vectors frames 90 0 1 2 3

examples=$here/../examples
for list in "$vectors"/*.calls "$vectors"/changes/levels-*.calls "$vectors"/changes/classes-*.calls "$vectors"/changes/labels-*.calls "$vectors"/changes/box-*.calls "$vectors"/changes/frames-[0-9]*.calls \
    "$vectors"/changes/airtime-*.calls "$examples/levels.calls" "$examples/classes.calls" "$examples/bulletin.calls" "$examples/frames.calls" \
    "$vectors/changes/frames-of-263-and-264.calls"; do
    "$here/run" transcript "$list" >"${list%.calls}.transcript"
done
# Longer frames: by the edited original.
"$here/run-edited" transcript "$vectors/changes/frames-of-265-and-512.calls" >"$vectors/changes/frames-of-265-and-512.transcript"
