# Shared by audit-awake.sh and compare-awake.sh: builds the oracle over an
# edited scratch copy of the original, in a temporary folder.
set -eu
here=$(cd "$(dirname "$0")" && pwd)
from=$("$here/where")
scratch=$(mktemp -d)
trap 'rm -rf "$scratch"' EXIT
trap 'exit 1' INT TERM
only=" $* "
caught=0
missed=0

# Whether the edit named $1 is asked for.
asked() {
    [ "$only" = "  " ] && return 0
    case $only in *" $1 "*) return 0 ;; esac
    return 1
}

# build NAME FILE SED: the oracle over the edited copy, at $scratch/target.
build() {
    rm -rf "$scratch/src"
    mkdir "$scratch/src"
    cp -R "$from/crates" "$scratch/src/"
    chmod -R u+w "$scratch/src"
    file=$(find "$scratch/src" -name "$2")
    sed -e "$3" "$file" >"$scratch/edited"
    if cmp -s "$file" "$scratch/edited"; then
        echo "$1: the edit changes nothing" >&2
        return 1
    fi
    cp "$scratch/edited" "$file"
    if ! (
        cd "$here"
        ION_HF_SRC="$scratch/src" CARGO_PROFILE_RELEASE_OPT_LEVEL=1 CARGO_INCREMENTAL=1 \
            cargo build --release --offline --quiet --target-dir "$scratch/target"
    ) >"$scratch/build" 2>&1; then
        echo "$1: the edited original does not build" >&2
        grep -m 5 '^error' "$scratch/build" >&2 || true
        return 1
    fi
}

# The sum, and success where every edit was caught.
finish() {
    echo "$caught caught, $missed not"
    [ "$missed" = 0 ]
}
