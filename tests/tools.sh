#!/bin/sh
# The tools do what they say, over small repositories made here: check-contracts, believed, prove, check-edits.
#
# tools/check-contracts notices what it is there for: in copies of the sources, a removed ensures (of a function, a method, an exported
# function with its signature over several lines) and an added requires are each reported; a requires where one may stand, and a
# `pub(crate)` function without ensures, are not.
set -eu
cd "$(dirname "$0")/.."
work=$(mktemp -d)
trap 'rm -rf "$work"' EXIT
tried=0

# tries WANTED CRATE SOURCE: SOURCE as crate CRATE; WANTED is the row, or "none"
tries() {
    rm -rf "$work/copy"
    mkdir -p "$work/copy/crates/$2/src" "$work/copy/crates/station/src"
    printf '%s:\nstation:\n' "$2" | sort -u >"$work/copy/crates.txt"
    printf 'pub extern "C" fn vanitycrow_none() -> u8\n    ensures { result ≡ 0 }\n{\n    0\n}\n' >"$work/copy/crates/station/src/lib.rt"
    printf '%b' "$3" >"$work/copy/crates/$2/src/lib.rt"
    status=0
    tools/check-contracts "$work/copy" >"$work/rows" || status=$?
    if [ "$1" = none ]; then
        [ $status -eq 0 ] || { cat "$work/rows"; echo "reported, and should not be: $3"; exit 1; }
    else
        [ $status -eq 1 ] && grep -q "$1" "$work/rows" || { cat "$work/rows"; echo "not reported: $3"; exit 1; }
    fi
    tried=$((tried + 1))
}

tries none level 'pub fn a(x: [f32; 17]) -> [f32; 17]\n    ensures { result ≡ x }\n{\n    x\n}\n'
tries 'lib.rt:1 a: no ensures' level 'pub fn a(x: [f32; 17]) -> [f32; 17]\n{\n    x\n}\n'
tries none level 'pub(crate) fn a() -> u8 {\n    0\n}\nfn b() {}\n'
tries none level '// pub fn gone() {}\nconst A: u8 = 0;\n'
tries 'lib.rt:4 Gear::a: no ensures' level 'impl Gear {\n    // ensures { }\n    // a comment\n    pub fn a(mut self) -> Gear {\n        self\n    }\n}\n'
tries 'lib.rt:2 vanitycrow_a: no ensures' station '#[unsafe(no_mangle)]\npub extern "C" fn vanitycrow_a(\n    p: &Profile,\n    s: &mut Sender,\n) -> u8\n{\n    0\n}\n'
tries 'lib.rt:1 a: an entry point with a requires' station 'pub fn a(x: u8) -> u8\n    requires { x < 2 }\n    ensures { result ≡ x }\n{\n    x\n}\n'
tries none level 'pub fn a(x: u8) -> u8\n    requires { x < 2 }\n    ensures { result ≡ x }\n{\n    x\n}\n'
tries 'lib.rt:2 Half::half: no ensures' level 'pub trait Half {\n    fn half(self) -> Self;\n}\n'
tries none level 'trait Half {\n    fn half(self) -> Self;\n}\n'
tries none level 'pub trait Half {\n    fn half(self) -> Self\n        ensures { result ≡ self };\n}\n\nimpl Half for u8 {\n    fn half(self) -> u8 {\n        self\n    }\n}\n'
tries 'lib.rt:2 u8::from: no ensures' level 'impl From<Gear> for u8 {\n    fn from(g: Gear) -> u8 {\n        0\n    }\n}\n'
tries none level 'impl From<Gear> for u8 {\n    ghost from_gives = { λ g n. n ≡ 0 };\n\n    fn from(g: Gear) -> u8 {\n        0\n    }\n}\n'
tries 'lib.rt:4 u8::one: no ensures' level 'impl Two for u8 {\n    ghost any_gives = { λ a b. ⊤ };\n\n    fn one(self) -> u8 {\n        0\n    }\n}\n'
tries 'lib.rt:8 u8::into: no ensures' level 'impl From<Gear> for u8 {\n    ghost from_gives = { λ g n. n ≡ 0 };\n\n    fn from(g: Gear) -> u8 {\n        0\n    }\n\n    fn into(self) -> u8 {\n        0\n    }\n}\n'
tries 'u8::half: no ensures' level 'struct Half;\n\nimpl Half {\n    fn half(self) -> u8\n        ensures { result ≡ 0 }\n    {\n        0\n    }\n}\n\nimpl Half for u8 {\n    fn half(self) -> u8 {\n        self\n    }\n}\n'
tries 'u8::half: no ensures' level 'mod a {\n    pub trait Half {\n        fn half(self) -> Self\n            ensures { result ≡ self };\n    }\n}\n\ntrait Half {\n    fn half(self) -> Self;\n}\n\nimpl Half for u8 {\n    fn half(self) -> u8 {\n        self\n    }\n}\n'

# Of the sources as they stand: each public function of the calls, with its ensures taken out
for source in crates/sender/src/lib.rt crates/station/src/lib.rt; do
    crate=$(echo "$source" | cut -d / -f 2)
    rm -rf "$work/copy"
    mkdir -p "$work/copy/crates/$crate/src"
    echo "$crate:" >"$work/copy/crates.txt"
    cp "$source" "$work/copy/crates/$crate/src/lib.rt"
    tools/check-contracts "$work/copy" >/dev/null
    for line in $(grep -n '^    ensures' "$source" | cut -d : -f 1); do
        sed "${line}d" "$source" >"$work/copy/crates/$crate/src/lib.rt"
        if head -n "$line" "$source" | grep -E '^(pub )?(extern "C" )?fn |^pub extern' | tail -n 1 | grep -q '^pub'; then
            if tools/check-contracts "$work/copy" >"$work/rows"; then
                echo "$source: line $line removed, and not reported"
                exit 1
            fi
            grep -q 'no ensures' "$work/rows"
            tried=$((tried + 1))
        fi
    done
done

# tools/believed follows citations: an alias, a name of the own crate, a module's parameters, a constructor on the left, a struct's fields;
# and is not taken in by a variable that has a definition's name, a field, or a comment.
small=$work/small
mkdir -p "$small/tools"
cp tools/believed tools/sources.py "$small/tools/"
for crate in base sender station demand rounding; do
    mkdir -p "$small/crates/$crate/src" "$small/crates/$crate/specs" "$small/crates/$crate/proofs"
    echo "$crate:" >>"$small/crates.txt"
    echo "pub mod Lib" >"$small/crates/$crate/specs/Lib.antt"
    echo "// Nothing." >"$small/crates/$crate/src/lib.rt"
done
cat >"$small/crates/base/src/lib.rt" <<'END'
pub mod parts;
use parts::Part;

pub struct Whole {
    pub part: Part,
}
END
printf 'pub struct Part {\n    pub n: u8,\n}\n\npub struct Unused {\n    pub n: u8,\n}\n' >"$small/crates/base/src/parts.rt"
cat >"$small/crates/base/specs/Base.antt" <<'END'
-- Definitions only.
use Rattle.std.specs.Prelude.{ℕ}
use Rattle.base.specs.declared.Whole.{Whole}

pub data Kind : Type 0 where
  one : Kind
  other : Kind

abbrev pub cited : ℕ → ℕ
cited n = 0

abbrev pub «IN_QUOTES» : ℕ
«IN_QUOTES» = 3

abbrev pub hidden : ℕ
hidden = 1

abbrev pub field : ℕ
field = 2

-- by its parameter alone
abbrev pub Parameter : Type 0
Parameter = ℕ

module _ (x : Parameter) where
  abbrev pub inside : Kind → ℕ
  inside one = 0
  inside other = 1
END
cat >"$small/crates/sender/specs/Calls.antt" <<'END'
-- Definitions only.
use Rattle.std.specs.Prelude.{ℕ}
use Rattle.base.specs.Base as B
use Rattle.base.specs.Base.{hidden, field, inside, «IN_QUOTES»}
use Rattle.base.specs.declared.Whole.{Whole}

-- mentions Rattle and unused
abbrev pub helper : ℕ → Whole → ℕ
helper hidden w = B.cited w.field

abbrev pub call :
    ℕ → Whole → ℕ
call n w =
    let field = helper n w in
    inside «IN_QUOTES» field

abbrev pub unused : ℕ
unused = hidden
END
cat >"$small/crates/sender/src/lib.rt" <<'END'
use base::Whole;
ghost use Rattle.std.specs.Prelude.{◌≡◌};
ghost use Rattle.sender.specs.Calls.{call, unused};

pub fn calls(w: Whole) -> u8
    ensures { result ≡ call 0 w }
{
    0
}

fn private() -> u8
    ensures { result ≡ unused }
{
    1
}
END
for file in Lists Page Single; do
    printf -- '-- Definitions only.\nabbrev pub of%s : Type 0\nof%s = Unit\n' $file $file >"$small/crates/demand/specs/$file.antt"
done
printf 'pub demand3 : Unit\ndemand3 = tt\n' >"$small/crates/demand/proofs/Theorem.antt"
printf 'pub single-class : Unit\nsingle-class = tt\n' >"$small/crates/demand/proofs/Single.antt"
printf 'pub in-binary32 : Unit\nin-binary32 = tt\n\npub in-binary64 : Unit\nin-binary64 = tt\n\npub in-conversions : Unit\nin-conversions = tt\n' \
    >"$small/crates/rounding/proofs/Theorem.antt"
mkdir -p "$small/crates/verdicts/proofs" "$small/crates/calendar/proofs" "$small/crates/adif/proofs" "$small/crates/reachable/proofs" "$small/crates/far_station/proofs" \
    "$small/crates/card/proofs" "$small/crates/arrival/proofs" "$small/crates/receiver/proofs"
printf 'pub cannot-force : Unit\ncannot-force = tt\n' >"$small/crates/far_station/proofs/Theorem.antt"
printf 'pub round_trip : Unit\nround_trip = tt\n' >"$small/crates/card/proofs/Round.antt"
printf 'pub later-versions : Unit\nlater-versions = tt\n' >"$small/crates/card/proofs/Later.antt"
printf 'pub read_off : Unit\nread_off = tt\n\npub told-alone : Unit\ntold-alone = tt\n' >"$small/crates/card/proofs/Stretch.antt"
printf 'pub end_to_end : Unit\nend_to_end = tt\n' >"$small/crates/arrival/proofs/Theorem.antt"
printf 'pub keeps-sound : Unit\nkeeps-sound = tt\n' >"$small/crates/receiver/proofs/Keeps.antt"
printf 'pub sent-taken : Unit\nsent-taken = tt\n' >"$small/crates/receiver/proofs/Sent.antt"
printf 'pub lists : Unit\nlists = tt\n' >"$small/crates/reachable/proofs/Laws.antt"
printf 'pub by-claim : Unit\nby-claim = tt\n\npub under-claim : Unit\nunder-claim = tt\n\npub agree : Unit\nagree = tt\n' >"$small/crates/reachable/proofs/Answers.antt"
for law in queue-first reply-first frames-first burst-first lookup_first; do
    printf 'pub %s : Unit\n%s = tt\n\n' $law $law
done >"$small/crates/verdicts/proofs/Order.antt"
printf 'pub date-back : Unit\ndate-back = tt\n\npub second_back : Unit\nsecond_back = tt\n' >"$small/crates/calendar/proofs/Laws.antt"
printf 'pub read_back : Unit\nread_back = tt\n' >"$small/crates/adif/proofs/Laws.antt"
"$small/tools/believed" --names >"$work/believed"
"$small/tools/believed" --rest >"$work/rest"
for name in Kind cited Parameter inside «IN_QUOTES» helper call ofLists ofPage Whole Part; do
    grep -q "^ *$name (line" "$work/believed" || { cat "$work/believed"; echo "believed: not reached: $name"; exit 1; }
    tried=$((tried + 1))
done
for name in hidden field unused; do
    grep -q "^ *$name (line" "$work/rest" || { cat "$work/rest"; echo "believed: reached, and should not be: $name"; exit 1; }
    tried=$((tried + 1))
done
! grep -q Unused "$work/believed"

# tools/prove begins a crate when those that it uses are proved, ends with the crate that was asked for, which it builds, and stops at one that is not proved.
# The prover is a script here that writes down what it is asked.
repo=$work/repo
mkdir -p "$repo/tools" "$repo/bin"
cp tools/prove tools/sources.py "$repo/tools/"
for name in a b c d e f; do
    mkdir -p "$repo/crates/$name/src" "$repo/crates/$name/out"
    echo "$name" >"$repo/crates/$name/src/lib.rt"
done
mv "$repo/crates/e/src/lib.rt" "$repo/crates/e/src/main.rt"
printf 'a:\nb: a\nc: a # a remark\nd: b c\ne: d other\nf staticlib: a\n' >"$repo/crates.txt"
cat >"$repo/bin/rt" <<'END'
#!/bin/sh
name=$(basename "$PWD")
echo "begin $name $1" >>"$LOG"
sleep 0.3
[ "$name" != "$BAD" ] || { echo "rt: $name is not proved"; exit 1; }
echo "of $name" >"out/$name"
echo "of $name" >"out/lib$name.a"
echo "end $name $1" >>"$LOG"
END
chmod +x "$repo/bin/rt"
LOG=$work/asked BAD=none PATH="$repo/bin:$PATH" "$repo/tools/prove" e 2>"$work/said"
for pair in a:b a:c b:d c:d d:e; do
    awk -v first="end ${pair%:*} lib" -v then="begin ${pair#*:} " '$0 == first { a = NR } index($0, then) == 1 { b = NR } END { exit !(a && b && a < b) }' "$work/asked" ||
        { cat "$work/asked"; echo "prove: ${pair#*:} did not wait for ${pair%:*}"; exit 1; }
    tried=$((tried + 1))
done
! grep -q ' f ' "$work/asked"
grep -q '^begin e run$' "$work/asked"
[ "$(cat "$repo/target/bin/e")" = "of e" ] || { echo "prove: no program"; exit 1; }
tail -n 1 "$work/said" | grep -q '^5 of 5: e proved' || { cat "$work/said"; echo "prove: the last line"; exit 1; }
LOG=$work/asked BAD=none PATH="$repo/bin:$PATH" "$repo/tools/prove" f 2>"$work/said"
[ "$(cat "$repo/target/staticlib/libf.a")" = "of f" ] || { echo "prove: no static library"; exit 1; }
: >"$work/asked"
status=0
LOG=$work/asked BAD=c PATH="$repo/bin:$PATH" "$repo/tools/prove" e 2>"$work/said" || status=$?
[ $status -eq 1 ] && grep -q 'rt: c is not proved' "$work/said" && ! grep -q 'begin [de]' "$work/asked" || { cat "$work/said"; echo "prove: c is not proved, and it went on"; exit 1; }
status=0
"$repo/tools/prove" g 2>/dev/null || status=$?
[ $status -eq 2 ] || { echo "prove: a crate that is not there"; exit 1; }
rm -r "$repo/target"
: >"$work/asked"
LOG=$work/asked BAD=none PATH="$repo/bin:$PATH" "$repo/tools/prove" f e b 2>/dev/null
[ "$(grep -c '^begin' "$work/asked")" -eq 6 ] && [ -f "$repo/target/bin/e" ] && [ -f "$repo/target/staticlib/libf.a" ] || { cat "$work/asked"; echo "prove: three names"; exit 1; }
tried=$((tried + 7))

# tools/check-edits tries an edit of several whole, then the parts of what was not refused for itself: here `n::h`, which calls `n::f`. The check is a script again.
cp tools/check-edits "$repo/tools/"
mkdir "$repo/crates/a/must-fail"
printf 'f = 1\ng = 2\nh = 3\n' >"$repo/crates/a/src/lib.rt"
cat >"$repo/bin/rt" <<'END'
#!/bin/sh
[ "$1" = check ] || exit 0
! grep -q 'f = 9' src/lib.rt || echo "fn a::n::f: not proved: what it answers"
! grep -q 'g = 9' src/lib.rt || echo "./proofs/Laws.antt:1:2 error: \`g-is\`: no"
! grep -q 'h = 9' src/lib.rt || if grep -q 'f = 9' src/lib.rt; then echo "fn a::n::h: not proved: it calls n::f, which is not proved"; else echo "fn a::n::h: no proof"; fi
END
edit_of_three() {
    printf 'refuses: %s\n\nof_f\nfile: src/lib.rt\nold: f = 1\nnew: f = 9\n\nof_g\nfile: src/lib.rt\nold: g = 2\nnew: g = 9\n\nof_h\nfile: src/lib.rt\nold: h = 3\nnew: h = %s\n' "$1" "$2" >"$repo/crates/a/must-fail/three.edit"
    status=0
    PATH="$repo/bin:$PATH" "$repo/tools/check-edits" a >"$work/said" 2>&1 || status=$?
}
edit_of_three 'n::f Laws/g-is n::h' 9
[ $status -eq 0 ] && grep -q '^check-edits: 3 functions and laws refused by edits of several, 0 not$' "$work/said" || { cat "$work/said"; echo "check-edits: three are refused"; exit 1; }
edit_of_three 'n::f Laws/g-is n::h' 4
[ $status -eq 1 ] && grep -q '^crates/a/must-fail/three.edit: n::h is not refused$' "$work/said" && grep -q ' 2 functions .* 1 not$' "$work/said" ||
    { cat "$work/said"; echo "check-edits: one is not refused"; exit 1; }
edit_of_three 'n::f Laws/f-is' 9
[ $status -eq 1 ] && grep -q 'Laws/f-is is not refused$' "$work/said" || { cat "$work/said"; echo "check-edits: a law that no edit breaks"; exit 1; }
edit_of_three 'n::f n::h n::h' 9
[ $status -eq 1 ] && grep -q ' 2 functions .* 1 not$' "$work/said" || { cat "$work/said"; echo "check-edits: one part alone breaks what is named twice"; exit 1; }
sed -i 's/^new: g = 9$/new: h = 9/' "$repo/crates/a/must-fail/three.edit"
PATH="$repo/bin:$PATH" "$repo/tools/check-edits" a >"$work/said" 2>&1 || { cat "$work/said"; echo "check-edits: two parts break what is named twice"; exit 1; }
[ "$(cat "$repo/crates/a/src/lib.rt")" = "$(printf 'f = 1\ng = 2\nh = 3')" ] || { echo "check-edits: it changed the crate"; exit 1; }
# The same where each part names what it breaks: n::f and n::h fall in two checks, a name of another part's stays not refused, and a name twice needs both of its parts.
edit_by_parts() {
    printf 'of_f\nrefuses: n::f\nfile: src/lib.rt\nold: f = 1\nnew: f = 9\n\nof_g_and_h\nrefuses: %s\nfile: src/lib.rt\nold: g = 2\nnew: g = 9\nold: h = 3\nnew: h = %s\n' "$1" "$2" >"$repo/crates/a/must-fail/three.edit"
    status=0
    PATH="$repo/bin:$PATH" "$repo/tools/check-edits" a >"$work/said" 2>&1 || status=$?
}
edit_by_parts 'Laws/g-is n::h' 9
[ $status -eq 0 ] && grep -q '^check-edits: 3 functions and laws refused by edits of several, 0 not$' "$work/said" || { cat "$work/said"; echo "check-edits: three are refused by their parts"; exit 1; }
edit_by_parts 'Laws/g-is n::h' 4
[ $status -eq 1 ] && grep -q ': n::h is not refused$' "$work/said" || { cat "$work/said"; echo "check-edits: a part does not break what it names"; exit 1; }
edit_by_parts 'Laws/g-is n::f' 9
[ $status -eq 1 ] && grep -q ' 2 functions .* 1 not$' "$work/said" || { cat "$work/said"; echo "check-edits: two parts name what one breaks"; exit 1; }
tried=$((tried + 9))
echo "$tried cases"
