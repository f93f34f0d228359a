#!/bin/sh
# tests/boundary/constants.sh: the constants of include/wilzhoram.h and of rust/wilzhoram as they are written, run by ci/boundary.
# What the machine names too (crates/machine, its code and its definitions) must be there, by that name, with that number; all that
# the header has but its stack figures must be in Rust, boom::UP for WILZHORAM_BOOM_UP, and nothing else; and the version must be
# the name of the function that gives it, and count the requests of docs/notes. What shows by calls alone is left to shown.c.
set -eu
cd "$(dirname "$0")/../.."
work=$(mktemp -d)
trap 'rm -rf "$work"' EXIT
export LC_ALL=C
faults=0

# same WORDS FIRST SECOND: two lists of lines, as lines that only one has
same() {
    sort "$work/$2" >"$work/$2.sorted"
    sort "$work/$3" >"$work/$3.sorted"
    diff "$work/$2.sorted" "$work/$3.sorted" | sed -n "s|^[<>]|boundary: FAILED: $1: &|p" >"$work/faults"
    cat "$work/faults"
    [ ! -s "$work/faults" ] || faults=1
}

# the header: NAME NUMBER, or NAME(n) and a sum without its brackets
awk '/^#define WILZHORAM_[A-Z]/ && NF > 2 {
    name = substr($2, 11); value = $0
    sub(/^#define [^ ]+ +/, "", value); sub(/ *\/\*.*/, "", value); gsub(/\(size_t\)|[()]/, "", value)
    print name, value
}' include/wilzhoram.h >"$work/header"

# Rust: the same, a module's name before the names in it
awk '/^pub mod / { module = toupper($3) "_" }
/^}/ { module = "" }
/^ *pub const [A-Z]/ { sub(/:$/, "", $3); sub(/;$/, "", $NF); print module $3, $NF }
/^pub const fn / {
    split(toupper($4), part, /[(:]/); letter = tolower(part[2])
    getline; sub(/^ +/, ""); print part[1] "(" letter ")", $0
}' rust/wilzhoram/src/constants.rs >"$work/rust"

# coded GROUP FILE: the constants of the machine as its code has them; defined GROUP FILE: the definitions that are numbers
coded() { sed -n "s/^pub const \([A-Z_]*\): u8 = \([0-9]*\);\$/$1_\1 \2/p" "crates/machine/src/$2.rt"; }
defined() { sed -n 's/^\([a-z_]*\) = \([0-9]*\)$/\1 \2/p' "crates/machine/specs/$2.antt" | tr a-z A-Z | sed "s/^/$1_/"; }
# one NAME FILE DEFINITION: a definition for a name
one() { sed -n "s/^$3 = \(.*\)\$/$1 \1/p" "crates/machine/specs/$2.antt"; }
# the header says operator and centre
short() { sed -e 's/^SENDER_LOCAL_/SENDER_/' -e 's/^SENDER_REMOTE_/SENDER_/'; }

{ coded NUMBER numbers; coded KIND kinds; coded BOOM reports; coded SENDER senders; } | short >"$work/code"
{ defined NUMBER Numbers; defined KIND Kinds; defined BOOM Reports; defined SENDER Senders; } | short >"$work/definitions"
grep -E '^(NUMBER|KIND|BOOM|SENDER)_' "$work/header" | grep -v '^NUMBER_TAKEN ' >"$work/names"
{
    one TRAIN_SIGNAL_AMBER Panel amber
    one DISTANT_AMBER Panel amber
    one MOST_EVENTS Sheet sheet_limit
    one MOST_SHIFT_EVENTS Shift shift_limit
    one 'BOOK_LENGTH(n)' SiteBook 'book_length n'
} >"$work/single"
grep -E '^([A-Z_]*_AMBER|MOST_[A-Z_]*EVENTS|BOOK_LENGTH\(n\)) ' "$work/header" >"$work/singles"

same 'the header (<) and the code of the machine (>)' names code
same 'the header (<) and the definitions of the machine (>)' names definitions
same 'the header (<) and the definitions of the machine (>)' singles single
grep -v '^STACK_' "$work/header" >"$work/callers"
same 'the header (<) and rust/wilzhoram (>)' callers rust

version=$(sed -n 's/^VERSION //p' "$work/header")
requests=$(ls docs/notes/T-*.md | wc -l)
named() { grep -q "$1" "$2" || { echo "boundary: FAILED: $2 has no $1"; faults=1; }; }
named "^#define wilzhoram_version wilzhoram_version_$version\$" include/wilzhoram.h
named "link_name = \"wilzhoram_version_$version\"" rust/wilzhoram/src/lib.rs
if [ "$((version / 100))" != "$((100 + requests))" ]; then
    echo "boundary: FAILED: version $version, but docs/notes has $requests requests"
    faults=1
fi
[ "$faults" = 0 ] || exit 1
all=$(wc -l <"$work/callers")
named=$(cat "$work/names" "$work/singles" | wc -l)
echo "boundary: $all constants, the same in C and Rust; $named have the machine's numbers"
