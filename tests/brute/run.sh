#!/bin/sh
# Builds the brute force, its tests, its program and the generator into the
# directory given (default ./build), and runs the tests and a smoke test of
# every kind of stream. Exit status 0 when all went well.
set -u

here=$(dirname "$0")
build=${1:-./build}
flags="-std=c11 -O2 -Wall -Wextra -pedantic -Werror"
failures=0

fail() {
    echo "run.sh: failed: $1"
    failures=$((failures + 1))
}

compile() {
    target=$1
    shift
    sources=
    for s in "$@"; do
        sources="$sources $here/$s"
    done
    gcc $flags -o "$build/$target" $sources || { fail "build of $target"; exit 1; }
}

# The program's example input.
example() {
    printf '\005\000\000\000\004\003\000\000'
    printf '\001\002\001\000\002\001\000\000'
    printf '\001\000\002\000\003\002\000\000'
    printf '\002\000\011\000\000\000\000\000'
}

# A stream of this kind, seed and length through the program: it ends normally,
# with one answer line a whole record, then the list, its counts and the cut.
smoke() {
    "$build/generate" stream "$1" "$2" "$3" > "$build/in" || fail "generate $1 $2"
    "$build/generate" stream "$1" "$2" "$3" | cmp -s - "$build/in" ||
        fail "stream $1 $2 is not the same twice"
    "$build/brute_freelist" < "$build/in" > "$build/out" || fail "program on $1 $2"
    bytes=$(wc -c < "$build/in")
    records=$((bytes / 8))
    answers=$(grep -c '^[0-9]' "$build/out")
    entries=$(grep -c '^m ' "$build/out")
    [ "$answers" -eq "$records" ] || fail "$1 $2: $answers answers to $records records"
    grep -q "^corners [0-9]* list $entries\$" "$build/out" || fail "$1 $2: list line"
    last=$(tail -n 1 "$build/out")
    case "$((bytes % 8)) $last" in
    "0 corners "*) ;;
    "$((bytes % 8)) cut $((bytes % 8))") ;;
    *) fail "$1 $2: last line '$last' for $bytes bytes" ;;
    esac
    grep -q '^22 ' "$build/out" && fail "$1 $2: code 22"
    accepted=$(grep -c '^0 ' "$build/out")
    echo "stream $1 $2: $records records, $accepted accepted, $last"
}

mkdir -p "$build" || exit 1
compile test_brute test_brute.c brute_program.c brute.c
compile brute_freelist brute_freelist.c brute_program.c brute.c
compile generate generate.c brute.c ../table.c ../exchanges.c

example | "$build/brute_freelist" > "$build/out" || fail "program on its example"
cmp "$build/out" "$here/expected_example.txt" || fail "the program's example"
{ example; printf 'abc'; } | "$build/brute_freelist" > "$build/out"
{ cat "$here/expected_example.txt"; echo 'cut 3'; } | cmp - "$build/out" ||
    fail "the program's example, cut"

for seed in 1 2 3; do
    for kind in random sound dense sparse exchange full garbage cut thin checker hard; do
        case $kind in
        sparse) n=120 ;;
        full) n=400 ;;
        *) n=300 ;;
        esac
        smoke $kind $seed $n
    done
    "$build/generate" exchanges exchange $seed 300 || fail "exchanges of seed $seed"
    "$build/generate" coverage $seed 200 > "$build/out" || fail "coverage of seed $seed"
    "$build/generate" cases $seed 200 > "$build/cases" || fail "cases of seed $seed"
    [ "$(wc -l < "$build/cases")" -eq 200 ] || fail "number of cases of seed $seed"
done
"$build/generate" coverage 1 300

"$build/test_brute" || fail "test_brute"
[ "$failures" -eq 0 ] || { echo "run.sh: $failures failed"; exit 1; }
exit 0
