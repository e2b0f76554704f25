#!/bin/sh
# The program against the brute force's, on streams of every kind: run.sh PROGRAM BRUTE WORK, where BRUTE holds brute_freelist and generate. Each stream
# is read from a file, and again from a pipe in pieces of several lengths, each read returning one piece (feed.c). The cuts inside a record are counted:
# every stream that is long enough is cut at each of the seven places of a record. Exit status 0 when all went well.
set -u
here=$(dirname "$0")
. "$here/../need.sh"
need gcc gcc libc6-dev
need awk gawk
need_emulator

program=$1
brute=$2
work=$3
# 8 cuts no record; the last two fill the program's buffer behind the bytes left over; the others cut at every place in turn.
pieces="1 3 7 8 9 5,8,8,8,8,8,8,8,8 2,30,1 7,4089 3,4093"
failures=0
streams=0

fail() {
    echo "tests/program/run.sh: differs: $1"
    failures=$((failures + 1))
}

# The stream in "$work/in" through both programs.
compare() {
    streams=$((streams + 1))
    "$brute/brute_freelist" <"$work/in" >"$work/expected" || fail "$1: the brute force's program"
    $start "$program" <"$work/in" >"$work/out" || fail "$1: exit status"
    cmp -s "$work/expected" "$work/out" || fail "$1"
    : >"$work/cuts"
    for lengths in $pieces; do
        "$work/feed" $lengths "$work/in" $start "$program" >"$work/out" 2>>"$work/cuts" || fail "$1 in pieces of $lengths: exit status"
        cmp -s "$work/expected" "$work/out" || fail "$1 in pieces of $lengths"
    done
    bytes=$(wc -c <"$work/in")
    awk -v bytes="$bytes" '{ for (i = 1; i < 8; i++) n[i] += $i }
        END { for (i = 1; i < 8; i++) { printf "%d ", n[i]; bad += n[i] == 0 && i < bytes }; print ""; exit bad }' "$work/cuts" >>"$work/all" ||
        fail "$1: not cut at each place: $(tail -n 1 "$work/all")"
}

# What feed.c says of itself: each read of the stream in "$work/in" returns one piece.
feeds() {
    "$work/feed" $1 "$work/in" "$work/feed" reads >"$work/out" 2>"$work/cuts"
    awk -v lengths="$1" -v bytes="$(wc -c <"$work/in")" 'BEGIN {
        n = split(lengths, length_of, ",")
        for (at = 0; at < bytes; at += p) { p = length_of[i++ % n + 1]; if (p > bytes - at) p = bytes - at; print p }
    }' | cmp -s - "$work/out" || fail "reads in pieces of $1"
}

mkdir -p "$work" || exit 1
: >"$work/all"
gcc -std=c11 -O2 -Wall -Wextra -pedantic -Werror -o "$work/feed" "$here/feed.c" || exit 1
: >"$work/in"
compare "no input"
printf 'abc' >"$work/in"
compare "three bytes"
printf '\001\000\001\000\001\001\000\000' >"$work/in"
compare "no surface"
printf '\006\000\001\000\001\001\000\000' >"$work/in"
compare "no surface, operation 6"
for seed in 1 2 3 4; do
    for kind in random sound dense sparse exchange full garbage cut thin checker hard; do
        "$brute/generate" stream $kind $seed 700 >"$work/in" || fail "generate $kind $seed"
        compare "$kind $seed"
    done
done
for lengths in $pieces; do
    feeds $lengths
done
awk -v streams="$streams" '{ for (i = 1; i < 8; i++) { n[i] += $i; sum += $i } }
    END { printf "the program: %d streams, cut inside a record %d times, at its places 1 to 7:", streams, sum; for (i = 1; i < 8; i++) printf " %d", n[i]; print "" }' "$work/all"
echo "the program: $streams streams, $failures differ"
[ "$failures" -eq 0 ]
