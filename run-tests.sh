#!/bin/sh
# Runs every test: the proofs, must-fail edits and programs (rt ci), the brute force and its own tests, the comparison of the definitions with it, the
# exported calls against the brute force and against plain C, the library as it is installed, the program, and the drawing tool. Exit status 0 and a last
# line `N passed, 0 failed` when all went well. `run-tests.sh long` compares twenty times as many cases.
set -eu
cd "$(dirname "$0")"
. tests/need.sh
need_rt

build=build
mkdir -p "$build"

echo "== proofs, must-fail edits, programs"
rt ci >"$build/ci.log" || { cat "$build/ci.log"; exit 1; }
cat "$build/ci.log"
passed=$(tail -n 1 "$build/ci.log")
case $passed in
*' passed, 0 failed') ;;
*) echo "run-tests.sh: rt ci did not pass"; exit 1 ;;
esac
# An edit that could not be applied shows nothing of a contract, and rt ci passes all the same.
grep -q '^rt: ok' "$build/ci.log" || { echo "run-tests.sh: rt ci did not say how it went"; exit 1; }
if grep '^rt: ok' "$build/ci.log" | grep -Eq ', [0-9]+ bad'; then
    echo "run-tests.sh: a must-fail edit could not be tried"
    exit 1
fi

need gcc gcc libc6-dev
need awk gawk
need pkg-config pkgconf

echo "== the brute force"
sh tests/brute/run.sh "$build/brute"

echo "== the cases on which the definitions are compared with it"
"$build/brute/generate" cases 1 300 | awk -f tests/brute/to_antt.awk >"$build/cases"
cmp "$build/cases" crates/compared/specs/Cases.antt

echo "== the exported calls against the brute force"
build_library "$build/library.log"
sh tests/host/run.sh "$library" "$build/host" "${1:-}"

echo "== the library as it is installed"
sh tests/library/run.sh "$build/library"

echo "== the program against the brute force's"
# rt ci has just left it there, and has run it.
sh tests/program/run.sh "$executable" "$build/brute" "$build/program"

echo "== the drawing tool"
sh tests/picture/run.sh "$executable" "$build/picture"

echo "== the exported calls against plain C"
sh bench/run.sh "$library" "$build/bench" compare

echo "$passed"
