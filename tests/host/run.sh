#!/bin/sh
# Compares the exported library with the brute force.
# run.sh ARCHIVE DIRECTORY [long]: the library, where to build, and twenty
# times as many cases. Exit status 0 when all went well.
set -eu
here=$(dirname "$0")
. "$here/../need.sh"
need_x86

archive=${1:?the archive}
build=${2:?the directory}
scale=80
seeds="1 2 3"
flags="-std=c11 -O2 -Wall -Wextra -pedantic -Werror -I$here/../brute"
brute="$here/../brute/brute.c $here/../table.c $here/../exchanges.c"
mkdir -p "$build"

$nm "$archive" | grep -q ' T freelist_run$' || { echo "run.sh: the archive has no freelist_run"; exit 1; }

[ "${3:-}" = long ] && scale=$((20 * scale))

sources=
for part in compare all34 blocks both calls damage lending numbers pins surfaces; do
    sources="$sources $here/$part.c"
done
$cc $flags -o "$build/compare" $sources $brute "$archive"
for alone in beside unwritten; do
    $cc $flags -o "$build/$alone" "$here/$alone.c" "$archive"
done
for wrong in wrong_inner_only wrong_bottom_row; do
    $cc $flags -o "$build/$wrong" "$here/$wrong.c" "$here/laid.c" "$here/numbers.c" "$here/pins.c" "$here/surfaces.c" $brute "$archive"
done

echo "-- each code given, and withheld just beside"
$start "$build/beside"
echo "-- refused requests on pages that cannot be written"
$start "$build/unwritten"
for seed in $seeds; do
    echo "-- compare, seed $seed, scale $scale"
    $start "$build/compare" "$seed" "$scale"
done
echo "-- every way to lay modules on 3x4 and on 4x3"
$start "$build/compare" all34
echo "-- wrong builds"
$start "$build/wrong_inner_only"
$start "$build/wrong_bottom_row"
if [ -n "$start" ]; then
    echo "-- no sample under memcheck: valgrind runs programs of its machine's processor only"
    exit 0
fi
echo "-- a sample under memcheck, seed 4"
need valgrind valgrind
valgrind -q --error-exitcode=1 "$build/compare" sample 4 3 >"$build/sample" ||
    { cat "$build/sample"; exit 1; }
grep -E '^(seed|clear|check|run|list|host)' "$build/sample"
