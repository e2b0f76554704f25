#!/bin/sh
# picture.sh text|svg INPUT [PROGRAM]: builds the tool, runs the program on INPUT and draws the surface that it left, on standard output. An INPUT that
# ends in .hex is turned into bytes first. PROGRAM is crates/freelist/out/freelist unless it is given, which run-example.sh
# and run-tests.sh leave.
set -eu
form=${1:?usage: picture.sh text|svg INPUT [PROGRAM]}
input=${2:?usage: picture.sh text|svg INPUT [PROGRAM]}
here=$(dirname "$0")
. "$here/../../tests/need.sh"
need gcc gcc libc6-dev >&2
need_emulator >&2
program=${3:-$here/../../crates/freelist/out/freelist}
build=$here/../../build/picture

mkdir -p "$build"
gcc -std=c11 -O2 -o "$build/picture" "$here"/*.c
case $input in
*.hex) sh "$here/bytes.sh" <"$input" >"$build/input" ;;
*) cp "$input" "$build/input" ;;
esac
$start "$program" <"$build/input" >"$build/output"
"$build/picture" "$form" "$build/input" "$build/output"
