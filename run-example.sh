#!/bin/sh
# Proves and builds the program, and runs it on an example: it clears a 4×3 surface, places two modules, is refused a removal, and lists the free
# rectangles. The first run proves every layer below the program and takes some minutes.
set -eu
cd "$(dirname "$0")"
. tests/need.sh
need_emulator
need_rt

mkdir -p build
build_program build/example.log
$start "$executable" <crates/freelist/stdin
