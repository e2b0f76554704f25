#!/bin/sh
# install.sh PREFIX: proves the library, and puts lib/libfreelist.a, include/freelist.h and lib/pkgconfig/freelist.pc under PREFIX.
set -eu
cd "$(dirname "$0")"
prefix=${1:?usage: install.sh PREFIX}
. tests/need.sh
need_rt

mkdir -p build
build_library build/library.log
mkdir -p "$prefix/lib/pkgconfig" "$prefix/include"
prefix=$(cd "$prefix" && pwd)
cp "$library" "$prefix/lib/libfreelist.a"
cp include/freelist.h "$prefix/include/freelist.h"
cat >"$prefix/lib/pkgconfig/freelist.pc" <<EOF
prefix=$prefix
libdir=\${prefix}/lib
includedir=\${prefix}/include

Name: freelist
Description: the memory of a placer for a partially reconfigurable FPGA
Version: 0.1.0
Libs: -L\${libdir} -lfreelist
Cflags: -I\${includedir}
EOF
