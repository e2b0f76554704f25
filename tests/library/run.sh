#!/bin/sh
# The library as its users get it: run.sh DIRECTORY. Installs it under DIRECTORY/prefix and tests the archive, the header, the pkg-config file and the
# example hosts there. Exit status 0 when all went well.
set -eu
here=$(dirname "$0")
. "$here/../need.sh"
need_x86
need pkg-config pkgconf

build=${1:?the directory}
strict="-O2 -Wall -Wextra -pedantic -Werror"
rm -rf "$build/prefix"
mkdir -p "$build"
sh "$here/../../install.sh" "$build/prefix"
archive=$build/prefix/lib/libfreelist.a

fail() {
    echo "tests/library/run.sh: failed: $1"
    exit 1
}

calls=$($nm "$archive" | awk '$2 == "T" { print $3 }' | sort | tr '\n' ' ')
[ "$calls" = "freelist_check freelist_clear freelist_list freelist_run " ] || fail "the archive gives: $calls"
wanted=$($nm -u "$archive" | awk '$1 == "U" && $2 != "memcpy" && $2 != "memset" { print $2 }')
[ -z "$wanted" ] || fail "the archive wants: $wanted"
$size "$archive" | awk 'NR > 1 && $2 + $3 != 0 { bad = 1 } END { exit bad }' || fail "the archive has .data or .bss"

for compiler in "$cc -std=c11" "$cxx -std=c++11 -x c++"; do
    $compiler $strict -I"$build/prefix/include" -o "$build/parts" "$here/parts.c" || fail "the header: $compiler"
    $start "$build/parts" || fail "a result's parts: $compiler"
done

flags=$(PKG_CONFIG_PATH="$build/prefix/lib/pkgconfig" pkg-config --cflags --libs freelist)
for host in triggers panel; do
    $cc -std=c11 $strict -o "$build/$host" "$here/../../examples/$host.c" $flags
    $start "$build/$host" >"$build/$host.out" || fail "the example host $host ended with $?"
    cmp "$build/$host.out" "$here/../../examples/$host.txt" || fail "the example host $host"
done
$cc -std=c11 $strict -o "$build/stack" "$here/stack.c" $flags
$start "$build/stack" || fail "the stack"
echo "the library: archive, header, pkg-config, example hosts, stack: right"
