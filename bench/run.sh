#!/bin/sh
# The cost of the library beside plain C, in counted instructions, as a table: counted by callgrind, and on a machine that is not x86-64 by the
# emulator (count.c). Compare tables of one way only: a program linked statically has another memset.
# run.sh ARCHIVE DIRECTORY                  the library, and where to build
# run.sh ARCHIVE DIRECTORY against TABLE    the table, and then the rows that are higher than in TABLE, a table printed before, by more than 1 %
# run.sh ARCHIVE DIRECTORY times            times in place of instructions
# run.sh ARCHIVE DIRECTORY compare          neither
# Exit status 0 when both gave the same results and bytes, and no row is higher.
set -eu
here=$(dirname "$0")
. "$here/../tests/need.sh"
need_x86 >&2
need awk gawk >&2
[ -z "$start" ] && link= || link=-static # an emulated program is linked to fixed addresses, those that nm gives

archive=${1:?the archive}
build=${2:?the directory}
what=${3:-table}
host="$here/../tests/host"
calls="clear check run list"
flags="-std=c11 -O2 -Wall -Wextra -pedantic -Werror -I$here/../tests/brute"
mkdir -p "$build"
rm -f "$build"/calls.out*

# The plain C twice: the second only makes the surfaces. callgrind counts inside the calls only and writes a file each time one of them is left. (With one
# option more for each call it forgets some of them, so the first two go by pattern; nothing else in the program has such a name.)
again=
counted="--toggle-collect=plain_* --toggle-collect=freelist_*"
for call in $calls; do
    again="$again -Dplain_$call=setup_$call"
    counted="$counted --dump-after=plain_$call --dump-after=freelist_$call"
done
$cc $flags -c -o "$build/plain.o" "$here/plain.c"
$cc $flags $again -c -o "$build/setup.o" "$here/plain.c"
$cc $flags $link -o "$build/bench" "$here/bench.c" "$host/damage.c" "$host/laid.c" "$host/lending.c" "$host/numbers.c" \
    "$host/surfaces.c" "$here/../tests/brute/brute.c" "$here/../tests/table.c" "$build/plain.o" "$build/setup.o" "$archive"

$start "$build/bench" compare 1 1500 >&2
case $what in
compare) exit 0 ;;
times) exec $start "$build/bench" times ;;
esac

if [ -z "$start" ]; then
    need valgrind valgrind >&2
    set -f
    valgrind --tool=callgrind $counted --callgrind-out-file="$build/calls.out" "$build/bench" count \
        2>"$build/count.err" || { cat "$build/count.err" >&2; exit 1; }
    i=1
    set +f
    while [ -f "$build/calls.out.$i" ]; do
        sed -n 's/^totals: //p;s/^summary: //p' "$build/calls.out.$i" | head -n 1
        i=$((i + 1))
    done >"$build/counts"
else
    need gcc gcc libc6-dev >&2
    gcc -std=gnu11 -O2 -Wall -Wextra -Werror -fPIC -shared -fvisibility=hidden -o "$build/libcount.so" "$here/count.c"
    at=$($nm "$build/bench" | awk '$2 == "T" && $3 ~ /^(plain|freelist)_/ { printf ",at=%s:%s", $3, $1 }')
    $start -plugin "$build/libcount.so,out=$build/calls.out$at" "$build/bench" count 2>"$build/count.err" || { cat "$build/count.err" >&2; exit 1; }
    cut -d' ' -f1 "$build/calls.out" >"$build/counts"
fi
$start "$build/bench" table "$build/counts" >"$build/table"
cat "$build/table"
[ "$what" = against ] || exit 0

# A row goes by its case and size; the library's instructions are in the seventh column.
awk -F' *[|] *' 'NF < 8 || $2 == "case" || $2 ~ /^-/ { next }
    NR == FNR { before[$2 ", " $3] = $8; next }
    { row = $2 ", " $3; seen[row] = 1 }
    !(row in before) { print "new: " row; next }
    $8 > 1.01 * before[row] { print "higher: " row ": " before[row] " before, " $8 " now"; higher++ }
    END {
        for (row in before) if (!(row in seen)) { print "no longer there: " row; higher++ }
        print "rows higher by more than 1 %, or gone: " higher + 0
        exit higher != 0
    }' "${4:?the table before}" "$build/table"
