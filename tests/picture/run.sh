#!/bin/sh
# The drawing tool: run.sh PROGRAM DIRECTORY. Builds it, once more with the sanitizers; compares its drawings of the example with the stored ones; draws
# what PROGRAM leaves after streams of every kind; and gives it outputs that were tampered with, which it must refuse. Exit status 0 when all went well.
set -u
here=$(dirname "$0")
root=$here/../..
. "$here/../need.sh"
need gcc gcc libc6-dev
need awk gawk
need_emulator

program=${1:?the program}
work=${2:?the directory}
flags="-std=c11 -O2 -Wall -Wextra -pedantic -Werror"
failures=0
drawn=0
refused=0

# A sanitizer's finding must not be taken for a refusal. On an Arm machine the search for leaks at each exit takes seconds, and is left out.
export ASAN_OPTIONS=exitcode=99 UBSAN_OPTIONS=exitcode=99
[ -z "$start" ] || ASAN_OPTIONS=$ASAN_OPTIONS:detect_leaks=0

fail() {
    echo "tests/picture/run.sh: failed: $1"
    failures=$((failures + 1))
}

# The tool TOOL in the form FORM: its exit status is WANTED, and a drawing or a message is all it gives.
picture() {
    tool=$1 form=$2 wanted=$3 input=$4 output=$5 what=$6
    "$work/$tool" "$form" "$input" "$output" >"$work/drawing.$form" 2>"$work/message"
    status=$?
    [ "$status" -eq "$wanted" ] || { fail "$what: $form, exit status $status"; head -n 3 "$work/message"; }
    case $wanted in
    0) [ -s "$work/drawing.$form" ] && [ ! -s "$work/message" ] || fail "$what: $form, no drawing or a message" ;;
    *) [ ! -s "$work/drawing.$form" ] && [ "$(grep -c '^picture: ' "$work/message")" -eq 1 ] || fail "$what: $form, a drawing or no message" ;;
    esac
}

# The drawings show as many blocks as were set since the last clear, which alone removes them.
count_blocks() {
    blocks=$(awk '$1 == 0 && $2 == 5 { n = 0 } $1 == 0 && $2 == 6 { n++ } END { print n + 0 }' "$work/out")
    said=$(sed -n 's/^blocks: //p' "$work/drawing.text")
    listed=$(grep -c '^  @  id ' "$work/drawing.text")
    filled=$(grep -c '^<rect.*fill="#32383f"><title>block, id ' "$work/drawing.svg")
    [ "$said $listed $filled" = "$blocks $blocks $blocks" ] || fail "$1: blocks drawn: $said $listed $filled, set: $blocks"
}

# The drawings in "$work/drawing.*" show as many corners, maximal rectangles and blocks as the output counts.
count_drawn() {
    set -- "$1" $(sed -n 's/^corners \([0-9]*\) list \([0-9]*\)$/\1 \2/p' "$work/out")
    corners=$(awk '/^$/ { part++ } part == 1 { n += gsub(/\+/, "") } END { print n + 0 }' "$work/drawing.text")
    entries=$(grep -c '^<rect.*stroke="#.*<title>' "$work/drawing.svg")
    triangles=$(grep -c '^<path fill="#1f2328"' "$work/drawing.svg")
    [ "$corners $entries $triangles" = "$2 $3 $(($2 + 1))" ] || fail "$1: counts drawn: $corners $entries $triangles"
    count_blocks "$1"
    wide=$(awk 'length($0) > 120 { n++ } END { print n + 0 }' "$work/drawing.text")
    [ "$wide" -eq 0 ] || fail "$1: $wide lines are too long"
}

# What the program leaves after the stream in "$work/in", drawn in both forms.
draws() {
    drawn=$((drawn + 1))
    $start "$program" <"$work/in" >"$work/out" || fail "$1: the program"
    picture checked text 0 "$work/in" "$work/out" "$1"
    picture checked svg 0 "$work/in" "$work/out" "$1"
    awk -f "$here/well_formed.awk" "$work/drawing.svg" || fail "$1: not well formed"
    grep -q '^surface' "$work/drawing.text" && count_drawn "$1"
}

# The output in "$work/tampered" does not fit the input given, or "$work/example".
refuses() {
    refused=$((refused + 1))
    picture checked text 1 "${2:-$work/example}" "$work/tampered" "tampered: $1"
}

# The example's output after an edit by sed, which must change it.
edited() {
    sed "$1" "$work/example.out" >"$work/tampered"
    cmp -s "$work/example.out" "$work/tampered" && fail "nothing is changed by $1"
    refuses "$1"
}

mkdir -p "$work" || exit 1
gcc $flags -o "$work/picture" "$root"/tools/picture/*.c || exit 1
gcc $flags -g -fsanitize=address,undefined -fno-sanitize-recover=all -o "$work/checked" "$root"/tools/picture/*.c || exit 1
gcc $flags -o "$work/generate" "$root/tests/brute/generate.c" "$root/tests/brute/brute.c" "$root/tests/table.c" "$root/tests/exchanges.c" || exit 1

# The example and the stored drawings.
sh "$root/tools/picture/bytes.sh" <"$root/tools/picture/example.hex" >"$work/example"
$start "$program" <"$work/example" >"$work/example.out" || fail "the program on the example"
for tool in picture checked; do
    picture $tool text 0 "$work/example" "$work/example.out" "the example"
    cmp "$work/drawing.text" "$here/expected.txt" || fail "the example as text"
    picture $tool svg 0 "$work/example" "$work/example.out" "the example"
    cmp "$work/drawing.svg" "$root/docs/pictures/surface.svg" || fail "the example as SVG"
done

# Other inputs.
cp "$work/example" "$work/in"
draws "the example"
cp "$root/crates/freelist/stdin" "$work/in"
draws "the program's example"
picture checked text 0 "$work/in" "$root/crates/freelist/stdout" "the program's stored example"
grep -q '^    2  a a . +  <$' "$work/drawing.text" || fail "the program's stored example: row 2"
: >"$work/in"
draws "no input"
grep -q '^no surface' "$work/drawing.text" && grep -q 'no surface' "$work/drawing.svg" || fail "no surface is not said"
for bytes in 1 7 8 9 15 16 17 103; do
    dd if="$work/example" of="$work/in" bs=1 count=$bytes 2>/dev/null
    draws "the example cut to $bytes bytes"
done
seed=0
while [ "$seed" -lt 30 ]; do
    seed=$((seed + 1))
    for kind in random sound dense sparse exchange full garbage cut thin checker hard; do
        "$work/generate" stream $kind $seed $((seed * 20)) >"$work/in" || fail "generate $kind $seed"
        draws "$kind $seed"
    done
done

# Each line of the example's output left out, doubled, and set after the next.
lines=$(wc -l <"$work/example.out")
line=0
while [ "$line" -lt "$lines" ]; do
    line=$((line + 1))
    edited "${line}d"
    edited "${line}p"
    [ "$line" -eq "$lines" ] || edited "$line{h;d;};$((line + 1))G"
done

# Each figure of it changed. The replay does not judge which code a refusal has, nor which of the free places id 2 had before its exchange.
awk '{
    for (i = 1; i <= length($0); i++)
        if (substr($0, i, 1) ~ /[0-9]/ && !($1 ~ /^[1-9]/ && i <= length($1)) && $0 != "0 1 2 0 0 2 2") print NR, i
}' "$work/example.out" >"$work/figures"
[ "$(wc -l <"$work/figures")" -gt 100 ] || fail "too few figures"
while read -r line column; do
    awk -v line="$line" -v column="$column" 'NR == line { $0 = substr($0, 1, column - 1) (substr($0, column, 1) + 1) % 10 substr($0, column + 1) } 1' \
        "$work/example.out" >"$work/tampered"
    refuses "line $line, column $column"
done <"$work/figures"

# Other changes, one by one.
edited 's/^0 1 5 8 0 4 2$/0 1 5 0 0 4 2/'      # another free place
edited 's/^0 1 4 4 6 3 2$/0 1 4 3 6 3 2/'      # an occupied cell
edited 's/^0 4 2 7 7 5 1$/0 4 2 8 7 5 1/'      # off the surface
edited 's/^0 4 2 7 7 5 1$/0 4 2 0 1 5 1/'      # exchanged onto cells of the old one
edited 's/^20 4 300 0 0 0 0$/0 4 300 0 0 6 6/' # the same, where the exchange was refused
edited 's/^0 3 3 6 1 2 2$/0 3 3 8 1 2 2/'      # not where it was pinned
edited 's/^0 2 1 0 5 4 3$/0 2 9 0 5 4 3/'      # another id removed
edited 's/^0 1 5 8 0 4 2$/20 1 5 0 0 0 0/'     # refused
edited 's/^20 1 6 0 0 0 0$/0 1 6 6 3 6 3/'     # accepted
edited 's/^20 1 6 0 0 0 0$/20 1 6 0 0 1 0/'    # a refusal with a place
edited 's/^0 6 9 10 2 2 3$/0 6 9 10 1 2 3/'    # not where the block was set
edited 's/^0 6 9 10 2 2 3$/19 6 9 0 0 0 0/'    # the block refused
edited 's/^23 2 9 0 0 0 0$/0 2 9 10 2 2 3/'    # the block removed
edited 's/^m 8 2 2 5 10$/m 8 2 2 4 8/'         # not maximal
edited 's/^m 8 2 2 5 10$/m 9 2 2 5 10/'        # an occupied cell, one of the block
edited 's/^m 8 2 2 5 10$/m 8 2 2 5 11/'        # the area
edited 's/^m 6 5 6 1 6$/m 6 5 7 1 7/'          # off the surface
edited 's/^m 8 2 2 5 10$/m 4294967304 2 2 5 10/' # a number too large
edited 's/^corners 11 /corners 10 /'
edited 's/ list 8$/ list 7/'
edited '/^m 8 2/d;s/ list 8$/ list 7/'         # an entry left out and not counted
edited 's/ list 8$/ list 8 /'
edited 's/ list 8$/ list 08/'
edited 's/$/\r/'
edited '1s/^/ /'
edited '$s/$/\ncut 3/'
printf '%s' "$(cat "$work/example.out")" >"$work/tampered"
refuses "the last line has no end"
: >"$work/tampered"
refuses "no output"
cp "$work/example.out" "$work/tampered"
refuses "no input" /dev/null
{ cat "$work/example"; printf 'abc'; } >"$work/in"
refuses "no cut line" "$work/in"
{ cat "$work/example.out"; echo 'cut 2'; } >"$work/tampered"
refuses "another cut" "$work/in"

# Answers that no surface allows. The input is given in hex, the output as its lines, parted by commas.
unfit() {
    echo "$2" | sh "$root/tools/picture/bytes.sh" >"$work/in" || fail "$1: no input"
    echo "$3" | tr ',' '\n' >"$work/tampered"
    refuses "$1" "$work/in"
    grep -q "$1" "$work/message" || { fail "refused for another reason: $1"; cat "$work/message"; }
}

clear='05 00 00 00 02 02 00 00'
one='01 00 01 00 01 01 00 00'
left='m 0 0 2 1 2,m 1 0 1 2 2,corners 2 list 2'
unfit 'the record clears 2x2' "$clear" '0 5 0 0 0 3 2,m 0 0 2 2 4,corners 1 list 1'
unfit 'no such clear' '05 00 00 00 41 02 00 00' '0 5 0 0 0 65 2,m 0 0 65 2 130,corners 1 list 1'
unfit 'no such clear' '05 00 00 00 00 02 00 00' '0 5 0 0 0 0 2,corners 0 list 0'
unfit 'not on the surface' "$one" '0 1 1 0 0 1 1,corners 0 list 0'
unfit 'size is 2x1' "$clear 01 00 01 00 02 01 00 00" "0 5 0 0 0 2 2,0 1 1 0 1 1 1,$left"
unfit 'place is (0,0)' "$clear 03 00 01 00 01 01 00 00" "0 5 0 0 0 2 2,0 3 1 0 1 1 1,$left"
unfit 'occupied by id 1' "$clear $one 01 00 02 00 01 01 00 00" "0 5 0 0 0 2 2,0 1 1 0 1 1 1,0 1 2 0 1 1 1,$left"
unfit 'already placed' "$clear $one $one" '0 5 0 0 0 2 2,0 1 1 0 1 1 1,0 1 1 0 0 1 1,m 1 0 1 2 2,corners 1 list 1'
unfit 'id 1 stands at 0 1 1 1' "$clear $one 02 00 01 00 00 00 00 00" '0 5 0 0 0 2 2,0 1 1 0 1 1 1,0 2 1 1 1 1 1,m 0 0 2 2 4,corners 1 list 1'
unfit 'id 0 is not placed' "$clear 02 00 00 00 00 00 00 00" '0 5 0 0 0 2 2,0 2 0 0 0 0 0,m 0 0 2 2 4,corners 1 list 1'
unfit 'id 1 is not placed' "$clear 02 00 01 00 00 00 00 00" '0 5 0 0 0 2 2,0 2 1 0 0 0 0,m 0 0 2 2 4,corners 1 list 1'
unfit 'id 1 is not placed' "$clear 04 00 01 00 01 01 00 00" "0 5 0 0 0 2 2,0 4 1 0 1 1 1,$left"
unfit 'operation 9 cannot be accepted' "$clear 09 00 01 00 01 01 00 00" "0 5 0 0 0 2 2,0 9 1 0 1 1 1,$left"
unfit 'operation 7 cannot be accepted' "$clear 07 00 01 00 01 01 00 01" "0 5 0 0 0 2 2,0 7 1 0 1 1 1,$left"

# Blocks of the fabric: an id that was set is removed or exchanged by no request, and no module stands on it.
hard='06 00 01 00 01 01 00 01'
stood='0 5 0 0 0 2 2,0 6 1 0 1 1 1'
unfit 'id 1 is a block' "$clear $hard 02 00 01 00 00 00 00 00" "$stood,0 2 1 0 1 1 1,m 0 0 2 2 4,corners 1 list 1"
unfit 'id 1 is a block' "$clear $hard 04 00 01 00 01 01 00 00" "$stood,0 4 1 0 1 1 1,$left"
unfit 'id 1 is a block' "$clear $hard 04 00 01 00 02 01 00 00" "$stood,0 4 1 0 0 2 1,m 0 1 2 1 2,corners 1 list 1"
unfit 'already placed' "$clear $hard $one" "$stood,0 1 1 0 0 1 1,m 1 0 1 2 2,corners 1 list 1"
unfit 'already placed' "$clear $one $hard" '0 5 0 0 0 2 2,0 1 1 0 1 1 1,0 6 1 0 1 1 1,m 1 0 1 2 2,corners 1 list 1'
unfit 'occupied by id 1' "$clear $hard 03 00 02 00 01 01 00 01" "$stood,0 3 2 0 1 1 1,$left"
unfit 'place is (0,1)' "$clear $hard" "0 5 0 0 0 2 2,0 6 1 1 1 1 1,m 0 0 2 1 2,m 0 0 1 2 2,corners 2 list 2"
unfit 'size is 1x1' "$clear $hard" '0 5 0 0 0 2 2,0 6 1 0 1 2 1,m 0 0 2 1 2,corners 1 list 1'
unfit 'not on the surface' "$hard" '0 6 1 0 1 1 1,corners 0 list 0'

# An exchange: the old module is in its place, and no cell of the new one is one of its own. It goes when the new one stands.
stood='0 5 0 0 0 2 2,0 1 1 0 1 1 1'
small='04 00 01 00 01 01 00 00'
moved="$stood,0 4 1 0 0 1 1"
unfit 'occupied by id 1' "$clear $one $small" "$stood,0 4 1 0 1 1 1,$left"
unfit 'occupied by id 1' "$clear $one 04 00 01 00 02 01 00 00" "$stood,0 4 1 0 1 2 1,m 0 0 2 1 2,corners 1 list 1"
unfit 'occupied by id 1' "$clear $one 04 00 01 00 02 02 00 00" "$stood,0 4 1 0 0 2 2,corners 0 list 0"
unfit 'occupied by id 1' "$clear 01 00 01 00 02 02 00 00 $small" "0 5 0 0 0 2 2,0 1 1 0 0 2 2,0 4 1 0 1 1 1,$left"
unfit 'occupied by id 1' "$clear $one $small $small" "$moved,0 4 1 0 0 1 1,m 0 1 2 1 2,m 1 0 1 2 2,corners 1 list 2"
unfit 'occupied by id 2' "$clear $one 01 00 02 00 01 01 00 00 $small" "$stood,0 1 2 0 0 1 1,0 4 1 0 0 1 1,m 0 1 2 1 2,m 1 0 1 2 2,corners 1 list 2"
unfit 'not on the surface' "$clear $one 04 00 01 00 01 02 00 00" "$stood,0 4 1 1 1 1 2,m 0 0 2 1 2,m 0 0 1 2 2,corners 2 list 2"
unfit 'id 1 stands at 0 0 1 1' "$clear $one $small 02 00 01 00 00 00 00 00" "$moved,0 2 1 0 1 1 1,m 0 0 2 2 4,corners 1 list 1"
unfit 'id 1 is not placed' "$clear $one 02 00 01 00 00 00 00 00 $small" "$stood,0 2 1 0 1 1 1,0 4 1 0 0 1 1,m 0 1 2 1 2,m 1 0 1 2 2,corners 1 list 2"
unfit 'a cell of the entry is occupied' "$clear $one $small" "$moved,m 0 0 2 1 2,m 1 0 1 2 2,corners 2 list 2"

# What the program leaves after these records, in hex.
leaves() {
    echo "$2" | sh "$root/tools/picture/bytes.sh" >"$work/in" || fail "$1: no input"
    draws "$1"
}

leaves 'a block and a module' "$clear $hard 01 00 02 00 01 01 00 00 02 00 01 00 00 00 00 00 04 00 01 00 00 00 00 00"
grep -q '^    1  @ +  <$' "$work/drawing.text" && grep -q '^    0  b + ' "$work/drawing.text" || fail "a block and a module: the signs"
grep -q '^  @  id 1 at (0,1), 1x1, slot 0$' "$work/drawing.text" && grep -q '^modules: 1$' "$work/drawing.text" || fail "a block and a module: the legend"
[ "$(grep -c '^23 [24] 1 0 0 0 0$' "$work/out")" -eq 2 ] || fail "a block and a module: no 23"
grep -q '^<path stroke="#6e7681"' "$work/drawing.svg" && grep -q '>blocks: 1<' "$work/drawing.svg" || fail "a block and a module: as SVG"
leaves 'a module exchanged, its old cell used again' "$clear $one $small 01 02 02 00 01 01 00 00"
grep -q '^0 4 1 0 0 1 1$' "$work/out" && grep -q '^0 1 2 0 1 1 1$' "$work/out" || fail "a module exchanged: the answers"
grep -q '^  a  id 1 at (0,0), 1x1, slot 0$' "$work/drawing.text" && grep -q '^  b  id 2 at (0,1), 1x1, slot 1$' "$work/drawing.text" || fail "a module exchanged: the legend"
leaves 'a module exchanged and back' "$clear $one $small $small"
grep -q '^0 4 1 0 0 1 1$' "$work/out" && grep -q '^  a  id 1 at (0,1), 1x1, slot 0$' "$work/drawing.text" || fail "a module exchanged and back"
leaves 'an exchange refused' "$clear $one 04 00 01 00 02 02 00 00"
grep -q '^20 4 1 0 0 0 0$' "$work/out" && grep -q '^  a  id 1 at (0,1), 1x1, slot 0$' "$work/drawing.text" || fail "an exchange refused"
leaves 'a block cleared' "$clear $hard $clear"
grep -q '^blocks: 0$' "$work/drawing.text" || fail "a block cleared: it is drawn"
leaves 'operation 6 before a clear' "$hard"
grep -q '^8 6 1 0 0 0 0$' "$work/out" && grep -q '^no surface' "$work/drawing.text" || fail "operation 6 before a clear: not answered 8"

# 256 modules fill the table; an answer that accepts one more does not fit.
for modules in 256 257; do
    awk -v n=$modules 'BEGIN {
        print "05 00 00 00 40 40 00 00"
        for (i = 1; i <= n; i++) printf "03 00 %02x %02x 01 01 %02x %02x\n", i % 256, i / 256, i % 64, i / 64
    }' | sh "$root/tools/picture/bytes.sh" >"$work/in"
    draws "$modules modules"
done
sed 's/^19 3 257 0 0 0 0$/0 3 257 1 4 1 1/' "$work/out" >"$work/tampered"
refuses "257 modules" "$work/in"
grep -q 'no slot is free' "$work/message" || fail "257 modules: refused for another reason"

# Any bytes for an output.
for seed in 1 2 3 4 5 6 7 8 9 10; do
    "$work/generate" stream garbage $seed 50 >"$work/tampered"
    refuses "bytes $seed"
    { head -n 13 "$work/example.out"; cat "$work/tampered"; } >"$work/longer" && mv "$work/longer" "$work/tampered"
    refuses "bytes $seed after the answers"
done

# Wrong calls.
picture checked png 2 "$work/example" "$work/example.out" "a form unknown"
picture checked text 2 "$work/none" "$work/example.out" "no such input"
picture checked text 2 "$work/example" "$work/none" "no such output"
picture checked text 2 "$work" "$work/example.out" "a directory for the input"
picture checked text 2 "$work/example" "$work" "a directory for the output"

echo "the drawing tool: $drawn streams drawn, $refused outputs refused, $failures failed"
[ "$failures" -eq 0 ]
