#!/bin/sh
# bytes.sh <HEX >BYTES: the bytes that are written in hex, two figures each; `#` begins a remark.
set -eu
sed 's/#.*//' | tr -s ' \t' '\n\n' | while read -r byte; do
    case $byte in
    [0-9a-fA-F][0-9a-fA-F]) ;;
    '') continue ;;
    *) echo "bytes.sh: no byte: $byte" >&2; exit 1 ;;
    esac
    number=$((0x$byte))
    printf "\\$((number / 64))$((number / 8 % 8))$((number % 8))"
done
