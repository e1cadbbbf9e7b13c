#!/usr/bin/env bash
# Runs the program vmd_list on small takes and compares the line that it prints. Run it from the repository's root once
# `rt ci` has built the program.
set -euo pipefail

. host/built
program=$vmd_list
[ -x "$program" ] || { echo "vmd_list: $program is not there: run 'rt ci' first" >&2; exit 1; }
work=$(mktemp -d)
trap 'rm -rf "$work"' EXIT
tried=0

zeros() { head -c "$1" /dev/zero; }

# n as a u32, for n below 65,536
u32() { printf "\\x$(printf %02x $(($1 % 256)))\\x$(printf %02x $(($1 / 256)))\\0\\0"; }

# the magic and a zero model name
start() { printf 'Vocaloid Motion Data 0002'; zeros 25; }

# the same of the older edition
older_start() { printf 'Vocaloid Motion Data file'; zeros 15; }

# a name in a field of so many bytes
name() { printf %s "$1"; zeros $(($2 - ${#1})); }

# an empty take with the counts that follow the start
counts() { start; for n in "$@"; do u32 "$n"; done; }

# bones at these frames
bones() { start; u32 $#; for frame in "$@"; do name center 15; u32 "$frame"; zeros 92; done; zeros 20; }

# one property frame at frame 300 with two IK states, the first off and the second on
property() { start; zeros 20; u32 1; u32 300; printf '\1'; u32 2; name left 20; printf '\0'; name right 20; printf '\1'; }

# what.. | saved FILE BYTES: keeps the bytes, of which there must be so many
saved() {
    cat > "$work/$1"
    local size
    size=$(wc -c < "$work/$1")
    [ "$size" -eq "$2" ] || { echo "vmd_list: the test's own file '$1' has $size bytes and not $2" >&2; exit 1; }
}

# FILE BYTES: keeps a kept take of zero model name in the older edition, as older,FILE of so many bytes
saved_older() { { older_start; tail -c +51 "$work/$1"; } | saved "older,$1" "$2"; }

# what.. | printed LINE LABEL: the program prints just this line
printed() {
    local got
    got=$("$program"; printf .)
    if [ "$got" != "$1"$'\n.' ]; then
        echo "vmd_list: $2: expected '$1', got '${got%.}'" >&2
        exit 1
    fi
}

# lists FILE LINE: the same for a file that was kept
lists() {
    printed "$2" "$1" < "$work/$1"
    tried=$((tried + 1))
}

counts 0 | saved start,0 54
zeros 0 | saved empty 0
zeros 29 | tr '\0' A | saved 29-bytes 29
zeros 30 | tr '\0' A | saved 30-bytes 30
start | saved start 50
{ counts 0; printf '\7'; } | saved start,0,byte 55
counts 0 1 | saved start,0,1 58
counts 0 0 1 | saved start,0,0,1 62
counts 0 0 0 0 0 1 | saved start,0,0,0,0,0,1 74
bones 7 | saved one-bone 185
bones 9 7 300 8 | saved four-bones 518
property | saved two-ik-states 125
{ bones 7; zeros 65351; } | saved 65536-bytes 65536
{ bones 7; zeros 65352; } | saved 65537-bytes 65537
{ bones 7; zeros 200000; } | saved longer 200185
{ counts 0 0 0 0 0 7273; zeros 65462; } | saved 7273-properties 65536

{ older_start; zeros 4; } | saved older-44-bytes 44
for length in 29 30 39 40 43; do
    head -c "$length" "$work/older-44-bytes" | saved "older-$length-bytes" "$length"
done
saved_older start,0,byte 45
saved_older start,0,0,1 52
saved_older one-bone 175
saved_older four-bones 508
saved_older two-ik-states 115
{ older_start; zeros 20; u32 7274; zeros 65472; } | saved older-7274-properties 65536

lists start,0 '0 0 0 0 0 0 0 0 0 74'
lists empty 'refused 1'
lists 29-bytes 'refused 1'
lists 30-bytes 'refused 2'
lists start 'refused 1'
lists start,0,byte 'refused 1'
lists start,0,1 'refused 1'
lists start,0,0,1 '0 0 0 0 0 0 0 0 0 74'
lists start,0,0,0,0,0,1 'refused 1'
lists one-bone '1 0 0 0 0 0 0 7 7 185'
lists four-bones '4 0 0 0 0 0 0 7 300 518'
lists two-ik-states '0 0 0 0 0 1 2 300 300 125'
lists 65536-bytes '1 0 0 0 0 0 0 7 7 185'
lists 65537-bytes 'too long'
lists longer 'too long'
# as many property frames as fit: the scratch is enough
lists 7273-properties '0 0 0 0 0 7273 0 0 0 65531'

# takes of the older edition; the last number is their export's length, which is of the newer
for length in 29 30 39 40 43; do
    lists "older-$length-bytes" 'refused 1'
done
lists older-44-bytes '0 0 0 0 0 0 0 0 0 74'
lists older,start,0,byte 'refused 1'
lists older,start,0,0,1 '0 0 0 0 0 0 0 0 0 74'
lists older,one-bone '1 0 0 0 0 0 0 7 7 185'
lists older,four-bones '4 0 0 0 0 0 0 7 300 518'
lists older,two-ik-states '0 0 0 0 0 1 2 300 300 125'
lists older-7274-properties '0 0 0 0 0 7274 0 0 0 65540'

# FILE SIZE..: the file's bytes in pieces of these sizes, and then the rest, with a pause before each
pieces() {
    local file=$work/$1 at=0 size
    shift
    for size in "$@"; do
        dd if="$file" bs=1 skip="$at" count="$size" status=none
        at=$((at + size))
        sleep 0.05
    done
    tail -c "+$((at + 1))" "$file"
}

pieces one-bone 1 2 29 20 1 60 | printed '1 0 0 0 0 0 0 7 7 185' 'one bone in pieces'
pieces older,one-bone 1 2 27 9 1 60 | printed '1 0 0 0 0 0 0 7 7 185' 'one bone of the older edition in pieces'
pieces 65536-bytes 1 4095 4096 20000 | printed '1 0 0 0 0 0 0 7 7 185' '65,536 bytes in pieces'
pieces 65537-bytes 4097 20000 41439 | printed 'too long' '65,537 bytes in pieces, the last one byte'
tried=$((tried + 4))

echo "vmd_list: $tried takes listed as expected"
