#!/usr/bin/env bash
# Runs presence-table on small indexes, and compares what it prints, what it says and its status. Run it from the repository's
# root once `rt ci` has built the program.
set -euo pipefail
shopt -s lastpipe # so that what a pipe ends in counts, and may fail

. host/built
[ -x "$presence_table" ] || { echo "presence_table: $presence_table is not there: run 'rt ci' first" >&2; exit 1; }
touch "$presence_table" # built from these sources
work=$(mktemp -d)
trap 'rm -rf "$work"' EXIT
tried=0

fail() { echo "presence_table: $*" >&2; exit 1; }

# POINTER..: the table with these bits set
table() {
    local words=() i p
    for ((i = 0; i < 353; i++)); do words[i]=0; done
    for p in "$@"; do words[p / 32]=$((words[p / 32] | 1 << p % 32)); done
    printf '%s\n' "${words[@]}"
}

# what.. | told STATUS OUTPUT SAID LABEL: the status, and the files that have what is to be printed and said
told() {
    local status=0
    ./presence-table > "$work/out" 2> "$work/err" || status=$?
    [ "$status" -eq "$1" ] || fail "$4: the status is $status and not $1: $(head -c 200 "$work/err")"
    cmp -s "$work/out" "$2" || fail "$4: it printed $(head -c 200 "$work/out" | tr '\n' ' ')"
    cmp -s "$work/err" "$3" || fail "$4: it said '$(head -c 200 "$work/err")'"
    tried=$((tried + 1))
}

# what.. | prints LABEL POINTER..: the table with these bits set, and nothing is said
prints() {
    local label=$1
    shift
    table "$@" > "$work/table"
    told 0 "$work/table" /dev/null "$label"
}

# TEXT LINE WHAT: the index that printf makes of TEXT is at fault in this line
faulty() {
    printf 'presence-table: line %s: %s\n' "$2" "$3" > "$work/said"
    # shellcheck disable=SC2059
    printf "$1" | told 1 /dev/null "$work/said" "$1"
}

no_entry='this is no entry of the index'
too_large='the pointer is 11280 or more'
not_above='the pointer is not above the one before'

# ---- tables

prints 'an empty input' < /dev/null
printf '# only a comment' | prints 'a comment'
printf '\n \t\r\n' | prints 'blank lines'
printf '0\t0x3000\n' | prints 'one entry' 0
printf '   0\t0x3000\tA (B)\n\t31\t0xabCDEF\r\n\n# c\n0032\t0x1\t\377\0\r\t#\n11279\t0x2' | prints 'entries of every form' 0 31 32 11279
printf '1\t0x1\r' | prints 'a carriage return at the end' 1
told 0 crates/presence_table/stdout /dev/null 'the index of the crate' < crates/presence_table/stdin

# the table that the library has is that of this index, whose pointers are the runs'
sed -n '/^const PRESENCE:/,/^];/{ /^ /p }' crates/vmd_presence/src/lib.rt | grep -oE '[0-9]+' > "$work/table"
told 0 "$work/table" /dev/null "the library's table" < crates/presence_table/stdin

# longer than what is read at once, with a line across each border
{
    printf '5\t0x5\t'; head -c 65526 /dev/zero | tr '\0' x; printf '\n'
    printf '7\t0x7\n#'; head -c 140000 /dev/zero | tr '\0' '#'; printf '\r\n'
    printf '      '; printf '%040000d\t0x9\n' 9; printf '11\t0x'; head -c 80000 /dev/zero | tr '\0' F
} > "$work/long"
[ "$(wc -c < "$work/long")" -gt 300000 ] || fail 'the long index is too short'
prints 'a long index' 5 7 9 11 < "$work/long"

# in pieces, one of them a single byte
for piece in 1 '2\t0' 'x4\r' '\n1' '3\t0x1'; do
    # shellcheck disable=SC2059
    printf "$piece"
    sleep 0.05
done | prints 'pieces' 12 13

# ---- faults

faulty '0\t0x3000\n1 0x3001\n' 2 "$no_entry"
faulty 'x' 1 "$no_entry"
faulty '#\n\n12\n' 3 "$no_entry"
faulty '12\t0x\r\n' 1 "$no_entry"
faulty '1\t0x1\r\r\n' 1 "$no_entry"
faulty '1\t0x1\n\n11280\t0x1' 3 "$too_large"
faulty '4294967296\t0x1\n' 1 "$too_large"
faulty '18446744073709551616\t0x1\n' 1 "$too_large"
faulty '7\t0x1\n7\t0x1\n' 2 "$not_above"
faulty '7\t0x1\r\n#\r\n\r\n6\t0x1\r\nx' 4 "$not_above"
for ((i = 0; i < 12345; i++)); do printf '\n'; done > "$work/lines"
echo 'presence-table: line 12346: this is no entry of the index' > "$work/said"
{ cat "$work/lines"; printf '?\n'; cat "$work/lines"; printf '1\t0x1\n'; } | told 1 /dev/null "$work/said" 'a fault after many lines'

# ---- no input, and words

echo 'presence-table: standard input cannot be read' > "$work/said"
told 1 /dev/null "$work/said" 'a folder' < .
status=0
./presence-table some.txt > "$work/out" 2> "$work/err" < /dev/null || status=$?
[ "$status" -eq 2 ] && [ ! -s "$work/out" ] || fail 'a word is not turned down'

echo "presence_table: $tried indexes read as expected"
