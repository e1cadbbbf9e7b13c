#!/usr/bin/env bash
# Builds the Rust crate and the command of host/ over the static library and runs their tests: the calls, the command and its
# scripts, saving over a take while it is killed, the disk is full or loses what was written. Then holds the command's lines
# to those of vmd_list. Run it from the repository's root once 'rt ci' has built vmd_list.
set -euo pipefail

fail() { printf 'host: %s\n' "$*" >&2; exit 1; }

work=$(mktemp -d)
trap 'rm -rf "$work"' EXIT
. host/built
program=$vmd_list
[ -x "$program" ] || fail "$program is not there: run 'rt ci' first"
command -v cargo > /dev/null || fail "Rust's cargo is not on the PATH"
VMD_LIB=$(host/library) || fail "there is no library"
export VMD_LIB

if ! (cd host && cargo test --offline -- --nocapture) > "$work/log" 2>&1; then
    cat "$work/log" >&2
    fail "the tests of host/ failed"
fi
grep -h '^not tried' "$work/log" | sort -u || true
passed=$(grep -E '^test result: ok' "$work/log" | grep -oE '[0-9]+ passed' | awk '{ n += $1 } END { print n }')

# Both list the examples, each of them cut anywhere, and each with another first byte, in the same words.
listed=0
same_line() {
    local command
    command=$(./vmd list "$1" 2> "$work/err") || [ "$?" -eq 1 ] || fail "vmd list $1: $(cat "$work/err")"
    [ "$command" = "$("$program" < "$1")" ] || fail "$1: vmd lists '$command', vmd_list '$("$program" < "$1")'"
    listed=$((listed + 1))
}
for take in examples/*.vmd; do
    same_line "$take"
    size=$(wc -c < "$take")
    for length in 0 29 30 39 40 43 44 49 50 54 "$((size / 3))" "$((size / 2))" "$((size - 1))"; do
        head -c "$length" "$take" > "$work/take"
        same_line "$work/take"
    done
    { printf v; tail -c +2 "$take"; } > "$work/take"
    same_line "$work/take"
done

echo "host: $passed tests passed, $listed takes listed as vmd_list does"
