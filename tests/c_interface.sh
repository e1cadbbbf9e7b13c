#!/usr/bin/env bash
# Builds the static library, and the C programs of tests/c over it and include/vmd.h; each checks what the calls answer and
# every byte they leave. replay.c reads the original's recorded answers, tests/c/replay.cases, on its standard input. Run it
# from the repository's root. VMD_LIB names a library that is built already.
set -euo pipefail

fail() { printf 'c_interface: %s\n' "$*" >&2; exit 1; }

work=$(mktemp -d)
trap 'rm -rf "$work"' EXIT

# proved and built anew, whatever the times of its files say
[ -n "${VMD_LIB:-}" ] || rm -f crates/vmd_c/out/libvmd_c.a
library=$(host/library) || fail "there is no library"

warnings=(-Wall -Wextra -Werror -pedantic -Iinclude)

# What the library wants from outside is memset alone (README, "From C and Rust").
wanted=$(nm -u "$library" | awk '$1 == "U" { print $2 }' | sort -u | paste -sd' ')
[ "$wanted" = memset ] || fail "the library wants from outside: $wanted"

# C++ programs include the header and link the library as well; the newer C++ warns of sums of two enums.
cat > "$work/header.cpp" <<'END'
#include <cstdint>
#include <vmd.h>
int main() {
    std::uint32_t counts[12];
    std::uint64_t figures[11];
    vmd_season_none(counts, figures);
    return counts[VMD_SEASON_LARGEST + VMD_PROPERTIES] == 0 && vmd_first_fault(nullptr, 0) == 0 ? 0 : 1;
}
END
for standard in c++11 c++20; do
    c++ -std=$standard "${warnings[@]}" "$work/header.cpp" "$library" -o "$work/header" || fail "the header is no $standard"
    "$work/header" || fail "a call from $standard failed"
done

# No function of the header is left out.
functions=$(grep -oE '\bvmd_[a-z_]+\(' include/vmd.h | sort -u)
for function in $functions; do
    grep -qF "$function" tests/c/*.c tests/c/*.h || fail "no test calls $function)"
done

summary=
for source in tests/c/*.c; do
    name=$(basename "$source" .c)
    cc -std=c99 -O1 "${warnings[@]}" "$source" "$library" -o "$work/$name" || fail "$source is not compiled"
    input=tests/c/$name.cases
    [ -f "$input" ] || input=/dev/null
    line=$("$work/$name" < "$input") || fail "$source failed"
    summary+="${summary:+, }$line"
done

echo "c_interface: $(wc -w <<< "$functions") functions; $summary"
