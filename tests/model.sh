#!/usr/bin/env bash
# The second model (tests/model), written in C++ from the papers and include/vmd.h alone, against the static library: made-up
# takes, hostile ones among them, through every call, each lent buffer ending at a page that cannot be touched. Then errors made
# in the model on purpose, each of which has to be found. Run it from the repository's root. VMD_LIB names a library that is
# built already. 'tests/model.sh COUNT SEED' runs that many takes of another seed, and no errors.
set -euo pipefail

fail() { printf 'model: %s\n' "$*" >&2; exit 1; }

library=$(host/library) || fail "there is no library"
work=$(mktemp -d)
trap 'rm -rf "$work"' EXIT

c++ -std=c++17 -O1 -Wall -Wextra -Werror -pedantic -Iinclude tests/model/main.cpp "$library" -o "$work/model" ||
    fail "tests/model is not compiled"

run() { "$work/model" "$@" > "$work/log" || { cat "$work/log"; fail "'model $*' failed"; }; tail -n 1 "$work/log"; }
if [ $# -eq 2 ]; then
    run "$1" "$2"
else
    [ $# -eq 0 ] || fail "usage: tests/model.sh [COUNT SEED]"
    run 20000 20261117
    run names
    run self-test
fi
