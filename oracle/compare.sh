#!/usr/bin/env bash
# Runs the proved library and the original Rust on the same inputs and compares every result. It passes when its last line
# says 0 differences.
#
#   oracle/compare.sh N SEED [SOURCES]      N files and N part sets, N / 5 files of the older edition, N / 10 files whose
#                                           names repeat, joins, joins with older files and names, N / 5 takes to tidy,
#                                           N / 5 excerpts, N / 20 takes with remarks, N / 20 files of up to 70 property
#                                           frames and N / 100 older ones, as many of each made for the strict manner to
#                                           turn down and N / 20 joins of them, beside the fixed inputs, and request h)'s
#                                           runs and table
#   oracle/compare.sh index [SOURCES]       the runs and the table alone, without the library
#   oracle/compare.sh self-test [SOURCES]   alters one result after another: each has to be reported
#
# SOURCES is as in oracle/build.sh.
set -euo pipefail
root=$(cd "$(dirname "$0")/.." && pwd)
what=$1
shift
program=compare
arguments=("$what")
case $what in
    index) program=index arguments=() ;;
    self-test) ;;
    *)
        arguments+=("$1")
        shift
        ;;
esac
"$root/oracle/build.sh" "$program" "$@"
cd "$root"
exec "target/oracle/build/release/$program" "${arguments[@]}"
