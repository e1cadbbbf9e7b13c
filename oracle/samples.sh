#!/usr/bin/env bash
# Writes the sample of the original's answers anew: the cases that tests/c/replay.c reads, and the examples of
# crates/vmd_answers. The same sources give the same files.
#
#   oracle/samples.sh [SOURCES]
#
# SOURCES is as in oracle/build.sh.
set -euo pipefail
root=$(cd "$(dirname "$0")/.." && pwd)
"$root/oracle/build.sh" samples "$@"
cd "$root"
target/oracle/build/release/samples tests/c/replay.cases crates/vmd_answers
