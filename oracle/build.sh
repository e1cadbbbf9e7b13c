#!/usr/bin/env bash
# Builds the original Rust, unchanged, and a program that runs it, into target/oracle.
#
#   oracle/build.sh compare|index|samples [SOURCES]
#
# SOURCES is the folder with the original's files (crates/mmd-anim-format/.., crates/mmd-anim-runtime/..), by default
# ../shared/docs/src beside the repository. Missing Debian packages are installed with apt-get. The program that compares
# links the proved library as the crate does: the one that VMD_LIB names, else the repository's own, built where it is missing
# or old.
set -euo pipefail
root=$(cd "$(dirname "$0")/.." && pwd)
what=${1:-}
sources=${2:-$root/../shared/docs/src}
workspace=$root/target/oracle/workspace

fail() { printf 'oracle/build.sh: %s\n' "$*" >&2; exit 1; }

install_missing() {
    local package missing=()
    for package in librust-encoding-rs-dev librust-serde-dev librust-serde-derive-dev librust-thiserror-dev; do
        [ "$(dpkg-query -W -f '${db:Status-Status}' "$package" 2>/dev/null)" = installed ] || missing+=("$package")
    done
    # The original needs Rust 1.65, the comparison 1.82; Debian 12's rustc is older, its rustc-web is not.
    command -v cargo >/dev/null || missing+=(cargo-web rustc-web)
    [ ${#missing[@]} -eq 0 ] && return
    apt-get update -q
    apt-get install -y -q --no-install-recommends "${missing[@]}"
}

# The original's files and the stand-ins, laid out as in the original's repository, and the crate's declaration of the C
# interface. Modification times are kept, so that cargo builds again only what changed.
lay_out() {
    local file
    [ -d "$sources" ] || fail "no folder $sources: give the folder with the original's files"
    rm -rf "$workspace"
    mkdir -p "$workspace/.cargo"
    cp -p "$root/oracle/Cargo.toml" "$workspace/"
    cp -p "$root/oracle/cargo-config.toml" "$workspace/.cargo/config.toml"
    cp -rp "$root/oracle/crates" "$workspace/"
    cp -p "$root/host/src/header.rs" "$workspace/crates/comparison/src/"
    while read -r _ file; do
        cp -p "$sources/$file" "$workspace/$file"
    done < "$root/oracle/SHA256SUMS"
    (cd "$workspace" && sha256sum --check --quiet "$root/oracle/SHA256SUMS") ||
        fail "the original's files are not those of SHA256SUMS"
}

find_library() {
    VMD_LIB=$("$root/host/library") || fail "there is no library"
    export VMD_LIB
}

case $what in
    compare) package=comparison ;;
    index | samples) package=oracle ;;
    *) fail "compare, index or samples?" ;;
esac
install_missing
lay_out
[ "$what" != compare ] || find_library
cd "$workspace"
CARGO_TARGET_DIR=$root/target/oracle/build cargo build --offline --release --quiet --package "$package"
