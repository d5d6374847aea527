#!/usr/bin/env bash
# bindings/build.sh [FOLDER]: builds the bindings in a folder, target/bindings if none is named: libgiqapsun.so for
# Python, and the Rust crate under rust/.
# The static library is libgiqapsun.a in the folder GIQAPSUN_LIB_DIR, or else in target/staticlib, where
# `tools/build giqapsun` makes it.
set -eu
root=$(cd "$(dirname "$0")/.." && pwd)
folder=${1:-$root/target/bindings}
mkdir -p "$folder"
folder=$(cd "$folder" && pwd)
cd "$root"
. bindings/library.sh

shared "$folder"
quietly rust cargo build --release --offline --locked --manifest-path bindings/rust/Cargo.toml \
    --target-dir "$folder/rust"
echo "built $folder/libgiqapsun.so and $folder/rust/release/libgiqapsun.rlib"
