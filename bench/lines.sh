#!/bin/sh
# Times the program `rangerun` beside a reader of the same lines over the Rust crate, and prints a
# table in Markdown. Stops with an error where the two print different texts.
#
#   RANGEMAP_RUST=FOLDER bench/lines.sh [RUNS]
#
# RANGEMAP_RUST is the folder of the Rust crate's sources, with its src/. Each side runs RUNS times
# over each input, 5 without it, and the median is told. It needs rustc, and `rt` on the path, which
# proves and builds the program first where crates/rangerun/out/rangerun is not of today. Nothing is
# fetched.
set -eu
here=$(cd "$(dirname "$0")" && pwd)
: "${RANGEMAP_RUST:?set it to the folder of the Rust crate}"
out=$here/out/lines
mkdir -p "$out"

(cd "$here/../crates/rangerun" && rt run -- map <stdin) >&2
rustc --crate-name rangemap --crate-type rlib --edition 2018 -C opt-level=3 \
    -C target-cpu=x86-64-v2 -C embed-bitcode=yes --cap-lints allow --out-dir "$out" \
    "$RANGEMAP_RUST/src/lib.rs"
rustc --crate-name lines --edition 2021 -C opt-level=3 -C target-cpu=x86-64-v2 -C lto=fat \
    -C codegen-units=1 --extern "rangemap=$out/librangemap.rlib" -o "$out/lines" \
    "$here/src/lines/main.rs"
exec "$out/lines" "$here/../crates/rangerun/out/rangerun" "$@"
