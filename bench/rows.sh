#!/bin/sh
# Answers the rows of this library's tests by the Rust crate, and stops with an error where the two
# answer differently.
#
#   RANGEMAP_RUST=FOLDER bench/rows.sh [FILE ..]
#   RANGEMAP_RUST=FOLDER bench/rows.sh random SEED COUNT
#
# RANGEMAP_RUST is the folder of the Rust crate's sources, with its src/. With FILEs only the rows of
# these are answered; without, those of crates/rows_maps/data and crates/rows_sets/data. It prints of
# each file how many rows were answered and how many skipped, for a word that the Rust crate has not;
# each row that differs, with what was found and wanted; and how many there were of all.
#
# `random` writes COUNT random rows for each kind of container, with the answers of the Rust crate, into
# bench/out/rows/random_map.rows, and so for imap, set and iset. The programs of crates/rows_maps and
# crates/rows_sets run them beside their other files, since all their words have to be used. Calls on
# which the Rust crate panics are left out, and counted.
#
# It needs rustc alone. Overflow is checked, since the Rust crate steps past the last key now and then.
# Nothing is fetched.
set -eu
here=$(cd "$(dirname "$0")" && pwd)
: "${RANGEMAP_RUST:?set it to the folder of the Rust crate}"
out=$here/out/rows
mkdir -p "$out"

rustc --crate-name rangemap --crate-type rlib --edition 2018 -C overflow-checks=on \
    --cap-lints allow --out-dir "$out" "$RANGEMAP_RUST/src/lib.rs" >&2
rustc --edition 2021 -C overflow-checks=on --extern "rangemap=$out/librangemap.rlib" \
    -o "$out/rows" "$here/src/rows/main.rs" >&2

if [ "${1:-}" = random ]; then
    "$out/rows" --random "$out" "${2:?the seed}" "${3:?how many rows}"
elif [ $# -gt 0 ]; then
    "$out/rows" "$@"
else
    cd "$here/.."
    "$out/rows" crates/rows_maps/data/*.rows crates/rows_sets/data/*.rows
fi
