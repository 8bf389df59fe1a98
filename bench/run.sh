#!/bin/sh
# Times this library beside the Rust crate, and prints tables in Markdown. Stops with an error where
# the two answer differently.
#
#   RANGEMAP_RUST=FOLDER [RANGEMAP_PICTURES=FOLDER] bench/run.sh [WORD [SIZE]]
#
# RANGEMAP_RUST is the folder of the Rust crate's sources, with its src/. With a WORD only the
# workloads whose names have it are run, or those of containers whose names have it, as `chunked`, and
# with a SIZE none of more ranges; without, all are run, and the bytes held for a range are printed, as
# bench/out/release/bytes does. The tables are kept in
# bench/out/tables.md too. RANGEMAP_PICTURES is the folder where two SVGs are to be made of them.
# It needs rustc and cargo, and `rt` on the path. Nothing is fetched.
#
# When it was run, `bench/out/release/bench --compare TABLES TABLES` prints each ratio that differs
# by more than a tenth between two such tables, and `--draw TABLES FOLDER` makes the pictures.
set -eu
here=$(cd "$(dirname "$0")" && pwd)
: "${RANGEMAP_RUST:?set it to the folder of the Rust crate}"
RANGEMAP_RUST=$(cd "$RANGEMAP_RUST" && pwd)
RATTLE_KIT=$(dirname "$(dirname "$(readlink -f "$(command -v rt)")")")
export RANGEMAP_RUST RATTLE_KIT
bench=$here/out/release/bench
tables=$here/out/tables.md

(cd "$here/../crates/bench_map" && rt lib) >&2
(cd "$here" && cargo build --release --offline --quiet --target-dir out) >&2

{
    echo "$(date -u +%Y-%m-%d), $(nproc) processors, $(sed -n 's/^model name[^:]*: //p' /proc/cpuinfo | head -n 1)."
    echo "Load when it began: $(cut -d ' ' -f 1-3 /proc/loadavg). $(rustc --version), opt-level 3, LTO, x86-64-v2; $(rt version), its static library by LLVM at level 3."
    "$bench" "$@"
    if [ $# -eq 0 ]; then
        echo
        "$here/out/release/bytes"
    fi
} >"$tables"
cat "$tables"
if [ -n "${RANGEMAP_PICTURES:-}" ]; then
    "$bench" --draw "$tables" "$RANGEMAP_PICTURES"
fi
