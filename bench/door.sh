#!/bin/sh
# Prints the table of calls through the linked library beside egui, both called from Rust.
#   bench/door.sh
# Needs cargo, valgrind, egui's sources (EGUI_SRC, see compare/build.sh) and the archives that `rt lib` writes in crates/host and crates/host_questions, or FIVVARUL_LIB.
set -eu
root=$(cd "$(dirname "$0")/.." && pwd)
[ -d "$root/compare/egui-src" ] || NO_BUILD=1 "$root/compare/build.sh"
CARGO_TARGET_DIR=${CARGO_TARGET_DIR:-$root/target/cargo}
export CARGO_TARGET_DIR
(cd "$root/compare" && cargo build --release --offline --quiet --bin bench)
(cd "$root/compare/linked" && cargo build --release --offline --quiet --bin door)
date +%F
python3 "$root/bench/door.py" "$CARGO_TARGET_DIR/release/door" "$CARGO_TARGET_DIR/release/bench"
