#!/bin/sh
# Prints the table of this library beside egui, and the stack of each entry.
#   bench/run.sh [ROWS]       only the rows whose name has ROWS in it
# Needs rt, cargo, valgrind, objdump and egui's sources (EGUI_SRC, see compare/build.sh).
set -eu
here=$(cd "$(dirname "$0")" && pwd)
root=$here/..
. "$root/.ci/lock.sh"
lock bench "$root"
trap unlock EXIT
trap 'exit 130' INT
# (one run of the program, after which it stays in out/)
(cd "$root/crates/bench_calls" && rt run <stdin >/dev/null 2>&1)
[ -d "$root/compare/egui-src" ] || NO_BUILD=1 "$root/compare/build.sh"
target=${CARGO_TARGET_DIR:-$root/target/bench}
(cd "$root/compare" && CARGO_TARGET_DIR=$target cargo build --release --offline --quiet --bin bench)
date +%F
ours=$root/crates/bench_calls/out/bench_calls
python3 "$here/table.py" "$ours" "$target/release/bench" "${1:-}"
python3 "$here/stack.py" "$ours" "$root/crates/bench_calls/out/bench_calls"
