#!/bin/sh
# The gate's part for the linked library: the boundary's files are what the sources give; the archive is proved and built; the Rust package's tests, both
# examples and the comparison in process pass. What is not at hand (python3, cargo, a C compiler, egui's sources) is said and left out.
#   host/run.sh               FIVVARUL_LIB: the folder of libhost.a and libhost_questions.a, if they are built already; CALLS: how many calls are compared, default 1,000,000
# Ends with 1 at the first that fails.
set -eu
here=$(cd "$(dirname "$0")" && pwd)
cd "$here/.."
PATH=$PATH:/opt/rattle/bin
work=$(mktemp -d)
trap 'rm -rf "$work"' EXIT
say() {
    echo "host: $*"
}
same() {
    diff "$1" "$2" || { say "$2 is not what was printed"; exit 1; }
}
if command -v python3 >/dev/null; then
    python3 host/boundary.py --check
else
    say "python3 is not at hand, the boundary's files were not checked"
fi
if [ -z "${FIVVARUL_LIB:-}" ]; then
    unset FIVVARUL_LIB
    for archive in host host_questions; do
        # over what rt ci left, else from nothing
        host/archive.sh $archive >"$work/log" 2>&1 || (cd crates/$archive && rt lib) >"$work/log" 2>&1 || { cat "$work/log"; exit 1; }
    done
    set -- crates/host/out/libhost.a crates/host_questions/out/libhost_questions.a
else
    export FIVVARUL_LIB
    set -- "$FIVVARUL_LIB/libhost.a" "$FIVVARUL_LIB/libhost_questions.a"
fi
if command -v cc >/dev/null; then
    cc -std=c11 -Wall -Wextra -Werror -O2 -Ihost/c host/c/example.c "$@" -o "$work/example"
    "$work/example" >"$work/c"
    same "$work/c" host/c/expected.txt
    say "the example in C prints what is stored"
else
    say "a C compiler is not at hand, the example in C was not run"
fi
if ! command -v cargo >/dev/null; then
    say "cargo is not at hand, the Rust package was not tested"
    exit 0
fi
CARGO_TARGET_DIR=${CARGO_TARGET_DIR:-$PWD/target/cargo}
export CARGO_TARGET_DIR
(cd host/rust && cargo test --release --offline --quiet) >"$work/log" 2>&1 || { cat "$work/log"; exit 1; }
say "the package's tests and its documentation's examples pass"
(cd host/rust && cargo run --release --offline --quiet --example jobs "$work/trace") >"$work/jobs"
same "$work/jobs" host/rust/examples/jobs.txt
if [ -x crates/replay/out/replay ]; then
    crates/replay/out/replay text <"$work/trace" >"$work/replayed"
    starts=$(grep -c 'a slot is reserved' "$work/jobs")
    say "the example panel prints what is stored; its trace replays, with $starts drags started: $(tail -n 1 "$work/replayed")"
fi
if [ -f "${EGUI_SRC:-$PWD/../shared/docs/src/src}/input_state/mod.rs" ]; then
    [ -d compare/egui-src ] || NO_BUILD=1 compare/build.sh
    (cd compare/linked && cargo build --release --offline --quiet) >"$work/log" 2>&1 || { cat "$work/log"; exit 1; }
    "$CARGO_TARGET_DIR/release/fivvarul-linked" "calls=${CALLS:-1000000}" "seed=${SEED:-$(date +%Y%m%d)0000}"
else
    say "egui's sources are not at hand, nothing was compared in process"
fi
