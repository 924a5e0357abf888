#!/bin/sh
# Compares with egui where cargo and egui's sources are at hand; else says so and ends with 0.
#   compare/run.sh [SECONDS]       default: 4,000,000 calls; EGUI_SRC: the src/ folder of egui 0.37.0
#   BUILD_ONLY=1 compare/run.sh    builds; BUILT=1 compare/run.sh takes what is built
# The program compared is crates/replay/out/replay, as `rt run` and `rt ci` leave it. Ends with 1 at any difference.
set -eu
here=$(cd "$(dirname "$0")" && pwd)
if [ $# -gt 0 ]; then
    calls=seconds=$1
    lists=seconds=$(($1 / 4))
else
    calls=calls=4000000
    lists=lists=600
fi
from=${EGUI_SRC:-$here/../../shared/docs/src/src}
replay=${REPLAY:-$here/../crates/replay/out/replay}
if ! command -v cargo > /dev/null; then
    echo "compare: cargo is not at hand, nothing was compared with egui"
    exit 0
fi
if [ ! -f "$from/input_state/mod.rs" ]; then
    echo "compare: egui's sources are not in $from, nothing was compared with egui"
    exit 0
fi
if [ -z "${BUILT:-}" ] && ! "$here/build.sh" "$from" > "$here/build.log" 2>&1; then
    cat "$here/build.log"
    exit 1
fi
[ -z "${BUILD_ONLY:-}" ] || exit 0
bin=$here/target/release
work=$(mktemp -d)
trap 'rm -rf "$work"' EXIT
same() {
    cmp -s "$1" "$2" || { echo "compare: $2 is not what egui's files give today"; exit 1; }
}
# The stored corpora are what egui answers today, and what the test program holds.
"$bin/corpora" "$work" "$work" > "$work/corpora.md"
same "$work/corpora.md" "$here/corpora.md"
same "$work/stdin" "$here/../crates/trace_corpora/stdin"
same "$work/stdout" "$here/../crates/trace_corpora/stdout"
"$bin/sample" > "$work/sample"
same "$work/sample" "$here/../samples/lost-release.trace"
if command -v python3 > /dev/null; then
    "$here/../samples/kernel-trace" "$here/../samples/two-fingers.evdev" > "$work/kernel"
    cmp -s "$work/kernel" "$here/../samples/two-fingers.trace" || { echo "compare: samples/two-fingers.trace is not what kernel-trace writes"; exit 1; }
fi
# A new first seed each day, so that the gate does not always run the same traces.
seed=${SEED:-$(date +%Y%m%d)0000}
echo "compare: first seed $seed"
if [ ! -x "$replay" ]; then
    echo "compare: $replay is not there; egui's side alone"
    "$bin/run" calls=500000 seed="$seed"
    "$bin/clearing" lists=1000 seed="$seed"
    exit 0
fi
# The stored corpora with each call parked and restored: the stored answers, and those of the parkings between them.
corpora=${CORPORA:-$here/../crates/trace_corpora/out/trace_corpora}
if [ -x "$corpora" ]; then
    "$corpora" < "$work/parked.stdin" > "$work/parked.got"
    cmp -s "$work/parked.stdout" "$work/parked.got" || { echo "compare: the stored corpora are answered otherwise where each call is parked and restored"; exit 1; }
fi
# The samples, which are compared as they are; then the traces made here, and some of KERNEL alone.
for trace in lost-release two-fingers; do
    "$bin/oracle" < "$here/../samples/$trace.trace" > "$work/want"
    "$replay" whole < "$here/../samples/$trace.trace" > "$work/got"
    cmp -s "$work/want" "$work/got" || { echo "compare: samples/$trace.trace is not answered as egui's files and 02 have it"; exit 1; }
done
"$bin/run" "$calls" seed="$seed" keep="$here/differs.trace" "$replay" whole
"$bin/run" calls=200000 seed="$seed" keep="$here/differs.trace" scene=images "$replay" whole
"$bin/run" calls=200000 seed="$seed" keep="$here/differs.trace" scene=kernel "$replay" whole
"$bin/clearing" "$lists" seed="$seed" "$replay" whole
