#!/bin/sh
# Lays the published egui sources out below egui-src/ (not in git) and builds.
#   ./build.sh [SRC]          SRC: the src/ folder of egui 0.37.0; default $EGUI_SRC or ../../shared/docs/src/src
#   NO_BUILD=1 ./build.sh     lay out only
# egui-src/src/...   byte for byte copies, under their published paths
# egui-src/wrap/...  symlinks into src/, and a second copy of touch_state.rs: its three divisions by a
#                    previous spread are calls of `zoom_quotient` (plain division below level 14, see
#                    A.14), and it has a child module that may read private fields
set -eu
here=$(cd "$(dirname "$0")" && pwd)
from=${1:-${EGUI_SRC:-$here/../../shared/docs/src/src}}
out=$here/egui-src
rm -rf "$out"
mkdir -p "$out/wrap/input_state"
for f in input_state/mod input_state/touch_state input_state/wheel_state interaction widget_rect sense \
    data/input/modifiers data/input/touch data/input/pointer_button data/input/mouse_wheel_unit \
    data/input/mouse_wheel_source data/input/safe_area_insets; do
    mkdir -p "$(dirname "$out/src/$f.rs")"
    cp "$from/$f.rs" "$out/src/$f.rs"
done
ln -s ../../src/input_state/mod.rs         "$out/wrap/input_state/mod.rs"
ln -s ../../src/input_state/wheel_state.rs "$out/wrap/input_state/wheel_state.rs"
touch=$out/wrap/input_state/touch_state.rs
sed -E 's#(state\.current\.[a-z0-9_.]+) / (state_previous\.[a-z0-9_.]+)#crate::zoom_quotient(\1, \2)#' \
    "$out/src/input_state/touch_state.rs" > "$touch"
if [ "$(grep -c 'crate::zoom_quotient(' "$touch")" != 3 ] || grep -q '/ state_previous' "$touch"; then
    echo "build.sh: touch_state.rs has not the three divisions that are to be altered" >&2
    exit 1
fi
cat >> "$touch" <<'W'

// Added by build.sh: a child module for reading private fields.
#[path = "../../../src/access_touch.rs"]
pub(crate) mod access;
W
[ -n "${NO_BUILD:-}" ] || (cd "$here" && cargo build --release --offline)
