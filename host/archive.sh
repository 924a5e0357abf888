#!/bin/sh
# host/archive.sh NAME builds crates/NAME/out/libNAME.a over the libraries that `rt ci` left in crates/*/out, with the prover's own command: NAME is checked
# again, the libraries below it are not. (`rt lib` in crates/NAME builds the same, and each library below that `rt check` has not built in this checkout.)
# Ends with 1 where a library is not there, or NAME is not proved.
set -eu
name=$1
cd "$(dirname "$0")/.."
kit=$(dirname "$(rt doc)")
root=$PWD
# the crates that NAME lists, and all below it
awk -v top="$name" '
    /^[a-z]/ { split($0, part, ":"); split(part[1], head, " "); deps[head[1]] = part[2]; order[++n] = head[1] }
    END {
        need[top] = 1
        for (k = n; k > 0; k--) if (order[k] in need) { m = split(deps[order[k]], d, " "); for (i = 1; i <= m; i++) need[d[i]] = 1 }
        m = split(deps[top], d, " ")
        for (i = 1; i <= m; i++) print "listed", d[i]
        for (k = 1; k <= n; k++) if (order[k] in need && order[k] != top) print "below", order[k]
    }' crates.txt >"crates/$name/out/below"
set --
while read -r kind crate; do
    library=$root/crates/$crate/out/rlib
    [ -d "$library/$crate.rlib" ] || exit 1
    if [ "$kind" = listed ]; then
        set -- "$@" --extern "$crate=$library/$crate.rlib"
    else
        set -- "$@" -L "dependency=$library"
    fi
done <"crates/$name/out/below"
cd "crates/$name"
"$kit/bin/rattle" build --crate-name "$name" src/lib.rt --extern "std=$kit/rlibs/std.rlib" -L "dependency=$kit/rlibs" "$@" \
    --antt-project "$kit/rattle/logic/antt-project.json" --logic-built "$kit/logic_built" --crate-type staticlib --jobs 2 \
    --toolchain "$kit/toolchain" --backend llvm -o "out/lib$name.a"
