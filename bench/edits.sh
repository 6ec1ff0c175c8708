#!/bin/sh
# Tries the edits of bench/edits, each of which must be refused: bench/edits.sh [CRATE..]
# They are of the same kind as those that the gate tries, and stand here since each costs a whole check of its crate. For each crate named,
# or for each that has some, they are put beside the gate's in a copy of the repository, and the gate of that crate is run there. To be run
# before a crate that changed is handed in. The exit status is 0 where each was refused.
set -eu
top=$(cd "$(dirname "$0")/.." && pwd -P)
work=$(mktemp -d)
trap 'rm -rf "$work"' EXIT
[ $# -gt 0 ] || set -- $(ls "$top/bench/edits")

git -C "$top" ls-files -z --cached --others --exclude-standard | (cd "$top" && xargs -0 cp --parents -t "$work" 2>/dev/null || true)
cd "$work"
git init -q .
status=0
for crate in "$@"; do
    mkdir -p "crates/$crate/must-fail"
    cp "$top/bench/edits/$crate"/*.edit "crates/$crate/must-fail/"
    echo "bench/edits.sh: $crate, $(ls "crates/$crate/must-fail" | wc -l) edits" >&2
    rt ci "$crate" >"$work/$crate.log" 2>&1 </dev/null || { status=1; cat "$work/$crate.log"; }
    tail -n 1 "$work/$crate.log"
done
exit "$status"
