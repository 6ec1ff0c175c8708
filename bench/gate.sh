#!/bin/sh
# Runs the merge gate from nothing, `rt ci --anew`, and says what it costs: for each crate the processor seconds of its proof, of the
# proof of its tests and of its must-fail edits, and the most memory that one process took. The table goes to standard output, or
# to FILE: bench/gate.sh [FILE]. What the gate itself prints goes to gate.log in a new folder, whose path is told. Nothing else should
# run beside it. The exit status is that of the gate.
set -u
top=$(cd "$(dirname "$0")/.." && pwd -P) || exit 1
work=$(mktemp -d) || exit 1
table=${1:-/dev/stdout}

echo "bench/gate.sh: the gate's output is $work/gate.log" >&2
cd "$top" || exit 1
rt ci --anew >"$work/gate.log" 2>&1 </dev/null &
gate=$!
trap 'kill "$gate" 2>/dev/null' INT TERM
python3 "$top/bench/gate_samples.py" "$gate" >"$table"
wait "$gate"
status=$?
tail -n 1 "$work/gate.log" >&2
exit "$status"
