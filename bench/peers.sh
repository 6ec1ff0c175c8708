#!/bin/sh
# Compares a get and a put of 5 KB, 227 KB and 16 MiB with a C program of the same calls (bench/peer.c), with `cat`, `cp` and `sqlite3`,
# each where it is there: bench/peers.sh [RUNS]. Each is run RUNS times, 300 without it, in turn; the table has the median of the
# processor's time, the least time by the clock, and the program's own as ratios to them. Runs the built program, not the launcher.
set -eu
LC_ALL=C
export LC_ALL

bench=$(cd "$(dirname "$0")" && pwd -P)
program=$bench/../crates/dawsettee/out/dawsettee
if [ ! -x "$program" ]; then
    echo "bench/peers.sh: build the program first, by ./dawsettee --version" >&2
    exit 1
fi
work=$(mktemp -d)
trap 'rm -rf "$work"' EXIT

if command -v cc >/dev/null 2>&1; then
    cc -O2 -DTABLES -o "$work/tables" "$bench/peer.c"
    "$work/tables" >"$work/peer_tables.h"
    cc -O2 -I"$work" -o "$work/peer" "$bench/peer.c"
fi
python3 "$bench/peers.py" "$program" "$work" "${1:-300}"
