#!/bin/sh
# Compares what a lookup of 5 KB costs with what `cat` of the same bytes costs: user and system time of 1,000 runs of each, in turn, five
# rounds. Prints each round, and then the median of the ratios. Runs the built program, not the launcher.
set -eu
LC_ALL=C
export LC_ALL

top=$(cd "$(dirname "$0")/.." && pwd -P)
program=$top/crates/dawsettee/out/dawsettee
if [ ! -x "$program" ]; then
    echo "bench/start.sh: build the program first, by ./dawsettee --version" >&2
    exit 1
fi
runs=${1:-1000}
rounds=5
key=a9993e364706816aba3e25717850c26c9cd0d89d
work=$(mktemp -d)
trap 'rm -rf "$work"' EXIT
cd "$work"

head -c 5120 /dev/urandom >blob
"$program" put --layout=folder --root=store $key <blob >put
"$program" get --layout=folder --root=store $key >got
cmp blob got

get() {
    turn=0
    while [ $turn -lt "$runs" ]; do
        "$program" get --layout=folder --root=store $key >/dev/null
        turn=$((turn + 1))
    done
}

copy() {
    turn=0
    while [ $turn -lt "$runs" ]; do
        cat blob >/dev/null
        turn=$((turn + 1))
    done
}

# User and system seconds of all that a command started, by the shell's own count.
seconds() {
    (
        "$1"
        times
    ) | tail -n 1 | tr 'ms' '  ' | {
        read -r user_minutes user_seconds system_minutes system_seconds
        echo "$user_minutes $user_seconds $system_minutes $system_seconds" | awk '{ printf "%.3f", 60 * $1 + $2 + 60 * $3 + $4 }'
    }
}

round=1
while [ $round -le $rounds ]; do
    for_get=$(seconds get)
    for_cat=$(seconds copy)
    ratio=$(echo "$for_get $for_cat" | awk '{ printf "%.3f", $1 / $2 }')
    echo "round $round: get $for_get s, cat $for_cat s, ratio $ratio"
    echo "$ratio" >>ratios
    round=$((round + 1))
done
sort -n ratios | sed -n "$((rounds / 2 + 1))p" | sed 's/^/median ratio: /'
