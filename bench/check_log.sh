#!/bin/sh
# Takes how long the playing of drawn schedules and the verdict on their logs take, at about 10,000 and about 100,000 items: seconds of the
# processor of many runs that play and judge, less those of as many that play alone.
set -eu
LC_ALL=C
export LC_ALL

top=$(cd "$(dirname "$0")/.." && pwd -P)
program=$top/crates/log_bench/out/log_bench
if [ ! -x "$program" ]; then
    echo "bench/check_log.sh: build the program first, by rt run in crates/log_bench" >&2
    exit 1
fi
seed=${1:-7}
work=$(mktemp -d)
trap 'rm -rf "$work"' EXIT
cd "$work"

# Seconds of the processor that some runs take, one after another, each for the mean.
seconds() {
    runs=$1
    shift
    (
        for _ in $(seq "$runs"); do
            "$program" "$@" >printed
        done
        times
    ) | tail -n 1 | tr 'ms' '  ' | awk -v runs="$runs" '{ printf "%.4f", ($1 * 60 + $2 + $3 * 60 + $4) / runs }'
}

# So many turns, run so often: prints the items, and the seconds that the playing and the verdict take, the latter also to a file.
measure() {
    alone=$(seconds "$2" "$1" "$seed" play)
    both=$(seconds "$2" "$1" "$seed")
    grep -q "^verdict good$" printed || {
        echo "bench/check_log.sh: $1 turns: $(tail -n 1 printed)" >&2
        exit 1
    }
    judged=$(echo "$both $alone" | awk '{ printf "%.4f", $1 - $2 }')
    echo "$1 turns, $(sed -n 's/^items //p' printed) items: played in $alone s, judged in $judged s"
    echo "$judged" >>judged
}

measure 20000 100
measure 40000 100
measure 400000 10
awk 'NR == 2 { few = $1 } NR == 3 { printf "ratio of the last two verdicts %.1f\n", $1 / few }' judged
