#!/bin/sh
# Eight processes put and get on four keys of one root at the same time, for two drivers that replace each other's entries, and are killed
# again and again. Each lookup gives one whole blob that was put under its key for its driver, or misses; at the end each key is put and found.
. "$(dirname "$0")/cases.sh"

workers=8 turns=100
keys="$k1 $k2 $other a900112233445566778899aabbccddeeff001122"

# Each worker has a blob of its own for each key, of its own length. Workers with an even number put for driver `d`, the others for `e`.
driver_of() {
    [ $(($1 % 2)) -eq 0 ] && echo d || echo e
}
for worker in 0 1 2 3 4 5 6 7; do
    for key in $keys; do
        mkdir -p "blobs/$key/$(driver_of $worker)"
        { echo "$worker $key"; head -c $((worker * 9000)) /dev/urandom; } >"blobs/$key/$(driver_of $worker)/$worker"
    done
done

# Whether a file is one of the blobs that are put under a key for a driver.
is_put() {
    for blob in "blobs/$2/$3"/*; do
        cmp -s "$1" "$blob" && return
    done
    return 1
}

# One call of a worker. By a random byte about every third is killed within some thirteen milliseconds, if it hasn't ended.
call() {
    byte=$(od -A n -N 1 -t u1 /dev/urandom)
    if [ $((byte % 3)) -eq 0 ]; then
        timeout -s KILL "$(printf '0.%04d' $((byte / 2 + 1)))" "$program" "$@"
    else
        "$program" "$@"
    fi
}

# The status of a call that was killed.
killed=137

work() {
    driver=$(driver_of "$1") turn=0 kills=0
    while [ $turn -lt $turns ]; do
        turn=$((turn + 1))
        # shellcheck disable=SC2086
        key=$(echo $keys | cut -d ' ' -f $(((turn + $1) % 4 + 1)))
        call put --id=$driver --gpu=g --layout=folder --root=shared "$key" <"blobs/$key/$driver/$1" >"out.$1" 2>"err.$1"
        status=$?
        [ $status -ne $killed ] || kills=$((kills + 1))
        [ $status -le 7 ] || [ $status -eq $killed ] || wrong "worker $1, turn $turn: a put ended with status $status"
        call get --id=$driver --gpu=g --layout=folder --root=shared "$key" </dev/null >"out.$1" 2>"err.$1"
        status=$?
        case $status in
        0) is_put "out.$1" "$key" $driver || wrong "worker $1, turn $turn: a lookup gave bytes that nobody put" ;;
        1) ;;
        "$killed") kills=$((kills + 1)) ;;
        *) wrong "worker $1, turn $turn: a lookup ended with status $status" ;;
        esac
    done
    echo $kills >"kills.$1"
}

for worker in 0 1 2 3 4 5 6 7; do
    work $worker &
done
wait
all=0
for worker in 0 1 2 3 4 5 6 7; do
    [ -e kills.$worker ] || wrong "worker $worker stopped before its end"
    all=$((all + $(cat kills.$worker)))
    cases=$((cases + 1))
done
[ $all -gt 0 ] || wrong "no call was killed, so that nothing was tried"
for key in $keys; do
    try put --id=d --gpu=g --layout=folder --root=shared "$key" <"blobs/$key/d/0"
    [ "$status" -eq 0 ] || wrong "the last put of $key: status $status"
    try get --id=d --gpu=g --layout=folder --root=shared "$key" </dev/null
    [ "$status" -eq 0 ] && is_put out "$key" d || wrong "the last lookup of $key: status $status, or bytes that nobody put"
    cases=$((cases + 1))
done

tell
