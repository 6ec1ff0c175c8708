# Sourced by the scripts that try the built program: where it is, a fresh folder to work in, and what a case has to leave. A script
# stops at its first case that is wrong, and says which.
set -u
unset DAWSETTEE_EXPLAIN

top=$(cd "$(dirname "$0")/../.." && pwd -P) || exit 1
program=$top/crates/dawsettee/out/dawsettee
if [ ! -x "$program" ]; then
    # The launcher builds the program; what it says is no part of any case.
    program=$top/dawsettee
    "$program" --version </dev/null >/dev/null
fi

work=$(mktemp -d) || exit 1
trap 'rm -rf "$work"' EXIT
trap 'exit 1' HUP INT TERM
cd "$work" || exit 1

k1=a9993e364706816aba3e25717850c26c9cd0d89d
k2=da39a3ee5e6b4b0d3255bfef95601890afd80709
other=00112233445566778899aabbccddeeff00112233
usage="usage: key, put, get, mark, has, list, verify, trim, settings, batch or drill"
stored="stored
"
kept="kept
"
cases=0 skipped=0

# An entry's path below its root: two digits of the key, a slash, and the others.
entry_of() {
    echo "${1%"${1#??}"}/${1#??}"
}

# The front of each entry of driver `d`, GPU `g`, flags 0: version 1, id and GPU name each with a zero
# byte, pointer size 8, eight bytes of flags. Then the type, which is 0.
front() {
    printf '\001d\000g\000\010\000\000\000\000\000\000\000\000\000\000\000\000'
}

# The entry of the blob `abc`: the front, its CRC-32 0x352441c2 and its size, lowest bytes first, and it.
abc_entry() {
    front
    printf '\302\101\044\065\003\000\000\000abc'
}

# The entry of the blob of no bytes.
empty_entry() {
    front
    printf '\000\000\000\000\000\000\000\000'
}

wrong() {
    echo "tests/program/${0##*/}: $1" >&2
    [ ! -s err ] || sed 's/^/    standard error: /' err >&2
    exit 1
}

skip() {
    echo "skipped: $1: $2"
    skipped=$((skipped + 1))
}

# Runs the program with its output and what it says of a fault in the files out and err.
try() {
    "$program" "$@" >out 2>err
    status=$?
}

# Looks a key up as driver `d`, GPU `g` in the folder store at a root.
get() {
    "$program" get --id=d --gpu=g --layout=folder "--root=$1" "$2"
}

# Looks a key up with its output and what it says of a fault in the files out and err.
look() {
    get "$1" "$2" </dev/null >out 2>err
    status=$?
}

# Puts standard input as driver `d`, GPU `g` into the folder store at a root, under a key.
put() {
    "$program" put --id=d --gpu=g --layout=folder "--root=$1" "$2"
}

# The same with its output and what it says of a fault in the files out and err.
store() {
    put "$1" "$2" >out 2>err
    status=$?
}

# What a case has to leave: a status, the text on standard output, and a line on standard error or none.
leaves() {
    cases=$((cases + 1))
    [ "$status" -eq "$2" ] || wrong "$1: status $status, and not $2"
    printf '%s' "$3" | cmp -s - out || wrong "$1: other bytes on standard output"
    printf '%s' "${4:+$4
}" | cmp -s - err || wrong "$1: other text on standard error, and not '$4'"
}

# Says how many cases there were.
tell() {
    echo "tests/program/${0##*/}: $cases cases passed, $skipped skipped"
}
