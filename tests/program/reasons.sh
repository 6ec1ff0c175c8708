#!/bin/sh
# Tries what the built program says of why it failed. Each case runs a command three times: without DAWSETTEE_EXPLAIN and with an empty
# one, where standard error has the line of the fault alone, and with one that is set, where one more line says why.
. "$(dirname "$0")/cases.sh"

# Runs a command in a shell of its own, where a variable may be set, with its output and what it says of a fault in the files out and err.
tried() {
    : >out
    ("$@") >out 2>err </dev/null
    status=$?
}
explained() {
    export DAWSETTEE_EXPLAIN=$1
    shift
    "$@"
}

# A command that fails: its name, status, line of the fault, and why.
explains() {
    what=$1 code=$2 fault=$3 line=$4
    shift 4
    tried "$@"
    leaves "$what" "$code" "" "$fault"
    tried explained "" "$@"
    leaves "$what, with an empty variable" "$code" "" "$fault"
    tried explained 1 "$@"
    leaves "$what, explained" "$code" "" "$fault
dawsettee: $line"
}

# One of which no more is to be said.
is_plain() {
    tried "$@"
    cp err plain
    plain=$status
    tried explained 1 "$@"
    [ "$status" -eq "$plain" ] && cmp -s plain err || wrong "$*: with the variable it says something else"
    cases=$((cases + 1))
}

printf abc >abc
entry=$(entry_of $k1)
folder=${entry%/*}
mkdir -p "store/$folder"
abc_entry >"store/$entry"

# Words.
see="see dawsettee --help"
explains "a word that is no command" 2 "$usage" "'gte' is no command that is served; $see" "$program" gte $k1
explains "a command that isn't served" 2 "$usage" "'list' is no command that is served; $see" "$program" list
explains "help that isn't the only word" 2 "$usage" "'--help' is no command that is served; $see" "$program" --help get
explains "no words" 2 "$usage" "$see" "$program"
explains "a get without a key" 2 "$usage" "$see" "$program" get --layout=folder --root=store
explains "an option without its value" 2 "$usage" "$see" "$program" get $k1 --layout
# What stands after a word, and the word that is named.
names() {
    word=$1
    shift
    explains "the words '$*'" 2 "$usage" "'$word' can't stand there; $see" "$program" "$@"
}
names --layuot=folder get --layuot=folder --root=store $k1
names --limit=5 get --layout=folder --limit=5 $k1
names --layout=files get --root=store --layout=files $k1
names files get --root=store --layout files $k1
names --id=b get --id=a --id=b $k1
names --root= put --root= $k1
names -x put -x $k1
names - get - $k1
names -store get --root -store $k1
names $k2 get --layout=folder --root=store $k1 $k2
names $k1 key $k1
names now settings now
names --flags=x key --flags=x
names "$k2" get -- $k1 "$k2"
explains "a word that would end the line" 2 "$usage" "'g?t?[1m' is no command that is served; $see" "$program" "$(printf 'g\nt\033[1m')"
explains "a word that isn't UTF-8" 2 "$usage" "$see" "$program" get "$(printf '\377')"

# A layout that isn't built.
by_default() {
    HOME=$work "$program" put $k1
}
built="the layout folder is built: --layout=folder"
explains "the layout that stands for none" 17 "layout not built" "$built" by_default
explains "a layout that isn't built" 17 "layout not built" "$built" "$program" get --layout=foz --root=store $k1

# Files.
mkdir -p "folders/$entry"
explains "a get below a plain file" 7 "files fault" "abc/$entry: Not a directory" get abc $k1
explains "a put below a plain file" 7 "files fault" "abc/$entry: Not a directory" put abc $k1
explains "a get where a folder stands" 7 "files fault" "folders/$entry: Is a directory" get folders $k1
explains "a put where a folder stands" 7 "files fault" "folders/$entry: Is a directory" put folders $k1
mkdir -p "named/$folder/lock"
explains "a put whose lock is a folder" 7 "files fault" "named/$folder/lock: Is a directory" put named $k1
long=$(printf '%0300d' 0)
explains "a name that is too long" 7 "files fault" "$long/$entry: File name too long" get "$long" $k1
explains "a root that would end the line" 7 "files fault" "abc/?/$entry: Not a directory" get "$(printf 'abc/\001')" $k1

# Files that need rights: by a user without any, where this one has all. The user has a program of its own, since it may not reach this one.
user=
if [ "$(id -u)" -eq 0 ]; then
    user="setpriv --reuid=65534 --regid=65534 --clear-groups"
fi
cp "$program" reached && chmod 755 . reached
as_user() {
    # shellcheck disable=SC2086
    $user "$work/reached" "$@"
}
mkdir -p shut "unread/$folder" && chmod 755 shut unread "unread/$folder"
abc_entry >"unread/$entry" && chmod 0 "unread/$entry"
if ! (as_user --version) >/dev/null 2>&1; then
    skip "files that need rights" "no other user can run the program here"
elif (as_user get --layout=folder --root=unread $k1) >/dev/null 2>&1; then
    skip "files that need rights" "this user reads every file"
else
    [ -n "$user" ] || chmod a-w shut
    explains "a put into a folder without rights" 7 "files fault" "shut/$folder/lock: Permission denied" \
        as_user put --id=d --gpu=g --layout=folder --root=shut $k1
    explains "a get of an entry without rights" 7 "files fault" "unread/$entry: Permission denied" \
        as_user get --id=d --gpu=g --layout=folder --root=unread $k1
    chmod u+w shut
fi

# Streams.
of_closed_input() {
    put puts $k1 <&-
}
of_folder_input() {
    put puts $k1 <store
}
explains "a put of a closed input" 5 "read fault" "standard input: Bad file descriptor" of_closed_input
explains "a put of a folder" 5 "read fault" "standard input: Is a directory" of_folder_input
to_closed_output() {
    get store $k1 >&-
}
explains "a closed output" 6 "write fault" "standard output: Bad file descriptor" to_closed_output
to_full_output() {
    "$@" >/dev/full
}
if [ -c /dev/full ]; then
    explains "a full output" 6 "write fault" "standard output: No space left on device" to_full_output get store $k1
    explains "help to a full output" 6 "write fault" "standard output: No space left on device" to_full_output "$program" --help
else
    skip "a full output" "there is no /dev/full"
fi
if mkfifo pipe 2>/dev/null; then
    # The reader opens the pipe and goes; what is written then has no reader.
    to_left_output() {
        : <pipe &
        exec 4>pipe
        wait
        get store $k1 >&4 4>&-
    }
    explains "a reader that has gone" 6 "write fault" "standard output: Broken pipe" to_left_output
else
    skip "a reader that has gone" "no pipe can be made here"
fi

# A full disk, which is there for one command alone.
head -c 100000 /dev/urandom >large
mkdir small
disk=
for how in -m -rm; do
    [ -n "$disk" ] || ! unshare $how mount -t tmpfs -o size=64k none small 2>/dev/null || disk=$how
done
on_small_disk() {
    # shellcheck disable=SC2016
    unshare "$disk" sh -c 'mount -t tmpfs -o size=64k none small && exec "$0" "$@" <large' \
        "$program" put --id=d --gpu=g --layout=folder --root=small $k1
}
if [ -n "$disk" ]; then
    explains "a full disk" 7 "files fault" "small/$entry.tmp: No space left on device" on_small_disk
else
    skip "a full disk" "none can be made here"
fi

# What has no more to be said, and what doesn't fail.
is_plain get store $k1
is_plain get store $other
is_plain get store x
is_plain put puts $k1
is_plain "$program" --version
is_plain "$program" settings

# A terminal asks for the reason by itself.
if command -v script >/dev/null 2>&1; then
    script -qec "'$program' get --id=d --gpu=g --layout=folder --root=abc $k1" /dev/null >seen 2>&1 </dev/null
    status=$?
    tr -d '\r' <seen >out
    : >err
    leaves "a fault on a terminal" 7 "files fault
dawsettee: abc/$entry: Not a directory
" ""
    script -qec "'$program' get --id=d --gpu=g --layout=folder --root=abc $k1 2>err" /dev/null >seen 2>&1 </dev/null
    status=$?
    tr -d '\r' <seen >out
    leaves "a fault whose standard error is no terminal" 7 "" "files fault"
else
    skip "a fault on a terminal" "there is no command script"
fi

tell
