#!/bin/sh
# Tries lookups and puts of the built program in a folder store, with files, inputs and outputs as they can be: their status and bytes.
. "$(dirname "$0")/cases.sh"

# What a case has to leave. No case changes the entry of the first key.
holds() {
    leaves "$@"
    cmp -s entry "store/$(entry_of $k1)" || wrong "$1: the entry's file was changed"
}

for key in $k1 $k2 $other; do
    mkdir -p "store/$(entry_of $key | cut -c 1-2)" || exit 1
done
abc_entry >entry
abc_entry >"store/$(entry_of $k1)"
[ "$(wc -c <entry)" -eq 29 ] || wrong "the entry of this script has another length"

# Hits.
look store $k1
holds "a hit" 0 abc ""
look "$work/store" $k1
holds "a hit below a root with a whole path" 0 abc ""
look store "$(echo $k1 | tr a-f A-F)"
holds "a hit by upper-case digits" 0 abc ""
empty_entry >"store/$(entry_of $k2)"
look store $k2
holds "a hit of no bytes" 0 "" ""
mkdir -p "a store/$(entry_of $k1 | cut -c 1-2)"
abc_entry >"a store/$(entry_of $k1)"
look "a store" $k1
holds "a hit below a root with a space in its name" 0 abc ""
chmod a-w "a store/$(entry_of $k1)"
look "a store" $k1
holds "a hit in a file that can't be written" 0 abc ""

# Misses.
look store $other
holds "a miss" 1 "" miss
look absent $k1
holds "a miss below a root that isn't there" 1 "" miss
[ ! -e absent ] || wrong "a miss below a root that isn't there: the folder was made"
try get --id=e --gpu=g --layout=folder --root=store $k1 </dev/null
holds "a miss for another driver" 1 "" miss
try get --layout=folder --root=store $k1 </dev/null
holds "a miss for the driver that stands for none" 1 "" miss
abc_entry | head -c 28 >"store/$(entry_of $k2)"
look store $k2
holds "an entry without its last byte" 1 "" miss
{ abc_entry | head -c 28; printf b; } >"store/$(entry_of $k2)"
look store $k2
holds "an entry with another last byte" 1 "" miss
{ abc_entry; printf d; } >"store/$(entry_of $k2)"
look store $k2
holds "an entry with a byte more" 1 "" miss
: >"store/$(entry_of $k2)"
look store $k2
holds "an entry of no bytes" 1 "" miss

# Files that fail.
rm "store/$(entry_of $k2)" && mkdir "store/$(entry_of $k2)"
look store $k2
holds "an entry that is a folder" 7 "" "files fault"
look entry $k1
holds "a root that is a plain file" 7 "" "files fault"
chmod 0 "a store/$(entry_of $k1)"
if cat "a store/$(entry_of $k1)" >/dev/null 2>&1; then
    skip "an entry that can't be read" "this user reads every file"
else
    look "a store" $k1
    holds "an entry that can't be read" 7 "" "files fault"
fi

# Outputs that fail. The program's own files must not come to stand where a closed stream stood.
: >out
if [ -c /dev/full ]; then
    get store $k1 </dev/null >/dev/full 2>err
    status=$?
    holds "an output that is full" 6 "" "write fault"
    : >err
    get store $k1 </dev/null >/dev/full 2>&-
    status=$?
    holds "an output that is full, with standard error closed" 6 "" ""
else
    skip "an output that is full" "there is no /dev/full"
fi
get store $k1 </dev/null >&- 2>err
status=$?
holds "a closed output" 6 "" "write fault"
get store $k1 <&- >&- 2>err
status=$?
holds "a closed input and a closed output" 6 "" "write fault"
: >err
get store $k1 <&- >&- 2>&-
status=$?
holds "all three closed" 6 "" ""
if mkfifo pipe 2>/dev/null; then
    # The reader opens the pipe and goes; what is written then has no reader.
    : <pipe &
    exec 4>pipe
    wait
    get store $k1 </dev/null >&4 2>err 4>&-
    status=$?
    exec 4>&-
    holds "a reader that has gone" 6 "" "write fault"
else
    skip "a reader that has gone" "no pipe can be made here"
fi

# While the program works, the numbers of closed streams are held, so that no file of the store gets one.
if [ -e /proc/self/fd/0 ] && mkfifo source 2>/dev/null; then
    : >err
    (exec "$program" put --id=d --gpu=g --layout=folder --root=puts $k1 <source >&- 2>&-) &
    putting=$!
    exec 4>source
    waits=0
    until [ "$(readlink /proc/$putting/fd/1) $(readlink /proc/$putting/fd/2)" = "/dev/null /dev/null" ] || [ $waits -eq 50 ]; do
        waits=$((waits + 1))
        sleep 0.1
    done
    printf abc >&4
    exec 4>&-
    wait $putting
    status=$?
    holds "a put with a closed output that waits for its input" 6 "" ""
    [ $waits -lt 50 ] || wrong "a put with a closed output that waits for its input: the numbers of closed streams are free"
    abc_entry | cmp -s - "puts/$(entry_of $k1)" || wrong "a put with a closed output that waits for its input: the entry has other bytes"
    rm -r puts
else
    skip "a put with a closed output that waits for its input" "there is no /proc, or no pipe can be made here"
fi

# Streams that a lookup doesn't need.
get store $k1 <&- >out 2>err
status=$?
holds "a hit with a closed input" 0 abc ""
: >err
get store $k1 </dev/null >out 2>&-
status=$?
holds "a hit with standard error closed" 0 abc ""
get store $other </dev/null >out 2>&-
status=$?
holds "a miss with standard error closed" 1 "" ""

# Puts.
printf abc >abc
: >empty
store puts $k1 <abc
holds "a put" 0 "$stored" ""
abc_entry | cmp -s - "puts/$(entry_of $k1)" || wrong "a put: the entry has other bytes"
[ ! -e "puts/$(entry_of $k1).tmp" ] || wrong "a put: its temporary file is left"
look puts $k1
holds "a hit of what was put" 0 abc ""
printf xyz >xyz
store puts $k1 <xyz
holds "a put under a key that is there" 0 "$kept" ""
abc_entry | cmp -s - "puts/$(entry_of $k1)" || wrong "a put that was kept: the entry was changed"
store puts $k2 <empty
holds "a put of no bytes" 0 "$stored" ""
empty_entry | cmp -s - "puts/$(entry_of $k2)" || wrong "a put of no bytes: the entry has other bytes"
look puts $k2
holds "a hit of no bytes that were put" 0 "" ""
try put --id=e --gpu=g --layout=folder --root=puts $k1 <xyz
holds "a put over another driver's entry" 0 "$stored" ""
look puts $k1
holds "a miss for the driver whose entry went" 1 "" miss
{ printf a; sleep 1; printf b; sleep 1; printf c; } | put puts $other >out 2>err
status=$?
holds "a put from a pipe that comes in pieces" 0 "$stored" ""
abc_entry | cmp -s - "puts/$(entry_of $other)" || wrong "a put from a pipe: the entry has other bytes"
rm -r puts
store puts $k1 <&-
holds "a put of a closed input" 5 "" "read fault"
[ ! -e puts ] || wrong "a put of a closed input: a folder was made"
store puts $k1 <store
holds "a put of a folder" 5 "" "read fault"
store entry $k1 <abc
holds "a put below a plain file" 7 "" "files fault"
mkdir -p "puts/$(entry_of $k1)"
store puts $k1 <abc
holds "a put where a folder stands" 7 "" "files fault"
rm -r puts
if [ -c /dev/full ]; then
    put puts $k1 <abc >/dev/full 2>err
    status=$?
    : >out
    holds "a put whose output is full" 6 "" "write fault"
    look puts $k1
    holds "a hit of a put whose output was full" 0 abc ""
    rm -r puts
fi

# A lock that another process has.
if command -v flock >/dev/null 2>&1; then
    lock=puts/$(entry_of $k1 | cut -c 1-2)/lock
    mkdir -p "${lock%/*}"
    : >"$lock"
    mkfifo held 2>/dev/null
    # The lock is that process's own, and goes with it.
    flock -o "$lock" sh -c 'echo taken >held; exec sleep 5' &
    holder=$!
    read -r taken <held
    store puts $k1 <abc
    holds "a put while another process has the lock" 4 "" "busy"
    [ ! -e "puts/$(entry_of $k1)" ] && [ ! -e "puts/$(entry_of $k1).tmp" ] || wrong "a put that was busy: a file is left"
    store puts $other <abc
    holds "a put in another folder while the lock is held" 0 "$stored" ""
    kill $holder
    wait $holder 2>/dev/null
    store puts $k1 <abc
    holds "a put once the process that had the lock was killed" 0 "$stored" ""
    rm -r puts
else
    skip "a put while another process has the lock" "there is no flock"
fi

# A folder without rights.
mkdir -p shut && chmod a-w shut
if (: >shut/probe) 2>/dev/null; then
    rm -f shut/probe
    skip "a put into a folder without rights" "this user writes everywhere"
else
    store shut $k1 <abc
    holds "a put into a folder without rights" 7 "" "files fault"
    look shut $k1
    holds "a miss in a folder without rights" 1 "" miss
fi
chmod a+w shut

# Small and large blobs, by the launcher.
through() {
    "$top/dawsettee" "$1" --id=d --gpu=g --layout=folder --root=puts $k1
}
for size in 5120 16777216; do
    head -c $size /dev/urandom >blob
    through put <blob >out 2>err
    status=$?
    holds "a put of $size bytes" 0 "$stored" ""
    through get </dev/null >back 2>err || wrong "a lookup of $size bytes: it failed"
    cmp -s blob back || wrong "a lookup of $size bytes: other bytes came back"
    rm -r puts
done
printf x >>blob
store puts $k1 <blob
holds "a put of a byte more than there can be" 8 "" "too large: 16777217"
[ ! -e puts ] || wrong "a put of a byte more than there can be: a folder was made"

# A write that is cut short leaves the old entry whole.
head -c 5120 blob >part
mkdir -p "puts/$(entry_of $k1 | cut -c 1-2)"
{ printf '\001e\000g\000\010'; abc_entry | tail -c +7; } >old
for signal in ignored taken; do
    cp old "puts/$(entry_of $k1)"
    (
        ulimit -f 1 || exit 99
        [ $signal = taken ] || trap '' XFSZ
        put puts $k1 <part >out 2>err
    ) 2>/dev/null
    status=$?
    if [ $status -eq 99 ]; then
        skip "a write that is cut short" "no limit can be set here"
        break
    fi
    case $signal in
    ignored) holds "a put that runs into a limit" 7 "" "files fault" ;;
    taken)
        [ $status -gt 128 ] || wrong "a put that runs into a limit and its signal: status $status"
        [ -s "puts/$(entry_of $k1).tmp" ] || wrong "a put that was killed: there is no temporary file"
        ;;
    esac
    cmp -s old "puts/$(entry_of $k1)" || wrong "a write that is cut short, its signal $signal: the old entry was changed"
    store puts $k1 <part
    holds "a put after a write that was cut short, its signal $signal" 0 "$stored" ""
    look puts $k1
    cmp -s part out || wrong "a lookup after a write that was cut short: other bytes came back"
    [ ! -e "puts/$(entry_of $k1).tmp" ] || wrong "a put after a write that was cut short: its temporary file is left"
done
rm -r puts

# What a killed put leaves goes by the line of README and man page, once it is old, and nothing else does.
line=$(sed -n 's/^ *\(find cache .*\)/\1/p' "$top/README.md")
[ -n "$line" ] && [ "$(sed -n 's/\\-/-/g; s/^find cache /&/p' "$top/share/dawsettee.1")" = "$line" ] || wrong "the line that removes temporary files isn't the same in README and man page"
store cache $k1 <abc
holds "a put beside temporary files" 0 "$stored" ""
temp=cache/$(entry_of $k1).tmp
cp part "$temp"
sh -c "$line" </dev/null
[ -e "$temp" ] || wrong "a temporary file that was written just now is removed"
find cache -exec touch -t 202001010000 {} +
find cache ! -path "$temp" | sort >before
sh -c "$line" </dev/null
find cache | sort >after
cmp -s before after || wrong "the line that removes temporary files leaves them, or removes other files"
cases=$((cases + 1))
rm -r cache

tell
