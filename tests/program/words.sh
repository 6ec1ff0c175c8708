#!/bin/sh
# Tries the words, the variables and the texts of the built program. No variable that it reads is set but where a case sets it.
. "$(dirname "$0")/cases.sh"

unset MESA_SHADER_CACHE_DISABLE MESA_DISK_CACHE_MULTI_FILE MESA_DISK_CACHE_SINGLE_FILE MESA_SHADER_CACHE_DIR XDG_CACHE_HOME HOME
unset MESA_SHADER_CACHE_MAX_SIZE MESA_DISK_CACHE_READ_ONLY_FOZ_DBS MESA_DISK_CACHE_READ_ONLY_FOZ_DBS_DYNAMIC_LIST
printf abc >abc
printf xyz >xyz
mkdir -p "store/$(entry_of $k1 | cut -c 1-2)"
abc_entry >"store/$(entry_of $k1)"

# The same with a variable or more before the program's words, as `with A=1 B=2 -- get KEY`.
with() {
    (
        while [ "$1" != -- ]; do
            export "${1?}"
            shift
        done
        shift
        exec "$program" "$@" >out 2>err
    )
    status=$?
}

# Words without a reading.
unread() {
    try "$@" </dev/null
    leaves "the words '$*'" 2 "" "$usage"
}
unread
unread get
unread put
unread gets --layout=folder --root=store $k1
unread get --layout=folder --root=store
unread get --layout=folder --root=store $k1 $k1
unread get --layout=folder --root= $k1
unread get --layout= --root=store $k1
unread get --layout=folder --root=store --id= $k1
unread get --id=a --id=b --layout=folder --root=store $k1
unread get --layout=folder --root=store --root store $k1
unread get --layout=files --root=store $k1
unread get --layout=folder --root=store --limit=5 $k1
unread get --layout=folder --root=store --meta=$k2 $k1
unread get --layout=folder --root=store --flags=x $k1
unread get --layout=folder --root=store --flags=18446744073709551616 $k1
unread get --layout=folder --root=store --roots=x $k1
unread get --layout=folder --root=store -x $k1
unread put -x $k1
unread get --layout=folder --root=store - $k1
unread get --layout=folder --root -store $k1
unread get --layout=folder --root
unread put --limit=1099511627777 --layout=folder --root=store $k1
unread put --limit=-1 --layout=folder --root=store $k1
unread key $k1
unread key --root=store
unread settings now
unread settings --layout=folder
unread --help now
unread --version --help
for command in "mark $k1" "has $k1" list verify "trim 5" batch "drill 0 1"; do
    # shellcheck disable=SC2086
    unread $command
done
try get --layout=folder --root=store "$(printf '\377')" </dev/null
leaves "a word that isn't UTF-8" 2 "" "$usage"

# Options in both forms, in any order, before and after the key.
found() {
    try "$@" </dev/null
    leaves "the words '$*'" 0 abc ""
}
found get --id=d --gpu=g --layout=folder --root=store $k1
found get --id d --gpu g --layout folder --root store $k1
found get --root=store --layout folder --gpu=g --id d $k1
found get $k1 --id=d --gpu=g --layout=folder --root=store
found get --id=d $k1 --gpu=g --layout=folder --root=store
found get --id=d --gpu=g --flags=0 --layout=folder --root=store $k1
found get --id=d --gpu=g --flags 00 --layout=folder --root=store $k1
found get --id=d --gpu=g --layout=folder --root=store -- $k1
found get --id=d --gpu=g --layout=folder --root="$work/store" "$(echo $k1 | tr a-f A-F)"
missed() {
    try "$@" </dev/null
    leaves "the words '$*'" 1 "" miss
}
missed get --id=d --gpu=h --layout=folder --root=store $k1
missed get --id=d --gpu=g --flags=1 --layout=folder --root=store $k1
missed get --layout=folder --root=store $k1

# Keys without 40 digits.
for key in "${k1%?}" "${k1}0" "${k1%?}g" ""; do
    try get --id=d --gpu=g --layout=folder --root=store "$key" </dev/null
    leaves "the key '$key'" 3 "" "bad key"
done
try get --layout=folder --root=store -- -x </dev/null
leaves "a key that begins with a dash" 3 "" "bad key"
try put --layout=folder --root=puts --meta=$k1,x $k2 <abc
leaves "a bad key among those of a blob" 3 "" "bad key"
[ ! -e puts ] || wrong "a bad key among those of a blob: a folder was made"

# Puts with every option.
try put --id d --gpu=g --flags=0 --root puts --layout=folder --limit=1000 --meta $k2 $k1 <abc
leaves "a put with every option" 0 "$stored" ""
[ "$(wc -c <"puts/$(entry_of $k1)")" -eq 53 ] || wrong "a put with every option: the entry has another length"
try get --id=d --gpu=g --root=puts --layout=folder $k1 </dev/null
leaves "a hit of a put with every option" 0 abc ""
try put --id=d --gpu=g --root=puts --layout=folder --limit=1099511627776 $k1 <xyz
leaves "a put under a key that is there, with the greatest limit" 0 "$kept" ""
for layout in database foz; do
    try put --layout=$layout --root=none $k1 <abc
    leaves "a put in the layout $layout" 17 "" "layout not built"
    try get --layout=$layout --root=none $k1 </dev/null
    leaves "a lookup in the layout $layout" 17 "" "layout not built"
done
try get --layout=foz --root=none x </dev/null
leaves "a layout that isn't built before a bad key" 17 "" "layout not built"
[ ! -e none ] || wrong "a layout that isn't built: a folder was made"

# Keys of contents: SHA-1 of the driver's bytes and the content, by another program.
digits() {
    sha1sum | cut -d ' ' -f 1
}
of_abc=$({ front | head -c 14; cat abc; } | digits)
try key --id=d --gpu=g <abc
leaves "a key" 0 "$of_abc
" ""
try key --gpu g --id d --flags 0 <abc
leaves "a key by options in the other form" 0 "$of_abc
" ""
of_none=$({ printf '\001mesa\000generic\000\010'; head -c 8 /dev/zero; } | digits)
try key </dev/null
leaves "a key of no bytes for the driver that stands for none" 0 "$of_none
" ""
of_flags=$({ printf '\001d\000g\000\010\001\002'; head -c 6 /dev/zero; cat abc; } | digits)
try key --id=d --gpu=g --flags=513 <abc
leaves "a key with flags" 0 "$of_flags
" ""
head -c 16777216 /dev/zero >most
of_most=$({ front | head -c 14; cat most; } | digits)
try key --id=d --gpu=g <most
leaves "a key of the largest content" 0 "$of_most
" ""
printf x >>most
try key --id=d --gpu=g <most
leaves "a key of a byte more" 8 "" "too large: 16777217"
rm most
try key <&-
leaves "a key of a closed input" 5 "" "read fault"
with MESA_SHADER_CACHE_DISABLE=1 -- key --id=d --gpu=g <abc
leaves "a key while the cache is off" 0 "$of_abc
" ""

# Settings.
shows() {
    what=$1
    shift
    text=$(printf '%s\n' "$@")
    leaves "$what" 0 "$text
" ""
}
with HOME=/home/u -- settings </dev/null
shows "settings" "root /home/u/.cache/mesa_shader_cache_db" "layout database" "max 1073741824" "read-only -" "list -"
with HOME=/home/u XDG_CACHE_HOME=/cache MESA_DISK_CACHE_MULTI_FILE=Yes MESA_SHADER_CACHE_MAX_SIZE=512M -- settings </dev/null
shows "settings of a folder" "root /cache/mesa_shader_cache" "layout folder" "max 536870912" "read-only -" "list -"
with MESA_SHADER_CACHE_DIR=/a XDG_CACHE_HOME=/cache MESA_DISK_CACHE_SINGLE_FILE=t MESA_DISK_CACHE_READ_ONLY_FOZ_DBS=a,b,a,.c \
    MESA_DISK_CACHE_READ_ONLY_FOZ_DBS_DYNAMIC_LIST=/l -- settings </dev/null
shows "settings of a single file" "root /a/mesa_shader_cache_sf" "layout foz" "max 1073741824" "read-only a,b" "list /l"
with HOME= -- settings </dev/null
leaves "settings without a folder" 12 "" "no cache folder"
with HOME=/home/u "XDG_CACHE_HOME=$(printf '/\377')" -- settings </dev/null
shows "settings with a variable that isn't UTF-8" "root /home/u/.cache/mesa_shader_cache_db" "layout database" "max 1073741824" "read-only -" "list -"
with HOME=/home/u MESA_SHADER_CACHE_DISABLE=TRUE -- settings </dev/null
leaves "settings while the cache is off" 9 "" "cache is off"
with HOME=/home/u MESA_DISK_CACHE_READ_ONLY_FOZ_DBS=a,b,c,d,e,f,g,h,i -- settings </dev/null
leaves "nine read-only databases" 14 "" "too many read-only databases: 9"

# Stores by the variables, and options in their place.
with HOME="$work/home" MESA_DISK_CACHE_MULTI_FILE=1 -- put --id=d --gpu=g $k1 <abc
leaves "a put by the variables" 0 "$stored" ""
abc_entry | cmp -s - "home/.cache/mesa_shader_cache/$(entry_of $k1)" || wrong "a put by the variables: no such entry"
with HOME="$work/home" MESA_DISK_CACHE_MULTI_FILE=1 -- get --id=d --gpu=g $k1 </dev/null
leaves "a hit by the variables" 0 abc ""
with HOME="$work/home" -- get --id=d --gpu=g --layout=folder $k1 </dev/null
leaves "a hit by a layout in place of the variables'" 0 abc ""
with HOME="$work/home" -- get --id=d --gpu=g $k1 </dev/null
leaves "a lookup in the layout that stands for none" 17 "" "layout not built"
with MESA_SHADER_CACHE_DISABLE=y -- get --id=d --gpu=g --layout=folder --root=store $k1 </dev/null
leaves "a lookup while the cache is off" 9 "" "cache is off"
try get --layout=folder $k1 </dev/null
leaves "a lookup without a folder" 12 "" "no cache folder"
try get --layout=foz x </dev/null
leaves "no folder before a layout that isn't built" 12 "" "no cache folder"
with MESA_DISK_CACHE_READ_ONLY_FOZ_DBS=a,b,c,d,e,f,g,h,i -- get --layout=foz --root=store x </dev/null
leaves "nine read-only databases before a layout that isn't built" 14 "" "too many read-only databases: 9"

# The program's own texts.
try --version </dev/null
[ "$status" -eq 0 ] || wrong "--version: status $status"
[ "$(cat out)" = "dawsettee $(sed -n 's/^.*"dawsettee \([0-9.]*\)\\n".*$/\1/p' "$top"/crates/dawsettee/src/*.rt | head -n 1)" ] || wrong "--version: another text"
cases=$((cases + 1))
try --help </dev/null
[ "$status" -eq 0 ] && [ ! -s err ] || wrong "--help: status $status, or text on standard error"
[ "$(head -n 1 out)" = "dawsettee: a disk cache for compiled shaders" ] || wrong "--help: another text"
cases=$((cases + 1))
cp out help
for word in -h help; do
    try $word </dev/null
    [ "$status" -eq 0 ] && cmp -s out help || wrong "$word: status $status, or another text than that of --help"
    cases=$((cases + 1))
done
try -V </dev/null
[ "$status" -eq 0 ] && [ "$(cat out)" = "$("$program" --version)" ] || wrong "-V: status $status, or another text than that of --version"
cases=$((cases + 1))
for words in "-h get" "help get" "-V now"; do
    # shellcheck disable=SC2086
    unread $words
done
if [ -c /dev/full ]; then
    for word in --help --version; do
        "$program" $word </dev/null >/dev/full 2>err
        status=$?
        : >out
        leaves "$word to an output that is full" 6 "" "write fault"
    done
fi

tell
