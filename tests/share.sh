#!/bin/sh
# Compares the tables in docs/COMMANDS.md with what the program's --help says, with the man page and with the completions: the same
# commands, the same options, and no other; the first two have the variables and statuses too, and say what isn't looked at yet.
set -u
LC_ALL=C
export LC_ALL

top=$(cd "$(dirname "$0")/.." && pwd -P) || exit 1
program=$top/crates/dawsettee/out/dawsettee
[ -x "$program" ] || program=$top/dawsettee
work=$(mktemp -d) || exit 1
trap 'rm -rf "$work"' EXIT
cd "$work" || exit 1

wrong() {
    echo "tests/share.sh: $1" >&2
    exit 1
}

# The words that begin with two dashes, each once, a line each.
options_in() {
    grep -oE -e '--[a-z][a-z-]*' | sort -u
}

# The two words that stand alone belong to every list of options.
alone() {
    printf '%s\n' --help --version
}

# Compares what a place says with the table, and says which lines differ.
same() {
    [ -s "$3" ] || wrong "$1: no $2 were found"
    diff "$2" "$3" >difference && return
    sed -n 's/^</    only in the table:/p; s/^>/    only there:/p' difference >&2
    wrong "$1: other $2 than in docs/COMMANDS.md"
}

# The table: a row for each command, its options in the second column.
sed -n 's/^| `\([a-z]*\)` | \([^|]*\)|.*/\1 \2/p' "$top/docs/COMMANDS.md" | tr -d '`' >table
cut -d ' ' -f 1 table | sort >commands
{ options_in <table; alone; } | sort -u >options
[ -s commands ] || wrong "docs/COMMANDS.md: no table was found"
sed -n 's/^| `\(--[a-z]*\)` .*/\1/p' "$top/docs/COMMANDS.md" | sort >told
{ cat told; alone; } | sort -u >told_all
same "the table of options in docs/COMMANDS.md" options told_all

# --help.
"$program" --help </dev/null >help || wrong "--help: it failed"
sed -n 's/^ *dawsettee \([a-z][a-z]*\).*/\1/p' help | sort -u >there
same "--help" commands there
options_in <help >there
same "--help" options there
while read -r command rest; do
    # Options stand in groups, whose heads name their commands.
    awk -v command="$command" '/^[^ ]/ { here = /^Options of / && $0 ~ "[ ]" command "[ ,:]" } here' help | sed -n 's/^  \(--[a-z]*\)=.*/\1/p' | sort -u >there
    echo "$rest" | options_in >wanted
    cmp -s wanted there || wrong "--help: other options of $command than in docs/COMMANDS.md"
done <table

sed -n 's/^| `\([A-Z_]*\)` | .*/\1/p' "$top/docs/COMMANDS.md" | sort >variables
sed -n 's/^  \([A-Z][A-Z_]*\)\( .*\)\{0,1\}$/\1/p' help | sort >there
same "--help" variables there
sed -n 's/^| \([0-9]*\) | \(`\([a-zA-Z -]*\).*`\)\{0,1\} *|.*/\1 \3/p' "$top/docs/COMMANDS.md" | sed 's/ $//' | sort >statuses
sed -n 's/^ *\([0-9][0-9]*\)  \(([a-z]*)\)\{0,1\}\([a-zA-Z -]*\).*/\1 \3/p' help | sed 's/   .*//; s/ *$//' | sort >there
same "--help" statuses there
sed -n 's/^| `\(--[a-z]*\)` .*not looked at yet.*/\1/p' "$top/docs/COMMANDS.md" | sort >unlooked
awk '/^  --/ { option = $1; sub("=.*", "", option) } /^[^ ]/ { option = "" } /looked at yet/ && option { print option }' help | sort >there
cmp -s unlooked there || wrong "--help: other options than in docs/COMMANDS.md aren't looked at yet"

# The man page. A dash is spelled with a backslash there.
sed 's/\\-/-/g' "$top/share/dawsettee.1" >man
sed -n 's/^\.B dawsettee \([a-z][a-z]*\)$/\1/p' man | sort -u >there
same "the man page" commands there
options_in <man >there
same "the man page" options there

section() {
    awk -v head=".SH $1" '/^\.SH / { here = ($0 == head || $0 == ".SH \"" substr(head, 5) "\"") } here' man
}
for name in FILES "EXIT STATUS" ENVIRONMENT EXAMPLES SECURITY; do
    [ "$(section "$name" | wc -l)" -gt 2 ] || wrong "the man page: there is no $name"
done
section ENVIRONMENT | grep '^\.BR\{0,1\} [A-Z]' | grep -oE '[A-Z]+_[A-Z_]+|HOME' | sort -u >there
same "the man page" variables there
section "EXIT STATUS" | awk '/^\.B [0-9]/ { code = $2; text = "" }
    /^\.BR / && code != "" && text == "" { sub("^\\.BR ", ""); sub(" :$", ""); gsub("\"", ""); text = " " $0 }
    /^\.TP/ && code != "" { print code text; code = "" } END { print code text }' | sort >there
same "the man page" statuses there
section OPTIONS | awk '/^\.BI --/ { option = $2; sub("=.*", "", option) } /looked at yet/ { print option }' | sort >there
cmp -s unlooked there || wrong "the man page: other options than in docs/COMMANDS.md aren't looked at yet"
if command -v man >/dev/null 2>&1; then
    man --warnings -l "$top/share/dawsettee.1" >pages 2>warnings </dev/null || wrong "the man page can't be shown"
    [ ! -s warnings ] || wrong "the man page: $(head -n 1 warnings)"
fi

# Examples: no get writes over a file that is put. A line that ends in a backslash goes on in the next.
for place in help man "$top/README.md"; do
    sed -e ':more' -e '/\\$/{N;s/\\\n//;b more' -e '}' "$place" >lines
    sed -n 's/.*dawsettee put .*< *\([a-z][a-z.]*\).*/\1/p' lines | sort -u >read
    sed -n 's/.*dawsettee get .*> *\([a-z][a-z.]*\).*/\1/p' lines | sort -u >written
    [ -s read ] && [ -s written ] || wrong "$place: no examples of put and get were found"
    [ -z "$(comm -12 read written)" ] || wrong "$place: an example writes a get over the file that was put"
done

# The completions. Fish has options without their dashes.
sed -n 's/^ *local commands="\([^"]*\)"$/\1/p' "$top/share/dawsettee.bash" | tr ' ' '\n' | sort >there
same "the completion for bash" commands there
options_in <"$top/share/dawsettee.bash" >there
same "the completion for bash" options there
while read -r command rest; do
    sed -n "s/^ *$command) options=\(.*\) ;;$/\1/p" "$top/share/dawsettee.bash" | options_in >there
    echo "$rest" | options_in >wanted
    cmp -s wanted there || wrong "the completion for bash: other options of $command than in docs/COMMANDS.md"
done <table

sed -n "s/^ *'\([a-z][a-z]*\):.*/\1/p" "$top/share/_dawsettee" | sort -u >there
same "the completion for zsh" commands there
options_in <"$top/share/_dawsettee" >there
same "the completion for zsh" options there

sed -n 's/^set -l commands \(.*\)/\1/p' "$top/share/dawsettee.fish" | tr ' ' '\n' | sort >there
same "the completion for fish" commands there
sed -n 's/^complete .* -l \([a-z][a-z-]*\).*/--\1/p' "$top/share/dawsettee.fish" | sort -u >there
same "the completion for fish" options there

echo "the table, --help, the man page and three completions agree"
