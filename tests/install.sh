#!/bin/sh
# Installs the program into a folder of its own, looks at what is there, runs it without the toolchain, and removes it again.
set -u
top=$(cd "$(dirname "$0")/.." && pwd -P) || exit 1
work=$(mktemp -d) || exit 1
trap 'rm -rf "$work"' EXIT

wrong() {
    echo "tests/install.sh: $1" >&2
    exit 1
}

key=a9993e364706816aba3e25717850c26c9cd0d89d
places="bin/dawsettee
share/bash-completion/completions/dawsettee
share/fish/vendor_completions.d/dawsettee.fish
share/man/man1/dawsettee.1
share/zsh/site-functions/_dawsettee"

# A file of another's that must stay.
mkdir -p "$work/pre fix/bin" || exit 1
echo other >"$work/pre fix/bin/other"
for turn in first second; do
    "$top/install.sh" "$work/pre fix" >"$work/said" || wrong "the $turn time it failed"
done
there=$(cd "$work/pre fix" && find . -type f ! -name other | sed 's,^\./,,' | sort)
[ "$there" = "$places" ] || wrong "other files are there: $there"
for place in $places; do
    grep -qF "installed $work/pre fix/$place" "$work/said" || wrong "it doesn't say that it installed $place"
done
grep -qF "$work/pre fix/bin" "$work/said" || wrong "it doesn't say what to add to the path"
[ -x "$work/pre fix/bin/dawsettee" ] || wrong "the program can't be run"

# The program needs no toolchain: an empty environment but for a path that has none.
run() {
    env -i PATH=/usr/bin:/bin HOME="$work/home" "$work/pre fix/bin/dawsettee" "$@"
}
[ "$(printf abc | run put --layout=folder $key)" = stored ] || wrong "what is installed doesn't put"
[ "$(run get --layout=folder $key)" = abc ] || wrong "what is installed doesn't get"
ldd "$work/pre fix/bin/dawsettee" | grep -v -e linux-vdso -e '/ld-linux' -e 'libc\.so' -e 'libm\.so' -e 'libpthread\.so' >"$work/libraries"
[ ! -s "$work/libraries" ] || wrong "it needs more than the C library: $(cat "$work/libraries")"

(cd "$work" && "$top/install.sh" --remove "pre fix") >"$work/said" || wrong "it can't be removed"
there=$(cd "$work/pre fix" && find . -type f)
[ "$there" = ./bin/other ] || wrong "after the removal these are there: $there"

for words in "--else" "a b" "--remove a b"; do
    # shellcheck disable=SC2086
    "$top/install.sh" $words >/dev/null 2>&1
    [ $? -eq 2 ] || wrong "it takes the words '$words'"
done
HOME="$work/home" "$top/install.sh" >"$work/said" || wrong "without a prefix it failed"
[ -x "$work/home/.local/bin/dawsettee" ] || wrong "without a prefix it isn't in ~/.local"
echo "tests/install.sh: installed, run, and removed"
