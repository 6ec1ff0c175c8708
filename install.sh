#!/bin/sh
# Installs the program, its man page and its completions: ./install.sh [PREFIX], by default ~/.local. It builds the program first
# where that is needed. ./install.sh --remove [PREFIX] takes away what it put there, and nothing else.
set -eu

fail() {
    echo "install.sh: $1" >&2
    exit 1
}

usage() {
    echo "usage: ./install.sh [PREFIX], or ./install.sh --remove [PREFIX]; PREFIX is ~/.local without it" >&2
    exit 2
}

top=$(CDPATH= cd -- "$(dirname -- "$0")" && pwd -P)
remove=no
case ${1-} in
--remove)
    remove=yes
    shift
    ;;
-*) usage ;;
esac
[ $# -le 1 ] || usage
if [ $# -eq 1 ]; then
    prefix=$1
else
    prefix=${HOME:?install.sh: HOME is not set, so a PREFIX is needed}/.local
fi
case $prefix in
"" | -*) usage ;;
/*) ;;
*) prefix=$PWD/$prefix ;;
esac

# Each file: where it is in the repository, its place below the prefix, and its mode.
files="crates/dawsettee/out/dawsettee bin/dawsettee 755
share/dawsettee.1 share/man/man1/dawsettee.1 644
share/dawsettee.bash share/bash-completion/completions/dawsettee 644
share/_dawsettee share/zsh/site-functions/_dawsettee 644
share/dawsettee.fish share/fish/vendor_completions.d/dawsettee.fish 644"

take_away() {
    echo "$files" | while read -r _ place _; do
        [ -e "$prefix/$place" ] || continue
        rm -f -- "$prefix/$place"
        echo "removed $prefix/$place"
    done
}

# A file is put beside its place first and gets its name when it is whole, so that a program that runs stays as it is.
put_there() {
    echo "$files" | while read -r from place mode; do
        mkdir -p -- "$(dirname -- "$prefix/$place")"
        cp -- "$top/$from" "$prefix/$place.new"
        chmod "$mode" "$prefix/$place.new"
        mv -f -- "$prefix/$place.new" "$prefix/$place"
        echo "installed $prefix/$place"
    done
}

if [ "$remove" = yes ]; then
    take_away
    exit 0
fi
"$top/dawsettee" --version </dev/null >/dev/null || fail "the program could not be built"
put_there
case ":${PATH-}:" in
*":$prefix/bin:"*) ;;
*) echo "add $prefix/bin to PATH to call it: export PATH=\"$prefix/bin:\$PATH\"" ;;
esac
case $prefix in
"${HOME-}/.local" | /usr | /usr/local) ;;
*) echo "man -M $prefix/share/man dawsettee shows the man page" ;;
esac
