#!/bin/sh
# Removes what builds left, and says how much: crates/*/out of this repository, and what ./first-look keeps.
#
#   tools/dev/clean.sh [--dry-run]     with --dry-run it removes nothing, and says what it would remove
#
# Out:  a line for each folder, and last one with the sum: megabytes of 1,048,576 bytes, as they stand on the disk.
#
# It asks nothing. What ./first-look keeps is the folder clearing-first-look in $XDG_CACHE_HOME, else in ~/.cache. Nothing else is
# touched: where one of these folders, or one that it stands in below the repository, is a link, it is left, and so is what links
# inside name. While ./clearing or ./first-look builds, nothing is removed.
#
# Ends with 0, with 1 where something cannot be removed or a build is going on, and with 2 where the words are not understood.

# Of the path the absolute entries alone count: no command is one that the working folder has.
set -f; IFS=: path=; for entry in $PATH; do case $entry in /*) path=$path:$entry ;; esac; done
PATH=${path#:} && export PATH; unset IFS; set +f

dry=
case $#:${1:-} in
0:) ;;
1:--dry-run) dry=yes ;;
1:--help | 1:-h)
    sed -n '2,12s/^# \{0,1\}//p' "$0" || exit 1
    exit 0
    ;;
*)
    echo "clean.sh: error: the only word is --dry-run" >&2
    exit 2
    ;;
esac
unset CDPATH
root=$(realpath -- "$(dirname -- "$(realpath -- "$0")")/../..")
cd -- "$root" || exit 1
case "${XDG_CACHE_HOME:-}:${HOME:-}" in
/*:*) kept=$XDG_CACHE_HOME/clearing-first-look ;;
*:/*) kept=$HOME/.cache/clearing-first-look ;;
*) kept= ;;
esac

fail() {
    echo "clean.sh: error: $1" >&2
    exit 1
}

# Whether a folder is there to be removed; one that is a link, or whose parents here are, is told and left.
is_there() { # the folder, and those that it stands in
    for part in "$@"; do
        if [ -h "$part" ]; then
            [ ! -e "$1" ] || echo "left: $part is a link" >&2
            return 1
        fi
    done
    [ -d "$1" ]
}

# A build holds its lock until it ends.
no_build_in() { # the file of the lock
    [ ! -f "$1" ] || flock -n "$1" true || fail "a build is going on, by $1"
}

set --
for crate in crates/*; do
    if is_there "$crate/out" "$crate" crates; then set -- "$@" "$crate/out"; fi
done
if [ -n "$kept" ] && is_there "$kept"; then
    no_build_in "$kept/lock"
    set -- "$@" "$kept"
fi
if is_there crates/clear_main/out crates/clear_main crates 2>/dev/null; then no_build_in crates/clear_main/out/build.lock; fi
sum=0
if [ $# -gt 0 ]; then
    # In one call, so that a file with several names counts once.
    du -skc -- "$@" | awk -F '\t' '$2 != "total" { printf "%8.1f MB  %s\n", $1 / 1024, $2 }'
    sum=$(du -skc -- "$@" | tail -n 1 | cut -f 1)
    [ -n "$dry" ] || rm -rf -- "$@" || fail "not all could be removed"
fi
said=removed
[ -z "$dry" ] || said="would remove"
echo "$sum $# $said" | awk '{ printf "%s%s %.1f MB in %d folder%s\n", $3, $4 ? " " $4 : "", $1 / 1024, $2, $2 == 1 ? "" : "s" }'
