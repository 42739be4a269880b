#!/bin/sh
# Shows that two builds of one commit make a program of the same bytes.
#
#   tests/system/same_build.sh [--record] [COMMIT]      the commit that is checked out where none is named
#   tests/system/same_build.sh [--record] SUM FILE      whether a program has a checksum, as another machine's build has it, or
#                                                       a versions.txt of clearing-evidence
#
# The commit is cloned into two new folders, of names of different length, and built in each by `./clearing`, one after another, from
# nothing: each build proves all that it stands on, which takes long. Prints the toolchain, the commit, and the checksum of each program; ends with
# 0 where they are the same, with 1 where they differ or a build fails, and with 2 where the words are not understood. Two
# machines compare by the lines that each prints. With --record what it ended with is a line of docs/runs.tsv.
unset CDPATH CLEARING
root=$(cd "$(dirname "$0")/../.." && pwd) || exit 2
sum_of() { sha256sum <"$1" | cut -d' ' -f1; }

recording=
if [ "${1:-}" = --record ]; then recording=yes && shift; fi
arguments=$*
told() { # what was found, the cases, the wrong ones
    echo "$1"
    if [ -n "$recording" ]; then . "$root/tests/system/record.sh" && record same_build.sh "$arguments" "$2" "$3"; fi
    [ "$3" = 0 ]
    exit
}

case "${1:-}" in
--help | -h) sed -n '2,12s/^# \{0,1\}//p' "$0" || exit 1; exit 0 ;;
-*) echo "same_build.sh: $1 is no commit" >&2; exit 2 ;;
esac
if [ $# -eq 2 ]; then
    [ -r "$2" ] || { echo "same_build.sh: cannot read $2" >&2; exit 2; }
    here=$(sum_of "$2")
    echo "$here  $2"
    program=$2
    [ "$here" != "$1" ] || told "the same" 1 0
    told "not the same: $1" 1 1
fi
[ $# -le 1 ] || { echo "same_build.sh: a commit, or a checksum and a file" >&2; exit 2; }
commit=$(git -C "$root" rev-parse --verify --quiet "${1:-HEAD}^{commit}") || { echo "same_build.sh: no commit $1" >&2; exit 2; }
work=$(mktemp -d) || exit 1
trap 'rm -rf "$work"' EXIT
trap 'exit 130' INT TERM
toolchain=$(rt version) || { echo "same_build.sh: the command rt of the toolchain is not on the path" >&2; exit 1; }
echo "toolchain: $toolchain"
echo "commit: $commit"
first=
for place in one another-place-with-a-longer-name; do
    git clone --quiet --no-checkout "$root" "$work/$place" && git -C "$work/$place" checkout --quiet "$commit" || exit 1
    (cd "$work/$place" && ./clearing check --banks examples/chain/banks.csv --debts examples/chain/debts.csv) >"$work/said.txt" 2>"$work/told.txt" ||
        { echo "the build in $place failed:"; tail -n 5 "$work/told.txt"; exit 1; }
    program=$work/$place/crates/clear_main/out/clear_main
    sum=$(sum_of "$program") || exit 1
    echo "$sum  $place, $(wc -c <"$program") bytes"
    if [ -z "$first" ]; then
        first=$sum
        # Only the program is kept of it: so the second build is from nothing, and there is room.
        rm -rf "$work/$place"
    fi
done
[ "$first" != "$sum" ] || told "the same bytes" 2 0
told "the programs differ" 2 1
