#!/bin/sh
# Where the time of a build goes: how long each crate takes to be proved from nothing, and its library to be made.
#
#   bench/build.sh [--tests] [--edits] [--slow N] [CRATE..]
#
# In:   crates of crates.txt, or none for all. With --tests the proofs of each crate's tests are measured too, with --edits its edits that
#       must be refused. With --slow N the N functions and files of lemmas of each crate that took longest are told below its line, with
#       their seconds.
# Out:  a line for each crate, lowest first: what was done, seconds, processor seconds, the most memory in MB, and lines of code and of
#       proofs; and a line with the sums. Crates below those that are named are built first and not told. Last, where more than proofs
#       were measured, a table as tools/dev/gate.py has it: minutes of a processor by crate, for proofs with libraries, tests and edits.
#
# Works on a copy of the sources in a temporary folder, one job at a time, and leaves the repository's own work alone. A check begins
# with what checks in other checkouts on this machine kept: that is hidden from this run, where mounts of its own are allowed. Else a
# star marks what was not measured from nothing. Wants GNU time (Debian's package time).
# Ends with 0, with 1 where a proof fails, and with 2 where the words are not understood.
case "${1:-}" in
--help | -h)
    sed -n '2,16s/^# \{0,1\}//p' "$0" || exit 1
    exit 0
    ;;
esac
unset CDPATH
root=$(dirname -- "$(dirname -- "$(realpath -- "$0")")")

fail() {
    echo "build.sh: error: $1" >&2
    exit "${2:-1}"
}

tests=
edits=
slow=
named=
for word in "$@"; do
    if [ "$slow" = next ]; then
        case $word in '' | *[!0-9]*) fail "--slow takes a number" 2 ;; esac
        slow=$word
        continue
    fi
    case $word in
    --tests) tests=yes ;;
    --edits) edits=yes ;;
    --slow) slow=next ;;
    -*) fail "no option $word" 2 ;;
    *)
        grep -q "^$word\( staticlib\)\{0,1\}:" "$root/crates.txt" || fail "no crate $word in crates.txt" 2
        named="$named $word"
        ;;
    esac
done
[ "$slow" != next ] || fail "--slow takes a number" 2
command -v rt >/dev/null 2>&1 || fail "the command rt of the toolchain is not on the path"
[ -x /usr/bin/time ] || fail "/usr/bin/time is missing (Debian's package time)"

# Kept work is hidden by an empty folder over it, which this run alone sees.
kept=$(dirname -- "$(dirname -- "$(rt doc 2>/dev/null)")")/rattle-kept
if [ -z "$BUILD_APART" ] && [ -d "$kept" ]; then
    for way in --mount "--map-root-user --mount"; do
        # shellcheck disable=SC2086
        if unshare $way mount -t tmpfs none "$kept" 2>/dev/null; then
            exec env BUILD_APART=yes unshare $way sh -c 'mount -t tmpfs none "$1" && shift && exec "$@"' sh "$kept" "$0" "$@"
        fi
    done
fi

# The crates that are named, or all, and those that they stand on, lowest first.
needed() {
    # shellcheck disable=SC2086
    "$root/tools/dev/crates.py" --below $named
}

work=$(mktemp -d) || exit 1
trap 'rm -rf "$work"' EXIT
trap 'exit 1' INT TERM HUP
cp "$root/crates.txt" "$work/" && cp "$root/HANDLES" "$work/" 2>/dev/null
git -C "$work" init -q
(cd "$root" && find crates \( -name out -o -name edits \) -prune -o -type f -print0 | tar --null -T - -cf -) | tar -C "$work" -xf - || exit 1

lines() { # the files' ending, and the folders
    ending=$1
    shift
    find "$@" -name "*.$ending" -exec cat {} + 2>/dev/null | wc -l
}

measured() { # the crate, what is done, whether it is told, and the words of the command
    name=$1 what=$2 tell=$3
    shift 3
    (cd "$work/crates/$name" && exec nice /usr/bin/time -o "$work/time" -f '%e %U %S %M' "$@") >"$work/log" 2>&1 </dev/null || {
        cat "$work/log" >&2
        fail "$name: $what"
    }
    [ -n "$tell" ] || return 0
    if grep -q 'begins with what a check kept' "$work/log"; then what="$what*" begun=yes; fi
    tail -n 1 "$work/time" | awk -v name="$name" -v what="$what" -v code="$(lines rt "$root/crates/$name/src")" \
        -v proofs="$(lines antt "$root/crates/$name/specs" "$root/crates/$name/proofs")" \
        '{ printf "%-14s %-8s %8.1f %9.1f %8d %6d %7d\n", name, what, $1, $2 + $3, $4 / 1024, code, proofs }' | tee -a "$work/table"
}

# The parts of a crate that took longest. What a check by one job keeps, a file for each part of each proof, it writes in turn.
slowest() { # the crate
    find "$work/crates/$1/out/incremental" -name '*.oantt' -printf '%T@ %f\n' 2>/dev/null | sort -n | awk '
        {
            name = $2
            sub(/^Rattle-[^.]*\./, "", name); sub(/^contracts\./, "", name); sub(/\.oantt$/, "", name)
            n = split(name, parts, ".")
            key = parts[1]
            for (i = 2; i <= n && parts[i] !~ /^(Lts|Proof|Goals|Tie|Answers|Invariants|Code|Symbol|TheLink|Statement|Met|Kinds|Given|Named|Layout|Reads|Key|decls)/; i++)
                key = key "::" parts[i]
            if (before) sum[key] += $1 - before
            before = $1
        }
        END { for (key in sum) printf "%.1f %s\n", sum[key], key }' | sort -rn | head -n "$slow" |
        awk '{ printf "    %-40s %8.1f\n", $2, $1 }'
}

begun=
printf '%-14s %-8s %8s %9s %8s %6s %7s\n' crate what seconds processor MB code proofs
for name in $(needed); do
    tell=yes
    if [ -n "$named" ]; then case "$named " in *" $name "*) ;; *) tell= ;; esac; fi
    measured "$name" proofs "$tell" rt check --jobs 1
    if [ -n "$slow" ] && [ -n "$tell" ]; then slowest "$name"; fi
    if [ -n "$tests" ] && [ -n "$tell" ] && grep -rq '#\[test\]' "$work/crates/$name/src"; then
        measured "$name" tests "$tell" rt check --test --jobs 1
    fi
    if grep -q "[: ]$name\( \|$\)" "$work/crates.txt"; then measured "$name" library "$tell" rt lib; fi
    if [ -n "$edits" ] && [ -n "$tell" ] && [ -d "$work/crates/$name/must-fail" ]; then
        # shellcheck disable=SC2016
        measured "$name" edits "$tell" sh -c 'cd ../.. && exec rt must-fail "$1"' sh "$name"
    fi
done
[ -z "$begun" ] || echo "*: begun with what a check in another checkout kept, so not measured from nothing"
awk '{ seconds += $3; processor += $4 } END { printf "%-14s %-8s %8.1f %9.1f\n", "all", "", seconds, processor }' "$work/table"
[ -n "$tests$edits" ] || exit 0
echo
awk '
    { place = $2 ~ /^tests/ ? 2 : $2 ~ /^edits/ ? 3 : 1; took[$1, place] += $4 / 60; if (!($1 in rows)) { rows[$1]; names[++count] = $1 } }
    function row(name,  i, sum) {
        for (i = 1; i <= 3; i++) { sum += took[name, i]; all[i] += took[name, i] }
        printf "%-24s%8.2f%8.2f%8.2f%8.2f\n", name, took[name, 1], took[name, 2], took[name, 3], sum
    }
    END {
        printf "%-24s%8s%8s%8s%8s\n", "minutes of a processor", "proof", "tests", "edits", "all"
        for (i = 1; i <= count; i++) row(names[i])
        printf "%-24s%8.2f%8.2f%8.2f%8.2f\n", "all", all[1], all[2], all[3], all[1] + all[2] + all[3]
    }' "$work/table"
