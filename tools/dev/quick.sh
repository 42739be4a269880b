#!/bin/sh
# Checks some crates and what stands on them, for daily work; the gate, .ci/run, checks all.
#
#   tools/dev/quick.sh [--no-edits] [--no-above] CRATE..
#
# In:   the names of crates of crates.txt. For each of them, lowest first: its proofs, its tests, and its edits that must be
#       refused, these without --no-edits. Then the proofs of each crate that stands on one of them, without --no-above; of one
#       whose name ends with _tests its tests too.
# Out:  a line for each step, with its seconds, and last a line `N steps passed, M failed in S s`. What a step that fails
#       printed goes to standard error; the crates that stand on it are left out then.
#
# Runs one check at a time, at a low priority. What an earlier check has proved is not proved again.
# Ends with 0 where no step failed, with 1 where one did, and with 2 where the words are not understood.

# Of the path the absolute entries alone count: no command is one that the working folder has.
set -f; IFS=: path=; for entry in $PATH; do case $entry in /*) path=$path:$entry ;; esac; done
PATH=${path#:} && export PATH; unset IFS; set +f

case "${1:-}" in
--help | -h)
    sed -n '2,14s/^# \{0,1\}//p' "$0" || exit 1
    exit 0
    ;;
esac
unset CDPATH
root=$(realpath -- "$(dirname -- "$(realpath -- "$0")")/../..")
edits=yes
above=yes
crates=

usage() {
    echo "quick.sh: error: $1" >&2
    exit 2
}

for word in "$@"; do
    case $word in
    --no-edits) edits= ;;
    --no-above) above= ;;
    -*) usage "no option $word" ;;
    *[!a-z0-9_]*) usage "no crate $word in crates.txt" ;;
    *)
        grep -q "^$word\( staticlib\)\{0,1\}:" "$root/crates.txt" || usage "no crate $word in crates.txt"
        crates="$crates $word"
        ;;
    esac
done
[ -n "$crates" ] || usage "the name of a crate is wanted"
command -v rt >/dev/null 2>&1 || usage "the command rt of the toolchain is not on the path"

# The crates that are named, and with `above` those that stand on them, each after those that it stands on.
in_order() { # the crates, and `above` or nothing
    # shellcheck disable=SC2086
    [ -z "$1" ] || "$root/tools/dev/crates.py" ${2:+--above} $1
}

passed=0
failed=0
work=$(mktemp -d) || exit 1
trap 'rm -rf "$work"' EXIT
trap 'exit 1' INT TERM HUP
start=$(date +%s)

step() { # the crate, what is done, and the words of the command
    at=$(date +%s)
    name=$1
    what=$2
    shift 2
    if nice "$@" >"$work/log" 2>&1 </dev/null; then
        echo "$name: $what, $(($(date +%s) - at)) s"
        passed=$((passed + 1))
        return 0
    fi
    echo "$name: $what FAILED, $(($(date +%s) - at)) s"
    cat "$work/log" >&2
    failed=$((failed + 1))
    return 1
}

is_named() {
    case " $crates " in *" $1 "*) return 0 ;; esac
    return 1
}

# Whether the crate stands on one that failed.
stands_on_failed() {
    for bad in $broken; do
        in_order "$bad" above | grep -qx "$1" && return 0
    done
    return 1
}

broken=
for name in $(in_order "$crates" "$above"); do
    if stands_on_failed "$name"; then
        echo "$name: left out, since it stands on a crate that failed"
        continue
    fi
    cd "$root/crates/$name" || exit 1
    step "$name" "proofs" rt check --jobs 1 || { broken="$broken $name"; continue; }
    if is_named "$name" || [ "${name%_tests}" != "$name" ]; then
        if grep -q '#\[test\]' src/*.rt src/*/*.rt 2>/dev/null; then step "$name" "tests" rt test; fi
    fi
    if is_named "$name"; then
        if [ -n "$edits" ] && ls must-fail/*.edit >/dev/null 2>&1; then
            cd "$root" && step "$name" "edits" rt must-fail "$name"
        fi
    fi
done
echo "$passed steps passed, $failed failed in $(($(date +%s) - start)) s"
[ "$failed" = 0 ]
