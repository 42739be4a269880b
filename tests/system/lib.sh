# What the scripts beside share: where the program is, a folder to work in, and the largest network.
#
# Where CLEARING names a program, that is used, and nothing is built. Where the first word is --record, it is taken away, and `tell` also
# writes a line into docs/runs.tsv.
root=$(cd "$(dirname "$0")/../.." && pwd) || exit 1
if [ -n "${CLEARING:-}" ]; then
    program=$(realpath -- "$CLEARING")
    case $program in */first-look) echo "$CLEARING is a first look, which is not proved" >&2 && exit 1 ;; esac
else
    "$root/clearing" >/dev/null 2>&1   # builds it, if need be
    program=$root/crates/clear_main/out/clear_main
fi
recording=
if [ "${1:-}" = --record ]; then recording=yes && shift; fi
arguments=$*
. "$root/tests/system/record.sh"
[ -x "$program" ] || { echo "the program is not built" >&2; exit 1; }
work=$(mktemp -d) || exit 1
trap 'rm -rf "$work"' EXIT
cd "$work" || exit 1

# Prints the last line of a script that came to its end, and records what it ended with.
tell() { # the script, the cases, the wrong ones, the line
    echo "$4"
    [ -z "$recording" ] || record "$1" "$arguments" "$2" "$3"
}

# The same for a script in Python that wrote its last line into told.txt. A run that was interrupted is not recorded.
tell_told() { # the script
    line=$(cat told.txt) || return 1
    # shellcheck disable=SC2046
    set -- "$1" $(echo "$line" | tr -cd '0-9 ')
    # Of three numbers the first counts networks.
    [ $# -lt 4 ] || set -- "$1" "$3" "$4"
    [ ! -e interrupted ] || recording=
    tell "$@" "$line"
}

# The largest network: 1,000 banks by one rule, and 20,000 debts that come to 9.9 million units.
largest_banks() { # the rule
    awk -v rule="$1" 'BEGIN {
        print "name,cash,rule"
        for (i = 0; i < 1000; i++) print "bank " i "," (i * 7919) % 5000 "," rule
    }'
}
largest_debts() {
    awk 'BEGIN {
        print "debtor,creditor,class,claim"
        for (x = 0; x < 20000; x++) {
            debtor = x % 1000
            creditor = (debtor + 1 + int(x / 1000) * 37) % 1000
            print "bank " debtor ",bank " creditor ",1," (1 + (x * 104729) % 990)
        }
    }'
}
