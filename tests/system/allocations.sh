#!/bin/sh
# Refuses each allocation of the program in turn, in every task, and says how each run ended.
#
#   tests/system/allocations.sh [--record] [BANKS] [TASK ..]
#
# On the first example, or on a network of so many banks (10 to 1,000); every task where none is named.
#
# A run with a refused allocation ends with status 6 and an empty output, or with 0 and the whole text where the program can do
# without. Each allocation is refused twice: alone, and with all that come after it. Any other ending is printed, and the last line
# is `N cases, 0 wrong`; the script ends with 1 where some case is wrong. An interrupt ends it with the counts so far. With
# --record what a run to the end ended with is a line of docs/runs.tsv. Wants a C compiler and Python 3.9 or later.
. "$(dirname "$0")/lib.sh"
banks=
case ${1:-} in
    [1-9]*) banks=$1; shift ;;
esac
tasks=${*:-check clear central convert defaults bounds compress rescue rescues breaking impact costs cost-bounds stress outcomes replay gen}
"${CC:-cc}" -O2 -shared -fPIC -o refuse.so "$root/tests/system/refuse.c" -ldl || exit 1

# The program reads names in the current folder.
if [ -z "$banks" ]; then
    cp "$root/examples/chain/banks.csv" "$root/examples/chain/debts.csv" .
    first=A bank=B size=10 tries=30
else
    # A ring short of cash, by all rules, in which each bank owes another one too; a tenth owe outside.
    awk -v banks="$banks" 'BEGIN {
        split("order equal losses jefferson webster adams", rules, " ")
        print "name,cash,rule,outside" >"banks.csv"
        print "debtor,creditor,class,claim" >"debts.csv"
        for (i = 0; i < banks; i++) {
            print "N" i "," (i * 7919) % 5 "," rules[i % 6 + 1] "," (i % 10 ? 0 : 2) >"banks.csv"
            print "N" i ",N" (i + 1) % banks ",1," 1 + (i * 104729) % 9 >"debts.csv"
            print "N" i ",N" (i + 7) % banks ",2," 1 + (i * 31) % 5 >"debts.csv"
        }
    }'
    first=N0 bank=N1 size=$banks tries=$((3 * banks))
fi
cat >scenarios.toml <<END
[[scenario]]
name = "as it is"

[[scenario]]
name = "half"
cut = 500

[[scenario]]
name = "the first loses all"
[[scenario.loss]]
bank = "$first"
amount = 7
END
"$program" clear --banks banks.csv --debts debts.csv --show journal >journal.csv || exit 1
trap : INT TERM
python3 "$root/tests/system/allocations.py" "$program" "$bank" "$size" "$tries" $tasks
status=$?
tell_told allocations.sh || status=1
exit $status
