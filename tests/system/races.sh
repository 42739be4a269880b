#!/bin/sh
# Runs of several workers whose threads are held up at random, and each answer judged by others.
#
#   tests/system/races.sh [--record] [RUNS [SEED]]    1,000 runs and seed 1 where none is given
#
# The networks have 2 to 1,000 banks: rings, chains, random ones, a core, scarce money. Each has ten runs of `clear --show both`,
# two by 2, 3, 4, 8 and 64 workers, and two runs of other tasks that run on threads. The schedule is shaken from outside: one or
# two processors, the least priority, another process that comes and goes on the same processor, the program stopped and let go,
# and each of its threads interrupted by a timer of its own at any instruction and put to sleep (shake.c).
#
# A run of `clear` is wrong where the payments are not what `central` prints, where `replay` does not find the journal lawful and
# make the same payments of it, where clearing-audit does not, or where there are more rounds than raises and one. A run of
# another task is wrong where it prints another text than by one worker, or, where the number of its threads is its own, than
# undisturbed. Each wrong run is printed, with the network, whose folder stays; the last line is `N runs, M wrong`, and the script
# ends with 1 where some are wrong. The line before it says how many runs there were of each way to shake, and in how many networks
# the journals differ. An interrupt ends it after the network at hand, with the counts so far. With --record what a run to the end
# ended with is a line of docs/runs.tsv. Wants Python 3 and a C compiler.
. "$(dirname "$0")/lib.sh"
"${CC:-cc}" -O2 -shared -fPIC -o shake.so "$root/tests/system/shake.c" -ldl -lpthread -lrt || exit 1
trap : INT
python3 "$root/tests/system/races.py" "$program" "$work/shake.so" "${1:-1000}" "${2:-1}"
status=$?
[ ! -d "$work/wrong" ] || { trap - EXIT; echo "see $work/wrong"; }
tell_told races.sh || status=1
exit $status
