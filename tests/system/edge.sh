#!/bin/sh
# Tries the program at its edges: what stands in the place of a file, where its output goes, how much memory it has, what its
# words are, each fault of a file, files of 8 MB of junk, signals, limits, a full disk, and files that change while they are read.
#
#   tests/system/edge.sh [--record] [PART ..]    all of these where none is named:
#                              files pipes outputs memory junk sizes faults words signals limits disks changing
#
# What is tried stands in the folder edge. A case is wrong where the status is not the one of docs/FORMATS.md, the message is not
# that of the status in one line, there is output that the status does not allow, or the program crashes or does not end in two
# minutes. A signal or a limit that ends the program is no crash, but what it has written is a front of the whole text. Each wrong
# case is printed, and the last line is `N cases, 0 wrong`; the script ends with 1 where some are wrong. With --record what it ended
# with is a line of docs/runs.tsv.
all="files pipes outputs memory junk sizes faults words signals limits disks changing"
. "$(dirname "$0")/lib.sh"
parts=${*:-$all}
LC_ALL=C
export LC_ALL
cases=0 wrong=0
limit=8388608

# The example, and a network of 1,000 banks and 20,000 debts, whose texts are longer than a pipe holds.
cp "$root/examples/chain/banks.csv" "$root/examples/chain/debts.csv" .
printf '[[scenario]]\nname = "half"\ncut = 500\n' >scenarios.toml
printf 'stamp,debtor,creditor,class,to\n1,A,B,1,7\n2,B,C,1,8\nrounds,2\n' >journal.csv
echo "name,cash,rule" >no-banks.csv
echo "debtor,creditor,class,claim" >no-debts.csv
echo "stamp,debtor,creditor,class,to" >no-journal.csv
largest_banks equal >large-banks.csv
largest_debts >large-debts.csv
{
    echo "stamp,debtor,creditor,class,to"
    echo "1,bank 1,bank 38,1,1"
} >large-journal.csv
: >empty
mkdir folder
files="--banks banks.csv --debts debts.csv"
large="--banks large-banks.csv --debts large-debts.csv"
no_files="--banks no-banks.csv --debts no-debts.csv"
two_file_tasks="check clear central defaults convert bounds compress breaking impact rescues"

# The message of a status, as a pattern.
pattern_of() { # the status
    case $1 in
        0) echo '' ;;
        2) echo 'clearing: the command line is not understood' ;;
        3) echo 'clearing: cannot read .*' ;;
        4) echo 'clearing: [a-z]* row [0-9]*: [a-z ]* ([0-9]*)' ;;
        5) echo 'clearing: cannot write the output' ;;
        6) echo 'clearing: out of memory' ;;
        7) echo 'clearing: the journal is not a lawful complete history' ;;
        1[3-9][0-9] | 129) echo '' ;;
        *) echo 'no such status' ;;
    esac
}

fail() { # the case, and what is wrong
    echo "wrong: $1: $2"
    wrong=$((wrong + 1))
}

# Judges the last run by `status`, out.csv and err.txt: its status is among those wanted; its message is that of its status, or the
# one given; and its output is empty, or the whole text, as the status wants. Statuses may stand with bars between them.
judge() { # the case, the statuses that are wanted, the message, the file of the whole text
    cases=$((cases + 1))
    case "|$2|" in
        *"|$status|"*) ;;
        *)
            fail "$1" "status $status in place of $2: $(head -c 200 err.txt | tr '\n' ' ')"
            return
            ;;
    esac
    if [ -n "${3:-}" ]; then
        if [ "$(cat err.txt)" != "$3" ]; then fail "$1" "the message is $(head -c 200 err.txt)"; fi
    elif ! head -c 4096 err.txt | grep -q "^$(pattern_of "$status")\$" && { [ -s err.txt ] || { [ "$status" != 0 ] && [ "$status" -lt 128 ]; }; }; then
        fail "$1" "status $status, and the message $(head -c 200 err.txt)"
    elif [ "$status" = 0 ] && [ -s err.txt ]; then
        fail "$1" "done with a message: $(head -c 200 err.txt)"
    fi
    [ -n "${3:-}" ] || [ "$(wc -l <err.txt)" -le 1 ] || fail "$1" "$(wc -l <err.txt) lines on standard error"
    case $status in
        2 | 3 | 4 | 6) [ ! -s out.csv ] || fail "$1" "status $status, and $(wc -c <out.csv) bytes are written" ;;
        0) [ -z "${4:-}" ] || cmp -s out.csv "$4" || fail "$1" "done, and the text is not the whole one" ;;
        5 | 1[2-9][0-9])
            [ -z "${4:-}" ] || head -c "$(wc -c <out.csv)" "$4" | cmp -s out.csv - ||
                fail "$1" "what was written is no part of the text"
            ;;
    esac
}

# Runs the program with some words; at most two minutes.
run() {
    timeout -k 5 120 "$program" "$@" >out.csv 2>err.txt </dev/null
    status=$?
}
# Runs it and judges the run.
try() { # the case, the statuses, the message, the words
    about=$1 wanted=$2 message=$3
    shift 3
    run "$@"
    judge "$about: $(echo "$*" | head -c 200)" "$wanted" "$message"
}

# Does something with a case of each task: calls it with the words of the task.
each_task() { # the function
    for task in $two_file_tasks; do "$1" $task $files; done
    "$1" clear $files --show both --workers 1
    "$1" rescue $files --bank B
    "$1" costs $files --keep 500
    "$1" cost-bounds $files --keep 500
    "$1" stress $files --scenarios scenarios.toml
    "$1" outcomes $files --scenarios scenarios.toml
    "$1" replay $files --journal journal.csv
    "$1" gen --seed 7 --size 10 --tries 30
}

for topic in files outputs memory junk sizes faults words signals limits disks; do
    . "$root/tests/system/edge/$topic.sh"
done
for part in $parts; do
    case " $all " in
        *" $part "*)
            before=$cases
            part_$part
            echo "$part: $((cases - before)) cases"
            ;;
        *)
            echo "no part $part" >&2
            exit 1
            ;;
    esac
done
tell edge.sh "$cases" "$wrong" "$cases cases, $wrong wrong"
[ "$wrong" = 0 ]
