# Signals while a file is read, while it works, and while it writes. Read by tests/system/edge.sh.

# Judges a run that a signal may have ended: by it, or as any run ends. What is there of the output is a front of the whole text, and
# all of it where the status is 0.
judge_signal() { # the case, the number of the signal, other statuses
    judge "$1" "$((128 + $2))${3:+|$3}" "" whole.csv
}

# A debts file whose second half does not come: the program waits for it in the middle of its reading.
held_up_by_a_file() { # the signal, its number
    rm -f pipe half-told
    mkfifo pipe
    { head -n 2 debts.csv; : >half-told; exec sleep 3; } >pipe 2>/dev/null &
    writer=$!
    env --default-signal "$program" clear --banks banks.csv --debts pipe >out.csv 2>err.txt </dev/null &
    reader=$!
    while [ ! -e half-told ]; do sleep 0.02; done
    sleep 0.05
    kill -s "$1" $reader
    wait $reader 2>/dev/null
    status=$?
    kill $writer 2>/dev/null
    wait $writer 2>/dev/null
    judge_signal "SIG$1 while a file is read" "$2"
    [ ! -s out.csv ] || fail "SIG$1 while a file is read" "something is written"
}

held_up_by_work() { # the signal, its number
    for words in "clear --workers 4" "clear --workers 1 --show both"; do
        env --default-signal "$program" $words --banks ring-banks.csv --debts ring-debts.csv >out.csv 2>err.txt </dev/null &
        reader=$!
        sleep 0.1
        kill -s "$1" $reader
        wait $reader 2>/dev/null
        status=$?
        judge_signal "SIG$1 while it works: $words" "$2"
        [ ! -s out.csv ] || fail "SIG$1 while it works: $words" "something is written"
    done
}

# Nobody takes more than the first bytes of the output.
held_up_by_its_reader() { # the signal, its number, other statuses
    run check $large
    mv out.csv whole.csv
    rm -f pipe
    mkfifo pipe
    { head -c 10 >out.csv; exec sleep 3; } <pipe &
    taker=$!
    env --default-signal "$program" check $large >pipe 2>err.txt </dev/null &
    reader=$!
    while [ "$(wc -c 2>/dev/null <out.csv || echo 0)" -lt 10 ]; do sleep 0.02; done
    sleep 0.05
    kill -s "$1" $reader
    wait $reader 2>/dev/null
    status=$?
    kill $taker 2>/dev/null
    wait $taker 2>/dev/null
    judge_signal "SIG$1 while it writes" "$2" "$3"
}

# Stopped and let go, again and again, while it works: the answer is the same.
stopped_and_let_go() { # the words
    run "$@"
    mv out.csv whole.csv
    timeout -k 5 120 "$program" "$@" >out.csv 2>err.txt </dev/null &
    reader=$!
    for _ in 1 2 3 4 5 6 7 8; do
        kill -s STOP $reader 2>/dev/null
        sleep 0.01
        kill -s CONT $reader 2>/dev/null
        sleep 0.02
    done
    wait $reader
    status=$?
    judge "stopped and let go: $*" 0 "" whole.csv
}

part_signals() {
    env --default-signal true 2>/dev/null || {
        echo "signals: left out, since env has no --default-signal"
        return
    }
    printf 'name,cash,rule\nA,1,order\nB,0,order\n' >ring-banks.csv
    printf 'debtor,creditor,class,claim\nA,B,1,1000000\nB,A,1,1000000\nA,B,2,1000000\nB,A,2,1000000\n' >ring-debts.csv
    : >whole.csv
    for signal in "HUP 1" "INT 2" "KILL 9" "USR1 10" "ALRM 14" "TERM 15" "XCPU 24" "XFSZ 25"; do
        set -- $signal
        (
            ulimit -c 0
            : >whole.csv
            held_up_by_a_file "$1" "$2"
            held_up_by_work "$1" "$2"
            held_up_by_its_reader "$1" "$2"
            echo "$cases $wrong" >counted
        )
        read -r cases wrong <counted
    done
    for words in "clear --workers 4" "clear --workers 1 --show both"; do
        stopped_and_let_go $words --banks ring-banks.csv --debts ring-debts.csv
    done
    stopped_and_let_go check $large
}
