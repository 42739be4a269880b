# Streams that are closed, and limits on time, on the size of files, on stack, data, descriptors and threads. Read by tests/system/edge.sh.

# With each of the three streams open or closed: the status and the text are the same as far as the stream is there, and the input
# files stay as they are. A file that is opened gets the number of a stream that is closed.
close_streams() { # the words
    run "$@"
    mv out.csv whole.csv
    cat banks.csv debts.csv scenarios.toml journal.csv >inputs-before
    for closed in "0" "1" "2" "0 1" "0 2" "1 2" "0 1 2"; do
        : >out.csv
        : >err.txt
        (
            exec >out.csv 2>err.txt </dev/null
            case $closed in *0*) exec 0<&- ;; esac
            case $closed in *1*) exec 1>&- ;; esac
            case $closed in *2*) exec 2>&- ;; esac
            exec "$program" "$@"
        )
        status=$?
        wanted=0 message=
        case $closed in *1*) wanted=5 ;; esac
        case $closed in *2*) printf 'clearing: cannot write the output\n' >message; message=y ;; esac
        # Where standard error is closed there is no message, and its status is judged alone.
        if [ -n "$message" ] && [ $wanted = 5 ]; then
            [ ! -s err.txt ] || fail "closed $closed: $*" "a message on a closed stream"
            cp message err.txt
        fi
        judge "closed $closed: $*" $wanted "" whole.csv
        [ $wanted = 0 ] || [ ! -s out.csv ] || fail "closed $closed: $*" "$(wc -c <out.csv) bytes on a closed stream"
        cat banks.csv debts.csv scenarios.toml journal.csv | cmp -s - inputs-before || fail "closed $closed: $*" "an input has changed"
    done
}

# Runs with a limit of the shell; the statuses that are wanted.
limited() { # the statuses, the limit's letter, its value, the words
    statuses=$1 letter=$2 value=$3
    shift 3
    # The shell says of a signal on its own standard error, and opens no file once descriptors are few.
    {
        (
            ulimit -c 0
            exec >out.csv 2>err.txt </dev/null
            ulimit -"$letter" "$value" || exit 99
            exec timeout -k 5 60 "$program" "$@"
        )
        status=$?
    } 2>shell.txt
    judge "ulimit -$letter $value: $*" "$statuses" "" whole.csv
}

part_limits() {
    each_task close_streams
    for words in "check $large" "clear $large --workers 4" "clear $large --show both --workers 1" "central $large" "bounds $large --workers 2" \
        "compress $large" "costs $large --keep 500" "cost-bounds $large --keep 500" "gen --seed 7 --size 1000 --tries 20000"; do
        run $words
        mv out.csv whole.csv
        # The signal of a file that grows past its limit ends it, where the caller has not said otherwise; what is there is a front.
        for blocks in 0 1 7 64; do limited "0|5|153" f $blocks $words; done
        for kilobytes in 128 512 8192; do limited "0|6" s $kilobytes $words; done
        for kilobytes in 1000 3000 6000 12000 40000; do limited "0|6" d $kilobytes $words; done
        limited "0" n 4 $words
    done
    # Two banks pass a unit to and fro in each of four scenarios, a second each, and one second is given.
    printf 'name,cash,rule\nA,1,order\nB,0,order\n' >ring-banks.csv
    awk 'BEGIN {
        print "debtor,creditor,class,claim"
        for (class = 1; class <= 5; class++) print "A,B," class ",1000000\nB,A," class ",1000000"
    }' >ring-debts.csv
    for number in 1 2 3 4; do printf '[[scenario]]\nname = "%s"\n' $number; done >four.toml
    : >whole.csv
    for words in "stress --workers 1 --scenarios four.toml" "stress --workers 2 --scenarios four.toml"; do
        limited "137|152" t 1 $words --banks ring-banks.csv --debts ring-debts.csv
        [ ! -s out.csv ] || fail "a second of time: $words" "something is written"
    done
    part_threads
}

# So few threads that not each worker gets one: a limit that holds for no superuser.
part_threads() {
    for most in 1 2 3 5 9; do
        for words in "clear --workers 4" "clear --workers 64" "defaults --workers 8" "bounds --workers 3" "stress --scenarios many.toml"; do
            [ -e many.toml ] || for _ in 1 2 3 4 5 6 7 8 9; do printf '[[scenario]]\nname = "half"\ncut = 500\n'; done >many.toml
            run $words $large
            mv out.csv whole.csv
            if [ "$(id -u)" = 0 ]; then
                command -v setpriv >/dev/null 2>&1 || { echo "threads: left out, since there is no setpriv"; return; }
                # A user of whom nothing else runs; the program stands where he can read it.
                cp "$program" ./clearing-copy
                chmod 755 . ./clearing-copy
                chmod 644 ./*.csv many.toml
                setpriv --reuid=54321 --clear-groups prlimit --nproc=$most timeout 60 ./clearing-copy $words $large >out.csv 2>err.txt </dev/null
            else
                others=$(ps -L -u "$(id -u)" | wc -l)
                prlimit --nproc=$((others + most)) timeout 60 "$program" $words $large >out.csv 2>err.txt </dev/null
            fi
            status=$?
            # With one process the watch over the time cannot start the program.
            [ "$status" = 125 ] || [ "$status" = 126 ] || judge "$most threads: $words" "0|6" "" whole.csv
        done
    done
}
