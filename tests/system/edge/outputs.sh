# Outputs and messages that nothing takes, or not all of. Read by tests/system/edge.sh.

# The output of a task into places that do not take it.
refuse_output() {
    run "$@"
    mv out.csv whole.csv
    : >out.csv
    timeout 60 "$program" "$@" >/dev/full 2>err.txt
    status=$?
    judge "a full output: $*" 5
    timeout 60 "$program" "$@" >&- 2>err.txt
    status=$?
    judge "a closed output: $*" 5
    timeout 60 "$program" "$@" 2>err.txt 1</dev/null
    status=$?
    judge "an output for reading alone: $*" 5
    { sleep 0.05; $default timeout 60 "$program" "$@" 2>err.txt; echo $? >told; } | true
    status=$(cat told)
    judge "no reader: $*" 5
    timeout 60 "$program" "$@" >out.csv 2>&-
    status=$?
    : >err.txt
    cases=$((cases + 1))
    { [ $status = 0 ] && cmp -s out.csv whole.csv; } || fail "a closed standard error: $*" "status $status, or another text"
    timeout 60 "$program" "$@" >out.csv 2>&- <&-
    status=$?
    cases=$((cases + 1))
    { [ $status = 0 ] && cmp -s out.csv whole.csv; } || fail "an output alone: $*" "status $status, or another text"
}

# Whatever becomes of the message, the status stays, and nothing is written to standard output.
refuse_message() { # the status, the words
    wanted=$1
    shift
    : >err.txt
    timeout 60 "$program" "$@" >out.csv 2>&-
    status=$?
    cases=$((cases + 1))
    { [ $status = "$wanted" ] && [ ! -s out.csv ]; } || fail "a closed standard error: $*" "status $status, $(wc -c <out.csv) bytes"
    timeout 60 "$program" "$@" >out.csv 2>/dev/full
    status=$?
    cases=$((cases + 1))
    { [ $status = "$wanted" ] && [ ! -s out.csv ]; } || fail "a full standard error: $*" "status $status, $(wc -c <out.csv) bytes"
    { sleep 0.05; $default timeout 60 "$program" "$@" 2>&1 >out.csv; echo $? >told; } | true
    status=$(cat told)
    cases=$((cases + 1))
    { [ $status = "$wanted" ] && [ ! -s out.csv ]; } || fail "no reader of messages: $*" "status $status"
    timeout 60 "$program" "$@" >&- 2>&- <&-
    status=$?
    cases=$((cases + 1))
    [ $status = "$wanted" ] || fail "nothing is open: $*" "status $status"
}

part_outputs() {
    # A broken pipe comes as a signal too, unless the caller ignores it.
    default=
    env --default-signal=PIPE true 2>/dev/null && default="env --default-signal=PIPE"
    each_task refuse_output
    refuse_message 2
    refuse_message 2 check
    refuse_message 3 check --banks nothing.csv --debts debts.csv
    refuse_message 4 check --banks banks.csv --debts banks.csv
    for words in "check $large" "clear $large" "central $large" "compress $large" "costs $large --keep 500" "cost-bounds $large --keep 500"; do
        run $words
        mv out.csv whole.csv
        for signal in "$default" "trap"; do
            (
                [ "$signal" = trap ] && { trap '' PIPE; signal=; }
                { $signal timeout 60 "$program" $words 2>err.txt; echo $? >told; } | head -c 10 >out.csv
            )
            status=$(cat told)
            judge "a reader of ten bytes: $words" 5 "" whole.csv
        done
        # A file may take 16 blocks and no more.
        (
            trap '' XFSZ
            ulimit -f 16
            exec timeout 60 "$program" $words >out.csv 2>err.txt
        )
        status=$?
        judge "a limit on files: $words" 5 "" whole.csv
        # A slow reader gets all.
        { timeout 60 "$program" $words 2>err.txt; echo $? >told; } | { sleep 0.3; cat >out.csv; }
        status=$(cat told)
        judge "a slow reader: $words" 0 "" whole.csv
    done
}
