# Numbers and sizes at their limits, and one past them. Read by tests/system/edge.sh.

# One unit goes round two banks until all that may be owed is paid: 10,000,000 raises, and then one more.
longest_journal() {
    printf 'name,cash,rule\nA,1,order\nB,0,order\n' >ring-banks.csv
    awk 'BEGIN {
        print "debtor,creditor,class,claim"
        for (class = 1; class <= 5; class++) print "A,B," class ",1000000\nB,A," class ",1000000"
    }' >ring-debts.csv
    awk 'BEGIN {
        print "stamp,debtor,creditor,class,to"
        for (class = 1; class <= 5; class++)
            for (to = 1; to <= 1000000; to++) {
                print ++stamp ",A,B," class "," to
                print ++stamp ",B,A," class "," to
            }
    }' >long.csv
    run replay --banks ring-banks.csv --debts ring-debts.csv --journal long.csv
    judge "10,000,000 raises" 0
    [ "$(head -n 1 out.csv)" = "lawful,10000000" ] || fail "10,000,000 raises" "$(head -n 1 out.csv)"
    echo "10000001,A,B,1,1" >>long.csv
    try "a raise too many" 4 "clearing: journal row 10000001: too many (12)" \
        replay --banks ring-banks.csv --debts ring-debts.csv --journal long.csv
    rm long.csv
}

part_sizes() {
    for which in banks debts; do
        run check $files
        mv out.csv whole.csv
        { cat $which.csv; yes ''; } | head -c $limit >exact.csv
        words=$(echo "$files" | sed "s/$which.csv/exact.csv/")
        run check $words
        judge "$which of the greatest size" 0 "" whole.csv
        echo >>exact.csv
        try "$which one byte too long" 4 "clearing: $which row 0: file size (14)" check $words
    done
    run stress $files --scenarios scenarios.toml
    mv out.csv whole.csv
    { cat scenarios.toml; yes ''; } | head -c $limit >exact.toml
    run stress $files --scenarios exact.toml
    judge "scenarios of the greatest size" 0 "" whole.csv
    echo >>exact.toml
    try "scenarios one byte too long" 4 "clearing: scenarios row 0: file size (14)" stress $files --scenarios exact.toml
    # The longest journal takes gigabytes of memory, so it is tried where that is asked for.
    if [ -n "${CLEARING_LARGE:-}" ]; then
        try "an endless journal" 4 "clearing: journal row 0: file size (14)" replay $files --journal /dev/zero
        longest_journal
    fi
    { cat large-banks.csv; echo "one more,1,order"; } >more.csv
    try "1,001 banks" 4 "clearing: banks row 1001: too many (12)" check --banks more.csv --debts no-debts.csv
    { cat large-debts.csv; echo "x"; } >more.csv
    try "20,001 debts" 4 "clearing: debts row 20001: too many (12)" check --banks large-banks.csv --debts more.csv
    bank() { printf 'name,cash,rule,outside\n%s\n' "$1" >one.csv; }
    bank "A,1000000000000,order,100000000000"
    try "the greatest numbers" 0 "" costs --banks one.csv --debts no-debts.csv --keep 999
    try "the greatest numbers" 0 "" cost-bounds --banks one.csv --debts no-debts.csv --keep 999
    for task in breaking impact rescues; do try "the greatest numbers" 0 "" $task --banks one.csv --debts no-debts.csv; done
    try "the greatest numbers" 0 "" defaults --banks one.csv --debts no-debts.csv
    bank "A,1000000000001,order,1"
    try "cash past its limit" 4 "clearing: banks row 1: limit (6)" check --banks one.csv --debts no-debts.csv
    bank "A,1,order,100000000001"
    try "outside past its limit" 4 "clearing: banks row 1: limit (6)" check --banks one.csv --debts no-debts.csv
    bank "A,99999999999999999999,order,1"
    try "20 digits" 4 "clearing: banks row 1: limit (6)" check --banks one.csv --debts no-debts.csv
    bank "A,018446744073709551617,order,1"
    try "21 digits" 4 "clearing: banks row 1: number (4)" check --banks one.csv --debts no-debts.csv
    bank "A,18446744073709551617,order,1"
    try "more than 64 bits" 4 "clearing: banks row 1: limit (6)" check --banks one.csv --debts no-debts.csv
    {
        echo "name,cash,rule,outside"
        seq 1 1000 | sed 's/.*/&,1000000000000,adams,100000000000/'
    } >rich.csv
    run defaults --banks rich.csv --debts no-debts.csv
    tail -n 2 out.csv >end.csv
    mv end.csv out.csv
    printf 'total,1000000000000000,100000000000000,0,0,900000000000000,0\ncash,1000000000000000\n' >whole.csv
    judge "1,000 banks with all the cash" 0 "" whole.csv
    debt() {
        { echo "debtor,creditor,class,claim"; printf '%s\n' "$@"; } >one.csv
    }
    debt "A,B,1,1000000" "A,B,2,1000000" "A,B,3,1000000" "A,B,4,1000000" "A,B,5,1000000" "A,B,6,1000000" "A,B,7,1000000" \
        "A,B,8,1000000" "A,B,9,1000000" "B,A,1,1000000"
    try "10,000,000 units" 0 "" check --banks banks.csv --debts one.csv
    echo "B,A,2,1" >>one.csv
    try "a unit too many" 4 "clearing: debts row 11: total (13)" check --banks banks.csv --debts one.csv
    debt "A,B,1,1000001"
    try "a claim past its limit" 4 "clearing: debts row 1: limit (6)" check --banks banks.csv --debts one.csv
    debt "A,B,10,1"
    try "class 10" 4 "clearing: debts row 1: class (10)" check --banks banks.csv --debts one.csv
    debt "A,A,10,x"
    try "a debt to itself" 4 "clearing: debts row 1: self debt (9)" check --banks banks.csv --debts one.csv
    debt "A,B,1,1" "" ",," "A,B,1,0"
    try "a double debt" 4 "clearing: debts row 3: double debt (11)" check --banks banks.csv --debts one.csv
    debt "A,X,1,1"
    try "an unknown bank" 4 "clearing: debts row 1: unknown bank (8)" check --banks banks.csv --debts one.csv
    bank "A,1,order,1
A,1,order,1"
    try "a double bank" 4 "clearing: banks row 2: double bank (7)" check --banks one.csv --debts no-debts.csv
    # Two banks by each rule, with the greatest claims and not quite the money.
    for rule in order equal losses jefferson webster adams; do
        printf 'name,cash,rule\nA,8999999,%s\nB,0,%s\nC,0,%s\n' $rule $rule $rule >rules.csv
        debt "A,B,1,1000000" "A,C,1,1000000" "A,B,2,1000000" "A,C,2,1000000" "A,B,3,1000000" "A,C,3,1000000" "A,B,4,1000000" \
            "A,C,4,1000000" "A,B,5,1000000" "A,C,5,1000000"
        run central --banks rules.csv --debts one.csv
        mv out.csv whole.csv
        run clear --banks rules.csv --debts one.csv --workers 64 --sweeps 1000
        judge "the greatest claims by $rule" 0 "" whole.csv
    done
}
