# Files of 8 MB that say nothing. Read by tests/system/edge.sh.

# A file of 8 MB: a front, then one thing again and again, then an end.
fill() { # the file, the front, the part that is repeated, the end; each as printf has it
    around=$(printf -- "$2$4" | wc -c)
    printf -- "$3" >block
    for _ in 1 2 3 4 5 6 7 8 9 10 11 12 13 14; do
        cat block block >twice
        mv twice block
    done
    {
        printf -- "$2"
        while cat block; do :; done 2>/dev/null | head -c $((limit - around))
        printf -- "$4"
    } >"$1"
    [ "$(wc -c <"$1")" = $limit ] || fail "the script" "$1 is not as long as it should be"
}

junk_records() { # the task and the words before the junk, the file's word, the header
    words=$1 name=$2 header=$3
    for piece in ',' '"' '\n' '\000' 'a' '[' '\r' '\377' '7' '""' '"a",' '\n,' '\357\273\277'; do
        fill junk '' "$piece" ''
        try "8 MB of $piece as $name" 4 "clearing: $name row 0: header (1)" $words --$name junk
    done
    fill junk '"' 'a' '"'
    try "8 MB in quotes as $name" 4 "clearing: $name row 0: header (1)" $words --$name junk
    for piece in '"' '""' '\000' 'a' '[' '7' '\377' '"a",' 'a,' 'a\n'; do
        fill junk "$header\n" "$piece" ''
        try "8 MB of $piece below the header of $name" 4 "clearing: $name row 1: fields (2)" $words --$name junk
    done
    fill junk "$header\n\"" 'a' '"'
    try "8 MB in quotes below the header of $name" 4 "clearing: $name row 1: fields (2)" $words --$name junk
    for piece in ',' '\n' '\r' ' ,' ' \n' '\t' '\n,' ',,,,\n'; do
        fill junk "$header\n" "$piece" ''
        try "8 MB of $piece below the header of $name" 0 "" $words --$name junk
    done
}

part_junk() {
    junk_records "check --debts no-debts.csv" banks "name,cash,rule"
    junk_records "check --banks no-banks.csv" debts "debtor,creditor,class,claim"
    junk_records "replay $no_files" journal "stamp,debtor,creditor,class,to"
    fill junk 'name,cash,rule\n' 'a' ',1,order\n'
    try "a name of 8 MB" 4 "clearing: banks row 1: name (3)" check --banks junk --debts no-debts.csv
    fill junk 'name,cash,rule\n"' 'a' '",1,order\n'
    try "a name of 8 MB in quotes" 4 "clearing: banks row 1: name (3)" check --banks junk --debts no-debts.csv
    fill junk 'name,cash,rule\nA,' '7' ',order\n'
    try "a number of 8 MB" 4 "clearing: banks row 1: number (4)" check --banks junk --debts no-debts.csv
    fill junk 'name,cash,rule\nA,' '0' ',order\n'
    try "8 MB of zeros as a number" 4 "clearing: banks row 1: number (4)" check --banks junk --debts no-debts.csv
    fill junk 'name,cash,rule\nA,1,' 'order' '\n'
    try "a rule of 8 MB" 4 "clearing: banks row 1: rule (5)" check --banks junk --debts no-debts.csv
    fill junk 'name,cash,rule\nA,1,order' ' ' ''
    try "8 MB of blanks behind a field" 0 "" check --banks junk --debts no-debts.csv
    fill junk 'debtor,creditor,class,claim\n' 'a' ',B,1,1\n'
    try "a debtor of 8 MB" 4 "clearing: debts row 1: name (3)" check --banks banks.csv --debts junk
    for piece in ',' '"' '\000' 'a' '[' '{' '\r' '\377' '7' 'a.' '[a.' '[[' 'a={' 'a=[' '=' "'" '\\' '\357\273\277' '[a]\n' '{a=' '-'; do
        fill junk '' "$piece" ''
        try "8 MB of $piece as scenarios" 4 "clearing: scenarios row 0: toml (16)" stress $files --scenarios junk
    done
    for piece in '\n' '\r\n' ' ' '\t' '#'; do
        fill junk '' "$piece" ''
        try "8 MB of $piece as scenarios" 0 "" stress $files --scenarios junk
    done
    for front in 'a = ' 'scenario = ' '[[scenario]]\nname = ' '[[scenario]]\nname = "a"\nloss = '; do
        for piece in '[' '{a=' '{a.a=' '"' "'" '7' '[[],' '\000'; do
            fill junk "$front" "$piece" '\n'
            try "8 MB of $piece after $front" 4 "" stress $files --scenarios junk
        done
    done
    fill junk 'a = ' '[' ']'
    try "8 MB of brackets, one closed" 4 "" stress $files --scenarios junk
    fill junk 'scenario = [' '[],' ']\n'
    try "8 MB of arrays" 4 "" stress $files --scenarios junk
    fill junk 'scenario = [' '{},' ']\n'
    try "8 MB of tables" 4 "" stress $files --scenarios junk
    fill junk 'a' '.a' '=1\n'
    try "a key of 4 million parts" 4 "" stress $files --scenarios junk
    fill junk '[a' '.a' ']\n'
    try "a table of 4 million parts" 4 "" stress $files --scenarios junk
    fill junk '' '[[scenario]]\n' '#\n'
    try "8 MB of scenarios" 4 "" stress $files --scenarios junk
    fill junk '[[scenario]]\nname="a"\n' '[[scenario.loss]]\n' '#\n'
    try "8 MB of losses" 4 "" stress $files --scenarios junk
    fill junk '' '[[scenario.loss.a]]\n' '#\n'
    try "8 MB of nested losses" 4 "" stress $files --scenarios junk
    fill junk '[[scenario]]\nname="' 'a' '"\n'
    try "a scenario's name of 8 MB" 4 "clearing: scenarios row 1: name (3)" stress $files --scenarios junk
    fill junk '[[scenario]]\nname="a"\n[[scenario.loss]]\namount=1\nbank="' 'a' '"\n'
    try "a loss's bank of 8 MB" 4 "clearing: scenarios row 1: unknown bank (8)" stress $files --scenarios junk
    fill junk '[[scenario]]\nname="a"\ncut=' '0' '\n'
    try "a cut of 8 MB" 4 "clearing: scenarios row 0: toml (16)" stress $files --scenarios junk
    { seq 1 600000 | sed 's/.*/k&=1/'; } >junk
    try "600,000 keys" 4 "clearing: scenarios row 0: shape (17)" stress $files --scenarios junk
    { seq 1 500000 | sed 's/.*/[t&]/'; } >junk
    try "500,000 tables" 4 "clearing: scenarios row 0: shape (17)" stress $files --scenarios junk
    { seq 1 100 | sed 's/.*/[[scenario]]\nname="&"/'; } >junk
    try "100 scenarios" 0 "" stress $files --scenarios junk
    { seq 1 101 | sed 's/.*/[[scenario]]\nname="&"/'; } >junk
    try "101 scenarios" 4 "clearing: scenarios row 101: too many (12)" stress $files --scenarios junk
}
