# Each fault of a file, and files that just have none. Read by tests/system/edge.sh.

# A file below a header, or a document, and what is found in it: a row, a kind and its number, or nothing.
status_of() { if [ -n "$1" ]; then echo 4; else echo 0; fi; }
banks_fault() { # the fault, the header, the records; as printf has them
    printf -- "$2\n$3" >tried.csv
    try "banks: $2: $3" "$(status_of "$1")" "${1:+clearing: banks row $1}" check --banks tried.csv --debts no-debts.csv
}
debts_fault() {
    printf -- "debtor,creditor,class,claim\n$2" >tried.csv
    try "debts: $2" "$(status_of "$1")" "${1:+clearing: debts row $1}" check --banks banks.csv --debts tried.csv
}
scenarios_fault() {
    printf -- "$2\n" >tried.toml
    try "scenarios: $2" "$(status_of "$1")" "${1:+clearing: scenarios row $1}" stress $files --scenarios tried.toml
}
journal_fault() {
    printf -- "stamp,debtor,creditor,class,to\n$2" >tried.csv
    try "journal: $2" 4 "clearing: journal row $1" replay $files --journal tried.csv
}
journal_verdict() { # the verdict, the records
    printf -- "stamp,debtor,creditor,class,to\n$2" >tried.csv
    run replay $files --journal tried.csv
    case $1 in lawful*) wanted=0 ;; *) wanted=7 ;; esac
    judge "journal: $2" $wanted
    [ "$(head -n 1 out.csv)" = "$1" ] || fail "journal: $2" "$(head -n 1 out.csv) in place of $1"
    [ $wanted = 0 ] || [ "$(wc -l <out.csv)" = 1 ] || fail "journal: $2" "more than a verdict"
}

part_faults() {
    one="name,cash,rule" two="name,cash,rule,outside"
    for good in "A,1,order" " A ,\t1 ,order " '"A",1,"order"' '" A ",1,order' "A,01,order\r\nB,2,adams" "A,1,order\rB,2,adams" "\n\nA,1,order" \
        ",\nA,1,order\n,,,,\n" "$(head -c 64 /dev/zero | tr '\0' n),1,order" '\303\251,1,equal' "A B,1,losses" "A,1000000000000,webster" ""; do
        banks_fault "" "$one" "$good"
    done
    banks_fault "" '\n\r\n name ,"\tcash",rule' "A,1,order"
    banks_fault "" '\357\273\277name,cash,rule' "A,1,order"
    banks_fault "" "$two" "A,1,order,100000000000"
    for header in "name,cash" "Name,cash,rule" "name,cash,rule," "name,cash,rule,outside,x" "cash,name,rule" "na me,cash,rule" ",\n$one" 'name, "cash",rule' \
        '\357\273\277\357\273\277name,cash,rule' ' \357\273\277name,cash,rule' 'name;cash;rule' "name,cash,rule,Outside"; do
        banks_fault "0: header (1)" "$header" "A,1,order"
    done
    for bad in "A,1" "A" "A,1,order,0" "A,1,order," "x" "A,1,order,x,y"; do banks_fault "1: fields (2)" "$one" "$bad"; done
    for bad in "A,1,order" "A,1,order,0,0"; do banks_fault "1: fields (2)" "$two" "$bad"; done
    for bad in ",1,order" '"A,B",1,order' '"A""B",1,order' 'A"B,1,order' '"A\nB",1,order' '\377,1,order' 'A\000B,1,order' 'A\177,1,order' \
        'A\302\205B,1,order' '\355\240\200,1,order' '\300\257,1,order' '\364\220\200\200,1,order' 'A\tB,1,order' \
        "$(head -c 65 /dev/zero | tr '\0' n),1,order" ',x,y'; do
        banks_fault "1: name (3)" "$one" "$bad"
    done
    for bad in "A,,order" "A,-1,order" "A,+1,order" "A,1.0,order" "A,1 0,order" "A,0x1,order" "A,000000000000000000001,order" "A,1e3,x"; do
        banks_fault "1: number (4)" "$one" "$bad"
    done
    for bad in "A,1,Order" "A,1," "A,1,orders" "A,1,ord er" "A,1,proportional"; do banks_fault "1: rule (5)" "$one" "$bad"; done
    banks_fault "1: limit (6)" "$one" "A,1000000000001,x"
    banks_fault "1: number (4)" "$two" "A,1,order,x"
    banks_fault "1: number (4)" "$two" "A,1,order,"
    banks_fault "1: limit (6)" "$two" "A,1,order,100000000001"
    banks_fault "3: double bank (7)" "$one" "A,1,order\n,\n A,x,y"
    banks_fault "2: name (3)" "$one" "A,1,order\n,1,order"

    for bad in "A,B,1" "A,B,1,1,1" "x"; do debts_fault "1: fields (2)" "$bad"; done
    debts_fault "" "A,B,1,0\nB,A,1,0\nA,B,2,1000000"
    debts_fault "1: name (3)" ",B,1,1"
    debts_fault "1: name (3)" "A,,1,1"
    debts_fault "1: unknown bank (8)" "X,,1,1"
    debts_fault "1: unknown bank (8)" "a,B,1,1"
    debts_fault "1: unknown bank (8)" "A,X,x,x"
    debts_fault "1: self debt (9)" "A,A,x,x"
    for class in 0 10 01 x -1 1.0 ""; do debts_fault "1: class (10)" "A,B,$class,x"; done
    for claim in x -1 "" 1.5 000000000000000000001; do debts_fault "1: number (4)" "A,B,1,$claim"; done
    debts_fault "1: limit (6)" "A,B,1,1000001"
    debts_fault "2: double debt (11)" "A,B,1,1\nA,B,1,1"
    debts_fault "2: limit (6)" "A,B,1,1\nA,B,1,1000001"

    half='[[scenario]]\nname="a"\n'
    for good in '' '# none' 'scenario = []' "${half}cut=1000" "${half}cut=0x1F4" "${half}cut=0b1" "${half}cut=1_0" "${half}loss=[]" \
        "${half}loss=[{bank=\"A\",amount=1000000000000},{bank='B',amount=0}]" 'scenario=[{name=" a "}]' '[[ scenario ]]\n"name"="""a"""' \
        '[[scenario]]\nname="\\u00e9"'; do
        scenarios_fault "" "$good"
    done
    for bad in 'scenario = 1' 'scenario = {}' '[scenario]' 'scenario = "a"' 'other = 1' 'other = []' "${half}[[other]]" 'scenario.a = 1' \
        "x=1\n$half" '"scenario "=[]'; do
        scenarios_fault "0: shape (17)" "$bad"
    done
    for bad in 'a' '[[scenario]' '[[scenario]]\nname="a' "${half}name=\"b\"" "${half}cut=9223372036854775808" "${half}cut=01" '\377' \
        '#\377' '\000' 'a=1\na=2' 'scenario=[]\n[[scenario]]' '[a]\n[a]' 'a=\302' '#\355\240\200'; do
        scenarios_fault "0: toml (16)" "$bad"
    done
    for bad in 'scenario = [1]' 'scenario = [[]]' '[[scenario]]' 'scenario=[{}]' '[[scenario]]\nname=1' "${half}cut=\"5\"" "${half}cut=1.5" \
        "${half}cut=true" "${half}cut=1979-05-27" "${half}cuts=1" "${half}loss=1" "${half}loss={}" "${half}loss=[1]" "${half}[[scenario.loss]]" \
        "${half}loss=[{bank=\"A\"}]" "${half}loss=[{amount=1}]" "${half}loss=[{bank=1,amount=1}]" "${half}loss=[{bank=\"A\",amount=\"1\"}]" \
        "${half}loss=[{bank=\"A\",amount=1.0}]" "${half}loss=[{bank=\"A\",amount=1,x=1}]" "${half}loss=[{bank=\"X\",amount=1},{bank=\"A\"}]" \
        "[[scenario]]\nname=\"\"\ncut=1001\nx=1"; do
        scenarios_fault "1: shape (17)" "$bad"
    done
    for bad in '""' '"a,b"' '"a\\"b"' '"\\u0007"' '"\\u0085"' "\"$(head -c 65 /dev/zero | tr '\0' n)\"" '"""a\nb"""' '""\ncut=1001'; do
        scenarios_fault "1: name (3)" "[[scenario]]\nname=$bad"
    done
    for bad in 'cut=1001' 'cut=-1' 'cut=9223372036854775807' 'cut=-9223372036854775808' 'loss=[{bank="A",amount=1000000000001}]' \
        'loss=[{bank="A",amount=-1}]' 'cut=1001\nloss=[{bank="X",amount=1}]' 'loss=[{bank="A",amount=-1},{bank="X",amount=1}]'; do
        scenarios_fault "1: limit (6)" "$half$bad"
    done
    scenarios_fault "1: unknown bank (8)" "${half}loss=[{bank=\"X\",amount=-1}]"
    scenarios_fault "1: unknown bank (8)" "${half}loss=[{bank=\" A\",amount=1}]"
    scenarios_fault "1: unknown bank (8)" "${half}loss=[{bank=\"\",amount=1}]"
    scenarios_fault "1: double bank (7)" "${half}loss=[{bank=\"A\",amount=1},{bank=\"A\",amount=-1}]"
    scenarios_fault "1: limit (6)" "${half}cut=1001\n[[scenario]]\nx=1"
    scenarios_fault "2: shape (17)" "${half}cut=1000\n[[scenario]]\nx=1"
    scenarios_fault "2: shape (17)" 'scenario=[{name="a"},1]'

    whole="1,A,B,1,7\n2,B,C,1,8\n"
    for good in "" "rounds,2\n" "rounds,2" "rounds,2\n,\n\n" " rounds ,\t2 \n" 'rounds,"2"\n' "rounds,99999999999999999999\n" "rounds,0\n" ",,,,\nrounds,1\n"; do
        journal_verdict "lawful,2" "$whole$good"
    done
    journal_verdict "lawful,2" "7,A,B,1,7\n7,B,C,1,8\n"
    journal_verdict "lawful,3" "0,B,C,1,1\n0,A,B,1,7\n4294967295,B,C,1,8\n"
    journal_verdict "unfinished,A" ""
    journal_verdict "unfinished,A" "rounds,5\n"
    journal_verdict "unfinished,B" "1,A,B,1,7\n"
    journal_verdict "falls,2,2,1" "2,A,B,1,7\n1,B,C,1,99\n"
    journal_verdict "unlawful,1,0,7" "1,A,B,1,8\n"
    journal_verdict "unlawful,1,0,7" "1,A,B,1,0\n"
    journal_verdict "unlawful,2,7,7" "1,A,B,1,7\n1,A,B,1,7\n"
    journal_verdict "unlawful,1,0,1" "1,B,C,1,2\n"
    for bad in "rounds" "rounds,x" "rounds,2,3" "rounds,000000000000000000001" "Rounds,2" "rounds,-1" "rounds,"; do
        journal_fault "3: fields (2)" "$whole$bad\n"
    done
    journal_fault "1: fields (2)" "rounds,2\n$whole"
    journal_fault "3: fields (2)" "${whole}rounds,2\nrounds,2\n"
    journal_fault "2: fields (2)" "1,A,B,1,8\nx"
    journal_fault "1: number (4)" "x,,,,"
    journal_fault "1: limit (6)" "4294967296,,,,"
    journal_fault "1: name (3)" "1,,B,1,7"
    journal_fault "1: unknown bank (8)" "1,X,,1,7"
    journal_fault "1: name (3)" "1,A,,1,7"
    journal_fault "1: unknown bank (8)" "1,A,X,x,7"
    journal_fault "1: class (10)" "1,A,B,0,x"
    journal_fault "1: unknown debt (15)" "1,A,C,1,x"
    journal_fault "1: unknown debt (15)" "1,A,A,1,x"
    journal_fault "1: number (4)" "1,A,B,1,x"
    journal_fault "1: limit (6)" "1,A,B,1,1000001"
}
