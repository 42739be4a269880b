# The command line. Read by tests/system/edge.sh.

part_words() {
    bad=$(printf 'a\377b')
    try "no words" 2 ""
    try "a word that ends the options" 0 "" check $files --
    try "a task behind the word that ends the options" 0 "" $files -- check
    try "options behind the word that ends them" 2 "" -- check $files
    for word in "" "$bad" - --help -h --version -V help Check chec "check " checks "$(head -c 100000 /dev/zero | tr '\0' 'x')"; do
        try "one word" 2 "" "$word"
        try "a wrong task" 2 "" "$word" $files
        try "one word more" 2 "" check $files "$word"
        try "one word before" 2 "" "$word" check $files
    done
    for name in "" -x - --debts "$bad"; do
        try "no file name" 2 "" check --banks "$name" --debts debts.csv
        try "no file name" 2 "" check "--banks=$name" --debts debts.csv
        try "no bank's name" 2 "" rescue $files --bank "$name"
        try "no bank's name" 2 "" rescue $files "--bank=$name"
    done
    try "no file name" 2 "" check --debts debts.csv --banks
    try "a file name with a dash in a folder" 3 "clearing: cannot read ./-x" check --banks ./-x --debts debts.csv
    try "a bank's name with a comma" 2 "" rescue $files --bank "A,B"
    try "a bank's name of 65 bytes" 2 "" rescue $files --bank "$(head -c 65 /dev/zero | tr '\0' 'x')"
    try "a bank's name of a control character" 2 "" rescue $files --bank "$(printf 'a\001')"
    try "a bank's name with a blank" 4 "clearing: words row 0: unknown bank (8)" rescue $files --bank "B "
    try "an option twice" 2 "" check $files --banks banks.csv
    try "an option of another task" 2 "" check $files --workers 1
    try "an option of another task" 2 "" central $files --workers 1
    for task in breaking impact rescues "outcomes --scenarios scenarios.toml" "cost-bounds --keep 1"; do
        try "an option of another task" 2 "" $task $files --workers 1
    done
    try "an option of another task" 2 "" impact $files --bank A
    try "an option of another task" 2 "" gen $files --seed 1 --size 1 --tries 0
    try "an option is missing" 2 "" check --banks banks.csv
    try "an option is missing" 2 "" stress $files
    try "an option is missing" 2 "" replay $files
    try "an option is missing" 2 "" rescue $files
    try "an option is missing" 2 "" costs $files
    try "an option is missing" 2 "" cost-bounds $files
    try "an option is missing" 2 "" outcomes $files
    try "an option is missing" 2 "" gen --seed 1 --size 1
    try "an unknown option" 2 "" check $files --colour
    try "an unknown option" 2 "" check $files --bank=A
    try "a short form" 2 "" check --bank banks.csv --debt debts.csv
    for number in "" 0 65 -1 +1 1.0 1e1 " 1" "1 " 0x1 ١ 000000000000000000001 18446744073709551617 "$bad" one; do
        try "workers" 2 "" clear $files --workers "$number"
        try "workers" 2 "" clear $files "--workers=$number"
    done
    for number in 1 01 00000000000000000001 64; do
        try "workers" 0 "" clear $files --workers $number
        try "sweeps" 0 "" clear $files --sweeps $number
    done
    try "sweeps" 2 "" clear $files --sweeps 0
    try "sweeps" 0 "" clear $files --sweeps 1000
    try "sweeps" 2 "" clear $files --sweeps 1001
    try "keep" 0 "" costs $files --keep 0
    try "keep" 0 "" costs $files --keep 1000
    try "keep" 2 "" costs $files --keep 1001
    try "keep" 0 "" cost-bounds $files --keep 1000
    try "keep" 2 "" cost-bounds $files --keep 1001
    try "show" 2 "" clear $files --show all
    try "show" 2 "" clear $files --show Both
    try "seed" 0 "" gen --seed 18446744073709551615 --size 1 --tries 20000
    try "seed" 2 "" gen --seed 18446744073709551616 --size 1 --tries 0
    try "size" 2 "" gen --seed 1 --size 0 --tries 0
    try "size" 2 "" gen --seed 1 --size 1001 --tries 0
    try "tries" 2 "" gen --seed 1 --size 1 --tries 20001
    try "options before the task" 0 "" $files check
    try "options round the task" 0 "" --banks banks.csv check --debts=debts.csv
    try "an equals sign in a name" 3 "clearing: cannot read =" check --banks== --debts debts.csv
    try "10,000 words" 2 "" $(seq 1 10000)
    try "10,000 words" 2 "" check $(yes -- --banks | head -n 10000)
    try "10,000 options" 2 "" check $(yes -- --banks=banks.csv | head -n 10000)
    try "10,000 unknown options" 2 "" check $(seq 1 10000 | sed 's/^/--/')
    long=$(head -c 100000 /dev/zero | tr '\0' 'x')
    try "a long name" 3 "clearing: cannot read $long" check --banks "$long" --debts debts.csv
    # The name stands in the message as it was given.
    two_lines=$(printf 'a\nb')
    try "a name of two lines" 3 "clearing: cannot read $two_lines" check --banks "$two_lines" --debts debts.csv
}
