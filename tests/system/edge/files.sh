# What stands in the place of a file, and pipes as files. Read by tests/system/edge.sh.

part_files() {
    long=$(head -c 5000 /dev/zero | tr '\0' 'n')
    ln -s loop loop
    ln -s nowhere dangling
    for name in folder . / nothing.csv banks.csv/x folder/ loop dangling "$long" /proc/self/mem "$(printf 'a\tb')" é; do
        said="clearing: cannot read $name"
        for task in $two_file_tasks; do
            try "no file" 3 "$said" $task --banks "$name" --debts debts.csv
            try "no file" 3 "$said" $task --banks banks.csv --debts "$name"
        done
        try "no file" 3 "$said" rescue --bank B --banks "$name" --debts debts.csv
        try "no file" 3 "$said" rescue --bank X --banks banks.csv --debts "$name"
        try "no file" 3 "$said" costs --keep 1 --banks banks.csv --debts "$name"
        try "no file" 3 "$said" cost-bounds --keep 1 --banks banks.csv --debts "$name"
        try "no file" 3 "$said" outcomes $files --scenarios "$name"
        try "no file" 3 "$said" stress $files --scenarios "$name"
        try "no file" 3 "$said" replay $files --journal "$name"
        try "no file" 3 "$said" replay --banks "$name" --debts "$name" --journal "$name"
    done
    if [ "$(id -u)" != 0 ]; then
        cp banks.csv unreadable.csv
        chmod 0 unreadable.csv
        try "an unreadable file" 3 "clearing: cannot read unreadable.csv" check --banks unreadable.csv --debts debts.csv
    fi
    for name in /dev/null empty; do
        try "an empty file" 4 "clearing: banks row 0: header (1)" check --banks $name --debts debts.csv
        try "an empty file" 4 "clearing: debts row 0: header (1)" check --banks banks.csv --debts $name
        try "an empty file" 4 "clearing: journal row 0: header (1)" replay $files --journal $name
        : >whole.csv
        run stress $files --scenarios $name
        judge "an empty scenarios file" 0 "" whole.csv
    done
    for name in /dev/zero /dev/full; do
        try "an endless file" 4 "clearing: banks row 0: file size (14)" check --banks $name --debts debts.csv
        try "an endless file" 4 "clearing: debts row 0: file size (14)" clear --banks banks.csv --debts $name
        try "an endless file" 4 "clearing: scenarios row 0: file size (14)" stress $files --scenarios $name
    done
    # The sizes of all files come first, in order, and then their contents.
    try "order" 4 "clearing: banks row 0: file size (14)" check --banks /dev/zero --debts nothing.csv
    try "order" 3 "clearing: cannot read nothing.csv" check --banks empty --debts nothing.csv
    try "order" 3 "clearing: cannot read nothing.csv" stress --banks empty --debts empty --scenarios nothing.csv
    try "order" 4 "clearing: debts row 0: file size (14)" stress --banks empty --debts /dev/zero --scenarios nothing.csv
    try "order" 4 "clearing: banks row 0: header (1)" rescue --banks empty --debts empty --bank X
    try "no bank" 4 "clearing: words row 0: unknown bank (8)" rescue $files --bank X
    # One file in two places, and no folder to stand in.
    try "one file twice" 4 "clearing: debts row 0: header (1)" check --banks banks.csv --debts banks.csv
    mkdir gone
    (
        cd gone || exit
        rmdir ../gone
        exec timeout 60 "$program" check $files >"$work/out.csv" 2>"$work/err.txt"
    )
    status=$?
    judge "a folder that is gone" 3 "clearing: cannot read banks.csv"
    env -i "$program" check $files >out.csv 2>err.txt
    status=$?
    judge "no environment" 0
}

part_pipes() {
    run check $files
    mv out.csv whole.csv
    for which in banks debts; do
        rm -f pipe
        mkfifo pipe
        words=$(echo "$files" | sed "s/$which.csv/pipe/")
        cat $which.csv >pipe &
        run check $words
        judge "a pipe for $which" 0 "" whole.csv
        wait
        (
            while IFS= read -r record; do
                echo "$record"
                sleep 0.1
            done <$which.csv
        ) >pipe &
        run check $words
        judge "a slow pipe for $which" 0 "" whole.csv
        wait
        : >pipe &
        run check $words
        judge "a pipe of nothing for $which" 4 "clearing: $which row 0: header (1)"
        wait
        yes 2>/dev/null >pipe &
        run check $words
        judge "an endless pipe for $which" 4 "clearing: $which row 0: file size (14)"
        wait
    done
    for which in scenarios.toml journal.csv; do
        task=stress name=scenarios
        [ $which = journal.csv ] && task=replay name=journal
        run $task $files --$name $which
        mv out.csv whole.csv
        cat $which >pipe &
        run $task $files --$name pipe
        judge "a pipe for $which" 0 "" whole.csv
        wait
    done
    run check $files
    mv out.csv whole.csv
    timeout 60 "$program" check --banks /dev/stdin --debts debts.csv <banks.csv >out.csv 2>err.txt
    status=$?
    judge "standard input" 0 "" whole.csv
    cat banks.csv | timeout 60 "$program" check --banks /dev/stdin --debts debts.csv >out.csv 2>err.txt
    status=$?
    judge "a pipe as standard input" 0 "" whole.csv
    timeout 60 "$program" check --banks /dev/stdin --debts debts.csv <&- >out.csv 2>err.txt
    status=$?
    judge "a closed standard input" 3 "clearing: cannot read /dev/stdin"
}
