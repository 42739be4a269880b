# Little memory. Read by tests/system/edge.sh.

# Runs in a capped address space, from little to enough. Where there is not even room for the program to be loaded, no case is
# counted.
cap() { # the words
    run "$@"
    cp out.csv whole.csv
    for size in 3000 4000 5000 6000 7000 8000 9000 10000 12000 14000 16000 20000 26000 32000 40000 52000 64000 80000 100000 140000 \
        200000 300000 600000; do
        (
            ulimit -v $size
            exec "$program" "$@" >out.csv 2>err.txt
        ) 2>shell.txt
        status=$?
        # Without words it ends with 2, where it is loaded at all.
        (
            ulimit -v $size
            exec "$program" >loaded.txt 2>&1
        ) 2>/dev/null
        [ $? = 2 ] || continue
        judge "$size KB of memory: $*" "0|6" "" whole.csv
    done
}

part_memory() {
    cap check $files
    cap clear $files --workers 1 --show both
    cap clear $large --workers 1
    cap clear $large --workers 4
    cap clear $large --workers 64
    cap central $large
    cap defaults $large --workers 16
    cap bounds $large --workers 4
    cap compress $large
    cap costs $large --keep 900
    cap cost-bounds $large --keep 900
    cap breaking $files
    cap impact $files
    cap rescues $files
    cap rescue $files --bank B --workers 8
    cap gen --seed 1 --size 1000 --tries 20000
    for _ in 1 2 3 4 5 6 7 8 9; do printf '[[scenario]]\nname = "half"\ncut = 500\n'; done >many.toml
    cap stress $files --scenarios many.toml --workers 2
    cap stress $large --scenarios many.toml --workers 2
    cap outcomes $files --scenarios many.toml
    cap outcomes $large --scenarios many.toml
    # A stack of some 80 KB is needed.
    run clear $large --workers 4
    mv out.csv whole.csv
    for size in 128 256 1024; do
        (
            ulimit -s $size
            exec timeout 60 "$program" clear $large --workers 4 >out.csv 2>err.txt
        )
        status=$?
        judge "a stack of $size KB: clear" "0|6" "" whole.csv
    done
}
