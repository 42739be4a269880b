# A disk that is full, and files that change while they are read. Read by tests/system/edge.sh.

# Runs with the output on a disk of its own, which has room for so many KB.
on_a_disk() { # the KB, the words
    room=$1
    shift
    mkdir -p disk
    unshare $spaces sh -c 'mount -t tmpfs -o size="$1"k none disk || exit 99
        shift
        timeout -k 5 60 "$@" >disk/out.csv 2>err.txt </dev/null
        status=$?
        cat disk/out.csv >out.csv
        exit $status' sh "$room" "$program" "$@"
    status=$?
}

part_disks() {
    spaces=-m
    [ "$(id -u)" = 0 ] || spaces=-rm
    mkdir -p disk
    if ! unshare $spaces mount -t tmpfs none disk 2>/dev/null; then
        echo "disks: left out, since no disk can be mounted"
        return
    fi
    for words in "check $large" "clear $large --show both --workers 1" "central $large" "defaults $large" "compress $large" "costs $large --keep 1" "cost-bounds $large --keep 1"; do
        run $words
        mv out.csv whole.csv
        size=$((($(wc -c <whole.csv) + 1023) / 1024))
        for room in 4 16 $((size / 2)) $((size - 4)); do
            on_a_disk $room $words
            judge "a disk of $room KB: $words" 5 "" whole.csv
            [ "$(wc -c <out.csv)" -gt 0 ] || fail "a disk of $room KB: $words" "nothing is written, though there was room"
        done
        on_a_disk $((size + 8)) $words
        judge "a disk with room enough: $words" 0 "" whole.csv
    done
}

# The output is refused with nothing written, or its debts are a front of the debts that the file ever had.
judge_front() { # the case, the statuses
    judge "$1" "$2"
    [ "$status" = 0 ] || return
    sed '1,/^$/d' out.csv | sed '1,/^$/d' >seen.csv
    # The last line may have been cut within its claim.
    head -c $(($(wc -c <seen.csv) - 1)) seen.csv >front.csv
    head -c "$(wc -c <front.csv)" large-debts.csv | cmp -s - front.csv || fail "$1" "the debts are no front of the file's"
}

# Changes the file changing.csv in one of several ways, as long as there is a file `going`.
keep_changing() { # the way
    while [ -e going ]; do
        case $1 in
            grows) cat large-debts.csv >changing.csv ;;
            shrinks)
                for size in 300000 200000 100000 50000 1000 28; do truncate -s $size changing.csv; done
                cat large-debts.csv >changing.csv
                ;;
            "is replaced") cp large-debts.csv next.csv && mv next.csv changing.csv ;;
            "comes and goes")
                rm -f changing.csv
                cp large-debts.csv next.csv && mv next.csv changing.csv
                ;;
            "gets blanks")
                # Past the limit of a file and back; the debts stay.
                truncate -s "$whole_size" changing.csv
                yes '' 2>/dev/null | head -c 9000000 >>changing.csv
                ;;
        esac
    done
}

part_changing() {
    whole_size=$(wc -c <large-debts.csv)
    for way in grows shrinks "is replaced" "comes and goes" "gets blanks"; do
        cp large-debts.csv changing.csv
        : >going
        keep_changing "$way" &
        changer=$!
        for number in 1 2 3 4 5 6 7 8 9 10 11 12 13 14 15 16 17 18 19 20 21 22 23 24 25 26 27 28 29 30; do
            run check --banks large-banks.csv --debts changing.csv
            case $way in
                grows | shrinks) judge_front "a file that $way: run $number" "0|4" ;;
                "is replaced") judge_front "a file that $way: run $number" 0 ;;
                "comes and goes") judge_front "a file that $way: run $number" "0|3" ;;
                "gets blanks") judge_front "a file that $way: run $number" "0|4" ;;
            esac
        done
        rm going
        wait $changer
    done
}
