#!/bin/sh
# Draws the pictures of docs/pictures anew from the examples.
#
#   tools/dev/pictures.sh [FOLDER]     docs/pictures where no folder is named
#
# Out:  the networks, the shortfalls and the scenarios as SVG. tools/dev/report_pictures.py takes those of the report.
#
# Wants a python3 with matplotlib; the environment variables CLEARING and PYTHON name another program and another python3. Ends with 0,
# with 1 where a picture cannot be made, and with 2 where the words are not understood.
case "${1:-}" in
--help | -h)
    sed -n '2,10s/^# \{0,1\}//p' "$0" || exit 1
    exit 0
    ;;
-*)
    echo "pictures.sh: the only word is a folder" >&2
    exit 2
    ;;
esac
if [ $# -gt 1 ] || { [ $# -eq 1 ] && [ -z "$1" ]; }; then
    echo "pictures.sh: the only word is a folder" >&2
    exit 2
fi
unset CDPATH
root=$(dirname -- "$(dirname -- "$(dirname -- "$(realpath -- "$0")")")")
to=$(realpath -m -- "${1:-$root/docs/pictures}")
program=$(realpath -- "${CLEARING:-$root/clearing}")
case $program in */first-look) echo "pictures.sh: $CLEARING is a first look, which is not proved" >&2 && exit 1 ;; esac
python=${PYTHON:-python3}
work=$(mktemp -d) || exit 1
trap 'rm -rf "$work"' EXIT
set -e
cd "$root"
mkdir -p -- "$to"
for name in twelve-banks hub gridlock core; do
    files="--banks examples/$name/banks.csv --debts examples/$name/debts.csv"
    for task in clear defaults bounds; do
        "$program" $task $files >"$work/$name-$task.csv"
    done
    "$python" bin/clearing-who-pays "$work/$name-clear.csv" "$work/$name-defaults.csv" --bounds "$work/$name-bounds.csv" \
        --banks "examples/$name/banks.csv" --output "$to/$name.svg"
done
"$program" stress --banks examples/twelve-banks/banks.csv --debts examples/twelve-banks/debts.csv \
    --scenarios examples/twelve-banks/scenarios.toml >"$work/stress.csv"
"$python" bin/clearing-shortfalls "$work/core-defaults.csv" "$to/core-shortfalls.svg" --payments "$work/core-clear.csv"
"$python" bin/clearing-stress-map "$work/stress.csv" "$to/twelve-banks-stress.svg"
