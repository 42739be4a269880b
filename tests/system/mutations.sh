#!/bin/sh
# Alters files at random and gives them to each reader of the package: networks, journals, scenarios, texts of the program, sheets,
# workbooks, commands and folders of evidence.
#
#   tests/system/mutations.sh [--record] [N [SEED]]    2,000 files and seed 1 where none is given
#
# A case is a file. Its reader must refuse it by a message, or read what another reader reads of it: the program, audit.py, or a plain
# one that stands in mutations.py. A traceback, or a number that was read otherwise, is wrong, and its file stays in a folder that is
# named. The last line is `N files, M wrong`; the script ends with 1 where some are wrong. With --record what a run to the end ended
# with is a line of docs/runs.tsv. Wants Python 3.11 or later.
. "$(dirname "$0")/lib.sh"
trap : INT TERM
CLEARING=$program "${PYTHON:-python3}" "$root/tests/system/mutations.py" "${1:-2000}" "${2:-1}"
status=$?
[ ! -d wrong ] || { trap - EXIT; echo "see $work/wrong"; }
tell_told mutations.sh || status=1
exit $status
