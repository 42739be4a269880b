#!/bin/sh
# Compares the program with a plain model, model.py, on random networks of 2 to 10,000 banks (networks.py), byte for byte.
#
#   tests/system/compare.sh [--record] [--wide] [N [SEED]]    100 networks and seed 1 where none is given
#
# A case is a run of the program, of which the status, the output and the messages are compared. Of each network there are some
# thirty: clear, central, defaults, bounds, costs and cost-bounds, rescue, stress and outcomes, check and convert, of small ones impact,
# rescues and breaking, and gen of another; journals of the model's, lawful and changed, are replayed; the journal of a run of several
# workers is judged by the model and replayed, as it is and changed, and what compress prints is judged. Of a hundred networks eleven
# have 9 to 30 banks, and of a thousand three have 200. One in fifty is at the edge of the standard limits or beyond, and with --wide
# each network is.
#
# Of those, seventeen in twenty have 1,000 to 1,200 banks or 20,000 to 20,100 debts, or owe 10,000,000 to 25,000,000 units; one in ten
# has up to 4,000 banks and 80,000 debts; and one in twenty is at the edge of the wide limits, with 10,000 banks, 1,000,000 debts,
# 25,000,000 units or a file of 167,772,160 bytes, or with one more. Each task but gen is asked for without an option and with
# `--limits wide`. Where a network passes the limits that it is read by, the program has to name the row and the kind, and else to answer
# as the model does. But impact, rescues and breaking are asked for up to 1,200 banks and 20,100 debts alone, since the model would take
# hours for more, and no journal has more raises than the standard limits allow. The model computes such networks in quicker ways
# (quick.py); it computes one in four of the small ones both ways. A network beyond takes some seconds, and with 1,000,000 debts some minutes
# and 1 GB of memory.
#
# Of the other networks the runs have the option now and then, which changes nothing.
#
# Each difference is printed, and the last line is `N networks, C cases, M networks differ`; the script ends with 1 where some
# differ, and the networks that do stay in a folder that it names. An interrupt ends it after the network at hand, with the counts so
# far. With --record what a run to the end ended with is a line of docs/runs.tsv. Wants Python 3.9 or later.
. "$(dirname "$0")/lib.sh"
wide=
if [ "${1:-}" = --wide ]; then wide=--wide && shift; fi
trap : INT TERM
# shellcheck disable=SC2086
python3 "$root/tests/system/compare.py" $wide "$program" "${1:-100}" "${2:-1}"
status=$?
[ ! -d differ ] || { trap - EXIT; echo "see $work/differ"; }
tell_told compare.sh || status=1
exit $status
