#!/bin/sh
# Compares a release's record with a build of one's own: tools/dev/check_record.sh RECORD, in a checkout of the commit that it names.
record=$(realpath -- "$1") && cd -- "$(dirname -- "$(realpath -- "$0")")/../.." || exit 2
of() { sed -n "s/^$1 //p" "$record"; }
wrong=0
same() { [ "$2" = "$3" ] && echo "same: $1 $2" || { echo "differs: $1 is $2 in the record, and here $3"; wrong=1; }; }
./clearing check --banks examples/chain/banks.csv --debts examples/chain/debts.csv >/dev/null || exit 1
same commit "$(of commit)" "$(git rev-parse HEAD)"
same toolchain "$(of toolchain)" "$(rt version)"
same program "$(of program)" "$(sha256sum <crates/clear_main/out/clear_main | cut -d ' ' -f 1)"
exit $wrong
