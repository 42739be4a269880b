#!/bin/sh
# Tests the tools and the package against the program and ends with a line `N passed, M failed`, or `N passed, M failed, K skipped` after a
# line with its reason for each test that was skipped.
#
#   tools/dev/test.sh [--wheel FILE] [--skips-fail FILE] [--note TEXT] [--without NAMES] [MODULE]...
#
# All of tests/test_*.py, or these alone, such as test_lint. With --skips-fail a skip is a failure, but for the tests that a file names
# with their reasons, as tests/skips.txt does. A note is a line before the last. With --without the packages of these names, with
# commas between, are as if they were missing. With --wheel, the first word, a wheel that has the program is installed outside the
# repository, and the tests are run on that program and those packages; tests/wheel.txt names the modules that this leaves out, and why.
#
# Wants Python 3 and its standard library alone; what a test needs beside is looked for, and the test skipped where it is not
# there. A line before the last says which of Debian's packages are missing. The environment variable CLEARING names the program,
# else it is the repository's `./clearing`, which is built first where it is not built yet. PYTHON names the Python, else it is
# python3.
#
# Ends with 0 where no test failed, else with 1.

# Of the path the absolute entries alone count: no command is one that the working folder has.
set -f; IFS=: path=; for entry in $PATH; do case $entry in /*) path=$path:$entry ;; esac; done
PATH=${path#:} && export PATH; unset IFS; set +f

case "${1:-}" in
--help | -h)
    sed -n '2,17s/^# \{0,1\}//p' "$0" || exit 1
    exit 0
    ;;
esac
unset CDPATH
wheel=
if [ "${1:-}" = --wheel ] && [ $# -gt 1 ]; then
    wheel=$(realpath -- "$2") || exit 1
    # The program is that of the wheel.
    unset CLEARING
    shift 2
fi
# A relative name is one of the caller's folder.
case "${CLEARING:-}" in
*/*) CLEARING=$(realpath -- "$CLEARING") && export CLEARING || exit 1 ;;
esac
case $(realpath -- "$(command -v -- "${CLEARING:-}")" 2>/dev/null) in
*/first-look) echo "test.sh: $CLEARING is a first look, which is not proved" >&2 && exit 1 ;;
esac
if [ "${1:-}" = --skips-fail ] && [ $# -gt 1 ]; then
    list=$(realpath -- "$2") || exit 1
    shift 2
    set -- --skips-fail "$list" "$@"
fi
missing=$("$(dirname -- "$0")/../../tests/packages.sh" missing) || set -- --note "Tests want packages that are not here: apt-get install $missing" "$@"
cd -- "$(dirname -- "$0")/../../tests" || exit 1
export PYTHONDONTWRITEBYTECODE=1
[ -z "$wheel" ] || exec "${PYTHON:-python3}" wheel.py "$wheel" "$@"
exec "${PYTHON:-python3}" run.py "$@"
