#!/bin/sh
# Which of Debian's packages that tests want are missing. tests/packages.txt names them.
#
#   tests/packages.sh missing     prints the names of those that are missing, in one line
#   tests/packages.sh install     installs them, which wants root: quiet, in three tries, in ten minutes at most
#
# The last try takes each package alone, so that one that is nowhere to be had keeps no other out. PACKAGES_SECONDS in the environment is
# another limit than the ten minutes.
#
# Ends with 0 where none is missing, after `install` at its end; with 1 where some are, which `install` names in its last line;
# and with 2 where the words are not understood.
list=$(dirname -- "$(realpath -- "$0")")/packages.txt

missing() {
    # shellcheck disable=SC2046
    set -- $(sed 's/#.*//' "$list")
    there=$(dpkg-query -W -f='${Package} ${db:Status-Status}\n' "$@" 2>/dev/null | sed -n 's/ installed$//p')
    for name in "$@"; do
        echo "$there" | grep -Fqx -- "$name" || echo "$name"
    done
}

# One call of apt-get, which is ended where no time is left.
apt() { # its words
    left=$((until - $(date +%s)))
    [ "$left" -gt 0 ] || return 1
    DEBIAN_FRONTEND=noninteractive timeout -k 5 "$left" apt-get -qq -o DPkg::Lock::Timeout=60 "$@" >"$log" 2>&1 </dev/null
}

try_to_install() { # the number of the try
    # What an earlier try was ended in, by its limit or a signal, stands in the way of all that follow.
    DEBIAN_FRONTEND=noninteractive dpkg --configure -a >"$log" 2>&1 </dev/null
    apt update
    # shellcheck disable=SC2046
    if [ "$1" -lt 3 ]; then
        apt install -y --no-install-recommends $(missing)
    else
        for name in $(missing); do apt install -y --no-install-recommends "$name"; done
    fi
}

install_all() {
    until=$(($(date +%s) + ${PACKAGES_SECONDS:-600}))
    log=$(mktemp) || exit 1
    trap 'rm -f "$log"' EXIT
    for number in 1 2 3; do
        [ -n "$(missing)" ] || exit 0
        [ "$number" = 1 ] || sleep 5
        try_to_install "$number" || tail -n 5 "$log"
    done
    left_out=$(missing)
    [ -n "$left_out" ] || exit 0
    echo "packages that could not be installed:" $left_out
    exit 1
}

case "$#:${1:-}" in
1:--help | 1:-h) sed -n '2,12s/^# \{0,1\}//p' "$0" || exit 1 ;;
1:missing)
    names=$(missing)
    [ -n "$names" ] || exit 0
    echo $names
    exit 1
    ;;
1:install) install_all ;;
*)
    echo "packages.sh: 'missing' or 'install' is wanted" >&2
    exit 2
    ;;
esac
