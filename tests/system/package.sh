#!/bin/sh
# Installs the Debian package of a release in a clean root, runs it there, and removes it.
#
#   tests/system/package.sh DEB [ROOT]
#
# In:   DEB, what tools/dev/release.sh made. ROOT, a system that debootstrap made; without it one is made, which wants the network. It must be
#       run as root.
# Out:  a line for each step, and `N passed, M failed` last. Another root is left as it was: all of it is compared by names, rights and
#       checksums.
#
# Ends with 0 where all went well, with 1 where not, and with 2 where the words are not understood or there is no root.
[ $# -eq 1 ] || [ $# -eq 2 ] || { echo "package.sh: a package is wanted, and perhaps a root" >&2; exit 2; }
package=$(realpath -- "$1") root=${2-}
work=$(mktemp -d) || exit 2
trap 'rm -rf -- "$work"' EXIT
trap 'exit 1' HUP INT TERM
if [ -z "$root" ]; then
    root=$work/root
    debootstrap --variant=minbase bookworm "$root" >"$work/log" 2>&1 || { echo "package.sh: no root can be made: $(tail -n 1 "$work/log")" >&2; exit 2; }
fi
passed=0 failed=0

step() { # what is shown, and the words of a command
    said=$1
    shift
    if "$@" >"$work/said" 2>&1; then
        passed=$((passed + 1)) && echo "passed: $said"
    else
        failed=$((failed + 1)) && echo "failed: $said" && cat "$work/said"
    fi
}

inside() { chroot "$root" /usr/bin/env -i PATH=/usr/sbin:/usr/bin:/sbin:/bin LC_ALL=C.UTF-8 "$@"; }

# All but what dpkg writes of its own work.
state() {
    (cd "$root" && find . -xdev \( -path ./proc -o -path ./sys -o -path ./dev -o -path ./var/lib/dpkg -o -path ./var/log -o -path ./tmp \) -prune \
        -o ! -type d -printf '%p %m %U %G %l\n' -o -type d -printf '%p %m %U %G\n' | sort
    cd "$root" && find usr etc bin sbin lib -xdev -type f -exec sha256sum {} + | sort)
}

state >"$work/before"
cp -- "$package" "$root/tmp/package.deb"
step "it is installed" inside dpkg --install /tmp/package.deb
step "all of it is for all to read, and for root alone to write" sh -c 'test -s "$0/usr/share/clearing/bin/clearing-lint" && test -z "$(find "$0/usr/share/clearing" "$0/usr/share/doc/clearing" "$0/usr/bin/clearing" ! -type l \( -perm /022 -o ! -perm -044 -o ! -user root \))"' "$root"
example=/usr/share/doc/clearing/examples/chain
step "the program clears" sh -c '"$@" | grep -qx A,B,1,10,7' sh chroot "$root" clearing clear --banks $example/banks.csv --debts $example/debts.csv
step "each link leads somewhere" sh -c 'test -h "$0/usr/bin/clearing-lint" && for link in "$0"/usr/bin/clearing-*; do test -e "$0/usr/bin/$(readlink "$link")" || exit 1; done' "$root"
step "pages are HTML of pandoc" grep -q '<meta name="generator" content="pandoc"' "$root/usr/share/doc/clearing/guide.html"
step "the completions are there" test -s "$root/usr/share/bash-completion/completions/clearing" -a -s "$root/usr/share/zsh/vendor-completions/_clearing" \
    -a -s "$root/usr/share/fish/vendor_completions.d/clearing.fish"
step "dpkg finds it whole" inside dpkg --verify clearing
step "it is installed again over itself" inside dpkg --install /tmp/package.deb
if [ -x "$root/usr/bin/python3" ]; then
    step "a tool asks the program beside it" sh -c '"$@" | grep -q "^checked: each journal"' sh chroot "$root" sh -c \
        "cd /tmp && clearing-evidence make e --banks $example/banks.csv --debts $example/debts.csv && clearing-evidence check e"
    rm -rf "$root/tmp/e"
fi
step "it is removed" inside dpkg --purge clearing
rm -f "$root/tmp/package.deb"
state >"$work/after"
step "nothing is left" diff "$work/before" "$work/after"
echo "$passed passed, $failed failed"
[ "$failed" -eq 0 ]
