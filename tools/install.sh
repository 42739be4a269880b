#!/bin/sh
# Puts the built program, the tools, manual pages, completions for bash, zsh and fish, and the Python package under a prefix.
#
#   tools/install.sh [PREFIX]     /usr/local where no prefix is named
#
# In:   PREFIX, a folder that may be written; it is made where it is not there. The environment variable CLEARING names a
#       program to install in the place of the repository's, which is built first where it is not built yet.
# Out:  PREFIX/bin/clearing, PREFIX/share/man/man1/clearing.1, and the completions
#       PREFIX/share/bash-completion/completions/clearing, PREFIX/share/zsh/site-functions/_clearing and
#       PREFIX/share/fish/vendor_completions.d/clearing.fish; and, where there is a Python 3, for each tool NAME
#       PREFIX/bin/clearing-NAME and PREFIX/share/man/man1/clearing-NAME.1, with the tools themselves in
#       PREFIX/share/clearing/bin, the packages clearing_client and clearing_tools, which they call, in
#       PREFIX/share/clearing/python/src, the number of the release in PREFIX/share/clearing/VERSION, and
#       PREFIX/share/clearing/clearing, a link to the program. Their names on standard output.
#
# All files are written beside their places first and then moved there; where one cannot be, each older file is left or put back.
#
# Ends with 0, with 1 where a file cannot be put in place, or a folder or link on the way there is another user's, and with 2 where
# the words are not understood.

# Of the path the absolute entries alone count: no command is one that the working folder has.
set -f; IFS=: path=; for entry in $PATH; do case $entry in /*) path=$path:$entry ;; esac; done
PATH=${path#:} && export PATH; unset IFS; set +f

case "${1:-}" in
--help | -h)
    sed -n '2,19s/^# \{0,1\}//p' "$0" || exit 1
    exit 0
    ;;
-*)
    echo "install.sh: the only word is a prefix, a folder" >&2
    exit 2
    ;;
esac
[ $# -le 1 ] || { echo "install.sh: the only word is a prefix, a folder" >&2; exit 2; }
[ $# -eq 0 ] || [ -n "$1" ] || { echo "install.sh: the prefix has no name" >&2; exit 2; }
case ${1-} in *[[:cntrl:]]*) echo "install.sh: the prefix has the end of a line or another control character" >&2 && exit 2 ;; esac
unset CDPATH
prefix=${1-/usr/local}
here=$(dirname -- "$(realpath -- "$0")")
root=${here%/*}
# What is installed is for all to read, and for nobody else to write.
umask 022
list=$(mktemp -d) || exit 1
trap 'rm -rf -- "$list"' EXIT
trap 'fail "it was interrupted; all is as it was"' HUP INT TERM

# The rest of a name that a file has until it is moved into its place, and that an older one has until all are. Nobody can know it before.
new=.new.${list##*.} old=.old.${list##*.}

# A text in one line without what moves a terminal, or turns its letters round.
shown() {
    printf '%s' "$1" | tr '\n' '?' | LC_ALL=C sed 's/[\x01-\x1f\x7f]/?/g; s/\xc2[\x80-\x9f]/?/g; s/\xe2\x80[\x8b-\x8f\xa8-\xae]/?/g; s/\xe2\x81[\xa0-\xaf]/?/g'
}

# Leaves each place as it was.
undo() {
    while IFS= read -r to; do
        rm -f -- "$to$new"
        if [ -e "$to$old" ]; then
            mv -fT -- "$to$old" "$to"
        elif [ -e "$list/moved" ] && grep -qxF -- "$to" "$list/moved"; then
            rm -f -- "$to"
        fi
    done <"$list/places"
}

fail() {
    [ ! -e "$list/places" ] || undo
    printf 'install.sh: %s\n' "$(shown "$1")" >&2
    exit 1
}

if [ -n "${CLEARING:-}" ]; then
    program=$CLEARING
else
    "$root/clearing" check --banks "$root/examples/chain/banks.csv" --debts "$root/examples/chain/debts.csv" >/dev/null ||
        fail "the program is not built"
    program=$root/crates/clear_main/out/clear_main
fi
# One without a folder is looked for on the path.
case $program in
*/*) ;;
*)
    name=$program program=$(command -v -- "$program")
    case $program in /*) ;; *) fail "CLEARING names $name, which is on no absolute entry of the path" ;; esac
    ;;
esac
[ -x "$program" ] && [ -f "$program" ] || fail "$program is no program"
case $(realpath -- "$program") in */first-look) fail "$program is a first look, which is not proved" ;; esac

# The first folder or link on the way to a place that is neither this user's nor the system's: whoever has it says where the way leads.
others() { # the place
    case $1 in
    /*) up=$1 ;;
    *) up=$(pwd)/$1 ;;
    esac
    set --
    while [ -n "$up" ]; do set -- "$up" "$@" && up=${up%/*}; done
    me=$(id -u)
    # A link and what it names.
    { stat -c '%u %n' -- "$@"; stat -L -c '%u %n' -- "$@"; } 2>/dev/null | while read -r owner name; do
        [ "$owner" = 0 ] || [ "$owner" = "$me" ] || { printf '%s\n' "$name" && break; }
    done
}

checked='|'
ready() { # the place under the prefix, after its folder is made
    to=$prefix/$1
    # Once for each folder: before it is made, and then where it leads to.
    case $checked in
    *"|${to%/*}|"*) ;;
    *)
        other=$(others "${to%/*}")
        [ -n "$other" ] || mkdir -p -- "${to%/*}" 2>/dev/null || fail "$to cannot be written"
        other=${other:-$(others "$(realpath -- "${to%/*}")")}
        [ -z "$other" ] || fail "$other is another user's, who could have all that is installed stand elsewhere"
        checked=$checked${to%/*}'|'
        ;;
    esac
    printf '%s\n' "$to" >>"$list/places"
    [ ! -d "$to" ] || fail "$to cannot be written"
}

put() { # the file, its place under the prefix, its mode
    ready "$2"
    [ ! "$1" -ef "$to" ] || fail "$to is the file that is to be installed"
    # A file that is there already is not written to, and no link is followed.
    (set -C; cat -- "$1" >"$to$new") 2>/dev/null && chmod "$3" "$to$new" || fail "$to cannot be written"
}

put_link() { # what it names, its place under the prefix
    ready "$2"
    ln -sT -- "$1" "$to$new" 2>/dev/null || fail "$to cannot be written"
}

put "$program" bin/clearing 755
put "$root/docs/clearing.1" share/man/man1/clearing.1 644
put "$here/clearing.bash" share/bash-completion/completions/clearing 644
put "$here/clearing.zsh" share/zsh/site-functions/_clearing 644
put "$here/clearing.fish" share/fish/vendor_completions.d/clearing.fish 644
if command -v python3 >/dev/null 2>&1; then
    python3 -IB "$here/dev/man.py" --out "$list/man" || fail "the manual pages of the tools cannot be made"
    for tool in "$root"/bin/*; do
        name=${tool##*/}
        put "$tool" "share/clearing/bin/$name" 755
        put_link "../share/clearing/bin/$name" "bin/$name"
        put "$list/man/$name.1" "share/man/man1/$name.1" 644
    done
    # The packages that the tools call.
    (cd "$root/python/src" && find clearing_client clearing_tools -type f ! -path '*/__pycache__/*' | sort) >"$list/packages"
    while IFS= read -r part; do
        put "$root/python/src/$part" "share/clearing/python/src/$part" 644
    done <"$list/packages"
    put "$root/VERSION" share/clearing/VERSION 644
    # What a tool takes for the repository's program.
    put_link ../../bin/clearing share/clearing/clearing
else
    echo "install.sh: python3 is not on the path: the tools are left out" >&2
fi
while IFS= read -r to; do
    if [ -e "$to" ] || [ -h "$to" ]; then cp -Pp -- "$to" "$to$old" 2>/dev/null || fail "$to cannot be kept"; fi
    printf '%s\n' "$to" >>"$list/moved"
    mv -fT -- "$to$new" "$to" 2>/dev/null || fail "$to cannot be written"
done <"$list/places"
# All is in place: what is left is not broken off.
trap '' HUP INT TERM
while IFS= read -r to; do
    rm -f -- "$to$old"
    printf '%s\n' "$to"
done <"$list/places"
