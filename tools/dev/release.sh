#!/bin/sh
# Makes a release of the program that was built and proved: an archive, a Debian package, wheels for Python, the package for R, and their
# checksums.
#
#   tools/dev/release.sh [--draft] [--gate LOG] FOLDER
#
# In:   a checkout without changes, its built program, and LOG, what `.ci/run` printed of it: its parts end with `N passed, 0 failed`,
#       and no source is newer. FOLDER is made where it is not there. With --draft changes and a missing log are let through, and
#       the environment variable CLEARING may name another program; the record says then that it is a draft.
# Out:  FOLDER/clearing-VERSION-x86_64.tar.gz and FOLDER/clearing_VERSION_amd64.deb, which have the program, the tools, manual pages,
#       completions for bash, zsh and fish, the documents as HTML, examples, and the record of the gate; the wheel of the package for
#       Python with the program, the one without it, and its sources; the package for R; FOLDER/clearing-VERSION.RECORD, the same
#       record; FOLDER/INSTALL, which tells what each file is for; and FOLDER/SHA256SUMS. Their names on standard output. The same
#       checkout and program make the same bytes.
#
# Wants pandoc and dpkg-deb (Debian's packages pandoc and dpkg), and R with its package knitr (r-base-core and r-cran-knitr).
# Ends with 0, with 1 and a message where something is not as it must be, and with 2 where the words are not understood.

# Of the path the absolute entries alone count: no command is one that the working folder has.
set -f; IFS=: path=; for entry in $PATH; do case $entry in /*) path=$path:$entry ;; esac; done
PATH=${path#:} && export PATH; unset IFS; set +f

case "${1:-}" in
--help | -h)
    sed -n '2,17s/^# \{0,1\}//p' "$0" || exit 1
    exit 0
    ;;
esac
unset CDPATH
umask 022
root=$(realpath -- "$(dirname -- "$(realpath -- "$0")")/../..")

# A text in one line without what moves a terminal, or turns its letters round.
shown() {
    printf '%s' "$1" | tr '\n' '?' | LC_ALL=C sed 's/[\x01-\x1f\x7f]/?/g; s/\xc2[\x80-\x9f]/?/g; s/\xe2\x80[\x8b-\x8f\xa8-\xae]/?/g; s/\xe2\x81[\xa0-\xaf]/?/g'
}

fail() {
    printf 'release.sh: error: %s\n' "$(shown "$1")" >&2
    exit "${2:-1}"
}

# A text of tools/dev/release, in which each @NAME@ is the value that is given for it.
texts=$root/tools/dev/release
fill() { # the text, NAME=VALUE...
    text=$texts/$1
    shift
    env "$@" awk '{
        while (match($0, /@[A-Z]+@/)) {
            name = substr($0, RSTART + 1, RLENGTH - 2)
            if (!(name in ENVIRON)) exit 1
            printf "%s%s", substr($0, 1, RSTART - 1), ENVIRON[name]
            $0 = substr($0, RSTART + RLENGTH)
        }
        print
    }' "$text"
}

draft=
gate=
folder=
while [ $# -gt 0 ]; do
    case $1 in
    --draft) draft=yes ;;
    --gate)
        [ $# -gt 1 ] || fail "--gate wants a file" 2
        gate=$2
        shift
        ;;
    -*) fail "no option $1" 2 ;;
    *)
        [ -z "$folder" ] || fail "one folder is wanted" 2
        folder=$1
        ;;
    esac
    shift
done
[ -n "$folder" ] || fail "a folder is wanted" 2
for command in pandoc:pandoc dpkg-deb:dpkg Rscript:r-base-core; do
    command -v "${command%:*}" >/dev/null 2>&1 || fail "${command%:*} is not on the path (Debian's package ${command#*:})"
done
Rscript --vanilla -e 'library(knitr)' >/dev/null 2>&1 || fail "R has no package knitr (Debian's package r-cran-knitr)"
version=$(cat "$root/VERSION") || fail "there is no file VERSION"
echo "$version" | grep -Eqx '[0-9]+(\.[0-9]+){2}' || fail "VERSION has no number of the form 1.2.3"

# What is released: a commit, a program, and what the gate said of them.
commit=$(git -C "$root" rev-parse HEAD 2>/dev/null) || fail "$root is no checkout of git"
said="It was built and proved from this commit."
[ -z "$draft" ] || said="This is a draft: nothing here says that the program was proved."
if [ -n "$(git -C "$root" status --porcelain)" ]; then
    [ -n "$draft" ] || fail "the checkout has changes; commit them, or make a draft with --draft"
    said="$said The checkout had changes beside the commit."
fi
if [ -n "$gate" ]; then
    [ -r "$gate" ] || fail "$gate cannot be read"
    tail -n 1 "$gate" | grep -Eqx '[0-9]+ passed, 0 failed' || fail "the last line of $gate is not 'N passed, 0 failed'"
    # The gate's parts each end with such a line.
    parts=$(grep -Ex '[0-9]+ passed, [0-9]+ failed' "$gate")
    echo "$parts" | grep -Eqvx '[0-9]+ passed, 0 failed' && fail "a part of the gate failed, by $gate"
    last=$(echo "$parts" | sed ':a;N;$!ba;s/\n/; /g')
    newer=$(find "$root/crates.txt" "$root"/crates/*/src "$root"/crates/*/specs "$root"/crates/*/proofs -type f -newer "$gate" | head -n 1)
    [ -z "$newer" ] || fail "$newer is newer than $gate"
elif [ -n "$draft" ]; then
    last="not given"
else
    fail "the gate's record is wanted: --gate LOG, what .ci/run printed"
fi
if [ -n "${CLEARING:-}" ]; then
    [ -n "$draft" ] || fail "a release has the repository's own program; CLEARING is for drafts alone"
    program=$CLEARING
    case $program in */*) ;; *) fail "CLEARING is to name $program with its folder" ;; esac
    [ -f "$program" ] && [ -x "$program" ] || fail "$program is no program"
    case $(realpath -- "$program") in */first-look) fail "$program is a first look, which is not proved" ;; esac
else
    "$root/clearing" check --banks "$root/examples/chain/banks.csv" --debts "$root/examples/chain/debts.csv" >/dev/null ||
        fail "the program is not built"
    program=$root/crates/clear_main/out/clear_main
fi
kit=$(rt version 2>/dev/null) || kit="not on this machine's path"
glibc=$(grep -a -o 'GLIBC_[0-9.]*' "$program" | sort -t _ -k 2 -Vu | tail -n 1 | sed 's/GLIBC_//')
SOURCE_DATE_EPOCH=$(git -C "$root" log -1 --format=%ct)
export SOURCE_DATE_EPOCH

work=$(mktemp -d) || exit 1
trap 'rm -rf "$work"' EXIT
trap 'exit 1' INT TERM HUP
stage=$work/clearing-$version
docs=$stage/share/doc/clearing
mkdir -p "$docs"

# The program, its pages, tools and completions.
CLEARING=$program "$root/tools/install.sh" "$stage" >/dev/null || fail "the program cannot be laid out"
# Debian keeps packages' completions for zsh apart.
rm -rf "$stage/share/zsh"
mkdir -p "$stage/share/zsh/vendor-completions" "$stage/share/fish/vendor_completions.d"
cp "$root/tools/clearing.zsh" "$stage/share/zsh/vendor-completions/_clearing" || exit 1
cp "$root/tools/clearing.fish" "$stage/share/fish/vendor_completions.d/clearing.fish" || exit 1

# The documents for users, as HTML: links between them stay, and links to files of the repository become words.
pages="GUIDE DATA INTERPRETING PYTHON GLOSSARY FORMATS THEORY PROVED CLAUSES REFERENCES"
printf 'PAGES = {%s}\n' "$(for page in $pages; do printf '%s = true, ' "$page"; done)" >"$work/pages.lua"
cat "$work/pages.lua" "$texts/links.lua" >"$work/filter.lua"
for page in $pages; do
    [ -f "$root/docs/$page.md" ] || continue
    title=$(sed -n 's/^# //p' "$root/docs/$page.md" | head -n 1)
    name=$(echo "$page" | tr '[:upper:]' '[:lower:]')
    pandoc --standalone --mathml --toc --from gfm+tex_math_dollars --to html5 --metadata title="clearing: $title" \
        --lua-filter "$work/filter.lua" --output "$docs/$name.html" "$root/docs/$page.md" 2>"$work/pandoc.log" ||
        fail "pandoc: $(cat "$work/pandoc.log")"
done
cp -R "$root/examples" "$docs/" && cp "$root/CHANGELOG.md" "$root/CITATION.cff" "$root/VERSION" "$docs/" || exit 1
# The pictures that a page shows.
(cd "$docs" && grep -oh '"pictures/[^"]*"' -- *.html | tr -d '"' | sort -u) >"$work/pictures" || exit 1
while read -r picture; do
    mkdir -p "$docs/${picture%/*}" && cp "$root/docs/$picture" "$docs/$picture" || exit 1
done <"$work/pictures"
fill RECORD VERSION="$version" COMMIT="$commit" TOOLCHAIN="$kit" GATE="$last" SAID="$said" GLIBC="$glibc" \
    CRATES="$(find "$root"/crates/*/src -maxdepth 0 | wc -l)" \
    REFUSED="$(find "$root"/crates/*/must-fail -name '*.edit' | wc -l)" \
    BESIDE="$(find "$root"/crates/*/edits -name '*.edit' 2>/dev/null | wc -l)" \
    PROGRAM="$(sha256sum <"$program" | cut -d ' ' -f 1)" >"$docs/RECORD" || exit 1
fill INSTALL VERSION="$version" >"$docs/INSTALL" || exit 1
find "$stage" -name __pycache__ -prune -exec rm -rf {} +
# The rights of a checkout are those of its user's mask; those of a release are the same for all.
find "$stage" -type d -exec chmod 755 {} + && find "$stage" -type f -perm -u+x -exec chmod 755 {} + &&
    find "$stage" -type f ! -perm -u+x -exec chmod 644 {} + || exit 1
find "$stage" -exec touch -h -d "@$SOURCE_DATE_EPOCH" {} +

mkdir -p -- "$folder" 2>/dev/null || fail "$folder cannot be made"
archive=clearing-$version-x86_64.tar.gz
package=clearing_${version}_amd64.deb
tar -C "$work" --sort=name --mtime="@$SOURCE_DATE_EPOCH" --owner=0 --group=0 --numeric-owner --format=gnu -cf - "clearing-$version" |
    gzip -9n >"$work/$archive" || fail "the archive cannot be written"

# The package has the same files under /usr, its pages packed as Debian's are.
tree=$work/tree
mkdir -p "$tree/usr" "$tree/DEBIAN" && cp -a "$stage/." "$tree/usr/" && gzip -9n "$tree"/usr/share/man/man1/*.1 || exit 1
rm "$tree/usr/share/doc/clearing/INSTALL"
# Of Debian a script names the interpreter by its place.
find "$tree/usr/share/clearing/bin" -type f -exec sed -i '1s|^#!/usr/bin/env python3$|#!/usr/bin/python3|' {} +
maintainer="Zemdalup maintainers <maintainers@zemdalup.example>"
date=$(LC_ALL=C TZ=UTC date -R -d "@$SOURCE_DATE_EPOCH")
fill changelog VERSION="$version" COMMIT="$commit" MAINTAINER="$maintainer" DATE="$date" >"$work/changelog" &&
    gzip -9n <"$work/changelog" >"$tree/usr/share/doc/clearing/changelog.gz" || exit 1
fill copyright YEAR="$(date -u -d "@$SOURCE_DATE_EPOCH" +%Y)" >"$tree/usr/share/doc/clearing/copyright" || exit 1
# The pages, for what shows the documents of a system.
mkdir -p "$tree/usr/share/doc-base" "$tree/usr/share/lintian/overrides"
cp "$texts/doc-base" "$tree/usr/share/doc-base/clearing.clearing" || exit 1
# The program is the one whose checksum the record has.
cp "$texts/overrides" "$tree/usr/share/lintian/overrides/clearing" || exit 1
chmod 644 "$tree/usr/share/doc/clearing/copyright" "$tree/usr/share/doc/clearing/changelog.gz" \
    "$tree/usr/share/doc-base/clearing.clearing" "$tree/usr/share/lintian/overrides/clearing"
size=$(du -sk "$tree/usr" | cut -f 1)
fill control VERSION="$version" MAINTAINER="$maintainer" SIZE="$size" GLIBC="$glibc" >"$tree/DEBIAN/control" || exit 1
# Python keeps what it read of the tools beside them, where it may.
cp "$texts/prerm" "$tree/DEBIAN/prerm" || exit 1
(cd "$tree" && find usr -type f -print0 | LC_ALL=C sort -z | xargs -0 md5sum) >"$tree/DEBIAN/md5sums" || exit 1
chmod 755 "$tree/DEBIAN/prerm" && chmod 644 "$tree/DEBIAN/md5sums" || exit 1
find "$tree" -exec touch -h -d "@$SOURCE_DATE_EPOCH" {} +
dpkg-deb --root-owner-group --build "$tree" "$work/$package" >"$work/dpkg.log" 2>&1 || fail "dpkg-deb: $(cat "$work/dpkg.log")"

# The package for Python: with the program, without it, and its sources.
wheel=$(cd "$root/python" && python3 -IB build.py "$work" "$(realpath -- "$program")") || fail "the wheel with the program cannot be written"
others=$(cd "$root/python" && python3 -B -c '
import build, sys
print(build.build_wheel(sys.argv[1]), build.build_sdist(sys.argv[1]))' "$work") || fail "the package for Python cannot be written"
# The package for R, as R makes it, with its vignette; the moment in it is that of the commit.
of_r=clearing_$(sed -n 's/^Version: //p' "$root/r/DESCRIPTION").tar.gz
mkdir "$work/r" && cp -R "$root/r" "$work/r/clearing" || exit 1
(cd "$work/r" && CLEARING=$(realpath -- "$program") LC_ALL=C.UTF-8 R CMD build clearing) >"$work/r.log" 2>&1 </dev/null ||
    fail "R: $(tail -n 20 "$work/r.log")"
rm -rf "$work/r/clearing" && tar -xzf "$work/r/$of_r" -C "$work/r" || fail "the package for R cannot be read"
packaged=$(LC_ALL=C TZ=UTC date -d "@$SOURCE_DATE_EPOCH" '+%Y-%m-%d %H:%M:%S UTC')
sed -i "s/^Packaged: .*/Packaged: $packaged; clearing/" "$work/r/clearing/DESCRIPTION" &&
    find "$work/r" -exec touch -h -d "@$SOURCE_DATE_EPOCH" {} + || exit 1
tar -C "$work/r" --sort=name --mtime="@$SOURCE_DATE_EPOCH" --owner=0 --group=0 --numeric-owner --mode=u=rwX,go=rX --format=gnu -cf - clearing |
    gzip -9n >"$work/$of_r" || fail "the package for R cannot be written"
# What was built and proved, beside the files; tools/dev/check_record.sh compares it with a build of one'"'"'s own.
cp "$docs/RECORD" "$work/clearing-$version.RECORD" && cp "$docs/INSTALL" "$work/INSTALL" || exit 1
# shellcheck disable=SC2086
(cd "$work" && sha256sum "$archive" "$package" "$wheel" $others "$of_r" "clearing-$version.RECORD" INSTALL >SHA256SUMS) || exit 1
for name in "$archive" "$package" "$wheel" $others "$of_r" "clearing-$version.RECORD" INSTALL SHA256SUMS; do
    mv -fT -- "$work/$name" "$folder/$name" 2>/dev/null || fail "$folder cannot be written"
    echo "$folder/$name"
done
