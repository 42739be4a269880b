# What a script ended with, as a line of docs/runs.tsv. Read by the scripts beside, which write it where they are asked to by --record.
#
# The columns are the date, the commit of this checkout, with a + where files are changed; the SHA-256 of the program; the script, its
# arguments, how many cases it tried, and how many of them were wrong.
record() { # the script, its arguments, the cases, the wrong ones
    runs=$root/docs/runs.tsv
    commit=$(git -C "$root" rev-parse HEAD 2>/dev/null) || commit=none
    [ -z "$(git -C "$root" status --porcelain -- . ':!docs/runs.tsv' 2>/dev/null)" ] || commit=$commit+
    [ -s "$runs" ] || printf 'date\tcommit\tprogram\tscript\targuments\tcases\twrong\n' >"$runs"
    printf '%s\t%s\t%s\t%s\t%s\t%s\t%s\n' "$(date -u +%Y-%m-%d)" "$commit" "$(sha256sum <"$program" | cut -d' ' -f1)" "$@" >>"$runs"
}
