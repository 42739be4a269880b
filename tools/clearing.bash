# Completion of the command `clearing` for bash: the tasks, the options that the task takes and that were not given yet, and
# the values of options. tools/install.sh puts it in place; `source tools/clearing.bash` tries it.
#
# What stands in a file is data: names of banks are compared and quoted, and never expanded.

# Made by tools/dev/completions.py.
_clearing_tasks="check clear central defaults stress replay gen convert bounds rescue compress costs breaking impact rescues outcomes cost-bounds"

_clearing_options() { # the task
    case $1 in
    check | central | convert | compress | breaking | impact | rescues) echo "--banks --debts --limits" ;;
    clear) echo "--banks --debts --workers --sweeps --show --limits" ;;
    defaults | bounds) echo "--banks --debts --workers --sweeps --limits" ;;
    stress) echo "--banks --debts --scenarios --workers --sweeps --limits" ;;
    replay) echo "--banks --debts --journal --limits" ;;
    gen) echo "--workers --sweeps --seed --size --tries" ;;
    rescue) echo "--banks --debts --bank --workers --sweeps --limits" ;;
    costs | cost-bounds) echo "--banks --debts --keep --limits" ;;
    outcomes) echo "--banks --debts --scenarios --limits" ;;
    esac
}

# What the value of an option is: a file, a bank, a number, or one of the words.
_clearing_kind() { # the option
    case $1 in
    --banks | --debts | --scenarios | --journal) echo "file" ;;
    --bank) echo "bank" ;;
    --workers | --sweeps | --seed | --size | --tries | --keep) echo "number" ;;
    --show) echo "payments journal both" ;;
    --limits) echo "standard wide" ;;
    esac
}

# The names of banks, a line each.
_clearing_banks() { # the file
    head -c 167772160 -- "$1" | LC_ALL=C tr -d '\0' | LC_ALL=C tr '\r' '\n' | LC_ALL=C awk '
        NR == 1 { sub(/^\357\273\277/, "") }
        $0 == "" { next }
        !header { header = 1; next }
        {
            comma = index($0, ",")
            name = comma ? substr($0, 1, comma - 1) : $0
            if (length(name) > 1000) next
            gsub(/^[ \t]+|[ \t]+$/, "", name)
            if (name ~ /^".*"$/) name = substr(name, 2, length(name) - 2)
            if (name == "" || name ~ /^-/ || name ~ /[\001-\037\177]|\302[\200-\237]/) next
            print name
            if (++count == 10000) exit
        }'
}
# End of what was made.

# The words of a part of a line as the shell would take them, without expanding anything, into the list `words`; the last one
# as it is typed into `typed`, and the quote that it is within, or nothing, into `quote`.
_clearing_words() { # the part of a line
    local line=$1 at=0 c value= begun= escape
    words=() typed= quote=
    while ((at < ${#line})); do
        c=${line:at:1}
        at=$((at + 1))
        if [[ -z $quote && $c == [[:blank:]] ]]; then
            [[ -n $begun ]] && words+=("$value")
            value= begun= typed=
            continue
        fi
        begun=1
        typed+=$c
        case $quote$c in
        \\) value+=${line:at:1} typed+=${line:at:1} at=$((at + 1)) ;;
        \') quote=\' ;;
        \") quote=\" ;;
        "''" | '""') quote= ;;
        '"\')
            # Between double quotes a backslash quotes these alone.
            [[ ${line:at:1} == [\$\`\"\\] ]] || value+=$c
            value+=${line:at:1} typed+=${line:at:1} at=$((at + 1))
            ;;
        '$')
            if [[ ${line:at:1} == \' && ${line:at+1} =~ ^(([^\\\']|\\.)*)\' ]]; then
                escape=${BASH_REMATCH[1]}
                typed+=\'$escape\' at=$((at + ${#escape} + 2))
                printf -v escape %b "${escape//\\\'/\'}"
                value+=$escape
            else
                value+=$c
            fi
            ;;
        *) value+=$c ;;
        esac
    done
    words+=("$value")
}

# The names of the banks in a file into the list `names`.
_clearing_names() { # the file
    local file=$1
    names=()
    case $file in
    '~/'*) file=$HOME/${file:2} ;;
    esac
    [[ -f $file && -r $file ]] || return
    mapfile -t names < <(_clearing_banks "$file")
}

# The names that begin with what is typed so far become replies, each quoted as the rest of the word has to be.
_clearing_reply() { # the value of the word so far; the part of it before what the shell completes
    local name rest
    for name in "${names[@]}"; do
        [[ $name == "$1"* ]] || continue
        rest=${name:${#2}}
        case $quote in
        \')
            rest=${rest//\'/\'\\\'\'}
            # The shell adds no quote where one stands at the end.
            [[ $name == *\' ]] && rest=${rest%\'}
            ;;
        \")
            rest=${rest//\\/\\\\}
            rest=${rest//\"/\\\"}
            rest=${rest//\$/\\\$}
            rest=${rest//\`/\\\`}
            ;;
        *) [[ -z $rest ]] || printf -v rest %q "$rest" ;;
        esac
        COMPREPLY+=("$rest")
    done
}

# The value that an option has in the list `all`.
_clearing_value() { # the option
    local at
    for ((at = 1; at < ${#all[@]}; at++)); do
        case ${all[at]} in
        "$1") printf '%s' "${all[at + 1]}" && return ;;
        "$1"=*) printf '%s' "${all[at]#*=}" && return ;;
        esac
    done
}

_clearing() {
    local words typed quote all names task= given option at IFS=$' \t\n'
    _clearing_words "$COMP_LINE"
    all=("${words[@]}")
    _clearing_words "${COMP_LINE:0:COMP_POINT}"
    local last=${#words[@]}-1 text=${2-}
    local word=${words[last]} before=
    ((last > 0)) && before=${words[last - 1]}
    for given in "${words[@]:1:last-1}"; do
        [[ $given != *[!a-z-]* && " $_clearing_tasks " == *" $given "* ]] && task=$given
    done
    # Of `--banks=FILE` the shell completes what stands after the sign, as of any word with one.
    local head=${typed%"$text"}
    if [[ $word == --*=* ]]; then
        before=${word%%=*} word=${word#*=} head=${head#*=}
    fi
    case $quote in
    ?) head=${head#"$quote"} ;;
    esac
    COMPREPLY=()
    local kind=$(_clearing_kind "$before")
    case $kind in
    file)
        compopt -o filenames 2>/dev/null
        mapfile -t COMPREPLY < <(compgen -f -- "$word")
        ;;
    bank)
        _clearing_names "$(_clearing_value --banks)"
        local typed_quote=$quote
        _clearing_words "$head"
        quote=$typed_quote
        _clearing_reply "$word" "${words[${#words[@]} - 1]}"
        ;;
    number) ;;
    ?*) mapfile -t COMPREPLY < <(compgen -W "$kind" -- "$word") ;;
    *)
        if [[ -z $task ]]; then
            mapfile -t COMPREPLY < <(compgen -W "$_clearing_tasks" -- "$word")
        else
            local left=()
            for option in $(_clearing_options "$task"); do
                for ((at = 1; at < ${#all[@]}; at++)); do
                    ((at != last)) && [[ ${all[at]} == "$option" || ${all[at]} == "$option"=* ]] && continue 2
                done
                left+=("$option")
            done
            mapfile -t COMPREPLY < <(compgen -W "${left[*]}" -- "$word")
        fi
        ;;
    esac
}

complete -F _clearing clearing
