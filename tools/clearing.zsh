#compdef clearing
# Completion of the command `clearing` for zsh. tools/install.sh puts it in place, as _clearing in a folder of fpath.

# Made by tools/dev/completions.py.
_clearing_tasks() {
    tasks=(
        'check:the counts of the network, and both files as they are printed'
        'clear:the least payments, the journal of the run, or both'
        'central:the same payments, computed on one thread'
        'defaults:who defaults, and whether it is its own doing'
        'stress:the payments and defaults of each scenario'
        'replay:whether a journal is lawful and complete'
        'gen:a network made from a number'
        'convert:the banks file in its second form'
        'bounds:the least and the greatest payments'
        'rescue:the least sum of cash that saves a bank'
        'compress:the debts with cycles cancelled'
        'costs:where an estate in default is worth only a part'
        'breaking:the least cut of all cash that breaks each bank'
        'impact:what the loss of the cash of each bank costs it and others'
        'rescues:the least sum for each bank in default, and whom it saves besides'
        'outcomes:the sums of each scenario, and how often each bank defaults'
        'cost-bounds:the least and the greatest payments where it is so'
    )
}

_clearing_options() { # the task
    case $1 in
    check | central | convert | compress | breaking | impact | rescues) set -- banks debts limits ;;
    clear) set -- banks debts workers sweeps show limits ;;
    defaults | bounds) set -- banks debts workers sweeps limits ;;
    stress) set -- banks debts scenarios workers sweeps limits ;;
    replay) set -- banks debts journal limits ;;
    gen) set -- workers sweeps seed size tries ;;
    rescue) set -- banks debts bank workers sweeps limits ;;
    costs | cost-bounds) set -- banks debts keep limits ;;
    outcomes) set -- banks debts scenarios limits ;;
    esac
    local name
    for name; do
        case $name in
        banks) options+=('--banks[the banks file]:file:_files') ;;
        debts) options+=('--debts[the debts file]:file:_files') ;;
        scenarios) options+=('--scenarios[the scenarios, in TOML]:file:_files') ;;
        journal) options+=('--journal[the journal]:file:_files') ;;
        bank) options+=('--bank[the bank to be saved]:bank:_clearing_banks') ;;
        workers) options+=('--workers[1 to 64]:number:') ;;
        sweeps) options+=('--sweeps[1 to 1000]:number:') ;;
        show) options+=('--show[what is printed]:show:(payments journal both)') ;;
        seed) options+=('--seed[the number]:number:') ;;
        size) options+=('--size[1 to 1000 banks]:number:') ;;
        tries) options+=('--tries[0 to 20000 tries at a debt]:number:') ;;
        keep) options+=('--keep[0 to 1000 per mille]:number:') ;;
        limits) options+=('--limits[the limits of the network]:limits:(standard wide)') ;;
        esac
    done
}

# The names of banks, a line each.
_clearing_banks_of() { # the file
    head -c 167772160 -- $1 | LC_ALL=C tr -d '\0' | LC_ALL=C tr '\r' '\n' | LC_ALL=C awk '
        NR == 1 { sub(/^\357\273\277/, "") }
        $0 == "" { next }
        !header { header = 1; next }
        {
            comma = index($0, ",")
            name = comma ? substr($0, 1, comma - 1) : $0
            if (length(name) > 1000) next
            gsub(/^[ \t]+|[ \t]+$/, "", name)
            if (name ~ /^".*"$/) name = substr(name, 2, length(name) - 2)
            if (name == "" || name ~ /^-/ || name ~ /[\001-\037\177]|\302[\200-\237]/) next
            print name
            if (++count == 10000) exit
        }'
}
# End of what was made.

# The names of the banks in the file that `--banks` names. What stands there is data.
_clearing_banks() {
    local at=${words[(i)--banks]}
    local file=${(Q)words[at + 1]}
    [[ -f $file && -r $file ]] || return 1
    local -a banks=(${(f)"$(_clearing_banks_of $file)"})
    compadd -a banks
}

_clearing() {
    local -a tasks options
    _clearing_tasks
    local task word
    for word in ${words[2,CURRENT-1]}; do
        (( ${tasks[(I)$word:*]} )) && { task=$word; break }
    done
    if [[ -z $task ]]; then
        _describe task tasks
        return
    fi
    _clearing_options $task
    _arguments "1:task:" $options
}

_clearing "$@"
