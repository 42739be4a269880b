# Completion of the command `clearing` for fish. tools/install.sh puts it in place; `source tools/clearing.fish` tries it.
complete -c clearing -f

function __clearing_task
    set -l words (commandline -opc)
    for word in $words[2..-1]
        if contains -- $word (__clearing_tasks)
            echo $word
            return 0
        end
    end
    return 1
end

# Whether the task is one of these.
function __clearing_task_in
    contains -- (__clearing_task) $argv
end

# The names of the banks in the file that `--banks` names. What stands there is data.
function __clearing_banks
    set -l words (commandline -opc)
    set -l at (contains -i -- --banks $words)
    or return
    set -l file $words[(math $at + 1)]
    test -f "$file" -a -r "$file"
    and __clearing_banks_of $file
end

complete -c clearing -n 'not __clearing_task' -a "(__clearing_tasks)"
# Made by tools/dev/completions.py.
function __clearing_tasks
    printf '%s\n' check clear central defaults stress replay gen convert bounds rescue compress costs breaking impact rescues outcomes cost-bounds
end

# The names of banks, a line each.
function __clearing_banks_of # the file
    head -c 167772160 -- $argv[1] | env LC_ALL=C tr -d '\\0' | env LC_ALL=C tr '\\r' '\\n' | env LC_ALL=C awk '
        NR == 1 { sub(/^\\357\\273\\277/, "") }
        $0 == "" { next }
        !header { header = 1; next }
        {
            comma = index($0, ",")
            name = comma ? substr($0, 1, comma - 1) : $0
            if (length(name) > 1000) next
            gsub(/^[ \\t]+|[ \\t]+$/, "", name)
            if (name ~ /^".*"$/) name = substr(name, 2, length(name) - 2)
            if (name == "" || name ~ /^-/ || name ~ /[\\001-\\037\\177]|\\302[\\200-\\237]/) next
            print name
            if (++count == 10000) exit
        }'
end

complete -c clearing -n '__clearing_task_in check clear central defaults stress replay convert bounds rescue compress costs breaking impact rescues outcomes cost-bounds' -l banks -r -F -d 'the banks file'
complete -c clearing -n '__clearing_task_in check clear central defaults stress replay convert bounds rescue compress costs breaking impact rescues outcomes cost-bounds' -l debts -r -F -d 'the debts file'
complete -c clearing -n '__clearing_task_in stress outcomes' -l scenarios -r -F -d 'the scenarios, in TOML'
complete -c clearing -n '__clearing_task_in replay' -l journal -r -F -d 'the journal'
complete -c clearing -n '__clearing_task_in rescue' -l bank -x -a '(__clearing_banks)' -d 'the bank to be saved'
complete -c clearing -n '__clearing_task_in clear defaults stress gen bounds rescue' -l workers -x -d '1 to 64'
complete -c clearing -n '__clearing_task_in clear defaults stress gen bounds rescue' -l sweeps -x -d '1 to 1000'
complete -c clearing -n '__clearing_task_in clear' -l show -x -a 'payments journal both' -d 'what is printed'
complete -c clearing -n '__clearing_task_in gen' -l seed -x -d 'the number'
complete -c clearing -n '__clearing_task_in gen' -l size -x -d '1 to 1000 banks'
complete -c clearing -n '__clearing_task_in gen' -l tries -x -d '0 to 20000 tries at a debt'
complete -c clearing -n '__clearing_task_in costs cost-bounds' -l keep -x -d '0 to 1000 per mille'
complete -c clearing -n '__clearing_task_in check clear central defaults stress replay convert bounds rescue compress costs breaking impact rescues outcomes cost-bounds' -l limits -x -a 'standard wide' -d 'the limits of the network'
# End of what was made.
