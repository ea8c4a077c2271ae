# Completion of `ira` for bash. `make install` puts it where bash-completion looks; else: source completions/ira.bash
# Made by checks/command_words.py.

_ira_commands='logs explain show draw check decide pairs ask run upgrade mend guide version help'

# The options of a command.
_ira_options() {
    case $1 in
        logs) echo --each --sum --over --leads --json --dir --help ;;
        explain) echo --each --over --leads --question --ask --case --cert --json --dir --help ;;
        show) echo --leads --at --question --ask --case --events --json --dir --help ;;
        draw) echo --out --at --question --ask --case --from --to --dir --help ;;
        check) echo --question --cert --depth --json --dir --help ;;
        decide) echo --question --ask --out --json --dir --help ;;
        pairs) echo --help ;;
        ask) echo --nodes --dir --help ;;
        run) echo --nodes --seed --out --initiators --draws --cap --terms --alone --help ;;
        upgrade) echo --out --dir --help ;;
        mend) echo --out --start --lost --dir --help ;;
        guide) echo --help ;;
        version) echo --help ;;
    esac
}

_ira() {
    local word=${COMP_WORDS[COMP_CWORD]} before=${COMP_WORDS[COMP_CWORD - 1]} command=${COMP_WORDS[1]}
    if ((COMP_CWORD == 1)); then
        mapfile -t COMPREPLY < <(compgen -W "$_ira_commands --help --version -V" -- "$word")
        return
    fi
    if [[ $word == -* ]]; then
        mapfile -t COMPREPLY < <(compgen -W "$(_ira_options "$command")" -- "$word")
        return
    fi
    compopt -o filenames 2> /dev/null
    case $command:$before in
        help:*) mapfile -t COMPREPLY < <(compgen -W "${_ira_commands% help}" -- "$word") ;;
        *:--leads) mapfile -t COMPREPLY < <(compgen -W 'any' -- "$word") ;;
        *:--dir | run:--out | upgrade:--out | mend:--out) mapfile -t COMPREPLY < <(compgen -d -- "$word") ;;
        *:--case | *:--at | *:--from | *:--to | *:--nodes | *:--seed | *:--initiators | *:--draws | *:--cap | *:--terms | *:--lost) COMPREPLY=() ;;
        *:--depth) mapfile -t COMPREPLY < <(compgen -W '0 1 2 3 4' -- "$word") ;;
        *:--start) mapfile -t COMPREPLY < <(compgen -W 'initiator passive' -- "$word") ;;
        guide:*) mapfile -t COMPREPLY < <(compgen -W 'questions logs' -- "$word") ;;
        pairs:* | ask:* | run:* | version:*) COMPREPLY=() ;;
        *) mapfile -t COMPREPLY < <(compgen -f -- "$word") ;;
    esac
}

complete -F _ira ira
