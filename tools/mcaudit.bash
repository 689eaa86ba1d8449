# mcaudit.bash: completes the arguments of mcaudit and of its tools in bash.

_mcaudit() {
    local word=${COMP_WORDS[COMP_CWORD]}
    local before=${COMP_WORDS[COMP_CWORD - 1]}
    local commands='audit check make pack replay wants'
    COMPREPLY=()
    if [ "$COMP_CWORD" -eq 1 ]; then
        mapfile -t COMPREPLY < <(compgen -W "$commands help --version" -- "$word")
        return
    fi
    local option=--certificate
    case ${COMP_WORDS[1]} in
        audit | pack)
            if [ "${COMP_WORDS[1]}" = audit ]; then
                option='--travel --faults --unlisted --strict --json --without --ignore'
                # its argument is a router or a range, whatever it begins with
                case $before in --without | --ignore) return ;; esac
            fi
            case $word in
                -*) mapfile -t COMPREPLY < <(compgen -W "$option" -- "$word") ;;
                *)
                    compopt -o filenames 2> /dev/null
                    mapfile -t COMPREPLY < <(compgen -A directory -- "$word") ;;
            esac ;;
        help)
            if [ "$COMP_CWORD" -eq 2 ]; then mapfile -t COMPREPLY < <(compgen -W "$commands" -- "$word"); fi ;;
        replay)
            if [ "$before" = --order ]; then
                mapfile -t COMPREPLY < <(compgen -W 'first last' -- "$word")
            elif [ "$COMP_CWORD" -ge 4 ]; then
                mapfile -t COMPREPLY < <(compgen -W '--order' -- "$word")
            fi ;;
    esac
}

# Completes an argument of a tool: one of the options of the further words, a file after an option that takes
# one, or else the name of the kind.
_mcaudit_tool() {
    local word=$1 before=$2 kind=$3
    shift 3
    COMPREPLY=()
    case $before in
        -o | -f | --routers | --capture | --audit | --plan | --program | --prometheus | --page) kind='file' ;;
        --all | --conf-root) kind=directory ;;
        --readings | --pause | --timeout | --at-once | --ssh | --wait | --listen | --slack \
        | --queries | --network | --querier | --interface) return ;;
        --tries | --static | --empty-lan | --by | --shell | --ttl | --measure | --count | --tenths \
        | --without | --flow | --use | --smcroute | --search) return ;;
        --watch | --keep | --warn-age | --warn-reports | --label | --conf) return ;;
    esac
    case $word in
        -*) mapfile -t COMPREPLY < <(compgen -W "$*" -- "$word") ;;
        *)
            compopt -o filenames 2> /dev/null
            mapfile -t COMPREPLY < <(compgen -A "$kind" -- "$word") ;;
    esac
}

_mcaudit_collect() {
    _mcaudit_tool "${COMP_WORDS[COMP_CWORD]}" "${COMP_WORDS[COMP_CWORD - 1]}" directory \
        --routers --adopt --readings --pause --timeout --at-once --ssh --facts --from-daemon --empty-lan --shell \
        --version --help
}

_mcaudit_diff() {
    _mcaudit_tool "${COMP_WORDS[COMP_CWORD]}" "${COMP_WORDS[COMP_CWORD - 1]}" file --json --version --help
}

_mcaudit_monitor() {
    _mcaudit_tool "${COMP_WORDS[COMP_CWORD]}" "${COMP_WORDS[COMP_CWORD - 1]}" directory \
        --routers --ssh --readings --pause --timeout --at-once --facts --from-daemon --empty-lan --adopt \
        --no-collect --keep --plugin \
        --warn-age --warn-reports --prometheus --label --version --help
}

_mcaudit_draft() {
    _mcaudit_tool "${COMP_WORDS[COMP_CWORD]}" "${COMP_WORDS[COMP_CWORD - 1]}" directory \
        --routers --ssh --timeout --ttl --flows --measure --update --version --help
}

_mcaudit_page() {
    _mcaudit_tool "${COMP_WORDS[COMP_CWORD]}" "${COMP_WORDS[COMP_CWORD - 1]}" directory \
        -o --audit --plan --program --without --version --help
}

_mcaudit_plan() {
    _mcaudit_tool "${COMP_WORDS[COMP_CWORD]}" "${COMP_WORDS[COMP_CWORD - 1]}" directory \
        -f --flow --new --use --smcroute --keep --json --search --version --help
}

_mcaudit_premises() {
    _mcaudit_tool "${COMP_WORDS[COMP_CWORD]}" "${COMP_WORDS[COMP_CWORD - 1]}" directory \
        --routers --ssh --watch --timeout --json --strict --version --help
}

_mcaudit_query() {
    _mcaudit_tool "${COMP_WORDS[COMP_CWORD]}" "${COMP_WORDS[COMP_CWORD - 1]}" file \
        --count --pause --tenths --print --version --help
}

_mcaudit_site() {
    local word=${COMP_WORDS[COMP_CWORD]}
    if [ "$COMP_CWORD" -eq 1 ]; then
        mapfile -t COMPREPLY < <(compgen -W 'init lans --version --help' -- "$word")
    elif [ "${COMP_WORDS[1]}" = init ]; then
        _mcaudit_tool "$word" "${COMP_WORDS[COMP_CWORD - 1]}" directory \
            --routers --ssh --facts --ttl --wait --listen --tries --static --empty-lan --ask --ask-routers \
            --from-daemon --empty --help
    else
        _mcaudit_tool "$word" "${COMP_WORDS[COMP_CWORD - 1]}" directory --help
    fi
}

_mcaudit_try() {
    _mcaudit_tool "${COMP_WORDS[COMP_CWORD]}" "${COMP_WORDS[COMP_CWORD - 1]}" directory \
        -f --conf --conf-root --why --json --keep --page --version --help
}

_mcaudit_reports() {
    _mcaudit_tool "${COMP_WORDS[COMP_CWORD]}" "${COMP_WORDS[COMP_CWORD - 1]}" file \
        -o --by --capture --text --static --all --empty --empty-lan --ask --ask-routers --from-daemon --from-bridge \
        --fold --no-fold --tries --queries --wait --listen --slack --network --querier --interface --routers --ssh \
        --version --help
}

complete -F _mcaudit mcaudit
complete -F _mcaudit_collect mcaudit-collect
complete -F _mcaudit_diff mcaudit-diff
complete -F _mcaudit_draft mcaudit-draft
complete -F _mcaudit_monitor mcaudit-monitor
complete -F _mcaudit_page mcaudit-page
complete -F _mcaudit_plan mcaudit-plan
complete -F _mcaudit_premises mcaudit-premises
complete -F _mcaudit_query mcaudit-query
complete -F _mcaudit_reports mcaudit-reports
complete -F _mcaudit_site mcaudit-site
complete -F _mcaudit_try mcaudit-try
