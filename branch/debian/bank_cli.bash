# Completion of bank_cli for bash.
_bank_cli() {
    local commands="sample init check upgrade forward run serve counter" word=${COMP_WORDS[COMP_CWORD]} options=""
    COMPREPLY=()
    if [ "$COMP_CWORD" = 1 ]; then
        mapfile -t COMPREPLY < <(compgen -W "$commands help --help --version" -- "$word")
        return
    fi
    case ${COMP_WORDS[COMP_CWORD-1]} in
    --badges | --socket) compopt -o filenames; mapfile -t COMPREPLY < <(compgen -f -- "$word"); return ;;
    --moment | --port | --requests) return ;;
    esac
    case ${COMP_WORDS[1]} in
    sample) options="--moment" ;;
    init | forward) options="--sums" ;;
    run) options="--badges --moment" ;;
    serve) options="--badges --port --requests" ;;
    counter) options="--badges --port --socket --inherited --until-input-ends" ;;
    help) [ "$COMP_CWORD" != 2 ] || mapfile -t COMPREPLY < <(compgen -W "$commands" -- "$word"); return ;;
    esac
    case $word in
    -*) mapfile -t COMPREPLY < <(compgen -W "$options --help" -- "$word") ;;
    *) [ "${COMP_WORDS[1]}" = sample ] || { compopt -o filenames; mapfile -t COMPREPLY < <(compgen -f -- "$word"); } ;;
    esac
}
complete -F _bank_cli bank_cli
