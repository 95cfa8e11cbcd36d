# Completion of toll for bash. Its tables are those of the plant's commands; tools/bash-completion fills them in.
# shellcheck shell=bash disable=SC2190 # lines stand there for the marks
_toll() {
    local -A values=(
@LINES@
        [import]="CSV"
        [serve]="PORT COUNT"
    ) words=(
@WORDS@
    )
    local current=${COMP_WORDS[COMP_CWORD]} expected='' choices='' line
    COMPREPLY=()
    if ((COMP_CWORD == 1)); then
        choices="--db script"
    elif [[ ${COMP_WORDS[1]} != --db ]]; then
        return
    elif ((COMP_CWORD == 2)); then
        expected=FILE
    elif ((COMP_CWORD == 3)); then
        choices=${!values[*]}
    else
        read -ra line <<< "${values[${COMP_WORDS[3]:--}]-}"
        expected=${line[COMP_CWORD - 4]-}
        choices=${words[${expected:--}]-}
    fi
    case $expected in
        FILE | CSV)
            compopt -o filenames 2> /dev/null
            mapfile -t COMPREPLY < <(compgen -f -- "$current")
            ;;
        *) mapfile -t COMPREPLY < <(compgen -W "$choices" -- "$current") ;;
    esac
}
complete -F _toll toll
