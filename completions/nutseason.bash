# Completion for nutseason in bash: its commands, then files.
_nutseason() {
    local word=${COMP_WORDS[COMP_CWORD]} choices=''
    COMPREPLY=()
    case "$COMP_CWORD ${COMP_WORDS[1]}" in
    "1 "*) choices='report explain reserve sheet admit step bursts help version' ;;
    "2 help") choices='report explain reserve sheet admit step bursts' ;;
    "3 explain") choices='--html' ;;
    "2 report" | "2 explain" | "2 reserve" | "2 sheet" | "2 admit" | "3 admit" | "2 step" | "3 step" | "2 bursts" | "3 bursts") ;;
    "4 explain") [ "${COMP_WORDS[3]}" = --html ] || return ;;
    *) return ;;
    esac
    if [ -n "$choices" ]; then
        mapfile -t COMPREPLY < <(compgen -W "$choices" -- "$word")
    else
        mapfile -t COMPREPLY < <(compgen -f -- "$word")
        # Folders then get their slash, and blanks are quoted; outside a completion there is nothing to set.
        compopt -o filenames 2>/dev/null
    fi
}
complete -F _nutseason nutseason
