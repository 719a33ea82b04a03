# Completion of the words of cqld and romburik, which these tell themselves by --help.

_romburik() {
    local current="${COMP_WORDS[COMP_CWORD]}" before="${COMP_WORDS[COMP_CWORD - 1]}"
    case "$before" in
    --file | --script | --key-file | --token-file | --ca | --cert | --cert-key | --csv | --journal)
        mapfile -t COMPREPLY < <(compgen -f -- "$current")
        return
        ;;
    --join) mapfile -t COMPREPLY < <(compgen -W "keyed plain" -- "$current") && return ;;
    --epoch) mapfile -t COMPREPLY < <(compgen -W "s ms" -- "$current") && return ;;
    esac
    local words
    words="$("${COMP_WORDS[0]}" --help 2> /dev/null | grep -oE -- '--[a-z][a-z-]*' | sort -u)"
    [ "$1" = romburik ] && words="$words watch page put"
    mapfile -t COMPREPLY < <(compgen -W "$words" -- "$current")
}
complete -F _romburik cqld romburik
