# Completion of rr-calendars for bash: options and file names.
_rr_calendars() {
    local current=${COMP_WORDS[COMP_CWORD]} previous=${COMP_WORDS[COMP_CWORD - 1]} found
    COMPREPLY=()
    case $previous in
    --offset | --show) return ;;
    esac
    case $current in
    -*) mapfile -t COMPREPLY < <(compgen -W '--differences --titles --json --html --strict --by-uid --offset --zones --show --help --version' -- "$current") ;;
    *)
        compopt -o filenames 2>/dev/null
        while IFS= read -r found; do
            COMPREPLY+=("$found")
        done < <(compgen -f -- "$current")
        ;;
    esac
}
complete -F _rr_calendars rr-calendars
