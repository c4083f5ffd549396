# Completion for bash of stn's commands and of the files that their words name: `source tools/completion.bash`, or installed.

# The list of the commands, in a clone or below the folder that it is installed in.
_stn_commands="$(dirname "$(readlink -f "${BASH_SOURCE[0]}")")"
if [ -f "$_stn_commands/commands.txt" ]; then
    _stn_commands="$_stn_commands/commands.txt"
else
    _stn_commands="$_stn_commands/../../../lib/stn/tools/commands.txt"
fi

# What the word at a place of a command is called in its form, in capitals, or is itself; nothing beyond its last word.
_stn_word() {
    awk -v command="$1" -v place="$2" '$1 == "form" && $2 == command { print $(place + 2); exit }' "$_stn_commands" | tr -d '[]!'
}

_stn() {
    local current="${COMP_WORDS[COMP_CWORD]}" first=1 timed=0 place kind
    COMPREPLY=()
    while [[ "${COMP_WORDS[first]:-}" =~ ^--(quiet|prove|unproved)$ && $first -lt $COMP_CWORD ]]; do
        first=$((first + 1))
    done
    place=$((COMP_CWORD - first))
    if [ "$place" -eq 0 ]; then
        kind="$(awk '$1 == "form" { print $2 }' "$_stn_commands") help --help --version --quiet --prove --unproved --path --install --uninstall"
        mapfile -t COMPREPLY < <(compgen -W "$kind" -- "$current")
        return
    fi
    # Behind `solve --seconds N [--gap PERCENT]` stand PLANT and LOG alone.
    while [[ "${COMP_WORDS[first]}" == solve && "${COMP_WORDS[first + timed + 1]:-}" =~ ^--(seconds|gap)$ ]]; do
        timed=$((timed + 2))
    done
    place=$((place - timed))
    [ "$timed" -eq 0 ] || [ "$place" -ne 2 ] || place=3
    case "${COMP_WORDS[first]}" in
        help) kind=COMMAND ;;
        --install | --uninstall) kind=PREFIX ;;
        *) kind="$(_stn_word "${COMP_WORDS[first]}" "$place")" ;;
    esac
    case "$kind" in
        COMMAND) mapfile -t COMPREPLY < <(compgen -W "$(awk '$1 == "form" { print $2 }' "$_stn_commands")" -- "$current") ;;
        PREFIX) mapfile -t COMPREPLY < <(compgen -d -- "$current") ;;
        PLANT) mapfile -t COMPREPLY < <(compgen -d -S / -- "$current"; compgen -f -X '!*.toml' -- "$current") ;;
        TABLE) mapfile -t COMPREPLY < <(compgen -W "stocks loads units deliveries" -- "$current") ;;
        plan) mapfile -t COMPREPLY < <(compgen -W "plan" -- "$current") ;;
        PLAN | LOG | STEM | OUT) mapfile -t COMPREPLY < <(compgen -f -- "$current") ;;
    esac
}

complete -o filenames -F _stn stn ./stn
