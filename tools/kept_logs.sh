# Keeps the files that a run is to write, so that none that was there is lost where the run breaks off. Sourced by `stn`.
#
# A plain file that is there before the run is first copied beside it, FILE to .FILE.stn-kept. After a status that leaves it
# whole or as before the copy goes; after any other end it is put back, and what the run wrote is .FILE.stn-broken then. A copy
# that is there at the start is of a run that was killed: it is put back first. While a run lasts, its copies are locked.
# What is no plain file (a device, a folder, a link) is left alone.

written=()
kept=()

is_plain() {
    [ -f "$1" ] && [ ! -L "$1" ]
}

# The name beside a file with an ending: FILE END. It is left in `beside`.
name_beside() {
    case "$1" in
        */*) beside="${1%/*}/.${1##*/}.stn-$2" ;;
        *) beside=".$1.stn-$2" ;;
    esac
}

# The places of the words that name written files or stems of such, by the forms of the commands: COMMAND COUNT.
written_places() {
    [[ "$1" =~ ^[a-z-]+$ ]] && awk -v command="$1" -v count="$2" '
        $1 == "form" && $2 == command && count < NF && count >= NF - 1 - ($NF ~ /^\[/) {
            for (i = 3; i <= count + 1; i++) if ($i ~ /!/) print i - 1, ($i ~ /STEM/ ? "stem" : "file")
        }' "$here/tools/commands.txt"
}

# The files that the words say may be written, in `written`; of a stem those that stand there, or that a killed run wrote.
list_written() {
    local place kind number
    written=()
    while read -r place kind; do
        if [ "$kind" = file ]; then
            written+=("${!place}")
            continue
        fi
        for number in {0..336}; do
            name_beside "${!place}.$number" kept
            if [ -e "${!place}.$number" ] || [ -e "$beside" ]; then
                written+=("${!place}.$number")
            fi
        done
    done < <(written_places "${1:-}" $#)
}

# Whether a written file is no file that another word names in another way; that it is the same word, the program says.
is_apart() {
    local file="$1" word
    shift
    [ ! -f "$file" ] || for word in "$@"; do
        if [ "$word" != "$file" ] && [ "$word" -ef "$file" ]; then
            complain "$file, which would be written, is the file $word: nothing was run"
            return 1
        fi
    done
}

# Locks a copy for as long as this run and its program last. Where there is no `flock` there are no locks.
lock_copy() {
    local lock
    command -v flock >/dev/null || return 0
    exec {lock}<"$1" && flock -n "$lock" && return 0
    exec {lock}<&-
    return 1
}

# Puts a file back as it was before the run, and says so where that is another content.
restore() {
    local file="$1" copy broken
    name_beside "$file" kept
    copy="$beside"
    name_beside "$file" broken
    broken="$beside"
    if cmp -s -- "$file" "$copy"; then
        rm -f -- "$copy"
    elif is_plain "$file"; then
        mv -f -- "$file" "$broken" && mv -f -- "$copy" "$file" &&
            complain "$file is as it was before that run; what the run wrote is in $broken"
    elif [ -e "$file" ] || [ -L "$file" ]; then
        complain "$file is no plain file any more; what it held before that run is in $copy"
    else
        mv -f -- "$copy" "$file" && complain "$file is as it was before that run"
    fi
}

# Puts back what a killed run was writing. A run that still lasts is not disturbed.
mend_killed() {
    local lock
    name_beside "$1" kept
    is_plain "$beside" || return 0
    if command -v flock >/dev/null && exec {lock}<"$beside"; then
        if ! flock -n "$lock"; then
            complain "another run is writing $1: nothing was run"
            exec {lock}<&-
            return 1
        fi
        exec {lock}<&-
    fi
    complain "an earlier run that was writing $1 was killed"
    restore "$1"
}

# Copies one file beside it, at once as a whole, and locks the copy.
keep_one() {
    local copy new
    is_plain "$1" || return 0
    name_beside "$1" kept
    copy="$beside"
    name_beside "$1" "keeping.$$"
    new="$beside"
    if cp -p -- "$1" "$new" 2>/dev/null && lock_copy "$new" && mv -f -- "$new" "$copy" 2>/dev/null; then
        kept+=("$1")
        return 0
    fi
    rm -f -- "$new" 2>/dev/null
    complain "$1 is there and can't be kept beside it while it is written anew: nothing was run"
    return 1
}

# Keeps each file that the words say may be written. Where that can't be done nothing is to be run, and this is the status.
keep_files() {
    local file
    list_written "$@"
    for file in ${written[@]+"${written[@]}"}; do
        is_apart "$file" "$@" || { settle_files 2; return 2; }
    done
    for file in ${written[@]+"${written[@]}"}; do
        mend_killed "$file" && keep_one "$file" || { settle_files 2; return 8; }
    done
}

# What is done with the copies after a run that ended with this status. Statuses to 6 leave each file whole or as before.
settle_files() {
    local file
    for file in ${kept[@]+"${kept[@]}"}; do
        case "$1" in
            [0-6])
                name_beside "$file" kept
                rm -f -- "$beside"
                ;;
            *) restore "$file" ;;
        esac
    done
    kept=()
}
