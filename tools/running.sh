# Runs the program on the words, and what belongs to a run: its files are kept, its sums told, its answer explained. Sourced by `stn`.
#
# The program's output streams through byte for byte, and its status is the wrapper's. Where tools/speak can be executed it is
# run after statuses 1 to 9, and after each `conflict`, as `tools/speak STATUS STDOUT STDERR -- WORDS ..`: the files have what the
# program put (its first 65,536 bytes) and what it said; what speak puts goes to standard error. STN_PROGRAM is then the program.

child=""
copier=""
reader=""
signal=""
caught=""

# Ends the program where the run is ended, and those who hand on what it puts.
pass_on() {
    local each
    signal="$1"
    caught=yes
    for each in $child $copier $reader; do
        kill -TERM "$each" 2>/dev/null
    done
}

# Whether the answer is to be explained: there is somebody to speak, and an output to copy.
is_explained() {
    [ -z "$quiet" ] && [ -x "$here/tools/speak" ] && [ -e /dev/fd/1 ]
}

# Raises the soft limit of the stack to 128 MiB, or to the hard limit where that is less: some commands take up to 2 KB of stack for
# each of the 36,864 splits that may stand one below another in a proof.
raise_stack() {
    local most=131072 soft hard
    soft="$(ulimit -S -s)"
    hard="$(ulimit -H -s)"
    [ "$hard" = unlimited ] || [ "$hard" -gt "$most" ] || most="$hard"
    [ "$soft" = unlimited ] || [ "$soft" -ge "$most" ] || ulimit -S -s "$most" 2>/dev/null || true
}

# Starts the program as `child`, on the caller's input and with a copy of what it puts where that is explained.
start_program() {
    { exec 3<&0; } 2>/dev/null || exec 3</dev/null
    if ! is_explained; then
        "$program" "$@" <&3 3<&- &
        child=$!
        return
    fi
    make_room
    mkfifo "$room/answer" "$room/head"
    { head -c 65536; cat >/dev/null; } <"$room/head" >"$room/stdout" 3<&- &
    reader=$!
    LC_ALL=C tee "$room/head" <"$room/answer" 2>"$room/tee" 3<&- &
    copier=$!
    "$program" "$@" <&3 3<&- >"$room/answer" 2>"$room/stderr" &
    child=$!
}

# Waits for the program; its status is left in `ended`, and in `status` too: there an answer that could not be handed on is 8, as the
# program says it. (Where a signal and the program's end come at once, bash may know no status; then it is one of a broken run.)
wait_for_program() {
    local copied
    [ -z "$signal" ] || pass_on "$signal"
    while :; do
        caught=""
        wait "$child"
        status=$?
        [ -n "$caught" ] || break
    done
    [[ "$status" =~ ^[0-9]+$ ]] || status=143
    ended="$status"
    [ -n "$copier" ] || return 0
    wait "$copier"
    copied=$?
    wait "$reader"
    sed "s/^tee: 'standard output'/stn: standard output/" "$room/tee" >>"$room/stderr"
    [ ! -s "$room/stderr" ] || cat "$room/stderr" >&2
    if [ "$copied" -ne 0 ] && [ "$copied" -lt 128 ] && [ "$status" -le 6 ]; then
        status=8
    fi
}

# The files that a check reads, as lines `ROLE SUM FILE`, by the forms of the commands.
sums_of() {
    local role place=2 number
    [[ "${1:-}" == check* ]] || return 0
    while read -r role; do
        [ "$place" -le $# ] || return 0
        if [ "$role" = stem ]; then
            for number in {0..336}; do
                [ ! -f "${!place}.$number" ] || printf '%s %s %s\n' log "$(sum_of "${!place}.$number")" "${!place}.$number"
            done
        elif [[ "$role" =~ ^(plant|plan|log)$ && -f "${!place}" ]]; then
            printf '%s %s %s\n' "$role" "$(sum_of "${!place}")" "${!place}"
        fi
        place=$((place + 1))
    done < <(awk -v command="$1" '$1 == "form" && $2 == command { for (i = 3; i <= NF; i++) print tolower($i) }' "$here/tools/commands.txt")
}

# Says what was checked and by which program, for whoever files the answer: the lines of `sums_of` before the run, and the words.
tell_sums() {
    local before="$1" role sum file
    shift
    [ -n "$before" ] || return 0
    if [ "$(sums_of "$@")" != "$before" ]; then
        complain "a file changed while it was checked"
        return 0
    fi
    while read -r role sum file; do
        say "$role SHA-256 $sum $file"
    done <<<"$before"
    say "program SHA-256 $(sum_of "$program")"
}

# Runs the program on the words and ends with its status.
run_program() {
    local status ended sums=""
    keep_files "$@" || exit
    if [ ${#kept[@]} -eq 0 ] && [ -z "$room" ] && [[ "${1:-}" != check* ]] && { [ -n "$quiet" ] || [ $# -gt 0 ]; } && ! is_explained; then
        exec "$program" "$@"
    fi
    [ -n "$quiet" ] || sums="$(sums_of "$@")"
    for each in INT TERM HUP; do
        # shellcheck disable=SC2064
        trap "pass_on $each" "$each"
    done
    start_program "$@"
    wait_for_program
    trap '' INT TERM HUP
    settle_files "$ended"
    end_run "$@"
}

# What is said after a run, and its end: by the signal that ended it, else with its status.
end_run() {
    if [ -n "$signal" ]; then
        clear_room
        trap - "$signal" EXIT
        kill -s "$signal" $$
    fi
    tell_sums "$sums" "$@"
    if [ $# -eq 0 ]; then
        [ -n "$quiet" ] || short_help >&2
    elif { [ "$status" -ne 0 ] || [ "$1" = conflict ]; } && [ "$status" -le 9 ] && is_explained; then
        STN_PROGRAM="$program" "$here/tools/speak" "$status" "$room/stdout" "$room/stderr" -- "$@" </dev/null >&2
    fi
    exit "$status"
}
