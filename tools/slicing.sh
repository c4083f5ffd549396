# `solve --seconds N [--gap PERCENT] PLANT [LOG]`: a first log of one box, then slices of `resume`, each going on from the last whole
# log, until the time is over, the gap is small enough or the plant is settled. Sourced by `stn`.
#
# The first run is always let end. A slice gets as many boxes as half of the time that is left is good for by the pace so far, at most
# ten times as many as the one before; one that still runs at 1.1 times N is ended and dropped. A signal ends the slice that runs: the
# answer of the last whole one is put, as at the end of the time. LOG holds the last whole log, and never a part of one.

time_given=""
gap_given=""

# Whether the words ask for a time.
is_timed() {
    [ "${1:-}" = solve ] && [[ "${2:-}" == --seconds || "${2:-}" == --gap ]]
}

# Milliseconds of some clock.
clock() {
    local now="${EPOCHREALTIME:-$SECONDS.000000}"
    now="${now/[.,]/}"
    printf '%s\n' "${now%???}"
}

# Reads the options behind `solve`: how many words they are is left in `options`.
read_options() {
    options=0
    while :; do
        case "${1:-}" in
            --seconds) time_given="${2:-}" ;;
            --gap) gap_given="${2:-}" ;;
            *) break ;;
        esac
        [ $# -ge 2 ] || break
        options=$((options + 2))
        shift 2
    done
    if [[ ! "$time_given" =~ ^[1-9][0-9]{0,6}$ ]]; then
        complain "--seconds wants a whole number of seconds from 1 to 9999999, as in ./stn solve --seconds 60 PLANT"
    elif [[ -n "$gap_given" && ! "$gap_given" =~ ^[0-9]{1,6}(\.[0-9]{1,6})?$ ]]; then
        complain "--gap wants a number of percent, as in ./stn solve --seconds 60 --gap 0.5 PLANT"
    else
        return 0
    fi
    return 2
}

# The gap between a profit and a cap in percent, rounded up to a hundredth; `-` where there is no plan.
gap_of() {
    awk -v profit="$1" -v cap="$2" 'BEGIN {
        if (profit == "-") { print "-"; exit }
        size = profit < 0 ? -profit : profit
        exact = 10000 * (cap - profit) / (size > 1 ? size : 1)
        whole = int(exact) + (int(exact) < exact)
        printf "%.2f\n", whole / 100
    }'
}

# Whether the gap of the last answer is small enough.
is_small_gap() {
    [ -n "$gap_given" ] && [ "$gap" != "-" ] && awk -v gap="$gap" -v most="$gap_given" 'BEGIN { exit !(gap + 0 <= most + 0) }'
}

# Runs a command to its end whatever signals come meanwhile; where one came before it began, it is begun once more.
unbroken() {
    (trap '' INT TERM HUP && "$@") && return
    [ -n "$signal" ] && (trap '' INT TERM HUP && "$@")
}

# Takes an answer that has become whole: its file, and that of its log, are the last ones; what it says of profit, cap and boxes is read.
take_answer() {
    local line
    unbroken mv -f "$room/next" "$room/last" && unbroken mv -f "$room/next.log" "$room/last.log" || return 1
    { read -r -a answer && read -r -a line; } <"$room/last"
    boxes="${line[2]:-0}"
    gap="$(gap_of "${answer[2]:-"-"}" "${answer[3]:-0}")"
    [ -z "$log" ] || hand_log || { complain "$log could not be written"; return 1; }
}

# Puts the last whole log into LOG, at once as a whole where that is a plain file or none.
hand_log() {
    if [ -e "$log" ] && ! is_plain "$log"; then
        cat "$room/last.log" >"$log"
        return
    fi
    name_beside "$log" "next.$$"
    unbroken cp -- "$room/last.log" "$beside" && unbroken mv -f -- "$beside" "$log" && return
    rm -f -- "$beside"
    return 1
} 2>/dev/null

# A line on the last answer, where somebody looks at a terminal.
tell_answer() {
    [ -z "$quiet" ] && [ -t 2 ] || return 0
    case "${answer[1]:-}" in
        budget-spent) say "$boxes boxes, plan ${answer[2]}, cap ${answer[3]}, gap $gap percent, $(seconds_since) seconds" ;;
        *) say "$boxes boxes, ${answer[*]:1}, $(seconds_since) seconds" ;;
    esac
}

seconds_since() {
    local took=$(($(clock) - begun))
    printf '%d.%d\n' $((took / 1000)) $((took % 1000 / 100))
}

# Runs the program on the words, for at most some milliseconds where a first word says how many. Its status is left in `status`.
run_slice() {
    local most="$1" limit=()
    shift
    [ "$most" = "-" ] || limit=(timeout "$(printf '%d.%03d' $((most / 1000)) $((most % 1000)))")
    ${limit[@]+"${limit[@]}"} "$program" "$@" </dev/null >"$room/next" 2>"$room/stderr" &
    child=$!
    wait_for_program
    child=""
}

# Goes on from the last whole log by slices, until the time is over, the gap is small, the plant is settled or a slice fails.
# The status of the last whole answer is left in `status`, and 8 where LOG could not be written.
go_on() {
    local budget=1 slice left whole=$status
    while [ "$whole" -eq 6 ] && [ -z "$signal" ] && ! is_small_gap; do
        left=$((1000 * time_given - ($(clock) - begun)))
        [ "$left" -gt 0 ] || break
        slice="$(clock)"
        run_slice $((left + 100 * time_given)) resume "$plant" "$room/last.log" "$budget" "$room/next.log"
        if [ -n "$signal" ] || [ "$status" -ge 124 ]; then
            break
        elif [[ ! "$status" =~ ^[016]$ ]]; then
            complain "a slice ended with status $status: the answer is that of the one before it"
            break
        fi
        whole=$status
        take_answer || { status=8; return; }
        tell_answer
        budget="$(next_budget "$budget" $(($(clock) - slice)) $((1000 * time_given - ($(clock) - begun))))"
    done
    status=$whole
}

# How many boxes the next slice gets: BUDGET TOOK LEFT, in milliseconds.
next_budget() {
    local next=$(($1 * ($3 > 0 ? $3 : 0) / 2 / ($2 > 0 ? $2 : 1)))
    [ "$next" -le $((10 * $1)) ] || next=$((10 * $1))
    [ "$next" -le 100000 ] || next=100000
    printf '%d\n' $((next > 0 ? next : 1))
}

# Runs `solve` for a time: the words behind `solve`.
run_timed() {
    local plant log status ended begun options gap="-" boxes=0 answer=()
    read_options "$@" || return
    shift "$options"
    if [ $# -lt 1 ] || [ $# -gt 2 ]; then
        complain "it is ./stn solve --seconds N [--gap PERCENT] PLANT [LOG]"
        return 2
    fi
    plant="$1"
    log="${2:-}"
    if [ $# -eq 2 ] && { [ -z "$log" ] || [ "$log" = "$plant" ]; }; then
        "$program" solve "$plant" 1 "$log"
        return
    fi
    if [ -n "$log" ]; then
        is_apart "$log" "$plant" || return 2
        mend_killed "$log" || return 8
    fi
    make_room
    begun="$(clock)"
    first_run
    if [ -z "$signal" ] && [[ "$status" =~ ^[016]$ ]]; then
        take_answer || status=8
        [ "$status" -eq 8 ] || { tell_answer; go_on; }
    fi
    end_timed "$@"
}

# The first run, which is let end, on a copy of the plant where that is no plain file and can be read but once.
first_run() {
    local each
    if [ ! -f "$plant" ] && cat -- "$plant" >"$room/plant" 2>/dev/null; then
        plant="$room/plant"
    fi
    for each in INT TERM HUP; do
        # shellcheck disable=SC2064
        trap "pass_on $each" "$each"
    done
    run_slice - solve "$plant" 1 "$room/next.log"
}

# What is put and said at the end, and the status: where a signal came before the first answer, by the signal.
end_timed() {
    trap '' INT TERM HUP
    if [ -n "$signal" ] && [ ! -f "$room/last" ]; then
        clear_room
        trap - "$signal" EXIT
        kill -s "$signal" $$
    fi
    [ ! -s "$room/stderr" ] || [ "$status" -le 1 ] || [ "$status" -eq 6 ] || cat "$room/stderr" >&2
    case "$status" in
        0 | 1 | 6) cat "$room/last" || status=8 ;;
        *) [ -f "$room/last" ] || cp "$room/next" "$room/last" && cat "$room/last" ;;
    esac
    if [ -z "$quiet" ] && [ -x "$here/tools/speak" ] && [ "$status" -ge 1 ] && [ "$status" -le 9 ]; then
        STN_PROGRAM="$program" "$here/tools/speak" "$status" "$room/last" "$room/stderr" -- solve --seconds "$time_given" "$@" </dev/null >&2
    fi
    exit "$status"
}
