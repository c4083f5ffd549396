# Proves and builds the program with the kit, says how far it is, and compares it with the release. Sourced by `stn`.

# The crates that the processes below a process are proving, whatever these processes are called.
crates_in_work() {
    ps -eo pid=,ppid=,args= 2>/dev/null | awk -v top="$1" '
        { parent[$1] = $2; for (i = 3; i < NF; i++) if ($i == "--crate-name") crate[$1] = $(i + 1) }
        END {
            for (one in crate) {
                at = one
                while (at in parent && at != top) at = parent[at]
                if (at == top) print crate[one]
            }
        }' | sort -u | paste -sd ' ' -
}

# How many of the crates that the first file names have ended, by the report in the second: one line `== NAME` each.
crates_done() {
    awk 'NR == FNR { sub(/:.*/, ""); wanted[$0] = 1; next } /^== / && ($2 in wanted) && !seen[$2]++ { n++ } END { print n + 0 }' "$1" "$2"
}

# Says every few seconds which crates are being proved and how many are left, until a process ends.
show_progress() {
    local worker="$1" names="$2" report="$3" begun=$SECONDS all left now said=""
    all="$(wc -l <"$names")"
    while kill -0 "$worker" 2>/dev/null; do
        left=$((all - $(crates_done "$names" "$report")))
        now="$(crates_in_work "$worker")"
        if [ "$left $now" != "$said" ]; then
            said="$left $now"
            say "$(printf '%d:%02d minutes, %d of %d crates left, proving: %s' $(((SECONDS - begun) / 60)) \
                $(((SECONDS - begun) % 60)) "$left" "$all" "${now:--}")"
        fi
        sleep 5
    done
}

# Proves the program's crates side by side (those that were killed for want of memory once more, one at a time), then links the program,
# which `rt run` does and says so by a stamp beside it. The report grows in the file given.
prove_crates() {
    local proved=""
    cd "$here/crates/stn" || return
    rm -f out/stn.stamp
    if rt all check --jobs "$(nproc)" >"$1" 2>&1; then
        proved=yes
    elif grep -q ': failed (-9)$' "$1"; then
        rt all check --jobs 1 >>"$1" 2>&1 && proved=yes
    fi
    [ -z "$proved" ] || rt run >>"$1" 2>&1
    [ -f out/stn.stamp ]
}

# Proves and builds the program, and keeps it in built/ (for this run alone where that can't be written).
prove() {
    local before worker status made="$here/crates/stn/out/stn"
    if [ ! -f "$here/crates.txt" ] || ! command -v rt >/dev/null; then
        complain "it can't be proved and built here: that takes a clone of the sources, and the kit's command rt on the PATH"
        return 70
    fi
    make_room
    crates_below >"$room/names"
    before="$(sources_sum)"
    complain "proving the program's $(wc -l <"$room/names") crates on $(nproc) processors, and building it, which takes long;" \
        "what is proved is kept for later runs"
    : >"$room/report"
    prove_crates "$room/report" </dev/null &
    worker=$!
    trap 'kill_below '"$worker"'; exit 130' INT TERM HUP
    show_progress "$worker" "$room/names" "$room/report"
    wait "$worker"
    status=$?
    trap - INT TERM HUP
    if [ "$status" -ne 0 ] || ! answers "$made"; then
        tail -n 20 "$room/report" >&2
        mkdir -p "$built" && cp "$room/report" "$built/report.txt" 2>/dev/null &&
            complain "the program was not built; the whole report is in built/report.txt"
        return 70
    fi
    if [ "$(sources_sum)" != "$before" ]; then
        complain "the sources changed while they were proved: run it again"
        return 70
    fi
    program="$made"
    if keep_program "$built" "$made" "$before" "$(rt version)" proof; then
        program="$built/stn"
    fi
}

# Ends a process and those below it.
kill_below() {
    local each
    for each in $(ps -eo pid=,ppid= 2>/dev/null | awk -v top="$1" '
        { parent[$1] = $2 }
        END { for (one in parent) { at = one; while (at in parent && at != top) at = parent[at]; if (at == top) print one } }'); do
        kill "$each" 2>/dev/null
    done
}

# Says whether the program that was just built is the released one. Only another program of the same sources and kit is a fault.
compare_with_release() {
    local kit
    [ -e "$release" ] || { complain "proved and built; there is no release to compare it with"; return 0; }
    make_room
    unpack_release "$room/released" || return 1
    kit="$(field "$release/stn.txt" kit)"
    if cmp -s "$program" "$room/released"; then
        complain "proved and built: byte for byte the released program (SHA-256 $(sum_of "$program"))"
    elif [ "$(field "$release/stn.txt" sources)" != "$(sources_sum)" ]; then
        complain "proved and built; the release was made of other sources, so there is nothing to compare"
    elif [ "$kit" != "$(rt version)" ]; then
        complain "proved and built; the release was made by $kit and this by $(rt version), so the bytes can't be compared"
    else
        complain "proved and built, and it is NOT the released program, though sources and kit are the same:" \
            "SHA-256 $(sum_of "$program") here, $(field "$release/stn.txt" program) released"
        return 1
    fi
}

# Runs the program over unproved code, on copies of the files that the words name.
run_unproved() {
    local words=() data=() number=0 word
    for word in "$@"; do
        if [ -f "$word" ]; then
            number=$((number + 1))
            data+=(--data "file$number=$(realpath "$word")")
            word="file$number"
        fi
        words+=("$word")
    done
    complain "nothing is proved in this run, and a file that it writes is not kept"
    cd "$here/crates/stn" && rt try "${data[@]}" --seconds 600 -- "${words[@]}"
}
