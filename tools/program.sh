# Which program is run: the one that was built here of the sources that stand here, or the released one that was made of the
# same, or one that is proved and built first. Sourced by `stn` and by scripts, which set `here`, `say` and `complain`.
#
# built/ and release/ hold a program and a text of lines `KEY VALUE`: `sources`, the hash of the sources that it was made of;
# `program`, its own; `kit`, the toolchain's line; `by`, who built it (in built/); `packed`, the hash of the packed file (in release/).

built="$here/built"
release="$here/release"
program=""
room=""

# A folder of this run's own, which goes when it ends.
make_room() {
    [ -n "$room" ] || room="$(mktemp -d "${TMPDIR:-/tmp}/stn.XXXXXX")"
}

clear_room() {
    [ -z "$room" ] || rm -rf "$room"
}

# The crates that the program stands on, itself too, by name, as lines `NAME: BELOW ..`. Those that tests and laws alone need are not among them.
crates_below() {
    awk -F: '{ sub(/#.*/, ""); gsub(/[ \t]+/, " "); sub(/ $/, "") }
        NF > 1 { below[$1] = $2; line[$1] = $0 }
        function visit(name,    each, n, i) {
            if (name in seen || !(name in below)) return
            seen[name] = 1
            n = split(below[name], each, " ")
            for (i = 1; i <= n; i++) visit(each[i])
            print line[name]
        }
        END { visit("stn") }' "$here/crates.txt" | LC_ALL=C sort
}

# The hash of all that the program is made from: those lines, and these crates' files in src/, specs/ and proofs/ by name and content.
sources_sum() {
    local lines name part folders=()
    lines="$(crates_below)"
    while IFS=: read -r name _; do
        for part in src specs proofs; do
            [ ! -d "$here/crates/$name/$part" ] || folders+=("$name/$part")
        done
    done <<<"$lines"
    {
        printf '%s\n' "$lines"
        cd "$here/crates" && find "${folders[@]}" -type f -print0 | LC_ALL=C sort -z | xargs -0 sha256sum
    } | sha256sum | cut -d ' ' -f 1
}

# The SHA-256 of a file; nothing where it can't be read.
sum_of() {
    local sum rest
    read -r sum rest < <(sha256sum <"$1") && printf '%s\n' "$sum"
} 2>/dev/null

# The value of a key in a text of lines `KEY VALUE`.
field() {
    local key value
    while read -r key value; do
        if [ "$key" = "$2" ]; then
            printf '%s\n' "$value"
            return
        fi
    done <"$1"
} 2>/dev/null

# Whether a folder holds a whole program that was made of the sources given.
fits() {
    [ -x "$1/stn" ] && [ "$(field "$1/stn.txt" sources)" = "$2" ] && [ "$(field "$1/stn.txt" program)" = "$(sum_of "$1/stn")" ]
}

# Whether a file is a program that runs on this machine: without words it says so.
answers() {
    local text
    text="$("$1" </dev/null 2>/dev/null)"
    [ $? -eq 2 ] && [ "$text" = "refused words" ]
}

# Puts a program into a folder with what is known of it: FOLDER FILE SOURCES KIT BY.
keep_program() {
    mkdir -p "$1" 2>/dev/null && cp "$2" "$1/.stn.$$" 2>/dev/null && chmod 755 "$1/.stn.$$" &&
        printf '%s\n' "sources $3" "program $(sum_of "$1/.stn.$$")" "kit $4" "by $5" >"$1/.stn.txt.$$" &&
        mv -f "$1/.stn.$$" "$1/stn" && mv -f "$1/.stn.txt.$$" "$1/stn.txt" && return
    rm -f "$1/.stn.$$" "$1/.stn.txt.$$" 2>/dev/null
    return 1
}

# The released program, written to a file, where it is sound and made for this machine. Else what is wrong with it, in one line.
unpack_release() {
    local about="$release/stn.txt" packed="$release/stn.gz" key
    for key in sources program kit packed; do
        [ -n "$(field "$about" "$key")" ] || { complain "release/stn.txt has no line '$key': the released program is not run"; return 1; }
    done
    if [ "$(sum_of "$packed")" != "$(field "$about" packed)" ]; then
        complain "release/stn.gz is cut off or was changed (its SHA-256 is not that of release/stn.txt): it is not run"
    elif [ "$(uname -s) $(uname -m)" != "Linux x86_64" ]; then
        complain "the released program is for Linux on x86_64, and this is $(uname -s) on $(uname -m): it is not run"
    elif ! gzip -dc <"$packed" >"$1" 2>/dev/null || [ "$(sum_of "$1")" != "$(field "$about" program)" ]; then
        complain "what release/stn.gz holds is not the program of release/stn.txt: it is not run"
    elif ! is_elf "$1"; then
        complain "what release/stn.gz holds is no program for Linux on x86_64: it is not run"
    else
        return 0
    fi
    rm -f "$1"
    return 1
}

# Whether a file is an ELF program of 64 bits for x86-64.
is_elf() {
    [[ "$(od -An -v -tx1 -N20 "$1" | tr -d ' \n')" =~ ^7f454c460201.{24}3e00$ ]]
}

# Takes the released program into use, in built/, or for this run alone where built/ can't be written or not be run from.
take_release() {
    local sources="$1" kit
    make_room
    unpack_release "$room/stn" && chmod 755 "$room/stn" || return 1
    kit="$(field "$release/stn.txt" kit)"
    program="$room/stn"
    if keep_program "$built" "$room/stn" "$sources" "$kit" release && answers "$built/stn"; then
        program="$built/stn"
    elif ! answers "$room/stn"; then
        complain "the released program does not run on this machine (an older C library, or a folder that nothing may be run from): it is not used"
        return 1
    fi
    say "this is the released program, which $kit proved and built from the sources that stand here;" \
        "./stn --prove does the same on this machine"
}

# Finds a program that belongs to the sources: one that was built here, or the released one. Fails where there is none, and says why.
find_made() {
    local sources
    sources="$(sources_sum)"
    if fits "$built" "$sources"; then
        program="$built/stn"
    elif [ ! -e "$release" ]; then
        say "there is no released program"
        return 1
    elif [ -n "$(field "$release/stn.txt" sources)" ] && [ "$(field "$release/stn.txt" sources)" != "$sources" ]; then
        say "the sources are not those of the released program"
        return 1
    else
        take_release "$sources"
    fi
}

# Finds the program that belongs to the sources, and proves and builds it where there is none.
find_program() {
    if [ ! -f "$here/crates.txt" ]; then
        find_installed
    else
        find_made || prove
    fi
}

# Prints where the program stands.
show_path() {
    find_program || return
    if [ "$program" = "$room/stn" ]; then
        complain "the program stands nowhere for good, since built/ can't be written or not be run from"
        return 70
    fi
    printf '%s\n' "$program"
}

# An installed `stn` has no sources: its program is the one that was put beside it.
find_installed() {
    if [ -x "$built/stn" ] && [ "$(field "$built/stn.txt" program)" = "$(sum_of "$built/stn")" ]; then
        program="$built/stn"
        return 0
    fi
    complain "the installed program is not the one that was installed: install it anew"
    return 70
}

# What `--version` says: the version, and which program would be run.
show_version() {
    local sources="" about=""
    printf 'stn %s\n' "$(cat "$here/VERSION")"
    [ ! -f "$here/crates.txt" ] || sources="$(sources_sum)"
    if fits "$built" "${sources:-$(field "$built/stn.txt" sources)}"; then
        about="$built/stn.txt"
    elif [ -n "$sources" ] && [ "$(field "$release/stn.txt" sources)" = "$sources" ]; then
        about="$release/stn.txt"
    fi
    if [ -z "$about" ]; then
        echo "no program of these sources is built yet: ./stn --prove proves and builds it"
        return 0
    fi
    printf 'program %s\n' "$(field "$about" program)"
    case "$(field "$about" by)" in
        proof | gate) printf 'proved and built here by %s\n' "$(field "$about" kit)" ;;
        *) printf 'released: proved and built by %s, not here\n' "$(field "$about" kit)" ;;
    esac
}
