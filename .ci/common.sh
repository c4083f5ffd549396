# Sourced by the checks at the top of the repository: how they complain, which program they run, and clones that they try things in.
here="$PWD"
fail=0
complain() {
    echo "checks: $*"
    fail=1
}
say() {
    echo "checks: $*"
}
# shellcheck source=tools/program.sh
. tools/program.sh

# The program that was made of the sources that stand here, in `program`; where there is none the check is skipped, and says so.
want_program() {
    find_made >/dev/null && [ -n "$program" ] && return
    say "skipped, since no program of these sources stands here: $(basename "$0")"
    exit 0
}

# A clone with one crate in the place of all, in which built/ holds the program: FOLDER. Its sources are summed at once.
make_small_clone() {
    mkdir -p "$1/crates/stn/src"
    cp -R stn tools VERSION "$1"
    cp crates/stn/src/main.rt "$1/crates/stn/src"
    echo "stn:" >"$1/crates.txt"
    (here="$1" && keep_program "$1/built" "$program" "$(sources_sum)" "a kit" proof)
}

# A folder with what the wrapper calls of the system, and not the kit's `rt`: FOLDER.
make_path_without_kit() {
    local name
    mkdir -p "$1"
    for name in bash env readlink dirname awk sort find xargs sha256sum cut gzip od tr uname mktemp cp mv rm mkdir chmod cat head tee \
        mkfifo sed cmp grep ps sleep nproc wc stat ln rmdir flock date python3; do
        ! command -v "$name" >/dev/null || ln -s "$(command -v "$name")" "$1/$name"
    done
}
