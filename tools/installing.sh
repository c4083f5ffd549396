# Installs the program below a folder, and takes it away again. Sourced by `stn`.
#
# PREFIX/lib/stn gets the wrapper, its parts and the program, PREFIX/bin/stn leads to it, and the manual page and the completion
# for bash go where `man` and bash look for them. PREFIX/lib/stn/installed.txt lists each file; only these are ever taken away.

# What is installed, as lines `FILE TARGET`: the file from the clone, the target below PREFIX.
installed_files() {
    local file
    printf '%s %s\n' stn lib/stn/stn VERSION lib/stn/VERSION docs/stn.1 share/man/man1/stn.1 \
        tools/completion.bash share/bash-completion/completions/stn
    for file in LICENSE*; do
        printf '%s %s\n' "$file" "lib/stn/$file"
    done
    find tools -type f ! -path '*/__pycache__/*' ! -name make_release.sh | LC_ALL=C sort | while read -r file; do
        printf '%s %s\n' "$file" "lib/stn/$file"
    done
}

# Puts one file to its target as a whole.
put_file() {
    mkdir -p "$(dirname "$2")" && cp -p "$1" "$2.new.$$" && chmod a+rX,u+w "$2.new.$$" && mv -f "$2.new.$$" "$2"
}

# The folder named, with its whole path; it is made where it is not there.
whole_path() {
    mkdir -p "$1" && (cd "$1" && pwd)
}

install_to() {
    local prefix list file target
    [ -n "$1" ] || { complain "--install wants a folder, as in ./stn --install ~/.local"; return 2; }
    [ -f "$here/crates.txt" ] || { complain "--install takes a clone of the sources"; return 2; }
    find_program || return
    prefix="$(whole_path "$1")" || return 1
    list="$prefix/lib/stn/installed.txt"
    if [ ! -f "$list" ] && { [ -e "$prefix/bin/stn" ] || [ -L "$prefix/bin/stn" ] || [ -e "$prefix/lib/stn" ]; }; then
        complain "$prefix/bin/stn or $prefix/lib/stn is there, and this did not install it: nothing was changed"
        return 1
    fi
    [ ! -f "$list" ] || uninstall_from "$prefix" || return
    (
        cd "$here" || exit
        mkdir -p "$prefix/lib/stn" "$prefix/bin" || exit
        { installed_files | cut -d ' ' -f 2; printf '%s\n' lib/stn/built/stn lib/stn/built/stn.txt bin/stn; } >"$list" || exit
        installed_files | while read -r file target; do put_file "$file" "$prefix/$target" || exit; done || exit
        put_file "$program" "$prefix/lib/stn/built/stn" || exit
        record_of_program >"$prefix/lib/stn/built/stn.txt" || exit
        ln -sfn ../lib/stn/stn "$prefix/bin/stn"
    ) || { complain "not all could be written below $prefix; ./stn --uninstall takes away what was"; return 1; }
    say "installed: $prefix/bin/stn, its manual page and its completion; ./stn --uninstall $prefix takes them away"
}

# What is known of the program, from beside it or, where it is run from a folder of this run, from the release.
record_of_program() {
    if [ -f "$(dirname "$program")/stn.txt" ]; then
        cat "$(dirname "$program")/stn.txt"
    else
        grep -E '^(sources|program|kit) ' "$release/stn.txt" && echo "by release"
    fi
}

uninstall_from() {
    local prefix list file
    [ -n "$1" ] || { complain "--uninstall wants the folder that --install got"; return 2; }
    prefix="${1%/}"
    list="$prefix/lib/stn/installed.txt"
    [ -f "$list" ] || { complain "nothing is installed below $1: there is no $list"; return 1; }
    while read -r file; do
        case "/$file/" in */../* | //*) continue ;; esac
        rm -f "$prefix/$file"
    done <"$list"
    rm -f "$list"
    for file in lib/stn/built lib/stn/tools lib/stn lib bin share/man/man1 share/man share/bash-completion/completions \
        share/bash-completion share; do
        rmdir "$prefix/$file" 2>/dev/null
    done
    [ ! -e "$prefix/lib/stn" ] || complain "$prefix/lib/stn holds files that were not installed; they are left"
    return 0
}
