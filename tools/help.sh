# The help, made of tools/commands.txt. Sourced by `stn`.

# What is put where no words were given.
short_help() {
    cat <<'TEXT'
stn plans multipurpose batch plants, with proofs. For a first answer:
    ./stn solve examples/tiny.toml 31
    ./stn help                            the commands, and an example of each
    ./stn help COMMAND                    one command and its words
TEXT
}

# All commands, by what one wants to do.
all_help() {
    echo "stn plans multipurpose batch plants, with proofs. The commands, and an example of each:"
    awk '{ gsub(/!/, "") }
        $1 == "group" { sub(/^group /, ""); print "\n" $0 }
        $1 == "form" { sub(/^form /, ""); print "\n    stn " $0 }
        $1 == "does" { sub(/^does /, ""); print "        " $0 }
        $1 == "try" { sub(/^try /, ""); print "        ./stn " $0 }' "$here/tools/commands.txt"
    cat <<'TEXT'

stn help COMMAND shows one command and its words. Before the words there may stand
    --quiet                  nothing is said beside the program's own answer
    --prove                  the program is proved and built first, and compared with the released one
    --unproved               it is compiled and run without proving anything
behind `solve`, in the place of BUDGET,
    --seconds N              it is planned for N seconds, by slices of `resume`; Ctrl-C ends with the best plan so far
    --gap PERCENT            and no longer than until the gap between plan and cap is at most PERCENT
and in their place
    --version                the version, and which program is run
    --path                   where the program stands
    --install PREFIX         puts program, manual page and completion below the folder PREFIX
    --uninstall PREFIX       takes them away
TEXT
}

# One command: its form, its words, an example, and what its statuses mean. Fails where there is no such command.
command_help() {
    [[ "$1" =~ ^[a-z-]+$ ]] && awk -v command="$1" '{ gsub(/!/, "") }
        $1 == "form" { mine = $2 == command; if (mine) { found = 1; form = $0; sub(/^form /, "", form); print "stn " form } }
        $1 == "does" && mine { sub(/^does /, ""); print "    " $0 }
        $1 == "try" && mine { sub(/^try /, ""); example = $0 }
        $1 == "word" && found && (" " form " ") ~ ("[ \\[]" $2 "[] ]") { name = $2; sub(/^word [A-Z]+ /, ""); print (said++ ? "" : "\n") sprintf("    %-8s %s", name, $0) }
        $1 == "status" && found { number = $2; sub(/^status [0-9]+ /, ""); print (told++ ? "" : "\nIts exit status:\n") sprintf("    %-8s %s", number, $0) }
        END { if (!found) exit 1; print "\nFor example:\n    ./stn " example }' "$here/tools/commands.txt"
}

show_help() {
    if [ -z "$1" ]; then
        all_help
    elif ! command_help "$1"; then
        complain "there is no command '$1'; ./stn help lists all"
        return 2
    fi
}
