#!/usr/bin/env bash
# Makes release/ from the program that is proved and built in this clone: the program packed, and a text that says what it was made of.
#
#   bash tools/make_release.sh     # as the last commit before the gate, wherever a source of the program has changed
#
# A program that this clone's gate or `./stn --prove` has built of the sources that stand here is taken as it is; else it is proved and
# built first. The same program gives the same bytes of release/, so a release that is up to date stays as it is.
set -u
here="$(cd "$(dirname "$(readlink -f "${BASH_SOURCE[0]}")")/.." && pwd)"
say() {
    printf 'make_release: %s\n' "$*" >&2
}
complain() {
    say "$@"
}
# shellcheck source=/dev/null
. "$here/tools/program.sh"
# shellcheck source=/dev/null
. "$here/tools/proving.sh"
trap clear_room EXIT

sources="$(sources_sum)"
if ! fits "$built" "$sources" || [ "$(field "$built/stn.txt" by)" = release ]; then
    prove || exit
fi
made="$built/stn"
answers "$made" && is_elf "$made" || { complain "built/stn is no program for Linux on x86_64"; exit 1; }
mkdir -p "$release"
if [ "$(field "$release/stn.txt" program)" != "$(sum_of "$made")" ] || [ "$(sum_of "$release/stn.gz")" != "$(field "$release/stn.txt" packed)" ]; then
    gzip -9nc "$made" >"$release/stn.gz"
fi
printf '%s\n' "sources $sources" "program $(sum_of "$made")" "kit $(field "$built/stn.txt" kit)" "packed $(sum_of "$release/stn.gz")" \
    >"$release/stn.txt"
make_room
unpack_release "$room/released" && cmp -s "$made" "$room/released" || { complain "release/ does not hold the program"; exit 1; }
say "release/ holds the program of $(stat -c %s "$made") bytes in $(stat -c %s "$release/stn.gz")"
