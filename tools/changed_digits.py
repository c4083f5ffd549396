#!/usr/bin/env python3
"""Shows that no case of the commands is tried in vain: changes one digit of what a case wants, and the program has to fail.

    python3 tools/changed_digits.py [--most N] [--seed S] [PROGRAM]   # each case, or N of them as the seed has it

PROGRAM is the built `command_cases`, else crates/command_cases/out/command_cases. For each case one digit in the status, the texts or
the counts that it wants becomes another one, in a copy of the files, and the program tries that case alone. A line names each case
that passes all the same; the last one counts. It ends with 1 where one passes. A case that allows several statuses, or a first part of
a text alone, may want no single digit: the digits of such entries are not changed.
"""
import argparse, os, random, shutil, subprocess, sys, tempfile
from concurrent.futures import ThreadPoolExecutor

TOP = os.path.dirname(os.path.dirname(os.path.abspath(__file__)))
DATA = os.path.join(TOP, "crates", "command_cases", "data")
# Entries all of whose digits are wanted, and those under which the lines of a text are.
COUNTS, TEXTS = ("status", "faults", "put-lines"), ("put", "put-begins", "put-ends", "put-holds", "left")


def wanted_digits(lines):
    """The places of the digits that the cases of a file want: by case a list of (line, column)."""
    found, case, is_text = {}, None, False
    for number, line in enumerate(lines):
        mark = line[:1]
        if mark in (b"|", b"\\") and is_text and case:
            found[case] += [(number, at) for at in range(1, len(line)) if line[at : at + 1].isdigit()]
            continue
        if mark in (b"", b"#", b"|", b"\\", b"@", b"*", b"-", b"+"):
            continue
        word, _, rest = line.decode().partition(" ")
        is_text = word in TEXTS
        if word == "case":
            case = rest
            found[case] = []
        elif case and word in COUNTS and not (word == "status" and " " in rest):
            found[case] += [(number, at) for at in range(len(word) + 1, len(line)) if line[at : at + 1].isdigit()]
    return found


def changed(lines, place, rng):
    """The lines with another digit in this place."""
    number, at = place
    line = lines[number]
    other = rng.choice([it for it in b"0123456789" if it != line[at]])
    return [*lines[:number], line[:at] + bytes([other]) + line[at + 1 :], *lines[number + 1 :]]


def passes(program, book, lines, case):
    """Whether the program passes a case over these lines of its file."""
    with tempfile.TemporaryDirectory(prefix="digits-") as room:
        for name in os.listdir(DATA):
            os.symlink(os.path.join(DATA, name), os.path.join(room, name))
        os.remove(os.path.join(room, book))
        with open(os.path.join(room, book), "wb") as it:
            it.write(b"\n".join(lines))
        return subprocess.run([program, case], cwd=room, stdout=subprocess.DEVNULL, stderr=subprocess.DEVNULL).returncode == 0


def main():
    words = argparse.ArgumentParser()
    words.add_argument("program", nargs="?", default=os.path.join(TOP, "crates", "command_cases", "out", "command_cases"))
    words.add_argument("--most", type=int, default=0)
    words.add_argument("--seed", type=int, default=1)
    given = words.parse_args()
    rng, tries, bare = random.Random(given.seed), [], 0
    with open(os.path.join(DATA, "index")) as it:
        books = [line.split(" ", 1)[1].strip() for line in it if line.startswith("cases ")]
    for book in books:
        with open(os.path.join(DATA, book), "rb") as it:
            lines = it.read().split(b"\n")
        for case, places in wanted_digits(lines).items():
            bare += not places
            if places:
                tries.append((book, changed(lines, rng.choice(places), rng), case))
    if given.most:
        tries = rng.sample(tries, min(given.most, len(tries)))
    with ThreadPoolExecutor(os.cpu_count()) as pool:
        found = list(pool.map(lambda it: passes(os.path.abspath(given.program), *it), tries))
    for (book, _, case), is_passed in zip(tries, found):
        if is_passed:
            print(f"{book}: {case} passes with another digit")
    print(f"{len(tries)} cases with a changed digit, {sum(found)} passed; {bare} cases want no digit")
    sys.exit(1 if any(found) else 0)


main()
