#!/usr/bin/env python3
"""Refuses requests for memory to the built program, one run after another, and says what each command answers then.

    python3 bench/refused_memory.py                 # every request; of a command with more than 1,000 the first 20 and 40 others
    python3 bench/refused_memory.py --all           # every request of each command
    python3 bench/refused_memory.py --markdown      # the table as docs/performance.md has it

The program is that of STN_PROGRAM, or the one that `./stn` has left in built/. A small library in C, which `cc` makes in a folder of
its own, stands before the C library's `malloc` and `realloc`: it refuses one request (once), or one and all after it (for good). After
a refusal the status has to be 9, with nothing or a first part of the answer put, or one below 7 with the whole answer. The plant, the
plan and the log that was read stay as they were. The log that is written is as before or a first part of the log of a run that is
refused nothing; where the status is 9 and the log another, or below 7, its check has to say yes.
"""
import collections, os, shutil, subprocess, sys, tempfile

top = os.path.dirname(os.path.dirname(os.path.abspath(__file__)))
BUILT = os.environ.get("STN_PROGRAM") or os.path.join(top, "built", "stn")
COMMANDS = ["solve plant 31", "solve plant 31 log", "simulate plant plan", "report plant plan", "check plant proof", "upgrade plant", "roll plant plan 1",
            "demo 1"]
REFUSING = r"""
#include <errno.h>
#include <stdlib.h>
#include <unistd.h>
#include <stdio.h>
extern void *__libc_malloc(size_t);
extern void *__libc_realloc(void *, size_t);
static long count, first = -1, last;
static int refuses(void) {
    if (first < 0) {
        char *from = getenv("REFUSE_FROM"), *to = getenv("REFUSE_TO");
        first = from ? atol(from) : 0;
        last = to ? atol(to) : 0;
    }
    count++;
    if (count < first || count > last) return 0;
    errno = ENOMEM;
    return 1;
}
void *malloc(size_t size) { return refuses() ? 0 : __libc_malloc(size); }
void *realloc(void *old, size_t size) { return refuses() ? 0 : __libc_realloc(old, size); }
__attribute__((destructor)) static void tell(void) { dprintf(2, "requests %ld\n", count); }
"""
FOR_GOOD = 1 << 60


class Room:
    """A folder with the program, the library that refuses, and Tiny's files."""

    def __init__(self, folder):
        self.folder = folder
        self.library = os.path.join(folder, "refusing.so")
        subprocess.run(["cc", "-O1", "-fno-builtin", "-shared", "-fPIC", "-x", "c", "-o", self.library, "-"], input=REFUSING, text=True, check=True)
        shutil.copyfile(os.path.join(top, "examples", "tiny.toml"), self.path("plant"))
        shutil.copyfile(os.path.join(top, "examples", "tiny.log"), self.path("proof"))
        for name, text in (("plan", "0 U make 3\n1 U make 3\n"), ("log", "old")):
            with open(self.path(name), "w") as out:
                out.write(text)
        self.kept = {name: self.read(name) for name in ("plant", "proof", "plan")}

    def path(self, name):
        return os.path.join(self.folder, name)

    def read(self, name):
        with open(self.path(name), "rb") as it:
            return it.read()

    def run(self, words, first=0, last=0):
        """The status, what was put, the requests that were counted, and the log that is left; the file of the log holds 'old' before."""
        with open(self.path("log"), "w") as out:
            out.write("old")
        how = {"LD_PRELOAD": self.library, "REFUSE_FROM": str(first), "REFUSE_TO": str(last)}
        done = subprocess.run([BUILT, *words.split()], cwd=self.folder, env=how, capture_output=True, timeout=300)
        told = done.stderr.decode(errors="replace").split()
        return done.returncode, done.stdout, int(told[1]) if told[:1] == ["requests"] else 0, self.read("log")

    def is_valid(self):
        return subprocess.run([BUILT, "check", "plant", "log"], cwd=self.folder, stdout=subprocess.DEVNULL).returncode == 0

    def wrong(self, whole, status, text, log):
        """What a refusal may not come to."""
        if status != 9 and not 0 <= status < 7:
            return f"status {status}"
        if any(self.read(name) != text for name, text in self.kept.items()):
            return "a file changed that was only read"
        if status == 9 and not whole[1].startswith(text):
            return f"it put {text[:60]!r}"
        if log != b"old" and not whole[3].startswith(log) and not self.is_valid():
            return "the log is none"
        if status < 7 and log != b"old" and not self.is_valid():
            return "the log of an answer is not valid"
        return None


def sampled(count):
    """The requests that are refused: where they are many the first 20, and 40 that lie evenly over the others."""
    if "--all" in sys.argv or count <= 1000:
        return range(1, count + 1)
    return [*range(1, 21), *(21 + place * (count - 21) // 39 for place in range(40))]


def tried(room, words, last_of):
    """How many refusals were tried of how many requests, how often each status came, and what went wrong."""
    whole = room.run(words)
    came, bad = collections.Counter(), []
    for k in sampled(whole[2]):
        status, text, _, log = room.run(words, k, last_of(k))
        came[status] += 1
        why = room.wrong(whole, status, text, log)
        bad += [f"{words}: request {k}: {why}"] * bool(why)
    return whole[2], came, bad


def main():
    if not os.access(BUILT, os.X_OK):
        sys.exit("refused_memory: the program is not built: run ./stn first")
    form = "| `{}` | {} | {} | {} | {} |" if "--markdown" in sys.argv else "{:20} {:9} {:9} {:7} {}"
    print(form.format("command", "refused", "requests", "tried", "statuses"), flush=True)
    if "--markdown" in sys.argv:
        print("|---|---|---|---|---|")
    bad = []
    with tempfile.TemporaryDirectory(prefix="refused-") as folder:
        room = Room(folder)
        for words in COMMANDS:
            for how, last_of in (("once", lambda k: k), ("for good", lambda k: FOR_GOOD)):
                count, came, more = tried(room, words, last_of)
                bad += more
                said = ", ".join(f"{status}: {times}" for status, times in sorted(came.items()))
                print(form.format(words, how, count, sum(came.values()), said), flush=True)
    print(*bad, f"{len(bad)} faults", sep="\n")
    sys.exit(bool(bad))


main()
