#!/usr/bin/env python3
"""Runs the built program on what a hostile or broken surrounding gives it, and compares each exit status.

    python3 bench/hostile.py            # a line for each case that went wrong, and a count
    python3 bench/hostile.py --table    # and a row for each case, with processor seconds and peak memory

The program is that of STN_PROGRAM, or the one that `./stn` or a gate that passed has left in built/; where there is none, this says
'skipped'. Each run has 10 seconds of processor time, heads of many rows and the largest plant 60, 300 on the clock, 600 MiB of address
space, 8 MiB of stack and no core file. Large files are made in a folder of their own, as empty stretches where that does, and go with it.
"""
import os, resource, shutil, signal, subprocess, sys, tempfile

from large_inputs import WORTH_OF_NOTHING, deep_log, deep_plant, greatest, most_entries, points

top = os.path.dirname(os.path.dirname(os.path.abspath(__file__)))
BUILT = os.environ.get("STN_PROGRAM") or os.path.join(top, "built", "stn")
SECONDS, ON_THE_CLOCK, MEMORY = 10, 300, 600 << 20
# How many rows the heads of many rows have: as many as may stand there for the table, else an eighth, which takes an eighth of the time.
MOST_ROWS = 4096 if "--table" in sys.argv else 512
NOBODY = 65534
TINY = ["dual 1 0", "claim optimal 60 2", "value 0 3", "value 1 3", "end"]


class Case:
    """A run: what it is, its words, the wanted statuses and text, where its output goes, and how it is started."""

    def __init__(self, what, words, status, text=None, out=None, **how):
        self.what, self.words, self.text, self.out, self.how = what, words, text, out, how
        self.statuses = status if isinstance(status, tuple) else (status,)

    def limits(self):
        """What is set in the process before the program starts."""
        resource.setrlimit(resource.RLIMIT_AS, (MEMORY, MEMORY))
        resource.setrlimit(resource.RLIMIT_CPU, (self.how.get("seconds", SECONDS),) * 2)
        resource.setrlimit(resource.RLIMIT_CORE, (0, 0))
        resource.setrlimit(resource.RLIMIT_STACK, (8 << 20, resource.getrlimit(resource.RLIMIT_STACK)[1]))
        if "size" in self.how:
            signal.signal(signal.SIGXFSZ, signal.SIG_IGN)
            resource.setrlimit(resource.RLIMIT_FSIZE, (self.how["size"],) * 2)
        if self.how.get("closed"):
            os.close(1)
        if self.how.get("nobody") and os.geteuid() == 0:
            os.setgid(NOBODY)
            os.setuid(NOBODY)

    def run(self, room):
        """What went wrong, or nothing; with the status, the processor seconds and the peak memory in MiB, this script's at least."""
        out = open(self.out, "wb") if self.out else subprocess.PIPE
        child = subprocess.Popen([os.path.join(room, "stn"), *self.words], cwd=room, stdin=subprocess.DEVNULL,
                                 stdout=out, stderr=subprocess.PIPE, preexec_fn=self.limits)
        signal.signal(signal.SIGALRM, lambda *_: child.kill())
        signal.alarm(ON_THE_CLOCK)
        text = b"" if self.out else child.stdout.read(1 << 16)
        _, status, used = os.wait4(child.pid, 0)
        signal.alarm(0)
        child.returncode = os.WEXITSTATUS(status) if os.WIFEXITED(status) else -os.WTERMSIG(status)
        return self.wrong(child.returncode, text), child.returncode, used.ru_utime + used.ru_stime, used.ru_maxrss / 1024

    def wrong(self, status, text):
        """What is not as it should be."""
        if status < 0:
            return f"signal {-status}, which is 9 after {self.how.get('seconds', SECONDS)} seconds of processor time"
        if status not in self.statuses:
            return f"status {status}, and not {' or '.join(map(str, self.statuses))}"
        if self.text is not None and text != self.text.encode():
            return f"it put {text[:80]!r}, and not {self.text!r}"
        return None


def write(room, name, *parts):
    """A file of texts, each of which may come many times."""
    with open(os.path.join(room, name), "w") as out:
        for text, times in parts:
            out.write(text * times)
    return name


def zeros(room, name, size):
    """A file of zero bytes, which takes no room on the disk."""
    with open(os.path.join(room, name), "wb") as out:
        out.truncate(size)
    return name


def log(room, name, *lines):
    """A log of Tiny with these lines after its first one."""
    return write(room, name, ("\n".join(["stn-log 2", *lines]) + "\n", 1))


def of_devices(room):
    """Devices that are full, closed or without end, and folders."""
    answers = [["solve", "tiny", "31"], ["solve", "tiny", "31", "written"], ["simulate", "tiny", "plan"], ["report", "tiny", "plan"],
               ["check", "tiny", "proof"], ["upgrade", "tiny"], ["roll", "tiny", "plan", "1"], ["demo", "1"], ["no", "words"]]
    for words in answers:
        yield Case(f"{' '.join(words)}: standard output on a full device", words, 8, out="/dev/full")
    yield Case("standard output closed", ["simulate", "tiny", "plan"], 8, closed=True)
    yield Case("LOG on a full device", ["solve", "tiny", "31", "/dev/full"], 8, "")
    yield Case("LOG cut off after 4,096 bytes", ["solve", "five", "2000", "cut"], 8, "", size=4096)
    yield Case("LOG in no folder", ["solve", "tiny", "31", "none/log"], 8, "")
    yield Case("LOG a folder", ["solve", "tiny", "31", "folder"], 8, "")
    for words in (["solve", "folder", "31"], ["simulate", "tiny", "folder"], ["check", "tiny", "folder"]):
        yield Case(f"{' '.join(words)}: a folder to read", words, 7, "")
    for words in (["solve", "none", "31"], ["solve", "none", "31", "kept"], ["report", "tiny", "none"], ["check", "tiny", "none"]):
        yield Case(f"{' '.join(words)}: a file that is not there", words, 7, "")
    yield Case("a plant that may not be read", ["upgrade", "locked"], 7, "", nobody=True)
    yield Case("a plant without end", ["solve", "/dev/zero", "31"], 3, "refused plant 1 top 0 0 -\n")
    yield Case("a plan without end", ["simulate", "tiny", "/dev/zero"], 4, "refused plan 4 0\n")
    yield Case("a log without end", ["check", "tiny", "/dev/zero"], 1, "no 1 1\n")
    yield Case("an empty log", ["check", "tiny", "/dev/null"], 1, "no 1 2\n")


def of_words(room):
    """Words of no form."""
    for what, words in (("a word that is no text", [b"upgrade", b"\xff"]), ("100,000 words", ["solve"] * 100_000),
                        ("a word of 100,000 letters", ["x" * 100_000]), ("LOG is PLANT", ["solve", "tiny", "31", "tiny"])):
        yield Case(what, words, 2, "refused words\n")


def of_files(room):
    """Large and malformed plants and plans."""
    plants = (("200 MB of zeros", zeros(room, "p1", 200_000_000), 1), ("a MiB of open brackets", write(room, "p2", ("a=", 1), ("[", 1_048_574)), 2),
              ("a MiB of open tables", write(room, "p3", ("a={", 349_000)), 2), ("a MiB of one name", write(room, "p4", ("a.", 524_000), ("a=1\n", 1)), 2),
              ("a MiB of keys", write(room, "p5", *((f"k{i}=1\n", 1) for i in range(100_000))), 3))
    for what, name, kind in plants:
        yield Case(f"a plant: {what}", ["upgrade", name], 3, f"refused plant {kind} top 0 0 -\n")
    name = write(room, "p6", (greatest(), 1))
    yield Case("a plant of 4 MiB with the most of everything: read", ["upgrade", name], 0, out=os.devnull, seconds=2)
    yield Case("a plant of 4 MiB with the most of everything: planned, or no memory", ["solve", name, "1"], (0, 1, 6, 9), seconds=60)
    yield Case("a plan of 200 MB of zeros", ["simulate", "tiny", zeros(room, "z2", 200_000_000)], 4, "refused plan 4 0\n")
    yield Case("a plan of 131,072 comments", ["simulate", "tiny", write(room, "z3", ("#\n", 131_072))], 0, "feasible 12\n")


def of_logs(room):
    """Logs that are long, deep, or promise what does not come."""
    head, tail = ("stn-log 2\n", 1), ("\n".join(TINY) + "\n", 1)
    yield Case("a log of 200 MB of zeros", ["check", "tiny", zeros(room, "l1", 200_000_000)], 1, "no 1 1\n")
    yield Case("a log of three million nested splits", ["check", "tiny", write(room, "l2", head, ("node\nsplit 0 0 1 0\n", 3_000_000))], 1, "no 9220 9\n")
    comb = write(room, "l3", head, ("node\nsplit 0 0 1 0\nnode\nempty\n", 2_000_000))
    yield Case("a log of two million splits in second boxes", ["check", "tiny", comb], 1)
    yield Case("eight million cuts of one box", ["check", "tiny", write(room, "l4", head, ("node\n", 1), ("cut 0 0\n", 8_000_000), tail)], 0, "yes optimal 60\n")
    count = 2 ** 64 - 1
    promises = ((f"found 60 {count}", 1), (f"dual 1 {count}", 8), ("dual 1 50000", 1), ("split 0 0 1 50000", 1),
                (f"dual 1 0\nclaim optimal 60 {count}", 1), (f"found 60 {'9' * 30}", 1), (f"found 60 {'9' * 31}", 1))
    for number, (line, kind) in enumerate(promises):
        place = 4 + line.count("\n") - (kind == 8 or "9" * 31 in line)
        yield Case(f"a log that promises: {line}".replace("\n", ", "), ["check", "tiny", log(room, f"c{number}", "node", line, "end")], 1, f"no {place} {kind}\n")


def wide(room):
    """A plant of 512 slots of 255 batch sizes each: 64 periods, 8 units. Its rows 512 to 576 count what is left of the feed."""
    units = "".join(f'[[unit]]\nname = "U{n}"\n[[run]]\ntask = "make"\nunit = "U{n}"\nmin = 1\nmax = 255\n' for n in range(8))
    task = '[[task]]\nname = "make"\nquantum = 1\n[[task.input]]\nstate = "feed"\npart = "1/1"\n'
    task += '[[task.output]]\nstate = "prod"\npart = "1/1"\ndelay = 1\n'
    states = '[[state]]\nname = "feed"\ninitial = 1000000000\n[[state]]\nname = "prod"\n'
    return write(room, "wide", ("version = 1\nperiods = 64\n" + states + task + units, 1))


def head(room, name, *parts):
    """A log of version 4 with these texts, each so many times, as its head, and one open box."""
    return write(room, name, ("stn-log 4\n", 1), *parts, ("node\npending 1 0\nclaim below 999999999\nend\n", 1))


def of_heads(room):
    """Heads that are as large as they may be, and rows at and past their limits; row 642 is the first that a head derives."""
    plant, yes = wide(room), "yes below 999999999\n"
    for number, (what, text) in enumerate(great_rows()):
        yield Case(f"{MOST_ROWS:,} rows: {what}", ["check", plant, head(room, f"h{number}", (text, MOST_ROWS))], 0, yes, seconds=60)
    row, a_sum = "row 3 1 1 1 1 {} 0\nby {} 2\n".format, "sum 1 0 - - 1\nterm 0 1 0\n"
    limits = "row 1000000000 999999999 1000000000 1000000000 1 1 0\nby 576 -1000000\nlift 0 1000000000000\n"
    heads = (("4,097 rows", row(0, 576), 4097, "no 8194 21\n"), ("3,584 sums", a_sum, 3584, yes),
             ("3,585 sums", a_sum, 3585, "no 7170 21\n"), ("factors, divisors and shifts at their limits", limits, 1, yes),
             ("a row that names itself", row(0, 642), 1, "no 3 4\n"), ("a row that names a later one", row(0, 643), 1, "no 3 4\n"),
             ("a group over a row that counts quanta", row(1, 576) + "shift 576 1\n", 1, "no 2 23\n"),
             ("a slot lifted twice", row(2, 576) + "lift 0 -1\n" * 2, 1, yes), ("REST is DIVISOR", "row 1 1 1 1 1 0 0\n", 1, "no 2 1\n"),
             ("64 rows of which none comes", "row 3 1 1 1 64 0 0\n", 1, "no 3 1\n"), ("four million cuts", "cut 0 0\n", 4_000_000, yes))
    for number, (what, text, times, answer) in enumerate(heads):
        yield Case(f"a head: {what}", ["check", plant, head(room, f"r{number}", (text, times))], int(answer != yes), answer)


def great_rows():
    """Rows that cost as much as a row may, each shown over the wide plant, with the limit of row 576 or of rows 513 to 576."""
    row, slots = "row {} 1 1 1 {} {} {}\n".format, range(512)
    each = lambda line: "".join(map(line.format, slots))
    yield "each batch size its own step", row(3, 1, 0, 0) + "by 576 2\n"
    yield "one step", row(10**9, 1, 0, 0) + "by 576 1\n"
    yield "64 rows named", row(10**9, 64, 0, 0) + "".join(f"by {number} 1\n" for number in range(513, 577))
    yield "512 lifts", row(3, 1, 512, 0) + "by 576 1\n" + each("lift {} -1\n")
    yield "512 shifts", row(3, 1, 512, 0) + "by 576 1\n" + each("shift {} -1\n")
    yield "an entry for each slot", row(1000, 1, 0, 512) + "by 576 1000\n" + each("entry {} 0 -10000000\n")


def deep(room, name, depth, first):
    """A log in which so many splits stand one below another, in the first parts or in the second ones."""
    return write(room, name, (deep_log(depth, first), 1))


def of_depths(room):
    """Proofs of a large plant that are as deep as they may be; for `whatif`, which takes stack for each split, half as deep."""
    plant = write(room, "large", (deep_plant(), 1))
    for first in (True, False):
        where, name = "first" if first else "second", deep(room, f"deep{first:d}", 36_864, first)
        yield Case(f"check of 36,864 splits in {where} parts", ["check", plant, name], 0, f"yes below {10 ** 12}\n")
        yield Case(f"its plan, of 36,864 splits in {where} parts", ["plan", plant, name], 0)
        yield Case(f"whatif by 18,432 splits in {where} parts", ["whatif", plant, deep(room, "half", 18_432, first), "s1", "1", "1"], 0)
        for part in "01":
            deep(room, f"deep.{part}", 36_863, first)
        yield Case(f"join of parts of 36,863 splits in {where} parts", ["join", plant, "1", "deep", "joined"], 0)


def of_points(room):
    """Found groups without values and points that start a quantum in 502 slots or more, in turn."""
    text = points(512, 10, f"found {WORTH_OF_NOTHING} 0\n", True)
    plant, turned = write(room, "entries", (most_entries(), 1)), write(room, "turned", (text, 1))
    yield Case("1,024 found groups and points in turn", ["check", plant, turned], 0, "yes below 1000000000000\n")


def of_searches(room):
    """Searches of a plant of far more than 50,000 points, and what is done with their logs. Whether 60 boxes settle it is not said."""
    spent, cannot = (0, 6), write(room, "cannot", (read_text("bench/plants/pigment.toml").replace("amount = 30", "amount = 300"), 1))
    yield Case("solve with 60 boxes", ["solve", "pigment", "60", "whole.log"], spent)
    yield Case("the plan of its log", ["plan", "pigment", "whole.log"], 0, out=os.path.join(room, "best"))
    yield Case("improve with 60 boxes", ["improve", "pigment", "best", "60", "better.log"], spent)
    yield Case("least with 60 boxes a horizon", ["least", "pigment", "60", "least"], spent)
    yield Case("conflict with 60 boxes a step, and no conflict", ["conflict", "pigment", "60", "met"], spent)
    yield Case("conflict with 60 boxes a step", ["conflict", cannot, "60", "unmet"], spent)
    yield Case("whatif by its log", ["whatif", "pigment", "whole.log", "cake", "5", "3"], 0)
    for part in "01":
        yield Case(f"resume with 60 boxes at share {part}", ["resume", "pigment", "whole.log", "60", f"share.{part}", part, "2"], spent)
        yield Case(f"solve-part with 60 boxes, part {part}", ["solve-part", "pigment", "1", part, "60", f"part.{part}"], spent)
    yield Case("merge of the two shares", ["merge", "pigment", "share", "2", "merged.log"], 0)
    yield Case("join of the two parts", ["join", "pigment", "1", "part", "joined.log"], 0)
    for name in ("merged.log", "joined.log"):
        yield Case(f"check of {name}", ["check", "pigment", name], 0)


def read_text(path):
    """The text of a file of the repository."""
    with open(os.path.join(top, path)) as file:
        return file.read()


def files(room):
    """The files of the runs: Tiny, Five, a plant of pigments, a plan, a log, one that may not be read, and a folder."""
    for name, text in (("plan", "0 U make 3\n"), ("kept", "old"), ("locked", "version = 1\n")):
        write(room, name, (text, 1))
    log(room, "proof", "node", *TINY)
    for name in ("tiny", "five"):
        shutil.copyfile(os.path.join(top, "examples", name + ".toml"), os.path.join(room, name))
    shutil.copyfile(os.path.join(top, "bench", "plants", "pigment.toml"), os.path.join(room, "pigment"))
    shutil.copyfile(BUILT, os.path.join(room, "stn"))
    os.chmod(os.path.join(room, "stn"), 0o755)
    os.chmod(os.path.join(room, "locked"), 0)
    os.mkdir(os.path.join(room, "folder"))
    os.chmod(room, 0o711)


def left(room):
    """What is wrong with the files that runs left: a log that was not to be written, or one that was cut off."""
    whole = os.path.join(room, "whole")
    subprocess.run([os.path.join(room, "stn"), "solve", "five", "2000", whole], cwd=room, stdout=subprocess.DEVNULL)
    read = lambda name: open(os.path.join(room, name), "rb").read()
    if read("kept") != b"old":
        yield "a log changed though its plant could not be read"
    if not read("whole").startswith(read("cut")) or len(read("cut")) > 4096:
        yield "a log that was cut off is no first part of the whole one"
    said = subprocess.run([os.path.join(room, "stn"), "check", "tiny", "written"], cwd=room, capture_output=True, text=True).stdout
    if said != "yes optimal 60\n":
        yield f"the log before an answer that could not be put: {said!r}"


def main():
    if not os.access(BUILT, os.X_OK):
        print("hostile: skipped, since the program is not built")
        return
    room, bad, count = tempfile.mkdtemp(prefix="hostile-"), [], 0
    try:
        files(room)
        for cases in (of_devices, of_words, of_files, of_logs, of_depths, of_points, of_heads, of_searches):
            for case in cases(room):
                why, status, seconds, peak = case.run(room)
                count += 1
                bad += [f"{case.what}: {why}"] * bool(why)
                if "--table" in sys.argv:
                    print(f"| {case.what} | {status} | {seconds:.2f} | {peak:.0f} |", flush=True)
        bad += left(room)
    finally:
        shutil.rmtree(room)
    print(*(f"hostile: {it}" for it in bad), f"hostile: {count} runs, {len(bad)} faults", sep="\n")
    sys.exit(bool(bad))


main()
