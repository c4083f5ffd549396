#!/usr/bin/env python3
"""What the gate costs: runs `rt ci` and sums the processor seconds of every check, by crate and by kind of work.

    python3 bench/gate.py            # runs the gate at the top, prints its last line and the table
    python3 bench/gate.py --markdown # the table as Markdown
    python3 bench/gate.py NAME..     # the same for these crates and those below them
    python3 bench/gate.py --ledger   # no run: what each crate took the last time that it was done from nothing
    python3 bench/gate.py --ledger --markdown  # the same, its table as docs/gate.md has it
    python3 bench/gate.py --beside PID FILE  # watches the checks below a process until it ends; FILE has lines `SECONDS CRATE`,
                                             # FILE.parts lines `CRATE KIND SECONDS CHECKS`
    python3 bench/gate.py --keep FILE.parts  # puts these parts, of a run that passed, into the ledger

A check is a process of the prover; what it took is read off /proc while it runs, twice a second, so a row may lack half a
second for each of its checks. 'edits' counts the must-fail edits of the crate.

A run proves and tries only what changed since `rt ci` passed it on this machine. So that its figures can be stated all the
same, the ledger keeps of each crate what its proof, its tests and its edits took when they were last done, each from
nothing, and in which run. It is one file of this machine, ~/.cache/stn/gate.tsv, or the one that STN_GATE_LEDGER names; a run
that did not pass leaves it as it is.
"""
import fcntl, glob, os, subprocess, sys, tempfile, threading, time

top = os.path.dirname(os.path.dirname(os.path.abspath(__file__)))
TICK = os.sysconf("SC_CLK_TCK")
KINDS = ("proof", "tests", "edits")
LEDGER = os.environ.get("STN_GATE_LEDGER") or os.path.expanduser("~/.cache/stn/gate.tsv")


def children_of(root):
    """The processes below a process, by their numbers."""
    parents = {}
    for path in glob.glob("/proc/[0-9]*/stat"):
        try:
            with open(path) as it:
                text = it.read()
        except OSError:
            continue
        pid, rest = int(path.split("/")[2]), text.rpartition(")")[2].split()
        parents[pid] = (int(rest[1]), (int(rest[11]) + int(rest[12]) + int(rest[13]) + int(rest[14])) / TICK)
    below, found = {root}, {}
    for _ in range(12):
        more = {pid for pid, (parent, _) in parents.items() if parent in below and pid not in below}
        if not more:
            break
        below |= more
    for pid in below - {root}:
        found[pid] = parents[pid]
    return found


def kind_of(pid):
    """The crate that a process checks and for what: its proof, its tests or an edit; nothing for other processes."""
    try:
        with open(f"/proc/{pid}/cmdline", "rb") as it:
            words = it.read().decode(errors="replace").split("\0")
        folder = os.readlink(f"/proc/{pid}/cwd")
    except OSError:
        return None
    if not words[0].endswith("rattle") or "--crate-name" not in words:
        return None
    crate = words[words.index("--crate-name") + 1]
    if "rt-edit" in folder:
        return crate, "edits"
    return crate, "tests" if "--test" in words else "proof"


def watch(root, taken, done, checks):
    """Notes what each check below a process has taken so far, and how many there were of each kind, until told to stop."""
    kinds, seconds = {}, {}
    while not done.is_set():
        now = children_of(root)
        for pid, (parent, used) in now.items():
            # (a process that was seen before it became the prover is looked at again)
            if not kinds.get(pid):
                kinds[pid] = kind_of(pid)
            if kinds[pid] and kinds.get(parent) is None:
                seconds[pid] = max(seconds.get(pid, 0.0), used)
        taken.clear()
        counted = {}
        for pid, used in seconds.items():
            taken[kinds[pid]] = taken.get(kinds[pid], 0.0) + used
            counted[kinds[pid]] = counted.get(kinds[pid], 0) + 1
        checks.update(counted)
        time.sleep(0.5)


def table(taken, markdown):
    """The lines of the table: a crate each, those that cost most first, then the sums."""
    names = sorted({crate for crate, _ in taken}, key=lambda it: -sum(s for (c, _), s in taken.items() if c == it))
    form = "| `{}` | {:.0f} | {:.0f} | {:.0f} | {} | {:.0f} |" if markdown else "{:14} {:7.0f} {:7.0f} {:7.0f} {:>5} {:7.0f}"
    head = ["crate", "proof", "tests", "edits", "count", "all"]
    lines = ["| " + " | ".join(head) + " |", "|---|---|---|---|---|---|"] if markdown else ["{:14} {:>7} {:>7} {:>7} {:>5} {:>7}".format(*head)]
    for name in names:
        parts = [taken.get((name, kind), 0.0) for kind in KINDS]
        lines.append(form.format(name, *parts, edits_of(name), sum(parts)))
    sums = [sum(s for (_, kind), s in taken.items() if kind == it) for it in KINDS]
    lines.append(form.format("all", *sums, edits_of("*"), sum(sums)).replace("`", ""))
    return lines


def page_table(taken):
    """The lines of the table of docs/gate.md: three crates a row, with the seconds of proof and tests and those of edits."""
    names = sorted({crate for crate, _ in taken}, key=lambda it: -taken.get((it, "proof"), 0.0) - taken.get((it, "tests"), 0.0))
    cells = []
    for name in names:
        proofs = taken.get((name, "proof"), 0.0) + taken.get((name, "tests"), 0.0)
        cells.append(f"`{name}` | {proofs:.0f} | {taken.get((name, 'edits'), 0.0):.0f}")
    cells += [" | | "] * (-len(cells) % 3)
    rows = (" | ".join(cells[at : at + 3]) for at in range(0, len(cells), 3))
    return ["| " + " | ".join(["crate | proofs | edits"] * 3) + " |", "|---" * 9 + "|", *(f"| {row} |" for row in rows)]


def edits_of(name):
    """How many must-fail edits the crate of this name has, or all crates have."""
    return len(glob.glob(os.path.join(top, "crates", name, "must-fail", "*.edit")))


def below(path=os.path.join(top, "crates.txt")):
    """What each crate of the repository stands on, of those that are the repository's own."""
    found = {}
    with open(path) as it:
        for line in it:
            name, colon, rest = line.split("#")[0].partition(":")
            if colon:
                found[name.split()[0]] = rest.split()
    return {name: [it for it in names if it in found] for name, names in found.items()}


def longest_chain(taken):
    """The crates that have to be proved one after another and take longest, lowest first, and their processor seconds."""
    stands_on, known = below(), {}

    def chain(name):
        if name not in known:
            rest = max((chain(it) for it in stands_on[name]), key=lambda it: it[0], default=(0.0, []))
            known[name] = (rest[0] + taken.get((name, "proof"), 0.0), [*rest[1], name])
        return known[name]

    return max((chain(name) for name in stands_on), key=lambda it: it[0], default=(0.0, []))


def put(file, lines):
    """Writes a file as a whole, or leaves it."""
    with open(file + ".new", "w") as out:
        out.writelines(line + "\n" for line in lines)
    os.replace(file + ".new", file)


def note(taken, checks, greatest, file):
    """Writes what each crate has taken so far, as a whole. The sums never fall, also where they are read while they are made anew."""
    for part, used in list(taken.items()):
        greatest[part] = max(greatest.get(part, 0.0), used)
    sums = {}
    for (crate, _), used in greatest.items():
        sums[crate] = sums.get(crate, 0.0) + used
    put(file + ".parts", (f"{crate}\t{kind}\t{used:.1f}\t{checks.get((crate, kind), 0)}" for (crate, kind), used in greatest.items()))
    put(file, (f"{used:.1f} {crate}" for crate, used in sums.items()))


def beside(pid, file):
    """Watches the checks below a process, and notes what they took every few seconds, until the process or this one is ended."""
    taken, checks, greatest, done = {}, {}, {}, threading.Event()
    threading.Thread(target=watch, args=(pid, taken, done, checks), daemon=True).start()
    while os.path.isdir(f"/proc/{pid}") and os.path.exists(file):
        time.sleep(2)
        note(taken, checks, greatest, file)


def is_whole(crate, kind, count):
    """Whether so many checks are all of this kind: more than one edit begin and end with a check of the crate as it stands."""
    edits = edits_of(crate)
    return kind != "edits" or count >= edits + (2 if edits > 1 else 0)


def read_ledger():
    """What each part of a crate took when it was last done, and the run that it was done in."""
    found = {}
    if os.path.isfile(LEDGER):
        with open(LEDGER) as it:
            for line in it:
                crate, kind, used, run = line.rstrip("\n").split("\t")
                found[crate, kind] = (float(used), run)
    return found


def keep(parts, run):
    """Puts the parts of a run that passed, with how many checks each had, into the ledger; edits of which some were kept stay as they were."""
    os.makedirs(os.path.dirname(LEDGER), exist_ok=True)
    with open(LEDGER + ".lock", "w") as lock:
        fcntl.flock(lock, fcntl.LOCK_EX)
        known = read_ledger()
        known.update({part: (used, run) for part, (used, count) in parts.items() if is_whole(*part, count)})
        put(LEDGER, (f"{crate}\t{kind}\t{used:.1f}\t{run}" for (crate, kind), (used, run) in sorted(known.items())))


def this_run():
    """The name of a run in the ledger: when it ended, and the load of the machine then."""
    return f"{time.strftime('%Y-%m-%d %H:%M')}, load {os.getloadavg()[2]:.0f}"


def keep_parts(file):
    """Puts the parts of a file into the ledger."""
    with open(file) as it:
        rows = [line.rstrip("\n").split("\t") for line in it]
    keep({(crate, kind): (float(used), int(count)) for crate, kind, used, count in rows}, this_run())


def say_ledger(markdown):
    """The table of the ledger for the crates that stand here, its longest chain, from which runs it is, and what it lacks."""
    known, crates = read_ledger(), below()
    wanted = [(crate, kind) for crate in crates for kind in KINDS if kind == "proof" or kind == "edits" and edits_of(crate)]
    tests = [part for part in known if part[1] == "tests" and part[0] in crates]
    taken = {part: known[part][0] for part in wanted + tests if part in known}
    print("\n".join(page_table(taken) if markdown else table(taken, False)))
    say_chain(taken)
    runs = {}
    for part in taken:
        runs.setdefault(known[part][1], []).append(part)
    for run, parts in sorted(runs.items()):
        print(f"of the run that ended {run}: {len(parts)} parts, {sum(taken[it] for it in parts) / 60:.1f} minutes")
    lacks = [f"{crate} ({kind})" for crate, kind in wanted if (crate, kind) not in known]
    if lacks:
        print(f"not in the ledger: {', '.join(lacks)}")


def say_chain(taken):
    """Prints the longest chain, the slowest crate and the sums by kind and of all."""
    seconds, names = longest_chain(taken)
    print(f"\nthe longest chain, {seconds / 60:.1f} minutes of proofs: {', '.join(names)}")
    slowest = max(taken, key=lambda it: taken[it] if it[1] == "proof" else 0.0, default=("none", ""))
    print(f"the slowest crate, {taken.get(slowest, 0.0) / 60:.1f} minutes: {slowest[0]}")
    sums = {kind: sum(used for (_, it), used in taken.items() if it == kind) / 60 for kind in KINDS}
    print(f"all: {sum(sums.values()):.1f} minutes of processor time, {', '.join(f'{kind} {used:.1f}' for kind, used in sums.items())}")


def main():
    if sys.argv[1:2] == ["--beside"]:
        return beside(int(sys.argv[2]), sys.argv[3])
    if sys.argv[1:2] == ["--keep"]:
        return keep_parts(sys.argv[2])
    if "--ledger" in sys.argv:
        return say_ledger("--markdown" in sys.argv)
    begun, taken, checks, done = time.monotonic(), {}, {}, threading.Event()
    names = [it for it in sys.argv[1:] if not it.startswith("--")]
    gate = subprocess.Popen(["rt", "ci", *names], cwd=top, stdout=subprocess.PIPE, stderr=subprocess.STDOUT, text=True)
    watcher = threading.Thread(target=watch, args=(gate.pid, taken, done, checks))
    watcher.start()
    last = ""
    with tempfile.NamedTemporaryFile("w", prefix="gate-", suffix=".log", delete=False) as log:
        print(f"the gate's output goes to {log.name}", file=sys.stderr, flush=True)
        for line in gate.stdout:
            log.write(line)
            log.flush()
            last = line.strip() or last
    status = gate.wait()
    done.set()
    watcher.join()
    if status == 0:
        keep({part: (used, checks.get(part, 0)) for part, used in taken.items()}, this_run())
    print("\n".join(table(taken, "--markdown" in sys.argv)))
    say_chain(taken)
    minutes = (time.monotonic() - begun) / 60
    whole = sum(taken.values()) / 60
    print(f"\n{last}; {minutes:.0f} minutes on the clock, {whole:.0f} of processor time, {os.cpu_count()} processors")
    sys.exit(status)


main()
