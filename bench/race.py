#!/usr/bin/env python3
"""Plans every plant of a folder with the built program, and checks each log; beside other solvers where they are there.

    python3 bench/race.py ../shared/plants                    # the table that docs/performance.md has
    python3 bench/race.py ../shared/plants ../shared/search   # and the trial in plain Rust, which is built first
    python3 bench/race.py --runs 1 examples                   # the examples of the repository, once each
    python3 bench/race.py ../shared/plants -- power-14 make-01   # these plants alone
    python3 bench/race.py --boxes 300 --seconds 60 --peers no bench/plants   # with another budget and limit, without other solvers

The program is that of STN_PROGRAM, else the one in built/, which `./stn` leaves there. The budget is that of --boxes, and without it
100,000 boxes, and that of BUDGETS where a plant stands there. `glpsol` and `cbc` run on the LP files of the folder's lp/, and on what
bench/lp.py makes of a plant that has none there; HiGHS (bench/highs.py) where Debian's python3-scipy is installed. Each run of any of
them ends after two minutes, or the seconds of --seconds: the program after so many of the processor. Seconds are of the processor, the
median of three runs of the program, of one of the others; all run in turn, plant by plant.
"""
import argparse, datetime, gzip, os, platform, re, resource, shutil, statistics, subprocess, sys, tempfile

TOP = os.path.dirname(os.path.dirname(os.path.abspath(__file__)))
PROGRAM = os.environ.get("STN_PROGRAM") or os.path.join(TOP, "built", "stn")
BUDGETS = {"large-48": "60"}
MOST = 120
# Solvers over LP files: how each is called, and what it prints where it has settled the plant.
SOLVERS = (
    ("glpsol", lambda path: ["--lp", path, "--tmlim", str(MOST)], "INTEGER OPTIMAL|NO INTEGER FEASIBLE|HAS NO PRIMAL FEASIBLE"),
    ("cbc", lambda path: [path, "sec", str(MOST), "solve"], "Optimal solution found|proven infeasible|Problem is infeasible"),
)


def timed(words, folder=None):
    """What a command printed, its processor seconds and its peak memory in MiB, in a process of its own; no text where time ran out."""
    reader, writer = os.pipe()
    if os.fork() == 0:
        resource.setrlimit(resource.RLIMIT_CPU, (MOST + 10, MOST + 10))
        try:
            text = subprocess.run(words, capture_output=True, text=True, timeout=10 * MOST, cwd=folder).stdout
        except subprocess.TimeoutExpired:
            text = ""
        used = resource.getrusage(resource.RUSAGE_CHILDREN)
        with os.fdopen(writer, "w") as out:
            out.write(f"{used.ru_utime + used.ru_stime:.3f}\t{used.ru_maxrss / 1024:.1f}\t{text}")
        os._exit(0)
    os.close(writer)
    with os.fdopen(reader) as it:
        seconds, peak, text = it.read().split("\t", 2)
    os.wait()
    return text, float(seconds), float(peak)


def ours(plant, budget, room, runs):
    """The columns of the program: answer, boxes, seconds, MiB, bytes of the log, seconds of its check."""
    log, seconds, checking = os.path.join(room, "log"), [], []
    for _ in range(runs):
        text, took, peak = timed([PROGRAM, "solve", plant, budget, log])
        seconds.append(took)
        said, took, _ = timed([PROGRAM, "check", plant, log])
        checking.append(took)
    lines = text.split("\n")
    answer, boxes = (lines[0].lstrip("# "), lines[1].split()[-1]) if len(lines) > 1 else ("open", "-")
    if text and not said.startswith("yes"):
        answer += f" (check: {said.strip() or 'no answer'})"
    size = os.path.getsize(log) if text else 0
    return f"{answer} | {boxes} | {statistics.median(seconds):.2f} | {peak:.0f} | {size} | {statistics.median(checking):.2f}"


def trial(room, name):
    """The columns of the trial: best plan and cap, boxes, seconds."""
    text, _, _ = timed(["./trial", name, "--secs", str(MOST), "--neg", "2"], room)
    found = re.search(r"best (?:Some\((-?\d+)\)|None) cap (?:Some\((-?\d+)\)|None) boxes (\d+) cpu ([\d.]+)", text)
    return f"{found[1] or '-'}..{found[2] or '-'} | {found[3]} | {found[4]}" if found else "- | - | -"


def highs(plant):
    """What HiGHS finds, and its seconds."""
    text, seconds, _ = timed(["/usr/bin/python3", os.path.join(TOP, "bench", "highs.py"), plant, str(MOST)])
    if text.endswith(("optimal\n", "infeasible\n")):
        return f"{seconds:.1f}"
    profit, bound = text.split()[:2] if text else "--"
    return "-" if profit == bound == "-" else f"{profit}..{bound}"


def lp_file(folder, name, room):
    """The LP file of a plant: that of the folder's lp/, else one that is made."""
    path, made = os.path.join(folder, "lp", name + ".lp"), os.path.join(room, name + ".lp")
    if os.path.exists(path + ".gz"):
        with gzip.open(path + ".gz") as it, open(made, "wb") as out:
            shutil.copyfileobj(it, out)
        return made
    if not os.path.exists(path):
        words = [sys.executable, os.path.join(TOP, "bench", "lp.py"), os.path.join(folder, name + ".toml")]
        with open(made, "w", encoding="utf-8") as out:
            subprocess.run(words, check=True, stdout=out)
        return made
    return path


def others(folder, name, room):
    """The columns of the solvers over LP files, and of HiGHS."""
    path, found = lp_file(folder, name, room), []
    for tool, words, done in SOLVERS:
        if not shutil.which(tool) or not os.path.exists(path):
            found.append("-")
            continue
        text, seconds, _ = timed([tool, *words(path)])
        found.append(f"{seconds:.1f}" if re.search(done, text) else "open")
    return " | ".join(found + [highs(os.path.join(folder, name + ".toml"))])


def asked(words):
    """What the words ask for."""
    reader = argparse.ArgumentParser(usage=__doc__)
    reader.add_argument("folders", nargs="+")
    reader.add_argument("--runs", type=int, default=3)
    reader.add_argument("--boxes")
    reader.add_argument("--seconds", type=int, default=MOST)
    reader.add_argument("--peers", choices=("yes", "no"), default="yes")
    words, names = (words[: words.index("--")], words[words.index("--") + 1 :]) if "--" in words else (words, [])
    return reader.parse_args(words), names


def line(found, folder, name, room):
    """The line of a plant."""
    budget = found.boxes or BUDGETS.get(name, "100000")
    own = ours(os.path.join(folder, name + ".toml"), budget, room, found.runs)
    beside = trial(room, name) if len(found.folders) > 1 else "- | - | -"
    return f"| {name} | {own} | {beside} | {others(folder, name, room) if found.peers == 'yes' else '- | - | -'} |"


def main():
    global MOST
    found, names = asked(sys.argv[1:])
    MOST, folder, room = found.seconds, os.path.abspath(found.folders[0]), tempfile.mkdtemp(prefix="race-")
    if len(found.folders) > 1:
        subprocess.run([os.path.join(os.path.abspath(found.folders[1]), "build.sh"), room], check=True, capture_output=True)
    print(f"{datetime.date.today()}, {platform.machine()}, {os.cpu_count()} processors, load {os.getloadavg()[0]:.1f}\n")
    print("| plant | answer | boxes | s | MiB | log bytes | check s | trial | trial boxes | trial s | glpsol s | cbc s | HiGHS s |")
    print("|---" * 13 + "|")
    for name in sorted(it[:-5] for it in os.listdir(folder) if it.endswith(".toml")):
        if not names or name in names:
            print(line(found, folder, name, room), flush=True)
    shutil.rmtree(room)


main()
