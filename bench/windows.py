#!/usr/bin/env python3
"""How good plans are after a while: of plants that are left open, and from plans that stand below the best one.

    python3 bench/windows.py FOLDER                # the tables of docs/performance.md; FOLDER has the plants (../shared/plants)
    python3 bench/windows.py FOLDER OPEN           # the first table alone, or with BELOW the second
    python3 bench/windows.py FOLDER BELOW KEPT     # the plans below the best one are kept in the folder KEPT, and taken from there

The program is that of STN_PROGRAM, else the one in built/, which `./stn` leaves there. The first table has the greatest of 20, 40, 80 ..
boxes with which `solve` ends in 60 seconds of the processor, the second the greatest of 1, 2, 4 .. with which `improve` ends in 5. It
begins with a plan of HiGHS's (bench/highs.py, Debian's python3-scipy) that is the best of those that earn at most 98 in a hundred of
the best one. Each run is made by itself, one after the other.
"""
import datetime, math, os, platform, resource, subprocess, sys, tempfile

TOP = os.path.dirname(os.path.dirname(os.path.abspath(__file__)))
PROGRAM = os.environ.get("STN_PROGRAM") or os.path.join(TOP, "built", "stn")
OPEN = ("large-48", "wide-40")
BELOW = {"kallrath-20": 2168, "make-06": 4162, "power-14": 2323}  # with what the best plan earns


def run(seconds, *words):
    """The first line that the program puts, its boxes and its processor seconds; None where it takes more than so many."""
    most = lambda: resource.setrlimit(resource.RLIMIT_CPU, (math.ceil(seconds), math.ceil(seconds) + 1))
    before = os.times()
    ran = subprocess.run([PROGRAM, *words], capture_output=True, text=True, preexec_fn=most)
    after = os.times()
    took = after.children_user + after.children_system - before.children_user - before.children_system
    if ran.returncode < 0 or took > seconds:
        return None
    lines = ran.stdout.splitlines()
    return lines[0].removeprefix("# "), lines[1].removeprefix("# boxes "), took


def longest(seconds, first, words):
    """The run with the greatest of a budget, twice that, and so on, that ends in so many seconds, and that budget."""
    budget, found = first, None
    while True:
        ran = run(seconds, *words(str(budget)))
        if ran is None:
            return found
        found = (budget, *ran)
        if not ran[0].startswith("budget-spent"):
            return found
        budget *= 2


def row(name, cells):
    print(f"| {name} | " + " | ".join(f"{it:.1f}" if isinstance(it, float) else str(it) for it in cells) + " |", flush=True)


def open_table(folder):
    print("\n| plant | budget | answer | boxes | s |\n|---|---|---|---|---|")
    for name in OPEN:
        path = os.path.join(folder, name + ".toml")
        row(name, longest(60, 20, lambda budget: ("solve", path, budget)) or ("-",) * 4)


def plan_below(path, plan, most):
    """Writes the best of HiGHS's plans that earn at most so much, unless the file is there."""
    if not os.path.exists(plan):
        words = ["/usr/bin/python3", os.path.join(TOP, "bench", "highs.py"), path, "120", plan, str(most)]
        subprocess.run(words, check=True, stdout=subprocess.DEVNULL)


def below_table(folder, kept):
    print("\n| plant | best | plan at hand | budget | answer | boxes | s |\n|---|---|---|---|---|---|---|")
    for name, best in BELOW.items():
        path, plan = os.path.join(folder, name + ".toml"), os.path.join(kept, name + ".plan")
        plan_below(path, plan, best * 98 // 100)
        earned = subprocess.run([PROGRAM, "simulate", path, plan], capture_output=True, text=True).stdout.split()[-1]
        found = longest(5, 1, lambda budget: ("improve", path, plan, budget)) or ("-",) * 4
        row(name, (best, earned, *found))


def main(folder, table="", kept=None):
    now, load = datetime.date.today(), os.getloadavg()[0]
    print(f"{now}, {platform.machine()}, {os.cpu_count()} processors, load {load:.1f}")
    if table != "BELOW":
        open_table(folder)
    if table != "OPEN":
        with tempfile.TemporaryDirectory() as room:
            below_table(folder, kept or room)


main(*sys.argv[1:])
