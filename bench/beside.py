#!/usr/bin/env python3
"""Plans every plant of a folder with two built programs in turn, in one run: boxes, answers and processor seconds of both.

    python3 bench/beside.py BEFORE NOW ../shared/plants

Processor seconds say more than those on a clock where other work runs beside. The budget is 100,000 boxes, and that of BUDGETS where a
plant stands there; a run ends after two minutes on the clock.
"""
import datetime, os, platform, subprocess, sys

BUDGETS = {"large-48": "60"}


def run(program, plant, budget):
    """The answer in two words and the boxes, and the processor seconds of a run."""
    before = os.times()
    try:
        text = subprocess.run([program, "solve", plant, budget], capture_output=True, text=True, timeout=120).stdout
        lines = text.split("\n")
        said, boxes = lines[0].removeprefix("# "), lines[1].removeprefix("# boxes ")
    except subprocess.TimeoutExpired:
        said, boxes = "open", "-"
    after = os.times()
    return said, boxes, after.children_user + after.children_system - before.children_user - before.children_system


def main():
    old, new, folder = sys.argv[1:4]
    load = os.getloadavg()[0]
    print(f"{datetime.date.today()}, {platform.machine()}, {os.cpu_count()} processors, load {load:.1f}\n")
    print("| plant | answer before | boxes | s | answer now | boxes | s |\n|---|---|---|---|---|---|---|")
    for name in sorted(it[:-5] for it in os.listdir(folder) if it.endswith(".toml")):
        cells = [name]
        for program in (old, new):
            said, boxes, seconds = run(program, os.path.join(folder, name + ".toml"), BUDGETS.get(name, "100000"))
            cells += [said, boxes, f"{seconds:.2f}"]
        print("| " + " | ".join(cells) + " |", flush=True)


main()
