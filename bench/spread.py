#!/usr/bin/env python3
"""Plans a plant by rounds of `resume` with shares and `merge`, beside one process alone, and counts processor seconds.

    python3 bench/spread.py PROGRAM PLANT SHARES FIRST ROUND..    # boxes of the first log, and of each share in each round

The last number of ROUND.. stands for all further rounds. The shares of a round run one after another, so that what else the machine
does counts little: `longest` adds up the first log, the longest share of each round and the merges, which is what SHARES free processors
would take, and `all` what all shares take together.
"""
import datetime, os, platform, subprocess, sys, tempfile


def run(words):
    """What is put, and the processor seconds."""
    before = os.times()
    text = subprocess.run(words, capture_output=True, text=True).stdout
    after = os.times()
    return text, after.children_user + after.children_system - before.children_user - before.children_system


def is_settled(said):
    """Whether an answer leaves nothing open."""
    return said.split()[1] in ("optimal", "infeasible")


def rounds(program, plant, shares, first, budgets, folder):
    """The answer of the last round, how many rounds there were, and both sums of seconds."""
    last, stem = os.path.join(folder, "last"), os.path.join(folder, "share")
    text, seconds = run([program, "solve", plant, first, last])
    said, longest, everything, count = text.split("\n")[0], seconds, seconds, 0
    while not is_settled(said) and count < 100:
        budget = budgets[min(count, len(budgets) - 1)]
        each = [run([program, "resume", plant, last, budget, f"{stem}.{share}", str(share), str(shares)])[1] for share in range(shares)]
        text, merging = run([program, "merge", plant, stem, str(shares), os.path.join(folder, "next")])
        os.replace(os.path.join(folder, "next"), last)
        said, count = text.split("\n")[0], count + 1
        longest += max(each) + merging
        everything += sum(each) + merging
    return said, count, longest, everything


def main():
    program, plant, shares, first, *budgets = sys.argv[1:]
    load = os.getloadavg()[0]
    print(f"{datetime.date.today()}, {platform.machine()}, {os.cpu_count()} processors, load {load:.1f}\n")
    text, seconds = run([program, "solve", plant, "100000"])
    alone = text.split("\n")
    print(f"| one process | {alone[0].removeprefix('# ')} | {alone[1].removeprefix('# boxes ')} boxes | {seconds:.1f} |", flush=True)
    with tempfile.TemporaryDirectory() as folder:
        said, count, longest, everything = rounds(program, plant, int(shares), first, budgets, folder)
    print(f"| {shares} shares, {first} then {' '.join(budgets)} | {said.removeprefix('merged ')} | {count} rounds | {longest:.1f} longest, {everything:.1f} all |")


main()
