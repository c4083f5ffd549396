#!/usr/bin/env python3
"""Goes on from logs: one run of a plant beside slices of `resume` in turn, and a log of very many boxes.

    python3 bench/slices.py PROGRAM PLANT BUDGET SLICES [BOXES]   # one run of BUDGET boxes; SLICES of BOXES, and one to the end
    python3 bench/slices.py PROGRAM --queue [BOXES]               # a log of BOXES boxes, gone on with by one box

With BOXES, the slices take that many each, and where the plant is still open after them, one more goes on to its end; without, each
takes an even share of BUDGET, and nothing goes on after them. Seconds are those of the processor, and slices count all that they do:
reading the log, searching, writing the new one, and judging it.

The plant of `--queue` has a box that costs next to nothing and a tree that hardly closes: orders of very different sizes, each whole or
not at all, from one stock that is not enough for all of them, each on a line of its own.
"""
import datetime, os, platform, random, subprocess, sys, tempfile


def run(words):
    """The first two lines of what is put, and the processor seconds."""
    before = os.times()
    lines = subprocess.run(words, capture_output=True, text=True).stdout.split("\n")
    after = os.times()
    seconds = after.children_user + after.children_system - before.children_user - before.children_system
    return lines[0].removeprefix("# "), int(lines[1].removeprefix("# boxes ")), seconds


def queue_plant(orders, least, most, seed):
    """The text of a plant of so many orders of sizes within a range."""
    numbers = random.Random(seed)
    sizes = [numbers.randint(least, most) for _ in range(orders)]
    text = f'version = 1\nperiods = 1\n\n[[state]]\nname = "stock"\ninitial = {sum(sizes) // 2}\n\n[[state]]\nname = "sold"\nprice = 1\n'
    for number, size in enumerate(sizes):
        text += f'\n[[unit]]\nname = "line{number}"\n\n[[task]]\nname = "order{number}"\nquantum = {size}\n'
        text += '\n[[task.input]]\nstate = "stock"\npart = "1/1"\n\n[[task.output]]\nstate = "sold"\npart = "1/1"\ndelay = 1\n'
        text += f'\n[[run]]\ntask = "order{number}"\nunit = "line{number}"\nmin = 1\nmax = 1\n'
    return text


def slices_beside(program, plant, budget, slices, boxes, folder):
    """One run, and slices, as rows of a table."""
    log, out = (os.path.join(folder, name) for name in ("log", "out"))
    said, counted, seconds = run([program, "solve", plant, str(budget)])
    print(f"| one run of {budget} | {said} | {counted} | {seconds:.1f} |", flush=True)
    said, counted, seconds = run([program, "solve", plant, str(boxes or budget // slices), log])
    for _ in range(slices - 1):
        if not said.startswith("budget-spent"):
            break
        said, counted, more = run([program, "resume", plant, log, str(boxes or budget // slices), out])
        os.replace(out, log)
        seconds += more
    print(f"| {slices} of {boxes or budget // slices} | {said} | {counted} | {seconds:.1f} |", flush=True)
    if boxes and said.startswith("budget-spent"):
        said, counted, more = run([program, "resume", plant, log, str(budget), out])
        print(f"| and one to the end | {said} | {counted} | {seconds + more:.1f} |")


def queue(program, boxes, folder):
    """A log of so many boxes, and one box more, as rows of a table."""
    plant, log, out = (os.path.join(folder, name) for name in ("queue.toml", "log", "out"))
    with open(plant, "w") as file:
        file.write(queue_plant(20, 500_000, 1_000_000, 1))
    said, counted, seconds = run([program, "solve", plant, str(boxes), log])
    print(f"| {boxes} boxes, {os.path.getsize(log)} bytes | {said} | {counted} | {seconds:.1f} |")
    said, counted, seconds = run([program, "resume", plant, log, "1", out])
    print(f"| gone on with by one box | {said} | {counted} | {seconds:.1f} |")


def main():
    program, plant, *numbers = sys.argv[1:]
    load = os.getloadavg()[0]
    print(f"{datetime.date.today()}, {platform.machine()}, {os.cpu_count()} processors, load {load:.1f}\n")
    print("| run | answer | boxes | s |\n|---|---|---|---|", flush=True)
    with tempfile.TemporaryDirectory() as folder:
        if plant == "--queue":
            queue(program, int(numbers[0]) if numbers else 100_000, folder)
        else:
            budget, slices, boxes = (*map(int, numbers), 0)[:3]
            slices_beside(program, plant, budget, slices, boxes, folder)


main()
