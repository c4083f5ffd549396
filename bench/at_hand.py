#!/usr/bin/env python3
"""Plans of another solver and of a simple rule, given to the search with a budget of one box: none may come out worse.

    python3 bench/at_hand.py PROGRAM [FOLDER]     # prints the table of docs/performance.md; FOLDER keeps the plans

First come the plans of another solver for the plants of bench/plants/at_hand (bench/other_plans.py), then those of a rule on
examples without their orders. The rule goes through the periods and, in each, through the units and their runs in
an order of the seed: a unit that is free starts the first batch, of the greatest, a middle or the least size, that breaks nothing.
It knows no prices. The script ends with 1 where a plan is not feasible, or the answer earns less than the plan, or says another
number of changed starts than the two plans do.
"""
import glob, os, random, re, subprocess, sys, tempfile, time

import violations as plain

EXAMPLES = os.path.join(plain.TOP, "examples")
PLANTS = {"fine": 4, "kondili": 2, "kondili-1993": 2, "colours": 1, "five": 1}  # with how many seeds


def without_orders(text):
    """A plant file without what is due."""
    return "".join(it for it in re.split(r"(?m)^(?=\[\[)", text) if not it.startswith("[[delivery]]"))


def breaks(plant, plan):
    """Whether a plan breaks anything."""
    return next(plain.units_lines(plant, plan), None) or next(plain.amounts_lines(plant, plan), None)


def ruled_plan(plant, seed):
    """A plan by the rule."""
    rng, plan = random.Random(seed), []
    units = [it["name"] for it in plant.several("unit")]
    for period in range(plant.periods):
        for unit in rng.sample(units, len(units)):
            runs = [it for it in plant.runs.values() if it["unit"] == unit]
            sizes = lambda it: dict.fromkeys((it["max"], (it["min"] + it["max"]) // 2, it["min"]))
            starts = [(period, unit, it["task"], size) for it in rng.sample(runs, len(runs)) for size in sizes(it)]
            plan += [it for it in starts if not breaks(plant, [*plan, it])][:1]
    return plan


def run(program, *words):
    """What the program puts, by lines, and its seconds."""
    began = time.monotonic()
    ran = subprocess.run([program, *words], capture_output=True, text=True)
    return ran.stdout.splitlines(), time.monotonic() - began


def ruled(folder, name, seed):
    """The files of an example without its orders and of a plan by the rule."""
    path, at_hand = (os.path.join(folder, f"{name}-{seed}.{end}") for end in ("toml", "plan"))
    text = without_orders(open(os.path.join(EXAMPLES, name + ".toml"), encoding="utf-8").read())
    plan = ruled_plan(plain.Plant(text), seed)
    for file, held in ((path, text), (at_hand, "".join(f"{' '.join(map(str, it))}\n" for it in plan))):
        with open(file, "w", encoding="utf-8") as out:
            out.write(held)
    return f"{name}, {seed}", path, at_hand


def others():
    """The plants of the folder and their plans of another solver."""
    for at_hand in sorted(glob.glob(os.path.join(plain.TOP, "bench", "plants", "at_hand", "*.plan"))):
        name, number = os.path.basename(at_hand)[:-5].rsplit("-", 1)
        yield f"{name}, plan {number}", os.path.join(os.path.dirname(at_hand), name + ".toml"), at_hand


def row(program, title, path, at_hand):
    """The row of a plan, and whether it came out well."""
    plan = plain.read_plan(open(at_hand, encoding="utf-8").read())
    simulated = run(program, "simulate", path, at_hand)[0][0].split(" ")
    alone = run(program, "solve", path, "1")[0][0].split(" ")
    lines, seconds = run(program, "improve", path, at_hand, "1")
    said, changed = lines[0].split(" "), int(lines[2].removeprefix("# changed "))
    counted = sum(1 for it in plan if it not in plain.read_plan("\n".join(lines)))
    well = simulated[0] == "feasible" and int(said[2]) >= int(simulated[1]) and changed == counted
    return f"| {title} | {len(plan)} | {simulated[-1]} | {' '.join(alone[1:])} | {' '.join(said[1:])} | {changed} | {seconds:.2f} |", well


def main(program, folder):
    print("| plant, seed | starts | earns | `solve`, 1 box | `improve`, 1 box | changed | s |\n|---|---|---|---|---|---|---|")
    good = True
    rules = (ruled(folder, name, seed) for name, seeds in PLANTS.items() for seed in range(1, seeds + 1))
    for files in (*others(), *rules):
        line, well = row(program, *files)
        good &= well
        print(line + ("" if well else " <- bad"), flush=True)
    return 0 if good else 1


if __name__ == "__main__":
    if len(sys.argv) == 3:
        sys.exit(main(sys.argv[1], sys.argv[2]))
    with tempfile.TemporaryDirectory() as room:
        sys.exit(main(sys.argv[1], room))
