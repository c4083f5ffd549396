#!/usr/bin/env python3
"""Times `conflict` on made plants with many deliveries, and compares its sets with the rule of docs/formats.md, worked by `solve` alone.

    python3 bench/conflicts.py PROGRAM            # 20 deliveries on plants of 60 slots, BUDGET 100: seconds, steps, the set
    python3 bench/conflicts.py PROGRAM --rule     # the same by one run of `solve` for each step, and whether the sets agree
    python3 bench/conflicts.py PROGRAM --plant N  # prints plant N

Two reactors make three products, a batch of up to 10 mass units in a period, over eleven periods of which each has
one outage. The deliveries are drawn from a seed, and are more than the reactors can make.
"""
import datetime, os, random, re, subprocess, sys, tempfile, time

PRODUCTS, UNITS, PERIODS, ORDERS, BUDGET = "ABC", ("R", "S"), 11, 20, "100"
HELD = r'(?m)^(?:state|time|amount) = "?([A-Za-z0-9]+)"?$'


def plant(seed):
    """A plant file with deliveries that can't all be met."""
    draw = random.Random(seed)
    text = [f'version = 2\nperiods = {PERIODS}\n\n[[state]]\nname = "feed"\ninitial = 1000\n']
    text += [f'[[state]]\nname = "{it}"\nlimit = 30\nprice = 2\n' for it in PRODUCTS]
    text += [f'[[unit]]\nname = "{it}"\n' for it in UNITS]
    text += [f'[[task]]\nname = "make{it}"\nquantum = 1\n[[task.input]]\nstate = "feed"\npart = "1/1"\n[[task.output]]\nstate = "{it}"\npart = "1/1"\ndelay = 1\n'
             for it in PRODUCTS]
    text += [f'[[run]]\ntask = "make{it}"\nunit = "{unit}"\nmin = 2\nmax = 10\ncost = 1\n' for unit in UNITS for it in PRODUCTS]
    text += [f'[[outage]]\nunit = "{unit}"\nfrom = {at}\nto = {at + 1}\n' for unit, at in zip(UNITS, (0, 1))]
    text += [f'[[delivery]]\nstate = "{draw.choice(PRODUCTS)}"\ntime = {draw.randint(1, PERIODS)}\namount = {draw.randint(3, 12)}\npayment = {draw.randint(10, 40)}\n'
             for _ in range(ORDERS)]
    return "\n".join(text)


def ask(program, *words):
    """What the program puts."""
    return subprocess.run([program, *words], capture_output=True, text=True, check=False).stdout


def by_rule(program, text, file):
    """The set by passes over the deliveries, each step by `solve`: its lines, and the number of steps."""
    tables = re.split(r"(?m)^(?=\[\[)", text)
    places = [at for at, it in enumerate(tables) if it.startswith("[[delivery]]")]
    steps = 0

    def status(left):
        nonlocal steps
        steps += 1
        with open(file, "w", encoding="utf-8") as whole:
            whole.write("".join(it for at, it in enumerate(tables) if at not in places or at in left))
        return ask(program, "solve", file, BUDGET).split("\n")[0]

    if status(places) != "# infeasible":
        return None, steps
    left, marks, changed = list(places), {}, True
    while changed:
        changed, marks = False, {}
        for place in list(left):
            said = status([it for it in left if it != place])
            if said == "# infeasible":
                left.remove(place)
                changed = True
            else:
                marks[place] = " open" if said.startswith("# budget-spent -") else ""
    held = lambda at: " ".join(re.findall(HELD, tables[at]))
    return [f"delivery {places.index(at) + 1} {held(at)}{marks[at]}" for at in left], steps


def main():
    program = sys.argv[1]
    if "--plant" in sys.argv:
        print(plant(int(sys.argv[3])))
        return
    print(f"{datetime.date.today()}, {os.cpu_count()} processors, load {os.getloadavg()[0]:.1f}")
    with tempfile.TemporaryDirectory() as folder:
        file, other = os.path.join(folder, "plant.toml"), os.path.join(folder, "fewer.toml")
        for seed in range(5):
            text = plant(seed)
            with open(file, "w", encoding="utf-8") as whole:
                whole.write(text)
            begun = time.monotonic()
            said = ask(program, "conflict", file, BUDGET).split("\n")
            seconds = time.monotonic() - begun
            print(f"plant {seed}: {seconds:.1f} s, {said[0]}")
            if "--rule" in sys.argv:
                begun = time.monotonic()
                lines, steps = by_rule(program, text, other)
                named = [re.findall(r"\w+", it) for it in said[1:-1]]
                same = lines is not None and [it[:2] for it in named] == [re.findall(r"\w+", it)[:2] for it in lines]
                print(f"  by the rule: {time.monotonic() - begun:.1f} s, {steps} steps, {'the same set' if same else 'ANOTHER SET'}, {lines}")


main()
