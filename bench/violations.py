#!/usr/bin/env python3
"""Everything that a plan breaks, read from docs/formats.md and worked out plainly; and a comparison with the program.

    python3 bench/violations.py PLANT PLAN            # prints the answer of `violations PLANT PLAN`
    python3 bench/violations.py PROGRAM --random N    # compares the program with it on N made plans, and times 2,048 starts
"""
import os, random, subprocess, sys, tempfile, time, tomllib
from fractions import Fraction

TOP = os.path.dirname(os.path.dirname(os.path.abspath(__file__)))


class Plant:
    """A plant file, as far as violations need it."""

    def __init__(self, text):
        held = tomllib.loads(text)
        self.held, self.periods = held, held["periods"]
        self.tasks = {it["name"]: it for it in held.get("task", [])}
        self.runs = {(it["task"], it["unit"]): it for it in held.get("run", [])}

    def several(self, kind):
        return self.held.get(kind, [])

    def end(self, start):
        return start[0] + max(it["delay"] for it in self.tasks[start[2]]["output"])

    def gap(self, a, b):
        return max([it["periods"] for it in self.several("gap") if (it["unit"], it["from"], it["to"]) == (a[1], a[2], b[2])], default=0)

    def ready(self, start):
        """When a first batch may begin: after its unit's `until`, and the cleaning after `last`."""
        last = next((it for it in self.several("unit") if it["name"] == start[1] and "last" in it), None)
        return last.get("until", 0) + self.gap((0, start[1], last["last"]), start) if last else 0

    def share(self, task, side):
        return [(it["state"], int(self.tasks[task]["quantum"] * Fraction(it["part"])), it.get("delay", 0)) for it in self.tasks[task][side]]

    def limit(self, thing, at):
        return thing["limits"][at] if "limits" in thing else thing.get("limit")

    def cause(self, start):
        """Why a start does not fit, or nothing."""
        period, unit, task, quanta = start
        run = self.runs.get((task, unit))
        if run is None:
            return "run"
        if not run["min"] <= quanta <= run["max"]:
            return "size"
        if self.end(start) > self.periods:
            return "horizon"
        out = [it for it in self.several("outage") if it["unit"] == unit and period < it["to"] and it["from"] < self.end(start)]
        return "outage" if out else None

    def stock(self, plan, state, at):
        stock = state.get("initial", 0)
        stock += sum(it["amount"] for it in self.several("receipt") if it["state"] == state["name"] and it["time"] <= at)
        stock -= sum(it["amount"] for it in self.several("delivery") if it["state"] == state["name"] and it["time"] <= at)
        for period, _, task, quanta in plan:
            stock -= sum(quanta * amount for name, amount, _ in self.share(task, "input") if name == state["name"] and period <= at)
            stock += sum(quanta * amount for name, amount, delay in self.share(task, "output") if name == state["name"] and period + delay <= at)
        return stock

    def load(self, plan, utility, at):
        load = 0
        for start in plan:
            if start[0] <= at < self.end(start):
                for draw in self.tasks[start[2]].get("draw", []):
                    if draw["utility"] == utility["name"]:
                        load += draw["fixed"][at - start[0]] + start[3] * draw["each"][at - start[0]]
        return load


def meet(plant, a, b):
    return a[1] == b[1] and max(a[0], b[0]) < min(plant.end(a), plant.end(b))


def units_lines(plant, plan):
    """The lines on starts and pairs of starts."""
    for place, start in enumerate(plan, 1):
        if plant.cause(start):
            yield f"unfit {place} {plant.cause(start)}"
    for i, a in enumerate(plan):
        met = [j for j in range(i + 1, len(plan)) if meet(plant, a, plan[j])]
        if met:
            yield f"busy {i + 1} {met[0] + 1}"
    for place, start in enumerate(plan, 1):
        if plant.ready(start) > start[0] and not any(it[1] == start[1] and it[0] < start[0] for it in plan):
            yield f"gap 0 {place} by {plant.ready(start) - start[0]}"
    for i, a in enumerate(plan):
        later = [b[0] for b in plan if b[1] == a[1] and b[0] > a[0]]
        for j, b in enumerate(plan):
            by = plant.end(a) + plant.gap(a, b) - b[0]
            if b[1] == a[1] and later and b[0] == min(later) and by > 0 and not meet(plant, a, b):
                yield f"gap {i + 1} {j + 1} by {by}"
                break


def amounts_lines(plant, plan):
    """The lines on stocks and loads."""
    for at in range(plant.periods + 1):
        for state in plant.several("state"):
            stock, limit = plant.stock(plan, state, at), plant.limit(state, at)
            if stock < 0:
                yield f"stock-low {state['name']} {at} by {-stock}"
            elif limit is not None and stock > limit:
                yield f"stock-high {state['name']} {at} by {stock - limit}"
        for utility in plant.several("utility") if at < plant.periods else []:
            load, limit = plant.load(plan, utility, at), plant.limit(utility, at)
            if load > limit:
                yield f"load {utility['name']} {at} by {load - limit}"


def read_plan(text):
    """The starts of a plan file."""
    words = [line.split(" ") for line in text.split("\n") if line and not line.startswith("#")]
    return [(int(period), unit, task, int(quanta)) for period, unit, task, quanta in words]


def answer(plant, plan):
    """The answer of `violations`; of a feasible plan without its profit."""
    lines = [*units_lines(plant, plan), *amounts_lines(plant, plan)]
    return "".join(it + "\n" for it in [f"violations {len(lines)}", *lines]) if lines else "feasible"


def made_plan(plant, rng):
    """A plan of some starts, many of which break something."""
    units, tasks = [it["name"] for it in plant.several("unit")], list(plant.tasks)
    start = lambda: (rng.choice((rng.randrange(plant.periods + 2), 999999999)) if rng.random() < 0.1 else rng.randrange(plant.periods),
                     *(rng.choice([(u, t) for t, u in plant.runs]) if rng.random() < 0.9 else (rng.choice(units), rng.choice(tasks))),
                     rng.choice((1, 1, 2, 3, 5, 999999999)))
    return [start() for _ in range(rng.choice((0, 1, 2, 3, 5, 8, 13)))]


def compare(program, count):
    """Compares the program with this on made plans."""
    rng, bad = random.Random(1), 0
    names = sorted(it for it in os.listdir(os.path.join(TOP, "examples")) if it.endswith(".toml"))
    for number in range(count):
        path = os.path.join(TOP, "examples", names[number % len(names)])
        plant = Plant(open(path, encoding="utf-8").read())
        plan = made_plan(plant, rng)
        with tempfile.NamedTemporaryFile("w", suffix=".plan") as file:
            file.write("".join(f"{' '.join(map(str, it))}\n" for it in plan))
            file.flush()
            said = subprocess.run([program, "violations", path, file.name], capture_output=True, text=True).stdout
        wanted = answer(plant, plan)
        if said != wanted and not (wanted == "feasible" and said.startswith("feasible ")):
            bad += 1
            print(f"{path}: {plan}\nwanted\n{wanted}came\n{said}")
    print(f"{count} plans, {bad} with another answer")
    with tempfile.NamedTemporaryFile("w", suffix=".plan") as file:
        file.write("0 U make 1\n" * 2048)
        file.flush()
        began = time.time()
        subprocess.run([program, "violations", os.path.join(TOP, "examples", "tiny.toml"), file.name], capture_output=True)
        print(f"2,048 equal starts: {time.time() - began:.2f} s")
    return bad


def main():
    if sys.argv[2:3] == ["--random"]:
        sys.exit(compare(sys.argv[1], int(sys.argv[3])) > 0)
    plant, plan = (open(it, encoding="utf-8").read() for it in sys.argv[1:3])
    print(answer(Plant(plant), read_plan(plan)), end="")


if __name__ == "__main__":
    main()
