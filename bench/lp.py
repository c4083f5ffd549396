#!/usr/bin/env python3
"""The mixed-integer program of a plant by the rules of docs/model.md, as an LP file for solvers of other kinds.

    python3 bench/lp.py PLANT > FILE       # it minimises; its first line says how the profit follows from the minimum
    python3 bench/lp.py --counts FOLDER    # a line of a table for each plant of a folder: what it is made of

Each slot is two whole numbers: `yR_T`, whether the run R starts in period T, and `qR_T`, its quanta; the rows are those of
tools/plant_program.py. A unit whose changeovers cost has besides a flow over its periods, which goes through the tasks that it ran:
`s` stays at a task, `c` changes from one (`n`: none of the plan's) to that of a slot. It is whole where the starts are.
"""
import glob, math, os, sys
from collections import defaultdict
from dataclasses import dataclass, field

TOP = os.path.dirname(os.path.dirname(os.path.abspath(__file__)))
sys.path.insert(0, os.path.join(TOP, "tools"))
import plant_program as plain


@dataclass
class Mixed:
    """Variables from 0 on, what one of each costs, and rows (entries, least or None, most) over them."""

    names: list = field(default_factory=list)
    most: list = field(default_factory=list)  # the greatest value of each variable
    whole: list = field(default_factory=list)  # whether it is a whole number
    costs: list = field(default_factory=list)
    rows: list = field(default_factory=list)

    def add(self, name, most, is_whole, cost):
        """One more variable; its number."""
        for held, value in ((self.names, name), (self.most, most), (self.whole, is_whole), (self.costs, cost)):
            held.append(value)
        return len(self.names) - 1


def read(path):
    """The program of a plant file."""
    with open(path, "rb") as it:
        return plain.program_of(plain.read_plant(it.read()))


def mixed(program):
    """The program of a plant with two variables for each slot: first all starts, then all quanta, then flows."""
    made, count = Mixed(), len(program.slots)
    for slot, (fixed, _) in zip(program.slots, program.profits):
        made.add(f"y{slot.run}_{slot.period}", 1, True, -fixed)
    for slot, (_, per), domain in zip(program.slots, program.profits, program.domains):
        made.add(f"q{slot.run}_{slot.period}", domain[-1], True, -per)
    for row in program.rows:
        pairs = [(j, fixed, per) for j, (fixed, per) in row.entries.items()]
        entries = {j: fixed for j, fixed, _ in pairs if fixed} | {count + j: per for j, _, per in pairs if per}
        made.rows.append((entries, None, row.limit))
    for j, domain in enumerate(program.domains):
        made.rows += [({count + j: 1, j: -domain[-1]}, None, 0), ({j: domain[1], count + j: -1}, None, 0)]
    for unit in sorted({gap[0] for gap in program.plant.gaps if gap[4]}):
        add_flow(made, program, unit)
    return made


def add_flow(made, program, unit):
    """What changes on a unit cost: a flow from none through the tasks that it ran, period by period."""
    own = [(j, slot) for j, slot in enumerate(program.slots) if slot.unit == unit]
    tasks, kept = sorted({slot.task for _, slot in own}), defaultdict(dict)  # by (task, period): arcs in 1, arcs out -1
    for task in tasks:
        for period in range(program.plant.periods):
            arc = made.add(f"s{unit}_{task}_{period}", 1, False, 0)
            kept[task, period][arc], kept[task, period + 1][arc] = -1, 1
    begun = {}
    for j, slot in own:
        first = plain.first_cost(program.plant, unit, slot.task)
        arcs = {made.add(f"cn_{slot.run}_{slot.period}", 1, False, first): 1, j: -1}
        begun.update(dict.fromkeys(list(arcs)[:1], 1))
        for task in tasks:
            cost = plain.greatest_gap(program.plant, unit, task, slot.task)[1]
            arc = made.add(f"c{task}_{slot.run}_{slot.period}", 1, False, cost)
            arcs[arc], kept[task, slot.period][arc] = 1, -1
        for arc in arcs:
            if arc != j:
                kept[slot.task, slot.period + 1][arc] = 1
        made.rows.append((arcs, 0, 0))
    made.rows += [(entries, 0, 0) for (_, period), entries in kept.items() if period < program.plant.periods]
    made.rows.append((begun, None, 1))


def terms(entries, names):
    """The terms of a row or of the objective, eight to a line."""
    words = [f"{'-' if it < 0 else '+'} {abs(it)} {names[j]}" for j, it in entries if it] or [f"+ 0 {names[0]}"]
    return "\n  ".join(" ".join(words[at : at + 8]) for at in range(0, len(words), 8))


def lp_text(program):
    """The LP file of a plant."""
    made = mixed(program)
    lines = [f"\\ profit = {program.base} - minimum", "Minimize", " obj: " + terms(enumerate(made.costs), made.names), "Subject To"]
    for number, (entries, low, high) in enumerate(made.rows):
        if entries or high < 0:
            lines.append(f" r{number}: {terms(entries.items(), made.names)} {'<=' if low is None else '='} {high}")
    bounds = [f" 0 <= {name} <= {most}" for name, most in zip(made.names, made.most)]
    whole = [f" {name}" for name, is_whole in zip(made.names, made.whole) if is_whole]
    return "\n".join([*lines, "Bounds", *bounds, "General", *whole, "End", ""])


def counts(path):
    """Periods, units, states, tasks, slots, rows, and how many decimal digits the number of points has."""
    program = read(path)
    plant, points = program.plant, math.prod(len(it) for it in program.domains)
    sizes = (plant.periods, len(plant.units), len(plant.states), len(plant.tasks), len(program.slots), len(program.rows))
    return f"| {os.path.basename(path)[:-5]} | {' | '.join(map(str, sizes))} | {math.floor(math.log10(points)) + 1} |"


def main(words):
    if words[:1] == ["--counts"] and len(words) == 2:
        print("| Plant | Periods | Units | States | Tasks | Slots | Rows | Digits of the points |\n" + "|---" * 8 + "|")
        print("\n".join(map(counts, sorted(glob.glob(os.path.join(words[1], "*.toml"))))))
    elif len(words) == 1:
        print(lp_text(read(words[0])), end="")
    else:
        sys.exit(__doc__)


if __name__ == "__main__":
    main(sys.argv[1:])
