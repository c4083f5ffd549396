#!/usr/bin/env python3
"""HiGHS, through scipy, over the mixed-integer program of bench/lp.py: what such a solver makes of a plant.

    /usr/bin/python3 bench/highs.py PLANT SECONDS        # prints `PROFIT BOUND optimal`, or `open` in place of `optimal`
    /usr/bin/python3 bench/highs.py PLANT SECONDS PLAN   # and writes its plan to the file PLAN
    /usr/bin/python3 bench/highs.py PLANT SECONDS PLAN MOST   # the same among plans that earn at most MOST
    /usr/bin/python3 bench/highs.py --root PLANT         # `VALUE SECONDS`: the bound of the program without whole numbers

It needs Debian's python3-scipy. The plan is looked at again by tools/plant_program.py, without rounding: where it breaks a row or
earns something else, that is an error.
"""
import sys, time

import numpy as np
from scipy.optimize import Bounds, LinearConstraint, milp
from scipy.sparse import csr_matrix

import lp
from lp import plain


def solved(made, options, is_whole=True):
    """What HiGHS finds for a mixed-integer program, or without whole numbers."""
    held = [(number, j, it) for number, (entries, _, _) in enumerate(made.rows) for j, it in entries.items()]
    places, values = ([it[0] for it in held], [it[1] for it in held]), [it[2] for it in held]
    rows = csr_matrix((values, places), shape=(len(made.rows), len(made.names)), dtype=float)
    low = np.array([-np.inf if low is None else low for _, low, _ in made.rows], dtype=float)
    high = np.array([high for *_, high in made.rows], dtype=float)
    most = np.array(made.most, dtype=float)
    return milp(
        np.array(made.costs, dtype=float),
        constraints=LinearConstraint(rows, low, high),
        bounds=Bounds(np.zeros(len(most)), most),
        integrality=np.array(made.whole, dtype=int) if is_whole else None,
        options=options,
    )


def root(path, times=5):
    """The value of the program without whole numbers, and the least processor seconds in which it is found."""
    program = lp.read(path)
    made, took = lp.mixed(program), []
    for _ in range(times):
        begun = time.process_time()
        found = solved(made, {}, is_whole=False)
        took.append(time.process_time() - begun)
    print(f"{program.base - found.fun:.2f} {min(took):.4f}" if found.x is not None else "- -")


def read(path):
    """The plant of a file, and its program."""
    program = lp.read(path)
    return program.plant, program


def point_of(program, found):
    """The quanta of the slots that start."""
    count = len(program.slots)
    return {j: round(found.x[count + j]) for j in range(count) if round(found.x[j])}


def profit_of(program, point):
    """What a point earns, which has to keep every row."""
    for number, row in enumerate(program.rows):
        if sum(plain.entry_at(row.entries[j], point.get(j, 0)) for j in row.entries) > row.limit:
            sys.exit(f"row {number} is broken")
    return plain.worth(program, point)


def plan_text(program, point):
    """The starts of a point as a plan file."""
    plant, starts = program.plant, sorted((program.slots[j].period, program.slots[j].run, j) for j in point)
    runs = [(period, plant.runs[run], point[j]) for period, run, j in starts]
    return "".join(f"{period} {plant.units[run.unit]} {plant.tasks[run.task].name} {quanta}\n" for period, run, quanta in runs)


def main(path, seconds, plan=None, most=None):
    _, program = read(path)
    made = lp.mixed(program)
    if most is not None:
        made.rows.append(({j: -it for j, it in enumerate(made.costs) if it}, None, int(most) - program.base))
    # Of each slot whether it starts, then its quanta, then flows.
    found = solved(made, {"mip_rel_gap": 0.0, "time_limit": float(seconds)})
    point = None if found.x is None else point_of(program, found)
    profit = "-" if point is None else profit_of(program, point)
    if point is not None and profit != program.base - round(found.fun):
        sys.exit(f"the plan earns {profit}, and the solver says {program.base - found.fun}")
    bound = "-" if found.mip_dual_bound is None else int(np.floor(program.base - found.mip_dual_bound + 1e-6))
    print(profit, bound, "optimal" if found.status == 0 else "infeasible" if found.status == 2 else "open")
    if plan and point is not None:
        with open(plan, "w", encoding="utf-8") as out:
            out.write(plan_text(program, point))


if __name__ == "__main__":
    root(sys.argv[2]) if sys.argv[1:2] == ["--root"] else main(*sys.argv[1:])
