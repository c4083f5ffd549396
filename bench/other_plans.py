#!/usr/bin/env python3
"""Plans of another solver for the plants of a folder: HiGHS, through scipy, over the rows of tools/plant_program.py.

    /usr/bin/python3 bench/other_plans.py bench/plants/at_hand   # writes NAME-1.plan and NAME-2.plan beside each NAME.toml

The first plan is what HiGHS has when it is within a tenth of its bound, the second what it says is best. It needs
Debian's python3-scipy; bench/at_hand.py reads the plans and needs none.
"""
import glob, os, sys

from highs import read, solved


def plan_of(program, gap):
    """The starts of HiGHS's plan."""
    found, count = solved(program, gap, 60), len(program.slots)
    pairs = zip(program.slots, found.x[:count], found.x[count:])
    return [(slot, round(quanta)) for slot, on, quanta in pairs if round(on)]


def main(folder):
    for path in sorted(glob.glob(os.path.join(folder, "*.toml"))):
        plant, program = read(path)
        for number, gap in ((1, 0.1), (2, 0.0)):
            starts = plan_of(program, gap)
            text = "".join(
                f"{slot.period} {plant.units[slot.unit]} {plant.tasks[slot.task].name} {quanta}\n" for slot, quanta in starts
            )
            with open(f"{path[:-5]}-{number}.plan", "w", encoding="utf-8") as out:
                out.write(text)
            print(path, number, len(program.slots), "slots", len(starts), "starts")


if __name__ == "__main__":
    main(sys.argv[1])
