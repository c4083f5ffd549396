"""A plan file, and what is kept of a plan before a period.

Written from docs/formats.md and docs/model.md alone, as a part of check_log.py.
"""

from dataclasses import dataclass
from re import ASCII, fullmatch

# The longest file and the most starts, of a plan for a plant of versions 1 and 2, and of version 3.
MOST_BYTES, MOST_STARTS = (262_144, 524_288), (2048, 4096)


class PlanRefused(Exception):
    """The first fault of a plan file: KIND LINE."""


class Broken(Exception):
    """What kept starts break first: `unfit PLACE` or `busy PLACE PLACE`."""


@dataclass
class Start:
    """A batch that starts."""

    period: int
    unit: int
    task: int
    quanta: int


def read_plan(data, plant):
    """The starts of a plan file, or PlanRefused."""
    if len(data) > MOST_BYTES[plant.is_large]:
        raise PlanRefused("4 0")
    starts, tasks = [], [task.name for task in plant.tasks]
    for number, line in enumerate(data.removesuffix(b"\n").split(b"\n") if data else (), 1):
        if line.startswith(b"#"):
            continue
        if len(starts) == MOST_STARTS[plant.is_large]:
            raise PlanRefused(f"3 {number}")
        words = line.decode("latin-1").split(" ")
        if len(words) != 4 or not all(fullmatch("0|[1-9][0-9]{0,8}", it, ASCII) for it in (words[0], words[3])):
            raise PlanRefused(f"1 {number}")
        if words[1] not in plant.units or words[2] not in tasks:
            raise PlanRefused(f"2 {number}")
        starts.append(Start(int(words[0]), plant.units.index(words[1]), tasks.index(words[2]), int(words[3])))
    return starts


def kept_root(program, starts, period):
    """The values that the slots before the period keep of the starts before it, or Broken where these do not stand together."""
    plant, kept = program.plant, [it for it in starts if it.period < period]
    number = {(slot.period, slot.unit, slot.task): j for j, slot in enumerate(program.slots)}
    root = {j: (0,) for j, slot in enumerate(program.slots) if slot.period < period}
    for place, start in enumerate(kept, 1):
        slot = number.get((start.period, start.unit, start.task))
        if slot is None or start.quanta not in program.domains[slot] or not start.quanta:
            raise Broken(f"unfit {place}")
        root[slot] = (start.quanta,)
    end = [it.period + plant.tasks[it.task].periods for it in kept]
    for i, one in enumerate(kept):
        for j, other in enumerate(kept):
            if i < j and one.unit == other.unit and one.period < end[j] and other.period < end[i]:
                raise Broken(f"busy {i + 1} {j + 1}")
    return root
