"""Plants from the dictionary that notebooks of the State-Task Network use.

A dictionary has `TIME`, `STATES`, `ST_ARCS`, `TS_ARCS` and `UNIT_TASKS`; its batches have any size, and those of a plant file are whole
numbers of quanta. So the caller names a grid, and a number that it does not hold is an error that says which grid would.
"""
import math
from dataclasses import dataclass, field
from fractions import Fraction
from numbers import Real

from .errors import GridFault, StnError
from .plant import Draw, Gap, Input, Output, Plant, Run, State, Task, Unit, Utility

QUANTA, LOAD = 255, 1_000_000_000


@dataclass
class Grid:
    """Which numbers of a dictionary a plant can hold. Numbers are given as texts, fractions or whole numbers; so `"0.1"`.

    mass: a mass unit, in the dictionary's mass (say 0.1 kg): stocks, limits and what a quantum takes and gives are multiples of it.
    money: a money unit: prices of a mass unit and costs are multiples of it.
    batch: the step of batch sizes, which is a task's quantum; `mass` where it is not given.
    batches: such a step for single tasks, by name.
    """

    mass: Fraction
    money: Fraction
    batch: Fraction | None = None
    batches: dict[str, Fraction] = field(default_factory=dict)

    def __post_init__(self):
        self.mass, self.money = step("mass", self.mass), step("money", self.money)
        self.batch = self.mass if self.batch is None else step("batch", self.batch)
        self.batches = {name: step(f"batches[{name!r}]", it) for name, it in self.batches.items()}

    def of_task(self, name):
        """The step of a task's batch sizes."""
        return self.batches.get(name, self.batch)


def step(what, number):
    """The step of a grid, as an exact fraction above 0."""
    found = exact(f"the grid's {what}", number)
    if found <= 0:
        raise GridFault(f"the grid's {what}", number, None, None, f"the grid's {what} is {shown(found)}, and should be above 0")
    return found


def exact(what, number):
    """A number as a fraction: a float is the fraction with a denominator to a million that is this very float, else its digits."""
    try:
        if isinstance(number, Real) and not hasattr(number, "denominator"):
            near = Fraction(float(number)).limit_denominator(1_000_000)
            return near if float(near) == number else Fraction(repr(float(number)))
        return Fraction(number)
    except (ValueError, OverflowError, TypeError, ZeroDivisionError):
        raise GridFault(what, number, None, None, f"{what} is {number!r}, which is no number") from None


def shown(number):
    """A fraction as a person writes it: with decimals where these are few."""
    digits = str(float(number))
    return digits.removesuffix(".0") if Fraction(digits) == number else str(number)


def common(numbers):
    """The greatest number of which all are whole multiples."""
    found = Fraction(0)
    for it in numbers:
        found = Fraction(math.gcd(found.numerator * it.denominator, it.numerator * found.denominator), found.denominator * it.denominator)
    return found


def on_grid(what, number, grid, name, others=()):
    """How many steps of a grid a number is."""
    if (number / grid).denominator == 1:
        return int(number / grid)
    would = common([grid, number, *others])
    raise GridFault(what, number, grid, would, f"{what} is {shown(number)}, and the {name} of {shown(grid)} does not hold it; "
                    f"a {name} of {shown(would)} would")


def from_dictionary(data, grid):
    """The plant of a dictionary on a grid.

    `TIME` is a number of periods or the times 0 to the horizon. A state's `capacity` is its limit (nothing or infinite: none). A batch
    may be as small as one quantum where `Bmin` is 0. `Cost` is paid for each start; `vCost`, for each mass of a batch, is drawn as a
    utility of that name; `Tclean` keeps the unit from any next batch, of the same task too.
    """
    for key in ("TIME", "STATES", "ST_ARCS", "TS_ARCS", "UNIT_TASKS"):
        if key not in data:
            raise StnError(f"the dictionary has no `{key}`; it needs TIME, STATES, ST_ARCS, TS_ARCS and UNIT_TASKS")
    return Reader(data, grid).plant()


class Reader:
    """A dictionary, its grid, and the length of a period in the dictionary's time."""

    def __init__(self, data, grid):
        self.data, self.grid = data, grid
        self.periods, self.period = horizon(data["TIME"])
        arcs = [task for _, task in data["ST_ARCS"]] + [task for task, _ in data["TS_ARCS"]]
        self.tasks = list(dict.fromkeys([task for _, task in data["UNIT_TASKS"]] + arcs))
        self.units = list(dict.fromkeys(unit for unit, _ in data["UNIT_TASKS"]))
        self.masses = [number for _, number in self.stocks()]
        for name in grid.batches:
            if name not in self.tasks:
                raise StnError(f"the grid names batches of the task {name}, and the dictionary has no such task")

    def plant(self):
        charges = {it: self.charge(it) for it in self.tasks}
        plant = Plant(
            self.periods,
            state=[self.state(it) for it in self.data["STATES"]],
            utility=[Utility("vCost", limit=LOAD, rate=1)] if any(charges.values()) else [],
            unit=[Unit(named(it)) for it in self.units],
            task=[self.task(it, charges[it]) for it in self.tasks],
            run=[self.run(*it) for it in self.data["UNIT_TASKS"]],
            gap=[it for unit, task in self.data["UNIT_TASKS"] for it in self.gaps(unit, task)])
        self.look_at_load(plant, {named(name): it for name, it in charges.items()})
        return plant

    def look_at_load(self, plant, charges):
        """What all units may draw of vCost in a period has to stay within its limit, or it would rule out plans."""
        load = sum(max(charges[run.task] * run.max for run in plant.run if run.unit == unit.name) for unit in plant.unit)
        if load > LOAD:
            raise StnError(f"the vCost of a period may come to {load} money units, and {LOAD} can be held: name a coarser money grid")

    def stocks(self):
        """All masses of the states, with what they are."""
        for name, it in self.data["STATES"].items():
            for key in ("capacity", "initial"):
                if has(it, key):
                    yield (name, key), exact(f"the {key} of the state {name}", it[key])

    def state(self, name):
        it = self.data["STATES"][name]
        limit, initial = (self.mass(f"the {key} of the state {name}", it[key]) if has(it, key) else None for key in ("capacity", "initial"))
        price = exact(f"the price of the state {name}", it.get("price", 0)) * self.grid.mass
        what = f"the price of a mass unit ({shown(self.grid.mass)}) of the state {name}"
        return State(named(name), initial or 0, limit, price=on_grid(what, price, self.grid.money, "money grid"))

    def mass(self, what, number):
        return on_grid(what, exact(what, number), self.grid.mass, "mass grid", self.masses)

    def task(self, name, charge):
        inputs = [(state, it) for (state, task), it in self.data["ST_ARCS"].items() if task == name]
        outputs = [(state, it) for (task, state), it in self.data["TS_ARCS"].items() if task == name]
        sides = [part(name, state, it) for state, it in inputs + outputs]
        task = Task(named(name), self.quantum(name, sides))
        task.input = [Input(named(state), part(name, state, it)) for state, it in inputs]
        task.output = [Output(named(state), part(name, state, it), self.duration(name, state, it)) for state, it in outputs]
        if charge:
            rest = [0] * (max((it.delay for it in task.output), default=1) - 1)
            task.draw = [Draw("vCost", [0, *rest], [charge, *rest])]
        return task

    def quantum(self, name, parts):
        """A task's quantum in mass units, of which each part is whole."""
        batch, mass = self.grid.of_task(name), self.grid.mass
        quantum = on_grid(f"the batch grid of the task {name}", batch, mass, "mass grid", self.masses)
        for it in parts:
            if (quantum * it).denominator != 1:
                least = mass * math.lcm(*(each.denominator for each in parts))
                would = max(1, math.floor(batch / least)) * least
                what = f"the part {it} of a quantum ({shown(batch)}) of the task {name}"
                finer = common([mass, batch * it, *self.masses])
                raise GridFault(what, batch * it, mass, would, f"{what} is {shown(batch * it)}, and the mass grid of {shown(mass)} does not "
                                f"hold it; a batch grid of {shown(would)} for this task would, and so would a mass grid of {shown(finer)}")
        return quantum

    def duration(self, name, state, it):
        what = f"the dur of the task {name} to the state {state}"
        return on_grid(what, exact(what, it.get("dur", 1)), self.period, "time grid")

    def run(self, unit, task):
        it = self.data["UNIT_TASKS"][unit, task]
        low, high = (self.size(unit, task, key) for key in ("Bmin", "Bmax"))
        what = f"the Cost of the task {task} on the unit {unit}"
        cost = on_grid(what, exact(what, it.get("Cost", 0)), self.grid.money, "money grid")
        return Run(named(task), named(unit), max(1, low), high, cost)

    def size(self, unit, task, key):
        """Bmin or Bmax in quanta."""
        it, batch = self.data["UNIT_TASKS"][unit, task], self.grid.of_task(task)
        what = f"the {key} of the task {task} on the unit {unit}"
        if key == "Bmax" and not has(it, key):
            raise GridFault(what, it.get(key), batch, None, f"{what} is not there, and a batch has a greatest size: give one")
        number = exact(what, it.get(key, 0))
        quanta = on_grid(what, number, batch, "batch grid")
        if quanta > QUANTA:
            would = batch * next(n for n in range(1, quanta + 1) if quanta <= QUANTA * n and quanta % n == 0)
            raise GridFault(what, number, batch, would, f"{what} is {shown(number)}, which is {quanta} quanta of {shown(batch)}, and a "
                            f"batch has at most {QUANTA}; a batch grid of {shown(would)} for this task would do")
        return quanta

    def gaps(self, unit, task):
        """Tclean, before each task that may come next on the unit."""
        what = f"the Tclean of the task {task} on the unit {unit}"
        runs = self.data["UNIT_TASKS"]
        periods = on_grid(what, exact(what, runs[unit, task].get("Tclean", 0)), self.period, "time grid")
        return [Gap(named(unit), named(task), named(after), periods) for at, after in runs if at == unit] if periods else []

    def charge(self, task):
        """What a quantum of a task costs by its vCost, in money units."""
        runs = {unit: it for (unit, at), it in self.data["UNIT_TASKS"].items() if at == task}
        costs = {unit: exact(f"the vCost of the task {task} on the unit {unit}", it.get("vCost", 0)) for unit, it in runs.items()}
        if len(set(costs.values())) > 1 or min(costs.values(), default=0) < 0:
            told = ", ".join(f"{shown(it)} on {unit}" for unit, it in costs.items())
            raise StnError(f"the vCost of the task {task} is {told}; a plant charges a task by its mass alike on all units, and not "
                           "below 0: give the task another name on each unit")
        what = f"the vCost of a quantum of the task {task}"
        return on_grid(what, next(iter(costs.values()), Fraction(0)) * self.grid.of_task(task), self.grid.money, "money grid")


def has(table, key):
    """Whether a number stands there: nothing and infinity are none."""
    return table.get(key) is not None and table[key] != math.inf


def horizon(times):
    """The number of periods and the length of one."""
    if isinstance(times, int):
        return times, Fraction(1)
    found = [exact("a number of TIME", it) for it in times]
    steps = {after - before for before, after in zip(found, found[1:])}
    if len(steps) != 1 or min(steps) <= 0:
        raise StnError("TIME should be a number of periods, or the times from 0 to the horizon at equal steps, as range(0, 11) is")
    return len(found) - 1, steps.pop()


def part(task, state, it):
    """The part of an arc: a fraction with a denominator to 10,000."""
    what = f"the rho between the task {task} and the state {state}"
    number = exact(what, it.get("rho", 1))
    if number.denominator > 10_000:
        near = number.limit_denominator(10_000)
        raise GridFault(what, it.get("rho"), Fraction(1, 10_000), near, f"{what} is {it.get('rho')!r}, which is no fraction n/d with d to "
                        f"10,000; the nearest is {near}: give it as Fraction({near.numerator}, {near.denominator})")
    return number


def named(name):
    """A name of a plant: without blanks."""
    return "_".join(str(name).split())
