"""What the program answered, as objects. Profits and caps are in money units of the plant."""
import csv
from dataclasses import dataclass, field
from pathlib import Path

from .files import Log, write_whole
from .plan import Plan


@dataclass
class Solution:
    """The answer of `solve`, `replan` and `improve`.

    status: `optimal`: no feasible plan earns more; `infeasible`: there is no feasible plan; `budget-spent`: neither was shown.
    profit: what the plan earns; nothing where there is no plan.
    cap: no feasible plan earns more than this; nothing where no plan is feasible.
    boxes: how many boxes of the proof were counted.
    changed: how many starts of the plan at hand the answer's plan does not have, for `replan` those from the period on; nothing of
        `solve`.
    plan: the plan, or nothing.
    log: the log of the proof, where it was asked for.
    """

    status: str
    profit: int | None
    cap: int | None
    boxes: int
    plan: Plan | None
    log: Log | None = None
    changed: int | None = None

    @property
    def gap(self):
        """How far the cap is above the profit, in percent of the profit; nothing without a plan."""
        return None if self.profit is None else 100 * (self.cap - self.profit) / max(1, abs(self.profit))

    @classmethod
    def of(cls, lines, plant, log):
        """The answer of the lines that the program put."""
        status, *numbers = lines[0].removeprefix("# ").split(" ")
        profit, cap = ([whole(it) for it in numbers] * 2 + [None, None])[:2]
        plan = None if profit is None else Plan.of("\n".join(lines[2:]), plant)
        counted = [int(it.removeprefix("# changed ")) for it in lines[2:3] if it.startswith("# changed ")]
        return cls(status, profit, cap, int(lines[1].removeprefix("# boxes ")), plan, log, *counted)


def whole(word):
    """A number, or nothing for `-` and `none`."""
    return None if word in ("-", "none") else int(word)


def places(words):
    """Places as numbers, names as texts."""
    return [int(it) if it.isascii() and it.isdigit() else it for it in words]


@dataclass
class Claim:
    """The answer of `check` and of its like: true exactly where the log is valid.

    valid: whether it is.
    status: what it claims and proves of all plans: `optimal`, `infeasible`, `between` or `below`; nothing where it is not valid.
    profit: what the claim's plan earns, of `optimal` and `between`.
    cap: no feasible plan earns more than this, of all but `infeasible`.
    line, kind: the first defect of a log that is not valid, as in docs/formats.md; `horizon` whose log it is, of `check_least`.
    sentence: what that means.
    """

    valid: bool
    status: str | None = None
    profit: int | None = None
    cap: int | None = None
    line: int | None = None
    kind: int | None = None
    horizon: int | None = None
    sentence: str = ""

    def __bool__(self):
        return self.valid

    @classmethod
    def of(cls, line, sentence=""):
        """The answer of the program's line: `yes ..` or `no ..`."""
        word, *rest = line.split(" ")
        if word == "no":
            *horizon, number, kind = (int(it) for it in rest)
            return cls(False, line=number, kind=kind, horizon=horizon[0] if horizon else None, sentence=sentence)
        status, *numbers = rest[0], *(int(it) for it in rest[1:])
        if status == "none-below":
            return cls(True, status, horizon=numbers[0])
        profit = numbers[0] if status in ("optimal", "between") else None
        return cls(True, status, profit, numbers[-1] if numbers else None)


@dataclass
class Standing:
    """The answer of `simulate`: true exactly where the plan is feasible.

    profit: what it earns, where it is.
    kind, places: what it breaks first, where it is not: `unfit`, `busy`, `gap`, `stock-low`, `stock-high` or `load`, with places of the
        plan from 1 (0 in `gap`: the batch that held the unit before), or a state and a time, or a utility and a period.
    sentence: what that means and what to do.
    """

    feasible: bool
    profit: int | None = None
    kind: str | None = None
    places: list[int | str] = field(default_factory=list)
    sentence: str = ""

    def __bool__(self):
        return self.feasible

    @classmethod
    def of(cls, words, sentence=""):
        """The answer of the program's words; `-` is none."""
        if words[0] == "feasible":
            return cls(True, int(words[1]))
        return None if words[0] == "-" else cls(False, None, words[1], places(words[2:]), sentence)


@dataclass
class Rolled:
    """The answer of `roll`: a plan of the rolled plant, put behind the starts before, earns `earned` more than on the rolled plant.

    earned: what was earned before the period.
    plant: the plant from the period on; its times count from there.
    plan: the starts of the plan from the period on, as a plan of that plant.
    """

    earned: int
    plant: object
    plan: Plan


@dataclass
class Violation:
    """One line of `violations`.

    kind: `unfit`, `busy`, `gap`, `stock-low`, `stock-high` or `load`.
    places: as of `Standing`; behind the place of `unfit` the cause: `run`, `size`, `horizon` or `outage`.
    by: by how many periods, mass units or units of a utility, where that is told.
    """

    kind: str
    places: list[int | str]
    by: int | None = None

    @classmethod
    def of(cls, words):
        """The violation of a line's words."""
        if words[-2] == "by":
            return cls(words[0], places(words[1:-2]), int(words[-1]))
        return cls(words[0], places(words[1:]))


def rows(text):
    """The lines of a table of comma-separated values, as dictionaries by its head."""
    return [{key: cell(value) for key, value in row.items()} for row in csv.DictReader(text.splitlines())]


def cell(text):
    """What a cell of a table holds: a number, a name or a date; nothing may stand there."""
    return None if text == "" else int(text) if text.lstrip("-").isdigit() else text


def numbered(lines):
    """The slots and the rows of the lines of `slots`, each as the words behind its number; numbers as whole numbers."""
    words = [it.split(" ") for it in lines]
    return tuple([places(it[2:]) for it in words if it[0] == kind] for kind in ("slot", "row"))


@dataclass
class Report:
    """The answer of `report`.

    text: the report. profit: what the plan earns. stocks: for each state its stock at times 0, 1 .. in mass units. loads: for each
    utility its load in periods 0, 1 ...
    """

    text: str
    profit: int
    stocks: dict[str, list[int]]
    loads: dict[str, list[int]]

    def __str__(self):
        return self.text

    @classmethod
    def of(cls, text):
        """The answer of the text of docs/formats.md."""
        lines = text.splitlines()
        stock, load = lines.index("stock"), lines.index("load")
        return cls(text, int(lines[-1].split(" ")[1]), columns(lines[stock + 1:load]), columns(lines[load + 1:-1]))


def columns(lines):
    """Columns of numbers by name: first a line `state NN NAME` for each, then lines of numbers behind their own."""
    names = [it.split(" ")[2] for it in lines if not it.startswith(" ")]
    rows = [it.split()[1:] for it in lines[len(names):]]
    return {name: [int(row[at]) for row in rows] for at, name in enumerate(names)}


@dataclass
class Picture:
    """The answer of `picture`: an SVG document, which a notebook shows."""

    svg: str = field(repr=False)

    def _repr_svg_(self):
        return self.svg

    def save(self, path):
        """Writes it to a file."""
        write_whole(path, self.svg.encode())


@dataclass
class Tank:
    """A line of `whatif`.

    raised: by how many mass units the state's limits are raised. cap: no feasible plan of such a plant earns more; nothing where
    none is feasible. standing: what the log's plan comes to there; nothing where the log has none.
    """

    raised: int
    cap: int | None
    standing: Standing | None


@dataclass
class Least:
    """The answer of `least`.

    status: `least`: no plan is feasible within fewer than `horizon` periods, and this one is within it; `no-horizon`: none is within
        any; `open`: none is within fewer than `horizon`, and there the budget was spent.
    horizon: periods. profit, plan: of the plan within the horizon, where there is one.
    logs: the logs of the horizons that were tried, by horizon.
    """

    status: str
    horizon: int | None
    profit: int | None
    plan: Plan | None
    logs: dict[int, Log] = field(default_factory=dict)

    @classmethod
    def of(cls, lines, logs):
        """The answer of the lines that the program put."""
        status, *horizon = lines[0].removeprefix("# ").split(" ")
        found = status == "least"
        profit = int(lines[1].removeprefix("# feasible ")) if found else None
        return cls(status, int(horizon[0]) if horizon else None, profit, Plan.of("\n".join(lines[2:])) if found else None, logs)


def log_path(log):
    """The file of a log that is given as a log or by its name."""
    return str(Path(log.path if isinstance(log, Log) else log).absolute())
