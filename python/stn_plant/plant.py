"""Plants as records, with the names of docs/formats.md (`from_` is its `from`), and the questions that one can ask of them.

Masses are whole numbers of mass units, money is in money units, times and periods count from 0; which mass, money and hours these
stand for, each plant file chooses. Ranges and names are judged by the program, in each question. A `label` (version 3) is what people
call a state, a utility, a unit or a task; pictures show it in the place of the name.
"""
import dataclasses, tomllib
from dataclasses import dataclass, field
from datetime import datetime
from pathlib import Path

from . import slices, toml_text
from .answers import Claim, Least, Picture, Report, Rolled, Solution, Standing, Tank, Violation, numbered, rows
from .asking import Question, logs_of
from .errors import StnError
from .files import Log, look_for_room, write_whole
from .plan import Plan


@dataclass
class State:
    """A feed, an intermediate or a product.

    initial: mass units in stock at time 0. limit: the most that may be in stock, in mass units; nothing: no limit. limits: such a
    limit for each time 0 to `periods`, in the place of `limit`. price: money for each mass unit in stock at the end. holding: money
    for each mass unit in stock at each time before the end.
    """

    name: str
    label: str | None = field(default=None, kw_only=True)
    initial: int = 0
    limit: int | None = None
    limits: list[int] | None = None
    price: int = 0
    holding: int = 0


@dataclass
class Utility:
    """Steam, power, people: so much is there in each period.

    limit: in units of it. limits: such a limit for each period, in the place of `limit`. rate: money for a unit that is drawn.
    rates: such a price for each period, in the place of `rate` (version 3).
    """

    name: str
    label: str | None = field(default=None, kw_only=True)
    limit: int | None = None
    limits: list[int] | None = None
    rate: int = 0
    rates: list[int] | None = None


@dataclass
class Unit:
    """A vessel or a machine, with one batch at a time.

    last: the task of the batch that held it before the plan, and until: the time at which that batch ends, below 0 where it is over
    (version 3).
    """

    name: str
    label: str | None = field(default=None, kw_only=True)
    last: str | None = None
    until: int = 0


@dataclass
class Input:
    """What a batch takes at its start. part: of the batch, as `"2/5"` or a Fraction."""

    state: str
    part: str


@dataclass
class Output:
    """What a batch gives. part: of the batch, as `"2/5"` or a Fraction. delay: periods from the start until it is there."""

    state: str
    part: str
    delay: int


@dataclass
class Draw:
    """What a batch draws of a utility: in its period k `fixed[k]` units, and `each[k]` for each quantum."""

    utility: str
    fixed: list[int]
    each: list[int]


@dataclass
class Task:
    """What a batch does. quantum: mass units of one quantum; a batch is a whole number of quanta. label: what people call it, and
    colour: how its batches are drawn, as `"#1e90ff"` (version 3)."""

    name: str
    label: str | None = field(default=None, kw_only=True)
    colour: str | None = field(default=None, kw_only=True)
    quantum: int
    input: list[Input] = field(default_factory=list)
    output: list[Output] = field(default_factory=list)
    draw: list[Draw] = field(default_factory=list)


@dataclass
class Run:
    """A task on a unit. min, max: quanta of a batch. cost: money for each start."""

    task: str
    unit: str
    min: int
    max: int
    cost: int = 0


@dataclass
class Gap:
    """Cleaning of a unit between a batch of `from_` and the next one, of `to`. periods: how long. cost: money for each change."""

    unit: str
    from_: str
    to: str
    periods: int
    cost: int = 0


@dataclass
class Receipt:
    """What comes in from outside. time: 0 to `periods`. amount: mass units."""

    state: str
    time: int
    amount: int


@dataclass
class Delivery:
    """What is due. time: 0 to `periods`. amount: mass units. payment: money for it."""

    state: str
    time: int
    amount: int
    payment: int = 0


@dataclass
class Outage:
    """A unit is out of use in the periods `from_` to `to` - 1."""

    unit: str
    from_: int
    to: int


@dataclass
class Plant:
    """A plant over a horizon of `periods` equal periods. version: of the plant file that it is written as.

    start: what the clock shows at time 0, a date and a time of day of no zone; minutes: how long a period takes (version 3).
    """

    periods: int
    start: datetime | None = field(default=None, kw_only=True)
    minutes: int | None = field(default=None, kw_only=True)
    state: list[State] = field(default_factory=list)
    utility: list[Utility] = field(default_factory=list)
    unit: list[Unit] = field(default_factory=list)
    task: list[Task] = field(default_factory=list)
    run: list[Run] = field(default_factory=list)
    gap: list[Gap] = field(default_factory=list)
    receipt: list[Receipt] = field(default_factory=list)
    delivery: list[Delivery] = field(default_factory=list)
    outage: list[Outage] = field(default_factory=list)
    version: int = 2

    @classmethod
    def read(cls, path, timeout=None):
        """The plant of a plant file of any version; the program reads it first, and says what is wrong with it."""
        with Question(timeout=timeout) as question:
            return cls.of_upgrade(question.ask("upgrade", str(Path(path).absolute())).out)

    @classmethod
    def of(cls, text, timeout=None):
        """The plant of a text in the form of a plant file."""
        with Question(text, timeout) as question:
            return cls.of_upgrade(question.ask("upgrade", "plant.toml").out)

    @classmethod
    def of_upgrade(cls, text):
        """The plant of a text that the program's `upgrade` put."""
        return record(cls, tomllib.loads(text))

    def document(self):
        """The plant as a plant file's tables: dictionaries and lists."""
        return tables(self)

    def text(self):
        """The plant as a plant file."""
        return toml_text.document(self.document())

    def write(self, path):
        """Writes a plant file. It is written as it stands: the program judges it when it is asked."""
        write_whole(path, self.text().encode())

    def upgrade(self, timeout=None):
        """The plant as the program prints it: two plants are the same exactly where these texts are."""
        with Question(self, timeout) as question:
            return question.ask("upgrade", "plant.toml").out

    def solve(self, boxes=None, *, seconds=None, log=None, timeout=None):
        """Plans the plant with at most `boxes` boxes (1 to 100,000; 1,000 where neither is given), or for some `seconds`.

        log: a file for the log of the proof; else the log lives as long as the answer. timeout: seconds after which the program is
        ended, with nothing to show. `seconds` needs a program with the command `resume`.
        """
        if boxes is not None and seconds is not None:
            raise TypeError("give boxes or seconds")
        if log is not None:
            look_for_room(log)
        with Question(self, timeout) as question:
            if seconds is not None:
                question.wants("resume", "no.toml", "no.log", "1", "out.log", instead="give boxes= in the place of seconds=")
                lines = slices.solve(question, seconds)
            else:
                lines = question.ask("solve", "plant.toml", 1000 if boxes is None else boxes, "proof.log").lines()
            return Solution.of(lines, self, kept(question, log))

    def replan(self, plan, period, boxes=1000, *, log=None, timeout=None):
        """Keeps the starts of a plan before a period, and plans what comes after. A plan is a list of batches or a file."""
        if log is not None:
            look_for_room(log)
        with Question(self, timeout) as question:
            ran = question.ask("replan", "plant.toml", question.plan(plan), period, boxes, "proof.log")
            return Solution.of(ran.lines(), self, kept(question, log))

    def roll(self, plan, period, timeout=None):
        """The plant from a period on, where the starts of a plan before it have been carried out; and the rest of the plan."""
        with Question(self, timeout) as question:
            question.wants("roll", "no.toml", "no.plan", "1", instead="use replan")
            words = ["roll", "plant.toml", question.plan(plan), period]
            first, rolled = question.ask(*words).out.split("\n", 1)
            plant = Plant.of_upgrade(rolled)
            return Rolled(int(first.removeprefix("# rolled ")), plant, Plan.of(question.ask(*words, "plan").out, plant))

    def improve(self, plan, boxes=1000, *, log=None, timeout=None):
        """Plans the plant from a feasible plan on: the answer earns at least as much."""
        if log is not None:
            look_for_room(log)
        with Question(self, timeout) as question:
            question.wants("improve", "no.toml", "no.plan", "1", instead="use solve or replan")
            ran = question.ask("improve", "plant.toml", question.plan(plan), boxes, "proof.log")
            return Solution.of(ran.lines(), self, kept(question, log))

    def least(self, boxes=1000, *, logs=None, timeout=None):
        """The least horizon within which the plant has a feasible plan, with all deliveries due at its end.

        logs: the first part of the names of files for the logs of the horizons that are tried; else they live as long as the answer.
        """
        if logs is not None:
            look_for_room(logs)
        with Question(self, timeout) as question:
            lines = question.ask("least", "plant.toml", boxes, "least").lines()
            found = logs_of(question.folder, "least")
            made = {it: Log.moved(file) for it, file in found.items()}
            if logs is not None:
                made = {it: log.save(f"{logs}.{it}") for it, log in made.items()}
            return Least.of(lines, made)

    def check(self, log, timeout=None):
        """Checks a proof log: a Log, a file or bytes, whoever wrote it."""
        with Question(self, timeout) as question:
            return claim(question, "check", "plant.toml", question.log(log))

    def plan_of_log(self, log, timeout=None):
        """The plan that a valid log claims: no batches where its claim has none. A log that is not valid is an InvalidLog."""
        with Question(self, timeout) as question:
            return Plan.of(question.ask("plan", "plant.toml", question.log(log)).out, self)

    def slots(self, timeout=None):
        """The slots and the rows that logs of the plant number, from 0: two lists of the words of their lines behind the number."""
        with Question(self, timeout) as question:
            return numbered(question.ask("slots", "plant.toml").lines())

    def check_replan(self, plan, period, log, timeout=None):
        """Checks the log of planning on from the starts of a plan before a period."""
        with Question(self, timeout) as question:
            return claim(question, "check-replan", "plant.toml", question.plan(plan), period, question.log(log))

    def check_least(self, horizon, logs, timeout=None):
        """Checks that the logs of the horizons below `horizon` show that none of them will do: the first part of their names, or
        the `logs` of an answer of `least`."""
        with Question(self, timeout) as question:
            stem = str(Path(logs).absolute()) if not isinstance(logs, dict) else "given"
            for number, log in logs.items() if isinstance(logs, dict) else ():
                (question.folder / f"given.{number}").write_bytes(log.read())
            return claim(question, "check-least", "plant.toml", horizon, stem)

    def simulate(self, plan, timeout=None):
        """Carries out a plan: what it earns, or what it breaks first."""
        with Question(self, timeout) as question:
            words = ["simulate", "plant.toml", question.plan(plan)]
            ran = question.ask(*words, no=True)
            return Standing.of(ran.lines()[0].split(" "), question.said(ran, words).text if ran.status else "")

    def violations(self, plan, timeout=None):
        """Everything that a plan breaks, in the order in which `simulate` looks: none where it is feasible."""
        with Question(self, timeout) as question:
            lines = question.ask("violations", "plant.toml", question.plan(plan), no=True).lines()
            return [Violation.of(it.split(" ")) for it in lines[1:]]

    def table(self, plan, table="batches", timeout=None):
        """A table of a feasible plan, `batches`, `stocks`, `loads`, `units` or `deliveries`: a dictionary for each line, by its head,
        of names and whole numbers, and None where nothing stands; dates are texts, as `2026-12-24T18:30:00`."""
        with Question(self, timeout) as question:
            words = [] if table == "batches" else [table]
            return rows(question.ask("table", "plant.toml", question.plan(plan), *words).out)

    def report(self, plan, timeout=None):
        """Shows a feasible plan: a chart of units, stocks, loads and profit."""
        with Question(self, timeout) as question:
            return Report.of(question.ask("report", "plant.toml", question.plan(plan)).out)

    def picture(self, plan, timeout=None):
        """Draws a feasible plan."""
        with Question(self, timeout) as question:
            return Picture(question.ask("picture", "plant.toml", question.plan(plan)).out)

    def whatif(self, log, state, step, count, timeout=None):
        """What no plan earns more than where the limits of a state are raised by no, one .. `count` times `step` mass units, by
        the log of an old proof; nothing is searched."""
        with Question(self, timeout) as question:
            lines = question.ask("whatif", "plant.toml", question.log(log), state, step, count).lines()[1:]
            words = [it.split(" ") for it in lines]
            return [Tank(int(it[0]) * int(step), None if it[2] == "none" else int(it[2]), Standing.of(it[3:])) for it in words]


def claim(question, *words):
    """The answer of a check."""
    ran = question.ask(*words, no=True)
    first = ran.lines()[0]
    if first.startswith("broken "):
        raise question.no(first.split(" "), question.said(ran, [str(it) for it in words]).text)
    return Claim.of(first, question.said(ran, [str(it) for it in words]).text if ran.status else "")


def kept(question, log):
    """The log of a question, kept: in the file that is named, or as long as the answer lives."""
    made = Log.moved(question.folder / "proof.log")
    return made if log is None else made.save(log)


def key_of(name):
    """The key of a field: `from` is a word of Python."""
    return name.rstrip("_")


def kinds_of(cls):
    """The records that the fields of a record hold lists of, by field."""
    held = {"state": State, "utility": Utility, "unit": Unit, "task": Task, "run": Run, "gap": Gap, "receipt": Receipt,
            "delivery": Delivery, "outage": Outage} if cls is Plant else {"input": Input, "output": Output, "draw": Draw}
    return held if cls in (Plant, Task) else {}


def record(cls, table):
    """A record of a table that the program printed."""
    kinds, names = kinds_of(cls), {key_of(it.name): it.name for it in dataclasses.fields(cls)}
    values = {}
    for key, value in table.items():
        if key not in names:
            raise StnError(f"the program prints the key `{key}` of {cls.__name__.lower()}, which this package does not know: "
                           "take the package of the program's own repository")
        values[names[key]] = [record(kinds[key], it) for it in value] if key in kinds else value
    return cls(**values)


def tables(item):
    """A record as a table: what is nothing and lists of tables without items are left out, but for the sides of a task."""
    found = {}
    if isinstance(item, Plant):
        found["version"] = item.version
    for each in dataclasses.fields(item):
        value = getattr(item, each.name)
        if each.name == "rate" and value == 0 and item.rates is not None:
            continue
        if each.name == "until" and value == 0:
            continue
        if isinstance(value, list) and value and dataclasses.is_dataclass(value[0]):
            found[key_of(each.name)] = [tables(it) for it in value]
        elif value is not None and not (value == [] and key_of(each.name) in kinds_of(type(item)) and each.name not in ("input", "output")):
            found.setdefault(key_of(each.name), value)
    return found
