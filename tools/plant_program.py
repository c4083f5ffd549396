"""A plant file, and the program of its plant: slots, rows and profits.

Written from docs/formats.md (the plant file) and docs/model.md (what a plan is) alone, as the other half of
check_log.py. All numbers are whole or fractions, so nothing is rounded.
"""

import tomllib
from collections import Counter
from dataclasses import dataclass, field, replace
from fractions import Fraction
from itertools import count
from re import ASCII, DOTALL, compile, fullmatch
from unicodedata import category

BILLION, MILLION = 10**9, 10**6
GREATEST_DEPTH = 80
# What a file of versions 1 and 2 has at most, and one of version 3.
MOST = {"bytes": (1 << 20, 4 << 20), "slots": (512, 4096), "pairs": (8192, 32_768), "state": (40, 160), "utility": (8, 64), "unit": (24, 96),
        "task": (40, 160), "run": (64, 256), "gap": (4096, 4096), "receipt": (256, 900), "delivery": (256, 900), "outage": (256, 4096)}


class Refused(Exception):
    """The first fault of a plant file: KIND TABLE ITEM INNER KEY."""


# ---------------------------------------------------------------- the records of a plant


@dataclass
class State:
    name: str
    initial: int
    limits: list | None  # what may be in stock at each time 0 to H, None where there is no limit
    price: int
    holding: int
    label: str = ""


@dataclass
class Utility:
    limits: list  # what is there in each period
    rates: list  # what a unit of it costs in each period
    label: str = ""


@dataclass
class Draw:
    utility: int
    fixed: list  # of a batch in each of its periods
    each: list  # of each of its quanta


@dataclass
class Task:
    name: str
    quantum: int
    label: str = ""
    colour: str = ""
    inputs: list = field(default_factory=list)  # (state, mass units of a quantum)
    outputs: list = field(default_factory=list)  # (state, mass units of a quantum, delay)
    draws: list = field(default_factory=list)

    @property
    def periods(self):
        """How long a batch holds its unit: the longest of its delays."""
        return max(delay for _, _, delay in self.outputs)


@dataclass
class Run:
    task: int
    unit: int
    least: int
    greatest: int
    cost: int


@dataclass
class Moment:
    """A date and a time of day, in whole seconds and of no zone."""

    year: int
    month: int
    day: int
    hour: int
    minute: int
    second: int

    def later(self, minutes):
        """The moment so many minutes later, by the Gregorian calendar."""
        whole = self.hour * 60 + self.minute + minutes
        year, month, day = self.year, self.month, self.day
        for _ in range(whole // 1440):
            day += 1
            if day > days_in(year, month):
                month, day = month + 1, 1
            if month > 12:
                year, month = year + 1, 1
        return Moment(year, month, day, whole // 60 % 24, whole % 60, self.second)

    def day_text(self):
        return f"{self.month:02}-{self.day:02}"

    def hour_text(self):
        return f"{self.hour:02}:{self.minute:02}"

    def __str__(self):
        return f"{self.year:04}-{self.day_text()}T{self.hour_text()}:{self.second:02}"


def days_in(year, month):
    """How many days a month has."""
    if month == 2:
        return 29 if year % 4 == 0 and (year % 100 != 0 or year % 400 == 0) else 28
    return 30 if month in (4, 6, 9, 11) else 31


@dataclass
class Calendar:
    start: Moment  # what the clock shows at time 0
    minutes: int  # of a period

    def at(self, time):
        """What the clock shows at a time."""
        return self.start.later(self.minutes * time)


@dataclass
class Plant:
    periods: int
    is_large: bool = False  # of version 3
    calendar: Calendar | None = None
    states: list = field(default_factory=list)
    utilities: list = field(default_factory=list)
    units: list = field(default_factory=list)
    unit_labels: list = field(default_factory=list)
    lasts: list = field(default_factory=list)  # (task, until) for each unit, or None: the batch that held it before the plan
    tasks: list = field(default_factory=list)
    runs: list = field(default_factory=list)
    gaps: list = field(default_factory=list)  # (unit, from, to, periods, cost)
    receipts: list = field(default_factory=list)  # (state, time, amount)
    deliveries: list = field(default_factory=list)  # (state, time, amount, payment)
    outages: list = field(default_factory=list)  # (unit, from, to)


# ---------------------------------------------------------------- the plant file


@dataclass
class Table:
    """One table of the file and its place; its keys are read one by one, and the first fault is raised."""

    keys: dict
    name: str
    item: int = 0
    inner: int = 0

    def refuse(self, kind, key="-"):
        raise Refused(f"{kind} {self.name} {self.item} {self.inner} {key}")

    def get(self, key, types):
        """The value of a required key."""
        if key not in self.keys:
            self.refuse(5, key)
        if type(self.keys[key]) not in types:
            self.refuse(6, key)
        return self.keys[key]

    def whole(self, key, low, high, default=None):
        """A whole number in its range; a key without a default is required."""
        if default is not None and key not in self.keys:
            return default
        return self.within(key, self.get(key, [int]), low, high)

    def within(self, key, number, low, high):
        if type(number) is not int:
            self.refuse(6, key)
        if not low <= number <= high:
            self.refuse(7, key)
        return number

    def numbers(self, key, length, low, high):
        """A list of so many whole numbers."""
        numbers = self.get(key, [list])
        if len(numbers) != length:
            self.refuse(17, key)
        return [self.within(key, it, low, high) for it in numbers]

    def own_name(self, earlier):
        """The name of the item, which no earlier one of the table has."""
        name = self.get("name", [str])
        if not fullmatch(r"[A-Za-z][A-Za-z0-9_.-]{0,31}", name, ASCII):
            self.refuse(8, "name")
        if name in earlier:
            self.refuse(9, "name")
        earlier.append(name)
        return name

    def label(self):
        """What the item is called before people, or nothing: 1 to 64 bytes without control characters, and such as XML may have."""
        if "label" not in self.keys:
            return ""
        label = self.get("label", [str])
        if not 1 <= len(label.encode()) <= 64 or any(category(it) == "Cc" or it in "\ufffe\uffff" for it in label):
            self.refuse(24, "label")
        return label

    def colour(self):
        """A colour, or nothing."""
        if "colour" not in self.keys:
            return ""
        colour = self.get("colour", [str])
        if not fullmatch(r"#[0-9A-Fa-f]{6}", colour, ASCII):
            self.refuse(25, "colour")
        return colour

    def calendar(self):
        """The clock of the plant, or nothing: `start` and `minutes` need one another."""
        if "start" not in self.keys and "minutes" not in self.keys:
            return None
        return Calendar(self.get("start", [Moment]), self.whole("minutes", 1, 10_080))

    def named(self, key, names):
        """The number of the item that the key names."""
        name = self.get(key, [str])
        if name not in names:
            self.refuse(10, key)
        return names.index(name)

    def part(self):
        """A fraction of a batch."""
        text = self.get("part", [str])
        found = fullmatch(r"([1-9][0-9]{0,4})/([1-9][0-9]{0,4})", text, ASCII)
        if not found or not int(found[1]) <= int(found[2]) <= 10_000:
            self.refuse(11, "part")
        return Fraction(int(found[1]), int(found[2]))

    def limits(self, count, is_required):
        """`limit` or `limits`: so many numbers, or None where the file has neither."""
        has_list = "limits" in self.keys
        if "limit" in self.keys or (is_required and not has_list):
            limits = [self.whole("limit", 0, BILLION)] * count
            return self.refuse(21, "limits") if has_list else limits
        return self.numbers("limits", count, 0, BILLION) if has_list else None


    def rates(self, periods):
        """`rate` or `rates`: what a unit costs in each period."""
        rate = self.whole("rate", -MILLION, MILLION, 0)
        if "rates" not in self.keys:
            return [rate] * periods
        if "rate" in self.keys:
            self.get("rates", [list])
            self.refuse(21, "rates")
        return self.numbers("rates", periods, -MILLION, MILLION)


def version_of(document):
    """The version that a document is read as: 3 or 2 where it names that number, else 1."""
    named = document.get("version")
    return named if type(named) is int and named in (2, 3) else 1


class PlantFile:
    """Reads the tables of a plant file in the order of docs/formats.md."""

    def __init__(self, document):
        self.top = Table(document, "top")
        self.version = version_of(document)
        is_second = self.version > 1
        arrays = "state utility unit task run gap receipt delivery".split() + ["outage"] * is_second
        if not document.keys() <= {"version", "periods", *["start", "minutes"] * (self.version == 3), *arrays}:
            self.top.refuse(3)
        self.top.whole("version", 1, self.version)
        self.plant = Plant(self.top.whole("periods", 1, 336 if is_second else 96), self.version == 3)
        self.plant.calendar = self.top.calendar()
        self.names = {"state": [], "utility": [], "unit": [], "task": []}
        self.held_last = []  # for each unit its table and `until` where it names a task, which is read behind the units
        for array in arrays:
            getattr(self, "read_" + array)()
            if array == "task":
                self.read_lasts()

    def most(self, array):
        """How many items an array of the top has at most."""
        return MOST[array][self.version == 3]

    def tables(self, array, most, keys, of_second="", of_third="", within=None):
        """The tables of an array, each with no other keys than these; `within` is the table that an inner array stands in."""
        holder = within or self.top
        if within is None and array not in holder.keys:
            return
        items = holder.get(array, [list])
        if len(items) > most:
            holder.refuse(14, array)
        known = keys.split() + of_second.split() * (self.version > 1) + of_third.split() * (self.version == 3)
        for number, item in enumerate(items, 1):
            table = Table(item, array, within.item if within else number, number if within else 0)
            if type(item) is not dict:
                table.refuse(6)
            if not item.keys() <= set(known):
                table.refuse(4)
            yield table

    def read_state(self):
        for table in self.tables("state", self.most("state"), "name initial limit price holding", "limits", "label"):
            name, label, initial = table.own_name(self.names["state"]), table.label(), table.whole("initial", 0, BILLION, 0)
            limits = table.limits(self.plant.periods + 1, False)
            money = [table.whole(key, -MILLION, MILLION, 0) for key in ("price", "holding")]
            self.plant.states.append(State(name, initial, limits, *money, label))

    def read_utility(self):
        for table in self.tables("utility", self.most("utility"), "name limit rate", "limits", "rates label"):
            table.own_name(self.names["utility"])
            label, limits = table.label(), table.limits(self.plant.periods, True)
            self.plant.utilities.append(Utility(limits, table.rates(self.plant.periods), label))

    def read_unit(self):
        for table in self.tables("unit", self.most("unit"), "name", of_third="label last until"):
            self.plant.units.append(table.own_name(self.names["unit"]))
            self.plant.unit_labels.append(table.label())
            has_last = "last" in table.keys and table.get("last", [str]) is not None
            until = table.whole("until", -336, self.plant.periods, 0)
            if "until" in table.keys and not has_last:
                table.refuse(23, "until")
            self.held_last.append((table, until) if has_last else None)

    def read_lasts(self):
        """The batches that held the units last, whose tasks are known by now."""
        self.plant.lasts = [it and (it[0].named("last", self.names["task"]), it[1]) for it in self.held_last]

    def read_task(self):
        for table in self.tables("task", self.most("task"), "name quantum input output draw", of_third="label colour"):
            name, label, colour = table.own_name(self.names["task"]), table.label(), table.colour()
            task = Task(name, table.whole("quantum", 1, MILLION), label, colour)
            task.inputs = self.side(table, task, "input", "state part")
            task.outputs = self.side(table, task, "output", "state part delay")
            task.draws = self.draws(table, task)
            self.plant.tasks.append(task)

    def side(self, table, task, array, keys):
        """The inputs or the outputs of a task: (state, mass units of a quantum), and for an output its delay."""
        masses, items = [], []
        for inner in self.tables(array, 8, keys, within=table):
            state, mass = inner.named("state", self.names["state"]), inner.part() * task.quantum
            delay = [inner.whole("delay", 1, 96)] if array == "output" else []
            masses.append((inner, mass))
            items.append((state, int(mass), *delay))
        if sum(mass for _, mass in masses) != task.quantum:
            Table({}, array, table.item).refuse(12)
        for inner, mass in masses:
            if mass.denominator != 1:
                inner.refuse(13, "part")
        return items

    def draws(self, table, task):
        """The draws of a task."""
        draws = []
        for inner in self.tables("draw", 8, "utility fixed each", within=table) if "draw" in table.keys else ():
            utility = inner.named("utility", self.names["utility"])
            draws.append(Draw(utility, *(inner.numbers(key, task.periods, 0, MILLION) for key in ("fixed", "each"))))
        return draws

    def read_run(self):
        pairs = []
        for table in self.tables("run", self.most("run"), "task unit min max cost"):
            pair = table.named("task", self.names["task"]), table.named("unit", self.names["unit"])
            sizes = table.whole("min", 1, 255), table.whole("max", 1, 255)
            self.plant.runs.append(Run(*pair, *sizes, table.whole("cost", -MILLION, MILLION, 0)))
            if sizes[0] > sizes[1]:
                table.refuse(15, "max")
            if pair in pairs:
                table.refuse(16)
            pairs.append(pair)

    def read_gap(self):
        for table in self.tables("gap", self.most("gap"), "unit from to periods", "cost"):
            names = [table.named(key, self.names[of]) for key, of in (("unit", "unit"), ("from", "task"), ("to", "task"))]
            periods = table.whole("periods", 1 if self.version == 1 else 0, 336 if self.version == 3 else 96)
            self.plant.gaps.append((*names, periods, table.whole("cost", 0, MILLION, 0)))

    def moved(self, table):
        """State, time and amount of a receipt or a delivery."""
        state = table.named("state", self.names["state"])
        return state, table.whole("time", 0, self.plant.periods), table.whole("amount", 1, BILLION)

    def read_receipt(self):
        for table in self.tables("receipt", self.most("receipt"), "state time amount"):
            self.plant.receipts.append(self.moved(table))

    def read_delivery(self):
        for table in self.tables("delivery", self.most("delivery"), "state time amount payment"):
            self.plant.deliveries.append((*self.moved(table), table.whole("payment", -BILLION, BILLION, 0)))

    def read_outage(self):
        for table in self.tables("outage", self.most("outage"), "unit from to"):
            unit = table.named("unit", self.names["unit"])
            begin, end = table.whole("from", 0, self.plant.periods - 1), table.whole("to", 1, self.plant.periods)
            if begin >= end:
                table.refuse(22, "to")
            self.plant.outages.append((unit, begin, end))


def is_in_range(value, depth=0):
    """Whether the whole numbers of a document have 64 bits, and nothing stands deeper than it may."""
    if isinstance(value, (dict, list)):
        inner = value.values() if isinstance(value, dict) else value
        return depth <= GREATEST_DEPTH and all(is_in_range(it, depth + 1) for it in inner)
    return type(value) is not int or -(2**63) <= value < 2**63


DATE, TIME = r"\d{4}-\d\d-\d\d", r"\d\d:\d\d(?::\d\d(?:\.\d+)?)?"
WHEN = rf"{DATE}(?:[Tt ]{TIME}(?:[Zz]|[+-]\d\d:\d\d)?)?|{TIME}"
TOKEN = compile(r'"""(?:\\.|[^\\])*?"{3,5}|\'\'\'.*?\'{3,5}|"(?:\\.|[^"\\\n])*"|\'[^\'\n]*\'|(?<![\w.+-])(?:' + WHEN
                + r')(?![\w.:+-])|(?:[ \t\n]|\r\n|#[^\n]*)+|.', DOTALL | ASCII)
ESCAPE = compile(r"\\(?:x([0-9A-Fa-f]{2})|.)", DOTALL)


def when_of(text):
    """What a date, a time of day or both hold: a Moment, or False where the two are not there, in whole seconds and of no zone; None
    where there is no such day or time."""
    date, time, zone = fullmatch(rf"({DATE})?[Tt ]?({TIME})?([Zz]|[+-]\d\d:\d\d)?", text, ASCII).groups()
    year, month, day = map(int, (date or "2000-01-01").split("-"))
    clock, _, fraction = (time or "00:00").partition(".")
    hour, minute, *seconds = map(int, clock.split(":"))
    zone_hour, zone_minute = map(int, zone[1:].split(":")) if zone and zone not in "Zz" else (0, 0)
    is_day = 1 <= month <= 12 and 1 <= day <= days_in(year, month)
    if not is_day or hour > 23 or minute > 59 or seconds > [60] or zone_hour > 23 or zone_minute > 59:
        return None
    is_whole = seconds and seconds < [60] and not fraction[:9].strip("0")
    return Moment(year, month, day, hour, minute, *seconds) if date and time and not zone and is_whole else False


def as_it_is_read(text):
    """The text as `tomllib` reads it, which is of TOML 1.0 and 1.1 allows more, and what its dates and times hold, by the number that
    stands in their place.

    In an inline table there may be new lines and comments after `{`, beside a comma and before `}`, and a comma before `}`. Seconds may be
    left out, or be 60, and there is a year 0. In a text `\\e` and `\\xHH` are escapes.
    """
    parts, stack, before, held = [], [], "", {}
    own = next(it for it in (f"0.{number:03}" for number in count()) if it not in text)
    tokens = TOKEN.findall(text)
    for place, token in enumerate(tokens):
        after = tokens[place + 1][0] if place + 1 < len(tokens) else ""
        is_gap, in_table = token[0] in " \t\n#" or token[:2] == "\r\n", bool(stack) and stack[-1] == "{"
        if in_table and is_gap and (before in "{," or after in ",}"):
            token = " "
        elif in_table and token == "," and before not in "{,":
            ends = next((it for it in tokens[place + 1 :] if it[0] not in " \t\r\n#"), "")
            token = "" if ends == "}" else ","
        elif fullmatch(WHEN, token, ASCII) and before in ("=", "[", ",") and when_of(token) is not None:
            held[own + str(place)] = when_of(token)
            token = own + str(place)
        elif token[0] == '"':
            token = ESCAPE.sub(lambda it: f"\\u00{it[1] or '1b'}" if it[1] or it[0] == "\\e" else it[0], token)
        if token in ("{", "["):
            stack.append(token)
        elif token in ("}", "]") and stack:
            stack.pop()
        before = before if is_gap or not token else token
        parts.append(token)
    return "".join(parts), held


def read_document(text):
    """The document of a text, in which a Moment stands for what may be one."""
    text, held = as_it_is_read(text)
    return tomllib.loads(text, parse_float=lambda number: held[number] if number in held else float(number))


def document_of(data):
    """The TOML document of a file: one that is longer than version 2 allows has to be of version 3."""
    is_long, most = len(data) > MOST["bytes"][0], MOST["bytes"][1]
    if len(data) > most:
        Table({}, "top").refuse(1)
    try:
        document = read_document(data.decode("utf-8-sig"))
    except (UnicodeDecodeError, tomllib.TOMLDecodeError, RecursionError):
        Table({}, "top").refuse(1 if is_long else 2)
    if not is_in_range(document):
        Table({}, "top").refuse(1 if is_long else 2)
    if is_long and version_of(document) != 3:
        Table({}, "top").refuse(1)
    return document


def read_plant(data):
    """The plant of a file, or Refused."""
    plant = PlantFile(document_of(data)).plant
    if len(slots_of(plant)) > MOST["slots"][plant.is_large]:
        Table({}, "run").refuse(18)
    if len(gap_rows(plant, slots_of(plant))) > MOST["pairs"][plant.is_large]:
        Table({}, "gap").refuse(19)
    return plant


# ---------------------------------------------------------------- slots and rows


@dataclass(frozen=True)
class Slot:
    """A run and a period in which a start of it fits."""

    run: int
    period: int
    unit: int
    task: int
    end: int


def slots_of(plant):
    """By run, then by period: a batch ends by the horizon, and no outage of its unit is in one of its periods."""
    slots = []
    for number, run in enumerate(plant.runs):
        length = plant.tasks[run.task].periods
        out = [(begin, end) for unit, begin, end in plant.outages if unit == run.unit]
        for period in range(plant.periods - length + 1):
            if all(period + length <= begin or end <= period for begin, end in out):
                slots.append(Slot(number, period, run.unit, run.task, period + length))
    return slots


@dataclass
class Row:
    """Is kept where its entries sum to at most its limit. An entry is a pair (fixed, per)."""

    entries: dict
    limit: int


def entry_at(entry, value):
    """What an entry counts at a value: fixed + per * value from 1 on, and 0 at 0."""
    return entry[0] + entry[1] * value if value else 0


def busy_rows(plant, slots):
    """By unit and period: the starts that run on the unit in the period."""
    return [Row({j: (1, 0) for j, slot in enumerate(slots) if slot.unit == unit and slot.period <= t < slot.end}, 1)
            for unit in range(len(plant.units)) for t in range(plant.periods)]


def stock_without(plant, state, time):
    """The stock of a state at a time where nothing is started."""
    received = sum(amount for s, t, amount in plant.receipts if s == state and t <= time)
    delivered = sum(amount for s, t, amount, _ in plant.deliveries if s == state and t <= time)
    return plant.states[state].initial + received - delivered


def gains(plant, slot, state):
    """What a quantum started in the slot adds to the stock of the state, at which times."""
    task, by_time = plant.tasks[slot.task], Counter()
    for s, mass in task.inputs:
        by_time[slot.period] -= mass * (s == state)
    for s, mass, delay in task.outputs:
        by_time[slot.period + delay] += mass * (s == state)
    return by_time


def stock_rows(plant, slots, is_high):
    """By state and time 0 to H: taken less given is at most what is there (low), or the opposite what has room (high)."""
    rows, sign = [], 1 if is_high else -1
    for number, state in enumerate(plant.states):
        if is_high and state.limits is None:
            continue
        gained = [gains(plant, slot, number) for slot in slots]
        given = [0] * len(slots)
        for time in range(plant.periods + 1):
            given = [sum_ + by_time[time] for sum_, by_time in zip(given, gained)]
            entries = {j: (0, sign * it) for j, it in enumerate(given) if it}
            there = stock_without(plant, number, time)
            rows.append(Row(entries, state.limits[time] - there if is_high else there))
    return rows


def load_rows(plant, slots):
    """By utility and period: the draws in the period."""
    rows = []
    for number, utility in enumerate(plant.utilities):
        for time in range(plant.periods):
            drawn = {j: draw_at(plant, slot, number, time) for j, slot in enumerate(slots) if slot.period <= time < slot.end}
            rows.append(Row({j: it for j, it in drawn.items() if it != (0, 0)}, utility.limits[time]))
    return rows


def draw_at(plant, slot, utility, time):
    """What a batch of the slot draws of the utility in a period of its own: fixed, and for each quantum."""
    draws = [it for it in plant.tasks[slot.task].draws if it.utility == utility]
    return sum(it.fixed[time - slot.period] for it in draws), sum(it.each[time - slot.period] for it in draws)


def gap_rows(plant, slots):
    """By unit, slot a and slot b, where a ends by the start of b and b starts before the cleaning after a is over."""
    rows = []
    for unit in range(len(plant.units)):
        own = [j for j, slot in enumerate(slots) if slot.unit == unit]
        tasks = {slots[j].task for j in own}
        cleaning = {(i, k): greatest_gap(plant, unit, i, k)[0] for i in tasks for k in tasks}
        for a in own:
            for b in own:
                if slots[a].end <= slots[b].period < slots[a].end + cleaning[slots[a].task, slots[b].task]:
                    rows.append(gap_row(slots, own, a, b))
    return rows


def gap_row(slots, own, a, b):
    """A start in a and one in b, less the starts of the unit in periods strictly between, are at most 1."""
    between = {j: (-1, 0) for j in own if slots[a].period < slots[j].period < slots[b].period}
    return Row({**between, a: (1, 0), b: (1, 0)}, 1)


def ready_at(plant, unit, task):
    """The first time at which a first batch of the task may begin on the unit: after `until`, and the cleaning after `last`."""
    last = plant.lasts[unit]
    return last[1] + greatest_gap(plant, unit, last[0], task)[0] if last else 0


def first_cost(plant, unit, task):
    """What the changeover costs from the batch that held the unit last to a first one of the task."""
    last = plant.lasts[unit]
    return greatest_gap(plant, unit, last[0], task)[1] if last else 0


def first_rows(plant, slots):
    """By unit, then by slot b before the time at which b's task may begin as the first: a start in b, less those of the unit in
    lesser periods, is at most 0."""
    rows = []
    for unit in range(len(plant.units)):
        own = [j for j, slot in enumerate(slots) if slot.unit == unit]
        ready = {task: ready_at(plant, unit, task) for task in {slots[j].task for j in own}}
        for b in own:
            if slots[b].period < ready[slots[b].task]:
                rows.append(Row({**{j: (-1, 0) for j in own if slots[j].period < slots[b].period}, b: (1, 0)}, 0))
    return rows


@dataclass
class Program:
    """The plant as sparse rows over slots. What a log declares adds slots and rows after the plant's."""

    plant: Plant
    slots: list
    rows: list
    domains: list  # the values of each slot, ascending: 0 and the batch sizes
    base: int  # the profit of the plan without starts
    profits: list  # the profit entry of each slot

    def copy(self):
        """The same program, to which slots and rows can be added."""
        return replace(self, rows=[*self.rows], domains=[*self.domains], profits=[*self.profits])

    def add_slot(self, values, profit):
        """One more slot after the others."""
        self.domains.append(values)
        self.profits.append(profit)

    def by_slot(self):
        """For each slot the rows that have an entry for it."""
        rows = [[] for _ in self.domains]
        for number, row in enumerate(self.rows):
            for slot, entry in row.entries.items():
                rows[slot].append((number, entry))
        return rows


def profit_entry(plant, slot):
    """What a start in the slot adds to the value: for itself, and for each quantum."""
    task, run = plant.tasks[slot.task], plant.runs[slot.run]
    fixed = -run.cost - sum(cost_from(plant.utilities[it.utility], slot.period, it.fixed) for it in task.draws)
    each = -sum(cost_from(plant.utilities[it.utility], slot.period, it.each) for it in task.draws)
    gained = [(s, -mass, slot.period) for s, mass in task.inputs]
    gained += [(s, mass, slot.period + delay) for s, mass, delay in task.outputs]
    for s, mass, time in gained:
        state = plant.states[s]
        each += mass * (state.price - state.holding * (plant.periods - time))
    return fixed, each


def cost_from(utility, period, amounts):
    """What amounts cost that are drawn in a row of periods from one on."""
    return sum(rate * amount for rate, amount in zip(utility.rates[period:], amounts))


def base_of(plant):
    """The profit of the plan without starts: end stocks and payments, less what is paid for holding."""
    base = sum(payment for *_, payment in plant.deliveries)
    for number, state in enumerate(plant.states):
        base += state.price * stock_without(plant, number, plant.periods)
        base -= state.holding * sum(stock_without(plant, number, t) for t in range(plant.periods))
    return base


def program_of(plant):
    """The program of a plant: its slots, and its rows family by family."""
    slots = slots_of(plant)
    rows = busy_rows(plant, slots) + stock_rows(plant, slots, False) + stock_rows(plant, slots, True)
    rows += load_rows(plant, slots) + gap_rows(plant, slots) + first_rows(plant, slots)
    runs = [plant.runs[slot.run] for slot in slots]
    domains = [(0, *range(run.least, run.greatest + 1)) for run in runs]
    profits = [profit_entry(plant, it) for it in slots]
    return Program(plant, slots, rows, domains, base_of(plant), profits)


def greatest_gap(plant, unit, before, after):
    """The cleaning between two tasks on a unit and what the change costs: the greatest that the gaps list, 0 where none does."""
    listed = [it[3:] for it in plant.gaps if it[:3] == (unit, before, after)]
    return tuple(max(it, default=0) for it in ([periods for periods, _ in listed], [cost for _, cost in listed]))


def changeovers(program, point):
    """What a point's changes cost: to the first batch on a unit, and for each two batches that follow one another on it."""
    cost, last = 0, {}
    for slot in sorted((program.slots[j] for j in point if j < len(program.slots)), key=lambda it: it.period):
        if slot.unit in last:
            cost += greatest_gap(program.plant, slot.unit, last[slot.unit], slot.task)[1]
        else:
            cost += first_cost(program.plant, slot.unit, slot.task)
        last[slot.unit] = slot.task
    return cost


def worth(program, point):
    """The profit of the plan of a point: its value less its changeovers."""
    value = program.base + sum(entry_at(program.profits[j], v) for j, v in point.items())
    return value - changeovers(program, point)
