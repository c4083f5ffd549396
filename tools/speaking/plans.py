"""What a fault of a plan file is, and what a plan breaks."""
from speaking.plant import Plant
from speaking.texts import count, do, grouped, listed, means, meant, sentences, short

FORM = ("PERIOD", "UNIT", "TASK", "QUANTA")


def text_of(data):
    """The lines of a plan file."""
    return data.decode("utf-8", "replace").split("\n")


def is_number(word):
    return word.isascii() and word.isdigit() and len(word) <= 9 and (word == "0" or word[0] != "0")


def form_fault(line):
    """What of the form `PERIOD UNIT TASK QUANTA` a line does not keep."""
    words = line.split(" ")
    if not line.strip():
        return "it is empty"
    if "\t" in line or "" in words or line.endswith("\r"):
        return "between the words stands one blank each, and none at the ends"
    if len(words) != 4:
        return f"it has {count(len(words), 'word')}, and four are wanted"
    wrong = [name for name, word in (("PERIOD", words[0]), ("QUANTA", words[3])) if not is_number(word)]
    return f"{' and '.join(wrong)} is a number of 1 to 9 digits without leading zeros" if wrong else ""


def name_fault(plant, line):
    """Which name of a line the plant does not have."""
    _, unit, task, _ = line.split(" ")
    if unit not in plant.units:
        units = listed([plant.called("unit", it) for it in plant.units])
        return f"the plant has no unit `{short(unit, 40)}`{meant(unit, plant.units)}", f"Its units are {units}"
    tasks = listed([plant.called("task", it) for it in plant.tasks])
    return f"the plant has no task `{short(task, 40)}`{meant(task, plant.tasks)}", f"Its tasks are {tasks}"


def refused(plant, data, file, kind, number):
    """`refused plan KIND LINE`, in sentences."""
    if number == 0:
        return sentences(f"{file}: {means('plan', kind)}: {grouped(len(data))}", do("plan", kind))
    line = text_of(data)[number - 1]
    where = f"{file}, line {number}, `{short(line)}`"
    if kind == 1:
        return sentences(f"{where}: {means('plan', 1)}", form_fault(line) or do("plan", 1))
    if kind == 2 and plant is not None:
        return sentences(f"{where}: " + name_fault(plant, line)[0], name_fault(plant, line)[1])
    return sentences(f"{where}: {means('plan', kind)}", do("plan", kind))


class Batch:
    """A start of a plan, and the line where it stands."""

    def __init__(self, plant, line, number, place):
        period, self.unit, self.task, quanta = line.split(" ")
        self.period, self.quanta, self.line, self.place = int(period), int(quanta), number, place
        self.on, self.what = plant.called("unit", self.unit), plant.called("task", self.task)

    def start(self):
        return self.period, self.unit, self.task, self.quanta

    def named(self):
        return f"`{self.what}` on `{self.on}` in period {self.period} ({count_quanta(self.quanta)}, line {self.line})"


def count_quanta(number):
    return f"{number} {'quantum' if number == 1 else 'quanta'}"


def batches(plant, data, before=None):
    """The starts of a plan file; those before a period alone where one is given."""
    found = []
    for number, line in enumerate(text_of(data), 1):
        if line and not line.startswith("#"):
            batch = Batch(plant, line, number, len(found) + 1)
            if before is None or batch.period < before:
                batch.place = len(found) + 1
                found.append(batch)
    return found


class Broken:
    """What a plan breaks first: the words of a `broken` line."""

    def __init__(self, root, data, file, words, before=None):
        self.plant, self.file, self.words = Plant(root), file, words
        self.batches = batches(self.plant, data, before)
        self.plan = [it.start() for it in self.batches]

    def said(self):
        return sentences(f"{self.file}: {self.told()}", do("broken", self.words[0]))

    def told(self):
        """What is broken, by names and amounts."""
        tell = {"unfit": self.unfit, "busy": self.busy, "gap": self.gap, "stock-low": self.low, "stock-high": self.high, "load": self.load}
        return tell[self.words[0]]()

    def all_said(self, number, lines):
        """Each of the lines of `violations` in a sentence, a line each: of a cut text those that are whole."""
        said = [sentences(f"{self.file}: the plan is not feasible, {count(number, 'violation')}")]
        for line in lines:
            self.words = line
            said.append(sentences(self.told()))
        return "\n".join(said + [sentences(do("answer", "violations"))])

    def batch(self, word):
        return self.batches[int(word) - 1]

    def ends(self, batch):
        return self.plant.ends(batch.period, batch.task)

    def unfit(self):
        batch = self.batch(self.words[1])
        return f"the batch {batch.named()} does not fit: {self.reason(batch)}"

    def reason(self, batch):
        """Why a batch does not fit: its run, its size, the horizon, an outage."""
        run = next((it for it in self.plant.runs if it[:2] == (batch.task, batch.unit)), None)
        if run is None:
            units = [self.plant.called("unit", unit) for task, unit, _, _ in self.plant.runs if task == batch.task]
            return f"no run has `{batch.what}` on `{batch.on}`" + (f"; it runs on {listed(units)}" if units else "; it runs on no unit")
        if not run[2] <= batch.quanta <= run[3]:
            return f"its size is {count_quanta(batch.quanta)}, and this run takes {run[2]} to {run[3]}"
        if self.ends(batch) > self.plant.periods:
            return f"it ends at time {self.ends(batch)}, after the horizon, {self.plant.periods}"
        low, high = self.plant.outage(batch.unit, batch.period, self.ends(batch)) or (0, 0)
        return f"`{batch.on}` has an outage from {low} to {high}, and the batch runs from {batch.period} to {self.ends(batch)}"

    def busy(self):
        first, second = self.batch(self.words[1]), self.batch(self.words[2])
        if second.period < first.period:
            first, second = second, first
        return f"two batches meet on `{first.on}`: {first.named()} runs to time {self.ends(first)}, and {second.named()} begins before"

    def gap(self):
        if self.words[1] == "0":
            return self.early(self.batch(self.words[2]))
        first, second = self.batch(self.words[1]), self.batch(self.words[2])
        gap = self.plant.gaps.get((first.unit, first.task, second.task), 0)
        short_by = self.ends(first) + gap - second.period
        return (f"`{first.on}` is not clean: after {first.named()}, which ends at time {self.ends(first)}, it is cleaned for "
                f"{count(gap, 'period')}, so {second.named()} begins {count(short_by, 'period')} too early")

    def early(self, batch):
        """The first batch on a unit begins before it is ready after the batch that held it before the plan."""
        task, until = self.plant.lasts.get(batch.unit, (None, 0))
        gap = self.plant.gaps.get((batch.unit, task, batch.task), 0)
        clean = f" and is cleaned for {count(gap, 'period')}" if gap else ""
        return (f"`{batch.on}` is not ready: a batch of `{self.plant.called('task', task)}` held it before the plan, which ends at time {until}{clean}, so "
                f"{batch.named()} begins {count(until + gap - batch.period, 'period')} too early")

    def movers(self, state, time, gives):
        """The batches that take from a state at a time, or give to it, by name."""
        found = []
        for batch in self.batches:
            task = self.plant.tasks[batch.task]
            taking = batch.period == time and any(name == state for name, _ in task.inputs)
            giving = any(name == state and batch.period + delay == time for name, _, delay in task.outputs)
            if giving if gives else taking:
                found.append(batch.named())
        return found

    def low(self):
        state, time = self.words[1], int(self.words[2])
        stock = self.plant.stock(self.plan, state, time)
        movers = self.movers(state, time, False)
        due = -sum(amount for name, at, amount in self.plant.moves if name == state and at == time and amount < 0)
        why = (f"taken then by {'; '.join(movers[:3])}" if movers else "") + (" and " if movers and due else "") + (f"{grouped(due)} are due then" if due else "")
        return f"the stock of `{self.plant.called('state', state)}` at time {time} is {grouped(stock)}, so {grouped(-stock)} mass units are missing" + (f" ({why})" if why else "")

    def high(self):
        state, time = self.words[1], int(self.words[2])
        stock, limit = self.plant.stock(self.plan, state, time), self.plant.limit(self.plant.states[state], time)
        movers = self.movers(state, time, True)
        why = f" (given then by {'; '.join(movers[:3])})" if movers else ""
        return f"the stock of `{self.plant.called('state', state)}` at time {time} is {grouped(stock)}, {grouped(stock - limit)} above its limit of {grouped(limit)}{why}"

    def load(self):
        utility, period = self.words[1], int(self.words[2])
        drawn = [(self.plant.drawn(it.start(), utility, period), it) for it in self.batches]
        load, limit = sum(it[0] for it in drawn), self.plant.limit(self.plant.utilities[utility], period)
        most = sorted((it for it in drawn if it[0]), key=lambda it: -it[0])[:3]
        named = "; ".join(f"{grouped(number)} by {it.named()}" for number, it in most)
        return f"the load of `{self.plant.called('utility', utility)}` in period {period} is {grouped(load)}, {grouped(load - limit)} above its limit of {grouped(limit)}: {named}"
