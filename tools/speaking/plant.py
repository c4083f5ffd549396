"""A plant file without faults, as far as sentences need it: its slots, and what a plan does to its stocks and loads."""
from fractions import Fraction

from speaking.texts import called


def held(table, key, default=None):
    """What a table of the document holds at a key, without its place."""
    node = table.get(key)
    return default if node is None else node.held


def rows(table, key):
    """The tables of an array of tables."""
    node = table.get(key)
    return [it for it in node.items() if it.kind == "table"] if node is not None else []


def whole(table, key, default=0):
    """A whole number of a table; the default where none stands there."""
    node = table.get(key)
    return node.held if node is not None and node.kind == "number" else default


class Task:
    """A task: what a quantum takes and gives, how long a batch holds its unit, and its draws."""

    def __init__(self, table):
        self.name, self.quantum = held(table, "name"), whole(table, "quantum", 1)
        self.inputs = [(held(it, "state"), self.share(it)) for it in rows(table, "input")]
        self.outputs = [(held(it, "state"), self.share(it), whole(it, "delay", 1)) for it in rows(table, "output")]
        self.periods = max([delay for _, _, delay in self.outputs], default=0)
        self.draws = [(held(it, "utility"), numbers(it, "fixed"), numbers(it, "each")) for it in rows(table, "draw")]

    def share(self, table):
        """What a quantum takes or gives by a side's item."""
        return self.quantum * fraction(held(table, "part"))


def fraction(text):
    """A part `n/d`, and 0 where the text is none."""
    over, _, under = (text if isinstance(text, str) else "").partition("/")
    return Fraction(int(over), int(under)) if over.isdigit() and under.isdigit() and int(under) else Fraction(0)


def numbers(table, key):
    """The numbers of a list."""
    node = table.get(key)
    return [it.held for it in node.items()] if node is not None else []


class Plant:
    """The parts of a plant by name."""

    def __init__(self, root):
        self.periods = whole(root, "periods", 0)
        self.labels = {kind: {held(it, "name"): held(it, "label") for it in rows(root, kind)} for kind in ("state", "utility", "unit", "task")}
        self.states = {held(it, "name"): it for it in rows(root, "state")}
        self.utilities = {held(it, "name"): it for it in rows(root, "utility")}
        self.units = [held(it, "name") for it in rows(root, "unit")]
        self.lasts = {held(it, "name"): (held(it, "last"), whole(it, "until")) for it in rows(root, "unit") if held(it, "last") is not None}
        self.tasks = {held(it, "name"): Task(it) for it in rows(root, "task")}
        self.runs = [(held(it, "task"), held(it, "unit"), whole(it, "min"), whole(it, "max")) for it in rows(root, "run")]
        self.gaps = {}
        for it in rows(root, "gap"):
            key = (held(it, "unit"), held(it, "from"), held(it, "to"))
            self.gaps[key] = max(whole(it, "periods"), self.gaps.get(key, 0))
        self.outages = [(held(it, "unit"), whole(it, "from"), whole(it, "to")) for it in rows(root, "outage")]
        self.moves = [(held(it, "state"), whole(it, "time"), whole(it, "amount")) for it in rows(root, "receipt")]
        self.moves += [(held(it, "state"), whole(it, "time"), -whole(it, "amount")) for it in rows(root, "delivery")]

    def called(self, kind, name):
        """A state, a utility, a unit or a task as sentences call it."""
        return called(self.labels[kind].get(name), name)

    def limit(self, table, at):
        """The limit of a state or a utility at a time or in a period, or nothing."""
        several = numbers(table, "limits")
        return several[at] if at < len(several) else held(table, "limit")

    def ends(self, period, task):
        return period + self.tasks[task].periods

    def outage(self, unit, begin, end):
        """The first outage of a unit within these periods, or nothing."""
        return next(((low, high) for name, low, high in self.outages if name == unit and begin < high and low < end), None)

    def slots(self):
        """For each run the periods in which a start of it fits."""
        found = []
        for task, unit, low, high in self.runs:
            fits = [p for p in range(self.periods) if self.ends(p, task) <= self.periods]
            found.append([p for p in fits if not self.outage(unit, p, self.ends(p, task))])
        return found

    def pairs(self):
        """For each two runs of a unit with cleaning between them, how many pairs of their slots it keeps apart."""
        found, slots = {}, self.slots()
        for a, (task, unit, _, _) in enumerate(self.runs):
            for b, (after, other, _, _) in enumerate(self.runs):
                gap = self.gaps.get((unit, task, after), 0) if unit == other else 0
                count = sum(self.ends(p, task) <= q < self.ends(p, task) + gap for p in slots[a] for q in slots[b]) if gap else 0
                if count:
                    found[unit, task, after] = count
        return found

    def stock(self, plan, state, time):
        """The stock of a state at a time, that time's starts counted."""
        stock = whole(self.states[state], "initial") + sum(amount for name, at, amount in self.moves if name == state and at <= time)
        for period, _, task, quanta in plan:
            stock -= quanta * sum(share for name, share in self.tasks[task].inputs if name == state and period <= time)
            stock += quanta * sum(share for name, share, delay in self.tasks[task].outputs if name == state and period + delay <= time)
        return int(stock)

    def drawn(self, start, utility, at):
        """What a batch draws of a utility in a period."""
        period, _, task, quanta = start
        k = at - period
        if not 0 <= k < self.tasks[task].periods:
            return 0
        return sum(fixed[k] + quanta * each[k] for name, fixed, each in self.tasks[task].draws if name == utility)
