"""What a fault of a plant file is: `refused plant KIND TABLE ITEM INNER KEY`."""
from fractions import Fraction
from math import gcd
from unicodedata import category

from speaking import fields
from speaking.plant import Plant, fraction, held, rows, whole
from speaking.texts import called, count, do, grouped, listed, means, meant, nth, sentences, short
from speaking.toml_places import Document

INNER = ("input", "output", "draw")
# The table whose items declare the names that a key holds.
DECLARES = {"state": "state", "unit": "unit", "utility": "utility", "task": "task", "from": "task", "to": "task", "last": "task"}


class Fault:
    """A fault, and the part of the document that it is about."""

    def __init__(self, data, file, words):
        self.document, self.file = Document(data), file
        self.kind, self.table, self.key = int(words[0]), words[1], words[4]
        self.item, self.inner = int(words[2]), int(words[3])
        self.version = whole(self.document.root, "version")
        self.outer = self.item_of(self.document.root.get(self.outer_name()), self.item)
        self.node = self.item_of(self.outer.get(self.table), self.inner) if self.outer and self.inner else self.outer
        self.node = self.document.root if self.table == "top" else self.node

    def outer_name(self):
        return "task" if self.table in INNER else self.table

    def item_of(self, array, number):
        """An item of an array by its number from 1, or nothing."""
        items = array.items() if array is not None else []
        return items[number - 1] if 1 <= number <= len(items) else None

    def value(self, key=None):
        """What stands at the key."""
        return self.node.get(key or self.key) if self.node is not None else None

    def name(self):
        """The item in words: `the 2nd output of the 1st task (heat)`."""
        if self.table == "top" or self.item == 0:
            return "the file"
        name = f"the {nth(self.item)} {self.outer_name()}"
        own, label = (held(self.outer, it) if self.outer is not None and self.outer.kind == "table" else None for it in ("name", "label"))
        name += f" (`{called(label if self.kind != 24 else None, short(own, 40))}`)" if isinstance(own, str) else ""
        if self.inner:
            return f"the {nth(self.inner)} {self.table} of {name}"
        return f"the {self.table}s of {name}" if self.table in INNER else name

    def at(self, place):
        """File, line and column of a place of the text."""
        line, column = self.document.place(place)
        return f"{self.file}, line {line}, column {column}"

    def line_of(self, node):
        return self.document.place(node.at)[0]

    def what(self):
        """Where the fault is, and what: a pair of a place of the text or nothing, and sentences."""
        teller = TELLERS.get(self.kind)
        if teller is None or (self.node is None and self.kind not in (1, 2, 18, 19)):
            return None
        return teller(self)

    def said(self):
        told = self.what()
        if told is None:
            return sentences(f"{self.file}, {self.name()}, key `{self.key}`: {means('plant', self.kind)}", do("plant", self.kind))
        place, *pieces = told
        where = self.file if place is None else self.at(place)
        return sentences(f"{where}: {pieces[0]}", *(pieces[1:] or [do("plant", self.kind)]))


def too_large(fault):
    size = len(fault.document.text)
    return None, f"{means('plant', 1)}" + (f": {grouped(size)}" if size > 1_048_576 else "")


def no_document(fault):
    found = fault.document.fault
    if found is None:
        return None, means("plant", 2)
    line = short(fault.document.line(fault.document.place(found.at)[0]).strip(), 60)
    return found.at, f"{means('plant', 2)}: {found.why}", f"The line is `{line}`" if line else ""


def unknown_key(fault):
    known = fields.known(fault.table, fault.version)
    key = next((it for it in fault.node.held if it not in known), None)
    if key is None:
        return None
    at = fault.node.held[key].key_at
    where = "at the top" if fault.table == "top" else f"in {fault.name()}"
    later = next((it for it in (2, 3) if key in fields.known(fault.table, it)), None)
    hint = f"; version {later} knows it, and this file has version {short(str(fault.version))}" if later else meant(key, known)
    return at, f"the key `{short(key, 40)}` {where} is not known{hint}", f"Known are {listed(known, 40)}"


def absent(fault):
    at = fault.node.at if fault.table != "top" else 0
    what = fields.of(fault.table, fault.key, fault.version)
    where = "the file" if fault.table == "top" else fault.name()
    hint = f", {fields.wanted(what)}" + (f" from {fields.allowed(what)}" if what and "minimum" in what else "")
    other = {"start": "minutes", "minutes": "start"}.get(fault.key)
    if other:
        return fault.value(other).key_at, f"{where} has `{other}`, and lacks the required key `{fault.key}`{hint}"
    return at, f"{where} lacks the required key `{fault.key}`{hint}"


def other_type(fault):
    if fault.key == "-":
        return fault.node.at, f"{fault.name()} is a {fault.node.kind}, and should be a table"
    value, what = fault.value(), fields.of(fault.table, fault.key, fault.version)
    inner = next((it for it in value.items() if it.kind != "number"), None) if what and fields.wanted(what).startswith("a list") else None
    value = inner if inner is not None and value.kind == "array" else value
    wanted = "a whole number" if value is inner else fields.wanted(what)
    return value.at, f"`{fault.key}` of {fault.name()} holds {shown(fault, value)}, a {value.kind}, and should hold {wanted}"


def shown(fault, node):
    """A value as it is written."""
    return f"`{short(fault.document.written(node), 40)}`"


def range_of(fault, what):
    """The range of a key, which may end with the horizon."""
    periods = whole(fault.document.root, "periods")
    if fault.key == "time" or (fault.table == "outage" and fault.key == "to"):
        return f"{0 if fault.key == 'time' else 1} to {periods}, the horizon,"
    if fault.key == "until":
        return f"-336 to {periods}, the horizon,"
    if fault.table == "outage" and fault.key == "from":
        return f"0 to {periods - 1}, the last period,"
    return fields.allowed(what)


def out_of_range(fault):
    value, what = fault.value(), fields.of(fault.table, fault.key, fault.version)
    ends = what.get("items", what)
    low, high = ends.get("minimum", 0), ends.get("maximum", 0)
    value = next((it for it in value.items() if not low <= it.held <= high), value)
    return value.at, f"{shown(fault, value)} is out of the range of `{fault.key}` of {fault.name()}; {range_of(fault, what)} is allowed"


def no_name(fault):
    value = fault.value()
    return value.at, f"{shown(fault, value)} is no name: {fault.name()} needs 1 to 32 ASCII letters, digits, `_`, `-` and `.`, the first a letter"


def named_twice(fault):
    value = fault.value()
    items = fault.document.root.get(fault.table).items()
    number = next(i for i, it in enumerate(items, 1) if held(it, "name") == value.held)
    return value.at, f"{shown(fault, value)} is the name of the {nth(number)} {fault.table} too, on line {fault.line_of(items[number - 1].get('name'))}"


def not_declared(fault):
    value, table = fault.value(), DECLARES[fault.key]
    names = [held(it, "name") for it in rows(fault.document.root, table) if isinstance(held(it, "name"), str)]
    declared = f"The {table} names are {listed(names)}" if names else f"The file declares no {table}"
    return value.at, f"{shown(fault, value)}, at `{fault.key}` of {fault.name()}, is the name of no {table}{meant(value.held, names)}", declared


def no_fraction(fault):
    value = fault.value()
    return value.at, f"{shown(fault, value)}, the part of {fault.name()}, is no fraction `n/d` with 1 <= n <= d <= 10,000, such as `1/2`"


def no_sum(fault):
    side = fault.outer.get(fault.table)
    parts = [fraction(held(it, "part")) for it in side.items()]
    total = " + ".join(str(it) if it.denominator > 1 else f"{it}/1" for it in parts) or "nothing"
    return side.at, f"the parts of {fault.name()} sum to {sum(parts, Fraction(0))} and not to 1: {short(total)}"


def not_whole(fault):
    quantum, part = whole(fault.outer, "quantum"), fraction(held(fault.node, "part"))
    least = 1
    for side in ("input", "output"):
        for it in rows(fault.outer, side):
            under = fraction(held(it, "part")).denominator
            least = least * under // gcd(least, under)
    value = fault.value()
    return value.at, (f"{quantum} mass units (the quantum) times {part} is {quantum * part}, no whole number, in {fault.name()}"), (
        f"A quantum of {grouped(least)} or a multiple of it would do for all parts of the task")


def too_many(fault):
    array, most = fault.value(), fields.of(fault.table, fault.key, fault.version)["maxItems"]
    first = array.items()[most]
    return first.at, f"{grouped(len(array.items()))} items of `{fault.key}` stand in {fault.name()}, and {grouped(most)} are allowed; here the next one begins"


def ends_crossed(fault):
    low, high = fault.value("min"), fault.value("max")
    return high.at, f"`max` of {fault.name()} is {high.held}, below its `min`, {low.held}"


def run_twice(fault):
    task, unit = held(fault.node, "task"), held(fault.node, "unit")
    runs = fault.document.root.get("run").items()
    number = next(i for i, it in enumerate(runs, 1) if (held(it, "task"), held(it, "unit")) == (task, unit))
    return fault.node.at, f"the {nth(number)} run, on line {fault.line_of(runs[number - 1])}, has the task `{task}` and the unit `{unit}` already"


def wrong_length(fault):
    value, periods = fault.value(), whole(fault.document.root, "periods")
    if fault.table == "draw":
        delays = [whole(it, "delay") for it in rows(fault.outer, "output")]
        wanted, why = max(delays, default=0), "one for each period of the task"
    else:
        wanted = periods + (fault.table == "state")
        why = "one for each time 0 to `periods`" if fault.table == "state" else "one for each period"
    return value.at, f"`{fault.key}` of {fault.name()} has {count(len(value.items()), 'number')}, and {wanted} are wanted, {why}"


def too_many_slots(fault):
    plant, named = named_plant(fault)
    slots = sorted(((len(it), run) for it, run in zip(plant.slots(), plant.runs)), key=lambda it: -it[0])
    most = ", ".join(f"{named('task', task)} on {named('unit', unit)} {number}" for number, (task, unit, _, _) in slots[:3])
    return None, f"the plant has {grouped(sum(it[0] for it in slots))} slots (a run and a period in which it can start), and {grouped(4096 if fault.version == 3 else 512)} are allowed", (
        f"Most of them: {most}"), do("plant", 18)


def too_many_pairs(fault):
    plant, named = named_plant(fault)
    pairs = plant.pairs()
    most = sorted(pairs, key=lambda it: -pairs[it])[:3]
    most = ", ".join(f"on {named('unit', unit)} from {named('task', a)} to {named('task', b)} {grouped(pairs[unit, a, b])}" for unit, a, b in most)
    return None, f"gaps keep {grouped(sum(pairs.values()))} pairs of slots apart, and {grouped(32_768 if fault.version == 3 else 8192)} are allowed", f"Most of them: {most}", do("plant", 19)


def named_plant(fault):
    """The plant of the file, and how its things are called."""
    plant = Plant(fault.document.root)
    return plant, lambda kind, name: f"`{plant.called(kind, name)}`"


def no_label(fault):
    value = fault.value()
    size = len(value.held.encode("utf-8", "replace"))
    odd = next((it for it in value.held if category(it) == "Cc" or it in "\ufffe\uffff"), None)
    why = f"it has {count(size, 'byte')}" if not 1 <= size <= 64 else f"it has the character U+{ord(odd):04X}" if odd else ""
    return value.at, f"{shown(fault, value)} is no label of {fault.name()}" + (f": {why}" if why else ""), means("plant", 24)


def no_colour(fault):
    value = fault.value()
    return value.at, f"{shown(fault, value)}, the colour of {fault.name()}, is not `#` and six hexadecimal digits, such as `#1e90ff`"


def both_given(fault):
    one = fault.key.removesuffix("s")
    return fault.value().at, f"{fault.name()} has both `{one}` and `{fault.key}`; `{one}` stands on line {fault.line_of(fault.value(one))}"


def empty_outage(fault):
    return fault.value().at, f"{fault.name()} lasts from {fault.value('from').held} to {fault.value('to').held}: `from` has to be below `to`"


def no_last(fault):
    return fault.value().at, f"{fault.name()} has `until`, and no `last`: the task of the batch that ends then is wanted"


TELLERS = {1: too_large, 2: no_document, 3: unknown_key, 4: unknown_key, 5: absent, 6: other_type, 7: out_of_range, 8: no_name,
           9: named_twice, 10: not_declared, 11: no_fraction, 12: no_sum, 13: not_whole, 14: too_many, 15: ends_crossed, 16: run_twice,
           17: wrong_length, 18: too_many_slots, 19: too_many_pairs, 21: both_given, 22: empty_outage,
           23: no_last, 24: no_label, 25: no_colour}
