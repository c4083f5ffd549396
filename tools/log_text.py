"""The text of a proof log: its records, and a reader whose defects are those of the text, line by line.

Written from docs/formats.md alone, as a part of check_log.py. What a log means is judged in log_judge.py.
"""

import re
from dataclasses import dataclass, field

from declared import Cut, DerivedRow, Setup, Sum

GREATEST_LINE, GREATEST_OPEN, GREATEST_COUNT = 200, 4608, 50_000
GREATEST_FACTOR, GREATEST_SCALE = 2**40, 2**20
GREATEST_WIDTH, GREATEST_OFFSET, GREATEST_ENTRY = 10**6, 9 * 10**11, 10**7
# What the larger program of a version has room for: slots and rows.
ROOM = {1: (512, 45_904), 2: (512, 45_904), 3: (512, 45_904), 4: (4096, 400_000)}
# A derived row: its divisor, UP and DOWN, how many rows and groups it names, factors and shifts; and how many a head has.
GREATEST_DIVISOR, GREATEST_NAMED, GREATEST_GROUPS, GREATEST_MIXED, GREATEST_SHIFT = 10**9, 64, 512, 10**6, 10**12
GREATEST_DERIVED = 4096
# What may stand in the head of a version at first, and what after a line of the head.
SORTS = {1: (), 2: (), 3: ("sum",), 4: ("sum", "setup", "cut", "row")}
LATER = {"sum": SORTS, "setup": {4: ("setup", "cut", "row")}, "cut": {4: ("cut", "row")}, "row": {4: ("cut", "row")}}
# What the program reads by now: logs up to a version, and none of these lines (none is to come). With `ahead` all are read.
NEWEST, COMING = 4, ()


class Defect(Exception):
    """The first defect of a log: its line and its kind."""

    def __init__(self, line, kind):
        super().__init__(f"{line} {kind}")


# ---------------------------------------------------------------- the records of a log


@dataclass
class Certificate:
    """A scale and a factor for some rows."""

    scale: int
    factors: list = field(default_factory=list)  # (row, factor)


@dataclass
class Group:
    """A `found` group or a claim: a plan as the values of its slots, and what it is said to earn."""

    line: int
    profit: int | None = None
    point: dict = field(default_factory=dict)


@dataclass
class Node:
    """A box: its cuts, a found plan, and how it ends."""

    cuts: list = field(default_factory=list)
    found: Group | None = None
    floor: int | None = None  # a profit: what earns no more may be trimmed before the box is divided
    line: int = 0  # of its ending
    ending: str = ""
    split: tuple = ()  # (slot, max)
    certificate: Certificate | None = None


@dataclass
class Log:
    """A proof log: what its head declares, its nodes in the order of the file, and its claim."""

    version: int
    head: list
    nodes: list
    claim: str  # the claim as a line of its own says it, without the number of its values
    cap: int | None
    plan: Group
    tree: bytes  # the lines of the nodes


# ---------------------------------------------------------------- the text of a log

# The forms of lines: N is a number, Z one that may have a '-' before it, R a row or '-'.
FORMS = {
    "stn-log": "N", "sum": "N Z R R N", "term": "N Z Z", "node": "", "cut": "N N", "found": "Z N", "value": "N N",
    "empty": "", "dual": "N N", "pending": "N N", "mult": "N N", "point": "", "split": "N N N N",
    "claim optimal": "Z N", "claim between": "Z Z N", "claim infeasible": "", "claim below": "Z", "end": "",
    "setup": "N", "row": "N N N N N N N", "by": "N Z", "shift": "N Z", "lift": "N Z", "entry": "N Z Z", "floor": "Z",
}
NUMBER = "(?:0|[1-9][0-9]{0,29})"
WORDS = {"N": f"({NUMBER})", "Z": "(0|-?[1-9][0-9]{0,29})", "R": f"(-|{NUMBER})"}
PATTERNS = {name: re.compile(" ".join([name, *(WORDS[it] for it in form.split())]).encode()) for name, form in FORMS.items()}


class Lines:
    """The lines of a log, from its first to its last."""

    def __init__(self, data, not_read):
        self.data, self.at, self.number, self.name, self.not_read = data, 0, 0, "", not_read
        self.begins = 0  # where the last line began

    def next(self, *names):
        """The numbers of the next line, which is of one of these forms; `name` says which."""
        self.number += 1
        end = self.data.find(b"\n", self.at)
        line = self.data[self.at : end if end >= 0 else len(self.data)]
        self.need(len(line) <= GREATEST_LINE)
        self.need(end >= 0, 2)
        self.begins, self.at = self.at, end + 1
        for self.name in names:
            if self.name not in self.not_read and (found := PATTERNS[self.name].fullmatch(line)):
                return [None if it == b"-" else int(it) for it in found.groups()]
        raise Defect(self.number, 1)

    def need(self, holds, kind=1):
        """What the line has to meet: its form, where no other kind is said."""
        if not holds:
            raise Defect(self.number, kind)


class LogText:
    """Reads a log over a plant's program. Its defects are those of the text, line by line."""

    def __init__(self, data, program, ahead=False, greatest_open=GREATEST_OPEN):
        self.lines, self.program, self.version = Lines(data, () if ahead else COMING), program, 0
        self.newest, self.greatest_open = max(ROOM) if ahead else NEWEST, greatest_open
        self.slots, self.rows, self.own_slots = len(program.slots), len(program.rows), len(program.slots)

    def read(self):
        """The whole log."""
        (self.version,) = self.lines.next("stn-log")
        self.lines.need(1 <= self.version <= self.newest)
        head = Head(self).read()
        begins = self.lines.begins
        nodes = self.nodes()
        log = self.claim(head, nodes, self.lines.data[begins : self.lines.at])
        self.lines.next("end")
        if self.lines.at < len(self.lines.data):
            raise Defect(self.lines.number + 1, 3)
        return log

    def cut(self, row, slot):
        """A cut names a row and a slot that are there."""
        self.lines.need(row < self.rows, 4)
        self.lines.need(slot < self.slots, 5)
        return Cut(row, slot)

    def nodes(self):
        """The nodes in the order of the file; the first `node` line is read. A split is open until both its parts are read."""
        nodes, open_splits = [self.node()], []  # for each open split how many of its parts are not yet read
        while True:
            if nodes[-1].ending == "split":
                open_splits.append(2)
            while open_splits and not open_splits[-1]:
                open_splits.pop()
            if not open_splits:
                return nodes
            open_splits[-1] -= 1
            self.lines.next("node")
            self.lines.need(len(open_splits) <= self.greatest_open, 9)
            nodes.append(self.node())

    def node(self):
        """What stands after a `node` line."""
        node, own = Node(), ["empty", "dual", "pending", "split"]
        own += ["point"] * (self.version > 1) + ["floor"] * (self.version > 3)
        numbers = self.lines.next("cut", "found", *own)
        while self.lines.name == "cut":
            node.cuts.append(self.cut(*numbers))
            numbers = self.lines.next("cut", "found", *own)
        if self.lines.name == "found":
            node.found = self.group(*numbers)
            numbers = self.lines.next(*own)
        if self.lines.name == "floor":
            (node.floor,) = numbers
            numbers = self.lines.next("split")
        self.ending(node, numbers)
        return node

    def ending(self, node, numbers):
        """How a node ends."""
        node.ending, node.line = self.lines.name, self.lines.number
        if node.ending == "split":
            node.split = tuple(numbers[:2])
            self.lines.need(node.split[1] <= 254)
            self.lines.need(node.split[0] < self.slots, 5)
        if numbers:
            node.certificate = self.certificate(*numbers[-2:])

    def certificate(self, scale, count):
        """A certificate; its rows ascend strictly."""
        need, factors, last = self.lines.need, [], -1
        need(scale <= GREATEST_SCALE, 7)
        need(count <= GREATEST_COUNT, 8)
        for _ in range(count):
            row, factor = self.lines.next("mult")
            need(factor >= 1 and row > last)
            need(row < self.rows, 4)
            need(factor <= GREATEST_FACTOR, 6)
            factors.append((row, factor))
            last = row
        return Certificate(scale, factors)

    def group(self, profit, count):
        """A group of values; its slots ascend strictly, and are those of the plant and of sums."""
        group, last = Group(self.lines.number, profit), -1
        for _ in range(count):
            slot, quanta = self.lines.next("value")
            self.lines.need(1 <= quanta <= 255 and slot > last)
            self.lines.need(slot < self.own_slots, 5)
            group.point[slot] = quanta
            last = slot
        return group

    def claim(self, head, nodes, tree):
        """The claim, with its plan where it has one."""
        numbers = self.lines.next("claim optimal", "claim between", "claim infeasible", "claim below")
        claim, plan = self.lines.name, Group(self.lines.number)
        said = " ".join([claim.split()[1], *map(str, numbers[: FORMS[claim].count("Z")])])
        cap = None if claim == "claim infeasible" else numbers[1 if claim == "claim between" else 0]
        if claim in ("claim optimal", "claim between"):
            plan = self.group(numbers[0], numbers[-1])
        return Log(self.version, head, nodes, said, cap, plan, tree)


class Head:
    """Reads what a log declares, up to the first `node` line: sums, then setups, then cuts and rows in any order."""

    def __init__(self, text):
        self.text, self.lines, self.derived, self.last_unit = text, text.lines, 0, -1

    def read(self):
        """The lines of the head in their order. What may follow a line are lines of its own sort and of later ones."""
        head, version = [], self.text.version
        numbers = self.lines.next(*SORTS[version], "node")
        while self.lines.name != "node":
            name, line, begins = self.lines.name, self.lines.number, self.lines.begins
            head.append(getattr(self, name)(*numbers))
            head[-1].line, head[-1].text = line, self.lines.data[begins : self.lines.at]
            numbers = self.lines.next(*LATER[name][version], "node")
        return head

    def add(self, slots, rows):
        """Kind 21: the larger program has to have room for these slots and rows besides."""
        text = self.text
        text.slots, text.rows = text.slots + slots, text.rows + rows
        self.lines.need(all(it <= most for it, most in zip((text.slots, text.rows), ROOM[text.version])), 21)

    def sum(self, width, offset, low, high, count):
        """A sum with its terms: a slot and two rows."""
        need, program = self.lines.need, self.text.program
        declared = Sum(width, offset, low, high)
        need(1 <= width <= GREATEST_WIDTH and abs(offset) <= GREATEST_OFFSET and 1 <= count <= len(program.slots))
        need(all(row is None or row < len(program.rows) for row in (low, high)), 4)
        self.add(1, 2)
        self.text.own_slots += 1
        declared.terms = self.entries("term", count, len(program.slots))
        return declared

    def entries(self, name, count, slots):
        """So many lines of entries, not 0, over so many slots, which ascend strictly."""
        entries, last = {}, -1
        for _ in range(count):
            slot, fixed, per = self.lines.next(name)
            self.lines.need(abs(fixed) <= GREATEST_ENTRY and abs(per) <= GREATEST_ENTRY and (fixed or per) and slot > last)
            self.lines.need(slot < slots, 5)
            entries[slot], last = (fixed, per), slot
        return entries

    def setup(self, unit):
        """The setup of a unit; units ascend strictly."""
        self.lines.need(unit > self.last_unit)
        self.lines.need(unit < len(self.text.program.plant.units), 24)
        setup = Setup(self.text.program, unit)
        self.add(len(setup.firsts) + len(setup.changes), setup.count_of_rows())
        self.last_unit = unit
        return setup

    def cut(self, row, slot):
        """A cut of the root."""
        return self.text.cut(row, slot)

    def row(self, divisor, rest, up, down, named, groups, entries):
        """A derived row; it names rows that stand before it."""
        need = self.lines.need
        need(all(1 <= it <= GREATEST_DIVISOR for it in (divisor, up, down)) and rest < divisor)
        need(1 <= named <= GREATEST_NAMED and groups <= GREATEST_GROUPS and entries <= self.text.slots)
        need(self.derived < GREATEST_DERIVED, 21)
        self.add(0, 1)
        self.derived += 1
        rows = self.text.rows - 1
        factors = self.factors(named, rows)
        shifts = [self.shift(rows) for _ in range(groups)]
        return DerivedRow(divisor, rest, up, down, factors, shifts, self.entries("entry", entries, self.text.slots))

    def factors(self, count, rows):
        """The rows that are named, which ascend strictly, with their factors."""
        factors, last = {}, -1
        for _ in range(count):
            row, factor = self.lines.next("by")
            self.lines.need(1 <= abs(factor) <= GREATEST_MIXED and row > last)
            self.lines.need(row < rows, 4)
            factors[row], last = factor, row
        return factors

    def shift(self, rows):
        """A group: the slots of a row, or one slot, with what is taken off: ("shift", ROW, C) or ("lift", SLOT, C)."""
        number, shift = self.lines.next("shift", "lift")
        self.lines.need(abs(shift) <= GREATEST_SHIFT)
        self.lines.need(*((number < rows, 4) if self.lines.name == "shift" else (number < self.text.slots, 5)))
        return self.lines.name, number, shift
