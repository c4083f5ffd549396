"""What a log may declare beside the plant, in its head: sums, setups, cuts and derived rows.

They add slots and rows to the program of the plant, or take values from its slots, and change neither its plans nor what
they earn. Written from docs/model.md and docs/formats.md alone, as a part of check_log.py. Each has the `line` on which it
begins and its `text`, and says with `declare` whether it stands over the program so far; KIND is the defect where not.
"""

from dataclasses import dataclass, field

from plant_program import Row, entry_at, first_cost, greatest_gap

GREATEST_LIMIT = 10**12  # of a derived row


def ends(values):
    """The values at which an entry is least or greatest: it is linear from 1 on, so 0 and the ends of the others."""
    return (values[0], values[min(1, len(values) - 1)], values[-1])


@dataclass
class Sum:
    """A declared sum: the whole quotient of OFFSET plus what its terms count by WIDTH."""

    KIND = 20
    width: int
    offset: int
    low: int | None  # the row that shows it from below, None where the batch sizes do
    high: int | None
    terms: dict = field(default_factory=dict)

    def declare(self, program):
        """Adds the slot of the sum, and the two rows by which it has just its value; says whether its values are shown."""
        values, own = self.values(program), len(program.domains)
        if values is None:
            return False
        program.add_slot(values, (0, 0))
        program.rows.append(Row({**self.terms, own: (0, -self.width)}, self.width - 1 - self.offset))
        program.rows.append(Row({**opposites(self.terms), own: (0, self.width)}, self.offset))
        return True

    def values(self, program):
        """The values from 0 to the greatest that the sum is shown to have, or None where it is not shown to lie in 0 to 255."""
        counted = [[entry_at(entry, v) for v in program.domains[slot]] for slot, entry in self.terms.items()]
        least, greatest = sum(map(min, counted)), sum(map(max, counted))
        if self.low is not None:
            bound = shown_by(program.rows[self.low], opposites(self.terms))
            least = None if bound is None else -bound
        if self.high is not None:
            greatest = shown_by(program.rows[self.high], self.terms)
        if least is None or greatest is None:
            return None
        low, high = ((self.offset + it) // self.width for it in (least, greatest))
        return tuple(range(high + 1)) if 0 <= low and 0 <= high <= 255 else None


def opposites(terms):
    """The terms with the other sign."""
    return {slot: (-fixed, -per) for slot, (fixed, per) in terms.items()}


def shown_by(row, terms):
    """What the terms count at most by a row whose entries are they, each times one whole number from 1 on, or None."""
    if row.entries.keys() != terms.keys():
        return None
    pairs = [pair for slot, entry in terms.items() for pair in zip(row.entries[slot], entry)]
    times = next(own // term if term else 0 for own, term in pairs if own or term)
    if times < 1 or any(own != times * term for own, term in pairs):
        return None
    return row.limit // times


class Setup:
    """The setup of a unit: slots of 0 and 1 for the task that comes first on it and for each change, which is charged."""

    KIND = 0

    def __init__(self, program, unit):
        plant, own = program.plant, [(j, slot) for j, slot in enumerate(program.slots) if slot.unit == unit]
        self.periods = plant.periods
        self.firsts = sorted({slot.task for _, slot in own})  # the tasks that have slots on the unit
        self.starts = {(slot.task, slot.period): j for j, slot in own}
        self.runs = {(k, t): [j for j, slot in own if slot.task == k and slot.period <= t < slot.end]
                     for k in self.firsts for t in range(plant.periods)}
        ready = {i: min(slot.end for _, slot in own if slot.task == i) for i in self.firsts}
        gaps = {(i, k): greatest_gap(plant, unit, i, k) for i in self.firsts for k in self.firsts if i != k}
        self.costs = {pair: cost for pair, (_, cost) in gaps.items()}
        self.openings = [first_cost(plant, unit, k) for k in self.firsts]  # from the batch that held the unit last
        self.changes = [(i, k, t) for i, k in gaps for t in range(plant.periods)
                        if (k, t) in self.starts and ready[i] + gaps[i, k][0] <= t]

    def count_of_rows(self):
        """How many rows the setup adds."""
        return 1 + len(self.runs) + len({(k, t) for _, k, t in self.changes})

    def declare(self, program):
        """Adds the slots of the first tasks and of the changes, and the rows."""
        begin = len(program.domains)
        first = {k: begin + n for n, k in enumerate(self.firsts)}
        change = {it: begin + len(first) + n for n, it in enumerate(self.changes)}
        for profit in [-cost for cost in self.openings] + [-self.costs[i, k] for i, k, _ in self.changes]:
            program.add_slot((0, 1), (profit, 0))
        program.rows.append(Row({j: (1, 0) for j in first.values()}, 1))
        for k, t in self.runs:
            program.rows.append(Row(self.running(first, change, k, t), 0))
        for k, t in sorted({(k, t) for _, k, t in self.changes}):
            into = {j: (1, 0) for (_, to, at), j in change.items() if (to, at) == (k, t)}
            program.rows.append(Row({**into, self.starts[k, t]: (-1, 0)}, 0))
        return True

    def running(self, first, change, k, t):
        """What runs of a task in a period, less the changes to it so far, also as the first one, more those from it."""
        entries = {j: (1, 0) for j in self.runs[k, t]} | {first[k]: (-1, 0)}
        entries |= {j: (-1, 0) for (_, to, at), j in change.items() if to == k and at <= t}
        return entries | {j: (1, 0) for (of, _, at), j in change.items() if of == k and at <= t}


@dataclass
class Cut:
    """What a row takes from a slot."""

    KIND = 0

    row: int
    slot: int

    def take(self, program, box):
        """Takes from the slot the values for which the row has no room, whatever the others have."""
        row = program.rows[self.row]
        others = [(entry, box[j]) for j, entry in row.entries.items() if j != self.slot]
        if all(values for _, values in others):
            room = row.limit - sum(min(entry_at(entry, v) for v in ends(values)) for entry, values in others)
            own = row.entries.get(self.slot, (0, 0))
            box[self.slot] = tuple(v for v in box[self.slot] if entry_at(own, v) <= room)

    def declare(self, program):
        """Takes the values from the root."""
        self.take(program, program.domains)
        return True


@dataclass
class DerivedRow:
    """A row derived from others by mixed-integer rounding, with entries that are at most what the rule counts."""

    KIND = 23
    divisor: int
    rest: int
    up: int
    down: int
    factors: dict  # of the rows that are named
    shifts: list  # ("shift", ROW, C) or ("lift", SLOT, C) for each group
    entries: dict

    def phi(self, number):
        """The function of the rounding: superadditive, never falling, 0 at 0."""
        whole, part = divmod(number, self.divisor)
        return whole * (self.divisor - self.rest) + max(0, part - self.rest)

    def declare(self, program):
        """Adds the row where it is shown, and else one without entries; says which."""
        limit = self.limit(program)
        is_shown = (abs(limit) <= GREATEST_LIMIT and all(map(holds_one, self.shifted(program)))
                    and all(self.holds_at(program.domains[j], *it) for j, it in self.mixed(program).items()))
        program.rows.append(Row(self.entries, limit) if is_shown else Row({}, 0))
        return is_shown

    def shifted(self, program):
        """The rows whose slots are groups."""
        return [program.rows[number] for name, number, _ in self.shifts if name == "shift"]

    def limit(self, program):
        """The limit: L times UP by DOWN, rounded down."""
        whole = sum(factor * program.rows[row].limit for row, factor in self.factors.items())
        of_groups = sum(self.phi(-shift) for *_, shift in self.shifts)
        of_slacks = sum(phi * row.limit for row, phi in self.slacks(program))
        shift = sum(shift for *_, shift in self.shifts)
        return self.up * (self.phi(whole - shift) - of_groups - of_slacks) // self.down

    def slacks(self, program):
        """The rows with a negative factor, whose slack counts, with phi of it."""
        return [(program.rows[row], self.phi(factor)) for row, factor in self.factors.items() if factor < 0]

    def mixed(self, program):
        """For each slot that counts, or has an entry: this entry, its shift, and as entries what the rows mixed and the slacks count.

        The others, also those of a group, have T = 0 at every value, so they are not looked at."""
        pairs = [(program.rows[row], factor) for row, factor in self.factors.items()]
        g, slack = mixture(pairs), mixture(self.slacks(program))
        shift = self.shift_of(program)
        return {j: (self.entries.get(j, (0, 0)), shift.get(j, 0), g.get(j, (0, 0)), slack.get(j, (0, 0)))
                for j in g.keys() | self.entries.keys()}

    def shift_of(self, program):
        """The shift of each slot that has one: that of the first group that holds it."""
        shift_of = {}
        for name, number, shift in self.shifts:
            for j in program.rows[number].entries if name == "shift" else [number]:
                shift_of.setdefault(j, shift)
        return shift_of

    def holds_at(self, values, entry, shift, g, slack):
        """Whether the entry of a slot, times DOWN, is at most UP times T at each of the values from 1 on."""
        return all(self.down * entry_at(entry, v)
                   <= self.up * (self.phi(entry_at(g, v) - shift) - self.phi(-shift) - entry_at(slack, v))
                   for v in self.corners([v for v in values if v], g[0] - shift, g[1]))

    def corners(self, values, fixed, per):
        """The values, of a range, at which phi of fixed + per * v may bend, and their neighbours: between, it is linear."""
        v, last = (values[0], values[-1]) if values else (1, 0)
        while v <= last:
            yield v
            part = (fixed + per * v) % self.divisor
            if per >= 0:
                room = (self.rest if part < self.rest else self.divisor) - part
            else:
                room = part - (self.rest if part > self.rest else 0) or self.divisor - self.rest
            end = min(v + room // abs(per), last) if per else last
            if end > v:
                yield end
            v = end + 1


def holds_one(row):
    """Whether at most one slot of a row has a value other than 0 where the row is kept."""
    return row.limit == 1 and all(entry == (1, 0) for entry in row.entries.values())


def mixture(pairs):
    """What rows count together, each times its factor: an entry for each slot that one of them has."""
    mixed = {}
    for row, factor in pairs:
        for j, (fixed, per) in row.entries.items():
            at, each = mixed.get(j, (0, 0))
            mixed[j] = (at + factor * fixed, each + factor * per)
    return mixed
