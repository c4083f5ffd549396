"""What a proof log means: the first defect of its head, of its nodes and of its claim, over the program of a plant.

Written from docs/model.md and docs/formats.md alone, as a part of check_log.py.
"""

from declared import ends
from log_text import Defect
from plant_program import entry_at, worth


class Judge:
    """Judges the head, the nodes and the claim of a log over the program of a plant.

    `root` says for some slots which values are kept, and `part` which of the root's values a part of the plant has."""

    def __init__(self, program, log, root=None, part=None):
        self.program, self.head = program.copy(), log.head
        if log.version > 3:
            self.keep(root)
        self.declare()
        self.keep(root)
        self.keep(part)
        # Groups of values and `point` speak of the slots and the rows of the plant and of sums alone.
        sums = sum(it.KIND == 20 for it in log.head)
        self.slots, self.rows = len(program.domains) + sums, len(program.rows) + 2 * sums
        self.by_slot = self.program.by_slot()

    def keep(self, values):
        """Leaves in the root the values that are kept of some slots."""
        for slot, kept in (values or {}).items():
            self.program.domains[slot] = tuple(v for v in self.program.domains[slot] if v in kept)

    def declare(self):
        """Defects 20 and 23: each sum and each row of the head has to be shown over what stands before it."""
        for declared in self.head:
            if not declared.declare(self.program):
                raise Defect(declared.line, declared.KIND)

    def keeps_rows(self, point):
        """Whether a point keeps every row of the plant and of sums."""
        counted = [0] * self.rows
        for slot, value in point.items():
            for row, entry in self.by_slot[slot]:
                if row < self.rows:
                    counted[row] += entry_at(entry, value)
        return all(it <= row.limit for it, row in zip(counted, self.program.rows))

    def terms(self, certificate):
        """What a certificate counts of each slot: scale times the profit entry less factor times the row entries."""
        terms = [[certificate.scale * it for it in entry] for entry in self.program.profits]
        for row, factor in certificate.factors:
            for slot, (fixed, per) in self.program.rows[row].entries.items():
                terms[slot][0] -= factor * fixed
                terms[slot][1] -= factor * per
        return terms

    def total(self, box, certificate, terms):
        """The total of a certificate with these terms over a box in which each slot has a value."""
        total = certificate.scale * self.program.base
        total += sum(factor * self.program.rows[row].limit for row, factor in certificate.factors)
        return total + sum(greatest(term, values) for term, values in zip(terms, box))

    def cap_of(self, box, certificate):
        """The cap that a certificate gives of a box, where its scale is not 0, and the total."""
        total = self.total(box, certificate, self.terms(certificate))
        return total // certificate.scale if certificate.scale else None, total

    def trim(self, box, node):
        """All at once each slot loses the values with which the certificate says that no point earns more than the floor."""
        certificate, terms = node.certificate, self.terms(node.certificate)
        total, least = self.total(box, certificate, terms), (node.floor + 1) * certificate.scale
        for slot, (term, values) in enumerate(zip(terms, box)):
            most = greatest(term, values)
            box[slot] = tuple(v for v in values if total - most + entry_at(term, v) >= least)

    def look_at(self, group):
        """Defects 13 and 14: a plan has to be feasible and to earn what is said."""
        domains = self.program.domains
        if any(value not in domains[slot] for slot, value in group.point.items()) or not self.keeps_rows(group.point):
            raise Defect(group.line, 13)
        if worth(self.program, group.point) != group.profit:
            raise Defect(group.line, 14)

    def point_cap(self, box):
        """What the plan of a box of one point earns, None where it does not keep the rows."""
        point = {slot: values[0] for slot, values in enumerate(box[: self.slots]) if values[0]}
        return worth(self.program, point) if self.keeps_rows(point) else None

    def is_point(self, box):
        """Whether a box has just one value for each slot of the plant and of sums."""
        return all(len(values) == 1 for values in box[: self.slots])

    def end_cap(self, node, box):
        """The cap of a box that is not divided, None where no point of it keeps the rows."""
        if node.ending == "empty":
            return self.need(node, 10, not all(box))
        if node.ending == "point":
            self.need(node, 18, self.is_point(box))
            return self.point_cap(box)
        self.need(node, 11, all(box))
        cap, total = self.cap_of(box, node.certificate)
        return cap if node.certificate.scale else self.need(node, 12, total < 0)

    def need(self, node, kind, holds):
        """A defect of a node's ending, where something does not hold."""
        if not holds:
            raise Defect(node.line, kind)

    def walk(self, nodes):
        """Each node with its box after its cuts, and what its floor counts: None where it has none, or the box is empty."""
        boxes = [list(self.program.domains)]
        for node in nodes:
            box = boxes.pop()
            for cut in node.cuts:
                cut.take(self.program, box)
            floor = node.floor if all(box) else None
            yield node, [*box], floor
            if node.ending == "split":
                if floor is not None:
                    self.trim(box, node)
                boxes += parts(box, *node.split)

    def tree_cap(self, nodes):
        """The greatest of the floors and of the caps of the boxes that are not divided, None where no point keeps the rows."""
        caps = []
        for node, box, floor in self.walk(nodes):
            if node.found:
                self.look_at(node.found)
            caps.append(floor if node.ending == "split" else self.end_cap(node, box))
        return max((cap for cap in caps if cap is not None), default=None)

    def claim(self, log, cap):
        """Defects 13 to 16 at the claim."""
        if log.plan.profit is not None:
            self.look_at(log.plan)
        if cap is not None and log.cap is None:
            raise Defect(log.plan.line, 16)
        if cap is not None and cap > log.cap:
            raise Defect(log.plan.line, 15)


def greatest(entry, values):
    """The greatest that an entry counts over values."""
    return max(entry_at(entry, v) for v in ends(values))


def parts(box, slot, most):
    """The second and the first part of a box: the values of a slot above a value, and those up to it."""
    first, second = list(box), box
    first[slot] = tuple(v for v in box[slot] if v <= most)
    second[slot] = tuple(v for v in box[slot] if v > most)
    return [second, first]


def judge(log, program, root=None, part=None):
    """Judges a log, or Defect; returns who judged it, with its program."""
    made = Judge(program, log, root, part)
    made.claim(log, made.tree_cap(log.nodes))
    return made
