"""What a proof log says besides of its plant: of other tanks (`whatif`), and as one of several parts (`join`).

Written from docs/formats.md alone, as a part of check_log.py. A cap is a number, or NO_POINT.
"""

from copy import deepcopy

from declared import Sum
from log_judge import Judge, greatest, judge
from log_text import GREATEST_OPEN, Certificate, Defect, LogText
from plant_program import BILLION, entry_at, program_of, worth

NO_POINT = float("-inf")
PLAIN = Certificate(1)

# ---------------------------------------------------------------- other tanks


def whatif_lines(program, log, state, step, count):
    """For each I from 0 to COUNT the line of the plant whose limits of the state are raised by I times STEP."""
    for times in range(count + 1):
        other = program_of(raised(program.plant, state, times * step))
        yield f"{times} cap {cap_word(loose_cap(other, log))} {standing(other, log, state)}"


def raised(plant, state, amount):
    """The plant with each limit of a state raised, within 0 to a billion."""
    other = deepcopy(plant)
    tank = other.states[state]
    tank.limits = [min(max(limit + amount, 0), BILLION) for limit in tank.limits]
    return other


def cap_word(cap):
    return "none" if cap == NO_POINT else cap


def standing(program, log, state):
    """What `simulate` says of the claim's plan, which is feasible but for the raised limits; `-` where there is none."""
    if log.plan.profit is None:
        return "-"
    plan = {j: v for j, v in log.plan.point.items() if j < len(program.slots)}
    others = [it for it in program.plant.states[:state] if it.limits is not None]
    times = program.plant.periods + 1
    begin = len(program.plant.units) * (times - 1) + (len(program.plant.states) + len(others)) * times
    for time, row in enumerate(program.rows[begin : begin + times]):
        if sum(entry_at(entry, plan.get(j, 0)) for j, entry in row.entries.items()) > row.limit:
            return f"broken stock-high {program.plant.states[state].name} {time}"
    return f"feasible {worth(program, plan)}"


class Loose(Judge):
    """The caps that an old proof still gives over the program of another plant."""

    def declare(self):
        """A sum that is not shown there is none (Defect); a row that is not shown has no entries and the limit 0."""
        for declared in self.head:
            if not declared.declare(self.program) and isinstance(declared, Sum):
                raise Defect(0, 20)

    def certified(self, box, certificate):
        """The cap of a box by a certificate, and by that of scale 1 without multipliers where it gives none."""
        cap, total = self.cap_of(box, certificate)
        return NO_POINT if cap is None and total < 0 else cap if cap is not None else self.cap_of(box, PLAIN)[0]

    def end_cap(self, node, box):
        """The cap of a box that is not divided: its own, and where its end gives none that of scale 1 without multipliers."""
        if not all(box):
            return NO_POINT
        if node.ending == "point" and self.is_point(box):
            cap = self.point_cap(box)
            return NO_POINT if cap is None else cap
        return self.certified(box, node.certificate or PLAIN)

    def loose_cap(self, log):
        """The loose cap of the proof. The caps of nodes are found from the last on, so that those of the parts of a split are known."""
        caps = []
        for node, box, floor in reversed(list(self.walk(log.nodes))):
            if node.ending != "split":
                caps.append(self.end_cap(node, box))
                continue
            cap = max(caps.pop(), caps.pop(), NO_POINT if floor is None else floor)
            if not all(box):
                cap = NO_POINT
            elif log.version > 3:
                cap = min(cap, self.certified(box, node.certificate))
            caps.append(cap)
        return caps.pop()


def loose_cap(program, log):
    """The loose cap over a program; where a sum is not shown there, what the program's slots earn at most."""
    try:
        return Loose(program, log).loose_cap(log)
    except Defect:
        return program.base + sum(greatest(entry, values) for entry, values in zip(program.profits, program.domains))


# ---------------------------------------------------------------- parts


class BadPart(Exception):
    """The first part whose log is not valid or declares something else: P LINE KIND."""


def part_root(levels, part):
    """What the first LEVELS slots have in a part: 0 where its digit is 0, and a batch where it is 1."""
    return {j: range(1, 256) if part >> (levels - 1 - j) & 1 else (0,) for j in range(levels)}


def read_parts(program, levels, data_of, ahead):
    """The logs of all parts, each judged over its part, or BadPart. `data_of` has the bytes of the log of a part."""
    logs = []
    for part in range(2**levels):
        try:
            log = LogText(data_of(part), program, ahead, GREATEST_OPEN - levels).read()
            judge(log, program, part=part_root(levels, part))
            if line := other_line(log.head, (logs or [log])[0].head):
                raise Defect(line, 22)
        except Defect as defect:
            raise BadPart(f"{part} {defect}") from None
        logs.append(log)
    return logs


def other_line(head, first):
    """The line on which a head first differs from another, 1 where the one is a first part of the other, 0 where they agree."""
    differ = [own.line for own, other in zip(head, first) if own.text != other.text]
    return differ[0] if differ else int(len(head) != len(first))


def claim_of(logs, cap):
    """What the best plan that logs claim and a cap claim, and the lines that say it and end a log."""
    plans = [log.plan for log in logs if log.plan.profit is not None]
    best = max(plans, key=lambda it: it.profit, default=None)
    if best is None:
        claim = "infeasible" if cap is None else f"below {cap}"
    else:
        claim = f"optimal {best.profit}" if cap is None or cap <= best.profit else f"between {best.profit} {cap}"
    values = sorted(best.point.items()) if best else []
    return claim, [f"claim {claim}" + f" {len(values)}" * bool(best), *(f"value {j} {v}" for j, v in values), "end", ""]


def head_text(logs):
    """The head that logs have, in the version of a log that is made of them."""
    first, newest = logs[0], max(log.version for log in logs)
    version = max(2, newest) if newest > 3 else 3 if first.head else 2
    return f"stn-log {version}\n".encode() + b"".join(it.text for it in first.head)


def joined(program, logs):
    """The claim and the text of the log that has the trees of all parts in their places."""
    caps = [log.cap for log in logs if log.cap is not None]
    claim, ends = claim_of(logs, max(caps, default=None))
    return claim, head_text(logs) + tree_of(logs) + "\n".join(ends).encode()


def tree_of(logs, level=0):
    """The trees of the logs, whose number is a power of two, under splits at the slots from this level on."""
    if len(logs) == 1:
        return logs[0].tree
    half = len(logs) // 2
    return f"node\nsplit {level} 0 1 0\n".encode() + tree_of(logs[:half], level + 1) + tree_of(logs[half:], level + 1)
