"""Logs made at random over the program of a plant, as a part of compare_checkers.py: of version 2, of version 3 with sums in
their head, and of version 4 with sums, setups of units, cuts and derived rows."""

from declared import Cut, DerivedRow, Setup, Sum, holds_one
from log_judge import Judge
from log_text import NEWEST, Defect, LogText
from plant_program import entry_at


def random_log(dice, program):
    """A log of a small tree over a program, whose claim `below` is the cap that the second checker finds, or one less."""
    version = dice.choice((2, *[3, 4][: NEWEST - 2])) if program.slots else 2
    larger, lines = program.copy(), [f"stn-log {version}"]
    if version > 2:
        lines += [line for it in range(dice.choice((0, 1, 2))) for line in random_sum(dice, program, larger)]
    if version > 3:
        lines += random_setups(dice, program, larger)
        lines += [line for it in range(dice.choice((1, 1, 2, 4))) for line in random_derivation(dice, larger)]
    slots, rows = len(larger.domains), len(larger.rows)
    lines += random_tree(dice, slots, rows, dice.randint(0, 4)) if slots else ["node", "dual 1 0"]
    cap = mended(lines, program) if dice.random() < 0.9 else 0
    claim = "infeasible" if cap is None else f"below {cap - dice.randrange(2)}"
    return "\n".join([*lines, f"claim {claim}", "end", ""]).encode()


def logs_of_one_head(dice, program, count, plan=None):
    """Logs of small trees over a program, so many, with the same head; what each claims is its tree's cap, or seldom a number beside it,
    and some name the plan, a profit and lines of its values, where no sums are declared."""
    version = dice.choice((2, 2, *[3, 4][: NEWEST - 2]))
    larger, head = program.copy(), [f"stn-log {version}"]
    if version > 2:
        head += [line for it in range(dice.choice((0, 1, 2))) for line in random_sum(dice, program, larger)]
    if version > 3:
        head += [line for it in range(dice.choice((0, 1, 2))) for line in random_derivation(dice, larger)]
    for tree in random_trees(dice, len(larger.domains), len(larger.rows), dice.randint(0, 3), count):
        lines = head + tree
        cap = mended(lines, program)
        claim = "infeasible" if cap is None else f"below {cap + dice.choice((0,) * 12 + (3, -1))}"
        if plan and cap is not None and not head[1:2] and dice.random() < 0.4:
            profit, values = plan
            claim = "\n".join([f"{f'optimal {profit}' if cap <= profit else f'between {profit} {cap}'} {len(values)}", *values])
        yield "\n".join([*lines, f"claim {claim}", "end", ""]).encode()


def mended(lines, program):
    """The cap of a log's tree, after ends that do not stand were changed to ends that do; 0 where its head has a defect."""
    for _ in range(len(lines)):
        try:
            return cap_of("\n".join([*lines, "claim infeasible", "end", ""]).encode(), program)
        except Defect as defect:
            line, kind = map(int, str(defect).split())
            if kind in (20, 23):
                return 0
            while lines[line : line + 1] and lines[line].startswith("mult"):
                lines.pop(line)
            lines[line - 1] = "empty" if kind == 11 else "dual 1 0"


def cap_of(text, program):
    """The cap of a log's tree."""
    log = LogText(text, program).read()
    return Judge(program, log).tree_cap(log.nodes)


# ---------------------------------------------------------------- heads


def random_sum(dice, program, larger):
    """A sum of some slots, or of what a row counts or its opposite, shown by that row or by the batch sizes."""
    number = dice.randrange(len(program.rows))
    row, times = program.rows[number], dice.choice((1, 1, 1, 2))
    sign = dice.choice((-1, 1))
    terms = {j: (sign * fixed, sign * per) for j, (fixed, per) in row.entries.items()}
    if not terms or dice.random() < 0.4:
        some = [j for j in range(len(program.slots)) if dice.random() < 0.7] or [0]
        terms = {j: dice.choice(((1, 0), (0, 1), (1, 2))) for j in some}
    sides = [None, None] if dice.random() < 0.5 else [number, None] if sign < 0 else [None, number]
    made = Sum(times, dice.randint(-3, 30), *sides, terms)
    if not made.declare(larger):
        if dice.random() < 0.8:
            return []
        larger.add_slot((0,), (0, 0))  # the log has a defect there; the numbers of slots and rows go on
        larger.rows += larger.rows[:2]
    names = ["-" if it is None else str(it) for it in sides]
    return [f"sum {made.width} {made.offset} {' '.join(names)} {len(terms)}", *entry_lines("term", terms)]


def entry_lines(name, entries):
    """Lines of entries, by slot."""
    return [f"{name} {j} {fixed} {per}" for j, (fixed, per) in sorted(entries.items())]


def random_setups(dice, program, larger):
    """The setups of some units."""
    units = [it for it in range(len(program.plant.units)) if dice.random() < 0.3]
    for unit in units:
        Setup(program, unit).declare(larger)
    return [f"setup {unit}" for unit in units]


def random_derivation(dice, larger):
    """A cut of the root, or a derived row, mostly with entries that are shown, and some with one that is not."""
    if dice.random() < 0.2:
        cut = Cut(dice.randrange(len(larger.rows)), dice.randrange(len(larger.domains)))
        cut.declare(larger)
        return [f"cut {cut.row} {cut.slot}"]
    row = random_row(dice, larger)
    row.entries = fitted(larger, row)
    if row.entries and dice.random() < 0.15:
        j = dice.choice(sorted(row.entries))
        row.entries[j] = (row.entries[j][0] + 1, row.entries[j][1])
    row.entries = {j: it for j, it in row.entries.items() if it != (0, 0)}
    row.declare(larger)
    by = [f"by {number} {factor}" for number, factor in row.factors.items()]
    groups = [f"{name} {number} {shift}" for name, number, shift in row.shifts]
    counts = f"{row.up} {row.down} {len(by)} {len(groups)} {len(row.entries)}"
    return [f"row {row.divisor} {row.rest} {counts}", *by, *groups, *entry_lines("entry", row.entries)]


def random_row(dice, larger):
    """A derived row without entries: of few rows with small factors, with few groups."""
    divisor = dice.choice((1, 2, 3, 4, 5, 6, 8, 12, 100))
    up, down = dice.choice(((1, 1), (1, 1), (1, 2), (3, 1), (2, 3)))
    count = min(len(larger.rows), dice.choice((1, 1, 2, 3)))
    factors = {k: dice.choice((-2, -1, 1, 1, 2, 3)) for k in sorted(dice.sample(range(len(larger.rows)), count))}
    shifts = [random_group(dice, larger) for _ in range(dice.choice((0, 0, 1, 2)))]
    return DerivedRow(divisor, dice.randrange(divisor), up, down, factors, shifts, {})


def random_group(dice, larger):
    """The slots of a row of which one is not 0 at most, or seldom those of another, or one slot; and a small shift."""
    shift = dice.choice((-3, -1, 0, 1, 2, 4, 6))
    choices = [k for k, row in enumerate(larger.rows) if holds_one(row)]
    if choices and dice.random() < 0.6:
        return "shift", dice.choice(choices) if dice.random() < 0.95 else dice.randrange(len(larger.rows)), shift
    return "lift", dice.randrange(len(larger.domains)), shift


def fitted(larger, row):
    """For each slot that counts an entry through the last two values of UP by DOWN times T, or below it."""
    entries = {}
    for j, (_, shift, g, slack) in row.mixed(larger).items():
        values = [v for v in larger.domains[j] if v]
        at = [(v, row.up * (row.phi(entry_at(g, v) - shift) - row.phi(-shift) - entry_at(slack, v)) // row.down) for v in values]
        per = at[-1][1] - at[-2][1] if len(at) > 1 else 0
        entries[j] = (min((count - per * v for v, count in at), default=0), per)
    return entries


# ---------------------------------------------------------------- trees

def random_node(dice, slots, rows):
    """The lines of a node up to its end, the certificate of its end, and the rows of that."""
    rows = max(rows, 1)
    lines = ["node"] + [f"cut {dice.randrange(rows)} {dice.randrange(slots)}" for _ in range(dice.choice((0, 0, 1, 3)))]
    factors = sorted(dice.sample(range(rows), min(rows, dice.choice((0, 1, 2, 5)))))
    return lines, [f"mult {row} {dice.randint(1, 6)}" for row in factors], factors


def random_split(dice, slots, factors):
    return f"split {dice.randrange(slots)} {dice.choice((0, 0, 1, 2))} {dice.choice((0, 1, 3))} {len(factors)}"


def random_tree(dice, slots, rows, depth):
    """Nodes with cuts, certificates of few rows, and splits."""
    lines, certificate, factors = random_node(dice, slots, rows)
    if depth and dice.random() < 0.8:
        split = random_split(dice, slots, factors)
        parts = random_tree(dice, slots, rows, depth - 1) + random_tree(dice, slots, rows, depth - 1)
        return lines + [split, *certificate, *parts]
    return lines + random_end(dice, certificate, factors)


def random_trees(dice, slots, rows, depth, count):
    """So many trees, of which most split in the same way where they do."""
    lines, certificate, factors = random_node(dice, slots, rows)
    split, firsts, seconds = random_split(dice, slots, factors), None, None
    if depth:
        firsts, seconds = (random_trees(dice, slots, rows, depth - 1, count) for _ in range(2))
    trees = []
    for at in range(count):
        if depth and dice.random() < 0.65:
            trees.append(lines + [split, *certificate, *firsts[at], *seconds[at]])
        elif depth and dice.random() < 0.2:
            trees.append(random_tree(dice, slots, rows, depth - 1))
        else:
            trees.append(lines + random_end(dice, certificate, factors))
    return trees


def random_end(dice, certificate, factors):
    """The ending of a box: a certificate mostly."""
    if dice.random() < 0.15:
        return [dice.choice(("empty", "point"))]
    return [f"{dice.choice(('dual', 'pending'))} {dice.choice((0, 1, 1, 1, 2, 7))} {len(factors)}", *certificate]


