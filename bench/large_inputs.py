"""Plants and logs that are as large as they may be, for `time.py` and `hostile.py`."""


def tables(table, prefix, count, *keys):
    """So many tables of one kind, named by number, each with these keys."""
    return [line for n in range(count) for line in (f"[[{table}]]", f'name = "{prefix}{n}"', *keys)]


def task(number, side, later):
    """A task that takes from so many states and gives to as many others, in equal parts, and draws steam."""
    lines = ["[[task]]", f'name = "t{number}"', f"quantum = {2 * side}"]
    for i in range(side):
        lines += ["[[task.input]]", f'state = "s{(number * side + i) % 40}"', f'part = "1/{side}"']
    for i in range(side):
        state = (number * side + i + later) % 40
        lines += ["[[task.output]]", f'state = "s{state}"', f'part = "1/{side}"', "delay = 1"]
    return lines + ["[[task.draw]]", 'utility = "steam"', "fixed = [1]", "each = [1]"]


def run(number, unit):
    """The run of a task on a unit, in batches of any size."""
    return ["[[run]]", f'task = "t{number}"', f'unit = "u{unit}"', "min = 1", "max = 255", "cost = 1"]


def gap(unit, first, second, periods):
    """A cleaning gap of a unit between two tasks."""
    tasks = [f'from = "t{first}"', f'to = "t{second}"']
    return ["[[gap]]", f'unit = "u{unit}"', *tasks, f"periods = {periods}"]


def text(*parts):
    return "\n".join(line for part in parts for line in part) + "\n"


STEAM = ["[[utility]]", 'name = "steam"', "limit = 1000000", "rate = 1"]


def largest():
    """A plant of 512 slots, 40 states and 4,032 gaps, in a file of some 220 KiB."""
    states = tables("state", "s", 40, "initial = 1000000", "price = 1", "holding = 1")
    works = [line for t in range(8) for line in task(t, 5, 1) + run(t, t)]
    gaps = [gap(u, a, b, 1) * 9 for u in range(8) for a in range(8) for b in range(8) if a != b]
    return text(["version = 1", "periods = 64"], states, STEAM, tables("unit", "u", 8), works, *gaps)


def most_entries():
    """A plant of 336 periods, 40 states with limits, and 512 slots, all of them early: rows with many entries."""
    states = tables("state", "s", 40, "initial = 1000000", "limit = 1000000000", "price = 1", "holding = 1")
    tasks = [line for t in range(40) for line in task(t, 8, 11)]
    runs = [line for r in range(64) for line in run(r % 40, (r // 40 * 13 + r) % 24)]
    outages = [line for u in range(24) for line in ("[[outage]]", f'unit = "u{u}"', "from = 8", "to = 336")]
    gaps = [gap(u, a, b, 2) for u in range(24) for a in range(40) for b in range(4)]
    head = ["version = 2", "periods = 336"]
    return text(head, states, STEAM, tables("unit", "u", 24), tasks, runs, outages, *gaps)


GREATEST_BYTES = 4_194_304


def numbers(count, greatest):
    """A list of so many numbers, each 1 below this one."""
    return "[" + ", ".join([str(greatest - 1)] * count) + "]"


def long_task(number):
    """A task of 96 periods that takes from eight of 160 states, gives to eight others, and draws eight of 64 utilities in each of its periods."""
    lines = ["[[task]]", f'name = "t{number}"', "quantum = 1000000"]
    for i in range(8):
        lines += ["[[task.input]]", f'state = "s{(8 * number + i) % 160}"', 'part = "1250/10000"']
        lines += ["[[task.output]]", f'state = "s{(8 * number + i + 80) % 160}"', 'part = "1250/10000"', "delay = 96"]
        lines += ["[[task.draw]]", f'utility = "e{(8 * number + i) % 64}"', f"fixed = {numbers(96, 10**6)}", f"each = {numbers(96, 10**6)}"]
    return lines


def greatest():
    """A plant of version 3 with as much of everything as there may be, in a file that is as large as it may be: 4,096 slots, since each
    of the 256 runs fits in 16 periods, until its unit is out of use."""
    states = tables("state", "s", 160, "initial = 500000000", f"limits = {numbers(337, 10**9)}", "price = 1000000", "holding = 1000000")
    utilities = tables("utility", "e", 64, f"limits = {numbers(336, 10**9)}", f"rates = {numbers(336, 10**6)}")
    works = [line for t in range(160) for line in long_task(t)]
    runs = [line for r in range(256) for line in run(r % 160, (r + 7 * (r // 160)) % 96)]
    outages = [line for n in range(4096) for line in ("[[outage]]", f'unit = "u{n % 96}"', f"from = {111 + n // 96}", "to = 336")]
    gaps = [gap(n % 96, n // 96, n // 96 + 50, 1) for n in range(4096)]
    comes = [line for n in range(900) for line in ("[[receipt]]", f'state = "s{n % 160}"', f"time = {n % 337}", "amount = 1000000000")]
    goes = [line for n in range(900) for line in ("[[delivery]]", f'state = "s{n % 160}"', f"time = {n % 337}", "amount = 1000000000", "payment = 1000000000")]
    whole = text(["version = 3", "periods = 336"], states, utilities, tables("unit", "u", 96), works, runs, outages, *gaps, comes, goes)
    return whole + "#" * (GREATEST_BYTES - 1 - len(whole)) + "\n"


# What doing nothing earns there: of each of the 40 states there are 1,000,000 mass units, worth 1 at the end and held for 1 in each period.
WORTH_OF_NOTHING = 40 * 1_000_000 * (1 - 336)


def cuts(size):
    """A log of Tiny with this many bytes of cuts, none of which takes anything away."""
    return "stn-log 2\nnode\n" + "cut 0 0\n" * (size // 8) + "dual 1 0\nclaim optimal 60 2\nvalue 0 3\nvalue 1 3\nend\n"


def founds(size, worth, started):
    """A log of about this many bytes, most of them found groups: in its boxes doing nothing is found, which is worth the one, or in
    turn with it a quantum in slot 0, where that is worth the other."""
    group, split = f"node\nfound {worth} 0\n", "split 0 0 1 0\n"
    other = group if started is None else f"node\nfound {started} 1\nvalue 0 1\n"
    empty, first, second = other + "empty\n", group + "dual 1 0\n", group + "dual 1 0\n"
    while 3 * len(empty) < size:
        # Slot 0 is split at 0 again and again: a part of the first part is it or empty, and so is one of the second.
        empty, first, second = group + split + 2 * empty, group + split + first + empty, group + split + empty + second
    return "stn-log 2\n" + group + split + first + second + "claim below 1000000000000\nend\n"


def points(slots, free, found="", started=False):
    """A log that ends in as many points as there are ways to start one quantum or none in each of the last slots, so many of which
    are free; in the others nothing is started, or one quantum. Each point stands behind this found group."""
    left_open, body = "node\ndual 1 0\n", f"node\n{found}point\n"
    for slot in range(slots - 1, -1, -1):
        is_free = slot >= slots - free
        none = body if is_free or not started else left_open
        one = f"node\nsplit {slot} 1 1 0\n{body}{left_open}" if is_free or started else left_open
        body = f"node\nsplit {slot} 0 1 0\n{none}{one}"
    return "stn-log 2\n" + body + "claim below 1000000000000\nend\n"


def deep_plant():
    """A plant of version 3 with one unit and four slots: logs over it may be as deep as over any large plant."""
    states = tables("state", "s", 2, "initial = 1000", "limit = 1000000000", "price = 1")
    sides = ["[[task]]", 'name = "t0"', "quantum = 1", "[[task.input]]", 'state = "s0"', 'part = "1/1"']
    sides += ["[[task.output]]", 'state = "s1"', 'part = "1/1"', "delay = 1"]
    return text(["version = 3", "periods = 4"], states, tables("unit", "u", 1), sides, run(0, 0))


def deep_log(depth, first):
    """A valid log of it in which so many splits of slot 1 stand one below another, in the first parts or in the second ones."""
    split, end, empty = f"node\nsplit 1 {254 if first else 0} 1 0\n", "node\ndual 1 0\n", "node\nempty\n"
    if first:
        body = split * depth + end + empty * (depth - 1) + end
    else:
        body = split + end + (split + empty) * (depth - 1) + end
    return "stn-log 4\n" + body + f"claim below {10 ** 12}\nend\n"
