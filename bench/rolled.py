#!/usr/bin/env python3
"""The plant from a period on, read from docs/formats.md and worked out plainly; and a comparison with the program.

    python3 bench/rolled.py PLANT PLAN PERIOD [plan]    # prints the answer of `roll` with these words, and ends with its status
    python3 bench/rolled.py PROGRAM --random N          # compares the program with it on N made plans of the example plants

PLANT and PLAN have to be without a fault. Besides, the texts are rolled on: what is rolled twice is what is rolled once, and by
`simulate` what is feasible on the rolled plant is so on the plant behind the starts before it, and earns C more there; behind starts
that break something nothing is.
"""
import os, random, subprocess, sys, tempfile
from datetime import datetime, timedelta
from fractions import Fraction

from violations import Plant, amounts_lines, made_plan, read_plan, units_lines

TOP = os.path.dirname(os.path.dirname(os.path.abspath(__file__)))
BILLION, MOST_RECEIPTS, EARLIEST = 10**9, 900, -336

# What a printed item has besides the keys of the file: the defaults of numbers, and keys of version 3.
DEFAULTS = {"state": {"initial": 0, "price": 0, "holding": 0}, "utility": {"rate": 0}, "run": {"cost": 0}, "gap": {"cost": 0}, "delivery": {"payment": 0}}


def first_broken(plant, kept, period):
    """The line of what the kept starts break first that no later start mends, or nothing."""
    lines = list(units_lines(plant, kept))
    lines += [it for it in amounts_lines(plant, kept) if it.startswith("load ") or int(it.split()[2]) < period]
    if not lines:
        return None
    kind, *words = lines[0].split()
    return " ".join(["broken", kind, *words[: 1 if kind == "unfit" else 2]])


# ---------------------------------------------------------------- what the kept starts leave


def standing(plant, kept, state, period):
    """The stock before the starts of a period."""
    return plant.stock(kept, state, period - 1) if period else state.get("initial", 0)


def coming(plant, kept, state, period, at):
    """What comes into a state at a time from the period on, in mass units."""
    amount = sum(it["amount"] for it in plant.several("receipt") if (it["state"], it["time"]) == (state["name"], at))
    for begin, _, task, quanta in kept:
        amount += sum(quanta * each for name, each, delay in plant.share(task, "output") if (name, begin + delay) == (state["name"], at))
    return amount + (max(0, standing(plant, kept, state, period) - BILLION) if at == period else 0)


def receipts(plant, kept, period):
    """The receipts of the rolled plant by time and state; at most one more than it may have, which suffices to refuse them."""
    found = []
    for at in range(period, plant.periods + 1):
        for state in plant.several("state"):
            amount = coming(plant, kept, state, period, at)
            while amount and len(found) <= MOST_RECEIPTS:
                found.append({"state": state["name"], "time": at - period, "amount": min(amount, BILLION)})
                amount -= found[-1]["amount"]
    return found


def last_of(plant, kept, unit):
    """The task of the batch that holds a unit last, and when it ends, or nothing."""
    own = [it for it in kept if it[1] == unit["name"]]
    if own:
        latest = max(own, key=lambda it: it[0])
        return latest[2], plant.end(latest)
    return (unit["last"], unit.get("until", 0)) if "last" in unit else None


def left_of(things, period):
    """The items without what lists of numbers say of periods before."""
    return [{key: value[period:] if key in ("limits", "rates") else value for key, value in it.items()} for it in things]


def later_start(plant, period):
    """When the rolled plant's calendar begins, or nothing where that is past the year 9999."""
    try:
        return plant.held["start"] + timedelta(minutes=plant.held["minutes"] * period)
    except OverflowError:
        return None


def rolled_plant(plant, kept, period):
    """The document of the rolled plant, or nothing where no file can say it: too many receipts, or too late a date."""
    made = dict(plant.held, version=3, periods=plant.periods - period, receipt=receipts(plant, kept, period))
    if len(made["receipt"]) > MOST_RECEIPTS:
        return None
    if "start" in made:
        made["start"] = later_start(plant, period)
        if made["start"] is None:
            return None
    made["state"] = left_of(plant.several("state"), period)
    for state, old in zip(made["state"], plant.several("state")):
        state["initial"] = min(standing(plant, kept, old, period), BILLION)
    made["utility"] = left_of(plant.several("utility"), period)
    for utility, old in zip(made["utility"], plant.several("utility")):
        utility["limits"] = [plant.limit(old, at) - plant.load(kept, old, at) for at in range(period, plant.periods)]
    made["unit"] = [rolled_unit(unit, last_of(plant, kept, unit), period) for unit in plant.several("unit")]
    made["delivery"] = [dict(it, time=it["time"] - period) for it in plant.several("delivery") if it["time"] >= period]
    out = [it for it in plant.several("outage") if it["to"] > period]
    made["outage"] = [dict(it, **{"from": max(0, it["from"] - period), "to": it["to"] - period}) for it in out]
    return made


def rolled_unit(unit, last, period):
    named = {key: unit[key] for key in ("name", "label") if key in unit}
    return {**named, **({"last": last[0], "until": max(EARLIEST, last[1] - period)} if last else {})}


# ---------------------------------------------------------------- what was earned before


def cost_of(plant, unit, before, after):
    return max([it.get("cost", 0) for it in plant.several("gap") if (it["unit"], it["from"], it["to"]) == (unit, before, after)], default=0)


def changeovers(plant, kept):
    """What the changeovers between the kept starts cost, those from what held the units before the plan among them."""
    total = 0
    for unit in plant.several("unit"):
        before = unit.get("last")
        for _, _, task, _ in sorted(it for it in kept if it[1] == unit["name"]):
            total += cost_of(plant, unit["name"], before, task) if before else 0
            before = task
    return total


def earned(plant, kept, period):
    """C: the payments before the period, less holding before it, all that the kept starts draw and cost, and their changeovers."""
    total = sum(it.get("payment", 0) for it in plant.several("delivery") if it["time"] < period)
    total -= sum(it.get("holding", 0) * plant.stock(kept, it, at) for it in plant.several("state") for at in range(period))
    for it in plant.several("utility"):
        rates = it.get("rates", [it.get("rate", 0)] * plant.periods)
        total -= sum(rates[at] * plant.load(kept, it, at) for at in range(plant.periods))
    return total - sum(plant.runs[task, unit].get("cost", 0) for _, unit, task, _ in kept) - changeovers(plant, kept)


# ---------------------------------------------------------------- a plant that is printed


def shown(value):
    if isinstance(value, str):
        return shown_text(value)
    if isinstance(value, datetime):
        return value.isoformat()
    return f"[{', '.join(map(str, value))}]" if isinstance(value, list) else str(value)


def shown_text(text):
    """A text of one line in the first kind of quotes in which nothing has to be escaped, and else escaped."""
    if not set(text) & {'"', "\\"}:
        return f'"{text}"'
    if "'" not in text:
        return f"'{text}'"
    if "\\" not in text and '"""' not in text:
        return f'"""{text}"""'
    if "'''" not in text:
        return f"'''{text}'''"
    return '"' + text.replace("\\", "\\\\").replace('"', '\\"') + '"'


def lowest(item):
    """The item with its part in lowest terms."""
    if "part" not in item:
        return item
    over, under = Fraction(item["part"]).as_integer_ratio()
    return dict(item, part=f"{over}/{under}")


def printed_item(name, item):
    """The item with its defaults, one limit where all are the same, and without an `until` of 0."""
    item = {**DEFAULTS.get(name, {}), **lowest(item)}
    if "rates" in item:
        del item["rate"]
    if "limits" in item and len(set(item["limits"])) == 1:
        item["limit"] = item.pop("limits")[0]
    elif "limits" in item:
        item.pop("limit", None)
    if not item.get("until"):
        item.pop("until", None)
    return item


def is_tables(value):
    return isinstance(value, list) and bool(value) and isinstance(value[0], dict)


def lines_of(table, path=""):
    """The lines of a table: its own keys, then its arrays of tables, both by name."""
    for key in sorted(table):
        if not isinstance(table[key], list) or table[key] and not is_tables(table[key]):
            yield f"{key} = {shown(table[key])}"
    for key in sorted(table):
        for item in table[key] if is_tables(table[key]) else ():
            yield from ("", f"[[{path}{key}]]")
            yield from lines_of(printed_item(key, item), path + key + ".")


# ---------------------------------------------------------------- answers


def answer(text, plan, period, rest=False):
    """The status and the text that `roll` answers for the text of a plant, a list of starts and a period."""
    plant = Plant(text)
    if period >= plant.periods:
        return 5, "refused period\n"
    kept = [it for it in plan if it[0] < period]
    broken = first_broken(plant, kept, period)
    if broken:
        return 1, broken + "\n"
    made = rolled_plant(plant, kept, period)
    if made is None:
        return 5, "refused roll\n"
    if rest:
        return 0, text_of([(it[0] - period, *it[1:]) for it in plan if it[0] >= period])
    return 0, "".join(f"{it}\n" for it in [f"# rolled {earned(plant, kept, period)}", *lines_of(made)])


def text_of(plan):
    """The lines of a plan file."""
    return "".join(f"{' '.join(map(str, it))}\n" for it in plan)


# ---------------------------------------------------------------- made plants, and the comparison


LABELS = ("Mälzerei & Co. <1>", "乳化釜", 'a "kettle"', "Kessel 'a' und \"b\"", "C:\\tank", "'C:\\' \"\"\"", "''' \\")


def maybe(rng, key, value, chance=0.5):
    return {key: value} if rng.random() < chance else {}


def by_time(rng, key, count, low, high):
    """A number for each of so many times or periods, or one for all, or none."""
    number = lambda: rng.randint(low, high)
    return rng.choice(({}, {key: number()}, {key + "s": [number() for _ in range(count)]}))


def made_task(rng, name, states, utilities):
    inputs, outputs = ([{"state": it, "part": "1/2"} for it in rng.sample(states, 2)] if rng.random() < 0.5 else [{"state": rng.choice(states), "part": "1/1"}]
                       for _ in range(2))
    outputs = [dict(it, delay=rng.randint(1, 4)) for it in outputs]
    lists = lambda high: [rng.randint(0, high) for _ in range(max(it["delay"] for it in outputs))]
    draws = [{"utility": it, "fixed": lists(3), "each": lists(1)} for it in utilities if rng.random() < 0.6]
    return {"name": name, "quantum": 2 * rng.choice((1, 2, 5)), "input": inputs, "output": outputs, **({"draw": draws} if draws else {})}


def made_plant(rng):
    """The text of a small plant that has some of everything."""
    periods, states, utilities, units, tasks = rng.randint(2, 9), ["a", "b", "c"], ["steam", "power"][: rng.randint(0, 2)], ["U", "V"], ["make", "pack"]
    plant = {"version": 3, "periods": periods}
    large = lambda: rng.choice((rng.randint(1, 40), rng.randint(1, 40), BILLION))
    plant["state"] = [{"name": it, **maybe(rng, "initial", large()), **by_time(rng, "limit", periods + 1, 5, 60), **maybe(rng, "price", rng.randint(-2, 5)),
                       **maybe(rng, "holding", rng.randint(-1, 2), 0.3)} for it in states]
    plant["utility"] = [{"name": it, "limit": rng.randint(3, 9), **by_time(rng, "rate", periods, -2, 3)} for it in utilities]
    for utility in plant["utility"]:
        if rng.random() < 0.5:
            utility["limits"] = [rng.randint(2, 9) for _ in range(periods)]
            del utility["limit"]
    plant["unit"] = [{"name": it, **({"last": rng.choice(tasks), **maybe(rng, "until", rng.randint(-3, 2))} if rng.random() < 0.5 else {})} for it in units]
    plant["task"] = [made_task(rng, it, states, utilities) for it in tasks]
    plant["run"] = [{"task": task, "unit": unit, "min": 1, "max": 3, **maybe(rng, "cost", rng.randint(-2, 3))} for task in tasks for unit in units if rng.random() < 0.8]
    pairs = [(unit, one, other) for unit in units for one in tasks for other in tasks]
    for thing in [it for table in ("state", "utility", "unit", "task") for it in plant[table]]:
        thing.update(maybe(rng, "label", rng.choice(LABELS), 0.2))
    for task in plant["task"]:
        task.update(maybe(rng, "colour", f"#{rng.randrange(1 << 24):06x}", 0.3))
    if rng.random() < 0.5:
        plant["start"] = datetime(rng.choice((1, 1999, 2000, 2023, 2024, 2100, 9999)), *rng.choice(((12, 31), (2, 28), (6, 30))), rng.randrange(24), 30, rng.randrange(60))
        plant["minutes"] = rng.choice((1, 15, 60, 480, 1440, 10_080))
    plant["gap"] = [{"unit": unit, "from": one, "to": other, "periods": rng.randint(0, 2), **maybe(rng, "cost", rng.randint(0, 5))} for unit, one, other in rng.sample(pairs, 2)]
    plant["receipt"] = [{"state": rng.choice(states), "time": rng.randint(0, periods), "amount": large()} for _ in range(rng.randint(0, 3))]
    plant["delivery"] = [{"state": rng.choice(states), "time": rng.randint(0, periods), "amount": rng.randint(1, 3), **maybe(rng, "payment", rng.randint(-3, 9))}
                         for _ in range(rng.randint(0, 2))]
    begins = rng.sample(range(periods), rng.choice((0, 0, 1)))
    plant["outage"] = [{"unit": rng.choice(units), "from": it, "to": rng.randint(it + 1, periods)} for it in begins]
    return "".join(f"{it}\n" for it in lines_of(plant))


def grown_plan(plant, rng, tries=12):
    """A plan that breaks nothing, or little: start by start, each of which breaks no more than the plan did before."""
    broken = lambda plan: len(list(units_lines(plant, plan))) + len(list(amounts_lines(plant, plan)))
    plan, bad = [], broken([])
    for _ in range(tries if plant.runs else 0):
        (task, unit), run = rng.choice(list(plant.runs.items()))
        more = [*plan, (rng.randrange(plant.periods), unit, task, rng.randint(run["min"], min(run["max"], run["min"] + 2)))]
        if broken(more) <= bad:
            plan, bad = more, broken(more)
    return plan


class Comparison:
    """Runs of the program on files, and what came otherwise."""

    def __init__(self, program, room):
        self.program, self.room, self.bad, self.feasible = program, room, 0, 0

    def put(self, name, text):
        with open(os.path.join(self.room, name), "w", encoding="utf-8") as file:
            file.write(text)
        return file.name

    def run(self, *words):
        ran = subprocess.run([self.program, *words], capture_output=True, text=True)
        return ran.returncode, ran.stdout

    def expect(self, what, came, wanted):
        if came != wanted:
            self.bad += 1
            print(f"{what}\nwanted\n{wanted}\ncame\n{came}")

    def roll(self, text, plan, period):
        """The answer of the program, compared with that of this script, in both forms."""
        files = self.put("plant", text), self.put("plan", text_of(plan))
        for more in ([], ["plan"]):
            said = self.run("roll", *files, str(period), *more)
            self.expect(f"roll {text}{text_of(plan)}{period} {more}", said, answer(text, plan, period, bool(more)))
        return answer(text, plan, period)

    def simulate(self, text, plan):
        return self.run("simulate", self.put("plant", text), self.put("plan", text_of(plan)))

    def on(self, text, plan, period, rng):
        """The law for a plan of the rolled plant, and what comes of rolling twice."""
        status, rolled = self.roll(text, plan, period)
        kept = [it for it in plan if it[0] < period]
        if status == 1:
            lost = kept + [it for it in made_plan(Plant(text), rng) if it[0] >= period]
            self.expect(f"lost {text}{text_of(lost)}{period}", self.simulate(text, lost)[0], 1)
        if status:
            return status
        after = Plant(rolled)
        later = [(it[0] - period, *it[1:]) for it in plan if it[0] >= period] if rng.random() < 0.5 else grown_plan(after, rng)
        whole = kept + [(period + it[0], *it[1:]) for it in later]
        (_, there), (_, here) = self.simulate(rolled, later), self.simulate(text, whole)
        ends = [it.split()[0] == "feasible" and int(it.split()[1]) for it in (there, here)]
        first_line, printed = rolled.split("\n", 1)
        earned = int(first_line.split()[2])
        self.expect(f"upgrade {rolled}", self.run("upgrade", self.put("plant", rolled)), (0, printed))
        self.feasible += ends[0] is not False
        self.expect(f"law {text}{text_of(whole)}{period}", ends[1], ends[0] if ends[0] is False else ends[0] + earned)
        again = rng.randrange(after.periods)
        (one, first), (two, second) = self.roll(text, whole, period + again), self.roll(rolled, later, again)
        self.expect(f"twice {text}{text_of(whole)}{period} {again}", (two, second.split("\n", 1)[1]), (one, first.split("\n", 1)[1]))
        return status


def compare(program, count):
    """Compares the program with this on made plans of the example plants and of made plants."""
    rng, statuses = random.Random(1), {}
    names = sorted(it for it in os.listdir(os.path.join(TOP, "examples")) if it.endswith(".toml"))
    with tempfile.TemporaryDirectory() as room:
        all_runs = Comparison(program, room)
        for number in range(count):
            text = open(os.path.join(TOP, "examples", names[number // 2 % len(names)]), encoding="utf-8").read() if number % 2 else made_plant(rng)
            plant = Plant(text)
            plan = rng.choice((made_plan, grown_plan))(plant, rng)
            status = all_runs.on(text, plan, rng.randrange(plant.periods + 1), rng)
            statuses[status] = statuses.get(status, 0) + 1
    statuses = ", ".join(f"{many} of status {status}" for status, many in sorted(statuses.items()))
    print(f"{count} plans: {statuses}; {all_runs.feasible} feasible ones rolled on; {all_runs.bad} other answers")
    return all_runs.bad


def main():
    if sys.argv[2:3] == ["--random"]:
        sys.exit(compare(sys.argv[1], int(sys.argv[3])) > 0)
    plant, plan = (open(it, encoding="utf-8").read() for it in sys.argv[1:3])
    status, text = answer(plant, read_plan(plan), int(sys.argv[3]), sys.argv[4:] == ["plan"])
    print(text, end="")
    sys.exit(status)


if __name__ == "__main__":
    main()
