#!/usr/bin/env python3
"""Asks the program and check_log.py the same questions, and says where their answers differ.

    python3 tools/compare_checkers.py [PROGRAM] [SEED]

PROGRAM is the built `stn`; without it what STN names, or crates/stn/out/stn. The logs are those of examples/, what
PROGRAM writes for the plants there, logs made at random over plants made at random, and mutants of all of them: numbers
changed by one, lines changed, dropped, doubled or exchanged, logs cut off, other plants, plants with faults. Of the
logs at random both are asked about another tank, too, and logs of one head are merged. KEEP may name a folder for the files of each difference. It exits
with 0 where all answers and statuses agree, with 1 where some differ, and with 2 where there is no program.
"""

import os
import random
import re
import subprocess
import sys
import tempfile
from collections import Counter
from datetime import datetime
from pathlib import Path

from check_log import Answer
from plant_program import Refused, program_of, read_plant
from random_logs import logs_of_one_head, random_log

TOP = Path(__file__).resolve().parent.parent
BUDGETS = ("1", "7", "60")
MUTANTS, MUTANT_PLANTS, RANDOM_PLANTS, RANDOM_LOGS, MERGES = 500, 250, 40, 8, 6
GREATEST_MUTANT, SECONDS, LONGEST = 20_000, int(os.environ.get("SECONDS_EACH", 20)), 96
ODD_NUMBERS = (b"0", b"1", b"2", b"254", b"255", b"256", b"4608", b"50000", b"50001", b"1048576", b"1048577", b"1099511627776",
               b"1099511627777", b"9" * 30, b"9" * 31, b"-1", b"-0", b"00", b"01", b"-")


# ---------------------------------------------------------------- mutants


def mutated(text, dice):
    """A text with one small change."""
    if dice.random() < 0.1:
        return text[: dice.randrange(len(text) + 1)]
    lines = text.split(b"\n")
    change = dice.choice([by_one] * 6 + [odd_number, dropped, doubled, exchanged, one_byte, copied])
    return b"\n".join(change(lines, dice.randrange(len(lines)), dice.randrange(len(lines)), dice))


def with_number(lines, dice, new):
    """The lines with one of their numbers, not of the first line, as `new` makes it."""
    places = [(n, it) for n, line in enumerate(lines) if n for it in re.finditer(rb"-?[0-9]+", line)]
    if places:
        n, it = dice.choice(places)
        lines[n] = lines[n][: it.start()] + new(it[0]) + lines[n][it.end() :]
    return lines


def by_one(lines, _at, _other, dice):
    return with_number(lines, dice, lambda it: b"%d" % (int(it) + dice.choice((-1, 1))))


def odd_number(lines, _at, _other, dice):
    return with_number(lines, dice, lambda _: dice.choice(ODD_NUMBERS))


def dropped(lines, at, _other, _dice):
    return lines[:at] + lines[at + 1 :]


def doubled(lines, at, _other, _dice):
    return lines[: at + 1] + lines[at:]


def exchanged(lines, at, other, _dice):
    lines[at], lines[other] = lines[other], lines[at]
    return lines


def copied(lines, at, other, _dice):
    lines[at] = lines[other]
    return lines


def one_byte(lines, at, _other, dice):
    line = lines[at]
    place, byte = dice.randrange(len(line) + 1), dice.choice((b" ", b"\t", b"\r", b"x", b"\x00", b"9", b"\n", b"-"))
    lines[at] = line[:place] + byte + line[place + dice.randrange(2) :]
    return lines


# ---------------------------------------------------------------- plants at random


def toml(plant):
    """A plant of dictionaries as a TOML document."""
    return "".join(f"{key} = {value_text(value)}\n" for key, value in plant.items()).encode()


def value_text(value):
    """A value as TOML writes it, in one line."""
    if isinstance(value, dict):
        return "{ " + ", ".join(f"{key} = {value_text(it)}" for key, it in value.items()) + " }"
    if isinstance(value, list):
        return "[" + ", ".join(map(value_text, value)) + "]"
    return f'"{value}"' if isinstance(value, str) else str(value)


def random_plant(dice):
    """A small plant that uses every table of version 2, with stocks, loads and cleaning that bind; some of version 3, with units
    that a batch held before, labels and dates."""
    periods, states, tasks, units = dice.randint(2, 5), "abcd", dice.randint(1, 3), dice.randint(1, 2)
    some = lambda least, most, make: [make() for _ in range(dice.randint(least, most))]
    time = lambda: dice.randint(0, periods)
    utilities = some(0, 2, lambda: {"rate": dice.randint(-1, 1), **limits(dice, 9, periods, True)})
    plant = {"version": 2, "periods": periods, "state": [
        {"name": it, "initial": dice.randint(0, 12), "price": dice.randint(-1, 6), "holding": dice.choice((0, 0, 1)),
         **limits(dice, 16, periods + 1, False)} for it in states]}
    plant["utility"] = [{"name": f"u{n}", **it} for n, it in enumerate(utilities)]
    plant["unit"] = [{"name": f"U{n}"} for n in range(units)]
    plant["task"] = [random_task(dice, f"T{n}", states, len(utilities)) for n in range(tasks)]
    plant["run"] = [{"task": f"T{t}", "unit": f"U{u}", "min": (least := dice.randint(1, 3)), "max": least + dice.randint(0, 3),
                     "cost": dice.randint(-1, 2)} for t in range(tasks) for u in range(units) if t == 0 or dice.random() < 0.7]
    of_tasks = lambda: f"T{dice.randrange(tasks)}"
    unit = lambda: f"U{dice.randrange(units)}"
    plant["gap"] = some(0, 4, lambda: {"unit": unit(), "from": of_tasks(), "to": of_tasks(), "periods": dice.randint(0, 2),
                                       "cost": dice.randint(0, 4)})
    moved = lambda: {"state": dice.choice(states), "time": time(), "amount": dice.randint(1, 4)}
    plant["receipt"], plant["delivery"] = some(0, 2, moved), some(0, 1, lambda: {**moved(), "payment": dice.randint(-5, 9)})
    plant["outage"] = some(0, 1, lambda: {"unit": unit(), "from": (begin := dice.randrange(periods)),
                                          "to": dice.randint(begin + 1, periods)})
    if dice.random() < 0.4:
        plant["version"] = 3
        for it in plant["unit"]:
            it.update({"last": of_tasks(), "until": dice.randint(-2, periods)} if dice.random() < 0.7 else {})
        for it in plant["state"] + plant["unit"] + plant["task"]:
            it.update({"label": dice.choice(("Ä & Ö", "釜", "a'b"))} if dice.random() < 0.2 else {})
        plant.update({"start": datetime(2028, 2, dice.randint(1, 29), 23), "minutes": dice.choice((15, 60, 1440))} if dice.random() < 0.5 else {})
    return plant


def limits(dice, most, count, is_required):
    """`limit`, `limits` or neither."""
    kind = dice.choice(("limit", "limits") if is_required else ("limit", "limits", "", ""))
    return {kind: [dice.randint(0, most) for _ in range(count)] if kind == "limits" else most} if kind else {}


def random_task(dice, name, states, utilities):
    """A task whose inputs and outputs may share a state, with draws that may share a utility."""
    halves = [["1/1"], ["1/2", "1/2"], ["3/4", "1/4"]]
    inputs = [{"state": dice.choice(states), "part": part} for part in dice.choice(halves)]
    outputs = [{"state": dice.choice(states), "part": part, "delay": dice.choice((1, 1, 2))} for part in dice.choice(halves)]
    length = max(it["delay"] for it in outputs)
    draws = [{"utility": f"u{dice.randrange(utilities)}", "fixed": [dice.randint(0, 3) for _ in range(length)],
              "each": [dice.randint(0, 1) for _ in range(length)]} for _ in range(dice.randint(0, 2) if utilities else 0)]
    return {"name": name, "quantum": 4, "input": inputs, "output": outputs, "draw": draws}


# ---------------------------------------------------------------- the questions


class Comparison:
    """Asks both, and counts."""

    def __init__(self, program, room):
        self.program, self.room, self.asked, self.differ = program, Path(room), 0, 0
        self.seen = Counter()

    def run(self, *words, seconds=600):
        """What the program puts on its words, and its status; None where it takes too long."""
        try:
            done = subprocess.run([self.program, *map(str, words)], stdin=subprocess.DEVNULL, capture_output=True, timeout=seconds)
        except subprocess.TimeoutExpired:
            return None
        return done.stdout.decode().rstrip("\n"), done.returncode

    def ask(self, what, plant, log, command="check", *others):
        """One question: a command with the bytes of a plant and of a log, and what other words it has."""
        files = {str(self.room / "plant"): plant, str(self.room / "log"): log}
        for name, text in files.items():
            Path(name).write_bytes(text)
        words = [command, *files, *others]
        theirs, own = self.run(*words), Answer(files.__getitem__).of(words)
        self.asked += 1
        self.seen[kind_of(own[0])] += 1
        if theirs != own:
            self.differ += 1
            self.keep(what, plant, log)
            print(f"compare: {what}: the program answers {theirs}, check_log.py {own}", flush=True)

    def ask_merge(self, what, plant, logs):
        """Both merge logs of a plant, and leave the same file."""
        stem, out = str(self.room / "log"), str(self.room / "out")
        files = {str(self.room / "plant"): plant, **{f"{stem}.{number}": log for number, log in enumerate(logs)}}
        for name, text in files.items():
            Path(name).write_bytes(text)
        Path(out).unlink(missing_ok=True)
        words, left = ["merge", str(self.room / "plant"), stem, str(len(logs)), out], {}
        theirs, own = self.run(*words), Answer(files.__getitem__, left.__setitem__).of(words)
        written = Path(out).read_bytes() if os.path.exists(out) else None
        self.asked += 1
        self.seen[kind_of(own[0])] += 1
        if theirs != own or written != left.get(out):
            self.differ += 1
            self.keep(what, plant, b"".join(logs))
            print(f"compare: {what}: the program answers {theirs}, check_log.py {own}, or another file", flush=True)

    def keep(self, what, plant, log):
        """Leaves the files of a difference where KEEP names a folder."""
        if "KEEP" in os.environ:
            for name, text in (("toml", plant), ("log", log)):
                (Path(os.environ["KEEP"]) / f"{self.differ}.{name}").write_bytes(text)


def kind_of(text):
    """An answer without its line or place: `yes CLAIM`, `no KIND`, `refused plant KIND` or `whatif`."""
    words = text.split("\n")[0].split()[: 1 if text.startswith("whatif") else None]
    return " ".join([words[0], words[-1]] if words[0] == "no" else words[: 3 if words[0] == "refused" else 2])


def examples():
    """The plants of the examples, but for those of long horizons, which take too long here."""
    plants = sorted((TOP / "examples").glob("*.toml"))
    return [it for it in plants if int(re.search(r"^periods *= *(\d+)", it.read_text(), re.M)[1]) <= LONGEST]


def written(comparison):
    """Logs that the program writes for the plants of the examples, (name, plant, log)."""
    for plant in examples():
        for budget in BUDGETS:
            log = comparison.room / "written"
            if comparison.run("solve", plant, budget, log, seconds=SECONDS):
                yield f"{plant.stem} with {budget} boxes", plant.read_bytes(), log.read_bytes()
            else:
                print(f"compare: solve {plant.name} {budget} takes more than {SECONDS} s and is left out", flush=True)
                break


def stored():
    """The logs of the examples: NAME.log is one of the plant NAME.toml."""
    for log in sorted((TOP / "examples").glob("*.log")):
        yield log.name, log.with_suffix(".toml").read_bytes(), log.read_bytes()


def plants(dice):
    """The plants of the examples, and plants made at random."""
    for plant in examples():
        yield plant.stem, plant.read_bytes()
    for number in range(RANDOM_PLANTS):
        yield f"plant {number}", toml(random_plant(dice))


def at_random(dice):
    """Logs at random over plants."""
    for name, plant in plants(dice):
        try:
            program = program_of(read_plant(plant))
        except Refused:
            yield f"{name} alone", plant, b""
            continue
        for number in range(RANDOM_LOGS):
            yield f"random log {number} of {name}", plant, random_log(dice, program)


def plan_of(comparison, plant, slots):
    """A plan that the program finds with few boxes, as a profit and lines of its values, or nothing."""
    place, log = comparison.room / "plant", comparison.room / "log"
    place.write_bytes(plant)
    comparison.run("solve", place, 7, log)
    found = re.search(rb"claim (?:optimal|between) (-?[0-9]+).*\n((?:value .*\n)*)end", log.read_bytes())
    lines = found[2].decode().splitlines() if found else []
    return found and (int(found[1]), [it for it in lines if int(it.split()[1]) < slots])


def mergings(comparison, dice):
    """Logs at random over plants, some of one head each time."""
    for name, plant in plants(dice):
        try:
            program = program_of(read_plant(plant))
        except Refused:
            continue
        plan = plan_of(comparison, plant, len(program.slots)) if program.slots else None
        for number in range(MERGES if program.slots else 0):
            yield f"merge {number} of {name}", plant, [*logs_of_one_head(dice, program, dice.choice((1, 2, 2, 3, 4)), plan)]


def tanks_of(plant):
    """The names of the states with limits."""
    return [state.name for state in read_plant(plant).states if state.limits is not None]


def main(words):
    program = words[0] if words else os.environ.get("STN", TOP / "crates" / "stn" / "out" / "stn")
    dice = random.Random(int(words[1]) if len(words) > 1 else 1)
    if not os.access(program, os.X_OK):
        print(f"compare: there is no program at {program}")
        return 2
    with tempfile.TemporaryDirectory(prefix="compare-") as room:
        comparison = Comparison(program, room)
        logs = [*stored(), *written(comparison), *at_random(dice)]
        for it in logs:
            comparison.ask(*it)
        for what, plant, log in logs:
            if what.startswith("random") and (tanks := tanks_of(plant)):
                comparison.ask(f"{what}, tank", plant, log, "whatif", dice.choice(tanks), dice.choice(("-2", "1", "3")), "2")
        for what, plant, logs_there in mergings(comparison, dice):
            comparison.ask_merge(what, plant, logs_there)
        small = [it for it in logs if len(it[2]) <= GREATEST_MUTANT]
        for number in range(MUTANTS):
            name, plant, log = dice.choice(small)
            comparison.ask(f"mutant {number} of {name}", plant, mutated(log, dice))
        for number in range(MUTANT_PLANTS):
            name, plant, log = dice.choice(small)
            # (the program's reader of TOML takes a carriage return alone for a line's end, Python's refuses it)
            other = mutated(plant, dice).replace(b"\r", b"\n") if number % 5 else dice.choice(small)[1]
            comparison.ask(f"plant {number} in the place of {name}", other, log)
    print("compare:", ", ".join(f"{count} {kind}" for kind, count in sorted(comparison.seen.items())))
    print(f"compare: {comparison.asked} logs, {comparison.differ} differences")
    return int(comparison.differ > 0)


if __name__ == "__main__":
    sys.exit(main(sys.argv[1:]))
