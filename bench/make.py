#!/usr/bin/env python3
"""Makes the plant of a seed (docs/formats.md, "The plant of a seed"): chains of two tasks that share three units and steam.

    python3 bench/make.py SEED CHAINS          # prints a plant of one to eight chains
    python3 bench/make.py --family FOLDER      # writes those of the seeds 1 to 6 with 4 to 6 chains there, for bench/race.py

Written from that page alone, apart from the program, which makes plants in memory for `demo`; a chain has some 23 slots.
"""
import sys
from pathlib import Path

HORIZON, QUANTUM, UNITS = 12, 5, 3


class Numbers:
    """The numbers of a seed, one after another."""

    def __init__(self, seed):
        self.x = seed

    def below(self, n):
        """The next number below n."""
        self.x = (self.x * 6364136223846793005 + 1442695040888963407) % 2**64
        return (self.x >> 33) % n


def chain(numbers):
    """What a chain is made of, in the order in which the numbers are taken."""
    below = numbers.below
    feed = {"initial": 100 + 10 * below(11), "price": 1 + below(3)}
    between = {"limit": 20 + 10 * below(5), "holding": below(2)}
    product = {"price": 10 + below(11)}
    delays = [1 + below(2), 1 + below(2)]
    runs = [{"unit": f"U{1 + below(3)}", "min": 1 + below(2), "max": 4 + below(5), "cost": below(4)} for _ in range(2)]
    return feed, between, product, delays, runs


def table(array, /, **keys):
    """A table of an array, with its keys."""
    text = {key: f'"{value}"' if isinstance(value, str) else value for key, value in keys.items()}
    return f"[[{array}]]\n" + "".join(f"{key} = {value}\n" for key, value in text.items())


def tasks(c, delays):
    """The two tasks of a chain: one draws steam and makes the intermediate, the other makes the product and gives some of it back."""
    steam = table("task.draw", utility="steam", fixed=[1] * delays[0], each=[1] * delays[0])
    first = table("task", name=f"M{c}", quantum=QUANTUM) + table("task.input", state=f"F{c}", part="1/1")
    first += table("task.output", state=f"I{c}", part="1/1", delay=delays[0]) + steam
    second = table("task", name=f"K{c}", quantum=QUANTUM) + table("task.input", state=f"I{c}", part="1/1")
    second += table("task.output", state=f"P{c}", part="4/5", delay=delays[1])
    return first + second + table("task.output", state=f"I{c}", part="1/5", delay=1)


def plant(seed, chains):
    """The plant file of a seed."""
    numbers = Numbers(seed)
    made = [chain(numbers) for _ in range(chains)]
    steam = 12 + numbers.below(9)
    units = [f"U{n}" for n in range(1, UNITS + 1)]
    text = f"# The plant of the seed {seed} with {chains} chains.\nversion = 1\nperiods = {HORIZON}\n"
    for c, (feed, between, product, _, _) in enumerate(made, 1):
        text += table("state", name=f"F{c}", **feed) + table("state", name=f"I{c}", **between) + table("state", name=f"P{c}", **product)
    text += table("utility", name="steam", limit=steam, rate=1) + "".join(table("unit", name=unit) for unit in units)
    text += "".join(tasks(c, delays) for c, (*_, delays, _) in enumerate(made, 1))
    for c, (*_, runs) in enumerate(made, 1):
        text += table("run", task=f"M{c}", **runs[0]) + table("run", task=f"K{c}", **runs[1])
    if chains > 1:
        pairs = [(unit, task) for unit in units for task in "MK"]
        text += "".join(table("gap", unit=unit, **{"from": f"{task}1"}, to=f"{task}2", periods=1) for unit, task in pairs)
    return text


def main(words):
    if words[:1] == ["--family"] and len(words) == 2:
        for seed in range(1, 7):
            for chains in (4, 5, 6):
                (Path(words[1]) / f"make-{seed}-{chains}.toml").write_text(plant(seed, chains))
    elif len(words) == 2 and all(it.isdigit() for it in words) and 1 <= int(words[1]) <= 8:
        print(plant(int(words[0]), int(words[1])), end="")
    else:
        sys.exit(__doc__)


if __name__ == "__main__":
    main(sys.argv[1:])
