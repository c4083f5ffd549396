#!/usr/bin/env python3
"""Prints a plant over so many times its horizon: version 3, what is said by period is said again, deliveries and receipts stay where they are.

    python3 bench/longer.py bench/plants/film.toml 6 > film-6.toml    # 84 periods for 14
"""
import re, sys


def longer(text, times):
    """The text of the plant over `times` horizons."""
    periods = int(re.search(r"^periods = (\d+)$", text, re.M)[1])

    def again(found):
        values = [it.strip() for it in found[2].split(",") if it.strip()]
        is_by_period = len(values) >= periods
        return f"{found[1]} = [{', '.join(values[:periods] * times + values[periods:])}]" if is_by_period else found[0]

    text = re.sub(r"^version = \d+$", "version = 3", text, count=1, flags=re.M)
    text = re.sub(r"^periods = \d+$", f"periods = {periods * times}", text, count=1, flags=re.M)
    return re.sub(r"\b(limits|rates) = \[([\d,\s]+)\]", again, text)


if __name__ == "__main__":
    with open(sys.argv[1], encoding="utf-8") as plant:
        print(longer(plant.read(), int(sys.argv[2])), end="")
