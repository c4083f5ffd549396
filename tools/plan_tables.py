#!/usr/bin/env python3
"""A second maker of tables: prints of a plant and a feasible plan what `stn table PLANT PLAN [WORD]` prints.

    python3 tools/plan_tables.py PLANT PLAN [stocks|loads|units|deliveries]

Written from docs/formats.md and docs/model.md alone, apart from the proved program, by going through times and periods one
by one. It needs Python 3.11 and nothing else, and is no part of what is proved. A plant file is read by plant_program.py.
"""

import sys
from functools import cache
from pathlib import Path

from plant_program import read_document, read_plant

HEADS = {
    "batches": "unit,task,start,end,quanta,mass,cost,changeover",
    "stocks": "state,time,stock,limit,receipt,delivery",
    "loads": "utility,period,load,limit",
    "units": "unit,running,out,cleaning,idle,batches,changeover",
    "deliveries": "delivery,state,time,amount,payment,stock",
}


def head_of(kind, has_calendar):
    """The head line of a table: batches have dates besides, where the plant has a calendar."""
    return HEADS[kind] + ",from,to" * (kind == "batches" and has_calendar)


def names_of(data, table):
    """The names of a table's items, in the order of the file."""
    return [item["name"] for item in read_document(data.decode("utf-8-sig")).get(table, [])]


class Tables:
    """The tables of a plan: `lines(kind)` are those behind the head."""

    def __init__(self, data, plan):
        self.plant = read_plant(data)
        self.states, self.utilities = names_of(data, "state"), names_of(data, "utility")
        self.units, self.tasks = names_of(data, "unit"), names_of(data, "task")
        words = [line.split(" ") for line in plan.splitlines() if not line.startswith("#")]
        starts = [(self.units.index(unit), int(period), self.tasks.index(task), int(quanta)) for period, unit, task, quanta in words]
        self.starts = sorted(starts)

    def end(self, start):
        return start[1] + self.plant.tasks[start[2]].periods

    def before(self, start):
        """The batch before this one on its unit, or None."""
        earlier = [other for other in self.starts if other[0] == start[0] and other[1] < start[1]]
        return earlier[-1] if earlier else None

    def change(self, start):
        """Periods of cleaning and cost between the batch before a batch and it; before a first one stands the unit's `last`."""
        before, last = self.before(start), self.plant.lasts[start[0]]
        task = before[2] if before else last[0] if last else None
        listed = [gap for gap in self.plant.gaps if gap[:3] == (start[0], task, start[2])]
        return max([gap[3] for gap in listed], default=0), max([gap[4] for gap in listed], default=0)

    @cache
    def stock(self, state, time):
        """What stands at a time: what stood before it, and what changes then."""
        stock = self.stock(state, time - 1) if time else self.plant.states[state].initial
        stock += self.outside(self.plant.receipts, state, time) - self.outside(self.plant.deliveries, state, time)
        for _, period, task, quanta in self.starts:
            stock -= sum(quanta * amount for of, amount in self.plant.tasks[task].inputs if of == state and period == time)
            stock += sum(quanta * amount for of, amount, delay in self.plant.tasks[task].outputs if of == state and period + delay == time)
        return stock

    def outside(self, events, state, time):
        return sum(event[2] for event in events if event[:2] == (state, time))

    def load(self, utility, period):
        load = 0
        for start in self.starts:
            if start[1] <= period < self.end(start):
                place = period - start[1]
                drawn = [draw for draw in self.plant.tasks[start[2]].draws if draw.utility == utility]
                load += sum(draw.fixed[place] + start[3] * draw.each[place] for draw in drawn)
        return load

    def batches(self):
        for start in self.starts:
            unit, period, task, quanta = start
            cost = next(run.cost for run in self.plant.runs if (run.task, run.unit) == (task, unit))
            mass = quanta * self.plant.tasks[task].quantum
            dates = [self.plant.calendar.at(time) for time in (period, self.end(start))] if self.plant.calendar else []
            yield self.units[unit], self.tasks[task], period, self.end(start), quanta, mass, cost, self.change(start)[1], *dates

    def stocks(self):
        for place, name in enumerate(self.states):
            limits = self.plant.states[place].limits
            for time in range(self.plant.periods + 1):
                limit = "" if limits is None else limits[time]
                receipt, delivery = (self.outside(events, place, time) for events in (self.plant.receipts, self.plant.deliveries))
                yield name, time, self.stock(place, time), limit, receipt, delivery

    def loads(self):
        for place, name in enumerate(self.utilities):
            for period in range(self.plant.periods):
                yield name, period, self.load(place, period), self.plant.utilities[place].limits[period]

    def doing(self, unit, period):
        """Which of the columns a period of a unit counts in."""
        own, last = [start for start in self.starts if start[0] == unit], self.plant.lasts[unit]
        if last and period < last[1] or any(start[1] <= period < self.end(start) for start in own):
            return 0
        if any(of == unit and begin <= period < end for of, begin, end in self.plant.outages):
            return 1
        cleaned = [(self.end(self.before(start)), self.change(start)[0]) for start in own if self.before(start)]
        cleaned += [(last[1], self.change(start)[0]) for start in own if last and not self.before(start)]
        return 2 if any(end <= period < end + gap for end, gap in cleaned) else 3

    def units_lines(self):
        for unit, name in enumerate(self.units):
            doing = [self.doing(unit, period) for period in range(self.plant.periods)]
            own = [start for start in self.starts if start[0] == unit]
            yield name, *(doing.count(column) for column in range(4)), len(own), sum(self.change(start)[1] for start in own)

    def deliveries(self):
        for number, (state, time, amount, payment) in enumerate(self.plant.deliveries, 1):
            yield number, self.states[state], time, amount, payment, self.stock(state, time)

    def text(self, kind):
        """The whole table."""
        lines = getattr(self, "units_lines" if kind == "units" else kind)()
        head = head_of(kind, self.plant.calendar is not None)
        return "".join(",".join(map(str, line)) + "\n" for line in [(head,), *lines])


if __name__ == "__main__":
    plant, plan, kind = ([*sys.argv[1:], "batches"] if len(sys.argv) == 3 else sys.argv[1:] if len(sys.argv) == 4 else sys.exit(__doc__))
    sys.stdout.write(Tables(Path(plant).read_bytes(), Path(plan).read_text()).text(kind))
