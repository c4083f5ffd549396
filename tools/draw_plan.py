"""Draws a plan as docs/formats.md says, without the program: python3 tools/draw_plan.py PLANT PLAN >PICTURE

Written from the definitions of crates/plan_picture/specs alone, and slow. `.ci/check_pictures` compares what the
program draws with what this draws, and the expected texts of cases are made by it.
"""

import sys
from dataclasses import dataclass

from plant_program import PlantFile, document_of

BAND, ROW, LEFT = 48, 22, 128


@dataclass
class Start:
    period: int
    unit: int
    task: int
    quanta: int


def columns(letter):
    """How wide a letter is: one of three or four bytes is as wide as two others."""
    return 2 if len(letter.encode()) > 2 else 1


def shortened(room, text):
    """The text where it has room, else the longest beginning that leaves room for two points, and these."""
    if sum(map(columns, text)) <= room:
        return text
    left, count = max(0, room - 2), 0
    while columns(text[count]) <= left:
        left -= columns(text[count])
        count += 1
    return text[:count] + ".."


def escaped(text):
    """The text as XML writes it."""
    return text.replace("&", "&amp;").replace("<", "&lt;").replace(">", "&gt;")


class Drawing:
    """The text of a picture, and the plant and plan that it is of."""

    def __init__(self, file, plan):
        self.plant, self.plan, self.out = file.plant, plan, []
        labels = {"state": [it.label for it in self.plant.states], "utility": [it.label for it in self.plant.utilities],
                  "unit": self.plant.unit_labels, "task": [it.label for it in self.plant.tasks]}
        self.captions = {kind: [label or name for label, name in zip(found, file.names[kind])] for kind, found in labels.items()}
        horizon = self.plant.periods
        self.width = max(54, 720 // horizon)
        self.room = (self.width - 6) // 6
        self.bands = (horizon + BAND - 1) // BAND
        self.touched = [state for state in range(len(self.plant.states)) if self.is_touched(state)]

    # ------------------------------------------------------------ what the plan does

    def end(self, start):
        return start.period + self.plant.tasks[start.task].periods

    def is_touched(self, state):
        moved = [it[0] for it in self.plant.receipts + self.plant.deliveries]
        for start in self.plan:
            task = self.plant.tasks[start.task]
            moved += [it[0] for it in task.inputs + task.outputs]
        return state in moved

    def stock(self, state, time):
        total = self.plant.states[state].initial
        total += sum(amount for it, at, amount in self.plant.receipts if it == state and at <= time)
        total -= sum(amount for it, at, amount, _ in self.plant.deliveries if it == state and at <= time)
        for start in self.plan:
            task = self.plant.tasks[start.task]
            total -= sum(start.quanta * mass for it, mass in task.inputs if it == state and start.period <= time)
            total += sum(start.quanta * mass for it, mass, delay in task.outputs if it == state and start.period + delay <= time)
        return total

    def load(self, utility, period):
        total = 0
        for start in self.plan:
            for draw in self.plant.tasks[start.task].draws:
                if draw.utility == utility and start.period <= period < self.end(start):
                    k = period - start.period
                    total += draw.fixed[k] + start.quanta * draw.each[k]
        return total

    def profit(self):
        plant = self.plant
        worth = sum(it.price * self.stock(n, plant.periods) for n, it in enumerate(plant.states))
        worth += sum(payment for *_, payment in plant.deliveries)
        worth -= sum(it.holding * self.stock(n, t) for n, it in enumerate(plant.states) for t in range(plant.periods))
        worth -= sum(it.rates[t] * self.load(n, t) for n, it in enumerate(plant.utilities) for t in range(plant.periods))
        worth -= sum(run.cost for s in self.plan for run in plant.runs if (run.task, run.unit) == (s.task, s.unit))
        worth -= sum(self.gap(a, b, 4) for a in self.plan for b in self.plan if self.is_next(a, b))
        worth -= sum(self.gap(self.before(b), b, 4) for b in self.plan if self.before(b))
        return worth

    def before(self, start):
        """The batch that held the unit before the plan, of a start that is the first on the unit."""
        last = self.plant.lasts[start.unit]
        if last is None or any(it.unit == start.unit and it.period < start.period for it in self.plan):
            return None
        return Start(last[1], start.unit, last[0], 0)

    def is_next(self, a, b):
        between = [c for c in self.plan if c.unit == a.unit and a.period < c.period < b.period]
        return a.unit == b.unit and a.period < b.period and not between

    def gap(self, a, b, field):
        return max([it[field] for it in self.plant.gaps if it[:3] == (a.unit, a.task, b.task)], default=0)

    # ------------------------------------------------------------ elements

    def put(self, text):
        self.out.append(text)

    def words(self, kind, x, y, text):
        self.put(f'<text class="{kind}" x="{x}" y="{y}">{escaped(text)}</text>\n')

    def short(self, kind, x, y, room, text):
        self.words(kind, x, y, shortened(room, text))

    def fitted(self, kind, x, y, room, text):
        is_cut = sum(map(columns, text)) > room
        if is_cut:
            self.put(f"<g><title>{escaped(text)}</title>\n")
        self.short(kind, x, y, room, text)
        if is_cut:
            self.put("</g>\n")

    def group(self, task):
        """The beginning of a task's group: its class, and its own colour where it has one."""
        colour = self.plant.tasks[task].colour
        style = f' style="fill:{colour}"' if colour else ""
        return f'<g class="c{task % 8}"{style}>'

    def box(self, kind, x, y, width, height):
        self.put(f'<rect class="{kind}" x="{x}" y="{y}" width="{width}" height="{height}"/>\n')

    # ------------------------------------------------------------ places

    def x(self, place):
        return LEFT + self.width * place

    def periods_in(self, band):
        return min(BAND, self.plant.periods - BAND * band)

    def part(self, band, items):
        return items[BAND * band :] if band + 1 == self.bands else items[BAND * band : BAND * band + BAND]

    def cut(self, band, begin, end):
        """The places of a band between two times, if there are any."""
        low, high = max(begin - BAND * band, 0), min(max(end - BAND * band, 0), self.periods_in(band))
        return (low, high) if low < high else None

    @staticmethod
    def rows(count):
        return count and count + 1

    # ------------------------------------------------------------ the chart

    def part_head(self, band, y, title):
        self.words("head", 0, y + 16, title)
        for place in range(self.periods_in(band) + 1):
            self.words("time", self.x(place), y + 17, str(BAND * band + place))

    def units(self, band):
        span = self.periods_in(band) * self.width
        for unit, name in enumerate(self.captions["unit"]):
            y = ROW + ROW * unit
            self.fitted("name", 0, y + 15, 20, name)
            self.box("row", LEFT, y + 1, span, 20)
        lines = "".join(f"M{self.x(place)} {ROW}V{ROW * self.band_rows()}" for place in range(self.periods_in(band) + 1))
        self.put(f'<path class="grid" d="{lines}"/>\n')
        for unit, begin, end in self.plant.outages:
            self.span("outage", band, unit, begin, end)
        for unit, last in enumerate(self.plant.lasts):
            self.held(band, unit, *last or (0, 0))
        for start in self.plan:
            if before := self.before(start):
                self.span("clean", band, start.unit, before.period, before.period + self.gap(before, start, 3))
        for a in self.plan:
            for b in self.plan:
                if self.is_next(a, b):
                    self.span("clean", band, a.unit, self.end(a), self.end(a) + self.gap(a, b, 3))
        for start in self.plan:
            self.bar(band, start)

    def span(self, kind, band, unit, begin, end):
        found = self.cut(band, begin, end)
        if not found:
            return
        x, y, width = self.x(found[0]), ROW + ROW * unit + 1, (found[1] - found[0]) * self.width
        if kind == "clean":
            self.put(f'<path class="clean" d="M{x} {y + 10}h{width}"/>\n')
        else:
            self.box(kind, x, y, width, 20)

    def bar(self, band, start):
        amount = f"{start.quanta} = {start.quanta * self.plant.tasks[start.task].quantum}"
        title = f"{amount}, {start.period} to {self.end(start)}"
        self.colour_bar(self.cut(band, start.period, self.end(start)), start.unit, start.task, title, amount)

    def held(self, band, unit, task, until):
        """What is left of the batch that held a unit before the plan."""
        self.colour_bar(self.cut(band, 0, until), unit, task, f"until {until}", f"until {until}")

    def colour_bar(self, found, unit, task, title, amount):
        if not found:
            return
        name = self.captions["task"][task]
        self.put(f"{self.group(task)}<title>{escaped(name)} {title}</title>\n")
        x, y, width = self.x(found[0]), ROW + ROW * unit + 1, (found[1] - found[0]) * self.width
        self.box(f"d{task // 8}", x, y, width, 20)
        self.short("task", x + 4, y + 9, (width - 6) // 6, name)
        self.short("quanta", x + 4, y + 18, (width - 6) // 6, amount)
        self.put("</g>\n")

    # ------------------------------------------------------------ stocks and loads

    @staticmethod
    def height(top, level):
        return (20 * abs(level) + top - 1) // top

    def steps(self, y, top, levels, limits):
        y += 21
        self.put(f'<path class="level" d="M{LEFT} {y}')
        self.put("".join(f"V{y - self.height(top, it)}h{self.width}" for it in levels) + f'V{y}"/>\n')
        if limits:
            self.put(f'<path class="limit" d="M{LEFT} {y - self.height(top, limits[0])}')
            self.put("".join(f"V{y - self.height(top, it)}h{self.width}" for it in limits) + '"/>\n')
            self.fitted("most", 0, y - 1, 20, f"max {limits[0]}")
        for place, level in enumerate(levels):
            if place % 8 == 0 or level != levels[place - 1]:
                self.fitted("number", self.x(place) + 4, y - 2, self.room, str(level))

    def flag(self, y, place, texts):
        text = " ".join(it for it in texts if it)
        if text:
            self.box("pole", self.x(place), y + 1, 2, 20)
            self.box("cloth", self.x(place), y + 1, 6 * min(len(text), self.room) + 6, 11)
            self.fitted("flag", self.x(place) + 4, y + 10, self.room, text)

    def graph(self, band, y, name, levels, limits):
        self.fitted("name", 0, y + 10, 20, name)
        top = max([1, *map(abs, levels), *limits])
        self.steps(y, top, self.part(band, levels), self.part(band, limits))

    @staticmethod
    def new_limit(limits, place):
        return f"max {limits[place]}" if 0 < place < len(limits) and limits[place] != limits[place - 1] else ""

    def stock_row(self, band, row, state):
        y, limits = ROW * row, self.plant.states[state].limits or []
        levels = [self.stock(state, time) for time in range(self.plant.periods + 1)]
        self.graph(band, y, self.captions["state"][state], levels, limits)
        here = self.part(band, limits)
        for place in range(len(self.part(band, levels))):
            time = BAND * band + place
            come = sum(it[2] for it in self.plant.receipts if it[:2] == (state, time))
            gone = sum(it[2] for it in self.plant.deliveries if it[:2] == (state, time))
            self.flag(y, place, [come and f"+{come}", gone and f"-{gone}", self.new_limit(here, place)])

    def load_row(self, band, row, utility):
        y, limits = ROW * row, self.plant.utilities[utility].limits
        levels = [self.load(utility, period) for period in range(self.plant.periods)]
        self.graph(band, y, self.captions["utility"][utility], levels, limits)
        here = self.part(band, limits)
        for place in range(len(here)):
            self.flag(y, place, [self.new_limit(here, place)])

    # ------------------------------------------------------------ days and hours

    def clock(self, band, y):
        """The row below a band: the hour of each of its times, and the day at its first time and wherever it changes."""
        at, first = self.plant.calendar.at, BAND * band
        self.fitted("name", 0, y + 15, 20, str(at(first)))
        for place in range(self.periods_in(band) + 1):
            moment = at(first + place)
            if not place or moment.day != at(first + place - 1).day:
                self.words("time", self.x(place), y + 9, moment.day_text())
            self.words("time", self.x(place), y + 19, moment.hour_text())

    # ------------------------------------------------------------ the whole

    def band_rows(self):
        return 1 + len(self.plant.units) + self.rows(len(self.touched)) + self.rows(len(self.plant.utilities))

    def band_height(self):
        """A band, the row of days and hours where the plant has a calendar, and a row before the next one."""
        return ROW * (self.band_rows() + (self.plant.calendar is not None) + 1)

    def band(self, band, y):
        self.put(f'<g transform="translate(0 {y})">\n')
        self.part_head(band, 0, "units")
        self.units(band)
        row = 1 + len(self.plant.units)
        if self.touched:
            self.part_head(band, ROW * row, "stock")
        for place, state in enumerate(self.touched):
            self.stock_row(band, row + 1 + place, state)
        row += self.rows(len(self.touched))
        if self.plant.utilities:
            self.part_head(band, ROW * row, "load")
        for utility in range(len(self.plant.utilities)):
            self.load_row(band, row + 1 + utility, utility)
        if self.plant.calendar:
            self.clock(band, ROW * self.band_rows())
        self.put("</g>\n")

    def draw(self):
        width = LEFT + self.width * (min(BAND, self.plant.periods) + 1)
        line = max(1, width // 240)
        head = ROW + ROW * ((len(self.plant.tasks) + line - 1) // line)
        height = head + self.bands * self.band_height()
        self.put(f'<svg xmlns="http://www.w3.org/2000/svg" viewBox="0 0 {width + 32} {height + 16}" ')
        self.put(f'width="{width + 32}" height="{height + 16}">\n{STYLE}')
        self.put(f'<rect class="page" x="0" y="0" width="{width + 32}" height="{height + 16}"/>\n')
        self.put('<g transform="translate(16 8)" font-family="monospace" font-size="10" stroke="none">\n')
        self.words("title", 0, 16, f"profit {self.profit()}")
        self.box("outage", 240, 2, 24, 20)
        self.words("task", 270, 16, "outage")
        self.put('<path class="clean" d="M360 12h24"/>\n')
        self.words("task", 390, 16, "cleaning")
        self.put('<path class="limit" d="M480 12h24"/>\n')
        self.words("most", 510, 16, "limit")
        self.box("pole", 600, 2, 2, 20)
        self.box("cloth", 600, 2, 24, 11)
        self.words("flag", 630, 16, "receipt +, delivery -")
        for task, name in enumerate(self.captions["task"]):
            x, y = 240 * (task % line), ROW + ROW * (task // line)
            self.put(self.group(task))
            self.box(f"d{task // 8}", x + 2, y + 3, 24, 16)
            self.fitted("task", x + 32, y + 14, 34, name)
            self.put("</g>\n")
        for band in range(self.bands):
            self.band(band, head + band * self.band_height())
        self.put("</g>\n</svg>\n")
        return "".join(self.out)


STYLE = """<style>
.page{fill:#fff;stroke:none}
.title{font-size:14px;font-weight:bold}
.head{font-size:12px;font-weight:bold}
.name{font-weight:bold}
.time{text-anchor:middle;fill:#555}
.task{fill:#000}
.quanta{font-weight:bold;fill:#000}
.most{fill:#b02a1c}
.row{fill:#f0f0f0}
.grid{stroke:#ccc;fill:none}
.outage{fill:#bbb}
.clean{stroke:#888;stroke-width:20px;stroke-dasharray:2 4;fill:none}
.level{fill:#cfe3f5;stroke:#8fbce0}
.limit{stroke:#b02a1c;stroke-dasharray:6 3;fill:none}
.cloth{fill:#ffe08a}
.pole{fill:#7a5200}
.c0{fill:#7ad}
.c1{fill:#e86}
.c2{fill:#ed8}
.c3{fill:#fab}
.c4{fill:#9df}
.c5{fill:#4b9}
.c6{fill:#bc3}
.c7{fill:#aa0}
.d0{stroke:#333}
.d1{stroke:#333;stroke-width:3px}
.d2{stroke:#333;stroke-width:3px;stroke-dasharray:6 3}
.d3{stroke:#333;stroke-width:3px;stroke-dasharray:2 3}
.d4{stroke:#fff;stroke-width:3px;stroke-dasharray:4 4}
@page{size:A3 landscape;margin:8mm}
@media print{:root{width:404mm;height:281mm}}
</style>
"""


def plan_of(file, text):
    """The starts of a plan file."""
    lines = [line.split() for line in text.splitlines() if line and not line.startswith("#")]
    return [Start(int(p), file.names["unit"].index(u), file.names["task"].index(t), int(q)) for p, u, t, q in lines]


def main(words):
    with open(words[0], "rb") as source:
        file = PlantFile(document_of(source.read()))
    with open(words[1]) as source:
        plan = plan_of(file, source.read())
    sys.stdout.write(Drawing(file, plan).draw())


if __name__ == "__main__":
    main(sys.argv[1:])
