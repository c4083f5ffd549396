"""Says in a sentence or two what a run of stn came to; tools/speak calls it, and says less where it can't."""
import sys

from speaking import answers, faults, files, logs, orders, plans, words as forms
from speaking.plant import Plant
from speaking.texts import do, listed, meant, row, sentences, short
from speaking.toml_places import Document


def first_line(file):
    """The words of the first line of a file."""
    with open(file, "rb") as text:
        return text.readline(4096).decode("utf-8", "replace").split()


def whole_lines(file):
    """The words of each whole line of a file but the first."""
    with open(file, "rb") as text:
        return [it.split() for it in text.read(1 << 21).decode("utf-8", "replace").split("\n")[1:-1]]


def content(file, most=1 << 21):
    """The first bytes of a file: more than any plant or plan may have."""
    with files.plain(file) as data:
        return data.read(most)


class Run:
    """A run that has ended: its status, the first line that it put, and its words."""

    def __init__(self, status, out, words):
        self.status, self.out, self.line, self.words = status, out, first_line(out), words
        self.form = forms.form_of(words) or {}
        self.command = words[0] if words else ""

    def root(self):
        """The plant's document."""
        return Document(content(self.form["PLANT"])).root

    def said(self):
        """The sentences, or nothing."""
        teller = getattr(self, f"status_{self.status}", None)
        return ((teller() if teller else None) or row("status", self.status)).strip()

    def status_0(self):
        return self.conflict() if self.line[:2] == ["#", "conflict"] else " "

    def conflict(self):
        """Deliveries that can't be met together, and whether outages are to blame."""
        return orders.said(whole_lines(self.out), Plant(self.root()), self.form["PLANT"], self.form["BUDGET"])

    def broken(self, words, before=None):
        """What a plan breaks, of which these words speak."""
        return plans.Broken(self.root(), content(self.form["PLAN"]), self.form["PLAN"], words, before)

    def status_1(self):
        if self.line[:1] == ["broken"]:
            return self.broken(self.line[1:], int(self.form["PERIOD"]) if "PERIOD" in self.form else None).said()
        if self.line[:1] == ["violations"]:
            return self.broken([]).all_said(int(self.line[1]), whole_lines(self.out))
        if self.line[:1] == ["no"]:
            return self.no()
        if self.line[:2] == ["#", "no-horizon"]:
            return row("answer", "no horizon")
        return answers.infeasible(self.command) if self.line[:2] == ["#", "infeasible"] else None

    def no(self):
        """A log that is not valid: of the words, of a horizon or of a part."""
        numbers = [int(it) for it in self.line[1:]]
        if self.command == "check-conflict":
            return orders.objection(self.form["STEM"], *numbers)
        file = f"{self.form['STEM']}.{numbers.pop(0)}" if "STEM" in self.form else self.form["LOG"]
        return logs.said(file, *numbers, None if self.command == "check-least" else self.root(), "no of merge" if self.command == "merge" else "no at P")

    def status_2(self):
        return forms.refused(self.words)

    def status_3(self):
        return faults.Fault(content(self.form["PLANT"]), self.form["PLANT"], self.line[2:]).said()

    def status_4(self):
        plant = Plant(self.root())
        return plans.refused(plant, content(self.form["PLAN"]), self.form["PLAN"], int(self.line[2]), int(self.line[3]))

    def status_5(self):
        if self.line[1:2] == ["state"]:
            return self.no_state()
        if self.line[1:2] == ["period"]:
            periods = Plant(self.root()).periods
            return sentences(f"PERIOD is {self.form['PERIOD']}, and the plant has the periods 0 to {periods - 1}", do("answer", "period"))
        if self.line[1:2] == ["roll"]:
            return row("answer", "roll")
        slots = sum(len(it) for it in Plant(self.root()).slots())
        return sentences(f"LEVELS is {self.form['LEVELS']}, and the plant has {slots} slots alone", do("answer", "levels"))

    def no_state(self):
        """STATE has no limits, or is no state."""
        plant, name = Plant(self.root()), self.form["STATE"]
        states = plant.states
        limited = [plant.called("state", it) for it, table in states.items() if "limit" in table.held or "limits" in table.held]
        why = f"the state `{plant.called('state', name)}` has no limit" if name in states else f"the plant has no state `{short(name, 40)}`{meant(name, states)}"
        return sentences(why, f"With limits are {listed(limited)}" if limited else "No state of the plant has a limit")

    def status_6(self):
        budget = self.form.get("BUDGET", "")
        if self.line[:2] == ["#", "budget-spent"]:
            return answers.spent(self.line[2:4], budget, self.form.get("SECONDS", ""))
        if self.line[:2] == ["#", "conflict"]:
            return self.conflict()
        if self.line == ["#", "open"]:
            return row("answer", "not settled")
        if self.line[:2] == ["#", "open"]:
            return sentences(f"no plan is feasible within fewer than {self.line[2]} periods, and at {self.line[2]} the budget was spent before a plan was found",
                             do("answer", "open"))
        return row("answer", "demo") if self.command == "demo" else None

    def status_7(self):
        return files.not_read(self.words)

    def status_8(self):
        return files.not_written(self.words)


def main():
    status, out, words = int(sys.argv[1]), sys.argv[2], sys.argv[5:]
    said = Run(status, out, words).said()
    if said:
        print("\n".join("stn: " + it for it in said.split("\n")))


main()
