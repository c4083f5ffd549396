"""Plans: lists of batches."""
from dataclasses import dataclass
from pathlib import Path

from .errors import NotInstalled, StnError
from .files import write_whole


@dataclass(frozen=True)
class Batch:
    """The start of a batch.

    period: the period in which it starts, from 0.
    unit, task: names of the plant.
    quanta: its size, in quanta of the task.
    """

    period: int
    unit: str
    task: str
    quanta: int

    def line(self):
        """The line of a plan file."""
        return f"{self.period} {self.unit} {self.task} {self.quanta}"

    @classmethod
    def of(cls, line):
        """The batch of a line that the program printed."""
        period, unit, task, quanta = line.split(" ")
        return cls(int(period), unit, task, int(quanta))


class Plan(list):
    """A list of batches, and the plant that it is a plan of (nothing where none is known).

    It can be changed as any list; whether it is feasible then, `Plant.simulate` asks the program.
    """

    def __init__(self, batches=(), plant=None):
        super().__init__(it if isinstance(it, Batch) else Batch(*it) for it in batches)
        self.plant = plant

    @classmethod
    def read(cls, path, plant=None):
        """The plan of a plan file that the program takes; comments are left out."""
        try:
            return cls.of(Path(path).read_text(encoding="utf-8"), plant)
        except ValueError as fault:
            raise StnError(f"{path} is no plan file ({fault}); `Plant.simulate` of its name has the program say what is wrong") from None

    @classmethod
    def of(cls, text, plant=None):
        """The plan of a text that the program put, or takes."""
        return cls((Batch.of(it) for it in text.splitlines() if not it.startswith("#")), plant)

    def text(self):
        """The plan as a plan file."""
        return "".join(f"{it.line()}\n" for it in self)

    def save(self, path):
        """Writes a plan file."""
        write_whole(path, self.text().encode())

    def table(self):
        """The batches as dictionaries: as in the plan file, and, where the plant is known, the time at which each ends and its mass.

        end: period plus the longest delay of the task's outputs. mass: quanta times the task's quantum, in mass units.
        """
        tasks = {it.name: it for it in self.plant.task} if self.plant else {}
        rows = []
        for it in self:
            row = {"period": it.period, "unit": it.unit, "task": it.task, "quanta": it.quanta}
            if it.task in tasks:
                row["end"] = it.period + max((out.delay for out in tasks[it.task].output), default=0)
                row["mass"] = it.quanta * tasks[it.task].quantum
            rows.append(row)
        return rows

    def frame(self):
        """The table as a frame of pandas, where pandas is installed."""
        try:
            import pandas
        except ImportError:
            raise NotInstalled("frame() needs pandas (Debian: python3-pandas); table() gives the same rows as dictionaries") from None
        columns = ["period", "unit", "task", "quanta"] + (["end", "mass"] if self.plant else [])
        return pandas.DataFrame(self.table(), columns=columns)

    def _repr_svg_(self):
        """The program's picture, for notebooks; nothing where the program draws none."""
        try:
            return self.plant.picture(self).svg if self.plant else None
        except StnError:
            return None
