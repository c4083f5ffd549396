"""What can go wrong, each as an exception whose text says what to do."""
from dataclasses import dataclass, field


class StnError(Exception):
    """Any of the faults below."""


class ProgramMissing(StnError):
    """No program was found, or what was named cannot be run."""


class OutOfTime(StnError):
    """The program ran longer than `timeout` seconds and was ended."""


class NoCommand(StnError):
    """The program that was found does not have the command."""


class NotInstalled(StnError):
    """An optional library (openpyxl, pandas) is not there."""


@dataclass
class ProgramEnded(StnError):
    """The program ended in a way that is no answer.

    status: what it ended with; below 0 the number of the signal that ended it.
    sentence: what that means and what to do.
    """

    status: int
    sentence: str

    def __str__(self):
        return self.sentence


@dataclass
class Refused(StnError):
    """The program refused what it was given.

    subject: `plant`, `plan`, `words`, `state`, `levels`, `period` or `roll`, as in docs/formats.md.
    kind: the number of the fault there; nothing but for `plant` and `plan`.
    place: table, item, inner item and key of a plant's fault, items from 1 and 0 for none; else nothing.
    file: the file that has the fault; nothing for what was made in Python.
    line, column: where in that file, or in `text`, the text that the program was given; a sheet's column is its name.
    sentence: what is wrong and what to do, as the wrapper's table of texts has it.
    """

    subject: str
    kind: int | None = None
    place: tuple[str, int, int, str] | None = None
    file: str | None = None
    line: int | None = None
    column: int | str | None = None
    sentence: str = ""
    text: str | None = field(default=None, repr=False)

    def __str__(self):
        where = [self.file or (f"the {self.subject}" if self.line else "")]
        where += [f"line {self.line}"] if self.line else []
        where += [f"column {self.column}"] if self.column else []
        said = ", ".join(it for it in where if it)
        return f"{said}: {self.sentence}" if said else self.sentence


@dataclass
class BrokenPlan(StnError):
    """The plan is not feasible, and what was asked needs one that is.

    kind: `unfit`, `busy`, `gap`, `stock-low`, `stock-high` or `load`.
    places: what follows in the program's line: places of the plan from 1 (0 in `gap`: the batch that held the unit before), or a
        state and a time, or a utility and a period.
    """

    kind: str
    places: list[int | str]
    sentence: str

    def __str__(self):
        return self.sentence


@dataclass
class InvalidLog(StnError):
    """A log is not valid for the plant, and what was asked needs one that is.

    line, kind: its first defect, as in docs/formats.md.
    """

    line: int
    kind: int
    sentence: str

    def __str__(self):
        return f"line {self.line} of the log: {self.sentence}"


@dataclass
class GridFault(StnError):
    """A number that the grid does not hold.

    what: whose number it is.
    number: the number.
    grid: the grid that was named.
    would: the coarsest grid that holds it and lies in the one that was named, where there is one.
    """

    what: str
    number: object
    grid: object
    would: object | None
    sentence: str

    def __str__(self):
        return self.sentence


@dataclass
class SheetFault(StnError):
    """A workbook or a folder of CSV files that is no set of tables.

    file: the workbook or folder; sheet: the table; line, column: where in it, from 1 and by name.
    """

    file: str
    sentence: str
    sheet: str | None = None
    line: int | None = None
    column: str | None = None

    def __str__(self):
        where = [self.file]
        where += [f"sheet {self.sheet}"] if self.sheet else []
        where += [f"line {self.line}"] if self.line else []
        where += [f"column {self.column}"] if self.column else []
        return f"{', '.join(where)}: {self.sentence}"
