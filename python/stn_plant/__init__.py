"""Plants of the proved batch scheduler `stn` from Python: records, questions to the program, and converters.

    from stn_plant import Plant
    plant = Plant.read("examples/five.toml")
    answer = plant.solve(boxes=2000)
    print(answer.status, answer.profit, answer.cap)

The program does all planning and checking; this package writes its files and reads its answers, and claims nothing beyond them.
"""
from .answers import Claim, Least, Picture, Report, Rolled, Solution, Standing, Tank, Violation
from .errors import (BrokenPlan, GridFault, InvalidLog, NoCommand, NotInstalled, OutOfTime, ProgramEnded, ProgramMissing, Refused,
                     SheetFault, StnError)
from .files import Log
from .notebooks import Grid, from_dictionary
from .plan import Batch, Plan
from .plant import Delivery, Draw, Gap, Input, Outage, Output, Plant, Receipt, Run, State, Task, Unit, Utility
from .sheets import read_csv, read_workbook, write_csv, write_workbook

__all__ = [
    "Batch", "BrokenPlan", "Claim", "Delivery", "Draw", "Gap", "Grid", "GridFault", "Input", "InvalidLog", "Least", "Log", "NoCommand",
    "NotInstalled", "OutOfTime", "Outage", "Output", "Picture", "Plan", "Plant", "ProgramEnded", "ProgramMissing", "Receipt", "Refused",
    "Report", "Rolled", "Run", "SheetFault", "Solution", "Standing", "State", "StnError", "Tank", "Task", "Unit", "Utility",
    "Violation", "from_dictionary", "read_csv", "read_workbook", "write_csv", "write_workbook",
]
