#!/usr/bin/env python3
"""A second checker of proof logs: answers what `stn` answers to these words, with its status.

    python3 tools/check_log.py PLANT LOG
    python3 tools/check_log.py check PLANT LOG
    python3 tools/check_log.py check-replan PLANT PLAN PERIOD LOG
    python3 tools/check_log.py whatif PLANT LOG STATE STEP COUNT
    python3 tools/check_log.py join PLANT LEVELS STEM LOG
    python3 tools/check_log.py merge PLANT STEM COUNT OUT

Written from docs/model.md and docs/formats.md alone, apart from the proved program, so that an auditor can have both
read a log. It needs Python 3.11 and nothing else, counts in whole numbers, and is no part of what is proved. With
`--ahead` as the first word it also reads what the program does not read yet: nothing today.

The text of a log is read in log_text.py, what its head declares is in declared.py, log_judge.py judges it, log_uses.py has
`whatif` and `join`, and log_merge.py `merge`; plant files are read in plant_program.py, which also makes the rows, and plan files in plan_file.py.
"""

import re
import sys
from pathlib import Path

from log_judge import judge
from log_merge import merged, read_logs
from log_text import Defect, LogText
from log_uses import BadPart, joined, read_parts, whatif_lines
from plan_file import Broken, PlanRefused, kept_root, read_plan
from plant_program import BILLION, Refused, program_of, read_plant

GREATEST_OLD_LOG = 67_108_864


def judged(program, data, ahead, root=None):
    """A valid log over the program of a plant, or Defect."""
    log = LogText(data, program, ahead).read()
    judge(log, program, root)
    return log


class Answer:
    """Answers the words of a command. `read` and `write` reach files by their names."""

    def __init__(self, read, write=None, ahead=False):
        self.read, self.write, self.ahead = read, write, ahead

    def of(self, words):
        """The text, without its last line feed, and the status."""
        name, *others = words or [""]
        form = FORMS.get(name)
        if form is None or len(form[1]) != len(others) or not all(fits(others) for fits, others in zip(form[1], others)):
            return "refused words", 2
        try:
            return form[0](self, *others)
        except Refused as fault:
            return f"refused plant {fault}", 3
        except PlanRefused as fault:
            return f"refused plan {fault}", 4
        except (BadPart, Defect) as defect:
            return f"no {defect}", 1
        except Broken as broken:
            return f"broken {broken}", 1

    def program(self, plant):
        """The program of the plant in a file."""
        return program_of(read_plant(self.read(plant)))

    def check(self, plant, log):
        """What a valid log claims of all plans of a plant."""
        return f"yes {judged(self.program(plant), self.read(log), self.ahead).claim}", 0

    def check_replan(self, plant, plan, period, log):
        """What a valid log claims of the plans that keep the starts before the period."""
        program = self.program(plant)
        root = kept_root(program, read_plan(self.read(plan), program.plant), int(period))
        return f"yes {judged(program, self.read(log), self.ahead, root).claim}", 0

    def whatif(self, plant, log, state, step, count):
        """What the proof of a valid log still says where the limits of a state are raised."""
        program = self.program(plant)
        tanks = [it.name if it.limits is not None else None for it in program.plant.states]
        if state not in tanks:
            return "refused state", 5
        data = self.read(log)
        if len(data) > GREATEST_OLD_LOG:
            raise Defect(0, 17)
        old = judged(program, data, self.ahead)
        return "\n".join([f"whatif {state}", *whatif_lines(program, old, tanks.index(state), int(step), int(count))]), 0

    def join(self, plant, levels, stem, log):
        """One log of the plant from the logs of all parts."""
        program, levels = self.program(plant), int(levels)
        if log in (plant, *(f"{stem}.{part}" for part in range(2**levels))):
            return "refused words", 2
        if levels > len(program.slots):
            return "refused levels", 5
        claim, text = joined(program, read_parts(program, levels, lambda part: self.read(f"{stem}.{part}"), self.ahead))
        self.write(log, text)
        return f"joined {claim}", 0

    def merge(self, plant, stem, count, out):
        """One log of the plant from several."""
        if out in (plant, *(f"{stem}.{number}" for number in range(256))):
            return "refused words", 2
        program = self.program(plant)
        claim, text = merged(program, read_logs(program, int(count), lambda number: self.read(f"{stem}.{number}"), self.ahead))
        self.write(out, text)
        return f"merged {claim}", 0


def whole(least, most):
    """Whether a word is a whole number within these, as it is written here."""
    return lambda word: bool(re.fullmatch("0|-?[1-9][0-9]{0,9}", word, re.ASCII)) and least <= int(word) <= most


# What answers a command, and what its words have to be: a word that is not empty, or a number.
FORMS = {
    "check": (Answer.check, (bool, bool)),
    "check-replan": (Answer.check_replan, (bool, bool, whole(0, 336), bool)),
    "whatif": (Answer.whatif, (bool, bool, bool, whole(-BILLION, BILLION), whole(1, 50))),
    "join": (Answer.join, (bool, whole(1, 8), bool, bool)),
    "merge": (Answer.merge, (bool, bool, whole(1, 256), bool)),
}


def main(words):
    """Reads the files of the words, and puts the answer."""
    ahead = words[:1] == ["--ahead"]
    words = words[ahead:]
    write = lambda name, data: Path(name).write_bytes(data)
    try:
        answer = Answer(lambda name: Path(name).read_bytes(), write, ahead)
        text, status = answer.of(["check", *words] if len(words) == 2 else words)
    except OSError:
        return 7
    print(text)
    return status


if __name__ == "__main__":
    sys.exit(main(sys.argv[1:]))
