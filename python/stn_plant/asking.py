"""One question to the program: its files in a folder of its own, its run, and what of its answer is a refusal."""
import functools, os, re, tempfile
from pathlib import Path

from . import program as programs
from .errors import BrokenPlan, InvalidLog, NoCommand, ProgramEnded, Refused
from .answers import log_path, places
from .plan import Plan
from .sentences import said

REFUSALS = {2: "words", 3: "plant", 4: "plan", 5: "state"}


class Question:
    """A folder with the files of a question, the plant as `plant.toml`; it goes when the question is answered."""

    def __init__(self, plant=None, timeout=None):
        self.program, self.timeout = programs.find(), timeout
        self.plant_text = plant if plant is None or isinstance(plant, str) else plant.text()
        self.room = tempfile.TemporaryDirectory(prefix="stn-")
        self.folder = Path(self.room.name)

    def __enter__(self):
        if self.plant_text is not None:
            (self.folder / "plant.toml").write_text(self.plant_text, encoding="utf-8")
        return self

    def __exit__(self, kind, fault, trace):
        self.room.cleanup()

    def plan(self, plan):
        """The word for a plan: the file that is named, or one with the batches that are given."""
        if isinstance(plan, (str, os.PathLike)):
            return str(Path(plan).absolute())
        (self.folder / "plan.txt").write_text(Plan(plan).text(), encoding="utf-8")
        return "plan.txt"

    def log(self, log):
        """The word for a log: its file, or one with the bytes that are given."""
        if isinstance(log, (bytes, bytearray)):
            (self.folder / "given.log").write_bytes(log)
            return "given.log"
        return log_path(log)

    def ask(self, *words, no=False):
        """Runs the program. A refusal is raised; so is a `broken` or a `no`, but where the caller takes it as the answer."""
        words = [str(it) for it in words]
        ran = self.program.run(words, self.folder, self.timeout)
        first = (ran.lines() or [""])[0].split(" ")
        if ran.status == 1 and first[0] in ("broken", "no") and not no:
            raise self.no(first, self.said(ran, words).text)
        if ran.status in REFUSALS:
            raise self.refused(ran, words, first)
        if ran.status in (7, 8, 9):
            raise ProgramEnded(ran.status, self.said(ran, words).text)
        return ran

    def said(self, ran, words):
        return said(self.program, ran, words, self.folder)

    def no(self, first, sentence):
        if first[0] == "broken":
            return BrokenPlan(first[1], places(first[2:]), sentence)
        return InvalidLog(int(first[1]), int(first[2]), sentence)

    def refused(self, ran, words, first):
        """The refusal of a run, by its first line."""
        told = self.said(ran, words)
        subject = first[1] if len(first) > 1 else REFUSALS[ran.status]
        number = int(first[2]) if len(first) > 2 else None
        place = (first[3], int(first[4]), int(first[5]), first[6]) if subject == "plant" else None
        line = int(first[3]) or None if subject == "plan" else told.line
        return Refused(subject, number, place, self.file_of(subject, words), line, told.column, told.text,
                       self.plant_text if subject == "plant" else None)

    def file_of(self, subject, words):
        """The user's file that is refused, or nothing where Python made it."""
        file = words[1 if subject == "plant" else 2] if subject in ("plant", "plan") else None
        return None if file in ("plant.toml", "plan.txt") else file

    def wants(self, command, *words, instead):
        """Asks the program whether it has a command: of files that are not there it can say 7 only where it has the form."""
        if not has_form(self.program, command, words):
            raise NoCommand(f"the program that was found, `{self.program.words[0]}`, has no command `{command}`; {instead}")


@functools.lru_cache(maxsize=64)
def has_form(program, command, words):
    """Whether a program has a form; the words name files that are not there."""
    with tempfile.TemporaryDirectory(prefix="stn-") as folder:
        return program.run([command, *words], folder, 60).status != 2


def logs_of(folder, stem):
    """The logs STEM.1, STEM.2 .. of a folder, by number."""
    found = {}
    for file in sorted(folder.iterdir()):
        named = re.fullmatch(re.escape(stem) + r"\.(\d+)", file.name)
        if named:
            found[int(named.group(1))] = file
    return dict(sorted(found.items()))
