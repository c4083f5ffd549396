"""Planning for some seconds: a first log, then slices of `resume`, each going on from the last whole log."""
import time

from .errors import OutOfTime

MOST = 100_000


def solve(question, seconds):
    """The lines of the last answer; its log is `proof.log`. The first one, of one box, is always let end."""
    begun = time.monotonic()
    ran = question.ask("solve", "plant.toml", 1, "proof.log")
    budget, deadline = 1, question.timeout
    while ran.status == 6 and (left := seconds - (time.monotonic() - begun)) > 0:
        slice_begun = time.monotonic()
        question.timeout = left + seconds / 10
        try:
            ran = question.ask("resume", "plant.toml", "proof.log", budget, "next.log")
        except OutOfTime:
            break
        finally:
            question.timeout = deadline
        (question.folder / "next.log").replace(question.folder / "proof.log")
        budget = next_budget(budget, time.monotonic() - slice_begun, seconds - (time.monotonic() - begun))
    return ran.lines()


def next_budget(budget, took, left):
    """As many boxes as half of the time that is left is good for by the pace so far, at most ten times as many as before."""
    return max(1, min(MOST, 10 * budget, int(budget * left / 2 / max(took, 0.001))))
