"""Deliveries that can't be met together: which they are, and whether the outages are to blame."""
import os, re, subprocess, tempfile

from speaking import logs
from speaking.texts import count, do, grouped, listed, means, sentences, short

KINDS = {1: "it is missing, one too many, or no line of this form", 2: "it is not the line of a delivery of this plant",
         3: "its number is not above that of the line before"}


def said(lines, plant, file, budget):
    """`# conflict N` with its lines, as sentences; the plant stands in the file."""
    if not lines:
        return sentences(means("answer", "none left"), do("answer", "none left"), without_outages(file, budget))
    named = [f"{grouped(int(it[4]))} of {plant.called('state', it[2])} at time {it[3]} (delivery {it[1]})" for it in lines]
    opened = [it[1] for it in lines if it[5:] == ["open"]]
    first = f"{listed(named)} can't be met together" if len(lines) > 1 else f"{named[0]} can't be met by itself"
    others = "Without any one of them the others can" if not opened and len(lines) > 1 else ""
    unknown = f"Whether the others can without delivery {listed(opened)} is open: more boxes may tell" if opened else ""
    return sentences(first, others, unknown, do("answer", "conflict"), without_outages(file, budget))


def without_outages(plant, budget):
    """Whether the plant without its outages has a plan; nothing where it has no outage, or that can't be found out."""
    program = os.environ.get("STN_PROGRAM", "")
    if not program:
        return ""
    text = subprocess.run([program, "upgrade", plant], capture_output=True, text=True, check=True).stdout
    tables = re.split(r"(?m)^(?=\[\[)", text)
    outages = sum(it.startswith("[[outage]]") for it in tables)
    if not outages:
        return ""
    with tempfile.TemporaryDirectory() as folder:
        file = os.path.join(folder, "plant.toml")
        with open(file, "w", encoding="utf-8") as whole:
            whole.write("".join(it for it in tables if not it.startswith("[[outage]]")))
        answer = subprocess.run([program, "solve", file, budget], capture_output=True, text=True, check=False).stdout.split()
    if answer[1:2] == ["infeasible"]:
        return f"Without the {count(outages, 'outage')} of the plant no plan meets all deliveries either"
    if answer[1:2] == ["optimal"] or answer[1:2] == ["budget-spent"] and answer[2] != "-":
        return f"Without the {count(outages, 'outage')} of the plant a plan meets all deliveries"
    return f"Whether a plan meets all deliveries without the {count(outages, 'outage')} of the plant is open"


def objection(stem, file, line, kind):
    """`no 0 LINE KIND` or `no 1 LINE KIND`: what speaks against the text or the log of a stem."""
    if file == 1:
        return logs.said(f"{stem}.1", line, kind, None)
    where = f"line {line} of the answer `{short(stem, 60)}.0` can't stand there: {KINDS[kind]}" if line else f"the answer `{short(stem, 60)}.0` is too long"
    return sentences(where, do("answer", "no at STEM"))
