#!/usr/bin/env python3
"""Checks the tables of plans: one plan of each example plant, each of the five tables.

    python3 tools/check_tables.py [PROGRAM]      # a line for each table that is not as it should be, and a count

PROGRAM is the built program, else the environment's STN, else crates/stn/out/stn. A table is read by Python's csv reader: its columns
and the number of its lines have to be right, and its cells those that plan_tables.py makes of the same files. Where LibreOffice is
installed it reads each table too, and has to find the same cells but for dates.
"""
import csv, glob, io, os, shutil, subprocess, sys, tempfile, tomllib

TOP = os.path.dirname(os.path.dirname(os.path.abspath(__file__)))
sys.path.insert(0, os.path.join(TOP, "tools"))
sys.dont_write_bytecode = True
from plan_tables import HEADS, Tables, head_of

PROGRAM = (sys.argv[1:] or [os.environ.get("STN", os.path.join(TOP, "crates", "stn", "out", "stn"))])[0]
OFFICE = shutil.which("soffice") or shutil.which("libreoffice")


def run(*words):
    return subprocess.run([PROGRAM, *words], capture_output=True, timeout=120)


def plan_of(plant, room):
    """The plan that stands beside a plant, else a file with that which `solve` finds with a thousand boxes, or nothing where it finds none."""
    kept = plant.removesuffix(".toml") + ".plan"
    if os.path.exists(kept):
        return kept
    ran = run("solve", plant, "1000")
    if ran.returncode not in (0, 6) or ran.stdout.startswith(b"# budget-spent -"):
        return None
    path = os.path.join(room, os.path.basename(plant) + ".plan")
    with open(path, "wb") as out:
        out.write(ran.stdout)
    return path


def lines_wanted(kind, plant, plan):
    """How many lines a table has behind its head."""
    periods = plant["periods"]
    return {
        "batches": sum(not line.startswith("#") for line in plan.splitlines()),
        "stocks": len(plant.get("state", [])) * (periods + 1),
        "loads": len(plant.get("utility", [])) * periods,
        "units": len(plant.get("unit", [])),
        "deliveries": len(plant.get("delivery", [])),
    }[kind]


def wrong_rows(kind, rows, plant, plan):
    """What is wrong with the rows of a table."""
    head, *lines = rows or [[]]
    if head != head_of(kind, "start" in plant).split(","):
        yield f"its columns are {head}"
    if any(len(line) != len(head) for line in lines):
        yield "a line has another number of cells than the head"
    if len(lines) != lines_wanted(kind, plant, plan):
        yield f"it has {len(lines)} lines in the place of {lines_wanted(kind, plant, plan)}"
    if kind == "units" and any(sum(map(int, line[1:5])) != plant["periods"] for line in lines):
        yield "the periods of a unit are not those of the horizon"


def office_rows(text, room):
    """The cells that LibreOffice reads of a table: it prints them anew."""
    with open(os.path.join(room, "table.csv"), "wb") as out:
        out.write(text)
    home, made = f"-env:UserInstallation=file://{room}/office", os.path.join(room, "made")
    subprocess.run([OFFICE, home, "--headless", "--convert-to", "csv", "--outdir", made, os.path.join(room, "table.csv")],
                   capture_output=True, timeout=120, check=True)
    with open(os.path.join(made, "table.csv"), encoding="utf-8", newline="") as it:
        return list(csv.reader(it))


def undated(rows):
    """The rows without the two columns of dates, which LibreOffice may print in another form."""
    return [row[: -2 if rows[0][-2:] == ["from", "to"] else None] for row in rows]


def check_table(kind, plant, path, plan, room):
    """What is wrong with a table."""
    ran = run("table", plant, path, *([] if kind == "batches" else [kind]))
    if ran.returncode or ran.stderr:
        yield f"the program ends with {ran.returncode}: {ran.stdout + ran.stderr!r}"
        return
    rows = list(csv.reader(io.StringIO(ran.stdout.decode(), newline="")))
    with open(plant, "rb") as it:
        data = it.read()
    yield from wrong_rows(kind, rows, tomllib.loads(data.decode()), plan)
    if ran.stdout.decode() != Tables(data, plan).text(kind):
        yield "it is not what tools/plan_tables.py makes"
    if OFFICE and undated(office_rows(ran.stdout, room)) != undated(rows):
        yield "LibreOffice reads other cells"


def main():
    count, bad = 0, []
    with tempfile.TemporaryDirectory() as room:
        for plant in sorted(glob.glob(os.path.join(TOP, "examples", "*.toml"))):
            path = plan_of(plant, room)
            if path is None:
                continue
            with open(path, encoding="utf-8") as it:
                plan = it.read()
            for kind in HEADS:
                count += 1
                bad += [f"{os.path.basename(plant)}, {kind}: {it}" for it in check_table(kind, plant, path, plan, room)]
    print(*bad, sep="\n", end="\n" if bad else "")
    print(f"check_tables: {count} tables" + ("" if OFFICE else ", LibreOffice is not installed"))
    sys.exit(1 if bad or not count else 0)


if __name__ == "__main__":
    main()
