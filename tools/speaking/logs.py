"""What the defect of a proof log is: `no LINE KIND`, also of the log of a horizon or of a part."""
from speaking.files import plain
from speaking.plant import Plant
from speaking.texts import do, grouped, means, sentences, short

ADVICE = "A log is made for one plant file: check that neither was changed, or write the log anew"


def line_of(file, number):
    """A line of a file, read up to it alone, and whether it ends with a line feed."""
    with plain(file) as lines:
        for at in range(number):
            line = lines.readline(4096)
            while at < number - 1 and line and not line.endswith(b"\n"):
                line = lines.readline(65536)
    return line.decode("utf-8", "replace")


def claim_of(file):
    """The claim line of a log."""
    with plain(file) as lines:
        return next((it.decode("utf-8", "replace").strip() for it in lines if it.startswith(b"claim ")), "")


def sizes(root):
    """How many rows and slots the program of a plant has."""
    plant = Plant(root)
    limited = sum("limit" in it.held or "limits" in it.held for it in plant.states.values())
    rows = (len(plant.units) + len(plant.utilities)) * plant.periods
    rows += (len(plant.states) + limited) * (plant.periods + 1) + sum(plant.pairs().values())
    return rows, sum(len(it) for it in plant.slots())


def sums_before(file, number):
    """How many sums a log declares before a line."""
    with plain(file) as lines:
        return sum(line.startswith(b"sum ") for at, line in enumerate(lines, 1) if at < number)


def range_of(root, file, kind, number):
    """Which rows or slots there are, where the plant's own program is meant."""
    if root is None or kind not in (4, 5):
        return ""
    rows, slots = sizes(root)
    sums = sums_before(file, number)
    last = (rows + 2 * sums if kind == 4 else slots + sums) - 1
    return f": there are {'rows' if kind == 4 else 'slots'} 0 to {grouped(last)}" + (f", with those of {sums} sums" if sums else "")


def said(file, number, kind, root=None, other="no at P"):
    """The log's line and what it breaks, in sentences; `other` is the row that says what to do where its head is another."""
    what = means("log", kind)
    if kind == 19:
        return sentences(f"{file}: {what}: `{short(claim_of(file), 60)}`", do("answer", "no at G"))
    if number == 0:
        return sentences(f"{file}: {what}")
    line = line_of(file, number)
    if kind == 1:
        what = "the line has more than 200 bytes" if len(line.rstrip("\n")) > 200 else what
    where = f"{file}, line {number}" + (f", `{short(line.rstrip(chr(10)))}`" if line.strip() else ", which is empty" if line else ", the end of the file")
    return sentences(f"{where}: {what}{range_of(root, file, kind, number)}", do("answer", other) if kind == 22 else ADVICE)
