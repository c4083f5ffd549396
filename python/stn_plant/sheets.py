"""Plants in tables: a folder of CSV files, or an .xlsx workbook (with openpyxl). A file or sheet a table, a line an item.

The first line of a table names its columns, by the keys of docs/formats.md; the inner tables `input`, `output` and `draw` have a column
`task` besides. A list stands in one cell, its numbers with blanks between; an empty cell is a key that is left out. What the tables
mean, and whether they are a plant, the program says; a refusal names the table's line and column.
"""
import csv, dataclasses, difflib, os, re, shutil, tempfile
from datetime import datetime, timedelta
from fractions import Fraction
from pathlib import Path

from . import toml_text
from .asking import Question
from .errors import GridFault, NotInstalled, Refused, SheetFault
from .files import whole_file
from .notebooks import exact
from .plant import Draw, Input, Output, Plant, key_of, kinds_of
from .plant import Task as TaskRecord

INNER = {"input": Input, "output": Output, "draw": Draw}
OUTER = kinds_of(Plant)
NEEDED = ("plant", "state", "unit", "task", "input", "output", "run")
NUMBER = re.compile(r"[+-]?[0-9]{1,30}")
DECIMAL = re.compile(r"[+-]?[0-9]{0,30}\.?[0-9]{1,30}(?:[eE][+-]?[0-9]{1,3})?")


def columns(table):
    """The columns of a table, each with its type: `whole`, `list`, `part`, `date` or `text`."""
    if table == "plant":
        return {"version": "whole", "periods": "whole", "start": "date", "minutes": "whole"}
    cls = INNER.get(table) or OUTER[table]
    found = {"task": "text"} if table in INNER else {}
    for each in dataclasses.fields(cls):
        if not (cls is TaskRecord and each.name in INNER):
            found[key_of(each.name)] = kind_of(each)
    return found


def kind_of(each):
    if each.name == "part":
        return "part"
    return "list" if "list" in str(each.type) else "text" if "str" in str(each.type) else "whole"


TABLES = {name: columns(name) for name in ("plant", "state", "utility", "unit", "task", "input", "output", "draw", "run", "gap", "receipt",
                                           "delivery", "outage")}


class Book:
    """Tables that were read: for each its lines, as pairs of a line's number and what stands in it by column."""

    def __init__(self, file):
        self.file, self.tables = str(file), {}

    def fault(self, sentence, sheet=None, line=None, column=None):
        return SheetFault(self.file, sentence, sheet, line, column)

    def add(self, name, rows):
        """A table of rows: pairs of a number and cells, the first of them the names of the columns."""
        table = name.strip().lower()
        if name.startswith("#"):
            return
        if table not in TABLES:
            near = difflib.get_close_matches(table, TABLES, 1)
            hint = f" (did you mean `{near[0]}`?)" if near else ""
            raise self.fault(f"the sheet is none of {', '.join(TABLES)}{hint}; begin its name with # where it is a note", name)
        if table in self.tables:
            raise self.fault(f"two sheets are named `{table}`: leave one of them", name)
        rows = [(number, [None if is_empty(it) else it for it in cells]) for number, cells in rows]
        rows = [(number, cells) for number, cells in rows if any(it is not None for it in cells)]
        self.tables[table] = [(number, self.items(table, number, rows[0][1], cells)) for number, cells in rows[1:]] if rows else []

    def items(self, table, number, head, cells):
        """What stands in a line, by column."""
        names = [it.strip() if isinstance(it, str) else it for it in head]
        found = {}
        for at, cell in enumerate(cells):
            name = names[at] if at < len(names) else None
            if cell is None:
                continue
            if not isinstance(name, str):
                raise self.fault(f"column {at + 1} has a cell here and no name in the first line", table, number)
            if names.count(name) > 1:
                raise self.fault("two columns have this name: leave one of them", table, number, name)
            found[name] = self.value(cell, TABLES[table].get(name, "whole"), table, number, name)
        return found

    def value(self, cell, kind, table, number, name):
        """A cell as a value of a plant file; what is none of its type is handed on as it is, for the program to refuse."""
        if kind == "date":
            return moment(cell)
        if not isinstance(cell, (str, int, float)):
            raise self.fault(f"the cell holds {cell!r}; a part such as 1/2 is to be written as a text, '1/2", table, number, name)
        if kind == "text":
            return cell.strip() if isinstance(cell, str) else cell
        if kind == "list":
            return [whole(it) for it in re.split(r"[\s,;]+", cell.strip())] if isinstance(cell, str) else [whole(cell)]
        try:
            return part(cell) if kind == "part" else whole(cell)
        except GridFault as fault:
            raise self.fault(str(fault), table, number, name) from None

    def document(self):
        """The tables as a plant file's."""
        for name in NEEDED:
            if name not in self.tables:
                raise self.fault(f"there is no sheet `{name}`; it should have the columns {', '.join(TABLES[name])} (and may have no line)", name)
        top = [it for _, it in self.tables["plant"]]
        if len(top) != 1:
            raise self.fault(f"the sheet has {len(top)} lines below its first, and one is wanted: version, periods and what else the plant has", "plant")
        found = {"version": 2, **top[0]}
        for name in OUTER:
            items = [dict(it) for _, it in self.tables.get(name, [])]
            if items:
                found[name] = items
        for name in INNER:
            self.put_inner(name, found.get("task", []))
        return found

    def put_inner(self, name, tasks):
        """The lines of an inner table, each to its task."""
        for task in tasks:
            if name != "draw":
                task[name] = []
        for number, it in self.tables.get(name, []):
            task = next((each for each in tasks if each.get("name") == it.get("task")), None)
            if task is None:
                raise self.fault(f"the sheet `task` has no task `{it.get('task', '')}`", name, number, "task")
            task.setdefault(name, []).append({key: value for key, value in it.items() if key != "task"})

    def line_of(self, table, item, inner):
        """The sheet and the line of a place that the program names."""
        if table == "top":
            return "plant", next((number for number, _ in self.tables["plant"]), None)
        outer = self.tables.get("task" if table in INNER else table, [])
        number, columns = outer[item - 1] if 1 <= item <= len(outer) else (None, {})
        if table not in INNER:
            return table, number
        lines = [number for number, it in self.tables.get(table, []) if it.get("task") == columns.get("name")]
        return (table, lines[max(1, inner) - 1]) if lines else ("task", number)

    def plant(self, timeout=None):
        """The plant of the tables; the program says whether they are one."""
        with Question(toml_text.document(self.document()), timeout) as question:
            try:
                return Plant.of_upgrade(question.ask("upgrade", "plant.toml").out)
            except Refused as fault:
                raise self.moved(fault) from None

    def moved(self, fault):
        """A refusal of the plant file that the tables made, at its place in the tables."""
        if fault.place is None:
            return fault
        table, item, inner, key = fault.place
        sheet, line = (key, None) if table == "top" and key in OUTER else self.line_of(table, item, inner)
        fault.file, fault.line, fault.column = f"{self.file}, sheet {sheet}", line, key if key != "-" else None
        fault.sentence = re.sub(r",? on line \d+,?", "", fault.sentence)
        return fault


def is_empty(cell):
    return cell is None or (isinstance(cell, str) and not cell.strip())


def whole(cell):
    """A cell as a whole number, where it is one; spreadsheets keep 5 as 5.0."""
    if isinstance(cell, str):
        text = cell.strip()
        return int(text) if NUMBER.fullmatch(text) else whole(float(text)) if DECIMAL.fullmatch(text) else text
    return int(cell) if isinstance(cell, float) and cell.is_integer() else cell


def moment(cell):
    """A cell as a date with a time of day, where it is one; spreadsheets have such cells, and count them in parts of a second."""
    try:
        cell = datetime.fromisoformat(cell.strip()) if isinstance(cell, str) else cell
    except ValueError:
        return cell
    if not isinstance(cell, datetime) or not cell.microsecond:
        return cell
    whole = (cell + timedelta(milliseconds=500)).replace(microsecond=0)
    return whole if abs(whole - cell) <= timedelta(milliseconds=1) else cell


def part(cell):
    """A cell as a part: `2/5` as it is, a number such as 0.4 as the fraction that it is."""
    if isinstance(cell, str) and not DECIMAL.fullmatch(cell.strip()):
        return cell.strip()
    found = exact("a part", float(cell) if isinstance(cell, str) else cell)
    return f"{found.numerator}/{found.denominator}"


def read_csv(folder, timeout=None):
    """The plant of a folder of CSV files: plant.csv, state.csv, unit.csv, task.csv, input.csv, output.csv, run.csv and, where there are
    any, utility.csv, draw.csv, gap.csv, receipt.csv, delivery.csv and outage.csv."""
    folder = Path(folder)
    book = Book(folder)
    if not folder.is_dir():
        raise book.fault("there is no such folder")
    for file in sorted(folder.glob("*.csv")):
        book.add(file.stem, csv_rows(book, file))
    return book.plant(timeout)


def csv_rows(book, file):
    """The lines of a CSV file, with commas or semicolons between the cells."""
    try:
        with open(file, encoding="utf-8-sig", newline="") as text:
            head = text.readline()
            text.seek(0)
            reader = csv.reader(text, delimiter=";" if ";" in head and "," not in head else ",")
            return [(reader.line_num, cells) for cells in reader]
    except UnicodeDecodeError:
        raise book.fault("the file is no UTF-8 text: save it as CSV with UTF-8", file.stem) from None
    except csv.Error as fault:
        raise book.fault(f"the file is no CSV: {fault}", file.stem) from None


def read_workbook(path, timeout=None):
    """The plant of an .xlsx workbook with the sheets plant, state, unit, task, input, output, run and, where there are any, utility, draw,
    gap, receipt, delivery and outage. Needs openpyxl."""
    openpyxl, book = library(), Book(path)
    formulas = opened(openpyxl, book, path, False)
    for sheet in opened(openpyxl, book, path, True):
        rows = [(number, list(cells)) for number, cells in enumerate(sheet.iter_rows(values_only=True), 1)]
        if not sheet.title.startswith("#"):
            look_for_formulas(book, sheet.title, rows, formulas[sheet.title])
        book.add(sheet.title, rows)
    return book.plant(timeout)


def look_for_formulas(book, title, rows, formulas):
    """A formula without a value would be read as an empty cell."""
    for number, cells in rows:
        for at, cell in enumerate(cells, 1):
            if cell is None and formulas.cell(number, at).value is not None:
                raise book.fault(f"the cell in column {at} has a formula without a value: open the workbook in a spreadsheet program and "
                                 "save it", title, number)


def opened(openpyxl, book, path, values):
    """The sheets of a workbook: their values, or their formulas."""
    if not Path(path).is_file():
        raise book.fault("there is no such file")
    try:
        loaded = openpyxl.load_workbook(path, data_only=values)
    except Exception as fault:  # openpyxl lets many kinds of faults of a broken file through
        raise book.fault(f"the file is no .xlsx workbook: {fault}") from None
    return loaded.worksheets if values else {it.title: it for it in loaded.worksheets}


def library():
    try:
        import openpyxl
    except ImportError:
        raise NotInstalled("workbooks need openpyxl (Debian: python3-openpyxl); read_csv and write_csv do without") from None
    return openpyxl


def lines(plant):
    """All tables of a plant: for each the names of its columns, then its lines."""
    document = plant.document()
    items = {"plant": [document], **{it: document.get(it, []) for it in OUTER}}
    for name in INNER:
        items[name] = [{"task": task["name"], **it} for task in document.get("task", []) for it in task.get(name, [])]
    return {name: [list(held)] + [[cell(it.get(key)) for key in held] for it in items[name]] for name, held in TABLES.items()}


def cell(value):
    """What a cell shows of a value."""
    if isinstance(value, (list, tuple)):
        return " ".join(str(it) for it in value)
    if isinstance(value, datetime):
        return value.isoformat()
    return f"{value.numerator}/{value.denominator}" if isinstance(value, Fraction) else value


def write_csv(plant, folder):
    """Writes a plant as a folder of CSV files, one for each table. Files of other names are left as they are."""
    folder = Path(folder)
    folder.parent.mkdir(parents=True, exist_ok=True)
    room = Path(tempfile.mkdtemp(prefix=f".{folder.name}.", dir=folder.parent))
    try:
        for name, rows in lines(plant).items():
            with open(room / f"{name}.csv", "w", encoding="utf-8", newline="") as text:
                csv.writer(text, lineterminator="\n").writerows(rows)
        folder.mkdir(exist_ok=True)
        for name in TABLES:
            os.replace(room / f"{name}.csv", folder / f"{name}.csv")
    finally:
        shutil.rmtree(room, ignore_errors=True)


def write_workbook(plant, path):
    """Writes a plant as an .xlsx workbook, a sheet for each table. Needs openpyxl."""
    book = library().Workbook()
    book.remove(book.active)
    for name, rows in lines(plant).items():
        sheet = book.create_sheet(name)
        for row in rows:
            sheet.append(row)
        # A text that begins with `=` is no formula.
        for text in (it for row in sheet for it in row if isinstance(it.value, str)):
            text.data_type = "s"
        sheet.freeze_panes = "A2"
    with whole_file(path) as file:
        book.save(file)
