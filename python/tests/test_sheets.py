"""Plants as folders of CSV files and workbooks, both ways."""
import tempfile, unittest
from datetime import datetime
from pathlib import Path
from unittest import mock

from stn_plant import (NotInstalled, Plant, Refused, SheetFault, State, Unit, read_csv, read_workbook, sheets, write_csv,
                       write_workbook)
from tests.here import EXAMPLES, has, needs_program

needs_openpyxl = unittest.skipUnless(has("openpyxl"), "openpyxl is not installed")


class Room(unittest.TestCase):
    def setUp(self):
        room = tempfile.TemporaryDirectory()
        self.addCleanup(room.cleanup)
        self.room = Path(room.name)

    def put(self, name, text):
        (self.room / f"{name}.csv").write_text(text, encoding="utf-8")

    def put_tiny(self):
        """A plant as a person may write it: few columns, blanks, a part as a decimal, semicolons."""
        self.put("plant", "periods\n2\n")
        self.put("state", "\ufeffname;initial;price\nraw;12;1\n\nprod;;5.0\n")
        self.put("unit", "name\nU\n")
        self.put("task", "quantum,name\n2,make\n")
        self.put("input", "task,state,part\nmake,raw,1/1\n")
        self.put("output", "task,state,part,delay\nmake,prod,1.0,1\n")
        self.put("run", "task,unit,min,max\nmake, U ,1,3\n")
        self.put("#notes", "anything")

    def assert_fault(self, words, **places):
        with self.assertRaisesRegex(SheetFault, words) as raised:
            read_csv(self.room)
        for name, place in places.items():
            self.assertEqual(getattr(raised.exception, name), place)


@needs_program
class Examples(Room):
    def test_every_example_there_and_back(self):
        for file in sorted(EXAMPLES.glob("*.toml")):
            with self.subTest(file.name):
                plant = Plant.read(file)
                write_csv(plant, self.room / "plant")
                self.assertEqual(read_csv(self.room / "plant"), plant)
                if has("openpyxl"):
                    write_workbook(plant, self.room / "plant.xlsx")
                    self.assertEqual(read_workbook(self.room / "plant.xlsx").upgrade(), plant.upgrade())

    def test_a_plant_by_hand(self):
        self.put_tiny()
        plant = read_csv(self.room)
        self.assertEqual(plant.state[1], State("prod", price=5))
        self.assertEqual(plant.solve(boxes=31).profit, Plant.read(EXAMPLES / "tiny.toml").solve(boxes=31).profit)

    def test_refusals_name_the_line_of_a_sheet(self):
        for table, text, kind, line, column in (
                ("unit", "name\nU\n\nU\n", 9, 4, "name"), ("run", "task,unit,min,max\nmake,U,1,300\n", 7, 2, "max"),
                ("run", "task,unit,min,max\nmake,U,1,2.5\n", 6, 2, "max"), ("run", "task,unit,min,most\nmake,U,1,2\n", 4, 2, None),
                ("plant", "periods\n2000\n", 7, 2, "periods"), ("input", "task,state,part\nmake,raw,x\n", 11, 2, "part"),
                ("output", "task,state,part,delay\nmake,raw,1/2,1\nmake,soup,1/2,1\n", 10, 3, "state")):
            self.put_tiny()
            self.put(table, text)
            with self.subTest(table), self.assertRaises(Refused) as raised:
                read_csv(self.room)
            fault = raised.exception
            self.assertEqual((fault.kind, fault.line), (kind, line))
            self.assertTrue(fault.file.endswith(f"sheet {table}"), fault.file)
            self.assertIn(column, (fault.column, None))
            self.assertNotIn("on line", fault.sentence)

    @needs_openpyxl
    def test_a_workbook_by_hand(self):
        import openpyxl
        write_workbook(Plant.read(EXAMPLES / "tiny.toml"), self.room / "tiny.xlsx")
        book = openpyxl.load_workbook(self.room / "tiny.xlsx")
        book["run"]["C2"] = 2.0
        book.create_sheet("# notes").append(["=1+1"])
        book.save(self.room / "other.xlsx")
        self.assertEqual(read_workbook(self.room / "other.xlsx").run[0].min, 2)
        book["input"]["C2"] = 0.25
        book.save(self.room / "other.xlsx")
        with self.assertRaises(Refused) as raised:
            read_workbook(self.room / "other.xlsx")
        self.assertTrue(raised.exception.file.endswith("other.xlsx, sheet input"), raised.exception.file)


class Columns(unittest.TestCase):
    """What stands in a table, without the program."""

    def test_units_that_a_batch_held_before(self):
        plant = Plant(3, unit=[Unit("U", "t", -2), Unit("V", "t"), Unit("W")], version=3)
        found = [["name", "label", "last", "until"], ["U", None, "t", -2], ["V", None, "t", None], ["W", None, None, None]]
        self.assertEqual(sheets.lines(plant)["unit"], found)
        self.assertEqual(sheets.TABLES["unit"], {"name": "text", "label": "text", "last": "text", "until": "whole"})

    def test_labels_and_a_calendar(self):
        plant = Plant(3, state=[State("s", label="a, \"b\" & ü")], start=datetime(2026, 12, 24, 18, 30), minutes=90, version=3)
        self.assertEqual(sheets.lines(plant)["plant"], [["version", "periods", "start", "minutes"], [3, 3, "2026-12-24T18:30:00", 90]])
        self.assertEqual(sheets.lines(plant)["state"][1][:2], ["s", "a, \"b\" & ü"])

    def test_dates_in_cells(self):
        noon = datetime(2026, 12, 24, 12)
        for cell in ("2026-12-24T12:00:00", " 2026-12-24 12:00 ", noon, noon.replace(microsecond=600), datetime(2026, 12, 24, 11, 59, 59, 999_500)):
            self.assertEqual(sheets.moment(cell), noon)
        for cell in ("noon", 5, 1.5, noon.replace(microsecond=500_000)):
            self.assertEqual(sheets.moment(cell), cell)


class Faults(Room):
    """What is no set of tables; the program is not asked."""

    def setUp(self):
        super().setUp()
        self.put_tiny()

    def test_a_sheet_is_missing(self):
        (self.room / "state.csv").unlink()
        self.assert_fault("no sheet `state`.*columns name, label, initial", sheet="state")

    def test_a_sheet_of_another_name(self):
        self.put("states", "name\n")
        self.assert_fault("did you mean `state`")

    def test_a_task_that_is_not_there(self):
        self.put("input", "task,state,part\nbake,raw,1/1\n")
        self.assert_fault("no task `bake`", sheet="input", line=2, column="task")

    def test_heads(self):
        self.put("unit", "name,name\nU,V\n")
        self.assert_fault("two columns", sheet="unit", column="name")
        self.put("unit", "name\nU,V\n")
        self.assert_fault("column 2.*no name", sheet="unit", line=2)
        self.put("unit", "name\nU\n")
        self.put("plant", "periods\n2\n3\n")
        self.assert_fault("2 lines.*one is wanted", sheet="plant")

    def test_no_text(self):
        (self.room / "unit.csv").write_bytes(b"name\n\xff\n")
        self.assert_fault("UTF-8", sheet="unit")

    def test_no_folder(self):
        with self.assertRaisesRegex(SheetFault, "no such folder"):
            read_csv(self.room / "none")

    def test_a_fault_leaves_what_was_there(self):
        plant = Plant(2, unit=[Unit("U")])
        write_csv(plant, self.room / "kept")
        before = {it.name: it.read_bytes() for it in (self.room / "kept").iterdir()}
        with mock.patch.object(sheets.csv, "writer", side_effect=OSError("full")), self.assertRaises(OSError):
            write_csv(plant, self.room / "kept")
        self.assertEqual({it.name: it.read_bytes() for it in (self.room / "kept").iterdir()}, before)
        self.assertEqual([it.name for it in self.room.iterdir() if it.name.startswith(".")], [])

    @needs_openpyxl
    def test_no_workbook(self):
        (self.room / "text.xlsx").write_text("no workbook")
        for name in ("text.xlsx", "none.xlsx"):
            with self.assertRaises(SheetFault):
                read_workbook(self.room / name)

    @needs_openpyxl
    def test_cells_that_say_nothing(self):
        import datetime, openpyxl
        for cell, words in (("=1+1", "formula without a value"), (datetime.date(2026, 1, 2), "as a text")):
            write_workbook(Plant(2, unit=[Unit("U")]), self.room / "book.xlsx")
            book = openpyxl.load_workbook(self.room / "book.xlsx")
            book["plant"]["A2"] = cell
            book.save(self.room / "book.xlsx")
            with self.subTest(words), self.assertRaisesRegex(SheetFault, words):
                read_workbook(self.room / "book.xlsx")

    @unittest.skipIf(has("openpyxl"), "openpyxl is installed")
    def test_no_openpyxl(self):
        with self.assertRaisesRegex(NotInstalled, "python3-openpyxl"):
            write_workbook(Plant(2), self.room / "book.xlsx")
        self.assertFalse((self.room / "book.xlsx").exists())
