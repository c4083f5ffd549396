"""The program: found or not, ended, killed, out of time, and what it is asked for that it does not have."""
import os, signal, tempfile, unittest
from pathlib import Path
from unittest import mock

from stn_plant import NoCommand, OutOfTime, Plant, ProgramEnded, ProgramMissing, Refused, Unit, program
from tests.here import stand_in

PLANT = Plant(periods=2, unit=[Unit("U")])


class Finding(unittest.TestCase):
    def test_stn_names_nothing(self):
        with mock.patch.dict(os.environ, STN="no/such/program"), self.assertRaisesRegex(ProgramMissing, "STN is `no/such/program`.*PATH"):
            PLANT.solve()

    def test_not_found_at_all(self):
        with mock.patch.dict(os.environ, STN="", PATH=""), mock.patch.object(program, "ROOT", Path("none")):
            with self.assertRaisesRegex(ProgramMissing, "was not found.*STN"):
                program.find()

    def test_on_the_path(self):
        with stand_in("") as file, mock.patch.object(program, "ROOT", Path("none")):
            with mock.patch.dict(os.environ, STN="", PATH=str(file.parent)):
                self.assertEqual(program.find().words, (str(file),))

    def test_beside_the_package(self):
        with stand_in("") as file, mock.patch.object(program, "ROOT", file.parent), mock.patch.dict(os.environ, STN=""):
            (file.parent / "crates.txt").write_text("")
            self.assertEqual(program.find().words, (str(file),))

    def test_a_wrapper_says_where_the_program_is(self):
        with stand_in("print(os.environ['PLACE'])") as file:
            (file.parent / "tools").mkdir()
            (file.parent / "tools" / "program.sh").write_text("")
            with mock.patch.dict(os.environ, PLACE=str(file)):
                self.assertEqual(program.find().words, (str(file),))
            program.program_at.cache_clear()
            with mock.patch.dict(os.environ, PLACE="nowhere"):
                self.assertEqual(program.find().words, (str(file), "--quiet"))

    def test_a_file_that_is_no_program(self):
        with stand_in("") as file:
            file.write_bytes(b"\x7fELF")
            with self.assertRaisesRegex(ProgramMissing, "cannot be run"):
                PLANT.solve()


class Ending(unittest.TestCase):
    def test_killed(self):
        with stand_in(f"os.kill(os.getpid(), {int(signal.SIGKILL)})"), self.assertRaisesRegex(ProgramEnded, "SIGKILL.*memory") as raised:
            PLANT.solve()
        self.assertEqual(raised.exception.status, -9)

    def test_killed_below_a_wrapper(self):
        with stand_in("sys.exit(137)"), self.assertRaisesRegex(ProgramEnded, "SIGKILL"):
            PLANT.solve()

    def test_out_of_time_leaves_the_log_as_it_was(self):
        with tempfile.TemporaryDirectory() as folder, stand_in("open('proof.log', 'w').write('half'); time.sleep(60)"):
            log = Path(folder) / "proof.log"
            log.write_text("before")
            with self.assertRaisesRegex(OutOfTime, "1 seconds.*fewer boxes"):
                PLANT.solve(boxes=5, log=log, timeout=1)
            self.assertEqual(os.listdir(folder), ["proof.log"])
            self.assertEqual(log.read_text(), "before")

    def test_no_program_behind_the_wrapper(self):
        with stand_in("print('stn: no kit', file=sys.stderr); sys.exit(70)"), self.assertRaisesRegex(ProgramMissing, "no kit.*STN"):
            PLANT.solve()

    def test_another_program(self):
        with stand_in("sys.exit(42)"), self.assertRaisesRegex(ProgramEnded, "status 42"):
            PLANT.solve()

    def test_no_memory(self):
        with stand_in("sys.exit(9)"), self.assertRaises(ProgramEnded) as raised:
            PLANT.solve()
        self.assertEqual(raised.exception.status, 9)

    def test_a_log_that_cannot_be_written(self):
        with stand_in("sys.exit(42)"), self.assertRaises(FileNotFoundError):
            PLANT.solve(boxes=1, log="no/such/folder/proof.log")


KNOWS = """
if words[0] not in ("solve", "resume"):
    print("refused words"); sys.exit(2)
if not os.path.exists(words[1]):
    sys.exit(7)
count = 1 if words[0] == "solve" else int(open(words[2]).read()) + int(words[3])
open(words[-1], "w").write(str(count))
if count > 20:
    print("# optimal 7"); print("# boxes", count); print("0 U make 1")
    sys.exit(0)
time.sleep(SLEEP)
print("# budget-spent 5 10"); print("# boxes", count); print("0 U make 1")
sys.exit(6)
"""


class Commands(unittest.TestCase):
    def test_a_command_that_is_not_there(self):
        with stand_in("print('refused words'); sys.exit(2)"):
            with self.assertRaisesRegex(NoCommand, "`improve`.*solve or replan"):
                PLANT.improve([])
            with self.assertRaisesRegex(NoCommand, "`roll`.*replan"):
                PLANT.roll([], 1)
            with self.assertRaisesRegex(NoCommand, "`resume`.*boxes="):
                PLANT.solve(seconds=1)

    def test_seconds_go_on_from_the_last_log(self):
        with stand_in(KNOWS.replace("SLEEP", "0")):
            answer = PLANT.solve(seconds=100)
        self.assertEqual((answer.status, answer.profit, answer.cap), ("optimal", 7, 7))
        self.assertEqual(answer.log.read(), str(answer.boxes).encode())

    def test_seconds_end_a_slice_that_takes_too_long(self):
        with stand_in(KNOWS.replace("SLEEP", "0 if count == 1 else 60")):
            answer = PLANT.solve(seconds=2)
        self.assertEqual((answer.status, answer.boxes, answer.log.read()), ("budget-spent", 1, b"1"))

    def test_boxes_and_seconds(self):
        with self.assertRaises(TypeError):
            PLANT.solve(boxes=1, seconds=1)

    def test_a_refusal_without_the_table_of_texts(self):
        with mock.patch.object(program, "ROOT", Path("none")), stand_in("print('refused plant 7 run 3 0 max'); sys.exit(3)"):
            program.program_at.cache_clear()
            with self.assertRaisesRegex(Refused, "refused plant 7 run 3 0 max") as raised:
                PLANT.solve()
        self.assertEqual((raised.exception.kind, raised.exception.place), (7, ("run", 3, 0, "max")))
