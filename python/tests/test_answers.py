"""What the program answers, asked of the examples."""
import tempfile, tomllib, unittest
from datetime import datetime
from fractions import Fraction
from pathlib import Path

from stn_plant import (Batch, BrokenPlan, Draw, Gap, Input, InvalidLog, Log, NotInstalled, Outage, Plan, Plant, Refused, Run,
                       State, StnError, Task, Unit, Utility)
from stn_plant.answers import Claim, Report, Solution, Violation, numbered, rows
from stn_plant.plant import record
from tests.here import EXAMPLES, has, needs_program

TINY = [(0, "U", "make", 3), (1, "U", "make", 3)]


class Texts(unittest.TestCase):
    """Reading answers and writing plants, without the program."""

    def test_answers_of_solve(self):
        found = Solution.of(["# budget-spent 10 12", "# boxes 3", "0 U make 3"], None, None)
        self.assertEqual((found.status, found.profit, found.cap, found.boxes, found.gap), ("budget-spent", 10, 12, 3, 20))
        self.assertEqual(found.plan, [Batch(0, "U", "make", 3)])
        none = Solution.of(["# budget-spent - 12", "# boxes 3"], None, None)
        self.assertEqual((none.profit, none.cap, none.plan, none.gap), (None, 12, None, None))
        self.assertEqual(Solution.of(["# infeasible", "# boxes 1"], None, None).cap, None)
        self.assertEqual(Solution.of(["# optimal 0", "# boxes 1"], None, None).plan, [])

    def test_claims(self):
        self.assertEqual([Claim.of(it).cap for it in ("yes between 3 4", "yes below 5", "yes optimal 6", "yes infeasible")], [4, 5, 6, None])
        self.assertFalse(Claim.of("no 3 15"))
        self.assertEqual(Claim.of("no 2 0 19").horizon, 2)

    def test_a_report(self):
        text = ("gantt\nU   |01\ntask 01 make\nstock\nstate 01 a\nstate 02 b\n   0   4  0\n   1   0  4\nload\nutility 01 w\n   0   7\n"
                "profit -3\n")
        found = Report.of(text)
        self.assertEqual((found.profit, found.stocks, found.loads), (-3, {"a": [4, 0], "b": [0, 4]}, {"w": [7]}))

    def test_a_violation(self):
        self.assertEqual(Violation.of("unfit 2 size".split(" ")), Violation("unfit", [2, "size"]))
        self.assertEqual(Violation.of("gap 1 3 by 2".split(" ")), Violation("gap", [1, 3], 2))
        self.assertEqual(Violation.of("gap 0 3 by 2".split(" ")), Violation("gap", [0, 3], 2))
        self.assertEqual(Violation.of("stock-low feed 0 by 4".split(" ")), Violation("stock-low", ["feed", 0], 4))

    def test_slots(self):
        text = "slots 1\nslot 0 U make 0 1 3\nrows 3\nrow 0 busy U 0\nrow 1 gap U 0 1\nrow 2 last U 0\n"
        self.assertEqual(numbered(text.splitlines()), ([["U", "make", 0, 1, 3]], [["busy", "U", 0], ["gap", "U", 0, 1], ["last", "U", 0]]))

    def test_a_table(self):
        text = "state,time,stock,limit,receipt,delivery\noil,0,-4,,0,0\noil,1,6,9,10,0\n"
        self.assertEqual(rows(text)[0], {"state": "oil", "time": 0, "stock": -4, "limit": None, "receipt": 0, "delivery": 0})
        self.assertEqual(rows(text)[1]["limit"], 9)
        self.assertEqual(rows("delivery,state,time,amount,payment,stock\n"), [])

    def test_a_plan(self):
        plan = Plan.of("# optimal 60\n# boxes 1\n0 U make 3\n1 U make 3\n")
        self.assertEqual(plan, Plan(TINY))
        self.assertEqual(plan.text(), "0 U make 3\n1 U make 3\n")
        self.assertEqual(plan.table()[0], {"period": 0, "unit": "U", "task": "make", "quanta": 3})
        self.assertIsNone(plan._repr_svg_())

    def test_a_plan_file(self):
        self.assertEqual(len(Plan.read(EXAMPLES / "five.plan")), 5)
        with self.assertRaisesRegex(StnError, "no plan file"):
            Plan.read(EXAMPLES / "tiny.log")

    def test_a_plant_as_a_document(self):
        plant = Plant(3, [State('a"b\\', limits=[1, 2, 3, 4])], [Utility("w", limit=3)], [Unit("U")],
                      [Task("t", 5, [Input('a"b\\', Fraction(2, 5))], [], [Draw("w", [1], [0])])],
                      [Run("t", "U", 1, 2)], [Gap("U", "t", "t", 1)], outage=[Outage("U", 0, 1)])
        found = tomllib.loads(plant.text())
        self.assertEqual(found, {
            "version": 2, "periods": 3, "state": [{"name": 'a"b\\', "initial": 0, "limits": [1, 2, 3, 4], "price": 0, "holding": 0}],
            "utility": [{"name": "w", "limit": 3, "rate": 0}], "unit": [{"name": "U"}],
            "task": [{"name": "t", "quantum": 5, "input": [{"state": 'a"b\\', "part": "2/5"}], "output": [],
                      "draw": [{"utility": "w", "fixed": [1], "each": [0]}]}],
            "run": [{"task": "t", "unit": "U", "min": 1, "max": 2, "cost": 0}],
            "gap": [{"unit": "U", "from": "t", "to": "t", "periods": 1, "cost": 0}], "outage": [{"unit": "U", "from": 0, "to": 1}]})

    def test_units_that_a_batch_held_before(self):
        plant = Plant(3, unit=[Unit("U", "t", 2), Unit("V", "t"), Unit("W")], version=3)
        units = [{"name": "U", "last": "t", "until": 2}, {"name": "V", "last": "t"}, {"name": "W"}]
        self.assertEqual(tomllib.loads(plant.text()), {"version": 3, "periods": 3, "unit": units})
        self.assertEqual([record(Unit, it) for it in units], plant.unit)

    def test_labels_colours_and_a_calendar(self):
        noon = datetime(2026, 12, 24, 12)
        plant = Plant(2, state=[State("s", label="Würze")], task=[Task("t", 5, label="煮る", colour="#1e90ff")], start=noon, minutes=60, version=3)
        found = tomllib.loads(plant.text())
        self.assertEqual((found["start"], found["minutes"], found["state"][0]["label"]), (noon, 60, "Würze"))
        self.assertEqual((found["task"][0]["label"], found["task"][0]["colour"]), ("煮る", "#1e90ff"))
        self.assertEqual(Plant.of_upgrade(plant.text()), plant)

    def test_dates_in_a_table(self):
        text = "unit,task,start,from\nU,make,0,2026-12-24T12:00:00\n,-x,-2,10000-01-01T00:00:00\n"
        self.assertEqual(rows(text), [{"unit": "U", "task": "make", "start": 0, "from": "2026-12-24T12:00:00"},
                                      {"unit": None, "task": "-x", "start": -2, "from": "10000-01-01T00:00:00"}])


@needs_program
class Asking(unittest.TestCase):
    def setUp(self):
        self.tiny = Plant.read(EXAMPLES / "tiny.toml")

    def test_solve_and_check(self):
        answer = self.tiny.solve(boxes=31)
        self.assertEqual((answer.status, answer.profit, answer.cap, answer.boxes), ("optimal", 60, 60, 1))
        self.assertEqual(answer.plan, Plan(TINY))
        self.assertEqual(answer.plan.table()[1], {"period": 1, "unit": "U", "task": "make", "quanta": 3, "end": 2, "mass": 6})
        self.assertIn("<svg", answer.plan._repr_svg_())
        claim = self.tiny.check(answer.log)
        self.assertTrue(claim)
        self.assertEqual((claim.status, claim.profit), ("optimal", 60))
        with tempfile.TemporaryDirectory() as folder:
            saved = answer.log.save(Path(folder) / "tiny.log")
            self.assertTrue(self.tiny.check(saved.path))
        bad = self.tiny.check(answer.log.read()[:-1])
        self.assertFalse(bad)
        self.assertEqual(bad.kind, 2)

    def test_logs_of_the_examples(self):
        self.assertEqual(self.tiny.check(EXAMPLES / "tiny.log").profit, 60)
        odd = Plant.read(EXAMPLES / "odd.toml")
        self.assertEqual(odd.check(str(EXAMPLES / "odd.log")).profit, 34)
        self.assertEqual(odd.plan_of_log(str(EXAMPLES / "odd.log")), Plan([(0, "U", "make", 3)]))
        with self.assertRaises(InvalidLog):
            self.tiny.plan_of_log((EXAMPLES / "tiny.log").read_bytes()[:-1])
        slots, rows_ = odd.slots()
        self.assertEqual((slots[1], rows_[3]), (["U", "make", 1, 3, 3], ["low", "feed", 1]))

    def test_a_spent_budget_and_no_plan(self):
        self.assertEqual(Plant.read(EXAMPLES / "odd.toml").solve(boxes=1).status, "budget-spent")
        self.tiny.state[0].initial, self.tiny.state[0].limit = 40, 2
        self.assertEqual(self.tiny.solve(boxes=10).status, "infeasible")

    def test_a_plan(self):
        self.assertEqual(self.tiny.simulate(TINY).profit, 60)
        standing = self.tiny.simulate([(0, "U", "make", 4)])
        twice = [(0, "U", "make", 3), (0, "U", "make", 4)]
        self.assertEqual(self.tiny.violations(twice)[:3],
                         [Violation("unfit", [2, "size"]), Violation("busy", [1, 2]), Violation("stock-low", ["feed", 0], 2)])
        with self.assertRaises(BrokenPlan):
            self.tiny.table(twice)
        self.assertFalse(standing)
        self.assertEqual((standing.kind, standing.places), ("unfit", [1]))
        self.assertTrue(standing.sentence)
        with self.assertRaises(BrokenPlan) as raised:
            self.tiny.report([(0, "U", "make", 3), (0, "U", "make", 3)])
        self.assertEqual((raised.exception.kind, raised.exception.places), ("busy", [1, 2]))
        self.assertEqual(self.tiny.report(TINY).profit, 60)

    def test_planning_on(self):
        five, plan = Plant.read(EXAMPLES / "five.toml"), EXAMPLES / "five.plan"
        self.assertEqual(five.simulate(plan).profit, 854)
        self.assertEqual(five.violations(plan), [])
        self.assertEqual(five.table(plan)[0], {"unit": "heater", "task": "heat", "start": 1, "end": 2, "quanta": 4, "mass": 40, "cost": 0,
                                               "changeover": 0})
        self.assertEqual([it["running"] for it in five.table(plan, "units")], [1, 5, 0, 2])
        answer = five.replan(plan, 3, boxes=2000)
        self.assertEqual((answer.status, answer.profit, answer.changed), ("optimal", 1248, 0))
        self.assertEqual(five.check_replan(plan, 3, answer.log).profit, 1248)
        with self.assertRaises(BrokenPlan):
            five.replan([(0, "heater", "heat", 11)], 1)
        self.assertGreaterEqual(five.improve(plan, boxes=1).profit, five.simulate(plan).profit)
        with self.assertRaises(BrokenPlan):
            five.improve([(0, "heater", "heat", 11)])

    def test_rolling_on(self):
        five, plan = Plant.read(EXAMPLES / "five.toml"), EXAMPLES / "five.plan"
        rolled = five.roll(plan, 3)
        self.assertEqual((rolled.earned, rolled.plant.periods, rolled.plant.version), (-6, 4, 3))
        self.assertEqual([(it.name, it.last, it.until) for it in rolled.plant.unit[:3]], [("heater", "heat", -1), ("r1", "react2", 1), ("r2", None, 0)])
        self.assertEqual([(it.state, it.time, it.amount) for it in rolled.plant.receipt], [("IntAB", 1, 48), ("Prod1", 1, 32)])
        self.assertEqual([it.line() for it in rolled.plan], ["1 r1 react3 6", "2 still sep 6"])
        self.assertEqual(rolled.plant.simulate(rolled.plan).profit + rolled.earned, 854)
        self.assertEqual(rolled.plant.solve(boxes=2000).profit + rolled.earned, 1248)
        with self.assertRaises(Refused) as raised:
            five.roll(plan, 7)
        self.assertEqual(raised.exception.subject, "period")
        with self.assertRaises(BrokenPlan):
            five.roll([(0, "heater", "heat", 11)], 1)

    def test_other_tanks(self):
        tank = Plant.read(EXAMPLES / "tank.toml")
        found = tank.whatif(EXAMPLES / "tank.log", "prod", 2, 3)
        self.assertEqual([(it.raised, it.cap, it.standing.profit) for it in found], [(0, 36, 36), (2, 44, 36), (4, 52, 36), (6, 60, 36)])
        with self.assertRaises(InvalidLog):
            tank.whatif(b"stn-log 2\n", "prod", 2, 3)
        with self.assertRaises(Refused) as raised:
            tank.whatif(EXAMPLES / "tank.log", "no-such", 2, 3)
        self.assertEqual(raised.exception.subject, "state")

    def test_the_least_horizon(self):
        due = Plant.read(EXAMPLES / "due.toml")
        with tempfile.TemporaryDirectory() as folder:
            answer = due.least(31, logs=Path(folder) / "due")
            self.assertEqual((answer.status, answer.horizon, answer.profit, list(answer.logs)), ("least", 2, 0, [1, 2]))
            self.assertTrue(due.check_least(2, Path(folder) / "due"))
        self.assertFalse(due.check_least(2, {1: due.solve(31).log}))

    def test_refusals(self):
        self.tiny.run[0].max = 300
        with self.assertRaises(Refused) as raised:
            self.tiny.solve()
        fault = raised.exception
        self.assertEqual((fault.subject, fault.kind, fault.place, fault.file), ("plant", 7, ("run", 1, 0, "max"), None))
        if fault.line:
            self.assertEqual(fault.text.splitlines()[fault.line - 1], "max = 300")
        with self.assertRaises(Refused) as raised:
            Plant.of("version = 1\nperiods = 2\n[[unit]]\nname = 'U'\n[[unit]]\nname = 'U'\n")
        self.assertEqual(raised.exception.kind, 9)
        with self.assertRaises(Refused) as raised:
            Plant.read(EXAMPLES / "five.toml").simulate([(0, "heater", "bake", 1)])
        self.assertEqual((raised.exception.subject, raised.exception.kind, raised.exception.line), ("plan", 2, 1))
        with self.assertRaises(Refused) as raised:
            Plant.read(EXAMPLES / "tiny.toml").solve(boxes=0)
        self.assertEqual(raised.exception.subject, "words")

    def test_a_file_with_a_fault_is_named(self):
        with tempfile.TemporaryDirectory() as folder:
            file = Path(folder) / "bad.toml"
            file.write_text("version = 2\nperiods = 400\n")
            with self.assertRaises(Refused) as raised:
                Plant.read(file)
        self.assertEqual((raised.exception.file, raised.exception.place), (str(file), ("top", 0, 0, "periods")))
        self.assertIn(raised.exception.line, (2, None))

    @unittest.skipUnless(has("pandas"), "pandas is not installed")
    def test_a_frame(self):
        frame = self.tiny.solve(boxes=31).plan.frame()
        self.assertEqual(list(frame.columns), ["period", "unit", "task", "quanta", "end", "mass"])
        self.assertEqual(list(frame["mass"]), [6, 6])

    @unittest.skipIf(has("pandas"), "pandas is installed")
    def test_no_frame(self):
        with self.assertRaisesRegex(NotInstalled, "pandas"):
            Plan(TINY).frame()


class Logs(unittest.TestCase):
    def test_a_log_that_is_not_whole_is_not_kept(self):
        with tempfile.TemporaryDirectory() as folder:
            with self.assertRaises(FileNotFoundError):
                Log(Path(folder) / "gone.log").save(Path(folder) / "copy.log")
            self.assertEqual(list(Path(folder).iterdir()), [])
