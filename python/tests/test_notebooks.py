"""The dictionary of notebooks, and numbers that a grid does not hold."""
import copy, unittest
from fractions import Fraction

from stn_plant import Grid, GridFault, Plant, StnError, from_dictionary
from tests.here import EXAMPLES, needs_program
from tests.textbook import HALF_A_KILOGRAM, KONDILI


def small(**changes):
    """One task on one unit; changes are of the unit's numbers, or of those of a state, an arc or TIME."""
    data = {
        "TIME": 4,
        "STATES": {"raw stuff": {"initial": 10}, "good": {"capacity": float("inf"), "price": 2}},
        "ST_ARCS": {("raw stuff", "cook"): {"rho": 1}},
        "TS_ARCS": {("cook", "good"): {"dur": changes.get("dur", 2), "rho": changes.get("rho", 1)}},
        "UNIT_TASKS": {("pot", "cook"): {"Bmin": 1, "Bmax": 5, **{key: it for key, it in changes.items() if key not in ("dur", "rho", "TIME")}}},
    }
    return {**data, "TIME": changes.get("TIME", 4)}


class Dictionaries(unittest.TestCase):
    def assert_fault(self, data, grid, would, words):
        with self.assertRaisesRegex(GridFault, words) as raised:
            from_dictionary(data, grid)
        self.assertEqual(raised.exception.would, would)

    def test_costs_and_cleaning(self):
        plant = from_dictionary(small(Cost=3, vCost=0.5, Tclean=1), Grid(mass=1, money="0.5"))
        self.assertEqual(plant.state[0].name, "raw_stuff")
        self.assertEqual((plant.state[1].limit, plant.state[1].price), (None, 4))
        self.assertEqual((plant.run[0].min, plant.run[0].max, plant.run[0].cost), (1, 5, 6))
        self.assertEqual((plant.gap[0].from_, plant.gap[0].to, plant.gap[0].periods), ("cook", "cook", 1))
        self.assertEqual((plant.utility[0].name, plant.task[0].draw[0].each, plant.task[0].draw[0].fixed), ("vCost", [1, 0], [0, 0]))

    def test_a_time_grid(self):
        plant = from_dictionary(small(TIME=[0, 0.5, 1, 1.5, 2], dur=1.5), Grid(1, 1))
        self.assertEqual((plant.periods, plant.task[0].output[0].delay), (4, 3))
        self.assert_fault(small(dur=1.5), Grid(1, 1), Fraction(1, 2), "time grid of 0.5 would")
        with self.assertRaisesRegex(StnError, "equal steps"):
            from_dictionary(small(TIME=[0, 1, 3]), Grid(1, 1))

    def test_what_a_grid_does_not_hold(self):
        self.assert_fault(small(Bmax=5.5), Grid(1, 1), Fraction(1, 2), "Bmax.*5.5.*batch grid of 0.5 would")
        self.assert_fault(small(Cost="0.25"), Grid(1, 1), Fraction(1, 4), "Cost.*money grid of 0.25 would")
        self.assert_fault(small(Bmax=300), Grid(1, 1), 2, "300 quanta.*batch grid of 2")
        self.assert_fault(small(), Grid(4, 8), 2, "initial.*10.*mass grid of 2 would")
        self.assert_fault(small(rho=0.333333333), Grid(1, 1), Fraction(1, 3), r"Fraction\(1, 3\)")
        self.assert_fault(small(Bmax=None), Grid(1, 1), None, "Bmax")
        self.assert_fault(small(Bmax="much"), Grid(1, 1), None, "no number")
        self.assert_fault(small(), Grid(1, 1, batch="1.5"), Fraction(1, 2), "mass grid of 0.5 would")
        with self.assertRaisesRegex(GridFault, "above 0"):
            Grid(0, 1)
        with self.assertRaisesRegex(StnError, "no such task"):
            from_dictionary(small(), Grid(1, 1, batches={"coock": 1}))
        with self.assertRaisesRegex(StnError, "coarser money grid"):
            from_dictionary(small(vCost=1_000_000_000), Grid(1, 1))

    def test_a_third_is_a_third(self):
        self.assertEqual(from_dictionary(small(rho=1 / 3), Grid("1/3", "1/3", batch=1)).task[0].output[0].part, Fraction(1, 3))

    def test_the_textbook_on_other_grids(self):
        self.assert_fault(KONDILI, Grid("0.1", "0.1", "0.5"), Fraction(2, 5), "part 1/2.*Reaction1.*batch grid of 0.4.*mass grid of 0.05")
        self.assert_fault(KONDILI, Grid("0.05", "0.05", "0.5"), 1, "400 quanta of 0.5.*batch grid of 1 ")
        self.assert_fault(KONDILI, Grid("0.1", 1, "0.5", {"Reaction1": "0.4", "Separation": 1}), Fraction(1, 10), "money grid of 0.1 would")

    def test_what_no_plant_says(self):
        data = copy.deepcopy(KONDILI)
        data["UNIT_TASKS"]["Reactor2", "Reaction1"]["vCost"] = 1
        with self.assertRaisesRegex(StnError, "0 on Reactor1, 1 on Reactor2.*another name"):
            from_dictionary(data, HALF_A_KILOGRAM)
        del data["TS_ARCS"]
        with self.assertRaisesRegex(StnError, "no `TS_ARCS`"):
            from_dictionary(data, HALF_A_KILOGRAM)

    @needs_program
    @unittest.skipUnless((EXAMPLES / "kondili-1993.toml").is_file(), "examples/kondili-1993.toml is not there")
    def test_the_textbook_is_the_example(self):
        plant, example = from_dictionary(KONDILI, HALF_A_KILOGRAM), Plant.read(EXAMPLES / "kondili-1993.toml")
        self.assertEqual(plant.upgrade(), example.upgrade())

    @needs_program
    def test_a_small_one_is_planned(self):
        grid = Grid(mass=1, money="0.5")
        answer = from_dictionary(small(Cost=3, vCost=0.5), grid).solve(boxes=50)
        self.assertEqual((answer.status, answer.profit * grid.money), ("optimal", 9))
