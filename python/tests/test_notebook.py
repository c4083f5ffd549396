"""The notebook among the examples: its cells run, and find again what is stored."""
import contextlib, io, json, unittest

import run_notebook
from tests.here import EXAMPLES, needs_program


def texts(notebook):
    """What the cells print."""
    cells = [it for it in notebook["cells"] if it["cell_type"] == "code"]
    return "".join("".join(it.get("text", [])) for cell in cells for it in cell["outputs"])


def findings(notebook):
    """What the program found, whichever of several best plans and however many boxes: the lines of answers and of comparisons."""
    return [it.split(" with ")[0] for it in texts(notebook).splitlines() if it.startswith(("optimal", "True", "False", "the part"))]


class Notebook(unittest.TestCase):
    def setUp(self):
        with open(EXAMPLES / "kondili.ipynb", encoding="utf-8") as text:
            self.notebook = json.load(text)

    def test_outputs_are_stored(self):
        self.assertEqual(len(findings(self.notebook)), 6)
        self.assertTrue(any("image/svg+xml" in it.get("data", {}) for cell in self.notebook["cells"] for it in cell.get("outputs", [])))

    @needs_program
    @unittest.skipUnless((EXAMPLES / "kondili-1993.toml").is_file(), "examples/kondili-1993.toml is not there")
    def test_cells_find_it_again(self):
        stored = findings(self.notebook)
        with contextlib.chdir(EXAMPLES), contextlib.redirect_stdout(io.StringIO()):
            run_notebook.run(self.notebook)
        self.assertEqual(findings(self.notebook), stored)
