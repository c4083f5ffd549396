"""The lines that README.md and the package's own page have one paste: they run, and print what stands beside them."""
import contextlib, io, os, re, sys, tempfile, unittest
from pathlib import Path
from unittest import mock

from tests.here import needs_program

TOP = Path(__file__).resolve().parents[2]


def pasted(page):
    """The lines that stand together from the one on that imports the package's folder."""
    lines = (TOP / page).read_text(encoding="utf-8").splitlines()
    begin = next(at for at, line in enumerate(lines) if line.startswith("    import sys; sys.path"))
    end = next(at for at in range(begin, len(lines)) if not lines[at].startswith("    "))
    return [line[4:] for line in lines[begin:end]]


@needs_program
class Pages(unittest.TestCase):
    def assert_prints(self, page):
        """Runs the lines of a page in a folder that has what the repository has; what is sure is printed as the page says."""
        lines, put = pasted(page), io.StringIO()
        said = [found[1] for line in lines if (found := re.search(r"^print.*  # ((optimal|True).*)", line))]
        with tempfile.TemporaryDirectory() as room, contextlib.chdir(room), contextlib.redirect_stdout(put):
            for name in ("python", "examples"):
                os.symlink(TOP / name, name)
            with mock.patch.object(sys, "path", [*sys.path]):
                exec("\n".join(lines), {})
        printed = put.getvalue().splitlines()
        self.assertEqual([it for it in printed if it in said], said)
        return lines

    def test_the_ten_lines_of_the_first_page(self):
        self.assertEqual(len(self.assert_prints("README.md")), 10)

    def test_those_of_the_package(self):
        self.assert_prints("python/README.md")
