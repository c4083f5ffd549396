"""What the tests share: the examples, whether there is a program, and stand-ins for one that goes wrong."""
import os, sys, tempfile, unittest
from contextlib import contextmanager
from pathlib import Path
from unittest import mock

from stn_plant import StnError, program

EXAMPLES = Path(__file__).resolve().parents[2] / "examples"


def has_program():
    """Whether the tests are to run a program: only one that STN names, so that a test never begins a proof."""
    try:
        return bool(os.environ.get("STN")) and program.find() is not None
    except StnError:
        return False


needs_program = unittest.skipUnless(has_program(), "STN names no program")


def has(library):
    """Whether an optional library is there."""
    try:
        __import__(library)
        return True
    except ImportError:
        return False


@contextmanager
def stand_in(body):
    """STN names a small program for a time: Python with the given lines, its words in `words`."""
    with tempfile.TemporaryDirectory() as folder:
        file = Path(folder) / "stn"
        file.write_text(f"#!{sys.executable}\nimport os, sys, time\nwords = sys.argv[1:]\n{body}\n")
        file.chmod(0o755)
        with mock.patch.dict(os.environ, STN=str(file)):
            yield file
