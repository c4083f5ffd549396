"""Files that are written as a whole or not at all, and proof logs."""
import os, secrets, shutil, tempfile, weakref
from pathlib import Path


def write_whole(path, content):
    """Writes a file; where that fails, what was there before is still there."""
    with whole_file(path) as file:
        file.write_bytes(content)


class whole_file:
    """A file beside the one that is named, which takes its place at the end; with a fault it goes away."""

    def __init__(self, path):
        self.path = Path(path)

    def __enter__(self):
        self.file = self.path.with_name(f".{self.path.name[:100]}.{secrets.token_hex(8)}")
        self.file.touch(exist_ok=False)
        return self.file

    def __exit__(self, kind, fault, trace):
        try:
            if kind is None:
                if self.path.exists():
                    self.file.chmod(self.path.stat().st_mode & 0o777)
                os.replace(self.file, self.path)
        finally:
            self.file.unlink(missing_ok=True)


def look_for_room(path):
    """Raises what would keep a file from being written, before the work whose result it is to hold."""
    tempfile.TemporaryFile(dir=Path(path).absolute().parent).close()


class Log:
    """A proof log in a file: of the user, or of this object's own, which goes with it.

    path: the file.
    """

    def __init__(self, path):
        self.path = Path(path)

    @classmethod
    def moved(cls, path):
        """A log that is moved from a run's folder into one of its own."""
        folder = tempfile.mkdtemp(prefix="stn-log-")
        log = cls(Path(folder) / "proof.log")
        weakref.finalize(log, shutil.rmtree, folder, ignore_errors=True)
        shutil.move(path, log.path)
        return log

    def read(self):
        """The bytes of the log."""
        return self.path.read_bytes()

    def save(self, path):
        """Writes the log to a file of the user's."""
        with whole_file(path) as file:
            shutil.copyfile(self.path, file)
        return Log(path)

    def __repr__(self):
        return f"Log({str(self.path)!r})"
