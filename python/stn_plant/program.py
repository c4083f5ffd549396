"""Finds the proved program and runs it. Nothing is solved or checked on this side."""
import functools, os, shutil, signal, subprocess
from dataclasses import dataclass
from pathlib import Path

from .errors import OutOfTime, ProgramEnded, ProgramMissing, StnError

ROOT = Path(__file__).resolve().parents[2]
ADVICE = "Set the environment variable STN to the program `stn`, or put it on the PATH; `./stn --install` of its repository does that"


@dataclass(frozen=True)
class Ran:
    """A run that ended: its status, what it put and what it said."""

    status: int
    out: str
    err: str

    def lines(self):
        return self.out.splitlines()


@dataclass(frozen=True)
class Program:
    """A program that was found.

    words: what runs it.
    speak: the wrapper's `tools/speak`, which says in sentences what a run came to; nothing where it is not there.
    """

    words: tuple[str, ...]
    speak: Path | None

    def run(self, words, folder, timeout=None):
        """Runs it on words in a folder, for at most `timeout` seconds."""
        process = self.begun(words, folder)
        try:
            out, err = process.communicate(timeout=timeout)
        except subprocess.TimeoutExpired:
            raise OutOfTime(f"`stn {words[0]}` ran for {timeout} seconds and was ended; give it more time (timeout=) or "
                            "less to do (fewer boxes, a shorter horizon)") from None
        finally:
            end(process)
        ran = Ran(process.returncode, out.decode("utf-8", "replace"), err.decode("utf-8", "replace"))
        return ran if 0 <= ran.status <= 9 else no_answer(ran)

    def begun(self, words, folder):
        try:
            return subprocess.Popen([*self.words, *words], cwd=folder, stdin=subprocess.DEVNULL, stdout=subprocess.PIPE,
                                    stderr=subprocess.PIPE, start_new_session=True)
        except OSError as fault:
            raise ProgramMissing(f"`{self.words[0]}` cannot be run: {fault.strerror}. {ADVICE}") from fault
        except ValueError as fault:
            raise StnError(f"a word for the program cannot be handed on: {fault}") from fault


def end(process):
    """Ends a process and what it began, where it still runs."""
    if process.poll() is None:
        try:
            os.killpg(process.pid, signal.SIGKILL)
        except ProcessLookupError:
            pass
        process.communicate()


def no_answer(ran):
    """Raises what a status means that is none of the program's."""
    said = f" It said: {ran.err.strip()[-2000:]}" if ran.err.strip() else ""
    if ran.status == 70:
        raise ProgramMissing(f"the wrapper `stn` found no program to run.{said} {ADVICE}")
    number = -ran.status if ran.status < 0 else ran.status - 128
    if number in set(signal.Signals):
        name = signal.Signals(number).name
        hint = "perhaps for want of memory: close other programs, or ask for less" if name == "SIGKILL" else "run it again"
        raise ProgramEnded(-number, f"the program was ended by the signal {name}; {hint}.{said}")
    raise ProgramEnded(ran.status, f"the program ended with status {ran.status}, which is none of its own: is it `stn`?{said}")


def find():
    """The program: the one that STN names, else the one of the repository that this package stands in, else the one on the PATH."""
    named = os.environ.get("STN")
    if named:
        place = shutil.which(named)
        if place is None:
            raise ProgramMissing(f"STN is `{named}`, and there is no program of this name. {ADVICE}")
        return program_at(os.path.abspath(place))
    beside = [ROOT / "stn", ROOT / "crates" / "stn" / "out" / "stn"] if (ROOT / "crates.txt").is_file() else []
    for place in beside:
        if place.is_file() and os.access(place, os.X_OK):
            return program_at(str(place))
    place = shutil.which("stn")
    if place is None:
        raise ProgramMissing(f"the program `stn` was not found. {ADVICE}")
    return program_at(os.path.abspath(place))


@functools.lru_cache(maxsize=16)
def program_at(place):
    """The program at a place, which may be its wrapper: that one says where the program itself stands."""
    folder = Path(os.path.realpath(place)).parent
    tools = next((it for it in (folder / "tools", ROOT / "tools") if (it / "speak").is_file()), None)
    speak = tools / "speak" if tools else None
    if not (folder / "tools" / "program.sh").is_file():
        return Program((place,), speak)
    # What the wrapper says while it looks (a proof takes its time) goes where a person sees it.
    told = subprocess.run([place, "--path"], stdin=subprocess.DEVNULL, stdout=subprocess.PIPE, text=True)
    path = told.stdout.strip()
    return Program((path,) if told.returncode == 0 and os.access(path, os.X_OK) else (place, "--quiet"), speak)
