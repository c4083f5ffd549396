"""What a run came to in a sentence: asked of the wrapper's `tools/speak`, which has the table of texts."""
import re, subprocess
from dataclasses import dataclass

PLACE = re.compile(r", line (\d+)(?:, column (\d+))?(?:: |, )")


@dataclass(frozen=True)
class Said:
    """A sentence, and the line and column of a file that it speaks of, where it does."""

    text: str
    line: int | None = None
    column: int | None = None


def said(program, ran, words, folder):
    """What `tools/speak` says of a run; where it is not there, the program's own line."""
    text = spoken(program, ran, words, folder)
    if not text:
        return Said(f"the program says `{(ran.lines() or [f'status {ran.status}'])[0]}`; docs/formats.md says what that means")
    for word in words:
        found = PLACE.match(text, len(word)) if text.startswith(word + ", line ") else None
        if found:
            return Said(text[found.end():], int(found.group(1)), int(found.group(2)) if found.group(2) else None)
        if text.startswith(word + ": ") and word in ("plant.toml", "plan.txt"):
            return Said(text[len(word) + 2:])
    return Said(text)


def spoken(program, ran, words, folder):
    """What `tools/speak` puts, or nothing."""
    if program.speak is None:
        return ""
    (folder / "said.out").write_text(ran.out[:65536], encoding="utf-8")
    (folder / "said.err").write_text(ran.err, encoding="utf-8")
    try:
        told = subprocess.run([str(program.speak), str(ran.status), "said.out", "said.err", "--", *words], cwd=folder, timeout=60,
                              stdin=subprocess.DEVNULL, capture_output=True, encoding="utf-8", errors="replace")
    except (OSError, subprocess.TimeoutExpired):
        return ""
    return " ".join(told.stderr.removeprefix("stn: ").split("\nstn: ")).strip()
