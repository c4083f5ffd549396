#!/usr/bin/env python3
"""Tries the cases of the commands (docs/cases.md) on the built program, over files in a folder.

    python3 tools/try_cases.py [PROGRAM] [NAME..]   # all that it can, or those of these books or beginnings of names

PROGRAM is the built `stn`, else the environment's STN, else crates/stn/out/stn. A line says each difference, the last
one how many cases were run and how many want a store in memory, which the program has not: calls that fail, pieces of
reads and calls below the commands. Those, and all others too, are carried out by crates/command_cases. The second
checker (check_log.py) is asked what the program is asked of logs. It ends with 1 where something differs.
"""
import os, shutil, subprocess, sys, tempfile
from concurrent.futures import ThreadPoolExecutor

from check_log import FORMS, Answer

TOP = os.path.dirname(os.path.dirname(os.path.abspath(__file__)))
CASES = os.path.join(TOP, "crates", "command_cases", "data")
IN_MEMORY = ("pieces", "shift", "store-fails", "sink-fails")
texts, cases = {}, {}


def text_of(lines):
    """The bytes that the lines of a text make, with its edits."""
    made, old, new = b"", None, None
    for line in lines + [b"|"]:
        mark, rest = line[:1], line[1:]
        if mark == b"-" and new is None:
            old = (old or []) + [rest]
            continue
        if mark == b"+":
            new = (new or []) + [rest]
            continue
        if old is not None:
            before, after = b"\n".join(old), b"\n".join(new or [])
            assert before in made, before
            made, old, new = made.replace(before, after, 1), None, None
        if mark == b"-":
            old = [rest]
        elif mark == b"|":
            made += rest + b"\n"
        elif mark == b"\\":
            made += rest
        elif mark == b"@":
            made += texts[rest]
        elif mark == b"*":
            count, name = rest.split(b" ")
            made += texts[name] * int(count)
    return made[:-1]


def entries(book):
    """The entries of a book: a word, what follows it, the lines of its text, and its line."""
    found = []
    with open(os.path.join(CASES, book), "rb") as it:
        for number, line in enumerate(it.read().split(b"\n"), 1):
            if line[:1] in (b"", b"#"):
                continue
            if line[:1] in (b"|", b"\\", b"@", b"*", b"-", b"+"):
                found[-1][2].append(line)
            else:
                word, _, rest = line.partition(b" ")
                found.append((word.decode(), rest.decode(), [], number))
    return found


def new_step(word, rest, number):
    words = ["" if it == '""' else it for it in rest.split(" ")] if rest else []
    return {"words": words, "line": number, "said": [], "left": {}, "then": [], "skip": word == "call", "status": [0], "keep": None}


def put_entry(case, word, rest, text, number):
    """Puts what an entry says into its case."""
    step = case["steps"][-1] if case["steps"] else None
    if word == "like":
        case["files"].update(cases[rest]["files"])
    elif word == "file" and step:
        step["then"].append((rest, text))
    elif word == "file":
        case["files"][rest] = text
    elif word in IN_MEMORY:
        case["skip"] = True
    elif word in ("run", "call"):
        case["steps"].append(new_step(word, rest, number))
    elif word == "status":
        step["status"] = [int(it) for it in rest.split(" ")]
    elif word.startswith("put"):
        step["said"].append((word, rest if word in ("put-lines", "put-like") else text))
    elif word.startswith("left"):
        step["left"][rest] = (word, text)
    elif word == "keep":
        step["keep"] = rest
    elif word not in ("read", "faults"):
        raise SystemExit(f"{case['book']}:{number}: no word {word}")


def load():
    with open(os.path.join(CASES, "index")) as it:
        index = [line.split(" ", 1) for line in it.read().splitlines() if line and not line.startswith("#")]
    for kind, name in index:
        if kind == "text":
            with open(os.path.join(CASES, name), "rb") as it:
                texts[name.encode()] = it.read()
            continue
        case = None
        for word, rest, lines, number in entries(name):
            if word == "text":
                texts[rest.encode()] = text_of(lines)
            elif word == "case":
                case = cases[rest] = {"name": rest, "files": {}, "steps": [], "book": name, "skip": False}
            else:
                put_entry(case, word, rest, text_of(lines), number)


def differs(word, wanted, came, files):
    holds = {
        "put": lambda: came == wanted,
        "put-begins": lambda: came.startswith(wanted),
        "put-ends": lambda: came.endswith(wanted),
        "put-holds": lambda: wanted in came,
        "put-lines": lambda: came.count(b"\n") == int(wanted),
        "put-like": lambda: came == files[wanted],
    }
    return not holds[word]()


def left_otherwise(left, before, after):
    """What a file is left as that is not what was to be: nothing where all is well."""
    if left is None:
        return after != before and "changed"
    word, text = left
    well = {
        "left": lambda: after == text,
        "left-begun": lambda: after is not None and text.startswith(after),
        "left-some": lambda: after is not None,
        "left-nothing": lambda: after is None,
    }
    return not well[word]() and word


def files_in(folder):
    found = {}
    for name in os.listdir(folder):
        with open(os.path.join(folder, name), "rb") as it:
            found[name] = it.read()
    return found


def try_step(step, files, folder, bad):
    """Runs a step over its files, and gives the files afterwards."""
    shutil.rmtree(folder)
    os.mkdir(folder)
    for name, text in files.items():
        with open(os.path.join(folder, name), "wb") as it:
            it.write(text)
    ran = subprocess.run([PROGRAM, *step["words"]], cwd=folder, capture_output=True, timeout=120)
    if ran.returncode not in step["status"]:
        bad(step, f"status {ran.returncode}, wanted {step['status']}: {ran.stdout[:200]!r}")
    for word, wanted in step["said"]:
        if differs(word, wanted, ran.stdout, files):
            bad(step, f"{word}: wanted {wanted[:200]!r}, came {ran.stdout[:200]!r}")
    after = files_in(folder)
    if step["words"][:1] and step["words"][0] in FORMS:
        try_second(step, files, (ran.stdout, ran.returncode, after), bad)
    for name in sorted({*files, *after}):
        why = left_otherwise(step["left"].get(name), files.get(name), after.get(name))
        if why:
            bad(step, f"{name}: {why}: {(after.get(name) or b'')[:200]!r}")
    if step["keep"]:
        after[step["keep"]] = ran.stdout
    return after


def try_second(step, files, came, bad):
    """Asks the second checker what the program was asked, of which it also has to leave the files."""
    after = dict(files)
    try:
        text, status = Answer(files.__getitem__, after.__setitem__).of(step["words"])
        own = f"{text}\n".encode(), status, after
    except KeyError:
        own = b"", 7, after
    if own != came:
        bad(step, f"the second checker answers {own[:2]!r}, came {came[:2]!r}")


def try_case(case):
    """Runs the steps of a case, and gives what differs."""
    said, files = [], dict(case["files"])
    folder = tempfile.mkdtemp()
    bad = lambda step, why: said.append(f"{case['book']}:{step['line']}: {case['name']}: {' '.join(step['words'])}: {why}")
    for step in case["steps"]:
        if not step["skip"]:
            files = try_step(step, files, folder, bad)
        files.update(step["then"])
    shutil.rmtree(folder, ignore_errors=True)
    return said


def main():
    load()
    wanted = NAMES and (lambda it: it["book"] in NAMES or it["name"].startswith(tuple(NAMES))) or (lambda it: True)
    mine = [it for it in cases.values() if wanted(it)]
    run = [it for it in mine if not it["skip"] and not all(step["skip"] for step in it["steps"])]
    with ThreadPoolExecutor(os.cpu_count()) as pool:
        said = [line for lines in pool.map(try_case, run) for line in lines]
    print("\n".join(said + [f"try_cases: {len(run)} cases run, {len(said)} differences; {len(mine) - len(run)} want a store in memory"]))
    return 1 if said else 0


GIVEN = sys.argv[1:]
PROGRAM = os.path.abspath(GIVEN[0] if GIVEN else os.environ.get("STN", os.path.join(TOP, "crates", "stn", "out", "stn")))
NAMES = GIVEN[1:]
sys.exit(main())
