#!/usr/bin/env python3
"""Checks what people read: sentences after a run, examples, the cookbook, and the schema of plant files.

    python3 tools/check_speak.py [PROGRAM]            # a line for each case that went wrong, and a count
    python3 tools/check_speak.py [PROGRAM] --draw     # draws the pictures in examples/ anew

PROGRAM is the built program, else the environment's STN, else crates/stn/out/stn; where there is none, what needs it is skipped. It makes
every kind of fault at every table of a plant file, every kind of a plan file, every violation and twenty defects of logs, and looks for
the line, the name and the sentence.
"""
import glob, json, os, re, shutil, subprocess, sys, tempfile
from concurrent.futures import ThreadPoolExecutor
from datetime import datetime

TOP = os.path.dirname(os.path.dirname(os.path.abspath(__file__)))
sys.path.insert(0, os.path.join(TOP, "tools"))
sys.dont_write_bytecode = True
from speaking import fields, texts
from speaking.toml_places import Document

GIVEN = [it for it in sys.argv[1:] if not it.startswith("--")]
PROGRAM = (GIVEN or [os.environ.get("STN", os.path.join(TOP, "crates", "stn", "out", "stn"))])[0]
SPEAK = os.path.join(TOP, "tools", "speak")
READ = lambda *names: open(os.path.join(TOP, *names), encoding="utf-8").read()


# ---- The table of texts and the schema, beside docs/formats.md.

def tables_of(text):
    """The rows of each Markdown table of a text, by the table's head."""
    found, head = [], None
    for line in text.split("\n"):
        cells = [it.strip() for it in line.strip().strip("|").split("|")] if line.startswith("|") else None
        if cells is None:
            head = None
        elif head is None:
            head = cells
            found.append((tuple(cells), []))
        elif not set(line) <= set("|- "):
            found[-1][1].append(cells)
    return found


def section(text, title):
    """What stands under a title, down to the next of its level or above."""
    level = title.split(" ")[0]
    begin = text.index(f"\n{title}\n") + 1
    ends = [m.start() for m in re.finditer(r"(?m)^#{1,%d} " % len(level), text) if m.start() > begin]
    return text[begin:min(ends, default=len(text))]


def kinds_in(text):
    """The kinds of the tables of a section."""
    return {kind for head, rows in tables_of(text) if head[0] == "Kind" for row in rows for kind in re.findall(r"\d+", row[0])}


def keys_wanted(formats):
    """What docs/formats.md has, by the subject of the table of texts."""
    logs = section(formats, "## The proof log")
    prose = "".join(it for it in re.split(r"(?m)^\|.*$", formats))
    words = section(formats, "## The words")
    answers = next(rows for head, rows in tables_of(words) if head == ("Answer", "Text"))
    broken = next(row[1] for row in answers if row[0] == "broken")
    return {
        "status": {row[0] for head, rows in tables_of(words) if head == ("Status", "When") for row in rows},
        "answer": {row[0] for row in answers},
        "broken": set(re.findall(r"`broken ([a-z-]+)", broken)),
        "plant": kinds_in(section(formats, "## The plant file")),
        "plan": kinds_in(section(formats, "## The plan file")),
        "log": kinds_in(logs) | set(re.findall(r"`no 0 (\d+)`", prose)) | set(re.findall(r"line 0 and kind (\d+)", formats))
        | set(re.findall(r"kind (\d+) is answered at", logs)),
    }


def check_table(formats):
    """Each status, answer, kind, violation and word of a form has its row, and there is no other."""
    have = {}
    for subject, key in texts.TABLE:
        have.setdefault(subject, set()).add(key)
    for subject, wanted in keys_wanted(formats).items():
        for key in sorted(wanted ^ have.get(subject, set())):
            yield f"sentences.tsv: {subject} {key} stands in {'docs/formats.md' if key in wanted else 'the table'} alone"
    words = {it for form in texts.FORMS for it in form[1:] if it.isupper()} - {"PLANT", "PLAN", "LOG", "STEM", "STATE", "OUT"}
    for word in sorted(words ^ {it.split()[-1] for it in have["word"]}):
        yield f"sentences.tsv: the word {word} has no row, or no form"
    for (subject, key), (range_, _) in texts.TABLE.items():
        word = key.split()[-1]
        if subject == "word" and word not in ("PART", "STEP") and f"{word} is {range_}" not in formats and f"{word} {range_}" not in formats \
                and f"{word} from {range_}" not in formats:
            yield f"sentences.tsv: docs/formats.md does not say that {word} is {range_}"


# The keys at the top that hold no array.
NUMBERS_OF_TOP = ("version", "periods", "start", "minutes")


def numbers_in(text):
    return [int(it.replace(",", "")) for it in re.findall(r"-?\d[\d,]*", text)]


def check_schema(formats):
    """The ranges of the schema are those of docs/formats.md, for all versions, and it names no other key."""
    rows = next(rows for head, rows in tables_of(section(formats, "## The plant file")) if head[0] == "Table")
    table, seen = "", {}
    for name, keys, holds, default in rows:
        table = name.replace("v2: ", "") or table
        for key in re.sub(r"v[23]: ", "", keys).split(", "):
            seen.setdefault(table, {})[key] = (holds, default, 3 if keys.startswith("v3") else 2 if "v2" in (keys[:2], name[:2]) else 1)
    yield from check_arrays(seen["top"])
    for table, keys in seen.items():
        for key, (holds, default, late) in keys.items():
            if table != "top" or key in NUMBERS_OF_TOP:
                yield from check_key(table, key, holds, default, late)
        known = set(fields.known(table, 3))
        if table != "top" and known != set(keys):
            yield f"schema: the keys of {table} are {sorted(known)}, and docs/formats.md has {sorted(keys)}"


def check_arrays(top):
    """The greatest numbers of items."""
    held = next(holds for keys, (holds, _, _) in top.items() if "at most" in holds)
    names = [it for it in top if it not in NUMBERS_OF_TOP]
    for version, part in ((2, 0), (3, 1)):
        for name, most in zip(names, numbers_in(held.split("at most")[1].split("in version 3")[part])):
            if fields.of("top", name, version)["maxItems"] != most:
                yield f"schema: {name} has at most {fields.of('top', name, version)['maxItems']} items, and docs/formats.md says {most}"


def check_key(table, key, holds, default, late):
    """The range of a key in each version, and whether it is required."""
    what, second, first = (fields.of(table, key, version) for version in (3, 2, 1))
    knows = [fields.of(table, key, version) is not None for version in (1, 2, 3)]
    if knows != [version >= late or table == "outage" for version in (1, 2, 3)]:
        yield f"schema: {table} {key} is known in other versions than docs/formats.md says"
        return
    ends = what.get("items", what)
    number = r"(-?[\d,]*\d)"
    found = re.match(rf"{number}(?: \({number}\))? to {number}(?: \({number}\))?(?:, v3: {number})?", holds)
    if found and "minimum" in ends:
        low, low2, high, high2, high3 = (int(it.replace(",", "")) if it else None for it in found.groups())
        of_second = (low if low2 is None else low2, high if high2 is None else high2)
        wanted = (of_second[0], of_second[1] if high3 is None else high3), of_second, (low, high)
        for version, held, range_ in zip((3, 2, 1), (ends, second, first), wanted):
            if held and "minimum" in held and (held["minimum"], held["maximum"]) != range_:
                yield f"schema: {table} {key} of version {version} is {held['minimum']} to {held['maximum']}, and docs/formats.md says {holds}"
    if (key in fields.tables(1)[table][1]) != (default == "-") and table != "top":
        yield f"schema: {table} {key} is required in one of schema and docs/formats.md alone"


def plain(node):
    """A value of the scanner as Python has it."""
    if node.kind == "table":
        return {key: plain(it) for key, it in node.held.items()}
    return [plain(it) for it in node.held] if node.kind == "array" else node.held


def as_texts(value):
    """A value of Python's reader with its dates as texts, as a schema sees them."""
    if isinstance(value, dict):
        return {key: as_texts(it) for key, it in value.items()}
    if isinstance(value, list):
        return [as_texts(it) for it in value]
    return value.isoformat() if isinstance(value, datetime) else value


def plants():
    return sorted(glob.glob(os.path.join(TOP, "examples", "*.toml")))


def check_examples():
    """Each example is valid by the schema and names it, and is read as Python's own reader reads it."""
    try:
        import jsonschema, tomllib
    except ImportError:
        print("check_speak: the schema is not tried, since python3 has no jsonschema or no tomllib")
        return
    valid = jsonschema.Draft202012Validator(fields.schema())
    for file in plants():
        data = open(file, "rb").read()
        if not data.startswith(b"#:schema ../schema/plant.schema.json\n"):
            yield f"{file}: its first line does not name the schema"
        held = as_texts(tomllib.loads(data.decode()))
        yield from (f"{file}: {it.message} at {list(it.path)}" for it in valid.iter_errors(held))
        if plain(Document(data).root) != held:
            yield f"{file}: the scanner reads something else than tomllib"


# ---- Runs.

class Case:
    """A run: its words, what the program answers, and what the sentences have to hold."""

    def __init__(self, what, words, answer, *parts, files=None, says=None, lines=1):
        self.what, self.words, self.answer, self.parts, self.files, self.says, self.lines = what, words, answer, parts, files or {}, says, lines

    def run(self):
        """What went wrong, or nothing."""
        with tempfile.TemporaryDirectory(prefix="speak-") as room:
            for name, text in self.files.items():
                with open(os.path.join(room, name), "w", encoding="utf-8", newline="") as out:
                    # A number is a file of so many zero bytes.
                    out.truncate(text) if isinstance(text, int) else out.write(text)
            status, first = start(room, self.words)
            if first != self.answer:
                return f"{self.what}: the answer is {first!r}, and {self.answer!r} was wanted"
            said = speak(room, status, self.words)
            plainly = speak(room, status, self.words, STN_PLAIN="1")
        lacking = [it for it in self.parts if it not in said]
        if lacking or not said.startswith("stn: ") or said.count("\n") != self.lines:
            return f"{self.what}: {lacking} is not in {said!r}"
        if not plainly.startswith("stn: ") or (self.says and texts.means(*self.says) not in plainly):
            return f"{self.what}: without python3 it says {plainly!r}"
        return None


def start(room, words):
    """Runs the program, and leaves what it put in the files out and err; its status and its first line."""
    with open(os.path.join(room, "out"), "wb") as out, open(os.path.join(room, "err"), "wb") as err:
        full = open("/dev/full", "wb") if words[:1] == ["FULL"] else out
        ran = subprocess.run([PROGRAM, *words[words[:1] == ["FULL"]:]], cwd=room, stdin=subprocess.DEVNULL, stdout=full, stderr=err)
    with open(os.path.join(room, "out"), encoding="utf-8") as out:
        return ran.returncode, out.readline().rstrip("\n")


def speak(room, status, words, **more):
    """What tools/speak says."""
    words = words[words[:1] == ["FULL"]:]
    ran = subprocess.run([SPEAK, str(status), "out", "err", "--", *words], cwd=room, capture_output=True, text=True, env={**os.environ, **more})
    return ran.stderr if not ran.returncode and not ran.stdout else f"status {ran.returncode}, {ran.stdout!r}"


class Plant:
    """A plant file as its tables in order: each a header and pairs of a key and what is written at it."""

    def __init__(self, blocks):
        self.blocks = [(head, list(pairs)) for head, pairs in blocks]

    def text(self):
        return "".join(f"{head}\n" * bool(head) + "".join(f"{key} = {value}\n" for key, value in pairs) for head, pairs in self.blocks)

    def copy(self):
        return Plant(self.blocks)

    def find(self, table, number=1):
        """The place of the table's item of this number."""
        heads = [at for at, (head, _) in enumerate(self.blocks) if head.strip("[]").split(".")[-1] == table or (table == "top" and not head)]
        return heads[number - 1]

    def line(self, block, key=None):
        """The line of a block's header, or of a key in it."""
        before = sum(bool(head) + len(pairs) for head, pairs in self.blocks[:block])
        head, pairs = self.blocks[block]
        return before + 1 if key is None else before + bool(head) + 1 + [it for it, _ in pairs].index(key)

    def put(self, block, key, value):
        """A copy with another value at a key, which is added where it is not there."""
        other = self.copy()
        pairs = other.blocks[block][1]
        at = next((i for i, (name, _) in enumerate(pairs) if name == key), len(pairs))
        pairs[at:at + 1] = [(key, value)]
        return other

    def without(self, block, key):
        other = self.copy()
        other.blocks[block][1][:] = [it for it in other.blocks[block][1] if it[0] != key]
        return other

    def less(self, table):
        """A copy without the tables of a name."""
        other = self.copy()
        other.blocks = [it for it in other.blocks if it[0] != f"[[{table}]]"]
        return other


BASE = Plant([
    ("", [("version", "2"), ("periods", "4")]),
    ("[[state]]", [("name", '"feed"'), ("initial", "40"), ("limit", "90"), ("price", "1"), ("holding", "0")]),
    ("[[state]]", [("name", '"prod"'), ("limits", "[9, 9, 9, 9, 20]")]),
    ("[[utility]]", [("name", '"steam"'), ("limit", "9"), ("rate", "1")]),
    ("[[utility]]", [("name", '"power"'), ("limits", "[9, 9, 9, 9]")]),
    ("[[unit]]", [("name", '"U"')]),
    ("[[unit]]", [("name", '"V"')]),
    ("[[task]]", [("name", '"make"'), ("quantum", "2")]),
    ("[[task.input]]", [("state", '"feed"'), ("part", '"1/1"')]),
    ("[[task.output]]", [("state", '"prod"'), ("part", '"1/2"'), ("delay", "1")]),
    ("[[task.output]]", [("state", '"feed"'), ("part", '"1/2"'), ("delay", "1")]),
    ("[[task.draw]]", [("utility", '"steam"'), ("fixed", "[1]"), ("each", "[2]")]),
    ("[[task]]", [("name", '"wash"'), ("quantum", "2")]),
    ("[[task.input]]", [("state", '"feed"'), ("part", '"1/1"')]),
    ("[[task.output]]", [("state", '"feed"'), ("part", '"1/1"'), ("delay", "1")]),
    ("[[run]]", [("task", '"make"'), ("unit", '"U"'), ("min", "1"), ("max", "4"), ("cost", "1")]),
    ("[[run]]", [("task", '"wash"'), ("unit", '"U"'), ("min", "1"), ("max", "1")]),
    ("[[gap]]", [("unit", '"U"'), ("from", '"make"'), ("to", '"wash"'), ("periods", "1"), ("cost", "2")]),
    ("[[receipt]]", [("state", '"feed"'), ("time", "1"), ("amount", "5")]),
    ("[[delivery]]", [("state", '"prod"'), ("time", "4"), ("amount", "1"), ("payment", "3")]),
    ("[[outage]]", [("unit", '"V"'), ("from", "0"), ("to", "1")]),
])
INNER = ("input", "output", "draw")


def spot(table):
    """The words `TABLE ITEM INNER` of a table's first item."""
    return f"{table} 1 {int(table in INNER)}" if table != "top" else "top 0 0"


def plant_case(what, plant, answer, line, *parts, text=None):
    """A plant file with a fault; the fault's line stands in the sentence."""
    place = [f"plant.toml, line {line}, column"] if line else ["plant.toml"]
    kind = answer.split(" ")[0]
    return Case(what, ["solve", "plant.toml", "9"], f"refused plant {answer}", *place, *parts, files={"plant.toml": text or plant.text()},
                says=("plant", kind))


def at_keys():
    """Every fault that a key can have alone, at every key of every table."""
    for table, (keys, needed) in fields.tables(2).items():
        for key, what in keys.items():
            if what.get("type") == "array" and "$ref" in what["items"]:
                continue
            # A file without version 2 knows no outage, which would be the first fault.
            base = BASE.less("outage") if key == "version" else BASE
            block = base.find(table)
            there = base if any(it == key for it, _ in base.blocks[block][1]) else base.put(block, key, "[1]")
            if key in needed:
                yield plant_case(f"5 {table} {key}", base.without(block, key), f"5 {spot(table)} {key}", base.line(block) if table != "top" else 1,
                                 f"lacks the required key `{key}`")
            if not (table == "state" and key == "limits"):
                yield from of_type(table, key, what, there, block)


def of_type(table, key, what, plant, block):
    """A value of another type, and numbers outside of a key's range."""
    if key == "limits":
        plant = plant.without(block, "limit")
    line, name, odd = plant.line(block, key), f"{table} {key}", "1.5" if "minimum" in what or "enum" in what else "true"
    yield plant_case(f"6 {name}", plant.put(block, key, odd), f"6 {spot(table)} {key}", line, f"`{odd}`", "should hold")
    ends = what.get("items", what)
    for number in [ends["minimum"] - 1, ends["maximum"] + 1] if "minimum" in ends else [4] if "enum" in what else []:
        many = 4 if table == "utility" else 1
        written = str(number) if what is ends else "[" + ", ".join(["1"] * (many - 1) + [str(number)]) + "]"
        yield plant_case(f"7 {name} {number}", plant.put(block, key, written), f"7 {spot(table)} {key}", line, f"`{number}`", "is allowed")


def of_tables():
    """Unknown keys, and items that are no tables."""
    for table in fields.tables(2):
        block = BASE.find(table)
        wrong = BASE.put(block, "shade", "1")
        kind = 3 if table == "top" else 4
        yield plant_case(f"{kind} {table}", wrong, f"{kind} {spot(table)} -", wrong.line(block, "shade"), "the key `shade`", "Known are",
                         f"`{fields.known(table, 2)[0]}`")
        if table in INNER:
            task = BASE.find("task")
            odd = BASE.put(task, table, "[7]")
            odd.blocks = [it for it in odd.blocks if it[0] != f"[[task.{table}]]"]
            yield plant_case(f"6 {table}", odd, f"6 {spot(table)} -", odd.line(task, table), f"the 1st {table} of the 1st task (`make`)", "should be a table")
        elif table != "top":
            odd = BASE.put(0, table, "[7]")
            odd.blocks = [it for it in odd.blocks if not it[0].startswith(f"[[{table}")]
            yield plant_case(f"6 {table}", odd, f"6 {spot(table)} -", 3, f"the 1st {table} is a number", "should be a table")
    for key in fields.known("top", 2)[2:]:
        odd = BASE.put(0, key, "7")
        odd.blocks = [it for it in odd.blocks if not it[0].startswith(f"[[{key}")]
        yield plant_case(f"6 top {key}", odd, f"6 top 0 0 {key}", 3, "should hold an array of tables")


def of_names():
    """Names that are none, twice, or not declared."""
    for table in ("state", "utility", "unit", "task"):
        block, other = BASE.find(table), BASE.find(table, 2)
        yield plant_case(f"8 {table}", BASE.put(block, "name", '"2 x"'), f"8 {spot(table)} name", BASE.line(block, "name"), '`"2 x"` is no name')
        named = BASE.blocks[block][1][0][1]
        yield plant_case(f"9 {table}", BASE.put(other, "name", named), f"9 {table} 2 0 name", BASE.line(other, "name"), f"the 1st {table} too",
                         f"on line {BASE.line(block, 'name')}")
    for table, keys in (("input", ["state"]), ("output", ["state"]), ("draw", ["utility"]), ("run", ["task", "unit"]), ("gap", ["unit", "from", "to"]),
                        ("receipt", ["state"]), ("delivery", ["state"]), ("outage", ["unit"])):
        for key in keys:
            block = BASE.find(table)
            yield plant_case(f"10 {table} {key}", BASE.put(block, key, '"proud"'), f"10 {spot(table)} {key}", BASE.line(block, key), '`"proud"`',
                             "is the name of no", "did you mean `prod`?" if key == "state" else "names are")


def of_tasks():
    """Parts, sides, lists of draws and of limits."""
    for side in ("input", "output"):
        block = BASE.find(side)
        yield plant_case(f"11 {side}", BASE.put(block, "part", '"0.5"'), f"11 {side} 1 1 part", BASE.line(block, "part"), '`"0.5"`', "is no fraction")
        yield plant_case(f"12 {side}", BASE.put(block, "part", '"1/4"'), f"12 {side} 1 0 -", BASE.line(block), "the 1st task (`make`)", "sum to")
    block = BASE.find("task")
    yield plant_case("13 output", BASE.put(block, "quantum", "3"), "13 output 1 1 part", BASE.line(BASE.find("output"), "part"), "3/2", "A quantum of 2")
    thirds = BASE.put(BASE.find("input"), "part", '"1/3"')
    thirds.blocks.insert(BASE.find("input"), ("[[task.input]]", [("state", '"prod"'), ("part", '"2/3"')]))
    yield plant_case("13 input", thirds, "13 input 1 1 part", thirds.line(thirds.find("input"), "part"), "4/3", "A quantum of 6")
    for key in ("fixed", "each"):
        yield plant_case(f"17 draw {key}", BASE.put(BASE.find("draw"), key, "[1, 2]"), f"17 draw 1 1 {key}", BASE.line(BASE.find("draw"), key), "2 numbers, and 1")
    for table, wanted in (("state", 5), ("utility", 4)):
        block = BASE.find(table, 2)
        yield plant_case(f"17 {table}", BASE.put(block, "limits", "[1, 2, 3]"), f"17 {table} 2 0 limits", BASE.line(block, "limits"), f"3 numbers, and {wanted}")
        both = BASE.put(block, "limit", "4")
        yield plant_case(f"21 {table}", both, f"21 {table} 2 0 limits", both.line(block, "limits"), "both", f"line {both.line(block, 'limit')}")


def of_arrays():
    """Arrays that are too long, at the top and in a task."""
    for key, what in fields.tables(2)["top"][0].items():
        if "maxItems" in what:
            odd = BASE.put(0, key, "[" + "{}, " * what["maxItems"] + "{}]")
            odd.blocks = [it for it in odd.blocks if not it[0].startswith(f"[[{key}")]
            yield plant_case(f"14 {key}", odd, f"14 top 0 0 {key}", 3, f"{what['maxItems'] + 1:,} items", f"{what['maxItems']:,} are allowed")
    task = BASE.find("task")
    for key in INNER:
        odd = BASE.put(task, key, "[" + "{}, " * 8 + "{}]")
        odd.blocks = [it for it in odd.blocks if it[0] != f"[[task.{key}]]"]
        yield plant_case(f"14 task {key}", odd, f"14 task 1 0 {key}", odd.line(task, key), "9 items", "8 are allowed", "the 1st task (`make`)")


def of_runs():
    """Runs, outages, sizes, and versions."""
    run, outage = BASE.find("run"), BASE.find("outage")
    yield plant_case("15", BASE.put(run, "min", "5"), "15 run 1 0 max", BASE.line(run, "max"), "4, below its `min`, 5")
    yield plant_case("16", BASE.put(BASE.find("run", 2), "task", '"make"'), "16 run 2 0 -", BASE.line(BASE.find("run", 2)), f"on line {BASE.line(run)}", "`make`")
    yield plant_case("22", BASE.put(outage, "from", "1"), "22 outage 1 0 to", BASE.line(outage, "to"), "from 1 to 1")
    long = BASE.put(0, "periods", "300").without(BASE.find("state", 2), "limits").put(BASE.find("utility", 2), "limit", "9").without(BASE.find("utility", 2), "limits")
    yield plant_case("18", long, "18 run 0 0 -", None, "has 600 slots", "`make` on `U` 300")
    gap = long.find("gap")
    wide = long.put(0, "periods", "120").put(gap, "periods", "96")
    wide.blocks.insert(gap, ("[[gap]]", [("unit", '"U"'), ("from", '"wash"'), ("to", '"make"'), ("periods", "96")]))
    yield plant_case("19", wide, "19 gap 0 0 -", None, "13,728 pairs", "on `U` from `make` to `wash` 6,864")
    unit, third = BASE.find("unit"), BASE.put(0, "version", "3")
    yield plant_case("4, last in version 2", BASE.put(unit, "last", '"make"'), "4 unit 1 0 -", BASE.put(unit, "last", "1").line(unit, "last"),
                     "the key `last`", "version 3 knows it")
    for key, value, kind, says in (("last", "7", 6, "should hold a text"), ("until", '"1"', 6, "should hold a whole number"), ("until", "5", 7, "-336 to 4, the horizon"),
                                   ("until", "-337", 7, "-336 to 4, the horizon"), ("until", "1", 23, "and no `last`"), ("last", '"mike"', 10, "did you mean `make`?")):
        wrong = third.put(unit, key, value)
        yield plant_case(f"{kind} unit {key} {value}", wrong, f"{kind} unit 1 0 {key}", wrong.line(unit, key), "the 1st unit (`U`)", says)
    gap = BASE.find("gap")
    yield plant_case("7 gap of version 3", third.put(gap, "periods", "337"), "7 gap 1 0 periods", third.line(gap, "periods"), "`337`", "0 to 336")
    first = BASE.put(0, "version", "1")
    yield plant_case("3, version 1", first, "3 top 0 0 -", first.line(first.find("outage")), "`outage`", "version 2 knows it")


def of_labels():
    """Labels, colours and the calendar, which version 3 alone has."""
    third = BASE.put(0, "version", "3")
    for table in ("state", "utility", "unit", "task"):
        block, named = BASE.find(table), f"the 1st {table} (`{BASE.blocks[BASE.find(table)][1][0][1][1:-1]}`)"
        old = BASE.put(block, "label", '"Ä"')
        yield plant_case(f"4, label of {table} in version 2", old, f"4 {spot(table)} -", old.line(block, "label"), "the key `label`", "version 3 knows it")
        for written, kind, *says in (("7", 6, "`7`", "should hold a text"), ('""', 24, "it has 0 bytes"), (f'"{"ä" * 33}"', 24, "it has 66 bytes"),
                                     ('"a\\tb"', 24, "the character U+0009"), ('"\\uFFFE"', 24, "the character U+FFFE")):
            wrong = third.put(block, "label", written)
            yield plant_case(f"{kind} label of {table} {written}", wrong, f"{kind} {spot(table)} label", wrong.line(block, "label"), named, *says)
    task = BASE.find("task")
    for written, kind, *says in (("7", 6, "should hold a text"), ('"#1e90f"', 25, '`"#1e90f"`', "six hexadecimal digits"), ('"blue"', 25, "six hexadecimal digits")):
        wrong = third.put(task, "label", '"Mälzen"').put(task, "colour", written)
        yield plant_case(f"{kind} colour {written}", wrong, f"{kind} task 1 0 colour", wrong.line(task, "colour"), "the 1st task (`Mälzen (make)`)", *says)
    old = BASE.put(0, "minutes", "60")
    yield plant_case("3, minutes in version 2", old, "3 top 0 0 -", old.line(0, "minutes"), "the key `minutes`", "version 3 knows it")
    noon = "2026-12-24T12:00:00"
    for start, minutes, answer, key, *says in ((noon, None, "5 top 0 0 minutes", "start", "the file has `start`, and lacks", "`minutes`, a whole number from 1 to 10,080"),
                                               (None, "60", "5 top 0 0 start", "minutes", "the file has `minutes`, and lacks", "a date with a time of day"),
                                               (f'"{noon}"', "60", "6 top 0 0 start", "start", "a text, and should hold a date with a time of day"),
                                               (noon + "Z", "60", "6 top 0 0 start", "start", "a date or time, and should hold a date with a time of day"),
                                               (noon[:-3], "60", "6 top 0 0 start", "start", f"`{noon[:-3]}`"), (noon, "true", "6 top 0 0 minutes", "minutes", "a whole number"),
                                               (noon, "10_081", "7 top 0 0 minutes", "minutes", "1 to 10,080 is allowed"), (noon, "0", "7 top 0 0 minutes", "minutes", "`0`"),
                                               (noon.replace("24", "32"), "60", "2 top 0 0 -", "start", "no such day or time")):
        wrong = third.put(0, "start", start) if start else third
        wrong = wrong.put(0, "minutes", minutes) if minutes else wrong
        yield plant_case(f"{answer}: {start}, {minutes}", wrong, answer, wrong.line(0, key), *says)


def of_documents():
    """Files that are no TOML documents, and one that is too large."""
    text = BASE.text()
    yield plant_case("1", BASE, "1 top 0 0 -", None, "1,048,576", text=text + "#" * 1_048_576)
    for what, old, new, why in (("a text without end", '"feed"', '"feed', "ends with its quote"), ("no equals sign", "initial = 40", "initial 40", "`=` should stand"),
                                ("a word without quotes", '"U"', "U", "texts stand in quotes"), ("a key twice", "price = 1", "limit = 1", "stands twice"),
                                ("an open list", "[9, 9, 9, 9, 20]", "[9, 9, 9, 9, 20", "`,` or `]`"), ("two values", "initial = 40", "initial = 40 41", "should end"),
                                ("leading zeros", "initial = 40", "initial = 040", "no leading zeros")):
        line = text[:text.index(old)].count("\n") + 1 + (what == "an open list")
        yield plant_case(f"2, {what}", BASE, "2 top 0 0 -", line, why, text=text.replace(old, new, 1))


# ---- Plans, logs, words, files and answers.

TINY = """version = 2
periods = 3
state = [{ name = "feed", initial = 12, price = 1 }, { name = "prod", price = 5, limit = 10 }, { name = "mud" }]
utility = [{ name = "steam", limit = 5 }]
unit = [{ name = "U" }, { name = "V" }, { name = "W" }]
outage = [{ unit = "V", from = 1, to = 2 }]
[[task]]
name = "make"
quantum = 2
input = [{ state = "feed", part = "1/1" }]
output = [{ state = "prod", part = "1/1", delay = 1 }]
draw = [{ utility = "steam", fixed = [2], each = [1] }]
[[task]]
name = "rest"
quantum = 2
input = [{ state = "feed", part = "1/1" }]
output = [{ state = "mud", part = "1/1", delay = 2 }]
[[run]]
task = "make"
unit = "U"
min = 1
max = 4
[[run]]
task = "make"
unit = "V"
min = 1
max = 4
[[run]]
task = "rest"
unit = "U"
min = 1
max = 2
[[gap]]
unit = "U"
from = "make"
to = "rest"
periods = 1
[[delivery]]
state = "prod"
time = 3
amount = 2
"""


def of_plans():
    """Every kind of a plan file, and every violation."""
    def case(what, plan, answer, *parts, words=("simulate", "plant.toml", "a.plan"), plant=TINY):
        subject = ("plan", answer.split()[2]) if answer.startswith("refused") else ("broken", answer.split()[1])
        return Case(what, list(words), answer, *parts, files={"plant.toml": plant, "a.plan": plan}, says=subject)

    yield case("plan 1, words", "# a plan\n0 U make\n", "refused plan 1 2", "a.plan, line 2, `0 U make`", "3 words, and four")
    yield case("plan 1, number", "0 U make 03\n", "refused plan 1 1", "line 1", "QUANTA is a number")
    yield case("plan 1, blanks", "0  U make 3\n", "refused plan 1 1", "line 1", "one blank each")
    yield case("plan 2, unit", "0 X make 3\n", "refused plan 2 1", "line 1, `0 X make 3`", "no unit `X`", "`U`, `V`")
    yield case("plan 2, task", "0 U mike 3\n", "refused plan 2 1", "no task `mike`", "did you mean `make`?")
    yield case("plan 3", "0 U make 1\n" * 2049, "refused plan 3 2049", "line 2049", "2,048 starts")
    yield case("plan 4", "#" * 262_145, "refused plan 4 0", "262,144 bytes", "version 3: 262,145")
    yield case("unfit, run", "# two\n0 W make 1\n", "broken unfit 1", "`make` on `W` in period 0 (1 quantum, line 2)", "no run has `make` on `W`", "`U`, `V`")
    yield case("unfit, size", "0 U make 5\n", "broken unfit 1", "5 quanta", "takes 1 to 4")
    yield case("unfit, horizon", "2 U rest 1\n", "broken unfit 1", "ends at time 4, after the horizon, 3")
    yield case("unfit, outage", "1 V make 1\n", "broken unfit 1", "`V` has an outage from 1 to 2")
    yield case("busy", "1 U make 1\n0 U rest 1\n", "broken busy 1 2", "meet on `U`", "`rest` on `U` in period 0 (1 quantum, line 2) runs to time 2", "(1 quantum, line 1)")
    yield case("gap", "0 U make 1\n1 U rest 1\n", "broken gap 1 2", "`U` is not clean", "ends at time 1", "cleaned for 1 period", "1 period too early")
    held = TINY.replace("version = 2", "version = 3").replace('{ name = "W" }', '{ name = "W" }, { name = "X", last = "make" }')
    held = held.replace('{ name = "U" }', '{ name = "U", last = "make", until = 1 }')
    early = ("broken gap 0 1", "`U` is not ready", "a batch of `make` held it before the plan, which ends at time 1")
    yield case("gap 0", "0 U make 1\n", *early, "`make` on `U` in period 0 (1 quantum, line 1) begins 1 period too early", plant=held)
    yield case("gap 0, cleaned", "1 U rest 1\n", *early, "is cleaned for 1 period", "begins 1 period too early", plant=held)
    called = held.replace('name = "U",', 'name = "U", label = "Kessel & Co.",').replace('name = "make"\n', 'name = "make"\nlabel = "発酵"\n')
    yield case("gap 0, with labels", "0 U make 1\n", early[0], "`Kessel & Co. (U)` is not ready", "a batch of `発酵 (make)` held it", "`発酵 (make)` on `Kessel & Co. (U)` in period 0",
               plant=called)
    yield case("plan 2, with labels", "0 Y make 3\n", "refused plan 2 1", "no unit `Y`", "`Kessel & Co. (U)`, `V`", plant=called)
    yield case("stock-low, with a label", "", "broken stock-low prod 3", "`Bräu (prod)` at time 3 is -2", plant=called.replace('name = "prod",', 'name = "prod", label = "Bräu",'))
    yield case("load, with a label", "1 U make 4\n", "broken load steam 1", "`蒸気 (steam)` in period 1 is 6",
               plant=called.replace('name = "steam",', 'name = "steam", label = "蒸気",'))
    yield case("stock-low", "", "broken stock-low prod 3", "`prod` at time 3 is -2", "2 mass units are missing", "2 are due then")
    yield case("stock-low, taken", "0 U make 3\n1 U make 3\n2 U make 3\n", "broken stock-low feed 2", "`feed` at time 2 is -6", "taken then by `make` on `U` in period 2")
    yield case("stock-high", "0 U make 3\n1 U make 3\n", "broken stock-high prod 2", "`prod` at time 2 is 12", "2 above its limit of 10")
    yield case("load", "0 U make 2\n0 V make 2\n", "broken load steam 0", "`steam` in period 0 is 8, 3 above its limit of 5", "4 by `make` on `V` in period 0")
    yield case("replan: places of what is kept", "2 U make 1\n1 V make 1\n", "broken unfit 1", "(1 quantum, line 2)", "outage",
               words=("replan", "plant.toml", "a.plan", "2", "9"))
    yield case("roll: places of what is kept", "2 U make 1\n1 V make 1\n", "broken unfit 1", "(1 quantum, line 2)", "outage",
               words=("roll", "plant.toml", "a.plan", "2"))
    yield case("improve", "1 U make 1\n0 U rest 1\n", "broken busy 1 2", "meet on `U`", words=("improve", "plant.toml", "a.plan", "9"))
    yield Case("violations", ["violations", "plant.toml", "a.plan"], "violations 3", "a.plan: the plan is not feasible, 3 violations", "takes 1 to 4",
               "`U` is not clean", "1 period too early", "`steam` in period 0 is 7, 2 above its limit of 5",
               files={"plant.toml": TINY, "a.plan": "0 U make 5\n1 U rest 1\n"}, says=("answer", "violations"), lines=5)


ODD, TANK = READ("examples", "odd.toml"), READ("examples", "tank.toml")
ODD_LOG = READ("examples", "odd.log").split("\n")
SUMS = ["stn-log 3", "sum 1 0 - - 2", "term 0 1 0", "term 1 1 0", "node", "split 2 1 1 0", "node", "dual 1 1", "mult 8 24", "node", "cut 9 0",
        "cut 3 1", "cut 9 1", "empty", "claim optimal 34 2", "value 0 3", "value 2 1", "end", ""]


def of_logs():
    """Twenty and more defects of logs: each kind, and more than one way to it."""
    def case(what, lines, answer, *parts, words=("check", "plant.toml", "a.log"), file="a.log"):
        kind = answer.split()[-1]
        return Case(f"log: {what}", list(words), answer, file, *parts, files={"plant.toml": ODD, "tank.toml": TANK, file: lines if isinstance(lines, int) else "\n".join(lines)}, says=("log", kind))

    def other(at, line, lines=ODD_LOG):
        return [*lines[:at - 1], line, *lines[at:]]

    yield case("another version", other(1, "stn-log 7"), "no 1 1", "line 1, `stn-log 7`", "none of the forms")
    yield case("a long line", other(2, "n" * 201), "no 2 1", "line 2", "more than 200 bytes")
    yield case("cut off", ODD_LOG[:6], "no 6 2", "line 6", "cut off")
    yield case("no end", ODD_LOG[:-2] + [""], f"no {len(ODD_LOG) - 1} 2", f"line {len(ODD_LOG) - 1}, the end of the file")
    yield case("after the end", [*ODD_LOG[:-1], "more", ""], f"no {len(ODD_LOG)} 3", f"line {len(ODD_LOG)}, `more`", "follows the line `end`")
    yield case("a row of a cut", other(7, "cut 99 1"), "no 7 4", "line 7, `cut 99 1`", "rows 0 to 7")
    yield case("a row of a certificate", [*ODD_LOG[:4], "dual 1 1", "mult 8 1", *ODD_LOG[5:]], "no 6 4", "`mult 8 1`", "rows 0 to 7")
    yield case("a slot of a split", other(3, "split 2 0 1 0"), "no 3 5", "`split 2 0 1 0`", "slots 0 to 1")
    yield case("a slot of a cut", other(7, "cut 3 5"), "no 7 5", "`cut 3 5`", "slots 0 to 1")
    yield case("a term's slot", other(4, "term 2 1 0", SUMS), "no 4 5", "`term 2 1 0`")
    yield case("a factor", [*ODD_LOG[:4], "dual 1 1", f"mult 3 {2 ** 41}", *ODD_LOG[5:]], "no 6 6", "above 2^40")
    yield case("a scale", other(5, f"dual {2 ** 21} 0"), "no 5 7", "above 2^20")
    yield case("a count", other(5, "dual 1 50001"), "no 5 8", "50,000 rows")
    deep = ["stn-log 2", *["node", "split 0 0 1 0"] * 4609, "node", ""]
    yield case("deep", deep, "no 9220 9", "line 9220", "4,608 splits")
    yield case("empty with values", other(5, "empty"), "no 5 10", "`empty`", "each slot has a value left")
    yield case("a certificate of nothing", other(14, "dual 1 0", SUMS), "no 14 11", "some slot has no value left")
    yield case("scale 0", other(5, "dual 0 0"), "no 5 12", "scale 0")
    yield case("another plan", other(10, "value 0 2"), "no 9 13", "`claim optimal 34 1`", "is not feasible")
    yield case("another profit", other(9, "claim optimal 33 1"), "no 9 14", "`claim optimal 33 1`", "earns something else")
    yield case("a cap above", [*ODD_LOG[:1], "node", "dual 1 0", *ODD_LOG[8:]], "no 4 15", "`claim optimal 34 1`", "cap")
    yield case("infeasible", [*ODD_LOG[:8], "claim infeasible", "end", ""], "no 9 16", "`claim infeasible`", "the tree leaves some")
    yield case("point with more values", other(5, "point"), "no 5 18", "`point`", "exactly one value")
    yield case("a sum not shown", other(2, "sum 1 255 - - 2", SUMS), "no 2 20", "`sum 1 255 - - 2`", "0 to 255")
    yield case("a setup of no unit", ["stn-log 4", "setup 99", *ODD_LOG[1:]], "no 2 24", "line 2, `setup 99`", "a unit that is not there")
    many = ["stn-log 3", *["sum 1 0 - - 1", "term 0 1 0"] * 511, ""]
    yield case("too many sums", many, "no 1022 21", "line 1022", "512 slots")
    yield case("of a horizon", ["stn-log 2", "node", "dual 1 0", "claim below 99", "end", ""], "no 1 0 19", "`claim below 99`", "claims something else",
               words=("check-least", "plant.toml", "2", "s"), file="s.1")
    yield case("of a horizon, its text", ["stn-log 2", "nod", ""], "no 1 2 1", "line 2, `nod`", words=("check-least", "plant.toml", "2", "s"), file="s.1")
    yield case("too large", 67_108_865, "no 0 17", "67,108,864 bytes", words=("whatif", "tank.toml", "a.log", "prod", "1", "1"))
    yield case("of a part", ["stn-log 2", "node", "dual 1 0", "claim below 1", "end", ""], "no 0 4 15", "p.0, line 4, `claim below 1`",
               words=("join", "plant.toml", "1", "p", "out.log"), file="p.0")


def of_joins():
    """A part's log that declares other sums than part 0's."""
    head = ["stn-log 3", "sum 1 0 - - 1", "term 1 1 0", "node", "dual 1 0", "claim below 58", "end", ""]
    files = {"plant.toml": ODD, "p.0": "\n".join(head), "p.1": "\n".join([head[0], "sum 1 1 - - 1", *head[2:]])}
    yield Case("log: other sums", ["join", "plant.toml", "1", "p", "out.log"], "no 1 2 22", "p.1, line 2, `sum 1 1 - - 1`", "other sums", files=files, says=("log", "22"))
    yield Case("log: other heads", ["merge", "plant.toml", "p", "2", "out.log"], "no 1 2 22", "p.1, line 2, `sum 1 1 - - 1`", "from one and the same log", files=files, says=("log", "22"))


def of_words():
    """Words of no form, and words that name what the plant does not have."""
    def case(what, words, *parts, answer="refused words", **files):
        says = ("status", "2") if answer == "refused words" else ("answer", answer.split()[1])
        return Case(f"words: {what}", words, answer, *parts, files={"plant.toml": TINY, "a.log": "x", **files}, says=says)

    yield case("none", [], "no words were given", "./stn help")
    yield case("unknown", ["sovle", "plant.toml", "1"], "no command `sovle`", "did you mean `solve`?")
    yield case("too few", ["replan", "plant.toml"], "`stn replan PLANT PLAN PERIOD BUDGET`")
    for name, word, words in (("BUDGET", "100,001", ["solve", "plant.toml"]), ("BUDGET", "0", ["solve", "plant.toml"]), ("BUDGET", "100001", ["solve", "plant.toml"]),
                              ("SEED", "-1", ["demo"]), ("LEVELS", "9", ["parts", "plant.toml"])):
        yield case(f"{name} {word}", [*words, word], f"{name} is `{word}`", f"from {texts.means('word', name).split(' ')[0]} to {texts.means('word', name).split(' ')[2]}")
    yield case("PERIOD", ["replan", "plant.toml", "a.plan", "337", "1"], "PERIOD is `337`", "0 to 336")
    yield case("the last word of roll", ["roll", "plant.toml", "a.plan", "1", "plna"], "the last word is `plna`", "should be `plan`; did you mean `plan`?")
    yield case("PART", ["solve-part", "plant.toml", "2", "4", "1", "b.log"], "PART is `4`", "0 to 3")
    yield case("STEP", ["whatif", "plant.toml", "a.log", "prod", "-0", "1"], "STEP is `-0`", "-1,000,000,000 to 1,000,000,000")
    yield case("COUNT", ["whatif", "plant.toml", "a.log", "prod", "1", "51"], "COUNT is `51`", "1 to 50")
    yield case("COUNT of merge", ["merge", "plant.toml", "s", "257", "b.log"], "COUNT is `257`", "1 to 256")
    yield case("OUT of STEM", ["merge", "plant.toml", "s", "1", "s.255"], "`s.255`, is one of the files of STEM")
    yield case("OUT is PLANT, merge", ["merge", "plant.toml", "s", "1", "plant.toml"], "OUT and PLANT are the same file")
    yield case("H", ["check-least", "plant.toml", "338", "s"], "H is `338`", "1 to 337")
    yield case("LOG is PLANT", ["solve", "plant.toml", "1", "plant.toml"], "LOG and PLANT are the same file, `plant.toml`")
    yield case("LOG is PLAN", ["replan", "plant.toml", "a.log", "1", "1", "a.log"], "LOG and PLAN are the same file")
    yield case("LOG is PLAN, improve", ["improve", "plant.toml", "a.log", "1", "a.log"], "LOG and PLAN are the same file")
    yield case("a file of STEM", ["least", "s.1", "1", "s"], "`s.1`, is one of the files of STEM")
    yield case("LOG of STEM", ["join", "plant.toml", "1", "s", "s.1"], "`s.1`, is one of the files of STEM")
    yield case("an empty word", ["check", "", "a.log"], "PLANT is an empty word")
    yield case("STATE", ["whatif", "plant.toml", "a.log", "proud", "1", "1"], "no state `proud`", "did you mean `prod`?", answer="refused state")
    yield case("STATE without limits", ["whatif", "plant.toml", "a.log", "feed", "1", "1"], "`feed` has no limit", "`prod`", answer="refused state")
    yield case("PERIOD of roll", ["roll", "plant.toml", "a.plan", "3"], "PERIOD is 3", "the periods 0 to 2", answer="refused period", **{"a.plan": ""})
    hoard = TINY.replace("version = 2", "version = 3") + '[[receipt]]\nstate = "feed"\ntime = 2\namount = 1_000_000_000\n' * 899 + '[[receipt]]\nstate = "feed"\ntime = 0\namount = 1_000_000_000\n'
    yield case("receipts of roll", ["roll", "hoard.toml", "a.plan", "1"], "more than 900 receipts", answer="refused roll", **{"a.plan": "0 U make 3\n", "hoard.toml": hoard})
    late = TINY.replace("version = 2\n", "version = 3\nstart = 9999-12-31T23:00:00\nminutes = 60\n")
    yield case("a date of roll", ["roll", "late.toml", "a.plan", "1"], "after the year 9999", answer="refused roll", **{"a.plan": "", "late.toml": late})
    yield case("LEVELS", ["parts", "odd.toml", "3"], "LEVELS is 3", "2 slots", answer="refused levels", **{"odd.toml": ODD})


def of_files():
    """Files that can't be read or written."""
    def case(what, words, *parts, status):
        return Case(f"file: {what}", words, "", *parts, files={"plant.toml": ODD, "a.plan": "", "s.1": "x", "s.0": "\n".join(ODD_LOG)}, says=("status", status))

    for what, words, name in (("no plant", ["solve", "none", "1"], "PLANT"), ("no plan", ["simulate", "plant.toml", "none"], "PLAN"), ("no log", ["check", "plant.toml", "none"], "LOG")):
        yield case(what, words, f"{name}, `none`, could not be read: No such file or directory", status="7")
    yield case("a folder", ["solve", ".", "1"], "PLANT, `.`, could not be read: Is a directory", status="7")
    yield case("no log of a horizon", ["check-least", "plant.toml", "2", "t"], "`t.1`, could not be read", status="7")
    yield case("LOG in no folder", ["solve", "plant.toml", "9", "none/log"], "LOG, `none/log`, could not be written: No such file or directory", status="8")
    yield case("LOG a folder", ["solve", "plant.toml", "9", "."], "LOG, `.`, could not be written: Is a directory", status="8")
    if os.path.exists("/dev/full"):
        yield case("LOG full", ["solve", "plant.toml", "9", "/dev/full"], "LOG, `/dev/full`, could not be written: No space left on device", status="8")
        yield case("output full", ["FULL", "solve", "plant.toml", "9"], "standard output", status="8")


def of_answers():
    """What is said after an answer that is no fault."""
    kondili, due = READ("examples", "kondili.toml"), READ("examples", "due.toml")
    short = due.replace("periods = 3", "periods = 1").replace("time = 3", "time = 1")
    files = {"kondili.toml": kondili, "due.toml": due, "short.toml": short, "a.plan": "0 U make 1\n"}
    yield Case("infeasible", ["solve", "short.toml", "9"], "# infeasible", "no plan is feasible", "least PLANT BUDGET", files=files, says=("answer", "infeasible"))
    yield Case("infeasible, kept", ["replan", "due.toml", "a.plan", "3", "9"], "# infeasible", "keeps the starts", files=files)
    yield Case("no horizon", ["least", "short.toml", "9"], "# no-horizon", "within any number of periods", files=files, says=("answer", "no horizon"))
    with tempfile.TemporaryDirectory(prefix="speak-") as room:
        with open(os.path.join(room, "kondili.toml"), "w", encoding="utf-8") as out:
            out.write(kondili)
        _, first = start(room, ["solve", "kondili.toml", "1"])
    words = first.split()
    percent = -(-1000 * (int(words[3]) - int(words[2])) // int(words[2])) / 10
    yield Case("budget spent", ["solve", "kondili.toml", "1"], first, "the budget of 1 box was spent", f"a gap of {percent} percent", "Give more boxes", files=files, says=("answer", "budget spent"))


def cases():
    for some in (at_keys, of_tables, of_names, of_tasks, of_arrays, of_runs, of_labels, of_documents, of_plans, of_logs, of_joins, of_words, of_files, of_answers):
        yield from some()


# ---- Examples and the cookbook.

def commands(plant):
    """The commands that an example's comments show, without what stands behind them."""
    found = re.findall(r"(?m)^#   \./stn (.*)$", READ("examples", plant + ".toml"))
    return [re.sub(r"\s+#.*", "", it).split() for it in found]


def ran(plant, room):
    """Runs an example's commands, in a folder of their own; each with its status and what it put."""
    if not os.path.lexists(os.path.join(room, "examples")):
        os.symlink(os.path.join(TOP, "examples"), os.path.join(room, "examples"))
    for words in commands(plant):
        done = subprocess.run([PROGRAM, *words], cwd=room, stdin=subprocess.DEVNULL, capture_output=True)
        yield words, done.returncode, done.stdout


def drawn(plant, room, plan):
    """The picture of the plan that stands beside an example, else of that which its first command put."""
    kept = os.path.join(TOP, "examples", plant + ".plan")
    if os.path.exists(kept):
        with open(kept, "rb") as file:
            plan = file.read()
    with open(os.path.join(room, "drawn.plan"), "wb") as out:
        out.write(plan)
    words = [PROGRAM, "picture", os.path.join(TOP, "examples", plant + ".toml"), "drawn.plan"]
    return subprocess.run(words, cwd=room, capture_output=True).stdout


def pictured(plant):
    """The file of an example's picture, if it has one."""
    file = os.path.join(TOP, "examples", plant + ".svg")
    return file if os.path.exists(file) else None


def wrong_example(plant):
    """What is wrong with an example: a command, the answer that its comment tells, or its picture."""
    told, bad = re.search(r"`(# (?:optimal|budget-spent)[^`]*)`", READ("examples", plant + ".toml")), []
    with tempfile.TemporaryDirectory(prefix="speak-") as room:
        runs = list(ran(plant, room))
        bad += [f"examples/{plant}.toml: `{' '.join(words)}` ends with status {status}" for words, status, _ in runs if status]
        first = runs[0][2].decode("utf-8", "replace").split("\n")[0] if runs else ""
        if not runs or (told and told.group(1) != first):
            bad.append(f"examples/{plant}.toml: its command answers `{first}`, and its comment says otherwise")
        if pictured(plant) and open(pictured(plant), "rb").read() != drawn(plant, room, runs[0][2]):
            bad.append(f"examples/{plant}.svg is not what picture draws of its plan")
    return bad


def names():
    return [os.path.basename(it)[:-5] for it in plants()]


def check_runs():
    """Each example's commands end well and answer what its comments say, and its picture is what is drawn."""
    with ThreadPoolExecutor(4) as pool:
        for wrong in pool.map(wrong_example, names()):
            yield from wrong


def draw():
    """Draws the pictures anew."""
    for plant in filter(pictured, names()):
        with tempfile.TemporaryDirectory(prefix="speak-") as room:
            _, _, plan = next(ran(plant, room))
            with open(pictured(plant), "wb") as out:
                out.write(drawn(plant, room, plan))
        print(f"examples/{plant}.svg: {plan.decode().split(chr(10))[0]}")


def entries(text):
    """The entries of the cookbook: a title, and its blocks of code with what stands on their first line."""
    for part in re.split(r"(?m)^## ", text)[1:]:
        title, _, rest = part.partition("\n")
        yield title, re.findall(r"(?ms)^```(\w+) ?([^\n]*)\n(.*?)^```$", rest)


def check_entry(title, blocks, base):
    """Writes an entry's files beside the small plant, runs its commands, and compares what is shown."""
    with tempfile.TemporaryDirectory(prefix="speak-") as room:
        for kind, name, text in [("toml", "kettle.toml", base), *blocks]:
            if kind == "console":
                yield from check_console(title, text, room)
            else:
                with open(os.path.join(room, name.split(" ")[0]), "w", encoding="utf-8") as out:
                    out.write((base if name.endswith(" after kettle.toml") else "") + text)


def check_console(title, text, room):
    """The commands of a block, each with the output that is shown: `..` as the last line leaves out the rest."""
    for piece in re.split(r"(?m)^\$ ", text)[1:]:
        command, _, shown = piece.partition("\n")
        ran = subprocess.run(command.replace("./stn ", PROGRAM + " "), shell=True, cwd=room, capture_output=True, text=True)
        got = ran.stdout if not shown.endswith("\n..\n") else "\n".join(ran.stdout.split("\n")[:shown.count("\n") - 1]) + "\n..\n"
        if got != shown:
            yield f"docs/cookbook.md, {title}: `{command}` answers\n{ran.stdout}{ran.stderr}"


def check_cookbook():
    """Each entry does what it shows."""
    found = list(entries(READ("docs", "cookbook.md")))
    base = next(text for _, blocks in found for kind, name, text in blocks if name == "kettle.toml")
    with ThreadPoolExecutor(4) as pool:
        for wrong in pool.map(lambda it: list(check_entry(*it, base)), found):
            yield from wrong


def main():
    formats, bad, count = READ("docs", "formats.md"), [], 0
    there = shutil.which(PROGRAM) is not None
    if "--draw" in sys.argv:
        return draw()
    bad += [*check_table(formats), *check_schema(formats), *check_examples()]
    if there:
        with ThreadPoolExecutor(4) as pool:
            for wrong in pool.map(Case.run, cases()):
                count += 1
                bad += [wrong] * bool(wrong)
        bad += [*check_runs(), *check_cookbook()]
    else:
        print("check_speak: runs are skipped, since the program is not built")
    print(*(f"check_speak: {it}" for it in bad), f"check_speak: {count} runs, {len(bad)} faults", sep="\n")
    sys.exit(bool(bad))


main()
