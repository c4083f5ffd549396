#!/usr/bin/env python3
"""Which definitions the contract of `run` reaches, and whether docs/reading.md says so; .ci/check_reading says how it is run.

From the names in the clauses of `run` it follows imports and names through the definitions in specs/. It ends at the names of
Rust types (`declared`) and of the kit. Each module that is reached has an entry on the page and no other has one, and it
names only modules whose entries stand above its own, or in the last section. The numbers and lists are those of the sources.
"""

import re
import sys
import textwrap
from collections import defaultdict
from pathlib import Path

ROOT = Path(__file__).resolve().parent.parent
CRATES = ROOT / "crates"
PAGE = ROOT / "docs" / "reading.md"
TOP = CRATES / "stn_top" / "src" / "top.rt"
# The crates of the commands: their definitions serve `run` alone, so the page names those that it does not reach.
COMMANDS = ("command_", "answer_texts", "plan_commands", "log_commands", "listing_commands", "tank_commands", "part_commands",
            "planning_commands", "demo_commands", "horizon_commands", "conflict_commands", "resume_commands", "stn_top")
WIDTH = 120

# A name, with what follows a dot: `plan`, `plan.start`, `verdict.Broken`.
NAME = re.compile(r"[^\s(){}\[\],;:λ.]+(?:\.[^\s(){}\[\],;:λ.]+)*")
HEAD = re.compile(r"^(?:abbrev |unfoldable )?pub (?:record |data )?(?!mod |use )(?P<name>[^\s:]+)")
CONSTRUCTOR = re.compile(r"^  (?P<name>\S+) : ")
USE = re.compile(r"^\s*(?:ghost |pub )?use Rattle\.(?P<path>[\w.]+?)(?:\.\{(?P<names>[^{}]*)\}| as (?P<alias>\w+));?$")
# The section whose modules may be named by those before it.
LAST = "## 6. Sums"
ENTRY = re.compile(r"^- `(?P<module>\w+/specs/[\w/]+\.antt)` \([^()]*\): \S")


class Definition:
    """A definition, with the lines of its comment."""

    def __init__(self, module, name, comment):
        self.module, self.name, self.lines = module, name, comment


class Module:
    """A module: what it imports, and what it defines."""

    def __init__(self, path):
        self.path = str(path.relative_to(CRATES))
        self.imports, self.aliases, self.definitions, self.names = {}, {}, [], {}
        comment, current = [], None
        for line in path.read_text().splitlines():
            head = HEAD.match(line)
            if not line.strip() or USE.match(line):
                self.take_import(line)
                comment, current = [], None
            elif line.startswith("--"):
                comment.append(line)
            elif head:
                current = Definition(self, head["name"], comment + [line])
                self.definitions.append(current)
                self.names[current.name] = current
                comment = []
            elif current:
                current.lines.append(line)
                self.take_constructor(current, line)

    def take_import(self, line):
        use = USE.match(line)
        if use and use["alias"]:
            self.aliases[use["alias"]] = use["path"]
        elif use:
            for name in use["names"].split(", "):
                there, _, here = name.partition(" as ")
                self.imports[here or there] = (use["path"], there)

    def take_constructor(self, data, line):
        constructor = CONSTRUCTOR.match(line)
        if constructor:
            self.names.setdefault(constructor["name"], data)

    def meaning(self, name):
        """Where a name of this module is defined, as (module, name), if it is one of a definition."""
        first, _, rest = name.partition(".")
        if first in self.aliases:
            return self.aliases[first], rest.partition(".")[0]
        if first in self.names:
            return self.path[:-len(".antt")].replace("/", "."), first
        return self.imports.get(first)

    def named(self, lines):
        """What lines name, without their comments."""
        text = "\n".join(line.partition("--")[0].partition("//")[0] for line in lines)
        # The fields that are read off a value in parentheses are no names.
        names = NAME.findall(re.sub(r"[)}]\.[\w.]+", ")", text))
        return [meaning for meaning in map(self.meaning, names) if meaning]


def contract_of_run():
    """What the clauses of `run` name."""
    text = TOP.read_text()
    contract = re.search(r"^pub fn run<.*?^\{", text, re.S | re.M)[0]
    top = Module(TOP)
    return top.named(contract.splitlines())


def reach(modules):
    """The definitions that are reached, each with the one that named it first, and the Rust types at which it ends."""
    waiting, reached, types = [(name, None) for name in contract_of_run()], {}, set()
    while waiting:
        (path, name), by = waiting.pop(0)
        module = modules.get(path)
        if module and name not in module.names and name in module.imports:
            waiting.append((module.imports[name], by))
        elif module and module.names[name] not in reached:
            reached[module.names[name]] = by
            waiting += [(named, module.names[name]) for named in module.named(module.names[name].lines)]
        elif not module and ".specs.declared." in path:
            types.add(re.sub(r"\.specs\.declared\.|\.TheVariants$", " ", path).strip())
    return reached, types


def said(number, one, many=None):
    return f"{number:,} {one if number == 1 else many or one + 's'}"


def wrapped(text):
    return textwrap.wrap(text, WIDTH, subsequent_indent="  " if text.startswith("- ") else "")


def total_of(modules, reached):
    """How many modules, definitions and lines are reached of these modules."""
    definitions = [one for one in reached if one.module in modules]
    lines = sum(len(one.lines) for one in definitions)
    return f"{said(len(modules), 'module')}, {said(len(definitions), 'definition')}, {said(lines, 'line')}"


def count_of(module, reached):
    definitions = [one for one in module.definitions if one in reached]
    lines = sum(len(one.lines) for one in definitions)
    return f"{len(definitions)} of {len(module.definitions)}, {said(lines, 'line')}"


def lists_of(modules, reached, types):
    """The generated lists of the page, by their names."""
    there = {one.module for one in reached}
    crates = {module.path.partition("/")[0] for module in there}
    every = sum(len(module.definitions) for module in modules.values())
    total = (f"{total_of(there, reached)}, comments counted, in {said(len(crates), 'crate')}; they speak of "
             f"{said(len(types), 'Rust type')}. The {said(every - len(reached), 'other definition')} of specs/ "
             "serve the contracts below `run`.")
    by_crate, left = defaultdict(list), []
    for name in sorted(types):
        crate, place = name.split(" ")
        by_crate[crate].append(f"`{place.split('.')[-1]}`")
    kinds = [f"- `{crate}`: {', '.join(by_crate[crate])}." for crate in sorted(by_crate)]
    for module in modules.values():
        names = [f"`{one.name}`" for one in module.definitions if one not in reached]
        if module.path.startswith(COMMANDS) and names:
            left.append(f"- `{module.path}`: {', '.join(names)}.")
    return {"total": [total], "types": kinds, "left": left}


def written(page, modules, reached, types):
    """The page with the numbers and lists of the sources."""
    by_path = {module.path: module for module in modules.values()}
    lists, lines, skipping = lists_of(modules, reached, types), [], False
    for line in page.splitlines():
        entry, mark = ENTRY.match(line), re.match(r"<!-- (\w+) -->$", line)
        if mark and mark[1] == "end":
            skipping = False
        if skipping:
            continue
        if entry and entry["module"] in by_path:
            line = re.sub(r"\([^()]*\)", f"({count_of(by_path[entry['module']], reached)})", line, count=1)
        lines.append(line)
        if mark and mark[1] in lists:
            lines += [line for text in lists[mark[1]] for line in wrapped(text)]
            skipping = True
    return with_sections(lines, by_path, reached)


def with_sections(lines, by_path, reached):
    """The lines with the total of each section where `*..*` stands under its heading."""
    place = None
    for at, line in enumerate(lines + ["## "]):
        if re.match(r"\*.*\*$", line):
            place, members = at, []
        elif line.startswith("## ") and place:
            lines[place] = f"*{total_of(members, reached)}*"
            place = None
        entry = ENTRY.match(line)
        if place and entry and entry["module"] in by_path:
            members.append(by_path[entry["module"]])
    return "\n".join(lines) + "\n"


def entries_of(page):
    return [ENTRY.match(line)["module"] for line in page.splitlines() if ENTRY.match(line)]


def named_early(page, modules, reached):
    """Which modules name one that stands below them on the page, and not in its last section."""
    place = {path: at for at, path in enumerate(entries_of(page.partition(LAST)[0]))}
    for one in reached:
        for path, _ in one.module.named(one.lines):
            there = modules[path].path if path in modules else None
            if place.get(there, -1) > place.get(one.module.path, len(place)):
                yield f"{one.module.path} names {there}, which has its entry below it"


def complaints(page, modules, reached):
    """Which modules have no entry, more than one, or one although they are not reached, and which stand out of order."""
    entries = entries_of(page)
    there = {one.module.path for one in reached}
    yield from (f"{path} is reached by `run` and has no entry" for path in sorted(there - set(entries)))
    yield from (f"{path} has an entry and is not reached by `run`" for path in sorted(set(entries) - there))
    yield from (f"{path} has two entries" for path in sorted(set(entries)) if entries.count(path) > 1)
    yield from sorted(set(named_early(page, modules, reached)))
    yield from (f"a line is longer than {WIDTH}: {line[:60]}" for line in page.splitlines() if len(line) > WIDTH)


def show(modules, reached):
    for module in modules.values():
        for one in module.definitions:
            by = reached.get(one)
            how = "not reached" if one not in reached else f"by {by.name} of {by.module.path}" if by else "by run"
            print(f"{module.path} {one.name}: {how}")


def main():
    modules = {}
    for path in sorted(CRATES.glob("*/specs/**/*.antt")):
        module = Module(path)
        modules[module.path[:-len(".antt")].replace("/", ".")] = module
    reached, types = reach(modules)
    print("check_reading: `run` reaches " + lists_of(modules, reached, types)["total"][0])
    if "--list" in sys.argv:
        return show(modules, reached)
    page = PAGE.read_text()
    new = written(page, modules, reached, types)
    if "--write" in sys.argv:
        PAGE.write_text(new)
    found = list(complaints(new, modules, reached))
    if page != new and "--write" not in sys.argv:
        found.append("numbers or lists are not those of the sources: .ci/check_reading --write puts them there")
    for complaint in found:
        print(f"check_reading: docs/reading.md: {complaint}")
    return 1 if found else 0


if __name__ == "__main__":
    sys.exit(main())
