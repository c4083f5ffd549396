"""Reads a TOML document and keeps where each key and value stands; Python's own reader tells no places.

It takes what the program's reader takes, line breaks in inline tables too. It is for sentences alone: nothing is decided by it.
"""
import re
from calendar import monthrange

BLANKS = re.compile(r"[ \t]*")
SPACE = re.compile(r"(?:[ \t\n]|\r\n|#[^\x00-\x08\x0a-\x1f\x7f]*)*")
COMMENT = re.compile(r"#[^\x00-\x08\x0a-\x1f\x7f]*")
BARE = re.compile(r"[A-Za-z0-9_-]+")
PLAIN = re.compile(r'[^"\\\x00-\x08\x0a-\x1f\x7f]*')
LITERAL = re.compile(r"[^'\x00-\x08\x0a-\x1f\x7f]*")
LONG_PLAIN = re.compile(r'(?:[^"\\\x00-\x08\x0b\x0c\x0e-\x1f\x7f]|"(?!""))*')
LONG_LITERAL = re.compile(r"(?:[^'\x00-\x08\x0b\x0c\x0e-\x1f\x7f]|'(?!''))*")
ESCAPE = re.compile(r'\\(?:([btnfre"\\])|u([0-9a-fA-F]{4})|U([0-9a-fA-F]{8})|x([0-9a-fA-F]{2}))')
LINE_END = re.compile(r"\\[ \t]*\r?\n(?:[ \t\r\n])*")
DATE = re.compile(r"\d{4}-\d\d-\d\d(?:[Tt ]\d\d:\d\d(?::\d\d(?:\.\d+)?)?(?:[Zz]|[+-]\d\d:\d\d)?)?|\d\d:\d\d(?::\d\d(?:\.\d+)?)?")
FLOAT = re.compile(r"[+-]?(?:(?:0|[1-9](?:_?\d)*)(?:\.\d(?:_?\d)*)?(?:[eE][+-]?\d(?:_?\d)*)?|inf|nan)")
BASED = re.compile(r"0x[0-9a-fA-F](?:_?[0-9a-fA-F])*|0o[0-7](?:_?[0-7])*|0b[01](?:_?[01])*")
WHOLE = re.compile(r"[+-]?(?:0|[1-9](?:_?\d)*)\Z")
SHORT = {"b": "\b", "t": "\t", "n": "\n", "f": "\f", "r": "\r", "e": "\x1b", '"': '"', "\\": "\\"}


class TomlFault(Exception):
    """What is wrong, and the place of the text where it is."""

    def __init__(self, at, why):
        super().__init__(why)
        self.at, self.why = at, why


class Node:
    """A value: its kind, what it holds, where it stands in the text, and where its key does."""

    def __init__(self, kind, held, at, end=None, key_at=None):
        self.kind, self.held, self.at, self.end, self.key_at = kind, held, at, end, key_at
        # How a table came about: by a header, by a dotted key, or in braces; an array: by headers.
        self.by = None

    def get(self, key):
        """What a table holds at a key, or nothing."""
        return self.held.get(key) if self.kind == "table" else None

    def items(self):
        """The items of an array, and none of anything else."""
        return self.held if self.kind == "array" else []


class Document:
    """A text as a TOML document: `root` is its table; `fault` is what is wrong where it is none."""

    def __init__(self, data):
        self.root, self.fault = Node("table", {}, 0), None
        try:
            self.text = data.decode("utf-8")
        except UnicodeDecodeError as error:
            self.text = data[:error.start].decode("utf-8")
            self.fault = TomlFault(error.start, "a byte here is no UTF-8 text")
            self.fault.at = len(self.text)
            return
        try:
            Reader(self.text, self.root).read()
        except TomlFault as fault:
            self.fault = fault
        except RecursionError:
            self.fault = TomlFault(0, "arrays or tables stand too deep in one another")

    def place(self, at):
        """Line and column of a place of the text, both from 1."""
        before = self.text.rfind("\n", 0, at)
        return self.text.count("\n", 0, at) + 1, at - before

    def line(self, number):
        """The text of a line."""
        lines = self.text.split("\n")
        return lines[number - 1] if number <= len(lines) else ""

    def written(self, node):
        """A value as it is written, in one line."""
        return " ".join(self.text[node.at:node.end].split())


class Reader:
    """Goes through a text once."""

    def __init__(self, text, root):
        self.text, self.root, self.at = text, root, 1 if text.startswith("\ufeff") else 0

    def stop(self, why, at=None):
        raise TomlFault(self.at if at is None else at, why)

    def take(self, pattern):
        found = pattern.match(self.text, self.at)
        if found:
            self.at = found.end()
        return found

    def next(self):
        return self.text[self.at:self.at + 1]

    def wants(self, mark):
        """Takes a mark where it comes next."""
        if self.text.startswith(mark, self.at):
            self.at += len(mark)
            return True
        return False

    def read(self):
        table = self.root
        while True:
            self.take(SPACE)
            if self.at >= len(self.text):
                return
            if self.next() == "[":
                table = self.header()
            else:
                self.pair(table)
            self.line_end()

    def line_end(self):
        """What may stand between a key and the next line: blanks and a comment."""
        self.take(BLANKS)
        self.take(COMMENT)
        if self.at < len(self.text) and not (self.wants("\n") or self.wants("\r\n")):
            self.stop(f"{shown(self.text, self.at)} stands where the line should end")

    def keys(self):
        """The parts of a key that dots divide, each with its place."""
        parts = []
        while True:
            self.take(BLANKS)
            at = self.at
            parts.append((self.key_part(), at))
            self.take(BLANKS)
            if not self.wants("."):
                return parts

    def key_part(self):
        found = self.take(BARE)
        if found:
            return found.group()
        if self.next() == '"':
            return self.basic()
        if self.next() == "'":
            return self.literal()
        return self.stop(f"a key should stand here, not {shown(self.text, self.at)}")

    def pair(self, table):
        """A key, `=` and a value, put into the table."""
        parts = self.keys()
        if not self.wants("="):
            self.stop(f"`=` should stand after the key, not {shown(self.text, self.at)}")
        self.take(BLANKS)
        for name, at in parts[:-1]:
            table = self.dotted(table, name, at)
        name, at = parts[-1]
        if name in table.held:
            self.stop(f"the key `{name}` stands twice", at)
        value = self.value()
        value.key_at = at
        table.held[name] = value

    def dotted(self, table, name, at):
        """The table at a part of a dotted key."""
        if name not in table.held:
            table.held[name] = Node("table", {}, at, at + len(name), at)
            table.held[name].by = "dots"
        inner = table.held[name]
        if inner.kind != "table" or inner.by != "dots":
            self.stop(f"the key `{name}` already holds something", at)
        return inner

    def header(self):
        """The table that a line in brackets begins."""
        begin = self.at
        many = self.wants("[[") or not self.wants("[")
        parts = self.keys()
        if not self.wants("]]" if many else "]"):
            self.stop(f"`{']]' if many else ']'}` should stand here")
        table = self.root
        for name, at in parts[:-1]:
            table = self.outer(table, name, at)
        name, at = parts[-1]
        return self.added(table, name, begin, at) if many else self.begun(table, name, begin, at)

    def outer(self, table, name, at):
        """The table at a part of a header that is not its last."""
        inner = table.held.setdefault(name, Node("table", {}, at, at + len(name), at))
        if inner.kind == "array" and inner.by == "headers":
            return inner.held[-1]
        if inner.kind != "table" or inner.by == "braces":
            self.stop(f"the key `{name}` already holds something that a header can't add to", at)
        return inner

    def added(self, table, name, begin, at):
        """A new item of an array of tables."""
        if name not in table.held:
            table.held[name] = Node("array", [], begin, self.at, at)
            table.held[name].by = "headers"
        array = table.held[name]
        if array.kind != "array" or array.by != "headers":
            self.stop(f"the key `{name}` already holds something else", at)
        item = Node("table", {}, begin, self.at, at)
        item.by = "header"
        array.held.append(item)
        return item

    def begun(self, table, name, begin, at):
        """A table of its own header."""
        there = table.held.setdefault(name, Node("table", {}, begin, self.at, at))
        if there.kind != "table" or there.by is not None:
            self.stop(f"the table `{name}` stands twice", at)
        there.by, there.at, there.end, there.key_at = "header", begin, self.at, at
        return there

    def value(self):
        at, first = self.at, self.next()
        if first == "[":
            return self.array()
        if first == "{":
            return self.braces()
        if first == '"':
            return Node("text", self.long_basic() if self.text.startswith('"""', at) else self.basic(), at, self.at)
        if first == "'":
            return Node("text", self.long_literal() if self.text.startswith("'''", at) else self.literal(), at, self.at)
        return self.word(at)

    def word(self, at):
        """A number, a date, true or false."""
        for mark in ("true", "false"):
            if self.wants(mark):
                return Node("truth value", mark == "true", at, self.at)
        if self.take(DATE):
            if not is_there(self.text[at:self.at]):
                self.stop("there is no such day or time", at)
            return Node("date or time", self.text[at:self.at], at, self.at)
        if self.take(BASED):
            return Node("number", int(self.text[at:self.at].replace("_", ""), 0), at, self.at)
        if not self.take(FLOAT):
            self.stop(f"a value should stand here, not {shown(self.text, at)}" + (
                "; texts stand in quotes" if BARE.match(self.text, at) else ""))
        text = self.text[at:self.at].replace("_", "")
        if re.match(r"[0-9A-Za-z_.]", self.next()):
            self.stop("a number is written in another way (no leading zeros, digits alone)", at)
        if WHOLE.match(self.text[at:self.at]):
            return Node("number", int(text), at, self.at)
        return Node("number with a fraction", float(text), at, self.at)

    def array(self):
        node = Node("array", [], self.at)
        self.at += 1
        self.take(SPACE)
        while not self.wants("]"):
            node.held.append(self.value())
            self.take(SPACE)
            if not self.wants(",") and self.next() != "]":
                self.stop(f"`,` or `]` should stand here, not {shown(self.text, self.at)}")
            self.take(SPACE)
        node.end = self.at
        return node

    def braces(self):
        node = Node("table", {}, self.at)
        node.by = "braces"
        self.at += 1
        self.take(SPACE)
        while not self.wants("}"):
            self.pair(node)
            self.take(SPACE)
            if not self.wants(",") and self.next() != "}":
                self.stop(f"`,` or `}}` should stand here, not {shown(self.text, self.at)}")
            self.take(SPACE)
        node.end = self.at
        return node

    def basic(self):
        return self.quoted('"', PLAIN, "a text ends with its quote on the same line")

    def long_basic(self):
        return self.quoted('"""', LONG_PLAIN, 'a text in """ ends with these')

    def quoted(self, mark, plain, why):
        """A text in double quotes, with its escapes."""
        begin, pieces = self.at, []
        self.at += len(mark)
        while True:
            pieces.append(self.take(plain).group())
            if self.wants(mark):
                # A long text may end with one or two quotes of its own.
                while len(mark) == 3 and self.wants('"'):
                    pieces.append('"')
                return "".join(pieces)
            escape = self.take(ESCAPE)
            if escape:
                pieces.append(escaped(escape))
            elif not (len(mark) == 3 and self.take(LINE_END)):
                self.stop("an escape is not known" if self.next() == "\\" else why, self.at if self.next() == "\\" else begin)

    def literal(self):
        begin = self.at
        self.at += 1
        text = self.take(LITERAL).group()
        if not self.wants("'"):
            self.stop("a text ends with its quote on the same line", begin)
        return text

    def long_literal(self):
        begin = self.at
        self.at += 3
        text = self.take(LONG_LITERAL).group()
        if not self.wants("'''"):
            self.stop("a text in ''' ends with these", begin)
        return text


def is_there(text):
    """Whether there is such a day, and such a time of day; a minute may have a leap second."""
    date, time = re.match(r"(\d{4}-\d\d-\d\d)?[Tt ]?(\d\d:\d\d(?::\d\d)?)?", text).groups()
    year, month, day = map(int, (date or "2000-01-01").split("-"))
    numbers = [int(it) for it in (time or "00:00").split(":")]
    is_day = 1 <= month <= 12 and 1 <= day <= monthrange(2000 + year % 400, month)[1]
    return is_day and all(it < most for it, most in zip(numbers, (24, 60, 61)))


def escaped(found):
    """The letter that an escape stands for."""
    if found.group(1):
        return SHORT[found.group(1)]
    number = int(next(it for it in found.groups()[1:] if it), 16)
    return chr(number) if number < 0x110000 else "\ufffd"


def shown(text, at):
    """What stands at a place, in a few letters."""
    if at >= len(text):
        return "the end of the file"
    if text[at] == "\n" or text.startswith("\r\n", at):
        return "the end of the line"
    if ord(text[at]) < 32:
        return f"the byte {ord(text[at])}"
    word = re.match(r"[^\s,\]}]{1,20}|.", text[at:at + 20])
    return f"`{word.group()}`"
