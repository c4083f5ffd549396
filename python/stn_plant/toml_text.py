"""Writes a document of tables as TOML. (Python reads TOML, with `tomllib`, and does not write it.)"""
from datetime import date, time
from fractions import Fraction
from numbers import Integral, Real

ESCAPES = {'"': '\\"', "\\": "\\\\"}


def document(tables):
    """A document as text: plain keys first, then each array of tables by headers, with its own arrays in braces."""
    lines = [f"{key} = {value(held)}" for key, held in tables.items() if not is_array_of_tables(held)]
    for key, held in tables.items():
        for item in held if is_array_of_tables(held) else ():
            lines += ["", f"[[{key}]]", *(f"{inner} = {value(it)}" for inner, it in item.items())]
    return "\n".join(lines) + "\n"


def is_array_of_tables(held):
    return isinstance(held, (list, tuple)) and bool(held) and all(isinstance(it, dict) for it in held)


def value(held):
    """A value in one line. What is of a wrong type is written as it is, so that the program says so."""
    if isinstance(held, bool):
        return "true" if held else "false"
    if isinstance(held, Integral):
        return str(int(held))
    if isinstance(held, Fraction):
        return text(f"{held.numerator}/{held.denominator}")
    if isinstance(held, Real):
        return repr(float(held))
    if isinstance(held, str):
        return text(held)
    if isinstance(held, (date, time)):
        return held.isoformat()
    if isinstance(held, dict):
        return "{ " + ", ".join(f"{key} = {value(it)}" for key, it in held.items()) + " }"
    if isinstance(held, (list, tuple)):
        return "[" + ", ".join(value(it) for it in held) + "]"
    raise TypeError(f"{held!r} is neither a number, a text, a date, a list nor a table")


def text(words):
    """A text in quotes."""
    return '"' + "".join(ESCAPES.get(it) or (it if it >= " " and it != "\x7f" else f"\\u{ord(it):04x}") for it in words) + '"'
