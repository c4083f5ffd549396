"""The words of a run: their form, the files that they name, and what is wrong with words of no form."""
import re

from speaking.texts import FORMS, TABLE, count, do, grouped, means, meant, sentences, short

# The files that a form reads, in their order; those of a stem are told apart by a number.
FILES = ("PLANT", "PLAN", "LOG", "STEM", "OUT")
WRITES = {"solve": ("LOG", "STEM"), "replan": ("LOG",), "solve-part": ("LOG",), "join": ("LOG",), "least": ("STEM",),
          "improve": ("LOG",), "resume": ("OUT",), "merge": ("OUT",), "conflict": ("STEM",)}


def form_of(words):
    """The form that the words have by their number, as pairs of a name and a word; or nothing. `solve --seconds` is of the wrapper.

    A word of a form in small letters stands as it is, and its name is itself."""
    if words[:2] == ["solve", "--seconds"]:
        return dict(zip(("SECONDS", "PLANT", "LOG"), words[2:]))
    for form in FORMS:
        if words and form[0] == words[0] and len(form) == len(words):
            return dict(zip(form[1:], words[1:]))
    return None


def ends(command, name, form):
    """The least and the greatest number of a word, or nothing where it is no number; a command may have a row of its own."""
    key = f"{command} {name}" if ("word", f"{command} {name}") in TABLE else name
    if ("word", key) not in TABLE or choices(name):
        return None
    low, _, high = means("word", key).replace(",", "").partition(" to ")
    if name == "PART" and number_of(form["LEVELS"], 1, 8) is not None:
        high = 2 ** int(form["LEVELS"]) - 1
    elif name == "SHARE" and number_of(form["SHARES"], 1, 256) is not None:
        high = int(form["SHARES"]) - 1
    return int(low), int(high)


def choices(name):
    """The words of which a word is one, or nothing where it is no such word."""
    held = means("word", name) if ("word", name) in TABLE else ""
    return re.split(", | or ", held) if held[:1].isalpha() else []


def number_of(word, low, high):
    """The number that a word says within a range, or nothing."""
    digits = word[1:] if low < 0 and word.startswith("-") else word
    if not (digits.isascii() and digits.isdigit()) or (digits[0] == "0" and len(digits) > 1) or (word[0] == "-" and digits == "0"):
        return None
    number = int(word) if len(word) <= 20 else high + 1
    return number if low <= number <= high else None


def faults(words, form):
    """What is wrong with the words of a form, one by one."""
    for name, word in form.items():
        range_ = ends(words[0], name, form)
        if range_ and number_of(word, *range_) is None:
            yield (f"{name} is `{short(word, 40)}`, and should be a whole number from {grouped(range_[0])} to {grouped(range_[1])}, "
                   "without leading zeros or commas")
        elif choices(name) and word not in choices(name):
            yield f"{name} is `{short(word, 40)}`, and should be {means('word', name)}{meant(word, choices(name))}"
        elif name.islower() and word != name:
            yield f"the last word is `{short(word, 40)}`, and should be `{name}`{meant(word, [name])}, or be left out"
        elif name in FILES and word == "":
            yield f"{name} is an empty word, and should name a file"
    written = [it for it in ("LOG", "OUT") if it in form and it in WRITES.get(words[0], ())]
    for name in written:
        for other in ("PLANT", "PLAN", "LOG"):
            if other != name and form.get(other) == form[name]:
                yield f"{name} and {other} are the same file, `{short(form[name], 60)}`: {name} is written, so it needs a name of its own"
    yield from stem_faults(words, form)


def stem_faults(words, form):
    """A file of a stem that another word names."""
    few = words[0] in ("conflict", "check-conflict")
    for name in ("PLANT", "LOG", "OUT") if "STEM" in form else ():
        word = form.get(name, "")
        stem, _, number = word.rpartition(".")
        if stem == form["STEM"] and number.isdigit() and not (name == "PLANT" and words[0] in ("join", "merge")) and not (few and number not in ("0", "1")):
            yield f"{name}, `{short(word, 60)}`, is one of the files of STEM: it needs a name of its own"


def refused(words):
    """What is wrong with words of no form."""
    if not words:
        return sentences("no words were given, so there is nothing to do", do("status", 2))
    names = sorted({it[0] for it in FORMS})
    if words[0] not in names:
        return sentences(f"there is no command `{short(words[0], 40)}`{meant(words[0], names)}", do("status", 2))
    form = form_of(words)
    if form is None:
        forms = [it for it in FORMS if it[0] == words[0]]
        wanted = " or ".join(f"`stn {' '.join(it)}`" for it in forms)
        return sentences(f"`{words[0]}` with {count(len(words) - 1, 'word')} after it is no form", f"It is {wanted}")
    return sentences(*(list(faults(words, form)) or [means("status", 2), do("status", 2)])[:2])


def read_files(words, form):
    """The files that the words' command reads, in its order, each with its name among the words."""
    for name in ("PLANT", "PLAN", "LOG"):
        if name in form and not (name == "LOG" and "LOG" in WRITES.get(words[0], ())):
            yield name, form[name]
    if "STEM" in form and words[0] in ("join", "check-least", "merge", "check-conflict"):
        first, last = stem_ends(words, form)
        for number in range(first, last):
            yield f"the {'text' if words[0] == 'check-conflict' and number == 0 else 'log'} {number} of STEM", f"{form['STEM']}.{number}"


def stem_ends(words, form):
    """The numbers of the files of a stem that are read."""
    if words[0] == "check-least":
        return 1, int(form["H"])
    if words[0] == "check-conflict":
        return 0, 2
    return 0, 2 ** int(form["LEVELS"]) if words[0] == "join" else int(form["COUNT"])


def written_files(words, form):
    """The files that the words' command writes."""
    for name in WRITES.get(words[0], ()):
        if name in form:
            yield name, form[name] + (".1" if name == "STEM" else "")
