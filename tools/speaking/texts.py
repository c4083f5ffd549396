"""The table of texts, and small ways to say things."""
import os

HERE = os.path.dirname(os.path.dirname(os.path.abspath(__file__)))
ORDINALS = {1: "st", 2: "nd", 3: "rd"}


def table():
    """The rows of sentences.tsv: what each subject and key means, and what can be done next."""
    found = {}
    with open(os.path.join(HERE, "sentences.tsv"), encoding="utf-8") as rows:
        for row in rows:
            if not row.startswith("#"):
                subject, key, means, do = row.rstrip("\n").split("\t")
                found[subject, key] = (means, "" if do == "-" else do)
    return found


def forms():
    """The forms of commands.txt, as lists of words; one with a word in brackets is two."""
    found = []
    with open(os.path.join(HERE, "commands.txt"), encoding="utf-8") as lines:
        for line in lines:
            kind, _, said = line.replace("!", "").partition(" ")
            form = said.split()
            if kind == "form":
                found += [form[:-1], form[:-1] + [form[-1][1:-1]]] if form[-1].startswith("[") else [form]
    return found


TABLE = table()
FORMS = forms()


def means(subject, key):
    return TABLE.get((subject, str(key)), ("", ""))[0]


def do(subject, key):
    return TABLE.get((subject, str(key)), ("", ""))[1]


def row(subject, key):
    """What a row means and what to do next, as sentences."""
    return sentences(means(subject, key), do(subject, key))


def sentences(*pieces):
    """Pieces as sentences; the first goes on from what stands before it, so it keeps its first letter."""
    return " ".join(ended(it if number == 0 else it[0].upper() + it[1:]) for number, it in enumerate(filter(None, pieces)))


def ended(piece):
    """A piece with a full stop, where it has no end."""
    return piece + ("" if piece[-1] in ".?" else ".")


def nth(number):
    """A number in its order: 1st, 2nd."""
    return f"{number}{'th' if number % 100 in (11, 12, 13) else ORDINALS.get(number % 10, 'th')}"


def grouped(number):
    """A number with commas between thousands."""
    return f"{number:,}"


def count(number, word):
    """So many of something."""
    many = word[:-1] + "ies" if word.endswith("y") and word[-2] not in "aeiou" else word + ("es" if word.endswith(("s", "x", "ch", "sh")) else "s")
    return f"{grouped(number)} {word if number == 1 else many}"


def short(text, most=80):
    """A text in one line of at most so many letters, without control characters."""
    text = "".join(it if it.isprintable() else "?" for it in text)
    return text if len(text) <= most else text[:most - 2] + ".."


def called(label, name):
    """A thing by its label, with its name behind it: the words of a file and of a command are names."""
    label = "".join(it if it.isprintable() or it.isspace() else "?" for it in label) if isinstance(label, str) else ""
    return f"{label} ({name})" if label else name


def listed(names, most=12):
    """Names in a row."""
    names = [f"`{it}`" for it in names]
    return ", ".join(names[:most]) + (f" and {len(names) - most} more" if len(names) > most else "")


def nearest(word, names):
    """The name that is nearest to a word, if one is near."""
    import difflib
    lower = {it.lower(): it for it in reversed(list(names))}
    found = difflib.get_close_matches(word.lower(), lower, 1, 0.6)
    return lower[found[0]] if found else None


def meant(word, names):
    """`; did you mean ..?` where a name is near."""
    near = nearest(word, names)
    return f"; did you mean `{near}`?" if near else ""
