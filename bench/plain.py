#!/usr/bin/env python3
"""Builds the program `stn` from the sources of this checkout as plain Rust, without a proof: for measuring and tuning alone.

    python3 bench/plain.py FOLDER                 # builds FOLDER/stn; a later call compiles only what has changed
    python3 bench/plain.py FOLDER --from OTHER    # the same, of the crates of another checkout, with the shim of this one
    python3 bench/plain.py FOLDER command_cases   # the program of that crate (FOLDER/command_cases)
    python3 bench/plain.py FOLDER bench/bounds_program.txt   # that of a file that is no crate (FOLDER/bounds_program)
    python3 bench/plain.py FOLDER --symbols       # with debug lines, for a profiler: line numbers are those of the .rt files
    python3 bench/plain.py FOLDER --cases         # runs the cases of each crate that has some, and compares what they print

What such a program prints is measured for tuning: figures in documents are of the proved program, which is built by `rt`.

Rattle is Rust with contracts and an explicit allocator. `plain` takes from a file what Rust does not know (contracts, ghost
items, attributes of the prover, impls of `Model` and of `Drop`) and leaves all else, line by line. FOLDER/src has the text that
is left, a folder for each crate, and FOLDER/lib a library for each, made by `rustc -O -C target-cpu=native` in the order of
crates.txt. In the place of std and of the kit's crates toml, indexmap and anyhow stand the files of bench/plain:
`Vec::new(alloc)`, `push(..)?` and so on over Rust's own, and a reader and writer of as much TOML as plant files need. There no
allocation fails. A build from nothing takes about a minute of processor time.
"""
import argparse, hashlib, os, re, subprocess, sys
from concurrent.futures import ThreadPoolExecutor

TOP = os.path.dirname(os.path.dirname(os.path.abspath(__file__)))
SHIM = os.path.join(TOP, "bench", "plain")

# Where the shim of a kit's crate stands; thiserror's derive is taken from the text, so that nothing is left of it, and of toml's
# parts lemmas alone are used.
KIT = {"kit": [], "toml": ["kit"], "indexmap": ["kit"], "anyhow": ["kit"]}
GONE = ("thiserror", "toml_datetime", "toml_parser", "toml_writer")

# What each file begins with, since Rust's own prelude is that of another std.
PRELUDE = "#[allow(unused_imports)] use std::kit_prelude::*; "

# The head of a crate. `std` is then the shim in each of its paths.
HEAD = "#![no_std] #![allow(warnings)] extern crate kit as std; "

FLAGS = ["--edition", "2024", "-O", "-C", "target-cpu=native", "-C", "overflow-checks=off"]

TOKEN = re.compile(
    r"""//[^\n]*|/\*.*?\*/                              # comments
    |b?r(?P<marks>\#*)".*?"(?P=marks)|b?"(?:\\.|[^"\\])*"  # texts
    |b?'(?:\\u\{[^}]*\}|\\x..|\\.|[^'\\\n])'            # characters
    |'?[^\W\d]\w*|\d\w*|\s+|.                           # words and lifetimes, numbers, blanks, all else one by one
    """,
    re.S | re.X,
)


# The text without contracts

class Text:
    """The tokens of a file, and what is kept of each. What is taken out leaves its line breaks, so that no line moves."""

    def __init__(self, text):
        self.all = [m.group(0) for m in TOKEN.finditer(text)]
        self.kept = list(self.all)

    def is_blank(self, at):
        return self.all[at].isspace() or self.all[at].startswith(("//", "/*"))

    def after(self, at):
        """The place of the next token that says something."""
        at += 1
        while at < len(self.all) and self.is_blank(at):
            at += 1
        return at

    def before(self, at):
        """The place of the token before that says something."""
        at -= 1
        while at >= 0 and self.is_blank(at):
            at -= 1
        return at

    def word(self, at):
        return self.all[at] if 0 <= at < len(self.all) else ""

    def close(self, at):
        """The place of the bracket that closes the one at a place."""
        depth = 0
        for place in range(at, len(self.all)):
            if self.all[place] in ("{", "[", "("):
                depth += 1
            elif self.all[place] in ("}", "]", ")"):
                depth -= 1
                if depth == 0:
                    return place
        raise ValueError("a bracket that is not closed")

    def find(self, at, words):
        """The place of the first of these words from a place on."""
        while self.all[at] not in words:
            at += 1
        return at

    def drop(self, first, last):
        """Takes out the tokens of these places."""
        for at in range(first, last + 1):
            self.kept[at] = "\n" * self.all[at].count("\n")

    def rest(self):
        return "".join(self.kept)


def drop_ghost(text, at):
    """An import for contracts ends at a semicolon; a ghost item or field is a name and braces. Answers its last place."""
    if text.word(text.after(at)) == "use":
        last = text.find(at, (";",))
    else:
        last = text.close(text.find(at, ("{",)))
        if text.word(text.after(last)) in (";", ","):
            last = text.after(last)
    before = text.before(at)
    if text.word(before) == ")" and text.word(before - 1) in ("crate", "super"):
        before = text.before(before - 2)
    text.drop(before if text.word(before) == "pub" else at, last)
    return last


def drop_clause(text, at):
    """A clause is `requires` or `ensures`, a star or a name or neither, and braces. Answers its last place; None: it is none."""
    first = text.after(at)
    while text.word(first) == "*" or re.fullmatch(r"[a-z]\w*", text.word(first)):
        first = text.after(first)
    if text.word(first) != "{":
        return None
    last = text.close(first)
    text.drop(at, last)
    return last


def drop_impl(text, at):
    """An impl of what contracts see, or of how a value is let go, which Rust does by itself."""
    opening = text.find(at, ("{", ";"))
    head = " ".join(word for word in text.all[at:opening] if not word.isspace())
    if not re.search(r"\b(Model|Drop) for\b", head):
        return None
    last = text.close(opening)
    text.drop(at, last)
    return last


def drop_attribute(text, at):
    """Attributes of the prover, and derives that Rust does not know."""
    opening = text.after(at)
    if text.word(opening) == "!":
        opening = text.after(opening)
    if text.word(opening) != "[":
        return None
    last, name = text.close(opening), text.word(text.after(opening))
    if name in ("tactic", "cycle", "error"):
        text.drop(at, last)
    elif name == "derive":
        names = [each for each in text.all[opening + 1 : last] if re.match(r"\w", each)]
        names = [each for each in names if each not in ("derive", "Drop", "Error")]
        text.drop(at, last)
        text.kept[at] = "#[derive(" + ", ".join(names) + ")]" + text.kept[at]
    return last


def drop_import(text, at):
    """Imports of `Model` and of the derives that were taken out."""
    last = text.find(at, (";",))
    path = "".join(word for word in text.all[at:last] if not word.isspace())
    if path not in ("usestd::marker::Model", "usethiserror::Error"):
        return None
    text.drop(at, last)
    return last


def rename(text, at):
    """Methods of Rust's own that have no argument have another name here where they are given an allocator."""
    opening = text.after(at)
    if text.word(text.before(at)) != "." or text.word(opening) != "(" or text.word(text.after(opening)) == ")":
        return None
    text.kept[at] += "_in"
    return at


DROPS = {
    "ghost": drop_ghost,
    "requires": drop_clause,
    "ensures": drop_clause,
    "impl": drop_impl,
    "#": drop_attribute,
    "use": drop_import,
    "collect": rename,
    "to_vec": rename,
}


def plain(source, is_root):
    """A Rattle file as a Rust file. A root's own documentation becomes a remark, since it stands behind the head."""
    text, at = Text(source), 0
    while at < len(text.all):
        drop = DROPS.get(text.all[at])
        last = drop(text, at) if drop else None
        at = (at if last is None else last) + 1
    return (HEAD if is_root else "") + PRELUDE + re.sub(r"^//!", "//", text.rest(), flags=re.M)


# The crates

def crate_lines(top):
    """What each crate of a checkout stands on."""
    below = {}
    for line in open(os.path.join(top, "crates.txt"), encoding="utf-8"):
        head, colon, rest = line.partition("#")[0].partition(":")
        if colon:
            below[head.split()[0]] = ["kit"] + [each for each in rest.split() if each not in GONE]
    return below


def sources(base):
    """The Rattle files of a crate: the place of each below src/, and its text."""
    for path, _, names in sorted(os.walk(base)):
        for each in sorted(names):
            if each.endswith(".rt"):
                place = os.path.join(path, each)
                yield os.path.relpath(place, base), open(place, encoding="utf-8").read()


def put(path, text):
    """Writes a file where it does not stand there already."""
    if not os.path.exists(path) or open(path, encoding="utf-8").read() != text:
        os.makedirs(os.path.dirname(path), exist_ok=True)
        with open(path, "w", encoding="utf-8") as out:
            out.write(text)


class Build:
    """Libraries in a folder, each with the checksum of all that it was made of in a file beside it."""

    def __init__(self, words):
        self.folder, self.top = words.folder, words.top
        self.flags = FLAGS + (["-g"] if words.symbols else [])
        self.lib = os.path.join(self.folder, "lib")
        self.below = {**crate_lines(self.top), **KIT}
        self.pool = ThreadPoolExecutor(words.jobs)
        self.made = {}
        os.makedirs(self.lib, exist_ok=True)

    def rustc(self, name, root, below, more):
        """Compiles a crate over libraries that are made."""
        externs = [word for each in below for word in ("--extern", f"{each}={self.lib}/lib{each}.rlib")]
        words = ["rustc", *self.flags, "--crate-name", name, "-L", self.lib, *externs, *more, root]
        done = subprocess.run(words, capture_output=True, text=True)
        if done.returncode:
            raise SystemExit(done.stderr[-12000:])

    def put_crate(self, name):
        """Writes the Rust files of a crate. Answers the path of its root, and the text of all."""
        to = os.path.join(self.folder, "src", name)
        if name in KIT:
            files = {"lib.rs": open(os.path.join(SHIM, name + ".rs"), encoding="utf-8").read()}
        elif name.endswith(".txt"):
            files = {"lib.rs": plain(open(name, encoding="utf-8").read(), True)}
            to = os.path.join(self.folder, "src", name_of(name))
        else:
            found = sources(os.path.join(self.top, "crates", name, "src"))
            files = {place[:-3] + ".rs": plain(text, place in ("lib.rt", "main.rt")) for place, text in found}
        if "main.rs" in files:
            files["lib.rs"] = files.pop("main.rs")
        files["lib.rs"] = files["lib.rs"].replace("\nfn main(rt: HostRuntime)", "\npub fn main(rt: HostRuntime)")
        for place, text in files.items():
            put(os.path.join(to, place), text)
        return os.path.join(to, "lib.rs"), "\n".join(place + "\n" + text for place, text in sorted(files.items()))

    def library(self, name):
        """Has the library of a crate made, after those below it. Answers the checksum that is to come."""
        if name not in self.made:
            root, text = self.put_crate(name)
            if name.endswith(".txt"):
                self.below[name] = [each for each in self.below if each == "kit" or re.search(rf"\b{each}::", text)]
            sums = [self.library(each) for each in self.below[name]]
            self.made[name] = self.pool.submit(self.make, name, root, text, sums)
        return self.made[name]

    def make(self, name, root, text, sums):
        """Makes the library of a crate, where what it is made of has changed. Answers the checksum of that."""
        whole = "\n".join([text, *self.flags, *[each.result() for each in sums]])
        total, name, below = hashlib.sha256(whole.encode()).hexdigest(), name_of(name), self.below[name]
        path, mark = os.path.join(self.lib, f"lib{name}.rlib"), os.path.join(self.lib, name + ".sum")
        if not os.path.exists(path) or not os.path.exists(mark) or open(mark).read() != total:
            self.rustc(name, root, below, ["--crate-type", "rlib", "-o", path])
            put(mark, total)
        return total

    def program(self, crate):
        """Makes the program whose `main` is that of a crate, and answers its path."""
        total, name = self.library(crate).result(), name_of(crate)
        path, mark = os.path.join(self.folder, name), os.path.join(self.lib, name + ".program")
        if not os.path.exists(path) or not os.path.exists(mark) or open(mark).read() != total:
            root = os.path.join(self.folder, "src", name + ".rs")
            put(root, f"fn main() -> std::process::ExitCode {{ kit::Ended::ended({name}::main(kit::rt::HostRuntime)) }}\n")
            self.rustc(name + "_main", root, ["kit", name], ["-C", "lto=fat", "-C", "codegen-units=1", "-o", path])
            put(mark, total)
        return path

    def cases(self):
        """Runs the programs of cases, each in its folder of data, and says whether they print what they are to print."""
        for name in self.below:
            folder = os.path.join(self.top, "crates", name)
            if os.path.exists(os.path.join(folder, "stdout")):
                path, args = os.path.abspath(self.program(name)), os.path.join(folder, "args")
                args = open(args, encoding="utf-8").read().split("\n")[:-1] if os.path.exists(args) else []
                said = subprocess.run([path, *args], cwd=os.path.join(folder, "data"), capture_output=True, text=True).stdout
                wanted = open(os.path.join(folder, "stdout"), encoding="utf-8").read()
                print(name, "as wanted" if said == wanted else "OTHERWISE:\n" + said, flush=True)


def name_of(crate):
    """The name of a crate, or that of a file."""
    return os.path.splitext(os.path.basename(crate))[0]


def main():
    parser = argparse.ArgumentParser(description="builds stn as plain Rust, without a proof, for measuring alone")
    parser.add_argument("folder", help="where the Rust files, the libraries and the program are put")
    parser.add_argument("crates", nargs="*", help="crates with a main, or files of a program (default: stn)")
    parser.add_argument("--from", dest="top", default=TOP, help="the checkout whose crates are taken")
    parser.add_argument("--jobs", type=int, default=os.cpu_count(), help="how many are compiled at once")
    parser.add_argument("--symbols", action="store_true", help="with debug lines")
    parser.add_argument("--cases", action="store_true", help="run the cases of the crates")
    words = parser.parse_args()
    build = Build(words)
    for crate in words.crates or ([] if words.cases else ["stn"]):
        print(build.program(crate))
    if words.cases:
        build.cases()


if __name__ == "__main__":
    main()
