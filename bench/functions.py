#!/usr/bin/env python3
"""The dearest functions of a crate, read off the times of the files that its last check from nothing kept.

    rm -rf crates/NAME/out; (cd crates/NAME && rt check --jobs 1)
    python3 bench/functions.py NAME          # the twelve dearest functions, with their dearest parts
    python3 bench/functions.py NAME 40       # the forty dearest
    python3 bench/functions.py NAME --parts  # the dearest parts, a file each

A check at one job writes its files one after the other, so a part took the time from the file before it to its own, in
seconds on the clock: on a machine with other work its share of them, and with more jobs the figures mean nothing. `Lts` is
the paths of a function's code, `Answers` and `Proof` are its proof. A file that belongs to no function, such as one of
lemmas, stands under its own name.
"""
import glob, os, sys

top = os.path.dirname(os.path.dirname(os.path.abspath(__file__)))


def parts_of(crate):
    """The parts that a check kept, in the order in which they were written: the time from the part before, and the name."""
    files = glob.glob(f"{top}/crates/{crate}/out/incremental/*/*.oantt")
    stamped = sorted((os.stat(it).st_mtime_ns, os.path.basename(it).removesuffix(".oantt")) for it in files)
    parts, before = [], stamped[0][0] if stamped else 0
    for stamp, name in stamped:
        for prefix in (f"Rattle-{crate}-", "proofs.", "specs.contracts."):
            name = name.removeprefix(prefix)
        parts.append(((stamp - before) / 1e9, name))
        before = stamp
    return parts


def by_function(parts):
    """The parts by their functions: a function is what has paths."""
    functions = {name.removesuffix(".Lts") for _, name in parts if name.endswith(".Lts")}
    found = {}
    for seconds, name in parts:
        words = name.split(".")
        fronts = (".".join(words[:at]) for at in range(len(words), 0, -1))
        function = next((front for front in fronts if front in functions), name)
        found.setdefault(function, []).append((seconds, name.removeprefix(function).lstrip(".") or "file"))
    return found


def main(words):
    crate, most = words[0], next((int(it) for it in words[1:] if it.isdigit()), 12)
    parts = parts_of(crate)
    print(f"{crate}: {sum(seconds for seconds, _ in parts):.0f} s over {len(parts)} files")
    if "--parts" in words:
        for seconds, name in sorted(parts, reverse=True)[:most]:
            print(f"{seconds:7.1f}  {name}")
        return
    sums = [(sum(seconds for seconds, _ in those), function, those) for function, those in by_function(parts).items()]
    for seconds, function, those in sorted(sums, reverse=True)[:most]:
        dearest = ", ".join(f"{part} {it:.1f}" for it, part in sorted(those, reverse=True)[:4] if it >= 0.3)
        print(f"{seconds:7.1f}  {function}: {dearest}")


if __name__ == "__main__":
    if len(sys.argv) < 2:
        sys.exit(__doc__)
    main(sys.argv[1:])
