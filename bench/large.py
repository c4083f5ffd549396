#!/usr/bin/env python3
"""What is left open of large plants after a minute on the clock, beside HiGHS on the same plants in the same run.

    python3 bench/large.py ../shared/plants/large                # the table of docs/performance.md
    python3 bench/large.py FOLDER --seconds 120 make-980         # with another time, this plant alone
    python3 bench/large.py FOLDER --stn ../other/stn             # with the wrapper of another checkout
    python3 bench/large.py examples --peers no dyes              # without HiGHS

Each plant is planned by `./stn solve --seconds N PLANT LOG`, which takes slices of `resume` behind a first box that is let end; its log
is checked by the same program; then HiGHS (bench/highs.py, Debian's python3-scipy) has N seconds, which it passes where it is still setting
up. One run after the other. `s` is on the clock, `CPU s` of the processor, MiB the peak of one process.
"""
import argparse, datetime, os, platform, resource, subprocess, sys, tempfile, time

TOP = os.path.dirname(os.path.dirname(os.path.abspath(__file__)))
HIGHS = ["/usr/bin/python3", os.path.join(TOP, "bench", "highs.py")]


def timed(words):
    """What a command printed, its seconds on the clock and of the processor, and its peak memory in MiB."""
    reader, writer = os.pipe()
    begun = time.monotonic()
    if os.fork() == 0:
        text = subprocess.run(words, stdout=subprocess.PIPE, stderr=subprocess.DEVNULL, text=True).stdout
        used = resource.getrusage(resource.RUSAGE_CHILDREN)
        with os.fdopen(writer, "w") as out:
            out.write(f"{used.ru_utime + used.ru_stime:.3f}\t{used.ru_maxrss / 1024:.0f}\t{text}")
        os._exit(0)
    os.close(writer)
    with os.fdopen(reader) as it:
        seconds, peak, text = it.read().split("\t", 2)
    os.wait()
    return text, time.monotonic() - begun, float(seconds), peak


def found(text):
    """PLAN..CAP of an answer of the program, and its boxes."""
    lines = text.splitlines() + ["", ""]
    words = lines[0].removeprefix("# ").split()
    span = "..".join(words[1:]) if words[:1] == ["budget-spent"] else " ".join(words)
    return span or "-", lines[1].removeprefix("# boxes ") or "-"


def ours(stn, plant, seconds, log):
    """The program's columns: slots, PLAN..CAP, boxes, seconds, MiB, and those of the check."""
    program = timed([stn, "--path"])[0].strip()
    slots = timed([program, "slots", plant])[0].split("\n")[0].removeprefix("slots ")
    text, clock, used, peak = timed([stn, "--quiet", "solve", "--seconds", seconds, plant, log])
    said, _, checked, _ = timed([program, "check", plant, log])
    span, boxes = found(text)
    span += "" if said.startswith("yes") else f" (check: {said.strip() or 'no answer'})"
    return f"{slots} | {span} | {boxes} | {clock:.1f} | {used:.1f} | {peak} | {checked:.2f}"


def peers(plant, seconds):
    """HiGHS's columns: PLAN..CAP, seconds, MiB."""
    text, clock, used, peak = timed([*HIGHS, plant, seconds])
    words = text.split() or ["no", "answer", ""]
    return f"{words[0]}..{words[1]}{' optimal' * (words[2] == 'optimal')} | {clock:.1f} | {used:.1f} | {peak}"


def main():
    reader = argparse.ArgumentParser(usage=__doc__)
    reader.add_argument("folder")
    reader.add_argument("plants", nargs="*")
    reader.add_argument("--seconds", default="60")
    reader.add_argument("--stn", default=os.path.join(TOP, "stn"))
    reader.add_argument("--peers", choices=("yes", "no"), default="yes")
    asked = reader.parse_intermixed_args()
    names = asked.plants or sorted(it[:-5] for it in os.listdir(asked.folder) if it.endswith(".toml"))
    print(f"{datetime.date.today()}, {platform.machine()}, {os.cpu_count()} processors\n")
    print("| plant | load | slots | plan..cap | boxes | s | CPU s | MiB | check, CPU s | HiGHS: plan..cap | s | CPU s | MiB |")
    print("|---" * 13 + "|", flush=True)
    with tempfile.TemporaryDirectory() as room:
        for name in names:
            plant, load = os.path.join(asked.folder, name + ".toml"), os.getloadavg()[0]
            own = ours(asked.stn, plant, asked.seconds, os.path.join(room, "log"))
            other = peers(plant, asked.seconds) if asked.peers == "yes" else "- | - | - | -"
            print(f"| {name} | {load:.1f} | {own} | {other} |", flush=True)


main()
