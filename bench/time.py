#!/usr/bin/env python3
"""Times the built program on example plants: seconds on the clock, processor seconds and peak memory of each run.

Run `./stn` once before, so that the program is built:  python3 bench/time.py [MORE.toml ..]
"""
import os, resource, subprocess, sys, tempfile, time

from large_inputs import cuts, founds, largest, most_entries, points

top = os.path.dirname(os.path.dirname(os.path.abspath(__file__)))
program = os.environ.get("STN_PROGRAM") or os.path.join(top, "built", "stn")


def peak_of(child):
    """The peak memory of a process in MiB as the system last told it, once the process has ended: runs of a few milliseconds show less."""
    peak = 0
    while child.poll() is None:
        with open(f"/proc/{child.pid}/status") as it:
            peak = max([peak, *(int(line.split()[1]) for line in it if line.startswith("VmHWM"))])
        time.sleep(0.002)
    return peak / 1024


def timed(words):
    """The status, the first line, both kinds of seconds and the peak memory of one run."""
    before, begun = resource.getrusage(resource.RUSAGE_CHILDREN), time.monotonic()
    child = subprocess.Popen([program] + words, stdout=subprocess.PIPE, stderr=subprocess.DEVNULL)
    peak = peak_of(child)
    seconds, after = time.monotonic() - begun, resource.getrusage(resource.RUSAGE_CHILDREN)
    used = after.ru_utime + after.ru_stime - before.ru_utime - before.ru_stime
    first = child.stdout.read().split(b"\n")[0].decode()
    return child.returncode, first, seconds, used, peak


def earned(folder, plant, start):
    """What a plan of one start, or of none, earns over a plant."""
    path = os.path.join(folder, "one.plan")
    with open(path, "w") as out:
        out.write(start)
    return subprocess.run([program, "simulate", plant, path], capture_output=True, text=True).stdout.split()[-1]


def found_runs(folder, plants):
    """The check of a log of found groups over each plant, of about so many bytes, where a start in slot 0 is one of them or none."""
    for number, (plant, size, start) in enumerate(plants):
        text = founds(size, earned(folder, plant, ""), earned(folder, plant, start) if start else None)
        kind = "turned" if start else "found"
        path = os.path.join(folder, f"{kind}{number}-of-{len(text)}-bytes.log")
        with open(path, "w") as out:
            out.write(text)
        yield ["check", plant, path]


def plan(starts):
    """A start in each of the 512 slots, and then the last one again and again."""
    slots = [(period, unit) for period in range(64) for unit in range(8)]
    places = (slots + [slots[-1]] * starts)[:starts]
    return "".join(f"{period} u{unit} t{unit} 3\n" for period, unit in places)


def main():
    if not os.path.isfile(program):
        sys.exit("bench: the program is not built: run ./stn first")
    runs = []
    for name, budget in [("tiny", 31), ("paint", 20000), ("juice", 40000), ("soap", 11000)]:
        runs.append(["solve", os.path.join(top, "examples", name + ".toml"), str(budget)])
    with tempfile.TemporaryDirectory() as folder:
        names = ("largest.toml", "full.plan", "late.plan", "entries.toml", "no.log", "cuts.log", "points.log")
        plant, full, late, entries, no_log, cut_log, point_log = (os.path.join(folder, n) for n in names)
        texts = [largest(), plan(512), plan(2048), most_entries(), "no log\n", cuts(64 << 20), points(512, 14)]
        for path, content in zip((plant, full, late, entries, no_log, cut_log, point_log), texts):
            with open(path, "w") as out:
                out.write(content)
        runs += [["simulate", plant, full], ["simulate", plant, late]]
        # The check makes the plant's program before it reads the log.
        runs += [["check", entries, no_log], ["check", os.path.join(top, "examples", "tiny.toml"), cut_log]]
        tiny, five = (os.path.join(top, "examples", name + ".toml") for name in ("tiny", "five"))
        nothing = [(tiny, 10_000_000), (tiny, 100_000_000), (five, 10_000_000), (plant, 10_000_000), (entries, 10_000_000)]
        turned = [(tiny, 10_000_000, "0 U make 1\n"), (plant, 1_000_000, "0 u0 t0 1\n"), (entries, 1_000_000, "0 u0 t0 1\n")]
        runs += [["check", plant, point_log], ["check", entries, point_log]]
        runs += found_runs(folder, [(plant, size, "") for plant, size in nothing] + turned)
        runs += [["solve", p, "1000"] for p in sys.argv[1:]]
        print(f"{'seconds':>8} {'of cpu':>8} {'MiB':>7} status  words: first line")
        for words in runs:
            status, first, seconds, used, peak = timed(words)
            shown = " ".join(os.path.basename(w) for w in words)
            print(f"{seconds:8.3f} {used:8.3f} {peak:7.1f} {status:6}  {shown}: {first}", flush=True)


main()
