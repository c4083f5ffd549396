#!/usr/bin/env python3
"""Measures the dual simplex on every plant file of a folder, beside the trial in plain Rust where its folder is given.

    python3 bench/bounds.py ../shared/plants                    # prints a table as docs/performance.md has it
    python3 bench/bounds.py ../shared/plants ../shared/search   # and the trial's root cap, pivots and seconds beside
    python3 bench/bounds.py ../shared/plants --try              # without proofs, with checks: caps and pivots count, times do not
    python3 bench/bounds.py ../shared/plants --built PROGRAM    # with a program that was built before

The program is bench/bounds_program.txt, which becomes a crate in a copy of the repository. There `rt run` proves it and what it
stands on, and builds it: some twenty minutes of processor time on a plain checkout. The program that was built is kept as
bounds_program in the folder for files of a time, and its path is printed. Where it is not proved, `rt try` builds it with checks
and without proofs, and the table says so. Times are processor time, the least of five. 'from the root' is the mean of the pivots
of a bound from the root's basis, of both parts of a split of each slot that the root starts in part, and 'share' is it over the
root's pivots; 'again' are the pivots of the root itself from there. 'part ms' is the mean time of such a bound, 'trial ms' that of
a trial bound of one side. The trial is built with whole numbers from a copy in which it bounds the cut root ten times and ends.
'KiB' is the most memory that the program had, plant and rows with it (GNU time). Where Debian's python3-scipy is installed,
HiGHS bounds the same program beside (bench/highs.py --root): its cap is without the cuts of the root.
"""
import argparse, datetime, os, platform, re, shutil, subprocess, tempfile

top = os.path.dirname(os.path.dirname(os.path.abspath(__file__)))
TIMES = 3
BELOW = "row_kit range_prop dual_bound dual_climb dual_simplex proof_tree row_set plant_text anyhow"


def repository(room):
    """A copy of the repository with the program as one more crate; returns the crate's folder."""
    for name in ("crates.txt", "HANDLES"):
        shutil.copy2(os.path.join(top, name), room)
    shutil.copytree(os.path.join(top, "crates"), os.path.join(room, "crates"), ignore=shutil.ignore_patterns("out", "must-fail"))
    subprocess.run(["git", "init", "-q", room], check=True)
    crate = os.path.join(room, "crates", "bounds_program")
    os.makedirs(os.path.join(crate, "src"))
    shutil.copy2(os.path.join(top, "bench", "bounds_program.txt"), os.path.join(crate, "src", "main.rt"))
    with open(os.path.join(room, "crates.txt"), "a") as it:
        it.write(f"bounds_program: {BELOW}\n")
    return crate


def figures(text):
    """The figures that the program wrote."""
    return {name: int(number) for name, number in re.findall(r"^([a-z-]+) (-?\d+)$", text, re.M)}


def build(crate, plant):
    """The program that is proved and built, kept in a folder of its own; nothing where it is not proved."""
    with open(plant) as file:
        done = subprocess.run(["rt", "run"], cwd=crate, stdin=file, stdout=subprocess.DEVNULL)
    if done.returncode:
        return None
    program = os.path.join(tempfile.mkdtemp(prefix="bounds-"), "bounds_program")
    shutil.copy2(os.path.join(crate, "out", "bounds_program"), program)
    return program


def run_built(program, plants):
    """The figures of each plant by the built program, and the KiB that it took at most, where GNU time is installed."""
    words = ["/usr/bin/time", "-f", "peak %M"] if os.path.exists("/usr/bin/time") else []
    for plant in plants:
        with open(plant) as file:
            run = subprocess.run([*words, os.path.abspath(program)], stdin=file, capture_output=True, text=True)
        yield figures(run.stdout + run.stderr)


def highs(plant):
    """The cap of HiGHS without whole numbers, and its processor seconds; nothing where it is not installed."""
    words = ["/usr/bin/python3", os.path.join(top, "bench", "highs.py"), "--root", plant]
    try:
        return subprocess.run(words, capture_output=True, text=True).stdout.split()
    except OSError:
        return []


def run_tried(crate, plants):
    """The figures of each plant by one build without proofs."""
    cases = tempfile.mkdtemp(prefix="bounds-")
    for plant in plants:
        shutil.copy2(plant, cases)
    words = ["rt", "try", "--steps", "1", "--seconds", "600", "--cases", cases]
    text = subprocess.run(words, cwd=crate, capture_output=True, text=True).stdout
    shutil.rmtree(cases)
    parts = dict(re.findall(r"^== (\S+)\n(.*?)(?=^case=|\Z)", text, re.M | re.S))
    return [figures(parts.get(os.path.basename(plant), "")) for plant in plants]


# What the trial is made to do with each program before all else: bound the cut root, and print the value, seconds and pivots of one bound.
ROOT = """ { let q: &Prog = Box::leak(Box::new(p.clone())); let mut a = Area::new(q, q.root.clone()); a.cut_all(q);
    let r: &Rows = Box::leak(Box::new(Rows::new(q, &a, true))); let mut b = bounds::Bounds::new(q, r); let t = cpu();
    for _ in 0..10 { b.begin(&a, &bounds::Start::default()); b.run(20000, None); }
    println!("root {:.3} {:.6} {}", real(b.z()) / 2f64.powi(r.osh), (cpu() - t) / 10.0, b.n2.pivots / 10); if cpu() >= 0.0 { continue; } }"""


def trial(folder, names):
    """The trial's root bound of each plant, in whole numbers: value, seconds and pivots."""
    room = tempfile.mkdtemp(prefix="trial-")
    source = shutil.copytree(folder, os.path.join(room, "source"))
    main_file = os.path.join(source, "src", "main.rs")
    with open(main_file) as it:
        text = it.read()
    os.chmod(main_file, 0o644)
    with open(main_file, "w") as it:
        it.write(text.replace("let mut p = read(&path);", "let mut p = read(&path);" + ROOT, 1))
    subprocess.run([os.path.join(source, "build.sh"), room, "--cfg", "fix"], check=True, capture_output=True)
    found = {}
    for name in names:
        for _ in range(TIMES):
            text = subprocess.run([os.path.join(room, "trial"), name], cwd=room, capture_output=True, text=True).stdout
            seen = re.search(r"root (-?[\d.]+) ([\d.]+) (\d+)", text)
            if seen and (name not in found or float(seen[2]) < found[name][1]):
                found[name] = (float(seen[1]), float(seen[2]), int(seen[3]))
    shutil.rmtree(room)
    return found


def each(got, time, count):
    """The mean time in milliseconds."""
    return f"{got.get(time, 0) / 1e3 / got[count]:.3f}" if got.get(count) else "-"


def line(name, got, other, peer):
    """A row of the table."""
    mean = got["part-pivots"] / got["parts"] if got.get("parts") else 0.0
    share = mean / got["root-pivots"] if got.get("root-pivots") else 0.0
    cells = [name, got.get("slots", "-"), got.get("rows", "-"), got.get("root-cap", "-"), f"{got.get('root-time', 0) / 1e6:.4f}"]
    cells += [got.get("root-pivots", "-"), got.get("again-pivots", "-"), got.get("parts", "-"), f"{mean:.1f}", f"{share:.2f}"]
    cells += [each(got, "part-time", "parts"), each(got, "trial-time", "trials"), f"{got.get('polish-time', 0) / 1e3:.2f}"]
    cells += [got.get("peak", "-")]
    cells += [f"{other[0]:.2f}", f"{other[1]:.4f}", other[2]] if other else []
    cells += peer
    return "| " + " | ".join(str(it) for it in cells) + " |"


def main():
    given = argparse.ArgumentParser()
    given.add_argument("plants")
    given.add_argument("trial", nargs="?")
    given.add_argument("--try", action="store_true", dest="unproved")
    given.add_argument("--built")
    given = given.parse_args()
    plants = sorted(os.path.join(given.plants, it) for it in os.listdir(given.plants) if it.endswith(".toml"))
    names = [os.path.basename(it)[: -len(".toml")] for it in plants]
    others = trial(os.path.abspath(given.trial), names) if given.trial else {}
    room = tempfile.mkdtemp(prefix="bounds-")
    crate = repository(room)
    program = given.built or (None if given.unproved else build(crate, plants[0]))
    how = "built with checks, without proofs" if not program else "given as built" if given.built else f"built by LLVM after its proof: {program}"
    print(f"{datetime.date.today()}, {platform.machine()}, {os.cpu_count()} processors, load {os.getloadavg()[0]:.0f}; {how}\n", flush=True)
    head = ["plant", "slots", "rows", "root cap", "seconds", "pivots", "again", "parts", "from the root", "share", "part ms", "trial ms", "polish ms", "KiB"]
    head += ["trial's cap", "seconds", "pivots"] if others else []
    peers = [highs(it) for it in plants]
    head += ["HiGHS's cap", "seconds"] if any(peers) else []
    print("| " + " | ".join(head) + " |\n" + "|---" * len(head) + "|", flush=True)
    for name, got, peer in zip(names, run_built(program, plants) if program else run_tried(crate, plants), peers):
        print(line(name, got, others.get(name), peer if any(peers) else []), flush=True)
    shutil.rmtree(room)


main()
