"""Makes the days, compares the answers of the programs byte for byte, then times them: see bench/run.sh.

    python3 bench/measure.py FOLDER [--more] [--metered] [--groups] [--short] NAME=PROGRAM ...

FOLDER holds the program `days`. With --short the program named `before` gets the events in records of 13 bytes. Ratios are of the first
program's median to each other's. Two times are given, of the clock and of the processor (user and system); on a busy machine the second
is more stable.
"""

import filecmp
import os
import subprocess
import sys
import time
from pathlib import Path
from statistics import median

EVENTS = int(os.environ.get("EVENTS", 2_000_000))
RUNS = int(os.environ.get("RUNS", 7))
SEED = os.environ.get("SEED", "1")
TOGETHER = 2                # players, in the books of group packs


def events_of(name):
    """The file of events that a program reads."""
    return "short.bin" if name == "before" and "--short" in sys.argv else "events.bin"


def run_once(name, program, folder, output=os.devnull):
    """Seconds of the clock and of the processor of one run on the folder's day."""
    with open(folder / events_of(name), "rb") as events, open(output, "wb") as out:
        began = time.perf_counter()
        child = subprocess.Popen([program], cwd=folder, stdin=events, stdout=out)
        _, status, usage = os.wait4(child.pid, 0)
        took = time.perf_counter() - began
        child.returncode = os.waitstatus_to_exitcode(status)
    if child.returncode != 0:
        sys.exit(f"{program} ended with {child.returncode} in {folder}")
    return took, usage.ru_utime + usage.ru_stime


def compare(programs, folder):
    outputs = [folder / f"{name}.txt" for name, _ in programs]
    for (name, program), output in zip(programs, outputs):
        run_once(name, program, folder, output)
    for other in outputs[1:]:
        if not filecmp.cmp(outputs[0], other, shallow=False):
            with open(outputs[0], "rb") as a, open(other, "rb") as b:
                line = next(n for n, (left, right) in enumerate(zip(a, b), 1) if left != right)
            sys.exit(f"{outputs[0]} and {other} differ, first at line {line} or where one of them ends")
    for output in outputs:
        output.unlink()


def measure(programs, bench, label, kind, events, entries=64, metering="none", threshold=0):
    folder = bench / kind
    subprocess.run([bench / "days", kind, str(events), SEED, folder, str(entries), metering, str(threshold)], check=True)
    compare(programs, folder)
    times = [[] for _ in programs]
    for _ in range(RUNS):
        for (name, program), found in zip(programs, times):
            found.append(run_once(name, program, folder))
    for which, unit in enumerate(("clock", "cpu")):
        columns = [[each[which] * 1e9 / events for each in found] for found in times]
        cells = [f"{median(c):>8.1f} {min(c):>7.1f}" + (f" {median(columns[0]) / median(c):>6.2f}" if k else "")
                 for k, c in enumerate(columns)]
        print(f"{label if which == 0 else '':>11} {events if which == 0 else '':>9} {unit:>5} " + " ".join(cells), flush=True)
    for name in ("events.bin", "short.bin"):
        (folder / name).unlink()


def heading(programs, text):
    cells = [f"{name:>8} {'least':>7}" + (f" {'ratio':>6}" if k else "") for k, (name, _) in enumerate(programs)]
    print(f"\n{text}; ns for an event, median and least of {RUNS} interleaved runs\n"
          f"{'day':>11} {'events':>9} {'':>5} " + " ".join(cells))


def main():
    words = [word for word in sys.argv[1:] if not word.startswith("--")]
    bench, programs = Path(words[0]).resolve(), [word.split("=", 1) for word in words[1:]]
    heading(programs, "Four kinds of days")
    for kind in ("small", "full", "worst", "expire"):
        measure(programs, bench, kind, kind, EVENTS)
    if "--more" in sys.argv:
        heading(programs, "The same day, longer and longer (small)")
        for events in (10_000, 100_000, 1_000_000, 10_000_000):
            measure(programs, bench, "small", "small", events)
        heading(programs, "More entries, all suitable for every begin (worst)")
        for entries in (4, 8, 16, 32, 64):
            measure(programs, bench, f"{entries} entries", "worst", EVENTS // 4, entries)
    able = [each for each in programs if each[0] != "before"]
    if "--metered" in sys.argv:
        for metering in ("off", "on"):
            heading(able, f"Every entry tracked, the switch {metering}")
            for kind in ("small", "full", "worst", "expire"):
                measure(able, bench, kind, kind, EVENTS, metering=metering)
    if "--groups" in sys.argv:
        heading(able, f"Every entry open to {TOGETHER} players together")
        for kind in ("small", "full", "expire"):
            measure(able, bench, kind, kind, EVENTS, threshold=TOGETHER)


if __name__ == "__main__":
    main()
