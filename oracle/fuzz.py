"""Random days against a built program, until EVENTS events have been answered:

    python3 oracle/fuzz.py EVENTS [SEED] [--program PATH] [--jobs 1 or 2]

Each day is made from its own seed (SEED, SEED + 1, and so on; from 1 by default). The program (target/bin/run by
default) is run in its own folder with the day's rights.rbk and the events on standard input; on some days these
come in pieces, as from a pipe. The first difference from the answers of rights.py ends the run: the day's seed, the
event's number, the expected and the printed line are shown, and the day's files are kept under target/fuzz.

    python3 oracle/fuzz.py --day SEED [--program PATH]

runs one day again.

    python3 oracle/fuzz.py --waiting SEED [--program PATH]

plays one day like a player that waits for each answer before asking again: every line must come while the
input is still open.
"""

import argparse
import os
import random
import select
import subprocess
import sys
import tempfile
import time
from concurrent.futures import ProcessPoolExecutor
from pathlib import Path

import days
import rights

ROOT = Path(__file__).resolve().parent.parent
BATCH = 40                  # days per task


def day(seed):
    rng = random.Random(f"length {seed}")
    return days.make_day(seed, rng.choice((1, 20, 60, 150, 300, 300, 600, 1200)))


def ask(program, folder, image, events, pieces):
    """What the program prints for a day."""
    book = Path(folder) / "rights.rbk"
    book.unlink(missing_ok=True)
    if image is not None:
        book.write_bytes(image)
    if not pieces:
        done = subprocess.run([program], input=events, cwd=folder, capture_output=True, timeout=60)
        return done.stdout + done.stderr    # a message on standard error is a difference
    child = subprocess.Popen([program], cwd=folder, stdin=subprocess.PIPE, stdout=subprocess.PIPE,
                             stderr=subprocess.STDOUT, bufsize=0)
    rng, at = random.Random(len(events)), 0
    try:
        while at < len(events):
            size = rng.choice((1, 5, 13, 16, 17, 18, 34, 400))
            child.stdin.write(events[at:at + size])
            at += size
            time.sleep(0.0002)
        child.stdin.close()
    except BrokenPipeError:     # a refused image ends the program before its input does
        pass
    got = child.stdout.read()
    child.wait()
    return got


def wait_for_each(program, folder, seed):
    """None if each record is answered before the next one is sent, otherwise what differs."""
    image, events, expected = days.make_day(seed, 200, "crowd")
    (Path(folder) / "rights.rbk").write_bytes(image)
    child = subprocess.Popen([program], cwd=folder, stdin=subprocess.PIPE, stdout=subprocess.PIPE, bufsize=0)
    try:
        for number, (record, wanted) in enumerate(zip(rights.records_in(events), expected.splitlines(keepends=True))):
            child.stdin.write(record)
            if len(record) < rights.RECORD.size:
                child.stdin.close()
            if not select.select([child.stdout], [], [], 5)[0]:
                return f"day {seed}, event {number + 1}: no answer within 5 seconds while the input is open"
            line = child.stdout.read(100).decode()
            if line != wanted:
                return f"day {seed}, event {number + 1}: expected {wanted!r}, got {line!r}"
    finally:
        child.stdin.close()
        child.stdout.close()
        child.wait(10)
    return None


def try_day(program, folder, seed):
    """(events, None) if the day's answers agree, otherwise (events, what differs)."""
    image, events, expected = day(seed)
    got = ask(program, folder, image, events, pieces=seed % 50 == 0)
    if got == expected.encode():
        return expected.count(" ") // 2, None
    return 0, difference(seed, expected.splitlines(), got.decode(errors="replace").splitlines(), events)


def difference(seed, expected, got, events):
    for number in range(max(len(expected), len(got)) + 1):
        wanted = expected[number] if number < len(expected) else "(nothing)"
        line = got[number] if number < len(got) else "(nothing)"
        if wanted != line:
            break
    records = rights.records_in(events)
    event = rights.decode(records[number]) if number < len(records) else "no event"
    return (f"day {seed}, event {number + 1}: {event}\n  expected {wanted}\n  got      {line}\n"
            + keep(seed, day(seed), got))


def keep(seed, made, got):
    """Stores the day's files for a closer look; returns a line that says where."""
    folder = ROOT / "target" / "fuzz" / f"day-{seed}"
    folder.mkdir(parents=True, exist_ok=True)
    image, events, expected = made
    if image is not None:
        (folder / "rights.rbk").write_bytes(image)
    (folder / "events.bin").write_bytes(events)
    (folder / "expected.txt").write_text(expected)
    (folder / "got.txt").write_text("".join(line + "\n" for line in got))
    return f"  its files are in {folder}"


def batch(program, first):
    """Days first to first + BATCH - 1: (events, what differs or None)."""
    done = 0
    with tempfile.TemporaryDirectory() as folder:
        for seed in range(first, first + BATCH):
            events, wrong = try_day(program, folder, seed)
            done += events
            if wrong:
                return done, wrong
    return done, None


def run_batches(program, seed, jobs):
    """Yields the results of the batches in order, with at most two processes."""
    if jobs == 1:
        while True:
            yield batch(program, seed)
            seed += BATCH
    pool, waiting = ProcessPoolExecutor(jobs), []
    try:
        while True:
            while len(waiting) < 2 * jobs:
                waiting.append(pool.submit(batch, program, seed))
                seed += BATCH
            yield waiting.pop(0).result()
    finally:
        pool.shutdown(cancel_futures=True)


def main():
    words = argparse.ArgumentParser(description=__doc__, formatter_class=argparse.RawDescriptionHelpFormatter)
    words.add_argument("events", nargs="?", type=int)
    words.add_argument("seed", nargs="?", type=int, default=1)
    words.add_argument("--program", default=str(ROOT / "target" / "bin" / "run"))
    words.add_argument("--jobs", type=int, choices=(1, 2), default=1)
    words.add_argument("--day", type=int)
    words.add_argument("--waiting", type=int)
    told = words.parse_args()
    program = os.path.abspath(told.program)
    if not os.access(program, os.X_OK):
        sys.exit(f"no program at {program}")
    if told.day is not None or told.waiting is not None:
        with tempfile.TemporaryDirectory() as folder:
            if told.day is not None:
                wrong = try_day(program, folder, told.day)[1]
            else:
                wrong = wait_for_each(program, folder, told.waiting)
        if wrong:
            sys.exit(wrong)
        print("no difference")
        return
    if told.events is None:
        words.error("say how many events")
    done, batches, began, shown = 0, 0, time.time(), time.time()
    for events, wrong in run_batches(program, told.seed, told.jobs):
        done, batches = done + events, batches + 1
        if wrong:
            sys.exit(f"after {done} events without a difference:\n{wrong}")
        if done >= told.events:
            break
        if time.time() - shown > 30:
            shown = time.time()
            print(f"{done} events so far", flush=True)
    print(f"{done} events in {batches * BATCH} days, seeds {told.seed} to {told.seed + batches * BATCH - 1}, "
          f"{time.time() - began:.0f} s: no difference")


if __name__ == "__main__":
    main()
