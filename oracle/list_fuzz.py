"""Random lists lent to random events, through the library for C, until EVENTS events have been answered:

    python3 oracle/list_fuzz.py EVENTS [SEED] [--program PATH]

Each day is made from its own seed (SEED, SEED + 1, and so on; from 1 by default), as for fuzz.py, and cut into blocks of up to 40
records. A block is lent a list of its own: mostly the lines that the block before it left, or others, some of them close to the bound,
so that a block can begin with a good list and end with a bad one; some are bad to begin with. One process, tools/lend_lists.c over the
library for C, answers them, each block at once and again event by event; it is built if it is missing. The result of the call, the
answers, the image and the list must be those of rights.py. The first difference ends the run, with status 1.
"""

import argparse
import random
import subprocess
import sys
import tempfile
import time
from pathlib import Path

import days
import lent_lists
import rights

ROOT = Path(__file__).resolve().parent.parent
BATCH = 40                  # days for one process


def blocks_of(seed):
    """Blocks of a day: image, list, records; and for each what must come of it: result, text, image, list."""
    rng = random.Random(f"lists {seed}")
    image, records, _ = days.make_day(seed, rng.choice((20, 60, 150, 300)))
    image = image or b""
    code, book = rights.read(image)
    if code != 0:
        lines = [rights.Line(number) for number in range(rng.randint(0, 5))]
        return [((image, lines, records), (code, "", image, lines))]
    handed, made, at = rights.zeros(book), [], 0
    while at < len(records):
        size = rights.RECORD.size * rng.randint(1, 40)
        part, lines = records[at:at + size], lent_lists.random_list(rng, book, handed)
        handed = [rights.Line(*each) for each in lent_lists.plain(lines)]
        text = "".join("%d %d %d\n" % rights.answer_record(book, record, handed) for record in rights.records_in(part))
        after = rights.write(book)
        made.append(((image, lines, part), (0, text, after, handed)))
        image, at = after, at + size
        if not rights.list_is_good(book, handed):
            handed = rights.zeros(book)
    return made


def number(value):
    return value.to_bytes(4, "big")


def list_bytes(lines):
    return b"".join(value.to_bytes(8, "big") for line in lent_lists.plain(lines) for value in line)


def block_bytes(image, lines, records):
    return number(len(image)) + image + number(len(lines)) + list_bytes(lines) + number(len(records)) + records


def answer_bytes(result, text, image, lines):
    return number(result) + number(len(text)) + text.encode() + number(len(image)) + image + list_bytes(lines)


def try_days(program, first, counts):
    """None if the program answers the days from this seed on as rights.py does, otherwise what differs."""
    blocks = [(seed, *block) for seed in range(first, first + BATCH) for block in blocks_of(seed)]
    with tempfile.TemporaryFile() as given:
        given.write(b"".join(block_bytes(*block) for _, block, _ in blocks))
        given.seek(0)
        done = subprocess.run([program], stdin=given, capture_output=True, timeout=600)
    got, at = done.stdout, 0
    for seed, block, told in blocks:
        wanted = answer_bytes(*told)
        if got[at:at + len(wanted)] != wanted:
            said = done.stderr.decode(errors="replace").strip()
            return (f"seed {seed}: list {lent_lists.plain(block[1])}, records {block[2].hex()}\n  expected {told[:2]}"
                    + f"\n  {said}" * bool(said))
        at += len(wanted)
        count(counts, block[1], told)
    return None if done.returncode == 0 and at == len(got) else f"status {done.returncode}: {done.stderr.decode(errors='replace')}"


def count(counts, lines, told):
    answers = told[1].splitlines()
    bad = sum(answer.startswith("30 ") for answer in answers)
    counts["events"] += len(answers)
    counts["blocks"] += 1
    counts["events with a bad list"] += bad
    counts["lists that became bad"] += 0 < bad < len(answers)
    counts["blocks that raised a line"] += lines != told[3]


def built():
    sys.path.insert(0, str(ROOT / "tools"))
    from books import library
    from books.words import Trouble
    try:
        library.build("lend_lists")
    except Trouble as trouble:
        sys.exit(str(trouble))
    return library.MADE / "lend_lists"


def main():
    words = argparse.ArgumentParser(description=__doc__.splitlines()[0])
    words.add_argument("events", type=int)
    words.add_argument("seed", type=int, nargs="?", default=1)
    words.add_argument("--program", help="another program that answers like tools/lend_lists.c")
    said = words.parse_args()
    program, began, seed = said.program or built(), time.time(), said.seed
    counts = dict.fromkeys(("events", "blocks", "events with a bad list", "lists that became bad", "blocks that raised a line"), 0)
    while counts["events"] < said.events:
        wrong = try_days(program, seed, counts)
        if wrong:
            sys.exit(wrong)
        seed += BATCH
    print(", ".join(f"{value} {name}" for name, value in counts.items())
          + f", seeds {said.seed} to {seed - 1}, {time.time() - began:.0f} s: no difference")


if __name__ == "__main__":
    main()
