"""Damaged images against the reader and the writer, until IMAGES have been read:

    python3 oracle/image_fuzz.py IMAGES [SEED] [--program PATH]

A stored image, or the book after a random day laid out by one of the versions, is damaged in up to three places: bits,
bytes, a number of 16, 32 or 64 bits set to one close to a bound or taken from another place, an entry's threshold or marks, the header's
player last taken or its mark of an interval, bytes left out or put in, another version or count in the header. Some are left whole.
target/bin/test_images reads them, each with the last accepted book held, and prints the code, or the bytes that the book is written back
as; rights.py must agree. The first difference ends the run, with status 1.
"""

import argparse
import collections
import random
import struct
import subprocess
import sys
import tempfile
import time
from pathlib import Path

import days
import images
import rights

ROOT = Path(__file__).resolve().parent.parent
BATCH = 2000                # images for one process
LONGEST = 60_000            # of what the program reads as one image
NUMBERS = sorted({max(0, bound + by) for bound in (0, 16, 60, 64, 255, 256, 1000, 10**6, 10**8, 4 * 10**9, 2**16, 2**32, 2**64)
                  for by in (-2, -1, 0, 1, 2)})


def whole_images(rng):
    """Whole images for a batch: of the stored cases, and of books after random days."""
    made = [images.image(version, base, edits) for _, _, version, base, edits in rng.sample(images.cases(), 60)]
    for _ in range(12):
        image, records, _ = days.make_day(rng.randrange(2**32), rng.choice((5, 20, 60)))
        code, book = rights.read(image or b"")
        if code != 0:
            continue
        lines = rights.zeros(book)
        for record in rights.records_in(records):
            rights.answer_record(book, record, lines)
        for version in rights.VERSIONS:
            try:
                made.append(rights.write(book, version))
            except struct.error:        # a number that is too long for that version
                pass
    return made


def damaged(rng, data):
    for _ in range(rng.choice((0, 1, 1, 1, 1, 2, 2, 3))):
        at, size = rng.randrange(len(data) + 1), rng.choice((2, 4, 4, 4, 8))
        how = rng.random()
        version = data[4] if len(data) > 6 and data[3] == 0 and data[4] in (4, 5) else 0
        whole = version and len(data) == rights.VERSIONS[version].length(data[5], data[6])
        if rng.random() < 0.15 and whole and version == 5:
            data = other_last(rng, data)
        elif rng.random() < 0.15 and whole and data[6]:
            header = 11 + rights.VERSIONS[version].header.size
            at = header + 5 * data[5] + 71 * rng.randrange(data[6]) + rng.choice((63, 67, 67))      # of a threshold or of marks
            bit, was = 1 << rng.randrange(32), int.from_bytes(data[at:at + 4], "big")
            number = rng.choice((0, 1, 2, 3, 15, 16, 17, bit, was ^ bit, was | bit, was & ~bit))
            data = data[:at] + number.to_bytes(4, "big") + data[at + 4:]
        elif how < 0.2 and at < len(data):
            data = data[:at] + bytes([data[at] ^ 1 << rng.randrange(8)]) + data[at + 1:]
        elif how < 0.4 and at < len(data):
            data = data[:at] + bytes([rng.choice((0, 1, 2, 3, 5, 15, 16, 63, 64, 65, 254, 255, rng.randrange(256)))]) + data[at + 1:]
        elif how < 0.6:
            number = rng.choice([number for number in NUMBERS if number < 256**size])
            data = data[:at] + number.to_bytes(size, "big") + data[at + size:]
        elif how < 0.75:
            other = rng.randrange(len(data) + 1)
            data = data[:at] + data[other:other + size] + data[at + size:]
        elif how < 0.8:
            data = data[:at] + data[at + rng.choice((1, 4, 5, 8, 8, 12, 51, 63, 71)):]
        elif how < 0.85:
            data = data[:at] + rng.randbytes(rng.choice((1, 4, 5, 8, 12, 64))) + data[at:]
        elif how < 0.9 and len(data) > 4:
            data = data[:4] + bytes([rng.choice((0, 1, 2, 3, 4, 5, 6, 255))]) + data[5:]
        elif how < 0.95 and len(data) > 6:
            where = rng.choice((5, 6))
            data = data[:where] + bytes([(data[where] + rng.choice((-1, 1))) % 256]) + data[where + 1:]
        else:
            data = data[:at]
    return data[:LONGEST]


def other_last(rng, data):
    """A whole image of version 5 with another player last taken, mostly one with something open, and another mark; now and then that use
    begins where its entry's interval does."""
    players = len(data) - 16 * 32
    opened = [p for p in range(16) if data[players + 32 * p + 18] == 1 and data[players + 32 * p + 19] < data[6]]
    last = rng.choice((0, 1, 15, 16, 17, 256, *(p + 1 for p in opened), *(p + 1 for p in opened)))
    data = data[:15] + last.to_bytes(4, "big") + rng.choice((0, 1, 1, 1, 2, 256)).to_bytes(4, "big") + data[23:]
    if last - 1 in opened and rng.random() < 0.7:
        at = players + 32 * (last - 1)
        entry = 23 + 5 * data[5] + 71 * data[at + 19]
        data = data[:at + 20] + data[entry + 42:entry + 46] + data[at + 24:]
        if rng.random() < 0.5:      # only with the flag of an interval
            data = data[:entry + 5] + bytes([data[entry + 5] | 16]) + data[entry + 6:]
    return data


def try_batch(program, seed, counts):
    """None if the program reads a batch of images as rights.py does, otherwise what differs."""
    rng = random.Random(f"images {seed}")
    wholes = whole_images(rng)
    given = [damaged(rng, rng.choice(wholes)) for _ in range(BATCH)]
    with tempfile.TemporaryDirectory() as folder:
        (Path(folder) / "cases.bin").write_bytes(b"".join(len(data).to_bytes(2, "big") + data for data in given))
        done = subprocess.run([program], cwd=folder, stdin=subprocess.DEVNULL, capture_output=True, timeout=600)
    got = done.stdout.decode(errors="replace").splitlines()
    for data, line in zip(given, got + [None] * len(given)):
        code, book = rights.read(data)
        wanted = f"0 {rights.write(book).hex()}" if code == 0 else str(code)
        if line != wanted:
            return f"seed {seed}: image {data.hex()}\n  expected {wanted[:200]}\n  got      {str(line)[:200]}"
        counts[f"of {code}"] += 1
        if code == 0:
            counts[f"of version {data[4]}"] += 1
    return None if len(got) == len(given) and done.returncode == 0 else f"seed {seed}: {len(got)} lines, status {done.returncode}"


def main():
    words = argparse.ArgumentParser(description=__doc__.splitlines()[0])
    words.add_argument("images", type=int)
    words.add_argument("seed", type=int, nargs="?", default=1)
    words.add_argument("--program", default=ROOT / "target" / "bin" / "test_images", help="another program that answers like test_images")
    said = words.parse_args()
    if not Path(said.program).exists():
        sys.exit(f"there is no {said.program}: `tools/build test_images` makes it")
    program, counts, began, seed = str(Path(said.program).resolve()), collections.Counter(), time.time(), said.seed
    done = 0
    while done < said.images:
        wrong = try_batch(program, seed, counts)
        if wrong:
            sys.exit(wrong)
        done, seed = done + BATCH, seed + 1
    codes = sorted((key for key in counts if not key.startswith("of version")), key=lambda key: int(key.split()[1]))
    told = ", ".join(f"{counts[key]} {key}" for key in codes) + "; accepted: " + ", ".join(
        f"{counts[key]} {key}" for key in sorted(counts) if key.startswith("of version"))
    print(f"{done} images, seeds {said.seed} to {seed - 1}: {told}; no difference ({time.time() - began:.0f} s)")


if __name__ == "__main__":
    main()
