"""The stored runs of the run program: the afternoon of document 01, and cases that need their own files.

    python3 oracle/runs.py

writes, for the program of each crate, its input, its book, and the text that it must print according to the second program:

  crates/run          the afternoon of document 01, on its book in version 1
  crates/run_cut      its first two lines and a record cut short, on its book in version 2
  crates/run_missing  the afternoon without a book
  crates/run_refused  the afternoon on its book with an entry of kind 9: refused
  crates/run_long     a book of the greatest size, 5,399 bytes, and 16,000 and a half records: several times the 65,551 bytes
                      that the program reads at once
  crates/run_over     the same book with one byte after it: refused, and no record is answered
"""

import random
from pathlib import Path

import days
import rights
import written_days
from rights import CONTINUE, MOST, STOP, Event

CRATES = Path(__file__).resolve().parent.parent / "crates"
RECORDS = 16_000
READ = 65_551               # bytes of the program's input buffer: 3,855 records and 16 bytes of the next
AROUND = 1_700_000_000


def afternoon():
    """The book of document 01's afternoon, its event records, and the lines that document 01 tells."""
    _, _, book, steps, _ = next(day for day in written_days.written() if day[0] == "the afternoon of document 01")
    return book, b"".join(rights.encode(event) for event, _, _ in steps), "".join("%d %d %d\n" % answer for _, answer, _ in steps)


def store_afternoon():
    book, records, told = afternoon()
    assert store("run", rights.write(book, 1), records) == told
    assert store("run_cut", rights.write(book, 2), records[:2 * rights.RECORD.size] + records[:5]) == "0 0 1060\n" * 2 + "6 255 0\n"
    assert store("run_missing", None, records) == "20\n"
    book.entries[2].kind = 9
    assert store("run_refused", rights.write(book), records) == "25\n"


def greatest_book(rng):
    """64 assets and 64 entries, with limits that last for part of the day."""
    book = days.wide_book(rng, AROUND)
    while (len(book.assets), len(book.entries)) != (MOST, MOST):
        book = days.wide_book(rng, AROUND)
    days.stretch(rng, book, AROUND, 200)
    return book


def resends(book):
    """Each player's latest request again, and another request under a used number."""
    for index, player in enumerate(book.players):
        if player.number != 0:
            yield Event(index, player.number, player.operation, player.asset, player.kind, book.time)
    player = book.players[0]
    yield Event(0, player.number, STOP if player.operation != STOP else CONTINUE, 0, 0, book.time)


def long_run(rng, book):
    """The records: random events, and where a read ends, resends of what came before it."""
    records, report = [], rights.zeros(book)
    waiting = []
    while len(records) < RECORDS:
        if records and len(records) % (READ // rights.RECORD.size) == 0:
            waiting = list(resends(book))
        event = waiting.pop(0) if waiting else days.next_event(rng, book, AROUND)
        record = rights.encode(event)
        records.append(record)
        rights.answer_record(book, record, report)
    return b"".join(records) + rng.randbytes(5)


def store(crate, image, records):
    """The files of one run; image None for a missing book."""
    folder = CRATES / crate
    if image is not None:
        (folder / "data").mkdir(parents=True, exist_ok=True)
        (folder / "data" / "rights.rbk").write_bytes(image)
    (folder / "stdin").write_bytes(records)
    text = rights.run(image or b"", records)
    (folder / "stdout").write_text(text)
    print(f"{crate}: {'no book' if image is None else f'a book of {len(image)} bytes'}, {len(records)} bytes of records, "
          f"{text.count(chr(10))} lines")
    return text


def main():
    store_afternoon()
    rng = random.Random(9)
    book = greatest_book(rng)
    image = rights.write(book)
    records = long_run(rng, book)
    text = store("run_long", image, records)
    codes = [line.split()[0] for line in text.split("\n")[:-1]]
    print("  " + ", ".join(f"{codes.count(code)} of {code}" for code in sorted(set(codes), key=int)))
    store("run_over", image + b"\0", records[:rights.RECORD.size * 5])


if __name__ == "__main__":
    main()
