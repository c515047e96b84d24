"""What the calls that read an image, and those that are lent a stored list, must print, according to the second program
(oracle/rights.py), in the format of calls.c:

    python3 embed/tests/seen.py seen days.bin
    python3 embed/tests/seen.py seen-images cases.bin
    python3 embed/tests/seen.py lists lists.bin
"""

import sys
from dataclasses import astuple, replace
from pathlib import Path

sys.path.insert(0, str(Path(__file__).resolve().parents[2] / "oracle"))
import rights  # noqa: E402

NO_LIMIT = 4_294_967_295
EVERY = 97


def parts(data, width):
    """The parts of a stored file, each preceded by its length in `width` bytes."""
    at = 0
    while at < len(data):
        length = int.from_bytes(data[at:at + width], "big")
        yield data[at + width:at + width + length]
        at += width + length


def print_line(name, at, numbers, *time):
    print(name, at, *time, *numbers)


def left(book, entry, time):
    """Whether the entry can be granted at that time, and what is left of its count, timed count and seconds."""
    pairs = ((rights.COUNT, entry.count, entry.used_count), (rights.TIMED, entry.timed, entry.used_timed),
             (rights.ACCUMULATED, entry.accumulated, entry.used_seconds))
    return [int(rights.is_grantable(book, entry, time))] + [
        limit - used if entry.has(flag) else NO_LIMIT for flag, limit, used in pairs]


def grounds(book, entry, time):
    """1 for each ground that stands against the entry at that time, in the order of rights.h."""
    over = entry.started and time >= entry.first + entry.interval
    tests = ((rights.COUNT, entry.used_count >= entry.count), (rights.TIMED, entry.used_timed >= entry.timed),
             (rights.START, time < entry.start), (rights.END, time > entry.end), (rights.INTERVAL, over),
             (rights.ACCUMULATED, entry.used_seconds >= entry.accumulated), (rights.INTERVAL, entry.interval == 0))
    stands = [entry.has(flag) and found for flag, found in tests] + [rights.fails_for_switch(book, entry), rights.is_full(entry)]
    return [int(bool(found)) for found in stands]


def settled(book, time):
    """The entries once every use that is over at that time has ended; the book stays as it is."""
    found = replace(book, entries=[replace(e) for e in book.entries], players=[replace(p) for p in book.players])
    for player in found.players:
        if player.open and player.until <= time:
            rights.end_use(found, player, player.until, rights.zeros(found))
    return found.entries


def player_numbers(player):
    """A player's fields, its counter in place of its number, and its boot number."""
    number, *others = astuple(player)
    return [rights.counter_of(number), *others, rights.boot_of(number)]


def absent(table, position, numbers):
    return numbers(table[position]) if position < len(table) else ["refused", 31]


def asked_times(now):
    return [0, now, now + 1, now + 30, now + 59, now + 60, now + 86400, rights.LATEST, rights.LATEST + 1, NO_LIMIT]


def see(image):
    code, book = rights.read(image)
    if code != 0:
        refused = ["refused", code]
        times = asked_times(0)
        print_line("book", 0, refused)
        print_line("asset", 0, refused)
        print_line("entry", 0, refused)
        for name in ("left", "grounds"):
            for time in times:
                print_line(name, 0, refused, time)
        for position in range(rights.PLAYERS + 1):
            print_line("player", position, refused)
        print_line("entry", 256, refused)
        print_line("player", NO_LIMIT, refused)
        return
    now = book.time
    print_line("book", 0, [len(book.assets), len(book.entries), now, book.switch, book.latest_player, book.latest_started])
    for position in range(len(book.assets) + 1):
        print_line("asset", position, absent(book.assets, position, astuple))
    tables = [(time, max(time, now), settled(book, max(time, now))) for time in asked_times(now)]
    for position in range(len(book.entries) + 1):
        print_line("entry", position, absent(book.entries, position, astuple))
        for time, when, entries in tables:
            print_line("left", position, absent(entries, position, lambda entry: left(book, entry, when)), time)
        for time, when, entries in tables:
            print_line("grounds", position, absent(entries, position, lambda entry: grounds(book, entry, when)), time)
    for position in range(rights.PLAYERS + 1):
        print_line("player", position, absent(book.players, position, player_numbers))
    print_line("entry", 256, absent(book.entries, 256, astuple))
    print_line("player", NO_LIMIT, absent(book.players, NO_LIMIT, player_numbers))


def seen_days(data):
    stored = parts(data, 4)
    for day, image in enumerate(stored, 1):
        records = next(stored)
        print("day", day)
        see(image)
        code, book = rights.read(image)
        if code != 0:
            continue
        lines = rights.zeros(book)
        each = rights.records_in(records)
        for done, record in enumerate(each, 1):
            rights.answer_record(book, record, lines)
            if done % EVERY == 0 or done == len(each):
                see(rights.write(book))


def list_cases(data):
    """The cases of lists.bin: a book, a record and the list that it is lent. The lines past the 64th are not stored: they are blank."""
    at, book, lines = 0, b"", []

    def number(width=4):
        nonlocal at
        at += width
        return int.from_bytes(data[at - width:at], "big")

    def stored():
        nonlocal at
        length = number()
        at += length
        return data[at - length:at]

    def listed(count):
        return [rights.Line(number(8), number(8), number(8)) if i < rights.LINES else rights.Line() for i in range(count)]

    while at < len(data):
        book = stored() or book
        record = stored()
        lines = listed(number()) if number() else lines
        if number():
            listed(len(lines))
        yield book, record, lines


def seen_lists(data):
    """The answers, and the lines that are not as they were; bytes that are no record, or more than one, are left out."""
    for image, record, lines in list_cases(data):
        if 0 < len(record) <= rights.RECORD.size:
            answer, _, after = rights.lent(rights.read(image)[1], record, lines)
            print(*answer)
            for line in (line for was, line in zip(lines, after) if line != was):
                print("used", line.content, line.times, line.seconds)


def main():
    what, name = sys.argv[1:]
    data = Path(name).read_bytes()
    if what == "seen":
        seen_days(data)
    elif what == "lists":
        seen_lists(data)
    else:
        for image in parts(data, 2):
            see(image)


if __name__ == "__main__":
    main()
