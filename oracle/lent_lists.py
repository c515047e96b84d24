"""Lists lent to events (order 3 of document 02): cases by hand, and random lists.

The run program lends its own list, so these are for the library, whose callers lend theirs. A case is a book, a record, the list that
it is lent, and the answer and the list after it, found by hand; the book after it, and all three of any other event and list, are
those of `rights.lent`. A list is told in words, each line with content, times and seconds: `1 0 0, 2 3 90`.

    python3 oracle/lent_lists.py

writes the cases as `crates/test_lists/data/lists.bin`, in the form that the program there tells, and their answers as its `stdout`.
"""

import dataclasses
from pathlib import Path

import rights
from rights import GREAT, LINES, Line, Player
from texts import book_of
from written_days import parts_of

CASES = []                  # (name, book, record, list, answer, list after)
MOST = GREAT - 1
WORD = 2 ** 64 - 1          # the greatest number of 64 bits


def plain(lines):
    """The numbers of each line."""
    return [(line.content, line.times, line.seconds) for line in lines]


def lines_of(words):
    return [Line(*map(int, part.split())) for part in words.split(",") if part.strip()]


# ---- Cases

def watching(switch=1):
    """Assets 1, 2 and 9 at time 1000; player 0 shows 2 under the tracked entry 0 since 990, player 1 shows 1 under entry 1, which is full
    with that. Player 0's begin was the last event taken."""
    book = book_of("1 inherits 9 key; 2 inherits 9 key; 9 | 9 play tracked 1 timed_value 30 mark 1 marks 1; 1 display threshold 1 marks 2; "
                   "2 print tracked 1 mark 1")
    book.time, book.switch, book.latest_player = 1000, switch, 1
    book.players[0] = Player(1, rights.BEGIN, 2, rights.PLAY, 0, 0, 1050, 1, 0, 990, 1050, 2)
    book.players[1] = Player(4, rights.BEGIN, 1, rights.DISPLAY, 0, 1, 1055, 1, 1, 995, 1055, 1)
    return book


def case(name, book, line, lent, left=None):
    """One event with its answer, as in written_days.py, or `HEX: ANSWER` for the bytes of a record. Without a list after it that one
    stays as it was."""
    if "." in line:
        event, answer, _, _ = parts_of(line)
        record = rights.encode(event)
    else:
        record, _, told = line.partition(":")
        record, answer = bytes.fromhex(record), rights.refused(int(told))
    CASES.append((name, book, record, lines_of(lent), answer, lines_of(lent if left is None else left)))


# Each event of the book above, with a good list: its answer, and what the lines of 1, 2 and 9 gain, in times and seconds.
EVENTS = [
    ("a stop", "0.2 stop 1020: 0 0 1020", {2: (1, 30)}),
    ("a stop one second before the timed value", "0.2 stop 1019: 0 0 1019", {2: (0, 29)}),
    ("a use that is over", "2.1 stop 1050: 14", {2: (1, 60)}),
    ("a stop of an untracked entry", "1.5 stop 1020: 0 1 1020", {}),
    ("a print", "2.1 begin 2 print 1001: 0 2 1001", {2: (1, 0)}),
    ("a print once the other use is over", "0.2 begin 2 print 1050: 0 2 1050", {2: (2, 60)}),
    ("a begin", "2.1 begin 1 play 1001: 0 0 1061", {}),
    ("a continue", "0.2 continue 1001: 0 0 1061", {}),
    ("no such asset", "2.1 begin 3 play 1001: 10", {}),
    ("something open", "0.2 begin 1 play 1001: 11", {}),
    ("nothing suitable", "2.1 begin 1 execute 1001: 12", {}),
    ("a full entry", "2.1 begin 1 display 1001: 13", {}),
    ("a full entry as its use ends", "2.1 begin 1 display 1055: 0 1 1115", {2: (1, 60)}),
    ("a continue of an untracked entry", "1.5 continue 1000: 0 1 1060", {}),
    ("a cancel", "0.2 cancel 1049: 0 0 990", {}),
    ("a cancel of one that was not taken last", "1.5 cancel 1020: 44", {}),
    ("a cancel of a use that is over", "0.2 cancel 1050: 14", {2: (1, 60)}),
    ("a cancel with nothing open", "2.1 cancel 1020: 14", {}),
    ("a cancel of an asset", "00 0000000000000002 04 0001 00 000003fc: 1", {}),
    ("a resend", "0.1 begin 2 play 2000: 0 0 1050", {}),
    ("a number used for something else", "0.1 stop 2000: 4", {}),
    ("a number out of line", "0.3 stop 2000: 3", {}),
    ("a time that goes back", "0.2 stop 999: 5", {}),
    ("no such player", "16.1 stop 2000: 2", {}),
    ("a bad request", "00 0000000000000002 03 0001 00 000007d0: 1", {}),
    ("counter 1 of a greater boot number", "0.3.1 stop 1020: 0 0 1020", {2: (1, 30)}),
    ("counter 2 of a greater boot number", "0.1.2 stop 1020: 3", {}),
    ("no record", ": 6", {}),
    ("a record of 13 bytes", "00 00000002 03 0000 00 000007d0: 6", {}),
    ("a record of 16 bytes", "00 0000000000000002 03 0000 00 0007d0: 6", {}),
    ("a record of 18 bytes", "00 0000000000000002 03 0000 00 000007d0 00: 6", {})]

GOOD = [
    ("the assets alone", "1 0 0, 2 0 0, 9 0 0"),
    ("numbers from before", "1 5 100, 2 7 200, 9 1 60"),
    ("one further line", "1 0 0, 2 0 0, 9 0 0, 4 1 2"),
    ("further lines with any names, those of assets too", "1 0 0, 2 0 0, 9 0 0, 2 6 7, 0 0 0, 1 1 1, 2 0 0, 70000 3 3"),
    ("64 lines", "1 0 0, 2 0 0, 9 0 0" + ", 2 1 1" * 61),
    ("the greatest numbers that may be lent", f"1 {MOST} {MOST}, 2 {MOST} {MOST}, 9 {MOST} {MOST}, {MOST} {MOST} {MOST}")]

BAD = [
    ("no line", ""),
    ("a line too few", "1 0 0, 2 0 0"),
    ("65 lines", "1 0 0, 2 0 0, 9 0 0" + ", 2 1 1" * 62),
    ("200 lines", "1 0 0, 2 0 0, 9 0 0" + ", 2 1 1" * 197),
    ("another order", "2 0 0, 1 0 0, 9 0 0"),
    ("the order of the numbers, not of the book", "9 0 0, 1 0 0, 2 0 0"),
    ("a wrong first name", "3 0 0, 2 0 0, 9 0 0"),
    ("a wrong last name", "1 0 0, 2 0 0, 8 0 0"),
    ("a name missing between", "1 0 0, 9 0 0, 2 0 0"),
    ("a name 0", "1 0 0, 0 0 0, 9 0 0"),
    ("a name alike in its lower 16 bits", "1 0 0, 65538 0 0, 9 0 0"),
    ("a name alike in its lower 32 bits", "1 0 0, 4294967298 0 0, 9 0 0"),
    ("the names one line too late", "0 0 0, 1 0 0, 2 0 0, 9 0 0")]


def too_great(how, number):
    """Lists with one such number, in each place."""
    return [
        (f"{how} times in the first line", f"1 {number} 0, 2 0 0, 9 0 0"),
        (f"{how} seconds in the first line", f"1 0 {number}, 2 0 0, 9 0 0"),
        (f"{how} times in the third line", f"1 0 0, 2 0 0, 9 {number} 0"),
        (f"{how} seconds in the third line", f"1 0 0, 2 0 0, 9 0 {number}"),
        (f"{how} times in a further line", f"1 0 0, 2 0 0, 9 0 0, 4 {number} 0"),
        (f"{how} seconds in a further line", f"1 0 0, 2 0 0, 9 0 0, 4 0 0, 4 0 {number}"),
        (f"a further line named {how}", f"1 0 0, 2 0 0, 9 0 0, {number} 0 0"),
        (f"{how} in the last of 64 lines", "1 0 0, 2 0 0, 9 0 0" + ", 2 1 1" * 60 + f", 2 1 {number}")]


def gained(words, gains):
    """The list after an event: its first three lines with what their contents gain."""
    lines = lines_of(words)
    for line in lines[:3]:
        times, seconds = gains.get(line.content, (0, 0))
        line.times, line.seconds = line.times + times, line.seconds + seconds
    return ", ".join(f"{line.content} {line.times} {line.seconds}" for line in lines)


def good_lists():
    for what, line, gains in EVENTS:
        for how, lent in GOOD:
            case(f"{what}; {how}", watching(), line, lent, gained(lent, gains))
            case(f"{what}, switch off; {how}", watching(switch=0), line, lent)


def bad_lists():
    """30 before all checks, whatever the event and the switch."""
    bad = BAD + too_great("2 to the 62", GREAT) + too_great("2 to the 63", 2 ** 63) + too_great("2 to the 64 less 1", WORD)
    for what, line, _ in EVENTS:
        for how, lent in bad:
            told = line.split(":")[0] + ": 30"
            case(f"{what}; {how}", watching(), told, lent)
            case(f"{what}, switch off; {how}", watching(switch=0), told, lent)


def other_books():
    empty, many = book_of("|"), book_of("; ".join(f"{100 + i} key" for i in range(64)) + " | 163 print tracked 1")
    many.switch = 1
    names = ", ".join(f"{100 + i} 0 0" for i in range(64))
    for lent in ("", "0 0 0", "5 1 2" + ", 0 0 0" * 63):
        case(f"no assets, {len(lines_of(lent))} lines", empty, "0.1 begin 1 play 0: 10", lent)
    case("no assets, 65 lines", empty, "0.1 begin 1 play 0: 30", "5 1 2" + ", 0 0 0" * 64)
    case("no assets, a number of 2 to the 62", empty, "0.1 begin 1 play 0: 30", f"0 {GREAT} 0")
    case("64 assets and as many lines", many, "0.1 begin 163 print 5: 0 0 5", names, names[:-3] + "1 0")
    case("64 assets, a line too few", many, "0.1 begin 163 print 5: 30", names.rpartition(",")[0])
    case("64 assets, a line too many", many, "0.1 begin 163 print 5: 30", names + ", 0 0 0")
    case("64 assets, the last name wrong", many, "0.1 begin 163 print 5: 30", names.replace("163 0", "164 0"))
    case("64 assets, 2 to the 62 in the last line", many, "0.1 begin 163 print 5: 30", names[:-1] + str(GREAT))


def cases():
    if not CASES:
        for group in (good_lists, bad_lists, other_books):
            group()
    return CASES


def check():
    """The rules of rights.py give every case its answer and its list, and leave the book where they say 30. Returns how many."""
    for name, book, record, lines, answer, left in cases():
        got, after, lines_after = rights.lent(book, record, lines)
        assert got == answer, f"{name}: {answer} by hand, {got} by the second program"
        assert lines_after == left, f"{name}: {plain(left)} by hand, {plain(lines_after)} by the second program"
        assert answer[0] != 30 or after == book, f"{name}: the book has changed"
    return len(CASES)


# ---- Random lists

def random_list(rng, book, handed):
    """A list for the next event of this book: mostly those lines that the last event left, or others that may be lent, or a bad one."""
    lines = [dataclasses.replace(line) for line in handed[:rng.randint(len(book.assets), LINES)]]
    if rng.random() < 0.3:
        for line in lines:
            line.times, line.seconds = rng.choice((0, 1, MOST, rng.randrange(GREAT))), rng.choice((0, 1, MOST, rng.randrange(GREAT)))
    while rng.random() < 0.5 and len(lines) < LINES:
        lines.append(Line(rng.choice((0, 1, 9, MOST)), rng.choice((0, 7, MOST)), rng.choice((0, 7, MOST))))
    if rng.random() < 0.2:
        spoil(rng, lines)
    return lines


def spoil(rng, lines):
    """Mostly makes a list that gets 30."""
    way = rng.choice(("short", "long", "names", "order", "number", "number"))
    if way == "short" and lines:
        del lines[rng.randrange(len(lines)):]
    elif way == "long":
        lines += [Line() for _ in range(LINES + 1 - len(lines))]
    elif way == "names" and lines:
        rng.choice(lines).content = rng.choice((0, 1, 2, 9, 65_537))
    elif way == "order" and lines:
        lines.append(lines.pop(rng.randrange(len(lines))))
    elif lines:
        setattr(rng.choice(lines), rng.choice(("content", "times", "seconds")), rng.choice((GREAT, 2 ** 63, WORD, MOST)))


# ---- The stored lists

STORED = Path(__file__).resolve().parent.parent / "crates" / "test_lists"


def number32(number):
    return number.to_bytes(4, "big")


def list_bytes(lines):
    """The first 64 lines."""
    return b"".join(number.to_bytes(8, "big") for line in plain(lines[:LINES]) for number in line)


def stored():
    """The cases as bytes, those of a book and of a list together, and the text of their answers."""
    data, text, before, held = b"", "", None, None
    for _, book, record, lines, answer, left in sorted(cases(), key=lambda case: (rights.write(case[1]), plain(case[3]))):
        image = rights.write(book)
        data += number32(0) if image == before else number32(len(image)) + image
        data += number32(len(record)) + record
        data += number32(0) if lines == held else number32(1) + number32(len(lines)) + list_bytes(lines)
        data += number32(0) if left == lines else number32(1) + list_bytes(left)
        text += "%d %d %d\n" % answer
        before, held = image, lines
    return data, text


def main():
    count = check()
    data, text = stored()
    (STORED / "data").mkdir(parents=True, exist_ok=True)
    (STORED / "data" / "lists.bin").write_bytes(data)
    (STORED / "stdout").write_text(text)
    print(f"{count} lists by hand, {len(data)} bytes")


if __name__ == "__main__":
    main()
