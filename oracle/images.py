"""Makes the stored image cases: python3 oracle/images.py

Each case is a base book or its image with a few small edits, and the answer that documents 01 and 02 give, which is
written here by hand. The reader of rights.py must agree with every one of them, or nothing is written. A case is made of each version
that can say it; an older image that is accepted is written back as the newest, widened with zeros and with the marks of its open uses.
The script writes

  crates/test_images/data/cases.bin   for each case its length in 16 bits, big-endian, then its bytes, to the end of file
  crates/test_images/stdout           for each case one line: the number of a refusal, or 0, a space, and the bytes that
                                 the book read from it is written back as, in hexadecimal
  crates/bench_image/data/full.rbk  one image of the greatest size; crates/bench_image/stdout  its answer and its length
  oracle/images.txt              for each case its answer, its length, its version, its name, its base and its edits

Edits are words: `time N`; `switch N`; `latest_player N`; `latest_started N`; `asset I FIELD N`, `entry I FIELD N` and `player I FIELD N`
set a field of a record; `entry I limits ..` and `use ..` set several (see below); `drop asset I` removes an asset; `byte I N` and
`length N` (cut, or padded with 0) change the image made so far. An entry's marks are those of the players that have it open;
`entry I marks N` makes them others.
"""

from pathlib import Path

import rights
from rights import Asset, Book, Entry, Player

HERE = Path(__file__).resolve().parent
CRATES = HERE.parent / "crates"


# ---- Base books

def empty():
    return Book()


def bare():
    """One asset with one play entry without flags, time 100."""
    return Book(100, [Asset(1, 0, 1)], [Entry(1, 1, 1)])


def uneven():
    """Three assets and one entry."""
    book = bare()
    book.assets += [Asset(2, 9, 1), Asset(9, 0, 0)]
    return book


def crowded():
    """One asset and two entries."""
    book = bare()
    book.entries.append(Entry(2, 1, 2))
    return book


def limited():
    """The same with every flag and nothing used."""
    book = bare()
    book.entries = [Entry(1, 1, 1, 63, 10, 10, 10, 50, 200, 100, 100)]
    return book


def printing():
    """The same with a print entry, every flag but accumulated."""
    book = bare()
    book.entries = [Entry(1, 1, 4, 31, 10, 10, 0, 50, 200, 100)]
    return book


def showing():
    """The bare book with player 0 in the middle of a use, [90, 130)."""
    book = bare()
    book.players[0] = Player(1, 1, 1, 1, 0, 0, 130, 1, 0, 90, 130, 1)
    return book


def showing_beside_zero():
    """The same with a second entry, every flag and every limit 0."""
    book = showing()
    book.entries.append(Entry(1, 1, 1, 63))
    return book


def busy():
    """Four assets and four entries at time 10,000, three open uses (two of them on entry 0), a stop, a refusal."""
    book = Book(10_000)
    book.assets = [Asset(1, 9, 1), Asset(2, 9, 1), Asset(9, 0, 0), Asset(7, 9, 0)]
    book.entries = [
        Entry(1, 9, 1, 63, 5, 4, 30, 5_000, 20_000, 3_000, 1_000, 3, 2, 9_000, 200, 1),
        Entry(1, 1, 2),
        Entry(2, 1, 4, 31, 5, 4, 0, 5_000, 20_000, 3_000, 0, 1, 1, 9_500, 0, 1),
        Entry(3, 2, 3)]
    book.players[0] = Player(3, 3, 0, 0, 0, 0, 9_990)
    book.players[1] = Player(1, 1, 1, 1, 0, 0, 10_040, 1, 0, 9_980, 10_040, 1)
    book.players[2] = Player(7, 2, 0, 0, 0, 0, 10_050, 1, 0, 9_950, 10_050, 2)
    book.players[3] = Player(2, 1, 7, 1, 10, 255, 0)
    book.players[4] = Player(1, 1, 1, 2, 0, 1, 10_059, 1, 1, 9_999, 10_059, 1)
    return book


def full():
    """64 assets, 64 entries and 16 open uses at the latest time: an image of the greatest size."""
    book = Book(rights.LATEST)
    book.assets = [Asset(1000 + i, 1000 + i // 2, i % 2) for i in range(64)]
    for i in range(64):
        book.entries.append(Entry(65_535 - i, 1000 + i, 1 + i % 3, 63, 1_000_000, 999_000 + i, 1_000_000 - i,
                                  3_999_000_000 + i, rights.LATEST, 100_000_000, 100_000_000 - i,
                                  500_000 + i, 400_000 + i, 3_999_999_000 + i, 90_000_000 + i, 1))
    for i in range(16):
        begin = 3_999_999_990 + i % 10
        book.players[i] = Player(4_294_967_295 - i, 1, 1001, 1 + i % 3, 0, 63 - i, 4_000_000_001,
                                 1, 63 - i, begin, 4_000_000_001, 1001 + 2 * i)
    return book


def watching():
    """The book `showing` with two more assets; its entry is tracked and the switch is on."""
    book = showing()
    book.assets += [Asset(9, 0, 0), Asset(300, 9, 0)]
    book.switch, book.entries[0].tracked, book.entries[0].timed_value = 1, 1, 30
    return book


def full_and_tracked():
    """The book `full` with every field that version 2 adds as great as may be."""
    book = full()
    book.switch = 1
    for entry in book.entries:
        entry.tracked, entry.timed_value, entry.mark = 1, 4_294_967_295, 1
    return book


def full_and_long():
    """The same with the greatest numbers of 64 bits."""
    book = full_and_tracked()
    for i, player in enumerate(book.players):
        player.number = 2 ** 64 - 1 - i
    return book


def sharing():
    """The bare book with the entry open by players 0, 7 and 15: marks 1 + 128 + 32,768."""
    book = bare()
    for i in (0, 7, 15):
        book.players[i] = Player(1, 1, 1, 1, 0, 0, 130, 1, 0, 90, 130, 1)
    return book


def full_and_shared():
    """The book `full_and_long` with the greatest thresholds."""
    book = full_and_long()
    for entry in book.entries:
        entry.threshold = 16
    return book


def started():
    """Two play entries with an interval of 100 at time 100. Player 0 has begun the first one at 90 and started its interval with that;
    player 2 has a use of the other open, begun in the second in which that one's interval started; player 1 has stopped, player 3 was
    refused."""
    book = Book(100, [Asset(1, 0, 1)])
    book.entries = [Entry(1, 1, 1, 16, interval=100, first=90, started=1), Entry(1, 1, 1, 16, interval=100, first=80, started=1)]
    book.players[0] = Player(1, 1, 1, 1, 0, 0, 130, 1, 0, 90, 130, 1)
    book.players[1] = Player(4, 3, 0, 0, 0, 1, 85)
    book.players[2] = Player(1, 1, 1, 1, 0, 1, 130, 1, 1, 80, 130, 1)
    book.players[3] = Player(2, 1, 7, 1, 10, 255, 0)
    return book


def full_and_last():
    """The book `full_and_shared` with the last player's begin as the last event taken, which has started its interval."""
    book = full_and_shared()
    book.latest_player, book.latest_started = 16, 1
    book.entries[48].first = book.players[15].begin
    return book


# ---- Edits

ENTRY_LIMITS = ("count", "timed", "timer", "start", "end", "interval", "accumulated")


def image(version, base, edits):
    """The image of a base book after its edits."""
    told = [part.split() for part in edits.split(";") if part.strip()]
    assert told == sorted(told, key=stage), "edits of marks come behind the others of the book, edits of bytes last"
    book = base()
    for words in told:
        if stage(words) == 0:
            edit_book(book, words[0], words[1:])
    mark(book)
    for words in told:
        if stage(words) == 1:
            edit_book(book, words[0], words[1:])
    data = rights.write(book, version)
    for words in told:
        if stage(words) == 2:
            data = edited_bytes(data, words[0], [int(n) for n in words[1:]])
    return data


def stage(words):
    """Of an edit: 0 for one of the book, 1 for one of marks, 2 for one of bytes."""
    return 2 if words[0] in ("byte", "length") else 1 if words[2:3] == ["marks"] else 0


def mark(book):
    """Sets the mark of each open use."""
    for p, player in enumerate(book.players):
        if player.open and player.open_entry < len(book.entries):
            book.entries[player.open_entry].marks |= 1 << p


# Of an older version: the header behind its first 11 bytes, an entry, a player.
WIDTHS = {1: (0, 51, 24), 2: (4, 63, 28), 3: (4, 63, 32), 4: (4, 71, 32)}


def widened(data):
    """An image of an older version as one of version 5, without a look at the book: the added fields are 0 but an entry's last one, which
    has a bit for each player that has the entry open; and 32 zero bits stand in front of each player's number before version 3."""
    header, entry, player = WIDTHS[data[4]]
    assets, front = 11 + header, bytes(0 if data[4] >= 3 else 4)
    entries = assets + 5 * data[5]
    players = entries + entry * data[6]
    records = [(front + data[at:at + player]).ljust(32, b"\0") for at in range(players, len(data), player)]
    parts = [data[:4] + b"\5" + data[5:11] + data[11:assets].ljust(12, b"\0") + data[assets:entries]]
    for place in range(data[6]):
        at, marks = entries + entry * place, sum(1 << p for p, record in enumerate(records) if record[18] and record[19] == place)
        parts.append(data[at:at + entry].ljust(67, b"\0")[:67] + marks.to_bytes(4, "big"))
    return b"".join(parts + records)


def edited_bytes(data, word, numbers):
    if word == "length":
        return data[:numbers[0]].ljust(numbers[0], b"\0")
    at, value = numbers
    assert data[at] != value, "an edit changes something"
    return data[:at] + bytes([value]) + data[at + 1:]


def edit_book(book, word, rest):
    if word in ("time", "switch", "latest_player", "latest_started"):
        assert getattr(book, word) != int(rest[0]), f"{word} {rest}: an edit changes something"
        setattr(book, word, int(rest[0]))
        return
    if word == "drop":
        del book.assets[int(rest[1])]
        return
    if word == "use":        # use PLAYER ENTRY BEGIN UNTIL: that player has sent a begin and has the use open
        index, entry, begin, until = map(int, rest)
        book.players[index] = Player(1, 1, 1, 1, 0, entry, until, 1, entry, begin, until)
        return
    records = {"asset": book.assets, "entry": book.entries, "player": book.players}[word]
    index, name, values = int(rest[0]), rest[1], [int(n) for n in rest[2:]]
    record = records[index]
    if name == "limits":     # entry I limits FLAGS, then the seven limits
        record.flags, *values = values
        for limit, value in zip(ENTRY_LIMITS, values, strict=True):
            setattr(record, limit, value)
        return
    assert getattr(record, name) != values[0], f"{word} {rest}: an edit changes something"
    setattr(record, name, values[0])


# ---- The cases: answer, name, version, base, edits; GROUPS below has all of them

CASES = []
# Versions that have what a case speaks of: any, those with tracks, with long numbers, with thresholds and marks, with what was taken last.
ALL, TRACKS, LONG, SHARED, LAST = (5, 4, 3, 2, 1), (5, 4, 3, 2), (5, 4, 3), (5, 4), (5,)
APART = (5, 4, 2, 1)        # without entries, images of versions 3 and 4 differ in the version alone


def case(answer, name, base, edits="", versions=ALL):
    CASES.extend((answer, name, version, base, edits) for version in versions)


def good_books():
    case(0, "the empty book", empty)
    case(0, "one entry without flags", bare)
    case(0, "one entry with every flag", limited)
    case(0, "three assets, one entry", uneven)
    case(0, "one asset, two entries", crowded)
    case(0, "one print entry", printing)
    case(0, "one open use", showing)
    case(0, "several players on one entry", busy)
    case(0, "64 assets, 64 entries, 16 open uses", full)


# The length of an image of `empty`, of `busy` and of the greatest size; with 65 assets alone, with 65 entries alone.
SIZES = {1: (395, 619, 3979, 720, 3710), 2: (463, 735, 4815, 788, 4558), 3: (527, 799, 4879, 852, 4622), 4: (527, 831, 5391, 852, 5142),
         5: (535, 839, 5399, 860, 5150)}


def header():
    for length in (0, 1):
        case(20, f"{length} bytes", empty, f"length {length}", LAST)
    case(20, "10 bytes", empty, "length 10")
    case(20, "the header's first 11 bytes alone", empty, "length 11")
    case(20, "the header's first 11 bytes alone, with counts", busy, "length 11")
    case(20, "the header alone", empty, "length 15", (4, 3, 2))
    for length in (12, 15, 19, 22, 23, 24):
        case(20, f"{length} bytes, the header has 23", empty, f"length {length}", LAST)
    for version, (least, middle, most, _, _) in SIZES.items():
        for base, size in ((empty, least), (busy, middle), (full, most)):
            case(20, f"{base.__name__}, one byte short", base, f"length {size - 1}", (version,))
            case(20, f"{base.__name__}, one byte long", base, f"length {size + 1}", (version,))
            case(20, f"{base.__name__}, 10,000 bytes", base, "length 10000", (version,))
            for other, sizes in SIZES.items():
                if size not in sizes[:3] and (base is not empty or version in APART):
                    case(20, f"{base.__name__}, the length of version {version}", base, f"byte 4 {other}", (version,))
    case(20, "an asset too few for its count", bare, "byte 5 2")
    case(20, "an asset too many for its count", bare, "byte 5 0")
    case(20, "an entry too few for its count", bare, "byte 6 2")
    case(20, "an entry too many for its count", bare, "byte 6 0")
    case(21, "first mark byte", empty, "byte 0 114")
    case(21, "second mark byte", empty, "byte 1 0")
    case(21, "third mark byte", empty, "byte 2 76")
    case(21, "mark of an image of 11 bytes", empty, "byte 0 0; length 11")
    case(21, "mark of 10,000 bytes", empty, "byte 2 0; length 10000")
    case(22, "version 0", empty, "byte 4 0", APART)
    case(22, "version 6", empty, "byte 4 6", APART)
    case(22, "version 255", empty, "byte 4 255", APART)
    case(22, "256 more than its version", empty, "byte 3 1")
    case(22, "version 256", empty, "byte 3 1; byte 4 0", APART)
    for high in (2, 3, 4, 5):
        case(22, f"version {256 * high}", empty, f"byte 3 {high}; byte 4 0", LAST)
    case(23, "65 assets, header alone", empty, "byte 5 65; length 11")
    for version, (_, _, _, many_assets, many_entries) in SIZES.items():
        case(23, "65 assets, of the fitting length", empty, f"byte 5 65; length {many_assets}", (version,))
        case(23, "65 entries, of the fitting length", empty, f"byte 6 65; length {many_entries}", (version,))
    case(23, "255 assets", empty, "byte 5 255")
    case(23, "255 entries", empty, "byte 6 255")
    case(23, "time 4,000,000,001", empty, "time 4000000001")
    case(23, "time 4,294,967,295", empty, "time 4294967295")
    case(0, "time 4,000,000,000", empty, "time 4000000000")


def assets():
    case(24, "asset number 0", bare, "asset 0 number 0")
    case(24, "asset number 0 in the last place", full, "asset 63 number 0")
    case(24, "asset number twice, side by side", busy, "asset 1 number 1")
    case(24, "asset number twice, first and last", full, "asset 63 number 1000")
    case(24, "asset number twice, last two", full, "asset 62 number 1063")
    case(24, "key 2", bare, "asset 0 key 2")
    case(24, "key 255 in the last place", busy, "asset 3 key 255")
    case(0, "number 65,535", busy, "asset 3 number 65535; asset 3 inherit 65535")
    case(0, "inherit not in the book", bare, "asset 0 inherit 2")
    case(0, "inherit is the asset itself", bare, "asset 0 inherit 1")
    case(0, "inherit from an asset with a key", busy, "asset 0 inherit 2")
    case(0, "inherit from an illegal asset", busy, "asset 0 inherit 7")
    case(0, "entry of an illegal asset", busy, "entry 3 asset 7")
    case(0, "entry of a parent", bare, "asset 0 key 0")
    case(0, "numbers apart by their high byte only", busy, "asset 3 number 257")


def entries():
    case(25, "rights object 0", bare, "entry 0 object 0")
    case(0, "rights object 65,535", bare, "entry 0 object 65535")
    case(25, "asset not in the book", bare, "entry 0 asset 2")
    case(25, "asset of the book by its low byte only", bare, "entry 0 asset 257")
    case(25, "asset 0", bare, "entry 0 asset 0")
    case(25, "entry in a book without assets", bare, "drop asset 0")
    for kind in (0, 6, 255):
        case(25, f"kind {kind}", bare, f"entry 0 kind {kind}")
    for kind in (2, 3, 4, 5):
        case(0, f"kind {kind}", bare, f"entry 0 kind {kind}")
    for flags in (64, 128, 255):
        case(25, f"flags {flags}", bare, f"entry 0 flags {flags}")
    case(25, "flags 127, limits in order", limited, "entry 0 flags 127")
    case(25, "last of 64 entries", full, "entry 63 object 0")
    # Start is bounded by the base's end, 200, and end by its start, 50: equal is accepted, one beyond is not.
    bounds = [
        ("count", 1, 0, 1_000_000), ("timed", 2, 0, 1_000_000), ("timer", 2, 0, 1_000_000), ("start", 4, 0, 200),
        ("end", 8, 50, 4_000_000_000), ("interval", 16, 0, 100_000_000), ("accumulated", 32, 0, 100_000_000)]
    for limit, _, least, greatest in bounds:
        case(0, f"{limit} {least}", limited, f"entry 0 {limit} {least}")
        case(0, f"{limit} {greatest}", limited, f"entry 0 {limit} {greatest}")
        if least:
            case(25, f"{limit} {least - 1}", limited, f"entry 0 {limit} {least - 1}")
        case(25, f"{limit} {greatest + 1}", limited, f"entry 0 {limit} {greatest + 1}")
        case(25, f"{limit} 4,294,967,295", limited, f"entry 0 {limit} 4294967295")
    for limit in ("count", "timed", "interval", "accumulated"):
        case(0, f"{limit} 1", limited, f"entry 0 {limit} 1")
    for limit, flag, _, _ in bounds:
        case(25, f"{limit} without its flag, no other flagged", bare, f"entry 0 {limit} 1")
        case(25, f"{limit} without its flag, all others flagged", limited, f"entry 0 flags {63 - flag}" + (
            "; entry 0 timer 0" if limit == "timed" else "; entry 0 timed 0" if limit == "timer" else ""))
    case(0, "no accumulated, all others flagged", limited, "entry 0 flags 31; entry 0 accumulated 0")
    case(0, "no timed count and no timer, all others flagged", limited, "entry 0 flags 61; entry 0 timed 0; entry 0 timer 0")
    case(0, "start and no end, start 4,000,000,000", bare, "entry 0 flags 4; entry 0 start 4000000000")
    case(25, "start and no end, start 4,000,000,001", bare, "entry 0 flags 4; entry 0 start 4000000001")
    case(0, "end and no start, end 0", bare, "entry 0 flags 8")
    case(25, "end and no start, end 4,000,000,001", bare, "entry 0 flags 8; entry 0 end 4000000001")
    case(25, "print with accumulated", printing, "entry 0 flags 63; entry 0 accumulated 1")
    case(25, "export with accumulated", bare, "entry 0 kind 5; entry 0 flags 32; entry 0 accumulated 1")
    case(25, "print with a timer", printing, "entry 0 timer 1")
    case(25, "export with a timer", printing, "entry 0 kind 5; entry 0 timer 1")
    case(0, "export with timed count and timer 0", printing, "entry 0 kind 5")


# Order 2 of document 02: the four limits that may be 0, with their flags; three of them with their meters and what the open use of
# the book `showing` has used.
MAY_BE_ZERO = (("count", 1), ("timed", 2), ("interval", 16), ("accumulated", 32))
METERED = (("count", 1, "used_count", 1), ("timed", 2, "used_timed", 1), ("accumulated", 32, "used_seconds", 40))
MOST_OF = (("count", 1, 1_000_000), ("timed", 2, 1_000_000), ("timer", 2, 1_000_000), ("start", 4, 4_000_000_000),
           ("end", 8, 4_000_000_000), ("interval", 16, 100_000_000), ("accumulated", 32, 100_000_000))


def limits_of_zero():
    for limit, flag in MAY_BE_ZERO:
        case(0, f"{limit} 0, no other flagged", bare, f"entry 0 flags {flag}")
        for kind in (2, 3):
            case(0, f"{limit} 0, kind {kind}", bare, f"entry 0 kind {kind}; entry 0 flags {flag}")
        for kind in (4, 5):
            case(25 if limit == "accumulated" else 0, f"{limit} 0, kind {kind}", bare, f"entry 0 kind {kind}; entry 0 flags {flag}")
        case(0, f"{limit} 0 in the second entry", crowded, f"entry 1 flags {flag}")
        case(0, f"{limit} 0 of a parent", uneven, f"entry 0 asset 9; entry 0 flags {flag}")
        case(0, f"{limit} 0 with dates", bare, f"entry 0 flags {flag + 12}; entry 0 start 50; entry 0 end 200")
        case(0, f"{limit} 0 with dates of 0", bare, f"entry 0 flags {flag + 12}")
        case(25, f"{limit} 0, start after end", bare, f"entry 0 flags {flag + 12}; entry 0 start 1")
    case(0, "timed 0, timer 1,000,000", bare, "entry 0 flags 2; entry 0 timer 1000000")
    case(25, "timed 0 with a timer, print", bare, "entry 0 kind 4; entry 0 flags 2; entry 0 timer 1")
    case(0, "all four 0", limited, "entry 0 count 0; entry 0 timed 0; entry 0 interval 0; entry 0 accumulated 0")
    case(0, "every flag, every limit 0", bare, "entry 0 flags 63")
    case(0, "every flag but accumulated, every limit 0, print", bare, "entry 0 kind 4; entry 0 flags 31")
    case(25, "every flag, every limit 0, print", bare, "entry 0 kind 4; entry 0 flags 63")
    case(25, "flag 64 too, every limit 0", bare, "entry 0 flags 127")
    case(0, "all four 0 in a book of the greatest size", full,
         "entry 40 count 0; entry 40 timed 0; entry 40 interval 0; entry 40 accumulated 0; entry 40 used_count 0; "
         "entry 40 used_timed 0; entry 40 used_seconds 0")
    for limit, flag, greatest in MOST_OF:
        end = "; entry 0 end 4000000000" if limit == "start" else ""
        case(0, f"{limit} at its greatest, every other limit 0", bare, f"entry 0 flags 63; entry 0 {limit} {greatest}{end}")
        case(25, f"{limit} above its greatest, every other limit 0", bare, f"entry 0 flags 63; entry 0 {limit} {greatest + 1}{end}")
        case(25, f"{limit} 1 without its flag, every other limit 0", bare, f"entry 0 flags {63 - flag}; entry 0 {limit} 1{end}")
    case(25, "timed 0, timer 1,000,001", bare, "entry 0 flags 2; entry 0 timer 1000001")
    zero_meters()


def all_but(meter):
    """Edits of the book `limited`: every other meter at its limit."""
    used = (("used_count", 10), ("used_timed", 10), ("used_seconds", 100), ("started", 1), ("first", 100))
    return "".join(f"; entry 0 {each} {most}" for each, most in used if each != meter)


def zero_meters():
    for limit, flag, meter, need in METERED:
        case(27, f"{meter} 1 of 0", bare, f"entry 0 flags {flag}; entry 0 {meter} 1")
        case(27, f"{meter} 4,294,967,295 of 0", bare, f"entry 0 flags {flag}; entry 0 {meter} 4294967295")
        case(27, f"{meter} 1 of 0, all others at their limits", limited, f"entry 0 {limit} 0; entry 0 {meter} 1" + all_but(meter))
        case(27, f"an open use, {limit} 0", showing, f"entry 0 flags {flag}")
        case(27, f"an open use, {limit} 0, {meter} {need}", showing, f"entry 0 flags {flag}; entry 0 {meter} {need}")
        case(0, f"{limit} 0, all others at their limits", limited, f"entry 0 {limit} 0" + all_but(meter))
    ran = "entry 0 flags 16; entry 0 started 1"
    case(0, "interval 0, started at 0", bare, ran)
    case(0, "interval 0, started before the book's time", bare, ran + "; entry 0 first 60")
    case(0, "interval 0, started at the book's time", bare, ran + "; entry 0 first 100")
    case(27, "interval 0, started after the book's time", bare, ran + "; entry 0 first 101")
    case(27, "interval 0, started 2", bare, "entry 0 flags 16; entry 0 started 2")
    case(27, "interval 0, first without started", bare, "entry 0 flags 16; entry 0 first 60")
    case(0, "interval 0, started, print", bare, ran + "; entry 0 kind 4; entry 0 first 100")
    case(0, "interval 0, started, all others at their limits", limited, "entry 0 interval 0" + all_but("interval"))
    case(26, "open in an interval of 0 that has not started", showing, "entry 0 flags 16")
    for first in (0, 90, 99, 100):
        case(26, f"open in an interval of 0 that started at {first}", showing, ran + (f"; entry 0 first {first}" if first else ""))
    case(26, "open in an interval of 0, begin and first at the book's time", showing, ran + "; entry 0 first 100; player 0 begin 100")
    case(26, "open in an interval of 0, first at until", showing, ran + "; entry 0 first 130")
    case(26, "open in an interval of 0, started 2", showing, "entry 0 flags 16; entry 0 started 2; entry 0 first 90")
    case(26, "open in an interval of 0, and used_count above its limit", showing,
         "entry 0 flags 17; entry 0 started 1; entry 0 first 90; entry 0 used_count 1")
    case(26, "interval 0 of the last of 64 entries, which is open", full, "entry 63 interval 0")
    case(0, "an open use of the entry beside one of every limit 0", showing_beside_zero)
    asked = "entry 0 flags 1; player 0 number 1; player 0 operation 1; player 0 asset 1; player 0 kind 1"
    case(0, "a stored grant of an entry with count 0", bare, asked)
    case(0, "a stored 13 in a book of count 0", bare, asked + "; player 0 code 13; player 0 entry 255")


def players():
    for name in ("operation", "asset", "kind", "code", "entry", "answer_until", "open", "open_entry", "begin", "until"):
        case(26, f"number 0 and {name} 1", busy, f"player 5 {name} 1")
    case(26, "number 0 and a whole record behind it", busy, "player 4 number 0")
    case(26, "number 0 and a whole refusal behind it", busy, "player 3 number 0")
    case(26, "last player", full, "player 15 operation 0")
    case(0, "number 4,294,967,295", busy, "player 0 number 4294967295")
    case(26, "number 1 and nothing behind it", bare, "player 0 number 1")
    for operation in (0, 5, 255):
        case(26, f"operation {operation}", busy, f"player 0 operation {operation}")
    case(0, "operation 4", busy, "player 0 operation 4")
    case(0, "operation 4 beside an open use", busy, "player 2 operation 4")
    case(26, "operation 4 that was a begin", busy, "player 3 operation 4")
    case(26, "operation 5, refused with 44", busy, "player 0 operation 5; player 0 code 44; player 0 entry 255; player 0 answer_until 0")
    for kind in (0, 6, 255):
        case(26, f"kind {kind} in a begin", busy, f"player 3 kind {kind}")
    for kind in (2, 3, 4, 5):
        case(0, f"kind {kind} in a begin", busy, f"player 3 kind {kind}")
    case(26, "asset in a continue", busy, "player 2 asset 1")
    case(26, "asset 256 in a continue", busy, "player 2 asset 256")
    case(26, "kind in a continue", busy, "player 2 kind 1")
    case(26, "asset in a stop", busy, "player 0 asset 1")
    case(26, "kind in a stop", busy, "player 0 kind 1")
    for field, value in (("asset", 1), ("asset", 256), ("kind", 1), ("kind", 5)):
        case(26, f"{field} {value} in a cancel", busy, f"player 0 operation 4; player 0 {field} {value}")
    case(0, "begin for asset 0", busy, "player 3 asset 0")
    case(0, "begin for asset 65,535", busy, "player 3 asset 65535")
    for code in (1, 6, 9, 16, 30, 42, 45, 255):
        case(26, f"code {code}", busy, f"player 3 code {code}")
    for code in (11, 12, 13, 14, 15, 43, 44):
        case(0, f"code {code}", busy, f"player 3 code {code}")
    for code in (43, 44):
        case(26, f"code {code} with entry 0", busy, f"player 3 code {code}; player 3 entry 0")
        case(26, f"code {code} with until 1", busy, f"player 3 code {code}; player 3 answer_until 1")
    for code in (14, 44):
        case(0, f"a cancel with code {code}", busy,
             f"player 0 operation 4; player 0 code {code}; player 0 entry 255; player 0 answer_until 0")
    case(0, "granted entry is the last position", busy, "player 0 entry 3")
    case(26, "granted entry one past the last", busy, "player 0 entry 4")
    case(26, "granted entry 255", busy, "player 0 entry 255")
    case(26, "granted entry in a book without entries", empty, "player 0 number 1; player 0 operation 3")
    case(0, "refusal in a book without entries",
         empty, "player 0 number 1; player 0 operation 3; player 0 code 14; player 0 entry 255")
    case(26, "refusal with entry 0", busy, "player 3 entry 0")
    case(26, "refusal with entry 254", busy, "player 3 entry 254")
    case(26, "refusal with until 1", busy, "player 3 answer_until 1")
    case(0, "granted until 4,294,967,295", busy, "player 0 answer_until 4294967295")
    case(0, "granted until 0", busy, "player 0 answer_until 0")
    odd_but_good_records()
    open_records()


def odd_but_good_records():
    """No event produces these, but they break no rule."""
    case(0, "a stop with code 10", busy, "player 0 code 10; player 0 entry 255; player 0 answer_until 0")
    case(0, "a stop with code 13", busy, "player 0 code 13; player 0 entry 255; player 0 answer_until 0")
    case(0, "an open use beside a granted stop", busy, "player 1 operation 3; player 1 asset 0; player 1 kind 0")
    case(0, "an open use beside code 14", busy, "player 1 code 14; player 1 entry 255; player 1 answer_until 0")
    case(0, "granted entry of another kind", busy, "player 1 entry 2")
    case(0, "open entry other than the granted one", busy, "player 1 entry 3")
    case(0, "open entry of an illegal asset", busy, "entry 1 asset 7")


def open_records():
    case(26, "open 2", showing, "player 0 open 2")
    case(26, "open 255", showing, "player 0 open 255")
    case(26, "closed with its fields left", busy, "player 1 open 0")
    case(26, "closed with an open entry", busy, "player 0 open_entry 1")
    case(26, "closed with a begin", busy, "player 0 begin 1")
    case(26, "closed with an until", busy, "player 0 until 1")
    case(0, "begin at the book's time", showing, "player 0 begin 100")
    case(26, "begin after the book's time", showing, "player 0 begin 101")
    case(26, "until at the book's time", showing, "player 0 until 100")
    case(0, "until one after the book's time", showing, "player 0 until 101")
    case(0, "until 60 after the book's time", showing, "player 0 until 160")
    case(26, "until 61 after the book's time", showing, "player 0 until 161")
    case(26, "until 4,294,967,295", showing, "player 0 until 4294967295")
    case(0, "until 4,000,000,060", showing, "time 4000000000; player 0 until 4000000060")
    case(26, "until 4,000,000,061", showing, "time 4000000000; player 0 until 4000000061")
    case(26, "open entry one past the last", busy, "player 4 open_entry 4")
    case(26, "open entry 255", busy, "player 4 open_entry 255")
    case(0, "open entry of kind 3", busy, "player 4 open_entry 3")
    case(26, "open entry of kind 4", showing, "entry 0 kind 4")
    case(26, "open entry of kind 5", showing, "entry 0 kind 5")
    case(0, "begin at start", showing, "entry 0 flags 4; entry 0 start 90")
    case(26, "begin before start", showing, "entry 0 flags 4; entry 0 start 91")
    case(0, "until at end + 1", showing, "entry 0 flags 8; entry 0 end 129")
    case(26, "until at end + 2", showing, "entry 0 flags 8; entry 0 end 128")
    case(0, "until at the latest end + 1",
         showing, "time 4000000000; entry 0 flags 8; entry 0 end 4000000000; player 0 until 4000000001")
    case(26, "until at the latest end + 2",
         showing, "time 4000000000; entry 0 flags 8; entry 0 end 4000000000; player 0 until 4000000002")
    ran = "entry 0 flags 16; entry 0 interval "
    case(0, "begin at first, until at first + interval", showing, ran + "40; entry 0 started 1; entry 0 first 90")
    case(26, "until one past first + interval", showing, ran + "39; entry 0 started 1; entry 0 first 90")
    case(26, "begin before first", showing, ran + "100; entry 0 started 1; entry 0 first 91")
    case(0, "first 0, started 1", showing, ran + "130; entry 0 started 1")
    case(26, "open on an interval that has not started", showing, ran + "200")
    case(26, "open on an interval with started 2", showing, ran + "200; entry 0 started 2")
    case(26, "open on an interval with first after the book's time",
         showing, ran + "200; entry 0 started 1; entry 0 first 101")
    case(26, "open on an interval with first + interval past 32 bits",
         showing, ran + "100000000; entry 0 started 1; entry 0 first 4294967295")
    case(0, "open within dates and interval, all just fitting", showing,
         "entry 0 flags 28; entry 0 start 90; entry 0 end 129; entry 0 interval 40; entry 0 started 1; entry 0 first 90")
    case(26, "second open use on the entry outside its dates", showing,
         "entry 0 flags 4; entry 0 start 90; use 9 0 89 130")


def meters():
    for meter, flag, limit in (("used_count", 1, 10), ("used_timed", 2, 10), ("used_seconds", 32, 100)):
        case(0, f"{meter} at its limit", limited, f"entry 0 {meter} {limit}")
        case(27, f"{meter} above its limit", limited, f"entry 0 {meter} {limit + 1}")
        case(27, f"{meter} 4,294,967,295", limited, f"entry 0 {meter} 4294967295")
    case(0, "every meter at its limit", limited,
         "entry 0 used_count 10; entry 0 used_timed 10; entry 0 used_seconds 100; entry 0 started 1; entry 0 first 100")
    case(27, "last of 64 entries", full, "entry 63 used_count 1000001")
    for meter in ("used_count", "used_timed", "used_seconds", "started"):
        case(27, f"{meter} without flags", bare, f"entry 0 {meter} 1")
    case(27, "first without flags and started", bare, "entry 0 first 1")
    case(27, "started and first without flags", bare, "entry 0 started 1; entry 0 first 1")
    case(27, "used_count, all but its flag", limited, "entry 0 limits 62 0 10 10 50 200 100 100; entry 0 used_count 1")
    case(27, "used_timed, all but its flag", limited, "entry 0 limits 61 10 0 0 50 200 100 100; entry 0 used_timed 1")
    case(27, "started, all but its flag",
         limited, "entry 0 limits 47 10 10 10 50 200 0 100; entry 0 started 1; entry 0 first 60")
    case(27, "used_seconds, all but its flag",
         limited, "entry 0 limits 31 10 10 10 50 200 100 0; entry 0 used_seconds 1")
    case(27, "started 2", limited, "entry 0 started 2")
    case(27, "started 255 with a first", limited, "entry 0 started 255; entry 0 first 60")
    case(27, "first without started", limited, "entry 0 first 1")
    case(27, "first after the book's time", limited, "entry 0 started 1; entry 0 first 101")
    case(0, "first at the book's time", limited, "entry 0 started 1; entry 0 first 100")
    case(0, "started with nothing counted, first before start", limited, "entry 0 started 1; entry 0 first 49")
    case(0, "used timed above used count", limited, "entry 0 used_timed 5; entry 0 used_count 1")
    case(0, "used seconds without a use", limited, "entry 0 used_seconds 7")
    open_uses_and_meters()


def open_uses_and_meters():
    for meter, flags, limit, value in (
            ("used_count", 1, "count", 1), ("used_timed", 2, "timed", 1), ("used_seconds", 32, "accumulated", 40)):
        flagged = f"entry 0 flags {flags}; entry 0 {limit} 1000; "
        under = f"entry 0 {meter} {value - 1}" if value > 1 else ""
        case(0, f"{meter} just covers one open use", showing, flagged + f"entry 0 {meter} {value}")
        case(27, f"{meter} below one open use", showing, flagged + under)
        both = flagged + "use 15 0 100 140; "
        case(0, f"{meter} just covers two open uses", showing, both + f"entry 0 {meter} {2 * value}")
        case(27, f"{meter} below two open uses", showing, both + f"entry 0 {meter} {2 * value - 1}")
        case(0, f"{meter} covers two open uses and is its limit", showing, both.replace("1000", str(2 * value))
             + f"entry 0 {meter} {2 * value}")
        case(27, f"limit of {meter} below two open uses", showing, both.replace("1000", str(2 * value - 1))
             + f"entry 0 {meter} {2 * value - 1}")
    case(27, "a second of 160 open ones not metered", busy, "entry 0 used_seconds 159")
    case(0, "160 open seconds just metered", busy, "entry 0 used_seconds 160")
    case(0, "open uses just counted", busy, "entry 0 used_count 2")
    case(27, "one of two open uses not counted", busy, "entry 0 used_count 1")
    case(27, "one of two open uses not in the timed count", busy, "entry 0 used_timed 1")
    crowd = "entry 0 flags 35; entry 0 count 16; entry 0 timed 16; entry 0 accumulated 640; " + "".join(
        f"use {i} 0 90 130; " for i in range(16))
    case(0, "16 open uses just metered",
         bare, crowd + "entry 0 used_count 16; entry 0 used_timed 16; entry 0 used_seconds 640")
    case(27, "16 open uses, 15 counted",
         bare, crowd + "entry 0 used_count 15; entry 0 used_timed 16; entry 0 used_seconds 640")
    case(27, "16 open uses, 15 in the timed count",
         bare, crowd + "entry 0 used_count 16; entry 0 used_timed 15; entry 0 used_seconds 640")
    case(27, "16 open uses, one second short",
         bare, crowd + "entry 0 used_count 16; entry 0 used_timed 16; entry 0 used_seconds 639")
    case(0, "open uses of other entries do not count here", busy, "player 2 open_entry 3; entry 0 used_seconds 60")
    ages = "time 3000000000; use 0 0 852516412 3000000060; use 1 0 852516412 3000000060"
    long = "; entry 0 flags 32; entry 0 accumulated 100000000"
    case(27, "two open uses whose seconds sum to 2 to the 32", bare, ages + long)
    case(27, "16 open uses whose seconds sum to 8 times 2 to the 32", bare, "time 3000000000; " + "".join(
        f"use {i} 0 852516412 3000000060; " for i in range(16)) + long[2:])
    case(27, "two open uses whose seconds sum to 2 to the 32 and 7, 7 metered", bare,
         ages.replace("use 1 0 852516412", "use 1 0 852516405") + long + "; entry 0 used_seconds 7")
    case(0, "the same two open uses without an accumulated limit", bare, ages)
    case(27, "one open use longer than any limit", bare, "time 4000000000; use 0 0 0 4000000060" + long
         + "; entry 0 used_seconds 100000000")
    case(0, "one open use of 4,000,000,060 seconds, unflagged", bare, "time 4000000000; use 0 0 0 4000000060")


def two_stages():
    """Two rules broken: the number that comes first in the order wins."""
    case(20, "short and mark", empty, "byte 0 0; length 10")
    case(21, "mark and version", empty, "byte 2 0; byte 4 0", APART)
    case(22, "version and counts", empty, "byte 4 9; byte 5 65", APART)
    case(22, "version and time", empty, "time 4000000001; byte 4 9", APART)
    case(23, "counts and length", busy, "byte 6 65")
    case(23, "time and length", busy, "time 4000000001; length 1000")
    case(23, "time and asset", busy, "time 4000000001; asset 0 number 0")
    case(20, "length and asset", busy, "asset 0 number 0; length 700")
    case(24, "last asset and first entry", busy, "asset 3 key 2; entry 0 object 0")
    case(24, "asset and player", busy, "asset 3 key 2; player 0 operation 0")
    case(24, "asset and meter", busy, "asset 3 key 2; entry 0 used_count 6")
    case(25, "last entry and first player", busy, "entry 3 object 0; player 0 operation 0")
    case(25, "last entry and first meter", busy, "entry 3 object 0; entry 0 used_count 6")
    case(27, "a count of 0 and a meter above it", limited, "entry 0 count 0; entry 0 used_count 1")
    case(25, "limits and meters of one entry", limited, "entry 0 count 1000001; entry 0 used_count 1000002")
    case(25, "an open use outside dates that break the rules", showing, "entry 0 flags 12; entry 0 start 150; entry 0 end 140")
    case(26, "last player and first meter", busy, "player 15 operation 1; entry 0 used_count 6")
    case(26, "an open use on an interval that has not started, with a first",
         showing, "entry 0 flags 16; entry 0 interval 200; entry 0 first 90")
    case(21, "mark and everything behind it", busy,
         "time 4000000001; asset 0 number 0; entry 0 object 0; player 0 operation 0; entry 0 used_count 6; byte 0 0; byte 4 0")


# Order 3 of document 02: switch, tracks and contents; numbers that are not 0 and 1, some with a last byte that is.
ABOVE = (2, 3, 255, 256, 257, 65_536, 65_537, 16_777_216, 16_777_217, 2_147_483_648, 4_294_967_295)


def switches():
    for base in (empty, bare, busy, full):
        case(0, f"{base.__name__}, switch 1", base, "switch 1", TRACKS)
    for number in ABOVE:
        case(26, f"switch {number}", bare, f"switch {number}", TRACKS)
    case(26, "switch 2, no assets and no entries", empty, "switch 2", TRACKS)
    case(26, "switch 2 where it was on", watching, "switch 2", TRACKS)


def tracks():
    on = "entry 0 tracked 1"
    for switch in ("", "switch 1; "):
        told = "switch on" if switch else "switch off"
        case(0, f"tracked, {told}", bare, switch + on, TRACKS)
        case(0, f"tracked with a mark, {told}", bare, switch + on + "; entry 0 mark 1", TRACKS)
        for value in (1, 60, 4_294_967_295):
            case(0, f"tracked, timed value {value}, {told}", bare, switch + on + f"; entry 0 timed_value {value}", TRACKS)
            case(25, f"untracked, timed value {value}, {told}", bare, switch + f"entry 0 timed_value {value}", TRACKS)
        case(0, f"tracked, timed value and mark, {told}", bare, switch + on + "; entry 0 timed_value 30; entry 0 mark 1", TRACKS)
        case(25, f"untracked with a mark, {told}", bare, switch + "entry 0 mark 1", TRACKS)
        case(25, f"untracked, timed value and mark, {told}", bare, switch + "entry 0 timed_value 30; entry 0 mark 1", TRACKS)
        for number in ABOVE:
            case(25, f"tracked {number}, {told}", bare, switch + f"entry 0 tracked {number}", TRACKS)
            case(25, f"tracked {number} with a mark, {told}", bare, switch + f"entry 0 tracked {number}; entry 0 mark 1", TRACKS)
            case(25, f"mark {number}, {told}", bare, switch + on + f"; entry 0 mark {number}", TRACKS)
    for kind in (2, 3, 4, 5):
        case(0, f"tracked, kind {kind}", bare, f"entry 0 kind {kind}; " + on + "; entry 0 timed_value 7", TRACKS)
        case(25, f"untracked, timed value 7, kind {kind}", bare, f"entry 0 kind {kind}; entry 0 timed_value 7", TRACKS)
    case(0, "tracked, every flag", limited, on + "; entry 0 timed_value 200", TRACKS)
    case(25, "tracked, and a limit without its flag", bare, on + "; entry 0 count 1", TRACKS)
    case(0, "tracked, every limit 0", bare, on + "; entry 0 flags 63", TRACKS)
    case(0, "the second entry tracked", crowded, "entry 1 tracked 1; entry 1 mark 1", TRACKS)
    case(25, "the second entry untracked with a mark, the first tracked", crowded, on + "; entry 1 mark 1", TRACKS)
    case(25, "the second entry untracked with a timed value, the first tracked", crowded, on + "; entry 1 timed_value 1", TRACKS)
    case(0, "64 tracked entries, 16 open uses", full_and_tracked, "", TRACKS)
    case(25, "mark 2 in the last of 64 entries", full_and_tracked, "entry 63 mark 2", TRACKS)
    case(25, "the last of 64 entries untracked, the rest of its track left", full_and_tracked, "entry 63 tracked 0", TRACKS)


def kept_contents():
    case(0, "a tracked entry open", watching, "", TRACKS)
    case(0, "a tracked entry open, switch off", watching, "switch 0", TRACKS)
    case(26, "tracked, content 0", watching, "player 0 content 0", TRACKS)
    case(26, "tracked, content 0, switch off", watching, "player 0 content 0; switch 0", TRACKS)
    case(26, "tracked, content 0, mark 1", watching, "player 0 content 0; entry 0 mark 1", TRACKS)
    untracked = "entry 0 tracked 0; entry 0 timed_value 0"
    case(0, "untracked, content 0", watching, untracked + "; player 0 content 0", TRACKS)
    case(0, "untracked, content 0, switch off", watching, untracked + "; player 0 content 0; switch 0", TRACKS)
    case(0, "untracked, with its content", watching, untracked, TRACKS)
    for name, edits in (("tracked", ""), ("untracked", untracked + "; ")):
        case(0, f"{name}, the content a parent", watching, edits + "player 0 content 9", TRACKS)
        case(0, f"{name}, the content illegal", watching, edits + "player 0 content 300", TRACKS)
        for content in (2, 8, 10, 256, 257, 44, 556, 65_535, 65_537, 65_836, 16_777_217, 4_294_967_295):
            case(26, f"{name}, content {content}, not in the book", watching, edits + f"player 0 content {content}", TRACKS)
    case(0, "content other than in the stored request", busy, "player 1 content 2", TRACKS)
    case(0, "content that the entry does not suit", busy, "player 4 content 7", TRACKS)
    for player in (0, 3):
        for content in (1, 8, 4_294_967_295):
            case(26, f"player {player} has nothing open, content {content}", busy, f"player {player} content {content}", TRACKS)
    for content in (1, 16_777_216):
        case(26, f"number 0 and content {content}", busy, f"player 5 content {content}", TRACKS)
    case(26, "the last player's content not in the book", full_and_tracked, "player 15 content 999", TRACKS)
    case(26, "the last player's content 0", full_and_tracked, "player 15 content 0", TRACKS)
    case(0, "the last player's content the last asset", full_and_tracked, "player 15 content 1063", TRACKS)
    case(0, "two contents under one entry", watching, "use 9 0 95 140; player 9 content 9", TRACKS)
    case(26, "one of two open uses without content", watching, "use 9 0 95 140", TRACKS)
    case(26, "a tracked entry open beside an untracked one, that one's content there, the other's 0", busy,
         "entry 1 tracked 1; player 4 content 0", TRACKS)
    case(0, "a tracked entry open beside an untracked one without content", busy,
         "entry 1 tracked 1; player 1 content 0; player 2 content 0", TRACKS)


def added_fields_in_stages():
    """The number of an added field against others."""
    case(20, "switch and length", bare, "switch 2; length 530", TRACKS)
    case(23, "switch and time", bare, "switch 2; time 4000000001", TRACKS)
    case(24, "asset and track", bare, "asset 0 key 2; entry 0 mark 1", TRACKS)
    case(24, "asset and switch", bare, "asset 0 key 2; switch 2", TRACKS)
    case(25, "track and switch", bare, "entry 0 mark 1; switch 2", TRACKS)
    case(25, "track and content", showing, "entry 0 mark 1; player 0 content 2", TRACKS)
    case(25, "track and meter", limited, "entry 0 mark 1; entry 0 used_count 11", TRACKS)
    case(25, "object and switch", bare, "entry 0 object 0; switch 2", TRACKS)
    case(26, "switch and meter", limited, "switch 2; entry 0 used_count 11", TRACKS)
    case(26, "content and meter", showing, "player 0 content 2; entry 0 used_count 1", TRACKS)
    case(26, "content 0 of a tracked entry and meter", showing, "entry 0 tracked 1; player 0 content 0; entry 0 used_count 1", TRACKS)
    case(26, "switch and player", busy, "switch 2; player 0 operation 0", TRACKS)


# Order 4 of document 02: numbers of 64 bits, the boot number in their upper half; some with a lower half of 0.
LONG_NUMBERS = (
    2 ** 32, 2 ** 32 + 1, 2 ** 33 + 7, 2 ** 40, 2 ** 48 + 2 ** 31, 2 ** 56, 2 ** 63, 2 ** 64 - 2 ** 32, 2 ** 64 - 2, 2 ** 64 - 1)


def numbers():
    for number in (256, 65_536, 16_777_216, 2_147_483_648, 4_294_967_294):
        case(0, f"number {number}", busy, f"player 0 number {number}")
    for number in LONG_NUMBERS:
        case(0, f"number {number}, a stop", busy, f"player 0 number {number}", LONG)
        case(0, f"number {number}, with a use open", busy, f"player 2 number {number}", LONG)
        case(0, f"number {number}, a refusal", busy, f"player 3 number {number}", LONG)
        case(26, f"number {number} and nothing behind it", busy, f"player 5 number {number}", LONG)
    case(0, "64 tracked entries, 16 open uses, the greatest numbers", full_and_long, "", LONG)
    case(26, "the last player's operation, behind a number of 64 bits", full_and_long, "player 15 operation 0", LONG)
    case(26, "the last player's number 0", full_and_long, "player 15 number 0", LONG)
    for version, (at, size, width) in {1: (11, 24, 4), 2: (15, 28, 4), 3: (15, 32, 8), 4: (15, 32, 8), 5: (23, 32, 8)}.items():
        for player in (0, 15):
            for byte in range(width):
                case(26, f"byte {byte} of player {player}'s number 1 and nothing behind it", empty, f"byte {at + size * player + byte} 1",
                     (version,))
    case(25, "entry and a number of 64 bits", busy, f"entry 0 object 0; player 5 number {2 ** 32}", LONG)
    case(26, "a number of 64 bits with nothing behind it, and a meter", busy, f"entry 0 used_count 6; player 5 number {2 ** 32}", LONG)
    case(27, "a meter behind a number of 64 bits", busy, f"entry 0 used_count 6; player 0 number {2 ** 32}", LONG)


# Order 7 of document 02: thresholds, and the marks of those that have an entry open.
ALL_OPEN = "".join(f"use {i} 0 91 130; " for i in range(16))       # edits of the book `bare`


def thresholds():
    for number in range(1, 17):
        case(0, f"threshold {number}", bare, f"entry 0 threshold {number}", SHARED)
    for number in (17, 18, 31, 32, 255, 256, 257, 272, 65_536, 65_537, 65_552, 16_777_216, 16_777_217, 2_147_483_648, 2_147_483_664,
                   4_294_967_295):
        case(25, f"threshold {number}", bare, f"entry 0 threshold {number}", SHARED)
    for kind in (2, 3, 4, 5):
        case(0, f"threshold 16, kind {kind}", bare, f"entry 0 kind {kind}; entry 0 threshold 16", SHARED)
        case(25, f"threshold 17, kind {kind}", bare, f"entry 0 kind {kind}; entry 0 threshold 17", SHARED)
    for base in (limited, printing):
        case(0, f"threshold 16, the flags of {base.__name__}", base, "entry 0 threshold 16", SHARED)
        case(25, f"threshold 17, the flags of {base.__name__}", base, "entry 0 threshold 17", SHARED)
    case(0, "threshold 1, every limit 0", bare, "entry 0 flags 63; entry 0 threshold 1", SHARED)
    case(25, "threshold 16, and a limit without its flag", bare, "entry 0 count 1; entry 0 threshold 16", SHARED)
    case(0, "threshold 16, tracked", bare, "entry 0 tracked 1; entry 0 timed_value 9; entry 0 mark 1; entry 0 threshold 16", SHARED)
    case(25, "threshold 17, tracked", bare, "entry 0 tracked 1; entry 0 timed_value 9; entry 0 mark 1; entry 0 threshold 17", SHARED)
    case(25, "threshold 16, untracked with a mark", bare, "entry 0 mark 1; entry 0 threshold 16", SHARED)
    case(0, "threshold 1 of a parent", uneven, "entry 0 asset 9; entry 0 threshold 1", SHARED)
    case(0, "the second entry's threshold 16", crowded, "entry 1 threshold 16", SHARED)
    case(25, "the second entry's threshold 17", crowded, "entry 1 threshold 17", SHARED)
    case(25, "the second entry's threshold 17, the first one's 16", crowded, "entry 0 threshold 16; entry 1 threshold 17", SHARED)
    case(0, "64 tracked entries of threshold 16, 16 open uses, the greatest numbers", full_and_shared, "", SHARED)
    case(0, "the last of 64 entries without its threshold", full_and_shared, "entry 63 threshold 0", SHARED)
    case(25, "the last of 64 entries with threshold 17", full_and_shared, "entry 63 threshold 17", SHARED)


def kept_marks():
    """A mark for each player that has the entry open, and no other, whatever the threshold."""
    for threshold in ("", "entry 0 threshold 1; ", "entry 0 threshold 16; "):
        told = ", " + threshold.strip("; ").replace("entry 0 ", "") if threshold else ""
        for marks in (1, 2, 128, 256, 32_768, 65_535, 65_536, 16_777_216, 2_147_483_648, 4_294_967_295):
            case(27, f"nobody has it open, marks {marks}{told}", bare, threshold + f"entry 0 marks {marks}", SHARED)
        for marks, how in ((0, "missing"), (2, "player 1's"), (3, "player 1's too"), (32_768, "player 15's"), (32_769, "player 15's too"),
                           (65_534, "all but its own"), (65_535, "every player's"), (256, "bit 8"), (257, "bit 8 too"), (65_536, "bit 16"),
                           (65_537, "bit 16 too"), (16_777_217, "bit 24 too"), (2_147_483_648, "bit 31"), (2_147_483_649, "bit 31 too"),
                           (4_294_967_295, "every bit")):
            case(27, f"player 0 has it open, its mark: {how}{told}", showing, threshold + f"entry 0 marks {marks}", SHARED)
    for kind in (2, 3, 4, 5):
        case(27, f"nobody has it open, marks 1, kind {kind}", bare, f"entry 0 kind {kind}; entry 0 marks 1", SHARED)
    for base in (limited, printing):
        case(27, f"nobody has it open, marks 1, the flags of {base.__name__}", base, "entry 0 marks 1", SHARED)
    for player in range(16):
        alone = f"use {player} 0 91 130"
        case(0, f"player {player} alone has it open", bare, alone)
        case(27, f"player {player} alone has it open, its mark missing", bare, alone + "; entry 0 marks 0", SHARED)
        case(27, f"player {player} alone has it open, the bit of the next set", bare, alone + f"; entry 0 marks {2 << player}", SHARED)
    for marks, how in ((0, "both missing"), (2, "player 2's missing"), (4, "player 1's missing"), (5, "player 0's for player 1's"),
                       (7, "that of player 0, which has stopped, too"), (14, "that of player 3, which was refused, too"),
                       (22, "that of player 4, which has another entry open, too"), (38, "that of player 5, which never asked, too"),
                       (32_774, "that of player 15, which never asked, too")):
        case(27, f"players 1 and 2 have it open, their marks: {how}", busy, f"entry 0 marks {marks}", SHARED)
    case(27, "the marks of two entries exchanged", busy, "entry 0 marks 16; entry 1 marks 6", SHARED)
    case(27, "a mark at the next entry", busy, "entry 0 marks 2; entry 1 marks 20", SHARED)
    case(27, "the second entry's mark missing", busy, "entry 1 marks 0", SHARED)
    case(27, "a mark of a print", busy, "entry 2 marks 1", SHARED)
    case(27, "a mark of the last entry, which nobody has open", busy, "entry 3 marks 1", SHARED)
    case(0, "three players have it open", sharing)
    for marks in (0, 129, 32_769, 32_896, 32_899, 98_433, 2_147_516_545):
        case(27, f"players 0, 7 and 15 have it open, marks {marks}", sharing, f"entry 0 marks {marks}", SHARED)
    case(0, "all 16 have it open", bare, ALL_OPEN)
    for marks in (0, 32_767, 65_534, 65_279, 131_071, 4_294_967_295):
        case(27, f"all 16 have it open, marks {marks}", bare, ALL_OPEN + f"entry 0 marks {marks}", SHARED)
    case(0, "two entries, two players each", crowded, "use 0 0 91 130; use 15 0 92 131; use 7 1 93 132; use 8 1 94 133")
    case(27, "a mark too many at the last of 64 entries", full_and_shared, "entry 63 marks 3", SHARED)
    case(27, "the last player's mark missing", full_and_shared, "entry 48 marks 0", SHARED)


def full_thresholds():
    """As many open uses as the threshold are accepted, more are not."""
    case(0, "one open use, threshold 1", showing, "entry 0 threshold 1", SHARED)
    for base, edits, uses in ((showing, "use 9 0 95 140; ", 2), (sharing, "", 3), (bare, ALL_OPEN, 16)):
        for threshold in (1, 2, 3, 4, 8, 15, 16):
            case(27 if threshold < uses else 0, f"{uses} open uses, threshold {threshold}", base, edits + f"entry 0 threshold {threshold}",
                 SHARED)
    for entry, threshold, answer in ((0, 1, 27), (0, 2, 0), (1, 1, 0), (2, 1, 0), (3, 1, 0)):
        case(answer, f"several entries open, entry {entry} of threshold {threshold}", busy, f"entry {entry} threshold {threshold}", SHARED)
    case(0, "each entry at its threshold", busy, "entry 0 threshold 2; entry 1 threshold 1; entry 2 threshold 1; entry 3 threshold 1",
         SHARED)
    two = "use 9 0 95 140; "
    case(27, "2 open uses, threshold 1, one mark missing", showing, two + "entry 0 threshold 1; entry 0 marks 1", SHARED)
    case(27, "2 open uses, threshold 2, a third mark", showing, two + "entry 0 threshold 2; entry 0 marks 515", SHARED)
    case(27, "2 open uses, threshold 3, a third mark", showing, two + "entry 0 threshold 3; entry 0 marks 515", SHARED)
    last = "player 1 open_entry 63; entry 63 threshold "
    case(27, "the last of 64 entries with 2 open uses, threshold 1", full_and_shared, last + "1", SHARED)
    case(0, "the last of 64 entries with 2 open uses, threshold 2", full_and_shared, last + "2", SHARED)


def marks_in_stages():
    """The number of a threshold and of marks against others."""
    case(20, "threshold and length", bare, "entry 0 threshold 17; length 602", SHARED)
    case(20, "marks and length", bare, "entry 0 marks 1; length 604", SHARED)
    case(23, "threshold and time", bare, "time 4000000001; entry 0 threshold 17", SHARED)
    case(24, "asset and threshold", bare, "asset 0 key 2; entry 0 threshold 17", SHARED)
    case(24, "asset and marks", bare, "asset 0 key 2; entry 0 marks 1", SHARED)
    case(25, "threshold and switch", bare, "switch 2; entry 0 threshold 17", SHARED)
    case(25, "last entry's threshold and first player", busy, "entry 3 threshold 17; player 0 operation 0", SHARED)
    case(25, "threshold and meter", limited, "entry 0 threshold 17; entry 0 used_count 11", SHARED)
    case(25, "threshold and marks", bare, "entry 0 threshold 17; entry 0 marks 1", SHARED)
    case(25, "threshold 17 and 16 open uses", bare, ALL_OPEN + "entry 0 threshold 17", SHARED)
    case(25, "the second entry's threshold and the first one's marks", crowded, "entry 1 threshold 17; entry 0 marks 1", SHARED)
    case(25, "object and marks", bare, "entry 0 object 0; entry 0 marks 1", SHARED)
    case(26, "switch and marks", bare, "switch 2; entry 0 marks 1", SHARED)
    case(26, "switch and more open uses than the threshold", sharing, "switch 2; entry 0 threshold 2", SHARED)
    case(26, "last player and first marks", busy, "player 15 operation 1; entry 0 marks 0", SHARED)
    case(26, "player and more open uses than the threshold", busy, "player 15 operation 1; entry 0 threshold 1", SHARED)
    case(26, "content and marks", showing, "player 0 content 2; entry 0 marks 0", SHARED)
    case(26, "an open use that is over, its mark missing", showing, "player 0 until 100; entry 0 marks 0", SHARED)
    case(26, "number 0 with a use open, its mark missing", busy, "player 4 number 0; entry 1 marks 0", SHARED)
    case(26, "number 0 and open 1, no mark", busy, "player 5 open 1; entry 0 marks 6", SHARED)
    case(26, "closed with its fields left, its mark set", busy, "player 1 open 0; entry 0 marks 6", SHARED)
    case(26, "open entry one past the last, its mark left", busy, "player 4 open_entry 4; entry 1 marks 16", SHARED)


# Order 8 of document 02: the player last taken, plus 1, and whether that event opened a use that started an interval.
FAR = (17, 18, 32, 255, 256, 257, 272, 65_536, 65_537, 16_777_216, 16_777_217, 2_147_483_648, 2_147_483_649, 4_294_967_295)


def latest_players():
    """The header's player is one of the 16 that has a number, or none."""
    case(0, "an interval runs, nobody taken last", started)
    for player, what in enumerate(("has a use open", "has stopped", "has a use open", "was refused")):
        case(0, f"player {player} last, which {what}", started, f"latest_player {player + 1}", LAST)
    for last in (5, 6, 15, 16):
        case(26, f"player {last - 1} last, which never asked", started, f"latest_player {last}", LAST)
    for last in FAR:
        case(26, f"player last taken, plus 1: {last}", started, f"latest_player {last}", LAST)
    case(26, "player 0 last in an empty book", empty, "latest_player 1", LAST)
    case(26, "player 15 last in an empty book", empty, "latest_player 16", LAST)
    for player in range(16):
        asked = f"player {player} number 1; player {player} operation 3; player {player} code 14; player {player} entry 255"
        case(0, f"player {player} alone has asked, and was taken last", empty, f"{asked}; latest_player {player + 1}", LAST)
        others = sorted({(player + 1) % 16 + 1, (player + 15) % 16 + 1})
        for last in others:
            case(26, f"player {player} alone has asked, {last - 1} was taken last", empty, f"{asked}; latest_player {last}", LAST)
    for number in (2 ** 32, 2 ** 40, 2 ** 64 - 2 ** 32, 2 ** 64 - 1):
        case(0, f"player 1 last, its number {number}", started, f"player 1 number {number}; latest_player 2", LAST)
    case(26, "the player last taken without its number", started, "player 1 number 0; latest_player 2", LAST)
    for code in (10, 11, 12, 13, 14, 15, 43, 44):
        case(0, f"the last event was answered {code}", started,
             f"player 1 code {code}; player 1 entry 255; player 1 answer_until 0; latest_player 2", LAST)
    case(0, "64 entries, 16 open uses, player 15 last", full_and_shared, "latest_player 16", LAST)
    case(0, "several players on one entry, player 2 last", busy, "latest_player 3", LAST)


def latest_starts():
    """The mark needs the use of the player last taken, alone on an entry with an interval, begun at first."""
    marked = "latest_player 1; latest_started 1"
    case(0, "player 0 last, it started an interval", started, marked, LAST)
    case(0, "player 2 last, it started an interval", started, "latest_player 3; latest_started 1", LAST)
    for number in ABOVE:
        case(26, f"mark of an interval {number}", started, f"latest_player 1; latest_started {number}", LAST)
        case(26, f"mark of an interval {number}, nobody last", started, f"latest_started {number}", LAST)
    case(26, "mark of an interval, nobody last", started, "latest_started 1", LAST)
    case(26, "mark of an interval in an empty book", empty, "latest_started 1", LAST)
    case(26, "mark of an interval, player 1 last, which has stopped", started, "latest_player 2; latest_started 1", LAST)
    case(26, "mark of an interval, player 3 last, which was refused", started, "latest_player 4; latest_started 1", LAST)
    case(26, "mark of an interval, player 4 last, which never asked", started, "latest_player 5; latest_started 1", LAST)
    case(26, "mark of an interval, player last taken, plus 1: 17", started, "latest_player 17; latest_started 1", LAST)
    case(26, "mark of an interval, the entry has none", showing, marked, LAST)
    case(26, "mark of an interval, the entry has none, begun at 0", showing, f"player 0 begin 0; {marked}", LAST)
    case(0, "no mark, the entry has no interval, begun at 0", showing, "player 0 begin 0; latest_player 1", LAST)
    since_0 = "entry 0 first 0; entry 0 interval 200; latest_player 2"
    case(26, "mark of an interval since 0, player 1 last, which has stopped", started, f"{since_0}; latest_started 1", LAST)
    case(0, "no mark, an interval since 0, player 1 last, which has stopped", started, since_0, LAST)
    for flags in (0, 1, 2, 4, 8, 32, 15, 47):
        limits = {1: ("count", 9), 2: ("timed", 9), 4: ("start", 50), 8: ("end", 200), 32: ("accumulated", 90)}
        used = {1: ("used_count", 1), 2: ("used_timed", 1), 32: ("used_seconds", 40)}
        edits = "".join(f"entry 0 {name} {value}; " for table in (limits, used) for flag, (name, value) in table.items() if flags & flag)
        interval = "entry 0 interval 0; entry 0 started 0; entry 0 first 0; "
        case(26, f"mark of an interval, flags {flags}", started, f"entry 0 flags {flags}; {interval}{edits}{marked}", LAST)
        case(0, f"mark of an interval, flags {flags + 16}", started, (f"entry 0 flags {flags + 16}; " if flags else "")
             + f"entry 0 interval 101; {edits}{marked}", LAST)
    for first in (0, 1, 88, 89):
        ran = f"entry 0 interval 200; entry 0 first {first}; "
        case(26, f"mark of an interval, begun at 90, first {first}", started, ran + marked, LAST)
        case(0, f"no mark, begun at 90, first {first}", started, ran + "latest_player 1", LAST)
    for begin in (91, 100):
        case(26, f"mark of an interval, begun at {begin}, first 90", started, f"player 0 begin {begin}; {marked}", LAST)
        case(0, f"no mark, begun at {begin}, first 90", started, f"player 0 begin {begin}; latest_player 1", LAST)
    case(0, "begun and first at the book's time", started, f"player 0 begin 100; entry 0 first 100; {marked}", LAST)
    case(0, "begun and first at 0", started, f"player 0 begin 0; entry 0 first 0; entry 0 interval 130; {marked}", LAST)
    for kind in (2, 3):
        case(0, f"mark of an interval, kind {kind}", started, f"entry 0 kind {kind}; {marked}", LAST)
    alone_no_more()
    odd_but_good_marks()
    case(0, "64 entries, 16 open uses, the last player's begin started its interval", full_and_last, "", LAST)
    case(26, "64 entries, 16 open uses, another player last", full_and_last, "latest_player 15", LAST)
    case(26, "64 entries, 16 open uses, the last player one second behind first", full_and_last, "player 15 begin 3999999996", LAST)


def alone_no_more():
    """Another use open on the entry, of a player before or behind."""
    marked = "latest_player 1; latest_started 1"
    for player in (1, 3, 4, 9, 15):
        case(26, f"mark of an interval, player {player} has the entry open too", started, f"use {player} 0 95 130; {marked}", LAST)
        case(0, f"no mark, player {player} has the entry open too", started, f"use {player} 0 95 130; latest_player 1", LAST)
    case(26, "mark of an interval, player 15 has it open too, begun at first", started, f"use 15 0 90 130; {marked}", LAST)
    case(26, "mark of an interval, player 0 has it open too, player 2 last", started,
         "player 0 open_entry 1; latest_player 3; latest_started 1", LAST)
    case(26, "mark of an interval, all 16 have it open", started,
         "".join(f"use {i} 0 90 130; " for i in range(16)) + "latest_player 1; latest_started 1", LAST)
    case(0, "mark of an interval, all others have the other entry open", started,
         "".join(f"use {i} 1 90 130; " for i in range(1, 16)) + "latest_player 1; latest_started 1", LAST)
    case(26, "mark of an interval, all others have the other entry open, one of them last", started,
         "".join(f"use {i} 1 80 130; " for i in range(1, 16)) + "latest_player 3; latest_started 1", LAST)


def odd_but_good_marks():
    """The stored request of the player last taken is not asked about."""
    plain = "player 0 asset 0; player 0 kind 0"
    refused = "player 0 entry 255; player 0 answer_until 0"
    for name, edits in (("a continue", f"operation 2; {plain}"), ("a stop", f"operation 3; {plain}"), ("a cancel", f"operation 4; {plain}"),
                        ("for another asset", "asset 7"), ("for another kind", "kind 4"),
                        ("answered with another until", "answer_until 131"), ("answered with another entry", "entry 1"),
                        ("refused with 11", f"code 11; {refused}"),
                        ("refused with 44", f"code 44; {refused}")):
        case(0, f"mark of an interval, the stored request is {name}", started, f"player 0 {edits}; latest_player 1; latest_started 1", LAST)


def last_in_stages():
    """The number of a header's player and of its mark against others."""
    case(20, "player last taken and length", started, "latest_player 17; length 681", LAST)
    case(20, "mark of an interval and length", started, "latest_started 1; length 683", LAST)
    case(22, "player last taken and version", started, "latest_player 17; byte 4 6", LAST)
    case(23, "player last taken and time", started, "latest_player 17; time 4000000001", LAST)
    case(24, "asset and player last taken", started, "asset 0 key 2; latest_player 17", LAST)
    case(24, "asset and mark of an interval", started, "asset 0 key 2; latest_started 1", LAST)
    case(25, "entry and player last taken", started, "entry 0 object 0; latest_player 17", LAST)
    case(25, "last entry and mark of an interval", started, "entry 1 threshold 17; latest_started 2", LAST)
    case(25, "interval above its greatest and its mark", started, "entry 0 interval 100000001; latest_player 1; latest_started 1", LAST)
    case(26, "switch and player last taken", started, "switch 2; latest_player 17", LAST)
    case(26, "player last taken and mark of an interval", started, "latest_player 17; latest_started 2", LAST)
    case(26, "player last taken and another player", started, "latest_player 17; player 3 operation 0", LAST)
    case(26, "player last taken and meter", started, "latest_player 17; entry 0 used_count 1", LAST)
    case(26, "mark of an interval and meter", started, "latest_started 1; entry 0 used_count 1", LAST)
    case(26, "player last taken and marks", started, "latest_player 5; entry 0 marks 0", LAST)
    marked = "latest_player 1; latest_started 1"
    case(26, "mark of an interval, the player's use behind the last entry", started, f"player 0 open_entry 2; {marked}", LAST)
    case(26, "mark of an interval, the player's use on entry 255", started, f"player 0 open_entry 255; {marked}", LAST)
    case(26, "mark of an interval, open 2", started, f"player 0 open 2; {marked}", LAST)
    case(26, "mark of an interval that has not started", started, f"entry 0 started 0; {marked}", LAST)
    case(26, "mark of an interval, a momentary entry", started, f"entry 0 kind 4; {marked}", LAST)
    case(26, "mark of an interval, no entries", empty, "player 0 number 1; player 0 operation 3; player 0 code 14; player 0 entry 255; "
         "latest_player 1; latest_started 1", LAST)
    case(27, "a player last taken, and a meter", started, "latest_player 1; latest_started 1; entry 0 used_count 1", LAST)
    case(27, "a player last taken, and marks", started, "latest_player 1; latest_started 1; entry 0 marks 0", LAST)


GROUPS = [good_books, header, assets, entries, limits_of_zero, players, meters, two_stages, switches, tracks, kept_contents,
          added_fields_in_stages, numbers, thresholds, kept_marks, full_thresholds, marks_in_stages, latest_players, latest_starts,
          last_in_stages]


def cases():
    if not CASES:
        for group in GROUPS:
            group()
    return CASES


def answers():
    """(answer, image) of every case."""
    return ((answer, image(version, base, edits)) for answer, _, version, base, edits in cases())


def main():
    data, lines, listing, seen = b"", [], [], set()
    for number, (answer, name, version, base, edits) in enumerate(cases(), 1):
        bytes_in = image(version, base, edits)
        assert bytes_in not in seen, f"case {number} ({name}) is there already"
        seen.add(bytes_in)
        code, book = rights.read(bytes_in)
        assert code == answer, f"case {number} ({name}): {answer} by hand, {code} by the reader"
        data += len(bytes_in).to_bytes(2, "big") + bytes_in
        if code == 0:
            back = bytes_in if version == rights.NEWEST else widened(bytes_in)
            assert rights.write(book) == back, f"case {number} ({name}): other bytes written back"
            lines.append(f"0 {rights.write(book).hex()}\n")
        else:
            lines.append(f"{code}\n")
        told = edits.strip("; ")
        listing.append(f"{number:4} {answer:2} {len(bytes_in):5} {version} {name} [{base.__name__}{': ' + told if told else ''}]\n")
    write_file(CRATES / "test_images" / "data" / "cases.bin", data)
    write_file(CRATES / "test_images" / "stdout", "".join(lines).encode())
    greatest = image(rights.NEWEST, full_and_last, "")
    write_file(CRATES / "bench_image" / "data" / "full.rbk", greatest)
    write_file(CRATES / "bench_image" / "stdout", f"0 {len(greatest)}\n".encode())
    write_file(HERE / "images.txt", ("case, answer, length, version, name [base: edits]\n" + "".join(listing)).encode())
    print(f"{len(CASES)} cases, {sum(1 for c in CASES if c[0] == 0)} accepted, "
          + ", ".join(f"{sum(1 for c in CASES if c[2] == version)} of version {version}" for version in SIZES) + f", {len(data)} bytes")


def write_file(path, data):
    path.parent.mkdir(parents=True, exist_ok=True)
    path.write_bytes(data)


if __name__ == "__main__":
    main()
