"""Event records from their text (`events`) or from shorter ones (`widen`), and each event in words with what its answer means
(`explain`)."""

import re
import sys
from itertools import zip_longest
from pathlib import Path

import rights
from rights import Event

from .answers import mismatch, parsed
from .files import keep_inputs, read_bytes, read_text
from .kept import write_records
from .texts import REFUSED
from .words import KINDS, OPERATIONS, TOP, Mistake, Trouble, kind_name, lines_of, number, number_text, request_number, short, when

SIZE = rights.RECORD.size
SHORT = 13                  # bytes of a record before order 4 of document 02: a number of 4 bytes, not of 8
MEANINGS = {
    1: "turned away: not a valid begin, continue, stop or cancel",
    2: "turned away: there is no such player (0 to 15)",
    3: "turned away: its number is not the player's next one, nor counter 1 under a greater boot number",
    4: "turned away: the player used this number for another request",
    5: "turned away: its time is before the book's time, or too late",
    6: f"turned away: the record is not {SIZE} bytes long",
    10: "refused: the asset is not in the book, or has no key",
    11: "refused: the player has a use open",
    12: "refused: the book has no entry of this kind for the asset",
    13: "refused: every entry for it is used up, out of its dates, open to no more players, or never granted",
    14: "refused: the player has no use open",
    15: "refused: no more time can be given",
    30: "turned away: the list that was lent for the report does not fit the book",
    43: "refused: metering is off, and what is left for it is tracked and has no mark",
    44: "refused: there is something open, but its begin was not the last event taken, so it cannot be taken back",
}

# The records of a day as tools/serve keeps them; the book with which they began has the same name with .rbk at its end.
RECORDED = re.compile(r"events-[0-9]{4}-[0-9]{2}-[0-9]{2}\.bin")

# A line of a text for `make` or `events`.
TEXT = re.compile(rb"^\s*((time|asset|entry|player)\s+[0-9]|metering\s+o|latest\s+player\s*:?\s+[0-9]"
                  rb"|[0-9]+(\.[0-9]+){1,2}\s+(begin|continue|stop|cancel)\s)", re.MULTILINE)


class EventText:
    def __init__(self):
        self.records = []
        self.cut = False

    def line(self, words):
        if self.cut:
            raise Mistake(f"only the last record may have fewer than {SIZE} bytes, and one above this line has")
        first = words.take("a player and a number")
        if first == "raw":
            self.raw(words)
            return
        found = re.fullmatch(r"([0-9]+)\.([0-9]+(?:\.[0-9]+)?)", first)
        if not found:
            raise Mistake("an event begins with player and number, like 0.1, or with a boot number between them, like 0.3.1, or with raw;"
                          f" not `{short(first)}`")
        player = number(found[1], 255, "the player")
        count = request_number(found[2])
        operation = words.of(OPERATIONS, "operation")
        asset = kind = 0
        if operation == rights.BEGIN:
            asset = words.number(65_535, "the asset")
            kind = words.of(KINDS, "kind")
        t = words.time("the time", TOP)
        self.records.append(rights.encode(Event(player, count, operation, asset, kind, t)))

    def raw(self, words):
        try:
            record = bytes.fromhex("".join(words.words))
        except ValueError:
            raise Mistake("after raw come bytes, each as two of the digits 0 to 9 and a to f") from None
        words.words.clear()
        if not 1 <= len(record) <= SIZE:
            raise Mistake(f"a record has {SIZE} bytes, and the last one may have fewer; this one has {len(record)}")
        self.cut = len(record) < SIZE
        self.records.append(record)


def events(text, records, over=False):
    keep_inputs(records, text)
    maker = EventText()
    lines_of(text, read_text(text), maker.line)
    write_records(records, b"".join(maker.records), over)


def widen(short_records, records, over=False):
    """The same events with boot number 0 before their counters."""
    keep_inputs(records, short_records)
    data = read_bytes(short_records)
    refuse_others(short_records, data)
    rest = len(data) % SHORT
    if rest:
        why = (f"but of {SIZE}: nothing to do" if len(data) % SIZE == 0 else
               f"{rest} are over; a last record that was cut short changes nothing and can be left out")
        raise Trouble(f"{short_records}: its {len(data)} bytes are no whole number of records of {SHORT} bytes, {why}")
    each = (data[at:at + SHORT] for at in range(0, len(data), SHORT))
    write_records(records, b"".join(record[:1] + bytes(SIZE - SHORT) + record[1:] for record in each), over)


def read_records(path):
    """The bytes of a file of event records. What is plainly none, by its first bytes, is refused. Any other bytes are records, and are
    answered; a note says so if they look like the shorter ones. What a server has recorded is not judged: players send anything."""
    data = read_bytes(path)
    if began_with(path) is not None:
        return data
    refuse_others(path, data)
    if len(data) % SHORT == 0 and len(data) % SIZE:
        print(f"note: {path} has {len(data)} bytes, a whole number of records of {SHORT} bytes, as before order 4, and not of {SIZE};"
              " `book.py widen` makes the longer ones", file=sys.stderr)
    return data


def began_with(events):
    """The image of the book with which tools/serve began these records; None if that is not known."""
    path = Path(events)
    beside = path.with_suffix(".rbk")
    return beside.read_bytes() if RECORDED.fullmatch(path.name) and beside.exists() else None


def same_book(one, other):
    """Whether two images, perhaps of different versions, hold the same book."""
    return rights.read(one) == rights.read(other)


def refuse_others(path, data):
    kind = "a book image" if data.startswith((b"RBK\0", b"RBS\0")) else "a text" if TEXT.search(data[:4096]) else None
    if kind:
        raise Trouble(f"{path}: this is {kind}, not a file of event records (`book.py events` makes one from its text)")


# ---- In words

def explain(records, answers):
    if records == answers == "-":
        raise Trouble("only one of the two files can be standard input")
    data = read_records(records)
    told = read_text(answers).splitlines()
    if len(told) == 1 and re.fullmatch("2[0-7]", told[0].strip()):
        code = int(told[0])
        print(f"The server refused its book with {code}: {REFUSED[code]}. No event was answered.")
        return 0
    doubt = mismatch(data, told)
    if doubt:
        print(f"note: {doubt}: are these the answers to these records?", file=sys.stderr, flush=True)
    latest = {}
    for place, (record, line) in enumerate(zip_longest(rights.records_in(data), told), 1):
        print(f"{place:>5}  {record_words(record or b'')}")
        print(f"         {line_words(line and line.strip(), record or b'', latest)}")
    return 2 if doubt else 0


def record_words(record):
    if len(record) == 0:
        return "there is no event for this answer"
    if len(record) != SIZE:
        return f"a record cut short, {len(record)} bytes: {record.hex(' ')}"
    event = event_of(record)
    request = request_words(event.operation, event.asset, event.kind)
    return f"player {event.player}, request {number_text(event.number)}: {request}, at {when(event.time)}"


def event_of(record):
    return rights.RECORD.read(record)


def request_words(operation, asset, kind):
    if operation == rights.BEGIN:
        return f"begin, {kind_name(kind)} asset {asset}"
    name = {2: "continue", 3: "stop", 4: "cancel"}.get(operation, f"operation {operation}")
    return name if asset == 0 and kind == 0 else f"{name}, asset {asset}, kind {kind}"


def answer_words(operation, kind, code, entry, until):
    if code != 0:
        return MEANINGS.get(code, "an unknown answer")
    if operation == rights.STOP:
        return f"stopped at {when(until)}, under entry {entry}"
    if operation == rights.CANCEL:
        return f"taken back: the use of entry {entry} that began at {when(until)} counts for nothing"
    if operation == rights.BEGIN and kind >= rights.PRINT:
        return f"granted by entry {entry}, once, at {when(until)}"
    return f"granted by entry {entry} until {when(until)}"


def line_words(line, record, latest):
    if line is None:
        return "no answer"
    answer = parsed(line)
    if answer is None:
        return f"`{short(line)}` is not an answer (code, entry, until)"
    code, entry, until = answer
    if len(record) != SIZE:
        return f"{line}: {MEANINGS.get(code, 'an unknown answer')}"
    event = event_of(record)
    request = (event.number, event.operation, event.asset, event.kind)
    again = " (asked again: the same answer as before)" if latest.get(event.player) == request else ""
    if code in rights.TAKEN:
        latest[event.player] = request
    return f"{line}: {answer_words(event.operation, event.kind, code, entry, until)}{again}"
