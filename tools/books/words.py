"""Parses a text line by line and word by word; and puts numbers, times and lengths into words.

What cannot be read is a Mistake, which is reported with its line; everything else that ends a command is a Trouble.
"""

import datetime
import re

import rights

KINDS = {"play": 1, "display": 2, "execute": 3, "print": 4, "export": 5}
OPERATIONS = {"begin": 1, "continue": 2, "stop": 3, "cancel": 4}
UNITS = {"s": 1, "m": 60, "min": 60, "h": 3600, "d": 86_400}
TOP = 4_294_967_295         # the greatest 32-bit number

DATE = re.compile(r"([0-9]{4}-[0-9]{2}-[0-9]{2})(?:T([0-9:]+))?Z?")
CLOCK = re.compile(r"[0-9]{2}:[0-9]{2}(:[0-9]{2})?Z?")
LENGTHS = re.compile(r"(?:[0-9]+(?:min|[smhd]))+")


class Trouble(Exception):
    """Why a command cannot do its work, for the user."""


class Mistake(Exception):
    """What is wrong with a line of a text."""


def short(text, most=60):
    return text if len(text) <= most else f"{text[:most - 3]}... ({len(text)} characters)"


def is_number(word):
    return re.fullmatch("[0-9]+", word) is not None


def number(word, greatest, what, least=0):
    if not is_number(word):
        raise Mistake(f"{what} should be a number, not `{short(word)}`")
    digits = word.lstrip("0") or "0"
    if len(digits) > 20 or int(digits) > greatest:
        raise Mistake(f"{what} is {short(word, 30)}, but {greatest} is the greatest")
    if int(digits) < least:
        raise Mistake(f"{what} is {int(digits)}, but {least} is the least")
    return int(digits)


def request_number(word):
    """The number of a request: BOOT.COUNTER, or one number, which has the boot number in its upper 32 bits."""
    found = re.fullmatch(r"(?:([0-9]+)\.)?([0-9]+)", word)
    if not found:
        raise Mistake(f"the number should be a counter, or boot number and counter with a dot between them, like 3.1; not `{short(word)}`")
    boot, counter = found.groups()
    if boot is None:
        return number(counter, rights.LAST_NUMBER, "the number")
    return number(boot, TOP, "the boot number") * (TOP + 1) + number(counter, TOP, "the counter")


class Words:
    """The words of one line, taken from the left."""

    def __init__(self, line, at=0):
        self.line, self.at = line.strip(), at
        self.words = re.sub(r"[,;]|:(?=\s|$)", " ", line.split("#")[0]).split()

    def __bool__(self):
        return bool(self.words)

    def next_is(self, pattern, ahead=0):
        return len(self.words) > ahead and re.fullmatch(pattern, self.words[ahead]) is not None

    def take(self, what):
        if not self.words:
            raise Mistake(f"the line ends where {what} is expected")
        return self.words.pop(0)

    def accept(self, word):
        if self.words and self.words[0] == word:
            self.words.pop(0)
            return True
        return False

    def of(self, table, what):
        word = self.take(f"the {what}")
        if word not in table:
            raise Mistake(f"`{short(word)}` is not a known {what}; known are: {', '.join(table)}")
        return table[word]

    def number(self, greatest, what, least=0):
        return number(self.take(what), greatest, what, least)

    def time(self, what, greatest=rights.LATEST, last_second=False):
        """Seconds, or a date with or without a time of day, as `show` prints it too: 2026-12-24 18:30:00 (1798137000).
        A date alone is the first second of that day, or its last."""
        word = self.take(what)
        if is_number(word):
            return number(word, greatest, what)
        found = DATE.fullmatch(word)
        if not found:
            raise Mistake(f"{what} should be seconds since 1970 or a date like 2026-12-24 or 2026-12-24T18:30:00,"
                          f" not `{short(word)}`")
        clock = found[2]
        if clock is None and self.next_is(CLOCK):
            clock = self.words.pop(0).removesuffix("Z")
        seconds = seconds_of(found[1], clock or ("23:59:59" if last_second else "00:00:00"), what)
        if not 0 <= seconds <= greatest:
            raise Mistake(f"{what} is {found[1]}, which is before 1970 or after {date(greatest)}")
        self.accept("UTC")
        if self.next_is(r"\([0-9]+\)"):
            again = self.words.pop(0)
            if again != f"({seconds})":
                raise Mistake(f"{date(seconds)} is second {seconds}, not {short(again[1:-1])}; leave one of the two out")
            self.accept("UTC")
        return seconds

    def length(self, what, greatest):
        """Seconds, or numbers with units: 90, 7d, 2h30m, 1 h 30 min."""
        word = self.take(what)
        if is_number(word) and self.next_is("|".join(UNITS)):
            parts = [(word, self.words.pop(0))]
            while self.next_is("[0-9]+") and self.next_is("|".join(UNITS), 1):
                parts.append((self.words.pop(0), self.words.pop(0)))
        elif is_number(word):
            parts = [(word, "s")]
        elif LENGTHS.fullmatch(word):
            parts = re.findall("([0-9]+)([a-z]+)", word)
        else:
            raise Mistake(f"{what} should be seconds, or a number with s, min, h or d, not `{short(word)}`")
        seconds = sum(number(digits, greatest, what) * UNITS[unit] for digits, unit in parts)
        return number(str(seconds), greatest, f"{what}, in seconds,")


def seconds_of(day, clock, what):
    for form in ("%H:%M:%S", "%H:%M"):
        try:
            moment = datetime.datetime.strptime(f"{day} {clock}", f"%Y-%m-%d {form}")
            return int(moment.replace(tzinfo=datetime.timezone.utc).timestamp())
        except ValueError:
            continue
    raise Mistake(f"{what}: there is no {day} {short(clock)} (year-month-day, hours:minutes:seconds)")


# ---- Numbers, times and lengths in words

def date(seconds):
    moment = datetime.datetime(1970, 1, 1) + datetime.timedelta(seconds=seconds)
    return f"{moment:%Y-%m-%d %H:%M:%S}"


def when(seconds):
    return f"{date(seconds)} ({seconds})"


def time_text(seconds):
    """A time for a text that will be read again: a date, or the number if it is small, as in an example."""
    return date(seconds).replace(" ", "T") if seconds >= 100_000_000 else str(seconds)


def span(seconds):
    """A length in words: 1 h 30 min."""
    parts = []
    for size, name in ((86_400, "d"), (3600, "h"), (60, "min"), (1, "s")):
        if seconds >= size:
            parts.append(f"{seconds // size} {name}")
        seconds %= size
    return " ".join(parts) or "0 s"


def number_text(number):
    """The number of a request as BOOT.COUNTER; the counter alone if there is no boot number."""
    boot, counter = rights.boot_of(number), rights.counter_of(number)
    return f"{boot}.{counter}" if boot else str(counter)


def kind_name(kind):
    return next((name for name, value in KINDS.items() if value == kind), f"kind {kind}")


# ---- Lines

def lines_of(path, text, read_line):
    """Calls read_line with the words of each line that has any; a mistake is reported with its line's number."""
    for at, line in enumerate(re.split(r"\r\n|\n|\r", text), 1):
        words = Words(line, at)
        if not words:
            continue
        try:
            read_line(words)
            if words:
                raise Mistake(f"`{short(' '.join(words.words))}` is not understood here")
        except Mistake as mistake:
            raise at_line(path, words.at, words.line, mistake) from None


def at_line(path, at, line, why):
    return Trouble(f"{path}, line {at}: {why}\n    {short(line, 140)}")
