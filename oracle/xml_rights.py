"""The reader of XML rights objects a second time, in plain Python, from orders 1 and 2 of document 02 and the element lines
of 004 alone.

read(text) gives (code, elements, book): 0, the number of elements and the fresh book of an accepted text, or 40, 41 or
42 with 0 and None. No text switches metering on or tracks an entry, and nobody was taken last: in its book those fields
are 0. judge(text) tells people more: the number of the rights object too, or where the text is at fault and why.

`units` takes the text apart: a unit is one tag with the text in front of it. It stops at the first byte that cannot stand
where it stands. `Reader` judges one unit after the other, so the first tag at fault decides, and what is not well formed
in a tag goes before everything else about it.
"""

import copy
import math
import re
from dataclasses import dataclass
from datetime import date

import rights
from rights import LATEST, MOST, Asset, Book, Entry

DEPTH = 12                      # of rights, which is 1, and everything in it
ELEMENTS = 256
GREATEST_NUMBER = 65_535        # of a rights object or an asset
LEAST_LIMIT = 0                 # of a count, a timed count, an interval and an accumulated (order 2)
GREATEST_COUNT = 1_000_000      # also of a timed count
GREATEST_TIMER = 1_000_000
GREATEST_DURATION = 100_000_000
SPACE = b" \t\n\r"

# 004's element lines, cut to what order 1 accepts. An asset inside a permission is called a reference here.
LINES = {
    "rights": "context agreement",
    "context": "version? uid",
    "agreement": "asset+ permission*",
    "asset": "context inherit? KeyInfo?",
    "inherit": "context",
    "permission": "reference* play? display? execute? print? export?",
    "play": "constraint?",
    "display": "constraint?",
    "execute": "constraint?",
    "print": "constraint?",
    "export": "constraint?",
    "constraint": "count? timed-count? datetime? interval? accumulated?",
    "datetime": "start? end?",
    "reference": "",
}
TEXTS = {"version", "uid", "count", "timed-count", "start", "end", "interval", "accumulated"}
SKIPPED = {"KeyInfo", "skipped"}    # KeyInfo, and what is inside it: any elements and any text
KINDS = {"play": rights.PLAY, "display": rights.DISPLAY, "execute": rights.EXECUTE, "print": rights.PRINT,
         "export": rights.EXPORT}
PREFIXES = {
    b"o-ex:": "rights context agreement asset reference inherit permission constraint",
    b"o-dd:": "version uid play display execute print count datetime start end interval accumulated",
    b"oma-dd:": "export timed-count",
    b"ds:": "KeyInfo",
}
NAMES = {each: prefix + (b"asset" if each == "reference" else each.encode())
         for prefix, those in PREFIXES.items() for each in those.split()}


class Refused(Exception):
    """A code; for people why, and where: at an offset in the text, or so many bytes in front of the `<` of the tag judged."""

    def __init__(self, code, why="", at=None, back=0):
        self.code, self.why, self.at, self.back = code, why, at, back


def not_accepted(why="", back=0):
    return Refused(41, why, back=back)


@dataclass
class Judgement:
    code: int = 0
    elements: int = 0
    book: Book | None = None
    object: int = 0             # the number of the rights object
    at: int | None = None       # of a refusal: the offset of the byte at fault
    why: str = ""


def read(text):
    found = judge(text)
    return found.code, found.elements, found.book


def judge(text):
    reader, tag = Reader(), 0
    try:
        for tag, *unit in units(text):
            reader.take(*unit)
    except Refused as refused:
        at, why = tag - refused.back if refused.at is None else refused.at, refused.why
        if at == len(text) and reader.open:
            why += f"; {shown(reader.open[-1].name)} is still open"
        return Judgement(refused.code, at=at, why=why)
    return Judgement(0, reader.elements, reader.book, reader.object)


def shown(text, most=60):
    """Bytes of the text for a message: in one line, and not too long."""
    words = text[:4 * most].decode(errors="backslashreplace")
    words = "".join(each if each.isprintable() else each.encode("unicode_escape").decode() for each in words)
    return words if len(words) <= most and len(text) <= 4 * most else f"{words[:most - 3]}.. ({len(text)} bytes)"


# ---- The text taken apart

OPENING, CLOSING, EMPTY = "opening", "closing", "empty"     # the forms of a tag
BARRED = rb"<&\x00-\x08\x0b\x0c\x0e-\x1f"
WHITE = re.compile(rb"[ \t\n\r]*")
NAME = re.compile(rb"[A-Za-z_:\x80-\xff][A-Za-z_:\x80-\xff0-9.-]*")
BETWEEN = re.compile(rb"[^" + BARRED + rb"]*")
QUOTED = {b'"': re.compile(rb'[^"' + BARRED + rb"]*"), b"'": re.compile(rb"[^'" + BARRED + rb"]*")}


def stuck(text, at, wanted):
    """The refusal where no byte like the one at this place can stand, or where the text ends too early."""
    if text[at:at + 1] == b"&":
        return Refused(41, "& is not accepted: no entity and no character reference", at)
    if text[at:at + 2] in (b"<!", b"<?"):
        what = "comment, CDATA or DOCTYPE" if text[at + 1:at + 2] == b"!" else "XML declaration and no other instruction"
        return Refused(41, f"{text[at:at + 2].decode()} is not accepted: no {what}", at)
    if at >= len(text):
        return Refused(40, f"the text ends where {wanted} must stand", at)
    return Refused(40, f"{byte_words(text[at:at + 3])} stands where {wanted} must", at)


def byte_words(text):
    """The first byte of this in words."""
    if text == b"\xef\xbb\xbf" or text[:2] in (b"\xff\xfe", b"\xfe\xff"):
        return f"a byte order mark of {'UTF-8' if text[0] == 0xef else 'UTF-16'}"
    return f"`{chr(text[0])}`" if 32 < text[0] < 127 else "a space" if text[0] == 32 else f"byte {text[0]:02X}"


def past(text, at, pattern, wanted):
    """Where the pattern, which must match something, ends."""
    found = pattern.match(text, at)
    if found is None:
        raise stuck(text, at, wanted)
    return found.end()


def units(text):
    """Yields (where a tag begins, the text in front of it, the tag's form, its name, its attributes) up to the end of the text."""
    at, depth, before = WHITE.match(text).end(), 0, b""
    while True:
        if text[at:at + 1] != b"<" or text[at + 1:at + 2] in (b"!", b"?"):
            raise stuck(text, at, "text or a tag" if depth > 0 and at < len(text) else "a tag")
        tag = at
        if text[at + 1:at + 2] != b"/":
            form, name, attributes, at = start_tag(text, at + 1)
        elif depth > 0:
            form, name, attributes, at = end_tag(text, at + 2)
        else:
            raise Refused(40, "an end tag stands where nothing is open", tag + 1)
        yield tag, before, form, name, attributes
        depth += {OPENING: 1, CLOSING: -1, EMPTY: 0}[form]
        if depth == 0:
            break
        end = BETWEEN.match(text, at).end()
        before, at = text[at:end], end
    at = WHITE.match(text, at).end()
    if at < len(text):
        raise stuck(text, at, "the end of the text")


def end_tag(text, at):
    end = past(text, at, NAME, "a name")
    name, at = text[at:end], WHITE.match(text, end).end()
    if text[at:at + 1] != b">":
        raise stuck(text, at, "the > of this end tag")
    return CLOSING, name, {}, at + 1


def start_tag(text, at):
    end = past(text, at, NAME, "the name of an element")
    name, attributes = text[at:end], {}
    while True:
        at = WHITE.match(text, end).end()
        here = text[at:at + 1]
        if here == b">":
            return OPENING, name, attributes, at + 1
        if here == b"/":
            if text[at + 1:at + 2] != b">":
                raise stuck(text, at + 1, "the > of />")
            return EMPTY, name, attributes, at + 2
        if at == end:
            raise stuck(text, at, "white space, / or >")       # an attribute needs white space in front of it
        end = attribute(text, at, attributes)


def attribute(text, at, attributes):
    """Adds the attribute that begins here; returns where it ends."""
    end = past(text, at, NAME, "the name of an attribute, / or >")
    name, at = text[at:end], WHITE.match(text, end).end()
    if text[at:at + 1] != b"=":
        raise stuck(text, at, f"the = of the attribute {shown(name)}")
    at = WHITE.match(text, at + 1).end()
    quote = text[at:at + 1]
    if quote not in QUOTED:
        raise stuck(text, at, f"the quote that begins the attribute {shown(name)}")
    end = QUOTED[quote].match(text, at + 1).end()
    if text[end:end + 1] != quote:
        raise stuck(text, end, f"the quote that ends the attribute {shown(name)}")
    if name in attributes:
        raise Refused(40, f"the attribute {shown(name)} stands twice in this tag", end)
    attributes[name] = text[at + 1:end]
    return end + 1


# ---- Values

DIGITS = re.compile(rb"[0-9]+")
TIME = re.compile(rb"([0-9]{4})-([0-9]{2})-([0-9]{2})T([0-9]{2}):([0-9]{2}):([0-9]{2})Z")
DURATION = re.compile(rb"P(?:([0-9]+)D)?(T(?:([0-9]+)H)?(?:([0-9]+)M)?(?:([0-9]+)S)?)?")
PART_SECONDS = (86_400, 3_600, 60, 1)
NUMBERED = (b"cid:", b"pid:")


def value_of(digits):
    """The number, or one that is above every bound here: a text may hold a million digits."""
    digits = digits.lstrip(b"0")
    return 10 ** 15 if len(digits) > 15 else int(digits or b"0")


def within(number, least, greatest):
    if not least <= number <= greatest:
        raise not_accepted()
    return number


def number_in(text, least, greatest):
    if DIGITS.fullmatch(text) is None:
        raise not_accepted()
    return within(value_of(text), least, greatest)


def uid_in(text, owner):
    """In the rights context the number alone, elsewhere behind `cid:` or `pid:`."""
    if owner != "rights":
        if text[:4] not in NUMBERED:
            raise not_accepted()
        text = text[4:]
    return number_in(text, 1, GREATEST_NUMBER)


def days_before(year, month, day):
    """Days from 1970-01-01 to this date."""
    try:
        return date(year, month, day).toordinal() - date(1970, 1, 1).toordinal()
    except ValueError:
        raise not_accepted() from None


def time_in(text):
    found = TIME.fullmatch(text)
    if found is None:
        raise not_accepted()
    year, month, day, hour, minute, second = map(int, found.groups())
    if hour > 23 or minute > 59 or second > 59:
        raise not_accepted()
    return within(days_before(year, month, day) * 86_400 + hour * 3_600 + minute * 60 + second, 0, LATEST)


def duration_in(text):
    found = DURATION.fullmatch(text)
    if found is None:
        raise not_accepted()
    days, clock, *rest = found.groups()
    if (clock is None) != (rest == [None] * 3) or days is None and clock is None:
        raise not_accepted()
    parts = [value_of(part or b"0") for part in (days, *rest)]
    return within(sum(part * seconds for part, seconds in zip(parts, PART_SECONDS)), LEAST_LIMIT, GREATEST_DURATION)


# ---- The elements

def slots(line):
    """A line of LINES as (name in the text, name here, how often at least, how often at most) for each child."""
    often = {"?": (0, 1), "*": (0, math.inf), "+": (1, math.inf)}
    return [(NAMES[word.rstrip("?*+")], word.rstrip("?*+"), *often.get(word[-1], (1, 1))) for word in line.split()]


SLOTS = {shape: slots(line) for shape, line in LINES.items()}


class Open:
    """An open element, and how far it is in its line."""

    def __init__(self, name, shape):
        self.name, self.shape = name, shape
        self.slots = SLOTS.get(shape, [])
        self.slot, self.taken = 0, 0        # children in that slot

    def child(self, name):
        """What the child is that begins here; None if it cannot stand here."""
        if self.shape in SKIPPED:
            return "skipped"
        for slot in range(self.slot, len(self.slots)):
            wanted, shape, least, most = self.slots[slot]
            taken = self.taken if slot == self.slot else 0
            if wanted == name and taken < most:
                self.slot, self.taken = slot, taken + 1
                return shape
            if taken < least:
                return None
        return None

    def is_complete(self):
        rest = self.slots[self.slot:]
        return all(least <= (self.taken if place == 0 else 0) for place, (_, _, least, _) in enumerate(rest))

    def wanted(self):
        """The names of the children that can stand next, up to one that must."""
        names = []
        for place, (name, _, least, most) in enumerate(self.slots[self.slot:]):
            taken = self.taken if place == 0 else 0
            if taken < most:
                names.append(name.decode())
            if taken < least:
                break
        return names


class Reader:
    """Judges the units in turn and makes the book from them."""

    def __init__(self):
        self.book = Book()
        self.elements = 0
        self.open = []
        self.ids = {}               # every id, with the number of its asset once that is closed, else None
        self.object = 0
        self.asset = self.asset_id = None
        self.references = []        # of the permission that is open
        self.entry = None           # with the limits of the kind that is open

    def take(self, before, form, name, attributes):
        if form == CLOSING:
            if name != self.open[-1].name:
                raise Refused(40, f"</{shown(name)}> stands where {shown(self.open[-1].name)} is open")
            over = self.close(before)
        else:
            over = self.begin(before, name, attributes)
            if form == EMPTY:
                over = self.close(b"") or over
        if over:                    # only now: in a tag that opens and closes, 41 for either goes before
            raise Refused(42, over)

    def begin(self, before, name, attributes):
        """An opening tag; returns whether it opens one element too many, in words."""
        if self.open:
            parent = self.open[-1]
            if parent.shape not in SKIPPED | TEXTS and not is_white(before):
                raise text_not_accepted(parent, before)
            shape = parent.child(name)
            if shape is None:
                raise not_accepted(child_words(parent, name))
        else:
            shape = "rights"
            if name != NAMES[shape]:
                raise not_accepted(f"{shown(name)} is not o-ex:rights, the first element of a rights object")
        if len(self.open) >= DEPTH:
            raise not_accepted(f"{shown(name)} stands {DEPTH + 1} deep; {DEPTH} is the most, and o-ex:rights stands 1 deep")
        if shape == "asset":
            self.asset, self.asset_id = Asset(), None
        elif shape == "KeyInfo":
            self.asset.key = 1
        elif shape == "permission":
            self.references = []
        elif shape in KINDS:
            self.entry = Entry(object=self.object, kind=KINDS[shape])
        if shape != "skipped":
            self.take_attributes(shape, attributes)
        self.open.append(Open(name, shape))
        self.elements += 1
        return f"this is element {self.elements}; {ELEMENTS} is the most" if self.elements > ELEMENTS else ""

    def take_attributes(self, shape, attributes):
        own, other = attributes.get(b"o-ex:id"), attributes.get(b"o-ex:idref")
        if own is not None:
            if own in self.ids:
                raise not_accepted(f'the id "{shown(own)}" is given a second time')
            self.ids[own] = None
        if other is not None and self.ids.get(other) is None:
            raise not_accepted(f'the idref "{shown(other)}" is not the id of an asset above it')
        if shape == "asset":
            self.asset_id = own
        elif shape == "reference":
            if other is None:
                raise not_accepted("o-ex:asset in o-ex:permission has no o-ex:idref")
            self.references.append(self.ids[other])
        elif shape == "timed-count":
            timer = attributes.get(b"oma-dd:timer", b"0")
            try:
                self.entry.timer = number_in(timer, 0, GREATEST_TIMER)
            except Refused:
                raise not_accepted(value_words("timer", timer)) from None

    def close(self, before):
        """A closing tag; returns whether there are more than 64 assets or entries now, in words."""
        element = self.open.pop()
        if element.shape in SKIPPED:
            return ""
        if element.shape in TEXTS:
            try:
                self.take_text(element.shape, before)
            except Refused:
                owner = self.open[-2].shape if element.shape == "uid" else ""
                raise not_accepted(value_words(element.shape, before, owner), len(before)) from None
            return ""
        if not is_white(before):
            raise text_not_accepted(element, before)
        if not element.is_complete():
            raise not_accepted(f"{shown(element.name)} ends without {element.wanted()[-1]}")
        if element.shape == "asset":
            return self.add_asset()
        return self.add_entries() if element.shape in KINDS else ""

    def take_text(self, shape, text):
        entry = self.entry
        if shape == "version":
            if text != b"2.2":
                raise not_accepted()
        elif shape == "uid":
            owner = self.open[-2].shape
            number = uid_in(text, owner)
            if owner == "rights":
                self.object = number
            elif owner == "asset":
                self.asset.number = number
            else:
                self.asset.inherit = number
        elif shape == "count":
            entry.count = number_in(text, LEAST_LIMIT, GREATEST_COUNT)
            entry.flags |= rights.COUNT
        elif shape == "timed-count":
            entry.timed = number_in(text, LEAST_LIMIT, GREATEST_COUNT)
            entry.flags |= rights.TIMED
        elif shape == "start":
            entry.start = time_in(text)
            entry.flags |= rights.START
        elif shape == "end":
            entry.end = time_in(text)
            entry.flags |= rights.END
        elif shape == "interval":
            entry.interval = duration_in(text)
            entry.flags |= rights.INTERVAL
        else:
            entry.accumulated = duration_in(text)
            entry.flags |= rights.ACCUMULATED

    def add_asset(self):
        if self.book.asset(self.asset.number) is not None:
            raise not_accepted(f"asset {self.asset.number} stands a second time")
        self.book.assets.append(self.asset)
        if self.asset_id is not None:
            self.ids[self.asset_id] = self.asset.number
        return f"this is asset {len(self.book.assets)}; {MOST} is the most" if len(self.book.assets) > MOST else ""

    def add_entries(self):
        """An entry for each reference, or for every asset where the permission has none."""
        for number in self.references or [asset.number for asset in self.book.assets]:
            entry = copy.copy(self.entry)
            entry.asset = number
            if not rights.entry_is_good(self.book, entry):
                raise not_accepted(entry_words(entry))
            self.book.entries.append(entry)
        return f"this makes {len(self.book.entries)} entries; {MOST} is the most" if len(self.book.entries) > MOST else ""


def is_white(text):
    return not text.strip(SPACE)


# ---- Why a text is refused, in words

NUMBER, TIMES = "a number from {} to {:,}", "a time from 1970-01-01T00:00:00Z to 2096-10-02T07:06:40Z, written like these"
DURATIONS = f"a duration from {LEAST_LIMIT} to {GREATEST_DURATION:,} seconds, written like P1DT2H30M or PT90S"
VALUES = {
    "version": "2.2",
    "uid": NUMBER.format(1, GREATEST_NUMBER),
    "count": NUMBER.format(LEAST_LIMIT, GREATEST_COUNT),
    "timed-count": NUMBER.format(LEAST_LIMIT, GREATEST_COUNT),
    "timer": NUMBER.format(0, GREATEST_TIMER),
    "start": TIMES,
    "end": TIMES,
    "interval": DURATIONS,
    "accumulated": DURATIONS,
}


def value_words(name, value, owner=""):
    of = {"rights": " of the rights object", "asset": " of the asset", "inherit": " of the inherit"}.get(owner, "")
    numbered = "cid: or pid: and " if owner in ("asset", "inherit") else ""
    return f'the {name} "{shown(value)}"{of} is not {numbered}{VALUES[name]}'


def text_not_accepted(element, text):
    """The refusal of a text in an element that holds only others, at the first byte that is no white space."""
    rest = text.lstrip(SPACE)
    return not_accepted(f'the text "{shown(rest.rstrip(SPACE))}" stands in {shown(element.name)}, which holds none', len(rest))


def child_words(parent, name):
    if parent.shape in TEXTS:
        return f"{shown(name)} stands in {shown(parent.name)}, which holds a text only"
    if parent.shape == "reference":
        return f"{shown(name)} stands in an o-ex:asset of o-ex:permission, which is empty"
    wanted = parent.wanted() + ["its closing tag"] * parent.is_complete()
    return f"{shown(name)} cannot stand here in {shown(parent.name)}, only {either(wanted)} can"


def either(names):
    return " or ".join([", ".join(names[:-1])] * (len(names) > 1) + names[-1:])


def entry_words(entry):
    """Which of the rules that a text can break this entry breaks."""
    kind = next(name for name, number in KINDS.items() if number == entry.kind)
    if entry.has(rights.START) and entry.has(rights.END) and entry.start > entry.end:
        return f"the start of this {kind} is after its end"
    limit = "o-dd:accumulated" if entry.has(rights.ACCUMULATED) else "a timer above 0"
    return f"this {kind} has {limit}, but {kind} takes no time"
