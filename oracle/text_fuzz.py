"""Damaged and random XML texts, the proved reader against xml_rights.py:

    python3 oracle/text_fuzz.py COUNT [SEED] [--program PATH]

COUNT texts are tried, and before them the stored ones. The same COUNT and SEED (1 by default) make the same texts on every
machine. A third of them are small changes made one by one: a text cut behind each byte, each byte in turn replaced by others.
The rest are random: rights objects of all forms, crowded ones near 256 elements, 64 assets and 64 entries, and texts with tags
dropped, doubled, moved or exchanged, attributes added or doubled, values near their bounds, bytes changed, parts of two joined.

One process, tools/read_texts.c over the library for C, reads them all; it is built if it is missing. The code, the number of
elements and the image must be those of xml_rights.py. Of an accepted text also the number of `<` less that of `</` and, where
Python's own XML parser takes the text, its number of elements must be the same. The first difference ends the run: the seed, the
text's number and both answers are shown, and the text is kept under target/texts.

    python3 oracle/text_fuzz.py --self COUNT [SEED]

makes the same texts, without the proved reader, and prints how many of them get which code.
"""

import argparse
import itertools
import random
import re
import subprocess
import sys
import threading
import time
from pathlib import Path
from xml.parsers import expat

import rights
import texts
import xml_rights

ROOT = Path(__file__).resolve().parent.parent
BATCH = 500                 # texts between two waits for the program
KINDS = ["play", "display", "execute", "print", "export"]
FULL = texts.FULL


# ---- Random rights objects

def some(rng, chance):
    return rng.random() < chance


def digits(rng, number):
    return "0" * rng.choice((0, 0, 0, 0, 1, 5, 30)) + str(number)


def around(rng, least, greatest):
    """A number within the bounds, often at one of them."""
    return rng.choice((least, least + 1, greatest, greatest - 1, rng.randint(least, greatest),
                       rng.randint(least, min(greatest, least + 9))))


def a_time(rng):
    year = rng.choice((1970, 1972, 1999, 2000, 2004, 2026, 2096, rng.randint(1970, 2095)))
    month = rng.choice((1, 2, 2, 3, 9)) if year == 2096 else rng.choice((1, 2, 2, 3, 12, rng.randint(1, 12)))
    leap = year % 4 == 0        # true of all years that can be written here
    day = rng.choice((1, 28 + leap if month == 2 else 30, rng.randint(1, 28)))
    hour, minute, second = rng.choice(((0, 0, 0), (23, 59, 59), (rng.randint(0, 23), rng.randint(0, 59), rng.randint(0, 59))))
    return f"{year}-{month:02}-{day:02}T{hour:02}:{minute:02}:{second:02}Z"


NO_TIME = ("PT0S", "P0D", "PT0H", "PT0M", "P0DT0H0M0S", "PT00S", "P000DT0M")


def a_duration(rng):
    left, parts = around(rng, 0, 100_000_000), []
    if left == 0 and some(rng, 0.7):
        return rng.choice(NO_TIME)
    for letter, seconds in rng.choice(((("D", 86400), ("H", 3600), ("M", 60), ("S", 1)), (("S", 1),), (("M", 60), ("S", 1)),
                                       (("D", 86400), ("S", 1)), (("H", 3600), ("S", 1)))):
        parts.append((letter, left // seconds))
        left %= seconds
    parts = [(letter, number) for letter, number in parts if number or letter == "S" or some(rng, 0.2)]
    days = "".join(f"{digits(rng, number)}D" for letter, number in parts if letter == "D")
    clock = "".join(f"{digits(rng, number)}{letter}" for letter, number in parts if letter != "D")
    return f"P{days}{'T' if clock else ''}{clock}"


class Maker:
    """Makes one rights object; the style of its white space and its attributes stays the same."""

    def __init__(self, rng):
        self.rng = rng
        self.ids = 0
        self.space = rng.choice(("", "", "", " ", "\n", "\n  ", "\t\r\n"))
        self.quote = rng.choice(('"', '"', "'"))
        self.odd = some(rng, 0.2)                       # with bytes that Python's parser does not take
        self.extra = rng.choice((0, 0, 0.1, 0.4))       # how often an element has attributes that are not read
        self.own = rng.choice((0, 0, 0.1, 0.5))         # how often an element that is no asset has an id

    def attribute(self, name, value):
        equals = "=" if self.space != "\t\r\n" else "\n= "
        return f" {name}{equals}{self.quote}{value}{self.quote}"

    def new_id(self):
        self.ids += 1
        return self.rng.choice((f"id{self.ids}", f"{self.ids}", f"a-\x80{self.ids} " if self.odd else f" {self.ids}>"))

    def attributes(self, given=""):
        made = given
        if self.extra and some(self.rng, self.extra):
            made += self.attribute(self.rng.choice(("xmlns:a", "id", "timer", "o-ex:mode", "_")),
                                   self.rng.choice(("", "1", "> x", "\t\xff" if self.odd else "\t")))
        if self.own and not given and some(self.rng, self.own):
            made += self.attribute("o-ex:id", self.new_id())
        return made

    def el(self, name, inside="", given=""):
        full, made = FULL[name], self.attributes(given)
        if inside == "" and some(self.rng, 0.6):
            return f"<{full}{made}/>"
        return f"<{full}{made}>{inside}</{full}>"

    def context(self, uid):
        version = self.el("version", "2.2") if some(self.rng, 0.3) else ""
        return self.el("context", version + self.el("uid", uid))

    def key(self, depth=0):
        rng, made = self.rng, []
        for _ in range(rng.choice((0, 0, 1, 1, 2, 3)) if depth < 8 else 0):
            name = rng.choice(("a", "ds:KeyInfo", "xenc:CipherValue", "o-dd:uid", "_.-9", "\xe9" if self.odd else "\xc3\xa9"))
            if some(rng, 0.6):
                made.append(f"<{name}{self.attributes()}>{self.key(depth + rng.choice((1, 1, 3)))}</{name}>")
            else:
                made.append(f"<{name}/>")
            if some(rng, 0.3):
                made.append(rng.choice(("c2VjcmV0", " ", ">", "'\"=/", *(("]]>", "\x7f\x80\xff") if self.odd else ()))))
        return "".join(made)

    def nest(self, levels):
        return "<a>" * levels + "</a>" * levels

    def asset(self, number, name=None, key=None, inherit=None):
        rng = self.rng
        more = ""
        if inherit:
            more += self.el("inherit", self.context(f"pid:{digits(rng, inherit)}"))
        if key is not None:
            more += self.el("KeyInfo", key)
        given = self.attribute("o-ex:id", name) if name is not None else ""
        full = FULL["asset"]
        return f"<{full}{given}>{self.context(rng.choice(('cid:', 'cid:', 'pid:')) + digits(rng, number))}{more}</{full}>"

    def limits(self, kind):
        rng, momentary = self.rng, kind in ("print", "export")
        made = []
        if some(rng, 0.3):
            made.append(self.el("count", digits(rng, around(rng, 0, 1_000_000))))
        if some(rng, 0.3):
            timer = around(rng, 0, 1_000_000) if not momentary else 0
            given = self.attribute("oma-dd:timer", digits(rng, timer)) if some(rng, 0.6) else ""
            made.append(self.el("timed-count", digits(rng, around(rng, 0, 1_000_000)), given))
        if some(rng, 0.4):
            start, end = sorted((a_time(rng), a_time(rng)))
            dates = (self.el("start", start) if some(rng, 0.6) else "") + (self.el("end", end) if some(rng, 0.6) else "")
            made.append(self.el("datetime", dates))
        if some(rng, 0.3):
            made.append(self.el("interval", a_duration(rng)))
        if some(rng, 0.3) and not momentary:
            made.append(self.el("accumulated", a_duration(rng)))
        return "".join(made)

    def kind(self, name):
        return self.el(name, self.el("constraint", self.limits(name)) if some(self.rng, 0.7) else "")

    def permission(self, names):
        rng = self.rng
        chosen = [rng.choice(names) for _ in range(rng.choice((0, 0, 1, 1, 2, 3)))] if names else []
        made = "".join(self.reference(name) for name in chosen)
        return self.el("permission", made + "".join(self.kind(name) for name in KINDS if some(rng, 0.35)))

    def reference(self, name):
        return self.el("asset", "", self.attribute("o-ex:idref", name))

    def finish(self, inside):
        rng = self.rng
        text = self.el("rights", self.context(digits(rng, around(rng, 1, 65535))) + self.el("agreement", inside))
        if self.space:
            text = text.replace("><", f">{self.space}<")
        if some(rng, 0.1):
            text = rng.choice((" ", "\n\t")) + text + rng.choice(("\n", " \r\n"))
        return text

    def anything(self):
        """A rights object of a few assets and permissions."""
        rng = self.rng
        numbers = rng.sample(range(1, 9), rng.choice((1, 1, 2, 3))) if some(rng, 0.7) else [around(rng, 1, 65535)]
        assets, names = [], []
        for number in numbers:
            name = self.new_id() if some(rng, 0.7) else None
            if name is not None:
                names.append(name)
            key = self.key() if some(rng, 0.4) else None
            assets.append(self.asset(number, name, key, rng.choice((None, None, around(rng, 1, 65535)))))
        return self.finish("".join(assets) + "".join(self.permission(names) for _ in range(rng.choice((0, 1, 1, 1, 2, 3)))))

    def crowded(self):
        """One that is about as large or as deep as it may be, or a little more."""
        rng, self.extra, self.own = self.rng, 0, 0
        sort = rng.choice(("entries", "entries", "entries", "entries", "references", "references", "elements", "assets", "depth"))
        if sort == "depth":
            return self.finish(self.asset(1, None, self.nest(rng.choice((7, 8, 8, 9, 10)))))
        if sort == "elements":
            more = rng.choice(("", self.el("permission"), self.el("permission", self.el("play"))))
            elements = 7 + 1 + more.count("<") - more.count("</")
            key = "<a/>" * (256 - elements + rng.choice((-1, 0, 1, 1, 2)))
            return self.finish(self.asset(1, None, key) + more).replace("<o-dd:version>2.2</o-dd:version>", "")
        if sort == "assets":
            made = "".join(self.asset(number) for number in range(1, rng.choice((63, 64, 65, 65)) + 1))
            return self.finish(made + rng.choice(("", self.el("permission", self.el("play")), "<a/>")))
        if sort == "references":
            names = [self.new_id(), self.new_id()]
            made = "".join(self.asset(number, name) for number, name in enumerate(names, 1))
            chosen = "".join(self.reference(rng.choice(names)) for _ in range(rng.choice((32, 63, 64, 65, 66))))
            kinds = "".join(self.kind(name) for name in KINDS if some(rng, 0.3))
            last = rng.choice(("", self.el("permission", self.el("play"))))
            return self.finish(made + self.el("permission", chosen + kinds) + last)
        assets = rng.choice((4, 5, 8, 13, 16))
        wanted = 64 // assets + rng.choice((0, 1, 1, 1))
        made, kinds = "".join(self.asset(number) for number in range(1, assets + 1)), []
        while wanted > 0:
            those = KINDS[:wanted] if wanted < 5 else KINDS
            kinds.append(self.el("permission", "".join(self.kind(name) if some(rng, 0.1) else self.el(name) for name in those)))
            wanted -= len(those)
        return self.finish(made + "".join(kinds))


# ---- Damage

PIECES = re.compile(r"<[^>]*>|[^<]+")
VALUE = re.compile(r"(<(?:o-dd|oma-dd):([a-z-]+)[^>]*>)([^<]*)(</)")
BYTES = ["<", ">", "&", '"', "'", "/", " ", "\x01", "x", "\x80", "0", "=", "!", "\0", "\n"]
ODD_NUMBERS = ["", "0", "00", "-0", " 0", "0.0", " 1", "1 ", "+1", "-1", "1.0", "x", "65535", "65536", "1000000", "1000001",
               "100000000", "4294967297", "18446744073709551617", "9" * 40, "0" * 40 + "1", "cid:1", "pid:65535", "cid:0", "cid:65536",
               "gid:1", "CID:1", "2.2"]
ODD_TIMES = ["1970-01-01T00:00:00Z", "1969-12-31T23:59:59Z", "2096-10-02T07:06:40Z", "2096-10-02T07:06:41Z", "2096-10-03T00:00:00Z",
             "2000-02-29T00:00:00Z", "2001-02-29T00:00:00Z", "2096-02-29T23:59:59Z", "2100-02-29T00:00:00Z", "2000-02-30T00:00:00Z",
             "2000-04-31T00:00:00Z", "2000-13-01T00:00:00Z", "2000-01-01T24:00:00Z", "2000-01-01T00:60:00Z", "2000-01-01T00:00:60Z",
             "2000-01-01T00:00:00", "2000-00-01T00:00:00Z", "2000-01-00T00:00:00Z"]
ODD_DURATIONS = ["P", "PT", "P1DT", "PT0S", "P0D", "P0DT", "P0", "P0M", "PT0S0M", "PT0D", "-P0D",
                 "PT100000000S", "PT100000001S", "P1157DT9H46M40S", "P1157DT9H46M41S", "P1158D", "P1M", "PT1M1H", "PT1S1M",
                 "PT1H1S", "P1D1H", "P1DT1S", "PT27777H46M40S", "PT1666667M", "p1d", "P1Y", "PT1.5S"]
ODD_TAGS = ["<a/>", "<a>", "</a>", "<o-ex:constraint/>", "<o-dd:play/>", "<o-dd:print/>", "<o-ex:permission/>", "<o-ex:asset/>",
            "<ds:KeyInfo/>", "<o-ex:context>", "<o-dd:version>2.2</o-dd:version>", "<o-dd:count>5</o-dd:count>", "<!-- -->",
            "<?x?>", "&amp;", "x", " ", "\n",
            "<o-dd:datetime/>", "</o-ex:rights>", "<o-dd:uid>cid:1</o-dd:uid>", "<o-ex:permission><o-dd:play/></o-ex:permission>"]
ODD_ATTRIBUTES = [' o-ex:id="x"', ' o-ex:id="id1"', ' o-ex:idref="id1"', " o-ex:idref='x'", ' oma-dd:timer="30"',
                  ' oma-dd:timer="1000001"', ' oma-dd:timer="0"', ' a="1"', ' a="1" a="2"', " a='&amp;'", ' a="<"', " a=1", " a",
                  ' id="id1"', ' a=""', " a='\x02'", "\n", "&"]


def broken_tags(rng, text):
    """Tags, or the text between them, dropped, doubled, moved, exchanged or put in."""
    pieces = PIECES.findall(text)
    for _ in range(rng.choice((1, 1, 1, 2))):
        at, other = rng.randrange(len(pieces)), rng.randrange(len(pieces))
        how = rng.randrange(6)
        if how == 0 and len(pieces) > 1:
            del pieces[at]
        elif how == 1:
            pieces.insert(at, pieces[at])
        elif how == 2:
            pieces.insert(other, pieces.pop(at))
        elif how == 3:
            pieces[at], pieces[other] = pieces[other], pieces[at]
        elif how == 4:
            pieces.insert(at, rng.choice(ODD_TAGS))
        else:
            pieces[at] = rng.choice(ODD_TAGS)
    return "".join(pieces)


def broken_elements(rng, text):
    """Whole elements dropped, doubled, moved or exchanged: the text stays well formed."""
    pieces = PIECES.findall(text)
    spans, open_at = [], []
    for place, piece in enumerate(pieces):
        if piece.startswith("</"):
            spans.append((open_at.pop(), place + 1))
        elif piece.startswith("<"):
            if piece.endswith("/>"):
                spans.append((place, place + 1))
            else:
                open_at.append(place)
        if not open_at and spans:
            break
    start, end = rng.choice(spans)
    element = pieces[start:end]
    how = rng.randrange(5)
    if how == 0:
        del pieces[start:end]
    elif how == 1:
        pieces[start:start] = element
    elif how == 2:
        del pieces[start:end]
        at = rng.randrange(len(pieces) + 1)
        pieces[at:at] = element
    elif how == 3:
        at = rng.randrange(len(pieces) + 1)
        pieces[at:at] = element
    else:
        pieces[start:end] = [rng.choice(ODD_TAGS)]
    return "".join(pieces)


def broken_attributes(rng, text):
    pieces = PIECES.findall(text)
    tags = [place for place, piece in enumerate(pieces) if piece[0] == "<" and piece[1:2] != "/"]
    place = rng.choice(tags)
    tag = pieces[place]
    if some(rng, 0.4) and " " in tag:
        name = rng.choice(re.findall(r"\s[^\s=]+", tag) or [" a"])
        how = rng.randrange(4)
        if how == 0:
            tag = tag.replace(name, rng.choice((" id", " o-ex:id", " o-ex:idref", " oma-dd:timer", " x")), 1)
        elif how == 1:
            value = rng.choice(("", "x", "id1", "1", "-1", " "))
            tag = re.sub(r"""(["'])[^"']*["']""", lambda found: found[1] + value + found[1], tag, count=1)
        elif how == 2:
            tag = re.sub(r"""\s[^\s=]+\s*=\s*(["'])[^"']*\1""", "", tag, count=1)
        else:
            tag = re.sub(r"""(\s[^\s=]+\s*=\s*(["'])[^"']*\2)""", r"\1\1", tag, count=1)
    else:
        name_end = re.match(r"<[^\s/>]*", tag).end()
        tag = tag[:name_end] + rng.choice(ODD_ATTRIBUTES) + tag[name_end:]
    pieces[place] = tag
    return "".join(pieces)


def broken_values(rng, text):
    found = list(VALUE.finditer(text))
    if not found:
        return text
    chosen = rng.choice(found)
    name, value = chosen[2], chosen[3]
    if some(rng, 0.3):
        new = value + rng.choice((" ", "0", "x", "")) if some(rng, 0.5) else rng.choice((" ", "0", "\n", "-")) + value
    elif name in ("start", "end"):
        new = rng.choice(ODD_TIMES) if some(rng, 0.6) else a_time(rng)
    elif name in ("interval", "accumulated"):
        new = rng.choice(ODD_DURATIONS) if some(rng, 0.7) else a_duration(rng)
    elif name == "uid" and some(rng, 0.6):
        new = rng.choice(("cid:", "pid:", "", "cid: ", "gid:")) + str(rng.choice((0, 1, 2, 3, 65535, 65536)))
    else:
        new = rng.choice(ODD_NUMBERS)
    return text[:chosen.start(3)] + new + text[chosen.end(3):]


def broken_bytes(rng, text):
    for _ in range(rng.choice((1, 1, 2, 3))):
        at, byte = rng.randrange(len(text) + 1), rng.choice(BYTES) if some(rng, 0.8) else chr(rng.randrange(256))
        how = rng.randrange(3)
        if how == 0:
            text = text[:at] + byte + text[at:]
        elif how == 1:
            text = text[:at] + byte + text[at + 1:]
        else:
            text = text[:at] + text[at + rng.choice((1, 1, 2, 10)):]
    return text


def spliced(rng, text):
    other = Maker(rng).anything()
    if some(rng, 0.3):
        return text[:rng.randrange(len(text) + 1)] + other[rng.randrange(len(other) + 1):]
    one, two = PIECES.findall(text), PIECES.findall(other)
    return "".join(one[:rng.randrange(len(one) + 1)] + two[rng.randrange(len(two) + 1):])


DAMAGE = [broken_tags] * 3 + [broken_elements] * 6 + [broken_attributes] * 5 + [broken_values] * 6 + [broken_bytes] * 2 + [spliced]


def random_text(seed):
    rng = random.Random(seed)
    maker, sort = Maker(rng), rng.random()
    if sort < 0.25:
        return maker.anything()
    if sort < 0.43:
        text = maker.crowded()
        return rng.choice(DAMAGE)(rng, text) if some(rng, 0.25) else text
    text = rng.choice(DAMAGE)(rng, maker.anything())
    if some(rng, 0.15) and text:
        text = rng.choice((broken_values, broken_bytes))(rng, text)
    return text


def small_changes(seed):
    """Short texts cut behind every byte, and with each byte replaced in turn."""
    for turn in itertools.count():
        rng = random.Random(f"{seed} {turn}")
        text = next(text for text in iter(lambda: Maker(rng).anything(), None) if 250 < len(text) < 900)
        for at in range(len(text) + 1):
            yield text[:at]
            for byte in rng.sample(BYTES, 4):
                yield text[:at] + byte + text[at + 1:]


def made_texts(count, seed):
    changes = small_changes(seed)
    for number in range(count):
        made = next(changes) if number % 3 == 0 else random_text(f"{seed} {number}")
        yield made.encode("latin-1")


# ---- Judging

def answer_of(text):
    """(code, elements, image) by the second program."""
    code, elements, book = xml_rights.read(text)
    return code, elements, rights.write(book) if code == 0 else b""


def elements_by_expat(text):
    """The number of elements by Python's XML parser; None where it refuses the text, as it must where rules of XML or of UTF-8 are
    broken that order 1 does not judge."""
    count = 0

    def begin(name, attributes):
        nonlocal count
        count += 1

    parser = expat.ParserCreate()
    parser.StartElementHandler = begin
    try:
        parser.Parse(text, True)
    except expat.ExpatError:
        return None
    return count


def wrong_count(text, elements):
    """What is wrong with the number of elements of an accepted text, or None."""
    signs = text.count(b"<") - text.count(b"</")
    if signs != elements:
        return f"{elements} elements reported, {signs} by the signs < and </"
    parsed = elements_by_expat(text)
    if parsed is not None and parsed != elements:
        return f"{elements} elements reported, {parsed} by Python's XML parser"
    return None


def told(answer):
    code, elements, image = answer
    return f"{code} {elements} {image.hex()[:400]}"


class Program:
    """The process that reads the texts."""

    def __init__(self, path):
        self.process = subprocess.Popen([str(path)], stdin=subprocess.PIPE, stdout=subprocess.PIPE)

    def answers(self, those):
        """The answers to a list of texts."""
        sent = b"".join(len(text).to_bytes(4, "big") + text for text in those)
        writer = threading.Thread(target=self.send, args=(sent,))       # apart, as both pipes may be full at once
        writer.start()
        got = [self.answer() for _ in those]
        writer.join()
        return got

    def send(self, data):
        try:
            self.process.stdin.write(data)
            self.process.stdin.flush()
        except BrokenPipeError:         # the program ended: the answer that is missing tells it
            pass

    def answer(self):
        head = self.process.stdout.read(12)
        if len(head) < 12:
            return None
        code, elements, length = (int.from_bytes(head[at:at + 4], "big") for at in (0, 4, 8))
        return code, elements, self.process.stdout.read(length)

    def close(self):
        """Whether the program ended well."""
        self.process.stdin.close()
        rest = self.process.stdout.read()
        self.process.stdout.close()
        return self.process.wait() == 0 and not rest


def keep(text, name):
    folder = ROOT / "target" / "texts"
    folder.mkdir(parents=True, exist_ok=True)
    (folder / name).write_bytes(text)
    return f"  the text is in {folder / name}"


def compare(program, names, those, codes):
    """Tries these texts; returns what differs first, or None."""
    wanted = [answer_of(text) for text in those]
    for name, text, mine, other in zip(names, those, wanted, program.answers(those)):
        if mine[0] == 0:
            wrong = wrong_count(text, mine[1])
            if wrong:
                return f"{name}: {wrong}\n{keep(text, 'counted.xml')}"
        if other is None:
            return f"{name}: the program ended without an answer\n{keep(text, 'different.xml')}"
        if mine != other:
            return f"{name}:\n  expected {told(mine)}\n  got      {told(other)}\n{keep(text, 'different.xml')}"
        codes[mine[0]] = codes.get(mine[0], 0) + 1
    return None


def batches(count, seed):
    """(names, texts) of the stored cases, then of the made ones."""
    yield [f"stored case {number} ({case[0]})" for number, case in enumerate(texts.cases(), 1)], [case[1] for case in texts.cases()]
    made, number = made_texts(count, seed), 0
    while number < count:
        those = list(itertools.islice(made, BATCH))
        yield [f"seed {seed}, text {number + place + 1}" for place in range(len(those))], those
        number += len(those)


def built():
    sys.path.insert(0, str(ROOT / "tools"))
    from books import library
    from books.words import Trouble
    try:
        library.build("read_texts")
    except Trouble as trouble:
        sys.exit(str(trouble))
    return library.MADE / "read_texts"


def shares(codes):
    tried = sum(codes.values())
    return ", ".join(f"{codes[code]} of {code} ({100 * codes[code] / tried:.1f} %)" for code in sorted(codes))


def on_its_own(count, seed):
    codes, size, parsed = {}, 0, 0
    for text in made_texts(count, seed):
        code, elements, image = answer_of(text)
        if code == 0:
            wrong = wrong_count(text, elements)
            if wrong:
                sys.exit(f"{wrong}\n{keep(text, 'counted.xml')}")
            if rights.read(image)[0] != 0:
                sys.exit(f"the book is not accepted as an image\n{keep(text, 'counted.xml')}")
            parsed += elements_by_expat(text) is not None
        codes[code] = codes.get(code, 0) + 1
        size += len(text)
    print(f"{count} texts, {size // max(count, 1)} bytes on average: {shares(codes)}; "
          f"{parsed} of the accepted ones taken by Python's parser too")


def main():
    words = argparse.ArgumentParser(description=__doc__, formatter_class=argparse.RawDescriptionHelpFormatter)
    words.add_argument("count", type=int)
    words.add_argument("seed", nargs="?", type=int, default=1)
    words.add_argument("--program", help="another program that answers like tools/read_texts.c")
    words.add_argument("--self", action="store_true", dest="alone")
    said = words.parse_args()
    began = time.time()
    if said.alone:
        on_its_own(said.count, said.seed)
        return
    program, codes = Program(said.program or built()), {}
    for names, those in batches(said.count, said.seed):
        wrong = compare(program, names, those, codes)
        if wrong:
            program.process.kill()
            sys.exit(f"after {sum(codes.values())} texts without a difference:\n{wrong}")
    if not program.close():
        sys.exit("the program did not end well after the last text")
    print(f"{sum(codes.values())} texts, seed {said.seed}: {shares(codes)}; {time.time() - began:.0f} s: no difference")


if __name__ == "__main__":
    main()
