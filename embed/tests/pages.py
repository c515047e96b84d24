"""Checks docs/FORMAT.md and embed/rights.h against the second program (oracle/rights.py, xml_rights.py) and the saved files of saved.py:
each table of fields with its offsets and widths, the lengths, the XML elements in their order, and the numbers that the header names;
and the numbers of docs/EMBEDDING.md that are not the library's. Prints nothing if everything agrees."""

import re
import sys
import zlib
from pathlib import Path

import saved

ROOT = Path(__file__).resolve().parents[2]
sys.path.insert(0, str(ROOT / "oracle"))
import rights  # noqa: E402
import xml_rights  # noqa: E402

RECORD_FIELDS = [("player", 1), ("number", 8), ("operation", 1), ("asset", 2), ("kind", 1), ("time", 4)]
HEADER_FIELDS = [("mark", 3), ("version", 2), ("assets", 1), ("entries", 1), ("time", 4)] + rights.HEADER_FIELDS
TABLES = [
    ("An event record", RECORD_FIELDS), ("Header", HEADER_FIELDS), ("Asset", rights.ASSET_FIELDS),
    ("Entry", rights.ENTRY_FIELDS), ("Player", rights.PLAYER_FIELDS)]

# the codes of document 01's table, 31, and those of document 02's orders, each with the header's name; the first of each row has the
# number. 30 is a result (a buffer too short) and an answer (a list that is not good)
CODES = [
    (0, "OK"),
    (1, "BAD_REQUEST BAD_PLAYER OUT_OF_LINE NUMBER_USED BAD_TIME CUT_SHORT"),
    (10, "NO_ASSET ALREADY_OPEN NONE_SUITABLE NONE_GRANTABLE NOTHING_OPEN NO_MORE_TIME"),
    (20, "IMAGE_LENGTH IMAGE_MARK IMAGE_VERSION IMAGE_HEADER IMAGE_ASSETS IMAGE_ENTRIES IMAGE_PLAYERS IMAGE_METERS"),
    (30, "SHORT_OUT NOT_THERE"),
    (30, "BAD_LIST"),
    (40, "XML_FORM XML_CONTENT XML_TOO_MANY SWITCHED_OFF NOT_THE_LAST"),
]

# the grounds in the order of embed/tests/seen.py
GROUNDS = "COUNT_SPENT TIMED_SPENT BEFORE_START AFTER_END INTERVAL_OVER SECONDS_SPENT INTERVAL_ZERO SWITCH_OFF THRESHOLD_FULL NUMBERS"

# the limits whose ranges the page tells, each with its flag; a threshold has none
RANGES = {"count": rights.COUNT, "timed": rights.TIMED, "timer": rights.TIMED, "interval": rights.INTERVAL,
          "accumulated": rights.ACCUMULATED, "threshold": 0}

# fields of the second program that have another name in the header
RENAMED = {"answer_until": "until", "begin": "open_begin", "until": "open_until"}


def must(test, what):
    if not test:
        sys.exit(f"pages: {what}")


def page_tables(page):
    for title, fields in TABLES:
        part = re.search(rf"^##+ {title}: (\d+) bytes\n(.*?)(?=^##|\Z)", page, re.M | re.S)
        must(part, f"no table of {title}")
        must(int(part[1]) == sum(width for _, width in fields), f"the length of {title}")
        rows = re.findall(r"^\| (\d+) \| (\d+) \| (\w+) \|", part[2], re.M)
        found = [(int(at), int(width), name) for at, width, name in rows]
        expected, at = [], 0
        for name, width in fields:
            expected.append((at, width, name))
            at += width
        must(found == expected, f"the fields of {title}: {found}")


def section(page, title):
    """What stands under a heading, up to the next one of its depth."""
    part = re.search(rf"^## {title}\n(.*?)(?=^## |\Z)", page, re.M | re.S)
    must(part, f"no section {title}")
    return part[1]


def shown_lines(text):
    """The bytes of each line that begins with bytes in hex."""
    return [bytes.fromhex(line) for line in re.findall(r"^    ((?:[0-9a-f]{2} +)+)", text, re.M)]


def page_ranges(page):
    """The reader accepts what the page's ranges begin and end with, and nothing next to it."""
    book = rights.Book(assets=[rights.Asset(1, 0, 1)])
    for name, flag in RANGES.items():
        row = re.search(rf"^\| \d+ \| 4 \| {name} \| ([0-9,]+) to ([0-9,]+) ", page, re.M)
        must(row, f"no range of {name}")
        least, greatest = (int(number.replace(",", "")) for number in row.groups())
        for number in (max(least - 1, 0), least, greatest, greatest + 1):
            entry = rights.Entry(1, 1, rights.PLAY, flag, **{name: number})
            must(rights.entry_is_good(book, entry) == (least <= number <= greatest), f"{name} {number}")


def page_example(page):
    """The record and the first lines of the image that the page shows."""
    record = re.search(r"^`([0-9a-f ]+)`: player 0, number 1", page, re.M)
    must(record, "no example of a record")
    event = rights.Event(0, 1, rights.BEGIN, 1, rights.PLAY, 1000)
    must(bytes.fromhex(record[1].replace(" ", "")) == rights.encode(event), "the example of a record")
    image = (ROOT / "examples/afternoon/rights.rbk").read_bytes()
    lines = shown_lines(section(page, "An example"))
    must(len(lines) == 7 and image.startswith(b"".join(lines)), "the example of an image")


def page_saved(page):
    """The table of a saved file, whose offsets and widths are sums of numbers, I and 24 L; the sum's example; a saved day."""
    part = section(page, "A saved file: image and lines together")
    rows = re.findall(r"^\| ([0-9IL +]+) \| ([0-9IL ]+) \| (\w+) \|", part, re.M)
    must([(name, width) for _, width, name in rows] == saved.FIELDS, f"the fields of a saved file: {rows}")
    day = ROOT / "examples/metered"
    made = saved.after((day / "rights.rbk").read_bytes(), (day / "events.bin").read_bytes())
    _, image, lines = saved.read(made)
    listed = made[saved.HEAD + len(image):-saved.SUM]
    held = [b"RBS", saved.VERSION.to_bytes(2, "big"), len(image).to_bytes(4, "big"), len(lines).to_bytes(4, "big"), image, listed,
            zlib.crc32(made[:-saved.SUM]).to_bytes(4, "big")]

    def count(words):
        return sum(int(word.replace("24 L", str(24 * len(lines))).replace("I", str(len(image)))) for word in words.split(" + "))

    end = 0
    for (offset, width, name), field in zip(rows, held):
        must(count(offset) == end and made[end:end + count(width)] == field, f"{name} of a saved file")
        end += count(width)
    must(end == len(made) == count(re.search(r"it is (17 \+ I \+ 24 L) bytes long", part)[1]), "the length of a saved file")
    longest = saved.HEAD + saved.LONGEST_IMAGE + saved.LINE * saved.MOST_LINES + saved.SUM
    must(f"at most {longest:,}," in part and f"L, 0 to {saved.MOST_LINES} " in part, "the longest saved file")
    must(f"an I above {saved.LONGEST_IMAGE:,} or an L above {saved.MOST_LINES}," in part, "the greatest I and L")
    example = re.search(r"`(\d+)` is ([0-9a-f]{8})\.", part)
    must(example and zlib.crc32(example[1].encode()) == int(example[2], 16), "the example of a sum")
    head, mark, *rest = shown_lines(part)
    must(made.startswith(head + mark) and made.endswith(b"".join(rest)) and len(rest) == len(lines) + 1, "the example of a saved file")


def page_embedding(page, library):
    """The size of the library on the page, to 5 %."""
    size = re.search(r"libembed\.a \((\d+) KB;", page)
    must(size and abs(int(size[1]) * 1024 - library) <= library / 20, f"the size of the library on the page; it has {library} bytes")


def page_xml(page):
    """The table of XML elements: each element that holds others, with their names in order, and the numbers behind it."""
    part = page.partition("## XML rights objects")[2]
    rows = dict(re.findall(r"^\| (.+?) \| (.*?) \|", part, re.M))
    names = {shape: name.decode() for shape, name in xml_rights.NAMES.items()}
    for shape, line in xml_rights.LINES.items():
        title = "a kind" if shape in xml_rights.KINDS else f"`{names[shape]}`" + " in an agreement" * (shape == "asset")
        children = [names[word.rstrip("?*+")] for word in line.split()]
        shown = re.findall(r"`([a-z-]+:[A-Za-z-]+)`", rows.get(title, ""))
        must(shape == "reference" or [name for name in shown if name != "o-ex:idref"] == children, f"the row of {title}")
    for shape in xml_rights.TEXTS | {"KeyInfo"}:
        must(f"`{names[shape]}`" in part, f"{names[shape]} on the page")
    numbers = (xml_rights.ELEMENTS, xml_rights.DEPTH, xml_rights.MOST, xml_rights.GREATEST_NUMBER, xml_rights.GREATEST_COUNT,
               xml_rights.GREATEST_TIMER, xml_rights.GREATEST_DURATION, xml_rights.ELEMENTS + 1, xml_rights.MOST + 1)
    for number in numbers:
        must(re.search(rf"(?<![0-9,])({number}|{number:,})(?![0-9])", part), f"the number {number:,} on the page")


def header_numbers(header):
    """The header's enums: each name with its number, one more than the previous if none is given."""
    numbers = {}
    for block in re.findall(r"enum \{(.*?)\};", re.sub(r"/\*.*?\*/", "", header, flags=re.S), re.S):
        following = 0
        for word in filter(None, (word.strip() for word in block.split(","))):
            name, _, value = (part.strip() for part in word.partition("="))
            following = int(value) if value else following
            numbers[name] = following
            following += 1
    return numbers


def header_positions(numbers):
    for prefix, fields in (("BOOK", HEADER_FIELDS[2:]), ("ASSET", rights.ASSET_FIELDS), ("ENTRY", rights.ENTRY_FIELDS),
                           ("PLAYER", [("counter", 4)] + rights.PLAYER_FIELDS[1:] + [("boot", 4)])):
        for position, (name, _) in enumerate(fields):
            named = RENAMED.get(name, name) if prefix == "PLAYER" else name
            must(numbers.get(f"RIGHTS_{prefix}_{named.upper()}") == position, f"{prefix} {name} in the header")
        must(numbers[f"RIGHTS_{prefix}_NUMBERS"] == len(fields), f"how many numbers of {prefix}")
    at = 0
    for name, width in RECORD_FIELDS:
        must(numbers.get(f"RIGHTS_RECORD_{name.upper()}") == at, f"the record's {name} in the header")
        at += width
    must(numbers["RIGHTS_RECORD"] == at, "the record's length in the header")


def header_words(numbers):
    for name in ("BEGIN", "CONTINUE", "STOP", "CANCEL", "PLAY", "DISPLAY", "EXECUTE", "PRINT", "EXPORT", "PLAYERS"):
        must(numbers[f"RIGHTS_{name}"] == getattr(rights, name), name)
    for name in ("COUNT", "TIMED", "START", "END", "INTERVAL", "ACCUMULATED"):
        must(numbers[f"RIGHTS_HAS_{name}"] == getattr(rights, name), name)
    for position, name in enumerate(GROUNDS.split()):
        must(numbers.get(f"RIGHTS_GROUNDS_{name}") == position, f"the ground {name} in the header")
    must(numbers["RIGHTS_LINES"] == rights.LINES == saved.MOST_LINES, "the most lines of a list")
    longest = rights.write(rights.Book(0, [rights.Asset()] * rights.MOST, [rights.Entry()] * rights.MOST))
    must(numbers["RIGHTS_LONGEST_IMAGE"] == len(longest) == saved.LONGEST_IMAGE, "the longest image")
    for first, names in CODES:
        for code, name in enumerate(names.split(), first):
            must(numbers.get(f"RIGHTS_{name}") == code, f"code {code} in the header")


def words_on_callers(header, module):
    """What a caller is told beside rights_left and rights_grounds, which tests/header.c tries, and of the languages."""
    for name in ("left", "grounds"):
        in_c = re.search(rf"/\*(?:(?!\*/).)*\*/\s*enum \{{\s*RIGHTS_{name.upper()}_(?:(?!\}};).)*\}};", header, re.S)
        in_rust = re.search(rf"((?:///[^\n]*\n)+)pub fn {name}\(", module)
        for text in (in_c, in_rust):
            text = re.sub(r"\s+(\*|///)?\s*", " ", text[0]) if text else ""
            must("a time after 4,000,000,000" in text.lower() and re.search("an event then gets 5|one at such a time 5", text),
                 f"late times beside {name}")
            must(name == "left" or "any player number is taken" in text and "an event of player 16 or more gets 2" in text,
                 f"players beside {name}")
    must("needs C99 or later, or C++11 or later" in header, "the header's language")
    must("Needs Rust 1.82 or later" in module, "the module's language")


def main():
    page = (ROOT / "docs/FORMAT.md").read_text()
    header, module = ((ROOT / "embed" / name).read_text() for name in ("rights.h", "rust/rights.rs"))
    numbers = header_numbers(header)
    page_tables(page)
    page_ranges(page)
    page_example(page)
    page_saved(page)
    page_xml(page)
    page_embedding((ROOT / "docs/EMBEDDING.md").read_text(), (ROOT / "target/staticlib/libembed.a").stat().st_size)
    words_on_callers(header, module)
    header_positions(numbers)
    header_words(numbers)


if __name__ == "__main__":
    main()
