"""Saved files (docs/FORMAT.md, "A saved file"), made and read by the second program (oracle/rights.py) and zlib, apart from the C and
Rust ones:

    python3 embed/tests/saved.py after BOOK EVENTS       writes the saved file after these events to standard output; BOOK is a book
                                                         image, with lines of zeros, or a saved file
    python3 embed/tests/saved.py bill SAVED              its lines, as examples/metered/bill.csv has them
    python3 embed/tests/saved.py cases SAVED CASES       writes files that are damaged, cut or otherwise not accepted to CASES, each
                                                         with its length in 4 bytes in front, and prints for each what is wrong
    python3 embed/tests/saved.py tried EXAMPLE SAVED FOLDER
                                                         runs the C program on each case, without events: it must refuse it, say why,
                                                         and leave every file as it is, or save a good one again as it is. Prints
                                                         nothing if it does
"""

import subprocess
import sys
import zlib
from pathlib import Path

from seen import parts

sys.path.insert(0, str(Path(__file__).resolve().parents[2] / "oracle"))
import rights  # noqa: E402

MARK, VERSION, MOST_LINES, LONGEST_IMAGE = b"RBS", 1, 64, 5399
HEAD, LINE, SUM = 13, 24, 4
FIELDS = [("mark", "3"), ("version", "2"), ("image_length", "4"), ("line_count", "4"), ("image", "I"), ("lines", "24 L"), ("sum", "4")]


def big(number, width):
    return (number % 256 ** width).to_bytes(width, "big")


def summed(data):
    return data + big(zlib.crc32(data), SUM)


def written(image, lines, mark=MARK, version=VERSION, image_length=None, line_count=None):
    """The bytes of a saved file; a head that tells something else makes a bad one whose sum is right."""
    listed = b"".join(big(number, 8) for line in lines for number in (line.content, line.times, line.seconds))
    image_length = len(image) if image_length is None else image_length
    line_count = len(lines) if line_count is None else line_count
    return summed(mark + big(version, 2) + big(image_length, 4) + big(line_count, 4) + image + listed)


def read(data):
    """("", the image, its lines) or (what is wrong with the bytes, None, None)."""
    number = rights.number_of
    if data[:3] != MARK:
        return "mark", None, None
    if len(data) < HEAD + SUM:
        return "length", None, None
    if number(data[3:5]) != VERSION:
        return "version", None, None
    image, count = number(data[5:9]), number(data[9:13])
    if image > LONGEST_IMAGE or count > MOST_LINES or len(data) != HEAD + image + LINE * count + SUM:
        return "length", None, None
    if data != summed(data[:-SUM]):
        return "sum", None, None
    listed = data[HEAD + image:-SUM]
    lines = [rights.Line(*(number(listed[at + k:at + k + 8]) for k in (0, 8, 16))) for at in range(0, len(listed), LINE)]
    return "", data[HEAD:HEAD + image], lines


def judged(data):
    """What is wrong with a saved file, in the words of calls.rs, or "whole"."""
    fault, image, lines = read(data)
    if fault:
        return fault
    code, book = rights.read(image)
    if code != 0:
        return f"the book of the saved file is refused: Image({code})"
    return "whole" if rights.list_is_good(book, lines) else "the lines of the saved file do not fit its book"


def after(data, records):
    fault, image, lines = read(data) if data.startswith(MARK) else ("", data, None)
    code, book = rights.read(image)
    if fault or code != 0:
        sys.exit(f"saved: this is not accepted: {fault or code}")
    lines = rights.zeros(book) if lines is None else lines
    for record in rights.records_in(records):
        rights.answer_record(book, record, lines)
    return written(rights.write(book), lines)


def bill(data):
    print("content,times,hours,seconds")
    for line in read(data)[2]:
        if line.times or line.seconds:
            hours, minutes, seconds = line.seconds // 3600, line.seconds // 60 % 60, line.seconds % 60
            print(f"{line.content},{line.times},{hours}:{minutes:02}:{seconds:02},{line.seconds}")


def cases(data):
    """The saved file as it is, and what is not accepted in its place."""
    fault, image, lines = read(data)
    assert not fault and len(lines) > 1
    count, body, first, more = len(lines), data[:-SUM], lines[0], rights.Line(77, 1, rights.GREAT - 1)
    yield data
    # each byte damaged, wholly and in a bit; each length that it can be cut to; a byte more
    for at, byte in enumerate(data):
        for change in (0xff, 1 << at % 8):
            yield data[:at] + bytes([byte ^ change]) + data[at + 1:]
        yield data[:at]
    yield data + b"\0"
    # one thing wrong in a file whose sum is right
    yield from (written(image, lines, mark=mark) for mark in (b"RBK", b"RBT", b"rbs"))
    yield from (written(image, lines, version=version) for version in (0, 2, 256))
    yield from (written(image, lines, image_length=len(image) + k) for k in (-1, 1))
    yield from (written(image, lines, line_count=count + k) for k in (-1, 1))
    yield from (written(image, lines, image_length=2 ** 32 - 1), written(image, lines, line_count=2 ** 32 - 1))
    # lengths that give the right one in 32 bits
    over = len(image) // LINE + 1
    yield written(image, lines, image_length=len(image) - LINE * over, line_count=count + over)
    yield written(image, lines, line_count=count + 2 ** 29)
    yield written(image, lines + [more] * (MOST_LINES + 1 - count))
    yield written(image + bytes(LONGEST_IMAGE + 1 - len(image)), lines)
    # another sum: not inverted, in the other byte order, none
    yield from (body + big(zlib.crc32(body) ^ 0xffffffff, SUM), body + data[:-SUM - 1:-1], body + bytes(SUM), summed(data))
    # a head that tells another image and other lines of the same bytes, an image that is none, lines that do not fit
    yield from (written(image, lines, image_length=len(image) + LINE * k, line_count=count - k) for k in (-1, 1))
    yield from (written(other, lines) for other in (b"", b"RBK", data[:LINE], image[:-1], image + b"\0", b"x" + image[1:]))
    yield from (written(image, other) for other in ([], lines[:-1], lines[1:], lines[::-1], [first] * count))
    for number in (rights.GREAT, 2 ** 64 - 1):
        yield from (written(image, [rights.Line(*numbers)] + lines[1:])
                    for numbers in ((first.content, number, 0), (first.content, 0, number), (number, 0, 0)))
        yield written(image, lines + [rights.Line(number)])
    # good: further lines, up to 64 of them in all
    yield written(image, lines + [more])
    yield written(image, lines + [more] * (MOST_LINES - count))


SAYS = {"version": "damaged, or of a later version than 1", "length": "damaged: its length is not the one that it tells",
        "sum": "damaged: its check sum is wrong"}


def said_by_example(data):
    """What the C program says of a case. Bytes without the mark are taken for an image."""
    fault, image, lines = read(data)
    if fault == "mark":
        return f"the image is refused: {rights.read(data)[0]}"
    if fault == "length" and len(data) < HEAD + SUM:
        return "damaged: it is cut short"
    code = 0 if fault else rights.read(image)[0]
    return SAYS.get(fault) or (f"the image is refused: {code}" if code else "the lines of the saved file do not fit its book")


def runs(command, expected, files):
    """The command fails with one line that has these words, or with None does not fail. It prints nothing, and leaves these files and no
    others in their folder."""
    done = subprocess.run(command, capture_output=True)
    said = done.stderr.decode()
    good = said == "" if expected is None else said.startswith("example: ") and expected in said and said.count("\n") == 1
    if (done.returncode, done.stdout) != (int(expected is not None), b"") or not good:
        sys.exit(f"saved: {command} gives {done.returncode} {done.stdout} {said!r}, not {expected!r}")
    if files != {path: path.read_bytes() for path in next(iter(files)).parent.iterdir()}:
        sys.exit(f"saved: {command} left other files")


def tried(example, data, folder):
    kept, other = folder / "kept.rbs", folder / "other.rbs"
    for number, case in enumerate(cases(data)):
        kept.write_bytes(data)
        other.write_bytes(case)
        whole = judged(case) == "whole"
        after_it = {kept: data, other: case}
        runs([example, other, "/dev/null", other if whole else kept], None if whole else said_by_example(case), after_it)
        if case and read(case)[0] and number % 3 == 0:
            runs([example, kept, "/dev/null", other], "is there and is not replaced", after_it)


def main():
    what, *names = sys.argv[1:]
    if what == "after":
        sys.stdout.buffer.write(after(*(Path(name).read_bytes() for name in names)))
    elif what == "bill":
        bill(Path(names[0]).read_bytes())
    elif what == "cases":
        found = list(cases(Path(names[0]).read_bytes()))
        Path(names[1]).write_bytes(b"".join(big(len(case), 4) + case for case in found))
        assert list(parts(Path(names[1]).read_bytes(), 4)) == found
        print(*map(judged, found), sep="\n")
    else:
        tried(names[0], Path(names[1]).read_bytes(), Path(names[2]))


if __name__ == "__main__":
    main()
