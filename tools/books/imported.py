"""A fresh book from an XML rights object (`import`), by the proved reader: what it has, or where the text is at fault and why.

The code, the number of elements and the book are the proved library's. The place and the words of a refusal are the second
program's, where it refuses with the same code.
"""

import rights
import xml_rights

from .files import keep_inputs, kind_of, read_bytes
from .kept import write_book
from .library import read_xml
from .state import asset_words, limit_words, never_words, of_no_use, zeros
from .words import Trouble, kind_name

LONGEST = 4_194_304         # bytes of a text, as for the import program
AROUND = 70                 # characters of the line at fault, in front of the fault and behind it

MEANINGS = {
    40: "the text is not well-formed XML",
    41: "an element, an attribute or a value in it is not accepted",
    42: "it has too many elements, assets or entries",
}


def import_xml(path, following, over=False):
    if following == "-":
        raise Trouble("the book needs the name of a file: standard output is for what it has")
    keep_inputs(following, path)
    text = read_bytes(path, LONGEST + 1)
    if len(text) > LONGEST:
        raise Trouble(f"{path}: the text is longer than {LONGEST:,} bytes")
    code, elements, image = read_xml(text)
    told = xml_rights.judge(text)
    if code != 0:
        raise Trouble(refusal(path, text, code, told))
    write_book(following, image, over)
    for line in made_lines(rights.read(image)[1], elements, told.object):
        print(line)


def refusal(path, text, code, told):
    if told.code != code:
        return f"{path}: refused with {code}: {MEANINGS.get(code, 'an unknown code')}"
    line, column, start = place(text, told.at)
    hint = " (this is a book image already)" if kind_of(text[:4096]) == "a book image" else ""
    return "\n".join([f"{path}: line {line}, column {column}: {code}: {told.why}{hint}", *shown_line(text, start, told.at)])


def place(text, at):
    """The line and the column of this byte, both from 1, and where the line starts. A line ends with its line feed."""
    start = text.rfind(b"\n", 0, at) + 1
    return text.count(b"\n", 0, at) + 1, at - start + 1, start


def shown_line(text, start, at):
    """The line at fault, or the part of it around the fault, and a mark below the byte at fault; nothing for a line of white space."""
    end = text.find(b"\n", at)
    before, behind = text[start:at], text[at:len(text) if end < 0 else end]
    before, behind = plain(before[-4 * AROUND:])[-AROUND:], plain(behind[:4 * AROUND])[:AROUND]
    if (before + behind).strip():
        cut = before.lstrip()
        yield f"    {cut}{behind}".rstrip()
        yield f"    {' ' * len(cut)}^"


def plain(part):
    """Each character for one on the screen; what cannot be shown is a question mark."""
    return "".join(each if each.isprintable() else " " if each in "\t\r" else "?" for each in part.decode(errors="replace"))


def made_lines(book, elements, number):
    yield f"Rights object {number}, {elements} elements"
    yield ""
    yield f"Assets: {len(book.assets)}"
    for asset in book.assets:
        yield f"  {asset.number:>5}  {asset_words(book, asset)}"
    yield ""
    yield f"Entries: {len(book.entries)}"
    for position, entry in enumerate(book.entries):
        useless = f": {never_words(entry)}" if zeros(entry) else "".join(
            f": nobody can use it: {ground}" for ground in of_no_use(book, entry))
        yield f"  {position:>5}  rights object {entry.object}, {kind_name(entry.kind)} of asset {entry.asset}{useless}"
        for line in limit_words(entry):
            yield f"         {line}"
