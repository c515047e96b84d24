"""Writing books and event records so that nothing that a user had is lost.

A book replaces an empty file, and a book that nobody has used and that has no later time. Event records replace no file: an empty one may
be what a running server appends to. With --over anything is replaced, and the old file is kept as NAME.old. An input of the same
command is never replaced (files.keep_inputs).
"""

import rights

from .files import kind_of, write_bytes
from .words import date


def write_book(path, image, over=False):
    write_bytes(path, image, lambda there: lost_by_book(there, rights.read(image)[1]), over)


def write_records(path, records, over=False):
    write_bytes(path, records, lost_by_records, over)


def lost_by_records(there):
    named = {"empty": "an empty file", "bytes": "a file"}
    kind = kind_of(there)
    return f"{named.get(kind, kind)} is there already, and event records never replace a file"


def lost_by_book(there, book):
    """What would be lost if this book replaced the file that begins with these bytes; None if nothing."""
    kind = kind_of(there)
    if kind == "empty":
        return None
    if kind != "a book image":
        return f"{'a file of another kind' if kind == 'bytes' else kind} is there already, which a book does not replace"
    code, old = rights.read(there)
    if code != 0:
        return f"a book image is there already that is not accepted ({code}), so what it holds is not known"
    if is_used(old):
        return f"a book in use is there already (its time is {date(old.time)}), which would be lost"
    if old.time > book.time:
        return f"a book of a later time is there already ({date(old.time)}; this one's is {date(book.time)})"
    return None


def is_used(book):
    """Whether something was asked or used in it."""
    meters = any(entry.used_count or entry.used_timed or entry.used_seconds or entry.started for entry in book.entries)
    return meters or any(player.number for player in book.players)
