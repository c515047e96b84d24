"""The end of a day (`close`): its bill, its archive and the next book, all or nothing.

What was closed is a folder beside the book, closed-DATE, with the bill, the records, their answers, and the books before and after them.
It is made whole under another name and renamed; then the next book takes the place of the book, which is the moment at which the day is
closed; then the file of records goes, whose copy is in the archive. Ended before that moment, `close` can be called again as if it had
not been; ended after it, a second call says that the day is closed already.
"""

import itertools
import os
import shutil
import stat
import sys
import tempfile
from contextlib import ExitStack
from pathlib import Path

from .files import IMAGE_MOST, alone_in, keep_inputs, kind_of, read_bytes, read_image, reason, sync_folder, umask, write_beside
from .library import played
from .records import began_with, read_records, same_book
from .report import bill, csv_lines
from .words import Trouble, date


def close(book, events, sure=False):
    if "-" in (book, events):
        raise Trouble("close needs the names of two files: the book with which the records began, and the records")
    keep_inputs(events, book)
    place, source = os.path.realpath(book), os.path.realpath(events)
    folder = os.path.dirname(place)
    with ExitStack() as held:
        for each in sorted({folder, os.path.dirname(source)}):
            held.enter_context(alone_in(each))
        records = read_records(events)
        if not records:
            raise Trouble(f"{events}: there are no requests in it, so there is nothing to close")
        if kind_of(read_bytes(book, IMAGE_MOST)) == "a saved book with its lines":
            raise Trouble(f"{book}: its server keeps the lines of the report in this file, so it has no day to be closed from records")
        day = played(book, read_image(book), records)
        name = unfinished(folder, book, events, day)
        made = None
        if name is None:
            refuse_other_book(book, events, day, sure)
            name = made = archived(folder, day)
        put_next(place, day.image, made and os.path.join(folder, made))
        left_over = remove_recorded(events)
    for line in bill(day):
        print(line)
    where = os.path.join(os.path.dirname(book), name)
    print(f"\n{book} is the next book. {where} has this bill, the records with their answers, and the books before and after:")
    for each in sorted(os.listdir(os.path.join(folder, name))):
        print(f"  {each}")
    sys.stdout.flush()
    print(f"{events}: {day.tally().words()}", file=sys.stderr)
    if left_over:
        raise Trouble(f"{events}: the day is closed, but this file could not be removed: {left_over}. Remove it: {where} has it")


# ---- Whether records and book belong together

def refuse_other_book(book, events, day, sure):
    began = began_with(events)
    if began is None:
        doubt = day.tally().doubt()
        if doubt and not sure:
            raise Trouble(f"{events}: {doubt} Nothing was closed; if it is, give --sure.")
    elif not same_book(began, day.before):
        raise Trouble(f"{other_book(book, events, day.before, day.records)}. Nothing was closed.")


def other_book(book, events, image, records):
    """How this book differs from the one with which the records began."""
    beside = Path(events).with_suffix(".rbk")
    if same_book(played(beside, beside.read_bytes(), records).image, image):
        return f"{events}: these requests are in {book} already, which is the book after them"
    return f"{events}: these requests began with the book {beside}, and {book} is another one"


# ---- The archive

def closed_with(folder, records):
    """The folders of closed days that have these very records, and both books."""
    for path in sorted(Path(folder).glob("closed-*/events-*.bin")):
        whole = all(part_of(path.parent, part).exists() for part in ("book", "next"))
        if whole and path.stat().st_size == len(records) and path.read_bytes() == records:
            yield path.parent


def unfinished(folder, book, events, day):
    """The name of the archive of a `close` of this book and these records that was ended before the book was replaced."""
    for path in closed_with(folder, day.records):
        before, following = (part_of(path, part).read_bytes() for part in ("book", "next"))
        if before == day.before and following == day.image:
            return path.name
        if same_book(following, day.before):
            raise Trouble(f"{events}: these records are closed already: {path.name} has them, and {book} is the book after them")
    return None


def part_of(path, part):
    return path / f"{part}-{path.name.removeprefix('closed-')}.rbk"


def archived(folder, day):
    """Makes the archive; returns its name."""
    _, after = day.books()
    stamp = free_stamp(folder, date(after.time)[:10])
    parts = {f"book-{stamp}.rbk": day.before, f"events-{stamp}.bin": day.records, f"answers-{stamp}.txt": day.answers,
             f"next-{stamp}.rbk": day.image, f"bill-{stamp}.txt": text_of(bill(day)), f"bill-{stamp}.csv": text_of(csv_lines(day))}
    made = None
    try:
        made = tempfile.mkdtemp(prefix=".closed-", dir=folder)
        for name, data in parts.items():
            with open(os.path.join(made, name), "xb") as file:
                file.write(data)
                file.flush()
                os.fsync(file.fileno())
        os.chmod(made, 0o777 & ~umask())
        sync_folder(made)
        os.rename(made, os.path.join(folder, f"closed-{stamp}"))
    except OSError as problem:
        if made:
            shutil.rmtree(made, ignore_errors=True)
        raise Trouble(f"{folder}: not closed: {reason(problem)}; everything is as it was") from None
    sync_folder(folder)
    return f"closed-{stamp}"


def text_of(lines):
    return "".join(f"{line}\n" for line in lines).encode()


def free_stamp(folder, day):
    """The day, with a number behind it where it has been closed before."""
    for count in itertools.count(1):
        stamp = day if count == 1 else f"{day}-{count}"
        if not os.path.lexists(os.path.join(folder, f"closed-{stamp}")):
            return stamp


def put_next(place, image, archive):
    """Puts the next book in the book's place; if that fails, the archive that was just made for it goes."""
    try:
        write_beside(place, image, stat.S_IMODE(os.stat(place).st_mode))
    except OSError as problem:
        if archive:
            shutil.rmtree(archive, ignore_errors=True)
        raise Trouble(f"{place}: not closed: {reason(problem)}; everything is as it was") from None


def remove_recorded(events):
    """The records, and the book with which they began, are in the archive. Returns why they could not be removed, or None."""
    known = began_with(events) is not None
    try:
        os.unlink(events)
        if known:
            os.unlink(Path(events).with_suffix(".rbk"))
        return None
    except OSError as problem:
        return reason(problem)
