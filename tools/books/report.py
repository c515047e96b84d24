"""The usage of each content over a day (`report`), as a bill for whoever is owed royalties."""

from .files import read_image
from .library import played, say_tally
from .records import read_records
from .words import Trouble, when


def report(path, events, csv=False):
    if path == events == "-":
        raise Trouble("only one of the two files can be standard input")
    image = read_image(path)
    day = played(path, image, read_records(events))
    for line in csv_lines(day) if csv else bill(day):
        print(line)
    say_tally(events, day)


def contents(day):
    """The lines of the report that an issuer asks about: those of assets with a key, and others that have something."""
    book, _ = day.books()
    return [line for line in day.lines if line.times or line.seconds or book.asset(line.content).key]


def clock(seconds):
    """Hours, minutes and seconds: 1:05:09."""
    return f"{seconds // 3600}:{seconds // 60 % 60:02}:{seconds % 60:02}"


def csv_lines(day):
    yield "content,times,hours,seconds"
    for line in contents(day):
        yield f"{line.content},{line.times},{clock(line.seconds)},{line.seconds}"


def bill(day):
    book, after = day.books()
    yield f"Usage from {when(book.time)} to {when(after.time)}, UTC"
    yield ""
    yield row("content", "times", "hours", "seconds")
    listed = contents(day)
    for line in listed:
        yield row(line.content, line.times, clock(line.seconds), line.seconds)
    times, seconds = sum(line.times for line in listed), sum(line.seconds for line in listed)
    yield row("all", times, clock(seconds), seconds)
    notes = list(remarks(after))
    if notes:
        yield ""
    yield from notes


def row(content, times, hours, seconds):
    return f"{content:>7}  {times:>8}  {hours:>12}  {seconds:>12}"


def remarks(book):
    """What the sums leave out."""
    if not book.switch:
        yield "Metering is off in this book: nothing is recorded."
        return
    if not any(entry.tracked for entry in book.entries):
        yield "No entry of this book is tracked: nothing is recorded."
    uses = [player for player in book.players if player.open and book.entries[player.open_entry].tracked]
    if uses:
        yield f"Still open, and not in it: {len(uses)} use{'s' * (len(uses) > 1)} of tracked entries."
