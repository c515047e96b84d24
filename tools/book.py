#!/usr/bin/env python3
"""Makes and shows the files that the rights server reads. A helper, not proved.

    tools/book.py left BOOK                       what is left of each entry, now or with --at TIME, a line for each
    tools/book.py why BOOK PLAYER ASSET KIND      why a begin would be granted or refused, now or with --at TIME
    tools/book.py close BOOK EVENTS               the end of a day: its bill, the next book in BOOK's place, an archive
    tools/book.py after BOOK EVENTS NEXT          the book after these events, into NEXT; prints their answers
    tools/book.py report BOOK EVENTS [--csv]      what these events used: times, hours and seconds of each content
    tools/book.py diff BOOK BOOK                  what differs between two books; nothing if they are the same
    tools/book.py show BOOK                       all that a book says, in words
    tools/book.py explain EVENTS ANSWERS          each event in words, and what its answer means
    tools/book.py import RIGHTS.XML BOOK          a fresh book from an XML rights object; prints what it has
    tools/book.py make BOOK.TXT BOOK              a book from its text
    tools/book.py text BOOK                       a book as text, to change and to `make`
    tools/book.py events EVENTS.TXT EVENTS        event records from their text
    tools/book.py widen OLD EVENTS                event records of 17 bytes from those of 13, as players sent them before order 4

BOOK is a book image (rights.rbk), or a file in which a server keeps image and lines together; EVENTS is a file of event records,
ANSWERS what the server printed for them. A file named - is standard input or output.

Nothing that was there is lost. A write that fails leaves the old file, and an input is never written over. A book replaces an empty file,
or a book that nobody has used and that has no later time; it replaces no used book, no book of a later time, and no file of another kind.
Event records never replace a file. With --over, `make`, `import`, `after`, `events` and `widen` replace whatever is there and keep it
as NAME.old (NAME.old.2 and so on, where that is taken). A file that has the same bytes already stays as it is.

The server (target/bin/run) only reads its book; tools/serve starts it and records its requests. `after` gives the book as it is after a
day, from the proved library, which it builds if it is missing (that needs rt and a C compiler). `left` and `why` go by this machine's
clock; uses that have ended by then are counted as ended. A time before the book's time is judged at the book's time. `why` tells
the answer that a begin would get and, for each entry that is suitable, what stands against it, both from that library. With
--after EVENTS, `left`, `why` and `show` tell of the book after these events, as of a day that is not over, and write nothing; several
such files are given in turn, each with --after.

`report` is the bill for royalties of a day: BOOK is the book in the morning. It has the uses of tracked entries that ended in the
day, if metering is on in the book; one that is open at the end counts in the report of the day in which it ends. Its sums are those
of the proved library. `--csv` prints them with commas and no words: content,times,hours,seconds.

`close` is the evening's command, once the server has ended: BOOK is the book in the morning, EVENTS the day's records. It makes the
folder closed-DATE beside BOOK, DATE being that of the last request taken, with bill-DATE.txt and .csv, events-DATE.bin, answers-DATE.txt
and the books before and after (book-DATE.rbk, next-DATE.rbk), puts the next book in BOOK's place, and removes EVENTS, which the folder
has: all of it or nothing. Records that do not go on from BOOK are refused, with the reason; if BOOK is the right one all the same, give
--sure. `after`, `report` and `close` say on standard error how many requests were granted, refused and turned away, by code, and how many
were sent again; where most of them, or the first ones of most players, do not go on from the book, `after` and `report` ask whether it
is the right one.

`import` reads an XML rights object as issuers send it (docs/FORMAT.md), with that library too. A text that is not accepted
writes nothing and is told with its line and column (in bytes), the code and why: `rights.xml: line 12, column 21: 41: the
count "2000000" is not a number from 0 to 1,000,000`.

Exit status: 0; 1 from `diff` if the books differ; 2 if something is wrong, or if the answers that `explain` is given cannot be those to
the events.

The text of a book, one thing a line; `#` starts a comment, commas and colons may be left out:

    time 2026-12-24T08:00:00             the book's time; 0 if not given
    metering on                          ended uses of tracked entries are reported; off if not given
    asset 9 parent                       others may inherit from it; it is never shown itself
    asset 1 key, inherits 9              has a key; what 9 has may be used for it too
    asset 3 key                          has a key, inherits from nothing
    asset 7 inherits 9                   inherits but has no key: illegal, never used
    entry 0: object 1, asset 9, play, count 2
    entry 1: object 1, asset 9, play, accumulated 2h
    entry 2: object 1, asset 1, display, timed 1, timer 30
    entry 3: object 2, asset 3, play, start 2026-12-01, end 2027-04-30, interval 7d
    entry 4: object 2, asset 3, display, tracked, timed value 30, mark
    entry 5: object 3, asset 9, play, threshold 3

Entries are numbered from 0 in order. Kinds: play, display, execute, print, export. An entry without a limit may be
used without end; one with a count, timed, interval or accumulated of 0 is never granted. A tracked entry is in the report,
where a use is a time from the timed value on (from its begin if there is none); with metering off it is granted only with
a mark (contentAccessGranted). With a threshold, from 1 to 16, at most so many players have the entry open together; who has it
open stands with the players. An entry that was used before goes on with `used count 1`, `used timed 1`, `used accumulated 90`
and `first TIME` (when its interval started). A player that has asked before:

    player 0: number 2, continue, granted 0 1119, open 0 1000 1119 content 1
    player 4: number 1, begin 1 play, refused 13
    latest player 0

that is its last number and request, the answer (granted ENTRY UNTIL, or refused CODE; UNTIL is the time of a stop, and the begin of
the use that a cancel took back), and the open use, if there is one (open ENTRY BEGIN UNTIL, then content ASSET, the asset asked
for, which only an open use of an untracked entry may lack).
A number is the player's counter alone, or BOOT.COUNTER, as 3.1, if the player puts a boot number before it; one number, boot
number times 2 to the 32 plus counter, is read too. The latest player is that of the event taken last, with `started an interval`
behind it if that was a begin that opened a use and started its entry's interval with it; none if not given, and then no begin in the
book can be taken back.

The text of events, one a line, player and number with a dot between:

    0.1 begin 1 play 1000                player 0, number 1, asks to play asset 1, at 1000
    0.2 continue 1059
    0.3.1 stop 1070                      player 0, counter 1 under boot number 3
    2.2 stop 2026-12-24T18:30:00
    0.3.3 cancel 1085                    takes back what player 0 began last, if nothing was taken since
    raw 10 0000000000000001 03 0000 00 00000430     the bytes of a record, for trying out bad ones; only the last may be cut

Times are seconds since 1970 or a date in UTC: 2026-12-24, 2026-12-24T18:30:00, or as `show` prints it,
2026-12-24 18:30:00 (1798137000). A date alone is the first second of that day; after `end` it is the last, 23:59:59.
Lengths are seconds, or numbers with s, min (or m), h, d: 90, 7d, 2h30m, 1 h 30 min.
"""

import os
import re
import sys

from books.closing import close
from books.imported import import_xml
from books.library import after
from books.records import events, explain, widen
from books.report import report
from books.state import diff, left, show
from books.texts import make, text
from books.why import why
from books.words import Trouble

COMMANDS = {
    "left": (left, "BOOK [--at TIME] [--after EVENTS]"), "why": (why, "BOOK PLAYER ASSET KIND [--at TIME] [--after EVENTS]"),
    "after": (after, "BOOK EVENTS NEXT [--over]"), "report": (report, "BOOK EVENTS [--csv]"), "close": (close, "BOOK EVENTS [--sure]"),
    "diff": (diff, "BOOK BOOK"), "show": (show, "BOOK [--after EVENTS]"), "explain": (explain, "EVENTS ANSWERS"),
    "import": (import_xml, "RIGHTS.XML BOOK [--over]"), "make": (make, "BOOK.TXT BOOK [--over]"), "text": (text, "BOOK"),
    "events": (events, "EVENTS.TXT EVENTS [--over]"), "widen": (widen, "OLD EVENTS [--over]")}


def run(words):
    """Runs the command in the words; returns the exit status."""
    if not words or "--help" in words or words[0] in ("-h", "help"):
        print(__doc__.strip())
        return 0
    name, words = words[0], words[1:]
    if name not in COMMANDS:
        raise Trouble(f"`{name}` is not a command; the commands are: {', '.join(COMMANDS)} (and --help)")
    command, usage = COMMANDS[name]
    options = {}
    while "[--after EVENTS]" in usage and "--after" in words[:-1]:
        at = words.index("--after")
        options.setdefault("after", []).append(words[at + 1])
        words = words[:at] + words[at + 2:]
    if "[--at TIME]" in usage:
        words, time = take_time(words)
        options.update(time)
    for option in re.findall(r"\[--(\w+)\]", usage):
        if f"--{option}" in words:
            words.remove(f"--{option}")
            options[option] = True
    wanted = usage.split(" [")[0].split()
    if len(words) != len(wanted) or any(word.startswith("--") for word in words):
        raise Trouble(f"usage: book.py {name} {usage} (see --help)")
    return int(command(*words, **options) or 0)


def take_time(words):
    """The words without --at TIME, and that time."""
    for at, word in enumerate(words):
        if word.startswith("--at="):
            return words[:at] + words[at + 1:], {"at": word.removeprefix("--at=")}
        if word == "--at" and at + 1 < len(words):
            end = at + 2
            while end < len(words) and re.fullmatch(r"[0-9]{2}:[0-9:]+Z?|UTC|\([0-9]+\)", words[end]):
                end += 1        # a time of several words, without quotes
            return words[:at] + words[end:], {"at": " ".join(words[at + 1:end])}
    return words, {}


def main():
    sys.stdout.reconfigure(errors="backslashreplace")
    try:
        status = run(sys.argv[1:])
        sys.stdout.flush()
    except Trouble as trouble:
        print(trouble, file=sys.stderr)
        status = 2
    except BrokenPipeError:     # the reader has seen enough, as in `| head`
        status = 0
    except OSError as problem:
        print(f"standard output: {(problem.strerror or str(problem)).lower()}", file=sys.stderr)
        status = 2
    except KeyboardInterrupt:
        status = 130
    leave(status)


def leave(status):
    """Exits without a second message if standard output or error cannot take the rest."""
    for stream in (sys.stdout, sys.stderr):
        try:
            stream.flush()
        except OSError:
            os.dup2(os.open(os.devnull, os.O_WRONLY), stream.fileno())
    sys.exit(status)


if __name__ == "__main__":
    main()
