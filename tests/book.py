#!/usr/bin/env python3
"""Tests of tools/book.py: messages, files kept, round trips, what is left, why a begin is refused, the book after a day, its report,
the book of an XML rights object.

    python3 tests/book.py [BOOKS [PART ..]]

BOOKS is how many random books are tried (300 if not given), PART is one of the parts that are printed. Builds the
library for C if it is missing. The last line is `N passed, M failed`; the exit status is 1 if anything failed.
"""

import copy
import dataclasses
import os
import random
import re
import resource
import shutil
import subprocess
import sys
import tempfile
import time
from pathlib import Path

from support import checks
from support.checks import AFTERNOON, METERED, OBJECTS, ROOT, TOOL, Done, call, check, check_all, refused

import days
import rights
import texts as stored
import xml_rights
from books import answers, imported, library, records, report, state, texts, why, words
from ledger import Ledger
from rights import LATEST, Asset, Book, Entry, Event

RUN = ROOT / "target" / "bin" / "run"


# ---- Messages

BOOK = "asset 1 key\nasset 9 parent\n"
ENTRY = "entry 0: object 1, asset 1, play"
ASKED = "player 3: number 1, stop, refused 14"
NINES = "9" * 5000
BOOK_LINES = [          # the text after BOOK, the number of the line that is named, a part of the message
    ("count 2", 3, "a line begins with time, metering, asset, entry, player or latest player, not with `count`"),
    ("metering", 3, "the line ends where the switch is expected"),
    ("metering 1", 3, "`1` is not a known switch; known are: off, on"),
    ("metering on\nmetering off", 4, "`metering` is given twice"),
    ("metering on off", 3, "`off` is not understood here"),
    ("time", 3, "the line ends where the time is expected"),
    ("time 5\ntime 6", 4, "`time` is given twice"),
    ("time 4000000001", 3, "4000000000 is the greatest"),
    ("time 1969-12-31", 3, "before 1970"),
    ("time 2200-01-01", 3, "after 2096-10-02"),
    ("time 2026-02-30", 3, "there is no 2026-02-30"),
    ("time 2026-12-24T25:00", 3, "there is no 2026-12-24 25:00"),
    ("time 24.12.2026", 3, "should be seconds since 1970 or a date"),
    ("time 2026-12-24 18:30:00 (5)", 3, "is second 1798137000, not 5"),
    ("time 5 6", 3, "`6` is not understood here"),
    ("time -5", 3, "should be seconds since 1970"),
    (f"time {NINES}", 3, "4000000000 is the greatest"),
    ("asset", 3, "the line ends where the asset's number is expected"),
    ("asset x key", 3, "should be a number, not `x`"),
    ("asset 0 key", 3, "1 is the least"),
    ("asset 65536 key", 3, "65535 is the greatest"),
    (f"asset {NINES} key", 3, "65535 is the greatest"),
    ("asset \u0663 key", 3, "should be a number"),
    ("asset 1 parent", 3, "asset 1 is in the book already"),
    ("asset 2", 3, "an asset is `parent`"),
    ("asset 2 parent key", 3, "an asset is `parent`"),
    ("asset 2 parent parent", 3, "`parent` is given twice"),
    ("asset 2 key key", 3, "`key` is given twice"),
    ("asset 2 key inherits 9 inherits 1", 3, "`inherits` is given twice"),
    ("asset 2 key inherits", 3, "the line ends where the asset that it inherits from is expected"),
    ("asset 2 key inherits 0", 3, "1 is the least"),
    ("asset 2 kee", 3, "`kee` is not understood in an asset"),
    ("\n".join(f"asset {n} key" for n in range(100, 163)), 65, "at most 64 assets"),
    ("entry 1: object 1, asset 1, play", 3, "this is entry 0"),
    ("entry 300: object 1, asset 1, play", 3, "this is entry 0"),
    (f"entry {NINES}: object 1, asset 1, play", 3, "this is entry 0"),
    ("entry", 3, "has no rights object"),
    ("entry 0: asset 1, play", 3, "has no rights object"),
    ("entry 0: object 1, play", 3, "has no asset"),
    ("entry 0: object 1, asset 3, play", 3, "asset 3 is not in the book above this line"),
    ("entry 0: object 1, asset 1", 3, "has no kind"),
    (f"{ENTRY}, display", 3, "the kind is given twice, as `play` and as `display`"),
    (f"{ENTRY}, play", 3, "`play` is given twice"),
    (f"{ENTRY}, count 2, count 30", 3, "`count` is given twice"),
    (f"{ENTRY}, object 2", 3, "`object` is given twice"),
    (f"{ENTRY}, start 5, start 5", 3, "`start` is given twice"),
    (f"{ENTRY}, end 5, end 5", 3, "`end` is given twice"),
    (f"{ENTRY}, interval 5, interval 5", 3, "`interval` is given twice"),
    (f"{ENTRY}, accumulated 5, accumulated 5", 3, "`accumulated` is given twice"),
    (f"{ENTRY}, timed 5, timer 1, timer 1", 3, "`timer` is given twice"),
    (f"{ENTRY}, timed 5, timed 5", 3, "`timed` is given twice"),
    (f"{ENTRY}, interval 5, first 0, first 0", 3, "`first` is given twice"),
    (f"{ENTRY}, count 5, used count 1, used count 2", 3, "`used count` is given twice"),
    (f"{ENTRY}, count 0, used count 1", 3, "1 is used of count, more than its limit, 0"),
    (f"{ENTRY}, timed 0, used timed 1", 3, "1 is used of timed, more than its limit, 0"),
    (f"{ENTRY}, accumulated 0, used accumulated 1", 3, "1 is used of accumulated, more than its limit, 0"),
    (f"{ENTRY}, count 1000001", 3, "1000000 is the greatest"),
    (f"{ENTRY}, count {NINES}", 3, "1000000 is the greatest"),
    (f"{ENTRY}, count", 3, "the line ends where the count is expected"),
    (f"{ENTRY}, count two", 3, "should be a number, not `two`"),
    (f"{ENTRY}, count 1.5", 3, "should be a number, not `1.5`"),
    (f"{ENTRY}, interval 0, first 1", 3, "the first use is after the book's time (0)"),
    (f"{ENTRY}, interval 1158d", 3, "100000000 is the greatest"),
    (f"{ENTRY}, interval {NINES}d", 3, "100000000 is the greatest"),
    (f"{ENTRY}, interval week", 3, "should be seconds, or a number with s, min, h or d"),
    (f"{ENTRY}, accumulated {NINES}", 3, "100000000 is the greatest"),
    (f"{ENTRY}, start 6, end 5", 3, "the start is after the end"),
    (f"{ENTRY}, timer 5", 3, "a timer belongs to a timed count"),
    (f"{ENTRY}, first 5", 3, "`first` belongs to an interval"),
    (f"{ENTRY}, used count 1", 3, "`used count` belongs to a limit `count`"),
    (f"{ENTRY}, count 2, used count 3", 3, "3 is used of count, more than its limit, 2"),
    (f"{ENTRY}, used seconds 3", 3, "`seconds` is not a known meter; known are: count, timed, accumulated"),
    (f"{ENTRY}, interval 5, first 7", 3, "the first use is after the book's time (0)"),
    (f"{ENTRY}, cont 2", 3, "`cont` is not understood in an entry"),
    (f"{ENTRY}, mark", 3, "a timed value and a mark belong to a tracked entry: `tracked` is missing"),
    (f"{ENTRY}, timed value 1", 3, "a timed value and a mark belong to a tracked entry: `tracked` is missing"),
    (f"{ENTRY}, tracked, tracked", 3, "`tracked` is given twice"),
    (f"{ENTRY}, tracked, mark, mark", 3, "`mark` is given twice"),
    (f"{ENTRY}, tracked, timed value 1, timed value 1", 3, "`timed value` is given twice"),
    (f"{ENTRY}, tracked, timed value", 3, "the line ends where the timed value is expected"),
    (f"{ENTRY}, tracked, timed value 4294967296", 3, "4294967295 is the greatest"),
    (f"{ENTRY}, tracked, timed value 49711d", 3, "4294967295 is the greatest"),
    (f"{ENTRY}, tracked 1", 3, "`1` is not understood in an entry"),
    (f"{ENTRY}, threshold", 3, "the line ends where the threshold is expected"),
    (f"{ENTRY}, threshold 17", 3, "the threshold is 17, but 16 is the greatest"),
    (f"{ENTRY}, threshold {NINES}", 3, "16 is the greatest"),
    (f"{ENTRY}, threshold -1", 3, "the threshold should be a number, not `-1`"),
    (f"{ENTRY}, threshold two", 3, "the threshold should be a number, not `two`"),
    (f"{ENTRY}, threshold 2.0", 3, "the threshold should be a number, not `2.0`"),
    (f"{ENTRY}, threshold 2 min", 3, "`min` is not understood in an entry"),
    (f"{ENTRY}, threshold 2, threshold 2", 3, "`threshold` is given twice"),
    (f"{ENTRY}, threshold 0, threshold 2", 3, "`threshold` is given twice"),
    (f"{ENTRY}, thresholds 2", 3, "`thresholds` is not understood in an entry"),
    (f"{ENTRY}, marks 1", 3, "`marks` is not understood in an entry"),
    ("entry 0: object 1, asset 1, print, accumulated 5", 3, "print and export take no time"),
    ("entry 0: object 1, asset 1, print, accumulated 0", 3, "print and export take no time"),
    ("entry 0: object 1, asset 1, export, timed 5, timer 5", 3, "print and export take no time"),
    ("\n".join(["entry object 1 asset 1 play"] * 65), 67, "at most 64 entries"),
    ("player 16: number 1, stop, refused 14", 3, "15 is the greatest"),
    ("player 0: stop, refused 14", 3, "`number` and the player's last number are expected"),
    ("player 0: number 0, stop, refused 14", 3, "leave out a player that has not asked yet"),
    ("player 0: number 18446744073709551616, stop, refused 14", 3, "18446744073709551615 is the greatest"),
    ("player 0: number 4294967296.1, stop, refused 14", 3, "the boot number is 4294967296, but 4294967295 is the greatest"),
    ("player 0: number 1.4294967296, stop, refused 14", 3, "the counter is 4294967296, but 4294967295 is the greatest"),
    *((f"player 0: number {bad}, stop, refused 14", 3, f"boot number and counter with a dot between them, like 3.1; not `{bad}`")
      for bad in ("1.2.3", "1.", ".1", ".", "1..2", "+1", "-1", "3.+1", "3.-1", "1e3", "0x1", "x", "3.x", "\u0663.1")),
    ("player 0: number 3 .1, stop, refused 14", 3, "`.1` is not a known operation"),
    ("player 0: number 3. 1, stop, refused 14", 3, "like 3.1; not `3.`"),
    ("player 0: number 18446744073709551615.1, stop, refused 14", 3, "the boot number is 18446744073709551615, but 4294967295 is the"),
    ("player 0: number 0.0, stop, refused 14", 3, "leave out a player that has not asked yet"),
    ("player 0: number", 3, "the line ends where the number is expected"),
    ("player 0: number 1, halt, refused 14", 3, "`halt` is not a known operation; known are: begin, continue, stop"),
    ("player 0: number 1, begin 1 watch, refused 13", 3, "`watch` is not a known kind; known are: play"),
    ("player 0: number 1, stop", 3, "the last answer is expected here"),
    ("player 0: number 1, stop, refused 7", 3, "a stored refusal is 10 to 15, 43 or 44, not 7"),
    ("player 0: number 1, stop, refused 16", 3, "a stored refusal is 10 to 15, 43 or 44, not 16"),
    ("player 0: number 1, stop, refused 30", 3, "a stored refusal is 10 to 15, 43 or 44, not 30"),
    ("player 0: number 1, stop, refused 42", 3, "a stored refusal is 10 to 15, 43 or 44, not 42"),
    ("player 0: number 1, cancel, refused 45", 3, "a stored refusal is 10 to 15, 43 or 44, not 45"),
    ("player 0: number 1, cancel 1 play, refused 14", 3, "the last answer is expected here"),
    (f"{ENTRY}, tracked\nplayer 0: number 1, stop, refused 14, open 0 0 6", 4, "entry 0 is tracked: `content` and the asset"),
    (f"{ENTRY}, tracked\nplayer 0: number 1, stop, refused 14, open 0 0 6 content 0", 4, "1 is the least"),
    (f"{ENTRY}, tracked\nplayer 0: number 1, stop, refused 14, open 0 0 6 content 2", 4, "open use is 2, which is not in the book"),
    (f"{ENTRY}\nplayer 0: number 1, stop, refused 14, open 0 0 6 content 8", 4, "open use is 8, which is not in the book"),
    (f"{ENTRY}\nplayer 0: number 1, stop, refused 14, open 0 0 6 content", 4, "the line ends where the content of the open use"),
    ("player 0: number 1, stop, refused 14, content 1", 3, "`content 1` is not understood here"),
    (f"player 0: number 1, stop, refused {NINES}", 3, "4294967295 is the greatest"),
    ("player 0: number 1, stop, refused 14, refused 14", 3, "`refused 14` is not understood here"),
    ("player 0: number 1, stop, refused 14\nplayer 0: number 1, stop, refused 14", 4, "player 0 is in the book already"),
    ("player 0: number 1, stop, granted 0 5", 3, "granted entry 0, but the book has 0 entries"),
    ("player 0: number 1, stop, refused 14, open 0 0 5", 3, "has entry 0 open, but the book has 0 entries"),
    (f"{ENTRY}\nplayer 0: number 1, stop, refused 14, open 0 5 6", 4, "begins at or before the book's time (0)"),
    (f"{ENTRY}\nplayer 0: number 1, stop, refused 14, open 0 0 61", 4, "at most 60 seconds past the book's time"),
    (f"{ENTRY}, start 5, end 90\ntime 10\nplayer 0: number 1, stop, refused 14, open 0 4 20", 5, "outside the dates"),
    (f"{ENTRY}, interval 5\nplayer 0: number 1, stop, refused 14, open 0 0 5", 4, "`first` is missing there"),
    (f"{ENTRY}, interval 5, first 0\nplayer 0: number 1, stop, refused 14, open 0 0 6", 4, "outside the interval"),
    (f"{ENTRY}, interval 0\nplayer 0: number 1, stop, refused 14, open 0 0 1", 4, "`first` is missing there"),
    (f"{ENTRY}, interval 0, first 0\nplayer 0: number 1, stop, refused 14, open 0 0 1", 4, "outside the interval"),
    (f"{ENTRY}, count 0\nplayer 0: number 1, stop, refused 14, open 0 0 6", 3, "`used count` is less than"),
    ("entry 0: object 1, asset 1, print\nplayer 0: number 1, stop, refused 14, open 0 0 6", 4, "a print is never open"),
    (f"{ENTRY}, count 5\nplayer 0: number 1, stop, refused 14, open 0 0 6", 3, "`used count` is less than"),
    (f"{ENTRY}, timed 5\nplayer 0: number 1, stop, refused 14, open 0 0 6", 3, "`used timed` is less than"),
    (f"{ENTRY}, accumulated 9, used accumulated 5\nplayer 0: number 1, stop, refused 14, open 0 0 6", 3, "which is 6"),
    *((f"{ENTRY}\n{ENTRY[:6]}1{ENTRY[7:]}, threshold {most}\n" + "".join(
        f"player {p}: number 1, stop, refused 14, open 1 0 6\n" for p in range(15 - most, 16)), 4,
       f"{most + 1} players have it open, more than its threshold, {most}") for most in (1, 2, 15)),
    ("entry 0: object 1, asset 1, print, threshold 1\nplayer 0: number 1, stop, refused 14, open 0 0 6", 4, "a print is never open"),
    *((line, 3, "the event taken last is told as `latest player N` or `latest player N, started an interval`")
      for line in ("latest", "latest 3", "latest: none", "latest taken: player 3", "latest started", "latest started an interval")),
    *((line, 3, "player or latest player, not with `last`") for line in ("last", "last player 3", "last taken: player 3")),
    ("latest player", 3, "the line ends where the latest player is expected"),
    ("latest player x", 3, "the latest player should be a number, not `x`"),
    ("latest player: none", 3, "the latest player should be a number, not `none`"),
    ("latest player 16", 3, "the latest player is 16, but 15 is the greatest"),
    (f"latest player {NINES}", 3, "15 is the greatest"),
    ("latest player 3", 3, "player 3 has not asked yet, so no event of it was taken"),
    (f"{ASKED}\nlatest player 4", 4, "player 4 has not asked yet"),
    (f"{ASKED}\nlatest player 3, started", 4, "`started an interval` is expected here"),
    (f"{ASKED}\nlatest player 3, started an", 4, "`started an interval` is expected here"),
    (f"{ASKED}\nlatest player 3, started interval", 4, "`started an interval` is expected here"),
    (f"{ASKED}\nlatest player 3, an interval", 4, "`an interval` is not understood here"),
    (f"{ASKED}\nlatest player 3, started an interval twice", 4, "`twice` is not understood here"),
    (f"{ASKED}\nlatest player 3\nlatest player 3", 5, "`latest player` is given twice"),
    (f"latest player 3\nlatest player 5\n{ASKED}", 4, "`latest player` is given twice"),
    (f"{ASKED}\nlatest player 3, started an interval", 4, "player 3 has nothing open, so its last event opened no use that"),
    (f"latest player 3, started an interval\n{ASKED}", 3, "player 3 has nothing open, so its last event opened no use that"),
    (f"{ENTRY}\n{ASKED}, open 0 0 6\nlatest player 3, started an interval", 5, "entry 0 open, which has no interval to start"),
    (f"{ENTRY}, interval 90, first 0\ntime 5\n{ASKED}, open 0 2 6\nlatest player 3, started an interval", 6,
     "the use of player 3 began at 2, but the interval of entry 0 at 0"),
    (f"{ENTRY}, interval 90, first 0\n{ASKED}, open 0 0 6\n{ASKED.replace('3', '9')}, open 0 0 6\n"
     "latest player 3, started an interval", 6, "others have entry 0 open too, so its interval had started before"),
]
EVENT_LINES = [
    ("begin 1 play 5", 1, "an event begins with player and number"),
    ("0 begin 1 play 5", 1, "an event begins with player and number"),
    ("0.1", 1, "the line ends where the operation is expected"),
    ("0.1 start 1 play 5", 1, "`start` is not a known operation"),
    ("0.1 begin 1 watch 5", 1, "`watch` is not a known kind"),
    ("0.1 begin 1 play", 1, "the line ends where the time is expected"),
    ("0.1 begin 65536 play 5", 1, "65535 is the greatest"),
    ("256.1 stop 5", 1, "255 is the greatest"),
    ("0.18446744073709551616 stop 5", 1, "18446744073709551615 is the greatest"),
    (f"0.{NINES} stop 5", 1, "18446744073709551615 is the greatest"),
    ("0.4294967296.1 stop 5", 1, "the boot number is 4294967296, but 4294967295 is the greatest"),
    ("0.1.4294967296 stop 5", 1, "the counter is 4294967296, but 4294967295 is the greatest"),
    (f"0.{NINES}.1 stop 5", 1, "4294967295 is the greatest"),
    *((f"{bad} stop 5", 1, "player and number, like 0.1, or with a boot number between them, like 0.3.1, or with raw; not `")
      for bad in ("0.1.2.3", "0..1", "0.", "0.1.", ".1", ".", "0.+1", "0.-1", "+0.1", "-1.1", "0.3.+1", "0.3.-1", "0. 1", "0 .1", "0.3. 1",
                  "0.1e3", "0.x", "0.\u0663")),
    ("0.3 .1 stop 5", 1, "`.1` is not a known operation"),
    ("0.18446744073709551616.0 stop 5", 1, "the boot number is 18446744073709551616, but 4294967295 is the greatest"),
    (f"0.1 stop {NINES}", 1, "4294967295 is the greatest"),
    ("0.1 stop 4294967296", 1, "4294967295 is the greatest"),
    ("0.1 stop 5 6", 1, "`6` is not understood here"),
    ("0.1 stop 1 play 5", 1, "`play 5` is not understood here"),
    ("0.1 cancel", 1, "the line ends where the time is expected"),
    ("0.1 cancel 1 play 5", 1, "`play 5` is not understood here"),
    ("0.1 cancels 5", 1, "`cancels` is not a known operation; known are: begin, continue, stop, cancel"),
    ("raw 0", 1, "each as two of the digits"),
    ("raw", 1, "this one has 0"),
    ("raw " + "00" * 18, 1, "a record has 17 bytes, and the last one may have fewer; this one has 18"),
    ("raw " + "00" * 13 + "\n" + "raw " + "00" * 13, 2, "only the last record"),
    ("raw 00\n0.1 stop 5", 2, "only the last record"),
]


def test_lines(folder):
    source = folder / "lines.txt"
    for command, before, lines in (("make", BOOK, BOOK_LINES), ("events", "", EVENT_LINES)):
        for line, at, fragment in lines:
            source.write_text(before + line + "\n", encoding="utf-8")
            done = refused(f"{command}: {line[:70]!r}", fragment, command, source, folder / "made")
            check(f"{command}: {line[:70]!r}, the line's number", f"lines.txt, line {at}: " in done.err, done)
    check("a refused text leaves no file", not (folder / "made").exists())


def test_inputs(folder):
    """Files that are missing, folders, or of the wrong kind."""
    image, text, events = folder / "b.rbk", folder / "b.txt", folder / "e.bin"
    shutil.copy(AFTERNOON / "rights.rbk", image)
    shutil.copy(AFTERNOON / "book.txt", text)
    shutil.copy(AFTERNOON / "events.bin", events)
    out = folder / "out"
    for command in ("show", "text", "left", "why", "diff", "explain", "make", "events", "widen", "after", "report", "import"):
        rest = {"diff": [image], "explain": [AFTERNOON / "expected.txt"], "make": [out], "events": [out], "widen": [out],
                "after": [events, out], "report": [events], "why": [0, 1, "play"], "import": [out]}.get(command, [])
        refused(f"{command}: missing file", "there is no such file", command, folder / "none", *rest)
        refused(f"{command}: folder", "this is a folder", command, folder, *rest)
        refused(f"{command}: empty name", "there is no such file", command, "", *rest)
        refused(f"{command}: too many words", f"usage: book.py {command}", command, image, *rest, "more", "words")
        refused(f"{command}: too few words", f"usage: book.py {command}", command)
        refused(f"{command}: unknown option", f"usage: book.py {command}", command, image, *rest[1:], "--all")
    refused("diff: missing second file", "there is no such file", "diff", image, folder / "none")
    refused("explain: missing answers", "there is no such file", "explain", events, folder / "none")
    refused("after: missing events", "there is no such file", "after", image, folder / "none", out)
    refused("after: events are a folder", "this is a folder", "after", image, folder, out)
    refused("after: events are text", "this is a text", "after", image, AFTERNOON / "events.txt", out)
    refused("after: events are a book's text", "this is a text", "after", image, text, out)
    refused("after: events are a book", "this is a book image", "after", image, image, out)
    refused("after: next to standard output", "standard output is for the answers", "after", image, events, "-")
    refused("after: both from standard input", "only one", "after", "-", "-", out)
    refused("after: the book is text", "this is a text; `book.py make`", "after", text, events, out)
    refused("explain: both from standard input", "only one", "explain", "-", "-")
    refused("report: both from standard input", "only one", "report", "-", "-")
    refused("report: missing events", "there is no such file", "report", image, folder / "none")
    refused("report: events are text", "this is a text", "report", image, AFTERNOON / "events.txt")
    refused("report: events are a book's text", "this is a text", "report", image, text)
    refused("report: events are a book", "this is a book image", "report", image, image)
    refused("report: the book is text", "this is a text; `book.py make`", "report", text, events)
    refused("report: an option twice", "usage: book.py report BOOK EVENTS [--csv]", "report", image, events, "--csv", "--csv")
    (folder / "metered.txt").write_text("metering on\n")
    refused("explain: a book's text that begins with metering", "this is a text", "explain", folder / "metered.txt", "/dev/null")
    refused("import: the book to standard output", "standard output is for", "import", OBJECTS / "film.xml", "-")
    refused("import: a book image", "40: `R` stands where a tag must (this is a book image already)", "import", image, out)
    refused("import: a book's text", "line 1, column 1: 40: `#` stands where a tag must", "import", text, out)
    refused("import: event records", "line 1, column 1: 40: byte 00 stands where a tag must", "import", events, out)
    refused("import: an empty file", "line 1, column 1: 40: the text ends where a tag must stand", "import", "/dev/null", out)
    refused("explain: text for records", "this is a text", "explain", AFTERNOON / "events.txt", AFTERNOON / "expected.txt")
    refused("explain: answers are bytes", "this is not a text file", "explain", events, events)
    for command, *rest in (["show"], ["text"], ["left"], ["why", 0, 1, "play"]):
        refused(f"{command}: text for an image", "this is a text; `book.py make`", command, text, *rest)
        refused(f"{command}: empty file", "refuses this image with 20", command, "/dev/null", *rest)
    refused("why: no such player", "the player is 16, but 15 is the greatest", "why", image, 16, 1, "play")
    refused("why: a name for a player", "the player should be a number, not `x`", "why", image, "x", 1, "play")
    refused("why: no such asset", "65535 is the greatest", "why", image, 0, 65536, "play")
    refused("why: no such kind", "`stop` is not a known kind; known are: play", "why", image, 0, 1, "stop")
    refused("why: bad time", "--at: the time should be seconds", "why", image, 0, 1, "play", "--at", "noon")
    refused("make: an image for text", "`book.py text", "make", image, out)
    refused("make: bytes for text", "this is not a text file", "make", events, out)
    refused("events: an image for text", "this is a book image", "events", image, out)
    refused("unknown command", "`print` is not a command; the commands are: left, why, after", "print", image)
    refused("command with a capital", "`Show` is not a command", "Show", image)
    refused("left: no time", "usage: book.py left", "left", image, "--at")
    refused("left: bad time", "--at: the time should be seconds", "left", image, "--at", "noon")
    refused("left: late time", "4000000000 is the greatest", "left", image, "--at", "4000000001")
    refused("left: long time", "4000000000 is the greatest", "left", image, "--at", NINES)
    refused("left: words behind the time", "`6` is not understood", "left", image, "--at", "5 6")
    (folder / "latin.txt").write_bytes("asset 1 key\nasset 2 key # f\u00fcr\n".encode("latin-1"))
    refused("make: not UTF-8", "latin.txt, line 2: byte 0xfc is not UTF-8", "make", folder / "latin.txt", out)
    (folder / "wide.txt").write_text("asset 1 key\n", encoding="utf-16")
    refused("make: UTF-16", "UTF-16; save it as UTF-8", "make", folder / "wide.txt", out)
    for cut, code in ((b"", 20), (b"RBK", 20), (b"RBX" + bytes(400), 21), (b"RBK\0\0" + bytes(400), 22), (b"RBK\0\6" + bytes(530), 22),
                      (b"RBK\0\5" + bytes(529), 20), (b"RBK\0\5" + bytes(531), 20), (b"RBK\0\5" + bytes(522), 20),
                      (b"RBK\0\4" + bytes(530), 20), (b"RBK\0\3" + bytes(523), 20),
                      (b"RBK\0\2" + bytes(522), 20), (b"RBK\0\1" + bytes(522), 20), *bad_groups(), *bad_lasts()):
        (folder / "bad.rbk").write_bytes(cut)
        refused(f"show: an image refused with {code}", f"with {code}", "show", folder / "bad.rbk")
        refused(f"after: an image refused with {code}", f"with {code}", "after", folder / "bad.rbk", events, out)
    check("a refused command leaves no file", not out.exists())
    for args in ([], ["--help"], ["help"], ["left", "--help"]):
        done = call(*args)
        check(f"help for {args}", done.status == 0 and b"tools/book.py after BOOK EVENTS NEXT" in done.out, done)


def bad_groups():
    """Images that are refused for a threshold or for marks; those next to them are accepted."""
    one = Book(100, [Asset(1, 0, 1)], [Entry(1, 1, 1), Entry(1, 1, 1)])
    one.players[3] = rights.Player(1, rights.BEGIN, 1, 1, 0, 0, 160, 1, 0, 100, 160, 1)
    two = copy.deepcopy(one)
    two.players[15] = rights.Player(1, rights.BEGIN, 1, 1, 0, 0, 160, 1, 0, 100, 160, 1)
    for code, book, fields in ((0, one, (0, 8, 0, 0)), (0, one, (1, 8, 16, 0)), (25, one, (17, 8, 0, 0)), (25, one, (0, 8, 2**32 - 1, 0)),
                               (27, one, (0, 0, 0, 0)), (27, one, (0, 8, 0, 8)), (27, one, (0, 0, 0, 8)), (27, one, (0, 4, 0, 0)),
                               (27, one, (2, 12, 0, 0)), (27, one, (0, 8 + 65_536, 0, 0)), (27, one, (0, 8, 0, 2**31)),
                               (0, two, (2, 8 + 32_768, 0, 0)), (27, two, (1, 8 + 32_768, 0, 0)), (27, two, (1, 8, 0, 0))):
        first, second = book.entries
        first.threshold, first.marks, second.threshold, second.marks = fields
        image = rights.write(book)
        assert rights.read(image)[0] == code, (fields, rights.read(image))
        if code:
            yield image, code


def bad_lasts():
    """Images that are refused for the latest player or for its mark of an interval; those next to them are accepted."""
    book = Book(100, [Asset(1, 0, 1)], [Entry(1, 1, 1, rights.INTERVAL, interval=90, first=100, started=1), Entry(1, 1, 1)])
    for index, entry in ((3, 0), (15, 1)):
        book.players[index] = rights.Player(1, rights.BEGIN, 1, 1, 0, entry, 160, 1, entry, 100, 160, 1)
    rights.set_marks(book)
    for code, last, mark in ((0, 0, 0), (0, 4, 0), (0, 4, 1), (0, 16, 0), (26, 17, 0), (26, 3, 0), (26, 5, 0), (26, 0, 1), (26, 16, 1),
                             (26, 4, 2), (26, 2**32 - 1, 0), (26, 4, 2**32 - 1)):
        book.latest_player, book.latest_started = last, mark
        image = rights.write(book)
        assert rights.read(image)[0] == code, (last, mark, rights.read(image))
        if code:
            yield image, code


def test_forgiving(folder):
    """What a text may contain: Windows line ends, tabs, a byte order mark, an empty file, no line feed at the end."""
    plain = "time 5\nasset 1 key\nentry 0: object 1, asset 1, play, count 2\n"
    wanted = call("make", "-", "-", stdin=plain.encode())
    check("make from and to standard streams", wanted.status == 0 and wanted.err == "" and len(wanted.out) == 611, wanted)
    for name, text in (("Windows line ends", plain.replace("\n", "\r\n")), ("old line ends", plain.replace("\n", "\r")),
                       ("tabs", plain.replace(" ", "\t")), ("no colons or commas", re.sub("[:,]", "", plain)),
                       ("no line feed at the end", plain[:-1]), ("empty lines", plain.replace("\n", "\n\n  \n# x\n"))):
        done = call("make", "-", "-", stdin=text.encode())
        check(f"make: {name}", done.status == 0 and done.out == wanted.out and done.err == "", done)
    done = call("make", "-", "-", stdin=plain.encode("utf-8-sig"))
    check("make: a byte order mark", done.status == 0 and done.out == wanted.out and "byte order mark" in done.err, done)
    done = call("make", "-", "-", stdin=b"")
    check("make: an empty text is an empty book", done.status == 0 and len(done.out) == 535, done)
    done = call("events", "-", "-", stdin=b"")
    check("events: an empty text", done.status == 0 and done.out == b"" and done.err == "", done)
    done = call("left", "-", stdin=call("make", "-", "-", stdin=b"").out)
    check("left: a book without entries", done.status == 0 and b"no entries" in done.out, done)


def test_times(folder):
    """Times as `show` prints them are read again; a date alone is the day's first second, after `end` its last."""
    def entry(line):
        path = folder / "times.txt"
        path.write_text(f"time 4000000000\nasset 1 key\nentry 0: object 1, asset 1, play, {line}\n")
        return texts.book_of_text(path).entries[0]

    day = 1809043200        # 2027-04-30
    for line, field, value in (
            ("end 2027-04-30", "end", day + 86_399), ("start 2027-04-30", "start", day),
            ("end 2027-04-30T00:00", "end", day), ("end 2027-04-30 00:00:00", "end", day),
            ("end 2027-04-30T18:30:05Z", "end", day + 66_605), ("end 2027-04-30 18:30 UTC", "end", day + 66_600),
            (f"start 2027-04-30 18:30:05 ({day + 66_605})", "start", day + 66_605), ("start 77", "start", 77),
            (f"start 2027-04-30 18:30:05 ({day + 66_605}), UTC", "start", day + 66_605),
            ("interval 5, first 2027-04-30", "first", day), ("interval 7d", "interval", 604_800),
            ("interval 1 h 30 min", "interval", 5400), ("interval 1h30m", "interval", 5400), ("interval 90", "interval", 90),
            ("interval 2 min, count 5", "interval", 120), ("accumulated 1 d 1 s", "accumulated", 86_401),
            ("timed 3, timer 1min", "timer", 60), ("accumulated 2h, used accumulated 1 h", "used_seconds", 3600),
            ("tracked, timed value 2 min, timed 3", "timed_value", 120), ("timed 3, tracked, timed value 7", "timed", 3),
            ("timed value 7, tracked", "tracked", 1), ("threshold 16", "threshold", 16), ("threshold 1, tracked", "threshold", 1),
            ("threshold 003, count 5", "threshold", 3), ("threshold 0", "threshold", 0), ("count 5", "threshold", 0)):
        got = getattr(entry(line), field)
        check(f"times: {line}", got == value, f"wanted {value}, got {got}")
    rng, parts = random.Random(5), []
    for _ in range(200):
        t = rng.choice((rng.randrange(LATEST + 1), rng.randrange(200_000_000), 0, LATEST))
        length = rng.choice((rng.randint(1, 100_000_000), rng.randint(1, 100_000)))
        for text in (words.when(t), words.date(t), words.time_text(t)):
            parts += [(words.Words(text).time("the time", last_second=last) == t, text) for last in (False, True)]
        parts.append((words.Words(words.span(length)).length("the length", 100_000_000) == length, words.span(length)))
    check_all("times and lengths as they are shown are read again", parts)
    check("text has dates, and seconds where they are few",
          (words.time_text(1798137000), words.time_text(1141)) == ("2026-12-24T18:30:00", "1141"))


# ---- Files kept

def test_files(folder):
    text, image, events, records_file = (folder / name for name in ("k.txt", "k.rbk", "k.events", "k.bin"))
    shutil.copy(AFTERNOON / "book.txt", text)
    shutil.copy(AFTERNOON / "events.txt", events)
    call("make", text, image)
    call("events", events, records_file)
    check("make gives the shipped image", image.read_bytes() == (AFTERNOON / "rights.rbk").read_bytes())
    check("events gives the shipped records", records_file.read_bytes() == (AFTERNOON / "events.bin").read_bytes())
    (folder / "soft").symlink_to(text)
    os.link(text, folder / "hard")
    (folder / "way").symlink_to(folder)
    before = {path: path.read_bytes() for path in (text, image, events, records_file)}
    for name, same in (("the same name", text), ("a symbolic link", folder / "soft"), ("a hard link", folder / "hard"),
                       ("another way to it", folder / "way" / "k.txt"),
                       ("a longer name", f"{folder}/./../{folder.name}/k.txt")):
        refused(f"make: output is the input by {name}", "would be lost", "make", text, same)
        refused(f"events: output is the input by {name}", "would be lost", "events", text, same)
    refused("make: input is the link", "would be lost", "make", folder / "soft", text)
    refused("make: output is the input, relative", "would be lost", "make", "k.txt", "./k.txt", cwd=folder)
    refused("after: the next book is the book", "would be lost", "after", image, records_file, image)
    refused("after: the next book is the events", "would be lost", "after", image, records_file, records_file)
    refused("make: over another text", "text is there already", "make", text, events)
    refused("make: over records", "a file of another kind is there already", "make", text, records_file)
    refused("events: over a book", "a book image is there already", "events", events, image)
    refused("events: over a text", "text is there already", "events", events, text)
    refused("after: over a text", "text is there already", "after", image, records_file, text)
    shutil.copy(OBJECTS / "film.xml", folder / "k.xml")
    refused("import: the book is the rights object", "would be lost", "import", folder / "k.xml", folder / "k.xml")
    refused("import: over a text", "text is there already", "import", OBJECTS / "film.xml", folder / "k.xml")
    refused("import: over records", "a file of another kind is there already", "import", OBJECTS / "film.xml", records_file)
    refused("import: output in no folder", "there is no such folder", "import", folder / "k.xml", folder / "none" / "k.rbk")
    refused("make: output is a folder", "this is a folder", "make", text, folder)
    refused("make: output in no folder", "there is no such folder", "make", text, folder / "none" / "k.rbk")
    refused("make: output is a folder's name", "this names a folder", "make", text, f"{folder}/new/")
    check("refused outputs leave every file", all(path.read_bytes() == data for path, data in before.items()))

    other = folder / "o.txt"
    other.write_text("asset 5 key\n")
    image.chmod(0o640)
    limit = {"preexec_fn": lambda: resource.setrlimit(resource.RLIMIT_FSIZE, (100, 100))}
    more = folder / "more.events"
    more.write_text(events.read_text() + "9.1 stop 1200\n")
    for name, args in (("make", ["make", other, image]), ("events", ["events", more, records_file, "--over"]),
                       ("import", ["import", folder / "k.xml", image, "--over"])):
        refused(f"{name}: the disk is full", "the file that was there is as it was", *args, **limit)
    new = folder / "n.rbk"
    refused("after: the disk is full", "the file would be larger than allowed", "after", image, records_file, new, **limit)
    refused("make: a new file on a full disk", "not written: the file would be larger", "make", other, new, **limit)
    refused("import: a new file on a full disk", "not written: the file would be larger", "import", folder / "k.xml", new, **limit)
    check("a failed write leaves the old file", image.read_bytes() == before[image]
          and records_file.read_bytes() == before[records_file] and not new.exists())
    check("a failed write leaves nothing beside it", not [path for path in folder.iterdir() if path.name.startswith(".")])
    done = call("make", other, image)
    check("make replaces a book", done.status == 0 and len(image.read_bytes()) == 540, done)
    check("make keeps the file's mode", image.stat().st_mode & 0o777 == 0o640)
    (folder / "to").symlink_to(image)
    done = call("make", text, folder / "to")
    check("make writes through a link", (folder / "to").is_symlink() and image.read_bytes() == before[image], done)
    done = call("make", text, folder / "fresh.rbk", preexec_fn=lambda: os.umask(0o027))
    check("a new file has the usual mode", (folder / "fresh.rbk").stat().st_mode & 0o777 == 0o640, done)
    pipe = folder / "pipe"
    os.mkfifo(pipe)
    reader = subprocess.Popen(["cat", pipe], stdout=subprocess.PIPE)
    done = call("make", text, pipe)
    try:
        got = reader.communicate(timeout=10)[0]
    except subprocess.TimeoutExpired:
        reader.kill()
        got = None
    check("make to a pipe writes into it and leaves it", done.status == 0 and pipe.is_fifo() and got == before[image], done)
    done = subprocess.run(f"{TOOL} make {text} /proc/self/fd/1 | cat", shell=True, capture_output=True)
    check("make to an open pipe", done.stdout == before[image] and done.stderr == b"", done)


def test_streams(folder):
    """Standard output closed or full."""
    for args in (["show", AFTERNOON / "rights.rbk"], ["--help"], ["make", AFTERNOON / "book.txt", "-"],
                 ["explain", AFTERNOON / "events.bin", AFTERNOON / "expected.txt"]):
        with open("/dev/full", "wb") as full:
            done = subprocess.run([sys.executable, TOOL, *args], stdout=full, stderr=subprocess.PIPE, text=True)
        check(f"{args[0]}: a full disk behind standard output",
              done.returncode == 2 and done.stderr == "standard output: no space left on device\n", done)
    shell = f'{sys.executable} {TOOL} explain {AFTERNOON / "events.bin"} - < {AFTERNOON / "expected.txt"} | head -1'
    done = subprocess.run(shell, shell=True, capture_output=True, text=True)
    check("a pipe that is closed early", done.stderr == "" and done.stdout.startswith("    1  player 0"), done)
    long = folder / "long.bin"
    long.write_bytes((AFTERNOON / "events.bin").read_bytes() * 2000)
    shell = f"{sys.executable} {TOOL} explain {long} /dev/null | head -1"
    done = subprocess.run(shell, shell=True, capture_output=True, text=True)
    check("a long pipe that is closed early", done.stderr.startswith("note: 44000 requests and 0 answers: ")
          and done.stderr.count("\n") == done.stdout.count("\n") == 1, done)


# ---- Random books

def wild_book(rng):
    """A legal book with any value in any field that the rules allow."""
    book = Book(time=rng.choice((0, 60, rng.randrange(LATEST + 1), LATEST)), switch=rng.randint(0, 1))
    numbers = rng.sample(range(1, 65_536), rng.choice((0, 1, 2, 5, 64)))
    for number in numbers:
        inherit = rng.choice((0, 0, rng.choice(numbers), rng.randint(1, 65_535)))
        book.assets.append(Asset(number, inherit, rng.randint(0, 1)))
    for _ in range(rng.choice((0, 1, 3, 12, 64)) if numbers else 0):
        book.entries.append(wild_entry(rng, rng.choice(numbers), book.time))
    for player in book.players:
        if rng.random() < 0.6:
            wild_player(rng, book, player)
    for position, entry in enumerate(book.entries):
        uses = book.users(position)
        seconds = sum(p.until - p.begin for p in uses)
        if rng.random() < 0.2:      # to be used up often enough
            entry.used_count, entry.used_timed, entry.used_seconds = entry.count, entry.timed, entry.accumulated
        if any(entry.has(flag) and used < least for flag, used, least in (
                (rights.COUNT, entry.used_count, len(uses)), (rights.TIMED, entry.used_timed, len(uses)),
                (rights.ACCUMULATED, entry.used_seconds, seconds))):
            for player in uses:
                player.open = player.open_entry = player.begin = player.until = player.content = 0
        now = len(book.users(position))
        if rng.random() < (0.8 if now else 0.3):
            entry.threshold = rng.choice((max(1, now), max(1, now), min(16, now + 1), 16))
    rights.set_marks(book)
    wild_last(rng, book)
    assert rights.read(rights.write(book))[0] == 0
    return book


def wild_last(rng, book):
    """Any player that has asked, or none, as the latest one; mostly one with a use that can be told to have started its interval."""
    asked = [index for index, player in enumerate(book.players) if player.number]
    starters = [index for index in asked if rights.started_an_interval(book, book.players[index])]
    if asked and rng.random() < 0.8:
        book.latest_player = rng.choice(starters or asked) + 1
        book.latest_started = rng.choice((0, 1, 1)) if starters else 0


def wild_entry(rng, asset, now):
    kind = rng.randint(1, 5)
    flags = rng.randrange(64) & (~rights.ACCUMULATED if kind >= 4 else 63)
    entry = Entry(rng.randint(1, 65_535), asset, kind, flags)
    near = lambda: max(0, min(LATEST, now + rng.choice((-1, 0, 1, -100, 100, rng.randint(-10**8, 10**8)))))
    if flags & rights.COUNT:
        entry.count = rng.choice((0, 1, 20, 1_000_000))
        entry.used_count = rng.randint(0, entry.count)
    if flags & rights.TIMED:
        entry.timed, entry.timer = rng.choice((0, 1, 20, 1_000_000)), rng.choice((0, 1, 45, 1_000_000)) if kind < 4 else 0
        entry.used_timed = rng.randint(0, entry.timed)
    if flags & rights.START:
        entry.start = near()
    if flags & rights.END:
        entry.end = max(entry.start, near())
    if flags & rights.INTERVAL:
        entry.interval = rng.choice((0, 1, 90, 100_000_000))
        entry.started = rng.randint(0, 1)
        entry.first = entry.started * max(0, now - rng.choice((0, 1, 89, 90, rng.randint(0, 10**8))))
    if flags & rights.ACCUMULATED:
        entry.accumulated = rng.choice((0, 1, 500, 100_000_000))
        entry.used_seconds = rng.randint(0, entry.accumulated)
    if rng.random() < 0.4:
        entry.tracked, entry.mark, entry.timed_value = 1, rng.randint(0, 1), rng.choice((0, 1, 60, 2**32 - 1))
    return entry


def wild_player(rng, book, player):
    player.number = rng.choice((1, 7, rng.randint(1, 2**32 - 1), 2**32 - 1, 2**32, rng.randint(2**32, 2**64 - 1), 2**64 - 1))
    player.operation = rng.randint(1, 4)
    if player.operation == 1:
        player.asset, player.kind = rng.randrange(65_536), rng.randint(1, 5)
    player.code, player.entry = rng.choice((*range(10, 16), 43, 44)), 255
    if book.entries and rng.random() < 0.5:
        player.code, player.entry = 0, rng.randrange(len(book.entries))
        player.answer_until = rng.choice((0, 1119, rng.randrange(2**32), 2**32 - 1))
    for _ in range(rng.choice((0, 1, 8)) if book.entries else 0):
        position = rng.choice((0, 1 % len(book.entries), rng.randrange(len(book.entries))))     # the first ones: several players together
        player.open, player.open_entry = 1, position
        player.begin = max(0, book.time - rng.choice((0, 1, 30, 59, 10**6)))
        player.until = book.time + rng.choice((1, 30, 60))
        player.content = rng.choice(book.assets).number if book.entries[position].tracked or rng.random() < 0.5 else 0
        if book.entries[position].started and rng.random() < 0.3:
            player.begin = book.entries[position].first
        if rights.open_use_is_good(book, player):
            break
        player.open = player.open_entry = player.begin = player.until = player.content = 0


def played_book(rng, seed):
    """A book in the middle of a random day of the second program."""
    kind = rng.choice(("crowd", "wide", "cabins", "rivals", "groups", "groups", "loading", "loading", "going on", "old"))
    image, events, _ = days.make_day(seed, rng.choice((1, 20, 60)), kind)
    _, book = rights.read(image)
    play(book, events)
    return book


def play(book, events):
    lines = rights.zeros(book)
    for record in rights.records_in(events):
        rights.answer_record(book, record, lines)


def random_books(how_many):
    for seed in range(how_many):
        rng = random.Random(f"book {seed}")
        yield seed, rng, wild_book(rng) if seed % 2 else played_book(rng, seed)


def test_round_trips(folder, how_many):
    path, image = folder / "trip.txt", folder / "trip.rbk"
    opened = never = tracked = metered = contents = groups = full = last = marked = 0
    for seed, rng, book in random_books(how_many):
        data = rights.write(book)
        opened += any(player.open for player in book.players)
        never += any(entry.has_limit_of_zero() for entry in book.entries)
        tracked += any(entry.tracked and entry.timed_value for entry in book.entries)
        metered += book.switch
        contents += any(player.content for player in book.players)
        groups += any(entry.threshold and entry.marks for entry in book.entries)
        full += any(rights.is_full(entry) for entry in book.entries)
        last += book.latest_player != 0
        marked += book.latest_started
        text = "\n".join(texts.text_lines(book)) + "\n"
        path.write_text(text)
        again = texts.book_of_text(path)
        check(f"round trip of book {seed}", rights.write(again) == data and again == book)
        if seed < 10:
            image.write_bytes(data)
            done = call("text", image)
            check(f"text of book {seed}", done.status == 0 and done.out.decode() == text, done)
            check(f"make of book {seed}", call("make", "-", "-", stdin=done.out).out == data)
            done = call("show", image)
            check(f"show of book {seed}", done.status == 0 and done.err == "", done)
    check("many of the books have open uses", opened > how_many / 4, str(opened))
    check("many of the books have limits of 0", never > how_many / 4, str(never))
    check("many of the books have tracked entries, metering on, contents", min(tracked, metered, contents) > how_many / 8,
          f"{tracked} {metered} {contents}")
    check("many of the books have thresholds, full ones too", min(groups, full) > how_many / 8, f"{groups} {full}")
    check("many of the books have a latest player, some whose use started an interval", last > how_many / 2 and marked > how_many / 50,
          f"{last} {marked}")


def test_older(folder):
    """Images of older versions: read like those of the newest, of version 1 with nothing metered, of 1 to 3 with no threshold, of all with
    the marks of their open uses and no latest player; `make` writes the newest."""
    marked = 0
    for seed, rng, book in random_books(40):
        old, new, version = folder / "old.rbk", folder / "new.rbk", seed // 2 % 4 + 1
        old.write_bytes(rights.write(book if version >= 3 else days.with_short_numbers(book), version))
        shown = call("text", old).out
        new.write_bytes(call("make", "-", "-", stdin=shown).out)
        check(f"book {seed} of version {version}, as text and made again", rights.read(old.read_bytes()) == rights.read(new.read_bytes())
              and new.read_bytes()[4] == rights.NEWEST == 5 and b"latest" not in shown and (version == 4 or b"threshold" not in shown)
              and (version > 1 or b"tracked" not in shown and b"metering" not in shown), shown.decode()[:300])
        entries = rights.read(new.read_bytes())[1].entries
        marked += any(entry.marks for entry in entries)
        check(f"book {seed} of version {version}, its marks", [entry.marks for entry in entries] == [entry.marks for entry in book.entries])
        check(f"book {seed} of version {version} shows the same", call("show", old).out == call("show", new).out)
        check(f"book {seed} of version {version} does not differ", call("diff", old, new).status == 0)
    check("some of the older books have marks", marked > 3, str(marked))


def test_numbers(folder):
    """Numbers of requests, as boot.counter or as one number, are the same bytes, and are shown as boot.counter."""
    rng, parts = random.Random(4), []
    for _ in range(300):
        boot, counter = (rng.choice((0, 1, 7, 2**31, 2**32 - 1, rng.randrange(2**32))) for _ in range(2))
        one, shown = boot * 2**32 + counter, f"{boot}.{counter}" if boot else str(counter)
        parts.append((words.number_text(one) == shown, f"{one} is shown as {words.number_text(one)}"))
        parts += [(words.request_number(text) == one, text) for text in (shown, str(one), f"{boot}.{counter}", f"00{boot}.0{counter}")]
    check_all("numbers: boot number and counter", parts)
    wanted = "00 0000000300000001 03 0000 00 00000005"
    for line in ("0.3.1 stop 5", "0.12884901889 stop 5", "0.03.001 stop 5", f"raw {wanted}"):
        done = call("events", "-", "-", stdin=line.encode())
        check(f"numbers: {line}", done.status == 0 and done.out == bytes.fromhex(wanted), done)
    for line, wanted in (("0.0 stop 5", 0), ("0.0.0 stop 5", 0), ("0.4294967296 stop 5", 2**32), ("0.1.0 stop 5", 2**32),
                         ("0.4294967295.4294967295 stop 5", 2**64 - 1), ("0.18446744073709551615 stop 5", 2**64 - 1)):
        done = call("events", "-", "-", stdin=line.encode())
        check(f"numbers: {line}", done.status == 0 and done.out[1:9] == wanted.to_bytes(8, "big"), done)
    events, image = folder / "e.bin", folder / "b.rbk"
    events.write_bytes(call("events", "-", "-", stdin=b"0.1 stop 5\n0.3.1 stop 5\n0.4294967295.4294967295 stop 5\n0.4294967296 stop 5").out)
    done = call("explain", events, "-", stdin=b"14 255 0\n14 255 0\n3 255 0\n3 255 0\n")
    found = re.findall(r"request (\S+):", done.out.decode())
    check("numbers: explained", found == ["1", "3.1", "4294967295.4294967295", "1.0"], done)
    text = b"asset 1 key\nplayer 0: number 3.1, stop, refused 14\nplayer 1: number 12884901890, stop, refused 14\n"
    image.write_bytes(call("make", "-", "-", stdin=text).out)
    players = rights.read(image.read_bytes())[1].players
    check("numbers: made", [player.number for player in players[:3]] == [3 * 2**32 + 1, 3 * 2**32 + 2, 0])
    done = call("text", image)
    check("numbers: as text", b"player 0: number 3.1, stop" in done.out and b"player 1: number 3.2, stop" in done.out, done)
    done = call("show", image)
    check("numbers: shown", b"    0  request 3.1: stop" in done.out and b"    1  request 3.2: stop" in done.out, done)
    other = folder / "o.rbk"
    other.write_bytes(call("make", "-", "-", stdin=text.replace(b"3.1", b"4.1")).out)
    done = call("diff", image, other)
    check("numbers: what differs", done.out == b"player 0: number 3.1 -> 4.1\n", done)
    for name in ("e.txt", "e13.bin"):
        (folder / name).write_bytes(b"0.3.1 stop 5\n" if name == "e.txt" else bytes(13))
    refused("numbers: a text with boot numbers is no file of records", "this is a text", "explain", folder / "e.txt", "/dev/null")
    done = call("explain", folder / "e13.bin", "-", stdin=b"6 255 0\n")
    check("numbers: a record of 13 bytes", b"a record cut short, 13 bytes" in done.out and b"is not 17 bytes long" in done.out
          and done.err.startswith("note: ") and "`book.py widen` makes the longer ones" in done.err, done)


def page_section(title):
    """A section of docs/ANSWERS.md, and its indented lines."""
    page = (ROOT / "docs" / "ANSWERS.md").read_text().split(f"## {title}\n")[1].split("\n## ")[0]
    return page, [line.strip() for line in page.splitlines() if line.startswith("    ")]


def check_page_day(folder, name, book, lines):
    """The requests in these lines, on this book, get the answers that stand behind them."""
    told = "".join(re.search("# ([0-9]+ [0-9]+ [0-9]+)(  |$)", line)[1] + "\n" for line in lines)
    (folder / "rights.rbk").write_bytes(call("make", "-", "-", stdin=book.encode()).out)
    made = call("events", "-", "-", stdin="\n".join(lines).encode())
    done = subprocess.run([RUN], input=made.out, cwd=folder, capture_output=True, timeout=60)
    check(f"the page's example of {name}", made.status == 0 and done.stdout.decode() == told, f"{made} {done}")


def test_next_number(folder):
    page, lines = page_section("Which number comes next")
    book = "\n".join(re.search("on a book with `(asset .*)` and `(entry .*)`;", page).groups())
    check("the page's example of numbers has 11 requests", len(lines) == 11, lines)
    check_page_day(folder, "numbers", book, lines)


def test_which_right(folder):
    _, lines = page_section("Which right a begin uses")
    book = [line for line in lines if line.startswith(("asset ", "entry "))]
    check("the page's example of the choice has 5 lines of a book and 7 requests", (len(book), len(lines)) == (5, 12), lines)
    check_page_day(folder, "the choice", "\n".join(book), lines[5:])


def test_together(folder):
    _, lines = page_section("A pack for so many players together")
    book = [line for line in lines if line.startswith(("asset ", "entry "))]
    check("the page's example of a group pack has 5 lines of a book and 9 requests", (len(book), len(lines)) == (5, 14), lines)
    check_page_day(folder, "a group pack", "\n".join(book), lines[5:])


def test_film_did_not_load(folder):
    _, lines = page_section("A film did not load: cancel")
    book = [line for line in lines if line.startswith(("asset ", "entry "))]
    check("the page's example of a cancel has 4 lines of a book and 13 requests", (len(book), len(lines)) == (4, 17), lines)
    check_page_day(folder, "a cancel", "\n".join(book), lines[4:])


def shortened(events):
    """The whole records, of 13 bytes each: without boot numbers."""
    return b"".join(record[:1] + record[5:] for record in rights.records_in(events) if len(record) == rights.RECORD.size)


def test_widen(folder):
    """Records of 13 bytes become those of the same events under boot number 0; other commands say that they look like such."""
    old, new = folder / "old.bin", folder / "new.bin"
    for seed in range(20):
        events = days.make_day(seed, 60, "crowd")[1]
        old.write_bytes(shortened(events))
        new.unlink(missing_ok=True)
        done = call("widen", old, new)
        wanted = [rights.RECORD.read(record) for record in rights.records_in(events) if len(record) == rights.RECORD.size]
        wanted = [dataclasses.replace(event, number=event.number % 2**32) for event in wanted]
        made = [rights.RECORD.read(record) for record in rights.records_in(new.read_bytes())]
        check(f"widen: day {seed}", done.status == 0 and made == wanted and done.out == b"" and done.err == "", done)
    afternoon = (AFTERNOON / "events.bin").read_bytes()
    old.write_bytes(shortened(afternoon))
    check("widen: the afternoon", call("widen", old, "-").out == afternoon == call("widen", "-", "-", stdin=shortened(afternoon)).out)
    check("widen: nothing", (lambda done: (done.status, done.out))(call("widen", "/dev/null", "-")) == (0, b""))
    for args in (["explain", old, "-"], ["report", AFTERNOON / "rights.rbk", old],
                 ["after", AFTERNOON / "rights.rbk", old, folder / "next.rbk"]):
        noted = f"{old} has 286 bytes, a whole number of records of 13 bytes"
        done = call(*args)
        check(f"{args[0]}: a note on records of 13 bytes", done.err.startswith("note: ") and noted in done.err, done)
        (folder / "next.rbk").unlink(missing_ok=True)
        done = call(*(AFTERNOON / "events.bin" if word == old else word for word in args), stdin=(AFTERNOON / "expected.txt").read_bytes())
        check(f"{args[0]}: no note on records of 17 bytes", done.status == 0 and "note: " not in done.err, done)
    refused("widen: records of 17 bytes", "its 374 bytes are no whole number of records of 13 bytes, but of 17: nothing to do",
            "widen", AFTERNOON / "events.bin", new)
    old.write_bytes(bytes(30))
    refused("widen: a record cut short", "4 are over; a last record that was cut short changes nothing", "widen", old, new)
    refused("widen: over itself", "this is the file", "widen", old, old)
    refused("widen: a text", "this is a text", "widen", AFTERNOON / "events.txt", new)
    refused("widen: a book", "this is a book image", "widen", AFTERNOON / "rights.rbk", new)


# ---- diff

def fields_of(book):
    """(what diff names, the record, a field) for the fields of a book that can be one larger in some other book."""
    yield "time", book, "time"
    yield "metering", book, "switch"
    for asset in book.assets:
        yield f"asset {asset.number}", asset, "inherit"
    for position, entry in enumerate(book.entries):
        for field in vars(entry):
            if getattr(entry, field) and field not in ("kind", "flags", "started", "marks"):
                yield f"entry {position}", entry, field
    for index, player in enumerate(book.players):
        fields = ["number"] if player.number else []
        fields += ["asset"] if player.operation == rights.BEGIN else []
        fields += ["entry", "answer_until"] if player.number and player.code == 0 else ["code"] if player.code else []
        fields += ["open_entry", "begin", "until", "content"] if player.open else []
        yield from ((f"player {index}", player, field) for field in fields)


def test_diff(folder, how_many):
    for seed, rng, book in random_books(how_many):
        check(f"diff of book {seed} with itself", list(state.differences(book, copy.deepcopy(book))) == [])
        before = dataclasses.replace(book, latest_player=0, latest_started=0)
        told = [f"latest player: none -> {texts.latest_text(book)}"] if book.latest_player else []
        check(f"diff of book {seed} with no latest player", list(state.differences(before, book)) == told)
        other, parts = copy.deepcopy(book), []
        fields = list(fields_of(other))
        for where, record, field in rng.sample(fields, min(20, len(fields))):
            setattr(record, field, getattr(record, field) + 1)
            lines = list(state.differences(book, other))
            parts.append((len(lines) == 1 and lines[0].startswith(f"{where}: "), f"{where}, {field}: {lines}"))
            setattr(record, field, getattr(record, field) - 1)
        check_all(f"diff of book {seed} with a field changed", parts)
    a = Book(assets=[Asset(1, 0, 1), Asset(2, 0, 1)], entries=[Entry(1, 1, 1)])
    b = Book(assets=[Asset(2, 0, 1), Asset(1, 0, 1)], entries=[Entry(1, 1, 1), Entry(1, 2, 2, 1, count=5)])
    lines = list(state.differences(a, b))
    check("diff: order of assets, one entry more", lines == [
        "assets: in another order, 1 2 -> 2 1", "entry 1: only in the second: object 1, asset 2, display, count 5"], str(lines))
    lines = list(state.differences(b, Book(assets=[Asset(2, 9, 1)], entries=[])))
    check("diff: less", lines == [
        "asset 2: key -> key, inherits 9", "asset 1: only in the first: key",
        "entry 0: only in the first: object 1, asset 1, play",
        "entry 1: only in the first: object 1, asset 2, display, count 5"], str(lines))
    none, zero = Book(assets=[Asset(1, 0, 1)], entries=[Entry(1, 1, 1)]), Book(assets=[Asset(1, 0, 1)], entries=[Entry(1, 1, 1, 17)])
    lines = list(state.differences(none, zero))
    check("diff: a limit of 0 is not no limit", lines == ["entry 0: count none -> 0; interval none -> 0"], str(lines))
    alone, group = Book(assets=[Asset(1, 0, 1)], entries=[Entry(1, 1, 1)]), Book(assets=[Asset(1, 0, 1)], entries=[Entry(1, 1, 1)])
    group.entries[0].threshold = 3
    lines = list(state.differences(alone, group)) + list(state.differences(group, alone))
    check("diff: a threshold", lines == ["entry 0: threshold none -> 3", "entry 0: threshold 3 -> none"], str(lines))
    asked = copy.deepcopy(group)
    rights.step(asked, Event(4, 1, rights.BEGIN, 1, 1, 50), rights.zeros(asked))
    lines = list(state.differences(group, asked))
    check("diff: a mark is told with its player", asked.entries[0].marks == 16 and len(lines) == 3 and lines[2].startswith(
        "player 4: number none -> 1; ") and "open use none -> entry 0, 1970-01-01 00:00:50 (50) until" in lines[2], str(lines))
    check("diff: who was taken last", lines[1] == "latest player: none -> 4", str(lines))
    group.entries[0].flags, group.entries[0].interval = rights.INTERVAL, 90
    asked = copy.deepcopy(group)
    rights.step(asked, Event(15, 1, rights.BEGIN, 1, 1, 50), rights.zeros(asked))
    other = copy.deepcopy(asked)
    rights.step(other, Event(15, 2, rights.CANCEL, 0, 0, 55), rights.zeros(other))
    lines = list(state.differences(asked, other))
    check("diff: a begin taken back", lines == [
        "time: 1970-01-01 00:00:50 (50) -> 1970-01-01 00:00:55 (55)", "entry 0: first use 1970-01-01 00:00:50 (50) -> none",
        "latest player: 15, started an interval -> 15",
        "player 15: number 1 -> 2; request begin, play asset 1 -> cancel; answer granted entry 0 until 1970-01-01 00:01:50 (110) -> "
        "cancelled entry 0, begun at 1970-01-01 00:00:50 (50); open use entry 0, "
        "1970-01-01 00:00:50 (50) until 1970-01-01 00:01:50 (110) -> none; content 1 -> none"], str(lines))
    answered = Book(60, [Asset(1, 0, 1)], [Entry(1, 1, 1), Entry(1, 1, 4)])
    for operation, asset, kind, entry, words in (
            (rights.BEGIN, 1, 1, 0, "granted entry 0 until 1970-01-01 00:01:00 (60)"),
            (rights.BEGIN, 1, 4, 1, "granted entry 1, once, at 1970-01-01 00:01:00 (60)"),
            (rights.BEGIN, 1, 5, 1, "granted entry 1, once, at 1970-01-01 00:01:00 (60)"),
            (rights.CONTINUE, 0, 0, 0, "granted entry 0 until 1970-01-01 00:01:00 (60)"),
            (rights.STOP, 0, 0, 0, "stopped entry 0 at 1970-01-01 00:01:00 (60)"),
            (rights.CANCEL, 0, 0, 0, "cancelled entry 0, begun at 1970-01-01 00:01:00 (60)")):
        other = copy.deepcopy(answered)
        other.players[2] = rights.Player(1, operation, asset, kind, 0, entry, 60)
        lines = list(state.differences(answered, other))
        check(f"diff: a stored answer, {words[:9]}, operation {operation}, kind {kind}",
              len(lines) == 1 and lines[0].endswith(f"; answer none -> {words}"), str(lines))
        other.players[2] = rights.Player(1, operation, asset, kind, 14, 255, 0)
        lines = list(state.differences(answered, other))
        check(f"diff: a stored refusal, operation {operation}, kind {kind}", lines[0].endswith("; answer none -> refused 14"), str(lines))
    first, second = AFTERNOON / "rights.rbk", folder / "second.rbk"
    second.write_bytes(rights.write(Book(time=5)))
    check("diff: the same", (lambda done: (done.status, done.out, done.err))(call("diff", first, first)) == (0, b"", ""))
    done = call("diff", first, second)
    check("diff: status 1 where books differ", done.status == 1 and done.out.startswith(b"time: ") and done.err == "", done)


# ---- left

OTHER_KIND = {1: 2, 2: 3, 3: 1, 4: 5, 5: 4}


def copy_of(book):
    return dataclasses.replace(book, entries=[copy.copy(entry) for entry in book.entries], players=[copy.copy(p) for p in book.players])


def free_player(book, t):
    """A player that can ask at t and has nothing open then."""
    for index, player in enumerate(book.players):
        if not (player.open and player.until > t) and player.number < rights.LAST_NUMBER:
            return index, player.number + 1
    return None


def asked_alone(rng, book, position, t):
    """(a book in which no other entry has this entry's kind, a begin of that kind at t for each asset that could be
    concerned, and for a few others)."""
    book, wanted = copy_of(book), book.entries[position]
    for other, entry in enumerate(book.entries):
        if other != position and entry.kind == wanted.kind:
            entry.kind = OTHER_KIND[entry.kind]
    numbers = [asset.number for asset in book.assets if wanted.asset in (asset.number, asset.inherit)]
    numbers += rng.sample([asset.number for asset in book.assets], min(3, len(book.assets)))
    return book, [Event(*free_player(book, t), rights.BEGIN, number, wanted.kind, t) for number in numbers]


def granted_by_oracle(book, events):
    return any(rights.step(copy_of(book), event, rights.zeros(book))[0] == 0 for event in events)


def granted_by_run(folder, book, events):
    """The same question to the proved program, one run for each request."""
    (folder / "rights.rbk").write_bytes(rights.write(book))
    for event in events:
        done = subprocess.run([str(RUN)], input=rights.encode(event), cwd=folder, capture_output=True)
        if done.stdout.startswith(b"0 "):
            return True
    return False


def test_left(folder, how_many):
    seen, cancels = {True: 0, False: 0}, {True: 0, False: 0}
    for seed, rng, book in random_books(how_many):
        t = rng.choice((book.time, book.time + 1, book.time + 30, book.time + 60, rng.randrange(LATEST + 1),
                        *days.edges(book, book.time)))
        t = min(LATEST, max(t, book.time))
        if free_player(book, t) is None:
            continue
        lines = list(state.left_lines(state.settled(book, t), t))
        parts = [(len(lines) == max(1, len(book.entries)), "a line for each entry")]
        for position, line in enumerate(lines[:len(book.entries)]):
            says = "; can be granted, " in line
            seen[says] += 1
            alone = asked_alone(rng, book, position, t)
            never = "; never granted: " in line
            parts.append(([says, never, "; nobody can use it: " in line].count(True) == 1, f"one of three: {line}"))
            parts.append((never == book.entries[position].has_limit_of_zero(), f"never: {line}"))
            parts.append((says == granted_by_oracle(*alone), f"by the second program, at {t}: {line}"))
            if position < 3 and len(alone[1]) < 8:
                parts.append((says == granted_by_run(folder, *alone), f"by the run program, at {t}: {line}"))
        check_all(f"left of book {seed}: who can be granted what", parts)
        check_all(f"left of book {seed}: figures", figures(copy_of(book), t, lines))
        check_all(f"left of book {seed}: who may take back a begin", cancelled(book, t, lines, cancels))
    check("left: both cases are met often", min(seen.values()) > how_many, str(seen))
    check("left: both cases of a cancel are met", min(cancels.values()) > how_many / 50, str(cancels))


def cancelled(book, t, lines, seen):
    """A player may still take back its begin where a cancel at t would be granted."""
    for index, player in enumerate(book.players):
        if player.open and player.until > t and player.number < rights.LAST_NUMBER:
            code = rights.step(copy_of(book), Event(index, player.number + 1, rights.CANCEL, 0, 0, t), rights.zeros(book))[0]
            found = re.search(f"player {index} until [0-9-]+ [0-9:]+( .may still take back its begin.)?", lines[player.open_entry])
            seen[code == 0] += 1
            yield found and (found[1] is not None) == (code == 0), f"a cancel of player {index} gets {code}: {lines[player.open_entry]}"


def figures(book, t, lines):
    """The figures of `left` are the meters after a request at t that itself changes no meter."""
    answer = rights.step(book, Event(*free_player(book, t), rights.STOP, 0, 0, t), rights.zeros(book))
    yield answer[0] == 14, "nothing to stop"
    for position, entry in enumerate(book.entries):
        line = lines[position]
        for name, flag, used, most in (("; count", rights.COUNT, entry.used_count, entry.count),
                                       ("; timed count", rights.TIMED, entry.used_timed, entry.timed),
                                       ("; seconds", rights.ACCUMULATED, entry.used_seconds, entry.accumulated)):
            wanted = f"{name} {used} of {most} used, {most - used} left" if most else f"{name} 0: never"
            yield (wanted in line) if entry.has(flag) else (f"{name} " not in line), f"`{wanted}`: {line}"
        users = [index for index, player in enumerate(book.players) if player.open and player.open_entry == position]
        yield users == [int(number) for number in re.findall("player ([0-9]+) until", line)], f"open by {users}: {line}"
        wanted = f"; {len(users)} of {entry.threshold} players have it open; open: "
        yield (wanted in line) if entry.threshold else ("players have it open" not in line), f"`{wanted}`: {line}"


def test_left_words(folder):
    """One book with every case, word for word."""
    path = folder / "cases.txt"
    path.write_text("""time 1000
asset 1 key, inherits 9
asset 9 parent
asset 7 inherits 9
asset 8 parent
entry 0: object 1, asset 9, play, count 2, used count 1
entry 1: object 1, asset 1, play
entry 2: object 1, asset 7, play
entry 3: object 1, asset 8, play, count 2
entry 4: object 1, asset 1, play, start 2000
entry 5: object 1, asset 1, play, end 999
entry 6: object 1, asset 1, play, interval 1h, end 9000
entry 7: object 1, asset 1, play, interval 1h, first 900, end 9000
entry 8: object 1, asset 1, play, interval 100, first 900
entry 9: object 1, asset 1, play, accumulated 60, used accumulated 60
entry 10: object 1, asset 1, display, timed 1, timer 30, used timed 1, count 3, used count 3
entry 11: object 1, asset 9, play, count 0, start 2000
entry 12: object 1, asset 1, display, timed 0, timer 30, count 3, used count 3
entry 13: object 1, asset 1, print, interval 0
entry 14: object 1, asset 1, play, interval 0, first 1000, count 5, used count 1
entry 15: object 1, asset 7, play, count 0, timed 0, interval 0, accumulated 0, end 900
entry 16: object 1, asset 1, play, tracked, timed value 90
entry 17: object 1, asset 1, play, tracked, mark
entry 18: object 1, asset 1, play, tracked, timed value 7d, count 1, used count 1
entry 19: object 1, asset 1, play, threshold 16
entry 20: object 1, asset 1, display, threshold 3, count 5, used count 2
entry 21: object 1, asset 1, display, threshold 2, tracked, mark
entry 22: object 1, asset 1, display, threshold 1, timed 1, timer 60, used timed 1
entry 23: object 1, asset 1, display, threshold 1, count 1, used count 1, end 999
entry 24: object 1, asset 1, print, threshold 1, count 1
player 0: number 1, begin 1 play, granted 9 1060, open 9 1000 1060 content 1
player 3: number 1, begin 1 play, granted 0 1040, open 0 980 1040
player 4: number 1, begin 1 play, refused 43
player 5: number 1, begin 1 display, granted 20 1030, open 20 970 1030
player 6: number 1, begin 1 display, granted 20 1040, open 20 980 1040
player 7: number 1, begin 1 display, granted 21 1030, open 21 970 1030 content 1
player 15: number 1, begin 1 display, granted 21 1060, open 21 1000 1060 content 1
player 8: number 1, begin 1 display, granted 22 1030, open 22 1000 1030
latest player 15
""")
    image = folder / "cases.rbk"
    call("make", path, image)
    done = call("left", image, "--at", "1970-01-01 00:16:40 (1000)")
    wanted = """At 1970-01-01 00:16:40 (1000), UTC, as asked
entry 0: play of asset 9 (for 1); count 1 of 2 used, 1 left; open: player 3 until 1970-01-01 00:17:20; can be granted, no end
entry 1: play of asset 1; no count and no seconds to use up; open: nobody; can be granted, no end
entry 2: play of asset 7; no count and no seconds to use up; open: nobody; nobody can use it: asset 7 is illegal \
(it inherits but has no key)
entry 3: play of asset 8; count 0 of 2 used, 2 left; open: nobody; nobody can use it: nothing with a key inherits from asset 8
entry 4: play of asset 1; no count and no seconds to use up; open: nobody; nobody can use it: it starts 1970-01-01 00:33:20
entry 5: play of asset 1; no count and no seconds to use up; open: nobody; nobody can use it: it ended 1970-01-01 00:16:39
entry 6: play of asset 1; no count and no seconds to use up; open: nobody; can be granted, \
ends 1 h after its first use, at the latest 1970-01-01 02:30:00
entry 7: play of asset 1; no count and no seconds to use up; open: nobody; can be granted, ends 1970-01-01 01:14:59
entry 8: play of asset 1; no count and no seconds to use up; open: nobody; nobody can use it: its interval ended 1970-01-01 00:16:39
entry 9: play of asset 1; seconds 60 of 60 used, 0 left (0 s); open: player 0 until 1970-01-01 00:17:40; \
nobody can use it: the seconds are used up (a stop of an open use gives some back)
entry 10: display of asset 1; count 3 of 3 used, 0 left; timed count 1 of 1 used, 0 left (a use counts from 30 s on); open: nobody; \
nobody can use it: the count is used up and the timed count is used up
entry 11: play of asset 9 (for 1); count 0: never; open: nobody; never granted: the count is 0
entry 12: display of asset 1; count 3 of 3 used, 0 left; timed count 0: never (a use counts from 30 s on); open: nobody; \
never granted: the timed count is 0
entry 13: print of asset 1; no count and no seconds to use up; open: nobody; never granted: the interval is 0
entry 14: play of asset 1; count 1 of 5 used, 4 left; open: nobody; never granted: the interval is 0
entry 15: play of asset 7; count 0: never; timed count 0: never; seconds 0: never; open: nobody; never granted: the count is 0 and \
the timed count is 0 and the interval is 0 and the seconds are 0
entry 16: play of asset 1; no count and no seconds to use up; open: nobody; nobody can use it: metering is off \
(it is tracked and has no mark)
entry 17: play of asset 1; no count and no seconds to use up; open: nobody; can be granted, no end
entry 18: play of asset 1; count 1 of 1 used, 0 left; open: nobody; nobody can use it: the count is used up and metering is off \
(it is tracked and has no mark)
entry 19: play of asset 1; no count and no seconds to use up; 0 of 16 players have it open; open: nobody; can be granted, no end
entry 20: display of asset 1; count 2 of 5 used, 3 left; 2 of 3 players have it open; open: player 5 until 1970-01-01 00:17:10, \
player 6 until 1970-01-01 00:17:20; can be granted, no end
entry 21: display of asset 1; no count and no seconds to use up; 2 of 2 players have it open; open: player 7 until 1970-01-01 00:17:10, \
player 15 until 1970-01-01 00:17:40 (may still take back its begin); nobody can use it: as many players have it open as may \
(a stop of an open use makes room)
entry 22: display of asset 1; timed count 1 of 1 used, 0 left (a use counts from 1 min on); 1 of 1 players have it open; \
open: player 8 until 1970-01-01 00:17:10; nobody can use it: the timed count is used up and as many players have it open as may \
(a stop of an open use gives some back)
entry 23: display of asset 1; count 1 of 1 used, 0 left; 0 of 1 players have it open; open: nobody; nobody can use it: the count is \
used up and it ended 1970-01-01 00:16:39
entry 24: print of asset 1; count 0 of 1 used, 1 left; 0 of 1 players have it open; open: nobody; can be granted, no end
"""
    check("left: a book with every case", done.out.decode() == wanted, done.out.decode())
    done = call("left", "--at", "1970-01-01", "00:16:40", "(1000)", image)
    check("left: a time without quotes", done.out.decode() == wanted, done)
    for t, found in ((1029, ("2 of 3", "2 of 2", "1 of 1", "nobody can use it: as many")), (1030, ("1 of 3", "1 of 2", "0 of 1", "can be")),
                     (1060, ("0 of 3", "0 of 2", "0 of 1", "can be granted, no end"))):
        lines = call("left", image, "--at", t).out.decode().splitlines()[21:24]
        check(f"left: players that have an entry open, at {t}", all(f"; {words} players have it open; " in line
              for words, line in zip(found, lines)) and f"; {found[3]}" in lines[1], lines)
    done = call("left", image)
    check("left: this machine's clock", b"UTC, this machine's clock\n" in done.out and b"player 3" not in done.out, done)
    done = call("left", image, "--at=5")
    check("left: a time before the book's", done.out.startswith(
        b"At 1970-01-01 00:16:40 (1000), UTC, the book's time: at 1970-01-01 00:00:05 (5), as asked, a new request would be"
        b" turned away with 5.\n"), done)
    out = call("show", image).out.decode()
    check("show: names the time it judges at", "can be granted at 1970-01-01 00:16:40, no end" in out, out)
    check("show: an entry on an illegal asset",
          "play of asset 7: nobody can use it at 1970-01-01 00:16:40: asset 7 is illegal" in out, out)
    check("show: an entry on a parent without heirs", "play of asset 8: nobody can use it at" in out, out)
    for lines in ("""\
     11  rights object 1, play of asset 9: never granted: the count is 0
         count 0: never
         from 1970-01-01 00:33:20 (2000)
""", """\
     13  rights object 1, print of asset 1: never granted: the interval is 0
         interval 0: never
     14  rights object 1, play of asset 1: never granted: the interval is 0
         count 1 of 5 used, 4 left
         interval 0: never, started 1970-01-01 00:16:40 (1000)
     15  rights object 1, play of asset 7: never granted: the count is 0 and the timed count is 0 and the interval is 0 and \
the seconds are 0
         count 0: never
         timed count 0: never
         seconds 0: never
         to 1970-01-01 00:15:00 (900)
         interval 0: never
"""):
        check(f"show: limits of 0, entry {lines.split()[0]}", lines in out, out)
    for lines in ("""\
The book's time: 1970-01-01 00:16:40 (1000), UTC
Metering: off

""", """\
     16  rights object 1, play of asset 1: nobody can use it at 1970-01-01 00:16:40: metering is off (it is tracked and has no mark)
         no limits
         tracked, a use is a time from 1 min 30 s on; not granted with metering off (mark 0)
     17  rights object 1, play of asset 1: can be granted at 1970-01-01 00:16:40, no end
         no limits
         tracked, every use is a time; granted with metering off too (mark 1)
     18  rights""", """\
         count 1 of 1 used, 0 left
         tracked, a use is a time from 7 d on; not granted with metering off (mark 0)
""", """\
         open: entry 9, since 1970-01-01 00:16:40 (1000), until 1970-01-01 00:17:40 (1060), content 1
""", """\
         open: entry 0, since 1970-01-01 00:16:20 (980), until 1970-01-01 00:17:20 (1040)
""", """\
         answer 43, refused: metering is off, and what is left for it is tracked and has no mark
"""):
        check(f"show: metering, {lines.strip()[:20]}", lines in out, out)
    for lines in ("""\
     19  rights object 1, play of asset 1: can be granted at 1970-01-01 00:16:40, no end
         0 of 16 players have it open
     20  rights object 1, display of asset 1: can be granted at 1970-01-01 00:16:40, no end
         count 2 of 5 used, 3 left
         2 of 3 players have it open
     21  rights object 1, display of asset 1: nobody can use it at 1970-01-01 00:16:40: as many players have it open as may \
(a stop of an open use makes room)
         2 of 2 players have it open
         tracked, every use is a time; granted with metering off too (mark 1)
     22""", """\
         count 1 of 1 used, 0 left
         to 1970-01-01 00:16:39 (999)
         0 of 1 players have it open
     24"""):
        check(f"show: thresholds, {lines.strip()[:20]}", lines in out, out)
    check("show: who was taken last", out.endswith("\nLatest player: 15\n"), out)
    lasts = path.read_text()
    for line, wanted in (("", "none"), ("latest player 4", "4"),
                         ("latest player 9, started an interval", "9, started an interval")):
        path.write_text(lasts.replace("latest player 15", line).replace("entry 8:", "entry 8: threshold 1,").replace(
            "interval 100, first 900", "interval 200, first 990") + "player 9: number 7, begin 1 play, granted 8 1050, open 8 990 1050\n")
        call("make", path, image, "--over")
        out = call("show", image).out.decode()
        check(f"show: latest player, {wanted}", out.endswith(f"\nLatest player: {wanted}\n"), out)
        may = [line for line in call("left", image, "--at", 1000).out.decode().splitlines() if "may still take back" in line]
        check(f"left: latest player, {wanted}", len(may) == ("9" in wanted) and all(line.startswith("entry 8: ") for line in may), may)
        check(f"left: latest player, {wanted}, too late", b"may still" not in call("left", image, "--at", 1050).out)
    path.write_text(lasts)
    path.write_text(path.read_text() + "metering on\n")
    call("make", path, image, "--over")
    out = call("show", image).out.decode()
    check("show: metering on", "\nMetering: on\n" in out and "metering is off (" not in out, out)
    check("left: metering on", b"metering" not in call("left", image, "--at", "1000").out)


# ---- why

def test_why(folder, how_many):
    """The answer, the entries listed and what stands against each are those of the second program."""
    seen, full = {}, 0
    for seed, rng, book in random_books(how_many):
        image, parts = rights.write(book), []
        for _ in range(3):
            t = min(LATEST, max(book.time, rng.choice((book.time, book.time + 30, *days.edges(book, book.time)))))
            player, kind = rng.randrange(rights.PLAYERS), rng.randint(1, 5)
            crowded = [each for position, each in enumerate(book.entries) if 0 < each.threshold <= len(book.users(position))]
            entry = rng.choice(book.entries) if book.entries else None
            if crowded and rng.random() < 0.5:
                entry, t = rng.choice(crowded), book.time
            asset = rng.choice([rng.randrange(9)] + [asset.number for asset in book.assets])
            if entry and rng.random() < 0.7:
                kind = entry.kind
                askers = [each.number for each in book.assets if each.key and entry.asset in (each.number, each.inherit)]
                asset = rng.choice(askers or [asset])
            first, *lines = why.why_lines(image, copy_of(book), player, asset, kind, t)
            after = copy_of(book)
            last = book.players[player].number
            answer = rights.step(after, Event(player, (last + 1) % 2**64, rights.BEGIN, asset, kind, t), rights.zeros(book))
            seen[answer[0]] = seen.get(answer[0], 0) + 1
            full += any("players have it open" in line for line in lines)
            parts.append((first.startswith(f"The answer would be {answer[0]}, "), f"{answer}: {first}"))
            parts += why_parts(state.settled(book, t), asset, kind, t, answer, lines)
        check_all(f"why, book {seed}", parts)
    check("why: every answer is met", {0, 10, 11, 12, 13, 43} <= set(seen), str(seen))
    check("why: full entries are met", full > how_many / 20, str(full))


def why_parts(book, asset, kind, t, answer, lines):
    found = book.asset(asset)
    suitable = rights.suitable_entries(book, found, kind) if found is not None and found.key else []
    listed = [int(re.match("  entry ([0-9]+) ", line)[1]) for line in lines]
    yield listed == suitable, f"suitable are {suitable}: {lines}"
    for position, line in zip(suitable, lines):
        entry, said = book.entries[position], re.sub(r" \(a stop of an open use .*\)", "", line.split("): ", 1)[1])
        if rights.is_grantable(book, entry, t):
            chosen = "would be chosen" if position == answer[1] else f"entry {answer[1]} goes first"
            yield said == (f"can be granted; {chosen}" if answer[0] == 0 else "nothing stands against it"), line
            continue
        wanted = [words for words, stands in (
            (all_used("count", entry.count), entry.has(rights.COUNT) and entry.used_count == entry.count),
            (all_used("timed count", entry.timed), entry.has(rights.TIMED) and entry.used_timed == entry.timed),
            (f"not before {words.date(entry.start)}", entry.has(rights.START) and t < entry.start),
            (f"not after {words.date(entry.end)}", entry.has(rights.END) and entry.end < t),
            (f"interval over since {words.date(entry.first + entry.interval)}",
             entry.interval and entry.started and entry.first + entry.interval <= t),
            (all_used("seconds", entry.accumulated), entry.has(rights.ACCUMULATED) and entry.used_seconds == entry.accumulated),
            ("interval 0: never granted", entry.has(rights.INTERVAL) and not entry.interval),
            ("metering is off, and it is tracked without a mark", entry.tracked and not book.switch and not entry.mark),
            (f"{len(book.users(position))} of {entry.threshold} players have it open",
             entry.threshold and len(book.users(position)) >= entry.threshold)) if stands]
        yield said == "; ".join(wanted), f"wanted {wanted}: {line}"


def all_used(name, limit):
    return f"{name}: {limit} of {limit} used" if limit else f"{name} 0: never granted"


def test_why_words(folder):
    """One book with every case, word for word."""
    path, image = folder / "cases.txt", folder / "cases.rbk"
    path.write_text("""time 1000
asset 1 key, inherits 9
asset 2 key
asset 3 key
asset 4 key
asset 7 inherits 9
asset 8 key
asset 9 parent
entry 0: object 1, asset 9, play, count 2, used count 2
entry 1: object 1, asset 1, play, interval 1h
entry 2: object 2, asset 1, play, end 9000
entry 3: object 2, asset 1, play, start 2000, count 1, used count 1
entry 4: object 1, asset 1, play, end 999
entry 5: object 1, asset 1, play, interval 100, first 900
entry 6: object 1, asset 1, play, accumulated 60, used accumulated 60
entry 7: object 1, asset 1, display, timed 1, timer 30, used timed 1
entry 8: object 3, asset 9, execute, count 0, start 2000
entry 9: object 3, asset 1, execute, timed 0, timer 30, accumulated 0
entry 10: object 3, asset 1, execute, interval 0
entry 11: object 3, asset 1, execute, interval 0, first 1000, count 5, used count 5
entry 12: object 4, asset 2, display, tracked, count 1, used count 1
entry 13: object 4, asset 2, display, tracked, timed value 30
entry 14: object 5, asset 4, play, end 9000
entry 15: object 5, asset 4, play, interval 1h, first 1000
entry 16: object 5, asset 4, play, end 20000, interval 1h, first 999
entry 17: object 5, asset 4, play, interval 1min
entry 18: object 6, asset 2, play, threshold 2
entry 19: object 6, asset 2, play, threshold 3, end 9000
entry 20: object 6, asset 2, execute, threshold 1, tracked
entry 21: object 6, asset 2, print, threshold 1, count 1
entry 22: object 6, asset 3, display, threshold 1, accumulated 60, used accumulated 60
player 0: number 1, begin 1 play, granted 6 1060, open 6 1000 1060
player 1: number 18446744073709551615, stop, refused 14
player 4: number 1, begin 2 play, granted 18 1060, open 18 1000 1060
player 5: number 1, begin 2 play, granted 18 1050, open 18 990 1050
player 6: number 1, begin 2 play, granted 19 1060, open 19 1000 1060
player 7: number 1, begin 2 play, granted 19 1040, open 19 1000 1040
player 8: number 1, begin 2 play, granted 19 1060, open 19 1000 1060
player 9: number 1, begin 2 execute, granted 20 1060, open 20 1000 1060 content 2
player 10: number 1, begin 3 display, granted 22 1060, open 22 1000 1060
latest player 10
""")
    call("make", path, image)
    cases = (((3, 1, "play", "--at", "1970-01-01 00:16:40 (1000)"), """\
Player 3 asks to play asset 1 at 1970-01-01 00:16:40 (1000), UTC, as asked.
The answer would be 0, granted by entry 2 until 1970-01-01 00:17:40 (1060).
  entry 0 (inherited from 9, rights object 1): count: 2 of 2 used
  entry 1 (its own, rights object 1): can be granted; entry 2 goes first
  entry 2 (its own, rights object 2): can be granted; would be chosen
  entry 3 (its own, rights object 2): count: 1 of 1 used; not before 1970-01-01 00:33:20
  entry 4 (its own, rights object 1): not after 1970-01-01 00:16:39
  entry 5 (its own, rights object 1): interval over since 1970-01-01 00:16:40
  entry 6 (its own, rights object 1): seconds: 60 of 60 used (a stop of an open use gives some back)
"""), ((3, 1, "display", "--at", "5"), """\
Player 3 asks to display asset 1 at 1970-01-01 00:16:40 (1000), UTC, the book's time (at 1970-01-01 00:00:05 (5), as asked, \
it would be turned away with 5).
The answer would be 13, refused: every entry for it is used up, out of its dates, open to no more players, or never granted.
  entry 7 (its own, rights object 1): timed count: 1 of 1 used
"""), ((3, 1, "execute", "--at=1059"), """\
Player 3 asks to execute asset 1 at 1970-01-01 00:17:39 (1059), UTC, as asked.
The answer would be 13, refused: every entry for it is used up, out of its dates, open to no more players, or never granted.
  entry 8 (inherited from 9, rights object 3): count 0: never granted; not before 1970-01-01 00:33:20
  entry 9 (its own, rights object 3): timed count 0: never granted; seconds 0: never granted
  entry 10 (its own, rights object 3): interval 0: never granted
  entry 11 (its own, rights object 3): count: 5 of 5 used; interval 0: never granted
"""), ((0, 1, "display", "--at=1059"), """\
Player 0 asks to display asset 1 at 1970-01-01 00:17:39 (1059), UTC, as asked.
The answer would be 11, refused: the player has a use open: entry 6, since 1970-01-01 00:16:40, until 1970-01-01 00:17:40.
  entry 7 (its own, rights object 1): timed count: 1 of 1 used
"""), ((3, 2, "display", "--at=1059"), """\
Player 3 asks to display asset 2 at 1970-01-01 00:17:39 (1059), UTC, as asked.
The answer would be 43, refused: metering is off, and what is left for it is tracked and has no mark.
  entry 12 (its own, rights object 4): count: 1 of 1 used; metering is off, and it is tracked without a mark
  entry 13 (its own, rights object 4): metering is off, and it is tracked without a mark
"""), ((3, 4, "play", "--at=1059"), """\
Player 3 asks to play asset 4 at 1970-01-01 00:17:39 (1059), UTC, as asked.
The answer would be 0, granted by entry 16 until 1970-01-01 00:18:39 (1119).
  entry 14 (its own, rights object 5): can be granted; entry 16 goes first
  entry 15 (its own, rights object 5): can be granted; entry 16 goes first
  entry 16 (its own, rights object 5): can be granted; would be chosen
  entry 17 (its own, rights object 5): can be granted; entry 16 goes first
"""), ((3, 4, "play", "--at=4599"), """\
Player 3 asks to play asset 4 at 1970-01-01 01:16:39 (4599), UTC, as asked.
The answer would be 0, granted by entry 15 until 1970-01-01 01:16:40 (4600).
  entry 14 (its own, rights object 5): can be granted; entry 15 goes first
  entry 15 (its own, rights object 5): can be granted; would be chosen
  entry 16 (its own, rights object 5): interval over since 1970-01-01 01:16:39
  entry 17 (its own, rights object 5): can be granted; entry 15 goes first
"""), ((3, 4, "play", "--at=9000"), """\
Player 3 asks to play asset 4 at 1970-01-01 02:30:00 (9000), UTC, as asked.
The answer would be 0, granted by entry 14 until 1970-01-01 02:30:01 (9001).
  entry 14 (its own, rights object 5): can be granted; would be chosen
  entry 15 (its own, rights object 5): interval over since 1970-01-01 01:16:40
  entry 16 (its own, rights object 5): interval over since 1970-01-01 01:16:39
  entry 17 (its own, rights object 5): can be granted; entry 14 goes first
"""), ((3, 3, "play", "--at=1059"), """\
Player 3 asks to play asset 3 at 1970-01-01 00:17:39 (1059), UTC, as asked.
The answer would be 12, refused: the book has no entry of this kind for the asset: it has display.
"""), ((3, 8, "play", "--at=1059"), """\
Player 3 asks to play asset 8 at 1970-01-01 00:17:39 (1059), UTC, as asked.
The answer would be 12, refused: the book has no entry of this kind for the asset: it has none of any kind.
"""), ((3, 2, "play", "--at=1000"), """\
Player 3 asks to play asset 2 at 1970-01-01 00:16:40 (1000), UTC, as asked.
The answer would be 13, refused: every entry for it is used up, out of its dates, open to no more players, or never granted.
  entry 18 (its own, rights object 6): 2 of 2 players have it open (a stop of an open use makes room)
  entry 19 (its own, rights object 6): 3 of 3 players have it open (a stop of an open use makes room)
"""), ((3, 2, "play", "--at=1039"), """\
Player 3 asks to play asset 2 at 1970-01-01 00:17:19 (1039), UTC, as asked.
The answer would be 13, refused: every entry for it is used up, out of its dates, open to no more players, or never granted.
  entry 18 (its own, rights object 6): 2 of 2 players have it open (a stop of an open use makes room)
  entry 19 (its own, rights object 6): 3 of 3 players have it open (a stop of an open use makes room)
"""), ((3, 2, "play", "--at=1040"), """\
Player 3 asks to play asset 2 at 1970-01-01 00:17:20 (1040), UTC, as asked.
The answer would be 0, granted by entry 19 until 1970-01-01 00:18:20 (1100).
  entry 18 (its own, rights object 6): 2 of 2 players have it open (a stop of an open use makes room)
  entry 19 (its own, rights object 6): can be granted; would be chosen
"""), ((5, 2, "play", "--at=1050"), """\
Player 5 asks to play asset 2 at 1970-01-01 00:17:30 (1050), UTC, as asked.
The answer would be 0, granted by entry 18 until 1970-01-01 00:18:30 (1110).
  entry 18 (its own, rights object 6): can be granted; would be chosen
  entry 19 (its own, rights object 6): can be granted; entry 18 goes first
"""), ((3, 2, "execute", "--at=1059"), """\
Player 3 asks to execute asset 2 at 1970-01-01 00:17:39 (1059), UTC, as asked.
The answer would be 13, refused: every entry for it is used up, out of its dates, open to no more players, or never granted.
  entry 20 (its own, rights object 6): metering is off, and it is tracked without a mark; 1 of 1 players have it open
"""), ((3, 2, "execute", "--at=1060"), """\
Player 3 asks to execute asset 2 at 1970-01-01 00:17:40 (1060), UTC, as asked.
The answer would be 43, refused: metering is off, and what is left for it is tracked and has no mark.
  entry 20 (its own, rights object 6): metering is off, and it is tracked without a mark
"""), ((3, 2, "print", "--at=1000"), """\
Player 3 asks to print asset 2 at 1970-01-01 00:16:40 (1000), UTC, as asked.
The answer would be 0, granted by entry 21, once, at 1970-01-01 00:16:40 (1000).
  entry 21 (its own, rights object 6): can be granted; would be chosen
"""), ((3, 3, "display", "--at=1000"), """\
Player 3 asks to display asset 3 at 1970-01-01 00:16:40 (1000), UTC, as asked.
The answer would be 13, refused: every entry for it is used up, out of its dates, open to no more players, or never granted.
  entry 22 (its own, rights object 6): seconds: 60 of 60 used; 1 of 1 players have it open (a stop of an open use gives some back)
"""), ((10, 3, "display", "--at=1059"), """\
Player 10 asks to display asset 3 at 1970-01-01 00:17:39 (1059), UTC, as asked.
The answer would be 11, refused: the player has a use open: entry 22, since 1970-01-01 00:16:40, until 1970-01-01 00:17:40 \
(may still take back its begin).
  entry 22 (its own, rights object 6): seconds: 60 of 60 used; 1 of 1 players have it open (a stop of an open use gives some back)
"""), ((3, 1, "print", "--at=1059"), """\
Player 3 asks to print asset 1 at 1970-01-01 00:17:39 (1059), UTC, as asked.
The answer would be 12, refused: the book has no entry of this kind for the asset: it has play, display, execute.
"""), ((1, 1, "play", "--at=9000"), """\
Player 1 asks to play asset 1 at 1970-01-01 02:30:00 (9000), UTC, as asked.
The answer would be 3, turned away: its number is not the player's next one, nor counter 1 under a greater boot number: \
it has used all of them, up to 4294967295.4294967295.
  entry 0 (inherited from 9, rights object 1): count: 2 of 2 used
  entry 1 (its own, rights object 1): nothing stands against it
  entry 2 (its own, rights object 2): nothing stands against it
  entry 3 (its own, rights object 2): count: 1 of 1 used
  entry 4 (its own, rights object 1): not after 1970-01-01 00:16:39
  entry 5 (its own, rights object 1): interval over since 1970-01-01 00:16:40
  entry 6 (its own, rights object 1): seconds: 60 of 60 used
"""))
    for args, wanted in cases:
        done = call("why", image, *args)
        check(f"why: {args}", done.status == 0 and done.out.decode() == wanted, done.out.decode() or done)
    for asset, reason in ((5, "is not in the book"), (9, "is a parent"), (7, "has no key")):
        done = call("why", image, 3, asset, "play", "--at=1000")
        wanted = f"refused: the asset is not in the book, or has no key: asset {asset} {reason}.\n"
        check(f"why: asset {asset}", done.out.decode().endswith(wanted), done)
    done = call("why", "-", 3, 1, "play", stdin=image.read_bytes())
    check("why: standard input, this machine's clock", b"UTC, this machine's clock.\n" in done.out, done)


# ---- after

def test_after(folder, how_many):
    image, events, following = AFTERNOON / "rights.rbk", AFTERNOON / "events.bin", folder / "next.rbk"
    done = call("after", image, events, following)
    check("after: the afternoon's answers", done.status == 0 and done.out == (AFTERNOON / "expected.txt").read_bytes(), done)
    for seed in range(how_many):
        data, stream, _ = days.make_day(seed, random.Random(seed).choice((0, 1, 60, 300)), None if seed % 3 else "crowd")
        compare_after(folder, f"after: day {seed}", data or b"", stream)
    data, stream, _ = days.make_day(4, 17_000, "cabins")
    compare_after(folder, "after: a day of four blocks", data, stream[:rights.RECORD.size * 17_000])
    compare_after(folder, "after: a day of four blocks, cut short", data, stream[:rights.RECORD.size * 16_999 + 5])
    compare_after(folder, "after: a day of just one block", data, stream[:rights.RECORD.size * 5000])
    compare_after(folder, "after: a record of printable bytes", data, b"These are records")

    named = folder / "named"
    for name, args, stdin in (("events from standard input", (image, "-", named), events.read_bytes()),
                              ("the book from standard input", ("-", events, named), image.read_bytes())):
        named.unlink(missing_ok=True)
        piped = call("after", *args, stdin=stdin)
        check(f"after: {name}", piped.out == done.out and named.read_bytes() == following.read_bytes(), piped)
    named.unlink()
    piped = subprocess.run(["bash", "-c", f"{TOOL} after <(cat {image}) <(cat {events}) {named}"], capture_output=True)
    check("after: both from pipes", piped.stdout == done.out and named.read_bytes() == following.read_bytes(), piped)
    again = call("after", following, "/dev/null", named)
    check("after: no events, the same book", again.out == b"" and named.read_bytes() == following.read_bytes(), again)
    named.unlink()
    with open("/dev/full", "wb") as full:
        ended = subprocess.run([sys.executable, TOOL, "after", image, events, named], stdout=full, stderr=subprocess.PIPE)
    check("after: the book is saved before the answers leave", ended.returncode == 2 and b"standard output" in ended.stderr
          and named.read_bytes() == following.read_bytes(), ended)


def compare_after(folder, name, data, stream):
    """The answers and the next book of `after` are those of the second program, and its lines those of `run`."""
    image, events, out = folder / "rights.rbk", folder / "events.bin", folder / "out.rbk"
    image.write_bytes(data)
    events.write_bytes(stream)
    out.unlink(missing_ok=True)
    code, book = rights.read(data)
    if code != 0:
        refused(f"{name}, refused with {code}", f"with {code}", "after", image, events, out)
        check(f"{name}, refused: no book is written", not out.exists())
        return
    done = call("after", image, events, out)
    play(book, stream)
    check(f"{name}: answers", done.status == 0 and done.out.decode() == rights.run(data, stream), done)
    check(f"{name}: next book", out.exists() and out.read_bytes() == rights.write(book), done)
    ran = subprocess.run([str(RUN)], input=stream, cwd=folder, capture_output=True)
    check(f"{name}: the lines of the run program", ran.stdout == done.out, ran)


# ---- report

def test_report(folder, how_many):
    """The shipped bills, and those of random days: the sums are the ledger's, built from events and answers alone."""
    image, events = METERED / "rights.rbk", METERED / "events.bin"
    for name, options in (("bill.txt", []), ("bill.csv", ["--csv"])):
        done = call("report", image, events, *options)
        check(f"report: {name}", done.status == 0 and done.out == (METERED / name).read_bytes(), done)
        check(f"report: {name}, how many requests", done.err
              == f"{events}: 14 requests: 13 granted, 0 refused, 0 turned away, 1 sent again\n", done)
    for name in ("book.txt", "events.txt"):
        made = call({"book.txt": "make", "events.txt": "events"}[name], METERED / name, "-")
        check(f"report: the example's {name}", made.out == (METERED / name).with_name(
            {"book.txt": "rights.rbk", "events.txt": "events.bin"}[name]).read_bytes(), made)
    check("report: an option in front", call("report", "--csv", image, events).out == (METERED / "bill.csv").read_bytes())
    check("report: events from standard input", call("report", image, "-", stdin=events.read_bytes()).out
          == (METERED / "bill.txt").read_bytes())
    check("report: no events", call("report", image, "/dev/null", "--csv").out
          == b"content,times,hours,seconds\n1,0,0:00:00,0\n2,0,0:00:00,0\n3,0,0:00:00,0\n")
    some = 0
    for seed in range(how_many):
        rng = random.Random(f"report {seed}")
        book, ledger, day = fresh_day(rng)
        path, stream = folder / "rights.rbk", folder / "events.bin"
        path.write_bytes(rights.write(book))
        stream.write_bytes(b"".join(day))
        wanted = [line for line in ledger.report() if book.asset(line[0]).key or line[1:] != (0, 0)]
        some += any(seconds for _, _, seconds in wanted)
        text = "content,times,hours,seconds\n" + "".join(
            f"{content},{times},{seconds // 3600}:{seconds % 3600 // 60:02}:{seconds % 60:02},{seconds}\n"
            for content, times, seconds in wanted)
        got = "\n".join(report.csv_lines(library.played(path, path.read_bytes(), stream.read_bytes()))) + "\n"
        check(f"report of day {seed}", got == text, f"{got} but by the ledger {text}")
        if seed < 5:
            check(f"report of day {seed}, as a command", call("report", path, stream, "--csv").out.decode() == text)
    check("report: many days have something to report", some > how_many / 6, str(some))
    test_report_words(folder)


def fresh_day(rng):
    """A fresh book, a day from it, and the ledger of that day."""
    around = rng.choice((0, 1000, 1_700_000_000))
    book = days.fresh_book(rng, around)
    running, lines, day = copy.deepcopy(book), rights.zeros(book), []
    ledger = Ledger(book.assets, book.entries, book.switch)
    for _ in range(rng.choice((20, 60, 150))):
        event = days.next_event(rng, running, around)
        ledger.add(event, rights.step(running, event, lines))
        day.append(rights.encode(event))
    return book, ledger, day


def test_report_words(folder):
    """What a bill says of what it leaves out; long days."""
    path, image, events = folder / "b.txt", folder / "b.rbk", folder / "e.bin"
    book = "asset 1 key\nasset 2 parent\nentry 0: object 1, asset 1, play, tracked, mark\nentry 1: object 1, asset 1, display\n"
    lines = [f"0.{i + 1} {'continue' if i else 'begin 1 play'} {1000 + 59 * i}" for i in range(1001)]     # the last until 60060
    day = "\n".join(lines + ["0.1002 stop 62000", "1.1 begin 1 play 62000", "2.1 begin 1 play 62000", "3.1 begin 1 display 62000"])
    events.write_bytes(call("events", "-", "-", stdin=day.encode()).out)
    head = "Usage from 1970-01-01 00:00:00 (0) to 1970-01-01 17:13:20 (62000), UTC\n\ncontent     times         hours       seconds\n"
    for name, text, rest in (
            ("metering on", "metering on\n" + book, """\
      1         1      16:24:20         59060
    all         1      16:24:20         59060

Still open, and not in it: 2 uses of tracked entries.
"""), ("metering off", book, """\
      1         0       0:00:00             0
    all         0       0:00:00             0

Metering is off in this book: nothing is recorded.
"""), ("nothing tracked", "metering on\n" + book.replace(", tracked, mark", ""), """\
      1         0       0:00:00             0
    all         0       0:00:00             0

No entry of this book is tracked: nothing is recorded.
""")):
        path.write_text(text)
        call("make", path, image)
        done = call("report", image, events)
        check(f"report: {name}", done.out.decode() == head + rest, done.out.decode())


def test_building(folder):
    """On a fresh copy, with a stand-in for rt: what is missing is built quietly; if tools are missing or fail,
    a message says so."""
    root = folder / "root"
    for part in ("tools", "embed", "oracle", "examples"):
        shutil.copytree(ROOT / part, root / part, ignore=shutil.ignore_patterns("__pycache__"))
    for crate, file in (("x", "lib.rt"), ("embed_c", "lib.rt"), ("run", "main.rt")):
        (root / "crates" / crate / "src").mkdir(parents=True)
        (root / "crates" / crate / "src" / file).write_text("")
    tool, out = root / "tools" / "book.py", folder / "built.rbk"
    args = ["after", AFTERNOON / "rights.rbk", AFTERNOON / "events.bin", out]
    bare = folder / "bin"
    bare.mkdir()
    clean = {**os.environ, "PATH": str(bare)}
    refused("after: no rt", "`rt`, the command of the Rattle kit, is not found", *args, tool=tool, env=clean)
    rt = bare / "rt"
    rt.write_text("#!/bin/sh\necho words of the prover\nexit 1\n")
    rt.chmod(0o755)
    refused("after: rt fails", "`tools/build embed_c` failed; what it said is in", *args, tool=tool, env=clean)
    check("after: what rt said is in the log", "words of the prover" in (root / "target/tools/after.log").read_text())
    rt.write_text(f"#!/bin/sh\nexport PATH={os.environ['PATH']}\nmkdir -p out\n"
                  f"[ $1 = run ] && cp {RUN} out/run || cp {library.LIBRARY} out/libembed_c.a\n"
                  "echo words of the prover; echo more words >&2\n")
    refused("after: no C compiler", "`cc`, a C compiler, is not found", *args, tool=tool, env=clean)
    check("after: nothing is written before all is built", not out.exists())
    able = {**os.environ, "PATH": f"{bare}:{os.environ['PATH']}"}
    done = call(*args, tool=tool, env=able)
    check("after: built on demand", done.status == 0 and done.out == (AFTERNOON / "expected.txt").read_bytes()
          and done.err.count("building") == 1 and "words" not in done.err, done)
    done = call(*args, tool=tool)
    check("after: built once", done.status == 0 and "building" not in done.err, done)
    one = call("import", OBJECTS / "film.xml", folder / "film.rbk", tool=tool)
    again = call("import", OBJECTS / "film.xml", folder / "film.rbk", tool=tool)
    check("import: its program is built once, on demand", one.status == again.status == 0 and again.err == ""
          and one.err.count("building the program") == one.err.count("building") == 1 and one.out == again.out, one)
    later = out.stat().st_mtime + 10
    os.utime(root / "crates" / "x" / "src" / "lib.rt", (later, later))
    done = call(*args, tool=tool, env=able)
    check("after: built again where a source is newer", done.status == 0 and "building the library" in done.err, done)

    shutil.rmtree(root / "target")
    done = Done(subprocess.run([root / "examples" / "try"], env=able, capture_output=True))
    check("try: prints the day and nothing else", done.out == (AFTERNOON / "try.txt").read_bytes(), done)
    check("try: a line for each thing that is built", re.fullmatch(
        "building the run program, some minutes .*; log in target/try.log\nbuilding the library .*\nbuilding the program .*\n"
        ".*events.bin: 22 requests: .*\n",
        done.err) is not None, done)
    shutil.rmtree(root / "target")
    os.utime(root / "crates" / "x" / "src" / "lib.rt", (0, 0))
    shop, day = folder / "shop", (AFTERNOON / "events.bin").read_bytes()
    shop.mkdir()
    shutil.copy(AFTERNOON / "rights.rbk", shop)
    done = Done(subprocess.run([root / "tools" / "serve", shop], env=able, input=day, capture_output=True))
    check("serve: builds what is missing, a line for each", done.status == 0 and done.out == (AFTERNOON / "expected.txt").read_bytes()
          and re.fullmatch("building the run program.*\nbuilding the library .*\nbuilding the program .*\nserve: .*\n", done.err), done)
    rt.write_text("#!/bin/sh\necho words of the prover\nexit 1\n")
    shutil.rmtree(root / "target")
    shutil.rmtree(shop)
    shop.mkdir()
    shutil.copy(AFTERNOON / "rights.rbk", shop)
    done = Done(subprocess.run([root / "tools" / "serve", shop], env=able, input=b"", capture_output=True))
    check("serve: rt fails, and nothing is written", done.status == 2 and "`tools/build run` failed" in done.err
          and [path.name for path in shop.iterdir()] == ["rights.rbk"], done)
    done = Done(subprocess.run([root / "examples" / "try"], env=able, capture_output=True))
    check("try: rt fails", done.status == 1 and done.out == b"" and "said is in target/try.log" in done.err
          and "words" not in done.err, done)


# ---- import

# Where a part of an example is replaced, and the code and words that this gets; the mark @ stands in front of the byte at fault.
FAULTS = [
    (40, "film", "<o-ex:rights", "@x<o-ex:rights", "`x` stands where a tag must"),
    (40, "film", "<o-ex:rights", "@\ufeff<o-ex:rights", "a byte order mark of UTF-8 stands where a tag must"),
    (40, "film", "<o-ex:rights", "<@/o-ex:rights", "an end tag stands where nothing is open"),
    (40, "film", "<o-dd:uid>1", "<@1>1", "`1` stands where the name of an element must"),
    (40, "film", "<o-dd:uid>1", "<o-dd:uid@,>1", "`,` stands where white space, / or > must"),
    (40, "film", "<o-dd:uid>1", "<o-dd:uid @= '5'>1", "`=` stands where the name of an attribute, / or > must"),
    (40, "film", "<o-dd:uid>1", "<o-dd:uid id@>1", "`>` stands where the = of the attribute id must"),
    (40, "pack", 'oma-dd:timer="30"', "oma-dd:timer=@30", "`3` stands where the quote that begins the attribute oma-dd:timer must"),
    (40, "pack", 'oma-dd:timer="30"', 'oma-dd:timer="30@<"', "`<` stands where the quote that ends the attribute oma-dd:timer must"),
    (40, "film", 'o-ex:id="Film"', """id="1"\n id='2@'""", "the attribute id stands twice in this tag"),
    (40, "film", 'URI="REKReference"/>', 'URI="REKReference"/@ >', "a space stands where the > of /> must"),
    (40, "film", "c2l4", "c2l@\x004", "byte 00 stands where text or a tag must"),
    (40, "film", "</o-dd:uid>", "@</o-dd:udi>", "</o-dd:udi> stands where o-dd:uid is open"),
    (40, "film", "</o-dd:uid>", "</@ o-dd:uid>", "a space stands where a name must"),
    (40, "film", "</o-dd:uid>", "</o-dd:uid @a>", "`a` stands where the > of this end tag must"),
    (40, "film", "</o-ex:rights>\n", "@", "the text ends where a tag must stand; o-ex:rights is still open"),
    (40, "film", "</o-ex:rights>\n", "</o-ex:rights>\n\n  @<a/>", "`<` stands where the end of the text must"),
    (41, "film", "<o-ex:rights", '@<?xml version="1.0"?>\n<o-ex:rights', "<? is not accepted: no XML declaration"),
    (41, "film", "<o-ex:agreement>", "<o-ex:agreement>\n@<!-- one -->", "<! is not accepted: no comment, CDATA or DOCTYPE"),
    (41, "film", "<o-dd:count>200", "<o-dd:count>2@&#48;0", "& is not accepted: no entity and no character reference"),
    (41, "film", "<o-ex:rights", "@<rights", "rights is not o-ex:rights, the first element of a rights object"),
    (41, "film", "</o-ex:context>", "@text here\n </o-ex:context>", 'the text "text here" stands in o-ex:context, which holds none'),
    (41, "film", "<o-ex:permission>", "@\u00fc <o-ex:permission>", 'the text "\u00fc" stands in o-ex:agreement, which holds none'),
    (41, "film", "<o-dd:play>", "@<o-dd:watch>", "o-dd:watch cannot stand here in o-ex:permission, only o-ex:asset, o-dd:play,"),
    (41, "film", "<o-dd:end>", "@<o-dd:start>", "o-dd:start cannot stand here in o-dd:datetime, only o-dd:end or its closing tag can"),
    (41, "film", "<o-ex:agreement>", "@</o-ex:rights>", "o-ex:rights ends without o-ex:agreement"),
    (41, "film", "<o-dd:uid>1</o-dd:uid>\n  ", "@", "o-ex:context ends without o-dd:uid"),
    (41, "film", "c2l4", "<a>" * 5 + "@<a>" + "</a>" * 6, "a stands 13 deep; 12 is the most"),
    (41, "film", "2.2</o-dd", "@<a/></o-dd", "a stands in o-dd:version, which holds a text only"),
    (41, "pack", '<o-ex:asset o-ex:idref="Asset-3"/>', '<o-ex:asset o-ex:idref="Asset-3">@<a/></o-ex:asset>', "which is empty"),
    (41, "pack", '<o-ex:asset o-ex:id="Asset-2">', '@<o-ex:asset o-ex:id="Asset-1">', 'the id "Asset-1" is given a second time'),
    (41, "pack", '<o-ex:asset o-ex:idref="Asset-3"', '@<o-ex:asset o-ex:idref="Asset-4"', 'the idref "Asset-4" is not the id of an'),
    (41, "pack", '<o-ex:asset o-ex:idref="Asset-3"', '@<o-ex:asset idref="Asset-3"', "o-ex:asset in o-ex:permission has no o-ex:idref"),
    (41, "pack", '<oma-dd:timed-count oma-dd:timer="30"', '@<oma-dd:timed-count oma-dd:timer="1000001"', 'the timer "1000001" is not'),
    (41, "film", "2.2</o-dd", "@2.0</o-dd", 'the version "2.0" is not 2.2'),
    (41, "film", "<o-dd:uid>1<", "<o-dd:uid>@cid:1<", 'the uid "cid:1" of the rights object is not a number from 1 to 65,535'),
    (41, "film", "<o-dd:uid>cid:1<", "<o-dd:uid>@1<", 'the uid "1" of the asset is not cid: or pid: and a number from 1 to 65,535'),
    (41, "season", "<o-ex:inherit>(.*?)pid:100", r"<o-ex:inherit>\1@pid:0", 'the uid "pid:0" of the inherit is not cid: or pid: and'),
    (41, "film", "<o-dd:count>200", "<o-dd:count>@-1", 'the count "-1" is not a number from 0 to 1,000,000'),
    (41, "film", "<o-dd:count>200</o-dd:count>", "@<o-dd:count/>", 'the count "" is not a number from 0 to 1,000,000'),
    (41, "film", "<o-dd:count>200", "<o-dd:count>@\n 200", 'the count "\\n 200" is not a number from 0 to 1,000,000'),
    (41, "film", "<o-dd:count>200", "<o-dd:count>@" + "9" * 5000, f'the count "{"9" * 57}.. (5000 bytes)" is not a number'),
    (41, "pack", ">50<", ">@fifty<", 'the timed-count "fifty" is not a number from 0 to 1,000,000'),
    (41, "film", "2026-12-01T00:00:00Z", "@2026-12-01", 'the start "2026-12-01" is not a time from 1970-01-01T00:00:00Z'),
    (41, "film", "2027-04-30T23:59:59Z", "@2027-04-31T23:59:59Z", 'the end "2027-04-31T23:59:59Z" is not a time from 1970-01-01'),
    (41, "pack", "P7D", "@P1W", 'the interval "P1W" is not a duration from 0 to 100,000,000 seconds, written like P1DT2H30M or PT90S'),
    (41, "pack", "P0DT2H0M00S", "@P0DT", 'the accumulated "P0DT" is not a duration from 0 to 100,000,000 seconds'),
    (41, "pack", "cid:12</o-dd:uid>(.*?)</o-ex:asset>", r"cid:11</o-dd:uid>\1@</o-ex:asset>", "asset 11 stands a second time"),
    (41, "film", "2026-12-01(.*?)</o-dd:play>", r"2036-12-01\1@</o-dd:play>", "the start of this play is after its end"),
    (41, "pack", "<o-dd:count>3</o-dd:count>(.*?)</o-dd:print>", r"<o-dd:accumulated>PT5S</o-dd:accumulated>\1@</o-dd:print>",
     "this print has o-dd:accumulated, but print takes no time"),
    (41, "pack", "<o-dd:count>1</o-dd:count>(.*?)</oma-dd:export>",
     r"<oma-dd:timed-count oma-dd:timer='1'>1</oma-dd:timed-count>\1@</oma-dd:export>",
     "this export has a timer above 0, but export takes no time"),
    (42, "film", "c2l4", "<a/>\n" * 241 + "@<a/>", "this is element 257; 256 is the most"),
    (42, "film", "</o-ex:permission>", "</o-ex:permission>" + "<o-ex:permission><o-dd:play/></o-ex:permission>" * 63
     + "<o-ex:permission>@<o-dd:play/></o-ex:permission>", "this makes 65 entries; 64 is the most"),
    (42, "film", "</o-ex:asset>", "</o-ex:asset>\n" + "\n".join(
        f"<o-ex:asset><o-ex:context><o-dd:uid>cid:{n}</o-dd:uid></o-ex:context>{'@' * (n == 65)}</o-ex:asset>" for n in range(2, 66)),
     "this is asset 65; 64 is the most"),
]


def damaged(name, old, new):
    """The bytes of an example with a part replaced, and the line and column of the mark in the new part."""
    text, times = re.subn(old if "(.*?)" in old else re.escape(old), lambda found: found.expand(new) if "(.*?)" in old else new,
                          (OBJECTS / f"{name}.xml").read_text(), count=1, flags=re.DOTALL)
    assert times == 1 and text.count("@") == 1, (name, old)
    before = text.partition("@")[0].split("\n")
    return text.replace("@", "").encode(), len(before), len(before[-1].encode()) + 1


def test_import(folder):
    kept, source = folder / "kept.rbk", folder / "rights.xml"
    shutil.copy(AFTERNOON / "rights.rbk", kept)
    for code, name, old, new, fragment in FAULTS:
        text, line, column = damaged(name, old, new)
        source.write_bytes(text)
        done = refused(f"import: {fragment}", fragment, "import", source, kept)
        check(f"import: {fragment}: code and place", f"rights.xml: line {line}, column {column}: {code}: " in done.err, done)
        check(f"import: {fragment}: by the second reader", xml_rights.read(text)[0] == code)
    check("import: a refused text leaves the book that was there", kept.read_bytes() == (AFTERNOON / "rights.rbk").read_bytes())
    check("import: no file is left beside", sorted(path.name for path in folder.iterdir()) == ["kept.rbk", "rights.xml"])
    refused("import: a refused text and a new file", "40", "import", "/dev/null", folder / "new.rbk")
    check("import: a refused text makes no file", not (folder / "new.rbk").exists())


def test_import_made(folder):
    """What accepted texts make, and what is said about it."""
    wanted = {"film": """\
Rights object 1, 22 elements

Assets: 1
      1  has a key

Entries: 1
      0  rights object 1, play of asset 1
         count 0 of 200 used, 200 left
         from 2026-12-01 00:00:00 (1796083200)
         to 2027-04-30 23:59:59 (1809129599)
""", "pack": """\
Rights object 2, 59 elements

Assets: 3
     11  has a key
     12  has a key
     13  has a key

Entries: 8
      0  rights object 2, play of asset 11
         timed count 0 of 50 used, 50 left (a use counts from 30 s on)
         interval 7 d, not started
      1  rights object 2, play of asset 12
         timed count 0 of 50 used, 50 left (a use counts from 30 s on)
         interval 7 d, not started
      2  rights object 2, play of asset 12
         seconds 0 of 7200 used, 7200 left (2 h)
      3  rights object 2, display of asset 13
         no limits
      4  rights object 2, print of asset 13
         count 0 of 3 used, 3 left
      5  rights object 2, export of asset 11
         count 0 of 1 used, 1 left
         to 2027-12-31 23:59:59 (1830297599)
      6  rights object 2, export of asset 12
         count 0 of 1 used, 1 left
         to 2027-12-31 23:59:59 (1830297599)
      7  rights object 2, export of asset 13
         count 0 of 1 used, 1 left
         to 2027-12-31 23:59:59 (1830297599)
""", "season": """\
Rights object 3, 60 elements

Assets: 4
    100  parent, for 21, 22, 23
     21  has a key, inherits from 100
     22  has a key, inherits from 100
     23  has a key, inherits from 100

Entries: 3
      0  rights object 3, play of asset 100
         from 2026-12-01 00:00:00 (1796083200)
         to 2027-04-30 23:59:59 (1809129599)
      1  rights object 3, display of asset 100
         seconds 0 of 129600 used, 129600 left (1 d 12 h)
      2  rights object 3, display of asset 23
         no limits
""", "promotion": """\
Rights object 4, 38 elements

Assets: 2
     31  has a key
     32  has a key

Entries: 3
      0  rights object 4, play of asset 31: never granted: the count is 0
         count 0: never
         to 2027-04-30 23:59:59 (1809129599)
      1  rights object 4, play of asset 32
         no limits
      2  rights object 4, print of asset 32: never granted: the interval is 0
         interval 0: never
"""}
    made = folder / "made.rbk"
    for name, words_made in wanted.items():
        path = OBJECTS / f"{name}.xml"
        image = rights.write(xml_rights.read(path.read_bytes())[2])
        made.unlink(missing_ok=True)
        done = call("import", path, made)
        check(f"import: {name}", done.status == 0 and done.err == "" and done.out.decode() == words_made, done.out.decode() or done)
        check(f"import: {name}, its book", made.read_bytes() == image)
        made.write_bytes(b"")
        done = call("import", "-", made, stdin=path.read_bytes())
        check(f"import: {name} from standard input", done.out.decode() == words_made and made.read_bytes() == image, done)
        piped = subprocess.run(["bash", "-c", f"{TOOL} import <(cat {path}) {made}"], capture_output=True, text=True)
        check(f"import: {name} from a pipe, over a book", piped.stdout == words_made and made.read_bytes() == image, piped)
        check(f"import: {name}, shown", call("show", made).status == 0)
    made.unlink()
    bare = folder / "bare.xml"
    bare.write_text(stored.agreed(stored.asset(), stored.asset("cid:7", stored.inherit("pid:9")), stored.el(
        "permission", stored.el("play") + stored.el("print")), object="77"))
    done = call("import", bare, made)
    check("import: entries that nobody can use", done.out.decode() == """\
Rights object 77, 16 elements

Assets: 2
      1  parent, nothing with a key inherits from it
      7  illegal (it inherits from 9 but has no key): never used

Entries: 4
      0  rights object 77, play of asset 1: nobody can use it: nothing with a key inherits from asset 1
         no limits
      1  rights object 77, play of asset 7: nobody can use it: asset 7 is illegal (it inherits but has no key)
         no limits
      2  rights object 77, print of asset 1: nobody can use it: nothing with a key inherits from asset 1
         no limits
      3  rights object 77, print of asset 7: nobody can use it: asset 7 is illegal (it inherits but has no key)
         no limits
""", done)
    done = call("import", "-", made, stdin=stored.BARE.encode())
    check("import: no entries", done.out.decode() == "Rights object 1, 7 elements\n\nAssets: 1\n"
          "      1  parent, nothing with a key inherits from it\n\nEntries: 0\n", done)

    long = stored.BARE.encode() + b"\n" * (imported.LONGEST - len(stored.BARE))
    bare.write_bytes(long)
    done = call("import", bare, made)
    check("import: the longest text", done.status == 0 and done.out.startswith(b"Rights object 1, 7 elements\n"), done)
    bare.write_bytes(long + b"\n")
    made.unlink()
    refused("import: a text too long", "bare.xml: the text is longer than 4,194,304 bytes", "import", bare, made)
    refused("import: a stream without end", "the text is longer than 4,194,304 bytes", "import", "/dev/zero", made)
    bare.write_bytes(long[:-1] + b"x")
    refused("import: a fault in the last byte", f"line {imported.LONGEST - len(stored.BARE)}, column 1: 40", "import", bare, made)
    check("import: a refused text leaves no book", not made.exists())
    with open("/dev/full", "wb") as full:
        ended = subprocess.run([sys.executable, TOOL, "import", OBJECTS / "film.xml", made], stdout=full, stderr=subprocess.PIPE)
    check("import: the book is saved before the list leaves", ended.returncode == 2 and b"standard output" in ended.stderr
          and made.exists(), ended)


def test_import_places(folder):
    """Of every stored text that is refused: one line says why, and what stands in front of the place is not at fault itself."""
    for name, text, code, _, _ in stored.cases():
        if code == 0:
            continue
        told = xml_rights.judge(text)
        shown = imported.refusal("rights.xml", text, code, told)
        line, column, start = imported.place(text, told.at)
        before = xml_rights.judge(text[:told.at])
        lines = shown.split("\n")
        check_all(f"import: the place of `{name}`", [
            (told.code == code, told), (0 < len(told.why) < 250 and told.why.isprintable(), told.why),
            (before.code == 0 or (before.code, before.at) == (40, told.at), before),
            (text.split(b"\n")[line - 1][:column - 1] == text[start:told.at], (line, column)),
            (shown.startswith(f"rights.xml: line {line}, column {column}: {code}: "), shown), (len(lines) in (1, 3), shown),
            (len(lines) == 1 or lines[2].strip() == "^" and len(lines[1]) < 160, shown)])
    told = xml_rights.judge(b"<a>")
    for code in (40, 42):
        shown = imported.refusal("rights.xml", b"<a>", code, told)
        check(f"import: only the code where the second reader has another, {code}", told.code == 41
              and shown == f"rights.xml: refused with {code}: {imported.MEANINGS[code]}", shown)
    shown = imported.refusal("r.xml", "\t<a>\u00fcb&".encode(), 41, xml_rights.judge("\t<a>\u00fcb&".encode()))
    check("import: the mark stands below the byte at fault", shown == "r.xml: line 1, column 2: 41: a is not o-ex:rights, the first element"
          " of a rights object\n    <a>\u00fcb&\n    ^", shown)


# ---- The rest

def test_explain(folder):
    """Each request with its answer in words. Where the answers cannot be those to the requests, a note goes before them."""
    done = call("explain", AFTERNOON / "events.bin", AFTERNOON / "expected.txt")
    lines = done.out.decode().splitlines()
    check("explain: two lines an event", done.status == 0 and done.err == "" and len(lines) == 44, done)
    check("explain: a resend", lines[3] == "         0 0 1060: granted by entry 0 until 1970-01-01 00:17:40 (1060)"
          " (asked again: the same answer as before)", lines[3])
    doubt = ": are these the answers to these records?\n"
    for answers, fragment in ((b"", "no answer"),
                              (b"0 0 1060\r\n", "granted by entry 0"), (NINES.encode(), "is not an answer"),
                              (b"0 0 99999999999\n", "is not an answer"), (b"1 2\n", "is not an answer"),
                              (b"0 0 " + NINES.encode(), "is not an answer"),
                              (b"43 255 0\n", "43 255 0: refused: metering is off, and what is left for it is tracked and has no mark"),
                              (b"44 255 0\n", "44 255 0: refused: there is something open, but its begin was not the last event taken, so "
                               "it cannot be taken back"),
                              (b"30 255 0\n", "30 255 0: turned away: the list that was lent for the report does not fit the book"),
                              (b"99 255 0\n", "an unknown answer"), (b"0 0 1\n" * 23, "there is no event for this answer")):
        done = call("explain", AFTERNOON / "events.bin", "-", stdin=answers)
        noted = done.status == 2 and done.err.endswith(doubt) and done.err.startswith("note: 22 requests and ")
        check(f"explain: answers {answers[:20]}", noted and fragment in done.out.decode(), done)
    done = call("explain", AFTERNOON / "events.bin", "-", stdin=b"20\n")
    check("explain: a refused book", done.status == 0 and b"refused its book with 20: the file's length is wrong" in done.out, done)
    told = (AFTERNOON / "expected.txt").read_text().splitlines()
    for at, line in ((1, "0 0 1065"), (2, "0 0 1106"), (8, "15 255 0"), (7, "0 1 1041"), (9, "14 255 1"), (14, "14 255 0"),
                     (15, "14 255 0")):
        other = "\n".join(told[:at] + [line] + told[at + 1:])
        done = call("explain", AFTERNOON / "events.bin", "-", stdin=other.encode())
        check(f"explain: answer {at + 1} is another's", done.status == 2 and len(done.out.splitlines()) == 44
              and done.err == f"note: 1 answer that cannot be the one to the request (the first: {at + 1}){doubt}", done)
    test_explain_days()
    events = call("events", "-", "-", stdin=b"0.2 cancel 1005\n0.2 cancel 1006\nraw 00 0000000000000003 04 0001 00 000003e8").out
    (folder / "cancel.bin").write_bytes(events)
    done = call("explain", folder / "cancel.bin", "-", stdin=b"0 3 1000\n0 3 1000\n1 255 0\n")
    check("explain: a cancel", done.out.decode() == """\
    1  player 0, request 2: cancel, at 1970-01-01 00:16:45 (1005)
         0 3 1000: taken back: the use of entry 3 that began at 1970-01-01 00:16:40 (1000) counts for nothing
    2  player 0, request 2: cancel, at 1970-01-01 00:16:46 (1006)
         0 3 1000: taken back: the use of entry 3 that began at 1970-01-01 00:16:40 (1000) counts for nothing (asked again: the same \
answer as before)
    3  player 0, request 3: cancel, asset 1, kind 0, at 1970-01-01 00:16:40 (1000)
         1 255 0: turned away: not a valid begin, continue, stop or cancel
""", done.out.decode())
    for first, again in ((b"30", False), (b"3", False), (b"43", True), (b"12", True), (b"13", True)):
        done = call("explain", AFTERNOON / "events.bin", "-", stdin=first + b" 255 0\n" + first + b" 255 0\n")
        check(f"explain: {first.decode()} and the same again", ("asked again" in done.out.decode()) == again, done)


def test_explain_days():
    """The answers to a day fit it, whatever the day and the book; those to another day of as many requests do not."""
    fitting, others, told = [], [], []
    for seed in range(400):
        kind = random.Random(seed).choice((None, "crowd", "wide", "cabins", "rivals", "groups", "loading", "going on", "old"))
        image, events, _ = days.make_day(seed, 60, kind)
        if image is None or rights.read(image)[0] != 0:
            continue
        lines = rights.run(image, events).splitlines()
        fitting.append((answers.mismatch(events, lines) is None, (seed, answers.mismatch(events, lines))))
        many = len(rights.records_in(events))
        told += [(seed, many, events, lines)]
    for seed, many, events, _ in told:
        other = next((lines for another, count, _, lines in told if another > seed and count == many), None)
        if other:
            others.append((answers.mismatch(events, other) is not None, seed))
    check("explain: there are days, and pairs of days", len(fitting) > 300 and len(others) > 100, (len(fitting), len(others)))
    check_all("explain: the answers to a day fit it", fitting)
    check_all("explain: the answers to another day do not", others)


def test_help(folder):
    """The example texts that --help shows can be read."""
    shown = call("--help").out.decode()
    lines = [re.sub("  .*", "", line.strip()) for line in shown.splitlines() if line.startswith("    ")]
    book = [line for line in lines if line.split()[0] in ("time", "metering", "asset", "entry")]
    done = call("make", "-", "-", stdin="\n".join(book).encode())
    check("help: its book is a book", done.status == 0 and len(book) == 12 and len(done.out) == 535 + 20 + 426, done)
    events = [line for line in lines if re.match("[0-9]|raw", line)]
    done = call("events", "-", "-", stdin="\n".join(events).encode())
    check("help: its events are events", done.status == 0 and len(events) == 6 and len(done.out) == 102, done)
    players = [line for line in lines if line.startswith(("player", "latest player"))]
    text = "\n".join(["time 1070", "asset 1 key", "entry 0: object 1 asset 1 play count 2 used count 1", *players])
    done = call("make", "-", "-", stdin=text.encode())
    check("help: its players are players", done.status == 0 and len(players) == 3 and rights.read(done.out)[1].latest_player == 1, done)


def test_damage(folder, how_many):
    """Damaged texts and images get a plain message, whatever is wrong with them."""
    rng = random.Random(9)
    path = folder / "damaged"
    sources = [(AFTERNOON / name).read_bytes() for name in ("book.txt", "events.txt", "rights.rbk")]
    sources.append((METERED / "book.txt").read_bytes())
    sources += ["\n".join(texts.text_lines(book)).encode() for _, _, book in random_books(6)]
    plain = 0
    for _ in range(how_many):
        data = bytearray(rng.choice(sources))
        for _ in range(rng.randint(1, 6)):
            at = rng.randrange(len(data) + 1)
            piece = rng.choice((b"", bytes([rng.randrange(256)]), b" ", b"\n", b"9" * 30, b"#", b",", b":", b"-1", b"\xff",
                                b"count 2", b"tracked", b"timed value", b"mark", b"threshold 2", b"metering on\n", b"content 1",
                                b"latest player 3\n", b"latest player 0, started an interval\n", b"cancel", b"2026-12-24",
                                b"18:30", b"(5)", b"3.1", b".", "\u0663".encode(),
                                bytes(data[:rng.randrange(40)])))
            data[at:at + rng.choice((0, 0, 1, 5))] = piece
        path.write_bytes(data)
        for work in (lambda: texts.book_of_text(path), lambda: list(state.left_lines(texts.load(path), 5)),
                     lambda: words.lines_of(path, texts.read_text(path), records.EventText().line)):
            try:
                work()
                plain += 1
            except words.Trouble as trouble:
                plain += len(str(trouble)) < 1000
            except Exception as problem:
                check("a damaged file gets a plain message", False, f"{problem!r} for {bytes(data)!r}")
    check("damaged files get plain messages", plain == 3 * how_many, str(plain))


def main():
    how_many = int(sys.argv[1]) if len(sys.argv) > 1 else 300
    library.build("after", "why", "read_texts")
    if not RUN.exists():
        sys.exit(f"there is no {RUN}: `tools/build run` makes it")
    parts = [(test_lines,), (test_inputs,), (test_forgiving,), (test_times,), (test_files,), (test_streams,),
             (test_round_trips, how_many), (test_older,), (test_numbers,), (test_next_number,), (test_which_right,), (test_together,),
             (test_film_did_not_load,), (test_widen,), (test_diff, how_many),
             (test_left, how_many), (test_left_words,),
             (test_why, how_many // 3), (test_why_words,),
             (test_after, how_many // 5), (test_report, how_many // 2), (test_import,), (test_import_made,), (test_import_places,),
             (test_building,),
             (test_explain,), (test_help,), (test_damage, 2 * how_many)]
    for part, *numbers in parts:
        name = part.__name__.removeprefix("test_")
        if len(sys.argv) > 2 and name not in sys.argv[2:]:
            continue
        before, began = checks.passed + checks.failed, time.time()
        with tempfile.TemporaryDirectory() as folder:
            part(Path(folder), *numbers)
        print(f"  {name}: {checks.passed + checks.failed - before} in {time.time() - began:.0f} s", flush=True)
    checks.finish()


if __name__ == "__main__":
    main()
