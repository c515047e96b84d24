#!/usr/bin/env python3
"""Tests of what tools/book.py writes over and what it keeps.

    python3 tests/kept.py

The last line is `N passed, M failed`; the exit status is 1 if anything failed.
"""

import os
import tempfile
from pathlib import Path

from support.checks import AFTERNOON, METERED, OBJECTS, call, changes_nothing, check, finish, image_after, listing, refused

import rights
from books import files, library

FRESH = "asset 1 key\nentry 0: object 1, asset 1, play, count 500\n"
USED = FRESH.replace("count 500", "count 500, used count 480")
FILM = bytes(range(256)) * 600


def made(text):
    done = call("make", "-", "-", stdin=text.encode())
    assert done.status == 0, done
    return done.out


def writers(folder):
    """(name, the words that write a file, what they write, whether it is a book)"""
    (folder / "day.txt").write_bytes((AFTERNOON / "events.txt").read_bytes())
    (folder / "old.bin").write_bytes(b"".join(
        record[:1] + record[5:] for record in rights.records_in((AFTERNOON / "events.bin").read_bytes())))
    (folder / "book.txt").write_text(FRESH)
    (folder / "begin.rbk").write_bytes((AFTERNOON / "rights.rbk").read_bytes())
    (folder / "begin.bin").write_bytes((AFTERNOON / "events.bin").read_bytes())
    records = (AFTERNOON / "events.bin").read_bytes()
    yield "events", ["events", folder / "day.txt"], records, False
    yield "widen", ["widen", folder / "old.bin"], records, False
    yield "make", ["make", folder / "book.txt"], made(FRESH), True
    yield "import", ["import", OBJECTS / "film.xml"], library.read_xml((OBJECTS / "film.xml").read_bytes())[2], True
    following = image_after((AFTERNOON / "rights.rbk").read_bytes(), records)
    yield "after", ["after", folder / "begin.rbk", folder / "begin.bin"], following, True


# What is there, whether a book may replace it, and what is said if it may not. The afternoon ends at 1141.
THERE = [
    ("a film", FILM, False, "a file"),
    ("a text", b"asset 1 key\n", False, "text is there already"),
    ("recorded requests", (METERED / "events.bin").read_bytes(), False, "is there already"),
    ("nothing in it", b"", True, "an empty file is there already"),
    ("a fresh book", made("asset 7 key\n"), True, "a book image is there already"),
    ("a book without requests, of an earlier time", made("time 1000\nasset 7 key\n"), None, "a book image is there already"),
    ("a used book", made(USED), False, "a book in use is there already"),
    ("a book in which a player has asked", made("asset 1 key\nplayer 3: number 1, stop, refused 14\n"), False, "a book in use"),
    ("a book with an interval begun", made("asset 1 key\nentry 0: object 1, asset 1, play, interval 9, first 0\n"), False, "a book in use"),
    ("a book of a later time", made("time 2026-12-24\nasset 1 key\n"), False, "a book of a later time is there already (2026-12-24"),
    ("a damaged book", made(USED)[:-1], False, "that is not accepted (20)"),
    ("a book of a newer version", b"RBK\0\x63" + made(USED)[5:], False, "that is not accepted (22)"),
    ("a saved book with its lines", b"RBS\0\1" + bytes(80), False, "a saved book with its lines is there already"),
]


def test_what_is_there(folder):
    for name, words, wanted, is_book in list(writers(folder)):
        for what, there, may, message in THERE:
            if may is None:         # the time of a fresh book is 0, that of the afternoon's is later
                may = name == "after"
                message = "a book of a later time"
            target = folder / "out"
            target.write_bytes(there)
            title = f"{name} over {what}"
            if is_book and may:
                done = call(*words, target)
                check(title, done.status == 0 and target.read_bytes() == wanted, done)
                check(f"{title}: nothing is kept", not (folder / "out.old").exists())
            else:
                done = changes_nothing(title, message if is_book else "event records never replace a file", folder, *words, target)
                check(f"{title}: what to do", "give another name, or --over, which keeps what is there as out.old" in done.err, done)
            target.write_bytes(there)
            done = call(*words, target, "--over")
            kept = folder / "out.old"
            check(f"{title}, with --over", done.status == 0 and target.read_bytes() == wanted, done)
            check(f"{title}, with --over: the old file is kept", kept.exists() and kept.read_bytes() == there
                  and f"the file that was there is kept as {kept}" in done.err, done)
            kept.unlink(missing_ok=True)
        target.unlink()
        done = call(*words, target)
        check(f"{name}: a new file", done.status == 0 and target.read_bytes() == wanted, done)
        state = target.stat()
        for extra in ([], ["--over"]):
            done = call(*words, target, *extra)
            check(f"{name} {extra}: the same bytes are there", done.status == 0 and target.stat().st_ino == state.st_ino
                  and not (folder / "out.old").exists(), done)
        target.unlink()


def test_kept_again(folder):
    """Whatever was kept stays, too."""
    target = folder / "rights.rbk"
    source = folder / "book.txt"
    for count in range(4):
        source.write_text(USED.replace("480", str(480 + count)))
        check(f"over, time {count}", call("make", source, target, "--over").status == 0)
    names = ["rights.rbk.old", "rights.rbk.old.2", "rights.rbk.old.3"]
    check("each of the old files is kept", sorted(path.name for path in folder.glob("*.old*")) == names, listing(folder).keys())
    used = [rights.read((folder / name).read_bytes())[1].entries[0].used_count for name in [*names, "rights.rbk"]]
    check("in their order", used == [480, 481, 482, 483], used)


def test_over_through_links(folder):
    real, link = folder / "real.rbk", folder / "link.rbk"
    real.write_bytes(made(USED))
    link.symlink_to(real)
    (folder / "book.txt").write_text(FRESH)
    changes_nothing("a link to a used book", "a book in use", folder, "make", folder / "book.txt", link)
    done = call("make", folder / "book.txt", link, "--over")
    check("over, through a link", done.status == 0 and link.is_symlink() and real.read_bytes() == made(FRESH)
          and (folder / "real.rbk.old").read_bytes() == made(USED), done)
    refused("over, the output is the input", "would be lost", "make", folder / "book.txt", folder / "book.txt", "--over")


def test_without_links(folder):
    """On a file system without hard links the old file is copied, and a new one renamed."""
    def no_links(*_):
        raise PermissionError(1, "Operation not permitted")

    link, os.link = os.link, no_links
    try:
        place = folder / "a"
        files.write_beside(str(place), b"one", 0o644, new=True)
        old = files.keep_old(str(place))
        files.write_beside(str(place), b"two", 0o644)
        check("without links", (place.read_bytes(), Path(old).read_bytes()) == (b"two", b"one"))
    finally:
        os.link = link
    place.unlink()
    place.write_bytes(b"came in between")
    try:
        files.write_beside(str(place), b"three", 0o644, new=True)
        check("a file that came in between is not replaced", False)
    except FileExistsError:
        check("a file that came in between is not replaced", place.read_bytes() == b"came in between"
              and sorted(path.name for path in folder.iterdir()) == ["a", "a.old"])


def test_the_help(folder):
    shown = call("--help").out.decode()
    for words in ("--over", "NAME.old", "Event records never replace a file", "tools/book.py close BOOK EVENTS"):
        check(f"--help says {words!r}", words in shown)


def main():
    library.build("after", "read_texts")
    for name, test in list(globals().items()):
        if name.startswith("test_"):
            with tempfile.TemporaryDirectory() as folder:
                test(Path(folder))
    finish()


if __name__ == "__main__":
    main()
