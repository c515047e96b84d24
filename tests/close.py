#!/usr/bin/env python3
"""Tests of the end of a day: `book.py close`, and what `after` and `report` say of how its requests were answered.

    python3 tests/close.py

The last line is `N passed, M failed`; the exit status is 1 if anything failed.
"""

import copy
import errno
import fcntl
import os
import random
import shutil
import tempfile
import zlib
from pathlib import Path

from support.checks import METERED, call, changes_nothing, check, check_all, finish, image_after, listing, refused

import days
import rights
from books import closing, library
from books.answers import Tally

DATE = "2026-12-24"                     # of the metered day
IMAGE, EVENTS = (METERED / "rights.rbk").read_bytes(), (METERED / "events.bin").read_bytes()
PARTS = {"bill-{}.txt", "bill-{}.csv", "book-{}.rbk", "events-{}.bin", "answers-{}.txt", "next-{}.rbk"}
NEXT = image_after(IMAGE, EVENTS)
TWO = b"".join(rights.encode(rights.Event(*event)) for event in (      # the next day; player 0 goes on under its boot number
    (0, 2**32 + 2, rights.STOP, 0, 0, 1798186000), (1, 4, rights.BEGIN, 2, rights.PLAY, 1798186010),
    (1, 5, rights.STOP, 0, 0, 1798186050)))


def shop(folder, name="events.bin", image=IMAGE, events=EVENTS):
    folder.mkdir(exist_ok=True)
    (folder / "rights.rbk").write_bytes(image)
    (folder / name).write_bytes(events)
    return folder / "rights.rbk", folder / name


def is_closed(folder, stamp=DATE, image=IMAGE, events=EVENTS):
    """Whether the folder of the closed day is whole, and all that it should be."""
    found = {path.name.replace(stamp, "{}"): path.read_bytes() for path in (folder / f"closed-{stamp}").glob("*")}
    wanted = {"book-{}.rbk": image, "events-{}.bin": events, "answers-{}.txt": rights.run(image, events).encode(),
              "next-{}.rbk": image_after(image, events)}
    if (image, events) == (IMAGE, EVENTS):
        wanted |= {"bill-{}.txt": (METERED / "bill.txt").read_bytes(), "bill-{}.csv": (METERED / "bill.csv").read_bytes()}
    return set(found) == PARTS and all(found[name] == data for name, data in wanted.items())


# ---- A day, and the next

def test_a_day(folder):
    book, events = shop(folder)
    done = call("close", book, events)
    check("close: the archive", done.status == 0 and is_closed(folder), done)
    check("close: the next book is in its place", book.read_bytes() == NEXT)
    check("close: the records are in the archive alone", not events.exists())
    check("close: nothing else is left", set(listing(folder)) == {"rights.rbk"} | {f"closed-{DATE}/{part.format(DATE)}" for part in PARTS})
    check("close: it prints the bill, and where it is", done.out.decode().startswith((METERED / "bill.txt").read_text())
          and f"closed-{DATE} has this bill" in done.out.decode() and f"bill-{DATE}.csv" in done.out.decode(), done)
    check("close: and how many requests", done.err == f"{events}: 14 requests: 13 granted, 0 refused, 0 turned away, 1 sent again\n", done)
    events.write_bytes(TWO)
    done = call("close", "rights.rbk", "events.bin", cwd=folder)
    check("close: the next day, in this folder", done.status == 0 and is_closed(folder, "2026-12-25", NEXT, TWO), done)
    check("close: what was open counts where it ends", b"content,times,hours,seconds\n1,1,0:01:00,60\n2,0,0:00:40,40\n"
          in (folder / "closed-2026-12-25" / "bill-2026-12-25.csv").read_bytes(), done)
    changes = listing(folder)
    changes_nothing("close: no such records", "there is no such file", folder, "close", book, events)
    check("close: what was closed stays", listing(folder) == changes)


def test_a_day_twice(folder):
    """Two closings of one date: the second has a number behind its date."""
    for count, stamp in ((0, DATE), (1, f"{DATE}-2"), (2, f"{DATE}-3")):
        cut = len(EVENTS) * (count + 1) // 3 // 17 * 17
        done_before = len(EVENTS) * count // 3 // 17 * 17
        image = image_after(IMAGE, EVENTS[:done_before]) if count else IMAGE
        book, events = shop(folder, image=image, events=EVENTS[done_before:cut])
        done = call("close", book, events)
        check(f"close: {stamp}", done.status == 0 and is_closed(folder, stamp, image, EVENTS[done_before:cut]), done)
    check("close: in three parts, the same book", book.read_bytes() == NEXT)
    sums = [0, 0, 0]
    for path in folder.glob("closed-*/bill-*.csv"):
        for line in path.read_text().splitlines()[1:]:
            content, _, _, seconds = line.split(",")
            sums[int(content) - 1] += int(seconds)
    check("close: in three parts, the same sums", sums == [150, 105, 20], sums)


def test_elsewhere(folder):
    """Records in another folder, a book through a link, an older version of the book."""
    old = rights.write(rights.read(IMAGE)[1], 4)
    book, _ = shop(folder / "shop", "x", old)
    (folder / "shop" / "x").unlink()
    records = folder / "records.bin"
    records.write_bytes(EVENTS)
    link = folder / "link.rbk"
    link.symlink_to(book)
    book.chmod(0o640)
    done = call("close", link, records)
    check("close: elsewhere", done.status == 0 and link.is_symlink() and book.read_bytes() == NEXT and not records.exists()
          and (folder / "shop" / f"closed-{DATE}" / f"book-{DATE}.rbk").read_bytes() == old, done)
    check("close: the mode of the book stays", book.stat().st_mode & 0o777 == 0o640)


# ---- Books and records that do not belong together

def test_other_pairs(folder):
    question = "is this the book with which these records began?"
    book, events = shop(folder)
    call("close", book, events)
    closed = listing(folder)

    events.write_bytes(EVENTS)
    changes_nothing("close: the same records again", f"these records are closed already: closed-{DATE} has them", folder, "close",
                    book, events)
    changes_nothing("close: the same again, and sure", "closed already", folder, "close", book, events, "--sure")
    shutil.rmtree(folder / f"closed-{DATE}")
    done = changes_nothing("close: the same, the archive gone", question, folder, "close", book, events)
    check("close: with how many", "of 14 requests are turned away" in done.err and "Nothing was closed" in done.err, done)

    plain = rights.write(rights.Book(0, [rights.Asset(1, 0, 1)], [rights.Entry(1, 1, 1, rights.COUNT, count=500)]))
    days_of = [b"".join(rights.encode(rights.Event(player, 3 * day + step + 1, step + 1, *((1, 1) if step == 0 else (0, 0)),
                                                   1000 + 90_000 * day + 20 * step + player))
                        for step in range(3) for player in range(3)) for day in range(2)]
    book.write_bytes(plain)
    events.write_bytes(days_of[1])
    changes_nothing("close: the second day on the first day's book", f"9 of 9 requests are turned away by number: {question}",
                    folder, "close", book, events)
    events.write_bytes(days_of[0][:34] + days_of[1][:85])
    changes_nothing("close: most of the second day", f"5 of 7 requests are turned away by number: {question}", folder, "close",
                    book, events)
    done = call("close", book, events, "--sure")
    check("close: it is the book", done.status == 0 and book.read_bytes() == image_after(plain, days_of[0][:34] + days_of[1][:85])
          and not events.exists(), done)

    anew = b"".join(rights.encode(rights.Event(2, 2**32 + count, rights.STOP, 0, 0, 100_000)) for count in range(1, 11))
    book.write_bytes(plain)
    second = b"".join(record for record in rights.records_in(days_of[1]) if record[0] != 2)
    events.write_bytes(second + anew)          # most requests are in line, those of a player that was started anew
    changes_nothing("close: the second day of most players", f"2 of 3 players are turned away by number at their first request: {question}",
                    folder, "close", book, events)
    events.write_bytes(second[:17] + anew)
    check("close: one player of two has lost count", call("close", book, events).status == 0)

    ones = b"".join(rights.encode(rights.Event(player, 1, rights.BEGIN, 1, 1, 1000)) for player in range(16))
    book.write_bytes(image_after(plain, ones))
    events.write_bytes(ones)
    changes_nothing("close: requests that the book has already", f"16 of 16 requests are turned away or in the book already: {question}",
                    folder, "close", book, events)
    check("close: what was closed before stays", all(listing(folder).get(name, data) == data for name, data in closed.items()
                                                    if name.startswith("closed-")))


def test_the_server_s_records(folder):
    """A file as tools/serve keeps it, with the book with which it began: this tells the pair, whatever the numbers say."""
    book, events = shop(folder, "events-2026-12-24.bin")
    began = folder / "events-2026-12-24.rbk"
    began.write_bytes(IMAGE)
    fresh = bytes(rights.write(rights.Book(0, rights.read(IMAGE)[1].assets, rights.read(IMAGE)[1].entries)))
    for name, image, fragment in (
            ("another book", fresh, f"these requests began with the book {began}, and {book} is another one. Nothing was closed."),
            ("the book after them", NEXT, f"these requests are in {book} already, which is the book after them. Nothing was closed.")):
        book.write_bytes(image)
        changes_nothing(f"close: {name}", fragment, folder, "close", book, events)
        changes_nothing(f"close: {name}, and sure", fragment, folder, "close", book, events, "--sure")
        for args in (["report", book, events], ["after", book, events, folder / "out.rbk"]):
            done = call(*args)
            check(f"{args[0]}: {name}, asked", done.status == 0 and done.err.endswith(
                f"{began} is another book: is this the book with which these records began?\n"), done)
        (folder / "out.rbk").unlink()
    book.write_bytes(IMAGE)
    check("report: the right book is not asked about", "is this the book" not in call("report", book, events).err)
    lost = rights.encode(rights.Event(9, 70, rights.STOP, 0, 0, 1798135200)) * 60        # a player that has lost count
    events.write_bytes(EVENTS + lost)
    done = call("close", book, events)
    check("close: most turned away, from the right book", done.status == 0 and is_closed(folder, DATE, IMAGE, EVENTS + lost), done)
    check("close: the files of the server are in the archive alone", not events.exists() and not began.exists())


def test_refused(folder):
    book, events = shop(folder)
    empty, short = folder / "empty.bin", folder / "short.rbk"
    empty.write_bytes(b"")
    short.write_bytes(IMAGE[:-1])
    shutil.copy(events, folder / "copy.bin")
    saved = folder / "server.rbs"
    body = b"RBS\0\1" + len(IMAGE).to_bytes(4, "big") + bytes(4) + IMAGE
    saved.write_bytes(body + zlib.crc32(body).to_bytes(4, "big"))
    for name, fragment, args in (
            ("no requests", "there is nothing to close", (book, empty)), ("no book", "there is no such file", (folder / "none", events)),
            ("no folder", "there is no such folder", (folder / "none" / "rights.rbk", events)),
            ("a refused book", "with 20", (short, events)), ("the same file", "this is the file", (book, book)),
            ("records for a book", "with 21", (events, events.with_name("copy.bin"))),
            ("a text for records", "this is a text", (book, METERED / "events.txt")),
            ("from standard input", "names of two files", (book, "-")), ("a book from standard input", "names of two files", ("-", events)),
            ("a server's own file", "no day to be closed", (saved, events)),
            ("an unknown option", "usage: book.py close BOOK EVENTS [--sure]", (book, events, "--over"))):
        changes_nothing(f"close: {name}", fragment, folder, "close", *args)
    check("show: a book and its lines in one file", call("show", saved).out == call("show", book).out)
    for at in (3, 5, 12, 40, len(body), len(body) + 3):
        damaged = bytearray(saved.read_bytes())
        damaged[at] ^= 1
        (folder / "damaged").write_bytes(damaged)
        refused(f"show: such a file with byte {at} wrong", "is not accepted", "show", folder / "damaged")
    many = b"RBS\0\1" + len(IMAGE).to_bytes(4, "big") + (65).to_bytes(4, "big") + IMAGE + bytes(24 * 65)
    (folder / "damaged").write_bytes(many + zlib.crc32(many).to_bytes(4, "big"))
    refused("show: such a file with 65 lines", "is not accepted: its length", "show", folder / "damaged")
    refused("show: such a file cut short", "is not accepted: it", "show", "-", stdin=saved.read_bytes()[:16])
    handle = os.open(folder, os.O_RDONLY)
    fcntl.flock(handle, fcntl.LOCK_EX)
    changes_nothing("close: while a server runs", "a server is running in this folder", folder, "close", book, events)
    os.close(handle)
    check("close: when it has ended", call("close", book, events).status == 0)


# ---- All or nothing

CALLS = ("mkdir", "rename", "replace", "unlink", "link", "fsync", "chmod", "fchmod", "open")


def with_fault(step, fault, book, events):
    """Runs `close` in a child in which the step-th of its CALLS has a fault; returns its exit status, or None if it has fewer of them.
    Writes to an open file are not among them."""
    child = os.fork()
    if child == 0:
        made = 0

        def faulty(real):
            def call_it(*args, **how):
                nonlocal made
                made += 1
                if made == step:
                    fault()
                return real(*args, **how)
            return call_it

        try:
            os.dup2(os.open(os.devnull, os.O_WRONLY), 1)
            os.dup2(1, 2)
            for name in CALLS:
                setattr(os, name, faulty(getattr(os, name)))
            closing.close(str(book), str(events))
            os._exit(0 if made >= step else 99)
        except closing.Trouble:
            os._exit(2)
        except BaseException:
            os._exit(3)
    status = os.waitstatus_to_exitcode(os.waitpid(child, 0)[1])
    return None if status == 99 else status


def test_killed_anywhere(folder):
    """Killed before any of its CALLS: nothing is lost, and called again it ends what it began."""
    killed, parts = 0, []
    for name in ("events.bin", "events-2026-12-24.bin"):
        for step in range(1, 200):
            work = folder / "shop"
            shutil.rmtree(work, ignore_errors=True)
            book, events = shop(work, name)
            if name != "events.bin":
                (work / "events-2026-12-24.rbk").write_bytes(IMAGE)
            status = with_fault(step, lambda: os._exit(77), book, events)
            if status is None:
                break
            killed += 1
            image = book.read_bytes()
            kept = events.exists() and events.read_bytes() == EVENTS
            parts.append((image in (IMAGE, NEXT), (name, step, "the book")))
            parts.append((kept or is_closed(work), (name, step, "the records")))
            parts.append((image == IMAGE or is_closed(work), (name, step, "a next book without its archive")))
            if kept:
                done = call("close", book, events)
                already = image == NEXT and done.status == 2 and ("closed already" in done.err or "already" in done.err)
                parts.append((done.status == 0 or already, (name, step, done)))
            parts.append((book.read_bytes() == NEXT and is_closed(work), (name, step, "closed in the end")))
            parts.append((len(list(work.glob("closed-*"))) == 1, (name, step, "one archive")))
    check("close: killed at many places", killed > 40, str(killed))
    check_all("close: killed anywhere, nothing is lost and the day can be closed", parts)


def test_faults_anywhere(folder):
    """A disk that is full at any of its CALLS: refused and everything as it was, or closed."""
    def full():
        raise OSError(errno.ENOSPC, "No space left on device")

    seen, parts = set(), []
    for step in range(1, 200):
        work = folder / "shop"
        shutil.rmtree(work, ignore_errors=True)
        book, events = shop(work)
        status = with_fault(step, full, book, events)
        if status is None:
            break
        seen.add(status)
        as_it_was = listing(work) == {"rights.rbk": IMAGE, "events.bin": EVENTS} and not list(work.glob("closed-*"))
        closed = book.read_bytes() == NEXT and is_closed(work)
        parts.append((status in (0, 2) and (closed if status == 0 else closed or as_it_was), (step, status, sorted(listing(work)))))
    check("close: some faults refuse it, and some do not matter", seen == {0, 2}, str(seen))
    check_all("close: with a full disk, all or nothing", parts)


# ---- How the requests were answered

def counted(image, events):
    """By the second program: granted, refused and turned away by code, and how many were sent again, which changes nothing."""
    book = rights.read(image)[1]
    lines, found = rights.zeros(book), {"granted": 0, "again": 0}
    for record in rights.records_in(events):
        before = copy.deepcopy(book)
        code = rights.answer_record(book, record, lines)[0]
        sort = code if code not in rights.TAKEN else "again" if book == before else "granted" if code == 0 else code
        found[sort] = found.get(sort, 0) + 1
    return found


def test_tally(folder):
    parts, sorts = [], set()
    for seed in range(120):
        image, events, _ = days.make_day(seed, 60, random.Random(seed).choice((None, "crowd", "cabins", "loading", "going on")))
        if image is None or rights.read(image)[0] != 0:
            continue
        tally = Tally(rights.read(image)[1], events, rights.run(image, events).encode())
        found = {"granted": tally.granted, "again": tally.again, **tally.refused, **tally.away}
        sorts |= set(found)
        parts.append((found == counted(image, events) and tally.all == len(rights.records_in(events)), (seed, found)))
    check("tally: every sort is met", sorts >= {"granted", "again", 1, 2, 3, 4, 5, 6, 10, 11, 12, 13, 14, 15, 44}, sorts)
    check_all("tally: as the second program counts", parts)


def test_after_and_report_ask(folder):
    """The recipe of old, `after` and `mv` and then `report`: the bill of 0 comes with a question."""
    book, events = shop(folder)
    question = "is this the book with which these records began?\n"
    counts = f"{events}: 14 requests: 13 granted, 0 refused, 0 turned away, 1 sent again\n"
    for args in (["report", book, events], ["report", book, events, "--csv"], ["after", book, events, folder / "next.rbk"]):
        done = call(*args)
        check(f"{args[0]}: right, and not asked", done.status == 0 and done.err == counts, done)
    os.replace(folder / "next.rbk", book)
    for args in (["report", book, events], ["after", book, events, folder / "next.rbk"]):
        done = call(*args)
        check(f"{args[0]}: the book after the day", done.status == 0 and done.err.endswith(question)
              and "14 requests: 0 granted, 0 refused, " in done.err and "turned away (" in done.err, done)
    done = call("report", book, "/dev/null")
    check("report: no requests", done.err == "/dev/null: no requests\n", done)
    for image, asked in ((IMAGE, False), (NEXT, True)):
        book.write_bytes(image)
        done = call("left", book, "--after", events, "--at", "1798135200")
        check(f"left: after a part of a day, asked {asked}", done.status == 0 and (question in done.err) == asked
              and done.out == call("left", "-", "--at", "1798135200", stdin=NEXT).out, done)
    book.write_bytes(IMAGE)
    (folder / "two.bin").write_bytes(TWO)
    last = image_after(NEXT, TWO)
    for words in (["show"], ["left", "--at", "1798186100"], ["why", 3, 1, "play", "--at", "1798186100"]):
        command, rest = [words[0], book, *words[1:]], ["--after", events, "--after", folder / "two.bin"]
        done = call(*command, *rest)
        check(f"{words[0]}: after two files of records", done.status == 0 and done.out == call(words[0], "-", *words[1:], stdin=last).out
              and done.err.count("requests: ") == 2, done)
        refused(f"{words[0]}: --after without a file", f"usage: book.py {words[0]}", *command, "--after")
    refused("left: both from standard input", "only one of the files", "left", "-", "--after", "-")


def main():
    library.build("after")
    for name, test in list(globals().items()):
        if name.startswith("test_"):
            with tempfile.TemporaryDirectory() as folder:
                test(Path(os.path.realpath(folder)))
    finish()


if __name__ == "__main__":
    main()
