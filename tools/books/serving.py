"""The run program with its requests recorded (tools/serve).

In the server's folder, rights.rbk is the book at the end of what was closed, and each events-DATE.bin has the requests of a day since
then; beside it events-DATE.rbk is the book with which they began. The run program is started on the book after all of them. A request is
on the disk before the run program gets it, so whatever was answered is there at the next start, however this one ends. Nothing that
was recorded is changed: whole records are appended, and a part of one that an interrupted write left at the end is put aside.
"""

import datetime
import os
import select
import subprocess
import sys
from pathlib import Path

from . import ROOT
from .closing import closed_with, other_book
from .files import IMAGE_MOST, alone_in, free_name, read_bytes, reason, sync_folder, umask, write_beside
from .library import build, build_proved, older, played
from .records import RECORDED, SIZE, began_with, read_records, same_book
from .words import Trouble

RUN = ROOT / "target" / "bin" / "run"
BLOCK = 65_536              # bytes read at once


class Ended(Exception):
    """The run program has ended before its input."""


def say(words):
    print(f"serve: {words}", file=sys.stderr, flush=True)


def serve(folder):
    """Runs until the requests end; returns the exit status."""
    if sys.stdin is None:
        raise Trouble("serve: standard input is closed")
    if older(RUN, (ROOT / "crates").glob("*/src/*.rt")):
        build_proved("the run program, some minutes on a fresh machine", "run")
    build("after")
    folder = Path(folder)
    try:
        with alone_in(folder):
            image = standing(folder)
            path = file_for_today(folder, image)
            return record_and_answer(path, *started_in(folder, image))
    except OSError as problem:
        raise Trouble(f"serve: {problem.filename or folder}: {reason(problem)}") from None


# ---- The book to start from

def standing(folder):
    """The image of the book after everything recorded in the folder."""
    book = folder / "rights.rbk"
    image = read_bytes(book, IMAGE_MOST)
    played(book, image, b"")            # refuses what is no book
    for path in recorded(folder):
        records = read_records(path)
        began = began_with(path)
        if began is not None and not same_book(began, image):
            put_aside(folder, path, image, records)
            continue
        day = played(book, image, records)
        tally = day.tally()
        if began is None:
            if tally.doubt():
                raise Trouble(f"{path}: {tally.doubt()} The server was not started.")
            write_beside(path.with_suffix(".rbk"), image, 0o666 & ~umask())
        say(f"{path.name} has {tally.words()}")
        image = day.image
    return image


def recorded(folder):
    """The files of requests, in the order in which they were recorded, which is that of their days."""
    found = sorted(path for path in folder.glob("events*.bin") if path.is_file())
    for path in found:
        if not RECORDED.fullmatch(path.name):
            raise Trouble(f"{path}: is this file of the requests that were answered from {folder / 'rights.rbk'}? Then name it"
                          f" events-{today()}.bin, so that the server goes on from them. Otherwise put it into another folder. The server"
                          " was not started.")
    return found


def put_aside(folder, path, image, records):
    """A file of requests that does not begin with this book is left from an interrupted `close`, or the book is the wrong one."""
    archive = next(closed_with(folder, records), None)
    if archive is None:
        raise Trouble(f"{other_book(folder / 'rights.rbk', path, image, records)}. Put the file into another folder if its requests are in"
                      " the book, or else the right book in its place. The server was not started.")
    for each in (path, path.with_suffix(".rbk")):
        os.rename(each, free_name(f"{each}.closed"))
    say(f"{path.name} is closed already, in {archive.name}, and was renamed")


def today():
    return f"{datetime.datetime.now(datetime.timezone.utc):%Y-%m-%d}"


def file_for_today(folder, image):
    """The file to which requests are appended: that of today, or the latest if this machine's clock stands before it."""
    path = folder / f"events-{today()}.bin"
    path = max([path, *recorded(folder)])
    if path.exists():
        put_part_aside(path)
    else:
        write_beside(path.with_suffix(".rbk"), image, 0o666 & ~umask())
    return path


def put_part_aside(path):
    """The part of a record at the end was never answered. It is kept in a file of its own."""
    data = path.read_bytes()
    whole = len(data) - len(data) % SIZE
    if whole < len(data):
        aside = free_name(f"{path}.part")
        write_beside(aside, data[whole:], 0o666 & ~umask(), new=True)
        with open(path, "r+b") as file:
            file.truncate(whole)
            os.fsync(file.fileno())
        say(f"{path.name} ended with {len(data) - whole} bytes of a request that was cut short; they are in {os.path.basename(aside)} now")


def started_in(folder, image):
    """The run program, started on this image in a folder of its own, and the end of a pipe that is readable once it has ended."""
    place = folder / ".serving"
    place.mkdir(exist_ok=True)
    write_beside(place / "rights.rbk", image, 0o666 & ~umask())
    ended, held = os.pipe()
    program = subprocess.Popen([RUN], cwd=place, stdin=subprocess.PIPE, bufsize=0, pass_fds=[held])
    os.close(held)
    return program, ended


# ---- Requests

def record_and_answer(path, program, ended):
    with open(path, "ab", buffering=0) as file:
        sync_folder(path.parent)
        say(f"requests are recorded in {path}")
        try:
            pass_on(file, program.stdin, ended)
            return 0
        except (Ended, BrokenPipeError):
            say("the run program has ended before its input; what was recorded last may not have been answered")
            return 1
        finally:
            program.stdin.close()       # at the end of its input the run program ends, with everything answered
            program.wait()


def pass_on(file, program, ended):
    """Each whole record is recorded, then handed on. What is left of one at the end of the input is only handed on: it is turned away."""
    kept = b""
    while piece := read_some(ended):
        kept += piece
        whole = len(kept) - len(kept) % SIZE
        if whole:
            append(file, kept[:whole])
            hand_on(program, kept[:whole])
            kept = kept[whole:]
    hand_on(program, kept)


def read_some(ended):
    """Bytes from standard input, which may be set not to block; none at its end."""
    while True:
        ready, _, _ = select.select([0, ended], [], [])
        if ended in ready:
            raise Ended
        try:
            return os.read(0, BLOCK)
        except BlockingIOError:
            continue


def append(file, data):
    try:
        hand_on(file, data)
        os.fdatasync(file.fileno())
    except OSError as problem:
        raise Trouble(f"serve: {file.name}: {reason(problem)}. The server ends here: what cannot be recorded is not answered") from None


def hand_on(file, data):
    while data:
        data = data[file.write(data):]
