"""The answers to a file of events and the book after them, what stands against the entries of a book, and the book of an XML
rights object, and the report of a day, from the proved library for C (crates/embed, as crates/embed_c exports it).

The library and the small programs on top of it (tools/after.c, why.c, read_texts.c) are built if they are missing or older
than their sources; the messages of the prover and the compiler go into target/tools/after.log.
"""

import os
import shutil
import subprocess
import sys
import tempfile
from dataclasses import dataclass
from pathlib import Path

import rights

from . import ROOT
from .answers import Tally
from .files import keep_inputs, read_image, reason
from .kept import write_book
from .records import began_with, read_records, same_book
from .texts import REFUSED, refusal
from .words import Trouble

LIBRARY = ROOT / "target" / "staticlib" / "libembed.a"
HEADER = ROOT / "embed" / "rights.h"
MADE = ROOT / "target" / "tools"
LOG = MADE / "after.log"


@dataclass
class Day:
    """Records on a book, and what the library made of them."""
    before: bytes           # the image of the book
    records: bytes
    answers: bytes          # a line for each record
    image: bytes            # of the book after them
    lines: list             # of the report, begun with zeros

    def books(self):
        """Before and after."""
        return rights.read(self.before)[1], rights.read(self.image)[1]

    def tally(self):
        return Tally(self.books()[0], self.records, self.answers)


def played(path, image, records):
    """By the library: these records answered from the book in this image, whose file is named in a refusal."""
    build("after")
    try:
        with tempfile.TemporaryDirectory(ignore_cleanup_errors=True) as folder:
            return played_in(Path(folder), path, image, records)
    except OSError as problem:
        raise Trouble(f"{problem.filename or 'a file for the answers'}: {reason(problem)}") from None


def played_in(work, path, image, records):
    (work / "book").write_bytes(image)
    with open(work / "answers", "wb") as answers:
        done = subprocess.run([MADE / "after", work / "book", work / "next", work / "report"], input=records, stdout=answers,
                              stderr=subprocess.PIPE)
    if done.returncode in REFUSED:
        raise Trouble(refusal(path, image, done.returncode))
    succeeded(done)
    lines = [rights.Line(*map(int, line.split())) for line in (work / "report").read_text().splitlines()]
    return Day(image, records, (work / "answers").read_bytes(), (work / "next").read_bytes(), lines)


def succeeded(done):
    if done.returncode != 0:
        said = done.stderr.decode(errors="replace").strip()
        raise Trouble(said or f"{done.args[0]} ended with status {done.returncode}")


def after(book, events, following, over=False):
    if following == "-":
        raise Trouble("the next book needs the name of a file: standard output is for the answers")
    if book == events == "-":
        raise Trouble("only one of the two files can be standard input")
    keep_inputs(following, book, events)
    records = read_records(events)
    day = played(book, read_image(book), records)
    write_book(following, day.image, over)
    sys.stdout.buffer.write(day.answers)        # only once the book is saved
    say_tally(events, day)


def image_after(path, events):
    """The image in a file; with files of events the image after these, in turn."""
    if [path, *events].count("-") > 1:
        raise Trouble("only one of the files can be standard input")
    image = read_image(path)
    for each in events:
        day = played(path, image, read_records(each))
        say_tally(each, day)
        image = day.image
    return image


def say_tally(events, day):
    """On standard error: how the requests were answered, and a question where most of them do not go on from the book."""
    sys.stdout.flush()
    tally, began = day.tally(), began_with(events)
    print(f"{events}: {tally.words()}", file=sys.stderr)
    if began is not None and not same_book(began, day.before):
        print(f"{Path(events).with_suffix('.rbk')} is another book: is this the book with which these records began?", file=sys.stderr)
    elif tally.doubt():
        print(tally.doubt(), file=sys.stderr)


def judged(image, record, player, t):
    """By the library: the answer to one record (code, entry, until), and for each entry of the book which grounds stand
    against it for that player at t, in the order of rights.h. The image must be one that the server accepts."""
    day = played("", image, record)
    with tempfile.NamedTemporaryFile() as book:
        build("why")
        book.write(image)
        book.flush()
        listed = subprocess.run([MADE / "why", book.name, str(player), str(t)], capture_output=True)
    succeeded(listed)
    return tuple(map(int, day.answers.split())), [[word == "1" for word in line.split()] for line in listed.stdout.decode().splitlines()]


def read_xml(text):
    """By the library: the code of an XML text, its number of elements, and the image of its book."""
    build("read_texts")
    done = subprocess.run([MADE / "read_texts"], input=len(text).to_bytes(4, "big") + text, capture_output=True)
    head, image = done.stdout[:12], done.stdout[12:]
    code, elements, length = (int.from_bytes(head[at:at + 4], "big") for at in (0, 4, 8))
    succeeded(done)
    if len(head) != 12 or len(image) != length:
        raise Trouble(f"{MADE}/read_texts gave no whole result")
    return code, elements, image


# ---- Building

def build(*programs):
    if older(LIBRARY, (ROOT / "crates").glob("*/src/*.rt")):
        build_proved("the library that answers, some minutes on a fresh machine, fewer where the run program is built", "embed_c")
    for name in programs:
        source, made = ROOT / "tools" / f"{name}.c", MADE / f"{name}.{os.getpid()}"
        if older(MADE / name, [LIBRARY, source, HEADER]):
            compiler = (os.environ.get("CC") or "cc").split()
            build_step("the program over it, a second", compiler[0], "a C compiler",
                       [*compiler, "-std=c11", "-O2", "-I", str(HEADER.parent), str(source), str(LIBRARY), "-o", str(made)])
            made.replace(MADE / name)


def older(made, sources):
    return not made.exists() or made.stat().st_mtime < max((path.stat().st_mtime for path in sources), default=0)


def build_proved(what, name):
    """A program or the library, by tools/build, which calls rt."""
    build_step(what, "rt", "the command of the Rattle kit", [sys.executable, "tools/build", name])


def build_step(what, needed, tool, command):
    if shutil.which(needed) is None:
        raise Trouble(f"`{needed}`, {tool}, is not found; it is needed to build {what.split(',')[0]}")
    log_name = os.path.relpath(LOG)
    print(f"building {what}; log in {log_name}", file=sys.stderr, flush=True)
    MADE.mkdir(parents=True, exist_ok=True)
    with open(LOG, "ab") as log:
        log.write(f"{' '.join(command)}\n".encode())
        log.flush()
        done = subprocess.run(command, cwd=ROOT, stdin=subprocess.DEVNULL, stdout=log, stderr=log)
    if done.returncode != 0:
        shown = command[1:] if command[0] == sys.executable else command[:3]
        raise Trouble(f"`{' '.join(shown)}` failed; what it said is in {log_name}")
