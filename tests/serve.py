#!/usr/bin/env python3
"""Tests of tools/serve: what is recorded, and that it can be ended and started again at any moment.

    python3 tests/serve.py

What must be answered comes from the second program. The last line is `N passed, M failed`; the exit status is 1 if anything failed.
"""

import datetime
import os
import random
import resource
import shutil
import signal
import subprocess
import sys
import tempfile
import threading
import time
from pathlib import Path

from support.checks import AFTERNOON, ROOT, Done, call, check, check_all, finish, image_after, listing

import rights
from books import library

SERVE = ROOT / "tools" / "serve"
SIZE = rights.RECORD.size
LIMIT = 60
IMAGE, EVENTS = (AFTERNOON / "rights.rbk").read_bytes(), (AFTERNOON / "events.bin").read_bytes()


def today():
    return f"{datetime.datetime.now(datetime.timezone.utc):%Y-%m-%d}"


def shop(folder, image=IMAGE):
    shutil.rmtree(folder, ignore_errors=True)
    folder.mkdir()
    (folder / "rights.rbk").write_bytes(image)
    return folder


def recorded(folder):
    """The bytes of all files of requests, in turn."""
    return b"".join(path.read_bytes() for path in sorted(folder.glob("events-*.bin")))


def serve(folder, events=b"", **how):
    """A server from its start to the end of its input."""
    return Done(subprocess.run([SERVE, folder], input=events, capture_output=True, timeout=LIMIT, **how))


def answers(events, before=b"", image=IMAGE):
    """What is printed for events behind others."""
    return "".join(rights.run(image, before + events).splitlines(keepends=True)[len(rights.records_in(before)):]).encode()


class Server:
    """A running server, asked record by record."""

    def __init__(self, folder, **how):
        self.process = subprocess.Popen([SERVE, folder], stdin=subprocess.PIPE, stdout=subprocess.PIPE, stderr=subprocess.PIPE, bufsize=0,
                                        start_new_session=True, **how)
        self.out = os.fdopen(os.dup(self.process.stdout.fileno()), "rb")
        self.watch = threading.Timer(LIMIT, self.process.kill)
        self.watch.start()

    def ask(self, record):
        """The line of its answer; empty if the server is gone."""
        try:
            self.process.stdin.write(record)
        except BrokenPipeError:
            return b""
        return self.out.readline()

    def end(self):
        """Ends its input. Returns its exit status, the rest of its answers, and what it said."""
        self.process.stdin.close()
        rest, said = self.out.read(), self.process.stderr.read().decode()
        status = self.process.wait()
        self.watch.cancel()
        return status, rest, said

    def killed(self):
        self.process.kill()
        return self.end()


def refused(name, folder, fragment, **how):
    """The server is not started, and no file changes."""
    before = listing(folder)
    done = serve(folder, EVENTS, **how)
    check(name, done.status == 2 and done.out == b"" and fragment in done.err and "Traceback" not in done.err, done)
    check(f"{name}: every file is as it was", listing(folder) == before)


# ---- One start and the next

def test_a_day(folder):
    work = shop(folder / "shop")
    done = serve(work, EVENTS)
    file = work / f"events-{today()}.bin"
    check("a day: its answers", done.status == 0 and done.out == (AFTERNOON / "expected.txt").read_bytes(), done)
    check("a day: its requests", file.read_bytes() == EVENTS)
    check("a day: the book with which they began", file.with_suffix(".rbk").read_bytes() == IMAGE)
    check("a day: the book stays", (work / "rights.rbk").read_bytes() == IMAGE)
    check("a day: where they are recorded", str(file) in done.err, done)
    closed = call("close", work / "rights.rbk", file)
    check("a day: closed", closed.status == 0 and (work / "rights.rbk").read_bytes() == image_after(IMAGE, EVENTS)
          and not file.exists() and not file.with_suffix(".rbk").exists(), closed)
    more = rights.encode(rights.Event(0, 3, rights.BEGIN, 1, rights.PLAY, 2000))
    done = serve(work, more)
    check("the day after: from the next book", done.out == answers(more, EVENTS) and file.read_bytes() == more, done)
    here = Done(subprocess.run([SERVE], input=b"", capture_output=True, timeout=LIMIT, cwd=work))
    check("in this folder", here.status == 0 and "has 1 request: 0 granted, 1 refused (1 with 13), 0 turned away" in here.err, here)


def test_each_answer_is_recorded_before(folder):
    work = shop(folder / "shop")
    server, parts = Server(work), []
    for count, record in enumerate(rights.records_in(EVENTS), 1):
        line = server.ask(record)
        parts.append((recorded(work) == EVENTS[:SIZE * count], f"request {count}"))
        parts.append((line == answers(record, EVENTS[:SIZE * (count - 1)]), f"answer {count}: {line}"))
    check_all("a request is recorded before its answer", parts)
    check("the end of the input", server.end()[:2] == (0, b""))


def test_restarts(folder):
    """Ended and started again behind every request: as one server over the whole day, and nothing recorded is lost."""
    work, parts = shop(folder / "shop"), []
    for at in range(0, len(EVENTS), SIZE):
        done = serve(work, EVENTS[at:at + SIZE])
        parts.append((done.status == 0 and done.out == answers(EVENTS[at:at + SIZE], EVENTS[:at]), (at, done)))
        parts.append((recorded(work) == EVENTS[:at + SIZE], at))
    check_all("restarts: each request is answered as without them", parts)
    check("restarts: one file", sorted(path.name for path in work.glob("events-*")) == [f"events-{today()}.bin", f"events-{today()}.rbk"])


def test_kills(folder):
    """A player that asks until it has its answer, and a server that is killed again and again."""
    rng, parts, kills = random.Random(11), [], 0
    work = shop(folder / "shop", rights.write(rights.Book(0, [rights.Asset(1, 0, 1)], [rights.Entry(1, 1, 1, rights.COUNT, count=500)])))
    image = (work / "rights.rbk").read_bytes()
    server, got, number = Server(work), [], 0
    while len(got) < 160:
        number += 1
        request = (rights.BEGIN, 1, 1) if len(got) // 3 % 2 == 0 else (rights.STOP, 0, 0)
        record = rights.encode(rights.Event(len(got) % 3, len(got) // 3 + 1, *request, 1000 + number))
        if rng.random() < 0.25:
            timer = threading.Timer(rng.choice((0, 0, 0.0003, 0.001, 0.003)), server.process.kill)
            timer.start()
        else:
            timer = None
        line = server.ask(record)
        if timer:
            timer.join()
            _, rest, _ = server.end()
            kills += 1
            line = line or rest
            server = Server(work)
        if line.endswith(b"\n"):
            got.append((record, line))
    server.end()
    data = recorded(work)
    check("kills: many", kills > 30, str(kills))
    check("kills: whole records", len(data) % SIZE == 0)
    lines = rights.run(image, data).splitlines(keepends=True)
    replayed = dict()
    for record, line in zip(rights.records_in(data), lines):
        replayed.setdefault(record, []).append(line.encode())
    parts = [(line in replayed.get(record, []), (record.hex(" "), line, replayed.get(record))) for record, line in got]
    check_all("kills: every answer that was given is the recorded one", parts)
    granted = sum(rights.decode(record).operation == rights.BEGIN and line.startswith(b"0 ") for record, line in got)
    used = rights.read(image_after(image, data))[1].entries[0].used_count
    check("kills: as many showings are used as were granted, for all the requests sent again", granted == used > 60, (granted, used))


def test_cut_at_the_end(folder):
    """Part of a record at the end of the file, of each length: put aside, and the next request stands in line."""
    parts = []
    for part in range(1, SIZE):
        work = shop(folder / "shop")
        file = work / f"events-{today()}.bin"
        serve(work, EVENTS[:5 * SIZE])
        with open(file, "ab") as more:
            more.write(EVENTS[5 * SIZE:5 * SIZE + part])
        done = serve(work, EVENTS[5 * SIZE:])
        aside = Path(f"{file}.part")
        parts.append((done.status == 0 and done.out == answers(EVENTS[5 * SIZE:], EVENTS[:5 * SIZE]) and file.read_bytes() == EVENTS,
                      (part, done)))
        parts.append((aside.read_bytes() == EVENTS[5 * SIZE:5 * SIZE + part], (part, done)))
        parts.append((f"{part} bytes of a request that was cut short" in done.err, (part, done)))
    check_all("a record cut at the end of the file", parts)
    with open(file, "ab") as more:
        more.write(b"again")
    serve(work)
    check("cut again: both parts are kept", Path(f"{file}.part.2").read_bytes() == b"again" and aside.read_bytes() == EVENTS[85:101]
          and file.read_bytes() == EVENTS)
    work = shop(folder / "shop")
    done = serve(work, EVENTS[:SIZE + 9])
    check("input that ends within a record: answered 6, and not recorded", done.status == 0
          and done.out == answers(EVENTS[:SIZE + 9]) and done.out.endswith(b"6 255 0\n") and recorded(work) == EVENTS[:SIZE], done)


# ---- Days that were not closed, and books and files that do not belong here

def test_days_not_closed(folder):
    work = shop(folder / "shop")
    first, second = work / "events-2020-01-01.bin", work / "events-2020-01-02.bin"
    first.write_bytes(EVENTS[:7 * SIZE])
    second.write_bytes(EVENTS[7 * SIZE:12 * SIZE])
    done = serve(work, EVENTS[12 * SIZE:])
    check("days not closed: from the book after all of them", done.status == 0
          and done.out == answers(EVENTS[12 * SIZE:], EVENTS[:12 * SIZE]), done)
    check("days not closed: a file for today", (work / f"events-{today()}.bin").read_bytes() == EVENTS[12 * SIZE:]
          and recorded(work) == EVENTS)
    check("days not closed: each has the book with which it began", first.with_suffix(".rbk").read_bytes() == IMAGE
          and second.with_suffix(".rbk").read_bytes() == image_after(IMAGE, EVENTS[:7 * SIZE]))
    later = call("close", work / "rights.rbk", second)
    check("days not closed: the second is not closed before the first", later.status == 2 and "is another one" in later.err, later)
    for file in (first, second, work / f"events-{today()}.bin"):
        done = call("close", work / "rights.rbk", file)
        check(f"days not closed: {file.name}", done.status == 0, done)
    check("days not closed: all closed", (work / "rights.rbk").read_bytes() == image_after(IMAGE, EVENTS)
          and not list(work.glob("events-*")))

    work = shop(folder / "shop")
    ahead = work / "events-2999-01-01.bin"
    ahead.write_bytes(EVENTS[:7 * SIZE])
    serve(work, EVENTS[7 * SIZE:])
    check("a clock that was set back: the latest file goes on", ahead.read_bytes() == EVENTS == recorded(work))


def test_other_books(folder):
    work = shop(folder / "shop")
    serve(work, EVENTS)
    other = rights.read(IMAGE)[1]
    other.entries[0].count = 9
    for name, image, fragment in (("another book", rights.write(other), "is another one"),
                                  ("the book after them", image_after(IMAGE, EVENTS), "which is the book after them")):
        (work / "rights.rbk").write_bytes(image)
        refused(f"{name} in the book's place", work, fragment)
    (work / f"events-{today()}.rbk").unlink()
    refused("requests that do not go on from the book", work, "is this the book with which these records began?")
    for name, image, fragment in (("no book", None, "there is no such file"), ("a refused book", IMAGE[:-1], "with 20"),
                                  ("a text", b"asset 1 key\n", "this is a text")):
        shop(folder / "shop", image or b"")
        if image is None:
            (work / "rights.rbk").unlink()
        refused(name, work, fragment)
    shop(folder / "shop")
    for name in ("events.bin", "events-monday.bin"):
        (work / name).write_bytes(EVENTS)
        refused(f"requests named {name}", work, f"Then name it events-{today()}.bin")
        (work / name).unlink()
    done = serve(folder / "none")
    check("no folder", done.status == 2 and "there is no such folder" in done.err, done)
    for words in (["a", "b"], ["--all"]):
        done = Done(subprocess.run([SERVE, *words], input=b"", capture_output=True, timeout=LIMIT))
        check(f"wrong words: {words}", done.status == 2 and "usage: serve [FOLDER]" in done.err, done)
    done = Done(subprocess.run(["sh", "-c", 'exec "$@" <&-', "sh", SERVE, work], capture_output=True, timeout=LIMIT))
    check("standard input closed", done.status == 2 and "standard input is closed" in done.err, done)
    done = Done(subprocess.run([SERVE, "--help"], input=b"", capture_output=True, timeout=LIMIT))
    check("--help", done.status == 0 and b"tools/serve [FOLDER]" in done.out, done)


def test_left_by_close(folder):
    """Files that a `close` left when it was killed behind its last step do not count a second time."""
    work = shop(folder / "shop")
    serve(work, EVENTS)
    file = work / f"events-{today()}.bin"
    call("close", work / "rights.rbk", file)
    file.write_bytes(EVENTS)
    file.with_suffix(".rbk").write_bytes(IMAGE)
    more = rights.encode(rights.Event(0, 3, rights.BEGIN, 1, rights.PLAY, 2000))
    done = serve(work, more)
    check("left by close: from the next book", done.status == 0 and done.out == answers(more, EVENTS) and file.read_bytes() == more
          and "is closed already" in done.err, done)
    check("left by close: renamed, not lost", Path(f"{file}.closed").read_bytes() == EVENTS)


# ---- What else can happen to it

def test_one_server(folder):
    work = shop(folder / "shop")
    server = Server(work)
    line = server.ask(EVENTS[:SIZE])
    refused("a second server", work, "a server is running in this folder")
    file = work / f"events-{today()}.bin"
    done = call("close", work / "rights.rbk", file)
    check("close while it runs", done.status == 2 and "a server is running" in done.err and file.read_bytes() == EVENTS[:SIZE], done)
    check("the first goes on", line == answers(EVENTS[:SIZE])
          and server.ask(EVENTS[SIZE:2 * SIZE]) == answers(EVENTS[SIZE:2 * SIZE], EVENTS[:SIZE]))
    server.killed()
    check("after a kill another one starts at once", serve(work, EVENTS[2 * SIZE:]).out == answers(EVENTS[2 * SIZE:], EVENTS[:2 * SIZE]))


def run_of(server):
    """The process of the run program."""
    until = time.time() + LIMIT
    while time.time() < until:
        children = Path(f"/proc/{server.process.pid}/task/{server.process.pid}/children").read_text().split()
        if children:
            return int(children[0])
        time.sleep(0.01)
    raise AssertionError("the run program is not started")


def test_the_run_program_killed(folder):
    work = shop(folder / "shop")
    server = Server(work)
    server.ask(EVENTS[:SIZE])
    os.kill(run_of(server), signal.SIGKILL)
    status = server.process.wait(LIMIT)     # though its input goes on
    _, _, said = server.end()
    check("the run program killed: the server ends, and says so", status == 1 and "has ended before its input" in said, (status, said))
    check("the run program killed: started again", serve(work, EVENTS[SIZE:]).out == answers(EVENTS[SIZE:], EVENTS[:SIZE]))


def test_answers_nobody_reads(folder):
    work = shop(folder / "shop")
    server = Server(work)
    server.ask(EVENTS[:SIZE])
    server.out.close()
    server.process.stdout.close()
    try:
        server.process.stdin.write(EVENTS[SIZE:2 * SIZE])
        status = server.process.wait(LIMIT)
    finally:
        server.watch.cancel()
    server.process.stdin.close()
    server.process.stderr.close()
    check("answers that nobody reads: the server ends", status == 1)
    check("answers that nobody reads: what was asked is recorded", recorded(work) == EVENTS[:2 * SIZE])
    check("answers that nobody reads: sent again", serve(work, EVENTS[:SIZE]).out == answers(EVENTS[:SIZE], EVENTS[:2 * SIZE]))


def test_a_full_disk(folder):
    """What cannot be recorded is not answered. The limit is that of the file, 1 KB: 60 requests and a part of one."""
    work = shop(folder / "shop")
    events = (EVENTS * 4)[:80 * SIZE]
    done = serve(work, events, preexec_fn=lambda: resource.setrlimit(resource.RLIMIT_FSIZE, (1024, 1024)))
    data = recorded(work)
    check("a full disk: the server ends, and says why", done.status == 2 and "what cannot be recorded is not answered" in done.err
          and "Traceback" not in done.err, done)
    check("a full disk: no answer that is not recorded", done.out == b"" and len(data) <= 1024, (done, len(data)))
    whole = data[:len(data) // SIZE * SIZE]
    done = serve(work, events[len(whole):])
    check("a full disk: later it goes on", done.status == 0 and recorded(work) == events
          and done.out == answers(events[len(whole):], whole), done)


def test_anything_may_be_sent(folder):
    """A faulty player whose bytes look like a text or a book: turned away, recorded, and no hindrance to the next start or the evening."""
    for name, record in (("a text", b"\ntime 1234567890\n"), ("a book", b"RBK\0\5" + bytes(12))):
        work = shop(folder / "shop")
        sent = record + EVENTS
        check(f"{name} first", len(record) == SIZE and serve(work, sent[:5 * SIZE]).out == answers(sent[:5 * SIZE]))
        check(f"{name} first: started again", serve(work, sent[5 * SIZE:]).out == answers(sent[5 * SIZE:], sent[:5 * SIZE]))
        file = work / f"events-{today()}.bin"
        done = call("left", work / "rights.rbk", "--after", file)
        check(f"{name} first: what is left", done.status == 0, done)
        done = call("close", work / "rights.rbk", file)
        check(f"{name} first: closed", done.status == 0 and (work / "rights.rbk").read_bytes() == image_after(IMAGE, sent), done)


def test_a_folder_that_cannot_be_written(folder):
    work = shop(folder / "shop")
    (work / ".serving").write_bytes(b"a file of this name")
    done = serve(work, EVENTS)
    check("a folder in which it cannot start", done.status == 2 and done.out == b"" and "Traceback" not in done.err
          and ".serving" in done.err and recorded(work) == b"", done)


def test_input_that_does_not_block(folder):
    work = shop(folder / "shop")
    read, write = os.pipe()
    os.set_blocking(read, False)
    process = subprocess.Popen([SERVE, work], stdin=read, stdout=subprocess.PIPE, stderr=subprocess.DEVNULL)
    os.close(read)
    for piece in (EVENTS[:20], EVENTS[20:100], EVENTS[100:]):
        time.sleep(0.1)
        os.write(write, piece)
    os.close(write)
    check("input that does not block, in pieces", process.communicate(timeout=LIMIT)[0] == answers(EVENTS) and recorded(work) == EVENTS)


def test_a_long_input(folder):
    work = shop(folder / "shop", (ROOT / "crates" / "run_long" / "data" / "rights.rbk").read_bytes())
    image, events = (work / "rights.rbk").read_bytes(), (ROOT / "crates" / "run_long" / "stdin").read_bytes()
    done = serve(work, events)
    whole = events[:len(events) // SIZE * SIZE]
    check("a long input", done.status == 0 and done.out == rights.run(image, events).encode() and recorded(work) == whole, done.err)


def main():
    library.build("after")
    if not (ROOT / "target" / "bin" / "run").exists():
        sys.exit("there is no target/bin/run: `tools/build run` makes it")
    for name, test in list(globals().items()):
        if name.startswith("test_"):
            with tempfile.TemporaryDirectory() as folder:
                test(Path(os.path.realpath(folder)))
    finish()


if __name__ == "__main__":
    main()
