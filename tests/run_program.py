"""What the run program does with its files and pipes, which no contract can cover.

    python3 tests/run_program.py [PROGRAM]

PROGRAM is target/bin/run if none is named. What it must print comes from the second program, oracle/rights.py. The last line is
`N passed, 0 failed`, and the exit status is not 0 if a test failed.
"""

import fcntl
import os
import signal
import struct
import subprocess
import sys
import tempfile
import termios
import threading
import time
from pathlib import Path

ROOT = Path(__file__).resolve().parent.parent
sys.path.insert(0, str(ROOT / "oracle"))

import rights  # noqa: E402

PROGRAM = Path(sys.argv[1] if len(sys.argv) > 1 else ROOT / "target" / "bin" / "run").resolve()
LIMIT = 60                  # seconds that a run may take
SHORT = (ROOT / "crates" / "run" / "data" / "rights.rbk").read_bytes()
SHORT_EVENTS = (ROOT / "crates" / "run" / "stdin").read_bytes()
LONG = (ROOT / "crates" / "run_long" / "data" / "rights.rbk").read_bytes()
LONG_EVENTS = (ROOT / "crates" / "run_long" / "stdin").read_bytes()
RECORD = 17                 # bytes of an event record
NOBODY = 65534
SET_PIPE_SIZE = 1031        # Linux's F_SETPIPE_SZ, which fcntl has only from Python 3.10


class Skipped(Exception):
    pass


def same(got, wanted, what):
    if got != wanted:
        raise AssertionError(f"{what}: {got[:200]!r} and not {wanted[:200]!r}")


def contains(text, part, what):
    if part not in text:
        raise AssertionError(f"{what}: {text!r} does not say {part!r}")


def folder_with(image):
    folder = tempfile.TemporaryDirectory()
    if image is not None:
        (Path(folder.name) / "rights.rbk").write_bytes(image)
    return folder


def start(folder, arguments=(), **options):
    return subprocess.Popen([PROGRAM, *arguments], cwd=folder, stderr=subprocess.PIPE, **options)


def run(image, events, arguments=(), folder=None, **options):
    """(standard output, standard error) as text."""
    with folder_with(image) as made:
        done = subprocess.run([PROGRAM, *arguments], input=events, capture_output=True, cwd=folder or made, timeout=LIMIT, **options)
    return done.stdout.decode(), done.stderr.decode()


def through_pipes(image, events, pieces, blocking_in=True, blocking_out=True, size=None, lazy=0.0):
    """Standard output and error when the events come in pieces over a pipe; lazy: seconds between two reads of the answers."""
    with folder_with(image) as folder:
        in_read, in_write = os.pipe()
        out_read, out_write = os.pipe()
        os.set_blocking(in_read, blocking_in)
        os.set_blocking(out_write, blocking_out)
        if size:
            fcntl.fcntl(out_write, SET_PIPE_SIZE, size)
        program = start(folder, stdin=in_read, stdout=out_write)
        os.close(in_read)
        os.close(out_write)

        def feed():
            at = 0
            with os.fdopen(in_write, "wb", buffering=0) as pipe:
                for number, length in enumerate(pieces):
                    pipe.write(events[at:at + length])
                    at += length
                    if number % 50 == 0:
                        time.sleep(0.01)
                pipe.write(events[at:])

        feeder = threading.Thread(target=feed, daemon=True)
        feeder.start()
        watch = threading.Timer(LIMIT, program.kill)
        watch.start()
        got = b""
        while piece := os.read(out_read, 3000):
            got += piece
            time.sleep(lazy)
        os.close(out_read)
        complaint = program.stderr.read().decode()
        program.wait()
        watch.cancel()
        return got.decode(), complaint


def taken(pipe):
    """Waits until the program has read all that is in the pipe."""
    until = time.time() + LIMIT
    while struct.unpack("i", fcntl.ioctl(pipe, termios.FIONREAD, bytes(4)))[0]:
        if time.time() > until:
            raise AssertionError(f"the input is not read within {LIMIT} seconds")
        time.sleep(0.0001)


def read_by_read(image, pieces, together=b""):
    """Standard output and error when the program reads each piece by itself, then `together`, which waits for it as a whole."""
    with folder_with(image) as folder, tempfile.TemporaryFile() as answers:
        in_read, in_write = os.pipe()
        program = start(folder, stdin=in_read, stdout=answers)
        os.close(in_read)
        watch = threading.Timer(LIMIT, program.kill)
        watch.start()
        try:
            for piece in pieces:
                os.write(in_write, piece)
                taken(in_write)
            if together:
                fcntl.fcntl(in_write, SET_PIPE_SIZE, 1 << 20)
                program.send_signal(signal.SIGSTOP)
                same(os.write(in_write, together), len(together), "bytes that wait for the program")
                program.send_signal(signal.SIGCONT)
        finally:
            os.close(in_write)
            complaint = program.stderr.read().decode()
            program.wait()
            watch.cancel()
        answers.seek(0)
        return answers.read().decode(), complaint


def cut(events, size):
    return [events[at:at + size] for at in range(0, len(events), size)]


def pieces_of(length, sizes):
    """The sizes in turn, repeated as long as they fit the length."""
    found = []
    while sum(found) < length:
        found.append(sizes[len(found) % len(sizes)])
    return found[:-1]


# ---- Answers

def test_the_afternoon_at_once():
    out, err = run(SHORT, SHORT_EVENTS)
    same(out, rights.run(SHORT, SHORT_EVENTS), "answers")
    same(err, "", "standard error")


def test_each_record_has_its_answer_before_the_next_is_sent():
    wanted = rights.run(SHORT, SHORT_EVENTS).splitlines(keepends=True)
    with folder_with(SHORT) as folder:
        program = start(folder, stdin=subprocess.PIPE, stdout=subprocess.PIPE)
        watch = threading.Timer(LIMIT, program.kill)
        watch.start()
        for number, (record, line) in enumerate(zip(rights.records_in(SHORT_EVENTS), wanted)):
            program.stdin.write(record)
            program.stdin.flush()
            same(program.stdout.readline().decode(), line, f"answer {number}")
        program.stdin.close()
        same(program.stdout.read(), b"", "behind the last answer")
        same(program.stderr.read(), b"", "standard error")
        program.wait()
        watch.cancel()


def test_a_record_in_two_parts_has_no_answer_before_the_second():
    wanted = rights.run(SHORT, SHORT_EVENTS[:2 * RECORD]).splitlines(keepends=True)
    with folder_with(SHORT) as folder:
        program = start(folder, stdin=subprocess.PIPE, stdout=subprocess.PIPE)
        program.stdin.write(SHORT_EVENTS[:20])
        program.stdin.flush()
        same(program.stdout.readline().decode(), wanted[0], "first answer")
        os.set_blocking(program.stdout.fileno(), False)
        time.sleep(0.1)
        same(program.stdout.read() or b"", b"", "before the rest of the second record")
        os.set_blocking(program.stdout.fileno(), True)
        program.stdin.write(SHORT_EVENTS[20:2 * RECORD])
        program.stdin.close()
        same(program.stdout.read().decode(), wanted[1], "second answer")
        program.stderr.close()
        program.wait()


def test_pieces_split_anywhere():
    for sizes in ((1, 5, 7), (13,), (16, 18), (RECORD * 50 + 6,), (4096,), (65_551,), (65_550, 2), (70_000, 1)):
        events = LONG_EVENTS if min(sizes) > 100 else LONG_EVENTS[:RECORD * 900 + 4]
        out, err = through_pipes(LONG, events, pieces_of(len(events), sizes))
        same(out, rights.run(LONG, events), f"pieces of {sizes}")
        same(err, "", "standard error")


def test_reads_of_1_to_40_bytes():
    """Whatever is left of a record after a read is kept for the next one; the last record may be cut short."""
    for events in (SHORT_EVENTS, SHORT_EVENTS[:-1], SHORT_EVENTS[:-16]):
        wanted = rights.run(SHORT, events)
        for size in range(1, 41):
            out, err = read_by_read(SHORT, cut(events, size))
            same(out, wanted, f"{len(events)} bytes in reads of {size}")
            same(err, "", "standard error")


def test_two_reads_cut_at_every_byte():
    wanted = rights.run(SHORT, SHORT_EVENTS)
    for at in range(1, len(SHORT_EVENTS)):
        out, err = read_by_read(SHORT, [SHORT_EVENTS[:at], SHORT_EVENTS[at:]])
        same(out, wanted, f"cut at byte {at}")
        same(err, "", "standard error")


def test_an_input_that_ends_at_every_byte():
    for length in range(len(SHORT_EVENTS) + 1):
        events = SHORT_EVENTS[:length]
        out, err = run(SHORT, events)
        same(out, rights.run(SHORT, events), f"{length} bytes")
        same(err, "", "standard error")


def test_full_reads_behind_part_of_a_record():
    """After 1 to 17 bytes more waits than the program reads at once, so its reads end at another place of a record each time."""
    events = LONG_EVENTS[:RECORD * 12_000 + 3]
    wanted = rights.run(LONG, events)
    for first in range(1, RECORD + 1):
        out, err = read_by_read(LONG, [events[:first]], events[first:])
        same(out, wanted, f"{first} bytes first")
        same(err, "", "standard error")


def test_a_long_input_from_a_file():
    with folder_with(LONG) as folder:
        (Path(folder) / "events").write_bytes(LONG_EVENTS)
        with open(Path(folder) / "events", "rb") as events:
            done = subprocess.run([PROGRAM], stdin=events, capture_output=True, cwd=folder, timeout=LIMIT)
    same(done.stdout.decode(), rights.run(LONG, LONG_EVENTS), "answers")
    same(done.stderr, b"", "standard error")


# ---- Non-blocking descriptors

def test_standard_input_that_does_not_block():
    events = LONG_EVENTS[:RECORD * 3000 + 5]
    out, err = through_pipes(LONG, events, pieces_of(len(events), (11, 200, 1)), blocking_in=False)
    same(out, rights.run(LONG, events), "answers")
    same(err, "", "standard error")


def test_standard_output_that_does_not_block():
    out, err = through_pipes(LONG, LONG_EVENTS, [], blocking_out=False, size=4096, lazy=0.001)
    same(out, rights.run(LONG, LONG_EVENTS), "answers")
    same(err, "", "standard error")


def test_neither_blocks():
    out, err = through_pipes(LONG, LONG_EVENTS, pieces_of(len(LONG_EVENTS), (3000, 7)), False, False, 4096, 0.001)
    same(out, rights.run(LONG, LONG_EVENTS), "answers")
    same(err, "", "standard error")


def test_a_refusal_where_standard_output_does_not_block():
    out, err = through_pipes(None, b"", [], blocking_out=False)
    same(out, "20\n", "standard output")
    same(err, "", "standard error")


def test_waiting_takes_no_time_of_the_processor():
    """A second of waiting on a non-blocking input."""
    with folder_with(SHORT) as folder:
        in_read, in_write = os.pipe()
        os.set_blocking(in_read, False)
        program = start(folder, stdin=in_read, stdout=subprocess.DEVNULL)
        os.close(in_read)
        time.sleep(1)
        fields = Path(f"/proc/{program.pid}/stat").read_text().rsplit(")", 1)[1].split()
        os.close(in_write)
        program.stderr.close()
        program.wait()
    used = (int(fields[11]) + int(fields[12])) / os.sysconf("SC_CLK_TCK")
    if used > 0.3:
        raise AssertionError(f"{used} seconds of the processor in a second of waiting")


# ---- The book's file

def test_a_missing_file():
    out, err = run(None, SHORT_EVENTS)
    same(out, "20\n", "standard output")
    same(err, "", "standard error")


def test_a_folder_for_the_file():
    with folder_with(None) as folder:
        (Path(folder) / "rights.rbk").mkdir()
        out, err = run(None, SHORT_EVENTS, folder=folder)
    same(out, "20\n", "standard output")
    contains(err, "rights.rbk: Is a directory", "standard error")


def test_a_file_that_may_not_be_read():
    root = os.getuid() == 0
    with folder_with(SHORT) as folder:
        os.chmod(folder, 0o755)
        os.chmod(Path(folder) / "rights.rbk", 0)
        try:
            out, err = run(None, SHORT_EVENTS, folder=folder, **({"user": NOBODY, "group": NOBODY, "extra_groups": []} if root else {}))
        except PermissionError:
            raise Skipped("the program cannot be started by another user here") from None
    same(out, "20\n", "standard output")
    contains(err, "rights.rbk: Permission denied", "standard error")


def test_the_longest_image_and_one_byte_more():
    same(len(LONG), 5399, "length of the image")
    same(run(LONG, LONG_EVENTS[:2 * RECORD])[0], rights.run(LONG, LONG_EVENTS[:2 * RECORD]), "the longest image")
    for more in (1, 2, 5000):
        out, err = run(LONG + bytes(more), LONG_EVENTS[:2 * RECORD])
        same(out, "20\n", f"{more} bytes more")
        same(err, "", "standard error")


def test_the_longest_image_of_older_versions_and_one_byte_more():
    for version, length in ((1, 3979), (2, 4815), (3, 4879), (4, 5391)):
        old = rights.write(rights.read(LONG)[1], version)
        same(len(old), length, "length of the image")
        events = LONG_EVENTS[:200 * RECORD]
        same(run(old, events)[0], rights.run(old, events), f"the longest image of version {version}")
        for more in (1, len(LONG) - len(old), 5000):
            same(run(old + bytes(more), LONG_EVENTS[:2 * RECORD])[0], "20\n", f"{more} bytes more")


def test_the_last_record_cut_short():
    for length in (1, 13, 16):
        out, err = run(SHORT, SHORT_EVENTS[:RECORD + length])
        same(out, rights.run(SHORT, SHORT_EVENTS[:RECORD]) + "6 255 0\n", f"{length} bytes")
        same(err, "", "standard error")


# ---- Wrong invocations

def test_an_argument():
    for arguments in (["rights.rbk"], ["--help"], [""], ["a", "b"]):
        out, err = run(SHORT, SHORT_EVENTS, arguments)
        same(out, "", "standard output")
        contains(err, "run takes no argument", "standard error")
        same(err.count("\n"), 1, "lines on standard error")


def test_a_full_standard_output():
    for image in (SHORT, None):
        with folder_with(image) as folder, open("/dev/full", "wb") as full:
            done = subprocess.run([PROGRAM], input=SHORT_EVENTS, stdout=full, stderr=subprocess.PIPE, cwd=folder, timeout=LIMIT)
        same(done.stderr.decode(), "standard output: No space left on device\n", "standard error")


def test_a_folder_for_standard_input():
    with folder_with(SHORT) as folder:
        handle = os.open(folder, os.O_RDONLY)
        done = subprocess.run([PROGRAM], stdin=handle, capture_output=True, cwd=folder, timeout=LIMIT)
        os.close(handle)
    same(done.stdout, b"", "standard output")
    same(done.stderr.decode(), "standard input: Is a directory\n", "standard error")


def main():
    passed = failed = 0
    for name, test in list(globals().items()):
        if not name.startswith("test_"):
            continue
        words = name[5:].replace("_", " ")
        try:
            test()
            passed += 1
        except Skipped as reason:
            print(f"skipped: {words}: {reason}")
        except Exception as error:
            failed += 1
            print(f"failed: {words}: {type(error).__name__}: {error}")
    print(f"{passed} passed, {failed} failed")
    sys.exit(failed != 0)


if __name__ == "__main__":
    main()
