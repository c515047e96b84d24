#!/usr/bin/env python3
"""Tests of the reader of XML rights objects: damaged and random texts, and the program `import` on files and pipes.

    python3 tests/texts.py [TEXTS]

TEXTS is how many damaged and random texts are tried (20,000 if not given). What must come out is from the second program,
oracle/xml_rights.py, and the list of oracle/texts.py. Builds target/bin/import and the library for C if they are missing. The
last line is `N passed, M failed`; the exit status is 1 if anything failed.
"""

import os
import shutil
import subprocess
import sys
import tempfile
import threading
import time
from pathlib import Path

ROOT = Path(__file__).resolve().parent.parent
sys.path.insert(0, str(ROOT / "oracle"))
import rights  # noqa: E402
import texts  # noqa: E402
import xml_rights  # noqa: E402

PROGRAM = ROOT / "target" / "bin" / "import"
LOG = ROOT / "target" / "tests" / "import-build.log"
LIMIT = 60                  # seconds that one reading may take
LONGEST = 4 * 1024 * 1024   # bytes of a text that the program takes
passed = failed = 0


def check(name, ok, detail=""):
    global passed, failed
    if ok:
        passed += 1
    else:
        failed += 1
        print(f"FAILED: {name}\n    {detail}" if detail else f"FAILED: {name}", flush=True)


def wanted(text):
    """(what stands on standard output, the line on standard error) for a text."""
    code, elements, book = xml_rights.read(text)
    return rights.write(book) if code == 0 else b"", f"{code} {elements}\n".encode()


def ask(text, **how):
    done = subprocess.run([PROGRAM], input=text, capture_output=True, timeout=LIMIT, **how)
    return done.stdout, done.stderr


def same(name, text, got=None):
    out, said = got or ask(text)
    right, line = wanted(text)
    check(name, (out, said) == (right, line),
          f"{len(out)} bytes and {said[:200]!r}, not {len(right)} bytes and {line!r}" + ("" if out == right else "; other bytes"))


# ---- Parts

def stored_texts():
    """Every fifth stored text, and all that the program might treat in a way of its own: short and long ones."""
    cases = texts.cases()
    chosen = [case for place, case in enumerate(cases) if place % 5 == 0 or len(case[1]) < 3 or len(case[1]) > 4000]
    for name, text, code, elements, book in chosen:
        out, said = ask(text)
        right = rights.write(book) if code == 0 else b""
        check(f"stored text: {name}", (out, said) == (right, f"{code} {elements}\n".encode()),
              f"{len(out)} bytes and {said[:200]!r}, not {len(right)} bytes and {code} {elements}")


def examples():
    for path in sorted((ROOT / "examples" / "rights").glob("*.xml")):
        text = path.read_bytes()
        check(f"{path.name} is accepted", xml_rights.read(text)[0] == 0)
        same(path.name, text)
        with open(path, "rb") as file:
            done = subprocess.run([PROGRAM], stdin=file, capture_output=True, timeout=LIMIT)
        same(f"{path.name} as a file", text, (done.stdout, done.stderr))


def empty_inputs():
    same("nothing", b"")
    done = subprocess.run([PROGRAM], stdin=subprocess.DEVNULL, capture_output=True, timeout=LIMIT)
    same("/dev/null", b"", (done.stdout, done.stderr))
    same("a zero byte", b"\0")
    same("white space only", b" \n\t\r")


def in_pieces(text, sizes, pause=0.0):
    """What comes out when the text arrives in pieces through a pipe."""
    child = subprocess.Popen([PROGRAM], stdin=subprocess.PIPE, stdout=subprocess.PIPE, stderr=subprocess.PIPE, bufsize=0)

    def feed():
        at = 0
        try:
            for size in sizes(len(text)):
                child.stdin.write(text[at:at + size])
                at += size
                time.sleep(pause)
                if at >= len(text):
                    break
            child.stdin.close()
        except BrokenPipeError:
            pass

    writer = threading.Thread(target=feed)
    writer.start()
    heard = threading.Thread(target=lambda: results.append(child.stderr.read()))
    results = []
    heard.start()
    out = child.stdout.read()
    heard.join(LIMIT)
    writer.join(LIMIT)
    child.wait(LIMIT)
    child.stdout.close()
    child.stderr.close()
    return out, b"".join(results)


def pipes():
    text = (ROOT / "examples" / "rights" / "pack.xml").read_bytes()
    same("a byte at a time", text, in_pieces(text, lambda length: [1] * length))
    same("pieces of 7 bytes", text, in_pieces(text, lambda length: [7] * length))
    same("two pieces with a pause", text, in_pieces(text, lambda length: [length // 2, length], 0.2))
    same("the last byte late", text, in_pieces(text, lambda length: [length - 1, 1], 0.2))
    long = texts.keyed("x" * 300_000).encode()
    same("pieces of 4,097 bytes of a long text", long, in_pieces(long, lambda length: [4097] * length))
    refused = b"<a>" + long
    same("a text refused at its start, the rest still to come", refused, in_pieces(refused, lambda length: [5000] * length))


def long_texts():
    for name, size in (("a megabyte", 1_000_000), ("65,537 bytes", 65_537), ("65,536 bytes", 65_536), ("65,535 bytes", 65_535)):
        frame = len(texts.keyed(""))
        same(f"a key of {name}", texts.keyed("k" * (size - frame)).encode())
    frame = len(texts.BARE)
    for name, size in (("4 MB", LONGEST), ("4 MB less a byte", LONGEST - 1)):
        same(f"white space up to {name}", texts.BARE.encode() + b" " * (size - frame))
    same("a fault in the last byte of 4 MB", texts.BARE.encode() + b" " * (LONGEST - frame - 1) + b"x")
    same("a fault in the first byte of 4 MB", b"x" * LONGEST)
    same("a key of 4 MB", texts.keyed("k" * (LONGEST - len(texts.keyed("")))).encode())
    message = f"import: the text is longer than {LONGEST} bytes\n".encode()
    for name, text in (("a byte more", texts.BARE.encode() + b" " * (LONGEST + 1 - frame)),
                       ("twice as many bytes", texts.BARE.encode() + b" " * (2 * LONGEST - frame)),
                       ("a byte more, refused at its start", b"x" * (LONGEST + 1))):
        out, said = ask(text)
        check(f"{name} than 4 MB: a message, no code and no image", (out, said) == (b"", message), f"{len(out)} bytes, {said[:200]!r}")
    with open("/dev/zero", "rb") as zeros:
        done = subprocess.run([PROGRAM], stdin=zeros, capture_output=True, timeout=LIMIT)
    check("a text without end", (done.stdout, done.stderr) == (b"", message), f"{len(done.stdout)} bytes, {done.stderr[:200]!r}")


def arguments():
    """An argument is refused with a line on how to use the program, and nothing is read."""
    text = (ROOT / "examples" / "rights" / "film.xml").read_bytes()
    for words in (["film.xml"], ["--help"], [""], ["a", "b"]):
        done = subprocess.run([PROGRAM, *words], input=text, capture_output=True, timeout=LIMIT)
        check(f"arguments {words}", done.stdout == b"" and done.stderr.startswith(b"import takes no argument.")
              and done.stderr.endswith(b"import < rights.xml > rights.rbk\n") and done.stderr.count(b"\n") == 1, done)


def bad_files():
    """A text that cannot be read, or an image that cannot be written whole, gets a line that says so and no code."""
    text = (ROOT / "examples" / "rights" / "film.xml").read_bytes()
    with open("/dev/full", "wb") as full:
        done = subprocess.run([PROGRAM], input=text, stdout=full, stderr=subprocess.PIPE, timeout=LIMIT)
    check("a full disk", done.stderr == b"standard output: No space left on device\n", done)
    folder = os.open(ROOT, os.O_RDONLY)
    done = subprocess.run([PROGRAM], stdin=folder, capture_output=True, timeout=LIMIT)
    os.close(folder)
    check("a folder for a text", (done.stdout, done.stderr) == (b"", b"standard input: Is a directory\n"), done)
    closed = subprocess.run(["sh", "-c", f"{PROGRAM} <&-"], capture_output=True, timeout=LIMIT)
    check("standard input closed", (closed.stdout, closed.stderr) == (b"", b"standard input: Bad file descriptor\n"), closed)
    with tempfile.TemporaryDirectory() as folder:
        where = Path(folder) / "rights.rbk"
        with open(where, "wb") as file:
            subprocess.run([PROGRAM], input=text, stdout=file, stderr=subprocess.DEVNULL, timeout=LIMIT)
        check("the image in a file is read back", rights.read(where.read_bytes()) == (0, xml_rights.read(text)[2]))


def hostile_texts():
    """Nothing that a text can do takes more than the stack of 8 MB that a program has by default."""
    for name, text in (("deep", texts.keyed("<a>" * 100_000)), ("deep, in an element that is not accepted", "<a>" * 1_000_000),
                       ("many attributes", texts.keyed("<a " + " ".join(f"b{i}=''" for i in range(2000)) + "/>")),
                       ("many elements", texts.keyed("<a/>" * 500_000)), ("marks", texts.keyed("<!" * 500_000))):
        same(f"hostile: {name}", text.encode())


def damaged_texts(count):
    command = [sys.executable, str(ROOT / "oracle" / "text_fuzz.py"), str(count)]
    done = subprocess.run(command, capture_output=True, text=True, timeout=1100)
    print(done.stdout.strip())
    check(f"{count} damaged and random texts", done.returncode == 0, (done.stdout + done.stderr).strip()[-1000:])


def build():
    """Builds the program import; ends the test where that fails."""
    if shutil.which("rt") is None:
        sys.exit("rt, the command of the Rattle kit, is not found; it is needed to build the programs")
    LOG.parent.mkdir(parents=True, exist_ok=True)
    with open(LOG, "w") as log:
        done = subprocess.run([sys.executable, "tools/build", "import"], cwd=ROOT, stdin=subprocess.DEVNULL, stdout=log, stderr=log)
    if done.returncode != 0 or not os.access(PROGRAM, os.X_OK):
        print(f"the program import was not built; what the prover said is in {LOG.relative_to(ROOT)}")
        print("0 passed, 1 failed")
        sys.exit(1)


def main():
    count = int(sys.argv[1]) if len(sys.argv) > 1 else 20_000
    build()
    for part in (stored_texts, examples, empty_inputs, pipes, long_texts, arguments, bad_files, hostile_texts):
        part()
    damaged_texts(count)
    print(f"{passed} passed, {failed} failed")
    sys.exit(1 if failed else 0)


if __name__ == "__main__":
    main()
