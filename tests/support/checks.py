"""What the tests of the tools share: counting, calls of tools/book.py with what they print and leave, the book after a day."""

import subprocess
import sys
from pathlib import Path

ROOT = Path(__file__).resolve().parent.parent.parent
TOOL = ROOT / "tools" / "book.py"
AFTERNOON = ROOT / "examples" / "afternoon"
METERED = ROOT / "examples" / "metered"
OBJECTS = ROOT / "examples" / "rights"
sys.path.insert(0, str(ROOT / "tools"))
sys.path.insert(0, str(ROOT / "oracle"))
import rights  # noqa: E402

passed = failed = 0


def check_all(name, parts):
    """One test of many parts, each with whether it holds and what it is about."""
    wrong = [detail for ok, detail in parts if not ok]
    check(name, not wrong, "; ".join(map(str, wrong[:3])))


def check(name, ok, detail=""):
    global passed, failed
    if ok:
        passed += 1
    else:
        failed += 1
        print(f"FAILED: {name}\n    {detail}" if detail else f"FAILED: {name}", flush=True)


def finish():
    """Prints how many tests there were; ends with status 1 if one failed."""
    print(f"{passed} passed, {failed} failed")
    sys.exit(1 if failed else 0)


class Done:
    """What a call of book.py did."""

    def __init__(self, done):
        self.status, self.out, self.err = done.returncode, done.stdout, done.stderr.decode(errors="replace")

    def __repr__(self):
        return f"status {self.status}, out {self.out[:300]!r}, err {self.err[:600]!r}"


def call(*args, stdin=b"", tool=TOOL, **how):
    command = [sys.executable, str(tool), *map(str, args)]
    try:
        return Done(subprocess.run(command, input=stdin, capture_output=True, timeout=60, **how))
    except subprocess.TimeoutExpired:
        return Done(subprocess.CompletedProcess(command, None, b"", b"not ended after 60 seconds"))


def refused(name, fragment, *args, **how):
    """The call ends with status 2, prints nothing on standard output, and gives this message, plainly."""
    done = call(*args, **how)
    plain = "Traceback" not in done.err and len(done.err) < 600 and 0 < done.err.count("\n") <= 3
    check(name, done.status == 2 and done.out == b"" and fragment in done.err and plain, f"wanted `{fragment}`, got {done}")
    return done


def listing(folder):
    """Every file in the folder and below it, with its bytes."""
    return {str(path.relative_to(folder)): path.read_bytes() for path in folder.rglob("*") if path.is_file()}


def changes_nothing(name, fragment, folder, *args):
    """The call is refused, and every file of the folder is as it was."""
    before = listing(folder)
    done = refused(name, fragment, *args)
    check(f"{name}: everything is as it was", listing(folder) == before, sorted(listing(folder)))
    return done


def image_after(image, events):
    """The image after these events, by the second program."""
    book = rights.read(image)[1]
    lines = rights.zeros(book)
    for record in rights.records_in(events):
        rights.answer_record(book, record, lines)
    return rights.write(book)
