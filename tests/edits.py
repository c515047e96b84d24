#!/usr/bin/env python3
"""Tests of tools/edits.py --fit: every edit that must be refused fits the file that it names, and one that does not is told.

    python3 tests/edits.py

Without the prover, in a second or two. The last line is `N passed, M failed`; the exit status is 1 if anything failed.
"""

import shutil
import subprocess
import sys
import tempfile
from pathlib import Path

ROOT = Path(__file__).resolve().parent.parent
TOOL = ROOT / "tools" / "edits.py"
SOURCE = "fn one() -> u8 {\n    let a = 1;\n    a\n}\n\nfn two() -> u8 {\n    let b = 1;\n    let c = 1;\n    b + c\n}\n"
passed = failed = 0


def check(name, ok, detail=""):
    global passed, failed
    if ok:
        passed += 1
    else:
        failed += 1
        print(f"FAILED: {name}\n    {detail}" if detail else f"FAILED: {name}")


def fit(root):
    """The exit status of --fit on the repository at root, and the lines that it prints."""
    done = subprocess.run([sys.executable, TOOL, "--fit", root], capture_output=True, text=True)
    return done.returncode, done.stdout.splitlines() + done.stderr.splitlines()


def edit(*lines):
    return "".join(f"{line}\n" for line in ("Some wrong server.", *lines))


# name of an edit, its lines, and what is said of it; nothing where it fits
EDITS = [
    ("one_place", ["file: src/lib.rt", "old:     let a = 1;", "new:     let a = 2;"], ""),
    ("two_places", ["file: src/lib.rt", "old: let b = 1;", "new: let b = 2;", "old: let c = 1;", "new: let c = 2;"], ""),
    ("once_after_the_first", ["file: src/lib.rt", "old: let b = 1;", "new: let b = 2;", "old: b = 2;", "new: b = 3;"], ""),
    ("line_removed", ["file: src/lib.rt", "old:     a", "new:"], ""),
    ("missing", ["file: src/lib.rt", "old: let d = 1;", "new: let d = 2;"], "not in src/lib.rt: `let d = 1;`"),
    ("missing_after_one", ["file: src/lib.rt", "old: let a = 1;", "new: let a = 2;", "old: let a = 1;", "new: let a = 3;"],
     "not in src/lib.rt: `let a = 1;`"),
    ("twice", ["file: src/lib.rt", "old:  = 1;", "new:  = 2;"], "more than once in src/lib.rt: `= 1;`"),
    ("no_such_file", ["file: src/main.rt", "old: let a = 1;", "new: let a = 2;"], "src/main.rt is no file of the crate"),
    ("outside", ["file: src/../../../crates.txt", "old: a", "new: b"], "names no file under src/, specs/ or proofs/"),
    ("another_folder", ["file: must-fail/one_place.edit", "old: Some", "new: No"], "names no file under src/, specs/ or proofs/"),
    ("no_pair", ["file: src/lib.rt"], "it has no `old:` and `new:` pair"),
]


def small(root):
    """A repository of one crate, and each edit in it: tried by the gate, then beyond it."""
    (root / "crates" / "x" / "src").mkdir(parents=True)
    (root / "crates" / "x" / "src" / "lib.rt").write_text(SOURCE)
    for folder in ("crates/x/must-fail", "edits/x"):
        (root / folder).mkdir(parents=True)
        for name, lines, said in EDITS:
            path = root / folder / f"{name}.edit"
            path.write_text(edit(*lines))
            status, shown = fit(root)
            wanted = (1, "0 fit, 1 do not") if said else (0, "1 fit, 0 do not")
            check(f"{folder}/{name}: status and count", (status, shown[-1]) == wanted, shown)
            told = shown[0].startswith(f"{folder}/{name}.edit: ") and said in shown[0] if said else len(shown) == 1
            check(f"{folder}/{name}: reason", told, shown)
            path.unlink()


def copied(root):
    """The repository's own edits, in a copy with three more that do not fit."""
    for part in ("crates", "edits"):
        shutil.copytree(ROOT / part, root / part, ignore=shutil.ignore_patterns("data"))
    status, shown = fit(root)
    fitting = shown[-1].split()[0]
    check("the copy as it is", status == 0, shown)
    added = {
        "edits/rules/missing.edit": ("file: src/lib.rt", "old: no such line of this file", "new: another"),
        "crates/uses/must-fail/twice.edit": ("file: src/lib.rt", "old: let f = flags_of(l);", "new: let f = flags_of(m);"),
        "edits/model/no_such_file.edit": ("file: specs/Nowhere.antt", "old: a", "new: b"),
    }
    for path, lines in added.items():
        (root / path).write_text(edit(*lines))
    status, shown = fit(root)
    told = {line.split(":")[0] for line in shown[:-1]}
    check("three that do not fit", status == 1 and told == set(added) and shown[-1] == f"{fitting} fit, 3 do not", shown)


status, shown = fit(ROOT)
check("every edit of the repository fits", status == 0, "; ".join(shown))
for part in (small, copied):
    with tempfile.TemporaryDirectory() as folder:
        part(Path(folder))
print(f"{passed} passed, {failed} failed")
sys.exit(1 if failed else 0)
