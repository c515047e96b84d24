#!/usr/bin/env python3
"""Tries the edits that the gate leaves out for time: tools/edits.py [CRATE ...]
Says whether every edit still fits, in a second and without the prover: tools/edits.py --fit [ROOT]

Each edits/CRATE/NAME.edit is an edit of crates/CRATE that the prover must refuse, in the form of those of crates/CRATE/must-fail,
which the gate tries. In a copy of the crates, in a folder of its own, they stand in place of these, and `rt must-fail` tries them there.
What the crates' folders out/ keep as proved is not proved again. The exit status is that of `rt must-fail`: 0 if all are refused.

--fit is of both sorts, of this repository or of the one at ROOT. An edit fits by the rule of `rt must-fail`: each `file:` names a file
of its crate, and each `old:` text stands in it exactly once, the pairs before it being made. Misfits are printed, each with its file and
the reason; the last line is `N fit, M do not`, and the exit status is 1 if any does not.
"""

import shutil
import subprocess
import sys
import tempfile
from pathlib import Path

ROOT = Path(__file__).resolve().parent.parent
EDITS = ROOT / "edits"


def misfit(crate, edit):
    """Why an edit of a crate's folder does not fit, or None; read line by line as `rt must-fail` does."""
    texts, name, old, pairs = {}, "", "", 0
    for line in edit.read_text().split("\n"):
        if line.startswith("file: "):
            name = line.removeprefix("file: ")
        elif line.startswith("old: "):
            old = line.removeprefix("old: ")
        elif line.startswith("new:"):
            new = line.removeprefix("new:").removeprefix(" ")
            parts = name.split("/")
            if parts[0] not in ("src", "specs", "proofs") or ".." in parts:
                return f"`file: {name}` names no file under src/, specs/ or proofs/"
            if name not in texts:
                if not (crate / name).is_file() or (crate / name).is_symlink():
                    return f"{name} is no file of the crate"
                texts[name] = (crate / name).read_text()
            before, found, after = texts[name].partition(old) if old else ("", "", "")
            if not found:
                return f"not in {name}: `{old.strip()}`"
            if old in after:
                return f"more than once in {name}: `{old.strip()}`"
            texts[name] = before + new + after
            old, pairs = "", pairs + 1
    return None if pairs else "it has no `old:` and `new:` pair"


def fit(root):
    """The exit status of --fit."""
    every = [(path.parent.parent, path) for path in sorted((root / "crates").glob("*/must-fail/*.edit"))]
    every += [(root / "crates" / path.parent.name, path) for path in sorted((root / "edits").glob("*/*.edit"))]
    reasons = [(path, misfit(crate, path)) for crate, path in every]
    wrong = [(path, reason) for path, reason in reasons if reason]
    for path, reason in wrong:
        print(f"{path.relative_to(root)}: {reason}")
    print(f"{len(every) - len(wrong)} fit, {len(wrong)} do not")
    return 1 if wrong else 0


def main(names):
    known = sorted(path.name for path in EDITS.iterdir() if path.is_dir())
    for name in names:
        if name not in known:
            sys.exit(f"there are no edits of `{name}`; there are some of: {', '.join(known)}")
    names = names or known
    with tempfile.TemporaryDirectory(prefix="edits-") as folder:
        copy = Path(folder)
        shutil.copytree(ROOT / "crates", copy / "crates", ignore=shutil.ignore_patterns("must-fail"))   # with what out/ keeps as proved
        shutil.copy(ROOT / "crates.txt", copy)
        for name in names:
            shutil.copytree(EDITS / name, copy / "crates" / name / "must-fail")
        return subprocess.run(["rt", "must-fail", *names], cwd=copy).returncode


if __name__ == "__main__":
    if sys.argv[1:2] == ["--fit"]:
        sys.exit(fit(Path(sys.argv[2]).resolve() if sys.argv[2:] else ROOT))
    sys.exit(main(sys.argv[1:]))
