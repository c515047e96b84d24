#!/usr/bin/env python3
"""Tests that the pages are true: the files and commands that they name are there, their commands do what they say, and none of them
loses what a user had.

    python3 tests/pages.py

The last line is `N passed, M failed`; the exit status is 1 if anything failed.
"""

import datetime
import importlib.machinery
import importlib.util
import os
import re
import shutil
import subprocess
import tempfile
from pathlib import Path

from support.checks import ROOT, call, check, check_all, finish, listing

import rights
from books import library

PAGES = [ROOT / "README.md", *sorted((ROOT / "docs").glob("*.md")), ROOT / "examples" / "README.md", ROOT / "oracle" / "README.md"]
SCRIPTS = [path for folder in ("tests", "oracle", "embed", "embed/tests", "bench", "tools", "tools/books", "examples")
           for path in sorted((ROOT / folder).iterdir()) if path.is_file() and path.suffix in ("", ".py", ".sh")]
FOLDERS = "crates|tools|tests|oracle|embed|bench|examples|docs|edits"


def module(path):
    """A script that has no .py at its end, or that is no module's name."""
    loader = importlib.machinery.SourceFileLoader(f"script_{path.stem}", str(path))
    made = importlib.util.module_from_spec(importlib.util.spec_from_loader(loader.name, loader))
    loader.exec_module(made)
    return made


# ---- What the pages name

def is_there(name):
    """A file or folder, perhaps without the end of its name; a part of a crate; or an edit, named by its crate."""
    crate, _, rest = name.partition("/")
    places = [f"{top}{name}{end}" for top in ("", "crates/") for end in ("", ".antt", ".rt", ".md", ".edit")]
    return any((ROOT / place).exists() for place in [*places, f"edits/{name}.edit", f"crates/{crate}/must-fail/{rest}.edit"])


def test_files_are_there():
    """Every path that stands on a page, or at the head of a script of tools/, is one of the repository."""
    texts = {path: path.read_text() for path in PAGES}
    texts |= {path: path.read_text().split('"""')[1] for path in SCRIPTS if path.parent == ROOT / "tools" and '"""' in path.read_text()}
    parts = []
    for page, text in texts.items():
        for found in re.finditer(rf"(?<![\w/.-])((?:{FOLDERS})/[\w./-]*\w)", text):
            stands_for_others = text[found.end():found.end() + 1] in ("*", "_", "{") or re.search(r"/\.\.|NAME|/crate/|/CRATE", found[1])
            parts.append((is_there(found[1]) or stands_for_others, f"{page.relative_to(ROOT)}: {found[1]}"))
    check("pages: many paths are named", len(parts) > 200, len(parts))
    check_all("pages: the files that they name are there", parts)


def test_commands_are_there():
    commands = module(ROOT / "tools" / "book.py").COMMANDS
    parts = []
    for page in PAGES:
        for name in re.findall(r"book\.py ([a-z]+)", page.read_text()):
            parts.append((name in commands or name in ("and", "is"), f"{page.relative_to(ROOT)}: book.py {name}"))
    check("pages: many commands are named", len(parts) > 50, len(parts))
    check_all("pages: the commands that they name are there", parts)
    shown = call("--help").out.decode()
    check_all("--help lists every command", [(f"tools/book.py {name} " in shown, name) for name in commands])


def test_programs_are_built():
    """tests/all builds every program of target/bin that a script calls."""
    called = set()
    for path in SCRIPTS:
        called |= set(re.findall(r'(?:target/bin/|\.\./bin/|"bin" / ")(\w+)', path.read_text(errors="replace")))
    built = set(module(ROOT / "tests" / "all").PROGRAMS)
    check("tests/all builds every program that is called", called - {"rattle", "rt"} == built and len(built) > 2, (called, built))
    check("tests/all gives a part time to build", module(ROOT / "tests" / "all").SECONDS >= 3600)


def test_each_once():
    """A row of docs/TRUST.md names no crate twice, and no crate or file has two rows in one table."""
    parts = []
    for table in re.findall(r"(?:^\|.*\n)+", (ROOT / "docs" / "TRUST.md").read_text(), re.M):
        firsts = [row.split("|")[1].strip() for row in table.splitlines()[2:]]
        single = [first for first in firsts if re.fullmatch(r"`[\w/.]+`", first)]
        parts += [(single.count(first) == 1, f"{first} has two rows") for first in single]
        for first in firsts:
            names = re.findall(r"`(\w+)`", first) if re.match(r"(`[\w*]+`(, |$|\s*\())+", first) else []
            parts.append((len(names) == len(set(names)), first))
    check("TRUST: there are tables", len(parts) > 150, len(parts))
    check_all("TRUST: nothing is listed twice", parts)


# ---- What they advise

def test_no_page_loses_a_day():
    """The server is started by tools/serve, and a book made by book.py import: a redirection empties its file before anything is read."""
    for page in PAGES:
        text, name = page.read_text(), page.relative_to(ROOT)
        check(f"{name}: no tee", not re.search(r"\btee\b", text))
        check(f"{name}: no import by redirection", "target/bin/import <" not in text and not re.search(r"target/bin/import[^`|]*>", text))
        check(f"{name}: no run on a pipe", not re.search(r"\| *(\S*/)?target/bin/run", text))
        check(f"{name}: no next book moved by hand", not re.search(r"\bmv \S+\.rbk", text))
    for page, words in (("README.md", "tools/serve"), ("docs/ANSWERS.md", "tools/serve"), ("examples/README.md", "tools/serve"),
                        ("README.md", "book.py close"), ("docs/ANSWERS.md", "book.py close")):
        check(f"{page} names {words}", words in (ROOT / page).read_text())


def test_the_sums_are_the_library_s():
    for name, text in (("--help", call("--help").out.decode()), ("examples/README.md", (ROOT / "examples" / "README.md").read_text()),
                       ("oracle/README.md", (ROOT / "oracle" / "README.md").read_text())):
        check(f"{name}: no word that the sums are the second program's",
              not re.search(r"[Ss]ums[^.]*second\s+program|add up the report", text))
    check("--help: the sums are the library's", re.search(r"Its sums are those\s+of the proved library", call("--help").out.decode()))


def test_run_exits_with_0(folder):
    """As README says, whatever happens."""
    check("README: the exit status of run", "Its exit status is always 0" in (ROOT / "README.md").read_text())
    run = ROOT / "target" / "bin" / "run"
    with open("/dev/full", "wb") as full:
        statuses = [subprocess.run([run], cwd=folder, input=b"", capture_output=True).returncode,
                    subprocess.run([run, "word"], cwd=folder, input=b"", capture_output=True).returncode,
                    subprocess.run([run], cwd=folder, stdin=subprocess.DEVNULL, stdout=full, stderr=subprocess.PIPE).returncode]
    check("run exits with 0", statuses == [0, 0, 0], statuses)


# ---- Their commands, as they are printed

def copied(folder):
    """The repository as a user has it, with what is built beside it."""
    root = folder / "repository"
    for part in ("tools", "oracle", "examples", "embed"):
        shutil.copytree(ROOT / part, root / part, ignore=shutil.ignore_patterns("__pycache__"))
    for part in ("crates", "target"):
        (root / part).symlink_to(ROOT / part)
    return root


def commands_of(page, title):
    """The indented lines that begin with a program, under a heading, without what is said behind them."""
    part = page.read_text().partition(f"\n## {title}\n")[2].partition("\n## ")[0]
    assert part, title
    return [re.split(r"  +", line[4:])[0] for line in part.splitlines() if re.match(r"    (\.\./\.\./|tools/|target/|mkdir|cp )", line)]


def run_page(name, commands, where, folder, stdin=b""):
    for line in commands:
        line = line.replace("/tmp/", f"{folder}/").replace("DATE", "????-??-??" if "events-" not in line else today())
        done = subprocess.run(["bash", "-ec", line], cwd=where, input=stdin, capture_output=True, text=False)
        status = (0, 1) if " diff " in line else (0,)
        check(f"{name}: {line.replace(str(folder), '')}", done.returncode in status and b"Traceback" not in done.stderr, done)


def today():
    return f"{datetime.datetime.now(datetime.timezone.utc):%Y-%m-%d}"


def test_examples(folder):
    root, page = copied(folder), ROOT / "examples" / "README.md"
    before = listing(root / "examples")
    afternoon = [re.split(r"  +", line[4:])[0] for line in page.read_text().partition("\n## ")[0].splitlines()
                 if line.startswith("    ../../")]
    check("examples: the commands of the afternoon", len(afternoon) == 5, afternoon)
    run_page("examples", afternoon, root / "examples" / "afternoon", folder)
    run_page("metered", commands_of(page, "A day with metering on"), root / "examples" / "metered", folder)
    run_page("shop", commands_of(page, "A day as in the shop"), root, folder, (root / "examples" / "metered" / "events.bin").read_bytes())
    shop = folder / "shop"
    check("shop: the bill is the example's", (shop / "closed-2026-12-24" / "bill-2026-12-24.txt").read_bytes()
          == (root / "examples" / "metered" / "bill.txt").read_bytes())
    run_page("rights", commands_of(page, "Rights objects as issuers send them"), root, folder)
    old = root / "examples" / "afternoon" / "old.bin"
    records = rights.records_in((root / "examples" / "afternoon" / "events.bin").read_bytes())
    old.write_bytes(b"".join(record[:1] + record[5:] for record in records))
    (folder / "events.bin").unlink(missing_ok=True)
    texts = commands_of(page, "From text to files and back")
    check("texts: the commands", len(texts) == 6, texts)
    run_page("texts", texts, root / "examples" / "afternoon", folder)
    old.unlink()
    check("examples: the shipped files are as they were", listing(root / "examples") == before)


def test_a_day_at_the_server(folder):
    for name, page, title in (("README", ROOT / "README.md", "The run program"),
                              ("ANSWERS", ROOT / "docs" / "ANSWERS.md", "A day at the server")):
        root = copied(folder)
        shutil.copy(root / "examples" / "metered" / "rights.rbk", root / "rights.rbk")
        commands = commands_of(page, title)
        check(f"{name}: the commands of a day", [line.split()[0] for line in commands] == ["tools/serve"] + ["tools/book.py"] * 3, commands)
        run_page(name, commands, root, folder, (root / "examples" / "metered" / "events.bin").read_bytes())
        check(f"{name}: the bill", (root / "closed-2026-12-24" / "bill-2026-12-24.csv").read_bytes()
              == (root / "examples" / "metered" / "bill.csv").read_bytes())
        if name == "ANSWERS":
            rows = re.findall(r"`(tools/book\.py (?:diff|explain) closed-DATE[^`]*)`", page.read_text())
            check("ANSWERS: the questions on a closed day", len(rows) == 2, rows)
            for line in rows:
                done = subprocess.run(["bash", "-c", line.replace("DATE", "2026-12-24")], cwd=root, capture_output=True, text=True)
                check(f"ANSWERS: {line}", done.returncode == (1 if " diff " in line else 0) and done.stderr == "" and done.stdout, done)
        shutil.rmtree(root)
    root = copied(folder)
    commands = commands_of(ROOT / "README.md", "A first book from an issuer's rights object")
    check("README: a first book", commands == ["tools/book.py import examples/rights/season.xml rights.rbk"], commands)
    run_page("README", commands, root, folder)
    image = (root / "rights.rbk").read_bytes()
    (root / "bad.xml").write_text("<o-ex:rights>")
    done = subprocess.run(["tools/book.py", "import", "bad.xml", "rights.rbk"], cwd=root, capture_output=True)
    check("README: a refused text leaves the book", done.returncode == 2 and (root / "rights.rbk").read_bytes() == image, done)


def main():
    library.build("after", "why", "read_texts")
    for name, test in list(globals().items()):
        if name.startswith("test_"):
            with tempfile.TemporaryDirectory() as folder:
                test(*[Path(os.path.realpath(folder))][:test.__code__.co_argcount])
    finish()


if __name__ == "__main__":
    main()
