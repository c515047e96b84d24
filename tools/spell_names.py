#!/usr/bin/env python3
"""Spells this repository's own definitions and lemmas as the installed Rattle spells its library, once, after its port.py.

usage: python3 tools/spell_names.py       at the top of the repository

Words are in snake case: a declared name such as grantLength becomes grant_length, in each part between dashes; a dash that joins two
names of a lemma stays. Types and modules keep their capitals. Where a lemma would then have its definition's name, it ends in _lem.
Functions of src/, exported names, strings, inputs and outputs keep their names. Pages and edits take the new names too.
"""

import re
from pathlib import Path

# Definitions that were written with dashes.
WORDS = """where-flagged lent-image result-is events-run legal-run image-run text-run last-again too-late ending-spanned both-prints
two-prints""".split()
# Lemmas that would have the name of a definition or a field, each with its crate: elsewhere the name may be a function's.
LEMMAS = {"embed": ["code_by", "no_answer"], "metering": ["no_line"], "model": """entries_from number_by reads_as same_number starts_from
step_typed taken_back too_short""".split()}

MARKS = r"(?:(?:pattern|unfoldable|abbrev|pub|record|data|axiom) )*"
DECLARED = re.compile(rf"^[ ]*{MARKS}([^\s(){{}}.;,@\"«»]+)((?: \{{[^{{}}\n]*\}})*(?: \([^()\n]*\))*)? :(?!:)", re.M)
END = r"(?![\w'′·-])"
LITERAL = re.compile(r'//[^\n]*|b?"(?:[^"\\]|\\.)*"|b?\'(?:[^\'\\\n]|\\.)\'', re.S)


def in_snake_case(name):
    def one(part):
        return re.sub(r"(?<=[a-z0-9])[A-Z]+", lambda m: "_" + m[0].lower(), part) if re.match("[a-z]", part) else part
    return "-".join(one(part) for part in name.split("-"))


def sources():
    for path in sorted(Path("crates").rglob("*")):
        if path.suffix in (".rt", ".antt") and "out" not in path.parts:
            yield path


def main():
    table = {name: name.replace("-", "_") for name in WORDS}
    for path in sources():
        if path.suffix == ".antt":
            for found in DECLARED.finditer(path.read_text()):
                if in_snake_case(found[1]) != found[1]:
                    table[found[1]] = in_snake_case(found[1])
    one_of = re.compile(rf"(?<![\w'′·-])(?:{'|'.join(sorted(map(re.escape, table), key=len, reverse=True))}){END}")
    lemma = re.compile(rf"(?<![\w'′·-])(?:{'|'.join(name for names in LEMMAS.values() for name in names)}){END}")

    def spelled(text):
        return one_of.sub(lambda m: table[m[0]], text)

    def in_proofs(path, text):
        own = LEMMAS.get(path.parts[1], [])
        return spelled(lemma.sub(lambda m: m[0] + "_lem" if m[0] in own else m[0], text))

    def in_code(text):
        out, at = [], 0
        for found in LITERAL.finditer(text):
            out.append(spelled(text[at:found.start()]))
            out.append(spelled(found[0]) if found[0].startswith("//") else found[0])
            at = found.end()
        return "".join(out) + spelled(text[at:])

    known = {name for path in sources() if path.suffix == ".antt" for name in (found[1] for found in DECLARED.finditer(path.read_text()))} | set(table.values())
    camel = re.compile(rf"(?<![\w'′·-])[a-z][a-z0-9]*[A-Z][\w'-]*{END}")

    def in_page(text):
        """Pages and edits have names too that port.py has respelled in the crates."""
        return camel.sub(lambda m: in_snake_case(m[0]) if in_snake_case(m[0]) in known else m[0], spelled(text))

    count = 0
    pages = [Path("README.md"), *sorted(Path("docs").glob("*.md"))]
    edits = [*sorted(Path("crates").glob("*/must-fail/*.edit")), *sorted(Path("edits").glob("*/*.edit"))]
    for path in [*sources(), *pages, *edits]:
        text = path.read_text()
        new = in_code(text) if path.suffix == ".rt" else in_proofs(path, text) if path.suffix == ".antt" else in_page(text)
        if new != text:
            path.write_text(new)
            count += 1
    print(f"{len(table)} names, {count} files")


main()
