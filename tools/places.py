#!/usr/bin/env python3
"""Counts the places in crates/*/src whose form today's Rattle has a better one for: tools/places.py [-v] [FOLDER]

Prints a line for each form of the seven points of docs/DESIGN-PASS.md that are about code, with -v each place too. FOLDER is another
checkout to count in. It goes by text, so a place that is kept, with its reason beside it, counts too.
"""

import re
import sys
from pathlib import Path

# Point, what it is, and the text that shows it. A form with a second text counts a function only if that stands in its body.
FORMS = [
    (1, "a flag or a code beside a value", r"^ {4}(pub )?(code: u8|(valid|there|more|done|good|accepted|usable): bool),"),
    (1, "an own enum with a refusal's number", r"^ {4}\w+\(u8\),"),
    (1, "a function that returns a refusal's number, or 0", r"^\s*(pub )?fn (?!places).*-> (u8|usize)$", r"\breturn (2[0-7]|3[01]|4[0-4]|1[0-5]|[1-6]);|\.code;|\{ 0 \} else \{ 14 \}|NO_ROOM"),
    (1, "a refusal by its number", r"\b(refus\w*|kept|turned_away|Invalid|Refuse|pick_code)\((\w+(\.\w+)*, )*\d+[,)]|: 4[0-2],$|return (2[0-7]|3[01]|1[0-5]|43);"),
    (1, "a test of a code", r"\bcode (==|!=) \d"),
    (1, "a number that stands for none", r"=> 64,|\{ 64 \}|at: 64|return 64;|ROW_COUNT( <=|$)|: NO_POSITION|, NO_POSITION\)|[=(,] ?NEVER\b|\bfrom == 0\b|0 < (id|value)\.from|from: 0, to: 0|\bif (k|w|at|place) < 64 \{|parent == 0|parent: 0|<= \w+ \{ return 0"),
    (1, "a kind, role, class or form as a number", r"^(pub )?const (?!MOST|NO_ROOM|ROW_COUNT)[A-Z_]+: u8 = \d+;|\b(kind|operation|form|role|class): u8\b|\bname: u8\b|\bform: \d,"),
    (2, "a function beside which another differs in a type, size or constant", None),
    (3, "a loop that counts by hand", r"^\s*while |^\s*loop \{"),
    (4, "a comparison, copy or conversion by hand", r"fn (same|equal|same_(line|lines|book|bytes|range)|join\d+|four_\w+|kind_of|kind_number|request_of|wire_of)\b|/ (256|65536|16777216|4294967296)( / \d+)? % 256\) as u8|^\s*\w+\[(at \+ )?\w+\] = \w+\[(\w+ \+ )?\w+\];"),
    (4, "a bound or a difference by hand", r"(?<!\.)\b(min_size|min_time|min_wide|lesser|saturating_sub|less)\("),
    (5, "parameters that travel together", r"\bl: Limits, m: Meters\b|lines: \[Line; 64\], lent: usize|lines: \[Line; 64\], count: usize|^\s*lent: usize,$|role: u8, state: u8|player: u8, number: u64|^\s*number: u64,$|s: &\[u8\], a: usize, b: usize"),
    (6, "a table or a buffer with a length beside", r"(?<!const )\[(Asset|Entry); 64\], (n|count|assetcount): (u8|usize)|^\s*(assetcount|assets): .*,$|buf: &\[u8\]\)|, n: usize\b|^\s*n: usize,$|^ {4}pub count: u(8|16),$|\[u8; 192\]"),
    (7, "a switch on which step to run", r"^\s*if \(?role == "),
]

HEAD = re.compile(r"^\s*(pub )?(const )?fn (\w+)")


def functions(text):
    """Each function: its name, its first line, its body's lines."""
    lines = text.split("\n")
    starts = [i for i, line in enumerate(lines) if HEAD.match(line)]
    for i, start in enumerate(starts):
        end = starts[i + 1] if i + 1 < len(starts) else len(lines)
        body = []
        for line in lines[start:end]:
            body.append(line)
            if re.match(r"^ {0,4}\}$", line):
                break
        yield HEAD.match(lines[start]).group(3), start, body


def shape(body):
    """A body without its name, clauses, types, sizes and numbers."""
    kept = [line for line in body if not re.match(r"^\s*(ensures|requires|//)", line)]
    text = re.sub(r"^(\s*)(pub )?fn \w+", r"\1fn", "\n".join(kept))
    text = re.sub(r"\b(u8|u16|u32|u64|usize|bool|[A-Z]\w*)\b|\b\d+\b|b\"[^\"]*\"", "_", text)
    text = re.sub(r"\b\w*?_?(asset|entry|player|assets|entries|players|meters|limits)\w*\b", "_", text)
    words = {}
    return re.sub(r"[a-z]\w*", lambda m: words.setdefault(m.group(), f"w{len(words)}") if m.group() not in ("fn", "let", "mut", "if", "else", "while", "for", "in", "return", "match", "as") else m.group(), re.sub(r"\s+", " ", text))


def places(root):
    sources = [(path, path.read_text()) for path in sorted(root.glob("crates/*/src/**/*.rt"))]
    shapes = {}
    for path, text in sources:
        for name, start, body in functions(text):
            if len(body) > 3:
                shapes.setdefault(shape(body), []).append((path, start + 1, name))
    for point, what, pattern, *inside in FORMS:
        found = []
        if pattern is None:
            for same in shapes.values():
                found += same[1:]
        else:
            for path, text in sources:
                lines = text.split("\n")
                if inside:
                    for name, start, body in functions(text):
                        head = " ".join(body[: next((i for i, line in enumerate(body) if "{" in line or "ensures" in line), 0) + 1])
                        if re.search(r"-> (u8|usize)\b", head) and any(re.search(inside[0], line) for line in body):
                            found.append((path, start + 1, name))
                else:
                    found += [(path, i + 1, line.strip()) for i, line in enumerate(lines) if re.search(pattern, line) and not line.strip().startswith("//")]
        yield point, what, found


def main(words):
    verbose = "-v" in words
    folders = [word for word in words if word != "-v"]
    root = Path(folders[0]) if folders else Path(__file__).resolve().parent.parent
    for point, what, found in places(root):
        print(f"{point}  {len(found):4}  {what}")
        if verbose:
            for path, line, text in found:
                print(f"         {path.relative_to(root)}:{line}: {text[:100]}")


if __name__ == "__main__":
    main(sys.argv[1:])
