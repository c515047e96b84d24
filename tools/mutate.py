#!/usr/bin/env python3
"""The mutation pass: single edits of code and definitions, each given to the prover in a copy of its crate.

    tools/mutate.py [--jobs N] [--sample K] [--seed S] [--run] [--list] CRATE|FILE ...

A CRATE stands for its code (bodies of the functions in src/*.rt), or, if it has none, for its definitions (right-hand sides in
specs/*.antt, not in folders below it, and not those that are statements). A FILE is one of the two: crates/model/specs/Gate.antt.
Contracts, types, comments and proofs are never edited.

The edits come from two tables of regular expressions, CODE and DEFINITIONS. --sample draws K of them for each name given, kinds of
edits and functions in turn; without it all are tried. --list only prints them. What the compiler does not take (it does not parse,
or has the wrong type) is thrown away and another one drawn. It is quick where every crate below is proved (`rt all check`).

What is said of an edit:
    fact        refused, because a fact no longer holds: the code does not meet its contract, or an example computes to something else
    shape       refused, but first because a proof no longer fits (a name, a hole, a case): no evidence by itself
    SURVIVED    everything in its crate is still proved; the crates above it are not tried
With --run an edit of code that is `shape` or SURVIVED is also run without proof (`rt try`) by the programs with stored output that
reach it: `differs` if one of them writes something else. Logs are in target/mutants/log; an edit that has one is not checked again.
"""
import argparse
import hashlib
import random
import re
import shutil
import signal
import subprocess
import sys
import threading
import time
from collections import Counter
from pathlib import Path

ROOT = Path(__file__).resolve().parent.parent
WORK = ROOT / "target" / "mutants"
PARTS = ("src", "specs", "proofs")      # of a crate, what a check reads
SECONDS = 900


# ---- What the repository declares, read by the layout that `rt fmt` keeps

def nested(outside):
    """A pattern for one of these characters, or for anything in balanced parentheses or brackets."""
    inside = r"[^()\[\]]"
    for _ in range(6):
        inside = rf"(?:[^()\[\]]|\({inside}*\)|\[{inside}*\])"
    return rf"(?:{outside}|\({inside}*\)|\[{inside}*\])"


ARGUMENT = nested(r"[^()\[\]{},;\n]") + "+"                         # of a call, or a value in a literal
ELEMENT = r"(?=\S)" + nested(r"[^()\[\]{},;\n:=]") + "+"             # on a line of its own
ATOM = nested(r"[^\s(){};=→λ∷&|+*/%.-][^\s(){};∷]*")                # an argument in a definition
SIGNATURE = re.compile(r"^(?:abbrev |unfoldable )(?:pub )?(\S+) : (.*(?:\n    .*)*)", re.M)


def declared():
    """For each function the types of its parameters; for each field of a struct the next one of that struct with its type."""
    parameters, alike = {"ltb": ["ℕ", "ℕ"], "leb": ["ℕ", "ℕ"]}, {}
    for path in ROOT.glob("crates/*/s*/*.*t"):
        text = path.read_text()
        for name, kind in SIGNATURE.findall(text):
            parameters[name] = [part.strip() for part in re.findall(nested("[^()→]") + "+", kind)][:-1]
        for name, kinds in re.findall(r"^(?:pub |extern \"C\" )*fn (\w+)\(([^()]*)\)", text, re.M):
            parameters[name] = re.findall(r": ([^,]+)", kinds)
        for body in re.findall(r"^pub (?:struct \w+ \{|record \w+ : Type 0 where)\n((?:  .*\n|\n)*)", text, re.M):
            rows = re.findall(r"^ +pub (\w+) ?: (.*?),?$", body, re.M)
            for name, kind in rows:
                same = [n for n, k in rows if k == kind]
                if len(same) > 1:
                    alike.setdefault(name, set()).add(same[(same.index(name) + 1) % len(same)])
    return parameters, alike


PARAMETERS, ALIKE = declared()


# ---- The edits. A row: kind, pattern, and the texts that take the place of the match and its groups, or a function that gives them.

def by_one(m):
    value = int(m[0].replace("_", ""))
    return [str(value + 1)] + [str(value - 1)] * (value > 0)


def next_flag(m):
    return [m[0].replace(m[1], str(new)) for new in (int(m[1]) * 2, int(m[1]) // 2) if new]


def turned(m):
    others = {"<": "<= >", "<=": "< >=", ">": ">= <", ">=": "> <=", "==": "!= <=", "!=": "== <"}[m[1]].split()
    return [f" {o} " for o in others if m[1] + o != "==<=" or m["zero"] is None]        # `x == 0` and `x <= 0` mean the same


def other_field(m):
    """The next field of that type, if this name has it elsewhere in the file too."""
    return [m[1] + new for new in sorted(ALIKE.get(m[2], ())) if m[1] + new in m.string]


def exchanged_fields(m):
    alike = m["y"] in ALIKE.get(m["x"], ()) or m["x"] in ALIKE.get(m["y"], ())
    return [m["x"] + m["is"] + m["b"] + m["m"] + m["a"]] if alike else []


def exchanged_arguments(m):
    """Two neighbours of one type, in turn."""
    parts = [part.strip() for part in re.findall(ARGUMENT if m["opens"] == "(" else ATOM, m["all"])]
    kinds, between = PARAMETERS.get(m["name"], []), ", " if m["opens"] == "(" else " "
    return [m["name"] + m["opens"] + between.join(parts[:k] + [parts[k + 1], parts[k]] + parts[k + 2:])
            for k in range(min(len(parts), len(kinds)) - 1) if kinds[k] == kinds[k + 1] and parts[k] != parts[k + 1]]


def neighbours(before, pattern, between):
    """Two of the same pattern, one behind the other, also where they overlap with two more."""
    return rf"(?<={before})(?=(?P<a>{pattern})(?P<m>{between})(?P<b>{pattern}))"


SWAP = [r"\g<b>\g<m>\g<a>"]
BOTH = [
    ("arithmetic", r" ([-+*/%]) ", lambda m: [" %s " % {"+": "-", "-": "+", "*": "+", "/": "%", "%": "/"}[m[1]]]),
    ("logic", r" && ", [" || "]), ("logic", r" \|\| ", [" && "]), ("logic", r"\btrue\b", ["false"]), ("logic", r"\bfalse\b", ["true"]),
    ("constant", r"(?<![\w.])\d[\d_]*", by_one), ("flag", r"\bflagged (\d+)", next_flag), ("flag", r" / (\d+) % 2\b", next_flag),
    ("field", r"(\b\w+ ?\.)(\w+)\b(?!\()", other_field),
]
CODE = BOTH + [
    ("comparison", r" (<=|<|>=|>|==|!=) (?P<zero>(?=0\b))?", turned),
    ("logic", r" & ", [" | "]), ("logic", r" \| ", [" & "]), ("logic", r"!(?=[\w(])", [""]),
    ("constant", r"\b[A-Z][A-Z_]+\b", [r"(\g<0> - 1)"]),
    ("condition", r"\bif [^{}\n]+ \{", ["if true {", "if false {"]), ("condition", r"\bwhile [^{}\n]+ \{", ["while false {"]),
    ("branch", r"\{(?P<a>[^{}]+)\}(?P<m> else )\{(?P<b>[^{}]+)\}", [r"{\g<b>} else {\g<a>}"]),
    ("arms", neighbours("=> ", ARGUMENT, r",\n +[\w:(), ]+ => "), SWAP),
    ("fields", rf"\b(?=(?P<x>\w+)(?P<is>: )(?P<a>{ARGUMENT})(?P<m>,\s+(?P<y>\w+): )(?P<b>{ARGUMENT}))", exchanged_fields),
    ("fields", rf"(?<=\n)(?=(?P<c> +)(?P<a>{ELEMENT})(?P<m>,\n +)(?P<b>{ELEMENT}),)", [r"\g<c>\g<b>\g<m>\g<a>"]),
    ("arguments", rf"\b(?=(?P<name>\w+)(?P<opens>\()(?P<all>{ARGUMENT}(?:,{ARGUMENT})+)\))", exchanged_arguments),
    ("arguments", r"(?P<a>[\w.]+)(?P<m> [-/%] )(?P<b>[\w.]+)", SWAP),
    ("store", r"(?<=\n)    +(?!let |return |ghost )[\w.\[\]]+ = [^;]+;", [""]), ("store", r"(?<=\n)    +[\w:]+\([^;]*\);", [""]),
]
DEFINITIONS = BOTH + [
    ("comparison", r"\bltb\b", ["leb"]), ("comparison", r"\bleb\b", ["ltb"]), ("comparison", rf"\beqb\b(?! {ATOM} 0\b)", ["leb"]),
    ("logic", r"\bnot (?=\()", [""]), ("constant", r"\bbits8\b", ["bits16"]), ("constant", r"\bbits(?:16|32)\b", ["bits8"]),
    ("condition", rf"\bcond {ATOM}", ["cond true", "cond false"]),
    ("branch", rf"(?<=\bcond )(?=(?P<c>{ATOM}\s+)(?P<a>{ATOM})(?P<m>\s+)(?P<b>{ATOM}))", [r"\g<c>\g<b>\g<m>\g<a>"]),
    ("fields", r"\b(?=(?P<x>\w+)(?P<is> = )(?P<a>[^;={}]+)(?P<m>;\s+(?P<y>\w+) = )(?P<b>[^;={}]+))", exchanged_fields),
    ("fields", neighbours(r"\s", ATOM, " ∷ "), SWAP), ("fields", neighbours(r"\s", ATOM, r" \+\+ "), SWAP),
    ("arguments", rf"(?<![\w.'-])(?=(?P<name>[\w'-]+)(?P<opens> )(?P<all>{ATOM}(?: {ATOM})+))", exchanged_arguments),
    ("arguments", rf"(?P<a>{ATOM})(?P<m> [-/%] )(?P<b>{ATOM})", SWAP),
]


# ---- The places that may be edited

def bodies(text):
    """(function, start, end) of each body of a file of code, by the layout that `rt fmt` keeps."""
    name, start, at = None, None, 0
    for line in text.splitlines(keepends=True):
        head = re.match(r'(?:pub |extern "C" )*fn (\w+)', line)
        if head:
            name, start = head[1], None
        at += len(line)
        if name and start is None and (line == "{\n" or line[0] != " " and line.endswith(" {\n")):
            start = at
        elif name and start is not None and line.startswith("}"):
            yield name, start, at - len(line)
            name = None


def right_sides(text):
    """(definition, start, end) of each clause of a definition that is no statement."""
    kinds = dict(SIGNATURE.findall(text))
    for m in re.finditer(r"^(\S+)(?: [^=\n]*)? =(.*(?:\n[ }].*)*)", text, re.M):
        if m[1] in kinds and not re.search(r"Type \d\s*$", kinds[m[1]]):
            yield m[1], m.start(2), m.end(2)


class Edit:
    def __init__(self, crate, path, where, kind, text, start, end, new):
        self.crate, self.path, self.where, self.kind = crate, path, where, kind
        self.new_text = text[:start] + new + text[end:]
        self.line = text.count("\n", 0, start) + 1
        begin, end_of_line = text.rfind("\n", 0, start) + 1, text.find("\n", end)
        self.old = " ".join(text[begin:end_of_line].split())
        self.new = " ".join((text[begin:start] + new + text[end:end_of_line]).split())


def edits_of(crate, path):
    text = (ROOT / path).read_text()
    code = path.suffix == ".rt"
    hidden = re.compile(r'//.*|b?"(?:\\.|[^"\\\n])*"' if code else r"(?<!\S)--.*")
    masked = hidden.sub(lambda m: "\1" * len(m[0]), text)       # comments and strings match no pattern, and keep their length
    if code:                                                    # nor does the step of a loop, `i = i + 1`: without it nothing ends
        masked = re.sub(r"(?<=\n) +(\w+) = \1 [-+] 1;", lambda m: "\1" * len(m[0]), masked)
    found, places = {}, list((bodies if code else right_sides)(text))
    for where, start, end in places:
        for kind, pattern, instead in CODE if code else DEFINITIONS:
            for m in re.compile(pattern).finditer(masked, start, end):
                last = max(m.end(group) for group in range(len(m.groups()) + 1))
                for new in instead(m) if callable(instead) else map(m.expand, instead):
                    if last <= end and "\1" not in new and new != masked[m.start():last]:
                        found.setdefault((m.start(), last, new), Edit(crate, path, where, kind, text, m.start(), last, new))
    for (where, s, e), (again, s2, e2) in zip(places, places[1:]):
        if where == again and text[s:e] != text[s2:e2]:         # two clauses of a definition
            found[s, e2, ""] = Edit(crate, path, where, "arms", text, s, e2, text[s2:e2] + text[e:s2] + text[s:e])
    return list(found.values())


def drawn(edits, seed):
    """The edits in the order in which they are tried: kinds in turn, and within a kind functions in turn."""
    rows = list(edits)
    random.Random(seed).shuffle(rows)
    for group in (lambda e: (e.kind, e.where)), (lambda e: e.kind):
        seen = Counter()
        for e in rows:
            e.turn = seen[group(e)]
            seen[group(e)] += 1
        rows.sort(key=lambda e: e.turn)
    return rows


# ---- The prover

LISTED = (line.split("#")[0].partition(":") for line in (ROOT / "crates.txt").read_text().splitlines())
DEPS = {name.split()[0]: rest.split() for name, colon, rest in LISTED if colon}
RUNS = "--run" in sys.argv


def copied(edit, where):
    """A repository of the edit's crate with the edit made, and of the crates below it, or of all that a program needs where it is run."""
    shutil.rmtree(where, ignore_errors=True)
    names = sorted(DEPS) if RUNS else [edit.crate, *reached(edit.crate)]
    for name in names:
        for part in PARTS:
            if (ROOT / "crates" / name / part).is_dir():
                shutil.copytree(ROOT / "crates" / name / part, where / "crates" / name / part)
    shutil.copy(ROOT / "HANDLES", where) if (ROOT / "HANDLES").exists() else None
    rows = [line for line in (ROOT / "crates.txt").read_text().splitlines() if re.split(r"[ :]", line)[0] in names]
    (where / "crates.txt").write_text("".join(f"{row}\n" for row in rows))
    (where / edit.path).write_text(edit.new_text)


def check(edit, where):
    """(status, log) of the check of the edit's crate. rt takes what other copies on this machine have proved of the same crates."""
    crates = [where / "crates" / name for name in [edit.crate, *reached(edit.crate)]]
    files = [p for crate in crates for part in PARTS for p in sorted((crate / part).rglob("*")) if p.is_file()]
    edit.id = hashlib.sha256(b"".join(p.read_bytes() for p in files)).hexdigest()[:10]
    log = WORK / "log" / edit.id
    if not log.exists():
        status, said = run(["rt", "check"], crates[0])
        log.parent.mkdir(parents=True, exist_ok=True)
        log.write_text(f"{status}\n" + re.sub(r"(?m)^((?:note: )?)\./(?=src|specs|proofs)", r"\1", said.replace(f"{crates[0]}/", "")))
    status, _, said = log.read_text().partition("\n")
    return status, said


def run(words, cwd=ROOT):
    try:
        done = subprocess.run(words, cwd=cwd, stdin=subprocess.DEVNULL, stdout=subprocess.PIPE, stderr=subprocess.STDOUT, timeout=SECONDS)
        return str(done.returncode), done.stdout.decode("utf-8", "replace")
    except subprocess.TimeoutExpired:
        return "late", f"no end after {SECONDS} s"


# A fact that fails: an equation whose sides differ, or a search, a rewrite or a decision procedure that does not reach its goal.
# Everything else is put down to a proof that does not fit, also a lemma applied to the wrong thing (`?` in what is expected).
FAILS = re.compile(r"it is not proved that|must be a path whose two ends are equal|`search`: no proof|omega|`cc`|`arith`|does not hold|"
                   r"the two (?:types|values) (?:first )?(?:differ|are)|expected type")
MISFITS = re.compile(r"\?\d+ c|`\?\d|has no field|types\.Kit\.rel|no occurrence of|is expected here|→ Prim\.⊥`?\s*\(expected\)|"
                     r"_[<≤]_`\s*\(expected\), at the start")


def computed(crate, path, name):
    """Whether this is an example without variables, an equation that the checker computes."""
    file = crate / path
    declared = re.search(rf"^ *(?:pub )?{re.escape(name)} :\s(.*(?:\n    .*)*)", file.read_text() if file.is_file() else "", re.M)
    return bool(declared) and "≡" in declared[1] and "→" not in declared[1]


def verdict(edit, where, status, log):
    """(what is said of the edit, its first error)"""
    if status == "0":
        return "SURVIVED", ""
    if status == "late" or "logic=not-proved" not in log:
        return "late" if status == "late" else "thrown", log.strip().split("\n")[0][:200]
    found = re.findall(r"^(\S+?):\d+:\d+: error: (?:`([^`]*)`: )?(.*(?:\n  .*)*)", log, re.M)
    found = [e for e in found if "was not admitted" not in e[2].split("\n")[0]]
    found += [(path, "", said) for path, said in re.findall(r"^note: (\S+?):\d+:\d+: (it is not proved that .*)", log, re.M)]
    found += [("", name, said) for name, said in re.findall(r"^fn (\S+): (no proof: .*)", log, re.M)]
    path, name, said = found[0] if found else ("", "", log.strip())
    first = f"{path} {name}: {' '.join(said.split())[:160]}"
    if path == str(edit.path.relative_to("crates", edit.crate)) and name == edit.where and path.startswith("specs/"):
        return "thrown", first
    for place, example, _ in found:
        if computed(where / "crates" / edit.crate, place, example):
            return "fact", f"{place} {example}: an example computes to something else"
    return "fact" if FAILS.search(said) and not MISFITS.search(said) else "shape", first


def reached(crate, seen=()):
    for name in DEPS.get(crate, []):
        if name not in seen:
            seen = reached(name, (*seen, name))
    return seen


def differs(edit, where):
    """The first program with stored output that writes something else, run without proof; those for timing are left out."""
    own = ROOT / "crates"
    programs = [name for name in DEPS if (own / name / "src" / "main.rt").exists() and (own / name / "stdout").exists()
                and edit.crate in (name, *reached(name)) and not re.search("speed|bench", name)]
    for name in programs:
        cases = where / "cases" / name
        cases.mkdir(parents=True)
        stdin = own / name / "stdin"
        (cases / "case").write_bytes(stdin.read_bytes() if stdin.exists() else b"")
        shutil.copy(own / name / "stdout", cases / "case.stdout")
        data = [word for path in sorted((own / name / "data").glob("*")) for word in ("--data", f"{path.name}={path}")]
        status, said = run(["rt", "try", "--cases", str(cases), *data], where / "crates" / name)
        if status != "0":
            return f"differs in {name}" if status in ("late", "4", "5", "6") else f"not run in {name}"
    return "no run differs" if programs else "no run reaches it"


# ---- The pass

def try_all(name, edits, given, totals):
    queue, lock, counted, most = drawn(edits, f"{given.seed} {name}"), threading.Lock(), [0], given.sample or len(edits)

    def work(slot):
        where = WORK / "copy" / str(slot)
        while True:
            with lock:
                if not queue or counted[0] >= most:
                    return
                edit = queue.pop(0)
                counted[0] += 1
            began = time.time()
            copied(edit, where)
            came, first = verdict(edit, where, *check(edit, where))
            if given.run and edit.path.suffix == ".rt" and came in ("shape", "SURVIVED"):
                came += ", " + differs(edit, where)
            with lock:
                totals[came.split(" in ")[0]] += 1
                if came == "thrown":
                    counted[0] -= 1
                else:
                    print(f"{came}: {edit.path}:{edit.line} {edit.where}, {edit.kind} ({time.time() - began:.0f} s, log {edit.id})\n"
                          f"    - {edit.old}\n    + {edit.new}" + (f"\n    {first}" if first else ""), flush=True)

    threads = [threading.Thread(target=work, args=(k,)) for k in range(given.jobs)]
    for each in threads:
        each.start()
    for each in threads:
        each.join()


def files_of(name):
    """(crate, files) that a word of the command line stands for."""
    if name in DEPS:
        code = sorted((ROOT / "crates" / name / "src").glob("*.rt"))
        if any(True for path in code for _ in bodies(path.read_text())):
            return name, [p.relative_to(ROOT) for p in code]
        return name, [p.relative_to(ROOT) for p in sorted((ROOT / "crates" / name / "specs").glob("*.antt"))]
    path = Path(name).resolve()
    if not path.is_file() or ROOT / "crates" not in path.parents or path.suffix not in (".rt", ".antt"):
        sys.exit(f"{name} is neither a crate of crates.txt nor a file of one")
    path = path.relative_to(ROOT)
    return path.parts[1], [path]


def main():
    parser = argparse.ArgumentParser(description=__doc__, formatter_class=argparse.RawDescriptionHelpFormatter)
    parser.add_argument("names", nargs="+", metavar="CRATE|FILE")
    parser.add_argument("--jobs", type=int, default=1)
    parser.add_argument("--sample", type=int)
    parser.add_argument("--seed", default="rights")
    parser.add_argument("--run", action="store_true")
    parser.add_argument("--list", action="store_true")
    given = parser.parse_args()
    signal.signal(signal.SIGPIPE, signal.SIG_DFL)       # a reader of the list may stop early
    totals = Counter()
    for name in given.names:
        crate, paths = files_of(name)
        edits = [e for path in paths for e in edits_of(crate, path)]
        print(f"{name}: {len(edits)} edits, " + ", ".join(f"{n} {k}" for k, n in sorted(Counter(e.kind for e in edits).items())))
        if given.list:
            for e in drawn(edits, f"{given.seed} {name}"):
                print(f"{e.path}:{e.line} {e.where}, {e.kind}\n    - {e.old}\n    + {e.new}")
        else:
            try_all(name, edits, given, totals)
    print(", ".join(f"{n} {k}" for k, n in sorted(totals.items())) or "nothing tried")
    sys.exit(any(k.startswith(("SURVIVED", "late")) and not k.endswith(", differs") for k in totals))


if __name__ == "__main__":
    main()
