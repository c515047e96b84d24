"""How fast XML rights objects are read, hostile ones too: the proved reader beside Python's expat, on the same bytes.

    python3 bench/texts.py [MEGABYTES] [NAME ..]

Each text is MEGABYTES (1 by default) long if its kind allows, and does its worst in one way: a huge value, white space, deep
nesting, a name or a number without end, and so on. The reader is called through tools/read_texts.c, again and again in one
process, so that starting it is not measured. A reader that is quadratic in one of these shows here. For each text: its bytes, the
answer, microseconds for one reading, megabytes a second for the proved reader and for expat, which only takes the text apart and
keeps nothing. Both stop at a fault: where one stops early its megabytes a second say little, and a mark `<` stands behind.
"""

import subprocess
import sys
import time
from pathlib import Path
from xml.parsers import expat

ROOT = Path(__file__).resolve().parent.parent
sys.path.insert(0, str(ROOT / "oracle"))
import text_fuzz  # noqa: E402
import texts  # noqa: E402
import xml_rights  # noqa: E402

LEAST = 0.3                 # seconds that one text is read over and over
ATTRIBUTES = 2_000          # of one tag: each name is compared with those before it, so the time is quadratic


def filled(size, make):
    """A text of about this size: make(n) with the greatest n that fits, for parts of one length."""
    one, two = len(make(1)), len(make(2))
    return make(max(1, (size - one) // max(1, two - one) + 1))


def greatest():
    """An accepted text of 256 elements, 64 assets and 64 entries, its keys and values as long as in practice."""
    assets = "".join(texts.asset(f"cid:{65_000 + n}", "", texts.named(f"Asset-{n}")) for n in range(1, 65))
    assets = assets.replace("</o-ex:asset>", f"{texts.el('KeyInfo', 'c2l4dGVlbiBieXRlcyBvZiBrZXk=' * 2)}</o-ex:asset>", 52)
    kind = texts.kind(texts.el("count", "1000000"), texts.dated("2026-12-01T00:00:00Z", "2027-04-30T23:59:59Z"))
    return texts.issued("Greatest", assets, texts.el("permission", kind))


def hostile(size):
    """(name, text) of every kind."""
    yield "example film", (ROOT / "examples" / "rights" / "film.xml").read_text()
    yield "example season", (ROOT / "examples" / "rights" / "season.xml").read_text()
    yield "greatest accepted", greatest()
    yield "white space around", filled(size, lambda n: " " * n + texts.BARE)
    yield "white space between", filled(size, lambda n: texts.BARE.replace("><", ">" + "\n" * n + "<", 1))
    yield "white space in a tag", filled(size, lambda n: texts.BARE.replace("<o-ex:asset>", "<o-ex:asset" + " " * n + ">"))
    yield "one huge attribute", filled(size, lambda n: texts.agreed(texts.asset(attributes=f" a='{'v' * n}'")))
    yield f"{ATTRIBUTES} attributes", texts.agreed(texts.asset(attributes="".join(f" a{n}=''" for n in range(ATTRIBUTES))))
    yield f"{ATTRIBUTES} attributes in KeyInfo", texts.keyed("<a" + "".join(f" a{n}=''" for n in range(ATTRIBUTES)) + "/>")
    yield "one huge id", filled(size, lambda n: texts.agreed(texts.asset(attributes=texts.named("i" * n))))
    yield "two huge ids", filled(size, lambda n: texts.agreed(texts.asset(attributes=texts.named("i" * n + "1")),
                                                              texts.asset("cid:2", attributes=texts.named("i" * n + "2"))))
    ids = [texts.asset(f"cid:{n}", attributes=texts.named("i" * (size // 64) + str(n))) for n in range(1, 65)]
    yield "64 long ids", texts.agreed("".join(ids))
    yield "many ids", texts.agreed("".join(texts.asset(f"cid:{n}", attributes=texts.named(f"a{n}")) for n in range(1, 65)),
                                   texts.el("permission", texts.references(*(f"a{n}" for n in range(1, 54)))))
    yield "key of one text", filled(size, lambda n: texts.keyed("k" * n))
    yield "key of 248 elements", texts.keyed(("<a>" + "k" * (size // 248) + "</a>") * 248)
    yield "elements in KeyInfo", filled(size, lambda n: texts.keyed("<a/>" * n))
    yield "deep nesting", filled(size, lambda n: texts.keyed("<a>" * n))
    yield "a long name", filled(size, lambda n: texts.keyed("<" + "n" * n + "/>"))
    yield "a long name, twice", filled(size, lambda n: texts.keyed("<" + "n" * n + "></" + "n" * n + ">"))
    yield "a long root name", filled(size, lambda n: "<" + "n" * n + "/>")
    yield "zeros in a count", filled(size, lambda n: texts.limited(texts.el("count", "0" * n + "5")))
    yield "digits in a count", filled(size, lambda n: texts.limited(texts.el("count", "9" * n)))
    yield "zeros in a duration", filled(size, lambda n: texts.limited(texts.el("interval", "PT" + "0" * n + "5S")))
    yield "digits in a duration", filled(size, lambda n: texts.limited(texts.el("interval", "P" + "9" * n + "DT1S")))
    yield "zeros in a uid", filled(size, lambda n: texts.agreed(texts.asset("cid:" + "0" * n + "1")))
    yield "zeros in a timer", filled(size, lambda n: texts.limited(texts.el("timed-count", "5", texts.timer("0" * n))))
    yield "never closed", filled(size, lambda n: texts.keyed("x" * n).partition("</ds:KeyInfo>")[0])
    yield "a mark at the end", filled(size, lambda n: texts.BARE + " " * n + "&")


def by_expat(text):
    """(seconds of one parse, bytes that were parsed)."""
    turns, began = 0, time.perf_counter()
    while True:
        parser = expat.ParserCreate()
        reached = len(text)
        try:
            parser.Parse(text, True)
        except expat.ExpatError:
            reached = max(1, parser.CurrentByteIndex)
        turns += 1
        spent = time.perf_counter() - began
        if spent > LEAST:
            return spent / turns, reached


def by_reader(program, text):
    """(code, elements, seconds of one reading)."""
    times = 1
    while True:
        done = subprocess.run([program, str(times)], input=len(text).to_bytes(4, "big") + text, capture_output=True, check=True)
        seconds = float(done.stderr.split()[-1]) / 1e9
        if seconds * times > LEAST or times >= 1_000_000:
            code, elements = (int.from_bytes(done.stdout[at:at + 4], "big") for at in (0, 4))
            return code, elements, seconds
        times = min(1_000_000, max(times * 2, int(1.2 * LEAST / max(seconds, 1e-9))))


def stops_early(text, code):
    """Whether a refusal comes in the first half of the text: the rest could be anything."""
    half = text[:len(text) // 2]
    return code != 0 and xml_rights.read(half + b"&" if code == 40 else half)[0] == code


def main():
    given = sys.argv[1:]
    size = int(float(given.pop(0)) * 1_000_000) if given and given[0].replace(".", "").isdigit() else 1_000_000
    program = text_fuzz.built()
    print(f"{'text':30} {'bytes':>9} {'answer':>7} {'us':>10} {'MB/s':>8} {'expat MB/s':>11}")
    for name, text in hostile(size):
        if given and not any(each in name for each in given):
            continue
        text = text.encode("latin-1")
        code, elements, seconds = by_reader(program, text)
        expected = xml_rights.read(text)
        if (code, elements) != expected[:2]:
            sys.exit(f"{name}: {code} {elements}, and {expected[0]} {expected[1]} by the second program")
        parse, reached = by_expat(text)
        mark, other = "<" if stops_early(text, code) else " ", "<" if reached < len(text) * 0.9 else " "
        print(f"{name:30} {len(text):9} {code:3} {elements:3} {seconds * 1e6:10.1f} {len(text) / seconds / 1e6:7.1f}{mark} "
              f"{reached / parse / 1e6:10.1f}{other}", flush=True)


if __name__ == "__main__":
    main()
