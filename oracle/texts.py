"""Makes the stored text cases: python3 oracle/texts.py

Each case is an XML text and the answer that orders 1 and 2 of document 02 give it, written here by hand: for a refusal its
number, for an accepted text the number of elements and the book. The reader of xml_rights.py must agree with every one of
them, or nothing is written. The script writes

  crates/test_texts/data/cases.bin    for each case its length in 32 bits, big-endian, then its bytes, to the end of file
  crates/test_texts/stdout            for each case one line: the number of a refusal, or 0, the number of elements, and the
                                      image of the book in hexadecimal
  oracle/texts.txt                    for each case its answer, its elements, its length, its name and its text, shortened

A book is told in words: its assets, a bar, its entries, semicolons between, as `9; 1 inherits 9 key | 1 play count 5`. Times
and durations are seconds; the rights object is 1 unless `object` says otherwise. Texts are written with one character a byte.
"""

from pathlib import Path

import rights
import xml_rights
from rights import Asset, Book, Entry

HERE = Path(__file__).resolve().parent
CRATES = HERE.parent / "crates"
LONGEST, ALL = 20_000, 450_000      # bytes of a text, and of all together
CASES = []                          # (code, elements, name, text, book)

KINDS = ["play", "display", "execute", "print", "export"]
FLAGS = {"count": 1, "timed": 2, "start": 4, "end": 8, "interval": 16, "accumulated": 32}
PREFIX = {
    "o-ex": "rights context agreement asset inherit permission constraint", "ds": "KeyInfo", "oma-dd": "export timed-count",
    "o-dd": "version uid play display execute print count datetime start end interval accumulated"}
FULL = {name: f"{prefix}:{name}" for prefix, names in PREFIX.items() for name in names.split()}


# ---- Cases

def bad(code, name, text):
    CASES.append((code, 0, name, text, None))


def good(elements, name, text, book):
    CASES.append((0, elements, name, text, book_of(book)))


def book_of(words):
    assets, _, entries = words.partition("|")
    return Book(assets=[asset_of(each.split()) for each in assets.split(";") if each.strip()],
                entries=[entry_of(each.split()) for each in entries.split(";") if each.strip()])


def asset_of(words):
    made = Asset(int(words[0]))
    if "inherits" in words:
        made.inherit = int(words[words.index("inherits") + 1])
    made.key = int("key" in words)
    return made


def entry_of(words):
    made = Entry(object=1, asset=int(words[0]), kind=KINDS.index(words[1]) + 1)
    for name, number in zip(words[2::2], words[3::2]):
        setattr(made, name, int(number))
        made.flags |= FLAGS.get(name, 0)
    return made


# ---- Texts

def el(name, inside="", attributes=""):
    return f"<{FULL.get(name, name)}{attributes}>{inside}</{FULL.get(name, name)}>"


def empty(name, attributes=""):
    return f"<{FULL.get(name, name)}{attributes}/>"


def context(uid, version=None):
    return el("context", ("" if version is None else el("version", version)) + el("uid", uid))


def asset(uid="cid:1", more="", attributes=""):
    return el("asset", context(uid) + more, attributes)


def inherit(uid):
    return el("inherit", context(uid))


def agreed(*parts, object="1", attributes=""):
    return el("rights", context(object) + el("agreement", "".join(parts)), attributes)


def permitted(*parts):
    """Asset 1 without a key, and one permission."""
    return agreed(asset(), el("permission", "".join(parts)))


def kind(*limits, name="play"):
    return el(name, el("constraint", "".join(limits)))


def limited(*limits, name="play"):
    """Asset 1 without a key, and one permission of one kind with these limits: 10 elements and the limits."""
    return permitted(kind(*limits, name=name))


def dated(start=None, end=None):
    return el("datetime", ("" if start is None else el("start", start)) + ("" if end is None else el("end", end)))


def keyed(inside="", attributes=""):
    """Asset 1 with a KeyInfo that holds this: 8 elements and those in it."""
    return agreed(asset(more=el("KeyInfo", inside, attributes)))


def references(*names):
    return "".join(empty("asset", f' o-ex:idref="{name}"') for name in names)


def named(name):
    return f' o-ex:id="{name}"'


def timer(digits):
    return f' oma-dd:timer="{digits}"'


def upto(text, end):
    """The text up to this part of it: nothing behind the tag at fault is read."""
    return text[:text.index(end) + len(end)]


def nested(levels, inside=""):
    return "<a>" * levels + inside + "</a>" * levels


BARE = agreed(asset())                      # 7 elements
PLAY = permitted(empty("play"))             # 9
HEAD = BARE[:BARE.index("<o-ex:asset>")]    # up to the opening of the agreement: 4 elements
ROOT = "<o-ex:rights>"
ONE = asset(attributes=named("a"))
TWO = asset("cid:2", attributes=named("b"))


# ---- Accepted forms

def forms():
    good(7, "one asset, no version, no permission", BARE, "1")
    good(8, "with the version", el("rights", context("1", "2.2") + el("agreement", asset())), "1")
    good(8, "version in an asset's context", agreed(el("asset", context("cid:1", "2.2"))), "1")
    good(13, "version in all three contexts", el("rights", context("1", "2.2") + el("agreement", el(
        "asset", context("cid:1", "2.2") + el("inherit", context("pid:9", "2.2"))))), "1 inherits 9")
    for name in KINDS:
        good(9, f"{name}, an empty-element tag", permitted(empty(name)), f"1 | 1 {name}")
        good(9, f"{name}, two tags", permitted(el(name)), f"1 | 1 {name}")
        good(10, f"{name} with an empty constraint", permitted(kind(name=name)), f"1 | 1 {name}")
        good(10, f"{name} with an empty-element constraint", permitted(el(name, empty("constraint"))), f"1 | 1 {name}")
        good(11, f"{name} with a count", limited(el("count", "5"), name=name), f"1 | 1 {name} count 5")
        good(11, f"{name} with an interval", limited(el("interval", "PT5S"), name=name), f"1 | 1 {name} interval 5")
        good(13, f"{name} with dates", limited(dated("1970-01-01T00:00:05Z", "1970-01-01T00:00:06Z"), name=name),
             f"1 | 1 {name} start 5 end 6")
        good(11, f"{name} with a timed count", limited(el("timed-count", "5"), name=name), f"1 | 1 {name} timed 5")
    for name in KINDS[:3]:
        good(11, f"{name} with accumulated", limited(el("accumulated", "PT5S"), name=name), f"1 | 1 {name} accumulated 5")
        good(11, f"{name} with a timer", limited(el("timed-count", "5", timer("30")), name=name),
             f"1 | 1 {name} timed 5 timer 30")
    good(17, "every limit at once", limited(
        el("count", "1"), el("timed-count", "2", timer("3")), dated("1970-01-01T00:00:04Z", "1970-01-01T00:00:05Z"),
        el("interval", "PT6S"), el("accumulated", "PT7S")),
        "1 | 1 play count 1 timed 2 timer 3 start 4 end 5 interval 6 accumulated 7")
    good(12, "a start alone", limited(dated("1970-01-01T00:00:05Z")), "1 | 1 play start 5")
    good(12, "an end alone", limited(dated(None, "1970-01-01T00:00:05Z")), "1 | 1 play end 5")
    good(11, "datetime without dates", limited(dated()), "1 | 1 play")
    good(11, "an empty-element datetime", limited(empty("datetime")), "1 | 1 play")
    good(8, "a permission without anything", permitted(), "1")
    good(8, "an empty-element permission", agreed(asset(), empty("permission")), "1")
    good(13, "five kinds in one permission", permitted(*map(empty, KINDS)),
         "1 | 1 play; 1 display; 1 execute; 1 print; 1 export")
    good(17, "limits stay with their kind", permitted(
        kind(el("count", "2")), empty("display"), kind(el("count", "3"), name="execute"), el("print"), el("export")),
        "1 | 1 play count 2; 1 display; 1 execute count 3; 1 print; 1 export")
    good(14, "a timer stays with its kind", permitted(
        kind(el("timed-count", "2", timer("9"))), kind(el("timed-count", "2"), name="print")),
        "1 | 1 play timed 2 timer 9; 1 print timed 2")
    good(10, "rights object 65535", agreed(asset(), el("permission", empty("play") + empty("print")), object="65535"),
         "1 | 1 play object 65535; 1 print object 65535")
    assets_and_permissions()
    key_info()


def assets_and_permissions():
    good(10, "inherit", agreed(asset(more=inherit("pid:9"))), "1 inherits 9")
    good(11, "inherit and a key", agreed(asset(more=inherit("pid:9") + empty("KeyInfo"))), "1 inherits 9 key")
    good(10, "inherit with cid", agreed(asset(more=inherit("cid:9"))), "1 inherits 9")
    good(10, "an asset that inherits from itself", agreed(asset(more=inherit("cid:1"))), "1 inherits 1")
    good(14, "a parent, then its child", agreed(asset("pid:9"), asset("cid:1", inherit("pid:9") + empty("KeyInfo"))),
         "9; 1 inherits 9 key")
    good(13, "two assets that inherit do not mix", agreed(asset("cid:1", inherit("pid:9")), asset("cid:2")),
         "1 inherits 9; 2")
    good(11, "two assets, one key", agreed(asset("cid:1", empty("KeyInfo")), asset("cid:2")), "1 key; 2")
    good(13, "assets stay in text order", agreed(asset("cid:3"), asset("cid:1"), asset("cid:2")), "3; 1; 2")
    good(15, "no reference: every asset, in the book's order",
         agreed(asset("cid:3"), asset("cid:1"), asset("cid:2"), el("permission", empty("play"))),
         "3; 1; 2 | 3 play; 1 play; 2 play")
    good(13, "one reference", agreed(ONE, TWO, el("permission", references("b") + empty("play"))), "1; 2 | 2 play")
    good(14, "two references, against the book's order",
         agreed(ONE, TWO, el("permission", references("b", "a") + empty("play"))), "1; 2 | 2 play; 1 play")
    good(14, "the same reference twice", agreed(ONE, TWO, el("permission", references("b", "b") + empty("play"))),
         "1; 2 | 2 play; 2 play")
    good(13, "a reference of two tags", agreed(ONE, TWO, el("permission", el("asset", "", ' o-ex:idref="b"') + empty("play"))),
         "1; 2 | 2 play")
    good(13, "a reference with white space inside",
         agreed(ONE, TWO, el("permission", el("asset", " \t\r\n", ' o-ex:idref="b"') + empty("play"))), "1; 2 | 2 play")
    good(17, "two references and two kinds: kind by kind",
         agreed(ONE, TWO, el("permission", references("b", "a") + kind(el("count", "4")) + empty("print"))),
         "1; 2 | 2 play count 4; 1 play count 4; 2 print; 1 print")
    good(17, "references of one permission only",
         agreed(ONE, TWO, el("permission", references("b") + empty("play")), el("permission", empty("play")),
                el("permission", empty("print"))),
         "1; 2 | 2 play; 1 play; 2 play; 1 print; 2 print")
    good(12, "references without a kind", agreed(ONE, TWO, el("permission", references("a"))), "1; 2")
    good(15, "references without a kind do not reach the next permission",
         agreed(ONE, TWO, el("permission", references("a", "a")), el("permission", empty("play"))), "1; 2 | 1 play; 2 play")
    good(12, "two permissions of one kind",
         agreed(asset(), el("permission", empty("play")), el("permission", kind(name="play"))), "1 | 1 play; 1 play")
    good(15, "the second permission's limits",
         agreed(asset(), el("permission", kind(el("count", "7"))), el("permission", kind(el("interval", "PT1S")))),
         "1 | 1 play count 7; 1 play interval 1")


def key_info():
    good(8, "KeyInfo of two tags", keyed(), "1 key")
    good(8, "KeyInfo, an empty-element tag", agreed(asset(more=empty("KeyInfo"))), "1 key")
    good(8, "KeyInfo with text", keyed("c2VjcmV0 ]]> > ' \" = /"), "1 key")
    good(9, "KeyInfo with an element", keyed("<a/>"), "1 key")
    good(12, "KeyInfo with elements, attributes and text",
         keyed("x<a b='1'>y<c d = \"2\" e=''/>z</a >w<f g='2' h='3'></f>\t<i/>"), "1 key")
    good(11, "KeyInfo in KeyInfo", keyed(el("KeyInfo", el("KeyInfo", empty("KeyInfo")))), "1 key")
    good(15, "a whole rights object in KeyInfo", keyed(BARE), "1 key")
    good(10, "values in KeyInfo are not read", keyed(el("count", "x") + el("uid", "")), "1 key")
    good(11, "names of all sorts in KeyInfo", keyed("<_/><:-.9/><\x80\xff/>"), "1 key")
    good(10, "the outermost letters and digits in names", keyed(
        "<AZaz_:.-09\x80\xff/><\xff AZaz_:.-09\x80\xff='' :='' Z='' \x80=''></\xff>"),
         "1 key")
    good(8, "bytes of all sorts in KeyInfo", keyed("".join(map(chr, [9, 10, 13, *range(0x20, 0x26), *range(0x27, 0x3c),
                                                                     *range(0x3d, 0x100)]))), "1 key")
    good(9, "bytes of all sorts in an attribute", keyed("<a b='" + "".join(map(chr, [
        9, 10, 13, *range(0x20, 0x26), *range(0x28, 0x3c), *range(0x3d, 0x100)])) + "'/>"), "1 key")
    good(9, "an attribute without a byte", keyed("<a b='' c=\"\"/>"), "1 key")
    good(9, "a quote in the other quotes", keyed("<a b='\"' c=\"'\"/>"), "1 key")
    good(9, "names that differ in one byte", keyed("<a b='' B='' bb='' b.=''/>"), "1 key")
    good(9, "white space everywhere in a tag", keyed("<a\tb\n=\r' '\r\n \tc = '' \n></a \t\r\n>"), "1 key")
    good(9, "white space in front of the end of an empty-element tag", keyed("<a b='' \n/>"), "1 key")
    good(9, "an attribute behind the element's name twice over", keyed("<a a='a' />"), "1 key")


# ---- White space

def white_space():
    def spaced(text, space):
        return text.replace("><", f">{space}<")

    good(7, "white space around rights", f" \t\r\n{BARE}\n\r\t ", "1")
    good(9, "white space between all elements", spaced(PLAY, "\n\t \r"), "1 | 1 play")
    good(18, "white space between all elements, with inherit, key and limits", spaced(agreed(
        asset(more=inherit("pid:9") + el("KeyInfo", "<a/>")),
        el("permission", kind(el("count", "1"), dated(None, "1970-01-01T00:00:00Z")))), " "),
        "1 inherits 9 key | 1 play count 1 end 0")
    good(11, "white space in containers without children", permitted(
        el("play", el("constraint", el("datetime", " ")))), "1 | 1 play")
    good(9, "white space in a kind", permitted(el("play", "\n")), "1 | 1 play")
    good(8, "white space in a permission", permitted(" "), "1")
    good(9, "white space in tags", PLAY.replace("<o-dd:play/>", "<o-dd:play\n/>").replace("</o-ex:rights>", "</o-ex:rights \n>"),
         "1 | 1 play")
    for name, space in (("vertical tab", "\x0b"), ("form feed", "\x0c"), ("zero", "\0")):
        bad(40, f"{name} in front of rights", space + BARE)
        bad(40, f"{name} behind rights", BARE + space)
        bad(40, f"{name} between elements", BARE.replace("><", f">{space}<", 1))
    bad(40, "a no-break space in front of rights", "\xa0" + BARE)
    bad(41, "a no-break space between elements", BARE.replace("><", ">\xa0<", 1))
    containers = {
        "rights": ROOT, "the rights context": "<o-ex:context>", "agreement": "<o-ex:agreement>", "asset": "<o-ex:asset>",
        "permission": "<o-ex:permission>", "play": "<o-dd:play>", "constraint": "<o-ex:constraint>",
        "datetime": "<o-dd:datetime>", "inherit": "<o-ex:inherit>"}
    whole = agreed(asset(more=inherit("pid:9")), el("permission", kind(dated("1970-01-01T00:00:00Z"))))
    for name, tag in containers.items():
        bad(41, f"text in {name}, in front", whole.replace(tag, tag + "x", 1))
        closing = tag.replace("<", "</")
        bad(41, f"text in {name}, at the end", whole.replace(closing, "x" + closing, 1))
    bad(41, "text in a reference", agreed(ONE, el("permission", el("asset", "x", ' o-ex:idref="a"'))))
    bad(41, "text in an empty permission", permitted("x"))
    bad(41, "text behind KeyInfo", BARE.replace("</o-ex:asset>", "<ds:KeyInfo/>x</o-ex:asset>"))
    bad(41, "text between two assets", agreed(ONE, ",", TWO))
    bad(41, "a single greater-than sign between elements", BARE.replace("><", ">><", 1))
    bad(41, "text in front of an element that is accepted, with white space", BARE.replace("><", "> x <", 1))


# ---- Not well formed

def not_well_formed():
    for name, text in (
            ("nothing", ""), ("white space only", " \n"), ("a letter", "x"), ("a zero byte", "\0"), ("a single <", "<"),
            ("a closing tag first", "</a>"), ("a closing tag of rights first", "</o-ex:rights>"), ("no name", "<>"),
            ("white space in front of the name", "< o-ex:rights/>"), ("a digit for a name", "<1/>"),
            ("a hyphen for a name", "<-/>"), ("a full stop for a name", "<./>"),
            ("cut in the name", "<o-ex:rights"), ("cut behind the name", "<o-ex:rights "), ("cut in an attribute's name", "<a b"),
            ("cut behind an attribute's name", "<a b "), ("cut behind the equals sign", "<a b="),
            ("cut behind the equals sign and a space", "<a b= "), ("cut in a value", "<a b='c"),
            ("cut at the quote", "<a b='"), ("cut behind a value", "<a b='c'"), ("cut behind the slash", "<a/"),
            ("a value without quotes", "<a b=c/>"), ("a value without quotes, a number", "<a b=30/>"),
            ("other quote at the end", "<a b='c\"/>"), ("no white space between attributes", "<a b='1'c='2'/>"),
            ("no white space in front of the only attribute", "<a'b'='1'/>"), ("a space behind the slash", "<a / >"),
            ("a slash inside", "<a / b='1'>"), ("two slashes", "<a//>"), ("a < in a value", "<a b='<'/>"),
            ("a < in a tag", "<a <"), ("a < behind the name", "<a<b/>"), ("a < in the name", "<<a/>"),
            ("an attribute without a value", "<a b/>"), ("an attribute without a value, then another", "<a b c='1'/>"),
            ("no attribute name", "<a ='1'/>"), ("a value alone", "<a '1'/>"), ("a digit for an attribute's name", "<a 1='1'/>"),
            ("two equals signs", "<a b=='1'/>"), ("a control byte in a tag", "<a \x01/>"),
            ("a control byte in a value", "<a b='\x1f'/>"), ("a zero byte in a value", "<a b='\0'/>"),
            ("an attribute twice", "<a b='1' b='2'/>"), ("an attribute twice, the same value", "<a b='1' b='1'/>"),
            ("an attribute twice, one between", "<a b='1' c='2' b=\"\">"), ("an attribute three times", "<a b='' b='' b=''/>"),
            ("a byte order mark", "\xef\xbb\xbf" + BARE), ("a byte order mark of 16 bits", "\xfe\xff" + BARE),
            ("a byte order mark alone", "\xef\xbb\xbf"), ("a < at the end", BARE + "<"), ("a letter behind rights", BARE + "x"),
            ("a closing tag behind rights", BARE + "</o-ex:rights>"), ("a second rights", BARE + BARE),
            ("another element behind rights", BARE + "\n<a/>"), ("a greater-than sign behind rights", BARE + ">"),
            ("rights not closed", BARE[:-len("</o-ex:rights>")]), ("rights cut in its closing tag", BARE[:-1]),
            ("rights cut in its closing name", BARE[:-4]), ("a slash and the end", BARE[:-len("o-ex:rights>")]),
            ("nothing but the opening tag", ROOT), ("an opening tag and text", ROOT + "x"), ("an opening tag and a <", ROOT + "<"),
            ("another closing tag", ROOT + "</o-ex:right>"), ("a longer closing tag", ROOT + "</o-ex:rightss>"),
            ("a closing tag in other letters", ROOT + "</o-ex:Rights>"), ("a closing tag without a prefix", ROOT + "</rights>"),
            ("a closing tag without a name", ROOT + "</>"), ("a space in a closing tag", ROOT + "</ o-ex:rights>"),
            ("an attribute in a closing tag", ROOT + "</o-ex:rights a=''>"), ("a slash in a closing tag", ROOT + "</o-ex:rights/>"),
            ("a digit in front of a closing name", ROOT + "</1>"), ("cut behind </", ROOT + "</"),
            ("an exclamation mark in a closing tag", ROOT + "</!>"), ("a question mark in a closing tag", ROOT + "</?>"),
            ("an exclamation mark in a tag", "<a !>"), ("a question mark in a tag", "<a ?>")):
        bad(40, name, text)
    for byte in "@[`{^~\x7f;,#":
        bad(40, f"{byte!r} in a name", f"<a{byte}/>")
        bad(40, f"{byte!r} first in a name", f"<{byte}/>")
    for byte in "09-.":
        bad(40, f"{byte!r} first in an attribute's name", f"<a {byte}b=''/>")
        bad(40, f"{byte!r} first in a closing name", f"{ROOT}</{byte}>")
    for byte in (0x00, 0x01, 0x08, 0x0b, 0x0c, 0x0e, 0x1f):
        bad(40, f"control byte {byte} in KeyInfo", keyed(chr(byte)))
    bad(40, "a control byte in a value", limited(el("count", "5\x01")))
    bad(40, "two closing tags exchanged", BARE.replace("</o-dd:uid></o-ex:context>", "</o-ex:context></o-dd:uid>", 1))
    bad(40, "a closing tag missing", PLAY.replace("</o-ex:permission>", ""))
    bad(40, "a closing tag twice", PLAY.replace("</o-ex:permission>", "</o-ex:permission>" * 2))
    bad(40, "a closing tag missing in KeyInfo", keyed("<a><b></a>"))
    bad(40, "another closing tag in KeyInfo", keyed("<a></b>"))
    bad(40, "an attribute twice in KeyInfo", keyed("<a b='1' b='2'/>"))
    bad(40, "an id twice in one tag", agreed(asset(attributes=named("a") + named("b"))))
    bad(40, "an idref twice in one tag", agreed(ONE, el("permission", empty("asset", ' o-ex:idref="a"' * 2))))
    bad(40, "a timer twice in one tag", limited(el("timed-count", "5", timer("1") + timer("1"))))
    bad(40, "a timer without quotes, as 004 prints it", limited(el("timed-count", "5", " oma-dd:timer=30")))


# ---- <!, <? and &

def marks():
    for name, text in (
            ("& first", "&"), ("& behind white space", " &"), ("<! first", "<!"), ("<? first", "<?"), ("<! first, cut", " <!D"),
            ("a declaration in front", '<?xml version="1.0"?>' + BARE), ("a document type in front", "<!DOCTYPE a>" + BARE),
            ("a comment in front", "<!-- a -->" + BARE), ("& behind rights", BARE + "&"), ("<! behind rights", BARE + "<!"),
            ("<? behind rights and white space", BARE + "\n<?"), ("a comment behind rights", BARE + "<!-- a -->"),
            ("& for a name", "<&"), ("& behind a name", "<a&"), ("& in a tag", "<a &"), ("& behind an attribute's name", "<a b&"),
            ("& for an equals sign", "<a b &"), ("& for a value", "<a b=&"), ("& in a value", "<a b='&'/>"),
            ("a reference in a value", "<a b='&amp;'/>"), ("& behind a value", "<a b='1'&"), ("& behind a slash", "<a/&"),
            ("& for an attribute's name", "<a b='1' &"), ("<? for a name", "<<?"), ("<! for a name", "<<!"),
            ("<! behind a name", "<a<!"), ("<? in a tag", "<a <?"), ("<! for an equals sign", "<a b<!"),
            ("<! for a value", "<a b=<!"), ("<! in a value", "<a b='<!'/>"), ("<? in a value", "<a b=\"<?\"/>"),
            ("<! behind a value", "<a b='1'<!"), ("<! behind a slash", "<a/<!"), ("& in a closing tag", ROOT + "</&"),
            ("& behind a closing name", ROOT + "</o-ex:rights&"), ("& at the end of a closing tag", ROOT + "</o-ex:rights &"),
            ("<! in a closing tag", ROOT + "</<!"), ("<? behind a closing name", ROOT + "</a<?"), ("& in rights", ROOT + "&"),
            ("<! in rights", ROOT + "<!"), ("<? in rights", ROOT + "<?"), ("text and & in rights", ROOT + "x&"),
            ("text and <! in rights", ROOT + "x<!"), ("& in KeyInfo", keyed("&amp;")), ("a comment in KeyInfo", keyed("<!---->")),
            ("a data section in KeyInfo", keyed("<![CDATA[a]]>")), ("an instruction in KeyInfo", keyed("<?a?>")),
            ("& in a value of KeyInfo", keyed("<a b='&lt;'/>")), ("a character by its number", limited(el("count", "&#53;"))),
            ("a comment in a value", limited(el("count", "5<!-- a -->"))), ("a comment in front of a tag",
             PLAY.replace("<o-dd:play/>", "<!-- a --><o-dd:play/>"))):
        bad(41, name, text)
    for code, name, text in (
            (40, "x, then &", "x&"), (40, "x, then <!", "x<!"), (40, "a control byte, then &", "\x01&"),
            (41, "&, then a control byte", "&\x01"), (40, "a closing tag first, with &", "</&"),
            (40, "a closing tag first, with <!", "</<!"), (40, "a digit, then &", "<1&"), (41, "&, then a digit", "<&1"),
            (40, "a < in a value, then &", "<a b='<' c='&'/>"), (41, "& in a value, then <", "<a b='&' c='<'/>"),
            (40, "no white space between attributes, then &", "<a b='1'c='&'/>"),
            (40, "an attribute twice, then &", "<a b='1' b='2' c='&'/>"), (40, "an attribute twice, then & in the tag",
                                                                           "<a b='1' b='2' &"),
            (40, "an attribute twice, & behind its quote", "<a b='1' b='2'&"),
            (41, "an attribute twice, & in the second", "<a b='1' b='&'/>"),
            (41, "an attribute twice, & in the first", "<a b='&' b='1'/>"),
            (41, "an attribute twice, & for the second's value", "<a b='1' b=&"),
            (41, "an attribute twice, <! in the second", "<a b='1' b='<!'/>"),
            (40, "an attribute twice, < in the second", "<a b='1' b='<'/>"),
            (40, "a space in a closing tag, then &", ROOT + "</ &"), (40, "another closing tag, then &", ROOT + "</a>&"),
            (41, "& in another closing tag", ROOT + "</a&>"), (40, "a control byte in text, then &", ROOT + "\x01&"),
            (41, "& in text, then a control byte", ROOT + "&\x01"), (40, "a slash and a space, then &", "<a/ &"),
            (40, "second rights, then &", BARE + "<a b='&'/>"), (40, "behind rights x, then &", BARE + "x&"),
            (40, "behind rights a < alone, then <!", BARE + "< <!"), (40, "behind rights << and !", BARE + "<<!")):
        bad(code, name, text)


# ---- Elements that are not accepted where they stand

def elements():
    for name in ("a", "rights", "o-dd:rights", "o-ex:Rights", "o-ex:rightss", "o-ex:right", "o-ex:agreement", "ds:KeyInfo"):
        bad(41, f"{name} for rights", BARE.replace("o-ex:rights", name))
    bad(41, "another root, not closed", "<a>")
    rights_context = context("1")
    for name, inside in (
            ("rights without children", ""), ("rights without a context", el("agreement", asset())),
            ("rights without an agreement", rights_context),
            ("rights with the agreement first", el("agreement", asset()) + rights_context),
            ("rights with two contexts", rights_context * 2 + el("agreement", asset())),
            ("rights with two agreements", rights_context + el("agreement", asset()) + el("agreement", asset("cid:2"))),
            ("rights with an asset", rights_context + asset()), ("rights with another element first", "<a/>" + rights_context),
            ("rights with another element last", rights_context + el("agreement", asset()) + "<a/>"),
            ("rights in rights", rights_context + BARE)):
        bad(41, name, el("rights", inside))
    bad(41, "rights, an empty-element tag", empty("rights"))
    for name, inside in (
            ("without children", ""), ("with a version only", el("version", "2.2")), ("with two uids", el("uid", "1") * 2),
            ("with two versions", el("version", "2.2") * 2 + el("uid", "1")),
            ("with the uid first", el("uid", "1") + el("version", "2.2")),
            ("with another element", "<a/>" + el("uid", "1")), ("with another element last", el("uid", "1") + "<a/>"),
            ("with a context", context("1"))):
        bad(41, f"rights context {name}", el("rights", el("context", inside) + el("agreement", asset())))
    for name, inside in (
            ("without children", ""), ("with a version only", el("version", "2.2")), ("with two uids", el("uid", "cid:1") * 2),
            ("with the uid first", el("uid", "cid:1") + el("version", "2.2"))):
        bad(41, f"asset context {name}", agreed(el("asset", el("context", inside))))
        bad(41, f"inherit context {name}", agreed(asset(more=el("inherit", el("context", inside)))))
    for name, inside in (
            ("without assets", ""), ("with a permission only", el("permission", "")),
            ("with a permission first", el("permission", "") + asset()),
            ("with an asset behind a permission", asset() + el("permission", "") + asset("cid:2")),
            ("with a context", context("1") + asset()), ("with a kind", asset() + empty("play")),
            ("with another element", asset() + "<a/>"), ("with an inherit", asset() + inherit("pid:9"))):
        bad(41, f"agreement {name}", agreed(inside))
    own, key = context("cid:1"), empty("KeyInfo")
    for name, inside in (
            ("without children", ""), ("without a context", key), ("with inherit only", inherit("pid:9")),
            ("with two contexts", own * 2), ("with the key first", key + own), ("with inherit first", inherit("pid:9") + own),
            ("with inherit behind the key", own + key + inherit("pid:9")), ("with two inherits", own + inherit("pid:9") * 2),
            ("with two keys", own + key * 2), ("with a digest", own + el("o-ex:digest")),
            ("with a digest in front of the key", own + el("o-ex:digest") + key),
            ("with a digest behind the key", own + key + el("o-ex:digest")), ("with a permission", own + el("permission", "")),
            ("with an asset", own + asset("cid:2")), ("with a uid", el("uid", "cid:1"))):
        bad(41, f"asset {name}", agreed(el("asset", inside)))
    bad(41, "asset, an empty-element tag", agreed(empty("asset")))
    bad(41, "a second asset without a context", agreed(asset(), el("asset", key)))
    for name, inside in (("without a context", ""), ("with two contexts", context("pid:9") * 2), ("with a uid", el("uid", "pid:9")),
                         ("with a key behind its context", context("pid:9") + key)):
        bad(41, f"inherit {name}", agreed(asset(more=el("inherit", inside))))
    bad(41, "inherit, an empty-element tag", agreed(asset(more=empty("inherit"))))
    permissions()
    constraints()
    spellings()


def permissions():
    for first, one in enumerate(KINDS):
        for second, other in enumerate(KINDS):
            text = permitted(empty(one), empty(other))
            if first < second:
                good(10, f"{one}, then {other}", text, f"1 | 1 {one}; 1 {other}")
            else:
                bad(41, f"{one}, then {other}", upto(text, "</o-ex:permission>"))
    bad(41, "a reference behind a kind", agreed(ONE, el("permission", empty("play") + references("a"))))
    bad(41, "a reference between kinds", agreed(
        ONE, el("permission", references("a") + empty("play") + references("a") + empty("print"))))
    for name in ("o-ex:constraint", "oma-dd:access", "o-ex:context", "o-ex:permission", "o-ex:requirement", "o-dd:tracked", "a"):
        bad(41, f"permission with {name}", permitted(el(name)))
    bad(41, "permission with a constraint in front of a kind", permitted(el("constraint", el("count", "5")), empty("play")))
    bad(41, "a reference with a context", agreed(ONE, el("permission", el("asset", context("cid:1"), ' o-ex:idref="a"'))))
    bad(41, "a reference with another element", agreed(ONE, el("permission", el("asset", "<a/>", ' o-ex:idref="a"'))))


def constraints():
    texts = {"count": el("count", "5"), "timed": el("timed-count", "5"), "start": dated("1970-01-01T00:00:05Z"),
             "interval": el("interval", "PT5S"), "accumulated": el("accumulated", "PT5S")}
    for first, one in enumerate(texts):
        for second, other in enumerate(texts):
            text = limited(texts[one], texts[other])
            if first < second:
                good(12 + (one == "start") + (other == "start"), f"{one}, then {other}", text, f"1 | 1 play {one} 5 {other} 5")
            else:
                bad(41, f"{one}, then {other}", upto(text, "</o-ex:permission>"))
    for name in ("o-dd:individual", "oma-dd:system", "oma-dd:DeviceNumThresh", "oma-dd:discrete", "o-dd:start", "o-ex:context",
                 "o-ex:constraint", "o-dd:uid", "o-dd:tracked", "o-ex:requirement", "a"):
        bad(41, f"constraint with {name}", limited(el(name)))
    for name in ("oma-dd:DeviceNumThresh", "o-dd:start", "a"):
        bad(41, f"constraint with {name} behind a count", limited(texts["count"], el(name)))
        bad(41, f"permission with {name} behind a kind", permitted(empty("play"), el(name)))
    for name in KINDS:
        bad(41, f"{name} with two constraints", permitted(el(name, empty("constraint") * 2)))
        bad(41, f"{name} with a limit but no constraint", permitted(el(name, el("count", "5"))))
        bad(41, f"{name} with a requirement", permitted(el(name, empty("constraint") + empty("o-ex:requirement"))))
        tracked = '<o-dd:tracked oma-dd:timed="10" oma-dd:contentAccessGranted="1"/>'      # order 3 tracks entries of a book, not texts
        bad(41, f"{name} with a requirement that it is tracked", permitted(el(name, el("o-ex:requirement", tracked))))
        bad(41, f"{name} with tracked alone", permitted(el(name, tracked)))
    start, end = el("start", "1970-01-01T00:00:05Z"), el("end", "1970-01-01T00:00:06Z")
    for name, inside in (("end, then start", end + start), ("two starts", start * 2), ("two ends", end * 2),
                         ("another element", start + "<a/>"), ("start, end, start", start + end + start),
                         ("a count", el("count", "5"))):
        bad(41, f"datetime with {name}", limited(el("datetime", inside)))
    for name, value in (("version", "2.2"), ("uid", "1")):
        text = el("rights", el("context", el(name, value + "<a/>")) + el("agreement", asset()))
        bad(41, f"an element in {name}", text)
    for name, value in (("count", "5"), ("timed-count", "5"), ("interval", "PT5S"), ("accumulated", "PT5S")):
        bad(41, f"an element behind the text of {name}", limited(el(name, value + "<a/>")))
        bad(41, f"an element in front of the text of {name}", limited(el(name, "<a/>" + value)))
    for name in ("start", "end"):
        bad(41, f"an element in {name}", limited(el("datetime", el(name, "1970-01-01T00:00:05Z<a/>"))))


def spellings():
    """A name is the prefix and the word, byte by byte."""
    whole = agreed(asset(more=inherit("pid:9") + empty("KeyInfo")), el("permission", kind(
        el("count", "5"), el("timed-count", "5"), dated("1970-01-01T00:00:05Z", "1970-01-01T00:00:06Z"), el("interval", "PT5S"),
        el("accumulated", "PT5S")) + "".join(map(empty, KINDS[1:]))))
    whole = whole.replace("<o-dd:uid>1<", el("version", "2.2") + "<o-dd:uid>1<")
    good(26, "every accepted element at once", whole, "1 inherits 9 key | 1 play count 5 timed 5 start 5 end 6 interval 5 "
         "accumulated 5; 1 display; 1 execute; 1 print; 1 export")
    others = {"o-ex": "o-dd", "o-dd": "o-ex", "oma-dd": "o-dd", "ds": "o-ex"}
    for place, (name, full) in enumerate(FULL.items()):
        if name == "rights":
            continue
        prefix = full.split(":")[0]
        for other in (f"{others[prefix]}:{name}", (name, full.upper(), full + "x", full[:-1])[place % 4]):
            before, _, behind = whole.partition(f"<{full}")
            bad(41, f"{other} for {full}", f"{before}<{other}{upto(behind, '>')}")


# ---- Attributes

def attributes():
    good(7, "attributes of other names are skipped",
         agreed(asset(attributes=' id="a" idref="b" timer="c" o-ex:timer="d" oma-dd:id="e" o-ex:ID="f" o-ex:idreff="g"')), "1")
    good(7, "namespaces", agreed(asset(), attributes=' xmlns:o-ex="http://odrl.net/1.1/ODRL-EX" xmlns:o-dd="x"'), "1")
    good(13, "unprefixed ids twice", agreed(asset(attributes=' id="a"'), asset("cid:2", attributes=' id="a"'),
                                            el("permission", el("play", empty("constraint", ' id="a"'), ' id="a"'))),
         "1; 2 | 1 play; 2 play")
    good(7, "an id", agreed(ONE), "1")
    good(7, "an id in single quotes", agreed(ONE.replace('"', "'")), "1")
    good(14, "a different id on every element", agreed(
        el("asset", el("context", el("uid", "cid:1", named("3")), named("4")) + el("KeyInfo", "", named("5")), named("6")),
        el("permission", el("play", el("constraint", el("count", "5", named("7")) + el("timed-count", "5", named("8"))
                                       + el("datetime", "", named("9")), named("10")), named("11")), named("12")),
        attributes=named("1")), "1 key | 1 play count 5 timed 5")
    for name, text in (
            ("two assets", agreed(ONE, asset("cid:2", attributes=named("a")))),
            ("rights and an asset", agreed(ONE, attributes=named("a"))),
            ("an asset and its context", agreed(el("asset", el("context", el("uid", "cid:1"), named("a")), named("a")))),
            ("an asset and a uid", agreed(ONE, el("asset", el("context", el("uid", "cid:2", named("a")))))),
            ("an asset and a version", agreed(
                ONE, el("asset", el("context", el("version", "2.2", named("a")) + el("uid", "cid:2"))))),
            ("an asset and its KeyInfo", agreed(asset(more=empty("KeyInfo", named("a")), attributes=named("a")))),
            ("an asset and its inherit", agreed(asset(more=el("inherit", context("pid:9"), named("a")), attributes=named("a")))),
            ("two KeyInfos", agreed(asset(more=empty("KeyInfo", named("a"))), asset("cid:2", empty("KeyInfo", named("a"))))),
            ("an asset and a permission", agreed(ONE, el("permission", "", named("a")))),
            ("an asset and a reference", agreed(ONE, el("permission", empty("asset", named("a") + ' o-ex:idref="a"')))),
            ("an asset and a kind", agreed(ONE, el("permission", empty("play", named("a"))))),
            ("an asset and a constraint", agreed(ONE, el("permission", el("play", empty("constraint", named("a")))))),
            ("an asset and a count", agreed(ONE, el("permission", kind(el("count", "5", named("a")))))),
            ("an asset and a timed count", agreed(ONE, el("permission", kind(el("timed-count", "5", named("a")))))),
            ("an asset and a start", agreed(
                ONE, el("permission", kind(el("datetime", el("start", "1970-01-01T00:00:05Z", named("a"))))))),
            ("an asset and an interval", agreed(ONE, el("permission", kind(el("interval", "PT5S", named("a")))))),
            ("two kinds", permitted(empty("play", named("a")), empty("print", named("a")))),
            ("two empty ids", agreed(asset(attributes=named("")), asset("cid:2", attributes=named("")))),
            ("different quotes", agreed(ONE, asset("cid:2", attributes=" o-ex:id = 'a'")))):
        bad(41, f"an id given twice: {name}", text)
    good(10, "an empty id", agreed(asset(attributes=named("")), asset("cid:2", attributes=named(" "))), "1; 2")
    good(10, "ids that differ in white space", agreed(ONE, asset("cid:2", attributes=named(" a"))), "1; 2")
    good(10, "ids that differ in the case of a letter", agreed(ONE, asset("cid:2", attributes=named("A"))), "1; 2")
    good(12, "ids in KeyInfo are not read", agreed(asset(more=el(
        "KeyInfo", f"<a{named('a')}/><b{named('a')}/><c{named('k')} o-ex:idref='x'/>"
        + empty("timed-count", timer("x")), named("k")), attributes=named("a"))), "1 key")
    idrefs()
    timers()


def idrefs():
    def other(name):
        return f' o-ex:idref="{name}"'

    for name, text in (
            ("of nothing", agreed(ONE, el("permission", references("b") + empty("play")))),
            ("of nothing, no kind", agreed(ONE, el("permission", references("b")))),
            ("of nothing, where there are no ids", permitted(references("a"), empty("play"))),
            ("that is empty", agreed(ONE, el("permission", references("") + empty("play")))),
            ("with white space", agreed(ONE, el("permission", references(" a") + empty("play")))),
            ("with white space at the end", agreed(ONE, el("permission", references("a ") + empty("play")))),
            ("in another case", agreed(ONE, el("permission", references("A") + empty("play")))),
            ("of a longer id", agreed(asset(attributes=named("ab")), el("permission", references("a")))),
            ("of a shorter id", agreed(ONE, el("permission", references("ab")))),
            ("of rights", agreed(asset(), el("permission", references("r")), attributes=named("r"))),
            ("of its permission", agreed(asset(), el("permission", references("p"), named("p")))),
            ("of a context", agreed(el("asset", el("context", el("uid", "cid:1"), named("c"))), el("permission", references("c")))),
            ("of a KeyInfo", agreed(asset(more=empty("KeyInfo", named("k"))), el("permission", references("k")))),
            ("of an element in KeyInfo", agreed(asset(more=el("KeyInfo", f"<a{named('k')}/>")), el("permission", references("k")))),
            ("of an unprefixed id", agreed(asset(attributes=' id="a"'), el("permission", references("a")))),
            ("of another reference", agreed(ONE, el("permission", empty("asset", named("r") + other("a")) + references("r")))),
            ("of itself", agreed(ONE, el("permission", empty("asset", named("r") + other("r"))))),
            ("missing", agreed(ONE, el("permission", empty("asset") + empty("play")))),
            ("missing beside an id", agreed(ONE, el("permission", empty("asset", named("r"))))),
            ("unprefixed", agreed(ONE, el("permission", empty("asset", ' idref="a"')))),
            ("of an asset's own id", agreed(asset(attributes=named("a") + other("a")))),
            ("of a later asset", agreed(asset(attributes=other("b")), TWO)),
            ("on rights", agreed(ONE, attributes=other("a"))),
            ("on the context of the same asset", agreed(el("asset", el("context", el("uid", "cid:1"), other("a")), named("a")))),
            ("on the KeyInfo of the same asset", agreed(asset(more=empty("KeyInfo", other("a")), attributes=named("a")))),
            ("on an asset, of nothing", agreed(ONE, asset("cid:2", attributes=other("x")))),
            ("on a KeyInfo, of nothing", agreed(asset(more=empty("KeyInfo", other("x"))))),
            ("on a permission, of nothing", agreed(ONE, empty("permission", other("x")))),
            ("on a kind, of nothing", agreed(ONE, el("permission", empty("play", other("x"))))),
            ("on a constraint, of nothing", permitted(el("play", empty("constraint", other("x"))))),
            ("on a count, of nothing", limited(el("count", "5", other("x")))),
            ("on a version, of nothing", el("rights", el("context", el("version", "2.2", other("x")) + el("uid", "1"))
                                            + el("agreement", asset())))):
        bad(41, f"an idref {name}", text)
    good(11, "an idref on a second asset and its KeyInfo", agreed(
        ONE, asset("cid:2", empty("KeyInfo", other("a")), other("a"))), "1; 2 key")
    good(12, "an idref on a permission, a kind, a constraint, a count and a datetime makes no reference",
         agreed(ONE, el("permission", el("play", el("constraint", el("count", "5", other("a")) + el("datetime", "", other("a")),
                                                    other("a")), other("a")), other("a"))), "1 | 1 play count 5")
    good(9, "a reference with an id of its own", agreed(ONE, el("permission", empty("asset", named("r") + other("a")))), "1")
    good(10, "the empty id, referred to", agreed(asset(attributes=named("")), el("permission", references("") + empty("play"))),
         "1 | 1 play")
    good(10, "an id of odd bytes, referred to",
         agreed(asset(attributes=named("> \x80'\t")), el("permission", references("> \x80'\t") + empty("play"))), "1 | 1 play")
    good(13, "the id of the asset decides, not its place",
         agreed(asset("cid:2", attributes=named("a")), asset("cid:1", attributes=named("b")),
                el("permission", references("b") + empty("play"))), "2; 1 | 1 play")


def timers():
    def timed(digits, name="play"):
        return limited(el("timed-count", "5", timer(digits)), name=name)

    good(11, "a timer missing", limited(el("timed-count", "6")), "1 | 1 play timed 6")
    for digits, number in (("0", 0), ("00", 0), ("1", 1), ("030", 30), ("1000000", 1_000_000), ("0" * 60 + "7", 7)):
        good(11, f"timer {digits[-8:]} of {len(digits)} digits", timed(digits), f"1 | 1 play timed 5 timer {number}")
    for digits in ("1000001", "9" * 60, "4294967296", "18446744073709551616", "", " ", " 30", "30 ", "-1", "+1", "3x", "x", "1.0",
                   "30s", "\xb2"):
        bad(41, f"timer {digits[:30]!r}", upto(timed(digits), timer(digits) + ">"))
    bad(41, "timer 1000001 in a whole text", timed("1000001"))
    good(11, "a timer on a count is skipped", limited(el("count", "5", timer("x"))), "1 | 1 play count 5")
    good(9, "a timer on a kind is skipped", permitted(empty("play", timer("2000000"))), "1 | 1 play")
    good(11, "a timer in other words is skipped", limited(el("timed-count", "5", ' timer="30" o-dd:timer="x"')),
         "1 | 1 play timed 5")
    for name in ("print", "export"):
        good(11, f"timer 0 on {name}", timed("0", name), f"1 | 1 {name} timed 5")
        bad(41, f"timer 1 on {name}", timed("1", name))
        bad(41, f"timer 1000000 on {name}", timed("1000000", name))


# ---- Values

WRAPS = ("4294967297", "18446744073709551617", "340282366920938463463374607431768211457")     # 1 in 32, 64 and 128 bits
NO_NUMBERS = ("", " ", "x", " 1", "1 ", "\n1", "1\n", "+1", "-1", "1.0", "1e1", "0x1", "1,0", "1 0", "\xb9", "O", "1;")


def values():
    def versioned(text):
        return el("rights", el("context", el("version", text) + el("uid", "1")) + el("agreement", asset()))

    for text in ("", "2.1", "2.0", "2", "2.", "2.20", "2.2 ", " 2.2", "02.2", "2,2", "2.2.2", "22", "2.3", "\n2.2"):
        bad(41, f"version {text!r}", upto(versioned(text), "</o-dd:version>"))
    bad(41, "version, an empty-element tag", versioned("").replace("<o-dd:version></o-dd:version>", "<o-dd:version/>"))
    bad(41, "version 2.1 in an asset's context", agreed(el("asset", context("cid:1", "2.1"))))
    for digits, number in (("65535", 65535), ("00065535", 65535), ("0" * 60 + "9", 9)):
        good(9, f"rights uid {digits[-8:]} of {len(digits)} digits", agreed(
            asset(), el("permission", empty("play")), object=digits),
             f"1 | 1 play object {number}")
    for text in ("0", "000", "65536", "65537", "99999", "9" * 60, "cid:1", "pid:1", *WRAPS, *NO_NUMBERS):
        bad(41, f"rights uid {text[:40]!r}", upto(agreed(asset(), object=text), "</o-dd:uid>"))
    bad(41, "rights uid, an empty-element tag", BARE.replace("<o-dd:uid>1</o-dd:uid>", "<o-dd:uid/>"))
    for text, number in (("cid:65535", 65535), ("pid:1", 1), ("pid:65535", 65535), ("cid:0001", 1), ("pid:" + "0" * 60 + "12", 12)):
        good(7, f"asset uid {text[:8]} of {len(text)} bytes", agreed(asset(text)), str(number))
        good(10, f"inherit uid {text[:8]} of {len(text)} bytes", agreed(asset(more=inherit(text))), f"1 inherits {number}")
    for text in ("1", "cid:0", "pid:000", "cid:65536", "pid:65537", "gid:1", "CID:1", "Cid:1", "pID:1", "cid", "cid:", "pid:",
                 "cid1",
                 "cid:cid:1", "cid:1@a.b", "cidd:1", "ci:1", ":1", "cid: 1", "cid:1 ", " cid:1", "cid:+1", "cid:-1", "cid:x",
                 "cid:" + "9" * 60, "cid:\xb9", *("cid:" + digits for digits in WRAPS)):
        bad(41, f"asset uid {text[:40]!r}", f"{HEAD}<o-ex:asset><o-ex:context>{el('uid', text)}")
    bad(41, "asset uid cid:0 in a whole text", agreed(asset("cid:0")))
    for text in ("9", "cid:0", "pid:65536", "gid:9", "PID:9", "pid:", "pid:9 ", " pid:9", "", "pid:x"):
        bad(41, f"inherit uid {text!r}", upto(agreed(asset(more=inherit(text))), "<o-ex:inherit><o-ex:context>" + el("uid", text)))
    bad(41, "inherit uid pid:0 in a whole text", agreed(asset(more=inherit("pid:0"))))
    for name, field in (("count", "count"), ("timed-count", "timed")):
        for digits, number in (("1", 1), ("1000000", 1_000_000), ("007", 7), ("0" * 60 + "3", 3), ("0001000000", 1_000_000),
                               ("0", 0), ("00", 0), ("0" * 60, 0)):
            good(11, f"{name} {digits[-10:]} of {len(digits)} digits", limited(el(name, digits)), f"1 | 1 play {field} {number}")
        for text in ("0", "00"):
            bad(40, f"{name} {text!r}, then cut", upto(limited(el(name, text)), f"</{FULL[name]}>"))
        for text in ("1000001", "0001000001", "-0", "+0", " 0", "0 ", "0.0", "0x", "9" * 60, *WRAPS,
                     *NO_NUMBERS[:None if name == "count" else 6]):
            bad(41, f"{name} {text[:40]!r}", upto(limited(el(name, text)), f"</{FULL[name]}>"))
        bad(41, f"{name}, an empty-element tag", limited(empty(name)))
        bad(41, f"{name} 1000001 in a whole text", limited(el(name, "1000001")))
    times()
    durations()


def times():
    for text, second in (
            ("1970-01-01T00:00:00Z", 0), ("1970-01-01T00:00:01Z", 1), ("1970-01-01T23:59:59Z", 86_399),
            ("1970-01-02T00:00:00Z", 86_400), ("1970-12-31T23:59:59Z", 31_535_999), ("1971-01-01T00:00:00Z", 31_536_000),
            ("1972-02-29T00:00:00Z", 68_169_600), ("1972-03-01T00:00:00Z", 68_256_000), ("2000-02-29T00:00:00Z", 951_782_400),
            ("2000-03-01T00:00:00Z", 951_868_800), ("1999-12-31T23:59:59Z", 946_684_799), ("2000-01-01T00:00:00Z", 946_684_800),
            ("2001-09-09T01:46:40Z", 1_000_000_000), ("2004-04-30T23:59:59Z", 1_083_369_599),
            ("2004-02-29T23:59:59Z", 1_078_099_199),
            ("2038-01-19T03:14:07Z", 2_147_483_647), ("2038-01-19T03:14:08Z", 2_147_483_648),
            ("2096-02-29T00:00:00Z", 3_981_312_000),
            ("2096-10-02T07:06:39Z", 3_999_999_999), ("2096-10-02T07:06:40Z", 4_000_000_000),
            ("2096-10-02T00:00:00Z", 3_999_974_400)):
        good(12, f"start {text}", limited(dated(text)), f"1 | 1 play start {second}")
    for text, second in (("1970-01-01T00:00:00Z", 0), ("2096-02-29T00:00:00Z", 3_981_312_000),
                         ("2096-10-02T07:06:40Z", 4_000_000_000)):
        good(12, f"end {text}", limited(dated(None, text)), f"1 | 1 play end {second}")
    for text in (
            "2096-10-02T07:06:41Z", "2096-10-02T07:07:00Z", "2096-10-02T08:00:00Z", "2096-10-03T00:00:00Z", "2096-11-01T00:00:00Z",
            "2097-01-01T00:00:00Z", "2106-02-07T06:28:16Z", "9999-12-31T23:59:59Z", "1969-12-31T23:59:59Z", "1900-01-01T00:00:00Z",
            "0000-01-01T00:00:00Z", "1971-02-29T00:00:00Z", "1973-02-29T00:00:00Z", "1974-02-29T00:00:00Z", "2001-02-29T00:00:00Z",
            "2095-02-29T00:00:00Z", "2100-02-29T00:00:00Z", "2000-02-30T00:00:00Z", "2000-04-31T00:00:00Z", "2000-06-31T00:00:00Z",
            "2000-09-31T00:00:00Z", "2000-11-31T00:00:00Z", "2000-01-32T00:00:00Z", "2000-12-32T00:00:00Z", "2000-01-00T00:00:00Z",
            "2000-00-01T00:00:00Z", "2000-13-01T00:00:00Z", "2000-01-01T24:00:00Z", "2000-01-01T00:60:00Z", "2000-01-01T00:00:60Z",
            "2000-01-01T99:00:00Z", "2000-01-01T00:00:00", "2000-01-01T00:00:00z", "2000-01-01t00:00:00Z", "2000-01-01 00:00:00Z",
            "2000-01-01T00:00:00+00:00", "2000-01-01T00:00:00.0Z", "2000-01-01T00:00Z", "2000-01-01", "00-01-01T00:00:00Z",
            "2000-1-01T00:00:00Z", "02000-01-01T00:00:00Z", "2000/01/01T00:00:00Z", "2000-01-01T00-00-00Z", " 2000-01-01T00:00:00Z",
            "2000-01-01T00:00:00Z ", "2000-01-01T00:00:00ZZ", "2000-01-01T0x:00:00Z", "x000-01-01T00:00:00Z",
            "2000-01-01T00:00:0-Z",
            "-200-01-01T00:00:00Z", "2000-01-01T00:00:+1Z", "2000-01- 1T00:00:00Z", "946684800", ""):
        bad(41, f"start {text!r}", upto(limited(dated(text)), "</o-dd:start>"))
    for text in ("2096-10-02T07:06:41Z", "2100-02-29T00:00:00Z", "2000-02-30T00:00:00Z", "1969-12-31T23:59:59Z", ""):
        bad(41, f"end {text!r}", upto(limited(dated(None, text)), "</o-dd:end>"))
    bad(41, "a start too late in a whole text", limited(dated("2096-10-02T07:06:41Z")))
    for month, days, before in ((1, 31, 0), (2, 28, 31), (3, 31, 59), (4, 30, 90), (5, 31, 120), (6, 30, 151), (7, 31, 181),
                                (8, 31, 212), (9, 30, 243), (10, 31, 273), (11, 30, 304), (12, 31, 334)):
        good(12, f"the last day of month {month} of 1970", limited(dated(f"1970-{month:02}-{days}T00:00:00Z")),
             f"1 | 1 play start {(before + days - 1) * 86_400}")
    bad(41, "start, an empty-element tag", limited(el("datetime", empty("start"))))
    bad(41, "end, an empty-element tag", limited(el("datetime", empty("end"))))


def durations():
    for text, seconds in (
            ("PT1S", 1), ("PT1M", 60), ("PT1H", 3_600), ("P1D", 86_400), ("P1DT1H1M1S", 90_061), ("P1DT1S", 86_401),
            ("P1DT1M", 86_460),
            ("P1DT1H", 90_000), ("PT1H1M", 3_660), ("PT1H1S", 3_601), ("PT1M1S", 61), ("P1DT1M1S", 86_461), ("P1DT1H1S", 90_001),
            ("P1DT1H1M", 90_060), ("PT1H1M1S", 3_661), ("P15DT10H30M20S", 1_333_820), ("P0DT2H0M00S", 7_200), ("PT90M", 5_400),
            ("PT100000S", 100_000), ("PT25H", 90_000), ("P0DT1S", 1), ("PT0H0M1S", 1), ("P0001D", 86_400),
            ("PT" + "0" * 60 + "5S", 5),
            ("PT100000000S", 100_000_000), ("P1157D", 99_964_800), ("P1157DT9H46M40S", 100_000_000),
            ("PT27777H46M40S", 100_000_000),
            ("PT1666666M40S", 100_000_000), ("PT0S", 0), ("P0D", 0), ("P0DT0H0M0S", 0), ("PT0H", 0), ("PT0M", 0), ("PT0H0S", 0),
            ("P0DT0S", 0), ("P00DT00H00M00S", 0), ("P" + "0" * 60 + "D", 0)):
        good(11, f"interval {text[:20]}", limited(el("interval", text)), f"1 | 1 play interval {seconds}")
    for text, seconds in (("PT1S", 1), ("P1D", 86_400), ("P15DT10H30M20S", 1_333_820), ("PT100000000S", 100_000_000),
                          ("PT0S", 0), ("P0D", 0), ("P0DT0H0M0S", 0), ("PT0H", 0), ("PT00M", 0)):
        good(11, f"accumulated {text}", limited(el("accumulated", text)), f"1 | 1 play accumulated {seconds}")
    for text in (
            "", "P", "PT", "T", "P1DT", "PT1", "P1", "1D", "T1H", "1S", "P1H", "P1S", "P1M", "PT1D", "PT1S1M", "PT1M1H", "PT1S1H",
            "P1D1H",
            "P1D1D", "PT1H1H", "PT1M1M", "PT1S1S", "PT1HT1M", "P1DT1HT1M", "PP1D", "P1Y", "P1W", "P1Y1D", "PT1.5S", "P1.5D", "P-1D",
            "-P1D", "+P1D", " PT1S", "PT1S ", "PT 1S", "P 1D", "pt1s", "PT1s", "P1d", "PTS", "PD", "PTHMS", "PDTHMS", "PT1HM",
            "P0", "PT0", "P0DT", "P0Y", "P0M", "P0W", "PT0.0S", "-PT0S", "P-0D", "0S", "0", "PT0S0M", "P0H", "PT0D",
            "PT100000001S", "P1158D", "P1157DT9H46M41S", "PT27777H46M41S", "PT1666667M", "PT27778H",
            "PT" + "9" * 60 + "S",
            "P" + "9" * 60 + "D", "PT4294967297S", "PT18446744073709551617S", "P33554433D", "P144115188075855873D",
            "PT1152921504606846976H1S", "PT4611686018427387904M1S", "P1DT18446744073709465217S", "5", "PT1S\n", "PT\xb9S"):
        bad(41, f"interval {text[:30]!r}", upto(limited(el("interval", text)), "</o-dd:interval>"))
    for text in ("", "P", "PT", "P1DT", "P0DT", "P0", "0", "PT100000001S", "P1M", "PT1S1M", " PT1S", "PT1S "):
        bad(41, f"accumulated {text!r}", upto(limited(el("accumulated", text)), "</o-dd:accumulated>"))
    for name in ("interval", "accumulated"):
        for text in ("P0D", "PT0S"):
            bad(40, f"{name} {text!r}, then cut", upto(limited(el(name, text)), f"</{FULL[name]}>"))
    bad(41, "accumulated too long in a whole text", limited(el("accumulated", "PT100000001S")))
    bad(41, "interval, an empty-element tag", limited(empty("interval")))
    bad(41, "accumulated, an empty-element tag", limited(empty("accumulated")))


# ---- Order 2: a limit of 0

ZEROS = {"count": el("count", "0"), "timed": el("timed-count", "0"), "interval": el("interval", "PT0S"),
         "accumulated": el("accumulated", "PT0S")}


def limits_of_zero():
    for limit, text in ZEROS.items():
        for name in KINDS[1:]:
            if limit == "accumulated" and name in KINDS[3:]:
                bad(41, f"{limit} 0 on {name}", limited(text, name=name))
            else:
                good(11, f"{limit} 0 on {name}", limited(text, name=name), f"1 | 1 {name} {limit} 0")
        dates = dated("1970-01-01T00:00:05Z", "1970-01-01T00:00:06Z")
        good(14, f"{limit} 0 with dates", limited(*((text, dates) if limit in ("count", "timed") else (dates, text))),
             f"1 | 1 play {limit} 0 start 5 end 6")
        good(14, f"{limit} 0 in the first of two permissions", agreed(
            asset(), el("permission", kind(text)), el("permission", kind(name="play"))), f"1 | 1 play {limit} 0; 1 play")
        good(13, f"{limit} 0 does not reach the next kind", permitted(kind(text), kind(name="display")),
             f"1 | 1 play {limit} 0; 1 display")
    good(16, "a count of 0 for two references", agreed(ONE, TWO, el("permission", references("b", "a") + kind(ZEROS["count"]))),
         "1; 2 | 2 play count 0; 1 play count 0")
    good(14, "all four 0", limited(*ZEROS.values()), "1 | 1 play count 0 timed 0 interval 0 accumulated 0")
    good(17, "all four 0 with a timer and dates", limited(
        ZEROS["count"], el("timed-count", "0", timer("30")), dated("1970-01-01T00:00:00Z", "1970-01-01T00:00:00Z"),
        ZEROS["interval"], ZEROS["accumulated"]), "1 | 1 play count 0 timed 0 timer 30 start 0 end 0 interval 0 accumulated 0")
    good(13, "three of them 0 on print", limited(ZEROS["count"], ZEROS["timed"], ZEROS["interval"], name="print"),
         "1 | 1 print count 0 timed 0 interval 0")
    for limit, text, words in (("count", "timed-count", "count 0 timed 7"), ("timed", "interval", "timed 0 interval 7"),
                               ("interval", "accumulated", "interval 0 accumulated 7")):
        other = el(text, "7" if text == "timed-count" else "PT7S")
        good(12, f"{limit} 0 beside {text} 7", limited(ZEROS[limit], other), f"1 | 1 play {words}")
    good(12, "accumulated 0 behind a count of 7", limited(el("count", "7"), ZEROS["accumulated"]),
         "1 | 1 play count 7 accumulated 0")
    good(11, "timed count 0, the greatest timer", limited(el("timed-count", "0", timer("1000000"))),
         "1 | 1 play timed 0 timer 1000000")
    good(11, "timed count 0, timer 0, on print", limited(el("timed-count", "0", timer("0")), name="print"), "1 | 1 print timed 0")
    bad(41, "timed count 0, a timer too great", limited(el("timed-count", "0", timer("1000001"))))
    bad(41, "timed count 0, a timer on export", limited(el("timed-count", "0", timer("1")), name="export"))
    bad(41, "a count of 0, start after end", limited(ZEROS["count"], dated("1970-01-01T00:00:06Z", "1970-01-01T00:00:05Z")))
    bad(41, "a count of 0 twice", limited(ZEROS["count"], ZEROS["count"]))
    bad(41, "a count of 0 behind an interval of 0", limited(ZEROS["interval"], ZEROS["count"]))
    bad(41, "a count of 0, a timed count too great", limited(ZEROS["count"], el("timed-count", "1000001")))
    bad(41, "an interval of 0, an accumulated too long", limited(ZEROS["interval"], el("accumulated", "PT100000001S")))


# ---- Rules of the book

def book_rules():
    bad(41, "an asset's number twice", agreed(asset(), asset()))
    bad(41, "an asset's number twice, cid and pid", agreed(asset("cid:5"), asset("pid:5")))
    bad(41, "an asset's number twice, zeros in front", agreed(asset("cid:5"), asset("cid:05")))
    bad(41, "an asset's number twice, another between", agreed(asset("cid:5"), asset("cid:6"), asset("cid:5")))
    good(16, "inherit may be a number twice", agreed(asset("cid:1", inherit("pid:3")), asset("cid:2", inherit("pid:3"))),
         "1 inherits 3; 2 inherits 3")
    bad(41, "start after end", limited(dated("1970-01-01T00:00:06Z", "1970-01-01T00:00:05Z")))
    bad(41, "start at the end of time, end in 1970", limited(dated("2096-10-02T07:06:40Z", "1970-01-01T00:00:00Z")))
    good(13, "start and end at the end of time", limited(dated("2096-10-02T07:06:40Z", "2096-10-02T07:06:40Z")),
         "1 | 1 play start 4000000000 end 4000000000")
    good(13, "start and end equal", limited(dated("1970-01-01T00:00:05Z", "1970-01-01T00:00:05Z")), "1 | 1 play start 5 end 5")
    good(13, "start and end 0", limited(dated("1970-01-01T00:00:00Z", "1970-01-01T00:00:00Z")), "1 | 1 play start 0 end 0")
    for name in ("print", "export"):
        bad(41, f"accumulated on {name}", limited(el("accumulated", "PT5S"), name=name))
        good(15, f"all but accumulated on {name}", limited(
            el("count", "1"), el("timed-count", "2"), dated("1970-01-01T00:00:03Z"), el("interval", "PT4S"), name=name),
            f"1 | 1 {name} count 1 timed 2 start 3 interval 4")
    for name in KINDS[1:]:
        bad(41, f"start after end on {name}", limited(dated("1970-01-01T00:00:06Z", "1970-01-01T00:00:05Z"), name=name))
    bad(41, "start after end in the second kind", permitted(
        kind(dated(None, "1970-01-01T00:00:05Z")), kind(dated("1970-01-01T00:00:06Z", "1970-01-01T00:00:05Z"), name="display")))
    good(17, "dates of one kind do not reach the next", permitted(
        kind(dated(None, "1970-01-01T00:00:05Z")), kind(dated("1970-01-01T00:00:06Z"), name="display"), empty("print")),
        "1 | 1 play end 5; 1 display start 6; 1 print")
    good(15, "accumulated of one kind does not reach print", permitted(
        kind(el("accumulated", "PT5S")), kind(el("interval", "PT5S"), name="print"), empty("export")),
        "1 | 1 play accumulated 5; 1 print interval 5; 1 export")


# ---- Depth, 256 elements, 64 assets, 64 entries

def filled(elements, attributes=""):
    """Asset 1, filled up so that the text has this many elements up to it."""
    return asset(more=el("KeyInfo", "<a/>" * (elements - 8)), attributes=attributes)


def numbered(how_many):
    return "".join(asset(f"cid:{number}") for number in range(1, how_many + 1))


def referring(how_many, *kinds):
    """Asset 1 and one permission with so many references to it."""
    return agreed(ONE, el("permission", references(*["a"] * how_many) + "".join(kinds)))


def depth():
    good(16, "depth 12", keyed(nested(8)), "1 key")
    good(16, "depth 12, an empty-element tag", keyed(nested(7, "<b/>")), "1 key")
    good(24, "depth 12 twice", keyed(nested(8) * 2), "1 key")
    good(23, "depth 12 eight times, side by side", keyed(nested(7, "<b/>" * 8)), "1 key")
    good(16, "depth 12 and text there", keyed(nested(8, "x")), "1 key")
    bad(41, "depth 13", keyed(nested(9)))
    bad(41, "depth 13, an empty-element tag", keyed(nested(8, "<b/>")))
    bad(41, "depth 13, second branch", keyed(nested(8) + nested(9)))
    bad(41, "depth 100", keyed(nested(100)))
    bad(41, "depth 13, then cut", HEAD + "<o-ex:asset>" + context("cid:1") + "<ds:KeyInfo>" + "<a>" * 9)
    bad(40, "depth 12, then cut", HEAD + "<o-ex:asset>" + context("cid:1") + "<ds:KeyInfo>" + "<a>" * 8)
    bad(40, "depth 13 and an attribute twice", keyed(nested(8, "<b c='' c=''/>")))
    bad(41, "depth 13 and & in the tag", keyed(nested(8, "<b &/>")))
    bad(40, "depth 13, cut in the tag", HEAD + "<o-ex:asset>" + context("cid:1") + "<ds:KeyInfo>" + "<a>" * 8 + "<b")
    bad(40, "depth 12, another closing tag", keyed("<a>" * 8 + "</b>"))
    bad(41, "depth 13, then another closing tag", keyed("<a>" * 9 + "</b>"))


def many_elements():
    good(256, "256 elements", keyed("<a/>" * 248), "1 key")
    good(256, "256 elements, a permission last", agreed(filled(255), empty("permission")), "1 key")
    good(256, "256 elements, a kind last", agreed(filled(254), el("permission", empty("play"))), "1 key | 1 play")
    for name, text in (
            ("in KeyInfo", keyed("<a/>" * 249)),
            ("a permission", agreed(filled(256), empty("permission"))),
            ("a permission of two tags", agreed(filled(256), el("permission"))),
            ("a kind", agreed(filled(255), el("permission", empty("play")))),
            ("a datetime", agreed(filled(253), el("permission", kind(empty("datetime"))))),
            ("at depth 12", keyed("<a/>" * 241 + nested(7, "<b/>"))),
            ("an asset of two tags without children", agreed(filled(256), el("asset"))),
            ("a count of two tags and no value", agreed(filled(253), el("permission", kind(el("count", "x"))))),
            ("a uid of two tags and no value", agreed(filled(254), el("asset", el("context", el("uid", ""))))),
            ("then cut", HEAD + filled(256) + "<o-ex:permission>"), ("then &", HEAD + filled(256) + "<o-ex:permission>&"),
            ("then an element that is not accepted", HEAD + filled(256) + "<o-ex:permission><a/>"),
            ("of two tags, a reference twice over", agreed(filled(253, named("a")), el("permission", references("a", "a")
                                                                                    + el("asset", "x", ' o-ex:idref="a"')))),
            ("and white space in front", agreed(filled(256), " \n", empty("permission")))):
        bad(42, f"the 257th element: {name}", text)
    for name, text in (
            ("not accepted", agreed(filled(256), "<a/>")),
            ("text in front of it", agreed(filled(256), "x", empty("permission"))),
            ("depth 13", keyed("<a/>" * 240 + nested(8, "<b/>"))),
            ("an asset without children", agreed(filled(256), empty("asset"))),
            ("& in its tag", agreed(filled(256), "<o-ex:permission &/>")),
            ("an id twice", agreed(filled(256, named("a")), empty("permission", named("a")))),
            ("an idref of nothing", agreed(filled(256), empty("permission", ' o-ex:idref="a"'))),
            ("a reference without idref", agreed(filled(255), el("permission", empty("asset")))),
            ("a count without a value", agreed(filled(253), el("permission", kind(empty("count"))))),
            ("a context without a uid", agreed(filled(255), el("asset", empty("context")))),
            ("a timer that is too great", agreed(filled(253), el("permission", kind(el("timed-count", "5", timer("1000001"))))))):
        bad(41, f"the 257th element: {name}", text)
    for name, text in (
            ("an attribute twice", agreed(filled(256), "<o-ex:permission a='' a=''/>")),
            ("cut in its tag", HEAD + filled(256) + "<o-ex:permission"),
            ("a < in its tag", agreed(filled(256), "<o-ex:permission <"))):
        bad(40, f"the 257th element: {name}", text)
    bad(40, "256 elements, then x behind rights", keyed("<a/>" * 248) + "x")


def many_assets():
    good(196, "64 assets", agreed(numbered(64)), "; ".join(map(str, range(1, 65))))
    bad(42, "65 assets", agreed(numbered(65)))
    bad(41, "the 65th asset has a number twice", agreed(numbered(64), asset("cid:64")))
    bad(41, "the 65th asset has no context", agreed(numbered(64), el("asset")))
    bad(40, "the 65th asset has another closing tag", agreed(numbered(64), asset("cid:65")[:-len("o-ex:asset>")] + "a>"))


def many_entries():
    plays = "; ".join(f"{number} play" for number in range(1, 65))
    good(198, "64 assets, 64 entries", agreed(numbered(64), el("permission", empty("play"))),
         "; ".join(map(str, range(1, 65))) + "|" + plays)
    good(73, "64 references", referring(64, empty("play")), "1 |" + "; ".join(["1 play"] * 64))
    good(75, "64 entries, then a permission with a reference", referring(64, empty("play")).replace(
        "</o-ex:agreement>", el("permission", references("a")) + "</o-ex:agreement>"), "1 |" + "; ".join(["1 play"] * 64))
    good(73, "65 references without a kind", referring(65), "1")
    good(76, "65 references without a kind, then a permission without references", referring(65).replace(
        "</o-ex:agreement>", el("permission", kind(name="play")) + "</o-ex:agreement>"), "1 | 1 play")
    kinds = [el("permission", "".join(map(empty, KINDS))), el("permission", "".join(map(empty, KINDS[:3])))]
    entries = [f"{number} {each}" for each in KINDS + KINDS[:3] for number in range(1, 9)]
    good(38, "8 assets and 8 kinds", agreed(numbered(8), *kinds), "; ".join(map(str, range(1, 9))) + "|" + "; ".join(entries))
    bad(42, "5 assets and 13 kinds", agreed(numbered(5), kinds[0], *kinds))
    bad(42, "63 entries, then two", agreed(
        ONE, TWO, el("permission", references(*["a"] * 63) + empty("play")), el("permission", empty("play"))))
    wrong = dated("1970-01-01T00:00:06Z", "1970-01-01T00:00:05Z")
    before = numbered(4) + asset("cid:5", attributes=named("a")) + kinds[0] * 2 + el("permission", empty("play") + empty("display"))
    for code, name, each in (
            (42, "a kind", empty("play")), (42, "a kind of two tags", el("play")), (42, "limits", kind(el("count", "5"))),
            (42, "then an element that is not accepted", empty("play") + "<a/>"), (41, "start after end", kind(wrong)),
            (41, "accumulated on print", kind(el("accumulated", "PT5S"), name="print")),
            (41, "a timer on export", kind(el("timed-count", "5", timer("1")), name="export")),
            (41, "text in the kind", el("play", "x")), (41, "an element that is not accepted in the kind", el("play", "<a/>")),
            (41, "an id twice", empty("play", named("a"))), (41, "& in the kind", "<o-dd:play &/>"),
            (42, "a count of 0", kind(el("count", "0"))), (41, "a count too great", kind(el("count", "1000001"))),
            (40, "an attribute twice", "<o-dd:play a='' a=''/>"),
            (40, "another closing tag", "<o-dd:play></o-dd:display>"),
            (40, "start after end and another closing tag", kind(wrong).replace("</o-dd:play>", "</o-dd:display>"))):
        bad(code, f"65 entries: {name}", agreed(before, el("permission", each)))
    bad(42, "65 entries, then cut", HEAD + before + "<o-ex:permission><o-dd:play></o-dd:play>")
    bad(40, "65 entries and a kind that is not closed", HEAD + before + "<o-ex:permission><o-dd:play>")
    bad(42, "65 references", referring(65, empty("play")))
    bad(41, "65 references, one more of nothing", referring(65, references("b"), empty("play")))
    bad(42, "the 257th element gives the 65th entry",
        agreed(filled(190, named("a")), el("permission", references(*["a"] * 65) + empty("play"))))
    bad(41, "entries over 64 by a kind with start after end, beside 64 that are good", agreed(
        ONE, el("permission", references(*["a"] * 64) + empty("play") + kind(wrong, name="display"))))


# ---- Two faults: which one decides

def two_faults():
    value = limited(el("count", "x"))
    printed, waited = limited(el("accumulated", "PT5S"), name="print"), limited(el("timed-count", "5", timer("1")), name="print")
    wrong = dated("1970-01-01T00:00:06Z", "1970-01-01T00:00:05Z")
    for code, name, text in (
            (41, "another root, then another closing tag", "<a></b>"), (41, "another root, then nothing well formed", "<a><"),
            (41, "another root of one tag, then a second", "<a/><b/>"),
            (40, "another root with an attribute twice", "<a b='' b=''>"),
            (40, "another root, cut", "<a b='1'"), (41, "rights without children, then x", empty("rights") + "x"),
            (41, "rights without children, of two tags, then x", el("rights") + "x"),
            (40, "rights without children, another closing tag", ROOT + "</a>"),
            (40, "text and another closing tag", ROOT + "x</a>"), (40, "text and a tag that is cut", ROOT + "x<o-ex:context"),
            (41, "text and an accepted tag", ROOT + "x<o-ex:context>"),
            (40, "text and an attribute twice", ROOT + "x<o-ex:context a='' a=''>"),
            (40, "not accepted and an attribute twice", ROOT + "<a b='' b=''>"),
            (41, "not accepted and &", ROOT + "<a &>"), (40, "not accepted and cut", ROOT + "<a"),
            (41, "not accepted, then an attribute twice", ROOT + "<a><b c='' c=''>"),
            (41, "not accepted, then another closing tag", ROOT + "<a></b>"),
            (40, "an attribute twice, then not accepted", ROOT + "<o-ex:context b='' b=''><a>"),
            (41, "a value, then x behind rights", value + "x"), (41, "a value, then a <", upto(value, "</o-dd:count>") + "<"),
            (40, "a value cut in front of its closing tag", value.partition("</o-dd:count>")[0]),
            (40, "a value cut in its closing tag", value.partition("</o-dd:count>")[0] + "</o-dd:count"),
            (40, "a value with another closing tag", value.replace("</o-dd:count>", "</o-dd:cont>")),
            (41, "a value with & in its closing tag", value.replace("</o-dd:count>", "</o-dd:count&>")),
            (41, "a value with &, another closing tag", value.replace("x</o-dd:count>", "&</o-dd:cont>")),
            (40, "a value with a control byte", value.replace(">x<", ">\x02<")),
            (41, "a value with & and a control byte", value.replace(">x<", ">&\x02<")),
            (40, "a value with a control byte and &", value.replace(">x<", ">\x02&<")),
            (41, "a value, then another closing tag", value.replace("</o-ex:constraint>", "</a>")),
            (40, "a good value, then another closing tag", limited(el("count", "5")).replace("</o-ex:constraint>", "</a>")),
            (41, "a timer, then another closing tag", limited("<oma-dd:timed-count oma-dd:timer='x'>5</a>")),
            (40, "a timer and an attribute twice", limited(
                "<oma-dd:timed-count oma-dd:timer='x' a='' a=''>5</oma-dd:timed-count>")),
            (40, "a good timer, another closing tag", limited("<oma-dd:timed-count oma-dd:timer='1'>5</a>")),
            (41, "a reference without idref, another closing tag", agreed(ONE, el("permission", "<o-ex:asset></a>"))),
            (40, "a reference without idref and an attribute twice", agreed(ONE, el("permission", "<o-ex:asset a='' a=''/>"))),
            (40, "an id twice in the text and an attribute twice in the tag", agreed(
                ONE, el("permission", "", named("a") + " b='' b=''"))),
            (40, "an idref of nothing and an attribute twice", agreed(
                ONE, el("permission", empty("asset", " o-ex:idref='b' o-ex:idref='a'")))),
            (40, "an idref of nothing and a < in the tag", agreed(ONE, el("permission", "<o-ex:asset o-ex:idref='b' <"))),
            (41, "an idref of nothing, then x behind rights", agreed(ONE, el("permission", references("b"))) + "x"),
            (40, "no uid and another closing tag", ROOT + "<o-ex:context></o-ex:contex>"),
            (41, "no uid, then cut", ROOT + "<o-ex:context></o-ex:context>"),
            (41, "no uid in an empty-element tag, then cut", ROOT + "<o-ex:context/>"),
            (40, "no uid, cut in the empty-element tag", ROOT + "<o-ex:context/"),
            (40, "a number twice and another closing tag", agreed(asset(), asset()[:-len("o-ex:asset>")] + "a>")),
            (40, "a number twice and a control byte in front of the closing tag", agreed(
                asset(), asset(more=el("KeyInfo", "\x02")))),
            (41, "a number twice, then x behind rights", agreed(asset(), asset()) + "x"),
            (40, "a number twice, cut in front of the closing tag", HEAD + asset() + asset()[:-len("</o-ex:asset>")]),
            (40, "start after end, another closing tag for the kind", limited(wrong).replace("</o-dd:play>", "</o-dd:pla>")),
            (40, "start after end, another closing tag for the constraint", limited(wrong).replace("</o-ex:constraint>", "</a>")),
            (40, "start after end, another closing tag for datetime", limited(wrong).replace("</o-dd:datetime>", "</a>")),
            (40, "start after end, cut in front of the kind's closing tag", limited(wrong).partition("</o-dd:play>")[0]),
            (41, "start after end, then cut", limited(wrong).partition("</o-ex:permission>")[0]),
            (41, "start after end, then an attribute twice", limited(wrong).replace(
                "</o-dd:play>", "</o-dd:play><o-dd:print a='' a=''/>")),
            (40, "accumulated on print, another closing tag", printed.replace("</o-dd:print>", "</o-dd:play>")),
            (40, "accumulated on print, cut behind the constraint", printed.partition("</o-dd:print>")[0]),
            (40, "a timer on print, another closing tag", waited.replace("</o-dd:print>", "</a>")),
            (41, "a timer on print, then cut", waited.partition("</o-ex:permission>")[0]),
            (40, "no asset and another closing tag", HEAD + "</a>"), (41, "no asset, then cut", HEAD + "</o-ex:agreement>"),
            (40, "no agreement and another closing tag", ROOT + context("1") + "</a>"),
            (41, "no agreement, then x", ROOT + context("1") + "</o-ex:rights>x"),
            (41, "rights good, & behind it, then x", BARE + "&x"), (40, "rights good, x behind it, then &", BARE + "\nx&"),
            (41, "<!, then nothing well formed", "<!<<<"), (40, "nothing well formed, then <!", "<<<!")):
        bad(code, name, text)


# ---- The examples of 004's appendix C, cut to the accepted elements, with numbers for the identifiers

SPACES = "".join(f'\n  xmlns:{prefix}="{uri}"' for prefix, uri in (
    ("o-ex", "http://odrl.net/1.1/ODRL-EX"), ("o-dd", "http://odrl.net/1.1/ODRL-DD"),
    ("oma-dd", "http://www.openmobilealliance.com/oma-dd"), ("ds", "http://www.w3.org/2000/09/xmldsig#"),
    ("xenc", "http://www.w3.org/2001/04/xmlenc#")))
METHOD = '<xenc:EncryptionMethod Algorithm="http://www.w3.org/2001/04/xmlenc#kw-aes128"/>'
RETRIEVAL = el("KeyInfo", '<ds:RetrievalMethod URI="REKReference"/>')
CIPHER = el("xenc:CipherData", el("xenc:CipherValue", "EncryptedCEK"))
KEY = el("KeyInfo", el("xenc:EncryptedKey", METHOD + RETRIEVAL + CIPHER))       # 7 elements
DIGEST = el(
    "o-ex:digest", '<ds:DigestMethod Algorithm="http://www.w3.org/2000/09/xmldsig#sha1"/>' + el("ds:DigestValue", "DCFHash"))


def issued(name, *parts, object="1"):
    """A rights object as 004 prints it: 5 elements and the parts."""
    text = el("rights", context(object, "2.2") + el("agreement", "".join(parts)), f'{SPACES}\n  o-ex:id="{name}"')
    return text.replace("><", ">\n  <") + "\n"


def appendix():
    year = dated("2004-01-01T00:00:00Z", "2004-12-31T23:59:59Z")
    one, two = asset("cid:1", KEY, named("Asset-1")), asset("cid:2", KEY, named("Asset-2"))
    good(17, "C.1", issued("C.1", asset(more=KEY), el("permission", empty("play"))), "1 key | 1 play")
    bad(41, "C.1 with its digest", issued("C.1", asset(more=DIGEST + KEY), el("permission", empty("play"))))
    bad(41, "C.1 with its identifiers", issued(
        "C.1", asset("ContentID", KEY), el("permission", empty("play")), object="RightsObjectID"))
    good(19, "C.2", issued("C.2", asset(more=KEY), el("permission", kind(el("count", "1"), name="display"))),
         "1 key | 1 display count 1")
    good(32, "C.3", issued("C.3", one, two, el("permission", references("Asset-1", "Asset-2") + empty("display")),
                           el("permission", references("Asset-2") + empty("print"))),
         "1 key; 2 key | 1 display; 2 display; 2 print")
    good(13, "C.4, the parent", issued("C.4p", asset("pid:9"), el("permission", kind(dated(None, "2004-04-30T23:59:59Z")))),
         "9 | 9 play end 1083369599")
    good(18, "C.4, the child", issued("C.4c", asset(more=inherit("pid:9") + KEY), object="2"), "1 inherits 9 key")
    bad(41, "C.5, the parent with its requirement", issued("C.4p", asset("pid:9"), el("permission", el("play", el(
        "constraint", dated(None, "2006-08-01T23:59:59Z")) + el("o-ex:requirement", '<o-dd:tracked oma-dd:timed="10"/>')))))
    good(20, "C.6, the parent", issued("C.5p", asset("pid:9", attributes=' id="1"'), el("permission", kind(
        dated("2006-01-01T00:00:00Z", "2006-02-01T00:00:00Z")) + empty("display")),
        el("permission", kind(el("count", "3")) + el("display"))),
        "9 | 9 play start 1136073600 end 1138752000; 9 display; 9 play count 3; 9 display")
    bad(41, "C.6, the parent with its constraint on a whole permission", issued("C.5p", asset("pid:9"), el(
        "permission", el("constraint", el("count", "10")) + kind(dated("2006-01-01T00:00:00Z")) + empty("display"))))
    child = asset(more=inherit("pid:9") + KEY, attributes=named("1"))
    play = kind(dated("2006-01-15T00:00:00Z", "2006-02-15T00:00:00Z"))
    last = el("permission", references("2") + kind(el("accumulated", "P0DT2H0M00S")))
    good(40, "C.6, the child, its second asset as content 2", issued(
        "C.5c", child, asset("cid:2", KEY, named("2")), el("permission", references("1") + play), last),
        "1 inherits 9 key; 2 key | 1 play start 1137283200 end 1139961600; 2 play accumulated 7200")
    bad(41, "C.6, the child, both assets of one content", issued("C.5c", child, asset("cid:1", KEY, named("2")), last))
    bad(41, "C.6, the child with print in front of display", issued("C.5c", child, el(
        "permission", kind(el("count", "5")) + kind(el("count", "8"), name="print") + kind(el("count", "30"), name="display"))))
    bad(41, "C.6, the child with dates outside datetime", issued(
        "C.5c", child, el("permission", kind(el("start", "2006-04-15T00:00:00Z")))))
    moved = ' oma-dd:mode="move" oma-dd:transcribe="false"'
    good(20, "C.7.1", issued("C.5.1", asset(more=KEY), el("permission", empty("display") + empty("print") + el(
        "export", el("constraint"), moved))), "1 key | 1 display; 1 print; 1 export")
    bad(41, "C.7.1 with its system", issued("C.5.1", asset(more=KEY), el("permission", empty("display") + empty("print") + el(
        "export", el("constraint", el("oma-dd:system", context("XYZ"))), moved))))
    good(46, "C.7.2", issued(
        "C.5.2", one, two, el("permission", el("export", el("constraint", el("count", "1") + year), moved)), el(
        "permission", references("Asset-1") + kind(year)), el("permission", references("Asset-2") + kind(year, name="print"))),
        "1 key; 2 key | 1 export count 1 start 1072915200 end 1104537599; 2 export count 1 start 1072915200 end 1104537599; "
        "1 play start 1072915200 end 1104537599; 2 print start 1072915200 end 1104537599")
    other_key = el("KeyInfo", el("xenc:EncryptedKey", RETRIEVAL + METHOD + CIPHER))
    spring = el("timed-count", "2", timer("1800")) + dated("2004-03-01T00:00:00Z", "2004-06-01T23:59:59Z")
    good(22, "C.8", issued("C.8", asset("cid:1", other_key, named("Asset-1")), el("permission", kind(spring))),
         "1 key | 1 play timed 2 timer 1800 start 1078099200 end 1086134399")
    bad(40, "C.8 with its timer as printed", issued("C.8", asset("cid:1", other_key, named("Asset-1")), el("permission", kind(
        spring.replace('"1800"', "1800")))))
    bad(41, "C.9, version 2.0", issued("C.9", asset(more=other_key), el("permission", empty("play"))).replace("2.2", "2.0"))
    good(29, "C.10", issued("example.1", asset("cid:1", KEY, named("game executable")), asset("cid:2", KEY, named("map pack")), el(
        "permission", references("game executable") + empty("execute")), empty("permission")), "1 key; 2 key | 1 execute")


# ---- Writing

GROUPS = [forms, white_space, not_well_formed, marks, elements, attributes, values, limits_of_zero, book_rules, depth, many_elements,
          many_assets, many_entries, two_faults, appendix]


def cases():
    """(name, text, code, elements, book) of every case, in order; the book is None for a refusal."""
    if not CASES:
        for group in GROUPS:
            group()
    return [(name, text.encode("latin-1"), code, elements, book) for code, elements, name, text, book in CASES]


def shown(text):
    """The text on one line, with the parts that most texts have shortened."""
    line = text.decode("latin-1").replace(HEAD, "{HEAD}").replace("</o-ex:agreement></o-ex:rights>", "{END}")
    line = line.replace(asset(), "{ASSET}").replace(KEY, "{KEY}").replace(SPACES, "{NAMESPACES}")
    line = "".join(each if " " <= each <= "~" else f"\\x{ord(each):02x}" for each in line)
    return line if len(line) <= 400 else f"{line[:190]} .. {line[-190:]}"


def main():
    data, lines, listing, seen = b"", [], [], {}
    for number, (name, text, code, elements, book) in enumerate(cases(), 1):
        told = f"case {number} ({name})"
        assert text not in seen, f"{told} is there already, as {seen[text]}"
        seen[text] = name
        assert len(text) < LONGEST, f"{told} is {len(text)} bytes long"
        got = xml_rights.read(text)
        assert got[:2] == (code, elements), f"{told}: {code} {elements} by hand, {got[0]} {got[1]} by the reader"
        assert got[2] == book, f"{told}: {book} by hand, {got[2]} by the reader"
        data += len(text).to_bytes(4, "big") + text
        if code == 0:
            image = rights.write(book)
            assert rights.read(image) == (0, book), f"{told}: its book is not read back"
            lines.append(f"0 {elements} {image.hex()}\n")
        else:
            lines.append(f"{code}\n")
        listing.append(f"{number:4} {code:2} {elements:3} {len(text):5} {name}: {shown(text)}\n")
    assert len(data) < ALL, f"{len(data)} bytes"
    write_file(CRATES / "test_texts" / "data" / "cases.bin", data)
    write_file(CRATES / "test_texts" / "stdout", "".join(lines).encode())
    head = (f"case, answer, elements, length, name: text\n{{HEAD}} is {HEAD}\n{{ASSET}} is {asset()}\n{{KEY}} is {KEY}\n"
            "{END} is </o-ex:agreement></o-ex:rights>\n{NAMESPACES} are the five of 004\n\n")
    write_file(HERE / "texts.txt", (head + "".join(listing)).encode())
    code, _, book = xml_rights.read((CRATES / "import" / "stdin").read_bytes())
    assert code == 0
    write_file(CRATES / "import" / "stdout", rights.write(book))
    codes = [code for _, _, code, _, _ in cases()]
    print(f"{len(codes)} cases:", ", ".join(f"{codes.count(code)} of {code}" for code in (0, 40, 41, 42)) + f"; {len(data)} bytes")


def write_file(path, data):
    path.parent.mkdir(parents=True, exist_ok=True)
    path.write_bytes(data)


if __name__ == "__main__":
    main()
