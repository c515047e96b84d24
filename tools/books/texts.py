"""A book from its text (`make`), and a book as text (`text`)."""

import rights
from rights import Asset, Book, Entry, Player

from .files import keep_inputs, kind_of, read_image, read_text
from .kept import write_book
from .words import (KINDS, OPERATIONS, TOP, Mistake, Trouble, at_line, is_number, kind_name, lines_of, number_text, request_number, short,
                    time_text)

FLAGS = {"count": 1, "timed": 2, "start": 4, "end": 8, "interval": 16, "accumulated": 32}
METERS = {"count": "used_count", "timed": "used_timed", "accumulated": "used_seconds"}
COUNTS, LENGTHS = 1_000_000, 100_000_000    # the greatest count and timer; the greatest interval and accumulated
SWITCH = {"off": 0, "on": 1}
STORED = [code for code in rights.TAKEN if code]

REFUSED = {
    20: "the file's length is wrong",
    21: "it does not begin with RBK",
    22: "its version is not known",
    23: "it has more than 64 assets or entries, or its time is too late",
    24: "an asset breaks the rules: number 0, a number twice, or key not 0 or 1",
    25: "an entry breaks the rules",
    26: "a player's record, the metering switch or what was taken last breaks the rules",
    27: "what is used or marked does not fit the limits or the open uses",
}


# ---- From text

class Once:
    """The words given in a line, each at most once."""

    def __init__(self):
        self.given = {}

    def __call__(self, thing, word):
        if thing in self.given:
            raise Mistake(f"{thing} is given twice, as `{self.given[thing]}` and as `{word}`"
                          if self.given[thing] != word else f"`{word}` is given twice")
        self.given[thing] = word


class BookText:
    def __init__(self):
        self.book = Book()
        self.once = Once()
        self.entry_lines = {}
        self.player_lines = {}
        self.latest_line = None

    def line(self, words):
        first = words.take("a word")
        read = {"time": self.time, "metering": self.metering, "asset": self.asset, "entry": self.entry, "player": self.player,
                "latest": self.latest}.get(first)
        if read is None:
            raise Mistake(f"a line begins with time, metering, asset, entry, player or latest player, not with `{short(first)}`")
        read(words)

    def time(self, words):
        self.once("the book's time", "time")
        self.book.time = words.time("the time")

    def metering(self, words):
        self.once("the metering switch", "metering")
        self.book.switch = words.of(SWITCH, "switch")

    def asset(self, words):
        asset = Asset(words.number(65_535, "the asset's number", 1))
        if self.book.asset(asset.number):
            raise Mistake(f"asset {asset.number} is in the book already")
        once, parent = Once(), False
        while words:
            word = words.take("a word")
            once(f"`{word}`", word)
            if word == "parent":
                parent = True
            elif word == "key":
                asset.key = 1
            elif word == "inherits":
                asset.inherit = words.number(65_535, "the asset that it inherits from", 1)
            else:
                raise Mistake(f"`{short(word)}` is not understood in an asset")
        if parent != asset.is_parent():
            raise Mistake("an asset is `parent`, `key`, `key, inherits N` or `inherits N`")
        if len(self.book.assets) == rights.MOST:
            raise Mistake("a book has at most 64 assets")
        self.book.assets.append(asset)

    def entry(self, words):
        position = len(self.book.entries)
        if position == rights.MOST:
            raise Mistake("a book has at most 64 entries")
        if words and is_number(words.words[0]) and words.take("the position").lstrip("0") != str(position).lstrip("0"):
            raise Mistake(f"this is entry {position}; entries are numbered from 0 in order, to 63")
        entry, once = Entry(), Once()
        while words:
            self.entry_word(entry, words, once)
        check_entry(self.book, entry)
        self.book.entries.append(entry)
        self.entry_lines[position] = (words.at, words.line)

    def entry_word(self, entry, words, once):
        word = words.take("a word")
        what = f"the {word}"
        if word in KINDS:
            once("the kind", word)
            entry.kind = KINDS[word]
            return
        if word == "used":
            meter = words.of({name: name for name in METERS}, "meter")
            once(f"`used {meter}`", f"used {meter}")
            used = (words.length("what is used", LENGTHS) if meter == "accumulated"
                    else words.number(COUNTS, "what is used"))
            setattr(entry, METERS[meter], used)
            return
        if word == "timed" and words.accept("value"):
            once("`timed value`", "timed value")
            entry.timed_value = words.length("the timed value", TOP)
            return
        once(f"`{word}`", word)
        if word in ("tracked", "mark"):
            setattr(entry, word, 1)
            return
        if word in ("object", "asset"):
            setattr(entry, word, words.number(65_535, f"{what}'s number", 1))
        elif word in ("start", "end"):
            setattr(entry, word, words.time(what, last_second=word == "end"))
        elif word in ("interval", "accumulated"):
            setattr(entry, word, words.length(what, LENGTHS))
        elif word in ("count", "timed"):
            setattr(entry, word, words.number(COUNTS, what))
        elif word == "timer":
            entry.timer = words.length(what, COUNTS)
        elif word == "threshold":
            entry.threshold = words.number(rights.PLAYERS, what)
        elif word == "first":
            entry.started, entry.first = 1, words.time("the time of the first use")
        else:
            raise Mistake(f"`{short(word)}` is not understood in an entry")
        entry.flags |= FLAGS.get(word, 0)

    def player(self, words):
        index = words.number(15, "the player")
        player = self.book.players[index]
        if player != Player():
            raise Mistake(f"player {index} is in the book already")
        if not words.accept("number"):
            raise Mistake("`number` and the player's last number are expected here")
        player.number = request_number(words.take("the number"))
        if player.number == 0:
            raise Mistake("a player's last number is not 0; leave out a player that has not asked yet")
        player.operation = words.of(OPERATIONS, "operation")
        if player.operation == rights.BEGIN:
            player.asset = words.number(65_535, "the asset")
            player.kind = words.of(KINDS, "kind")
        if words.accept("granted"):
            player.entry = words.number(63, "the entry")
            player.answer_until = words.time("until", TOP)
        elif words.accept("refused"):
            player.code, player.entry = words.number(TOP, "the code"), 255
            if player.code not in STORED:
                raise Mistake(f"a stored refusal is 10 to 15, 43 or 44, not {player.code}; what is turned away (1 to 6, 30) is not stored")
        else:
            raise Mistake("the last answer is expected here: `granted ENTRY UNTIL` or `refused CODE`")
        if words.accept("open"):
            player.open, player.open_entry = 1, words.number(63, "the entry of the open use")
            player.begin = words.time("the begin of the open use")
            player.until = words.time("the until of the open use", rights.LATEST + rights.GRANT)
            if words.accept("content"):
                player.content = words.number(65_535, "the content of the open use", 1)
        self.player_lines[index] = (words.at, words.line)

    def latest(self, words):
        if not words.accept("player"):
            raise Mistake("the event taken last is told as `latest player N` or `latest player N, started an interval`")
        self.once("the latest player", "latest player")
        self.book.latest_player = words.number(rights.PLAYERS - 1, "the latest player") + 1
        if words.accept("started"):
            self.book.latest_started = 1
            if not words.accept("an") or not words.accept("interval"):
                raise Mistake("`started an interval` is expected here")
        self.latest_line = (words.at, words.line)


def check_entry(book, entry):
    if entry.object == 0:
        raise Mistake("the entry has no rights object: `object` and a number from 1 to 65535")
    if entry.asset == 0:
        raise Mistake("the entry has no asset: `asset` and its number")
    if book.asset(entry.asset) is None:
        raise Mistake(f"asset {entry.asset} is not in the book above this line")
    if entry.kind == 0:
        raise Mistake(f"the entry has no kind: one of {', '.join(KINDS)}")
    if entry.timer and not entry.has(rights.TIMED):
        raise Mistake("a timer belongs to a timed count: `timed` is missing")
    if entry.has(rights.START) and entry.has(rights.END) and entry.start > entry.end:
        raise Mistake("the start is after the end")
    if entry.is_momentary() and (entry.has(rights.ACCUMULATED) or entry.timer):
        raise Mistake("print and export take no time: no accumulated and no timer")
    if not entry.tracked and (entry.timed_value or entry.mark):
        raise Mistake("a timed value and a mark belong to a tracked entry: `tracked` is missing")
    for name, meter in METERS.items():
        if getattr(entry, meter) and not entry.has(FLAGS[name]):
            raise Mistake(f"`used {name}` belongs to a limit `{name}`, which this entry does not have")
        if getattr(entry, meter) > getattr(entry, name):
            raise Mistake(f"{getattr(entry, meter)} is used of {name}, more than its limit, {getattr(entry, name)}")
    if entry.started and not entry.has(rights.INTERVAL):
        raise Mistake("`first` belongs to an interval, which this entry does not have")


def player_fault(book, player):
    """Why the player's line does not fit the book, or None."""
    entries = len(book.entries)
    if player.code == 0 and player.entry >= entries:
        return f"it was granted entry {player.entry}, but the book has {entries} entries"
    if not player.open:
        return None
    if player.open_entry >= entries:
        return f"it has entry {player.open_entry} open, but the book has {entries} entries"
    entry = book.entries[player.open_entry]
    if entry.is_momentary():
        return f"it has entry {player.open_entry} open, but a {kind_name(entry.kind)} is never open"
    if not player.begin <= book.time < player.until:
        return f"an open use begins at or before the book's time ({book.time}) and ends after it"
    if player.until > book.time + rights.GRANT:
        return f"an open use reaches at most {rights.GRANT} seconds past the book's time ({book.time})"
    if entry.has(rights.START) and player.begin < entry.start or entry.has(rights.END) and player.until > entry.end + 1:
        return f"the open use lies outside the dates of entry {player.open_entry}"
    if entry.has(rights.INTERVAL) and not entry.started:
        return f"it has entry {player.open_entry} open, whose interval has not started: `first` is missing there"
    if entry.has(rights.INTERVAL) and not entry.first <= player.begin < player.until <= entry.first + entry.interval:
        return f"the open use lies outside the interval of entry {player.open_entry}"
    if player.content and book.asset(player.content) is None:
        return f"the content of the open use is {player.content}, which is not in the book"
    if entry.tracked and not player.content:
        return f"entry {player.open_entry} is tracked: `content` and the asset that the open use is for are missing"
    return None


def latest_fault(book):
    """Why the latest player does not fit the book's players, or None."""
    index = book.latest_player - 1
    player = book.players[index]
    if player.number == 0:
        return f"player {index} has not asked yet, so no event of it was taken"
    if not book.latest_started:
        return None
    if not player.open:
        return f"player {index} has nothing open, so its last event opened no use that started an interval"
    entry = book.entries[player.open_entry]
    if not entry.has(rights.INTERVAL):
        return f"player {index} has entry {player.open_entry} open, which has no interval to start"
    if player.begin != entry.first:
        return f"the use of player {index} began at {player.begin}, but the interval of entry {player.open_entry} at {entry.first}"
    if len(book.users(player.open_entry)) > 1:
        return f"others have entry {player.open_entry} open too, so its interval had started before"
    return None


def meter_fault(book, position):
    """Why what is used of an entry does not fit the book, or None."""
    entry = book.entries[position]
    uses = book.users(position)
    seconds = sum(player.until - player.begin for player in uses)
    for name, least in (("count", len(uses)), ("timed", len(uses)), ("accumulated", seconds)):
        if entry.has(FLAGS[name]) and getattr(entry, METERS[name]) < least:
            return f"`used {name}` is less than the players' open uses take, which is {least}"
    if entry.first > book.time:
        return f"the first use is after the book's time ({book.time})"
    if entry.threshold and len(uses) > entry.threshold:
        return f"{len(uses)} players have it open, more than its threshold, {entry.threshold}"
    return None


def book_of_text(path):
    maker = BookText()
    lines_of(path, read_text(path), maker.line)
    book = maker.book
    for index, line in maker.player_lines.items():
        fault = player_fault(book, book.players[index])
        if fault:
            raise at_line(path, *line, fault)
    fault = latest_fault(book) if maker.latest_line else None
    if fault:
        raise at_line(path, *maker.latest_line, fault)
    rights.set_marks(book)      # a text has none: they say the same as the players' open uses
    for position, line in maker.entry_lines.items():
        fault = meter_fault(book, position)
        if fault:
            raise at_line(path, *line, fault)
    return book


def make(path, image, over=False):
    keep_inputs(image, path)
    data = rights.write(book_of_text(path))
    code, _ = rights.read(data)
    if code != 0:
        raise Trouble(f"{path}: the server would refuse this book with {code}: {REFUSED[code]}")
    write_book(image, data, over)


# ---- To text

def load(path):
    return accepted(path, read_image(path))


def accepted(path, data):
    """The book in this image, which is that of this file."""
    code, book = rights.read(data)
    if code != 0:
        raise Trouble(refusal(path, data, code))
    return book


def refusal(path, data, code):
    hint = " (this is a text; `book.py make` makes an image from the text of a book)" if kind_of(data) == "text" else ""
    return f"{path}: the server refuses this image with {code}: {REFUSED[code]}{hint}"


def text(image):
    for line in text_lines(load(image)):
        print(line)


def text_lines(book):
    yield f"time {time_text(book.time)}"
    if book.switch:
        yield "metering on"
    for asset in book.assets:
        yield f"asset {asset.number} {asset_text(asset)}"
    for position, entry in enumerate(book.entries):
        yield f"entry {position}: {entry_text(entry)}"
    for index, player in enumerate(book.players):
        if player.number != 0:
            yield f"player {index}: {player_text(player)}"
    if book.latest_player:
        yield f"latest player {latest_text(book)}"


def latest_text(book):
    """The player of the event taken last, and whether that opened a use that started an interval."""
    if not book.latest_player:
        return "none"
    return f"{book.latest_player - 1}" + ", started an interval" * book.latest_started


def asset_text(asset):
    if asset.is_parent():
        return "parent"
    return ", ".join(["key"] * asset.key + [f"inherits {asset.inherit}"] * (asset.inherit != 0))


def entry_text(entry):
    parts = [f"object {entry.object}", f"asset {entry.asset}", kind_name(entry.kind)]
    for name, flag in FLAGS.items():
        value = getattr(entry, name)
        if entry.has(flag):
            parts.append(f"{name} {time_text(value) if name in ('start', 'end') else value}")
        if name == "timed" and entry.timer:
            parts.append(f"timer {entry.timer}")
    if entry.tracked:
        parts += ["tracked"] + [f"timed value {entry.timed_value}"] * (entry.timed_value != 0) + ["mark"] * entry.mark
    if entry.threshold:
        parts.append(f"threshold {entry.threshold}")
    if entry.started:
        parts.append(f"first {time_text(entry.first)}")
    parts += [f"used {name} {getattr(entry, meter)}" for name, meter in METERS.items() if getattr(entry, meter)]
    return ", ".join(parts)


def request_text(player):
    name = next(name for name, value in OPERATIONS.items() if value == player.operation)
    return f"{name} {player.asset} {kind_name(player.kind)}" if player.operation == rights.BEGIN else name


def answer_text(player):
    return f"refused {player.code}" if player.code else f"granted {player.entry} {time_text(player.answer_until)}"


def open_text(player):
    content = f" content {player.content}" if player.content else ""
    return f"open {player.open_entry} {time_text(player.begin)} {time_text(player.until)}{content}"


def player_text(player):
    parts = [f"number {number_text(player.number)}", request_text(player), answer_text(player)]
    return ", ".join(parts + [open_text(player)] * player.open)
