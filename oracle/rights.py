"""The rights server a second time, in plain Python, from document 01 and the orders of document 02 alone.

It holds the book, reads and writes its image, decodes an event record and answers one event, which is lent the lines of the usage
report. It shares nothing with the proved program, so an answer on which both agree was reached twice.
"""

import copy
import math
import struct
from dataclasses import dataclass, field

LATEST = 4_000_000_000      # the last time that a book or an event may have
LAST_NUMBER = 2 ** 64 - 1   # nothing follows this event number
GRANT = 60                  # seconds that a begin or a continue gives at most
PLAYERS = 16
MOST = 64                   # assets, and entries

BEGIN, CONTINUE, STOP, CANCEL = 1, 2, 3, 4
PLAY, DISPLAY, EXECUTE, PRINT, EXPORT = 1, 2, 3, 4, 5
COUNT, TIMED, START, END, INTERVAL, ACCUMULATED = 1, 2, 4, 8, 16, 32

TAKEN = (0, 10, 11, 12, 13, 14, 15, 43, 44)
LINES = 64                  # of a report, at most
GREAT = 2 ** 62             # no number in a report may be this or more


# ---- The book

@dataclass
class Asset:
    number: int = 0
    inherit: int = 0
    key: int = 0

    def is_parent(self):
        return self.key == 0 and self.inherit == 0


@dataclass
class Entry:
    object: int = 0
    asset: int = 0
    kind: int = 0
    flags: int = 0
    count: int = 0
    timed: int = 0
    timer: int = 0
    start: int = 0
    end: int = 0
    interval: int = 0
    accumulated: int = 0
    used_count: int = 0
    used_timed: int = 0
    first: int = 0
    used_seconds: int = 0
    started: int = 0
    tracked: int = 0
    timed_value: int = 0
    mark: int = 0           # contentAccessGranted
    threshold: int = 0      # how many players may have the entry open together (order 7); 0 for any number
    marks: int = 0          # bit p: player p has it open

    def has(self, flag):
        return self.flags & flag != 0

    def is_momentary(self):
        return self.kind in (PRINT, EXPORT)

    def has_limit_of_zero(self):
        """Whether a flagged count, timed count, interval or accumulated is 0 (order 2). A timer, a start or an end of 0 is none."""
        return (self.has(COUNT) and self.count == 0 or self.has(TIMED) and self.timed == 0
                or self.has(INTERVAL) and self.interval == 0 or self.has(ACCUMULATED) and self.accumulated == 0)


@dataclass
class Player:
    number: int = 0
    operation: int = 0
    asset: int = 0
    kind: int = 0
    code: int = 0
    entry: int = 0
    answer_until: int = 0
    open: int = 0
    open_entry: int = 0
    begin: int = 0
    until: int = 0
    content: int = 0        # the asset that the begin of the open use asked for


@dataclass
class Book:
    time: int = 0
    assets: list = field(default_factory=list)
    entries: list = field(default_factory=list)
    players: list = field(default_factory=lambda: [Player() for _ in range(PLAYERS)])
    switch: int = 0         # whether uses are metered
    latest_player: int = 0  # the player of the event taken last, plus 1 (order 8); 0 for none
    latest_started: int = 0 # whether that event opened a use that started an interval

    def asset(self, number):
        for asset in self.assets:
            if asset.number == number:
                return asset
        return None

    def users(self, position):
        """The players that have the entry at this position open."""
        return [player for player in self.players if player.open and player.open_entry == position]


@dataclass
class Line:
    """One line of the usage report."""
    content: int = 0
    times: int = 0
    seconds: int = 0


@dataclass(frozen=True)
class Event:
    player: int
    number: int
    operation: int
    asset: int
    kind: int
    time: int


def refused(code):
    return (code, 255, 0)


# ---- The usage report (order 3): a list of lines, lent to each event

def zeros(book):
    """The report of this book before its first event, no longer than needed: what the run program lends."""
    return [Line(asset.number) for asset in book.assets]


def list_is_good(book, lines):
    """Whether the first lines name the assets in the book's order, there are at most 64, and no number is too great."""
    return (len(book.assets) <= len(lines) <= LINES
            and all(asset.number == line.content for asset, line in zip(book.assets, lines))
            and all(line.content < GREAT and line.times < GREAT and line.seconds < GREAT for line in lines))


def record_use(book, entry, content, seconds, lines):
    """A use of this entry has ended. With the switch on, a tracked one is recorded."""
    if book.switch and entry.tracked:
        line = lines[book.assets.index(book.asset(content))]
        line.seconds += seconds
        if seconds >= entry.timed_value:
            line.times += 1


# ---- One event: step(book, event, lines) changes the book and the lines and returns (code, entry, until)

def step(book, event, lines):
    """Of an event, or of the number that turns its record away. A list that is not good goes before everything."""
    if not list_is_good(book, lines):
        return refused(30)
    return refused(event) if isinstance(event, int) else answered(book, event, lines)


def answered(book, event, lines):
    if event.player >= PLAYERS:
        return refused(2)
    if not request_is_good(event.operation, event.asset, event.kind):
        return refused(1)
    player = book.players[event.player]
    if event.number != 0 and event.number == player.number:
        if (event.operation, event.asset, event.kind) == (player.operation, player.asset, player.kind):
            return (player.code, player.entry, player.answer_until)
        return refused(4)
    if not is_in_line(player.number, event.number):
        return refused(3)
    if event.time < book.time or event.time > LATEST:
        return refused(5)
    book.time = event.time
    settle(book, event.time, lines)
    if event.operation == BEGIN:
        answer = begin(book, player, event.asset, event.kind, event.time, lines)
    elif event.operation == CONTINUE:
        answer = go_on(book, player, event.time)
    elif event.operation == STOP:
        answer = stop(book, player, event.time, lines)
    else:
        answer = cancel(book, player)
    note_last(book, event, answer)
    player.number = event.number
    player.operation, player.asset, player.kind = event.operation, event.asset, event.kind
    player.code, player.entry, player.answer_until = answer
    return answer


def request_is_good(operation, asset, kind):
    if operation == BEGIN:
        return PLAY <= kind <= EXPORT
    return operation in (CONTINUE, STOP, CANCEL) and asset == 0 and kind == 0


def boot_of(number):
    """The number that a player puts before its counter (order 4); 0 if it has none."""
    return number >> 32


def counter_of(number):
    return number % 2 ** 32


def is_in_line(last, number):
    """Whether this event number may come after the player's last one: the next one, or (order 4) "counter 1 under a greater boot
    number"."""
    follows = last != LAST_NUMBER and number == last + 1
    return follows or boot_of(number) > boot_of(last) and counter_of(number) == 1


def settle(book, t, lines):
    """Ends each open use whose until has come."""
    for player in book.players:
        if player.open and player.until <= t:
            end_use(book, player, player.until, lines)


def end_use(book, player, end, lines):
    """Close the player's use; one shorter than the timer gives its timed count back."""
    entry = book.entries[player.open_entry]
    if entry.has(TIMED) and end - player.begin < entry.timer:
        entry.used_timed -= 1
    record_use(book, entry, player.content, end - player.begin, lines)
    close_use(book, player)


def close_use(book, player):
    book.entries[player.open_entry].marks &= ~mark_of(book, player)
    player.open = player.open_entry = player.begin = player.until = player.content = 0


def mark_of(book, player):
    """Order 7: "bit p for player p"."""
    return next(1 << p for p, each in enumerate(book.players) if each is player)


def begin(book, player, number, kind, t, lines):
    if player.open:
        return refused(11)
    asset = book.asset(number)
    if asset is None or asset.key == 0:
        return refused(10)
    suitable = suitable_entries(book, asset, kind)
    if not suitable:
        return refused(12)
    grantable = [p for p in suitable if is_grantable(book, book.entries[p], t)]
    if not grantable:
        return refused(none_grantable(book, suitable, t))
    position = min(grantable, key=lambda p: rank(book.entries[p], p, number))
    entry = book.entries[position]
    if entry.is_momentary():
        until = t
    else:
        first = entry.first if entry.started else t
        until = least_until(entry, first, t, t)
    if entry.has(COUNT):
        entry.used_count += 1
    if entry.has(TIMED):
        entry.used_timed += 1
    if entry.has(ACCUMULATED):
        entry.used_seconds += until - t
    starts = entry.has(INTERVAL) and not entry.started
    if starts:
        entry.started, entry.first = 1, t
    book.latest_started = int(starts and not entry.is_momentary())
    if entry.is_momentary():
        record_use(book, entry, number, 0, lines)
    else:
        player.open, player.open_entry, player.begin, player.until, player.content = 1, position, t, until, number
        entry.marks |= mark_of(book, player)
    return (0, position, until)


def suitable_entries(book, asset, kind):
    """Positions of the asset's own entries of this kind, and of those of its inherit if that is a parent."""
    owners = {asset.number}
    parent = book.asset(asset.inherit) if asset.inherit else None
    if parent is not None and parent.is_parent():
        owners.add(parent.number)
    return [p for p, e in enumerate(book.entries) if e.kind == kind and e.asset in owners]


def is_grantable(book, entry, t):
    return limits_allow(entry, t) and not fails_for_switch(book, entry)


def fails_for_switch(book, entry):
    """Order 3: "With the switch off a tracked entry is grantable only with mark 1"."""
    return book.switch == 0 and entry.tracked == 1 and entry.mark != 1


def none_grantable(book, suitable, t):
    """13; 43 if for some entry of these there is no ground but the switch."""
    only_switch = [p for p in suitable if fails_for_switch(book, book.entries[p]) and limits_allow(book.entries[p], t)]
    return 43 if only_switch else 13


def limits_allow(entry, t):
    if entry.has_limit_of_zero():
        return False
    if entry.has(COUNT) and entry.used_count >= entry.count:
        return False
    if entry.has(TIMED) and entry.used_timed >= entry.timed:
        return False
    if entry.has(START) and t < entry.start:
        return False
    if entry.has(END) and t > entry.end:
        return False
    if entry.has(INTERVAL) and entry.started and t >= entry.first + entry.interval:
        return False
    if entry.has(ACCUMULATED) and entry.used_seconds >= entry.accumulated:
        return False
    return not is_full(entry)


def is_full(entry):
    """Order 7: of the marks, "how many are set is compared with the threshold". A momentary use never opens, so it sets none."""
    return entry.threshold != 0 and entry.marks.bit_count() >= entry.threshold


def rank(entry, position, asked):
    """The least rank is chosen: rules (i), (iv) and (v) of the choice, and order 6's earlier last moment in place of (ii) and (iii)."""
    return (0 if entry.flags == 0 else 1, last_moment(entry), 0 if entry.asset == asked else 1, position)


def last_moment(entry):
    """Order 6: "the least of end + 1 and, if started, first + interval; an entry with neither comes last"."""
    moments = []
    if entry.has(END):
        moments.append(entry.end + 1)
    if entry.has(INTERVAL) and entry.started:
        moments.append(entry.first + entry.interval)
    return min(moments, default=math.inf)


def least_until(entry, first, t, paid_to):
    """The least of the bounds; the seconds already counted reach up to paid_to."""
    bounds = [t + GRANT]
    if entry.has(END):
        bounds.append(entry.end + 1)
    if entry.has(INTERVAL):
        bounds.append(first + entry.interval)
    if entry.has(ACCUMULATED):
        bounds.append(paid_to + entry.accumulated - entry.used_seconds)
    return min(bounds)


def go_on(book, player, t):
    if not player.open:
        return refused(14)
    entry = book.entries[player.open_entry]
    until = least_until(entry, entry.first, t, player.until)
    if until == player.until:
        return refused(15)
    if entry.has(ACCUMULATED):
        entry.used_seconds += until - player.until
    player.until = until
    return (0, player.open_entry, until)


def stop(book, player, t, lines):
    if not player.open:
        return refused(14)
    position = player.open_entry
    entry = book.entries[position]
    if entry.has(ACCUMULATED):
        entry.used_seconds -= player.until - t
    end_use(book, player, t, lines)
    return (0, position, t)


# Order 8: a begin is taken back

def cancel(book, player):
    if not player.open:
        return refused(14)
    if not may_cancel(book, player):
        return refused(44)
    position, begun = player.open_entry, player.begin
    take_off(book, player)
    close_use(book, player)
    return (0, position, begun)


def may_cancel(book, player):
    """Whether the last event taken was this player's begin of the open use: it is "known by the header's player and its stored request and
    answer (a begin, 0, the open use's entry and until)"."""
    last = book.players[book.latest_player - 1] if book.latest_player else None
    answer = (player.code, player.entry, player.answer_until)
    return last is player and player.operation == BEGIN and answer == (0, player.open_entry, player.until)


def take_off(book, player):
    """The rises of the begin of the open use; its timed count whatever the timer."""
    entry = book.entries[player.open_entry]
    if entry.has(COUNT):
        entry.used_count -= 1
    if entry.has(TIMED):
        entry.used_timed -= 1
    if entry.has(ACCUMULATED):
        entry.used_seconds -= player.until - player.begin
    if book.latest_started:
        entry.started = entry.first = 0


def note_last(book, event, answer):
    """Every taken event writes the header, a refused one too; a granted begin has told there already whether it opened a use that
    started an interval."""
    book.latest_player = event.player + 1
    if event.operation != BEGIN or answer[0] != 0:
        book.latest_started = 0


# ---- Bytes: big-endian fields, one behind the other

RECORD_FIELDS = [("player", 1), ("number", 8), ("operation", 1), ("asset", 2), ("kind", 1), ("time", 4)]
HEADER_FIELDS = [("switch", 4), ("latest_player", 4), ("latest_started", 4)]      # behind the first eleven bytes
ASSET_FIELDS = [("number", 2), ("inherit", 2), ("key", 1)]
ENTRY_FIELDS = [
    ("object", 2), ("asset", 2), ("kind", 1), ("flags", 1), ("count", 4), ("timed", 4), ("timer", 4), ("start", 4),
    ("end", 4), ("interval", 4), ("accumulated", 4), ("used_count", 4), ("used_timed", 4), ("first", 4),
    ("used_seconds", 4), ("started", 1), ("tracked", 4), ("timed_value", 4), ("mark", 4), ("threshold", 4), ("marks", 4)]
PLAYER_FIELDS = [
    ("number", 8), ("operation", 1), ("asset", 2), ("kind", 1), ("code", 1), ("entry", 1), ("answer_until", 4),
    ("open", 1), ("open_entry", 1), ("begin", 4), ("until", 4), ("content", 4)]


class Layout:
    def __init__(self, make, fields):
        self.make, self.names = make, [name for name, _ in fields]
        self.packed = struct.Struct(">" + "".join({1: "B", 2: "H", 4: "I", 8: "Q"}[width] for _, width in fields))
        self.size = self.packed.size

    def read(self, data, at=0):
        return self.make(**dict(zip(self.names, self.packed.unpack_from(data, at))))

    def written(self, item):
        return self.packed.pack(*[getattr(item, name) for name in self.names])


RECORD = Layout(Event, RECORD_FIELDS)
ASSET = Layout(Asset, ASSET_FIELDS)


class Version:
    """The widths of an image: what its header has behind the first eleven bytes, an entry, a player."""

    def __init__(self, header_fields, entry_fields, player_fields):
        self.header = Layout(dict, header_fields)
        self.entry, self.player = Layout(Entry, entry_fields), Layout(Player, player_fields)

    def length(self, assets, entries):
        return HEADER + self.header.size + ASSET.size * assets + self.entry.size * entries + self.player.size * PLAYERS


def before(fields, name):
    return fields[:[each for each, _ in fields].index(name)]


SHORT_NUMBER = [("number", 4)] + PLAYER_FIELDS[1:]      # a player before order 4
NO_THRESHOLD = before(ENTRY_FIELDS, "threshold")        # an entry before order 7
SWITCH = before(HEADER_FIELDS, "latest_player")            # the header before order 8


HEADER = 11                 # bytes that every version begins with: mark, version, numbers, time
VERSIONS = {                # 2, 4 and 5 add fields behind those that were there, 3 widens a player's number in its place
    1: Version([], before(ENTRY_FIELDS, "tracked"), before(SHORT_NUMBER, "content")),
    2: Version(SWITCH, NO_THRESHOLD, SHORT_NUMBER),
    3: Version(SWITCH, NO_THRESHOLD, PLAYER_FIELDS),
    4: Version(SWITCH, ENTRY_FIELDS, PLAYER_FIELDS),
    5: Version(HEADER_FIELDS, ENTRY_FIELDS, PLAYER_FIELDS)}
NEWEST = max(VERSIONS)


# ---- An event record

def records_in(data):
    """The records, the last one perhaps cut short."""
    return [data[at:at + RECORD.size] for at in range(0, len(data), RECORD.size)]


def decode(record):
    """The event in a record, or the number 6, 2 or 1 that turns it away."""
    if len(record) != RECORD.size:
        return 6
    event = RECORD.read(record)
    if event.player >= PLAYERS:
        return 2
    if not request_is_good(event.operation, event.asset, event.kind):
        return 1
    return event


def encode(event):
    return RECORD.written(event)


def answer_record(book, record, lines):
    return step(book, decode(record), lines)


def lent(book, record, lines):
    """The answer to a record that is lent these lines, the book and the lines after it; what was passed in stays."""
    book, lines = copy.deepcopy(book), copy.deepcopy(lines)
    return answer_record(book, record, lines), book, lines


def run(image, records):
    """What the run program prints, as text, given the image's bytes and the bytes of its input."""
    code, book = read(image)
    if code != 0:
        return f"{code}\n"
    lines = zeros(book)
    return "".join("%d %d %d\n" % answer_record(book, record, lines) for record in records_in(records))


def report_of(image, records):
    """The lines of the report after these records, from zeros; none for a refused image."""
    code, book = read(image)
    if code != 0:
        return []
    lines = zeros(book)
    for record in records_in(records):
        answer_record(book, record, lines)
    return lines


# ---- The image

def number_of(data):
    return int.from_bytes(data, "big")


def write(book, version=NEWEST):
    """The image. An older version, for trying out old images, loses what it has no field for; a number must fit it."""
    layouts = VERSIONS[version]
    data = b"RBK" + version.to_bytes(2, "big") + bytes([len(book.assets), len(book.entries)])
    data += book.time.to_bytes(4, "big") + layouts.header.written(book)
    for layout, items in ((ASSET, book.assets), (layouts.entry, book.entries), (layouts.player, book.players)):
        data += b"".join(map(layout.written, items))
    return data


def read(data):
    """(0, the book) for an accepted image, (20 to 27, None) for a refused one."""
    if len(data) < HEADER:
        return 20, None
    if data[0:3] != b"RBK":
        return 21, None
    layouts = VERSIONS.get(number_of(data[3:5]))
    if layouts is None:
        return 22, None
    assets, entries, time = data[5], data[6], number_of(data[7:11])
    if assets > MOST or entries > MOST or time > LATEST:
        return 23, None
    if len(data) != layouts.length(assets, entries):
        return 20, None
    book, at = Book(time, **layouts.header.read(data, HEADER)), HEADER + layouts.header.size
    book.assets, at = take(data, at, ASSET, assets)
    book.entries, at = take(data, at, layouts.entry, entries)
    book.players, at = take(data, at, layouts.player, PLAYERS)
    if not assets_are_good(book):
        return 24, None
    if not all(entry_is_good(book, entry) for entry in book.entries):
        return 25, None
    if not header_is_good(book) or not all(player_is_good(book, player) for player in book.players):
        return 26, None
    if "marks" not in layouts.entry.names:
        set_marks(book)
    if not all(meters_are_good(book, position) for position in range(entries)):
        return 27, None
    return 0, book


def take(data, at, layout, how_many):
    end = at + layout.size * how_many
    return [layout.read(data, each) for each in range(at, end, layout.size)], end


def set_marks(book):
    """Order 7: "Older images get marks set from their open uses"."""
    for position, entry in enumerate(book.entries):
        entry.marks = open_marks(book, position)


def open_marks(book, position):
    """A mark for each player that has the entry at this position open."""
    return sum(mark_of(book, player) for player in book.users(position))


def assets_are_good(book):
    numbers = [asset.number for asset in book.assets]
    return (0 not in numbers and len(set(numbers)) == len(numbers)
            and all(asset.key in (0, 1) for asset in book.assets))


def all_within(entry, bounds):
    """Whether each flagged number is within its bounds, and every other is 0."""
    return all(least <= number <= greatest if entry.has(flag) else number == 0 for flag, number, least, greatest in bounds)


def entry_is_good(book, entry):
    if entry.object == 0 or book.asset(entry.asset) is None:
        return False
    if not PLAY <= entry.kind <= EXPORT or entry.flags > 63:
        return False
    limits = [
        (COUNT, entry.count, 0, 1_000_000), (TIMED, entry.timed, 0, 1_000_000), (TIMED, entry.timer, 0, 1_000_000),
        (START, entry.start, 0, LATEST), (END, entry.end, 0, LATEST), (INTERVAL, entry.interval, 0, 100_000_000),
        (ACCUMULATED, entry.accumulated, 0, 100_000_000)]
    if not all_within(entry, limits):
        return False
    if entry.has(START) and entry.has(END) and entry.start > entry.end:
        return False
    if entry.is_momentary() and (entry.has(ACCUMULATED) or entry.timer != 0):
        return False
    return track_is_good(entry) and threshold_is_good(entry)


def track_is_good(entry):
    if entry.tracked == 0:
        return (entry.timed_value, entry.mark) == (0, 0)
    return entry.tracked == 1 and entry.mark in (0, 1)


def threshold_is_good(entry):
    return entry.threshold <= PLAYERS


def header_is_good(book):
    return book.switch in (0, 1) and last_is_good(book)


def last_is_good(book):
    """Order 8: "that player's number is not 0, and this needs its use to be an interval entry's only open one, begun at first"."""
    if book.latest_player > PLAYERS or book.latest_started > 1:
        return False
    if book.latest_player == 0:
        return book.latest_started == 0
    player = book.players[book.latest_player - 1]
    return player.number != 0 and (book.latest_started == 0 or started_an_interval(book, player))


def started_an_interval(book, player):
    if player.open == 0 or player.open_entry >= len(book.entries):
        return False
    entry = book.entries[player.open_entry]
    return entry.has(INTERVAL) and player.begin == entry.first and len(book.users(player.open_entry)) == 1


def player_is_good(book, player):
    if player.number == 0:
        return player == Player()
    if not request_is_good(player.operation, player.asset, player.kind):
        return False
    if player.code == 0:
        if player.entry >= len(book.entries):
            return False
    elif player.code not in TAKEN or player.entry != 255 or player.answer_until != 0:
        return False
    if player.open == 0:
        return (player.open_entry, player.begin, player.until, player.content) == (0, 0, 0, 0)
    return player.open == 1 and open_use_is_good(book, player)


def open_use_is_good(book, player):
    if not player.begin <= book.time < player.until <= book.time + GRANT:
        return False
    if player.open_entry >= len(book.entries):
        return False
    entry = book.entries[player.open_entry]
    if entry.kind not in (PLAY, DISPLAY, EXECUTE):
        return False
    if entry.has(START) and player.begin < entry.start:
        return False
    if entry.has(END) and player.until > entry.end + 1:
        return False
    if entry.has(INTERVAL):
        if entry.started != 1 or player.begin < entry.first or player.until > entry.first + entry.interval:
            return False
    return content_is_good(book, entry, player.content)


def content_is_good(book, entry, content):
    """Whether an open use of this entry may have this content: an asset of the book, or 0 where the entry is not tracked."""
    return content == 0 and entry.tracked == 0 or book.asset(content) is not None


def meters_are_good(book, position):
    entry = book.entries[position]
    uses = book.users(position)
    seconds = sum(player.until - player.begin for player in uses)
    meters = [
        (COUNT, entry.used_count, len(uses), entry.count), (TIMED, entry.used_timed, len(uses), entry.timed),
        (ACCUMULATED, entry.used_seconds, seconds, entry.accumulated)]
    if not all_within(entry, meters):
        return False
    if entry.started > 1 or (entry.started == 0 and entry.first != 0) or entry.first > book.time:
        return False
    if not entry.has(INTERVAL) and entry.started:
        return False
    return marks_are_good(book, position)


def marks_are_good(book, position):
    """Order 7: 27 "where marks and open uses differ or exceed a threshold"."""
    entry = book.entries[position]
    if entry.marks != open_marks(book, position):
        return False
    return entry.threshold == 0 or entry.marks.bit_count() <= entry.threshold
