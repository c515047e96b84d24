"""Random days: books and events crowded enough to reach the rules' edge cases.

Few assets, few entries, small limits and short time steps, so that limits are reached, uses lapse, entries
compete and players ask again. The same seed gives the same day on every machine.

    python3 oracle/days.py

writes the stored days, random ones and then those of written_days.py: `crates/test_days/data/days.bin`, for each day the length
of its image in 32 bits, big-endian, the image, the length of its event bytes in 32 bits, and those bytes, to the end of the file;
and `crates/test_days/stdout`, for each day a line `day N`, N from 1, what the run program prints for it, and `used CONTENT TIMES
SECONDS` for each line of its report that is no longer zeros.
"""

import copy
import random
from pathlib import Path

import rights
import written_days
from rights import (ACCUMULATED, BEGIN, CANCEL, CONTINUE, COUNT, END, INTERVAL, LAST_NUMBER, LATEST, START, STOP, TIMED, Asset,
                    Book, Entry, Event)

STORED = Path(__file__).resolve().parent.parent / "crates" / "test_days"
TOP = 4_294_967_295         # the greatest 32-bit number
BOOT = 2 ** 32              # what one boot number makes of a player's number
ZERO = 0.1                  # how many of the flagged counts, timed counts, intervals and accumulated are 0
OLD = 0.2                   # how many of the images are of an older version


# ---- Books

def fresh_book(rng, around):
    """A legal book with nothing used yet, and dates near the time `around`."""
    book = Book()
    numbers = rng.sample(range(1, 9), rng.randint(1, 5))
    for number in numbers:
        key = rng.choice((1, 1, 1, 1, 0)) if book.assets or rng.random() < 0.1 else 1
        inherit = rng.choice((0, rng.choice(numbers), 9, 9))
        book.assets.append(Asset(number, inherit, key))
    if rng.random() < 0.8:
        book.assets.append(Asset(9, 0, 0))
    for _ in range(rng.choice((0, 1, 2, 4, 6, 8, 8))):
        book.entries.append(fresh_entry(rng, rng.choice(book.assets).number, around))
    track(rng, book)
    set_thresholds(rng, book)
    return book


def track(rng, book):
    """Switch, tracks and marks: on some days none or few of the entries are tracked, on some nearly all."""
    book.switch = rng.choice((0, 1, 1))
    share = rng.choice((0, 0.3, 0.7, 1))
    for entry in book.entries:
        if rng.random() < share:
            entry.tracked, entry.mark = 1, rng.choice((0, 0, 1))
            entry.timed_value = rng.choice((0, 0, 1, 2, 5, 20, 59, 60, 61, 90, 120, TOP))


def set_thresholds(rng, book):
    """Mostly small ones, so that they are often full: on some days no entry has one, on some all have."""
    share = rng.choice((0, 0.3, 0.7, 1))
    for entry in book.entries:
        if rng.random() < share:
            entry.threshold = rng.choice((1, 1, 1, 2, 2, 3, 4, 16))


def limit(rng, number):
    """A limit, or 0: an entry with that is never granted."""
    return 0 if rng.random() < ZERO else number


def fresh_entry(rng, asset, around):
    kind = rng.choice((1, 1, 1, 2, 3, 4, 5))
    flags = sum(flag for flag in (COUNT, TIMED, START, END, INTERVAL, ACCUMULATED) if rng.random() < 0.3)
    return entry_with(rng, asset, kind, flags, around)


def entry_with(rng, asset, kind, flags, around):
    if kind >= 4:
        flags &= ~ACCUMULATED
    entry = Entry(rng.randint(1, 3), asset, kind, flags)
    if flags & COUNT:
        entry.count = limit(rng, rng.randint(1, 6))
    if flags & TIMED:
        entry.timed = limit(rng, rng.randint(1, 3))
        entry.timer = rng.choice((0, 1, 20, 60, 61, 90)) if kind < 4 else 0
    if flags & START:
        entry.start = min(LATEST, max(0, around + rng.randint(-50, 200)))
    if flags & END:
        entry.end = min(LATEST, max(entry.start, around + rng.choice((50, 150, 150, 300, 900))))
    if flags & INTERVAL:
        entry.interval = limit(rng, rng.choice((1, 30, 90, 300, 100_000_000)))
    if flags & ACCUMULATED:
        entry.accumulated = limit(rng, rng.choice((1, 50, 100, 250, 1000)))
    return entry


def wide_book(rng, around):
    """Up to 64 assets with any numbers and up to 64 entries: many own and inherited ones for the same request."""
    book = Book()
    how_many = rng.choice((20, 40, 63, 64))
    numbers = rng.sample(range(1, 65_536), how_many)
    parents = numbers[:rng.randint(1, 4)]
    for number in numbers:
        if number in parents:
            book.assets.append(Asset(number, 0, 0))
        else:
            inherit = rng.choice((0, rng.choice(parents), rng.choice(parents), rng.choice(numbers)))
            book.assets.append(Asset(number, inherit, rng.choice((1, 1, 1, 1, 1, 0))))
    rng.shuffle(book.assets)
    favoured = parents + rng.sample(numbers, 3)
    for _ in range(rng.choice((16, 32, 63, 64))):
        asset = rng.choice(favoured) if rng.random() < 0.8 else rng.choice(numbers)
        entry = fresh_entry(rng, asset, around)
        if entry.has(COUNT) and rng.random() < 0.2:
            entry.count = 1_000_000
        entry.object = rng.choice((1, 2, 65_535))
        book.entries.append(entry)
    track(rng, book)
    set_thresholds(rng, book)
    return book


def greatest_limits(rng, book):
    """Raises some of the book's limits to the greatest that the rules allow."""
    for entry in book.entries:
        if entry.has(COUNT) and rng.random() < 0.5:
            entry.count = 1_000_000
        if entry.has(TIMED) and not entry.is_momentary() and rng.random() < 0.5:
            entry.timer = 1_000_000
        if entry.has(INTERVAL) and rng.random() < 0.5:
            entry.interval = 100_000_000
        if entry.has(ACCUMULATED) and rng.random() < 0.5:
            entry.accumulated = 100_000_000
        if entry.has(END) and rng.random() < 0.5:
            entry.end = LATEST
        if rng.random() < 0.2:
            entry.threshold = rights.PLAYERS


def stretch(rng, book, around, times):
    """Raises limits with the length of the day, so that not all of them are reached early."""
    for entry in book.entries:
        if rng.random() < 0.2:
            continue
        entry.count = min(1_000_000, entry.count * rng.randint(1, times))
        entry.timed = min(1_000_000, entry.timed * rng.randint(1, times))
        entry.accumulated *= rng.randint(1, times)
        if entry.interval > 1:
            entry.interval = min(100_000_000, entry.interval * rng.randint(1, times))
        if entry.has(END):
            entry.end = min(LATEST, max(entry.end, around + (entry.end - around) * rng.randint(1, times)))


def subscription_book(rng, around):
    """One season subscription shared by all cabins, and a few contents that inherit from it."""
    book = Book(assets=[Asset(9, 0, 0)] + [Asset(number, 9, 1) for number in range(1, rng.randint(2, 5))])
    for _ in range(rng.randint(1, 4)):
        entry = fresh_entry(rng, rng.choice((9, 9, 9, 1)), around)
        entry.kind, entry.flags = 1, entry.flags | rng.choice((COUNT, TIMED, ACCUMULATED))
        limits_for_many(rng, entry)
        book.entries.append(entry)
    track(rng, book)
    set_thresholds(rng, book)
    return book


def limits_for_many(rng, entry):
    """Limits that last for several players."""
    if entry.has(COUNT):
        entry.count = limit(rng, rng.randint(1, 40))
    if entry.has(TIMED):
        entry.timed, entry.timer = limit(rng, rng.randint(1, 8)), 0 if entry.is_momentary() else rng.choice((0, 10, 30, 60, 120))
    if entry.has(ACCUMULATED):
        entry.accumulated = limit(rng, rng.choice((100, 500, 3000)))


def group_book(rng, around):
    """A few group packs that several contents inherit, some of a content's own. Most thresholds are small; on some days one or two packs
    are for nearly all players."""
    contents = list(range(1, rng.randint(2, 5)))
    book = Book(assets=[Asset(9, 0, 0)] + [Asset(number, 9, 1) for number in contents])
    for_all = rng.random() < 0.2
    kinds = rng.choice(((1,), (2,), (3,)) if for_all else ((1,), (1,), (2,), (3,), (1, 2), (1, 4), (5,)))
    for _ in range(rng.randint(1, 2) if for_all else rng.randint(1, 4)):
        flags = rng.choice((0, 0, 0, 0, COUNT, COUNT, COUNT, COUNT | TIMED, ACCUMULATED, INTERVAL | END))
        entry = entry_with(rng, rng.choice((9, 9, 9, *contents)), rng.choice(kinds), flags, around)
        limits_for_many(rng, entry)
        entry.threshold = rng.choice((1, 1, 1, 1, 2, 2, 2, 3, 3, 4, 16, 0))
        if for_all:
            entry.asset, entry.threshold = 9, rng.choice((13, 14, 15, 15, 16, 16))
        book.entries.append(entry)
    if rng.random() < 0.4:
        track(rng, book)
    return book


def loading_book(rng, around):
    """Few entries that begins soon use up, most of them with an interval, so that what a begin gives back decides what is granted next; and
    mostly one that lasts."""
    contents = list(range(1, rng.randint(2, 4)))
    book = Book(assets=[Asset(9, 0, 0)] + [Asset(number, 9, 1) for number in contents])
    kinds = rng.choice(((1,), (1,), (2,), (3,), (1, 4), (5,)))
    for _ in range(rng.choice((1, 1, 1, 2, 2, 3, 4))):
        flags = rng.choice((INTERVAL, INTERVAL, INTERVAL | COUNT, INTERVAL | END, INTERVAL | TIMED, COUNT, COUNT | TIMED, TIMED,
                            ACCUMULATED, INTERVAL | ACCUMULATED, COUNT | TIMED | INTERVAL | ACCUMULATED))
        entry = entry_with(rng, rng.choice((9, 9, *contents)), rng.choice(kinds), flags, around)
        if entry.has(COUNT):
            entry.count = limit(rng, rng.choice((1, 1, 2, 3, 20)))
        if entry.has(TIMED):
            entry.timed = limit(rng, rng.choice((1, 1, 2, 2, 3)))
            entry.timer = 0 if entry.is_momentary() else rng.choice((0, 1, 1, 2, 5, 60, 90))
        if entry.has(INTERVAL):
            entry.interval = limit(rng, rng.choice((1, 5, 20, 60, 61, 300, 300)))
        if entry.has(ACCUMULATED):
            entry.accumulated = limit(rng, rng.choice((1, 40, 60, 61, 100, 120, 2000)))
        book.entries.append(entry)
    if rng.random() < 0.5:
        book.entries.append(Entry(1, 9, rng.choice(kinds), COUNT | INTERVAL, count=1000, interval=rng.choice((2000, 100_000_000))))
    if rng.random() < 0.5:
        track(rng, book)
    if rng.random() < 0.5:
        set_thresholds(rng, book)
    return book


def rival_book(rng, around, length):
    """Entries that compete for the same begins of a day of so many events, with an end or an interval, or both, or neither. Ends, and
    intervals that start in the first seconds, are over within a few seconds of one another, some in the middle of the day. What has no
    interval mostly starts later, so that intervals have started by then."""
    contents = list(range(1, rng.randint(2, 5)))
    book = Book(assets=[Asset(9, 0, 0)] + [Asset(number, 9, 1) for number in contents])
    kind, lasts = rng.choice((1, 1, 1, 1, 2, 2, 3, 3, 4, 5)), 30 + length * rng.choice((1, 1, 2))
    sorts = [INTERVAL, *rng.choices((END, END, INTERVAL, END | INTERVAL, END | INTERVAL, COUNT), k=3)]
    for _ in range(rng.randint(3, 9)):
        flags = 0 if rng.random() < 0.02 else rng.choice(sorts)
        shares = ((START, 0 if flags == INTERVAL else 0.8), (COUNT, 0.1), (ACCUMULATED, 0.1), (TIMED, 0.4))
        flags |= sum(flag for flag, share in shares if flags and rng.random() < share)
        entry = Entry(rng.randint(1, 3), rng.choice((9, *contents)), kind, flags & ~(TIMED | ACCUMULATED) if kind >= 4 else flags)
        rival_limits(rng, entry, around, rng.choice((lasts, lasts, lasts // 2)))
        book.entries.append(entry)
    if rng.random() < 0.3:
        track(rng, book)
    if rng.random() < 0.2:
        set_thresholds(rng, book)
    return book


def rival_limits(rng, entry, around, over):
    """Gives the entry the limits of its flags: it is over about so many seconds from now. A timed count mostly comes back."""
    if entry.has(COUNT):
        entry.count = limit(rng, rng.randint(1, over))
    if entry.has(TIMED):
        entry.timed, entry.timer = limit(rng, rng.randint(1, 2)), rng.choice((20, 61, 1_000_000, 1_000_000))
    if entry.has(START):
        entry.start = min(LATEST, around + rng.choice((2, 5, 10)))
    if entry.has(END):
        entry.end = min(LATEST, around + over - rng.choice((0, 1, 1, 1, 2)))
    if entry.has(INTERVAL):
        shorter = (over - 5, over - 8, over - 12, over - 15) if entry.has(END) else ()     # some are over before the entry's own end
        entry.interval = limit(rng, rng.choice((over, over, over - 1, over - 2, over - 5, 100_000_000, *shorter)))
    if entry.has(ACCUMULATED):
        entry.accumulated = limit(rng, rng.choice((50, 1000)))


def nothing_more(rng, book):
    """Makes some limits 0 in the middle of a day, where the image still meets the rules: those of which nothing is used, and
    intervals in which nothing is open, started ones too."""
    for position, entry in enumerate(book.entries):
        if entry.used_count == 0 and rng.random() < ZERO:
            entry.count = 0
        if entry.used_timed == 0 and rng.random() < ZERO:
            entry.timed = 0
        if entry.used_seconds == 0 and rng.random() < ZERO:
            entry.accumulated = 0
        if not book.users(position) and rng.random() < 2 * ZERO:
            entry.interval = 0


def just_full(rng, book):
    """Makes some thresholds in the middle of a day the number of the entry's open uses, where the image still meets the rules, and now and
    then turns the switch, so that a tracked entry may be full and switched off."""
    for position, entry in enumerate(book.entries):
        if rng.random() < 0.2:
            entry.threshold = len(book.users(position))
    if rng.random() < 0.3:
        book.switch = 1 - book.switch


def begin_last(rng, book):
    """Makes the last event taken a begin where some players' begins are their latest events, so that the image is in the middle of one."""
    begun = [index for index, player in enumerate(book.players) if player.open and player.operation == BEGIN]
    if begun:
        book.latest_player, book.latest_started = rng.choice(begun) + 1, 0


def make_old(rng, book):
    """Gives some players numbers close to the last one, or to the last counter of a boot number, as after very many events."""
    for player in book.players:
        if player.number != 0 and rng.random() < 0.6:
            counter = rng.choice((TOP, TOP - 1, TOP - 2, TOP - 9, 65_535, 16_777_215))
            player.number = BOOT * rng.choice((0, 0, 1, 255, 65_535, 2 ** 31, TOP - 1, TOP, TOP)) + counter


# ---- Events

def edges(book, t):
    """Times in the near future at which some rule's result changes: dates, ends of intervals, ends of open uses, timed values."""
    found = [player.until for player in book.players if player.open]
    found += [player.begin + book.entries[player.open_entry].timed_value - less
              for player in book.players if player.open for less in (0, 1)]
    for entry in book.entries:
        if entry.has(START):
            found += [entry.start - 1, entry.start]
        if entry.has(END):
            found += [entry.end, entry.end + 1]
        if entry.started:
            found += [entry.first + entry.interval - 1, entry.first + entry.interval]
    return [time for time in found if book.time <= time <= book.time + 300] or [t]


def next_number(rng, last):
    """A number in line after the last one: mostly the next, sometimes counter 1 of a greater boot number; the last number if there is
    none."""
    boot = last // BOOT
    if boot < TOP and rng.random() < 0.06:
        far = rng.randint(1, TOP - boot) // rng.choice((1, 4, 1000)) + 1
        return BOOT * min(boot + rng.choice((1, 1, 2, 256, 70_000, far)), TOP) + 1
    return min(last + 1, LAST_NUMBER)


def other_number(rng, last):
    """A number close to those in line: mostly not, or no longer, in line."""
    boot, counter = divmod(last, BOOT)
    number = rng.choice((
        0, last, last + 2, last - 1, last + 1 - BOOT, last + 1 + BOOT, BOOT * (boot + 1), BOOT * (boot + 1) + 2, BOOT * boot + 1,
        BOOT * (boot - 1) + 1, BOOT * boot, BOOT * (boot + 1) + counter, (last + 1) % BOOT, last + 1))
    return min(max(number, 0), LAST_NUMBER)


def next_event(rng, book, around):
    """An event for the current book: mostly in line, sometimes a resend or one to be turned away."""
    index = rng.choice((0, 0, 1, 1, 2, 3, rng.randrange(16)))
    player = book.players[index]
    t = max(book.time, around) + rng.choice((0, 0, 0, 1, 1, 2, 3, 5, 10, 20, 30, 59, 60, 61))
    if rng.random() < 0.25:
        t = rng.choice(edges(book, t))
    chance = rng.random()
    if chance < 0.15 and player.number != 0:
        asset = player.asset if rng.random() < 0.8 else 1
        return Event(index, player.number, player.operation, asset, player.kind, rng.choice((t, 0, LATEST + 1)))
    number = next_number(rng, player.number)
    if chance < 0.20:
        number = other_number(rng, player.number)
    if chance > 0.97:
        t = rng.choice((max(book.time - 1, 0), LATEST + 1, TOP))
    elif chance > 0.95:
        return Event(rng.choice((index, 16, 255)), number, rng.choice((0, 1, 2, 3, 4, 5)), rng.randint(0, 2),
                     rng.randint(0, 6), t)
    elif t > LATEST and rng.random() < 0.9:
        t = min(book.time + rng.choice((0, 0, 0, 1)), LATEST)
    if rng.random() < 0.08:
        return cancel_event(rng, book, t)
    if player.open and rng.random() < 0.8 or rng.random() < 0.06:
        return Event(index, number, rng.choice((CONTINUE, CONTINUE, STOP)), 0, 0, t)
    if not book.entries or rng.random() < 0.06:
        return Event(index, number, BEGIN, rng.randint(0, 10), rng.randint(1, 5), t)
    wanted = rng.choice(book.entries)
    askers = [a.number for a in book.assets if wanted.asset in (a.number, a.inherit) and (a.key or rng.random() < 0.1)]
    if not askers and rng.random() < 0.8:
        askers = [a.number for a in book.assets if a.key]
    return Event(index, number, BEGIN, rng.choice(askers or [wanted.asset]), wanted.kind, t)


def cancel_event(rng, book, t):
    """A cancel: mostly of the player whose event was the last one taken, so that its begin may still be taken back; otherwise of one that
    has something open, or of any."""
    players, opened = range(rights.PLAYERS), [index for index, player in enumerate(book.players) if player.open]
    index = rng.choice(opened or players)
    if book.latest_player and rng.random() < 0.7:
        index = book.latest_player - 1
    elif rng.random() < 0.1:
        index = rng.choice(players)
    player = book.players[index]
    if player.open and rng.random() < 0.2:
        t = max(book.time, player.until - rng.choice((0, 0, 1)))
    elif player.open and t >= player.until:
        t = book.time
    return Event(index, next_number(rng, player.number), CANCEL, 0, 0, min(t, LATEST))


class Cabins:
    """Players on one subscription. An acknowledgement may be lost; that cabin then sends the same request again, after others
    have had their turn."""

    def __init__(self, rng, book):
        self.rng = rng
        self.unheard = {}
        self.count = rng.randint(2, 16)
        self.contents = [asset.number for asset in book.assets if asset.key]

    def next_event(self, book, around):
        rng = self.rng
        index = rng.randrange(self.count)
        player = book.players[index]
        t = min(LATEST, max(book.time, around) + rng.choice((0, 1, 2, 5, 15)))
        request = self.unheard.pop(index, None)
        if request is None:
            number = next_number(rng, player.number)
            if player.open:
                operation = CANCEL if book.latest_player == index + 1 and rng.random() < 0.3 else rng.choice((CONTINUE, STOP))
                request = (number, operation, 0, 0)
            else:
                request = (number, BEGIN, rng.choice(self.contents), 1)
        if rng.random() < 0.3:
            self.unheard[index] = request
        return Event(index, *request, t)


class Rivals:
    """Players on a book of rival_book. Now and then one starts an interval in the second in which it has to start to be over when
    another entry is."""

    def __init__(self, rng, book):
        self.rng = rng
        self.count = rng.randint(2, 16)
        self.kind = book.entries[0].kind
        self.contents = [asset.number for asset in book.assets if asset.key]

    def next_event(self, book, around):
        rng, now = self.rng, max(book.time, around)
        index, chance = rng.randrange(self.count), rng.random()
        player = book.players[index]
        if chance < 0.03:
            return next_event(rng, book, around)
        if chance < 0.1 and player.number:
            return Event(index, player.number, player.operation, player.asset, player.kind, now)
        number, t = next_number(rng, player.number), now + rng.choice((0, 0, 0, 1, 1, 2, 3))
        if chance > 0.9:
            return cancel_event(rng, book, t)
        if player.open:
            return Event(index, number, rng.choice((CONTINUE, STOP, STOP)), 0, 0, min(t, LATEST))
        found = list(self.meetings(book, now)) if chance < 0.6 else []
        content, t = rng.choice(found or [(rng.choice(self.contents), t)])
        return Event(index, number, BEGIN, content, self.kind, min(t, LATEST))

    def meetings(self, book, now):
        """Contents and times of begins in the next seconds that start an interval so that it is over when another entry is, or a second
        later."""
        over = {entry.end + 1 for entry in book.entries if entry.has(END)}
        over |= {entry.first + entry.interval for entry in book.entries if entry.started}
        times = {end - entry.interval for entry in book.entries if entry.has(INTERVAL) and not entry.started for end in over}
        for t in sorted(time for time in times if now <= time <= now + 20):
            for content in self.contents:
                able = [p for p in rights.suitable_entries(book, book.asset(content), self.kind)
                        if rights.is_grantable(book, book.entries[p], t)]
                entry = book.entries[min(able, key=lambda p: rights.rank(book.entries[p], p, content))] if able else Entry()
                if entry.has(INTERVAL) and not entry.started and t + entry.interval in over:
                    yield from ((content, t), (content, t), (content, t + 1))


class Group:
    """Players on a book of group_book. They stop or let their uses run out, and ask again, some with a lost answer's request. Now and then
    one asks in the second in which another's use ends, or in the one before."""

    def __init__(self, rng, book):
        self.rng = rng
        self.count, self.steps = rng.choice((3, 4, 6, 10, 16)), rng.choice(((0, 0, 0, 1), (0, 0, 0, 0, 1, 1, 2, 5, 15)))
        self.stops, self.ends = rng.choice((0.1, 0.3, 0.6)), rng.choice((0.03, 0.1, 0.2))
        if min(entry.threshold for entry in book.entries) > 10:
            self.count, self.stops, self.ends = 16, rng.choice((0.02, 0.05)), rng.choice((0.01, 0.02))
        self.kinds = [entry.kind for entry in book.entries]
        self.contents = [asset.number for asset in book.assets if asset.key]

    def next_event(self, book, around):
        rng, now = self.rng, max(book.time, around)
        index, chance = rng.randrange(self.count), rng.random()
        player = book.players[index]
        if chance < 0.03:
            return next_event(rng, book, around)
        if chance < 0.12 and player.number:
            return Event(index, player.number, player.operation, player.asset, player.kind, now)
        number = (other_number if rng.random() < 0.05 else next_number)(rng, player.number)
        t = now + rng.choice(self.steps)
        ends = [each.until for each in book.players if each.open]
        if ends and rng.random() < self.ends:
            t = max(now, min(ends) - rng.choice((0, 0, 1)))
        if chance > 0.93:
            return cancel_event(rng, book, t)
        if player.open and t < player.until:
            return Event(index, number, STOP if rng.random() < self.stops else CONTINUE, 0, 0, min(t, LATEST))
        return Event(index, number, BEGIN, rng.choice(self.contents), rng.choice(self.kinds), min(t, LATEST))


class Loading:
    """Players on a book of loading_book, whose films often do not load: a begin is taken back, mostly at once, and asked for again by that
    player or by another. In between come resends, requests that are turned away or refused, continues and stops."""

    def __init__(self, rng, book):
        self.rng = rng
        self.count, self.steps = rng.choice((1, 1, 2, 3, 5, 16)), rng.choice(((0, 0, 0, 1), (0, 0, 0, 1, 2, 5), (0, 0, 1, 2, 5, 20)))
        self.cancels = rng.choice((0.2, 0.4, 0.7))
        self.kinds = [entry.kind for entry in book.entries]
        self.contents = [asset.number for asset in book.assets if asset.key]

    def next_event(self, book, around):
        rng, now, chance = self.rng, max(book.time, around), self.rng.random()
        index, t = rng.randrange(self.count), now + rng.choice(self.steps)
        if book.latest_player and rng.random() < 0.5:
            index = book.latest_player - 1
        player = book.players[index]
        if chance < 0.03:
            return next_event(rng, book, around)
        if chance < 0.15 and player.number:
            asked = (player.operation, player.asset, player.kind) if chance < 0.12 else (rng.choice((STOP, CANCEL)), 0, 0)
            return Event(index, player.number, *asked, now)
        number = (other_number if rng.random() < 0.04 else next_number)(rng, player.number)
        if chance < 0.17:
            return Event(index, number, CANCEL, 0, 0, rng.choice((max(0, now - 1), LATEST + 1)))
        if chance < 0.19:
            return Event(index, number, rng.choice((0, CANCEL, CANCEL, CANCEL, 5)), rng.randint(0, 1), rng.randint(0, 1), min(t, LATEST))
        last = book.players[book.latest_player - 1]
        if rng.random() < (self.cancels if last.open and rights.may_cancel(book, last) else 0.06):
            return cancel_event(rng, book, t)
        if player.open and t < player.until:
            operation = rng.choice((CONTINUE, CONTINUE, STOP, STOP, STOP, BEGIN))
            if operation != BEGIN:
                return Event(index, number, operation, 0, 0, min(t, LATEST))
        content = rng.choice(self.contents) if rng.random() < 0.95 else 9
        return Event(index, number, BEGIN, content, rng.choice(self.kinds), min(t, LATEST))


def damaged(rng, record):
    """Now and then a record with a byte changed, or one of random bytes."""
    chance = rng.random()
    if chance < 0.985:
        return record
    if chance < 0.997:
        at = rng.randrange(len(record))
        return record[:at] + bytes([rng.choice((0, 1, 255, rng.randrange(256)))]) + record[at + 1:]
    return rng.randbytes(rights.RECORD.size)


# ---- Days

KINDS = ("crowd", "crowd", "wide", "cabins", "rivals", "rivals", "groups", "groups", "loading", "loading", "greatest", "going on", "old",
         "damaged image")
PLAYED = {"cabins": Cabins, "rivals": Rivals, "groups": Group, "loading": Loading}     # sorts of days whose players have a way of their own


def make_day(seed, length, kind=None, around=None):
    """(image, event bytes, the text that the run program prints) of one day; image None for a missing file."""
    rng = random.Random(seed)
    kind = kind or rng.choice(KINDS)
    if around is None:
        around = rng.choice((0, 1000, 1000, 1_700_000_000, LATEST - 500, LATEST - 60))
    if kind == "damaged image":
        return damaged_day(rng, around)
    if kind == "wide":
        book = wide_book(rng, around)
    elif kind == "cabins":
        book = subscription_book(rng, around)
    elif kind == "rivals":
        book = rival_book(rng, around, length)
    elif kind == "groups":
        book = group_book(rng, around)
    elif kind == "loading":
        book = loading_book(rng, around)
    else:
        book = fresh_book(rng, around)
    if kind != "rivals":
        stretch(rng, book, around, 1 + length // 20)
    if kind == "greatest":
        greatest_limits(rng, book)
    if kind in ("going on", "old"):
        play(rng, book, around, None, rng.randint(1, 60))
        nothing_more(rng, book)
        just_full(rng, book)
    if kind in ("rivals", "groups", "loading") and rng.random() < 0.3:
        play(rng, book, around, PLAYED[kind](rng, book), rng.randint(1, 30))
        if kind == "groups":
            just_full(rng, book)
        if kind == "loading" and rng.random() < 0.5:
            begin_last(rng, book)
    if kind == "old":
        make_old(rng, book)
    image, book = stored(rng, book)
    cabins = PLAYED[kind](rng, book) if kind in PLAYED else None
    records, lines = play(rng, book, around, cabins, length)
    if rng.random() < 0.3:
        records.append(rng.randbytes(rng.randint(1, rights.RECORD.size - 1)))
        lines.append("6 255 0\n")
    return image, b"".join(records), "".join(lines)


def with_short_numbers(book):
    """The book with its players' counters alone, as an image before version 3 can hold them; not 0 where the number was not."""
    book = copy.deepcopy(book)
    for player in book.players:
        if player.number:
            player.number = player.number % BOOT or TOP
    return book


def stored(rng, book):
    """An image of the book and the book that it is read as. An older version has lost what it has no field for."""
    if rng.random() < OLD:
        version = rng.choice((1, 2, 3, 4))
        image = rights.write(book if version >= 3 else with_short_numbers(book), version)
    else:
        image = rights.write(book)
    code, book = rights.read(image)
    assert code == 0
    return image, book


def play(rng, book, around, cabins, length):
    records, texts, report = [], [], rights.zeros(book)
    for _ in range(length):
        event = cabins.next_event(book, around) if cabins else next_event(rng, book, around)
        record = damaged(rng, rights.encode(event))
        records.append(record)
        texts.append("%d %d %d\n" % rights.answer_record(book, record, report))
    return records, texts


def damaged_limit(rng, book):
    """The image of the book with a limit of 0, or of another number at the end of a range, whatever its flag and its meter."""
    entry = rng.choice(book.entries)
    field = rng.choice(("count", "timed", "timer", "start", "end", "interval", "accumulated"))
    setattr(entry, field, rng.choice((0, 0, 0, 1, 1_000_000, 1_000_001, 100_000_000, 100_000_001, LATEST, LATEST + 1)))
    return rights.write(book)


def damaged_track(rng, book):
    """The image of the book with another switch, track, content or number, whether or not that meets the rules."""
    entry, player = rng.choice(book.entries), rng.choice([each for each in book.players if each.open] or book.players)
    thing, field = rng.choice(((book, "switch"), (entry, "tracked"), (entry, "timed_value"), (entry, "mark"), (player, "content"),
                               (player, "number")))
    contents = [asset.number for asset in book.assets]
    setattr(thing, field, rng.choice((0, 1, 2, 256, 65_536, 16_777_216, TOP, rng.choice(contents), rng.choice(contents))))
    return rights.write(book)


def damaged_marks(rng, book):
    """The image of the book with another threshold, close to the number of open uses or to 16, or with other marks, whether or not that
    meets the rules."""
    position = rng.randrange(len(book.entries))
    if rng.random() < 0.5:              # the one that most players have open
        position = max(range(len(book.entries)), key=lambda other: len(book.users(other)))
    entry, bit = book.entries[position], 1 << rng.randrange(32)
    if rng.random() < 0.5:
        users = len(book.users(position))
        entry.threshold = rng.choice((0, users, users + 1, max(users - 1, 0), 15, 16, 17, 32, 256, bit, TOP))
    else:
        marks = rng.choice(book.entries).marks
        entry.marks = rng.choice((entry.marks ^ bit, entry.marks | bit, entry.marks & ~bit, marks, 0, bit, 65_535, TOP))
    return rights.write(book)


def damaged_last(rng, book):
    """The image of the book with another player last taken, or another mark of an interval, whether or not that meets the rules."""
    opened = [index + 1 for index, player in enumerate(book.players) if player.open]
    if rng.random() < 0.7:
        book.latest_player = rng.choice((0, 1, 16, 17, 256, 65_537, TOP, *opened, *opened))
    if rng.random() < 0.7:
        book.latest_started = rng.choice((0, 1, 1, 1, 2, 256, TOP))
    if opened and rng.random() < 0.5:
        player = book.players[rng.choice(opened) - 1]
        player.begin = rng.choice((player.begin, book.entries[player.open_entry].first))
    return rights.write(book)


def damaged_bytes(rng, book):
    """The image of the book with a few bytes changed, cut off or added; None for a missing file."""
    image = bytearray(stored(rng, book)[0])
    if rng.random() < 0.05:
        image[4] = rng.choice((0, 1, 2, 3, 4, 5, 6, 255))     # another version, the length as it was
    for _ in range(rng.randint(1, 2)):
        image[rng.randrange(len(image))] = rng.choice((0, 1, 2, 255, rng.randrange(256)))
    chance = rng.random()
    if chance < 0.05:
        return None
    if chance < 0.15:
        image = image[:rng.randrange(len(image))]
    elif chance < 0.2:
        image += rng.randbytes(rng.choice((1, 64, 4000)))
    return bytes(image)


def damaged_day(rng, around):
    """A damaged image and a few events, whatever the answer."""
    book = fresh_book(rng, around)
    play(rng, book, around, None, rng.randint(1, 40))
    records, _ = play(rng, copy.deepcopy(book), around, None, 5)
    damages = (damaged_limit, damaged_track, damaged_marks, damaged_marks, damaged_last, damaged_last, damaged_bytes, damaged_bytes)
    image = (rng.choice(damages) if book.entries else damaged_bytes)(rng, book)
    return image, b"".join(records), rights.run(image or b"", b"".join(records))


# ---- The stored days

def stored_days():
    arounds = (0, 1000, 1_700_000_000, LATEST - 500, LATEST - 60)
    kinds = ("crowd", "cabins", "wide", "greatest", "going on", "old")
    for number in range(46):
        length = 300 if kinds[number % 6] == "wide" else 480
        yield make_day(1 + number, length, kinds[number % 6], arounds[number % 5])
    for number in range(46, 60):
        image, events, text = make_day(1 + number, 5, "damaged image", 1000)
        yield image or b"", events, text
    for number in range(60, 72):
        yield make_day(1 + number, 150, "rivals", arounds[number % 5])
    for number in range(72, 90):
        yield make_day(1 + number, 150, "groups", arounds[number % 5])
    for number in range(90, 110):
        yield make_day(1 + number, 150, "loading", arounds[number % 5])
    yield from written_days.days()


def main():
    data, text, events = b"", "", 0
    for number, (image, records, lines) in enumerate(stored_days(), 1):
        data += len(image).to_bytes(4, "big") + image + len(records).to_bytes(4, "big") + records
        text += f"day {number}\n" + lines + "".join(
            f"used {line.content} {line.times} {line.seconds}\n" for line in rights.report_of(image, records) if line.times or line.seconds)
        events += lines.count(" ") // 2
    (STORED / "data").mkdir(parents=True, exist_ok=True)
    (STORED / "data" / "days.bin").write_bytes(data)
    (STORED / "stdout").write_text(text)
    print(f"{number} days, {events} events, {len(data)} bytes")


if __name__ == "__main__":
    main()
