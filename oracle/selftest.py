"""The second program tests itself: python3 oracle/selftest.py [events]

The afternoon of document 01, then random days. On each day, demand 3 is judged by the ledger; every book along
the way is written and read back, its marks are those of the ledger's open uses, and its header has the last event taken; events turned
away and resends must leave the book unchanged; and the day without its resends is run again. On every other day the lines of the usage
report are handed on from zeros and must be the ledger's sums; on the others each event is lent any list, the same in both runs. The days
written by hand are judged by the ledger too, the rules of the choice before order 6 answer those otherwise that say so, and the lists
lent by hand get their answers. Then servers with one planted fault each must be caught, by the ledger on random days, and by the stored
days, images or lists. Last, the stored texts get their answers from the reader of XML texts, and readers with one planted fault each
must be caught by them.
"""

import copy
import dataclasses
import itertools
import random
import sys
from contextlib import contextmanager

import days
import images
import lent_lists
import rights
import text_faults
import written_days
from ledger import Broken, Ledger, Use, demand
from lent_lists import plain
from rights import Asset, Book, Entry, Event

PLAY, DISPLAY, PRINT = rights.PLAY, rights.DISPLAY, rights.PRINT


def afternoon_book():
    return Book(assets=[Asset(1, 9, 1), Asset(2, 9, 1), Asset(9, 0, 0), Asset(7, 9, 0)],
                entries=[Entry(1, 9, PLAY, rights.COUNT, count=2),
                         Entry(1, 9, PLAY, rights.ACCUMULATED, accumulated=100),
                         Entry(1, 1, DISPLAY, rights.TIMED, timed=1, timer=30)])


def begin(player, number, asset, kind, t):
    return Event(player, number, rights.BEGIN, asset, kind, t)


def go_on(player, number, t):
    return Event(player, number, rights.CONTINUE, 0, 0, t)


def stop(player, number, t):
    return Event(player, number, rights.STOP, 0, 0, t)


def cancel(player, number, t):
    return Event(player, number, rights.CANCEL, 0, 0, t)


AFTERNOON = [
    (begin(0, 1, 1, PLAY, 1000), (0, 0, 1060)),      # 1
    (begin(0, 1, 1, PLAY, 1005), (0, 0, 1060)),      # 2
    (begin(0, 1, 2, PLAY, 1006), (4, 255, 0)),       # 3
    (begin(1, 1, 2, PLAY, 1010), (0, 0, 1070)),      # 4
    (begin(2, 1, 2, PLAY, 1020), (0, 1, 1080)),      # 5
    (begin(3, 1, 1, PLAY, 1030), (0, 1, 1070)),      # 6
    (begin(4, 1, 1, PLAY, 1031), (13, 255, 0)),      # 7
    (stop(2, 2, 1040), (0, 1, 1040)),                # 8
    (begin(4, 2, 1, PLAY, 1045), (0, 1, 1085)),      # 9
    (go_on(3, 2, 1050), (15, 255, 0)),               # 10
    (go_on(0, 2, 1059), (0, 0, 1119)),               # 11
    (go_on(1, 2, 1070), (14, 255, 0)),               # 12
    (begin(5, 1, 7, PLAY, 1070), (10, 255, 0)),      # 13
    (begin(6, 1, 1, PRINT, 1070), (12, 255, 0)),     # 14
    (stop(6, 3, 1070), (3, 255, 0)),                 # 15
    (stop(6, 2, 1069), (5, 255, 0)),
    (begin(7, 1, 1, DISPLAY, 1080), (0, 2, 1140)),   # 16
    (begin(8, 1, 1, DISPLAY, 1090), (13, 255, 0)),   # 17
    (stop(7, 2, 1109), (0, 2, 1109)),                # 18
    (begin(8, 2, 1, DISPLAY, 1110), (0, 2, 1170)),
    (stop(8, 3, 1140), (0, 2, 1140)),                # 19
    (begin(7, 3, 1, DISPLAY, 1141), (13, 255, 0)),
]


def check_afternoon():
    book = afternoon_book()
    text = rights.run(rights.write(book), b"".join(rights.encode(event) for event, _ in AFTERNOON))
    demand(text == "".join("%d %d %d\n" % answer for _, answer in AFTERNOON), "the afternoon as the run program prints it")
    check_run(book, [(event, answer, plain(rights.zeros(book))) for event, answer in AFTERNOON])


def check_run(book, steps):
    """Demand 3 over a run from a fresh book: each event with its answer and the report after it, which is handed on from zeros."""
    ledger, book, lines = Ledger(book.assets, book.entries, book.switch), copy.deepcopy(book), rights.zeros(book)
    for event, answer, report in steps:
        lent = plain(lines)
        demand(rights.step(book, event, lines) == answer, f"{event} is answered {answer}")
        ledger.follow(event, answer, lent, plain(lines))
        demand(plain(lines) == report == ledger.report(), f"the report after {event}")


def check_records():
    book = Book()
    for record, code in ((b"", 6), (bytes(13), 6), (bytes(16), 6), (bytes(18), 6), (b"\x10" + bytes(16), 2), (bytes(17), 1)):
        demand(rights.answer_record(book, record, []) == (code, 255, 0), f"record {record!r}")
    event = begin(15, 18_446_744_073_709_551_615, 65535, 5, 4_294_967_295)
    demand(rights.decode(rights.encode(event)) == event, "a record decodes to its event")
    record = bytes.fromhex("0f 0123456789abcdef 01 0102 05 03040506")
    demand(rights.decode(record) == begin(15, 0x0123456789ABCDEF, 0x0102, 5, 0x03040506), "the fields of a record")
    for told, wanted in (("04 0000 00", cancel(3, 2, 5)), ("04 0001 00", 1), ("04 0100 00", 1), ("04 0000 01", 1), ("05 0000 00", 1)):
        record = bytes.fromhex("03 0000000000000002" + told + "00000005")
        demand(rights.decode(record) == wanted, f"the record of {told}")


def check_image():
    """The bytes of an image of version 5, field by field."""
    book = Book(0x00010203, [Asset(0x0405, 0x0607, 1)], [Entry(
        0x0809, 0x0405, 1, 63, 0x0A0B, 0x0C0D, 0x0E0F, 0x00000010, 0x01111213, 0x00141516, 0x00171819, 0x1A, 0x1B, 0x00010200, 0x1C, 1,
        1, 0x1D1E1F20, 1, 2, 0x8000)], switch=1, latest_player=16, latest_started=1)
    book.players[15] = rights.Player(
        0x2122232425262728, 1, 0x292A, 1, 0, 0, 0x2B2C2D2E, 1, 0, 0x00010200, 0x00010210, 0x0405)
    told = """52424b 0005 01 01 00010203 00000001 00000010 00000001  0405 0607 01  0809 0405 01 3f
        00000a0b 00000c0d 00000e0f 00000010 01111213 00141516 00171819 0000001a 0000001b 00010200 0000001c 01 00000001 1d1e1f20 00000001
        00000002 00008000""" + "00" * 32 * 15 + """2122232425262728 01 292a 01 00 00 2b2c2d2e 01 00 00010200 00010210 00000405"""
    demand(rights.write(book) == bytes.fromhex(told), "the fields of an image")
    demand(rights.read(bytes.fromhex(told)) == (0, book), "an image read field by field")


def check_in_line():
    """The rules and the ledger agree on which number follows which, around the ends of boot numbers and counters, which no day from a
    fresh book comes to."""
    ends = (0, 1, 2, 3, 255, 256, 65_535, 65_536, 2 ** 31 - 1, 2 ** 31, 2 ** 32 - 3, 2 ** 32 - 2, 2 ** 32 - 1)
    numbers = [boot * 2 ** 32 + counter for boot in ends for counter in ends]
    ledger, following = Ledger([], [], 0), {}
    for last in numbers:
        ledger.latest = {0: (last, rights.STOP, 0, 0)} if last else {}
        for number in numbers:
            holds = rights.is_in_line(last, number)
            demand(holds == ledger.is_in_line(stop(0, number, 0)), f"{number} after {last}")
            following.setdefault(last, []).extend([number] * holds)
    demand([last for last in numbers if not following[last] and last + 1 in (*numbers, 2 ** 64)] == [2 ** 64 - 1],
           "only the largest number has none after it")


def check_order():
    """The rules and the ledger agree on which of two entries goes first, with ends and intervals that are over around one another."""
    assets, entries = [Asset(1, 9, 1), Asset(9, 0, 0)], []
    for asset, flags in itertools.product((1, 9), (0, rights.COUNT, rights.END, rights.INTERVAL, rights.END | rights.INTERVAL)):
        ends = (8, 9, 10) if flags & rights.END else (0,)
        intervals = (4, 5, 6) if flags & rights.INTERVAL else (0,)
        for end, interval, started in itertools.product(ends, intervals, (0, 1) if flags & rights.INTERVAL else (0,)):
            entries.append(Entry(1, asset, PLAY, flags, end=end, interval=interval, started=started, first=5 * started))
    for pair in itertools.product(entries, repeat=2):
        ledger = Ledger(assets, pair, 0)
        ledger.uses = [Use(position, 0, 5, 5, 1) for position, entry in enumerate(pair) if entry.started]
        first = rights.rank(pair[0], 0, 1) < rights.rank(pair[1], 1, 1)
        demand(ledger.comes_before(0, 1, 1) == first != ledger.comes_before(1, 0, 1), f"which of {pair} goes first")


def check_thresholds():
    """The rules and the ledger agree on which entries are full, and on how many may be open together, for many sets of players."""
    players = range(16)
    sets = [set(players[:size]) for size in range(17)] + [set(players[size:]) for size in range(17)]
    sets += [set(pair) for pair in itertools.combinations(players, 2)] + [set(players) - {each} for each in players]
    for users, threshold in itertools.product(sets, range(17)):
        book = Book(100, [Asset(1, 0, 1)], [Entry(1, 1, PLAY, threshold=threshold, marks=sum(1 << each for each in users))])
        ledger = Ledger(book.assets, book.entries, 0)
        for each in users:
            book.players[each] = rights.Player(1, rights.BEGIN, 1, PLAY, 0, 0, 160, 1, 0, 100, 160, 1)
            ledger.uses.append(Use(0, each, 100, 160, 1))
        demand(rights.is_full(book.entries[0]) == ledger.is_full(0, 100), f"whether {users} fill threshold {threshold}")
        ledger.T = 100
        try:
            ledger.check_limits()
        except Broken:
            demand(rights.read(rights.write(book)) == (27, None), f"{users} are too many for threshold {threshold}")
        else:
            demand(rights.read(rights.write(book)) == (0, book), f"{users} may have threshold {threshold} open")


def check_written_days():
    """Those that start from a fresh book by the ledger, and the reports of all. Returns how many are fresh."""
    fresh = 0
    for name, version, book, steps, _ in written_days.written():
        if is_fresh(book):
            check_run(book, steps)
            fresh += 1
        _, book = rights.read(rights.write(book, version))
        lines = rights.zeros(book)
        for event, _, report in steps:
            rights.step(book, event, lines)
            demand(plain(lines) == report, f"the report of {name}, after {event}: {report} by hand, not {plain(lines)}")
    return fresh


def check_written_back():
    """Uses open in an older image count for a threshold that the book is given after it was read."""
    _, _, book, steps, _ = next(day for day in written_days.written() if day[0] == "three open in the image, threshold 3")
    for version in (1, 2, 3):
        code, older = rights.read(rights.write(book, version))
        demand(code == 0 and older.entries[0].threshold == 0, f"version {version} has no threshold")
        older.entries[0].threshold = 3
        demand(older == book and rights.read(rights.write(older)) == (0, book), f"the marks of an image of version {version}")
        for event, answer, _ in steps:
            demand(rights.step(older, event, rights.zeros(older)) == answer, f"{event} is answered {answer}")


def check_choice_before():
    """By the rules of the choice before order 6 the written days are answered otherwise exactly where they say so, and as they say: each
    such day up to the first answer that differs. Returns how many there are."""
    with planted("rank", ranked(the_rules_before_order_6)):
        for name, version, book, steps, _ in written_days.written():
            answers = rights.run(rights.write(book, version), b"".join(rights.encode(event) for event, _, _ in steps)).splitlines()
            given = [tuple(map(int, line.split())) for line in answers]
            differs = [(place, was) for place, (was, (_, answer, _)) in enumerate(zip(given, steps)) if was != answer]
            told = [written_days.WAS[name]] if name in written_days.WAS else []
            demand(differs[:1] == told, f"{name}: the first answer that was another one is {differs[:1]}, by hand {told}")
    return len(written_days.WAS)


def is_fresh(book):
    entries = [dataclasses.replace(each, used_count=0, used_timed=0, first=0, used_seconds=0, started=0, marks=0) for each in book.entries]
    return book == Book(assets=book.assets, entries=entries, switch=book.switch)


def run_day(rng, length, books=True):
    """One random day, checked: the answers, and the books on the way unless they are left out. Returns how often each code was
    answered."""
    around = rng.choice((0, 1000, 1000, 1_700_000_000, rights.LATEST - 500, rights.LATEST - 60))
    sort = rng.choices(("rivals", "groups", "loading", "crowd"), (4, 3, 4, 3))[0]
    if sort == "rivals":
        fresh = days.rival_book(rng, around, length)
    elif sort == "loading":
        fresh = days.loading_book(rng, around)
    else:
        fresh = days.group_book(rng, around) if sort == "groups" else days.fresh_book(rng, around)
    cabins = days.PLAYED[sort](rng, fresh) if sort in days.PLAYED else None
    book, ledger = copy.deepcopy(fresh), Ledger(fresh.assets, fresh.entries, fresh.switch)
    lines, handed = rights.zeros(book), rng.random() < 0.5
    lines += [rights.Line(*rng.choices((0, 5, 900), k=3)) for _ in range(rng.randint(0, 2))]
    further = plain(lines)[len(book.assets):]
    seen, kept, after = {}, [], rights.write(book)
    for _ in range(length):
        event = cabins.next_event(book, around) if cabins else days.next_event(rng, book, around)
        lent = lines if handed else lent_lists.random_list(rng, book, lines)
        told, before = [dataclasses.replace(line) for line in lent], after
        answer = rights.step(book, event, lent)
        after, resend = rights.write(book), ledger.is_resend(event, answer[0])
        ledger.follow(event, answer, plain(told), plain(lent))
        if books:
            if resend or answer[0] in (*range(1, 7), 30):
                demand(after == before and lent == told, "a resend and what is turned away leave the book and the lines")
            code, again = rights.read(after)
            demand(code == 0 and again == book, "each book on the way reads back as itself")
            demand(ledger.T == book.time, "T is the book's time")
            check_marks(book, ledger)
            check_last(book, ledger)
            book = again
        demand(not handed or plain(lines) == ledger.report() + further, "from zeros, the lines are the ledger's sums")
        if not resend:
            kept.append((event, told, answer, lent if not handed else None))
        name = "resend" if resend else answer[0]
        seen[name] = seen.get(name, 0) + 1
    if books:
        check_without_resends(fresh, kept, book)
        check_older(book)
    return seen


def check_marks(book, ledger):
    """An entry has a mark for each player that has a use of it open by the ledger, and no other."""
    for position, entry in enumerate(book.entries):
        users = {use.player for use in ledger.open_uses(position, ledger.T)}
        demand(entry.marks == sum(1 << player for player in users), f"the marks of entry {position}")


def check_last(book, ledger):
    """The header has the player of the last event taken by the ledger, and whether that opened a use that started an interval."""
    demand(book.latest_player == (ledger.last[0].player + 1 if ledger.last else 0), "the player last taken")
    demand(book.latest_started == ledger.started_an_interval(), "whether the last event opened a use that started an interval")


def check_without_resends(fresh, kept, book):
    """The same answers and the same book, each event lent what it was lent before; it then leaves the same lines."""
    second = copy.deepcopy(fresh)
    for event, told, answer, left in kept:
        demand(rights.step(second, event, told) == answer, "the same answers without the resends")
        demand(left is None or told == left, "the same lines without the resends")
    demand(second == book, "the same book without the resends")


def check_older(book):
    """What an older version can say of the book is read back as that, with the marks of its open uses, and written as the newest
    version."""
    before_8, shared, counted = copy.deepcopy(book), copy.deepcopy(book), days.with_short_numbers(book)
    for each in (before_8, shared, counted):
        each.latest_player = each.latest_started = 0
    for entry in shared.entries + counted.entries:
        entry.threshold = 0
    plain_book = copy.deepcopy(counted)
    plain_book.switch = 0
    for thing in plain_book.entries + plain_book.players:
        for name in ("tracked", "timed_value", "mark", "content"):
            if hasattr(thing, name):
                setattr(thing, name, 0)
    for version, told in ((1, plain_book), (2, counted), (3, shared), (4, before_8)):
        image = rights.write(book if version >= 3 else days.with_short_numbers(book), version)
        demand(rights.read(image) == (0, told), f"an image of version {version} is the book, without what it has no field for")
        demand(rights.write(rights.read(image)[1]) == images.widened(image), f"an image of version {version} is written back as version 5")


# ---- Planted faults: each must be caught, or the tests above are too weak

def resend_compares_time(real):
    def answered(book, event, lines):
        known = event.player < 16 and event.number != 0 and book.players[event.player].number == event.number
        return rights.refused(5) if known and event.time < book.time else real(book, event, lines)
    return answered


def resend_is_metered(real):
    def answered(book, event, lines):
        answer = real(book, event, lines)
        if event.player < 16 and answer[0] == 0 and book.entries[answer[1]].flags & rights.COUNT and event.time < book.time:
            book.entries[answer[1]].used_count += 1
        return answer
    return answered


def count_goes_back(real):
    def stop(book, player, t, lines):
        position, was_open = player.open_entry, player.open
        answer = real(book, player, t, lines)
        if was_open and book.entries[position].used_count > 0:
            book.entries[position].used_count -= 1
        return answer
    return stop


def end_is_excluded(real):
    return lambda entry, t: real(entry, t) and not (entry.has(rights.END) and t == entry.end)


def inherits_through_illegal(real):
    def suitable(book, asset, kind):
        owners = {asset.number, asset.inherit}
        return [p for p, e in enumerate(book.entries) if e.kind == kind and e.asset in owners]
    return suitable


def inherits_two_levels(real):
    def suitable(book, asset, kind):
        found = set(real(book, asset, kind))
        above = book.asset(asset.inherit)
        return sorted(found | set(real(book, above, kind) if above else ()))
    return suitable


def settles_the_asker_only(real):
    def answered(book, event, lines):
        others = [p for i, p in enumerate(book.players) if i != event.player and p.open]
        for player in others:
            player.open = 0
        answer = real(book, event, lines)
        for player in others:
            player.open = 1
        return answer
    return answered


def always_none_grantable(real):
    return lambda entry, t: False


def timed_never_goes_back(real):
    def end_use(book, player, end, lines):
        entry = book.entries[player.open_entry]
        used = entry.used_timed
        real(book, player, end, lines)
        entry.used_timed = used
    return end_use


def ranked(rule):
    """A fault of the order of the choice, told by the four parts of an entry's rank and the entry."""
    def fault(real):
        return lambda entry, position, asked: rule(*real(entry, position, asked), entry)
    fault.__name__ = rule.__name__
    return fault


def inherited_before_own(flags, last, inherited, position, entry):
    return flags, last, 1 - inherited, position


def higher_position_first(flags, last, inherited, position, entry):
    return flags, last, inherited, -position


def without(entry, *limits):
    """The entry without those of these limits that are 0."""
    flags = {"count": rights.COUNT, "timed": rights.TIMED, "interval": rights.INTERVAL, "accumulated": rights.ACCUMULATED}
    off = sum(flags[limit] for limit in limits if entry.has(flags[limit]) and getattr(entry, limit) == 0)
    return dataclasses.replace(entry, flags=entry.flags - off)


def an_interval_of_0_is_granted_once(real):
    return lambda entry, t: real(entry if entry.started else without(entry, "interval"), t)


def a_limit_of_0_is_no_limit(limit):
    def fault(real):
        return lambda entry, t: real(without(entry, limit), t)
    fault.__name__ = f"{limit}_of_0_is_no_limit"
    return fault


def a_limit_of_0_is_not_suitable(real):
    return lambda book, asset, kind: [p for p in real(book, asset, kind) if not book.entries[p].has_limit_of_zero()]


def a_limit_of_0_refuses_all(real):
    def begin(book, player, number, kind, t, lines):
        asset = book.asset(number)
        if not player.open and asset is not None and asset.key:
            if any(book.entries[p].has_limit_of_zero() for p in rights.suitable_entries(book, asset, kind)):
                return rights.refused(13)
        return real(book, player, number, kind, t, lines)
    return begin


def a_timer_a_start_and_an_end_of_0_are_never_grantable(real):
    def grantable(entry, t):
        return real(entry, t) and not (entry.has(rights.TIMED) and entry.timer == 0 or entry.has(rights.START) and entry.start == 0
                                       or entry.has(rights.END) and entry.end == 0)
    return grantable


def no_flags_are_never_grantable(real):
    return lambda entry, t: real(entry, t) and (entry.count, entry.timed, entry.interval, entry.accumulated, entry.end) != (0,) * 5


def a_limit_of_0_gets_25(limit):
    def fault(real):
        return lambda book, entry: real(book, entry) and without(entry, limit).flags == entry.flags
    fault.__name__ = f"{limit}_of_0_gets_25"
    return fault


def a_started_interval_of_0_gets_27(real):
    return lambda book, position: real(book, position) and not (book.entries[position].started and book.entries[position].interval == 0)


def a_meter_above_a_limit_of_0_is_accepted(real):
    def good(book, position):
        entry = book.entries[position]
        book = copy.deepcopy(book)
        for name, meter in (("count", "used_count"), ("timed", "used_timed"), ("accumulated", "used_seconds")):
            if without(entry, name).flags != entry.flags:
                setattr(book.entries[position], name, getattr(entry, meter))
        return real(book, position)
    return good


def an_open_use_in_an_interval_of_0_is_accepted(real):
    def good(book, player):
        entry = book.entries[player.open_entry] if player.open_entry < len(book.entries) else None
        return entry is not None and entry.has(rights.INTERVAL) and entry.interval == 0 or real(book, player)
    return good


# Order 3: the switch, 43, the report, the list that is lent

def switched_off_is_granted(real):
    return lambda book, entry: False


def a_mark_does_not_help(real):
    return lambda book, entry: book.switch == 0 and entry.tracked == 1


def a_mark_is_asked_for_with_the_switch_on_too(real):
    return lambda book, entry: entry.tracked == 1 and entry.mark != 1


def the_switch_is_asked_of_untracked_entries_too(real):
    return lambda book, entry: book.switch == 0 and entry.mark != 1


def switched_off_gets_13(real):
    return lambda book, suitable, t: 13


def switched_off_gets_43_whatever_else_stands(real):
    return lambda book, suitable, t: 43 if any(rights.fails_for_switch(book, book.entries[p]) for p in suitable) else 13


def switched_off_gets_43_only_if_all_are(real):
    def code(book, suitable, t):
        return real(book, suitable, t) if all(rights.fails_for_switch(book, book.entries[p]) for p in suitable) else 13
    return code


def switched_off_gets_43_only_for_the_first(real):
    return lambda book, suitable, t: real(book, suitable[:1], t)


def not_taken(real):
    """43 leaves the book as it was."""
    def answered(book, event, lines):
        before = copy.deepcopy(book)
        answer = real(book, event, lines)
        if answer[0] == 43:
            book.time, book.players, book.entries = before.time, before.players, before.entries
        return answer
    return answered


def a_continue_asks_the_switch(real):
    def go_on(book, player, t):
        if player.open and rights.fails_for_switch(book, book.entries[player.open_entry]):
            return rights.refused(15)
        return real(book, player, t)
    return go_on


def recording(change):
    """A fault of what the end of a use records: other arguments, or None for nothing."""
    def fault(real):
        def record_use(book, entry, content, seconds, lines):
            told = change(book, entry, content, seconds)
            if told is not None:
                real(*told, lines)
        return record_use
    fault.__name__ = change.__name__
    return fault


def changed(thing, **fields):
    return dataclasses.replace(thing, **fields)


def recorded_with_the_switch_off(book, entry, content, seconds):
    return changed(book, switch=1), entry, content, seconds


def recorded_untracked(book, entry, content, seconds):
    return book, changed(entry, tracked=1), content or book.assets[0].number, seconds


def recorded_with_a_mark_only(book, entry, content, seconds):
    return (book, entry, content, seconds) if entry.mark else None


def recorded_for_the_entrys_asset(book, entry, content, seconds):
    return book, entry, entry.asset, seconds


def recorded_for_the_first_asset(book, entry, content, seconds):
    return book, entry, book.assets[0].number, seconds


def a_time_from_one_second_more_on(book, entry, content, seconds):
    return book, changed(entry, timed_value=entry.timed_value + 1), content, seconds


def a_time_from_one_second_less_on(book, entry, content, seconds):
    return book, changed(entry, timed_value=max(0, entry.timed_value - 1)), content, seconds


def a_time_whatever_its_length(book, entry, content, seconds):
    return book, changed(entry, timed_value=0), content, seconds


def a_time_from_the_timer_on(book, entry, content, seconds):
    return book, changed(entry, timed_value=entry.timer), content, seconds


def a_momentary_use_is_not_recorded(book, entry, content, seconds):
    return None if entry.is_momentary() else (book, entry, content, seconds)


def a_momentary_use_is_always_a_time(book, entry, content, seconds):
    return book, changed(entry, timed_value=0) if entry.is_momentary() else entry, content, seconds


def too_short_a_use_is_not_recorded(book, entry, content, seconds):
    return None if seconds < entry.timed_value else (book, entry, content, seconds)


def seconds_of_one_grant_only(book, entry, content, seconds):
    return book, entry, content, min(seconds, 60)


def recorded_at_the_begin(real):
    """The seconds granted count, whether or not the use is stopped earlier."""
    def end_use(book, player, end, lines):
        real(book, player, player.until, lines)
    return end_use


def a_stop_records_nothing(real):
    return lambda book, player, t, lines: real(book, player, t, copy.deepcopy(lines))


def settling_records_nothing(real):
    return lambda book, t, lines: real(book, t, copy.deepcopy(lines))


def settling_records_the_askers_use_only(real):
    def answered(book, event, lines):
        others = [p for i, p in enumerate(book.players) if i != event.player and p.open and p.until <= event.time]
        before = copy.deepcopy(lines)
        answer = real(book, event, lines)
        if others and answer[0] in rights.TAKEN:
            lines[:] = before
        return answer
    return answered


def a_resend_settles(real):
    def answered(book, event, lines):
        if event.player < 16 and event.number == book.players[event.player].number and event.time <= rights.LATEST:
            rights.settle(copy.deepcopy(book), event.time, lines)
        return real(book, event, lines)
    return answered


def the_line_is_found_by_its_name_from_behind(real):
    def record_use(book, entry, content, seconds, lines):
        if book.switch and entry.tracked:
            at = max(place for place, line in enumerate(lines) if line.content == content)
            picked = lines[at]
            lines[at], lines[book.assets.index(book.asset(content))] = lines[book.assets.index(book.asset(content))], picked
            real(book, entry, content, seconds, lines)
            lines[at], lines[book.assets.index(book.asset(content))] = lines[book.assets.index(book.asset(content))], picked
    return record_use


def accepts(change):
    """A fault of which lists are good: a list is judged after a change of it."""
    def fault(real):
        return lambda book, lines: real(book, change(book, copy.deepcopy(lines)))
    fault.__name__ = change.__name__
    return fault


def too_many_lines_are_accepted(book, lines):
    return lines[:64]


def wrong_names_are_accepted(book, lines):
    for line, asset in zip(lines, book.assets):
        line.content = asset.number
    return lines


def names_are_compared_in_16_bits(book, lines):
    for line in lines:
        line.content %= 65_536
    return lines


def names_may_stand_in_another_order(book, lines):
    places = {asset.number: place for place, asset in enumerate(book.assets)}
    return sorted(lines, key=lambda line: places.get(line.content, 64)) if len(lines) <= len(places) else lines


def great_times_are_accepted(book, lines):
    for line in lines:
        line.times %= rights.GREAT
    return lines


def great_seconds_are_accepted(book, lines):
    for line in lines:
        line.seconds %= rights.GREAT
    return lines


def great_names_are_accepted(book, lines):
    for line in lines[len(book.assets):]:
        line.content %= rights.GREAT
    return lines


def further_lines_are_not_judged(book, lines):
    return lines[:len(book.assets)] if len(lines) <= 64 else lines


def two_to_the_62_is_accepted(book, lines):
    for line in lines:
        line.times, line.seconds = max(line.times - 1, 0), max(line.seconds - 1, 0)
    return lines


def two_to_the_62_less_one_is_refused(book, lines):
    for line in lines:
        line.times, line.seconds = line.times + 1, line.seconds + 1
    return lines


def too_few_lines_are_accepted(real):
    def good(book, lines):
        missing = [rights.Line(asset.number) for asset in book.assets[len(lines):]]
        lines += missing
        return real(book, lines)
    return good


def further_lines_are_refused(real):
    return lambda book, lines: real(book, lines) and len(lines) == len(book.assets)


def the_checks_come_before_30(real):
    def answer_record(book, record, lines):
        event = rights.decode(record)
        return rights.refused(event) if isinstance(event, int) else real(book, record, lines)
    return answer_record


def a_resend_comes_before_30(real):
    def step(book, event, lines):
        if isinstance(event, Event) and event.player < 16:
            player = book.players[event.player]
            request = (event.number, event.operation, event.asset, event.kind)
            if event.number and request == (player.number, player.operation, player.asset, player.kind):
                return (player.code, player.entry, player.answer_until)
        return real(book, event, lines)
    return step


def a_bad_list_takes_the_event(real):
    def step(book, event, lines):
        answer = real(book, event, lines)
        if answer[0] == 30 and isinstance(event, Event):
            rights.answered(book, event, rights.zeros(book))
        return answer
    return step


# Order 4: boot number and counter. A fault of what is in line is told by last boot number, last counter, boot number and counter.

def in_line_if(rule):
    def fault(real):
        return lambda last, number: bool(rule(*divmod(last, 2 ** 32), *divmod(number, 2 ** 32), real(last, number)))
    fault.__name__ = rule.__name__
    return fault


def only_the_next_number(b, c, boot, counter, real):
    return boot * 2 ** 32 + counter == b * 2 ** 32 + c + 1


def nothing_follows_the_last_counter(b, c, boot, counter, real):
    return real and c != 2 ** 32 - 1


def nothing_follows_the_last_counter_of_boot_0(b, c, boot, counter, real):
    return real and (b, c) != (0, 2 ** 32 - 1)


def no_counter_0(b, c, boot, counter, real):
    return real and counter != 0


def counter_0_of_any_greater_boot_number(b, c, boot, counter, real):
    return real or boot > b and counter == 0


def counter_0_of_any_greater_boot_number_after_the_last(b, c, boot, counter, real):
    return real or c == 2 ** 32 - 1 and boot > b and counter == 0


def counter_2_of_a_greater_boot_number(b, c, boot, counter, real):
    return real or boot > b and counter == 2


def any_counter_of_a_greater_boot_number(b, c, boot, counter, real):
    return real or boot > b


def the_next_counter_of_a_greater_boot_number(b, c, boot, counter, real):
    return real or boot > b and counter == c + 1


def counter_1_of_the_next_boot_number_only(b, c, boot, counter, real):
    return real and boot <= b + 1


def counter_1_of_any_boot_number(b, c, boot, counter, real):
    return real or counter == 1 and boot != b


def counter_1_of_the_same_boot_number(b, c, boot, counter, real):
    return real or counter == 1 and boot >= b


def boot_numbers_are_not_compared(b, c, boot, counter, real):
    return real or counter == c + 1


def boot_numbers_are_compared_in_31_bits(b, c, boot, counter, real):
    return real if boot < 2 ** 31 or boot == b else False


def a_first_event_has_boot_number_0(b, c, boot, counter, real):
    return real and (b, c, boot) != (0, 0, boot or 1)


def zero_follows_the_last_number(b, c, boot, counter, real):
    return real or (b, c) == (2 ** 32 - 1, 2 ** 32 - 1) and (boot, counter) == (0, 0)


def one_follows_the_last_number(b, c, boot, counter, real):
    return real or (b, c) == (2 ** 32 - 1, 2 ** 32 - 1) and (boot, counter) == (0, 1)


def a_resend_is_known_by(part):
    """The number of a resend is compared in part."""
    def fault(real):
        def answered(book, event, lines):
            if event.player < 16:
                player = book.players[event.player]
                request = (player.operation, player.asset, player.kind)
                if player.number and part(event.number) == part(player.number) and (event.operation, event.asset, event.kind) == request:
                    return (player.code, player.entry, player.answer_until)
            return real(book, event, lines)
        return answered
    fault.__name__ = f"a_resend_is_known_by_{part.__name__}"
    return fault


def the_counter_alone_is_stored(real):
    def answered(book, event, lines):
        answer = real(book, event, lines)
        if event.player < 16:
            book.players[event.player].number %= 2 ** 32
        return answer
    return answered


def records_of_13_bytes_are_read_too(real):
    def decode(record):
        return real(record[:1] + bytes(4) + record[1:]) if len(record) == 13 else real(record)
    return decode


def a_number_of_counter_0_is_none(book, player):
    return rights.Player() if player.number % 2 ** 32 == 0 else player


def numbers_end_at_32_bits(real):
    return lambda book, player: real(book, player) and player.number < 2 ** 32


def old_numbers_become_boot_numbers(real):
    """The number of an older image is taken for the upper half."""
    def read(data):
        code, book = real(data)
        if code == 0 and data[4] < 3:
            for player in book.players:
                player.number *= 2 ** 32
        return code, book
    return read


def version_2_is_refused(real):
    return lambda data: (22, None) if data[3:5] == b"\0\2" and len(data) >= 11 and data[:3] == b"RBK" else real(data)


# Order 6: the last moment in the order of the choice. A fault of the last moment is told by the moments of the entry's end and of its
# started interval, each None if there is none, and by the entry.

def last_moment_is(rule):
    def fault(real):
        def last_moment(entry):
            end = entry.end + 1 if entry.has(rights.END) else None
            interval = entry.first + entry.interval if entry.has(rights.INTERVAL) and entry.started else None
            found = [each for each in rule(end, interval, entry) if each is not None]
            return min(found, default=real(rights.Entry()))
        return last_moment
    fault.__name__ = rule.__name__
    return fault


def the_end_itself(end, interval, entry):
    return end and end - 1, interval


def the_last_second_of_the_interval(end, interval, entry):
    return end, interval and interval - 1


def the_end_alone(end, interval, entry):
    return end,


def the_interval_alone(end, interval, entry):
    return interval,


def the_interval_only_without_an_end(end, interval, entry):
    return end if end else interval,


def the_end_only_without_a_started_interval(end, interval, entry):
    return interval if interval else end,


def the_greater_of_the_two(end, interval, entry):
    return max(end or 0, interval or 0) or None,


def the_begin_of_the_interval(end, interval, entry):
    return end, interval and entry.first


def the_length_of_the_interval(end, interval, entry):
    return end, interval and entry.interval


def the_length_of_an_interval_that_has_not_started(end, interval, entry):
    return end, interval or (entry.interval if entry.has(rights.INTERVAL) else None)


def an_interval_that_has_not_started_is_last(end, interval, entry):
    """Though it has an end."""
    return (end, interval) if entry.started or not entry.has(rights.INTERVAL) else ()


def neither_is_4000000001(end, interval, entry):
    """The number that stood for no end: an interval may be over later."""
    return (end, interval) if end or interval else (rights.LATEST + 1,)


def neither_is_4000000002(end, interval, entry):
    return (end, interval) if end or interval else (rights.LATEST + 2,)


def neither_is_first(end, interval, entry):
    return (end, interval) if end or interval else (0,)


def counts_from_the_begin(part):
    """A fault of the last moment that reads the time of the begin."""
    def fault(real):
        def begin(book, player, number, kind, t, lines):
            with planted("last_moment", last_moment_is(lambda end, interval, entry: part(end, interval, entry, t))):
                return real(book, player, number, kind, t, lines)
        return begin
    fault.__name__ = part.__name__
    return fault


def an_interval_that_would_start_now(end, interval, entry, t):
    return end, interval or (t + entry.interval if entry.has(rights.INTERVAL) else None)


def unused_seconds_too(end, interval, entry, t):
    return end, interval, t + entry.accumulated - entry.used_seconds if entry.has(rights.ACCUMULATED) else None


def until_decides(end, interval, entry, t):
    return rights.least_until(entry, entry.first if entry.started else t, t, t),


def the_rules_before_order_6(flags, last, inherited, position, entry):
    """Earlier end, none last; then interval already started."""
    end = entry.end if entry.has(rights.END) else rights.LATEST + 1
    return flags, end, 0 if entry.has(rights.INTERVAL) and entry.started else 1, inherited, position


def a_started_interval_before_every_end(flags, last, inherited, position, entry):
    return flags, 0 if entry.has(rights.INTERVAL) and entry.started else 1, last, inherited, position


def an_end_before_every_interval(flags, last, inherited, position, entry):
    return flags, 0 if entry.has(rights.END) else 1, last, inherited, position


def a_started_interval_first_in_a_tie(flags, last, inherited, position, entry):
    return flags, last, 0 if entry.has(rights.INTERVAL) and entry.started else 1, inherited, position


def an_end_first_in_a_tie(flags, last, inherited, position, entry):
    return flags, last, 0 if entry.has(rights.END) else 1, inherited, position


def later_last_moment_first(flags, last, inherited, position, entry):
    return flags, -last, inherited, position


def own_before_the_last_moment(flags, last, inherited, position, entry):
    return flags, inherited, last, position


def position_before_own(flags, last, inherited, position, entry):
    return flags, last, position, inherited


def the_last_moment_before_no_flags(flags, last, inherited, position, entry):
    return last, flags, inherited, position


def no_flags_are_like_neither(flags, last, inherited, position, entry):
    return last, inherited, position


# Order 7: thresholds and marks. A fault of which entries are full is told by threshold, marks and the entry.

def full_if(rule):
    def fault(real):
        return lambda entry: bool(rule(entry.threshold, entry.marks, entry))
    fault.__name__ = rule.__name__
    return fault


def never_full(threshold, marks, entry):
    return False


def full_from_one_more_on(threshold, marks, entry):
    return threshold and marks.bit_count() > threshold


def full_from_one_less_on(threshold, marks, entry):
    return threshold and marks.bit_count() + 1 >= threshold


def full_from_one_on(threshold, marks, entry):
    return threshold and marks.bit_count() >= 1


def a_threshold_of_0_is_full(threshold, marks, entry):
    return marks.bit_count() >= threshold


def a_threshold_of_1_is_none(threshold, marks, entry):
    return threshold > 1 and marks.bit_count() >= threshold


def player_15_is_not_counted(threshold, marks, entry):
    return threshold and (marks & 0x7FFF).bit_count() >= threshold


def player_0_is_not_counted(threshold, marks, entry):
    return threshold and (marks >> 1).bit_count() >= threshold


def eight_players_are_counted(threshold, marks, entry):
    return threshold and (marks & 0xFF).bit_count() >= threshold


def the_last_marked_player_decides(threshold, marks, entry):
    return threshold and marks.bit_length() >= threshold


def the_marks_are_taken_for_a_number(threshold, marks, entry):
    return threshold and marks >= threshold


def the_used_count_is_compared(threshold, marks, entry):
    return threshold and entry.used_count >= threshold


def only_entries_without_flags_are_full(threshold, marks, entry):
    return threshold and entry.flags == 0 and marks.bit_count() >= threshold


def only_entries_with_a_count_are_full(threshold, marks, entry):
    return threshold and entry.has(rights.COUNT) and marks.bit_count() >= threshold


def counted_by_the_book(rule):
    """A fault of how many players are compared with a threshold, told by the open use, its entry, the entry and the asset asked for."""
    def fault(real):
        def begin(book, player, number, kind, t, lines):
            def is_full(entry):
                uses = [each for each in book.players if each.open and rule(each, book.entries[each.open_entry], entry, number)]
                return entry.threshold != 0 and len(uses) >= entry.threshold
            with planted("is_full", lambda real: is_full):
                return real(book, player, number, kind, t, lines)
        return begin
    fault.__name__ = rule.__name__
    return fault


def every_open_use_counts(use, used, entry, number):
    return True


def uses_of_the_rights_object_count(use, used, entry, number):
    return used.object == entry.object


def uses_of_the_entrys_asset_count(use, used, entry, number):
    return used.asset == entry.asset


def uses_for_the_same_content_count(use, used, entry, number):
    return use.content == number


def uses_of_the_entry_for_the_same_content_count(use, used, entry, number):
    return used is entry and use.content == number


def a_full_entry_is_not_suitable(real):
    return lambda book, asset, kind: [p for p in real(book, asset, kind) if not rights.is_full(book.entries[p])]


def a_full_entry_refuses_all(real):
    def begin(book, player, number, kind, t, lines):
        asset = book.asset(number)
        if not player.open and asset is not None and asset.key:
            if any(rights.is_full(book.entries[p]) for p in rights.suitable_entries(book, asset, kind)):
                return rights.refused(13)
        return real(book, player, number, kind, t, lines)
    return begin


def full_gets_43(real):
    return lambda book, suitable, t: 43 if any(rights.is_full(book.entries[p]) for p in suitable) else real(book, suitable, t)


def full_and_switched_off_gets_43(real):
    def code(book, suitable, t):
        with planted("is_full", lambda real: lambda entry: False):
            return real(book, suitable, t)
    return code


def full_comes_before_11(real):
    def begin(book, player, number, kind, t, lines):
        if player.open and rights.is_full(book.entries[player.open_entry]):
            return rights.refused(13)
        return real(book, player, number, kind, t, lines)
    return begin


def a_threshold_is_a_flag(flags, last, inherited, position, entry):
    return 1 if entry.threshold else flags, last, inherited, position


def fewer_players_first(flags, last, inherited, position, entry):
    return flags, last, inherited, entry.marks.bit_count(), position


def a_continue_asks_for_the_threshold(real):
    def go_on(book, player, t):
        if player.open and rights.is_full(book.entries[player.open_entry]):
            return rights.refused(15)
        return real(book, player, t)
    return go_on


def a_continue_gives_the_place_away(real):
    def go_on(book, player, t):
        if player.open:
            book.entries[player.open_entry].marks &= ~rights.mark_of(book, player)
        return real(book, player, t)
    return go_on


def no_mark_is_set(real):
    def begin(book, player, number, kind, t, lines):
        answer = real(book, player, number, kind, t, lines)
        if answer[0] == 0:
            book.entries[answer[1]].marks &= ~rights.mark_of(book, player)
        return answer
    return begin


def a_momentary_use_is_marked(real):
    def begin(book, player, number, kind, t, lines):
        answer = real(book, player, number, kind, t, lines)
        if answer[0] == 0:
            book.entries[answer[1]].marks |= rights.mark_of(book, player)
        return answer
    return begin


def a_refused_begin_is_marked(real):
    def begin(book, player, number, kind, t, lines):
        answer = real(book, player, number, kind, t, lines)
        if answer[0] == 13:
            book.entries[rights.suitable_entries(book, book.asset(number), kind)[0]].marks |= rights.mark_of(book, player)
        return answer
    return begin


def marks_only_with_a_threshold(real):
    def begin(book, player, number, kind, t, lines):
        answer = real(book, player, number, kind, t, lines)
        if answer[0] == 0 and book.entries[answer[1]].threshold == 0:
            book.entries[answer[1]].marks = 0
        return answer
    return begin


def a_stop_leaves_the_mark(real):
    def stop(book, player, t, lines):
        marks = [entry.marks for entry in book.entries]
        answer = real(book, player, t, lines)
        for entry, was in zip(book.entries, marks):
            entry.marks = was
        return answer
    return stop


def a_lapse_leaves_the_mark(real):
    def settle(book, t, lines):
        marks = [entry.marks for entry in book.entries]
        real(book, t, lines)
        for entry, was in zip(book.entries, marks):
            entry.marks = was
    return settle


def only_the_askers_lapse_clears_a_mark(real):
    def answered(book, event, lines):
        def leaving(real):
            def settle(book, t, lines):
                marks = [entry.marks for entry in book.entries]
                real(book, t, lines)
                for entry, was in zip(book.entries, marks):
                    entry.marks |= was & ~(1 << event.player)
            return settle
        with planted("settle", leaving):
            return real(book, event, lines)
    return answered


def an_end_clears_every_mark(real):
    def end_use(book, player, end, lines):
        entry = book.entries[player.open_entry]
        real(book, player, end, lines)
        entry.marks = 0
    return end_use


def the_threshold_is_asked_before_settling(real):
    def answered(book, event, lines):
        marks = {id(entry): entry.marks for entry in book.entries}
        with planted("is_full", lambda real: lambda entry: entry.threshold != 0 and marks[id(entry)].bit_count() >= entry.threshold):
            return real(book, event, lines)
    return answered


def a_refused_begin_is_tried_again(real):
    """Sent again, it is granted if there is room by now."""
    def answered(book, event, lines):
        if event.player < 16 and event.number:
            player = book.players[event.player]
            request = (event.number, event.operation, event.asset, event.kind)
            if player.code == 13 and request == (player.number, player.operation, player.asset, player.kind):
                player.number -= 1
                answer = real(book, event, lines)
                player.number = event.number
                return answer if answer[0] != 5 else rights.refused(13)
        return real(book, event, lines)
    return answered


def bits_from_the_top(real):
    return lambda book, player: 0x8000 // real(book, player)


def a_threshold_of_17_is_accepted(real):
    return lambda entry: entry.threshold <= 17


def a_threshold_of_16_is_refused(real):
    return lambda entry: entry.threshold < 16


def a_threshold_of_0_is_refused(real):
    return lambda entry: real(entry) and entry.threshold != 0


def thresholds_are_compared_in_8_bits(real):
    return lambda entry: entry.threshold % 256 <= 16


def thresholds_are_compared_in_16_bits(real):
    return lambda entry: entry.threshold % 65_536 <= 16


def a_momentary_entry_has_no_threshold(real):
    return lambda entry: real(entry) and (entry.threshold == 0 or not entry.is_momentary())


def marks_good_if(rule):
    """A fault of which marks are good, told by threshold, marks, the marks of the open uses, and what is right."""
    def fault(real):
        def good(book, position):
            entry = book.entries[position]
            return bool(rule(entry.threshold, entry.marks, rights.open_marks(book, position), real(book, position)))
        return good
    fault.__name__ = rule.__name__
    return fault


def within(threshold, marks):
    return threshold == 0 or marks.bit_count() <= threshold


def any_marks_are_accepted(threshold, marks, open_marks, right):
    return within(threshold, open_marks)


def bits_above_15_are_ignored(threshold, marks, open_marks, right):
    return marks & 0xFFFF == open_marks and within(threshold, open_marks)


def bit_31_is_ignored(threshold, marks, open_marks, right):
    return marks & 0x7FFF_FFFF == open_marks and within(threshold, open_marks)


def marks_without_a_threshold_are_not_judged(threshold, marks, open_marks, right):
    return right or threshold == 0


def marks_that_nobody_has_open_are_not_judged(threshold, marks, open_marks, right):
    return right or open_marks == 0


def marks_too_many_are_accepted(threshold, marks, open_marks, right):
    return marks & open_marks == open_marks and within(threshold, open_marks)


def marks_too_few_are_accepted(threshold, marks, open_marks, right):
    return marks & open_marks == marks and within(threshold, open_marks)


def as_many_marks_are_enough(threshold, marks, open_marks, right):
    return marks.bit_count() == open_marks.bit_count() and within(threshold, open_marks)


def more_than_the_threshold_is_accepted(threshold, marks, open_marks, right):
    return marks == open_marks


def a_full_threshold_is_refused(threshold, marks, open_marks, right):
    return right and not (threshold and marks.bit_count() == threshold)


def a_threshold_of_0_is_compared(threshold, marks, open_marks, right):
    return right and marks.bit_count() <= threshold


def fifteen_marks_are_compared(threshold, marks, open_marks, right):
    return marks == open_marks and within(threshold, marks & 0x7FFF)


def marks_get_26(real):
    return lambda book: real(book) and all(rights.marks_are_good(book, position) for position in range(len(book.entries)))


def thresholds_are_judged_with_the_players(real):
    """26 for what gets 25."""
    def read(data):
        with planted("threshold_is_good", lambda real: lambda entry: True):
            code, book = real(data)
        return (26, None) if code == 0 and real(data)[0] == 25 else (code, book)
    return read


def older_marks_are_left_0(real):
    return lambda book: None


def older_marks_are_set_from_the_last_answers(real):
    def set_marks(book):
        for position, entry in enumerate(book.entries):
            granted = (rights.BEGIN, 0, position)
            entry.marks = sum(1 << p for p, each in enumerate(book.players) if (each.operation, each.code, each.entry) == granted)
    return set_marks


def older_marks_are_set_on_the_first_entry(real):
    def set_marks(book):
        real(book)
        for entry in book.entries[1:]:
            entry.marks = 0
    return set_marks


def version_3_is_refused(real):
    return lambda data: (22, None) if data[3:5] == b"\0\3" and len(data) >= 11 and data[:3] == b"RBK" else real(data)


def version_6_is_read(real):
    return lambda data: real(data[:4] + b"\5" + data[5:]) if data[3:5] == b"\0\6" else real(data)


# Order 8: a begin is taken back. A fault of what comes back is told by the entry before and after it, the use and the book.

def comes_back(rule):
    def fault(real):
        def take_off(book, player):
            entry = book.entries[player.open_entry]
            was = copy.copy(entry)
            real(book, player)
            rule(entry, was, player, book)
        return take_off
    fault.__name__ = rule.__name__
    return fault


def others(use, book):
    """The other players that have its entry open: what they have used is never given back."""
    return [player for player in book.users(use.open_entry) if player is not use]


def the_count_stays(entry, was, use, book):
    entry.used_count = was.used_count


def the_count_comes_back_twice(entry, was, use, book):
    entry.used_count = max(len(others(use, book)), 2 * entry.used_count - was.used_count)


def the_timed_count_stays(entry, was, use, book):
    entry.used_timed = was.used_timed


def the_timed_count_comes_back_before_its_timer_only(entry, was, use, book):
    if book.time - use.begin >= entry.timer:
        entry.used_timed = was.used_timed


def the_timed_count_comes_back_again_before_its_timer(entry, was, use, book):
    if entry.has(rights.TIMED) and book.time - use.begin < entry.timer:
        entry.used_timed = max(len(others(use, book)), entry.used_timed - 1)


def the_seconds_stay(entry, was, use, book):
    entry.used_seconds = was.used_seconds


def only_the_unused_seconds_come_back(entry, was, use, book):
    if entry.has(rights.ACCUMULATED):
        entry.used_seconds += book.time - use.begin


def all_seconds_come_back(entry, was, use, book):
    if entry.has(rights.ACCUMULATED):
        entry.used_seconds = sum(other.until - other.begin for other in others(use, book))


def the_interval_stays_started(entry, was, use, book):
    entry.started, entry.first = was.started, was.first


def the_interval_is_unstarted_whoever_started_it(entry, was, use, book):
    entry.started = entry.first = 0


def the_interval_is_unstarted_if_the_use_begins_with_it(entry, was, use, book):
    if was.started and was.first == use.begin:
        entry.started = entry.first = 0


def the_interval_is_unstarted_if_nobody_else_has_it_open(entry, was, use, book):
    if was.marks.bit_count() == 1:
        entry.started = entry.first = 0


def the_interval_is_unstarted_if_it_seems_to_be_its_own(entry, was, use, book):
    """Without the header's mark: the use begins with it, and nobody else has the entry open."""
    if was.started and was.first == use.begin and was.marks.bit_count() == 1:
        entry.started = entry.first = 0


def the_first_use_time_is_left(entry, was, use, book):
    entry.first = was.first


def may_be_taken_back(rule):
    """A fault of which begin may be taken back, told by the book, the player, its index and what is right."""
    def fault(real):
        def may_cancel(book, player):
            index = next(i for i, each in enumerate(book.players) if each is player)
            return bool(rule(book, player, index, real(book, player)))
        return may_cancel
    fault.__name__ = rule.__name__
    return fault


def is_stored(player):
    return player.operation == rights.BEGIN and (player.code, player.entry, player.answer_until) == (0, player.open_entry, player.until)


def every_open_use(book, player, index, right):
    return True


def no_use(book, player, index, right):
    return False


def whoever_asked_since(book, player, index, right):
    return is_stored(player)


def whatever_it_asked_since(book, player, index, right):
    return book.latest_player == index + 1


def behind_a_continue_too(book, player, index, right):
    granted = (player.code, player.entry, player.answer_until) == (0, player.open_entry, player.until)
    return right or book.latest_player == index + 1 and player.operation == rights.CONTINUE and granted


def in_the_second_of_its_begin_only(book, player, index, right):
    return right and player.begin == book.time


def in_the_second_of_its_begin_whoever_asked(book, player, index, right):
    return right or is_stored(player) and player.begin == book.time


def while_nobody_else_has_something_open(book, player, index, right):
    return right and sum(each.open for each in book.players) == 1


def not_for_player_0(book, player, index, right):
    return right and index != 0


def not_for_player_15(book, player, index, right):
    return right and index != 15


def whatever_the_entry(book, player, index, right):
    return right or book.latest_player == index + 1 and is_stored(changed(player, entry=player.open_entry))


def whatever_the_until(book, player, index, right):
    return right or book.latest_player == index + 1 and is_stored(changed(player, answer_until=player.until))


def whatever_the_code(book, player, index, right):
    return right or book.latest_player == index + 1 and player.operation == rights.BEGIN


def whatever_the_operation(book, player, index, right):
    return right or book.latest_player == index + 1 and is_stored(changed(player, operation=rights.BEGIN))


def answers_of_a_cancel(rule):
    """A fault of its answer, told by that, the use, the book's time and whether something was open."""
    def fault(real):
        def cancel(book, player):
            use = copy.copy(player)
            return rule(real(book, player), use, book.time)
        return cancel
    fault.__name__ = rule.__name__
    return fault


def its_until_is_answered(answer, use, t):
    return (0, answer[1], use.until) if answer[0] == 0 else answer


def its_time_is_answered(answer, use, t):
    return (0, answer[1], t) if answer[0] == 0 else answer


def until_0_is_answered(answer, use, t):
    return (0, answer[1], 0) if answer[0] == 0 else answer


def entry_255_is_answered(answer, use, t):
    return (0, 255, answer[2]) if answer[0] == 0 else answer


def nothing_open_gets_44(answer, use, t):
    return rights.refused(44) if answer[0] == 14 else answer


def too_late_gets_14(answer, use, t):
    return rights.refused(14) if answer[0] == 44 else answer


def too_late_gets_15(answer, use, t):
    return rights.refused(15) if answer[0] == 44 else answer


def a_cancel_is_a_stop(real):
    return lambda book, player: real(book, player) if not player.open else rights.stop(book, player, book.time, rights.zeros(book))


def a_refused_cancel_stops(real):
    def cancel(book, player):
        answer = real(book, player)
        if answer[0] == 44:
            rights.stop(book, player, book.time, rights.zeros(book))
        return answer
    return cancel


def a_cancel_changes_nothing(real):
    def cancel(book, player):
        entries, was = copy.deepcopy(book.entries), copy.copy(player)
        answer = real(book, player)
        book.entries[:] = entries
        vars(player).update(vars(was))
        return answer
    return cancel


def a_cancel_leaves_the_mark(real):
    def cancel(book, player):
        marks = [entry.marks for entry in book.entries]
        answer = real(book, player)
        for entry, was in zip(book.entries, marks):
            entry.marks = was
        return answer
    return cancel


def a_cancel_can_be_done_twice(real):
    """A second one gives the same back again."""
    def cancel(book, player):
        if not player.open and (player.operation, player.code) == (rights.CANCEL, 0):
            entry = book.entries[player.entry]
            entry.used_count = min(entry.used_count, max(len(book.users(player.entry)), entry.used_count - 1))
            return (0, player.entry, player.answer_until)
        return real(book, player)
    return cancel


def a_cancel_is_recorded(seconds):
    """The use taken back is in the report, with these seconds of it."""
    def fault(real):
        def answered(book, event, lines):
            index = event.player if event.player < rights.PLAYERS else 0
            player, use = book.players[index], copy.copy(book.players[index])
            answer = real(book, event, lines)
            cancelled = (player.number, player.operation, answer[0]) == (event.number, rights.CANCEL, 0)
            if cancelled and use.open and not player.open and use.number != event.number:
                rights.record_use(book, book.entries[use.open_entry], use.content, seconds(use, event.time), lines)
            return answer
        return answered
    fault.__name__ = f"a_cancel_is_recorded_with_{seconds.__name__}"
    return fault


def its_seconds(use, t):
    return t - use.begin


def all_its_seconds(use, t):
    return use.until - use.begin


def no_seconds(use, t):
    return 0


def a_cancel_records_no_other_use(real):
    """Nor those that are over with its time."""
    def answered(book, event, lines):
        before = copy.deepcopy(lines)
        answer = real(book, event, lines)
        if event.operation == rights.CANCEL and answer[0] == 0:
            lines[:] = before
        return answer
    return answered


def header_written(rule):
    """A fault of what a taken event writes into the header, told by the book, the event, its answer and what stood there before."""
    def fault(real):
        def note_last(book, event, answer):
            before, mark = book.latest_player, book.latest_started
            real(book, event, answer)
            rule(book, event, answer, before, mark)
        return note_last
    fault.__name__ = rule.__name__
    return fault


def a_refusal_is_not_written(book, event, answer, before, mark):
    if answer[0] != 0:
        book.latest_player, book.latest_started = before, mark


def a_refused_continue_is_not_written(book, event, answer, before, mark):
    if answer[0] in (14, 15):
        book.latest_player, book.latest_started = before, mark


def a_13_is_not_written(book, event, answer, before, mark):
    if answer[0] in (13, 43):
        book.latest_player, book.latest_started = before, mark


def a_10_is_not_written(book, event, answer, before, mark):
    if answer[0] in (10, 12):
        book.latest_player, book.latest_started = before, mark


def a_stop_is_not_written(book, event, answer, before, mark):
    if event.operation == rights.STOP:
        book.latest_player, book.latest_started = before, mark


def a_continue_is_not_written(book, event, answer, before, mark):
    if event.operation == rights.CONTINUE:
        book.latest_player, book.latest_started = before, mark


def a_cancel_is_not_written(book, event, answer, before, mark):
    if event.operation == rights.CANCEL:
        book.latest_player, book.latest_started = before, mark


def a_momentary_use_is_not_written(book, event, answer, before, mark):
    if answer[0] == 0 and book.entries[answer[1]].is_momentary():
        book.latest_player, book.latest_started = before, mark


def the_player_itself_is_written(book, event, answer, before, mark):
    book.latest_player = event.player


def begins_alone_are_written(book, event, answer, before, mark):
    if event.operation != rights.BEGIN:
        book.latest_player = before


def the_mark_is_never_written(book, event, answer, before, mark):
    book.latest_started = 0


def every_begin_on_an_interval_is_marked(book, event, answer, before, mark):
    player = book.players[event.player]
    if event.operation == rights.BEGIN and answer[0] == 0 and player.open and book.entries[answer[1]].has(rights.INTERVAL):
        book.latest_started = 1


def the_mark_is_left(book, event, answer, before, mark):
    book.latest_started = mark


def a_momentary_use_sets_the_mark(real):
    def begin(book, player, number, kind, t, lines):
        started = [entry.started for entry in book.entries]
        answer = real(book, player, number, kind, t, lines)
        if answer[0] == 0 and book.entries[answer[1]].started != started[answer[1]]:
            book.latest_started = 1
        return answer
    return begin


def seen_by_the_header(which):
    """What is not taken is written into the header, if it is of this sort."""
    def fault(real):
        def answered(book, event, lines):
            numbers = [player.number for player in book.players] + [0] * 256
            answer = real(book, event, lines)
            last = book.players[event.player].number if event.player < rights.PLAYERS else None
            if last == numbers[event.player] and which(numbers, event, answer):
                book.latest_player, book.latest_started = event.player + 1, 0
            return answer
        return answered
    fault.__name__ = f"{which.__name__}_is_written"
    return fault


def a_resend(numbers, event, answer):
    return event.number == numbers[event.player] and answer[0] not in (1, 4)


def a_number_out_of_line(numbers, event, answer):
    return answer[0] == 3 and numbers[event.player] != 0


def a_used_number(numbers, event, answer):
    return answer[0] == 4


def a_bad_time(numbers, event, answer):
    return answer[0] == 5 and numbers[event.player] != 0


def a_bad_record_is_written(real):
    def answer_record(book, record, lines):
        answer = real(book, record, lines)
        if answer[0] == 1 and book.players[record[0]].number:
            book.latest_player, book.latest_started = record[0] + 1, 0
        return answer
    return answer_record


def a_44_is_not_taken(real):
    def answered(book, event, lines):
        before = copy.deepcopy(book)
        answer = real(book, event, lines)
        if answer[0] == 44:
            for name in ("time", "players", "entries", "latest_player", "latest_started"):
                setattr(book, name, getattr(before, name))
        return answer
    return answered


def a_cancel_comes_before_settling(real):
    """The use that is over with its time can still be taken back."""
    def answered(book, event, lines):
        def leaving(real):
            def settle(book, t, lines):
                own = book.players[event.player]
                kept = event.operation == rights.CANCEL and own.open and own.until <= t
                until, own.until = own.until, t + 1 if kept else own.until
                real(book, t, lines)
                if kept:
                    own.until = until
            return settle
        with planted("settle", leaving):
            return real(book, event, lines)
    return answered


def requests(rule):
    """A fault of which requests are good, told by operation, asset, kind and what is right."""
    def fault(real):
        return lambda operation, asset, kind: rule(operation, asset, kind, real(operation, asset, kind))
    fault.__name__ = rule.__name__
    return fault


def operation_4_gets_1(operation, asset, kind, right):
    return right and operation != 4


def operation_5_is_a_cancel(operation, asset, kind, right):
    return right or (operation, asset, kind) == (5, 0, 0)


def a_cancel_may_have_an_asset(operation, asset, kind, right):
    return right or operation == 4 and kind == 0


def a_cancel_may_have_a_kind(operation, asset, kind, right):
    return right or operation == 4 and asset == 0


def a_stored_44_is_refused(real):
    return lambda book, player: real(book, player) and player.code != 44


def a_stored_cancel_is_refused(real):
    return lambda book, player: real(book, player) and player.operation != rights.CANCEL


def a_stored_45_is_accepted(real):
    return lambda book, player: real(book, changed(player, code=44) if player.code == 45 else player)


def the_header_is_not_read(real):
    def read(data):
        code, book = real(data)
        if code == 0:
            book.latest_player = book.latest_started = 0
        return code, book
    return read


def the_mark_is_not_read(real):
    def read(data):
        code, book = real(data)
        if code == 0:
            book.latest_started = 0
        return code, book
    return read


def the_header_of_older_images_is_made_up(real):
    """Of an older image, the first player whose stored begin is open counts as the last."""
    def read(data):
        code, book = real(data)
        begun = [index for index, player in enumerate(book.players) if player.open and is_stored(player)] if code == 0 else []
        if begun and data[4] < 5:
            book.latest_player = begun[0] + 1
        return code, book
    return read


def version_4_is_refused(real):
    return lambda data: (22, None) if data[3:5] == b"\0\4" and len(data) >= 11 and data[:3] == b"RBK" else real(data)


def header_good_if(rule):
    """A fault of which headers are good, told by the player last taken, plus 1, the mark, that player (a blank one if there is none), its
    entry (likewise), the book, and what is right."""
    def fault(real):
        def good(book):
            player = book.players[book.latest_player - 1] if 1 <= book.latest_player <= rights.PLAYERS else rights.Player()
            entry = book.entries[player.open_entry] if player.open and player.open_entry < len(book.entries) else Entry()
            return bool(rule(book.latest_player, book.latest_started, player, entry, book, real(book)))
        return good
    fault.__name__ = rule.__name__
    return fault


def started_it(player, entry, book):
    return player.open == 1 and entry.has(rights.INTERVAL) and player.begin == entry.first and len(book.users(player.open_entry)) == 1


def player_17_may_be_last(last, mark, player, entry, book, right):
    return right or last == 17 and mark == 0


def any_number_above_16_may_be_last(last, mark, player, entry, book, right):
    return right or last > 16 and mark <= 1


def player_15_may_not_be_last(last, mark, player, entry, book, right):
    return right and last != 16


def one_without_a_number_may_be_last(last, mark, player, entry, book, right):
    return right or 1 <= last <= 16 and player.number == 0 and mark == 0


def one_whose_counter_is_0_may_not_be_last(last, mark, player, entry, book, right):
    return right and (last == 0 or player.number % 2 ** 32 != 0)


def one_must_be_last_if_any_asked(last, mark, player, entry, book, right):
    return right and (last != 0 or not any(each.number for each in book.players))


def only_one_with_a_use_may_be_last(last, mark, player, entry, book, right):
    return right and (last == 0 or player.open == 1)


def only_one_with_a_grant_may_be_last(last, mark, player, entry, book, right):
    return right and (last == 0 or player.code == 0)


def nobody_may_have_a_mark(last, mark, player, entry, book, right):
    return right or (last, mark) == (0, 1)


def the_mark_may_be_2(last, mark, player, entry, book, right):
    return right or mark == 2 and player.number != 0 and started_it(player, entry, book)


def any_mark_is_1(last, mark, player, entry, book, right):
    return right or mark > 1 and player.number != 0 and started_it(player, entry, book)


def a_mark_is_refused(last, mark, player, entry, book, right):
    return right and mark == 0


def the_mark_is_not_judged(last, mark, player, entry, book, right):
    return right or mark == 1 and player.number != 0


def a_mark_needs_no_open_use(last, mark, player, entry, book, right):
    return right or mark == 1 and player.number != 0 and player.open == 0


def a_mark_needs_no_interval(last, mark, player, entry, book, right):
    return right or mark == 1 and player.number != 0 and player.open == 1 and not entry.has(rights.INTERVAL)


def a_mark_needs_no_first(last, mark, player, entry, book, right):
    return right or mark == 1 and player.number != 0 and started_it(changed(player, begin=entry.first), entry, book)


def a_mark_may_begin_a_second_later(last, mark, player, entry, book, right):
    return right or mark == 1 and player.number != 0 and started_it(changed(player, begin=player.begin - 1), entry, book)


def others_may_have_it_open(last, mark, player, entry, book, right):
    return right or mark == 1 and player.open == 1 and entry.has(rights.INTERVAL) and player.begin == entry.first


def others_before_it_may_have_it_open(last, mark, player, entry, book, right):
    behind = dataclasses.replace(book, players=book.players[last - 1:]) if last else book
    return right or mark == 1 and player.number != 0 and started_it(player, entry, behind)


def others_behind_it_may_have_it_open(last, mark, player, entry, book, right):
    return right or mark == 1 and player.number != 0 and started_it(player, entry, dataclasses.replace(book, players=book.players[:last]))


def one_other_may_have_it_open(last, mark, player, entry, book, right):
    others = player.open == 1 and entry.has(rights.INTERVAL) and player.begin == entry.first and len(book.users(player.open_entry)) == 2
    return right or mark == 1 and others


def nobody_may_have_anything_else_open(last, mark, player, entry, book, right):
    return right and (mark == 0 or sum(each.open for each in book.players) == 1)


def a_mark_needs_a_stored_begin(last, mark, player, entry, book, right):
    return right and (mark == 0 or player.operation == rights.BEGIN)


def a_mark_needs_its_stored_answer(last, mark, player, entry, book, right):
    return right and (mark == 0 or (player.code, player.entry, player.answer_until) == (0, player.open_entry, player.until))


def a_use_that_begins_with_its_interval_needs_the_mark(last, mark, player, entry, book, right):
    return right and (mark == 1 or last == 0 or not started_it(player, entry, book))


def last_is_compared_in(bits):
    def fault(real):
        def good(book):
            low = book.latest_player % 2 ** bits
            return real(dataclasses.replace(book, latest_player=low if low else book.latest_player))
        return good
    fault.__name__ = f"last_is_compared_in_{bits}_bits"
    return fault


def marks_are_compared_in(bits):
    def fault(real):
        return lambda book: real(dataclasses.replace(book, latest_started=book.latest_started % 2 ** bits))
    fault.__name__ = f"marks_are_compared_in_{bits}_bits"
    return fault


def the_header_gets(code):
    """Another number for a header's player or mark against its rule, in its place in the order."""
    def fault(real):
        def read(data):
            with planted("last_is_good", lambda real: lambda book: True):
                found, book = real(data)
            if found in (0, 26, 27)[:2 if code == 25 else 3] and real(data)[0] == 26:
                return (code, None) if found in ((0, 26) if code == 25 else (0, 27)) else (found, book)
            return real(data)
        return read
    fault.__name__ = f"the_header_gets_{code}"
    return fault


# Order 3: images

def the_content_is_kept_of_tracked_entries_only(real):
    def begin(book, player, number, kind, t, lines):
        answer = real(book, player, number, kind, t, lines)
        if answer[0] == 0 and player.open and not book.entries[answer[1]].tracked:
            player.content = 0
        return answer
    return begin


def the_content_is_kept_after_the_end(real):
    def end_use(book, player, end, lines):
        content = player.content
        real(book, player, end, lines)
        player.content = content
    return end_use


def judged(part, change):
    """A fault of a rule of images: the thing is judged after a change of it."""
    def fault(real):
        if part == "player":
            return lambda book, player: real(book, change(book, copy.copy(player)))
        return lambda thing: real(change(copy.copy(thing)))
    fault.__name__ = change.__name__
    return fault


def any_mark_above_0_is_1(entry):
    entry.mark = min(entry.mark, 1)
    return entry


def any_track_above_0_is_1(entry):
    entry.tracked = min(entry.tracked, 1)
    return entry


def a_timed_value_without_a_track_is_accepted(entry):
    entry.timed_value *= entry.tracked
    return entry


def a_mark_without_a_track_is_accepted(entry):
    entry.mark *= entry.tracked
    return entry


def a_timed_value_is_bounded(entry):
    entry.tracked += entry.timed_value > 1_000_000
    return entry


def any_switch_above_0_is_on(book):
    book.switch = min(book.switch, 1)
    return book


def a_content_is_left_when_closed(book, player):
    player.content = player.content if player.open else 0
    return player


def any_content_is_accepted(book, player):
    player.content = book.assets[0].number if player.open and book.assets else player.content
    return player


def a_tracked_use_may_have_no_content(book, player):
    player.content = player.content or (book.assets[0].number if player.open and book.assets else 0)
    return player


def an_untracked_use_needs_its_content(real):
    return lambda book, entry, content: real(book, entry, content) and content != 0


def the_content_needs_a_key(real):
    return lambda book, entry, content: real(book, entry, content) and (content == 0 or book.asset(content).key == 1)


def the_content_is_compared_in_16_bits(real):
    return lambda book, entry, content: real(book, entry, content % 65_536 or content)


def a_stored_43_is_refused(real):
    return lambda book, player: real(book, player) and player.code != 43


def version_1_is_refused(real):
    return lambda data: (22, None) if data[3:5] == b"\0\1" and len(data) >= 11 and data[:3] == b"RBK" else real(data)


def version_1_is_written_back_as_it_was(real):
    return lambda book, version=1: real(book, version)


ZERO_LIMITS = ("count", "timed", "interval", "accumulated")
FAULTS = [                  # caught by the ledger on random days, and by a stored day
    ("answered", resend_compares_time), ("answered", resend_is_metered), ("stop", count_goes_back),
    ("limits_allow", end_is_excluded), ("suitable_entries", inherits_through_illegal),
    ("suitable_entries", inherits_two_levels), ("answered", settles_the_asker_only),
    ("limits_allow", always_none_grantable), ("end_use", timed_never_goes_back),
    ("limits_allow", an_interval_of_0_is_granted_once), ("suitable_entries", a_limit_of_0_is_not_suitable),
    ("begin", a_limit_of_0_refuses_all), ("limits_allow", a_timer_a_start_and_an_end_of_0_are_never_grantable),
    ("limits_allow", no_flags_are_never_grantable),
    *(("limits_allow", a_limit_of_0_is_no_limit(limit)) for limit in ZERO_LIMITS),
    *(("entry_is_good", a_limit_of_0_gets_25(limit)) for limit in ZERO_LIMITS),
    *(("fails_for_switch", fault) for fault in (
        switched_off_is_granted, a_mark_does_not_help, a_mark_is_asked_for_with_the_switch_on_too,
        the_switch_is_asked_of_untracked_entries_too)),
    *(("none_grantable", fault) for fault in (
        switched_off_gets_13, switched_off_gets_43_whatever_else_stands, switched_off_gets_43_only_if_all_are,
        switched_off_gets_43_only_for_the_first)),
    ("answered", not_taken), ("player_is_good", a_stored_43_is_refused),
    *(("is_in_line", in_line_if(rule)) for rule in (
        only_the_next_number, counter_0_of_any_greater_boot_number, counter_2_of_a_greater_boot_number,
        any_counter_of_a_greater_boot_number, the_next_counter_of_a_greater_boot_number, counter_1_of_the_next_boot_number_only,
        counter_1_of_any_boot_number, counter_1_of_the_same_boot_number, boot_numbers_are_not_compared,
        boot_numbers_are_compared_in_31_bits, a_first_event_has_boot_number_0)),
    *(("answered", a_resend_is_known_by(part)) for part in (rights.boot_of, rights.counter_of)),
    ("answered", the_counter_alone_is_stored),
    *(("last_moment", last_moment_is(rule)) for rule in (
        the_end_itself, the_last_second_of_the_interval, the_end_alone, the_interval_alone, the_interval_only_without_an_end,
        the_end_only_without_a_started_interval, the_greater_of_the_two, the_begin_of_the_interval, the_length_of_the_interval,
        the_length_of_an_interval_that_has_not_started, an_interval_that_has_not_started_is_last, neither_is_4000000001,
        neither_is_4000000002, neither_is_first)),
    *(("begin", counts_from_the_begin(part)) for part in (an_interval_that_would_start_now, unused_seconds_too, until_decides)),
    *(("rank", ranked(rule)) for rule in (
        inherited_before_own, higher_position_first, the_rules_before_order_6, a_started_interval_before_every_end,
        an_end_before_every_interval, a_started_interval_first_in_a_tie, an_end_first_in_a_tie, later_last_moment_first,
        own_before_the_last_moment, position_before_own, the_last_moment_before_no_flags, no_flags_are_like_neither))]
THRESHOLD_FAULTS = [        # caught by the ledger on random days, by the answers alone too, and by a stored day
    ("rank", ranked(a_threshold_is_a_flag)), ("rank", ranked(fewer_players_first)),
    *(("is_full", full_if(rule)) for rule in (
        never_full, full_from_one_more_on, full_from_one_less_on, full_from_one_on, a_threshold_of_0_is_full, a_threshold_of_1_is_none,
        player_15_is_not_counted, player_0_is_not_counted, eight_players_are_counted, the_last_marked_player_decides,
        the_marks_are_taken_for_a_number, the_used_count_is_compared, only_entries_without_flags_are_full,
        only_entries_with_a_count_are_full)),
    *(("begin", counted_by_the_book(rule)) for rule in (
        every_open_use_counts, uses_of_the_rights_object_count, uses_of_the_entrys_asset_count, uses_for_the_same_content_count,
        uses_of_the_entry_for_the_same_content_count)),
    ("suitable_entries", a_full_entry_is_not_suitable), ("begin", a_full_entry_refuses_all), ("none_grantable", full_gets_43),
    ("begin", full_comes_before_11), ("go_on", a_continue_asks_for_the_threshold), ("go_on", a_continue_gives_the_place_away),
    *(("begin", fault) for fault in (no_mark_is_set, a_momentary_use_is_marked, a_refused_begin_is_marked)),
    ("stop", a_stop_leaves_the_mark), ("settle", a_lapse_leaves_the_mark), ("end_use", an_end_clears_every_mark),
    *(("answered", fault) for fault in (
        only_the_askers_lapse_clears_a_mark, the_threshold_is_asked_before_settling, a_refused_begin_is_tried_again))]
CANCEL_FAULTS = [           # caught by the ledger on random days, by the answers alone too, and by a stored day
    *(("take_off", comes_back(rule)) for rule in (
        the_count_stays, the_count_comes_back_twice, the_timed_count_stays, the_timed_count_comes_back_before_its_timer_only,
        the_timed_count_comes_back_again_before_its_timer, the_seconds_stay, only_the_unused_seconds_come_back, all_seconds_come_back,
        the_interval_stays_started, the_interval_is_unstarted_whoever_started_it, the_interval_is_unstarted_if_the_use_begins_with_it,
        the_interval_is_unstarted_if_nobody_else_has_it_open, the_interval_is_unstarted_if_it_seems_to_be_its_own)),
    *(("may_cancel", may_be_taken_back(rule)) for rule in (
        every_open_use, no_use, whoever_asked_since, whatever_it_asked_since, behind_a_continue_too, in_the_second_of_its_begin_only,
        in_the_second_of_its_begin_whoever_asked, while_nobody_else_has_something_open, not_for_player_0, not_for_player_15)),
    *(("cancel", answers_of_a_cancel(rule)) for rule in (
        its_until_is_answered, its_time_is_answered, until_0_is_answered, entry_255_is_answered, nothing_open_gets_44, too_late_gets_14,
        too_late_gets_15)),
    *(("cancel", fault) for fault in (
        a_cancel_is_a_stop, a_refused_cancel_stops, a_cancel_changes_nothing, a_cancel_leaves_the_mark, a_cancel_can_be_done_twice)),
    *(("note_last", header_written(rule)) for rule in (
        a_refusal_is_not_written, a_refused_continue_is_not_written, a_13_is_not_written, a_10_is_not_written, a_stop_is_not_written,
        a_continue_is_not_written, a_cancel_is_not_written, a_momentary_use_is_not_written, the_player_itself_is_written,
        begins_alone_are_written, the_mark_is_never_written, every_begin_on_an_interval_is_marked)),
    *(("answered", seen_by_the_header(which)) for which in (a_resend, a_number_out_of_line, a_used_number, a_bad_time)),
    ("answered", a_44_is_not_taken), ("answered", a_cancel_comes_before_settling),
    *(("request_is_good", requests(rule)) for rule in (
        operation_4_gets_1, operation_5_is_a_cancel, a_cancel_may_have_an_asset, a_cancel_may_have_a_kind))]
MIDDLE_FAULTS = [           # of numbers and books that no day from a fresh book comes to, or of records: caught by a stored day
    *(("is_in_line", in_line_if(rule)) for rule in (
        nothing_follows_the_last_counter, nothing_follows_the_last_counter_of_boot_0, no_counter_0,
        counter_0_of_any_greater_boot_number_after_the_last, zero_follows_the_last_number, one_follows_the_last_number)),
    ("decode", records_of_13_bytes_are_read_too), ("read", old_numbers_become_boot_numbers),
    ("none_grantable", full_and_switched_off_gets_43), ("read", version_3_is_refused), ("set_marks", older_marks_are_left_0),
    *(("may_cancel", may_be_taken_back(rule)) for rule in (
        whatever_the_entry, whatever_the_until, whatever_the_code, whatever_the_operation)),
    ("answer_record", a_bad_record_is_written),
    *(("player_is_good", fault) for fault in (a_stored_44_is_refused, a_stored_cancel_is_refused)),
    *(("read", fault) for fault in (
        the_header_is_not_read, the_mark_is_not_read, the_header_of_older_images_is_made_up, version_4_is_refused))]
REPORT_FAULTS = [           # caught by the ledger on random days, and by the report of a written day or by a list by hand
    *(("record_use", recording(change)) for change in (
        recorded_with_the_switch_off, recorded_untracked, recorded_with_a_mark_only, recorded_for_the_entrys_asset,
        recorded_for_the_first_asset, a_time_from_one_second_more_on, a_time_from_one_second_less_on, a_time_whatever_its_length,
        a_time_from_the_timer_on, a_momentary_use_is_not_recorded, a_momentary_use_is_always_a_time, too_short_a_use_is_not_recorded,
        seconds_of_one_grant_only)),
    ("record_use", the_line_is_found_by_its_name_from_behind), ("end_use", recorded_at_the_begin), ("stop", a_stop_records_nothing),
    ("settle", settling_records_nothing), ("answered", settling_records_the_askers_use_only), ("answered", a_resend_settles),
    *(("list_is_good", accepts(change)) for change in (
        too_many_lines_are_accepted, wrong_names_are_accepted, names_are_compared_in_16_bits, names_may_stand_in_another_order,
        great_times_are_accepted, great_seconds_are_accepted, great_names_are_accepted, further_lines_are_not_judged,
        two_to_the_62_is_accepted, two_to_the_62_less_one_is_refused)),
    ("list_is_good", too_few_lines_are_accepted), ("list_is_good", further_lines_are_refused),
    ("step", a_resend_comes_before_30), ("step", a_bad_list_takes_the_event),
    *(("answered", a_cancel_is_recorded(seconds)) for seconds in (its_seconds, all_its_seconds, no_seconds)),
    ("answered", a_cancel_records_no_other_use)]
READER_FAULTS = [           # of images that no day from a fresh book leads to, or of no event: caught by a stored image
    ("meters_are_good", a_started_interval_of_0_gets_27), ("meters_are_good", a_meter_above_a_limit_of_0_is_accepted),
    ("open_use_is_good", an_open_use_in_an_interval_of_0_is_accepted),
    *(("track_is_good", judged("entry", change)) for change in (
        any_mark_above_0_is_1, any_track_above_0_is_1, a_timed_value_without_a_track_is_accepted, a_mark_without_a_track_is_accepted,
        a_timed_value_is_bounded)),
    ("header_is_good", judged("book", any_switch_above_0_is_on)),
    *(("player_is_good", judged("player", change)) for change in (
        a_content_is_left_when_closed, any_content_is_accepted, a_tracked_use_may_have_no_content)),
    ("content_is_good", an_untracked_use_needs_its_content), ("content_is_good", the_content_needs_a_key),
    ("content_is_good", the_content_is_compared_in_16_bits), ("player_is_good", a_stored_43_is_refused),
    ("read", version_1_is_refused), ("read", version_2_is_refused), ("write", version_1_is_written_back_as_it_was),
    ("player_is_good", judged("player", a_number_of_counter_0_is_none)), ("player_is_good", numbers_end_at_32_bits),
    ("read", old_numbers_become_boot_numbers),
    *(("threshold_is_good", fault) for fault in (
        a_threshold_of_17_is_accepted, a_threshold_of_16_is_refused, a_threshold_of_0_is_refused, thresholds_are_compared_in_8_bits,
        thresholds_are_compared_in_16_bits, a_momentary_entry_has_no_threshold)),
    *(("marks_are_good", marks_good_if(rule)) for rule in (
        any_marks_are_accepted, bits_above_15_are_ignored, bit_31_is_ignored, marks_without_a_threshold_are_not_judged,
        marks_that_nobody_has_open_are_not_judged, marks_too_many_are_accepted, marks_too_few_are_accepted, as_many_marks_are_enough,
        more_than_the_threshold_is_accepted, a_full_threshold_is_refused, a_threshold_of_0_is_compared, fifteen_marks_are_compared)),
    ("header_is_good", marks_get_26), ("read", thresholds_are_judged_with_the_players),
    *(("set_marks", fault) for fault in (
        older_marks_are_left_0, older_marks_are_set_from_the_last_answers, older_marks_are_set_on_the_first_entry)),
    ("read", version_3_is_refused), ("read", version_6_is_read), ("mark_of", bits_from_the_top),
    *(("last_is_good", header_good_if(rule)) for rule in (
        player_17_may_be_last, any_number_above_16_may_be_last, player_15_may_not_be_last, one_without_a_number_may_be_last,
        one_whose_counter_is_0_may_not_be_last, one_must_be_last_if_any_asked, only_one_with_a_use_may_be_last,
        only_one_with_a_grant_may_be_last, nobody_may_have_a_mark, the_mark_may_be_2, any_mark_is_1, a_mark_is_refused,
        the_mark_is_not_judged, a_mark_needs_no_open_use, a_mark_needs_no_interval, a_mark_needs_no_first, a_mark_may_begin_a_second_later,
        others_may_have_it_open, others_before_it_may_have_it_open, others_behind_it_may_have_it_open, one_other_may_have_it_open,
        nobody_may_have_anything_else_open, a_mark_needs_a_stored_begin, a_mark_needs_its_stored_answer,
        a_use_that_begins_with_its_interval_needs_the_mark)),
    *(("last_is_good", last_is_compared_in(bits)) for bits in (8, 16)),
    *(("last_is_good", marks_are_compared_in(bits)) for bits in (8, 16)),
    *(("read", the_header_gets(code)) for code in (25, 27)),
    *(("player_is_good", fault) for fault in (a_stored_44_is_refused, a_stored_cancel_is_refused, a_stored_45_is_accepted)),
    *(("read", fault) for fault in (
        the_header_is_not_read, the_mark_is_not_read, the_header_of_older_images_is_made_up, version_4_is_refused))]
KEPT_FAULTS = [             # of what no answer shows: caught by what the ledger says of the book
    ("begin", the_content_is_kept_of_tracked_entries_only), ("end_use", the_content_is_kept_after_the_end),
    ("begin", marks_only_with_a_threshold), ("mark_of", bits_from_the_top),
    ("take_off", comes_back(the_first_use_time_is_left)), ("begin", a_momentary_use_sets_the_mark),
    ("note_last", header_written(the_mark_is_left))]


@contextmanager
def planted(name, fault):
    real = getattr(rights, name)
    setattr(rights, name, fault(real))
    try:
        yield
    finally:
        setattr(rights, name, real)


def is_caught(name, fault, books=True):
    """By the ledger, on random days; by what it says of the answers alone, if the books are left out."""
    with planted(name, fault):
        for seed in range(600):
            try:
                run_day(random.Random(seed), 60, books)
            except Broken:
                return True
    return False


def is_caught_by_stored_days(name, fault, stored):
    with planted(name, fault):
        return any(rights.run(image, records) != text for image, records, text in stored)


def is_caught_by_stored_images(name, fault, stored):
    """By what is answered, or by what an accepted one is written back as."""
    with planted(name, fault):
        for answer, image in stored:
            code, book = rights.read(image)
            if code != answer or code == 0 and rights.write(book) != (image if image[4] == rights.NEWEST else images.widened(image)):
                return True
    return False


def is_caught_by_reports(name, fault):
    """By the report of a written day, or by a list lent by hand."""
    with planted(name, fault):
        try:
            check_written_days()
            lent_lists.check()
        except (Broken, AssertionError):
            return True
    return False


def check_faults():
    stored_days, stored_images = list(days.stored_days()), list(images.answers())
    for name, fault in FAULTS + THRESHOLD_FAULTS + CANCEL_FAULTS:
        demand(is_caught(name, fault), f"the fault {fault.__name__} is caught")
        demand(is_caught_by_stored_days(name, fault, stored_days), f"the fault {fault.__name__} is caught by the stored days")
    for name, fault in THRESHOLD_FAULTS + CANCEL_FAULTS:
        demand(is_caught(name, fault, books=False), f"the fault {fault.__name__} is caught by the answers")
    for name, fault in MIDDLE_FAULTS:
        demand(is_caught_by_stored_days(name, fault, stored_days), f"the fault {fault.__name__} is caught by the stored days")
    for name, fault in REPORT_FAULTS:
        demand(is_caught(name, fault), f"the fault {fault.__name__} is caught")
        demand(is_caught_by_reports(name, fault), f"the fault {fault.__name__} is caught by the reports and lists by hand")
    for name, fault in READER_FAULTS + [each for each in FAULTS if each[0] == "entry_is_good"]:
        demand(is_caught_by_stored_images(name, fault, stored_images), f"the fault {fault.__name__} is caught by the stored images")
    for name, fault in KEPT_FAULTS:
        demand(is_caught_by_what_is_kept(name, fault), f"the fault {fault.__name__} is caught")
    demand(is_caught_by_reports("answer_record", the_checks_come_before_30), "30 comes before the checks of a record")
    demand(is_caught_by_stored_days("go_on", a_continue_asks_the_switch, stored_days), "a continue does not ask the switch")
    listed = FAULTS + THRESHOLD_FAULTS + CANCEL_FAULTS + MIDDLE_FAULTS + REPORT_FAULTS + READER_FAULTS + KEPT_FAULTS
    return len({fault.__name__ for _, fault in listed}) + 2


def is_caught_by_what_is_kept(name, fault):
    with planted(name, fault):
        try:
            check_kept()
        except Broken:
            return True
    return False


def check_kept():
    """After each event of the written days from a fresh book, a player's content is the ledger's of its open use, or 0, the marks are those
    of the ledger's open uses, the header has the last event taken, and the book is read back as itself."""
    for name, version, book, steps, _ in written_days.written():
        if is_fresh(book):
            ledger, book = Ledger(book.assets, book.entries, book.switch), copy.deepcopy(book)
            lines = rights.zeros(book)
            for event, answer, _ in steps:
                rights.step(book, event, lines)
                ledger.add(event, answer)
                for index, player in enumerate(book.players):
                    use = ledger.open_use(index, ledger.T)
                    demand(player.content == (use.content if use else 0), f"{name}: the content that player {index} has open")
                check_marks(book, ledger)
                check_last(book, ledger)
                demand(rights.read(rights.write(book)) == (0, book), f"{name}: the book after {event} is read back as itself")


def main():
    events = int(sys.argv[1]) if len(sys.argv) > 1 else 6_000
    check_afternoon()
    check_records()
    check_image()
    check_in_line()
    check_order()
    check_thresholds()
    seen, done, seed = {}, 0, 1
    while done < events:
        for name, times in run_day(random.Random(seed), 60).items():
            seen[name] = seen.get(name, 0) + times
        done, seed = done + 60, seed + 1
    print(f"{done} events in {seed - 1} days:", ", ".join(f"{n} {seen[n]}" for n in sorted(seen, key=str)))
    print(f"{check_written_days()} days written by hand, {lent_lists.check()} lists")
    print(f"{check_choice_before()} days written by hand were answered otherwise before order 6")
    check_written_back()
    check_kept()
    print(f"{check_faults()} planted faults caught")
    stored, faults = text_faults.check()
    print(f"{stored} stored texts, {faults} planted faults of their reader caught")


if __name__ == "__main__":
    main()
