"""What a book says: who can use an entry and what is left of it (`show`, `left`), and what differs between two books."""

import copy
import time

import rights

from .library import image_after
from .records import answer_words, request_words
from .texts import FLAGS, accepted, asset_text, entry_text, latest_text, load
from .words import Mistake, Trouble, Words, date, kind_name, number_text, span, when

FULL = "as many players have it open as may"


# ---- The rules on an entry at a time

def heirs(book, parent):
    """The numbers of the assets with a key that inherit from this parent."""
    return [asset.number for asset in book.assets if asset.key and asset.inherit == parent.number]


def settled(book, t):
    """The book as a request at t finds it: the uses that are over by then have ended."""
    book = copy.deepcopy(book)
    rights.settle(book, t, rights.zeros(book))
    return book


def of_no_use(book, entry):
    """Why the entry's asset allows nobody to use it, at any time; empty if it does."""
    asset = book.asset(entry.asset)
    if asset.is_parent() and not heirs(book, asset):
        return [f"nothing with a key inherits from asset {asset.number}"]
    if not asset.is_parent() and not asset.key:
        return [f"asset {asset.number} is illegal (it inherits but has no key)"]
    return []


def zeros(entry):
    """The limits of the entry that are 0: with one of them it is never granted."""
    limits = [(rights.COUNT, entry.count, "the count is 0"), (rights.TIMED, entry.timed, "the timed count is 0"),
              (rights.INTERVAL, entry.interval, "the interval is 0"), (rights.ACCUMULATED, entry.accumulated, "the seconds are 0")]
    return [words for flag, limit, words in limits if entry.has(flag) and limit == 0]


def grounds(book, position, t):
    """Why nobody can be granted the entry at t; empty if somebody can. The book must be settled to t."""
    entry = book.entries[position]
    found = of_no_use(book, entry) + zeros(entry)
    if entry.has(rights.COUNT) and entry.used_count >= entry.count:
        found.append("the count is used up")
    if entry.has(rights.TIMED) and entry.used_timed >= entry.timed:
        found.append("the timed count is used up")
    if entry.has(rights.ACCUMULATED) and entry.used_seconds >= entry.accumulated:
        found.append("the seconds are used up")
    if entry.has(rights.START) and t < entry.start:
        found.append(f"it starts {date(entry.start)}")
    if entry.has(rights.END) and t > entry.end:
        found.append(f"it ended {date(entry.end)}")
    if entry.has(rights.INTERVAL) and entry.started and t >= entry.first + entry.interval:
        found.append(f"its interval ended {date(entry.first + entry.interval - 1)}")
    if rights.fails_for_switch(book, entry):
        found.append("metering is off (it is tracked and has no mark)")
    if rights.is_full(entry):
        found.append(FULL)
    return found


def stop_words(book, position, t):
    """What a stop does for an entry that nobody can be granted at t; empty if stopping its open uses would not help."""
    stopped = copy.deepcopy(book)
    for player in stopped.users(position):
        rights.stop(stopped, player, t, rights.zeros(stopped))
    if grounds(stopped, position, t):
        return ""
    return f" (a stop of an open use {'makes room' if grounds(book, position, t) == [FULL] else 'gives some back'})"


# ---- An entry in words

def state_words(book, position, t, at=""):
    """Whether anybody can be granted the entry at t, and when it ends, or why not."""
    entry = book.entries[position]
    if zeros(entry):
        return never_words(entry)
    found = grounds(book, position, t)
    if not found:
        return f"can be granted{at}, {end_words(entry)}"
    return f"nobody can use it{at}: {' and '.join(found)}{stop_words(book, position, t)}"


def never_words(entry):
    return f"never granted: {' and '.join(zeros(entry))}"


def end_words(entry):
    ends = [entry.end] if entry.has(rights.END) else []
    if entry.has(rights.INTERVAL) and entry.started:
        ends.append(entry.first + entry.interval - 1)
    if entry.has(rights.INTERVAL) and not entry.started:
        return f"ends {span(entry.interval)} after its first use" + (f", at the latest {date(ends[0])}" if ends else "")
    return f"ends {date(min(ends))}" if ends else "no end"


def used_words(entry):
    """What is used and what is left, for each limit."""
    words = []
    if entry.has(rights.COUNT):
        words.append(left_of("count", entry.used_count, entry.count))
    if entry.has(rights.TIMED):
        least = f" (a use counts from {span(entry.timer)} on)" if entry.timer else ""
        words.append(left_of("timed count", entry.used_timed, entry.timed) + least)
    if entry.has(rights.ACCUMULATED):
        left = f" ({span(entry.accumulated - entry.used_seconds)})" if entry.accumulated else ""
        words.append(left_of("seconds", entry.used_seconds, entry.accumulated) + left)
    return words


def left_of(name, used, limit):
    return f"{name} {used} of {limit} used, {limit - used} left" if limit else f"{name} 0: never"


def date_words(entry):
    words = []
    if entry.has(rights.START):
        words.append(f"from {when(entry.start)}")
    if entry.has(rights.END):
        words.append(f"to {when(entry.end)}")
    if entry.has(rights.INTERVAL) and entry.interval == 0:
        words.append("interval 0: never" + (f", started {when(entry.first)}" if entry.started else ""))
    elif entry.has(rights.INTERVAL):
        since = f"from {when(entry.first)} to {when(entry.first + entry.interval - 1)}" if entry.started else "not started"
        words.append(f"interval {span(entry.interval)}, {since}")
    return words


def group_words(entry):
    """How many players have the entry open, of as many as may; nothing if there is no threshold."""
    return [f"{entry.marks.bit_count()} of {entry.threshold} players have it open"] if entry.threshold else []


def limit_words(entry):
    """Everything that limits the entry, and what is used of it; its track."""
    return (used_words(entry) + date_words(entry) + group_words(entry) or ["no limits"]) + track_words(entry)


def track_words(entry):
    """Whether its uses are in the report, and whether it may be used without one."""
    if not entry.tracked:
        return []
    least = f", a use is a time from {span(entry.timed_value)} on" if entry.timed_value else ", every use is a time"
    return [f"tracked{least}; {'granted with metering off too (mark 1)' if entry.mark else 'not granted with metering off (mark 0)'}"]


def asset_words(book, asset):
    if asset.is_parent():
        numbers = ", ".join(map(str, heirs(book, asset)))
        return f"parent, for {numbers}" if numbers else "parent, nothing with a key inherits from it"
    if asset.key == 0:
        return f"illegal (it inherits from {asset.inherit} but has no key): never used"
    if asset.inherit == 0:
        return "has a key"
    above = book.asset(asset.inherit)
    if above is None:
        return f"has a key; inherits from {asset.inherit}, which is not in the book: nothing"
    if not above.is_parent():
        return f"has a key; inherits from {asset.inherit}, which is not a parent: nothing"
    return f"has a key, inherits from {asset.inherit}"


# ---- show

def show(image, after=()):
    book = accepted(image, image_after(image, after))
    print(f"The book's time: {when(book.time)}, UTC")
    print(f"Metering: {'on' if book.switch else 'off'}\n")
    print(f"Assets: {len(book.assets)}")
    for asset in book.assets:
        print(f"  {asset.number:>5}  {asset_words(book, asset)}")
    print(f"\nEntries: {len(book.entries)}")
    for position, entry in enumerate(book.entries):
        print(f"  {position:>5}  rights object {entry.object}, {kind_name(entry.kind)} of asset {entry.asset}:"
              f" {state_words(book, position, book.time, f' at {date(book.time)}')}")
        for line in limit_words(entry):
            print(f"         {line}")
    asked = [index for index, player in enumerate(book.players) if player.number != 0]
    print(f"\nPlayers that have asked: {len(asked)}")
    for index in asked:
        for line in player_lines(index, book.players[index]):
            print(line)
    print(f"Latest player: {latest_text(book)}")


def player_lines(index, player):
    yield f"  {index:>5}  request {number_text(player.number)}: {request_words(player.operation, player.asset, player.kind)}"
    words = answer_words(player.operation, player.kind, player.code, player.entry, player.answer_until)
    yield f"         answer {player.code}, {words}"
    if player.open:
        content = f", content {player.content}" if player.content else ""
        yield f"         open: entry {player.open_entry}, since {when(player.begin)}, until {when(player.until)}{content}"


# ---- left

def left(image, at=None, after=()):
    asked = int(time.time()) if at is None else told_time(at)
    book = accepted(image, image_after(image, after))
    t = max(asked, book.time)
    clock = "this machine's clock" if at is None else "as asked"
    print(f"At {when(t)}, UTC, " + (clock if t == asked else
          f"the book's time: at {when(asked)}, {clock}, a new request would be turned away with 5."))
    for line in left_lines(settled(book, t), t):
        print(line)


def told_time(at):
    words = Words(at)
    try:
        t = words.time("the time")
        if words:
            raise Mistake(f"`{' '.join(words.words)}` is not understood after the time")
        return t
    except Mistake as mistake:
        raise Trouble(f"--at: {mistake}") from None


def left_lines(book, t):
    """A line for each entry of a book settled to t."""
    if not book.entries:
        yield "the book has no entries"
    for position, entry in enumerate(book.entries):
        asset = book.asset(entry.asset)
        for_whom = f" (for {', '.join(map(str, heirs(book, asset)))})" if asset.is_parent() and heirs(book, asset) else ""
        uses = [f"player {index} until {date(player.until)}{cancel_words(book, player)}" for index, player in enumerate(book.players)
                if player.open and player.open_entry == position]
        parts = [f"entry {position}: {kind_name(entry.kind)} of asset {asset.number}{for_whom}"]
        parts += used_words(entry) or ["no count and no seconds to use up"]
        parts += group_words(entry)
        parts += [f"open: {', '.join(uses) or 'nobody'}", state_words(book, position, t)]
        yield "; ".join(parts)


def cancel_words(book, player):
    """Behind a player that has a use open in a settled book, whether a cancel would be granted."""
    return " (may still take back its begin)" if rights.may_cancel(book, player) else ""


# ---- diff

def diff(first, second):
    """Prints what differs; True if something does."""
    a, b = load(first), load(second)
    lines = list(differences(a, b))
    for line in lines:
        print(line)
    return bool(lines)


def differences(a, b):
    if a.time != b.time:
        yield f"time: {when(a.time)} -> {when(b.time)}"
    if a.switch != b.switch:
        yield f"metering: {a.switch} -> {b.switch}"
    yield from only_in("asset", {x.number: asset_text(x) for x in a.assets}, {x.number: asset_text(x) for x in b.assets})
    orders = [[asset.number for asset in book.assets] for book in (a, b)]
    if orders[0] != orders[1] and sorted(orders[0]) == sorted(orders[1]):
        yield f"assets: in another order, {' '.join(map(str, orders[0]))} -> {' '.join(map(str, orders[1]))}"
    common = min(len(a.entries), len(b.entries))
    for position in range(common):
        yield from changed(f"entry {position}", entry_fields(a.entries[position]), entry_fields(b.entries[position]))
    yield from only_in("entry", dict(enumerate(map(entry_text, a.entries[common:]), common)),
                       dict(enumerate(map(entry_text, b.entries[common:]), common)))
    if latest_text(a) != latest_text(b):
        yield f"latest player: {latest_text(a)} -> {latest_text(b)}"
    for index in range(rights.PLAYERS):
        yield from changed(f"player {index}", player_fields(a.players[index]), player_fields(b.players[index]))


def only_in(what, one, other):
    """Lines for what is in one of two tables only, or differs."""
    for key in list(one) + [key for key in other if key not in one]:
        if key not in other:
            yield f"{what} {key}: only in the first: {one[key]}"
        elif key not in one:
            yield f"{what} {key}: only in the second: {other[key]}"
        elif one[key] != other[key]:
            yield f"{what} {key}: {one[key]} -> {other[key]}"


def changed(what, one, other):
    fields = [f"{name} {one[name]} -> {other[name]}" for name in one if one[name] != other[name]]
    if fields:
        yield f"{what}: {'; '.join(fields)}"


def entry_fields(entry):
    """All but the marks, which say the same as the players' open uses."""
    fields = {"object": entry.object, "asset": entry.asset, "kind": kind_name(entry.kind)}
    for name, flag in FLAGS.items():
        value = getattr(entry, name)
        fields[name] = "none" if not entry.has(flag) else when(value) if name in ("start", "end") else value
    fields["timer"] = entry.timer
    fields["tracked"], fields["timed value"], fields["mark"] = entry.tracked, entry.timed_value, entry.mark
    fields["threshold"] = entry.threshold or "none"
    fields["used count"], fields["used timed"] = entry.used_count, entry.used_timed
    fields["used seconds"] = entry.used_seconds
    fields["first use"] = when(entry.first) if entry.started else "none"
    return fields


def player_fields(player):
    if player.number == 0:
        return {"number": "none", "request": "none", "answer": "none", "open use": "none", "content": "none"}
    use = f"entry {player.open_entry}, {when(player.begin)} until {when(player.until)}" if player.open else "none"
    return {"number": number_text(player.number), "request": request_words(player.operation, player.asset, player.kind),
            "answer": answer_field(player), "open use": use, "content": player.content or "none"}


def answer_field(player):
    """A stored answer in a few words: what its until means goes by the request that it answers."""
    if player.code:
        return f"refused {player.code}"
    if player.operation == rights.CANCEL:
        return f"cancelled entry {player.entry}, begun at {when(player.answer_until)}"
    if player.operation == rights.STOP:
        return f"stopped entry {player.entry} at {when(player.answer_until)}"
    if player.operation == rights.BEGIN and player.kind >= rights.PRINT:
        return f"granted entry {player.entry}, once, at {when(player.answer_until)}"
    return f"granted entry {player.entry} until {when(player.answer_until)}"
