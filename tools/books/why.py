"""Why a begin would be answered as it would (`why`): the answer, and what stands against each suitable entry."""

import time

import rights
from rights import Event

from .library import image_after, judged
from .records import answer_words
from .state import cancel_words, group_words, settled, stop_words, told_time
from .texts import accepted
from .words import KINDS, Mistake, Trouble, Words, date, kind_name, number, number_text, when


def why(path, player, asset, kind, at=None, after=()):
    asked = int(time.time()) if at is None else told_time(at)
    player, asset, kind = told_request(player, asset, kind)
    image = image_after(path, after)
    book = accepted(path, image)
    t = max(asked, book.time)
    clock = "this machine's clock" if at is None else "as asked"
    late = "" if t == asked else f", the book's time (at {when(asked)}, {clock}, it would be turned away with 5)"
    print(f"Player {player} asks to {kind_name(kind)} asset {asset} at {when(t)}, UTC{late or f', {clock}'}.")
    for line in why_lines(image, book, player, asset, kind, t):
        print(line)


def told_request(player, asset, kind):
    try:
        return (number(player, rights.PLAYERS - 1, "the player"), number(asset, 65_535, "the asset"),
                Words(kind).of(KINDS, "kind"))
    except Mistake as mistake:
        raise Trouble(f"why: {mistake}") from None


def why_lines(image, book, player, asset, kind, t):
    """The answer to the begin, and a line for each suitable entry. Answer and grounds are the proved library's; the book is as
    it stands in the image."""
    last = book.players[player].number
    record = rights.encode(Event(player, last + 1 if last < rights.LAST_NUMBER else 0, rights.BEGIN, asset, kind, t))
    answer, grounds = judged(image, record, player, t)
    book = settled(book, t)
    told = answer_words(rights.BEGIN, kind, *answer)
    yield f"The answer would be {answer[0]}, {told}{because(book, player, asset, kind, answer[0])}."
    for position in suitable(book, asset, kind):
        yield f"  {entry_words(book, position, asset)}: {verdict(book, position, grounds[position], answer, t)}"


def suitable(book, asset, kind):
    found = book.asset(asset)
    return rights.suitable_entries(book, found, kind) if found is not None and found.key else []


def because(book, player, asset, kind, code):
    """What the answer's words leave open, for those that no line below explains."""
    found, user = book.asset(asset), book.players[player]
    if code == 3:
        return f": it has used all of them, up to {number_text(rights.LAST_NUMBER)}"
    if code == 10:
        return f": asset {asset} {'is not in the book' if found is None else 'is a parent' if found.is_parent() else 'has no key'}"
    if code == 11:
        return f": entry {user.open_entry}, since {date(user.begin)}, until {date(user.until)}{cancel_words(book, user)}"
    if code == 12:
        others = sorted({entry_kind for entry_kind in KINDS.values() if suitable(book, asset, entry_kind)})
        return f": it has {', '.join(map(kind_name, others)) or 'none of any kind'}"
    return ""


def entry_words(book, position, asset):
    entry = book.entries[position]
    whose = "its own" if entry.asset == asset else f"inherited from {entry.asset}"
    return f"entry {position} ({whose}, rights object {entry.object})"


def verdict(book, position, grounds, answer, t):
    stands = [words for words, against in zip(ground_words(book.entries[position]), grounds, strict=True) if against and words]
    if stands:
        return "; ".join(stands) + stop_words(book, position, t)
    if answer[0] != 0:
        return "nothing stands against it"
    return "can be granted; would be chosen" if position == answer[1] else f"can be granted; entry {answer[1]} goes first"


def ground_words(entry):
    """The grounds against an entry in words, in the order of rights.h, as they would read if they stood. An interval of 0 that has
    started is over too, of which its last ground says enough."""
    return [spent_words("count", entry.used_count, entry.count),
            spent_words("timed count", entry.used_timed, entry.timed),
            f"not before {date(entry.start)}",
            f"not after {date(entry.end)}",
            f"interval over since {date(entry.first + entry.interval)}" if entry.interval else "",
            spent_words("seconds", entry.used_seconds, entry.accumulated),
            "interval 0: never granted",
            "metering is off, and it is tracked without a mark",
            "".join(group_words(entry))]


def spent_words(name, used, limit):
    return f"{name}: {used} of {limit} used" if limit else f"{name} 0: never granted"
