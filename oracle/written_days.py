"""Days written by hand: a small book, events, and the answers that documents 01 and 02 give them, found by hand.

The book is told in words, as in texts.py: its assets, a bar, its entries, as `9; 1 inherits 9 key | 1 play count 5`; `used_count 2`
and the like set meters, `started 1` and `first 900` an interval that runs, `tracked 1`, `timed_value 30` and `mark 1` a track,
`threshold 2` how many players may have the entry open together; the marks are those of the players that have it open. A line is an
event and its answer as document 01 writes them: `0.1 begin 1 play 1000: 0 0 1060`, where a code alone has 255 0 behind it; `0.3.1` is
player 0 with counter 1 under boot number 3; `0.2 asks 5 0 0 1000` has the numbers of an operation, an asset and a kind.
`was 0 1 1060` behind the answer says that the rules of the choice before order 6 gave that one, and that the day's answers before it
were the same; a day without it is answered by those rules as by today's.
`-> 1 2 90` behind it says that content 1 has 2 times and 90 seconds in the report from there on; a report begins with zeros, and what
is not told stays. `days.py` stores the days behind its random ones, without the report, which the run program does not print.
"""

import re

import rights
from rights import Event, Player
from texts import KINDS, book_of

DAYS = []                   # (name, version of the image, book, steps: event, answer, report after it, bytes behind the last record)
WAS = {}                    # by the name of a day: which of its steps the rules before order 6 answered otherwise first, and how
LINE = re.compile(r"(\d+)\.(?:(\d+)\.)?(\d+) (begin (\d+) (\w+)|asks \d+ \d+ \d+|continue|stop|cancel) (\d+): (\d+)(?: (\d+) (\d+))?"
                  r"(?: was (\d+) (\d+) (\d+))?(?: -> (.*))?")
TOP = 4_294_967_295         # the last counter, and the greatest boot number
OPERATIONS = {"begin": rights.BEGIN, "continue": rights.CONTINUE, "stop": rights.STOP, "cancel": rights.CANCEL}


def day(name, words, *lines, time=0, switch=0, players=(), last=0, mark=0, version=rights.NEWEST, tail=""):
    """A day from this book. Players that have asked before are pairs of their index and their record; `last` and `mark` are the header's
    player last taken, plus 1, and its mark of an interval. A tail is the bytes of a record cut short."""
    book = book_of(words)
    book.time, book.switch, book.latest_player, book.latest_started = time, switch, last, mark
    assert version >= 4 or not any(entry.threshold for entry in book.entries), f"{name}: a threshold needs version 4"
    assert version >= 5 or (last, mark) == (0, 0), f"{name}: a player last taken needs version 5"
    for index, player in players:
        book.players[index] = player
        if player.open:
            book.entries[player.open_entry].marks |= 1 << index
    report, steps = {asset.number: (0, 0) for asset in book.assets}, []
    assert all(name != each[0] for each in DAYS), f"two days are named {name}"
    for line in lines:
        event, answer, was, gained = parts_of(line)
        assert gained.keys() <= report.keys(), f"{name}: {line}"
        report = report | gained
        if was:
            WAS[name] = (len(steps), was)
        steps.append((event, answer, [(content, *sums) for content, sums in report.items()]))
    DAYS.append((name, version, book, steps, bytes.fromhex(tail)))


def parts_of(line):
    """The event of a line, its answer, the answer of the rules before order 6 if it was another (empty if not), and what the line says of
    the report: times and seconds by content."""
    player, boot, counter, request, asset, kind, t, code, entry, until, *was, told = LINE.fullmatch(line).groups()
    number = int(boot or 0) * 2 ** 32 + int(counter)
    if request.startswith("asks"):
        asked = map(int, request.split()[1:])
    else:
        asked = (OPERATIONS[request.split()[0]], int(asset or 0), KINDS.index(kind) + 1 if kind else 0)
    event = Event(int(player), number, *asked, int(t))
    sums = [tuple(map(int, part.split())) for part in (told or "").split(",") if part]
    gained = {content: (times, seconds) for content, times, seconds in sums}
    return event, (int(code), int(entry or 255), int(until or 0)), tuple(int(each) for each in was if each), gained


# ---- Document 01

def base():
    day("the afternoon of document 01",
        "1 inherits 9 key; 2 inherits 9 key; 9; 7 inherits 9 | 9 play count 2; 9 play accumulated 100; 1 display timed 1 timer 30",
        "0.1 begin 1 play 1000: 0 0 1060", "0.1 begin 1 play 1005: 0 0 1060", "0.1 begin 2 play 1006: 4",
        "1.1 begin 2 play 1010: 0 0 1070", "2.1 begin 2 play 1020: 0 1 1080", "3.1 begin 1 play 1030: 0 1 1070",
        "4.1 begin 1 play 1031: 13", "2.2 stop 1040: 0 1 1040", "4.2 begin 1 play 1045: 0 1 1085", "3.2 continue 1050: 15",
        "0.2 continue 1059: 0 0 1119", "1.2 continue 1070: 14", "5.1 begin 7 play 1070: 10", "6.1 begin 1 print 1070: 12",
        "6.3 stop 1070: 3", "6.2 stop 1069: 5", "7.1 begin 1 display 1080: 0 2 1140", "8.1 begin 1 display 1090: 13",
        "7.2 stop 1109: 0 2 1109", "8.2 begin 1 display 1110: 0 2 1170", "8.3 stop 1140: 0 2 1140", "7.3 begin 1 display 1141: 13")
    day("every player's use ends, not only the asker's", "1 key | 1 play timed 2 timer 90",
        "0.1 begin 1 play 1000: 0 0 1060", "15.1 begin 1 play 1000: 0 0 1060", "1.1 begin 1 play 1059: 13",
        "1.2 begin 1 play 1060: 0 0 1120", "2.1 begin 1 play 1060: 0 0 1120", "3.1 begin 1 play 1060: 13", "0.2 continue 1060: 14")


# ---- Order 2: a limit of 0

ZEROS = ("count 0", "timed 0", "timed 0 timer 30", "interval 0", "accumulated 0")


def alone():
    """Only entries that are never grantable: 13, however often and whoever asks; 10, 11, 12 and 14 go before as ever."""
    for zero in ZEROS:
        day(f"{zero}, alone", f"1 key; 2 key | 1 play {zero}",
            "0.1 begin 1 play 1000: 13", "0.1 begin 1 play 1005: 13", "0.1 begin 1 display 1005: 4", "0.2 continue 1010: 14",
            "0.3 stop 1010: 14", "0.4 begin 1 play 1010: 13", "1.1 begin 1 play 1010: 13", "0.4 begin 1 play 0: 13",
            "0.5 begin 1 display 1011: 12", "0.6 begin 2 play 1011: 12", "0.7 begin 3 play 1011: 10", "15.1 begin 1 play 1900: 13",
            "15.1 begin 1 play 1000: 13", "0.8 begin 1 play 4000000000: 13", "0.9 begin 1 play 4000000001: 5")
        day(f"{zero}, alone and inherited", f"1 inherits 9 key; 9; 2 inherits 9 key; 7 inherits 9 | 9 play {zero}",
            "0.1 begin 1 play 0: 13", "1.1 begin 2 play 0: 13", "0.1 begin 1 play 0: 13", "2.1 begin 9 play 0: 10",
            "2.2 begin 7 play 0: 10", "0.2 begin 1 play 1: 13")
    day("all four at once", "1 key | 1 play count 0 timed 0 timer 0 interval 0 accumulated 0",
        "0.1 begin 1 play 1000: 13", "0.1 begin 1 play 1000: 13", "0.2 begin 1 play 1000: 13")
    day("each of the four, nothing else", "1 key | 1 execute count 0; 1 execute timed 0; 1 execute interval 0; 1 execute accumulated 0",
        "0.1 begin 1 execute 1000: 13", "0.2 begin 1 execute 2000: 13", "0.2 begin 1 execute 2000: 13")
    for kind in ("display", "execute"):
        day(f"one of the four with the others left, {kind}",
            f"1 key | 1 {kind} count 0 timed 5 interval 90 accumulated 90; 1 {kind} count 5 timed 0 interval 90 accumulated 90; "
            f"1 {kind} count 5 timed 5 interval 0 accumulated 90; 1 {kind} count 5 timed 5 interval 90 accumulated 0",
            f"0.1 begin 1 {kind} 1000: 13", f"1.1 begin 1 {kind} 1089: 13", f"0.2 begin 1 {kind} 1090: 13")
    for kind in ("print", "export"):
        for zero in ("count 0", "timed 0", "interval 0", "count 0 timed 0 interval 0"):
            day(f"{zero} on {kind}", f"1 inherits 9 key; 9 | 1 {kind} {zero}; 9 {kind} {zero}",
                f"0.1 begin 1 {kind} 1000: 13", f"0.1 begin 1 {kind} 1000: 13", f"0.2 begin 1 {kind} 1000: 13",
                f"1.1 begin 1 {kind} 2000: 13")


def beside():
    """Beside an entry that can be granted that one is chosen, whichever rule would put the other first."""
    for zero in ZEROS:
        day(f"{zero} at the lower position", f"1 key | 1 play {zero}; 1 play count 2",
            "0.1 begin 1 play 1000: 0 1 1060", "1.1 begin 1 play 1001: 0 1 1061", "2.1 begin 1 play 1002: 13",
            "2.1 begin 1 play 1003: 13", "0.2 continue 1010: 0 1 1070", "0.3 stop 1020: 0 1 1020", "0.4 begin 1 play 1021: 13")
        day(f"{zero} with the earlier end", f"1 key | 1 play count 2 end 2000; 1 play {zero} end 1500; 1 play {zero} end 1999",
            "0.1 begin 1 play 1000: 0 0 1060", "1.1 begin 1 play 1990: 0 0 2001", "2.1 begin 1 play 1991: 13",
            "2.2 begin 1 play 2001: 13")
        day(f"{zero} with an end, the other without", f"1 key | 1 play; 1 play {zero} end 5000; 1 play accumulated 100",
            "0.1 begin 1 play 1000: 0 0 1060", "1.1 begin 1 play 1000: 0 0 1060")
        day(f"{zero}, its own, the other inherited", f"1 inherits 9 key; 9 | 1 play {zero}; 9 play count 1",
            "0.1 begin 1 play 1000: 0 1 1060", "1.1 begin 1 play 1000: 13", "0.2 stop 1001: 0 1 1001", "1.2 begin 1 play 1002: 13")
        day(f"{zero}, inherited, the other its own", f"1 inherits 9 key; 9; 2 inherits 9 key | 9 play {zero}; 1 play timed 1 timer 30",
            "0.1 begin 1 play 1000: 0 1 1060", "1.1 begin 2 play 1000: 13", "1.2 begin 1 play 1001: 13",
            "0.2 stop 1029: 0 1 1029", "1.3 begin 1 play 1030: 0 1 1090", "1.4 begin 2 play 1031: 11")
        day(f"{zero} in an interval that has started", f"1 key | 1 play interval 500 {zero} started 1 first 900; 1 play interval 500",
            "0.1 begin 1 play 1000: 0 1 1060", "1.1 begin 1 play 1100: 0 1 1160", "1.2 continue 1499: 14",
            "2.1 begin 1 play 1499: 0 1 1500", "2.2 begin 1 play 1500: 13", time=950)
        day(f"{zero} between two that can be granted", f"1 key | 1 play count 1; 1 play {zero}; 1 play count 1",
            "0.1 begin 1 play 1000: 0 0 1060", "1.1 begin 1 play 1000: 0 2 1060", "2.1 begin 1 play 1000: 13")
    for kind in ("print", "export"):
        day(f"three zeros beside a count, {kind}",
            f"1 key | 1 {kind} count 0 end 3000; 1 {kind} timed 0; 1 {kind} interval 0; 1 {kind} count 2",
            f"0.1 begin 1 {kind} 1000: 0 3 1000", f"0.1 begin 1 {kind} 1001: 0 3 1000", f"0.2 begin 1 {kind} 1001: 0 3 1001",
            f"0.3 begin 1 {kind} 1002: 13", f"0.3 begin 1 {kind} 1002: 13")
    day("an entry without flags before every zero",
        "1 inherits 9 key; 9 | 1 play count 0 end 900; 1 play timed 0; 1 play interval 0; 1 play accumulated 0; 9 play",
        "0.1 begin 1 play 800: 0 4 860", "0.2 continue 850: 0 4 910", "0.3 begin 1 play 851: 11", "0.4 stop 852: 0 4 852")
    day("other kinds of the same asset", "1 key | 1 play count 0; 1 display count 1; 1 print interval 0; 1 export count 1",
        "0.1 begin 1 play 1000: 13", "0.2 begin 1 display 1000: 0 1 1060", "1.1 begin 1 print 1000: 13",
        "1.2 begin 1 export 1000: 0 3 1000", "0.3 begin 1 play 1000: 11", "0.4 begin 1 execute 1060: 12")


def with_dates():
    """Together with dates a zero stays one: before, in and after them. A start, an end or a timer of 0 is no such limit."""
    for zero in ZEROS:
        day(f"{zero} with dates", f"1 key | 1 play {zero} start 1000 end 2000; 1 play start 1500 end 1600",
            "0.1 begin 1 play 999: 13", "0.2 begin 1 play 1000: 13", "0.3 begin 1 play 1500: 0 1 1560", "0.4 begin 1 play 1600: 0 1 1601",
            "0.5 begin 1 play 1601: 13", "0.6 begin 1 play 2000: 13", "0.7 begin 1 play 2001: 13")
        day(f"{zero} with dates of 0", f"1 key | 1 play {zero} start 0 end 0", "0.1 begin 1 play 0: 13", "0.2 begin 1 play 1: 13")
    day("a start of 0", "1 key | 1 play start 0", "0.1 begin 1 play 0: 0 0 60", "0.2 continue 59: 0 0 119")
    day("an end of 0", "1 key | 1 play end 0", "0.1 begin 1 play 0: 0 0 1", "0.2 continue 0: 15", "0.3 begin 1 play 1: 13")
    day("a timer of 0", "1 key | 1 play timed 2 timer 0", "0.1 begin 1 play 0: 0 0 60", "0.2 stop 0: 0 0 0",
        "0.3 begin 1 play 0: 0 0 60", "1.1 begin 1 play 0: 13")
    day("limits that are not flagged", "1 key | 1 play; 1 display count 1", "0.1 begin 1 play 0: 0 0 60", "1.1 begin 1 display 0: 0 1 60")
    day("an interval, an accumulated, a timed count and a count of 1",
        "1 key | 1 play interval 1; 1 display accumulated 1; 1 execute timed 1 timer 2; 1 print count 1",
        "0.1 begin 1 play 1000: 0 0 1001", "1.1 begin 1 play 1001: 13", "2.1 begin 1 display 1001: 0 1 1002",
        "3.1 begin 1 display 1002: 13", "4.1 begin 1 execute 1002: 0 2 1062", "4.2 stop 1003: 0 2 1003",
        "4.3 begin 1 execute 1003: 0 2 1063", "5.1 begin 1 print 1003: 0 3 1003", "5.2 begin 1 print 1003: 13")


def from_the_middle():
    """From an image in the middle of a day: an interval of 0 that has started, a stored 13, other uses open."""
    refused = (3, Player(7, rights.BEGIN, 1, rights.PLAY, 13, 255, 0))
    for first in (0, 900, 1000):
        day(f"an interval of 0 started at {first}, alone", f"1 key | 1 play interval 0 started 1 first {first}",
            "3.7 begin 1 play 5: 13", "0.1 begin 1 play 1000: 13", "0.2 begin 1 play 1001: 13", "3.8 begin 1 play 1001: 13",
            time=1000, players=[refused])
        day(f"an interval of 0 started at {first}, beside others",
            f"1 inherits 9 key; 9 | 1 play interval 0 started 1 first {first}; 1 play interval 100 end 5000; 9 play interval 100",
            "0.1 begin 1 play 1000: 0 1 1060", "1.1 begin 1 play 1100: 0 2 1160", "2.1 begin 1 play 1200: 13",
            "3.7 begin 1 play 1200: 13", time=1000, players=[refused])
    day("an interval of 0 started, on print", "1 key | 1 print interval 0 started 1 first 1000; 1 print count 1",
        "0.1 begin 1 print 1000: 0 1 1000", "0.2 begin 1 print 1000: 13", time=1000)
    day("a use that is open beside zeros", "1 key | 1 play count 0; 1 play count 3 used_count 2 accumulated 500 used_seconds 100",
        "0.2 continue 1010: 0 1 1070", "1.1 begin 1 play 1020: 0 1 1080", "2.1 begin 1 play 1020: 13", "0.3 stop 1030: 0 1 1030",
        "2.2 begin 1 play 1030: 13", time=1000,
        players=[(0, Player(1, rights.BEGIN, 1, rights.PLAY, 0, 1, 1050, 1, 1, 990, 1050))])
    day("a limit of 0 beside meters of the entry's other limits",
        "1 key | 1 play count 5 used_count 5 timed 0 interval 90 started 1 first 950 accumulated 90 used_seconds 40; "
        "1 play count 0 timed 5 used_timed 2 accumulated 90 used_seconds 30",
        "0.1 begin 1 play 1000: 13", "0.2 begin 1 play 1039: 13", "0.3 begin 1 play 1040: 13", time=1000)
    day("a grant stored of an entry that is never granted again", "1 key | 1 play interval 0 started 1 first 900; 1 play count 1",
        "0.5 begin 1 play 1000: 0 0 960", "0.6 continue 1000: 14", "0.7 begin 1 play 1000: 0 1 1060", time=1000,
        players=[(0, Player(5, rights.BEGIN, 1, rights.PLAY, 0, 0, 960))])


# ---- Order 3: the usage report

def switched_off():
    """The switch off: a tracked entry is grantable only with mark 1, and nothing is recorded."""
    day("tracked, no mark: 43, and taken", "1 key; 2 key | 1 play tracked 1",
        "0.1 begin 1 play 1000: 43", "0.1 begin 1 play 1005: 43", "0.1 begin 2 play 1005: 4", "0.2 continue 1010: 14",
        "0.2 continue 1010: 14", "0.1 begin 1 play 1010: 3", "0.3 stop 1009: 5", "0.3 stop 1010: 14", "15.1 begin 1 play 1010: 43",
        "0.4 begin 1 display 1010: 12", "0.5 begin 2 play 1010: 12", "0.6 begin 3 play 1010: 10", "15.1 begin 1 play 0: 43",
        "0.7 begin 1 play 4000000000: 43", "0.8 begin 1 play 4000000001: 5")
    day("tracked, mark 1: granted, nothing recorded", "1 key | 1 play tracked 1 mark 1; 1 print tracked 1 mark 1",
        "0.1 begin 1 play 1000: 0 0 1060", "0.2 stop 1030: 0 0 1030", "0.3 begin 1 print 1030: 0 1 1030",
        "0.4 begin 1 play 1040: 0 0 1100", "0.5 begin 1 play 1100: 0 0 1160", "1.1 stop 1200: 14")
    day("untracked: as ever", "1 key | 1 play; 1 print count 1",
        "0.1 begin 1 play 1000: 0 0 1060", "0.2 stop 1030: 0 0 1030", "0.3 begin 1 print 1031: 0 1 1031", "0.4 begin 1 print 1031: 13")
    for kind in ("play", "display", "execute", "print", "export"):
        day(f"tracked, no mark, {kind}", f"1 key | 1 {kind} tracked 1 timed_value 5 count 3",
            f"0.1 begin 1 {kind} 1000: 43", f"0.1 begin 1 {kind} 1000: 43", f"0.2 begin 1 {kind} 1001: 43")
    day("tracked of the parent, asked for by its heirs", "1 inherits 9 key; 9; 2 inherits 9 key; 7 inherits 9 | 9 play tracked 1",
        "0.1 begin 1 play 1000: 43", "1.1 begin 2 play 1000: 43", "2.1 begin 9 play 1000: 10", "2.2 begin 7 play 1000: 10",
        "0.1 begin 1 play 1000: 43")
    day("the next in the choice is taken", "1 inherits 9 key; 9 | 1 play tracked 1; 1 play tracked 1 end 2000; 9 play count 1",
        "0.1 begin 1 play 1000: 0 2 1060", "1.1 begin 1 play 1000: 43", "0.2 stop 1010: 0 2 1010", "0.3 begin 1 play 1010: 43")
    day("marked ones among others", "1 key | 1 play tracked 1; 1 play tracked 1 mark 1 count 1; 1 play tracked 1 timed_value 9",
        "0.1 begin 1 play 1000: 0 1 1060", "1.1 begin 1 play 1000: 43")


def none_left():
    """43 in place of 13 exactly if for some suitable entry there is no ground but the switch."""
    for spent in ("count 0", "timed 0", "interval 0", "accumulated 0", "start 2000", "end 900", "count 1 used_count 1",
                  "timed 1 used_timed 1", "accumulated 9 used_seconds 9", "interval 100 started 1 first 900"):
        day(f"the switch and {spent}: 13", f"1 key | 1 play tracked 1 {spent}", "0.1 begin 1 play 1000: 13",
            "0.1 begin 1 play 1000: 13", time=1000)
        day(f"the switch and {spent} beside the switch alone: 43", f"1 key | 1 play tracked 1 {spent}; 1 play tracked 1",
            "0.1 begin 1 play 1000: 43", time=1000)
        day(f"{spent} alone beside the switch alone: 43", f"1 inherits 9 key; 9 | 1 play {spent}; 9 play tracked 1",
            "0.1 begin 1 play 1000: 43", "0.1 begin 1 play 1000: 43", "0.2 begin 1 play 1000: 43", time=1000)
        day(f"{spent} beside the switch and {spent}: 13", f"1 key | 1 play {spent}; 1 play tracked 1 {spent}",
            "0.1 begin 1 play 1000: 13", time=1000)
        day(f"{spent} with mark 1: 13", f"1 key | 1 play tracked 1 mark 1 {spent}", "0.1 begin 1 play 1000: 13", time=1000)
        day(f"{spent} with the switch on: 13", f"1 key | 1 play tracked 1 {spent}", "0.1 begin 1 play 1000: 13", time=1000, switch=1)
    day("43 of another kind or of another asset is not asked for", "1 key; 2 key | 1 play count 0; 1 display tracked 1; 2 play tracked 1",
        "0.1 begin 1 play 1000: 13", "0.2 begin 1 display 1000: 43", "0.3 begin 2 play 1000: 43", "0.4 begin 1 execute 1000: 12")
    day("tracked of an illegal asset is not suitable",
        "1 inherits 7 key; 7 inherits 9; 9 | 1 play count 0; 7 play tracked 1; 9 play tracked 1",
        "0.1 begin 1 play 1000: 13")
    day("from 43 to 13 as the dates pass", "1 key | 1 play tracked 1 start 1000 end 2000",
        "0.1 begin 1 play 999: 13", "0.2 begin 1 play 1000: 43", "0.3 begin 1 play 2000: 43", "0.4 begin 1 play 2001: 13")
    day("from a grant to 43 as the count is spent", "1 key | 1 play tracked 1; 1 play tracked 1 mark 1 count 1; 1 play count 1",
        "0.1 begin 1 play 1000: 0 1 1060", "1.1 begin 1 play 1000: 0 2 1060", "2.1 begin 1 play 1000: 43", "0.2 begin 1 play 1000: 11",
        "0.3 stop 1000: 0 1 1000", "0.4 begin 1 play 1000: 43")
    day("a timed count that comes back in place of 43", "1 key | 1 play tracked 1; 1 play timed 1 timer 30",
        "0.1 begin 1 play 1000: 0 1 1060", "1.1 begin 1 play 1010: 43", "0.2 stop 1020: 0 1 1020", "1.2 begin 1 play 1020: 0 1 1080",
        "1.3 continue 1060: 0 1 1120", "2.1 begin 1 play 1119: 43")


def recorded():
    """The switch on: an ended use of a tracked entry gives its content its seconds, and a time from the timed value on."""
    day("ended by a stop", "1 key; 2 key | 1 play tracked 1 timed_value 30",
        "0.1 begin 1 play 1000: 0 0 1060", "0.2 stop 1029: 0 0 1029 -> 1 0 29", "0.2 stop 1029: 0 0 1029",
        "0.3 begin 1 play 2000: 0 0 2060", "0.4 stop 2030: 0 0 2030 -> 1 1 59", "0.5 stop 2030: 14",
        "0.6 begin 1 play 3000: 0 0 3060", "0.7 stop 3031: 0 0 3031 -> 1 2 90", switch=1)
    day("ended by its until, whoever asks next", "1 key; 2 key | 1 play tracked 1 timed_value 60",
        "0.1 begin 1 play 1000: 0 0 1060", "1.1 stop 1059: 14", "0.1 begin 1 play 1060: 0 0 1060", "1.3 stop 1060: 3",
        "1.2 stop 1060: 14 -> 1 1 60", "0.2 begin 1 play 1060: 0 0 1120", "0.3 continue 1119: 0 0 1179",
        "2.1 begin 3 play 1179: 10 -> 1 2 179", switch=1)
    day("cut by an end, an interval and its seconds",
        "1 key | 1 play tracked 1 timed_value 60 end 1009; 1 display tracked 1 timed_value 5 interval 5; "
        "1 execute tracked 1 timed_value 7 accumulated 6",
        "0.1 begin 1 play 1000: 0 0 1010", "1.1 begin 1 display 1000: 0 1 1005", "2.1 begin 1 execute 1000: 0 2 1006",
        "3.1 stop 1004: 14", "3.2 stop 1005: 14 -> 1 1 5", "3.3 stop 1006: 14 -> 1 1 11", "3.4 stop 1010: 14 -> 1 1 21", switch=1)
    for timed_value, times in ((0, 1), (59, 1), (60, 1), (61, 0), (4_294_967_295, 0)):
        day(f"a use of 60 seconds, timed value {timed_value}", f"1 key | 1 play tracked 1 timed_value {timed_value}",
            "0.1 begin 1 play 1000: 0 0 1060", f"0.2 continue 1060: 14 -> 1 {times} 60", switch=1)
    for timed_value, times in ((0, 1), (1, 0), (60, 0)):
        day(f"stopped in the second of its begin, timed value {timed_value}", f"1 key | 1 play tracked 1 timed_value {timed_value}",
            "0.1 begin 1 play 1000: 0 0 1060", f"0.2 stop 1000: 0 0 1000 -> 1 {times} 0", switch=1)
        for kind in ("print", "export"):
            day(f"a {kind} ends as it begins, timed value {timed_value}", f"1 key; 2 key | 1 {kind} tracked 1 timed_value {timed_value}",
                f"0.1 begin 1 {kind} 1000: 0 0 1000 -> 1 {times} 0", f"0.1 begin 1 {kind} 1000: 0 0 1000",
                f"0.2 begin 1 {kind} 1000: 0 0 1000 -> 1 {2 * times} 0", switch=1)
    day("the timed value of the report is not the timer of the timed count", "1 key | 1 play tracked 1 timed_value 20 timed 1 timer 40",
        "0.1 begin 1 play 1000: 0 0 1060", "0.2 stop 1030: 0 0 1030 -> 1 1 30", "0.3 begin 1 play 1030: 0 0 1090",
        "1.1 begin 1 play 1090: 13 -> 1 2 90", switch=1)
    day("untracked entries beside a tracked one", "1 key | 1 play; 1 display tracked 1; 1 print",
        "0.1 begin 1 play 1000: 0 0 1060", "1.1 begin 1 display 1000: 0 1 1060", "2.1 begin 1 print 1000: 0 2 1000",
        "0.2 stop 1040: 0 0 1040", "1.2 stop 1050: 0 1 1050 -> 1 1 50", switch=1)
    day("a mark changes nothing with the switch on", "1 key | 1 play tracked 1 mark 1; 1 print tracked 1 mark 1",
        "0.1 begin 1 play 1000: 0 0 1060", "0.2 stop 1040: 0 0 1040 -> 1 1 40", "0.3 begin 1 print 1040: 0 1 1040 -> 1 2 40", switch=1)
    day("a resend and what is turned away record nothing, also where uses are over", "1 key | 1 play tracked 1",
        "0.1 begin 1 play 1000: 0 0 1060", "1.1 begin 1 play 1000: 0 0 1060", "0.1 begin 1 play 2000: 0 0 1060", "0.1 stop 2000: 4",
        "0.3 stop 2000: 3", "16.1 stop 2000: 2", "0.2 stop 999: 5", "0.2 stop 4000000001: 5", "0.2 stop 1060: 14 -> 1 2 120", switch=1)


def contents():
    """The content is the asset that the begin asked for, and is kept with the use."""
    day("an entry of the parent, used for its heirs",
        "1 inherits 9 key; 2 inherits 9 key; 9 | 9 play tracked 1 timed_value 30; 2 print tracked 1",
        "0.1 begin 1 play 1000: 0 0 1060", "1.1 begin 2 play 1000: 0 0 1060", "0.2 stop 1040: 0 0 1040 -> 1 1 40",
        "1.2 stop 1020: 5", "1.2 continue 1040: 0 0 1100", "1.3 stop 1050: 0 0 1050 -> 2 1 50",
        "0.3 begin 2 print 1050: 0 1 1050 -> 2 2 50", "0.4 begin 1 play 1050: 0 0 1110", "2.1 begin 9 play 1110: 10 -> 1 2 100", switch=1)
    day("lines in the book's order", "65535 key; 3 key; 40000 key | 3 play tracked 1; 65535 play tracked 1; 40000 play tracked 1",
        "0.1 begin 40000 play 0: 0 2 60", "1.1 begin 65535 play 0: 0 1 60", "2.1 begin 3 play 0: 0 0 60", "0.2 stop 1: 0 2 1 -> 40000 1 1",
        "1.2 stop 2: 0 1 2 -> 65535 1 2", "2.2 stop 3: 0 0 3 -> 3 1 3", switch=1)
    opened = Player(1, rights.BEGIN, 1, rights.PLAY, 0, 0, 1050, 1, 0, 990, 1050, 2)
    day("the content of the image counts, not the stored request", "1 key; 2 key | 1 play tracked 1 timed_value 61",
        "0.2 continue 1000: 0 0 1060", "0.3 stop 1060: 14 -> 2 1 70", time=1000, switch=1, players=[(0, opened)])
    day("the content may be an asset without a key", "1 key; 2; 3 inherits 2 | 1 play tracked 1",
        "1.1 stop 1050: 14 -> 2 1 60", time=1000, switch=1, players=[(0, opened)])
    bare = Player(1, rights.BEGIN, 1, rights.PLAY, 0, 0, 1050, 1, 0, 990, 1050, 0)
    day("an open use without content, of an untracked entry", "1 key | 1 play; 1 display tracked 1",
        "0.2 continue 1000: 0 0 1060", "0.3 stop 1030: 0 0 1030", time=1000, switch=1, players=[(0, bare)])


def continued():
    """A continue does not look at the switch; the switch and the tracks stay."""
    opened = (0, Player(1, rights.BEGIN, 1, rights.PLAY, 0, 0, 1050, 1, 0, 990, 1050, 1))
    day("a use open from before the switch was off", "1 key | 1 play tracked 1",
        "0.2 continue 1010: 0 0 1070", "1.1 begin 1 play 1010: 43", "0.3 stop 1020: 0 0 1020", "0.4 begin 1 play 1020: 43",
        time=1000, players=[opened])
    day("the same with the switch on", "1 key | 1 play tracked 1",
        "0.2 continue 1010: 0 0 1070", "1.1 begin 1 play 1010: 0 0 1070", "0.3 stop 1020: 0 0 1020 -> 1 1 30",
        "0.4 begin 1 play 1020: 0 0 1080", time=1000, switch=1, players=[opened])
    refused = (3, Player(7, rights.BEGIN, 1, rights.PLAY, 43, 255, 0))
    day("a stored 43, asked for again", "1 key | 1 play",
        "3.7 begin 1 play 5: 43", "3.7 begin 1 display 1000: 4", "3.8 begin 1 play 1000: 0 0 1060", time=1000, players=[refused])


def older_images():
    """Images of older versions. Of version 1 the switch is off, nothing is tracked, no open use has a content."""
    opened = (0, Player(1, rights.BEGIN, 1, rights.PLAY, 0, 0, 1050, 1, 0, 990, 1050))
    for version in rights.VERSIONS:
        day(f"the middle of a day, version {version}", "1 key | 1 play count 2 used_count 1; 1 print",
            "0.2 continue 1010: 0 0 1070", "1.1 begin 1 play 1010: 0 0 1070", "0.3 stop 1020: 0 0 1020", "0.4 begin 1 print 1020: 0 1 1020",
            "0.5 begin 1 play 1020: 13", time=1000, players=[opened], version=version)
        day(f"a stored 43, version {version}", "1 key | 1 play", "3.7 begin 1 play 5: 43", "3.8 begin 1 play 1001: 0 0 1061",
            time=1000, players=[(3, Player(7, rights.BEGIN, 1, rights.PLAY, 43, 255, 0))], version=version)
        day(f"a new boot number, version {version}", "1 key | 1 play", "3.7 begin 1 play 5: 13", "3.1.8 begin 1 play 1000: 3",
            "3.1.7 begin 1 play 1000: 3", "3.1.0 begin 1 play 1000: 3", "3.1.1 begin 1 play 1000: 0 0 1060", "3.7 begin 1 play 1000: 3",
            time=1000, players=[(3, Player(7, rights.BEGIN, 1, rights.PLAY, 13, 255, 0))], version=version)
        for then in ("1.0", "1.1", "65535.1"):
            day(f"the greatest number of 32 bits, then {then}, version {version}", "1 key | 1 play", "3.4294967295 begin 1 play 5: 13",
                "3.0.1 stop 1000: 3", "3.0.0 stop 1000: 3", f"3.{then} begin 1 play 1000: 0 0 1060", "3.4294967295 begin 1 play 1000: 3",
                time=1000, players=[(3, Player(TOP, rights.BEGIN, 1, rights.PLAY, 13, 255, 0))], version=version)
    day("the afternoon of document 01, version 1",
        "1 inherits 9 key; 2 inherits 9 key; 9; 7 inherits 9 | 9 play count 2; 9 play accumulated 100; 1 display timed 1 timer 30",
        "0.1 begin 1 play 1000: 0 0 1060", "0.1 begin 1 play 1005: 0 0 1060", version=1)
    day("no assets and no entries, version 1", "|", "0.1 begin 1 play 1000: 10", "0.2 stop 1000: 14", version=1)


# ---- Order 4: boot number and counter

def asked(number, index=0):
    """A player whose last event, of this number, was a begin for asset 1 and got 13."""
    return (index, Player(number, rights.BEGIN, 1, rights.PLAY, 13, 255, 0))


def boot_numbers():
    """Counter 1 under a greater boot number is in line beside the next number."""
    day("boot numbers that rise, stay and fall", "1 key | 1 play count 9",
        "0.0.1 begin 1 play 1000: 0 0 1060", "0.0.2 stop 1010: 0 0 1010", "0.1.1 begin 1 play 1010: 0 0 1070",
        "0.0.3 stop 1011: 3", "0.1.2 continue 1011: 0 0 1071", "0.1.3 stop 1012: 0 0 1012", "0.7.1 begin 1 play 1012: 0 0 1072",
        "0.6.1 stop 1012: 3", "0.6.2 stop 1012: 3", "0.2.1 stop 1012: 3", "0.1.4 stop 1012: 3", "0.0.1 begin 1 play 1000: 3",
        "0.7.3 stop 1012: 3", "0.7.2 stop 1012: 0 0 1012", "0.7.1 begin 1 play 1012: 3", "0.8.1 continue 1013: 14")
    for last in ("3.1", "3.2", "3.9", "0.9"):
        boot, counter = map(int, last.split("."))
        day(f"counters under greater boot numbers than that of {last}", "1 key | 1 play",
            *(f"0.{more}.{other} stop 1000: 3" for more in (boot + 1, boot + 2, boot + 256, TOP)
              for other in dict.fromkeys((0, 2, counter + 1, TOP)) if other != 1),
            f"0.{boot}.{counter + 1} stop 1000: 14", f"0.{boot + 1}.1 stop 1000: 14", f"0.{boot + 256}.1 stop 1000: 14",
            f"0.{TOP}.1 stop 1000: 14", f"0.{TOP}.1 stop 1000: 14", f"0.{boot + 257}.1 stop 1000: 3", time=1000,
            players=[asked(boot * 2 ** 32 + counter)])
    day("a player's first event", "1 key | 1 print",
        "0.0.0 begin 1 print 1000: 3", "0.0.2 begin 1 print 1000: 3", "0.0.1 begin 1 print 1000: 0 0 1000",
        "1.1.0 begin 1 print 1000: 3", "1.1.2 begin 1 print 1000: 3", "1.1.1 begin 1 print 1000: 0 0 1000",
        f"2.{TOP}.0 begin 1 print 1000: 3", f"2.{TOP}.{TOP} begin 1 print 1000: 3", f"2.{TOP}.1 begin 1 print 1000: 0 0 1000",
        f"3.0.{TOP} begin 1 print 1000: 3", "3.256.1 begin 1 print 1000: 0 0 1000", "3.256.2 begin 1 print 1000: 0 0 1000",
        "15.65536.1 begin 1 print 1000: 0 0 1000", "14.16777216.1 stop 1000: 14", "13.2147483648.1 stop 1000: 14")
    day("each player has its own boot number", "1 key | 1 play",
        "0.5.1 begin 1 play 1000: 0 0 1060", "1.1 begin 1 play 1000: 0 0 1060", "1.5.2 stop 1000: 3", "0.2 stop 1000: 3",
        "1.2 stop 1000: 0 0 1000", "0.5.2 stop 1000: 0 0 1000", "1.4.1 stop 1001: 14", "0.4.1 stop 1001: 3")
    day("the checks before and behind the number", "1 key | 1 play",
        "0.1.1 begin 1 play 1000: 0 0 1060", "16.2.1 stop 1000: 2", "0.2.1 begin 1 play 999: 5", "0.2.2 begin 1 play 999: 3",
        "0.2.1 stop 4000000001: 5", "0.2.1 stop 1000: 0 0 1000", "0.2.1 stop 0: 0 0 1000")


def last_counters():
    """Counter 4,294,967,295 is followed by counter 0 of the next boot number, or by counter 1 of a greater one."""
    for boot in (0, 1, 255, 65_535, 16_777_215, 2_147_483_647, TOP - 1):
        last = boot * 2 ** 32 + TOP
        day(f"counter 0 after the last one of boot {boot}", "1 key | 1 play",
            f"0.{boot}.0 stop 1000: 3", f"0.{boot}.1 stop 1000: 3", f"0.{boot + 1}.2 stop 1000: 3", f"0.{boot + 1}.{TOP} stop 1000: 3",
            f"0.{boot + 1}.0 begin 1 play 1000: 0 0 1060", f"0.{boot + 1}.0 begin 1 play 1000: 0 0 1060", f"0.{boot + 1}.0 stop 1000: 4",
            f"0.{boot}.{TOP} begin 1 play 1000: 3", f"0.{boot + 1}.1 stop 1001: 0 0 1001", f"0.{boot + 1}.2 stop 1001: 14", time=1000,
            players=[asked(last)])
        day(f"counter 1 after the last one of boot {boot}", "1 key | 1 play",
            f"0.{boot}.{TOP} begin 1 play 1000: 13", f"0.{boot + 1}.1 begin 1 play 1000: 0 0 1060", f"0.{boot + 1}.0 stop 1000: 3",
            f"0.{boot + 1}.2 stop 1001: 0 0 1001", time=1000, players=[asked(last)])
        day(f"the last counter of boot {boot}", "1 key | 1 play", f"0.{boot + 1}.0 stop 1000: 3", f"0.{boot}.{TOP} stop 1000: 14",
            f"0.{boot + 1}.0 stop 1000: 14", time=1000, players=[asked(last - 1)])
    day("counter 0 of a boot number that is not the next", "1 key | 1 play", "0.5.0 stop 1000: 3", "0.3.0 stop 1000: 3",
        "0.5.1 stop 1000: 14", time=1000, players=[asked(3 * 2 ** 32 + TOP)])
    day("2 to the 64 less 1 has none after it", "1 key | 1 play",
        f"0.{TOP}.{TOP} stop 1000: 14", f"0.{TOP}.{TOP} stop 1000: 14", f"0.{TOP}.{TOP} continue 1000: 4", "0.0.0 stop 1000: 3",
        "0.0.1 stop 1000: 3", "0.1.1 stop 1000: 3", f"0.{TOP}.0 stop 1000: 3", f"0.{TOP}.1 stop 1000: 3", f"0.{TOP}.{TOP - 1} stop 1000: 3",
        "1.1 begin 1 play 1000: 0 0 1060", time=1000, players=[asked(2 ** 64 - 2)])
    day("the last number in the image", "1 key | 1 play", "0.18446744073709551615 begin 1 play 0: 13", "0.0 begin 1 play 1000: 3",
        "0.1 begin 1 play 1000: 3", "0.18446744073709551614 begin 1 play 1000: 3", "0.18446744073709551615 begin 1 display 1000: 4",
        time=1000, players=[asked(2 ** 64 - 1)])
    day("no boot number is greater", "1 key | 1 play", f"0.{TOP}.1 stop 1000: 3", f"0.{TOP}.0 stop 1000: 3", "0.0.1 stop 1000: 3",
        f"0.{TOP}.6 stop 1000: 14", f"0.{TOP}.1 stop 1000: 3", time=1000, players=[asked(TOP * 2 ** 32 + 5)])


def resent_numbers():
    """A resend has the whole number of its player's latest taken event."""
    day("the same request under another boot number is no resend", "1 key | 1 print count 3",
        "0.5.1 begin 1 print 1000: 0 0 1000", "0.5.1 begin 1 print 1001: 0 0 1000", "0.6.1 begin 1 print 1002: 0 0 1002",
        "0.5.1 begin 1 print 1003: 3", "0.6.1 begin 1 print 0: 0 0 1002", "0.1 begin 1 print 1003: 3",
        "0.7.1 begin 1 print 1003: 0 0 1003", "0.8.1 begin 1 print 1004: 13", "0.8.1 begin 1 print 1005: 13")
    day("a number used for something else, with boot numbers", "1 key; 2 key | 1 play; 2 play",
        "0.5.1 begin 1 play 1000: 0 0 1060", "0.5.1 begin 2 play 1000: 4", "0.5.1 stop 1000: 4", "0.4.1 begin 1 play 1000: 3",
        "0.6.1 begin 1 play 1000: 11", "0.6.1 begin 1 play 0: 11", "0.6.1 begin 2 play 0: 4", "0.6.2 stop 1001: 0 0 1001",
        "0.6.2 stop 1030: 0 0 1001", "0.6.1 begin 1 play 1030: 3")
    day("numbers alike in one half only", "1 key | 1 play", "0.7.3 begin 1 play 1000: 13", "0.3 begin 1 play 1000: 3",
        "0.7.0 begin 1 play 1000: 3", "0.3.7 begin 1 play 1000: 3", "0.6.3 begin 1 play 1000: 3", "0.8.3 begin 1 play 1000: 3",
        "0.7.4 begin 1 play 1000: 0 0 1060", time=1000, players=[asked(7 * 2 ** 32 + 3)])
    day("an answer lost before a restart", "1 inherits 9 key; 9 | 9 play count 2 timed 2 timer 30",
        "0.1.1 begin 1 play 1000: 0 0 1060", "1.1.1 begin 1 play 1001: 0 0 1061", "0.1.2 stop 1010: 0 0 1010",
        "0.1.2 stop 1012: 0 0 1010", "1.2.1 stop 1020: 0 0 1020", "1.1.2 stop 1020: 3", "0.2.1 begin 1 play 1020: 13")


def record_lengths():
    """A record has 17 bytes; the last one is cut short where fewer are left."""
    stop = "01 0000000000000001 03 0000 00 000003e8"
    for size in (1, 4, 12, 13, 14, 16):
        day(f"a last record of {size} bytes", "1 key | 1 play", "0.1 begin 1 play 1000: 0 0 1060",
            tail=bytes.fromhex(stop)[:size].hex())
        day(f"{size} bytes alone", "1 key | 1 play", tail=bytes.fromhex(stop)[:size].hex())
    day("17 bytes", "1 key | 1 play", "1.1 stop 1000: 14")
    day("18 bytes", "1 key | 1 play", "1.1 stop 1000: 14", tail="00")
    day("no bytes", "1 key | 1 play")
    day("one begin of the 13-byte form", "1 key | 1 play", tail="00 00000001 01 0001 01 000003e8")


# ---- Order 6: the last moment

def two(one, other, swapped):
    """Two entries in one order or the other, and the positions of the first and the second named."""
    return ("; ".join((other, one)), 1, 0) if swapped else ("; ".join((one, other)), 0, 1)


def end_and_interval():
    """An end against a running interval: whichever is over earlier goes first, own or inherited, at the lower or the higher position."""
    for swapped in (False, True):
        place = "the interval at 0" if swapped else "the end at 0"
        entries, end, interval = two("1 play start 1001 end 5000", "1 play interval 500", swapped)
        day(f"an interval over before another's end, {place}", f"1 key | {entries}",
            f"0.1 begin 1 play 1000: 0 {interval} 1060", f"1.1 begin 1 play 1001: 0 {interval} 1061 was 0 {end} 1061",
            f"0.2 stop 1010: 0 {interval} 1010", f"0.3 begin 1 play 1440: 0 {interval} 1500", f"1.2 begin 1 play 1499: 0 {interval} 1500",
            "1.3 continue 1499: 15", f"2.1 begin 1 play 1500: 0 {end} 1560", f"0.4 begin 1 play 5000: 0 {end} 5001",
            "1.4 begin 1 play 5001: 13")
        entries, end, interval = two("1 play start 1001 end 1500", "1 play interval 5000", swapped)
        day(f"an interval over after another's end, {place}", f"1 key | {entries}",
            f"0.1 begin 1 play 1000: 0 {interval} 1060", f"1.1 begin 1 play 1001: 0 {end} 1061", f"2.1 begin 1 play 1500: 0 {end} 1501",
            "2.2 continue 1500: 15", f"3.1 begin 1 play 1501: 0 {interval} 1561", f"4.1 begin 1 play 5999: 0 {interval} 6000",
            "5.1 begin 1 play 6000: 13")
        entries, end, interval = two("1 play end 5000", "9 play interval 500", swapped)
        day(f"an inherited interval over before the end of its own entry, {place}", f"1 inherits 9 key; 2 inherits 9 key; 9 | {entries}",
            f"0.1 begin 2 play 1000: 0 {interval} 1060", f"1.1 begin 1 play 1001: 0 {interval} 1061 was 0 {end} 1061",
            f"2.1 begin 1 play 1499: 0 {interval} 1500", f"3.1 begin 1 play 1500: 0 {end} 1560", "4.1 begin 2 play 1500: 13")
        entries, end, interval = two("9 play start 1001 end 1200", "1 play interval 500", swapped)
        day(f"an inherited end before its own interval is over, {place}", f"1 inherits 9 key; 9 | {entries}",
            f"0.1 begin 1 play 1000: 0 {interval} 1060", f"1.1 begin 1 play 1001: 0 {end} 1061", f"1.2 stop 1002: 0 {end} 1002",
            f"1.3 begin 1 play 1201: 0 {interval} 1261")
    for kind in ("display", "execute"):
        day(f"an interval over before another's end, {kind}", f"1 key | 1 {kind} start 1001 end 5000; 1 {kind} interval 500",
            f"0.1 begin 1 {kind} 1000: 0 1 1060", f"1.1 begin 1 {kind} 1001: 0 1 1061 was 0 0 1061", f"2.1 begin 1 {kind} 1500: 0 0 1560")
    for kind in ("print", "export"):
        day(f"an interval over before another's end, {kind}", f"1 key | 1 {kind} start 1001 end 5000; 1 {kind} interval 500",
            f"0.1 begin 1 {kind} 1000: 0 1 1000", f"0.2 begin 1 {kind} 1001: 0 1 1001 was 0 0 1001", f"0.2 begin 1 {kind} 1400: 0 1 1001",
            f"0.3 begin 1 {kind} 1499: 0 1 1499", f"0.4 begin 1 {kind} 1500: 0 0 1500", f"0.5 begin 1 {kind} 5001: 13")
        day(f"an end before another's interval is over, {kind}", f"1 key | 1 {kind} interval 500; 1 {kind} start 1001 end 1200",
            f"0.1 begin 1 {kind} 1000: 0 0 1000", f"0.2 begin 1 {kind} 1001: 0 1 1001", f"0.3 begin 1 {kind} 1201: 0 0 1201")


def both_limits():
    """An entry with an end and an interval: the least of the two, and its end alone before its interval has started."""
    day("both, the interval is the least", "1 key | 1 play start 1001 end 3000; 1 play end 5000 interval 500",
        "0.1 begin 1 play 1000: 0 1 1060", "1.1 begin 1 play 1001: 0 1 1061 was 0 0 1061", "2.1 begin 1 play 1500: 0 0 1560")
    day("both, the end is the least", "1 key | 1 play start 1001 end 3000; 1 play end 2000 interval 5000",
        "0.1 begin 1 play 1000: 0 1 1060", "1.1 begin 1 play 1001: 0 1 1061", "2.1 begin 1 play 2000: 0 1 2001",
        "3.1 begin 1 play 2001: 0 0 2061")
    day("both, the end is the least, beside an interval", "1 key | 1 play interval 2000 started 1 first 1000; "
        "1 play end 2000 interval 5000 started 1 first 1000", "0.1 begin 1 play 1000: 0 1 1060", "1.1 begin 1 play 2001: 0 0 2061",
        time=1000)
    day("both, the interval is the least, beside an interval over earlier", "1 key | 1 play interval 2000 started 1 first 1000; "
        "1 play end 5000 interval 2500 started 1 first 1000", "0.1 begin 1 play 1000: 0 0 1060 was 0 1 1060",
        "1.1 begin 1 play 3000: 0 1 3060", time=1000)
    day("both, the interval is the least, beside an interval over later", "1 key | 1 play interval 3000 started 1 first 1000; "
        "1 play end 5000 interval 2500 started 1 first 1000", "0.1 begin 1 play 1000: 0 1 1060", "1.1 begin 1 play 3500: 0 0 3560",
        time=1000)
    day("both on two entries, crosswise", "1 key | 1 play end 1999 interval 5000 started 1 first 1000; "
        "1 play end 5000 interval 900 started 1 first 1000", "0.1 begin 1 play 1000: 0 1 1060 was 0 0 1060",
        "1.1 begin 1 play 1900: 0 0 1960", "2.1 begin 1 play 2000: 13", time=1000)
    day("both, before the interval starts", "1 key | 1 play count 1 end 3000; 1 play end 5000 interval 500; 1 play count 1 end 4000",
        "0.1 begin 1 play 1000: 0 0 1060", "1.1 begin 1 play 1001: 0 2 1061", "2.1 begin 1 play 1002: 0 1 1062",
        "3.1 begin 1 play 1501: 0 1 1502", "3.2 begin 1 play 1502: 13")


def ties():
    """The same last moment: own before inherited, then the lower position; and a second to each side."""
    for swapped in (False, True):
        place = "the interval at 0" if swapped else "the end at 0"
        for date, ends_first in ((1498, True), (1499, not swapped), (1500, False)):
            entries, end, interval = two(f"1 play start 1001 end {date}", "1 play interval 500", swapped)
            chosen = f"0 {end} 1061" if ends_first else f"0 {interval} 1061 was 0 {end} 1061"
            day(f"end {date}, an interval over at 1500, {place}", f"1 key | {entries}",
                f"0.1 begin 1 play 1000: 0 {interval} 1060", f"1.1 begin 1 play 1001: {chosen}")
        for date, ends_first in ((1498, True), (1499, False), (1500, False)):
            entries, end, interval = two(f"9 play start 1001 end {date}", "1 play interval 500", swapped)
            chosen = f"0 {end} 1061" if ends_first else f"0 {interval} 1061 was 0 {end} 1061"
            day(f"inherited end {date}, its own interval over at 1500, {place}", f"1 inherits 9 key; 9 | {entries}",
                f"0.1 begin 1 play 1000: 0 {interval} 1060", f"1.1 begin 1 play 1001: {chosen}")
        for date, ends_first in ((1498, True), (1499, True), (1500, False)):
            entries, end, interval = two(f"1 play start 1001 end {date}", "9 play interval 500", swapped)
            chosen = f"0 {end} 1061" if ends_first else f"0 {interval} 1061 was 0 {end} 1061"
            day(f"its own end {date}, an inherited interval over at 1500, {place}", f"1 inherits 9 key; 2 inherits 9 key; 9 | {entries}",
                f"0.1 begin 2 play 1000: 0 {interval} 1060", f"1.1 begin 1 play 1001: {chosen}")
        place = "its own at 0" if swapped else "the inherited one at 0"
        for length, own_first in ((489, False), (490, True), (491, True)):
            entries, inherited, own = two(f"9 play interval {length}", "1 play interval 500", swapped)
            chosen = f"0 {own} 1071" if own_first else f"0 {inherited} 1071 was 0 {own} 1071"
            day(f"its own interval over at 1500, an inherited one of {length} from 1010, {place}",
                f"1 inherits 9 key; 2 inherits 9 key; 9 | {entries}", f"0.1 begin 1 play 1000: 0 {own} 1060",
                f"1.1 begin 2 play 1010: 0 {inherited} 1070", f"2.1 begin 1 play 1011: {chosen}")
    for length, chosen in ((2100, "0 1 1060"), (2101, "0 0 1060 was 0 1 1060"), (5000, "0 0 1060 was 0 1 1060")):
        day(f"two ends alike, one with an interval of {length}",
            f"1 key | 1 play end 3000; 1 play end 3000 interval {length} started 1 first 900", f"0.1 begin 1 play 1000: {chosen}",
            time=1000)
    for length, chosen in ((2100, "0 0 1060"), (2101, "0 1 1060 was 0 0 1060"), (5000, "0 1 1060 was 0 0 1060")):
        day(f"two ends alike, the inherited one with an interval of {length}",
            f"1 inherits 9 key; 9 | 9 play end 3000 interval {length} started 1 first 900; 1 play end 3000",
            f"0.1 begin 1 play 1000: {chosen}", time=1000)
    day("two ends alike, an interval not started", "1 key | 1 play end 3000 interval 100; 1 play end 3000; 1 play end 2999 count 1",
        "0.1 begin 1 play 1000: 0 2 1060", "1.1 begin 1 play 1000: 0 0 1060", "2.1 begin 1 play 1100: 0 1 1160")


def neither():
    """An entry with neither comes last, however late another is over, and before or after other such entries by own and position."""
    day("neither against an interval", "1 key | 1 play count 9; 1 play interval 500 started 1 first 900",
        "0.1 begin 1 play 1000: 0 1 1060", "1.1 begin 1 play 1400: 0 0 1460", time=1000)
    day("neither against an end", "1 inherits 9 key; 9 | 1 play count 9; 9 play end 4000000000",
        "0.1 begin 1 play 1000: 0 1 1060", "1.1 begin 1 play 4000000000: 0 1 4000000001")
    day("neither against both", "1 inherits 9 key; 9 | 1 play count 9; 9 play end 4000000000 interval 50000",
        "0.1 begin 1 play 1000: 0 1 1060", "1.1 begin 1 play 50999: 0 1 51000", "2.1 begin 1 play 51000: 0 0 51060")
    for length in (1000, 1001, 1002, 1003, 100_000_000):
        day(f"its own with neither against an interval of {length} from 3999999000",
            f"1 inherits 9 key; 2 inherits 9 key; 9 | 1 play count 9; 9 play interval {length}",
            "0.1 begin 2 play 3999999000: 0 1 3999999060", "1.1 begin 1 play 3999999001: 0 1 3999999061")
    day("limits that are no moment", "1 inherits 9 key; 9 | 9 play count 1; 1 play timed 1 timer 100; 1 play start 5 count 1; "
        "1 play interval 100 count 1; 9 play interval 100 count 1; 1 play accumulated 60",
        "0.1 begin 1 play 1000: 0 1 1060", "1.1 begin 1 play 1000: 0 2 1060", "2.1 begin 1 play 1000: 0 3 1060",
        "3.1 begin 1 play 1000: 0 5 1060", "4.1 begin 1 play 1000: 0 0 1060", "5.1 begin 1 play 1000: 0 4 1060",
        "6.1 begin 1 play 1000: 13")
    day("few seconds left are no moment", "1 key | 1 play accumulated 10; 1 play end 4000000000; 1 play accumulated 5",
        "0.1 begin 1 play 1000: 0 1 1060", "0.2 stop 1001: 0 1 1001", "0.3 begin 1 play 1002: 0 1 1062")
    day("six entries in the order of the choice", "1 key | 1 play count 1; 1 play count 1 end 1800; "
        "1 play count 1 interval 700 started 1 first 1000; 1 play count 1 end 2500 interval 400 started 1 first 1000; "
        "1 play count 1 interval 100; 1 play count 1 end 1600",
        "0.1 begin 1 play 1000: 0 3 1060 was 0 5 1060", "1.1 begin 1 play 1000: 0 5 1060", "2.1 begin 1 play 1000: 0 2 1060",
        "3.1 begin 1 play 1000: 0 1 1060", "4.1 begin 1 play 1000: 0 0 1060", "5.1 begin 1 play 1000: 0 4 1060",
        "6.1 begin 1 play 1000: 13", time=1000)
    day("no flags before every last moment", "1 inherits 9 key; 9 | 1 play interval 500 started 1 first 900; 1 play end 1100; 9 play",
        "0.1 begin 1 play 1000: 0 2 1060", "1.1 begin 1 play 1050: 0 2 1110", "2.1 begin 1 play 1399: 0 2 1459", time=1000)
    day("no flags before neither", "1 inherits 9 key; 9 | 1 play count 5; 1 play interval 500; 9 play",
        "0.1 begin 1 play 1000: 0 2 1060", "1.1 begin 1 play 1000: 0 2 1060")


def not_started():
    """An interval that is flagged and has not started is no moment; from its start on it is one."""
    day("not started against an end", "1 key | 1 play interval 10; 1 play end 4000000000",
        "0.1 begin 1 play 1000: 0 1 1060", "1.1 begin 1 play 1000: 0 1 1060")
    day("not started against a running one", "1 inherits 9 key; 9 | 1 play interval 10; 9 play interval 100000000 started 1 first 900",
        "0.1 begin 1 play 1000: 0 1 1060", "1.1 begin 1 play 1000: 0 1 1060", time=1000)
    day("not started against neither, at the higher position", "1 key | 1 play count 1; 1 play interval 10",
        "0.1 begin 1 play 1000: 0 0 1060", "1.1 begin 1 play 1001: 0 1 1011", "1.2 begin 1 play 1011: 13")
    day("not started against neither, at the lower position", "1 key | 1 play interval 10; 1 play count 1",
        "0.1 begin 1 play 1000: 0 0 1010", "1.1 begin 1 play 1001: 0 0 1010", "1.2 begin 1 play 1010: 0 1 1070")
    day("not started, its own, against neither, inherited", "1 inherits 9 key; 9 | 9 play count 1; 1 play interval 10",
        "0.1 begin 1 play 1000: 0 1 1010", "1.1 begin 1 play 1001: 0 1 1010", "2.1 begin 1 play 1010: 0 0 1070")
    day("two not started, the longer one first", "1 key | 1 play interval 900; 1 play interval 10",
        "0.1 begin 1 play 1000: 0 0 1060", "1.1 begin 1 play 1001: 0 0 1061", "2.1 begin 1 play 1900: 0 1 1910")
    day("not started is not started at 0", "1 key | 1 play end 50000; 1 play interval 40000", "0.1 begin 1 play 1000: 0 0 1060",
        "1.1 begin 1 play 1000: 0 0 1060")
    day("started at 0", "1 key | 1 play start 1 end 100; 1 play interval 50", "0.1 begin 1 play 0: 0 1 50",
        "1.1 begin 1 play 1: 0 1 50 was 0 0 61", "2.1 begin 1 play 50: 0 0 101")
    day("the same begin before and after an interval starts",
        "1 inherits 9 key; 2 inherits 9 key; 9 | 9 play interval 300; 1 play end 2000",
        "0.1 begin 1 play 1000: 0 1 1060", "0.2 stop 1001: 0 1 1001", "0.3 begin 1 play 1010: 0 1 1070", "0.4 stop 1010: 0 1 1010",
        "1.1 begin 2 play 1010: 0 0 1070", "0.5 begin 1 play 1010: 0 0 1070 was 0 1 1070", "0.6 stop 1011: 0 0 1011",
        "0.7 begin 1 play 1309: 0 0 1310", "0.8 begin 1 play 1310: 0 1 1370", "1.2 begin 2 play 1310: 13")
    day("a resend in between", "1 inherits 9 key; 2 inherits 9 key; 9 | 1 play end 5000; 9 play interval 500",
        "0.1 begin 1 play 1000: 0 0 1060", "1.1 begin 2 play 1000: 0 1 1060", "0.1 begin 1 play 1001: 0 0 1060",
        "0.2 stop 1001: 0 0 1001", "0.3 begin 1 play 1002: 0 1 1062 was 0 0 1062", "1.1 begin 2 play 1003: 0 1 1060",
        "0.3 begin 1 play 1600: 0 1 1062", "0.4 begin 1 play 1600: 0 0 1660", "0.4 begin 1 play 1000: 0 0 1660")
    day("an interval started and its use stopped in the same second", "1 inherits 9 key; 2 inherits 9 key; 9 | 1 play end 2000; "
        "9 play interval 300", "0.1 begin 2 play 1000: 0 1 1060", "0.2 stop 1000: 0 1 1000", "1.1 begin 1 play 1000: 0 1 1060 was 0 0 1060")


def not_grantable():
    """The earliest last moment of those that can be granted: what is spent, not yet in its dates or switched off is passed over."""
    day("the earlier one is spent", "1 key | 1 play count 1 used_count 1 interval 500 started 1 first 900; 1 play end 5000",
        "0.1 begin 1 play 1000: 0 1 1060", "1.1 begin 1 play 1001: 0 1 1061", time=1000)
    day("the earlier one is spent by its first begin", "1 key | 1 play start 1001 end 5000; 1 play count 1 interval 500",
        "0.1 begin 1 play 1000: 0 1 1060", "1.1 begin 1 play 1001: 0 0 1061")
    day("a timed count of the earlier one comes back", "1 key | 1 play start 1001 end 5000; 1 play timed 1 timer 30 interval 500",
        "0.1 begin 1 play 1000: 0 1 1060", "1.1 begin 1 play 1001: 0 0 1061", "0.2 stop 1020: 0 1 1020",
        "2.1 begin 1 play 1020: 0 1 1080 was 0 0 1080", "3.1 begin 1 play 1021: 0 0 1081")
    day("seconds of the earlier one come back", "1 key | 1 play start 1001 end 5000; 1 play accumulated 60 interval 500",
        "0.1 begin 1 play 1000: 0 1 1060", "1.1 begin 1 play 1001: 0 0 1061", "0.2 stop 1020: 0 1 1020",
        "2.1 begin 1 play 1020: 0 1 1060 was 0 0 1080", "3.1 begin 1 play 1021: 0 0 1081")
    day("the earlier end is that of a later start", "1 key | 1 play start 1200 end 1300; 1 play interval 500 started 1 first 900",
        "0.1 begin 1 play 1000: 0 1 1060", "1.1 begin 1 play 1200: 0 0 1260", "2.1 begin 1 play 1301: 0 1 1361", time=1000)
    day("an interval of 0 is never chosen", "1 key | 1 play interval 0 end 1500; 1 play interval 0 started 1 first 1000; 1 play end 5000; "
        "1 play interval 900 started 1 first 950", "0.1 begin 1 play 1000: 0 3 1060 was 0 2 1060", "1.1 begin 1 play 1850: 0 2 1910",
        time=1000)
    day("the earlier one is switched off", "1 key | 1 play tracked 1 interval 500 started 1 first 900; 1 play end 5000; "
        "1 play tracked 1 mark 1 interval 2000 started 1 first 900", "0.1 begin 1 play 1000: 0 2 1060 was 0 1 1060", time=1000)
    day("the earlier one is tracked, the switch on", "1 key | 1 play tracked 1 interval 500 started 1 first 900; 1 play end 5000; "
        "1 play tracked 1 mark 1 interval 2000 started 1 first 900", "0.1 begin 1 play 1000: 0 0 1060 was 0 1 1060",
        "0.2 stop 1030: 0 0 1030 -> 1 1 30", time=1000, switch=1)


def running_images():
    """From an image with intervals that have started."""
    day("two running alike, started one after the other", "1 key | 1 play interval 500 started 1 first 950; "
        "1 play interval 500 started 1 first 900", "0.1 begin 1 play 1000: 0 1 1060 was 0 0 1060", "1.1 begin 1 play 1400: 0 0 1450",
        time=1000)
    day("the interval that started later is over earlier", "1 key | 1 play interval 600 started 1 first 900; "
        "1 play interval 400 started 1 first 950", "0.1 begin 1 play 1000: 0 1 1060 was 0 0 1060", "1.1 begin 1 play 1350: 0 0 1410",
        time=1000)
    day("the interval that started later is over later", "1 key | 1 play interval 500 started 1 first 950; "
        "1 play interval 600 started 1 first 800", "0.1 begin 1 play 1000: 0 1 1060 was 0 0 1060", "1.1 begin 1 play 1400: 0 0 1450",
        time=1000)
    day("an interval over at the book's time", "1 key | 1 play end 5000; 1 play interval 100 started 1 first 900; 1 play count 1",
        "0.1 begin 1 play 1000: 0 0 1060", time=1000)
    opened = Player(1, rights.BEGIN, 1, rights.PLAY, 0, 1, 1050, 1, 1, 990, 1050)
    for version in rights.VERSIONS:
        day(f"an interval that runs in the image, version {version}", "1 key | 1 play end 5000; 1 play interval 500 started 1 first 900",
            "0.2 continue 1010: 0 1 1070", "1.1 begin 1 play 1010: 0 1 1070 was 0 0 1070", "2.1 begin 1 play 1399: 0 1 1400",
            "3.1 begin 1 play 1400: 0 0 1460", time=1000, players=[(0, opened)], version=version)


def latest_seconds():
    """An end in the latest second, 4,000,000,000, and intervals that are over at that time or later."""
    for swapped in (False, True):
        place = "the interval at 0" if swapped else "the end at 0"
        for length, ends_first in ((1000, False), (1001, not swapped), (1002, True), (100_000_000, True)):
            entries, end, interval = two("1 play start 3999999001 end 4000000000", f"1 play interval {length}", swapped)
            chosen = f"0 {end} 3999999061" if ends_first else f"0 {interval} 3999999061 was 0 {end} 3999999061"
            last = interval if swapped and length == 1001 else end
            day(f"an end of 4000000000, an interval of {length} from 3999999000, {place}", f"1 key | {entries}",
                f"0.1 begin 1 play 3999999000: 0 {interval} 3999999060", f"1.1 begin 1 play 3999999001: {chosen}",
                f"2.1 begin 1 play 4000000000: 0 {last} 4000000001")
    day("two intervals over behind the latest second", "1 key | 1 play interval 90000000 started 1 first 3999999000; "
        "1 play interval 89999999 started 1 first 3999999000; 1 play count 5",
        "0.1 begin 1 play 4000000000: 0 1 4000000060 was 0 0 4000000060", time=3_999_999_000)


# ---- Order 7: so many players together

def together():
    """At most so many players have the entry open; the next one gets 13, until one of those uses has ended."""
    day("threshold 1", "1 key | 1 play threshold 1 count 9",
        "0.1 begin 1 play 1000: 0 0 1060", "1.1 begin 1 play 1001: 13", "1.2 begin 1 play 1059: 13", "1.3 begin 1 play 1060: 0 0 1120",
        "0.2 begin 1 play 1060: 13", "1.4 stop 1070: 0 0 1070", "0.3 begin 1 play 1070: 0 0 1130", "15.1 begin 1 play 1071: 13")
    day("threshold 2", "1 key | 1 play threshold 2 count 9",
        "0.1 begin 1 play 1000: 0 0 1060", "1.1 begin 1 play 1010: 0 0 1070", "2.1 begin 1 play 1020: 13", "3.1 begin 1 play 1059: 13",
        "3.2 begin 1 play 1060: 0 0 1120", "2.2 begin 1 play 1060: 13", "1.2 stop 1065: 0 0 1065", "2.3 begin 1 play 1065: 0 0 1125",
        "0.2 begin 1 play 1065: 13", "0.3 begin 1 play 1120: 0 0 1180", "1.3 begin 1 play 1124: 13", "1.4 begin 1 play 1125: 0 0 1185")
    day("threshold 3, all three uses over in one second", "1 key | 1 play threshold 3",
        "0.1 begin 1 play 1000: 0 0 1060", "1.1 begin 1 play 1000: 0 0 1060", "2.1 begin 1 play 1000: 0 0 1060",
        "3.1 begin 1 play 1000: 13", "3.2 begin 1 play 1060: 0 0 1120", "4.1 begin 1 play 1060: 0 0 1120",
        "5.1 begin 1 play 1060: 0 0 1120", "0.2 begin 1 play 1060: 13")
    for player in range(16):
        other = (player + 1) % 16
        day(f"player {player} alone fills threshold 1", "1 key | 1 play threshold 1",
            f"{player}.1 begin 1 play 1000: 0 0 1060", f"{other}.1 begin 1 play 1000: 13", f"{player}.2 stop 1001: 0 0 1001",
            f"{other}.2 begin 1 play 1001: 0 0 1061", f"{player}.3 begin 1 play 1001: 13")
    for most in (2, 3, 4, 7, 8, 9, 12, 14, 15):
        day(f"players from 15 down on threshold {most}", f"1 key | 1 play threshold {most}",
            *(f"{15 - each}.1 begin 1 play {1000 + each}: 0 0 {1060 + each}" for each in range(most)),
            f"{15 - most}.1 begin 1 play 1030: 13", "15.2 stop 1031: 0 0 1031", f"{15 - most}.2 begin 1 play 1031: 0 0 1091",
            "15.3 begin 1 play 1032: 13", "15.4 begin 1 play 1061: 0 0 1121")
    all_but_15 = [f"{player}.1 begin 1 play 1000: 0 0 1060" for player in range(15)]
    day("16 players, threshold 15", "1 key | 1 play threshold 15", *all_but_15, "15.1 begin 1 play 1001: 13", "7.2 stop 1002: 0 0 1002",
        "15.2 begin 1 play 1002: 0 0 1062", "7.3 begin 1 play 1003: 13", "7.4 begin 1 play 1060: 0 0 1120")
    for most in (16, 0):
        day(f"16 players, threshold {most}", f"1 key | 1 play threshold {most}", *all_but_15, "15.1 begin 1 play 1001: 0 0 1061",
            "0.2 continue 1002: 0 0 1062", "0.3 begin 1 play 1002: 11", "7.2 stop 1002: 0 0 1002", "7.3 begin 1 play 1002: 0 0 1062",
            "8.2 begin 1 play 1060: 0 0 1120")
    day("more room than players", "1 key | 1 play threshold 3; 1 display threshold 16",
        "0.1 begin 1 play 1000: 0 0 1060", "1.1 begin 1 play 1000: 0 0 1060", "0.2 begin 1 display 1000: 11",
        "2.1 begin 1 display 1000: 0 1 1060", "0.3 stop 1001: 0 0 1001", "0.4 begin 1 play 1001: 0 0 1061")
    day("the latest second", "1 key | 1 play threshold 1",
        "0.1 begin 1 play 3999999950: 0 0 4000000010", "1.1 begin 1 play 4000000000: 13", "0.2 stop 4000000000: 0 0 4000000000",
        "1.2 begin 1 play 4000000000: 0 0 4000000060", "0.3 begin 1 play 4000000000: 13")


def room_again():
    """A stop and an until make room, whoever asks; a player that stops may begin again."""
    day("one player stops and begins again", "1 key | 1 play threshold 1",
        "0.1 begin 1 play 1000: 0 0 1060", "0.2 begin 1 play 1001: 11", "0.3 stop 1001: 0 0 1001", "0.4 begin 1 play 1001: 0 0 1061",
        "0.5 stop 1001: 0 0 1001", "0.6 begin 1 play 1001: 0 0 1061", "1.1 begin 1 play 1002: 13", "0.7 begin 1 play 1061: 0 0 1121",
        "1.2 begin 1 play 1061: 13", "1.3 begin 1 play 1121: 0 0 1181")
    day("a count is used by grants alone", "1 key | 1 play threshold 1 count 3",
        "0.1 begin 1 play 1000: 0 0 1060", "1.1 begin 1 play 1000: 13", "2.1 begin 1 play 1000: 13", "0.2 stop 1001: 0 0 1001",
        "1.2 begin 1 play 1001: 0 0 1061", "0.3 begin 1 play 1001: 13", "1.3 stop 1002: 0 0 1002", "0.4 begin 1 play 1002: 0 0 1062",
        "0.5 stop 1003: 0 0 1003", "1.4 begin 1 play 1003: 13")
    day("room and a timed count that comes back", "1 key | 1 play threshold 1 timed 1 timer 30",
        "0.1 begin 1 play 1000: 0 0 1060", "1.1 begin 1 play 1000: 13", "0.2 stop 1029: 0 0 1029", "1.2 begin 1 play 1029: 0 0 1089",
        "1.3 stop 1059: 0 0 1059", "0.3 begin 1 play 1059: 13")
    day("room and seconds that come back", "1 key | 1 play threshold 1 accumulated 66",
        "0.1 begin 1 play 1000: 0 0 1060", "1.1 begin 1 play 1010: 13", "0.2 stop 1020: 0 0 1020", "1.2 begin 1 play 1020: 0 0 1066",
        "0.3 begin 1 play 1030: 13", "1.3 stop 1030: 0 0 1030", "0.4 begin 1 play 1030: 0 0 1066")
    day("another's event settles, a stop of nothing makes no room", "1 key | 1 play threshold 1",
        "0.1 begin 1 play 1000: 0 0 1060", "2.1 stop 1001: 14", "1.1 begin 1 play 1001: 13", "2.2 begin 3 play 1060: 10",
        "1.2 begin 1 play 1060: 0 0 1120", "0.2 continue 1060: 14", "0.3 stop 1061: 14", "2.3 begin 1 play 1061: 13")
    day("what is turned away makes no room", "1 key | 1 play threshold 1",
        "0.1 begin 1 play 1000: 0 0 1060", "1.2 begin 1 play 1060: 3", "0.1 begin 1 play 1060: 0 0 1060", "16.1 begin 1 play 1060: 2",
        "0.1 stop 1060: 4", "0.2 stop 999: 5", "1.1 begin 1 play 999: 5", "1.1 begin 1 play 1059: 13", "1.2 begin 1 play 1060: 0 0 1120")
    day("a limit of 0 with room", "1 key | 1 play threshold 1 count 0; 1 display threshold 2 interval 0",
        "0.1 begin 1 play 1000: 13", "0.2 begin 1 display 1000: 13")


def going_on_together():
    """A continue does not ask for the threshold and changes no mark."""
    day("a continue while full", "1 key | 1 play threshold 1",
        "0.1 begin 1 play 1000: 0 0 1060", "0.2 continue 1030: 0 0 1090", "1.1 begin 1 play 1060: 13", "1.2 begin 1 play 1089: 13",
        "0.3 continue 1089: 0 0 1149", "1.3 begin 1 play 1148: 13", "1.4 begin 1 play 1149: 0 0 1209", "0.4 continue 1149: 14")
    day("a continue without more time while full", "1 key | 1 play threshold 1 end 1030",
        "0.1 begin 1 play 1000: 0 0 1031", "0.2 continue 1010: 15", "1.1 begin 1 play 1010: 13", "0.3 stop 1011: 0 0 1011",
        "1.2 begin 1 play 1030: 0 0 1031")
    day("two that go on, threshold 2", "1 key | 1 play threshold 2",
        "0.1 begin 1 play 1000: 0 0 1060", "1.1 begin 1 play 1000: 0 0 1060", "0.2 continue 1030: 0 0 1090", "1.2 continue 1031: 0 0 1091",
        "2.1 begin 1 play 1060: 13", "2.2 begin 1 play 1090: 0 0 1150", "3.1 begin 1 play 1090: 13", "3.2 begin 1 play 1091: 0 0 1151")


def resent_together():
    """A resend gets the stored answer, whether or not there is room by now, and takes none."""
    day("a refused begin sent again when there is room", "1 key | 1 play threshold 1",
        "0.1 begin 1 play 1000: 0 0 1060", "1.1 begin 1 play 1001: 13", "1.1 begin 1 play 1002: 13", "0.2 stop 1003: 0 0 1003",
        "1.1 begin 1 play 1004: 13", "2.1 begin 1 play 1004: 0 0 1064", "1.2 begin 1 play 1005: 13", "1.2 begin 1 play 1064: 13",
        "1.3 begin 1 play 1064: 0 0 1124")
    day("a granted begin and a stop sent again", "1 key | 1 play threshold 1",
        "0.1 begin 1 play 1000: 0 0 1060", "0.1 begin 1 play 1005: 0 0 1060", "0.2 stop 1010: 0 0 1010", "0.2 stop 1011: 0 0 1010",
        "1.1 begin 1 play 1011: 0 0 1071", "0.2 stop 1012: 0 0 1010", "2.1 begin 1 play 1012: 13", "1.1 begin 1 play 1071: 0 0 1071",
        "2.2 begin 1 play 1071: 0 0 1131", "1.1 begin 1 play 1072: 0 0 1071", "0.3 begin 1 play 1072: 13")
    day("a begin sent three times takes one place of two", "1 key | 1 play threshold 2",
        "0.1 begin 1 play 1000: 0 0 1060", "0.1 begin 1 play 1000: 0 0 1060", "0.1 begin 1 play 1001: 0 0 1060",
        "1.1 begin 1 play 1001: 0 0 1061", "2.1 begin 1 play 1001: 13")
    day("a player that starts again has its place", "1 key | 1 play threshold 1",
        "0.1.1 begin 1 play 1000: 0 0 1060", "0.2.1 begin 1 play 1001: 11", "1.1 begin 1 play 1001: 13", "0.2.2 stop 1002: 0 0 1002",
        "1.2 begin 1 play 1002: 0 0 1062", "0.3.1 begin 1 play 1002: 13")


def momentary_together():
    """A print and an export never open, so they are never full and mark nobody."""
    for kind in ("print", "export"):
        day(f"threshold 1 on {kind}", f"1 key | 1 {kind} threshold 1 count 4",
            f"0.1 begin 1 {kind} 1000: 0 0 1000", f"1.1 begin 1 {kind} 1000: 0 0 1000", f"0.2 begin 1 {kind} 1000: 0 0 1000",
            f"0.2 begin 1 {kind} 1001: 0 0 1000", f"15.1 begin 1 {kind} 1000: 0 0 1000", f"2.1 begin 1 {kind} 1000: 13")
        day(f"{kind} beside a full play", f"1 key | 1 play threshold 1; 1 {kind} threshold 1",
            "0.1 begin 1 play 1000: 0 0 1060", f"1.1 begin 1 {kind} 1000: 0 1 1000", "1.2 begin 1 play 1000: 13",
            f"1.3 begin 1 {kind} 1001: 0 1 1001", f"0.2 begin 1 {kind} 1001: 11", "0.3 stop 1001: 0 0 1001",
            f"0.4 begin 1 {kind} 1001: 0 1 1001", "1.4 begin 1 play 1001: 0 0 1061")


def full_passed_over():
    """The choice is among those with room; the players of each entry count for that entry alone, whatever their contents."""
    day("its own is full, the inherited one has room", "1 inherits 9 key; 9 | 1 play threshold 1; 9 play threshold 1",
        "0.1 begin 1 play 1000: 0 0 1060", "1.1 begin 1 play 1001: 0 1 1061", "2.1 begin 1 play 1002: 13", "0.2 stop 1003: 0 0 1003",
        "2.2 begin 1 play 1003: 0 0 1063", "0.3 begin 1 play 1003: 13", "1.2 stop 1004: 0 1 1004", "0.4 begin 1 play 1004: 0 1 1064")
    day("its own at the higher position is full", "1 inherits 9 key; 9 | 9 play threshold 1; 1 play threshold 1",
        "0.1 begin 1 play 1000: 0 1 1060", "1.1 begin 1 play 1001: 0 0 1061", "2.1 begin 1 play 1002: 13", "1.2 stop 1003: 0 0 1003",
        "2.2 begin 1 play 1003: 0 0 1063", "1.3 begin 1 play 1060: 0 1 1120")
    day("the inherited one is full, its own has room",
        "1 inherits 9 key; 2 inherits 9 key; 9 | 9 play threshold 1 end 2000; 1 play end 3000",
        "0.1 begin 2 play 1000: 0 0 1060", "1.1 begin 1 play 1000: 0 1 1060", "2.1 begin 2 play 1000: 13", "0.2 stop 1001: 0 0 1001",
        "3.1 begin 1 play 1001: 0 0 1061")
    day("earlier ends are full", "1 key | 1 play end 2000 threshold 1; 1 play end 3000 threshold 2; 1 play count 9",
        "0.1 begin 1 play 1000: 0 0 1060", "1.1 begin 1 play 1001: 0 1 1061", "2.1 begin 1 play 1002: 0 1 1062",
        "3.1 begin 1 play 1003: 0 2 1063", "0.2 stop 1004: 0 0 1004", "4.1 begin 1 play 1004: 0 0 1064", "5.1 begin 1 play 1004: 0 2 1064")
    day("the interval over earlier is full", "1 key | 1 play interval 500 threshold 1; 1 play start 1001 end 5000",
        "0.1 begin 1 play 1000: 0 0 1060", "1.1 begin 1 play 1001: 0 1 1061", "0.2 stop 1002: 0 0 1002",
        "2.1 begin 1 play 1002: 0 0 1062 was 0 1 1062", "3.1 begin 1 play 1003: 0 1 1063")
    day("a threshold is no flag", "1 key | 1 play count 9; 1 play threshold 1",
        "0.1 begin 1 play 1000: 0 1 1060", "1.1 begin 1 play 1000: 0 0 1060", "0.2 stop 1001: 0 1 1001", "2.1 begin 1 play 1001: 0 1 1061")
    day("a threshold is no flag, inherited", "1 inherits 9 key; 9 | 1 play end 1100; 9 play threshold 2",
        "0.1 begin 1 play 1000: 0 1 1060", "1.1 begin 1 play 1000: 0 1 1060", "2.1 begin 1 play 1000: 0 0 1060")
    day("full beside spent", "1 key | 1 play count 1; 1 play count 5 threshold 1",
        "0.1 begin 1 play 1000: 0 0 1060", "1.1 begin 1 play 1000: 0 1 1060", "2.1 begin 1 play 1000: 13", "0.2 stop 1001: 0 0 1001",
        "2.2 begin 1 play 1001: 13", "1.2 stop 1001: 0 1 1001", "2.3 begin 1 play 1001: 0 1 1061")
    day("full for one, full for all who inherit it", "1 inherits 9 key; 2 inherits 9 key; 9; 7 inherits 9 | 9 play threshold 1",
        "0.1 begin 1 play 1000: 0 0 1060", "1.1 begin 2 play 1000: 13", "1.2 begin 1 play 1000: 13", "2.1 begin 9 play 1000: 10",
        "2.2 begin 7 play 1000: 10", "0.2 stop 1001: 0 0 1001", "1.3 begin 2 play 1001: 0 0 1061", "0.3 begin 1 play 1001: 13")
    day("two contents on one threshold of 2", "1 inherits 9 key; 2 inherits 9 key; 9 | 9 play threshold 2",
        "0.1 begin 1 play 1000: 0 0 1060", "1.1 begin 2 play 1000: 0 0 1060", "2.1 begin 1 play 1000: 13", "3.1 begin 2 play 1000: 13",
        "1.2 stop 1001: 0 0 1001", "2.2 begin 1 play 1001: 0 0 1061")
    day("one content on two thresholds",
        "1 inherits 9 key; 2 inherits 9 key; 9 | 1 play threshold 1; 2 play threshold 1; 9 play threshold 1",
        "0.1 begin 1 play 1000: 0 0 1060", "1.1 begin 1 play 1000: 0 2 1060", "2.1 begin 1 play 1000: 13",
        "2.2 begin 2 play 1000: 0 1 1060", "3.1 begin 2 play 1000: 13", "1.2 stop 1001: 0 2 1001", "3.2 begin 2 play 1001: 0 2 1061")
    day("players on other entries do not count", "1 key; 2 key | 1 play threshold 2; 2 play; 1 display threshold 1",
        "0.1 begin 2 play 1000: 0 1 1060", "1.1 begin 2 play 1000: 0 1 1060", "2.1 begin 1 display 1000: 0 2 1060",
        "3.1 begin 1 play 1000: 0 0 1060", "4.1 begin 1 play 1000: 0 0 1060", "5.1 begin 1 play 1000: 13", "5.2 begin 1 display 1000: 13",
        "5.3 begin 2 play 1000: 0 1 1060")
    day("each kind has its threshold", "1 key | 1 play threshold 1; 1 display threshold 1; 1 execute threshold 1",
        "0.1 begin 1 play 1000: 0 0 1060", "1.1 begin 1 display 1000: 0 1 1060", "2.1 begin 1 execute 1000: 0 2 1060",
        "3.1 begin 1 play 1000: 13", "3.2 begin 1 display 1000: 13", "3.3 begin 1 execute 1000: 13", "3.4 begin 1 print 1000: 12",
        "1.2 stop 1000: 0 1 1000", "3.5 begin 1 display 1000: 0 1 1060")


def full_and_switched_off():
    """A full entry is not one that fails for the switch only: 13, not 43."""
    opened = (0, Player(1, rights.BEGIN, 1, rights.PLAY, 0, 0, 1050, 1, 0, 990, 1050, 1))
    day("full and switched off", "1 key | 1 play tracked 1 threshold 1",
        "1.1 begin 1 play 1000: 13", "1.1 begin 1 play 1001: 13", "0.2 continue 1010: 0 0 1070", "0.3 stop 1020: 0 0 1020",
        "1.1 begin 1 play 1020: 13", "1.2 begin 1 play 1020: 43", "0.4 begin 1 play 1020: 43", time=1000, players=[opened])
    day("full and switched off, then lapsed", "1 key | 1 play tracked 1 threshold 1",
        "1.1 begin 1 play 1049: 13", "1.2 begin 1 play 1050: 43", time=1000, players=[opened])
    day("full and switched off beside one switched off", "1 key | 1 play tracked 1 threshold 1; 1 play tracked 1 threshold 1",
        "1.1 begin 1 play 1000: 43", "0.2 stop 1001: 0 0 1001", "1.2 begin 1 play 1001: 43", time=1000, players=[opened])
    day("full beside full and switched off", "1 key | 1 play tracked 1 threshold 1; 1 play threshold 1 count 9",
        "1.1 begin 1 play 1000: 0 1 1060", "2.1 begin 1 play 1000: 13", "0.2 stop 1001: 0 0 1001", "2.2 begin 1 play 1001: 43",
        "1.2 stop 1002: 0 1 1002", "2.3 begin 1 play 1002: 0 1 1062", time=1000, players=[opened])
    day("room left and switched off", "1 key | 1 play tracked 1 threshold 2", "1.1 begin 1 play 1000: 43", "1.2 begin 1 play 1050: 43",
        time=1000, players=[opened])
    day("full beside one switched off", "1 key | 1 play tracked 1; 1 play threshold 1 count 9",
        "0.1 begin 1 play 1000: 0 1 1060", "1.1 begin 1 play 1000: 43", "0.2 stop 1001: 0 1 1001", "1.2 begin 1 play 1001: 0 1 1061")
    day("switched off with a threshold", "1 key | 1 play tracked 1 threshold 1",
        "0.1 begin 1 play 1000: 43", "1.1 begin 1 play 1000: 43", "0.1 begin 1 play 1000: 43")
    day("a mark for the switch does not help a full one", "1 key | 1 play tracked 1 mark 1 threshold 1",
        "0.1 begin 1 play 1000: 0 0 1060", "1.1 begin 1 play 1000: 13", "0.2 stop 1001: 0 0 1001", "1.2 begin 1 play 1001: 0 0 1061")
    day("full with the switch on", "1 key | 1 play tracked 1 timed_value 50 threshold 1",
        "0.1 begin 1 play 1000: 0 0 1060", "1.1 begin 1 play 1001: 13", "0.2 stop 1040: 0 0 1040 -> 1 0 40",
        "1.2 begin 1 play 1040: 0 0 1100", "0.3 begin 1 play 1050: 13", "0.4 begin 1 play 1100: 0 0 1160 -> 1 1 100", switch=1)


def marked_images():
    """From an image with uses open: their marks count from the first event on. Before version 4 there is no threshold."""
    three = [(index, Player(1, rights.BEGIN, 1, rights.PLAY, 0, 0, until, 1, 0, 990, until))
             for index, until in ((3, 1040), (9, 1050), (15, 1060))]
    day("three open in the image, threshold 3", "1 key | 1 play threshold 3",
        "0.1 begin 1 play 1000: 13", "9.2 stop 1010: 0 0 1010", "0.2 begin 1 play 1010: 0 0 1070", "9.3 begin 1 play 1039: 13",
        "9.4 begin 1 play 1040: 0 0 1100", "3.2 begin 1 play 1040: 13", "15.2 continue 1050: 0 0 1110", "3.3 begin 1 play 1069: 13",
        "3.4 begin 1 play 1070: 0 0 1130", time=1000, players=three)
    day("three open in the image, threshold 4", "1 key | 1 play threshold 4",
        "0.1 begin 1 play 1000: 0 0 1060", "1.1 begin 1 play 1000: 13", "1.2 begin 1 play 1040: 0 0 1100", "3.2 begin 1 play 1040: 13",
        time=1000, players=three)
    for version in rights.VERSIONS:
        day(f"three open in the image, no threshold, version {version}", "1 key | 1 play; 1 display",
            "0.1 begin 1 play 1000: 0 0 1060", "1.1 begin 1 play 1000: 0 0 1060", "3.2 stop 1001: 0 0 1001",
            "3.3 begin 1 play 1001: 0 0 1061", "9.2 begin 1 display 1050: 0 1 1110", time=1000, players=three, version=version)
    sixteen = [(index, Player(1, rights.BEGIN, 1, rights.PLAY, 0, 0, 1050, 1, 0, 990, 1050)) for index in range(16)]
    day("16 open in the image, threshold 16", "1 key | 1 play threshold 16",
        "0.2 begin 1 play 1000: 11", "5.2 stop 1001: 0 0 1001", "5.3 begin 1 play 1001: 0 0 1061", "6.2 continue 1001: 0 0 1061",
        "7.2 begin 1 play 1050: 0 0 1110", time=1000, players=sixteen)
    day("all 16 over in one second, threshold 16", "1 key | 1 play threshold 16", "3.2 begin 1 play 1050: 0 0 1110",
        "3.3 stop 1051: 0 0 1051", time=1000, players=sixteen)
    day("a refusal for a full threshold in the image", "1 key | 1 play threshold 1",
        "3.7 begin 1 play 5: 13", "3.8 begin 1 play 1000: 0 0 1060", "3.8 begin 1 play 1000: 0 0 1060", time=1000,
        players=[(3, Player(7, rights.BEGIN, 1, rights.PLAY, 13, 255, 0))])


# ---- Order 8: a begin is taken back

def given_back():
    """What the begin took of count, timed count and seconds is there again, and nothing else."""
    for kind in ("play", "display", "execute"):
        day(f"a count comes back, {kind}", f"1 key | 1 {kind} count 1",
            f"0.1 begin 1 {kind} 1000: 0 0 1060", "0.2 cancel 1005: 0 0 1000", f"1.1 begin 1 {kind} 1005: 0 0 1065",
            f"0.3 begin 1 {kind} 1006: 13", "1.2 stop 1006: 0 0 1006", f"0.4 begin 1 {kind} 1006: 13")
    day("the counts of other uses stay", "1 key | 1 play count 3",
        "0.1 begin 1 play 1000: 0 0 1060", "0.2 stop 1010: 0 0 1010", "0.3 begin 1 play 1010: 0 0 1070", "0.4 cancel 1011: 0 0 1010",
        "0.5 begin 1 play 1011: 0 0 1071", "0.6 stop 1012: 0 0 1012", "0.7 begin 1 play 1012: 0 0 1072", "0.8 stop 1013: 0 0 1013",
        "0.9 begin 1 play 1013: 13")
    day("a count of another's open use stays", "1 key | 1 play count 2",
        "0.1 begin 1 play 1000: 0 0 1060", "1.1 begin 1 play 1001: 0 0 1061", "1.2 cancel 1002: 0 0 1001",
        "2.1 begin 1 play 1002: 0 0 1062",
        "3.1 begin 1 play 1002: 13", "0.2 continue 1003: 0 0 1063")
    for timer in (0, 1, 5, 6, 59, 60, 61, 1_000_000):
        day(f"a timed count comes back once, timer {timer}", f"1 key | 1 play timed 2 timer {timer}",
            "0.1 begin 1 play 1000: 0 0 1060", "1.1 begin 1 play 1000: 0 0 1060", "1.2 cancel 1005: 0 0 1000",
            "1.3 begin 1 play 1005: 0 0 1065", "2.1 begin 1 play 1005: 13")
    day("a timed count comes back behind its timer", "1 key | 1 play timed 1 timer 30",
        "0.1 begin 1 play 1000: 0 0 1060", "0.2 cancel 1059: 0 0 1000", "1.1 begin 1 play 1059: 0 0 1119", "2.1 begin 1 play 1060: 13",
        "1.2 stop 1089: 0 0 1089", "2.2 begin 1 play 1089: 13")
    day("all seconds come back, not the rest", "1 key | 1 play accumulated 60",
        "0.1 begin 1 play 1000: 0 0 1060", "0.2 cancel 1030: 0 0 1000", "1.1 begin 1 play 1030: 0 0 1090", "2.1 begin 1 play 1031: 13")
    day("seconds come back beside another's", "1 key | 1 play accumulated 100",
        "0.1 begin 1 play 1000: 0 0 1060", "1.1 begin 1 play 1010: 0 0 1050", "1.2 cancel 1020: 0 0 1010",
        "2.1 begin 1 play 1021: 0 0 1061", "0.2 continue 1022: 15", "3.1 begin 1 play 1022: 13")
    day("everything at once", "1 key | 1 play count 1 timed 1 timer 10 interval 100 accumulated 60",
        "0.1 begin 1 play 1000: 0 0 1060", "0.2 cancel 1059: 0 0 1000", "0.3 begin 1 play 2000: 0 0 2060", "0.4 cancel 2000: 0 0 2000",
        "0.5 begin 1 play 2000: 0 0 2060", "1.1 begin 1 play 2001: 13")
    day("no limit and nothing to give back", "1 key | 1 play",
        "0.1 begin 1 play 1000: 0 0 1060", "0.2 cancel 1001: 0 0 1000", "0.3 cancel 1001: 14", "0.4 begin 1 play 1001: 0 0 1061",
        "0.5 begin 1 play 1001: 11")
    day("cut by its end", "1 key | 1 play count 1 start 1000 end 1010",
        "0.1 begin 1 play 1000: 0 0 1011", "0.2 cancel 1010: 0 0 1000", "0.3 begin 1 play 1010: 0 0 1011", "0.4 cancel 1011: 14",
        "0.5 begin 1 play 1011: 13")
    day("a use of the parent's entry", "1 inherits 9 key; 2 inherits 9 key; 9 | 1 play count 0; 9 play count 1; 2 display count 1",
        "0.1 begin 1 play 1000: 0 1 1060", "0.2 cancel 1001: 0 1 1000", "1.1 begin 2 play 1001: 0 1 1061", "1.2 cancel 1002: 0 1 1001",
        "15.1 begin 2 display 1002: 0 2 1062", "15.2 cancel 1003: 0 2 1002", "15.3 begin 1 play 1003: 0 1 1063",
        "0.3 begin 2 play 1003: 13")
    day("at the latest second", "1 key | 1 play count 1",
        "0.1 begin 1 play 3999999950: 0 0 4000000010", "0.2 cancel 4000000001: 5", "0.2 cancel 4000000000: 0 0 3999999950",
        "0.3 begin 1 play 4000000000: 0 0 4000000060", "0.4 cancel 4000000000: 0 0 4000000000", "0.4 cancel 0: 0 0 4000000000",
        "1.1 begin 1 play 4000000000: 0 0 4000000060", "0.5 begin 1 play 4000000000: 13")
    day("at 0", "1 key | 1 play count 1 interval 50", "0.1 begin 1 play 0: 0 0 50", "0.2 cancel 0: 0 0 0", "0.3 begin 1 play 10: 0 0 60",
        "0.4 cancel 10: 0 0 10", "0.5 begin 1 play 60: 0 0 110")


def unstarted():
    """An interval is unstarted if the begin taken back started it, and by that begin alone."""
    day("an interval that the begin started", "1 key | 1 play interval 100",
        "0.1 begin 1 play 1000: 0 0 1060", "0.2 cancel 1050: 0 0 1000", "0.3 begin 1 play 2000: 0 0 2060", "0.4 stop 2001: 0 0 2001",
        "0.5 begin 1 play 2099: 0 0 2100", "0.6 begin 1 play 2100: 13")
    day("an interval that an earlier use started", "1 key | 1 play interval 100",
        "0.1 begin 1 play 1000: 0 0 1060", "0.2 stop 1010: 0 0 1010", "0.3 begin 1 play 1020: 0 0 1080", "0.4 cancel 1021: 0 0 1020",
        "0.5 begin 1 play 1099: 0 0 1100", "0.6 begin 1 play 1100: 13")
    day("an interval that another's open use started", "1 key | 1 play interval 100",
        "0.1 begin 1 play 1000: 0 0 1060", "1.1 begin 1 play 1001: 0 0 1061", "1.2 cancel 1001: 0 0 1001",
        "2.1 begin 1 play 1099: 0 0 1100",
        "3.1 begin 1 play 1100: 13")
    day("two begins in one second, the second taken back", "1 key | 1 play interval 100",
        "0.1 begin 1 play 1000: 0 0 1060", "1.1 begin 1 play 1000: 0 0 1060", "1.2 cancel 1000: 0 0 1000", "0.2 stop 1000: 0 0 1000",
        "2.1 begin 1 play 1099: 0 0 1100", "3.1 begin 1 play 1100: 13")
    day("two begins in one second, the first stopped in it", "1 key | 1 play interval 100",
        "0.1 begin 1 play 1000: 0 0 1060", "0.2 stop 1000: 0 0 1000", "0.3 begin 1 play 1000: 0 0 1060", "0.4 cancel 1000: 0 0 1000",
        "0.5 begin 1 play 1099: 0 0 1100", "0.6 begin 1 play 1100: 13")
    day("two begins in one second, the first taken back before", "1 key | 1 play interval 100",
        "0.1 begin 1 play 1000: 0 0 1060", "0.2 cancel 1000: 0 0 1000", "1.1 begin 1 play 1000: 0 0 1060", "1.2 cancel 1001: 0 0 1000",
        "2.1 begin 1 play 1200: 0 0 1260", "2.2 stop 1200: 0 0 1200", "1.3 begin 1 play 1299: 0 0 1300", "1.4 begin 1 play 1300: 13")
    day("the interval of another entry stays", "1 key; 2 key | 1 play interval 100; 2 play interval 100",
        "0.1 begin 1 play 1000: 0 0 1060", "1.1 begin 2 play 1010: 0 1 1070", "1.2 cancel 1011: 0 1 1010", "2.1 begin 1 play 1100: 13",
        "2.2 begin 2 play 1110: 0 1 1170")
    day("in the last second of the interval", "1 key | 1 play interval 10",
        "0.1 begin 1 play 1000: 0 0 1010", "0.2 cancel 1009: 0 0 1000", "0.3 begin 1 play 1009: 0 0 1019", "0.4 cancel 1019: 14",
        "0.5 begin 1 play 1019: 13")
    day("an interval started by a print", "1 key | 1 print interval 100; 1 play interval 100",
        "0.1 begin 1 print 1000: 0 0 1000", "0.2 cancel 1000: 14", "0.3 begin 1 print 1099: 0 0 1099", "0.4 begin 1 print 1100: 13",
        "0.5 begin 1 play 1100: 0 1 1160", "0.6 cancel 1100: 0 1 1100", "0.7 begin 1 play 1300: 0 1 1360")
    day("the choice after an interval is unstarted", "1 inherits 9 key; 2 inherits 9 key; 9 | 9 play interval 300; 1 play end 2000",
        "0.1 begin 1 play 1000: 0 1 1060", "0.2 cancel 1001: 0 1 1000", "1.1 begin 2 play 1010: 0 0 1070", "1.2 cancel 1010: 0 0 1010",
        "0.3 begin 1 play 1010: 0 1 1070", "0.4 cancel 1010: 0 1 1010", "1.3 begin 2 play 1010: 0 0 1070",
        "0.5 begin 1 play 1010: 0 0 1070 was 0 1 1070", "0.6 cancel 1011: 0 0 1010", "0.7 begin 1 play 1309: 0 0 1310",
        "0.8 begin 1 play 1310: 0 1 1370")
    day("the choice between two intervals, one unstarted",
        "1 inherits 9 key; 2 inherits 9 key; 9 | 1 play interval 900; 9 play interval 500",
        "0.1 begin 2 play 1000: 0 1 1060", "0.2 cancel 1000: 0 1 1000", "1.1 begin 1 play 1000: 0 0 1060", "1.2 cancel 1000: 0 0 1000",
        "0.3 begin 2 play 1000: 0 1 1060", "1.3 begin 1 play 1000: 0 1 1060", "1.4 cancel 1000: 0 1 1000",
        "1.5 begin 1 play 1000: 0 1 1060")


def place_free():
    """A begin that is taken back gives its place in a group pack away."""
    for player in (0, 1, 7, 8, 15):
        other = (player + 1) % 16
        day(f"threshold 1, taken back by player {player}", "1 key | 1 play threshold 1",
            f"{player}.1 begin 1 play 1000: 0 0 1060", f"{player}.2 cancel 1001: 0 0 1000", f"{other}.1 begin 1 play 1001: 0 0 1061",
            f"{player}.3 begin 1 play 1001: 13", f"{other}.2 cancel 1001: 44", f"{player}.4 begin 1 play 1061: 0 0 1121")
    day("a group pack for two", "1 inherits 9 key; 2 inherits 9 key; 9 | 9 play threshold 2",
        "0.1 begin 1 play 1000: 0 0 1060", "1.1 begin 2 play 1001: 0 0 1061", "1.2 cancel 1002: 0 0 1001",
        "2.1 begin 1 play 1002: 0 0 1062",
        "3.1 begin 2 play 1003: 13", "2.2 cancel 1003: 44", "0.2 stop 1004: 0 0 1004", "3.2 begin 2 play 1004: 0 0 1064",
        "3.3 cancel 1004: 0 0 1004", "0.3 begin 1 play 1004: 0 0 1064", "1.3 begin 1 play 1004: 13")
    day("15 of 16 stay", "1 key | 1 play threshold 16", *(f"{player}.1 begin 1 play 1000: 0 0 1060" for player in range(16)),
        "15.2 cancel 1000: 0 0 1000", "15.3 begin 1 play 1000: 0 0 1060", "15.4 cancel 1000: 0 0 1000", "14.2 cancel 1000: 44")
    day("a threshold beside a count", "1 key | 1 play threshold 1 count 2",
        "0.1 begin 1 play 1000: 0 0 1060", "0.2 cancel 1000: 0 0 1000", "0.3 begin 1 play 1000: 0 0 1060", "0.4 stop 1001: 0 0 1001",
        "1.1 begin 1 play 1001: 0 0 1061", "1.2 cancel 1001: 0 0 1001", "2.1 begin 1 play 1001: 0 0 1061", "2.2 stop 1002: 0 0 1002",
        "2.3 begin 1 play 1002: 13")


def unrecorded():
    """What is taken back is not in the report; other uses that are over are."""
    for timed_value in (0, 30, 61):
        times = 1 if timed_value < 61 else 0
        day(f"not reported, timed value {timed_value}", f"1 key | 1 play tracked 1 timed_value {timed_value}",
            "0.1 begin 1 play 1000: 0 0 1060", "0.2 cancel 1050: 0 0 1000", "0.3 begin 1 play 1060: 0 0 1120", "0.4 cancel 1060: 0 0 1060",
            "0.5 begin 1 play 1060: 0 0 1120", f"0.6 stop 1120: 14 -> 1 {times} 60", switch=1)
    day("a cancel ends others' uses", "1 key; 2 key | 1 play tracked 1; 2 play tracked 1",
        "0.1 begin 1 play 1000: 0 0 1060", "1.1 begin 2 play 1050: 0 1 1110", "1.2 cancel 1060: 0 1 1050 -> 1 1 60", "2.1 stop 1200: 14",
        "1.3 begin 2 play 1200: 0 1 1260", "2.2 stop 1260: 14 -> 2 1 60", switch=1)
    day("a cancel too late: the use is over and reported", "1 key | 1 play tracked 1",
        "0.1 begin 1 play 1000: 0 0 1060", "0.2 cancel 1060: 14 -> 1 1 60", "0.2 cancel 1060: 14", switch=1)
    day("a cancel refused: the use goes on and is reported", "1 key | 1 play tracked 1 timed_value 30",
        "0.1 begin 1 play 1000: 0 0 1060", "0.2 continue 1010: 0 0 1070", "0.3 cancel 1011: 44", "0.4 stop 1020: 0 0 1020 -> 1 0 20",
        switch=1)
    day("a print is reported and not taken back", "1 key | 1 print tracked 1 count 1",
        "0.1 begin 1 print 1000: 0 0 1000 -> 1 1 0", "0.2 cancel 1000: 14", "0.3 begin 1 print 1000: 13", switch=1)
    day("tracked with a mark, the switch off", "1 key | 1 play tracked 1 mark 1 count 1",
        "0.1 begin 1 play 1000: 0 0 1060", "0.2 cancel 1050: 0 0 1000", "0.3 begin 1 play 1050: 0 0 1110", "0.4 stop 1060: 0 0 1060")


LOADING = "1 key; 2 key; 7 | 1 play count 9; 2 play count 0; 2 display tracked 1; 1 print"


def still_the_last():
    """Resends and what is turned away are not taken, so the begin is still the last event."""
    day("the begin sent again before the cancel", LOADING,
        "0.1 begin 1 play 1000: 0 0 1060", "0.1 begin 1 play 1001: 0 0 1060", "0.1 begin 1 play 1059: 0 0 1060",
        "0.2 cancel 1002: 0 0 1000")
    day("another's request sent again before the cancel", LOADING,
        "1.1 stop 990: 14", "0.1 begin 1 play 1000: 0 0 1060", "1.1 stop 1001: 14", "0.2 cancel 1001: 0 0 1000")
    for line in ("0.2 asks 0 0 0 1001: 1", "0.2 asks 5 0 0 1001: 1", "0.2 asks 255 0 0 1001: 1", "0.2 asks 4 1 0 1001: 1",
                 "0.2 asks 4 256 0 1001: 1", "0.2 asks 4 0 1 1001: 1", "0.2 asks 1 1 6 1001: 1", "3.2 asks 5 0 0 1001: 1",
                 "3.2 asks 4 1 0 1001: 1", "1.1 asks 0 0 0 1001: 1", "16.1 cancel 1001: 2", "0.3 cancel 1001: 3", "0.0 cancel 1001: 3",
                 "1.2 begin 1 play 1001: 3", "3.3 stop 1001: 3", "3.0.0 cancel 1001: 3", "0.1 cancel 1001: 4", "0.1 stop 1001: 4",
                 "0.1 begin 2 play 1001: 4", "3.1 cancel 1001: 4", "0.2 cancel 999: 5", "0.2 cancel 4000000001: 5", "0.2 stop 999: 5",
                 "3.2 cancel 999: 5", "1.1 begin 1 play 999: 5", "0.1 begin 1 play 1001: 0 0 1060", "3.1 stop 1001: 14"):
        day(f"a cancel behind {line}", "1 key; 2 key | 1 play count 1 interval 100; 2 play",
            "3.1 stop 990: 14", "0.1 begin 1 play 1000: 0 0 1060", line, "0.2 cancel 1001: 0 0 1000", "1.1 begin 1 play 1200: 0 0 1260")
    day("all of them behind one another", LOADING,
        "3.1 stop 900: 14", "0.1 begin 1 play 1000: 0 0 1060", "16.1 cancel 1001: 2", "0.2 asks 4 0 2 1001: 1",
        "0.1 begin 1 play 0: 0 0 1060",
        "0.3 cancel 1001: 3", "3.1 stop 1001: 14", "0.1 cancel 1001: 4", "1.1 cancel 999: 5", "0.2 cancel 1059: 0 0 1000")
    day("one second before its time is over", LOADING, "0.1 begin 1 play 1000: 0 0 1060", "0.2 cancel 1059: 0 0 1000")


def no_longer_the_last():
    """44 if anybody's event was taken since, a refused one too. It is taken, and leaves the use open."""
    for line in ("1.1 begin 1 play 1001: 0 0 1061", "1.1 begin 1 print 1001: 0 3 1001", "1.1 begin 3 play 1001: 10",
                 "1.1 begin 7 play 1001: 10", "0.2 begin 1 play 1001: 11", "0.2 begin 3 play 1001: 11", "1.1 begin 1 execute 1001: 12",
                 "1.1 begin 2 play 1001: 13", "1.1 begin 2 display 1001: 43", "1.1 continue 1001: 14", "1.1 stop 1001: 14",
                 "1.1 cancel 1001: 14", "0.2 continue 1000: 15", "0.2 continue 1001: 0 0 1061", "15.1 stop 1001: 14"):
        number = 3 if line.startswith("0.") else 2
        day(f"no cancel behind {line}", LOADING, "0.1 begin 1 play 1000: 0 0 1060", line, f"0.{number} cancel 1002: 44",
            f"0.{number} cancel 1002: 44", f"0.{number + 1} cancel 1002: 44", f"0.{number + 2} continue 1010: 0 0 1070",
            f"0.{number + 3} cancel 1011: 44", f"0.{number + 4} stop 1012: 0 0 1012", f"0.{number + 5} cancel 1012: 14")
    day("no cancel behind another's stop", LOADING,
        "1.1 begin 1 play 1000: 0 0 1060", "0.1 begin 1 play 1000: 0 0 1060", "1.2 stop 1001: 0 0 1001", "0.2 cancel 1001: 44")
    day("no cancel behind another's continue", LOADING,
        "1.1 begin 1 play 999: 0 0 1059", "0.1 begin 1 play 1000: 0 0 1060", "1.2 continue 1000: 0 0 1060", "0.2 cancel 1001: 44",
        "1.3 cancel 1001: 44")
    day("no cancel behind another's continue without more time", LOADING,
        "1.1 begin 1 play 1000: 0 0 1060", "0.1 begin 1 play 1000: 0 0 1060", "1.2 continue 1000: 15", "0.2 cancel 1001: 44")
    day("no cancel behind another's cancel", LOADING,
        "0.1 begin 1 play 1000: 0 0 1060", "1.1 begin 1 play 1000: 0 0 1060", "1.2 cancel 1001: 0 0 1000", "0.2 cancel 1001: 44",
        "1.3 cancel 1001: 14")
    day("no cancel behind another's cancel that got 44", LOADING,
        "1.1 begin 1 play 1000: 0 0 1060", "0.1 begin 1 play 1000: 0 0 1060", "1.2 cancel 1000: 44", "0.2 cancel 1000: 44")
    day("one that is refused uses its limits on", "1 key | 1 play count 1 interval 100 threshold 1",
        "0.1 begin 1 play 1000: 0 0 1060", "1.1 begin 1 play 1000: 13", "0.2 cancel 1001: 44", "0.3 stop 1002: 0 0 1002",
        "1.2 begin 1 play 1002: 13")
    day("44 does not unstart an interval", "1 key | 1 play interval 100",
        "0.1 begin 1 play 1000: 0 0 1060", "0.2 continue 1000: 15", "0.3 cancel 1001: 44", "0.4 stop 1002: 0 0 1002",
        "0.5 begin 1 play 1099: 0 0 1100", "0.6 cancel 1099: 0 0 1099", "0.7 begin 1 play 1100: 13")
    day("refused for itself, granted for the next begin", "1 key | 1 play count 2",
        "0.1 begin 1 play 1000: 0 0 1060", "0.2 continue 1000: 15", "0.3 cancel 1000: 44", "0.4 stop 1000: 0 0 1000",
        "0.5 begin 1 play 1001: 0 0 1061", "0.6 cancel 1001: 0 0 1001", "0.7 begin 1 play 1001: 0 0 1061", "1.1 begin 1 play 1001: 13")
    day("44 sent again when it would be granted", "1 key | 1 play count 2",
        "0.1 begin 1 play 1000: 0 0 1060", "0.2 continue 1000: 15", "0.3 cancel 1000: 44", "0.3 cancel 1001: 44", "0.3 stop 1001: 4",
        "0.3 cancel 0: 44")


def nothing_to_take_back():
    """14 if nothing is open, whatever was taken since."""
    day("a player's first event is a cancel", LOADING, "0.1 cancel 1000: 14", "0.1 cancel 1000: 14", "0.2 cancel 1000: 14",
        "0.3 begin 1 play 1000: 0 0 1060", "0.4 cancel 1000: 0 0 1000")
    day("a use that was stopped", LOADING, "0.1 begin 1 play 1000: 0 0 1060", "0.2 stop 1000: 0 0 1000", "0.3 cancel 1000: 14")
    day("a use that is over", LOADING, "0.1 begin 1 play 1000: 0 0 1060", "0.2 cancel 1060: 14", "1.1 begin 1 play 1060: 0 0 1120",
        "1.2 cancel 1121: 14")
    day("a use that is over, and another's event", LOADING, "0.1 begin 1 play 1000: 0 0 1060", "1.1 stop 1030: 14", "0.2 cancel 1060: 14")
    day("a use that is over, and another's begin", "1 key | 1 play count 2", "0.1 begin 1 play 1000: 0 0 1060",
        "1.1 begin 1 play 1060: 0 0 1120", "0.2 cancel 1060: 14", "1.2 cancel 1060: 44", "2.1 begin 1 play 1060: 13")
    for kind in ("print", "export"):
        day(f"a momentary use, {kind}", f"1 key | 1 {kind} count 1", f"0.1 begin 1 {kind} 1000: 0 0 1000", "0.2 cancel 1000: 14",
            f"1.1 begin 1 {kind} 1000: 13")
    day("a begin that was refused", LOADING, "0.1 begin 2 play 1000: 13", "0.2 cancel 1000: 14", "0.3 begin 2 display 1000: 43",
        "0.4 cancel 1000: 14", "0.5 begin 3 play 1000: 10", "0.6 cancel 1000: 14")
    day("another's open use is not taken back", LOADING, "0.1 begin 1 play 1000: 0 0 1060", "1.1 cancel 1000: 14", "0.2 cancel 1000: 44")


def taken_back_again():
    """A cancel is an event like others: its number, its resends, and what follows it."""
    day("a cancel sent again", "1 key | 1 play count 1",
        "0.1 begin 1 play 1000: 0 0 1060", "0.2 cancel 1005: 0 0 1000", "0.2 cancel 1010: 0 0 1000", "0.2 cancel 0: 0 0 1000",
        "0.2 stop 1010: 4", "0.1 begin 1 play 1010: 3", "0.3 cancel 1010: 14", "0.4 begin 1 play 1010: 0 0 1070", "0.2 cancel 1010: 3",
        "1.1 begin 1 play 1010: 13")
    day("a cancel sent again behind another's begin", "1 key | 1 play count 1",
        "0.1 begin 1 play 1000: 0 0 1060", "0.2 cancel 1001: 0 0 1000", "1.1 begin 1 play 1001: 0 0 1061", "0.2 cancel 1001: 0 0 1000",
        "2.1 begin 1 play 1001: 13", "1.2 stop 1002: 0 0 1002", "0.3 begin 1 play 1002: 13")
    day("a begin sent again behind its cancel", "1 key | 1 play count 1",
        "0.1 begin 1 play 1000: 0 0 1060", "0.2 cancel 1001: 0 0 1000", "0.1 begin 1 play 1001: 3", "0.3 begin 1 play 1001: 0 0 1061",
        "0.3 begin 1 play 1002: 0 0 1061", "1.1 begin 1 play 1002: 13")
    day("again and again", "1 key | 1 play count 1 interval 30",
        *(line for each in range(6) for line in (f"0.{2 * each + 1} begin 1 play {1000 + 40 * each}: 0 0 {1030 + 40 * each}",
                                                 f"0.{2 * each + 2} cancel {1029 + 40 * each}: 0 0 {1000 + 40 * each}")),
        "1.1 begin 1 play 1300: 0 0 1330", "0.13 begin 1 play 1301: 13")
    day("a restart between the begin and its cancel", "1 key | 1 play count 1",
        "0.1.1 begin 1 play 1000: 0 0 1060", "0.2.1 cancel 1001: 0 0 1000", "0.2.2 begin 1 play 1001: 0 0 1061",
        "0.3.1 begin 1 play 1001: 11",
        "0.4.1 cancel 1001: 44")
    day("two players take back in turn", "1 key | 1 play count 1",
        "0.1 begin 1 play 1000: 0 0 1060", "0.2 cancel 1000: 0 0 1000", "1.1 begin 1 play 1000: 0 0 1060", "1.2 cancel 1000: 0 0 1000",
        "0.3 begin 1 play 1000: 0 0 1060", "0.4 cancel 1000: 0 0 1000", "15.1 begin 1 play 1000: 0 0 1060", "15.2 cancel 1000: 0 0 1000",
        "1.3 begin 1 play 1000: 0 0 1060", "0.5 begin 1 play 1000: 13")
    day("another entry after it", "1 key | 1 play count 1 end 2000; 1 play count 1",
        "0.1 begin 1 play 1000: 0 0 1060", "0.2 cancel 1000: 0 0 1000", "1.1 begin 1 play 1000: 0 0 1060",
        "0.3 begin 1 play 1000: 0 1 1060",
        "0.4 cancel 1000: 0 1 1000", "2.1 begin 1 play 1000: 0 1 1060", "0.5 begin 1 play 1000: 13")
    day("a request of operation 5", "1 key | 1 play", "0.1 asks 5 0 0 1000: 1", "0.1 asks 4 0 0 1000: 14", "0.1 cancel 1000: 14",
        "0.2 asks 4 0 5 1000: 1", "0.2 asks 4 65535 0 1000: 1", "0.2 asks 4 1 1 1000: 1", "0.2 asks 4 0 0 1000: 14")


def begun_images():
    """From an image in the middle of a use. Before version 5 it does not say what was taken last."""
    opened = (0, Player(1, rights.BEGIN, 1, rights.PLAY, 0, 0, 1050, 1, 0, 990, 1050))
    other = (1, Player(3, rights.STOP, 0, 0, 14, 255, 0))
    for version in rights.VERSIONS:
        day(f"a use open in the image, nobody taken last, version {version}", "1 key | 1 play count 2 used_count 1",
            "0.2 cancel 1010: 44", "1.1 begin 1 play 1010: 0 0 1070", "1.2 cancel 1011: 0 0 1010", "0.3 stop 1012: 0 0 1012",
            "0.4 begin 1 play 1012: 0 0 1072", "1.3 begin 1 play 1012: 13", time=1000, players=[opened], version=version)
        day(f"a stored 44, version {version}", "1 key | 1 play", "3.7 cancel 5: 44", "3.7 stop 1000: 4", "3.8 cancel 1000: 14",
            "3.9 begin 1 play 1000: 0 0 1060", "3.10 cancel 1000: 0 0 1000",
            time=1000, players=[(3, Player(7, rights.CANCEL, 0, 0, 44, 255, 0))], version=version)
        day(f"a stored cancel, version {version}", "1 key | 1 play", "3.7 cancel 5: 0 0 900", "3.8 cancel 1001: 14", time=1000,
            players=[(3, Player(7, rights.CANCEL, 0, 0, 0, 0, 900))], version=version)
    day("in the middle of a begin", "1 key | 1 play count 1 used_count 1 timed 1 used_timed 1 timer 5 accumulated 60 used_seconds 60",
        "0.1 begin 1 play 1010: 0 0 1050", "0.2 cancel 1010: 0 0 990", "1.4 begin 1 play 1010: 0 0 1070", "0.3 begin 1 play 1010: 13",
        time=1000, players=[opened, other], last=1)
    day("in the middle of a begin, too late", "1 key | 1 play count 1 used_count 1", "0.2 cancel 1050: 14", "0.3 begin 1 play 1050: 13",
        time=1000, players=[opened], last=1)
    day("in the middle of a begin that started an interval", "1 key | 1 play interval 300 started 1 first 990",
        "0.2 cancel 1010: 0 0 990", "1.1 begin 1 play 1500: 0 0 1560", time=1000, players=[opened], last=1, mark=1)
    day("in the middle of a begin at its interval's first second, without the mark", "1 key | 1 play interval 300 started 1 first 990",
        "0.2 cancel 1010: 0 0 990", "1.1 begin 1 play 1289: 0 0 1290", "2.1 begin 1 play 1290: 13", time=1000, players=[opened], last=1)
    day("the mark goes with another's event", "1 key | 1 play interval 300 started 1 first 990",
        "1.1 begin 1 play 1000: 0 0 1060", "1.2 cancel 1000: 0 0 1000", "0.2 cancel 1000: 44", "2.1 begin 1 play 1290: 13", time=1000,
        players=[opened], last=1, mark=1)
    day("another was taken last", "1 key | 1 play", "0.2 cancel 1000: 44", "1.3 stop 0: 14", time=1000, players=[opened, other], last=2)
    day("another's resend, then the cancel", "1 key | 1 play", "1.3 stop 1000: 14", "0.2 cancel 1000: 0 0 990", time=1000,
        players=[opened, other], last=1)
    day("player 15 was taken last", "1 key | 1 play", "15.2 cancel 1000: 0 0 990", "0.1 cancel 1000: 14", time=1000,
        players=[(15, opened[1])], last=16)
    day("player 14 has a use open, 15 was taken last", "1 key | 1 play", "14.2 cancel 1000: 44", "15.4 cancel 1000: 14", time=1000,
        players=[(14, opened[1]), (15, other[1])], last=16)
    for name, *stored in (("a continue", 1, rights.CONTINUE, 0, 0, 0, 0, 1050), ("a stop", 1, rights.STOP, 0, 0, 0, 0, 1050),
                          ("a cancel", 1, rights.CANCEL, 0, 0, 0, 0, 1050),
                          ("a begin answered 11", 1, rights.BEGIN, 1, rights.PLAY, 11, 255, 0),
                          ("a begin of another entry", 1, rights.BEGIN, 1, rights.PLAY, 0, 1, 1050),
                          ("a begin with a later until", 1, rights.BEGIN, 1, rights.PLAY, 0, 0, 1051),
                          ("a begin with an earlier until", 1, rights.BEGIN, 1, rights.PLAY, 0, 0, 1049),
                          ("a begin with the begin for its until", 1, rights.BEGIN, 1, rights.PLAY, 0, 0, 990)):
        for mark in (0, 1):
            day(f"its stored request is {name}, mark {mark}", "1 key | 1 play interval 300 started 1 first 990; 1 play",
                "0.2 cancel 1010: 44", "0.3 stop 1010: 0 0 1010", time=1000,
                players=[(0, Player(*stored, 1, 0, 990, 1050))], last=1, mark=mark)
    for name, asset, kind in (("another asset", 2, rights.PLAY), ("another kind", 1, rights.PRINT)):
        day(f"its stored request has {name}", "1 key; 2 key | 1 play count 1 used_count 1",
            "0.2 cancel 1010: 0 0 990", "1.1 begin 1 play 1010: 0 0 1070", time=1000,
            players=[(0, Player(1, rights.BEGIN, asset, kind, 0, 0, 1050, 1, 0, 990, 1050))], last=1)
    day("a tracked use of the image is not reported", "1 key; 2 key | 1 play tracked 1 timed_value 5 threshold 1",
        "0.2 cancel 1010: 0 0 990", "1.1 begin 1 play 1010: 0 0 1070", "1.2 stop 1020: 0 0 1020 -> 1 1 10", time=1000, switch=1,
        players=[(0, Player(1, rights.BEGIN, 2, rights.PLAY, 0, 0, 1050, 1, 0, 990, 1050, 2))], last=1)


GROUPS = [base, alone, beside, with_dates, from_the_middle, switched_off, none_left, recorded, contents, continued, boot_numbers,
          last_counters, resent_numbers, record_lengths, older_images, end_and_interval, both_limits, ties, neither, not_started,
          not_grantable, running_images, latest_seconds, together, room_again, going_on_together, resent_together, momentary_together,
          full_passed_over, full_and_switched_off, marked_images, given_back, unstarted, place_free, unrecorded, still_the_last,
          no_longer_the_last, nothing_to_take_back, taken_back_again, begun_images]


def written():
    """(name, version, book, steps, tail) of every day, in order."""
    if not DAYS:
        for group in GROUPS:
            group()
    return DAYS


def days():
    """(image, event bytes, the text that the run program prints) of every day. The rules of rights.py must agree with the answers."""
    seen = {}
    for name, version, book, steps, tail in written():
        image, records = rights.write(book, version), b"".join(rights.encode(event) for event, _, _ in steps) + tail
        assert (image, records) not in seen, f"{name} is there already, as {seen[image, records]}"
        seen[image, records] = name
        text = "".join("%d %d %d\n" % answer for _, answer, _ in steps) + "6 255 0\n" * bool(tail)
        got = rights.run(image, records)
        assert got == text, f"{name}: by hand\n{text}by the second program\n{got}"
        yield image, records, text
