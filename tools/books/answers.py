"""The answers to a file of requests: how many of each sort, whether the requests go on from their book, and whether answers fit them."""

import re
from collections import Counter

import rights

from .words import TOP

# What a request can be refused with once it is taken.
REFUSALS = {rights.BEGIN: (10, 11, 12, 13, 43), rights.CONTINUE: (14, 15), rights.STOP: (14,), rights.CANCEL: (14, 44)}


def parsed(line):
    """The three numbers of an answer, or None if the line is none."""
    found = re.fullmatch("([0-9]{1,3}) ([0-9]{1,3}) ([0-9]{1,10})", line)
    numbers = found and tuple(map(int, found.groups()))
    return numbers if numbers and numbers[2] <= TOP else None


# ---- How many of each sort

class Tally:
    """How the requests from a book were answered. One that was sent again is neither granted nor refused a second time."""

    def __init__(self, book, records, answers):
        self.all = self.granted = self.again = self.known = 0
        self.refused, self.away = Counter(), Counter()
        latest = {index: (player.number, player.operation, player.asset, player.kind) for index, player in enumerate(book.players)}
        asked = set()
        self.first = {}             # the code of each player's first request
        for record, line in zip(rights.records_in(records), answers.split(b"\n")):
            code, event = int(line.split()[0]), rights.decode(record)
            self.all += 1
            if isinstance(event, rights.Event):
                self.first.setdefault(event.player, code)
            if code not in rights.TAKEN:
                self.away[code] += 1
                continue
            request = (event.number, event.operation, event.asset, event.kind)
            if latest[event.player] == request:
                self.again += 1
                self.known += event.player not in asked
                continue
            latest[event.player] = request
            asked.add(event.player)
            if code == 0:
                self.granted += 1
            else:
                self.refused[code] += 1

    def words(self):
        if not self.all:
            return "no requests"
        again = f", {self.again} sent again" if self.again else ""
        return (f"{self.all} request{'s' * (self.all > 1)}: {self.granted} granted, {by_code('refused', self.refused)},"
                f" {by_code('turned away', self.away)}{again}")

    def doubt(self):
        """A question to the user where most requests, or the first ones of most players, do not go on from the book; None otherwise."""
        numbers, away = self.away[3] + self.away[4], sum(self.away.values())
        firsts = sum(code in (3, 4) for code in self.first.values())
        for many, of, how in ((numbers, self.all, "requests are turned away by number"), (away, self.all, "requests are turned away"),
                              (away + self.known, self.all, "requests are turned away or in the book already"),
                              (firsts, len(self.first), "players are turned away by number at their first request")):
            if 2 * many > of:
                return f"{many} of {of} {how}: is this the book with which these records began?"
        return None


def by_code(name, counts):
    codes = ", ".join(f"{counts[code]} with {code}" for code in sorted(counts))
    return f"{sum(counts.values())} {name}" + (f" ({codes})" if codes else "")


# ---- Whether answers fit their requests

class Course:
    """What the requests so far tell of each player and of the book's time, without the book."""

    def __init__(self):
        self.latest = {}                            # of a player that has got an answer: number, request, answer
        self.low, self.high = 0, rights.LATEST      # the book's time lies between

    def misfit(self, record, line):
        """Whether this line cannot be the answer to this record."""
        answer = parsed(line)
        if answer is None or answer[0] != 0 and answer[1:] != (255, 0):
            return True
        code, entry, _ = answer
        if code == 30:                              # from the library, with a list that is not good, whatever the request
            return False
        event = rights.decode(record)
        if isinstance(event, int):
            return code != event
        if code == 0 and entry >= rights.MOST or event.number == 0 and code != 3:
            return True
        request, last = (event.operation, event.asset, event.kind), self.latest.get(event.player)
        if last is None:
            return self.first(event, request, answer)
        if event.number == last[0]:
            return answer != last[2] if request == last[1] else code != 4
        if not rights.is_in_line(last[0], event.number):
            return code != 3
        if code == 5:
            return self.high <= event.time <= rights.LATEST
        if code not in (0, *REFUSALS[event.operation]) or not self.low <= event.time <= rights.LATEST:
            return True
        self.latest[event.player] = (event.number, request, answer)
        self.low = self.high = event.time
        return code == 0 and not until_fits(event, answer[2])

    def first(self, event, request, answer):
        """A player's first request that is answered may have been sent before: then the answer is an earlier one, and the time is
        not read."""
        if answer[0] in (3, 4):
            return False
        if answer[0] == 5:
            return self.high <= event.time <= rights.LATEST
        if answer[0] not in rights.TAKEN:
            return True
        self.latest[event.player] = (event.number, request, answer)
        self.high = max(self.high, min(event.time, rights.LATEST))
        return False


def until_fits(event, until):
    """Of a request that was granted, and not sent before."""
    if event.operation == rights.CANCEL:
        return until <= event.time
    if event.operation == rights.STOP or event.operation == rights.BEGIN and event.kind >= rights.PRINT:
        return until == event.time
    return event.time < until <= event.time + rights.GRANT


def mismatch(records, lines):
    """Why these lines cannot be the answers to these records; None if they can."""
    each, course = rights.records_in(records), Course()
    wrong = [place for place, (record, line) in enumerate(zip(each, lines), 1) if course.misfit(record, line.strip())]
    told = []
    if len(each) != len(lines):
        told.append(f"{len(each)} request{'s' * (len(each) != 1)} and {len(lines)} answer{'s' * (len(lines) != 1)}")
    if wrong:
        told.append(f"{len(wrong)} answer{'s' * (len(wrong) > 1)} that cannot be the one to the request (the first: {wrong[0]})")
    return "; ".join(told) or None
