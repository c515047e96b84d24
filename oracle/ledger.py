"""The ledger of document 01 with the orders of document 02, and demand 3 judged by it.

A ledger is built from events and answers alone. From the book it reads only what no event changes: assets, kinds, flags,
limits, tracks, thresholds and the switch. It is written separately from the rules of events in rights.py, even where the two look
alike, so that a fault in one of them shows up as a difference. It imports nothing.
"""


class Use:
    def __init__(self, entry, player, begin, until, content):
        self.entry, self.player, self.begin, self.until = entry, player, begin, until
        self.content = content       # the asset that its begin asked for
        self.stopped = False

    def open_at(self, T):
        return not self.stopped and self.until > T


class Broken(Exception):
    """Demand 3 does not hold."""


def demand(holds, what):
    if not holds:
        raise Broken(what)


class Ledger:
    def __init__(self, assets, entries, switch):
        self.assets = {a.number: a for a in assets}
        self.entries = entries
        self.switch = switch
        self.uses = []
        self.latest = {}     # player: number, operation, asset, kind of the latest taken event
        self.answers = {}    # player: its answer
        self.last = None     # of all players: the latest taken event and its answer
        self.T = 0           # the time of the latest taken event

    # -- the terms that the papers define

    def is_resend(self, event, code):
        """Order 3: "an event answered 30 is no resend and not taken"."""
        request = (event.number, event.operation, event.asset, event.kind)
        return code != 30 and event.player in self.latest and self.latest[event.player] == request

    def is_taken(self, event, code):
        return not self.is_resend(event, code) and (code == 0 or 10 <= code <= 15 or code in (43, 44))

    def last_number(self, event):
        """Of the player's latest taken event; 0 before the first."""
        return self.latest[event.player][0] if event.player in self.latest else 0

    def is_in_line(self, event):
        """Order 4, by boot number and counter: under the same boot number the next counter, under a greater one counter 1; and as the
        number is one of 64 bits, counter 4,294,967,295 is followed by counter 0 of the next boot number. Before its first event a
        player stands at 0 of boot number 0."""
        (boot, counter), (last_boot, last_counter) = (divmod(each, 4_294_967_296) for each in (event.number, self.last_number(event)))
        if boot == last_boot:
            return counter == last_counter + 1
        if boot < last_boot:
            return False
        return counter == 1 or (counter == 0 and last_counter == 4_294_967_295 and boot == last_boot + 1)

    def of_entry(self, entry):
        return [u for u in self.uses if u.entry == entry]

    def open_use(self, player, T):
        for use in self.uses:
            if use.player == player and use.open_at(T):
                return use
        return None

    def spent_count(self, entry):
        return len(self.of_entry(entry))

    def spent_timed(self, entry, T):
        timer = self.entries[entry].timer
        return sum(1 for u in self.of_entry(entry) if u.open_at(T) or u.until - u.begin >= timer)

    def spent_seconds(self, entry):
        return sum(u.until - u.begin for u in self.of_entry(entry))

    def interval_start(self, entry):
        return min((u.begin for u in self.of_entry(entry)), default=None)

    def has_nothing(self, entry):
        """Order 2: an entry with a flagged count, timed count, interval or accumulated of 0 is spent, whatever was used."""
        limits = self.entries[entry]
        return (limits.flags & 1 and limits.count == 0 or limits.flags & 2 and limits.timed == 0
                or limits.flags & 16 and limits.interval == 0 or limits.flags & 32 and limits.accumulated == 0)

    def is_spent(self, entry, T):
        limits = self.entries[entry]
        start = self.interval_start(entry)
        return (self.has_nothing(entry)
                or (limits.flags & 1 and self.spent_count(entry) >= limits.count)
                or (limits.flags & 2 and self.spent_timed(entry, T) >= limits.timed)
                or (limits.flags & 16 and start is not None and T >= start + limits.interval)
                or (limits.flags & 32 and self.spent_seconds(entry) >= limits.accumulated))

    def out_of_dates(self, entry, T):
        limits = self.entries[entry]
        return (limits.flags & 4 and T < limits.start) or (limits.flags & 8 and T > limits.end)

    def open_uses(self, entry, T):
        return [u for u in self.of_entry(entry) if u.open_at(T)]

    def is_full(self, entry, T):
        """Order 7: the entry has a threshold, and its open uses have reached it."""
        return 0 < self.entries[entry].threshold <= len(self.open_uses(entry, T))

    def is_switched_off(self, entry):
        """Order 3: with the switch off a tracked entry is grantable only with mark 1."""
        limits = self.entries[entry]
        return self.switch == 0 and limits.tracked == 1 and limits.mark == 0

    # -- the report (order 3): sums over ended uses of tracked entries, none with the switch off

    def recorded(self, content):
        return [u for u in self.uses if self.switch == 1 and self.entries[u.entry].tracked == 1
                and u.content == content and not u.open_at(self.T)]

    def times(self, content):
        return sum(1 for u in self.recorded(content) if u.until - u.begin >= self.entries[u.entry].timed_value)

    def seconds(self, content):
        return sum(u.until - u.begin for u in self.recorded(content))

    def report(self):
        """(content, times, seconds) for each asset, in the book's order."""
        return [(number, self.times(number), self.seconds(number)) for number in self.assets]

    def may_be_lent(self, lines):
        """Whether a list does not get 30."""
        if len(lines) < len(self.assets) or len(lines) > 64:
            return False
        for place, number in enumerate(self.assets):
            if lines[place][0] != number:
                return False
        return max((each for line in lines for each in line), default=0) < 4_611_686_018_427_387_904

    # -- the book's assets and entries, written separately

    def relation(self, entry, asset):
        """'own' or 'inherited' if the entry can serve the asset, otherwise None."""
        holder = self.entries[entry].asset
        if holder == asset:
            return "own"
        if holder != self.assets[asset].inherit or holder not in self.assets:
            return None
        above = self.assets[holder]
        return "inherited" if above.key == 0 and above.inherit == 0 else None

    def suitable(self, asset, kind):
        if asset not in self.assets or self.assets[asset].key != 1:
            return []
        return [p for p in range(len(self.entries)) if self.entries[p].kind == kind and self.relation(p, asset)]

    def moments(self, entry):
        """The seconds from which on the entry's end date and its interval allow nothing; of an interval that has not started, none."""
        limits, start = self.entries[entry], self.interval_start(entry)
        if limits.flags & 8:
            yield limits.end + 1
        if limits.flags & 16 and start is not None:
            yield start + limits.interval

    def is_over_earlier(self, a, b):
        """Order 6: whether the entry at a has the earlier last moment. Then one of its moments is before all of those at b; and any
        moment is before none."""
        return any(all(x < y for y in self.moments(b)) for x in self.moments(a))

    def comes_before(self, a, b, asset):
        """Whether the entry at position a goes before the one at b: no flags, earlier last moment, own before inherited, lower position,
        in turn."""
        x, y = self.entries[a], self.entries[b]
        if (x.flags == 0) != (y.flags == 0):
            return x.flags == 0
        if self.is_over_earlier(a, b) or self.is_over_earlier(b, a):
            return self.is_over_earlier(a, b)
        x_own, y_own = self.relation(a, asset) == "own", self.relation(b, asset) == "own"
        if x_own != y_own:
            return x_own
        return a < b

    def bounds(self, entry, t, old_until):
        """The times that an until may not pass; old_until is t for a begin."""
        limits = self.entries[entry]
        found = [t + 60]
        if limits.flags & 8:
            found.append(limits.end + 1)
        if limits.flags & 16:
            start = self.interval_start(entry)
            found.append((t if start is None else start) + limits.interval)
        if limits.flags & 32:
            found.append(old_until + limits.accumulated - self.spent_seconds(entry))
        return found

    # -- judging one answer by the ledger before it, then adding it to the ledger

    def judge(self, event, answer):
        code, entry, until = answer
        if code != 0:
            demand(entry == 255 and until == 0, "a refusal has 255 and 0 behind it")
        self.judge_request(event, code)
        if self.is_resend(event, code):
            demand(answer == self.answers[event.player], "a resend gets the answer of the event that it repeats")
            return
        self.judge_number(event, code)
        if not self.is_taken(event, code):
            return
        demand(self.is_in_line(event), "the number of a taken event is in line")
        demand(self.T <= event.time <= 4_000_000_000, "a taken event never goes back in time")
        if event.operation == 1:
            self.judge_begin(event, answer)
        else:
            self.judge_other(event, answer)

    def judge_request(self, event, code):
        """A begin has a kind; a continue, a stop and (order 8) a cancel have neither asset nor kind."""
        if event.operation == 1:
            good = event.kind in (1, 2, 3, 4, 5)
        else:
            good = (event.asset, event.kind) == (0, 0) and event.operation in (2, 3, 4)
        demand((code == 2) == (event.player > 15), "2 exactly when there is no such player")
        demand(code == 2 or (code == 1) == (not good), "1 exactly when operation, kind or asset are bad")

    def judge_number(self, event, code):
        """3, 4 and 5 say different things of the number and the time, so each is answered exactly when it is so."""
        used = event.number == self.last_number(event) != 0
        if code == 3:
            demand(not used and not self.is_in_line(event), "3 says that the number is out of line")
        if code == 4:
            demand(used, "4 says that the number was used, last")
        if code == 5:
            demand(self.is_in_line(event) and not self.T <= event.time <= 4_000_000_000, "5 says that the time is back or too late")

    def judge_begin(self, event, answer):
        code, entry, until = answer
        t = event.time
        suitable = self.suitable(event.asset, event.kind)
        reaches = (self.open_use(event.player, t) is None and event.asset in self.assets
                   and self.assets[event.asset].key == 1 and suitable != [])
        demand(reaches == (code not in (10, 11, 12)), "10, 11 and 12 exactly when the choice is not reached")
        if not reaches:
            return
        left = [p for p in suitable if not self.out_of_dates(p, t) and not self.is_spent(p, t) and not self.is_full(p, t)]
        able = [p for p in left if not self.is_switched_off(p)]
        demand((code in (13, 43)) == (able == []),
               "13 or 43 exactly when every suitable entry is out of its dates, spent, full or switched off")
        demand((code == 43) == (able == [] and left != []), "43 exactly when of these one is only switched off")
        if code in (13, 43):
            return
        demand(code == 0, "else the begin is granted")
        demand(entry in able, "the entry granted is suitable, in its dates, not spent, not full and not switched off")
        demand(all(self.comes_before(entry, p, event.asset) for p in able if p != entry), "the first entry is chosen")
        if self.entries[entry].kind >= 4:
            demand(until == t, "a momentary use ends where it begins")
        else:
            bounds = self.bounds(entry, t, t)
            demand(until in bounds and all(until <= b for b in bounds), "until is the least of its bounds")

    def judge_other(self, event, answer):
        code, entry, until = answer
        use = self.open_use(event.player, event.time)
        demand((code == 14) == (use is None), "14 exactly when nothing is open")
        if use is None:
            return
        if event.operation == 4:
            self.judge_cancel(event, answer, use)
            return
        demand(code != 44, "44 says that a begin cannot be taken back")
        if event.operation == 3:
            demand(answer == (0, use.entry, event.time), "a stop answers its entry and its time")
            return
        new = min(self.bounds(use.entry, event.time, use.until))
        demand(new >= use.until, "a continue never shortens")
        demand(answer == ((15, 255, 0) if new == use.until else (0, use.entry, new)), "a continue's answer")

    def judge_cancel(self, event, answer, use):
        """Order 8: it is granted exactly if nothing was taken, of anybody, since the begin that opened this use. If the last event taken
        was a granted begin of this player, it is that one: while something is open there is no other."""
        last, given = self.last
        opened = last.player == event.player and last.operation == 1 and given[0] == 0
        demand((answer[0] == 44) == (not opened), "44 exactly when something is open and its begin was not the last event taken")
        demand(not opened or answer == (0, use.entry, use.begin), "a cancel answers the entry and the begin of its use")

    def started_an_interval(self):
        """Order 8: whether the latest taken event opened a use that started its entry's interval: the entry has no use but that."""
        if self.last is None:
            return False
        event, (code, entry, _) = self.last
        return (event.operation == 1 and code == 0 and self.entries[entry].kind < 4 and self.entries[entry].flags & 16 != 0
                and self.spent_count(entry) == 1)

    def add(self, event, answer):
        code, entry, until = answer
        if not self.is_taken(event, code):
            return
        self.T = event.time
        self.latest[event.player] = (event.number, event.operation, event.asset, event.kind)
        self.answers[event.player] = answer
        self.last = (event, answer)
        if code != 0:
            return
        if event.operation == 1:
            self.uses.append(Use(entry, event.player, event.time, until, event.asset))
            return
        latest = [u for u in self.uses if u.player == event.player][-1]
        if event.operation == 4:
            self.uses.remove(latest)
        elif event.operation == 2:
            latest.until = until
        else:
            latest.until, latest.stopped = event.time, True

    def follow(self, event, answer, lent, left):
        """One event on, with the lines that it was lent and those that it left, each (content, times, seconds)."""
        demand((answer[0] == 30) == (not self.may_be_lent(lent)), "30 exactly when the list may not be lent")
        if answer[0] == 30:
            demand(left == lent, "30 leaves the lines")
            return
        before = self.report()
        self.judge(event, answer)
        self.add(event, answer)
        self.check_limits()
        gains = [(content, times - was[1], seconds - was[2]) for (content, times, seconds), was in zip(self.report(), before)]
        first = len(self.assets)
        demand(left[:first] == [(line[0], line[1] + gain[1], line[2] + gain[2]) for line, gain in zip(lent, gains)],
               "the first lines gain what the ledger's sums gain")
        demand(left[first:] == lent[first:], "any further line stays as it was")

    # -- the limits, after each event

    def check_limits(self):
        for p, limits in enumerate(self.entries):
            if limits.flags & 1:
                demand(self.spent_count(p) <= limits.count, "spent count within its limit")
            if limits.flags & 2:
                demand(self.spent_timed(p, self.T) <= limits.timed, "spent timed within its limit")
            if limits.flags & 32:
                demand(self.spent_seconds(p) <= limits.accumulated, "spent seconds within their limit")
            if limits.threshold:
                demand(len(self.open_uses(p, self.T)) <= limits.threshold, "no more open uses together than the threshold")
        for use in self.uses:
            self.check_dates(use)

    def check_dates(self, use):
        limits = self.entries[use.entry]
        first, last = use.begin, max(use.begin, use.until - 1)   # a momentary use has its begin there
        for second in (first, last):
            demand(not self.out_of_dates(use.entry, second), "every second lies in the entry's dates")
            if limits.flags & 16:
                start = self.interval_start(use.entry)
                demand(start <= second < start + limits.interval, "every second lies in the entry's interval")
