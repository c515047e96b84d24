"""Readers of XML texts with one planted fault each: every one must give at least one stored text another answer, or the stored
texts are too weak. `selftest.py` calls `check`.

A fault is a name in xml_rights.py (a constant, a function, or a method of Reader or Open) and what takes its place: a value, or a
function that is given the real one.
"""

import copy
from contextlib import contextmanager

import rights
import texts
import xml_rights
from ledger import demand
from xml_rights import CLOSING, EMPTY, Refused

FAULTS = []


def fault(place):
    """The function below takes the place of this one and is given it first."""
    def planted(function):
        FAULTS.append((function.__name__, place, function))
        return function
    return planted


def value(name, place, wrong):
    FAULTS.append((name, place, lambda real: wrong))


value("depth 13 accepted", "DEPTH", 13)
value("depth 12 refused", "DEPTH", 11)
value("257 elements accepted", "ELEMENTS", 257)
value("256 elements refused", "ELEMENTS", 255)
value("65 assets and entries accepted", "MOST", 65)
value("64 assets and entries refused", "MOST", 63)
value("timer 1,000,001 accepted", "GREATEST_TIMER", 1_000_001)
value("count 1,000,000 refused", "GREATEST_COUNT", 999_999)
value("count 1,000,001 accepted", "GREATEST_COUNT", 1_000_001)
value("a limit of 0 refused", "LEAST_LIMIT", 1)
value("number 65,536 accepted", "GREATEST_NUMBER", 65_536)
value("duration 100,000,001 accepted", "GREATEST_DURATION", 100_000_001)
value("the last second refused", "LATEST", rights.LATEST - 1)
value("the second after the last accepted", "LATEST", rights.LATEST + 1)
value("cid only", "NUMBERED", (b"cid:",))
value("a no-break space taken as white space", "SPACE", b" \t\n\r\xa0")


@fault("Reader.take")
def value_judged_before_the_closing_name(real):
    def take(self, before, form, name, attributes):
        opened = self.open[-1].name if form == CLOSING else name
        real(self, before, form, opened, attributes)
        if opened != name:
            raise Refused(40)
    return take


@fault("Reader.take")
def over_256_before_the_closing_half_of_a_tag(real):
    def take(self, before, form, name, attributes):
        if form == EMPTY and self.elements == xml_rights.ELEMENTS:
            raise Refused(42)
        real(self, before, form, name, attributes)
    return take


@fault("Reader.add_entries")
def over_64_before_the_rules(real):
    def add_entries(self):
        more = self.references or self.book.assets
        return True if len(self.book.entries) + len(more) > rights.MOST else real(self)
    return add_entries


@fault("Reader.add_asset")
def over_64_before_a_number_twice(real):
    return lambda self: True if len(self.book.assets) == rights.MOST else real(self)


@fault("stuck")
def a_mark_later_in_the_tag_wins(real):
    def stuck(text, at, wanted):
        return Refused(41) if b"&" in text[at:at + 20] else real(text, at, wanted)
    return stuck


@fault("stuck")
def marks_are_not_well_formed(real):
    return lambda text, at, wanted: Refused(41 if text[at:at + 1] == b"&" else 40)


@fault("stuck")
def a_zero_byte_gets_41(real):
    return lambda text, at, wanted: Refused(41) if text[at:at + 1] == b"\0" else real(text, at, wanted)


@fault("attribute")
def attributes_twice_accepted(real):
    def attribute(text, at, attributes):
        fresh = {}
        end = real(text, at, fresh)
        attributes.update(fresh)
        return end
    return attribute


@fault("Reader.take_attributes")
def ids_twice_accepted(real):
    def take_attributes(self, shape, attributes):
        kept = {name: each for name, each in attributes.items() if name != b"o-ex:id" or each not in self.ids}
        real(self, shape, kept)
    return take_attributes


@fault("Reader.take_attributes")
def idref_of_an_open_asset_accepted(real):
    def take_attributes(self, shape, attributes):
        if self.asset_id is not None and self.ids.get(self.asset_id) is None:
            self.ids[self.asset_id] = 1
        real(self, shape, attributes)
    return take_attributes


@fault("Reader.take_attributes")
def unprefixed_attributes_read(real):
    def take_attributes(self, shape, attributes):
        real(self, shape, {b"o-ex:id" if name == b"id" else name: each for name, each in attributes.items()})
    return take_attributes


@fault("Reader.take_attributes")
def idref_judged_on_references_only(real):
    def take_attributes(self, shape, attributes):
        kept = {name: each for name, each in attributes.items() if name != b"o-ex:idref" or shape == "reference"}
        real(self, shape, kept)
    return take_attributes


@fault("Reader.add_entries")
def references_ignored(real):
    def add_entries(self):
        self.references = []
        return real(self)
    return add_entries


@fault("Reader.add_entries")
def references_once_each(real):
    def add_entries(self):
        self.references = list(dict.fromkeys(self.references))
        return real(self)
    return add_entries


@fault("Reader.add_entries")
def entries_in_the_order_of_numbers(real):
    def add_entries(self):
        before = len(self.book.entries)
        over = real(self)
        self.book.entries[before:] = sorted(self.book.entries[before:], key=lambda entry: entry.asset)
        return over
    return add_entries


@fault("Reader.add_entries")
def start_after_end_accepted(real):
    def add_entries(self):
        entry = self.entry
        if entry.flags & 12 == 12 and entry.start > entry.end:
            self.entry = copy.copy(entry)
            self.entry.start = self.entry.end
        return real(self)
    return add_entries


@fault("Reader.begin")
def references_stay_for_the_next_permission(real):
    def begin(self, before, name, attributes):
        kept = self.references
        over = real(self, before, name, attributes)
        if name == b"o-ex:permission":
            self.references = kept
        return over
    return begin


@fault("Reader.begin")
def limits_stay_for_the_next_kind(real):
    def begin(self, before, name, attributes):
        kept = self.entry
        over = real(self, before, name, attributes)
        if self.entry is not kept and kept is not None:
            self.entry.count, self.entry.flags = kept.count, kept.flags & 1
        return over
    return begin


@fault("Reader.begin")
def key_info_not_counted(real):
    def begin(self, before, name, attributes):
        over = real(self, before, name, attributes)
        if self.open[-1].shape == "skipped":
            self.elements -= 1
        return over
    return begin


@fault("Reader.begin")
def ids_in_key_info_read(real):
    def begin(self, before, name, attributes):
        over = real(self, before, name, attributes)
        if self.open[-1].shape == "skipped":
            self.take_attributes("skipped", attributes)
        return over
    return begin


@fault("Reader.add_asset")
def a_number_twice_accepted(real):
    def add_asset(self):
        self.book.assets = [asset for asset in self.book.assets if asset.number != self.asset.number]
        return real(self)
    return add_asset


@fault("Open.child")
def order_of_children_ignored(real):
    def child(self, name):
        self.slot, self.taken = 0, 0
        return real(self, name)
    return child


@fault("Open.is_complete")
def missing_children_ignored(real):
    return lambda self: True


@fault("is_white")
def text_between_elements_ignored(real):
    return lambda text: True


@fault("number_in")
def white_space_trimmed(real):
    return lambda text, least, greatest: real(text.strip(), least, greatest)


@fault("number_in")
def number_wraps_at_32_bits(real):
    def number_in(text, least, greatest):
        return real(str(int(text) % 2 ** 32).encode() if text.isdigit() else text, least, greatest)
    return number_in


@fault("days_before")
def the_year_2000_without_a_leap_day(real):
    def days_before(year, month, day):
        if (year, month, day) == (2000, 2, 29):
            raise Refused(41)
        return real(year, month, day) - ((year, month) > (2000, 2))
    return days_before


@fault("days_before")
def every_year_a_leap_year(real):
    def days_before(year, month, day):
        return real(year, 2, 28) + 1 if (month, day) == (2, 29) else real(year, month, day)
    return days_before


@fault("duration_in")
def a_t_without_hours_minutes_and_seconds(real):
    return lambda text: real(text[:-1] if text[-1:] == b"T" else text)


def refuses_0(limit):
    """The reader that refuses this limit where it is 0, as before order 2."""
    def reader(real):
        def take_text(self, shape, text):
            real(self, shape, text)
            if shape == limit and 0 == {"count": self.entry.count, "timed-count": self.entry.timed, "interval": self.entry.interval,
                                        "accumulated": self.entry.accumulated}[shape]:
                raise Refused(41)
        return take_text
    FAULTS.append((f"{limit} 0 refused", "Reader.take_text", reader))


for each in ("count", "timed-count", "interval", "accumulated"):
    refuses_0(each)


@fault("Reader.add_entries")
def a_limit_of_0_is_no_limit(real):
    def add_entries(self):
        entry = copy.copy(self.entry)
        for flag, name in ((1, "count"), (2, "timed"), (16, "interval"), (32, "accumulated")):
            if getattr(entry, name) == 0:
                entry.flags &= ~flag
        self.entry = entry
        return real(self)
    return add_entries


@fault("Reader.add_entries")
def an_entry_with_a_limit_of_0_is_left_out(real):
    return lambda self: "" if self.entry.has_limit_of_zero() else real(self)


@fault("duration_in")
def a_duration_of_0_in_one_part_only(real):
    def duration_in(text):
        seconds = real(text)
        if seconds == 0 and text not in (b"PT0S", b"P0D", b"PT0H", b"PT0M"):
            raise Refused(41)
        return seconds
    return duration_in


@fault("number_in")
def one_zero_only(real):
    def number_in(text, least, greatest):
        if text[:2] == b"00" and real(text, least, greatest) == 0:
            raise Refused(41)
        return real(text, least, greatest)
    return number_in


@fault("number_in")
def every_number_may_be_0(real):
    return lambda text, least, greatest: real(text, 0, greatest)


@fault("Reader.take_attributes")
def the_timer_judged_at_the_closing_tag_of_its_kind(real):
    def take_attributes(self, shape, attributes):
        if shape == "timed-count" and attributes.get(b"oma-dd:timer", b"0").isdigit():
            self.entry.timer = int(attributes.get(b"oma-dd:timer", b"0"))
            attributes = {name: each for name, each in attributes.items() if name != b"oma-dd:timer"}
            real(self, "count", attributes)
        else:
            real(self, shape, attributes)
    return take_attributes


@fault("within")
def ranges_judged_at_the_closing_tag_of_their_kind(real):
    return lambda number, least, greatest: number


@fault("Reader.take_text")
def the_time_0_is_no_limit(real):
    def take_text(self, shape, text):
        if text == b"1970-01-01T00:00:00Z":
            return
        real(self, shape, text)
    return take_text


@fault("Reader.__init__")
def metering_is_on(real):
    def made(self):
        real(self)
        self.book.switch = 1
    return made


@fault("Reader.__init__")
def player_0_was_taken_last(real):
    def made(self):
        real(self)
        self.book.latest_player = 1
    return made


@fault("Reader.add_entries")
def entries_are_tracked(real):
    def add_entries(self):
        self.entry.tracked = 1
        return real(self)
    return add_entries


@fault("Reader.add_entries")
def prints_are_tracked(real):
    def add_entries(self):
        self.entry.tracked = int(self.entry.is_momentary())
        return real(self)
    return add_entries


@fault("Reader.add_entries")
def entries_have_a_threshold(real):
    def add_entries(self):
        self.entry.threshold = 16
        return real(self)
    return add_entries


@fault("Reader.take_text")
def version_not_judged(real):
    return lambda self, shape, text: None if shape == "version" else real(self, shape, text)


@contextmanager
def planted(place, function):
    *owner, name = place.split(".")
    owner = getattr(xml_rights, owner[0]) if owner else xml_rights
    real = getattr(owner, name)
    setattr(owner, name, function(real))
    try:
        yield
    finally:
        setattr(owner, name, real)


def first_difference():
    """The name of the first stored text with an answer that is not the one written for it, or None."""
    for name, text, code, elements, book in texts.cases():
        if xml_rights.read(text) != (code, elements, book):
            return name
    return None


def check():
    """Returns how many stored texts there are, and how many faults."""
    demand(first_difference() is None, f"the stored text {first_difference()}")
    for name, place, function in FAULTS:
        with planted(place, function):
            demand(first_difference() is not None, f"the reader's fault '{name}' is caught")
    return len(texts.cases()), len(FAULTS)
