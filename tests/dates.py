#!/usr/bin/env python3
"""Every day from 1970-01-01 to 2096-10-02 read from an XML rights object, against Python's calendar.

    python3 tests/dates.py [PROGRAM]

A text for each month has an entry for each of its days, which starts with the day's first second and ends with its last. Day 0 and
the day after the last of each month are refused with 41. PROGRAM answers like tools/read_texts.c, which is built over the library
for C if no PROGRAM is given; one process reads all texts. The last line is `N passed, M failed`; the exit status is 1 if anything
failed.
"""

import sys
from calendar import monthrange, timegm
from pathlib import Path

ROOT = Path(__file__).resolve().parent.parent
sys.path.insert(0, str(ROOT / "oracle"))
import rights  # noqa: E402
import text_fuzz  # noqa: E402
import texts  # noqa: E402

LATEST = 4_000_000_000      # 2096-10-02T07:06:40Z
FIRST_SECOND, LAST_SECOND, LATEST_SECOND = "00:00:00", "23:59:59", "07:06:40"
SHOWN = 10                  # failures that are printed
passed = failed = 0


def check(name, got, wanted):
    global passed, failed
    if got == wanted:
        passed += 1
        return
    failed += 1
    if failed <= SHOWN:
        print(f"FAILED: {name}: {got}, not {wanted}"[:300], flush=True)


def days_of_months():
    """(year, month, number of its days), up to the last day on which a time can lie."""
    for year in range(1970, 2097):
        for month in range(1, 13):
            first = timegm((year, month, 1, 0, 0, 0))
            if first <= LATEST:
                yield year, month, min(monthrange(year, month)[1], (LATEST - first) // 86_400 + 1)


def dated(*spans):
    """A text with an entry for each pair of start and end, five in a permission."""
    kinds = [texts.kind(texts.dated(*span), name=texts.KINDS[place % 5]) for place, span in enumerate(spans)]
    return texts.agreed(texts.asset(), *(texts.el("permission", "".join(kinds[at:at + 5])) for at in range(0, len(kinds), 5)))


def spans_of(year, month, days):
    """For each day of a month its first and its last second: as they stand in a text, and as seconds since 1970-01-01."""
    for day in range(1, days + 1):
        midnight = timegm((year, month, day, 0, 0, 0))
        end, last = (LAST_SECOND, midnight + 86_399) if midnight + 86_399 <= LATEST else (LATEST_SECOND, LATEST)
        date = f"{year}-{month:02}-{day:02}T"
        yield (f"{date}{FIRST_SECOND}Z", f"{date}{end}Z"), (midnight, last)


def spans_in(answer):
    """The start and the end of each entry, or the code of a text that is not accepted; None where there is no answer."""
    if answer is None or answer[0] != 0:
        return answer and answer[0]
    return [(entry.start, entry.end) for entry in rights.read(answer[2])[1].entries]


def read_months(program):
    months = list(days_of_months())
    spans = [list(spans_of(*month)) for month in months]
    answers = program.answers([dated(*(times for times, _ in those)).encode() for those in spans])
    for (year, month, days), those, answer in zip(months, spans, answers):
        got, wanted = spans_in(answer), [seconds for _, seconds in those]
        name = f"the days of {year}-{month:02}"
        if isinstance(got, list) and len(got) == days and got != wanted:
            day = next(day for day in range(days) if got[day] != wanted[day])
            name, got, wanted = f"{year}-{month:02}-{day + 1:02}", got[day], wanted[day]
        check(name, got, wanted)
    print(f"{sum(days for _, _, days in months)} days in {len(months)} months")


def refused_days(program):
    dates = [(year, month, day) for year, month, days in days_of_months() for day in (0, days + 1)]
    dates += [(1969, 12, 31), (2096, 11, 1), (2096, 12, 31), (2097, 1, 1)]
    times = [f"{year}-{month:02}-{day:02}T{FIRST_SECOND}Z" for year, month, day in dates] + ["2096-10-02T07:06:41Z"]
    for time, answer in zip(times, program.answers([dated((time, None)).encode() for time in times])):
        check(time, answer and answer[0], 41)


def main():
    program = text_fuzz.Program(sys.argv[1] if len(sys.argv) > 1 else text_fuzz.built())
    read_months(program)
    refused_days(program)
    check("the end of the program that reads", program.close(), True)
    print(f"{passed} passed, {failed} failed")
    sys.exit(1 if failed else 0)


if __name__ == "__main__":
    main()
