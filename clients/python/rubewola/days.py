"""Days: the words that stand for one, and what `date:` of a query asks for.

A day is found by four words, SIGN and the digits of its decade, year, month and day: `201`,
`2010`, `201005`, `20100514`. One before RANGED is found by `0` too, one after it by `9`. An hour is
one more, of two digits: `23`.

A range is the fewest words of whole decades, years, months and days, joined by OR, so that each day
satisfies one of them and the query stays short. Of a day of which it has some hours it asks for
that day and one of these.
"""

from __future__ import annotations

from datetime import date, timedelta
from functools import lru_cache

from .words import SIGN

RANGED = (1970, 2099)  # The first and the last year that a range may name.
EARLIER, LATER = SIGN + "0", SIGN + "9"


@lru_cache(maxsize=4_096)
def day_words(year: int, month: int, day: int) -> tuple[str, ...]:
    """The words of a day."""
    digits = f"{year:04}{month:02}{day:02}"
    outer = (EARLIER,) if year < RANGED[0] else (LATER,) if year > RANGED[1] else ()
    return (*(SIGN + digits[:end] for end in (3, 4, 6, 8)), *outer)


class Hour(date):
    """A day with its `hour`; it equals its day."""

    hour: int

    @classmethod
    def of(cls, when: date, hour: int) -> Hour:
        """An hour of a day."""
        own = cls(when.year, when.month, when.day)
        own.hour = hour
        return own


@lru_cache(maxsize=256)
def _hour_words(hour: int | None) -> tuple[str, ...]:
    return () if hour is None else (f"{SIGN}{hour:02}",)


def words_of(when: date | None) -> tuple[str, ...]:
    """The words of a day, where there is one, and of its hour, if that is known."""
    if not when:
        return ()
    return (*day_words(when.year, when.month, when.day), *_hour_words(getattr(when, "hour", None)))


_ONE = timedelta(1)
MEANT = "a day is written 2010, 2010-05, 2010-05-14, today, yesterday, 7d or 2w"
HOURS = "an hour is written 2010-05-14T23, and 2010-05-14T14..15 are two; minutes are not known"
_LAST_HOUR = 23


def _ends(text: str, today: date) -> tuple[date, date]:
    """The first and the last day of what names a day, a month or a year."""
    ago = {"today": 0, "yesterday": 1}.get(text.lower())
    count, unit = text[:-1], text[-1:].lower()
    if unit in ("d", "w") and count.isdecimal() and len(count) <= 5:
        ago = int(count) * (7 if unit == "w" else 1)
    if ago is not None:
        return today - timedelta(ago), today - timedelta(ago)
    year, *rest = _parts(text)
    first = date(year, *rest, *[1] * (2 - len(rest)))
    if len(rest) == 2:
        return first, first
    if rest and first.month < 12:
        return first, date(year, first.month + 1, 1) - _ONE
    return first, date(year, 12, 31)


def _parts(text: str) -> list[int]:
    """A year of four digits, and a month and a day of one or two."""
    parts = text.split("-")
    if len(parts) > 3 or len(parts[0]) != 4 or not all(
            part.isdecimal() and len(part) <= most for part, most in zip(parts, (4, 2, 2))):
        raise ValueError(MEANT)
    return [int(part) for part in parts]


def _whole(day: date, end: date) -> tuple[str, date] | None:
    """The largest decade, year, month or day that begins with a day and ends by another, as its
    digits and its last day."""
    if (day.month, day.day, day.year % 10) == (1, 1, 0) and date(day.year + 9, 12, 31) <= end:
        return f"{day.year:04}"[:3], date(day.year + 9, 12, 31)
    for digits, text in ((4, f"{day:%Y}"), (6, f"{day:%Y-%m}"), (8, f"{day:%Y-%m-%d}")):
        first, last = _ends(text, day)
        if first == day and last <= end:
            return f"{day:%Y%m%d}"[:digits], last
    return None


def _between(begin: date, end: date) -> list[str]:
    """The words of the whole decades, years, months and days from one day to another."""
    found = []
    while begin <= end:
        digits, last = _whole(begin, end)
        found.append(SIGN + digits)
        begin = last + _ONE
    return found


def query(value: str, today: date) -> str:
    """The query of what stands behind `date:`; a ValueError tells what is wrong with it."""
    begin, dots, end = value.partition("..")
    (begin, first_hour), (end, last_hour) = _hour(begin), _hour(end)
    if not dots:
        return _single(begin, today) if first_hour is None else _hours(
            _day(begin, today), first_hour, first_hour)
    if first_hour is not None and end.isdecimal() and len(end) < 3:
        end, last_hour = begin, _checked(end)
    first = _ends(begin, today)[0] if begin else date(RANGED[0], 1, 1)
    last = _ends(end, today)[1] if end else date(RANGED[1], 12, 31)
    for text, hour in ((begin, first_hour), (end, last_hour)):
        if hour is not None:
            _day(text, today)
    if not begin and not end:
        raise ValueError(MEANT)
    if not RANGED[0] <= first.year <= RANGED[1] or not RANGED[0] <= last.year <= RANGED[1]:
        raise ValueError(f"a range has years from {RANGED[0]} to {RANGED[1]}; leave an end out, as "
                         "`..2010` or `2010..`, for all before or after it")
    hours = first_hour or 0, _LAST_HOUR if last_hour is None else last_hour
    if (first, hours[0]) > (last, hours[1]):
        raise ValueError("the begin of the range is behind its end")
    found = [*([] if begin else [EARLIER]), *_covered(first, last, *hours),
             *([] if end else [LATER])]
    return f"({' OR '.join(found)})"


def _hour(text: str) -> tuple[str, int | None]:
    """A day's text, and the hour behind it, if there is one."""
    day, sign, hour = text.rpartition("T")
    if sign and day and ":" in hour:
        raise ValueError(HOURS)
    if sign and day and hour.isdecimal():
        return day, _checked(hour)
    return text, None


def _checked(hour: str) -> int:
    if len(hour) > 2 or int(hour) > _LAST_HOUR:
        raise ValueError(HOURS)
    return int(hour)


def _day(text: str, today: date) -> date:
    """The day of which an hour is asked for."""
    first, last = _ends(text, today)
    if first != last:
        raise ValueError(HOURS)
    return first


def _hours(day: date, first: int, last: int) -> str:
    """What asks for some hours of a day."""
    words = " OR ".join(f"{SIGN}{hour:02}" for hour in range(first, last + 1))
    hours = words if first == last else f"({words})"
    return f"({SIGN}{day.year:04}{day.month:02}{day.day:02} {hours})"


def _covered(first: date, last: date, begin: int, end: int) -> list[str]:
    """What asks for all from an hour of one day to an hour of another."""
    if first == last and (begin, end) != (0, _LAST_HOUR):
        return [_hours(first, begin, end)]
    before, behind = [], []
    if begin:
        before, first = [_hours(first, begin, _LAST_HOUR)], first + _ONE
    if end < _LAST_HOUR:
        behind, last = [_hours(last, 0, end)], last - _ONE
    return [*before, *_between(first, last), *behind]


def _single(value: str, today: date) -> str:
    first, last = _ends(value, today)
    digits = 8 if first == last else 6 if first.month == last.month else 4
    return SIGN + f"{first.year:04}{first.month:02}{first.day:02}"[:digits]
