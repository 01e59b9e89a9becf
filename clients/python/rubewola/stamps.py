"""Stamps: how a mail, a line or an entry tells its day.

It is apart from `days` for the sake of a fast start: a search for days needs no patterns.
"""

from __future__ import annotations

import datetime
import re
from contextlib import suppress
from datetime import date, timedelta, timezone
from email import utils
from functools import lru_cache

from .days import Hour

_NO_HOUR = 24
_LOOKED_AT = 512  # Characters of a line, and of a mail's Date, in which a stamp is looked for.
_MONTHS = "Jan Feb Mar Apr May Jun Jul Aug Sep Oct Nov Dec".split()
_MONTH = f"(?P<month>{'|'.join(_MONTHS)})"
_HOUR = r"(?P<hour>\d\d)"
_ISO = r"(?P<year>\d{4})([-/.])(?P<number>\d\d)\2(?P<day>\d\d)"
# What may begin a line, and last what may stand near its begin, as in the logs of web servers.
_STAMPS = [re.compile(stamp) for stamp in (
    rf"\W{{0,2}}{_ISO}(?!\d)(?:[T _]{_HOUR}:\d\d)?",
    rf"\W?(?:\w{{3}},? )?{_MONTH}\s+(?P<day>\d\d?) {_HOUR}:\d\d:\d\d(?:\.\d+)? (?P<year>\d{{4}})\b",
    rf"\W{{0,2}}(?:<\d+>)?{_MONTH}\s+(?P<day>\d\d?) {_HOUR}:\d\d",
    r"\W?(?P<seconds>\d{10})(?:\d{3})?(?:\.\d+)?(?=[\s,;:\]\"]|\Z)",
    rf"\W?(?P<year>\d{{4}})(?P<number>\d\d)(?P<day>\d\d)[T ]{_HOUR}\d\d",
    r"type=\w+ msg=audit\((?P<seconds>\d{10})\.",
    rf".{{0,200}}?\[(?P<day>\d\d)/{_MONTH}/(?P<year>\d{{4}}):{_HOUR}",
    rf".{{0,60}}?(?<!\d){_ISO}[T ]{_HOUR}:\d\d",
)]


@lru_cache(maxsize=4_096)
def _before(month: int, day: int, last: date) -> date | None:
    """The last such day up to one behind `last`: a stamp without a year."""
    for year in range(last.year, last.year - 8, -1):
        with suppress(ValueError):
            when = date(year, month, day)
            if when <= last + timedelta(1):
                return when
    return None


def of_line(line: str, written: date) -> date | None:
    """The day of the stamp that begins a line. One without a year is the last such day up to that
    on which the line's file was written."""
    line = line[:_LOOKED_AT]
    for stamp in _STAMPS:
        if (found := stamp.match(line)) and (day := _day(stamp, found.groups(), written)):
            return day
    return None


@lru_cache(maxsize=4_096)
def _day(stamp: re.Pattern[str], parts: tuple[str, ...], written: date) -> date | None:
    """The day of what a stamp has, in the order of its groups, if it is one; with its hour, if it
    has one."""
    told = {name: parts[at - 1] for name, at in stamp.groupindex.items()}
    with suppress(ValueError, OverflowError):
        when, hour = _told_day(told, written), int(told.get("hour") or _NO_HOUR)
        return Hour.of(when, hour) if hour < _NO_HOUR else when
    return None


def _told_day(told: dict[str, str], written: date) -> date | None:
    """The day that a stamp's parts tell; an error where they are those of none."""
    if told.get("seconds"):
        return _of_seconds(int(told["seconds"]))
    month = int(told.get("number") or _MONTHS.index(told["month"]) + 1)
    if told.get("year"):
        return date(int(told["year"]), month, int(told["day"]))
    return _before(month, int(told["day"]), written)


def of_value(value: object) -> date | None:
    """The day of a stamp as programs write it: a text, or seconds since 1970 or parts of them."""
    with suppress(ValueError, OverflowError, TypeError):
        if isinstance(value, str) and not (value := value[:_LOOKED_AT].strip()).isdigit():
            return of_line(value, date.today())
        seconds = float(value)
        for _ in range(3):  # It may be told in thousandths, of thousandths, of thousandths.
            seconds = seconds / 1_000 if seconds > 1e11 else seconds
        if 1e8 < seconds <= 1e11:
            return _of_seconds(seconds)
    return None


def _of_seconds(seconds: float) -> Hour:
    """The day and the hour, in UTC, of seconds since 1970."""
    when = datetime.datetime.fromtimestamp(seconds, timezone.utc)
    return Hour.of(when, when.hour)


def _of_iso(text: str) -> datetime.datetime:
    text = re.sub(r"\s*(?:Z|UTC|GMT)\Z", "+00:00", text)
    return datetime.datetime.fromisoformat(re.sub(r"[.,]\d+", "", text))


def _of_clock(text: str) -> datetime.datetime:
    return datetime.datetime(*utils.parsedate(text)[:6])


def of_date(text: str) -> datetime.datetime | None:
    """The sender's day and time of a mail's Date, however it is spelled: as the standard has it,
    with a leap second, as in ISO 8601, without a zone or with one that is none."""
    text = re.sub(r"(:\d\d):6[0-9]\b", r"\1:59", text[:_LOOKED_AT].strip())
    for read in (utils.parsedate_to_datetime, _of_iso, _of_clock):
        with suppress(TypeError, ValueError, IndexError, OverflowError):
            return read(text)
    return None
