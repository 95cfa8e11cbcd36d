"""Days of movements: numbers that the plant chooses. Six digits that are a date of this century, YYMMDD, are one."""
import re
from calendar import monthrange
from datetime import date, datetime, timedelta, timezone, tzinfo

DATE = re.compile(r"([0-9]{4})-([0-9]{2})-([0-9]{2})")
DATED_YEARS = range(2010, 2100)  # as YYMMDD an earlier day would have fewer digits
FIRST_DAY, LAST_DAY = 0, 9_999_999


def date_of(day: int) -> date | None:
    """The date that a day is; `None` if it is another number."""
    if not 100_000 <= day <= 999_999:
        return None
    try:
        return date(2000 + day // 10_000, day // 100 % 100, day % 100)
    except ValueError:
        return None


def day_of(when: date) -> int:
    """The day that stands for a date."""
    return int(f"{when:%y%m%d}")


def zone_of(name: str) -> tzinfo | None:
    """The time zone of a name; that of the machine, `None`, if it is empty."""
    from zoneinfo import ZoneInfo

    return ZoneInfo(name) if name else None


def now(zone: str = "") -> datetime:
    """The time that it is in a time zone; in that of the machine if none is named."""
    return datetime.now(zone_of(zone)).astimezone(zone_of(zone))


def today(zone: str = "") -> date:
    """The date that it is in a time zone; in that of the machine if none is named."""
    return now(zone).date()


def moment_in(text: str, zone: str = "") -> datetime:
    """The moment that a text is, such as 2026-11-27T01:02:03: of a time zone where it names none. Fails with ValueError
    or OverflowError if it is none."""
    time = datetime.fromisoformat(text)
    return (time if time.tzinfo or not zone else time.replace(tzinfo=zone_of(zone))).astimezone(timezone.utc)


def written(moment: datetime) -> str:
    """A moment in UTC, as the journal has it."""
    return moment.isoformat(timespec="milliseconds").replace("+00:00", "Z")


def format_moment(text: str, zone: str = "") -> str:
    """A moment of the journal as people read it, in a time zone; the text itself if it is none."""
    try:
        return f"{datetime.fromisoformat(text).astimezone(zone_of(zone)):%Y-%m-%d %H:%M:%S}"
    except (ValueError, OverflowError):
        return text[:19].replace("T", " ")


def format_day(day: int) -> str:
    """A day as people read it: a date if it is one, otherwise the number."""
    return str(date_of(day) or day)


def is_month(month: int) -> bool:
    """Whether a number is a month, written as YYMM, whose days are dates."""
    return date_of(month * 100 + 1) is not None


def days_of_month(month: int) -> tuple[int, int]:
    """The first and the last day of a month."""
    year, number = divmod(month, 100)
    return month * 100 + 1, month * 100 + monthrange(2000 + year, number)[1]


def format_month(month: int) -> str:
    """A month as people read it."""
    return f"{2000 + month // 100}-{month % 100:02}"


def last_day_within(days: int, zone: str = "") -> int:
    """The last of so many days from today."""
    return day_of(today(zone) + timedelta(days))


def date_in(text: str) -> date | None:
    """The date that a text is, such as 2026-11-27; `None` if it is none."""
    match = DATE.fullmatch(text)
    try:
        return date(*map(int, match.groups())) if match else None
    except ValueError:
        return None


def day_in(text: str) -> int | None:
    """The day that stands for a date, such as 2026-11-27; `None` if the text is none, or its year has no such days."""
    when = date_in(text)
    return day_of(when) if when and when.year in DATED_YEARS else None
