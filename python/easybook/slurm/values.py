"""The values of a dump: times, durations, limits and states."""

from __future__ import annotations

import enum
import re
from datetime import datetime, timedelta, timezone, tzinfo
from typing import Dict, List, Optional, Tuple, Union
from zoneinfo import ZoneInfo, ZoneInfoNotFoundError, available_timezones

UNLIMITED = "UNLIMITED"
A_DAY = 86_400

_MISSING = frozenset(("", "None", "Unknown", "N/A", "0", "INVALID"))
_TIME = re.compile(r"(\d{4}-\d\d-\d\d)[T ](\d\d:\d\d:\d\d)(Z|[+-]\d\d:?\d\d)?", re.ASCII)
_OFFSET = re.compile(r"([+-])(\d\d):?(\d\d)", re.ASCII)
_LENGTH = re.compile(r"(?:(\d{1,7})-)?(?:(\d{1,7}):)?(\d{1,7}):(\d{1,7})(?:\.\d+)?", re.ASCII)
_EPOCH = datetime(1970, 1, 1)
_OF_HOUR = {f"{it // 60:02}:{it % 60:02}": it for it in range(3600)}
_MOST_HOURS = 100_000
_MOST_DAYS = 36_525
_LATEST = 200_000_000_000
MEND = "mend or leave out the row"
_A_ZONE = "give one such as Europe/Paris, UTC or +01:00"
_NO_ZONES = "Python finds no zones here: install tzdata, or give an offset such as +01:00"


class Unreadable(ValueError):
    """A value that is of no form that Slurm writes; its text says what it should be."""


def quoted(text: str) -> str:
    """A value as an error tells it: in one line of ASCII, and no longer than a reader likes.

    >>> quoted("a\\nb")
    "'a\\\\nb'"
    """
    shown = ascii(text)
    return shown if len(shown) <= 80 else f"{shown[:77]}.."


def whole(delta: timedelta) -> int:
    """The seconds of a difference of times, which has no fractions here."""
    return delta.days * A_DAY + delta.seconds


def _offset(text: str, advice: str) -> timezone:
    match = _OFFSET.fullmatch(text)
    if match is None:
        return timezone.utc
    minutes = int(match.group(2)) * 60 + int(match.group(3))
    if minutes >= 24 * 60:
        raise Unreadable(f"no zone is {quoted(text)} from UTC: {advice}")
    return timezone(timedelta(minutes=-minutes if match.group(1) == "-" else minutes))


def zone(name: str) -> tzinfo:
    """The zone of a name such as Europe/Paris, UTC, or +01:00.

    >>> zone("-0500")
    datetime.timezone(datetime.timedelta(days=-1, seconds=68400))
    """
    if name == "UTC" or _OFFSET.fullmatch(name):
        return _offset(name, _A_ZONE)
    try:
        return ZoneInfo(name)
    except (ZoneInfoNotFoundError, ValueError, OSError):
        if not available_timezones():
            raise Unreadable(_NO_ZONES) from None
        raise Unreadable(f"no zone is known by the name {quoted(name)}: {_A_ZONE}") from None


class Clock:
    """Reads times as seconds since 1970, and counts those that a clock's change makes doubtful."""

    def __init__(self, local: Optional[tzinfo]) -> None:
        self._local = local
        self.without_zone = 0
        self.folded = 0
        self.skipped = 0
        self._hours: Dict[str, int] = {}

    def read(self, text: str) -> Optional[int]:
        """The seconds of a time; None where it is missing."""
        if text in _MISSING:
            return None
        # Nearly all times are of an hour that was seen before.
        begin, rest = self._hours.get(text[:14]), _OF_HOUR.get(text[14:])
        if begin is not None and rest is not None:
            self.without_zone += self._local is None
            return begin + rest
        seconds = int(text) if text.isdigit() and text.isascii() and len(text) <= 12 else self._read(text)
        if not 0 <= seconds <= _LATEST:
            raise Unreadable(f"{quoted(text)} is no time of a cluster: {MEND}")
        return seconds

    def _read(self, text: str) -> int:
        """The seconds of a time of the calendar."""
        match = _TIME.fullmatch(text)
        if match is None:
            raise Unreadable(f"{quoted(text)} is no time: dump with SLURM_TIME_FORMAT=%s, or unset it")
        try:
            there = datetime.fromisoformat(f"{match.group(1)}T{match.group(2)}")
        except ValueError:
            raise Unreadable(f"{quoted(text)} is no time of the calendar: {MEND}") from None
        if match.group(3):
            return whole(there - _EPOCH) - whole(_offset(match.group(3), MEND).utcoffset(None))
        if not 1970 <= there.year < 9000:
            return -1
        return self._in_zone(there)

    def _in_zone(self, there: datetime) -> int:
        seconds = whole(there - _EPOCH)
        if self._local is None:
            self.without_zone += 1
            self._keep(there, seconds)
            return seconds
        first, second = self._offsets(there, self._local)
        self.folded += first > second
        self.skipped += first < second
        ends = (there.replace(minute=0, second=0), there.replace(minute=59, second=59))
        if all(it == (first, first) for end in ends for it in [self._offsets(end, self._local)]):
            self._keep(there, seconds - first)
        return seconds - first

    @staticmethod
    def _offsets(there: datetime, local: tzinfo) -> Tuple[int, int]:
        """The seconds of a local time from UTC, as its first and as its second passing."""
        first, second = local.utcoffset(there), local.utcoffset(there.replace(fold=1))
        assert first is not None and second is not None
        return whole(first), whole(second)

    def _keep(self, there: datetime, seconds: int) -> None:
        """Keeps when the hour of a time begins, one whose clock doesn't change."""
        if len(self._hours) == _MOST_HOURS:
            self._hours.clear()
        self._hours[there.isoformat()[:14]] = seconds - there.minute * 60 - there.second

    def midnight(self, seconds: int) -> int:
        """The last midnight of the zone that is not after a time."""
        day = self._there(seconds).replace(hour=0, minute=0, second=0, microsecond=0, fold=0)
        offset = day.utcoffset()
        assert offset is not None
        return whole(day.replace(tzinfo=None) - _EPOCH) - whole(offset)

    def changes(self, begin: int, end: int) -> List[Tuple[str, str]]:
        """The dates at which the zone's clock changes from one second to another, at most a hundred years apart, each
        with the time at which the next of the days of 86,400 seconds from the first second on begins."""
        found: List[Tuple[str, str]] = []
        for day in range(begin, min(end, begin + _MOST_DAYS * A_DAY), A_DAY):
            before, first, last = self._there(day).utcoffset(), day, day + A_DAY
            if before == self._there(last).utcoffset():
                continue
            while last - first > 1:
                middle = (first + last) // 2
                first, last = (middle, last) if self._there(middle).utcoffset() == before else (first, middle)
            if last <= end:
                found.append((self.date(last), f"{self._there(day + A_DAY):%H:%M}"))
        return found

    def date(self, seconds: int) -> str:
        """The zone's date at a time."""
        return f"{self._there(seconds):%Y-%m-%d}"

    def _there(self, seconds: int) -> datetime:
        """What the zone's calendar and clock show."""
        return datetime.fromtimestamp(seconds, self._local or timezone.utc)


def length(text: str) -> Optional[int]:
    """The seconds of [D-][H:]M:S, as sacct writes lengths of time, fractions cut; None where it is missing.

    >>> length("2-01:00:05"), length("00:07"), length("")
    (176405, 7, None)
    """
    if text in _MISSING:
        return None
    match = _LENGTH.fullmatch(text)
    if match is None:
        raise Unreadable(f"{quoted(text)} is no length of time such as 1-02:03:04: {MEND}")
    days, hours, minutes, seconds = (int(it or 0) for it in match.groups())
    return ((days * 24 + hours) * 60 + minutes) * 60 + seconds


def limit(text: str, is_minutes: bool) -> Union[int, str, None]:
    """The seconds of a time limit, UNLIMITED, or None where the job has none of its own.

    >>> limit("3", True), limit("2-00:00:00", False), limit("00:00:00", False), limit("Partition_Limit", False)
    (180, 172800, 'UNLIMITED', None)
    """
    if text.upper() in (UNLIMITED, "INFINITE") or text == "0":
        return UNLIMITED
    if text in _MISSING or text.lower() == "partition_limit":
        return None
    if not is_minutes:
        return length(text) or UNLIMITED
    if not (text.isdigit() and text.isascii() and len(text) <= 10):
        raise Unreadable(f"{quoted(text)} is no limit in minutes: {MEND}")
    return int(text) * 60 or UNLIMITED


_DURATION = re.compile(
    (r"(?P<m>N)|(?P<m2>N):(?P<s2>N)|(?:(?P<d3>N)-)?(?P<h3>N):(?P<m3>N):(?P<s3>N)|"
     r"(?P<d4>N)-(?P<h4>N)(?::(?P<m4>N))?").replace("N", r"\d{1,7}"), re.ASCII)


def duration(text: str) -> int:
    """The seconds of a limit as `sbatch -t` takes it: M, M:S, H:M:S, D-H, D-H:M or D-H:M:S.

    >>> duration("90"), duration("1:30"), duration("1-12"), duration("2-00:00:01")
    (5400, 90, 129600, 172801)
    """
    match = _DURATION.fullmatch(text)
    if match is None:
        raise Unreadable(f"{quoted(text)} is no time limit: give minutes, H:M:S or D-H:M:S")
    unit = {"d": A_DAY, "h": 3600, "m": 60, "s": 1}
    return sum(unit[name[0]] * int(digits) for name, digits in match.groupdict().items() if digits)


class Fate(enum.Enum):
    """What a state says of a job: its status in a log is the value."""

    COMPLETED = 1
    FAILED = 0
    CANCELLED = 5
    RUNNING = -1
    PENDING = -2


_STATES: Dict[Fate, Tuple[str, ...]] = {
    Fate.COMPLETED: ("COMPLETED", "CD"),
    Fate.FAILED: ("FAILED", "F", "TIMEOUT", "TO", "NODE_FAIL", "NF", "OUT_OF_MEMORY", "OOM", "BOOT_FAIL", "BF",
                  "LAUNCH_FAILED", "LF", "RECONFIG_FAIL", "RF", "PREEMPTED", "PR", "REQUEUED", "RQ", "RESIZING", "RS",
                  "SPECIAL_EXIT", "SE"),
    Fate.CANCELLED: ("CANCELLED", "CA", "DEADLINE", "DL", "REVOKED", "RV"),
    Fate.RUNNING: ("RUNNING", "R", "SUSPENDED", "S", "COMPLETING", "CG", "STOPPED", "ST", "SIGNALING", "SI", "STAGE_OUT",
                   "SO", "POWER_UP_NODE", "PU", "UPDATE_DB", "UD"),
    Fate.PENDING: ("PENDING", "PD", "CONFIGURING", "CF", "REQUEUE_HOLD", "RH", "REQUEUE_FED", "RESV_DEL_HOLD", "RD"),
}
_FATE_OF = {name: fate for fate, names in _STATES.items() for name in names}


def fate(state: str) -> Fate:
    """What a state says; `CANCELLED by 1000` is CANCELLED.

    >>> fate("CANCELLED by 1000"), fate("PD")
    (<Fate.CANCELLED: 5>, <Fate.PENDING: -2>)
    """
    name = state.split(" ", 1)[0].rstrip("+")
    if name not in _FATE_OF:
        raise Unreadable(f"the state {quoted(state)} is not known: if it is one of Slurm's, tell easybook's makers; otherwise "
                         f"{MEND}")
    return _FATE_OF[name]
