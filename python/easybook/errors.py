"""What can go wrong, as exceptions.

All of them are `EasybookError`. Each keeps its parts as attributes, says itself in one line, and can be pickled, so that
it comes back whole from another process or machine.

>>> LogFault(3, "BadNumber", 4)
LogFault(3, 'BadNumber', 4)
>>> print(LogFault(3, "BadNumber", 4))
line 3 of the log: BadNumber 4
>>> print(Behind(2, 1))
refused Behind seen 2 found 1
>>> refusal("NoSuchJob")
NoSuchJob()
"""

from __future__ import annotations

import re
from typing import Dict, Optional, Type


class EasybookError(Exception):
    """Anything that this module raises about a log, a dump, the program, or what it answered."""


class BadWord(EasybookError, ValueError):
    """A name or a number that no command of the program takes; nothing was sent."""


def shown(value: object) -> str:
    """A value that is no good, in short, on one line.

    >>> print(shown("a\\nb"))
    'a\\nb'
    """
    try:
        text = repr(value)
    except ValueError:
        return "a number of very many digits"
    return text if len(text) <= 80 else f"{text[:80]}.."


class LogFault(EasybookError):
    """The first faulty line of a log: its number from 1, the kind, and with `BadNumber` the field."""

    def __init__(self, line: int, kind: str, field: Optional[int] = None) -> None:
        super().__init__(line, kind, field)
        self.line = line
        self.kind = kind
        self.field = field

    def __str__(self) -> str:
        field = "" if self.field is None else f" {self.field}"
        return f"line {self.line} of the log: {self.kind}{field}"


class DumpFault(EasybookError):
    """A line of an accounting dump that can't be taken, and what to do about it."""

    def __init__(self, line: int, reason: str) -> None:
        super().__init__(line, reason)
        self.line = line
        self.reason = reason

    def __str__(self) -> str:
        return f"line {self.line} of the dump: {self.reason}"


class ScriptFault(EasybookError):
    """A line of a script that spells no command: its number from 1, the kind, and with `BadWord` the place."""

    def __init__(self, line: int, kind: str, place: Optional[int] = None) -> None:
        super().__init__(line, kind, place)
        self.line = line
        self.kind = kind
        self.place = place

    def __str__(self) -> str:
        place = "" if self.place is None else f" {self.place}"
        return f"line {self.line} of the script: {self.kind}{place}"


class Ended(EasybookError):
    """The program ended before its answer: its exit status (negative: the signal), and what it said last."""

    def __init__(self, status: int, line: str) -> None:
        super().__init__(status, line)
        self.status = status
        self.line = line

    def __str__(self) -> str:
        return f"the program ended with status {self.status}: {self.line or 'it said nothing'}"


class NoProgram(EasybookError):
    """The program easybook was not found, or could not be started."""


class Refused(EasybookError):
    """A command that the program refused; the class is named as the refusal."""

    def __str__(self) -> str:
        return f"refused {type(self).__name__}"


class NoSuchJob(Refused):
    """The log has no job of this number."""


class DuplicateJob(Refused):
    """The log has a job of this number."""


class BadField(Refused):
    """The field is 0, 1 or over 18."""


class BadValue(Refused):
    """A submit time would be negative, or a status 2, 3 or 4."""


class TableFull(Refused):
    """The log has 4,194,304 jobs."""


class NameTaken(Refused):
    """There is a scenario of this name."""


class TooMany(Refused):
    """There are 64 scenarios."""


class NoSuchScenario(Refused):
    """There is no scenario of this name."""


class NotYet(Refused):
    """The scenario has no run to show."""


class Behind(Refused):
    """The scenario shows version `found`, and the session has seen version `seen`."""

    def __init__(self, seen: int, found: int) -> None:
        super().__init__(seen, found)
        self.seen = seen
        self.found = found

    def __str__(self) -> str:
        return f"refused Behind seen {self.seen} found {self.found}"


class Memory(Refused):
    """The system gave the program no more memory."""


class JournalFull(Refused):
    """A million calls were noted."""


_BARE: Dict[str, Type[Refused]] = {
    it.__name__: it
    for it in (NoSuchJob, DuplicateJob, BadField, BadValue, TableFull, NameTaken, TooMany, NoSuchScenario, NotYet, Memory,
               JournalFull)
}


def refusal(words: str) -> Refused:
    """The exception of what stands behind `refused` in an answer."""
    match = re.fullmatch(r"Behind seen (\d+) found (\d+)", words, re.ASCII)
    if match is not None:
        return Behind(int(match.group(1)), int(match.group(2)))
    return _BARE[words]() if words in _BARE else Refused(words)


def fault(words: str) -> Optional[LogFault]:
    """The log's fault of what stands behind `line` on the program's standard error; None where it is of another form.

    >>> fault("7 FieldCount")
    LogFault(7, 'FieldCount', None)
    """
    match = re.fullmatch(r"(\d+) ([A-Za-z]+)(?: (\d+))?", words, re.ASCII)
    if match is None:
        return None
    line, kind, field = match.groups()
    return LogFault(int(line), kind, None if field is None else int(field))
