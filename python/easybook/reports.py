"""The program's reports as named tuples, every number exact.

Seconds and counts are `int`. Slowdowns (thousandths) and utilizations (thousandths of a percent) are `Decimal`, with
just the digits that the program writes.
"""

from __future__ import annotations

from decimal import Decimal
from typing import Callable, Iterator, List, NamedTuple, Optional, TypeVar, Union

from .errors import EasybookError, ScriptFault, fault, refusal


class UnknownAnswer(EasybookError):
    """The program answered something that this module doesn't know: the two are of different versions."""

    def __str__(self) -> str:
        return f"the program answered {self.args[0]!r}, which this module doesn't know"


class Start(NamedTuple):
    """A job of a schedule: when it starts and ends, its processors, and whether it is killed at its estimate."""

    number: int
    submit: int
    start: int
    end: int
    processors: int
    killed: bool

    @property
    def wait(self) -> int:
        """The seconds from its submission to its start."""
        return self.start - self.submit


class User(NamedTuple):
    """What one user's jobs come to."""

    user: int
    jobs: int
    mean_wait: int
    mean_slowdown: Decimal
    busy: int


class Day(NamedTuple):
    """How busy the machine is on a day: in processor-seconds, and in percent."""

    day: int
    busy: int
    utilization: Decimal


class Table(NamedTuple):
    """Sums and means over all jobs."""

    jobs: int
    killed: int
    skipped_size: int
    skipped_run: int
    skipped_large: int
    skipped_long: int
    mean_wait: int
    greatest_wait: int
    mean_length: int
    mean_slowdown: Decimal
    busy: int
    span: int
    utilization: Decimal

    @property
    def skipped(self) -> int:
        """The entries of the log that were not simulated."""
        return self.skipped_size + self.skipped_run + self.skipped_large + self.skipped_long


class Side(NamedTuple):
    """A scenario's line among those side by side; utilization is in percent."""

    name: str
    version: int
    jobs: int
    mean_wait: int
    mean_slowdown: Decimal
    utilization: Decimal


class Missing(NamedTuple):
    """A scenario without numbers among those side by side, and why: `not yet` or `behind`."""

    name: str
    why: str


class Entry(NamedTuple):
    """A job of the log as a scenario takes it, and whether it is killed at its estimate. One that isn't simulated has
    its number and the reason alone: `NoSize`, `NoRun`, `TooLarge` or `TooLong`."""

    number: int
    submit: Optional[int] = None
    processors: Optional[int] = None
    estimate: Optional[int] = None
    length: Optional[int] = None
    user: Optional[int] = None
    killed: Optional[bool] = None
    skipped: Optional[str] = None


Row = TypeVar("Row")


def _percent(word: str) -> Decimal:
    if not word.endswith("%"):
        raise UnknownAnswer(word)
    return Decimal(word[:-1])


class Answers:
    """Reads a program's answers line by line, in the order of the commands."""

    def __init__(self, lines: Iterator[str], ended: Callable[[], EasybookError]) -> None:
        """`ended` tells why there is no further line."""
        self._lines = lines
        self._ended = ended

    def line(self) -> str:
        """The next line as it stands."""
        line = next(self._lines, None)
        if line is None or not line.endswith("\n"):
            raise self._ended()
        return line[:-1]

    def words(self, *begins: str) -> List[str]:
        """The words of the next line, behind those that it must begin with. A refusal or a fault is raised."""
        line = self.line()
        words = line.split()
        if words[:1] == ["refused"]:
            raise refusal(" ".join(words[1:]))
        if words[:2] == ["fault", "line"]:
            found = fault(line[len("fault line ") :])
            raise UnknownAnswer(line) if found is None else ScriptFault(*found.args)
        if words[: len(begins)] != list(begins):
            raise UnknownAnswer(" ".join(words))
        return words[len(begins) :]

    def settled(self) -> int:
        """The version of `settled S`; -1 where some scenario could not be settled."""
        words = self.words()
        if len(words) == 2 and words[0] == "settled" and words[1].isdigit():
            return int(words[1])
        if words[:1] in (["failed"], ["stopped"]):
            return -1
        raise UnknownAnswer(" ".join(words))

    def version(self) -> int:
        """The number of `version N`."""
        return self._count("version")

    def _count(self, *begins: str) -> int:
        """The number at the end of a report's first line."""
        words = self.words(*begins)
        if not words or not words[-1].isdigit():
            raise UnknownAnswer(" ".join((*begins, *words)))
        return int(words[-1])

    def _rows(self, count: int, row: Callable[[List[str]], Row]) -> List[Row]:
        return [self._row(row) for _ in range(count)]

    def _row(self, row: Callable[[List[str]], Row]) -> Row:
        line = self.line()
        try:
            return row(line.split())
        except (ValueError, LookupError, ArithmeticError):
            raise UnknownAnswer(line) from None

    def schedule(self, name: str) -> List[Start]:
        """The report `schedule`."""
        count = self._count("schedule", name, "version")

        def row(it: List[str]) -> Start:
            number, submit, start, end, procs = map(int, it[:5])
            return Start(number, submit, start, end, procs, {"ok": False, "kill": True}[it[5]])

        return self._rows(count, row)

    def table(self, name: str) -> Table:
        """The report `table`."""
        self.words("table", name, "version")
        jobs, killed = self._row(lambda it: (int(it[1]), int(it[3])))
        size, run, large, long = self._row(lambda it: (int(it[2]), int(it[4]), int(it[6]), int(it[8])))
        mean_wait, greatest_wait = self._row(lambda it: (int(it[2]), int(it[4])))
        length = self._row(lambda it: int(it[2]))
        slowdown = self._row(lambda it: Decimal(it[2]))
        busy, span = self._row(lambda it: (int(it[1]), int(it[3])))
        used = self._row(lambda it: _percent(it[1]))
        return Table(jobs, killed, size, run, large, long, mean_wait, greatest_wait, length, slowdown, busy, span, used)

    def users(self, name: str) -> List[User]:
        """The report `users`."""
        count = self._count("users", name, "version")
        return self._rows(count, lambda it: User(int(it[0]), int(it[1]), int(it[2]), Decimal(it[3]), int(it[4])))

    def days(self, name: str) -> List[Day]:
        """The report `days`."""
        count = self._count("days", name, "version")
        return self._rows(count, lambda it: Day(int(it[0]), int(it[1]), _percent(it[2])))

    def side(self) -> List[Union[Side, Missing]]:
        """The report `side`."""
        return self._rows(self._count("side", "scenarios"), _side)

    def log(self, name: str) -> List[Entry]:
        """The report `log`."""
        return self._rows(self._count("log", name, "version"), _entry)

    def save(self) -> bytes:
        """What `save` writes behind its first line."""
        lines = [self.line() for _ in range(self._count("save"))]
        return "".join([f"{it}\n" for it in lines]).encode("ascii", "surrogateescape")


def _side(it: List[str]) -> Union[Side, Missing]:
    if it[1:] in (["not", "yet"], ["behind"]):
        return Missing(it[0], " ".join(it[1:]))
    return Side(it[0], int(it[1]), int(it[2]), int(it[3]), Decimal(it[4]), _percent(it[5]))


def _entry(it: List[str]) -> Entry:
    if it[1] == "skipped":
        return Entry(int(it[0]), skipped=it[2])
    number, submit, procs, estimate, length, user = map(int, it[:6])
    return Entry(number, submit, procs, estimate, length, user, {"ok": False, "kill": True}[it[6]])
