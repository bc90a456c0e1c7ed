"""A conversation with the program: edits, scenarios and reports of one log, each answered before the next is asked.

>>> with open("examples/four-jobs.swf", procs=10) as log:
...     log.scenario("big", procs=16)
...     print("settled", log.settle())
...     for row in log.side():
...         print(row.name, row.mean_wait, row.utilization)
...     print("version", log.change(2, field=8, value=4))
...     try:
...         log.table("base")
...     except Refused as it:
...         print(it)
...     print("settled", log.settle())
...     print([(it.number, it.start, it.end) for it in log.schedule("base")])
settled 0
base 47 39.864
big 12 29.324
version 1
refused Behind seen 1 found 0
settled 1
[(1, 0, 100), (2, 1, 51), (3, 51, 141), (4, 100, 600)]
"""

from __future__ import annotations

import builtins
import contextlib
import operator
import threading
from decimal import Decimal
from types import TracebackType
from typing import Callable, List, NoReturn, Optional, SupportsIndex, Type, TypeVar, Union

from . import swf
from .errors import BadWord, Ended, Memory, Refused, ScriptFault, shown
from .program import Live, as_file
from .reports import Answers, Day, Entry, Missing, Side, Start, Table, User
from .runs import MOST_PROCESSORS, MOST_SPACING, Scenario, check_name, whole_number
from .swf import Job, Number, Path

T = TypeVar("T")

_MOST_FIELD = 255


def _whole(value: SupportsIndex, what: str, most: int) -> str:
    """The digits of a whole number from 0 to the most."""
    return str(whole_number(value, what, most, 0))


def _number(value: Union[SupportsIndex, Decimal]) -> str:
    """The spelling of a number of the log, its digits past the sixth decimal cut.

    >>> _number(Decimal("7.50")), _number(-1), _number(Decimal("-1e-9"))
    ('7.5', '-1', '0')
    """
    exact: Optional[Number] = None
    if isinstance(value, Decimal):
        if value.is_finite() and (not value or value.adjusted() < -6):
            exact = 0
        elif value.is_finite() and value.adjusted() <= 12:  # a greater one would be long to spell
            exact = value
    elif not isinstance(value, bool):
        with contextlib.suppress(TypeError):
            whole = int(operator.index(value))
            exact = whole if abs(whole) <= swf.GREATEST_NUMBER else None
    if exact is not None and swf.number(swf.spelling(exact).encode("ascii")) is not None:
        return swf.spelling(exact)
    raise BadWord(f"a number is an int or a Decimal, of at most {swf.GREATEST_NUMBER} in size, not {shown(value)}")


def _line(job: Job) -> str:
    """The words of a job that is inserted."""
    if not isinstance(job, Job):
        raise BadWord(f"a job is an easybook.Job, not {shown(job)}")
    words = [_whole(job.number, "a job number", swf.GREATEST_NUMBER), *map(_number, job[1:])]
    if words[1].startswith("-"):
        raise BadWord(f"a submit time isn't negative, as {words[1]} is")
    if words[10] in map(str, swf.PARTIAL):
        raise BadWord(f"a job of status {words[10]} is a part of another and can't be inserted")
    return " ".join(words)


def _checked(name: str) -> str:
    check_name(name)
    return name


class Conversation:
    """A log in a program of its own, which waits for commands; `easybook.open` begins it. The log's file stays as it is.

    A command that the program refuses raises its kind of `Refused` and leaves all as it was; one that it would not take
    raises `BadWord` before anything is sent. Where the program has ended, `Ended` or `LogFault` is raised. Whatever else
    raises while an answer is read, such as an interrupt, ends the program; an interrupt between two commands doesn't.
    Several threads may ask; each command waits for the answer of the one before.
    """

    def __init__(self, log: Path, procs: Optional[int] = None, *, spacing: Optional[int] = None,
                 program: Optional[Path] = None) -> None:
        procs = None if procs is None else whole_number(procs, "processors", MOST_PROCESSORS)
        spacing = None if spacing is None else whole_number(spacing, "a spacing", MOST_SPACING)
        self._lock = threading.Lock()
        self._over: Optional[Ended] = None
        with as_file(log) as path:
            self._live = Live(path, procs, spacing, program)
            try:
                self.version()
            except Ended as it:
                if it.line == "read failed":
                    with builtins.open(path, "rb"):  # this says why
                        pass
                raise

    def __enter__(self) -> "Conversation":
        return self

    def __exit__(self, kind: Optional[Type[BaseException]], error: Optional[BaseException],
                 trace: Optional[TracebackType]) -> None:
        if error is None:
            self.close()
            return
        self._live.kill()
        with self._lock:
            self._end("it was ended")

    def _end(self, why: str) -> None:
        """Ends the program, if it hasn't ended; what is asked later is told why."""
        self._live.end()
        if self._over is None:
            self._over = Ended(self._live.status, why)

    def _failed(self, error: BaseException) -> NoReturn:
        """Ends the program behind an error in the midst of its answer."""
        self._end(error.line if isinstance(error, Ended) else f"{type(error).__name__} cut off an answer")
        raise error

    def _ask(self, command: str, read: Callable[[Answers], T]) -> T:
        """Sends a command, and reads its answer to the end."""
        with self._lock:
            if self._over is not None:
                raise Ended(*self._over.args)
            try:
                self._live.send(command)
                return read(self._live.answers)
            except (Refused, ScriptFault):
                raise  # an answer that was read to its end
            except BaseException as it:
                self._failed(it)

    def _done(self, command: str, name: str, done: str) -> None:
        self._ask(command, lambda told: told.words("scenario", name, done))

    def insert(self, job: Job) -> int:
        """Adds a job, with all its fields; the version that this makes."""
        return self._ask(f"insert {_line(job)}", Answers.version)

    def remove(self, job: int) -> int:
        """Removes the job of a number, with its partial lines; the version that this makes."""
        return self._ask(f"remove {_whole(job, 'a job number', swf.GREATEST_NUMBER)}", Answers.version)

    def change(self, job: int, field: int, value: Number) -> int:
        """Gives a field of a job, 2 to 18, another value; the version that this makes."""
        words = (_whole(job, "a job number", swf.GREATEST_NUMBER), _whole(field, "a field", _MOST_FIELD), _number(value))
        return self._ask(f"change {' '.join(words)}", Answers.version)

    def scenario(self, name: str, procs: int, factor: int = 1000, order: str = "arrival") -> None:
        """Adds a scenario: a machine, a factor on estimates in thousandths, and the order of backfills."""
        it = Scenario(whole_number(procs, "processors", MOST_PROCESSORS), factor, order, _checked(name)).check()
        self._done(f"scenario {name} {it.procs} {it.factor} {order}", name, "added")

    def drop(self, name: str) -> None:
        """Takes a scenario away."""
        self._done(f"drop {_checked(name)}", name, "dropped")

    def retry(self, name: str) -> None:
        """Lets `settle` try a scenario again that found no memory."""
        self._done(f"retry {_checked(name)}", name, "retried")

    def settle(self) -> int:
        """Simulates each scenario that doesn't show the present version, and gives this version. Raises `Memory` where
        a run found none; `side` tells which."""

        def read(told: Answers) -> int:
            version = told.settled()
            if version < 0:
                raise Memory()
            return version

        return self._ask("settle", read)

    def schedule(self, name: str) -> List[Start]:
        """When each job starts and ends under a scenario, as it was settled."""
        return self._ask(f"schedule {_checked(name)}", lambda told: told.schedule(name))

    def table(self, name: str) -> Table:
        """Sums and means over all jobs."""
        return self._ask(f"table {_checked(name)}", lambda told: told.table(name))

    def users(self, name: str) -> List[User]:
        """The same for each user."""
        return self._ask(f"users {_checked(name)}", lambda told: told.users(name))

    def days(self, name: str) -> List[Day]:
        """How busy the machine is on each day."""
        return self._ask(f"days {_checked(name)}", lambda told: told.days(name))

    def side(self) -> List[Union[Side, Missing]]:
        """All scenarios side by side; `Missing` is one that doesn't show the present version."""
        return self._ask("side", Answers.side)

    def log(self, name: str) -> List[Entry]:
        """The jobs of the present log as a scenario takes them."""
        return self._ask(f"log {_checked(name)}", lambda told: told.log(name))

    def save(self) -> bytes:
        """The text of the present log, with its scenarios; `easybook.parse` reads it."""
        return self._ask("save", Answers.save)

    def version(self) -> int:
        """The present version: 0 for the log that was opened, one more behind each edit."""
        return self._ask("version", Answers.version)

    def close(self) -> None:
        """Has the program quit, once it has answered what was asked. Raises where it doesn't end well, or has ended
        before and nobody was told."""
        with self._lock:
            if self._over is None:
                try:
                    self._live.quit()
                except BaseException as it:
                    self._failed(it)
                self._end("it was closed")


def open(log: Path, procs: Optional[int] = None, *, spacing: Optional[int] = None,
         program: Optional[Path] = None) -> Conversation:
    """Begins a conversation about a log in a file (`.gz`: it is unpacked), to be closed, or held in a `with`.

    `procs` are the processors of the scenario `base`, where the log names no scenario; without it those that the log's
    labels tell. Raises `LogFault`, `BadWord`, `Ended`, `NoProgram`, and what opening the file raises.
    """
    return Conversation(log, procs, spacing=spacing, program=program)
