"""Simulates a log under one scenario, or under several side by side."""

from __future__ import annotations

import contextlib
import operator
import os
import re
from decimal import Decimal
from typing import Dict, Iterable, List, NamedTuple, Optional, Sequence, SupportsIndex, Tuple

from . import program as _program
from . import swf
from .errors import BadWord, Behind, Ended, Memory, NotYet, shown
from .reports import Answers, Day, Start, Table, User
from .swf import Path

MOST_PROCESSORS = 16_777_216
MOST_FACTOR = 100_000
MOST_SPACING = 65_536
MOST_SCENARIOS = 64
ORDERS = ("arrival", "shortest")
_NAME = re.compile(r"[a-z0-9_-]{1,16}", re.ASCII)


class Scenario(NamedTuple):
    """What a log is simulated under: processors (None: those of the log's own machine), a factor on estimates in
    thousandths, the order of backfills, and a name (None: made of these).

    >>> Scenario(1024, factor=500).named(1024)
    Scenario(procs=1024, factor=500, order='arrival', name='1024-500')
    """

    procs: Optional[int] = None
    factor: int = 1000
    order: str = "arrival"
    name: Optional[str] = None

    def check(self) -> "Scenario":
        """The scenario with its numbers as `int`. Raises `BadWord` where the program would not take it."""
        procs = None if self.procs is None else whole_number(self.procs, "processors", MOST_PROCESSORS)
        factor = whole_number(self.factor, "a factor in thousandths", MOST_FACTOR)
        if self.order not in ORDERS:
            raise BadWord(f"an order is arrival or shortest, not {shown(self.order)}")
        if self.name is not None:
            check_name(self.name)
        return self._replace(procs=procs, factor=factor)

    def named(self, procs: int) -> "Scenario":
        """The scenario on a log whose own machine has these processors, with a name."""
        own = self._replace(procs=procs if self.procs is None else self.procs)
        return own._replace(name=own.label)

    @property
    def label(self) -> str:
        """The name, or one made of the rest."""
        short = "s" if self.order == "shortest" else ""
        return self.name or f"{'own' if self.procs is None else self.procs}-{self.factor}{short}"


def check_name(name: object) -> None:
    """Raises `BadWord` where this is no name of a scenario."""
    if not (isinstance(name, str) and _NAME.fullmatch(name)):
        raise BadWord(f"a name is 1 to 16 of a to z, 0 to 9, - and _, not {shown(name)}")


def whole_number(value: SupportsIndex, what: str, most: Optional[int] = None, least: int = 1) -> int:
    """A whole number from the least to the most, if there is one, as an `int`. Raises `BadWord` where it is none.

    >>> whole_number(7, "threads")
    7
    """
    with contextlib.suppress(TypeError):
        number = int(operator.index(value))
        if not isinstance(value, bool) and least <= number and (most is None or number <= most):
            return number
    raise BadWord(f"{what}: a whole number from {least} {'on' if most is None else f'to {most}'}, not {shown(value)}")


class Opening(NamedTuple):
    """What a log's comments say of scenarios: the names of its own, and the processors of the first or of its labels."""

    names: Tuple[str, ...]
    procs: Optional[int]


_SCENARIO = re.compile(
    r";[ \t]*Scenario:[ \t]*([^ \t]+)[ \t]+([0-9]{1,18})[ \t]+([0-9]{1,18})(?:[ \t]+(arrival|shortest))?[ \t]*", re.ASCII)


def opening(comments: List[str]) -> Opening:
    """The scenarios that the program opens a log with.

    >>> opening(["; Scenario: a 10 500", "; MaxProcs: 64"])
    Opening(names=('a',), procs=10)
    >>> opening(["; MaxProcs: 64"])
    Opening(names=(), procs=64)
    """
    own: Dict[str, int] = {}
    for comment in comments:
        match = _SCENARIO.fullmatch(comment)
        if match is None or not _NAME.fullmatch(match.group(1)) or len(own) == MOST_SCENARIOS:
            continue
        name, procs, factor = match.group(1), int(match.group(2)), int(match.group(3))
        if 1 <= procs <= MOST_PROCESSORS and 1 <= factor <= MOST_FACTOR and name not in own:
            own[name] = procs
    if own:
        return Opening(tuple(own), next(iter(own.values())))
    return Opening((), swf.machine(comments))


class Run(NamedTuple):
    """A log simulated under a scenario."""

    scenario: Scenario
    schedule: List[Start]
    table: Table
    users: List[User]
    days: List[Day]


class Row(NamedTuple):
    """A log's numbers under a scenario; the slowdown in thousandths' digits, utilization in percent. `killed` are the jobs
    that were ended at their estimates, `skipped` the entries of the log that were not simulated."""

    log: str
    scenario: str
    procs: int
    factor: int
    order: str
    jobs: int
    mean_wait: int
    mean_slowdown: Decimal
    utilization: Decimal
    killed: int
    skipped: int


class Failure(NamedTuple):
    """A scenario of a log that gave no row, and why."""

    log: str
    scenario: Scenario
    error: Exception

    def __str__(self) -> str:
        return f"{self.log}, scenario {self.scenario.label}: {self.error}"


class _Opened(NamedTuple):
    """A log whose comments were read, and the scenarios asked of it, each with a name."""

    own: Opening
    scenarios: List[Scenario]

    @property
    def procs(self) -> Optional[int]:
        """What the program is told of the machine, so that it opens a log that names none."""
        return None if self.own.names else self.scenarios[0].procs

    def pairs(self) -> List[Tuple[str, Scenario]]:
        """The scenarios, each with its name in the program, which is our own, so that any two may be of one label."""
        return [(f"s{place}", it) for place, it in enumerate(self.scenarios)]

    def script(self, commands: Iterable[str]) -> bytes:
        """A script that puts these scenarios in the place of the log's own, and goes on with commands."""
        lines = [f"drop {name}" for name in self.own.names or ("base",)]
        lines += [f"scenario {name} {it.procs} {it.factor} {it.order}" for name, it in self.pairs()]
        return "".join(f"{line}\n" for line in (*lines, *commands)).encode("ascii")

    def begin(self, told: Answers) -> None:
        """Reads the answers of the script's first part."""
        for name in self.own.names or ("base",):
            told.words("scenario", name, "dropped")
        for name, _ in self.pairs():
            told.words("scenario", name, "added")


def _open(path: str, scenarios: Sequence[Scenario], program: Optional[Path]) -> _Opened:
    asked = [it.check() for it in scenarios]
    own = opening(swf.comments_of(path))
    if not 1 <= (own.procs or 0) <= MOST_PROCESSORS and any(it.procs is None for it in asked):
        # The program itself says whether the log is faulty, or just names no machine or a bad one.
        with _program.answers(path, b"", program=program):
            pass
        raise Ended(1, "no machine size")
    return _Opened(own, [it.named(own.procs or 0).check() for it in asked])


def simulate(log: Path, procs: Optional[int] = None, factor: int = 1000, order: str = "arrival", *,
             spacing: Optional[int] = None, program: Optional[Path] = None) -> Run:
    """The schedule and the tables of a log under one scenario; without `procs` on the log's own machine.

    Raises `LogFault`, `BadWord`, `Memory`, `Ended`, `NoProgram`, and what opening the file raises.
    """
    spacing = None if spacing is None else whole_number(spacing, "a spacing", MOST_SPACING)
    with _program.as_file(log) as path:
        it = _open(path, [Scenario(procs, factor, order)], program)
        name, scenario = it.pairs()[0]
        script = it.script(["settle", f"table {name}", f"users {name}", f"days {name}", f"schedule {name}"])
        with _program.answers(path, script, it.procs, spacing, program) as told:
            it.begin(told)
            if told.settled() < 0:
                raise Memory()
            table, users, days = told.table(name), told.users(name), told.days(name)
            return Run(scenario, told.schedule(name), table, users, days)


def _table(told: Answers, name: str) -> Optional[Table]:
    """The table of a scenario; None where it has no run, or none that is shown, for want of memory."""
    try:
        return told.table(name)
    except (NotYet, Behind, Memory):
        return None


def _row(log: str, asked: Scenario, table: Table) -> Row:
    return Row(log, asked.label, asked.procs or 0, asked.factor, asked.order, table.jobs, table.mean_wait,
               table.mean_slowdown, table.utilization, table.killed, table.skipped)


def side(log: Path, scenarios: Sequence[Scenario], program: Optional[Path] = None,
         stopper: Optional[_program.Stopper] = None,
         copy: Optional[str] = None) -> Tuple[List[Row], List[Failure], List[Table]]:
    """The rows of at most 64 scenarios of one log, by one program; those whose runs found no memory; and the tables that
    the rows are of. The log is read from the copy, if there is one."""
    name = os.fspath(log)
    with _program.as_file(copy or log) as path:
        it = _open(path, scenarios, program)
        script = it.script(["settle", *(f"table {asked}" for asked, _ in it.pairs())])
        with _program.answers(path, script, it.procs, None, program, stopper) as told:
            it.begin(told)
            told.settled()
            answered = [(asked, _table(told, own)) for own, asked in it.pairs()]
    tables = [(asked, table) for asked, table in answered if table is not None]
    return ([_row(name, asked, table) for asked, table in tables],
            [Failure(name, asked, Memory()) for asked, table in answered if table is None], [table for _, table in tables])
