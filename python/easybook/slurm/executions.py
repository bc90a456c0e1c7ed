"""What a row of a dump tells of an execution of a job."""

from __future__ import annotations

import re
from collections import Counter
from typing import Dict, List, NamedTuple, Optional, Set, Tuple, Union

from ..errors import DumpFault
from .rows import Columns, Row
from .values import MEND, UNLIMITED, Clock, Fate, Unreadable, fate, length, limit, quoted

_JOB_ID = re.compile(r"(\d+)(_(?:\d+|\[[^\]]*\])|\+\d+)?", re.ASCII)
_NODE_LISTS_OF_NONE = ("None assigned", "None", "(null)")


class Execution(NamedTuple):
    """An execution, or a job that never started. Times are seconds since 1970; what is missing is None, sizes are -1.
    Where the run time may have suspension in it, since the dump tells neither, `was_suspended` is None. Where the dump
    doesn't tell that it never started, and it is taken so, `is_guessed`."""

    line: int
    number: Optional[int]
    label: str
    submit: int
    eligible: Optional[int]
    start: Optional[int]
    run: Optional[int]
    end: Optional[int]
    allocated: int
    requested: int
    limit: Union[int, str, None]
    fate: Fate
    user: int
    account: int
    partition: int
    qos: int
    was_suspended: Optional[bool]
    is_guessed: bool

    @property
    def is_over(self) -> bool:
        """Whether it has ended, or will never start."""
        return self.fate not in (Fate.PENDING, Fate.RUNNING)

    @property
    def is_array_task(self) -> bool:
        """Whether it is a task of an array of jobs."""
        return "_" in self.label and not self.is_waiting_tasks

    @property
    def is_waiting_tasks(self) -> bool:
        """Whether it stands for all tasks of an array that wait still, as `10_[3-100%2]` does."""
        return "_[" in self.label

    @property
    def is_part(self) -> bool:
        """Whether it is a part of a heterogeneous job."""
        return "+" in self.label


class Names:
    """Gives each name of a kind a number as it comes."""

    def __init__(self) -> None:
        self._numbers: Dict[str, int] = {}

    def number(self, name: str) -> int:
        """The number of a name; -1 for none."""
        return self._numbers.setdefault(name, len(self._numbers)) if name else -1

    def sorted(self, used: Set[int]) -> Tuple[List[str], Dict[int, int]]:
        """The names of these numbers in order, and the place in it, from 1, of each number; -1 keeps its own."""
        names = sorted(name for name, number in self._numbers.items() if number in used)
        places = {self._numbers[name]: place for place, name in enumerate(names, 1)}
        places[-1] = -1
        return names, places


class Reader:
    """Reads rows as executions, and counts what it decides."""

    def __init__(self, columns: Columns, clock: Clock, nodes: bool) -> None:
        self._clock = clock
        self.counts: "Counter[str]" = Counter()
        self.users, self.accounts, self.partitions, self.qos = Names(), Names(), Names(), Names()
        it = columns
        self._raw, self._id = it.first("JobIDRaw"), it.first("JobID")
        self._submit, self._eligible = it.need("Submit", "Eligible"), it.first("Eligible")
        self._start, self._end, self._state = it.need("Start"), it.first("End"), it.need("State")
        self._elapsed_raw, self._elapsed = it.first("ElapsedRaw"), it.first("Elapsed")
        if self._elapsed_raw is None and self._elapsed is None:
            it.need("ElapsedRaw", "Elapsed", "End")
        self._suspended = it.first("Suspended")
        self._minutes, self._limit = it.first("TimelimitRaw"), it.first("Timelimit")
        self._user, self._account = it.first("User", "UID"), it.first("Account")
        self._partition, self._qos, self._cluster = it.first("Partition"), it.first("QOS"), it.first("Cluster")
        self._alloc_nodes, self._node_list, self._tres = it.first("AllocNodes"), it.first("NodeList"), it.first("AllocTRES")
        self._alloc = it.first("AllocNodes", "NNodes") if nodes else it.first("AllocCPUS", "NCPUS")
        self._req = it.first("ReqNodes") if nodes else it.first("ReqCPUS")
        if self._alloc is None and self._req is None:
            it.need(*(("AllocNodes", "NNodes", "ReqNodes") if nodes else ("AllocCPUS", "NCPUS", "ReqCPUS")))
        self._one_cluster: Optional[str] = None

    @property
    def has_minutes(self) -> bool:
        """Whether the dump tells limits in minutes."""
        return self._minutes is not None

    def read(self, row: Row) -> Optional[Execution]:
        """The execution of a row; None for a step's."""
        try:
            return self._execution(row)
        except Unreadable as it:
            raise DumpFault(row.line, str(it)) from None

    def _execution(self, row: Row) -> Optional[Execution]:
        values = row.values
        label = values[self._id] if self._id is not None else values[self._raw or 0]
        raw = values[self._raw] if self._raw is not None else None
        # Slurm cuts off a long list of waiting tasks: 10_[1,3,5,...].
        if "." in label.partition("[")[0] or (raw is not None and "." in raw):
            self.counts["steps"] += 1
            return None
        self._check_cluster(row)
        is_what = fate(values[self._state])
        submit = self._clock.read(values[self._submit])
        eligible = None if self._eligible is None else self._clock.read(values[self._eligible])
        if submit is None:
            submit = eligible
        if submit is None:
            raise Unreadable("the job has no submit time: leave out the row, or dump it again")
        alloc, req = self._count(values, self._alloc), self._count(values, self._req)
        start = self._clock.read(values[self._start])
        end = None if self._end is None else self._clock.read(values[self._end])
        suspended = None if self._suspended is None else length(values[self._suspended])
        run, is_told = self._run(values, start, end, suspended)
        has_started, is_guessed = self._has_started(values, is_what, start, run, alloc)
        if not has_started:
            start = run = end = None
        return Execution(row.line, self._number(label, raw), label, submit, eligible, start, run, end, alloc, req,
                         self._limit_of(values), is_what, self._name(self.users, values, self._user),
                         self._name(self.accounts, values, self._account),
                         self._name(self.partitions, values, self._partition), self._name(self.qos, values, self._qos),
                         bool(suspended) if is_told else None, is_guessed)

    @staticmethod
    def _name(names: Names, values: List[str], place: Optional[int]) -> int:
        return -1 if place is None else names.number(values[place])

    def _check_cluster(self, row: Row) -> None:
        if self._cluster is None:
            return
        name = row.values[self._cluster]
        if self._one_cluster is None:
            self._one_cluster = name
        if name != self._one_cluster:
            raise Unreadable(f"it is of the cluster {quoted(name)}, those before of {quoted(self._one_cluster)}: "
                             "dump each cluster by itself (-M)")

    @staticmethod
    def _number(label: str, raw: Optional[str]) -> Optional[int]:
        """Slurm's own number of the job; None where the dump doesn't tell it."""
        match = _JOB_ID.fullmatch(label)
        if match is None:
            raise Unreadable(f"{quoted(label)} is no job: {MEND}")
        if raw is not None:
            if not (raw.isdigit() and raw.isascii() and len(raw) <= 12):
                raise Unreadable(f"JobIDRaw {quoted(raw)} is no job's number: {MEND}")
            return int(raw)
        return int(match.group(1)) if len(match.group(1)) <= 12 and match.group(2) in (None, "+0") else None

    @staticmethod
    def _count(values: List[str], place: Optional[int]) -> int:
        """A number of processors or nodes; -1 for none."""
        text = "" if place is None else values[place]
        if text in ("", "Unknown"):
            return -1
        if not (text.isdigit() and text.isascii() and len(text) <= 12):
            raise Unreadable(f"{quoted(text)} is no number of processors or nodes: dump with --noconvert, or mend the row")
        return int(text)

    def _run(self, values: List[str], start: Optional[int], end: Optional[int],
             suspended: Optional[int]) -> Tuple[Optional[int], bool]:
        """The seconds that it ran, without those in which it was suspended; and whether the dump tells of these, so that
        none are among them."""
        text = "" if self._elapsed_raw is None else values[self._elapsed_raw]
        if text:
            if not (text.isdigit() and text.isascii() and len(text) <= 12):
                raise Unreadable(f"ElapsedRaw {quoted(text)} is no number of seconds: {MEND}")
            return int(text), True
        if self._elapsed is not None and values[self._elapsed]:
            return length(values[self._elapsed]), True
        if start is None or end is None:
            return None, True
        return max(0, end - start - (suspended or 0)), suspended is not None

    def _has_started(self, values: List[str], is_what: Fate, start: Optional[int], run: Optional[int],
                     alloc: int) -> Tuple[bool, bool]:
        """Whether it ran, and whether that is guessed. A job that was cancelled while it waited has a start, and processors
        as requested."""
        if start is None or is_what is Fate.PENDING or alloc == 0:
            return False, False
        nodes, places, tres = self._alloc_nodes, self._node_list, self._tres
        if nodes is not None and values[nodes] == "0":
            return False, False
        if places is not None and values[places] in _NODE_LISTS_OF_NONE:
            return False, False
        if tres is not None and values[tres] == "":
            return False, False
        is_guessed = (nodes, places, tres) == (None, None, None) and is_what is Fate.CANCELLED and not run
        return not is_guessed, is_guessed

    def _limit_of(self, values: List[str]) -> Union[int, str, None]:
        if self._minutes is not None and values[self._minutes]:
            return limit(values[self._minutes], True)
        return None if self._limit is None else limit(values[self._limit], False)


def is_unlimited(execution: Execution) -> bool:
    """Whether it may run for ever."""
    return execution.limit == UNLIMITED
