"""Makes a log of a dump, and says what was decided."""

from __future__ import annotations

from collections import Counter
from datetime import tzinfo
from typing import BinaryIO, Dict, FrozenSet, Hashable, List, NamedTuple, Optional, Set, Tuple

from ..errors import BadWord, DumpFault
from ..runs import MOST_PROCESSORS
from ..swf import MISSING, MOST_JOBS, Job, job_text
from .executions import Execution, Reader, is_unlimited
from .notes import Early, Facts, decided, warned
from .numbers import Numbered, identity, number_all
from .rows import Dump
from .values import A_DAY, Clock, Fate

A_YEAR = 365 * 86_400
GREATEST_ESTIMATE = 100_000_000


class Options(NamedTuple):
    """How a dump is taken.

    `procs`: the machine's processors, or its nodes where `size` is `nodes`. `arrival`: `eligible` or `submit`. `size`:
    `alloc`, `req` or `nodes`. `unlimited` and `no_limit`: the estimate, in seconds, of jobs of unlimited time and of
    those without a limit. `partitions`: those whose jobs are taken (empty: all). `zero`: second 0 of the log is the
    `first` arrival, or `midnight` before it. `zone`: where times without a zone, and midnight, are of (None: UTC, unsaid).
    """

    procs: int
    arrival: str = "eligible"
    size: str = "alloc"
    unlimited: int = A_YEAR
    no_limit: int = MISSING
    partitions: FrozenSet[str] = frozenset()
    zero: str = "first"
    zone: Optional[tzinfo] = None
    zone_name: str = ""
    delimiter: str = "|"


class Made(NamedTuple):
    """What a dump was made into: a log's comments and its jobs, what was decided, and warnings."""

    comments: List[str]
    jobs: List[Job]
    decided: List[str]
    warned: List[str]

    def write(self, to: BinaryIO) -> None:
        """Writes the log."""
        to.write("".join(f"{it}\n" for it in self.comments).encode("utf-8"))
        for begin in range(0, len(self.jobs), 1000):
            to.write("".join(f"{job_text(it)}\n" for it in self.jobs[begin : begin + 1000]).encode("ascii"))


def _read(dump: Dump, reader: Reader, options: Options, counts: "Counter[str]") -> Tuple[List[Execution], List[str]]:
    """The executions that are taken, and the partitions that were asked for and no row is of."""
    taken: List[Execution] = []
    allowed: Dict[int, bool] = {}
    seen: Set[str] = set()
    left_out: Set[Hashable] = set()
    for row in dump.rows():
        it = reader.read(row)
        if it is None:
            continue
        if options.partitions and it.partition not in allowed:
            names = row.values[dump.columns.need("Partition")].split(",")
            allowed[it.partition] = bool(options.partitions.intersection(names))
            seen.update(names)
        if options.partitions and not allowed[it.partition]:
            left_out.add(identity(it))
        else:
            taken.append(it)
    counts["other partitions"] = len(left_out)
    return taken, sorted(options.partitions - seen)


def _arrival(it: Execution, options: Options, counts: "Counter[str]") -> int:
    arrival = it.submit
    if options.arrival == "eligible":
        counts["no eligible"] += it.eligible is None and it.start is not None
        arrival = it.submit if it.eligible is None else it.eligible
    if it.start is not None and it.start < arrival:
        counts["started early"] += 1
        return it.start
    return arrival


def _estimate(it: Execution, options: Options, counts: "Counter[str]") -> int:
    if is_unlimited(it):
        counts["unlimited"] += 1
        return options.unlimited
    if it.limit is None:
        counts["no limit" if options.no_limit > 0 else "no estimate"] += 1
        return options.no_limit
    return int(it.limit)


def _wants(it: Execution, options: Options) -> Tuple[int, int]:
    """The processors, or nodes, that it asks the simulated machine for, and those that count where these are missing."""
    is_requested = options.size == "req" or it.start is None
    return (it.requested, it.allocated) if is_requested else (it.allocated, it.requested)


def _size(it: Execution, options: Options) -> int:
    """The processors, or nodes, that it takes of the simulated machine."""
    return next((size for size in _wants(it, options) if size > 0), MISSING)


def _count(it: Execution, size: int, estimate: int, options: Options, counts: "Counter[str]") -> None:
    """Counts what is to be said of a job."""
    counts["tasks"] += it.is_array_task
    counts["waiting tasks"] += it.is_waiting_tasks
    counts["parts"] += it.is_part
    counts["suspended"] += bool(it.was_suspended)
    if it.start is None:
        counts["never"] += 1
        counts["guessed"] += it.is_guessed
        counts["pending"] += it.fate in (Fate.PENDING, Fate.RUNNING)
        return
    counts["no size"] += size == MISSING
    counts["long"] += estimate > GREATEST_ESTIMATE
    counts["running"] += it.fate is Fate.RUNNING
    counts["other size"] += _wants(it, options)[0] <= 0 < size
    counts["no run"] += it.run is None
    counts["runs"] += it.run is not None
    counts["suspension unknown"] += it.was_suspended is None
    counts["large"] += size > options.procs
    counts["past limit"] += it.run is not None and 0 < estimate < it.run


def _job(that: Numbered, zero: int, arrival: int, places: _Places, options: Options, counts: "Counter[str]") -> Job:
    it = that.execution
    size, estimate = _size(it, options), _estimate(it, options, counts)
    _count(it, size, estimate, options, counts)
    has_run = it.start is not None
    status = MISSING if it.fate in (Fate.PENDING, Fate.RUNNING) else it.fate.value
    return Job(number=that.number, submit=arrival - zero, wait=it.start - arrival if it.start is not None else MISSING,
               run=it.run if has_run and it.run is not None else MISSING, allocated=it.allocated if has_run else MISSING,
               processors=size, estimate=estimate, status=status, user=places.user[it.user],
               group=places.account[it.account], queue=places.qos[it.qos], partition=places.partition[it.partition])


def _last(it: Execution, arrival: int) -> int:
    """The last second that is told of it."""
    return max(arrival, it.end or 0, (it.start or 0) + (it.run or 0))


_HALF = 1 << 25


def _peak(jobs: List[Numbered], options: Options, zero: int) -> Tuple[int, int]:
    """The most processors in use at a time, and the first second of the log at which they are."""
    # A change is one number, the second above what changes then, since there are two for each of millions of jobs.
    changes: List[int] = []
    for _, it, _ in jobs:
        # One that was suspended held nothing for a part of its time, which no column tells.
        if it.start is not None and it.run is not None and not it.was_suspended:
            size = min(it.allocated if it.allocated > 0 else max(_size(it, options), 0), MOST_PROCESSORS)
            end = max(it.start, it.end if it.end is not None else it.start + it.run)
            changes.append((it.start << 26) + _HALF + size)
            changes.append((end << 26) + _HALF - size)
    changes.sort()
    used, peak, when = 0, 0, zero
    for change in changes:
        used += (change & (2 * _HALF - 1)) - _HALF
        if used > peak:
            peak, when = used, change >> 26
    return peak, when - zero


def _early(jobs: List[Numbered], arrivals: List[int]) -> Optional[Early]:
    """Of the jobs that ran those that arrived far before the others: those before the last gap between arrivals that lies
    within the first tenth of the jobs, is over a day, and is longer than a tenth of the time from the first arrival to the
    last."""
    ordered = sorted(arrival for (_, it, _), arrival in zip(jobs, arrivals) if it.run is not None)
    least = max(A_DAY, (ordered[-1] - ordered[0]) // 10) if ordered else 0
    for place in range(len(ordered) // 10, 0, -1):
        if ordered[place] - ordered[place - 1] > least:
            return Early(place, ordered[0], ordered[place])
    return None


class _Places(NamedTuple):
    """The numbers that users, accounts, partitions and QOS have in the log, by those that they were read with."""

    user: Dict[int, int]
    account: Dict[int, int]
    partition: Dict[int, int]
    qos: Dict[int, int]


def _places(numbered: List[Numbered], reader: Reader) -> Tuple[_Places, List[str]]:
    """These numbers, in the order of the names, and lines that say whose they are."""
    kinds = (("user", reader.users, {it.execution.user for it in numbered}),
             ("group", reader.accounts, {it.execution.account for it in numbered}),
             ("partition", reader.partitions, {it.execution.partition for it in numbered}),
             ("queue", reader.qos, {it.execution.qos for it in numbered}))
    lines: List[str] = []
    places: List[Dict[int, int]] = []
    for kind, names, used in kinds:
        those, place = names.sorted(used)
        places.append(place)
        lines += [f"{kind} {number} is {_shown(name)}" for number, name in enumerate(those, 1)]
    return _Places(*places), lines


def convert(file: BinaryIO, options: Options) -> Made:
    """The log of a dump. Raises `DumpFault` at the first row that can't be taken."""
    if not 1 <= options.procs <= MOST_PROCESSORS:
        raise BadWord(f"the machine has 1 to {MOST_PROCESSORS} processors, not {options.procs}")
    for word, seconds in (("unlimited", options.unlimited), ("no-limit", options.no_limit)):
        if seconds == 0:
            raise BadWord(f"--{word} 0 is no estimate: give a limit of at least a second, such as 7-0 for a week, or leave it "
                          "out")
    clock = Clock(options.zone)
    dump = Dump(file, options.delimiter)
    if options.arrival == "submit":
        dump.columns.need("Submit")
    reader = Reader(dump.columns, clock, options.size == "nodes")
    counts = reader.counts
    executions, unknown_partitions = _read(dump, reader, options, counts)
    if not executions:
        raise DumpFault(1, "no job stands behind it: look at the dates (-S, -E) and users (-a) of the dump, and at --partition")
    numbered = number_all(executions, counts)
    del executions
    if len(numbered) > MOST_JOBS:
        raise DumpFault(1, f"it has {len(numbered)} jobs, and a log at most {MOST_JOBS}: dump a shorter time (-S, -E)")
    arrivals = [_arrival(it.execution, options, counts) for it in numbered]
    first = min(arrivals)
    zero = clock.midnight(first) if options.zero == "midnight" else first
    places, legend = _places(numbered, reader)
    jobs = [_job(it, zero, arrival, places, options, counts) for it, arrival in zip(numbered, arrivals)]
    peak, when = _peak(numbered, options, zero)
    counts["first lines"] = dump.further_first_lines
    lasts = (_last(it.execution, arrival) for it, arrival in zip(numbered, arrivals))
    changes = clock.changes(zero, max(lasts)) if options.zero == "midnight" else []
    facts = Facts(counts, options, clock, len(jobs), zero, peak, when, len({it.partition for it in jobs}),
                  next((it.number for it in numbered if it.legend), None), reader.has_minutes, changes,
                  any(it.group != MISSING for it in jobs), any(it.queue != MISSING for it in jobs), _early(numbered, arrivals),
                  unknown_partitions)
    said, warnings = decided(facts), warned(facts)
    legend += [f"job {it.number} is {_shown(it.legend)}" for it in numbered if it.legend]
    return Made(_comments(facts, said + warnings + legend), jobs, said, warnings)


def _shown(name: str) -> str:
    """A name without bytes that are no UTF-8, and without anything that isn't seen."""
    text = name.encode("utf-8", "surrogateescape").decode("utf-8", "backslashreplace")
    return "".join(it if it.isprintable() else it.encode("unicode_escape").decode("ascii") for it in text)[:1000]


def _comments(facts: Facts, notes: List[str]) -> List[str]:
    options = facts.options
    lines = ["Version: 2.2", "Conversion: python -m easybook sacct", f"MaxJobs: {facts.jobs}", f"MaxProcs: {options.procs}",
             f"UnixStartTime: {facts.zero}"]
    if options.zone_name:
        lines.append(f"TimeZoneString: {_shown(options.zone_name)}")
    return [f"; {it}" for it in lines] + [f"; Note: {_shown(it)}" for it in notes]
