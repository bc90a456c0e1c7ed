"""What is said of a conversion: the choices that it makes of every log, and counts."""

from __future__ import annotations

from collections import Counter
from typing import TYPE_CHECKING, List, NamedTuple, Optional, Tuple

from .values import A_DAY, Clock

if TYPE_CHECKING:
    from .convert import Options


class Early(NamedTuple):
    """Jobs that arrived far before the others: how many, and when the first of them and the first of the others did."""

    jobs: int
    first: int
    others: int


class Facts(NamedTuple):
    """What the notes are made of."""

    counts: "Counter[str]"
    options: "Options"
    clock: Clock
    jobs: int
    zero: int
    peak: int
    when: int
    partitions: int
    first_fresh: Optional[int]
    has_minutes: bool
    changes: List[Tuple[str, str]]
    has_accounts: bool
    has_qos: bool
    early: Optional[Early]
    unknown_partitions: List[str]


_SIZES = {
    "alloc": "processors are those allocated (AllocCPUS); of a job that never started those requested (ReqCPUS)",
    "req": "processors are those requested (ReqCPUS)",
    "nodes": "a processor of this log is a node: those allocated (AllocNodes); of a job that never started those requested",
}
_OTHER_SIZES = {
    "alloc": "{} job{} without processors allocated (a column AllocCPUS): those requested are taken",
    "req": "{} job{} without processors requested (a column ReqCPUS): those allocated are taken",
    "nodes": "{} job{} without nodes allocated (a column AllocNodes): those requested are taken",
}


def _zero(options: "Options") -> str:
    """What second 0 is, and whose the times are."""
    zone = options.zone_name or (str(options.zone) if options.zone else "")
    if options.zero == "midnight":
        of_utc = "midnight is that of UTC (--tz names another zone)"
        whose = f"midnight and times without a zone are of {zone}" if zone else of_utc
        return f"second 0 is midnight before the first arrival; {whose}"
    return "second 0 is the first arrival" + (f"; times without a zone are of {zone}" if zone else "")


def _runs(counts: "Counter[str]") -> str:
    """What run times are."""
    unknown = counts["suspension unknown"]
    if unknown and unknown == counts["runs"]:
        return "run times are End less Start"
    return "run times are without suspension" + (", where the dump tells it" if unknown else "")


def _whose(facts: Facts) -> str:
    """What groups and queues are, where jobs have them."""
    if facts.has_accounts:
        return "; group is the account" + (", queue the QOS" if facts.has_qos else "")
    return "; queue is the QOS" if facts.has_qos else ""


def _choices(facts: Facts) -> List[str]:
    options = facts.options
    eligible = "a job arrives when it is eligible, or submitted where that is missing"
    return [
        _zero(options),
        eligible if options.arrival == "eligible" else "a job arrives when it is submitted",
        _SIZES[options.size],
        f"{_runs(facts.counts)}; estimates are the limits{', in minutes, times 60' if facts.has_minutes else ''}",
        f"field 3 is the wait on the cluster{_whose(facts)}",
    ]


def _counted(counts: "Counter[str]", lines: List[Tuple[str, str]]) -> List[str]:
    return [text.format(counts[name], "" if counts[name] == 1 else "s") for name, text in lines if counts[name]]


def decided(facts: Facts) -> List[str]:
    """The choices, and a line for each kind of row that was treated in a way of its own."""
    options, waiting = facts.options, facts.counts["waiting tasks"]
    fresh = f", under job numbers from {facts.first_fresh} on" if facts.first_fresh is not None else ""
    return _choices(facts) + _counted(facts.counts, [
        ("steps", "{} row{} of steps skipped"),
        ("first lines", "{} further first line{} skipped"),
        ("repeated", "{} row{} that another row tells again skipped"),
        ("other partitions", "{} job{} of other partitions than " + ", ".join(sorted(options.partitions)) + " left out"),
        ("never", "{} job{} that never started: without a run time, and so not simulated"),
        ("pending", "{} of these pending at the dump"),
        ("running", "{} job{} running at the dump: the run time so far is taken"),
        ("requeued", "{} earlier execution{} of requeued or resized jobs kept as jobs of their own" + fresh),
        ("tasks", "{} task{} of arrays, each a job of its own"),
        ("waiting tasks", "{} row{} of an array's waiting tasks counts as one job" if waiting == 1 else
                          "{} row{} of arrays' waiting tasks, each of which counts as one job"),
        ("parts", "{} part{} of heterogeneous jobs, each a job of its own"),
        ("suspended", "{} job{} with times of suspension"),
        ("unlimited", "{} job{} of unlimited time: the estimate is " + f"{options.unlimited} seconds (--unlimited)"),
        ("no limit", "{} job{} without a limit: the estimate is " + f"{options.no_limit} seconds (--no-limit)"),
    ])


def warned(facts: Facts) -> List[str]:
    """Warnings, each with a count."""
    options, clock = facts.options, facts.clock
    clocks: "Counter[str]" = Counter({
        "none": 0 if options.zone_name else clock.without_zone, "folded": clock.folded, "skipped": clock.skipped})
    machine = f"the machine's {options.procs}"
    lines = _counted(facts.counts, [
        ("no estimate", "{} job{} without an estimate: the run time is taken, a perfect estimate (--no-limit gives another)"),
        ("past limit", "{} job{} ran past the limit: the simulation ends them at it"),
        ("long", "{} job{} with a limit over 100000000 seconds: not simulated"),
        ("large", "{} job{} larger than " + machine + ": not simulated (--procs)"),
        ("no size", "{} job{} without a number of processors: not simulated"),
        ("no run", "{} job{} without a run time: not simulated"),
        ("other size", _OTHER_SIZES[options.size]),
        ("suspension unknown", "{} job{} of unknown suspension: the run time is End less Start, with any suspension in it "
                               "(a column ElapsedRaw leaves it out)"),
        ("guessed", "{} cancelled job{} of no run time taken as never started: a column AllocNodes or NodeList would tell"),
        ("no eligible", "{} job{} without a time from which they were eligible (a column Eligible): they arrive when submitted"),
        ("started early", "{} job{} started before they arrived: the start is taken as arrival"),
        ("no number", "{} job{} without a number of their own (a column JobIDRaw): they are numbered from "
                      + f"{facts.first_fresh} on"),
    ]) + _counted(clocks, [
        ("none", "{} time{} without a zone taken as UTC: an hour that the clocks repeat or skip isn't told apart (--tz)"),
        ("folded", "{} time{} of an hour that the clocks repeat: the first is taken (SLURM_TIME_FORMAT=%s tells them apart)"),
        ("skipped", "{} time{} of an hour that the clocks skip: is --tz the cluster's zone?"),
    ])
    for date, begin in facts.changes[:1]:
        again = len(facts.changes) - 1
        more = f" and {again} time{'' if again == 1 else 's'} more" if again else ""
        lines.append(f"the clock changes on {date}{more}: days are of 86400 seconds, so those behind it begin at {begin}")
    if facts.peak > options.procs:
        is_nodes = options.size == "nodes"
        shared = "do jobs share nodes (leave out --size nodes), or " if is_nodes else ""
        lines.append(f"{facts.peak} {'nodes' if is_nodes else 'processors'} in use at second {facts.when}, more than {machine}: "
                     f"{shared}is --procs too small?")
    if facts.early is not None:
        jobs, first, others = facts.early
        lines.append(f"{jobs} job{'' if jobs == 1 else 's'} arrived before {clock.date(others)}, up to "
                     f"{-(-(others - first) // A_DAY)} days before the others; the machine of a simulation starts empty")
    if facts.unknown_partitions:
        several = "" if len(facts.unknown_partitions) == 1 else "s"
        lines.append(f"no row is of the partition{several} {', '.join(facts.unknown_partitions)} (--partition)")
    if facts.partitions > 1 and not options.partitions:
        lines.append(f"{facts.partitions} partitions taken as one machine (--partition chooses)")
    return lines
